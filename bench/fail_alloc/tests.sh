#!/usr/bin/env bash
# Lets each allocation of the test crates/edge_trials/src/calls/memory.rt fail in turn, and shows what the run answered.
# Outside the merge gate. It works on a copy in a temporary folder, with that test alone, and proves nothing. It ends behind the
# last allocation, or with a status other than 0 where a test fails.
# usage: tests.sh [FIRST] [LAST]      the allocations from 1 on; it goes no further than 100
#        tests.sh --quick      the first one alone, so that the script goes on working
set -eu
quick=
if [ "${1:-}" = --quick ]; then
    quick=yes
    set -- 1 1
fi
first=${1:-1}
last=${2:-100}
top=$(cd "$(dirname "$0")/../.." && pwd)
work=$(mktemp -d)
trap 'rm -rf "$work"' EXIT

git init -q "$work"
cp "$top/crates.txt" "$top/HANDLES" "$work/"
(cd "$top" && tar cf - --exclude=out crates) | tar xf - -C "$work"
cd "$work/crates/edge_trials"
sed -i -E '/^mod memory;$/!{/^mod [a-z_]+;$/d}' src/calls.rt
find src/calls -name '*.rt' ! -name memory.rt -delete
# the copy says where its calls begin, and what they answer
sed -i -e 's/rt: &impl Abort/rt: \&(impl Abort + Eprint)/' \
    -e 's/^    let whole = .*/    let _ = eprintln!(rt; "two calls");\n&/' \
    -e 's/^    match status {/    let _ = eprintln!(rt; "status {status}, the board starved {}, the sink starved {}", board.starved(), out.starved());\n&/' \
    src/calls/memory.rt
[ "$(grep -c eprintln src/calls/memory.rt)" = 2 ]

call="status 0, the board starved 0, the sink starved 0"
none="two calls; $call; $call"
for number in $(seq "$first" "$last"); do
    if ! rt try --test --fail-alloc "$number" > "$work/log" 2>&1; then
        cat "$work/log"
        echo "allocation $number: the test fails"
        exit 1
    fi
    said=$(sed -n 's/^    //p' "$work/log" | paste -s -d ';' | sed 's/;/; /g')
    echo "allocation $number: $said"
    if [ "$said" = "$none" ]; then
        echo "allocation $number doesn't come: $((number - 1)) allocations"
        exit 0
    fi
done
[ -n "$quick" ] || echo "there are more than $last allocations"
