#!/usr/bin/env bash
# Messages a second of `decode` on one core, beside a loop in C (gcc -O2) that reads the same grammar.
# Its quick mode runs behind the merge gate, which takes no main.rt outside a crate: the program is main.rattle. It proves and builds a copy in a temporary folder, and takes the least processor time of five runs.
# usage: run.sh [--quick]      the quick mode proves nothing, reads few messages, and compares the two sums alone; it runs behind the gate
set -eu
quick=
[ "${1:-}" = --quick ] && quick=yes
messages=20000000
here=$(cd "$(dirname "$0")" && pwd)
top=$(cd "$here/../.." && pwd)
work=$(mktemp -d)
trap 'rm -rf "$work"' EXIT

git init -q "$work"
mkdir -p "$work/crates/bench_trap/src"
cp "$top/HANDLES" "$work/"
"$here/../crates_below" snmp_trap > "$work/crates.txt"
for crate in $(sed 's/[ :].*//' "$work/crates.txt"); do
    (cd "$top" && tar cf - --exclude=out "crates/$crate") | tar xf - -C "$work"
done
echo 'bench_trap: anyhow snmp_trap' >> "$work/crates.txt"
cp "$here/main.rattle" "$work/crates/bench_trap/src/main.rt"
cp "$here/reader.c" "$work/"
cd "$work/crates/bench_trap"

if [ -n "$quick" ]; then
    sed -i 's/20_000_000/20_000/' src/main.rt
    sed -i "s/$messages/20000/" "$work/reader.c"
    gcc -O2 -o "$work/reader" "$work/reader.c"
    rt try > "$work/log" 2>&1 || { cat "$work/log"; exit 1; }
    grep -qx "$("$work/reader")" "$work/log" || { echo "the two sums differ" >&2; cat "$work/log" >&2; exit 1; }
    echo "bench/snmp_trap: both readers say the same of 20,000 messages"
    exit
fi
rt run > "$work/log" 2>&1 || { cat "$work/log"; exit 1; }
gcc -O2 -o "$work/reader" "$work/reader.c"

TIMEFORMAT=%U
least() {
    for _ in 1 2 3 4 5; do
        { time "$1" > "$2"; } 2>&1
    done | sort -n | head -1
}
rattle=$(least "$work/crates/bench_trap/out/bench_trap" "$work/rattle.sum")
c=$(least "$work/reader" "$work/c.sum")
cmp "$work/rattle.sum" "$work/c.sum"
awk -v n="$messages" -v r="$rattle" -v c="$c" 'BEGIN {
    printf "decode  %.2f million messages a second (%s s)\n", n / r / 1e6, r
    printf "C loop  %.2f million messages a second (%s s)\n", n / c / 1e6, c
    printf "ratio   %.2f\n", c / r
}'
