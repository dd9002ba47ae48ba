#!/usr/bin/env bash
# Filters a second of `matches` on one core, beside a plain C loop (gcc -O2) with the same conditions, over a table of sixteen filters: the usual
# case, where the sensor type decides, and the worst, where the last test of event data decides.
# Its quick mode runs behind the merge gate, which takes no main.rt outside a crate: the program is main.rattle. It proves and builds a copy in a temporary folder, and takes the least processor time of five runs.
# usage: run.sh [--quick]      --quick takes a tenth of the events
set -eu
events=20000000
[ "${1:-}" = --quick ] && events=2000000
here=$(cd "$(dirname "$0")" && pwd)
top=$(cd "$here/../.." && pwd)
work=$(mktemp -d)
trap 'rm -rf "$work"' EXIT

git init -q "$work"
mkdir -p "$work/crates/bench_filters/src"
cp "$top/HANDLES" "$work/"
for crate in event_record filter_table; do
    mkdir "$work/crates/$crate"
    for part in src specs proofs; do cp -r "$top/crates/$crate/$part" "$work/crates/$crate/"; done
done
cp "$here/main.rattle" "$work/crates/bench_filters/src/main.rt"
grep -E '^(event_record|filter_table):' "$top/crates.txt" > "$work/crates.txt"
echo 'bench_filters: anyhow event_record filter_table' >> "$work/crates.txt"
(cd "$work/crates/bench_filters" && rt run -- usual 1 > "$work/log" 2>&1) || { cat "$work/log"; exit 1; }
gcc -O2 -o "$work/matcher" "$here/matcher.c"

# in turn, so that what else runs on the machine slows both; the least of five processor times counts
TIMEFORMAT=%U
for case in usual worst; do
    for _ in 1 2 3 4 5; do
        { time "$work/crates/bench_filters/out/bench_filters" "$case" "$events" > "$work/rattle.sum"; } 2>> "$work/$case.rattle"
        { time "$work/matcher" "$case" "$events" > "$work/c.sum"; } 2>> "$work/$case.c"
    done
    rattle=$(sort -n "$work/$case.rattle" | head -1)
    c=$(sort -n "$work/$case.c" | head -1)
    cmp "$work/rattle.sum" "$work/c.sum"
    awk -v k="$case" -v n="$((events * 16))" -v r="$rattle" -v c="$c" 'BEGIN {
        printf "%s: matches %.1f, C loop %.1f million filters a second (%s s, %s s), ratio %.2f\n", k, n / r / 1e6, n / c / 1e6, r, c, c / r
    }'
done
