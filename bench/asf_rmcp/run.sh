#!/usr/bin/env bash
# Frames a second of `Packet::read` and `lan_read` on one core, beside a plain reader in C (gcc -O2) of the same layouts. Both
# make the same table of 128 frames, LAN messages of up to 64 octets of data, pings and pongs, of which every fifth has a changed
# octet; the table hangs on the number of rounds, so that no compiler knows an octet of it, and the readers aren't inlined. Each
# frame is read as a packet and as a message, and the sum of what was read and refused has to be the same.
# Its quick mode runs behind the merge gate, which takes no main.rt outside a crate: the program is main.rattle. It is proved and built in a
# temporary folder, and kept in out/ as long as no source changes. Of five runs of each, in turn, the least
# processor time counts.
# usage: run.sh [--quick]      --quick: a tenth of the frames, in one run each
set -eu
rounds=500000
times=5
if [ "${1:-}" = --quick ]; then
    rounds=50000
    times=1
fi
here=$(cd "$(dirname "$0")" && pwd)
top=$(cd "$here/../.." && pwd)
out=$here/out
work=$(mktemp -d)
trap 'rm -rf "$work"' EXIT

# take CRATE: the crate and those of the repository below it, each with its line of crates.txt
take() {
    if [ -d "$work/crates/$1" ]; then return; fi
    mkdir -p "$work/crates/$1"
    tar -C "$top/crates/$1" --exclude=./out --exclude=./must-fail -cf - . | tar -C "$work/crates/$1" -xf -
    line=$(grep "^$1:" "$top/crates.txt")
    echo "$line" >> "$work/crates.txt"
    local below
    for below in ${line#*:}; do
        if grep -q "^$below:" "$top/crates.txt"; then take "$below"; fi
    done
}

git init -q "$work"
cp "$top/HANDLES" "$work/"
take asf_rmcp
mkdir -p "$work/crates/bench_frames/src"
cp "$here/main.rattle" "$work/crates/bench_frames/src/main.rt"
echo 'bench_frames: anyhow asf_rmcp' >> "$work/crates.txt"
sources=$(cd "$work" && find crates crates.txt -type f -print0 | sort -z | xargs -0 sha256sum | sha256sum)
if [ ! -x "$out/bench_frames" ] || [ "$sources" != "$(cat "$out/sources" 2> /dev/null)" ]; then
    echo "proving and building the program, which takes some minutes" >&2
    (cd "$work/crates/bench_frames" && rt run -- 1 > "$work/log" 2>&1) || { cat "$work/log"; exit 1; }
    mkdir -p "$out"
    cp "$work/crates/bench_frames/out/bench_frames" "$out/"
    echo "$sources" > "$out/sources"
fi
gcc -O2 -o "$work/reader" "$here/reader.c"

# in turn, so that what else runs on the machine slows both
TIMEFORMAT=%U
for ((run = 0; run < times; run++)); do
    { time "$out/bench_frames" "$rounds" > "$work/rattle.sum"; } 2>> "$work/rattle.times"
    { time "$work/reader" "$rounds" > "$work/c.sum"; } 2>> "$work/c.times"
done
rattle=$(sort -n "$work/rattle.times" | head -1)
c=$(sort -n "$work/c.times" | head -1)
cmp "$work/rattle.sum" "$work/c.sum"
awk -v n="$((2 * 128 * rounds))" -v r="$rattle" -v c="$c" 'BEGIN {
    printf "asf_rmcp  %.2f million frames a second (%s s)\n", n / r / 1e6, r
    printf "C reader  %.2f million frames a second (%s s)\n", n / c / 1e6, c
    printf "ratio     %.2f\n", c / r
}'
