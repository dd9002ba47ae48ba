#!/usr/bin/env bash
# How fast `run` stores entries, beside a plain C loop that makes as many synced appends, and how fast it opens a state file.
# Its quick mode runs behind the merge gate. It builds no Rattle: it takes crates/pef_cli/out/pef_cli, which ./demo at the top proves and builds.
# The two take turns in rounds, short ones on the disk, whose pace swings; the medians of the rounds count, and the median of their
# ratios. Times are of whole processes, but of the C loop alone; entries are counted by the report's lines, less the last.
# usage: run.sh [DISK_ENTRIES] [MEMORY_ENTRIES]      so many in a round; DISK names the folder on the disk, else it is this repository
#        run.sh --quick      one short round of each, whose figures say nothing: it runs behind the gate, so that the script goes on working
set -eu
disk_rounds=25
memory_rounds=9
length=2097152
if [ "${1:-}" = --quick ]; then
    set -- 30 3000
    disk_rounds=1
    memory_rounds=1
    length=65536
fi
on_disk=${1:-300}
in_memory=${2:-300000}
here=$(cd "$(dirname "$0")" && pwd)
top=$(cd "$here/../.." && pwd)
program=$top/crates/pef_cli/out/pef_cli
[ -x "$program" ] || { echo "$program is missing: ./demo at the top proves and builds it" >&2; exit 1; }
disk=$(mktemp -d "${DISK:-$top}/bench-XXXXXX")
memory=$(mktemp -d /dev/shm/bench-XXXXXX)
trap 'rm -rf "$disk" "$memory"' EXIT
/bin/gcc -O2 -o "$memory/appends" "$here/appends.c"

# make_script FILE COUNT: events whose IDs go from 1 to 1,000 again and again, for which the filter asks no action
make_script() {
    awk -v n="$2" 'BEGIN {
        printf "script 00000001 %d\n", n
        for (i = 0; i < n; i++) { id = i % 1000 + 1; printf "event %02x%02x0200ca9a3b200004043001531020\n", id % 256, int(id / 256) }
        print "end"
    }' > "$1"
}

# make_alerts FILE COUNT: up to 1,000 events with an ID each, for which the filter asks for an alert that goes to a port of this machine
make_alerts() {
    awk -v n="$2" 'BEGIN {
        if (n > 1000) n = 1000
        printf "script 00000001 %d\n", n + 4
        print "cmd 04 12 060180010110ffff04ff010400000000000000000000"
        print "cmd 04 12 0901181100"
        print "cmd 0c 01 011201000000"
        print "cmd 0c 01 01130100007f000001000000000000"
        for (i = 1; i <= n; i++) printf "event %02x%02x0200ca9a3b200004043001521020\n", i % 256, int(i / 256)
        print "end"
    }' > "$1"
}

# make_state FILE OCTETS KIND: a state file of about so many octets, whose entries open and close a script of no event and then are
# events that the filter asks no action for, under one ID (`one`), or under IDs from 1 to 1,000 again and again (`many`); or of each four
# entries a command that writes a parameter, one that reads one, such an event, and an event that the filter asks an action for, with its
# outcome the first time (`mixed`)
make_state() {
    python3 - "$@" <<'PYTHON'
import sys
path, octets, kind = sys.argv[1], int(sys.argv[2]), sys.argv[3]
settings = bytes(26) + bytes([162, 0, 162, 0, 162, 0, 1, 63, 0]) + bytes.fromhex("80200010ffff04ff010400000000000000000000")
def entry(payload):
    return b"\xa5" + len(payload).to_bytes(2, "little") + payload
parts = [b"\xa5\x01\x37\x00" + settings, entry(b"\x05" + bytes(8)), entry(b"\x06")]
def event(number, data):
    return entry(b"\x01" + number.to_bytes(2, "little") + bytes.fromhex("0200ca9a3b2000040430") + bytes([1, data, 0x10, 0x20]))
def mixed():
    for i in range(octets):
        yield [entry(bytes.fromhex("020412023f"))]
        yield [entry(bytes.fromhex("020413050000"))]
        yield [event(i % 1000 + 1, 0x53)]
        yield [event(2000 + i % 24, 0x52)] + ([entry(b"\x10\x00")] if i < 24 else [])
if kind == "mixed":
    size = sum(map(len, parts))
    for some in mixed():
        size += sum(map(len, some))
        if size >= octets:
            break
        parts += some
else:
    for i in range((octets - 75) // 20):
        parts.append(event(1 if kind == "one" else i % 1000 + 1, 0x53))
open(path, "wb").write(b"".join(parts) + b"\x00")
print(len(parts) - 1)
PYTHON
}

# seconds COMMAND..: how long it takes; its output goes to the file `out` in memory
seconds() {
    local start end
    start=$(date +%s%N)
    "$@" > "$memory/out"
    end=$(date +%s%N)
    awk -v a="$start" -v b="$end" 'BEGIN { printf "%.6f\n", (b - a) / 1e9 }'
}

cat > "$memory/settings" <<'TOML'
guid = "00112233-4455-6677-8899-aabbccddeeff"
agent = "10.0.0.2"
filter = "80200010ffff04ff010400000000000000000000"
TOML

# median: the one in the middle of the numbers of the lines
median() {
    sort -n | awk '{ line[NR] = $1 } END { print line[int((NR + 1) / 2)] }'
}

# store NAME FOLDER COUNT ROUNDS MAKE: of a script that MAKE makes, of so many events
store() {
    local name=$1 folder=$2 count=$3 rounds=$4 make=$5 entries
    "$make" "$memory/script" "$count"
    : > "$memory/runs"
    : > "$memory/loops"
    for _ in $(seq 1 "$rounds"); do
        rm -f "$folder/state" "$folder/appended"
        "$program" init "$folder/state" "$memory/settings" > /dev/null
        seconds "$program" run "$folder/state" "$memory/script" >> "$memory/runs"
        entries=$(($(wc -l < "$memory/out") - 1))
        grep -q '^ok [0-9]*$' "$memory/out"
        "$memory/appends" "$folder/appended" "$entries" >> "$memory/loops"
    done
    awk -v name="$name" -v rounds="$rounds" -v n="$entries" -v t="$(median < "$memory/runs")" -v c="$(median < "$memory/loops")" \
        -v ratio="$(paste "$memory/loops" "$memory/runs" | awk '{ print $1 / $2 }' | median)" 'BEGIN {
        printf "%-18s %3d rounds of %6d entries   run %8.0f a second   C loop %8.0f a second   ratio %.2f\n", name, rounds, n, n / t, n / c, ratio
    }'
}

store "on disk" "$disk" "$on_disk" "$disk_rounds" make_script
store "in memory" "$memory" "$in_memory" "$memory_rounds" make_script

# of each alert two entries are stored, its event and the outcome of its trap, with a datagram between them
store "alerts, on disk" "$disk" "$on_disk" "$disk_rounds" make_alerts
store "alerts, in memory" "$memory" "$in_memory" "$memory_rounds" make_alerts

# opening NAME OCTETS KIND: each call opens the file, finds its script closed, and stores nothing
printf 'script 00000000 0\nend\n' > "$memory/closed"
opening() {
    local entries took
    entries=$(make_state "$memory/opened" "$2" "$3")
    took=$(for _ in 1 2 3 4 5; do seconds "$program" run "$memory/opened" "$memory/closed"; done | median)
    [ "$(cat "$memory/out")" = "ok 0" ]
    awk -v name="$1" -v n="$entries" -v t="$took" 'BEGIN { printf "%-24s %7d entries   %.4f s %9.0f a second\n", name, n, t, n / t }'
}

for octets in "$length" $((2 * length)); do
    opening "open $((octets / 1024)) KiB, one ID" "$octets" one
    opening "open $((octets / 1024)) KiB, 1,000 IDs" "$octets" many
done
for octets in $((4 * length)) $((8 * length)); do
    opening "open $((octets / 1024)) KiB, mixed" "$octets" mixed
done
