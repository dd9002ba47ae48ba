#!/usr/bin/env python3
"""How long a console takes for 1,000 traps on an empty ledger, and on one that is nearly full, less what opening its file takes.

It builds nothing: it takes crates/pef_cli/out/pef_cli, which ./demo at the top proves and builds. The files lie in memory, the
acknowledgements go to a port of this machine on which nobody listens, and each trap has a GUID of its own, drawn at random. A ledger
holds 65,536 rows; the ratio is that of the medians.

usage: run.py [--quick]      five rounds of 1,000 traps on 64,536 rows; one of 100 on 1,000 in the quick mode
"""
import pathlib
import random
import statistics
import subprocess
import sys
import tempfile
import time

top = pathlib.Path(__file__).resolve().parents[2]
program = top / "crates/pef_cli/out/pef_cli"
GUID = bytes.fromhex("00112233445566778899aabbccddeeff")
# a fan's trap in its shortest spelling (PET 1.0)
TRAP = bytes.fromhex(
    "306a02010004067075626c6963a45d06092b06010401986f010140040a0000020201060203040102430100"
    "303f303d060a2b06010401986f010101042f00112233445566778899aabbccddeeff"
    "000106efed80ffff202010203000005210200000000000ff0001869f0001c1"
)
some = random.Random(1)


def trap():
    """The trap with another GUID."""
    return TRAP.replace(GUID, bytes(some.randrange(256) for _ in range(16)))


def entry(payload):
    return b"\xa5" + len(payload).to_bytes(2, "little") + payload


def opening_of(number, count):
    return entry(b"\x05" + number.to_bytes(4, "little") + count.to_bytes(4, "little"))


def ledger(rows):
    """A console's file with so many rows, whose last capture has no datagram and is closed."""
    parts = [b"\xa5\x02\x02\x00" + (9).to_bytes(2, "little"), opening_of(0, rows)]
    for _ in range(rows):
        parts += [entry(b"\x21" + bytes([127, 0, 0, 1]) + (162).to_bytes(2, "little") + trap()), entry(b"\x10\x00")]
    return b"".join(parts + [entry(b"\x06"), opening_of(1, 0), entry(b"\x06"), b"\x00"])


def seconds(state, capture, said):
    start = time.perf_counter()
    done = subprocess.run([program, "receive", state, capture], capture_output=True, timeout=120)
    taken = time.perf_counter() - start
    if done.returncode != 0 or not done.stdout.endswith(said):
        sys.exit(f"status {done.returncode}: {done.stdout[-100:]!r} {done.stderr!r}")
    return taken


def round_on(folder, rows, count):
    """The seconds for so many traps more on a ledger of so many rows, less those for opening it."""
    state, capture, closed = folder / "state", folder / "capture", folder / "closed"
    state.write_bytes(ledger(rows))
    closed.write_text("capture 00000001 0\nend\n")
    lines = [f"datagram 127.0.0.1:162 {trap().hex()}" for _ in range(count)]
    capture.write_text("\n".join([f"capture 00000002 {count}"] + lines + ["end"]) + "\n")
    opening = statistics.median(seconds(state, closed, b"ok 0\n") for _ in range(3))
    return opening, seconds(state, capture, f"ok {count + 2}\n".encode()) - opening


def main():
    quick = sys.argv[1:] == ["--quick"]
    rounds, full, count = (1, 1000, 100) if quick else (5, 64536, 1000)
    if not program.exists():
        sys.exit(f"{program} is missing: ./demo at the top proves and builds it")
    assert TRAP.count(GUID) == 1
    with tempfile.TemporaryDirectory(dir="/dev/shm") as name:
        folder = pathlib.Path(name)
        first, last, opened = [], [], []
        for _ in range(rounds):
            first.append(round_on(folder, 0, count)[1])
            opening, taken = round_on(folder, full, count)
            opened.append(opening)
            last.append(taken)
    a, b = statistics.median(first), statistics.median(last)
    print(f"{count} traps on an empty ledger {a:.4f} s, on one of {full} rows {b:.4f} s: ratio {b / a:.2f}")
    print(f"opening {full} rows {statistics.median(opened):.3f} s")


main()
