#!/usr/bin/env python3
"""Kills the proved program at random moments, and checks what is left of its files.

It builds nothing: it takes crates/pef_cli/out/pef_cli, which ./demo at the top proves and builds. Its quick mode, 60 kills of a
program whose files lie in memory, runs behind the merge gate.
A script of a few hundred events, each of which asks for an action, is run on a state file again and again until a run ends
with status 0; each run but the last is ended by SIGKILL after a random time. Then it begins anew, until there are enough
kills. After each kill and at each end the files are checked by the model below, which knows nothing of the program's code:

- the entries of the state file are a prefix of those of a run without a crash;
- behind the steps of the earlier calls, the plant's lines are those that these entries prescribe, one for each outcome that is
  stored, and the one whose outcome is missing where it was issued;
- in all they are those prescribed, with at most one repeat for each kill, right beside its twin.

A kill may fall behind the line `ok N` too, before the process has ended.

usage: run.py [--quick] [KILLS] [SEED]      300 kills, 60 in the quick mode, and a seed of the clock, where they aren't named
       TMPDIR names the folder of the files, but in the quick mode, whose files lie in /dev/shm
"""
import pathlib
import random
import subprocess
import sys
import tempfile
import time

EVENTS = 200
FILTER = bytes.fromhex("80200010ffff04ff010400000000000000000000")
GUID = "00112233445566778899aabbccddeeff"
# system GUID, agent address, manufacturer ID, system ID, three ports, PEF control, actions, startup delay
DEFAULTS = bytes.fromhex(GUID) + bytes([10, 0, 0, 2]) + bytes(6) + bytes([162, 0, 162, 0, 162, 0, 1, 63, 0])
SETTINGS = DEFAULTS + FILTER
OPEN = 0xA5

top = pathlib.Path(__file__).resolve().parents[2]
program = top / "crates/pef_cli/out/pef_cli"


class Wrong(Exception):
    """The files don't fit the model."""


def check(wanted, what):
    if not wanted:
        raise Wrong(what)


def record(number):
    """A fan's event with this ID, for which the filter asks an action."""
    return number.to_bytes(2, "little") + bytes.fromhex("0200ca9a3b200004043001521020")


def entries_of(octets):
    """The entries of a state file, up to the first gate that isn't open."""
    head = bytes([OPEN, 1]) + len(SETTINGS).to_bytes(2, "little") + SETTINGS
    check(octets.startswith(head), "the file isn't one of these settings")
    place, entries = len(head), []
    while True:
        check(place < len(octets), f"no gate at {place}")
        if octets[place] != OPEN:
            return entries
        length = int.from_bytes(octets[place + 1 : place + 3], "little")
        check(1 <= length <= 520 and place + 3 + length < len(octets), f"no entry at {place}")
        entries.append(octets[place + 3 : place + 3 + length])
        place += 3 + length


def run_without_a_crash():
    """All entries of the script, one behind the other."""
    entries = [b"\x05" + (1).to_bytes(4, "little") + EVENTS.to_bytes(4, "little")]
    for number in range(1, EVENTS + 1):
        entries += [b"\x01" + record(number), b"\x10\x00"]
    return entries + [b"\x06"]


def said_by(entry, number):
    """The report's line of an entry; an outcome is that of the record with this ID."""
    return {
        0x05: f"open 00000001 {EVENTS}\n",
        0x01: f"event {int.from_bytes(entry[1:3], 'little'):04x}\n",
        0x10: f"act diagnostic {number:04x} done\n",
        0x06: "close\n",
    }[entry[0]]


WHOLE = run_without_a_crash()


def lines_of(plant):
    """The records of the plant's whole lines."""
    if not plant.exists():
        return []
    text = plant.read_text()
    check(text == "" or text.endswith("\n"), "a line of the plant is cut off")
    lines = [line.split(" ") for line in text.splitlines()]
    check(all(len(words) == 2 and words[0] == "diagnostic" for words in lines), "a line of the plant is none")
    return [int(words[1], 16) for words in lines]


def check_files(work, kills, earlier):
    """Checks both files behind a call. Answers how many entries and repeats there are, and the steps."""
    entries = entries_of((work / "state").read_bytes())
    check(entries == WHOLE[: len(entries)], "the entries are no prefix of those of a run without a crash")
    events = sum(entry[0] == 0x01 for entry in entries)
    outcomes = sum(entry[0] == 0x10 for entry in entries)
    steps = lines_of(work / "state.plant")
    check(steps[: len(earlier)] == earlier, "an earlier step is gone")
    once = [step for place, step in enumerate(steps) if place == 0 or steps[place - 1] != step]
    check(once == list(range(1, len(once) + 1)), "a step is missing or out of its order")
    # those told of, and at most the one that is due
    check(outcomes <= len(once) <= events, "the steps aren't those that the entries prescribe")
    repeats = len(steps) - len(once)
    check(repeats <= kills, "there are more repeats than kills")
    check(len(steps) - len(earlier) <= len(once) - len(set(earlier)) + 1, "a call repeated more than one step")
    return len(entries), repeats, steps


def octets_of(work):
    """The octets of both files."""
    return [path.read_bytes() if path.exists() else b"" for path in (work / "state", work / "state.plant")]


def call(work, seconds):
    """Runs the script, and kills the program where it still runs after so many seconds. Answers its status and its output."""
    child = subprocess.Popen([program, "run", "state", "script"], cwd=work, stdout=subprocess.PIPE, stderr=subprocess.DEVNULL)
    if seconds is not None:
        end = time.perf_counter() + seconds
        while time.perf_counter() < end and child.poll() is None:
            pass
        child.kill()  # this child alone, and nothing where it has ended
    out = child.stdout.read().decode()
    child.stdout.close()
    return child.wait(), out


def check_report(out, status, before, after):
    """Behind `before` entries a call says a line for each one that it stored, and at status 0 the last line."""
    said = []
    number = sum(entry[0] == 0x01 for entry in WHOLE[:before])
    for entry in WHOLE[before:after]:
        number += entry[0] == 0x01
        said.append(said_by(entry, number))
    items = sum(entry[0] != 0x10 for entry in WHOLE[before:after])
    whole = "".join(said) + f"ok {items}\n"
    if status == 0:
        allowed = [whole]
    else:
        # the last entry may be on the disk and its line not said
        allowed = ["".join(said), "".join(said[:-1])]
        # or all was done and said, and the process hadn't ended
        allowed += [whole] if after == len(WHOLE) else []
    check(out in allowed, "the report isn't that of the entries stored")


def main():
    quick = "--quick" in sys.argv
    numbers = [int(word) for word in sys.argv[1:] if word != "--quick"]
    wanted = numbers[0] if numbers else 60 if quick else 300
    seed = numbers[1] if len(numbers) > 1 else time.time_ns() % 1_000_000
    if not program.exists():
        sys.exit(f"{program} is missing: ./demo at the top proves and builds it")
    rng = random.Random(seed)
    print(f"seed {seed}, {EVENTS} events a script, {len(WHOLE)} entries")
    count = dict.fromkeys(("kills", "before", "middle", "repeats", "runs", "calls", "entries"), 0)
    finals = {}
    with tempfile.TemporaryDirectory(dir="/dev/shm" if quick else None) as folder:
        whole = min(measure(begin(folder, f"measured{number}")) for number in range(3))
        print(f"a run without a kill takes {whole * 1000:.1f} ms")
        while count["kills"] < wanted:
            count["runs"] += 1
            work = begin(folder, f"run{count['runs']}")
            entries, kills, steps, repeats, status = 0, 0, [], 0, None
            while status != 0:
                # one in eight within the first two thousandths of a second, so that some fall before the call's first write
                # in memory a run takes little more than the start of a process
                longest = 2_000 if rng.random() < 0.125 else max(int(whole * 250_000), 3_000)
                seconds = rng.randint(0, longest) / 1e6 if count["kills"] < wanted else None
                before, octets = entries, octets_of(work)
                status, out = call(work, seconds)
                count["calls"] += 1
                if status == -9:
                    kills += 1
                    count["kills"] += 1
                else:
                    check(status == 0, f"a call ended with status {status}")
                entries, repeats, steps = check_files(work, kills, steps)
                check(entries >= before, "an entry is gone")
                check_report(out, status, before, entries)
                if status == -9:
                    count["before" if octets_of(work) == octets else "middle"] += 1
                else:
                    finals[status] = finals.get(status, 0) + 1
            check(entries == len(WHOLE), "the last call left entries out")
            check(len(set(steps)) == EVENTS, "a step was skipped")
            count["repeats"] += repeats
            count["entries"] += entries
    print(f"kills               {count['kills']}")
    print(f"  before a write    {count['before']}")
    print(f"  in the middle     {count['middle']}")
    print(f"calls               {count['calls']}")
    print(f"runs to the end     {count['runs']}")
    print(f"entries             {count['entries']}")
    print(f"repeats             {count['repeats']}")
    print("final statuses      " + ", ".join(f"{number} times {status}" for status, number in sorted(finals.items())))
    print("every end was allowed")


def measure(work):
    """How many seconds a run without a kill takes."""
    start = time.perf_counter()
    status, out = call(work, None)
    seconds = time.perf_counter() - start
    check(status == 0, f"a run without a kill ended with status {status}")
    check_report(out, 0, 0, check_files(work, 0, [])[0])
    return seconds


def begin(folder, name):
    """A new folder with a state file and the script."""
    work = pathlib.Path(folder) / name
    work.mkdir()
    (work / "settings").write_text(f'guid = "{GUID}"\nagent = "10.0.0.2"\nfilter = "{FILTER.hex()}"\n')
    events = "".join(f"event {record(number).hex()}\n" for number in range(1, EVENTS + 1))
    (work / "script").write_text(f"script 00000001 {EVENTS}\n{events}end\n")
    subprocess.run([program, "init", "state", "settings"], cwd=work, check=True, stdout=subprocess.DEVNULL)
    return work


try:
    main()
except Wrong as wrong:
    sys.exit(f"not allowed: {wrong}")
