#!/usr/bin/env python3
"""What the network forms do on loopback: traps a second with each one on the disk, beside a plain loop in C, and hostile datagrams.

It builds no Rattle: it takes crates/pef_cli/out/pef_cli, which ./demo at the top proves and builds. Its quick mode runs behind the merge gate.

- `listen` gets traps from a sender that waits for the acknowledgement of each one, so nothing may be lost. Of each trap two entries are
  stored, with two syncs each, before the next one comes in; the loop (bench/run/appends.c) makes as many synced appends. The two take
  turns in rounds; the median of their ratios counts. DISK names the folder on the disk, else it is this repository.
- A controller and a console, each a process at a port of its own: an event of the controller's script waits behind the postpone timer,
  and then its alert goes out, is a row, is acknowledged, and the acknowledgement ends the alert, with no hand between.
- A call that waits and gets nothing is to take no processor time but for its seconds.
- Random octets, traps and frames with changed octets come to each form: no call ends by them, each one is reported, the ledger has the
  rows that were reported and no more, a controller's tables are as they were, and memory stays as it was but for rows.

usage: run.py [--quick]      25 rounds of 60 traps, 100,000 hostile datagrams; one of 20 and 1,500 in the quick mode
"""
import os
import pathlib
import random
import socket
import statistics
import subprocess
import sys
import tempfile
import time

top = pathlib.Path(__file__).resolve().parents[2]
program = top / "crates/pef_cli/out/pef_cli"
SECONDS = 30
WINDOW = 64  # hostile datagrams that are out before their lines are read
# a fan's trap (PET 1.0), and where its sequence number begins
TRAP = bytes.fromhex(
    "306a02010004067075626c6963a45d06092b06010401986f010140040a0000020201060203040102430100"
    "303f303d060a2b06010401986f010101042f00112233445566778899aabbccddeeff"
    "000106efed80ffff202010203000005210200000000000ff0001869f0001c1"
)
SEQUENCE = 77
GUID = "00112233-4455-6677-8899-aabbccddeeff"
# the acknowledgement of that trap, and a presence ping
FRAMES = [bytes.fromhex("0600ff07000000000000000000132010d0810417010080edef062020305210200f"), bytes.fromhex("0600ff06000011be80000000")]
some = random.Random(1)


def trap(number):
    return TRAP[:SEQUENCE] + number.to_bytes(2, "big") + TRAP[SEQUENCE + 2 :]


def changed(octets, most=4):
    """The octets with up to so many of them changed, and some cut off or made longer."""
    octets = bytearray(octets)
    for _ in range(some.randint(1, most)):
        octets[some.randrange(len(octets))] = some.randrange(256)
    cut = some.choice([0, 0, 0, 1, some.randrange(len(octets)), -some.randrange(1, 20)])
    return bytes(octets[: len(octets) - cut]) + bytes(max(0, -cut))


def hostile():
    kind = some.randrange(3)
    if kind == 0:
        return some.randbytes(some.randrange(60))
    return changed(TRAP if kind == 1 else some.choice(FRAMES))


def check(holds, what):
    if not holds:
        sys.exit(what)


def free_port():
    with socket.socket(socket.AF_INET, socket.SOCK_DGRAM) as probe:
        probe.bind(("127.0.0.1", 0))
        return probe.getsockname()[1]


def is_bound(port):
    lines = pathlib.Path("/proc/net/udp").read_text().splitlines()[1:]
    return any(line.split()[1] == f"0100007F:{port:04X}" for line in lines)


class Waiting:
    """A call over a feed at a free port of 127.0.0.1, whose report is read line by line."""

    def __init__(self, form, state, port=None):
        self.at = ("127.0.0.1", port or free_port())
        words = [program, form, state, f"127.0.0.1:{self.at[1]}", "1000000000"]
        self.child = subprocess.Popen(words, stdin=subprocess.DEVNULL, stdout=subprocess.PIPE, text=True)
        end = time.monotonic() + SECONDS
        while not is_bound(self.at[1]):
            check(self.child.poll() is None and time.monotonic() < end, f"{form} takes no port")
            time.sleep(0.001)

    def line(self):
        return self.child.stdout.readline()

    def memory(self):
        """The greatest memory that it had so far, in KiB."""
        status = pathlib.Path(f"/proc/{self.child.pid}/status").read_text()
        return next(int(line.split()[1]) for line in status.splitlines() if line.startswith("VmHWM:"))

    def processor(self):
        """The seconds of processor time that it took so far."""
        fields = pathlib.Path(f"/proc/{self.child.pid}/stat").read_text().rsplit(")", 1)[1].split()
        return (int(fields[11]) + int(fields[12])) / os.sysconf("SC_CLK_TCK")

    def end(self):
        self.child.kill()
        self.child.communicate()


def console(folder, port):
    """A new ledger whose acknowledgements go to this port."""
    settings, state = folder / "settings", folder / "ledger"
    settings.write_text(f"ack_port = {port}\n")
    state.write_bytes(b"")
    made = subprocess.run([program, "init-console", state, settings], capture_output=True, check=True)
    check(made.stdout == b"ok 0\n", "a console's file isn't made")
    return state


def rows_of(state):
    listed = subprocess.run([program, "list", state], capture_output=True, text=True)
    check(listed.returncode == 0, f"list ends with {listed.returncode}")
    return listed.stdout.splitlines()[:-1]


def trap_round(folder, count):
    """The seconds for so many traps, each of which is sent when the one before it is acknowledged."""
    with socket.socket(socket.AF_INET, socket.SOCK_DGRAM) as wire:
        wire.bind(("127.0.0.1", 0))
        wire.settimeout(SECONDS)
        state = console(folder, wire.getsockname()[1])
        call = Waiting("listen", state)
        start = time.perf_counter()
        for number in range(1, count + 1):
            wire.sendto(trap(number), call.at)
            frame = wire.recv(1000)
            check(frame[20:22] == number.to_bytes(2, "little"), f"trap {number} is acknowledged by {frame.hex()}")
        took = time.perf_counter() - start
        call.end()
    check([int(row.split()[2]) for row in rows_of(state)] == list(range(1, count + 1)), "the ledger hasn't each trap")
    return took


def rate(folder, loop, rounds, count):
    ratios, rates = [], []
    for _ in range(rounds):
        took = trap_round(folder, count)
        plain = float(subprocess.run([loop, folder / "appended", str(2 * count)], capture_output=True, check=True).stdout)
        ratios.append(plain / took)
        rates.append((count / took, count / plain))
    here, plain = (statistics.median(column) for column in zip(*rates))
    ratio = statistics.median(ratios)
    print(f"listen, {rounds} rounds of {count} traps on disk: {here:.0f} a second, the loop in C {plain:.0f}, ratio {ratio:.2f}, none lost")


def idle(folder, seconds):
    call = Waiting("listen", console(folder, 9))
    time.sleep(0.2)
    before = call.processor()
    time.sleep(seconds)
    took = call.processor() - before
    call.end()
    print(f"listen, idle for {seconds} s: {took:.2f} s of processor time")


def attack(call, count, hear):
    """Hostile datagrams, whose lines `hear` reads one after the other: the memory behind a tenth of them, and at the end."""
    before = None
    with socket.socket(socket.AF_INET, socket.SOCK_DGRAM) as wire:
        for first in range(0, count, WINDOW):
            if before is None and first >= count // 10:
                before = call.memory()
            size = min(WINDOW, count - first)
            for _ in range(size):
                wire.sendto(hostile(), call.at)
            for _ in range(size):
                hear()
    after = call.memory()
    check(call.child.poll() is None, "the call ended")
    call.end()
    return before, after


def attack_console(folder, count):
    """On a console that has a row: what its report says of each, and whether its ledger has the rows of the report."""
    state = console(folder, free_port())
    call = Waiting("listen", state)
    said = {"row": 0, "again": 0, "refused": 0}

    def hear():
        word = call.line().split(" ", 1)[0]
        check(word in said, f"a report line begins with {word!r}")
        said[word] += 1
        check(word == "refused" or call.line().startswith("send "), "a trap isn't acknowledged")

    with socket.socket(socket.AF_INET, socket.SOCK_DGRAM) as wire:
        wire.sendto(TRAP, call.at)
    hear()
    before, after = attack(call, count, hear)
    check(len(rows_of(state)) == said["row"], "the ledger hasn't the rows of the report")
    print(
        f"listen, {count} hostile datagrams: {said['refused']} refused, {said['row'] - 1} changed traps are rows, {said['again']} came again;"
        f" memory {before} KiB behind a tenth of them, {after} KiB at the end"
    )


def attack_controller(folder, count):
    """On a controller whose alert waits: each is a frame that asks for nothing, a ping, or an acknowledgement, and the tables stay."""
    state = controller(folder, free_port())
    tables = tables_of(folder, state, 2)
    call = Waiting("live", state)
    said = {"frame none\n": 0, "frame ping\n": 0, "frame command\n": 0}

    def hear():
        line = call.line()
        while line == "tick\n" or line.startswith("send "):
            line = call.line()
        check(line in said, f"a report line is {line!r}")
        said[line] += 1

    before, after = attack(call, count, hear)
    check(tables_of(folder, state, 3) == tables, "the tables have changed")
    none, pings, commands = said.values()
    print(
        f"live, {count} hostile datagrams: {none} ask for nothing, {pings} are pings, {commands} acknowledgements;"
        f" memory {before} KiB behind a tenth of them, {after} KiB at the end"
    )


def tables_of(folder, state, number):
    """The filter, the policy entry, the destination and the GUID of a controller."""
    script = folder / "reads"
    reads = ["cmd 04 13 060100", "cmd 04 13 090100", "cmd 0c 02 01120100", "cmd 0c 02 01130100", "cmd 04 13 0a0000"]
    script.write_text("\n".join([f"script {number:08x} {len(reads)}", *reads, "end"]) + "\n")
    done = subprocess.run([program, "run", state, script], capture_output=True, text=True)
    check(done.returncode == 0, f"run ends with {done.returncode}")
    replies = [line for line in done.stdout.splitlines() if line.startswith("reply ")]
    check(len(replies) == len(reads), f"run says {done.stdout!r}")
    return replies


TABLES = """\
cmd 04 12 060180010110ffff04ff010400000000000000000000
cmd 04 12 0901181100
cmd 0c 01 011201800502
cmd 0c 01 01130100007f000001000000000000
cmd 04 11 01
event 01000200ca9a3b200004043001521020
"""


def controller(folder, port):
    """A controller whose traps go to this port, which holds an event for a second."""
    settings, state, script = folder / "board.toml", folder / "board", folder / "script"
    settings.write_text(f'guid = "{GUID}"\nagent = "127.0.0.1"\npet_port = {port}\n')
    script.write_text(f"script 00000001 6\n{TABLES}end\n")
    state.write_bytes(b"")
    for words, last in ((("init", state, settings), "ok 0"), (("run", state, script), "ok 8")):
        done = subprocess.run([program, *words], capture_output=True, text=True)
        check(done.stdout.splitlines()[-1:] == [last], f"{words[0]} says {done.stdout!r}")
    return state


def end_to_end(folder):
    """An alert from its event to its acknowledgement between two processes: what the two reports say."""
    at = free_port()
    ledger = console(folder, at)
    listens = Waiting("listen", ledger)
    lives = Waiting("live", controller(folder, listens.at[1]), at)
    start = time.perf_counter()
    lines = []
    while not lines or not lines[-1].startswith("frame "):
        lines.append(lives.line())
        check(lines[-1] != "" and len(lines) < 20, f"live says {lines}")
    took = time.perf_counter() - start
    lines.append(lives.line())
    kinds = [line.split(" ", 1)[0].strip() for line in lines]
    check(kinds.count("send") == 2 and kinds[-3:] == ["send", "frame", "send"], f"live says {lines}")
    check(lines[-2] == "frame command\n", f"live says {lines}")
    heard = [listens.line(), listens.line()]
    check(heard[0] == "row 1\n" and heard[1].startswith(f"send 127.0.0.1:{at} "), f"listen says {heard}")
    # the alert is over: its retries, 6 seconds apart, are not sent
    later = [lives.line() for _ in range(8)]
    check(later == ["tick\n"] * 8, f"live says {later}")
    lives.end()
    listens.end()
    check(len(rows_of(ledger)) == 1, "the ledger hasn't the alert")
    print(f"an alert between two processes, held for a second by its timer: a row, and acknowledged, {took:.2f} s after live began")


def main():
    quick = sys.argv[1:] == ["--quick"]
    rounds, count, seconds, attacks = (1, 20, 1, 1500) if quick else (25, 60, 10, 100_000)
    check(program.exists(), f"{program} is missing: ./demo at the top proves and builds it")
    with tempfile.TemporaryDirectory(dir="/dev/shm") as memory, tempfile.TemporaryDirectory(prefix="bench-", dir=os.environ.get("DISK", top)) as disk:
        memory, disk = pathlib.Path(memory), pathlib.Path(disk)
        loop = memory / "appends"
        subprocess.run(["/bin/gcc", "-O2", "-o", loop, top / "bench/run/appends.c"], check=True)
        end_to_end(memory)
        rate(disk, loop, rounds, count)
        idle(memory, seconds)
        attack_console(memory, attacks)
        attack_controller(memory, attacks)


main()
