"""A console's file: captures that are received, acknowledgements on the wire, and `list`."""
import fcntl
import os
import random
import signal
import socket
import subprocess
import time

from common import ANOTHER_CALL, CLOSED, FORMATTED, MADE, SETTINGS, UNFINISHED, entry, equal, opened

TRAP = bytes.fromhex(
    "306a02010004067075626c6963a45d06092b06010401986f010140040a0000020201060203040102430100303f303d060a2b06010401986f010101042f"
    "00112233445566778899aabbccddeeff000106efed80ffff202010203000005210200000000000ff0001869f0001c1"
)
SEQUENCE = 78  # where its sequence number has its low octet
DONE = entry(b"\x10\x00")


def trap(sequence):
    return TRAP[:SEQUENCE] + bytes([sequence]) + TRAP[SEQUENCE + 1 :]


def ack(sequence):
    """The acknowledgement of that trap: its request's sequence number and checksum go with it."""
    front = bytes.fromhex("81") + bytes([sequence % 64 * 4]) + bytes.fromhex("17") + bytes([sequence]) + bytes.fromhex("0080edef06202030521020")
    frame = bytes.fromhex("0600ff07000000000000000000132010d0") + front
    return frame + bytes([-sum(front) % 256])


def capture(traps, ident=1):
    lines = "".join(f"datagram 127.0.0.1:9 {octets.hex() or '-'}\n" for octets in traps)
    return f"capture {ident:08x} {len(traps)}\n{lines}end\n"


def header(port):
    return bytes([0xA5, 2, 2, 0]) + port.to_bytes(2, "little")


def datagram(octets):
    return entry(b"\x21" + bytes([127, 0, 0, 1, 9, 0]) + octets)


def row(number, sequence):
    return f"{number} 00112233-4455-6677-8899-aabbccddeeff {sequence} 116387200 127.0.0.1:9 262402 10 20 30 521020 c1\n"


def check(make):
    with socket.socket(socket.AF_INET, socket.SOCK_DGRAM) as wire:
        wire.bind(("127.0.0.1", 0))
        wire.settimeout(10)
        port = wire.getsockname()[1]
        received(make, wire, port)
        refused(make)
        killed(make)


def received(make, wire, port):
    """Three traps with two keys and a datagram that is none; what goes out, what is in the file, and its rows."""
    one = make()
    one.write("settings", f"ack_port = {port}\n")
    one.check((0, "ok 0\n", ""), "init-console", "state", "settings")
    equal(one.read("state"), header(port) + b"\x00", "a console's file")
    one.write("capture", capture([trap(1), trap(2), trap(1), b""]))
    lines = "".join(
        f"{word} {number}\nsend 127.0.0.1:{port} {ack(number).hex()} done\n" for word, number in (("row", 1), ("row", 2), ("again", 1))
    )
    one.check((0, f"open 00000001 4\n{lines}refused Truncated 0\nclose\nok 6\n", ""), "receive", "state", "capture")
    for number in (1, 2, 1):
        equal(wire.recv(1000).hex(), ack(number).hex(), "an acknowledgement on the wire")
    whole = header(port) + opened(4) + b"".join(datagram(trap(number)) + DONE for number in (1, 2, 1)) + datagram(b"") + CLOSED + b"\x00"
    equal(one.read("state"), whole, "the file behind the capture")
    one.check((0, "ok 0\n", ""), "receive", "state", "capture")
    equal(one.read("state.plant"), b"", "the plant's file of a console")
    rows = row(1, 1) + row(2, 2) + "ok 2\n"
    one.check((0, rows, ""), "list", "state")
    # with no right to write; beside another call that reads; and not beside one that is at work
    os.unlink(one.folder / "state.plant")
    os.chmod(one.folder / "state", 0o444)
    reader = 65534 if os.getuid() == 0 else None
    with open(one.folder / "state", "rb") as held:
        fcntl.flock(held, fcntl.LOCK_SH)
        one.check((0, rows, ""), "list", "state", user=reader)
    with open(one.folder / "state", "rb") as held:
        fcntl.flock(held, fcntl.LOCK_EX)
        one.cannot(f"state: {ANOTHER_CALL}", "list", "state", user=reader)
    equal(one.read("state"), whole, "the file behind list")
    equal(sorted(os.listdir(one.folder)), ["capture", "script", "settings", "state"], "the files behind list")
    with open("/dev/full", "wb") as full:
        equal(one.run("list", "state", stdout=full), (8, "", "standard output: writing the report: No space left on device (os error 28)\n"), "list to a full disk")


def refused(make):
    """What is said where a file, a text or a word is wrong."""
    one = make()
    one.write("settings", "ack_port = 65536\n")
    expected = "settings: expected a TOML document with no other key than ack_port, a whole number from 0 to 65535\n"
    one.check((4, "settings ack_port\n", expected), "init-console", "state", "settings")
    one.write("settings", SETTINGS)
    one.check((4, "settings unknown\n", expected), "init-console", "state", "settings")
    one.write("settings", "")
    one.check((0, "ok 0\n", ""), "init-console", "state", "settings")
    equal(one.read("state"), header(623) + b"\x00", "a console's file with the default port")
    one.check((11, "formatted\n", FORMATTED), "init-console", "state", "settings")
    one.write("settings", SETTINGS)
    one.check((11, "formatted\n", FORMATTED), "init", "state", "settings")
    one.check((3, "unformatted\n", "state: no header of a controller's state file at octet 0; is it the right file, and was it made by init?\n"), "run", "state", "script")
    expected = "script: expected capture ID COUNT, then COUNT lines datagram ADDRESS OCTETS, then end\n"
    one.check((4, "line 1\n", expected), "receive", "state", "script")
    one.write("state", header(623) + opened(3) + b"\x00")
    one.write("capture", capture([], ident=2))
    one.check((5, "unfinished 00000001 3\n", UNFINISHED), "receive", "state", "capture")
    one.cannot("missing: No such file or directory (os error 2)", "receive", "state", "missing")
    one.cannot("missing: No such file or directory (os error 2)", "list", "missing")
    one.cannot("settings: it is the state file and the settings at once", "init-console", "settings", "settings")
    one.write("capture", capture([]))
    for content, reason in (
        (MADE, "no header of a console's state file at octet 0; is it the right file, and was it made by init-console?"),
        (b"", "no header of a console's state file at octet 0; is it the right file, and was it made by init-console?"),
        (header(623) + CLOSED + b"\x00", "broken at octet 6: the entry there is whole, but unknown or out of order"),
        (header(623) + b"\xa5\xff\xff", "broken at octet 6: no whole entry stands there"),
    ):
        one.write("state", content)
        for words in (("receive", "state", "capture"), ("list", "state")):
            one.check((3, "unformatted\n", f"state: {reason}\n"), *words)
            equal(one.read("state"), content, "a state file that makes no sense")


def killed(make, rounds=100):
    """SIGKILL at random moments: each acknowledgement that came in has its row, and the next call goes on."""
    rng = random.Random(1)
    numbers = range(1, 241)
    with socket.socket(socket.AF_INET, socket.SOCK_DGRAM) as wire:
        wire.bind(("127.0.0.1", 0))
        wire.setblocking(False)
        one = make()
        one.write("settings", f"ack_port = {wire.getsockname()[1]}")
        one.write("capture", capture([trap(number) for number in numbers]))
        for _ in range(rounds):
            one.write("state", b"")
            one.run("init-console", "state", "settings")
            child = subprocess.Popen(one.command("receive", "state", "capture"), cwd=one.folder, stdout=subprocess.DEVNULL)
            time.sleep(rng.uniform(0.0, 0.003))
            child.send_signal(signal.SIGKILL)
            child.wait()
            acked = {frame[20] for frame in arrived(wire)}
            listed = one.run("list", "state")
            equal(listed[0], 0, "the status of list behind a kill")
            rows = {int(line.split()[2]) for line in listed[1].splitlines()[:-1]}
            equal(acked - rows, set(), "acknowledged traps without a row")
            equal(one.run("receive", "state", "capture")[0], 0, "the call behind one that was killed")
            equal(one.run("list", "state"), (0, "".join(row(number, number) for number in numbers) + f"ok {len(numbers)}\n", ""), "the rows at the end")
            arrived(wire)


def arrived(wire):
    """The datagrams that came in so far."""
    frames = []
    while True:
        try:
            frames.append(wire.recv(1000))
        except BlockingIOError:
            return frames
