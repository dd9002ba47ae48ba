"""Both roles on loopback: what they answer on the wire, and from where; their address, their lock, kills, and a receive that fails."""
import ctypes
import os
import pathlib
import platform
import random
import signal
import socket
import struct
import subprocess
import time

import alerts
from common import ANOTHER_CALL, UNFINISHED, Wrong, equal, opened
from console import DONE, ack, arrived, header, trap
from console import entry as entry_of

SECONDS = 20


def check(make):
    with socket.socket(socket.AF_INET, socket.SOCK_DGRAM) as wire:
        wire.bind(("127.0.0.1", 0))
        wire.settimeout(SECONDS)
        one = console(make, wire.getsockname()[1])
        heard(one, wire)
        failing(one, wire)
        refused(one)
        killed(one, wire)
        answered(make)


def console(make, port):
    """A console whose acknowledgements go to this port."""
    one = make()
    one.write("settings", f"ack_port = {port}\n")
    one.check((0, "ok 0\n", ""), "init-console", "state", "settings")
    return one


def free_port():
    with socket.socket(socket.AF_INET, socket.SOCK_DGRAM) as probe:
        probe.bind(("127.0.0.1", 0))
        return probe.getsockname()[1]


def is_bound(port):
    """Whether a socket of this system has this port at 127.0.0.1."""
    lines = pathlib.Path("/proc/net/udp").read_text().splitlines()[1:]
    return any(line.split()[1] == f"0100007F:{port:04X}" for line in lines)


class Listening:
    """A call of `listen` at a free port of 127.0.0.1, which waits for so many arrivals."""

    def __init__(self, one, arrivals, form="listen", begin=None):
        self.port = free_port()
        self.child = subprocess.Popen(
            one.command(form, "state", f"127.0.0.1:{self.port}", str(arrivals)),
            cwd=one.folder,
            stdin=subprocess.DEVNULL,
            stdout=subprocess.PIPE,
            stderr=subprocess.PIPE,
            preexec_fn=begin,
        )
        end = time.monotonic() + SECONDS
        while not is_bound(self.port) and self.child.poll() is None:
            if time.monotonic() > end:
                raise Wrong(f"{form} takes no port")
            time.sleep(0.001)

    @property
    def at(self):
        return ("127.0.0.1", self.port)

    def ended(self):
        """Its status, what it wrote, and what it said on standard error."""
        out, err = self.child.communicate(timeout=SECONDS)
        return self.child.returncode, out.decode(), err.decode()


def datagram(wire, octets):
    """The entry of a datagram from this socket."""
    return entry_of(b"\x21" + bytes([127, 0, 0, 1]) + wire.getsockname()[1].to_bytes(2, "little") + octets)


def send_lines(wire, word, number):
    return f"{word} {number}\nsend 127.0.0.1:{wire.getsockname()[1]} {ack(number).hex()} done\n"


def heard(one, wire):
    """Traps and others come in; each trap is acknowledged, from another socket than the one that listens."""
    port = wire.getsockname()[1]
    call = Listening(one, 5)
    with open(f"/proc/{call.child.pid}/net/udp") as sockets:
        addresses = [line.split()[1] for line in sockets if f":{call.port:04X} " in line]
    equal(addresses, [f"0100007F:{call.port:04X}"], "the addresses that listen takes")
    for number in (1, 2, 1):
        wire.sendto(trap(number), call.at)
        octets, sender = wire.recvfrom(1000)
        equal(octets.hex(), ack(number).hex(), "an acknowledgement on the wire")
        equal(sender[1] != call.port, True, "it comes from a socket of its own")
    closed_on_exec(call.child.pid)
    one.cannot(f"state: {ANOTHER_CALL}", "list", "state")
    one.cannot(f"127.0.0.1:{call.port}: Address already in use (os error 98)", "listen", "state", f"127.0.0.1:{call.port}", "1")
    # seconds are arrivals too, so the call may end by them
    status, out, err = call.ended()
    said = "".join(send_lines(wire, word, number) for word, number in (("row", 1), ("row", 2), ("again", 1)))
    equal((status, out, err), (0, f"{said}ok 3\n", ""), "what listen says")
    whole = header(port) + b"".join(datagram(wire, trap(number)) + DONE for number in (1, 2, 1)) + b"\x00"
    equal(one.read("state"), whole, "the file behind listen")
    equal(one.read("state.plant"), b"", "the plant's file of a console that listens")
    # seconds alone
    begin = time.monotonic()
    one.check((0, "ok 0\n", ""), "listen", "state", "127.0.0.1:0", "2")
    equal(1.9 < time.monotonic() - begin < 10, True, "two arrivals are two seconds where nothing comes")
    equal(one.read("state"), whole, "the file behind two seconds")


def closed_on_exec(process):
    """Each descriptor but the standard streams is closed where the process becomes another program."""
    for info in pathlib.Path(f"/proc/{process}/fdinfo").iterdir():
        flags = next(line.split()[1] for line in info.read_text().splitlines() if line.startswith("flags:"))
        if int(info.name) > 2:
            equal(int(flags, 8) & os.O_CLOEXEC, os.O_CLOEXEC, f"descriptor {info.name} is closed on exec")


def without_receives():
    """In the process that it is called in, each receive fails with an input/output error."""
    number = {"x86_64": 45, "aarch64": 207}[platform.machine()]
    steps = [(0x20, 0, 0, 0), (0x15, 0, 1, number), (0x06, 0, 0, 0x00050000 | 5), (0x06, 0, 0, 0x7FFF0000)]
    room = ctypes.create_string_buffer(b"".join(struct.pack("=HBBI", *step) for step in steps))
    libc = ctypes.CDLL(None, use_errno=True)
    filters = struct.pack("@HP", len(steps), ctypes.addressof(room))
    if libc.prctl(38, 1, 0, 0, 0) != 0 or libc.prctl(22, 2, filters, 0, 0) != 0:
        raise OSError(ctypes.get_errno(), "no filter of calls")


def failing(one, wire):
    """A receive that fails ends the call, and says so."""
    before = one.read("state")
    call = Listening(one, 1000, begin=without_receives)
    said = f"127.0.0.1:{call.port}: waiting for a datagram: Input/output error (os error 5)\n"
    equal(call.ended(), (6, "input failed\n", said), "a receive that fails")
    equal(one.read("state"), before, "the file behind it")


def refused(one):
    """Addresses that can't be had, files that are missing or of the other role, and an unfinished capture."""
    one.cannot("192.0.2.1:0: Cannot assign requested address (os error 99)", "listen", "state", "192.0.2.1:0", "1")
    one.cannot("missing: No such file or directory (os error 2)", "listen", "missing", "127.0.0.1:0", "1")
    equal((one.folder / "missing.plant").exists(), False, "no plant's file is made beside a missing file")
    before = one.read("state")
    one.write("state", before[:6] + opened(3) + b"\x00")
    one.check((5, "unfinished 00000001 3\n", UNFINISHED), "listen", "state", "127.0.0.1:0", "1")
    one.write("state", b"")
    one.check((3, "unformatted\n", "state: no header of a console's state file at octet 0; is it the right file, and was it made by init-console?\n"), "listen", "state", "127.0.0.1:0", "1")
    one.write("state", before)


def killed(one, wire, rounds=50):
    """Signals at random moments: each acknowledgement that came in has its row, and a trap that has none is sent again."""
    rng = random.Random(2)
    one.write("state", header(wire.getsockname()[1]) + b"\x00")
    number = 1
    for turn in range(rounds):
        call = Listening(one, 1000)
        for _ in range(4):
            wire.sendto(trap(number), call.at)
            number = number % 200 + 1
        time.sleep(rng.uniform(0.0, 0.003))
        call.child.send_signal((signal.SIGKILL, signal.SIGTERM)[turn % 2])
        call.ended()
        wire.setblocking(False)
        acked = {frame[20] for frame in arrived(wire)}
        wire.settimeout(SECONDS)
        status, out, _ = one.run("list", "state")
        equal(status, 0, "the status of list behind a signal")
        rows = {int(line.split()[2]) for line in out.splitlines()[:-1]}
        equal(acked - rows, set(), "acknowledged traps without a row")


PING = bytes.fromhex("0600ff06000011be80000000")
PONG = "0600ff06000011be40000010000011be000000008100000000000000"
SEQUENCED = bytes.fromhex("06000506000011be80070000")
ANSWER = "0600ff070000000000000000000881146b20041700c5"


def answered(make):
    """A controller's alert goes out from its address, and what comes there is answered from there."""
    with socket.socket(socket.AF_INET, socket.SOCK_DGRAM) as wire:
        wire.bind(("127.0.0.1", 0))
        wire.settimeout(SECONDS)
        port = wire.getsockname()[1]
        here = f"127.0.0.1:{port}"
        # two retries, two seconds apart
        one = alerts.ready(make, port, "800102")
        one.write("event", alerts.script(2, [alerts.EVENT]))
        equal(one.run("run", "state", "event")[0], 0, "run with an alert")
        sent, before = wire.recvfrom(1000)
        call = Listening(one, 8, form="live")
        equal(before[1] != call.port, True, "run sends from another socket")
        equal(wire.recvfrom(1000), (sent, call.at), "the alert again, from the address of live")
        said = f"send {here} {sent.hex()} done\n"
        for octets, line, answers in (
            (PING, "ping", [PONG]),
            (SEQUENCED, "ping", ["06000586", "0600ff06000011be40070010000011be000000008100000000000000"]),
            (b"", "none", []),
            (ack(1), "command", [ANSWER]),
        ):
            wire.sendto(octets, call.at)
            said += f"frame {line}\n" + "".join(f"send {here} {answer} done\n" for answer in answers)
            for answer in answers:
                equal(wire.recvfrom(1000), (bytes.fromhex(answer), call.at), "an answer, from the address of live")
        closed_on_exec(call.child.pid)
        status, out, err = call.ended()
        # a second may pass between any two frames
        equal((status, out.replace("tick\n", ""), err), (0, f"{said}ok 8\n", ""), "what live says")
        equal(out.count("tick\n"), 4, "the seconds among eight arrivals")
        wire.setblocking(False)
        equal(arrived(wire), [], "what comes behind the acknowledgement")
        one.write("begun", "script 00000003 2\ntick\n")
        equal(one.run("run", "state", "begun")[0], 4, "a script without an end")
        one.check((5, "unfinished 00000003 2\n", UNFINISHED), "live", "state", "127.0.0.1:0", "1")
        one.write("state", b"")
        one.check((3, "unformatted\n", "state: no header of a controller's state file at octet 0; is it the right file, and was it made by init?\n"), "live", "state", "127.0.0.1:0", "1")
