"""Alerts on the wire: a plain receiver gets the octets that the report tells, again as a retry, and none behind the acknowledgement."""
import socket

from common import GUID, equal

# the filter asks for an alert by policy number 1, whose entry names destination 1 of channel 1
FILTER = "060180010110ffff04ff010400000000000000000000"
EVENT = "event 01000200ca9a3b200004043001521020"
TRAP = (
    "306a02010004067075626c6963a45d06092b06010401986f010140040a0000020201060203040102430100303f303d060a2b06010401986f010101042f"
    "00112233445566778899aabbccddeeff000106efed80ffff202010203000005210200000000000ff0001869f0001c1"
)
ACKNOWLEDGEMENT = "cmd 04 17 010080edef06202030521020"


def check(make):
    with socket.socket(socket.AF_INET, socket.SOCK_DGRAM) as wire:
        wire.bind(("127.0.0.1", 0))
        received(make, wire, wire.getsockname()[1])


def script(number, lines):
    return "".join(f"{line}\n" for line in [f"script {number:08x} {len(lines)}", *lines, "end"])


def ready(make, port, kind):
    """A controller whose one destination is this port, of this type."""
    one = make()
    keys = f'guid = "{GUID}"\nagent = "10.0.0.2"\nmanufacturer = 99999\nsystem = 1\npet_port = {port}\n'
    one.write("settings", keys)
    one.check((0, "ok 0\n", ""), "init", "state", "settings")
    commands = [f"cmd 04 12 {FILTER}", "cmd 04 12 0901181100", f"cmd 0c 01 011201{kind}", "cmd 0c 01 01130100007f000001000000000000"]
    one.write("tables", script(1, commands))
    replies = "reply 00\n" * len(commands)
    one.check((0, f"open 00000001 4\n{replies}close\nok 6\n", ""), "run", "state", "tables")
    return one


def received(make, wire, port):
    sent = f"send 127.0.0.1:{port} {TRAP} done\n"
    # acknowledged, with two retries, 3 seconds apart
    one = ready(make, port, "800202")
    one.write("script", script(2, [EVENT, "tick", "tick", "tick", ACKNOWLEDGEMENT, "tick", "tick", "tick"]))
    ticks = "tick\n" * 3
    wanted = f"open 00000002 8\nevent 0001\n{sent}{ticks}{sent}reply 00\n{ticks}close\nok 10\n"
    one.check((0, wanted, ""), "run", "state", "script")
    # a datagram of loopback has arrived when the call of the system that sends it returns
    wire.setblocking(False)
    for _ in range(2):
        octets, sender = wire.recvfrom(1000)
        equal(octets.hex(), TRAP, "a trap on the wire")
        equal(sender[0], "127.0.0.1", "the sender of a trap")
    empty(wire)
    equal(one.read("state.plant"), b"", "the plant's file of alerts")
    # the same script takes nothing and sends nothing
    one.check((0, "ok 0\n", ""), "run", "state", "script")
    empty(wire)
    # not acknowledged, with no retries: the alert is over with what the system says of its one datagram
    one = ready(make, port, "000000")
    one.write("script", script(2, [EVENT, "tick"]))
    one.check((0, f"open 00000002 2\nevent 0001\n{sent}tick\nclose\nok 4\n", ""), "run", "state", "script")
    equal(wire.recv(1000).hex(), TRAP, "a trap on the wire")
    empty(wire)


def empty(wire):
    try:
        equal(wire.recv(1000).hex(), "", "one datagram too many on the wire")
    except BlockingIOError:
        pass
