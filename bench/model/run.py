#!/usr/bin/env python3
"""Compares the proved program with a slow model of a controller, on random scripts of events, commands, frames, ticks and power cycles.

It builds nothing: it takes crates/pef_cli/out/pef_cli, which ./demo at the top proves and builds. The model below is written from the
standard (IPMI 2.0, chapters 13, 17, 23, 30 and 32; ASF 2.0; PET 1.0; RFC 1157) and docs/COMMANDS.md, bit by bit, and knows nothing of the program's
code. Alerts go to loopback alone, where nobody need receive them; one to port 0 fails. Each round makes
a state file from random settings, after some that are refused, and compares the refusal and the file's octets with the model's. Then it
runs a few scripts on it, and compares the report of each run, what `show` says behind it, and the plant's file with those of the model. A script is sometimes called
in two halves: the first call gets a text that breaks off behind some lines. Sometimes it is run on a copy of the files too, by calls that
are killed (SIGKILL) at random moments until one ends: the state file is the same then, octet for octet, and so is the plant's file, but
for at most one repeat for each kill, right behind its twin.

usage: run.py [--quick] [ROUNDS] [SEED]      400 rounds, 25 in the quick mode, and a seed of the clock, where they aren't named
"""
import pathlib
import random
import shutil
import subprocess
import sys
import tempfile
import time

top = pathlib.Path(__file__).resolve().parents[2]
program = top / "crates/pef_cli/out/pef_cli"


# What a trap says of no event: the device alone.
NO_EVENT = bytes(7) + b"\x20" + bytes(8)


def bit(value, n):
    return (value // 2**n) % 2 == 1


def fits(mask, exact, wanted, value):
    """One octet of event data and its test: exact bits all agree, and of the others one does, unless all are exact."""
    same = [bit(value, n) and bit(mask, n) for n in range(8)]
    agrees = [same[n] == bit(wanted, n) for n in range(8)]
    others = [agrees[n] for n in range(8) if not bit(exact, n)]
    return all(agrees[n] for n in range(8) if bit(exact, n)) and (exact == 0xFF or any(others))


def matches(entry, event):
    """IPMI 2.0, section 17.7; octets are counted from 1 there."""
    o = lambda n: entry[n - 1]
    e = lambda n: event[n - 1]
    pairs = [(o(5), e(8)), (o(6), e(9)), (o(7), e(11)), (o(8), e(12)), (o(9), e(13))]
    return (
        bit(o(1), 7)
        and e(3) == 0x02
        and all(wanted in (0xFF, value) for wanted, value in pairs)
        and bit(o(10) + 256 * o(11), e(14) % 16)
        and all(fits(o(n), o(n + 1), o(n + 2), e(14 + k)) for k, n in enumerate((12, 15, 18)))
    )


def ber(tag, octets):
    """An element with its length in the shortest form (RFC 1157)."""
    size = bytes([len(octets)]) if len(octets) < 128 else bytes([0x81, len(octets)])
    return bytes([tag]) + size + octets


def number(tag, value):
    """A number in the fewest octets of which the first has bit 7 clear."""
    return ber(tag, value.to_bytes(value.bit_length() // 8 + 1, "big"))


def is_ping(octets):
    """A presence ping (ASF 2.0, section 3.2.4.3)."""
    front = octets[:1] + octets[3:9] + octets[11:]
    return len(octets) == 12 and front == bytes.fromhex("0606000011be8000")


def summed(octets):
    """The octets with their checksum behind them."""
    return octets + bytes([-sum(octets) % 256])


def lan(message):
    """A frame with an IPMI message outside a session (IPMI 2.0, section 13.6)."""
    return bytes.fromhex("0600ff07") + bytes(9) + bytes([len(message)]) + message


def message_in(octets):
    """The message of such a frame, without what is behind it; one octet may be."""
    size = octets[13] if len(octets) > 13 else 0
    message = octets[14 : 14 + size]
    good = 7 <= size <= 71 and len(octets) in (14 + size, 15 + size)
    good = good and octets[0] == 6 and octets[3] == 7 and not any(octets[4:13])
    return message if good and sum(message[:3]) % 256 == sum(message[3:]) % 256 == 0 else None


def walk(stops):
    """IPMI 2.0, section 17.11: yields the place of each entry of a set that is tried, and is sent how it ended."""
    wanted, succeeded = (lambda stop: True), False
    for place, (policy, channel, kind) in enumerate(stops):
        if not wanted((policy, channel, kind)):
            continue
        if policy == 0 or not succeeded:
            succeeded = yield place
            wanted = lambda stop: True
        elif policy == 2:
            return
        elif policy == 3:
            wanted = lambda stop, channel=channel: stop[1] != channel
        elif policy == 4:
            wanted = lambda stop, kind=kind: stop[2] != kind
        else:
            wanted = lambda stop: True


class Controller:
    """What a controller of these settings does with one item after another; it says its report lines and notes its actions."""

    def __init__(self, settings):
        self.pef = {0: b"\0", 1: settings["control"], 2: settings["actions"], 3: settings["delay"]}
        self.filters = {n: bytes(20) for n in range(1, 17)} | {1: settings["filter"]}
        self.policies = {n: bytes(3) for n in range(1, 17)}
        self.guid = bytes(17)
        self.keys = {n: bytes(2) for n in range(9)}
        self.blocks = {(n, b): bytes(16) for n in range(9) for b in range(1, 5)}
        self.lan = {}
        for channel in (1, 2):
            self.lan[channel, 16] = b"public" + bytes(12)
            for number in range(5):
                self.lan[channel, 18, number] = bytes(3)
                self.lan[channel, 19, number] = bytes(12)
        self.log, self.done, self.plant, self.kills = [], 0, [], 0
        self.number, self.software, self.status, self.at_once = None, 0, 0, None
        self.delay, self.postpone = self.startup_delay(), 0
        self.own, self.seconds, self.drawn, self.sends = settings, 0, 0, 0
        self.job = self.awaited = None

    def startup_delay(self):
        return self.pef[3][0] if bit(self.pef[1][0], 2) else 0

    def may_begin(self):
        return bit(self.pef[1][0], 0) and self.delay == 0 and self.postpone == 0

    def acts_of(self, event):
        """The actions of a record: one act by priority, and the OEM action."""
        asked = [self.filters[n][1] & self.pef[2][0] for n in range(1, 17) if matches(self.filters[n], event)]
        some = lambda n: any(bit(octet, n) for octet in asked)
        act = [word for n, word in ((1, "power-down"), (3, "power-cycle"), (2, "reset"), (5, "diagnostic")) if some(n)][:1]
        return act + (["oem"] if some(4) else [])

    def text(self, key, filter):
        """The text that a string key gives to an alert for this filter: IPMI 2.0, sections 17.11 and 30.3."""
        named = key % 128 if key < 128 and 1 <= key % 128 <= 8 else None
        if key >= 128:
            having = [n for n in range(1, 9) if self.keys[n][0] % 128 == filter and self.keys[n][1] % 128 == key % 128]
            named = having[0] if having else None
        return self.string(named) if named else b""

    def string(self, number):
        octets = b"".join(self.blocks[number, block] for block in range(1, 5))
        return octets.split(b"\0")[0][:61]

    def destination(self, channel, selector):
        """A destination that an alert can be sent to: address, type's octets, community; None for another."""
        if channel not in (1, 2) or selector > 4:
            return None
        kind, ip = self.lan[channel, 18, selector], self.lan[channel, 19, selector][2:6]
        if kind[0] % 8 not in (0, 6, 7) or ip == bytes(4):
            return None
        port = self.own[{0: "pet_port", 6: "oem1_port", 7: "oem2_port"}[kind[0] % 8]]
        community = self.lan[channel, 16].split(b"\0")[0]
        return {"ip": ip, "port": port[0] + 256 * port[1], "kind": kind, "community": community}

    def targets_of(self, event):
        """The policy sets of a record, each with its alerts: policy, channel, type; address, type's octets, community; severity, text."""
        sets = []
        for policy_number in range(1, 16):
            asking = [
                n
                for n in range(1, 17)
                if self.filters[n][2] % 16 == policy_number and bit(self.filters[n][1] & self.pef[2][0], 0) and matches(self.filters[n], event)
            ]
            targets = []
            for first, second, key in self.policies.values():
                to = self.destination(second // 16, second % 16)
                if not asking or first // 16 != policy_number or not bit(first, 3) or first % 8 > 4 or to is None:
                    continue
                severity = max(self.filters[n][3] for n in asking)
                stop = (first % 8, second // 16, to["kind"][0] % 8)
                targets.append(to | {"stop": stop, "severity": severity, "text": self.text(key, min(asking))})
            sets.append(targets)
        return sets

    def body_of(self, event, guid, sequence, target):
        """The body of the trap: PET 1.0. An alert at once has no event."""
        event = event or NO_EVENT
        stamp = int.from_bytes(event[3:7], "little")
        time = 0 if stamp == 0xFFFFFFFF or stamp < 883612800 else stamp - 883612800
        text = target["text"]
        tail = bytes([0xC1 + len(text)]) + text + b"\0\xc1" if text else b"\xc1"
        return (
            guid
            + sequence.to_bytes(2, "big")
            + time.to_bytes(4, "big")
            + bytes([0xFF, 0xFF, 0x20, 0x20, target["severity"], event[7], event[11], 0, 0])
            + event[13:16]
            + bytes(5)
            + b"\xff"
            + self.own["manufacturer"][::-1]
            + self.own["system"][::-1]
            + tail
        )

    def trap_of(self, event, target, body, seconds):
        """The message: RFC 1157, section 4.1.6, and PET 1.0 for the specific number."""
        enterprise = bytes.fromhex("2b06010401986f0101")
        event = event or NO_EVENT
        specific = event[10] * 65536 + event[12] % 128 * 256 + 128 * bit(event[12], 7) + event[13] % 16
        binding = ber(0x30, ber(6, enterprise + b"\1") + ber(4, body))
        fields = ber(6, enterprise) + ber(0x40, self.own["agent"]) + number(2, 6) + number(2, specific)
        trap = ber(0xA4, fields + number(0x43, 100 * seconds % 2**32) + ber(0x30, binding))
        return ber(0x30, number(2, 0) + ber(4, target["community"]) + trap)

    def alert(self, said, event, guid, target):
        """One alert (IPMI 2.0, section 23.2, parameter 18): it waits at each `yield`, is sent `tick` or an acknowledgement, and answers how
        it ended."""
        self.drawn += 1
        sequence = (self.drawn - 1) % 65535 + 1
        body = self.body_of(event, guid, sequence, target)
        trap = self.trap_of(event, target, body, self.seconds)
        awaited = sequence.to_bytes(2, "little") + body[18:22][::-1] + body[25:26] + body[27:29] + body[31:34]
        acknowledged, wait, retries = bit(target["kind"][0], 7), target["kind"][1] + 1, target["kind"][2] % 8
        told = "failed" if target["port"] == 0 else "done"
        to = ".".join(str(octet) for octet in target["ip"])
        made = waited = 0
        while True:
            if not acknowledged and made == 1 + retries:
                return told == "done"
            if acknowledged and waited >= wait * (1 + retries):
                return False
            if made <= retries and waited >= made * wait:
                said.append(f"send {to}:{target['port']} {trap.hex()} {told}")
                self.sends += 1
                made += 1
                continue
            self.awaited = awaited
            heard = yield
            self.awaited = None
            if heard == "tick":
                waited += 1
            elif acknowledged and heard == awaited:
                return True

    def job_of(self, said, event, acts, sets, guid):
        """The parts of a job in their order; it waits where an alert of it waits."""
        ident = event[0] + 256 * event[1]
        for word in acts:
            if word != "oem":
                self.act(said, word, ident)
        for targets in sets:
            stops = walk([target["stop"] for target in targets])
            place = next(stops, None)
            while place is not None:
                ended = yield from self.alert(said, event, guid, targets[place])
                try:
                    place = stops.send(ended)
                except StopIteration:
                    place = None
        if "oem" in acts:
            self.act(said, "oem", ident)

    def alert_at_once(self, said, guid, target):
        ended = yield from self.alert(said, None, guid, target)
        self.status = 0x01 if ended else 0x03

    def act(self, said, word, ident):
        said.append(f"act {word} {ident:04x} done")
        self.plant.append(f"{word} {ident:04x}")

    def jobs(self, said, heard):
        """Goes on with the job that waits, and then with those of the records that wait, each by the tables that stand when it begins."""
        if self.job is not None and heard is not None:
            self.go_on(said, heard)
        guid = self.guid[1:] if bit(self.guid[0], 0) else self.own["guid"]
        if self.at_once is not None:
            self.number, self.lines, self.status = None, [], 0xFF
            self.job, self.at_once = self.alert_at_once(self.lines, guid, self.at_once), None
            self.go_on(said, None)
        while self.job is None and self.may_begin() and self.done < len(self.log):
            event = self.log[self.done]
            self.number, self.lines = self.done + 1, []
            self.job = self.job_of(self.lines, event, self.acts_of(event), self.targets_of(event), guid)
            self.go_on(said, None)

    def go_on(self, said, heard):
        try:
            self.job.send(heard)
        except StopIteration:
            self.job = None
            self.done = self.done if self.number is None else self.number
        said += self.lines
        self.lines.clear()

    def event(self, event):
        number = event[0] + 256 * event[1]
        if number in (0, 0xFFFF):
            return f"event reserved {number:04x}"
        if event[2] != 2 and event[2] < 0xC0:
            return f"event kind {event[2]:02x}"
        if any(other[:2] == event[:2] for other in self.log):
            return f"event duplicate {number:04x}"
        if len(self.log) == 1024:
            return "event full"
        self.log.append(event)
        return f"event {number:04x}"

    def command(self, netfn, cmd, data):
        known = {
            (4, 0x10): lambda data: b"\0\x51\x3f\x10" if data == b"" else b"\xc7",
            (4, 0x11): self.arm,
            (4, 0x12): self.set_pef,
            (4, 0x13): self.get_pef,
            (4, 0x14): self.set_last,
            (4, 0x15): self.get_last,
            (4, 0x16): self.send,
            (4, 0x17): lambda data: b"\0" if len(data) == 12 else b"\xc7",
            (10, 0x47): self.clear,
            (12, 1): self.set_lan,
            (12, 2): self.get_lan,
        }
        return known[netfn, cmd](data) if (netfn, cmd) in known else b"\xc1"

    def arm(self, data):
        """Arm PEF Postpone Timer: IPMI 2.0, section 30.2."""
        if len(data) != 1:
            return b"\xc7"
        if data[0] != 0xFF:
            self.postpone = None if data[0] == 0xFE else data[0]
        return bytes([0, 0xFE if self.postpone is None else self.postpone])

    def runs_job(self):
        return self.job is not None and self.number is not None

    def runs_alert(self):
        return self.job is not None and self.number is None

    def set_last(self, data):
        """Set Last Processed Event ID: section 30.5."""
        if len(data) != 3:
            return b"\xc7"
        if bit(data[0], 0) and self.runs_job():
            return b"\xd5"
        held = [event[:2] for event in self.log]
        if data[1:] != b"\0\0" and data[1:] not in held:
            return b"\xcb"
        if bit(data[0], 0):
            self.done = held.index(data[1:]) + 1 if data[1:] in held else 0
        else:
            self.software = data[1] + 256 * data[2]
        return b"\0"

    def get_last(self, data):
        """Get Last Processed Event ID: section 30.6."""
        if data != b"":
            return b"\xc7"
        last = self.log[-1] if self.log else b"\xff" * 16
        stamp = last[3:7] if last[2] < 0xE0 else b"\xff" * 4
        processed = self.log[self.done - 1][:2] if self.done else b"\0\0"
        return b"\0" + stamp + last[:2] + self.software.to_bytes(2, "little") + processed

    def send(self, data):
        """Alert Immediate: section 30.7."""
        if len(data) == 11:
            return b"\x83"
        if len(data) != 3:
            return b"\xc7"
        operation = data[1] // 64
        if operation == 3:
            return b"\xcc"
        if operation == 1:
            return bytes([0, self.status])
        if operation == 2:
            if self.runs_alert():
                return b"\xd5"
            self.status = 0
            return b"\0"
        if data[2] >= 128 + 9:
            return b"\xc9"
        to = self.destination(data[0] % 16, data[1] % 16)
        if to is None:
            return b"\xcb"
        if self.job is not None:
            return b"\x81"
        self.at_once = to | {"severity": 0, "text": self.string(data[2] - 128) if data[2] >= 128 else b""}
        return b"\0"

    def clear(self, data):
        """Clear SEL: section 31.9."""
        if len(data) != 6:
            return b"\xc7"
        if data[2:5] != b"CLR" or data[5] not in (0x00, 0xAA):
            return b"\xcc"
        if data[5] == 0xAA:
            if self.done < len(self.log) or self.job is not None:
                return b"\xd5"
            self.log, self.done, self.software = [], 0, 0
        return b"\0\1"

    def power(self):
        """What a power cycle clears, and the startup delay."""
        self.pef[0], self.keys[0] = b"\0", bytes(2)
        for block in range(1, 5):
            self.blocks[0, block] = bytes(16)
        for channel in (1, 2):
            self.lan[channel, 18, 0], self.lan[channel, 19, 0] = bytes(3), bytes(12)
        self.postpone, self.delay = 0, self.startup_delay()

    def set_pef(self, data):
        lengths = {0: [1], 1: [1], 2: [1], 3: [1], 6: [21], 7: [2], 9: [4], 10: [17], 12: [3], 13: range(3, 19)}
        if not data:
            return b"\xc7"
        number, rest = data[0] % 128, data[1:]
        if number not in (0, 1, 2, 3, 5, 6, 7, 8, 9, 10, 11, 12, 13):
            return b"\x80"
        if number in (5, 8, 11):
            return b"\x82"
        if len(rest) not in lengths[number]:
            return b"\xc7"
        place = rest[0] % 128
        if number in (6, 7, 9) and place not in range(1, 17) or number in (12, 13) and place > 8:
            return b"\xc9"
        if number == 13 and rest[1] not in range(1, 5):
            return b"\xc9"
        if number == 0 and rest[0] % 4 >= 2:
            return b"\xcc"
        if number == 0 and rest[0] % 4 == 1 and self.pef[0][0] % 4 == 1:
            return b"\x81"
        if number in self.pef:
            self.pef[number] = rest
        elif number == 6:
            self.filters[place] = rest[1:]
        elif number == 7:
            self.filters[place] = rest[1:] + self.filters[place][1:]
        elif number == 9:
            self.policies[place] = rest[1:]
        elif number == 10:
            self.guid = rest
        elif number == 12:
            self.keys[place] = rest[1:]
        else:
            self.blocks[place, rest[1]] = (rest[2:] + bytes(16))[:16]
        return b"\0"

    def get_pef(self, data):
        if len(data) != 3:
            return b"\xc7"
        number, place, block = data[0] % 128, data[1] % 128, data[2]
        if number not in (0, 1, 2, 3, 5, 6, 7, 8, 9, 10, 11, 12, 13):
            return b"\x80"
        if data[0] >= 128:
            return b"\0\x11"
        if number in (6, 7, 9) and place not in range(1, 17) or number in (12, 13) and place > 8:
            return b"\xc9"
        if number == 13 and block not in range(1, 5):
            return b"\xc9"
        selected = bytes([place])
        value = {
            **self.pef,
            5: b"\x10",
            8: b"\x10",
            10: self.guid,
            11: b"\x08",
        }.get(number)
        if number == 6:
            value = selected + self.filters[place]
        elif number == 7:
            value = selected + self.filters[place][:1]
        elif number == 9:
            value = selected + self.policies[place]
        elif number == 12:
            value = selected + self.keys[place]
        elif number == 13:
            value = selected + bytes([block]) + self.blocks[place, block]
        return b"\0\x11" + value

    def set_lan(self, data):
        if len(data) < 2:
            return b"\xc7"
        channel, number, rest = data[0] % 16, data[1], data[2:]
        if channel not in (1, 2):
            return b"\xcc"
        if number not in (16, 17, 18, 19):
            return b"\x80"
        if number == 17:
            return b"\x82"
        if len(rest) != {16: 18, 18: 4, 19: 13}[number]:
            return b"\xc7"
        if number != 16 and rest[0] % 16 > 4:
            return b"\xc9"
        if number == 19 and rest[1] >= 16:
            return b"\xcc"
        if number == 16:
            self.lan[channel, 16] = rest
        else:
            self.lan[channel, number, rest[0] % 16] = rest[1:]
        return b"\0"

    def get_lan(self, data):
        if len(data) != 4:
            return b"\xc7"
        channel, number, place = data[0] % 16, data[1], data[2] % 16
        if channel not in (1, 2):
            return b"\xcc"
        if number not in (16, 17, 18, 19):
            return b"\x80"
        if data[0] >= 128:
            return b"\0\x11"
        if number in (18, 19) and place > 4:
            return b"\xc9"
        if number == 16:
            return b"\0\x11" + self.lan[channel, 16]
        if number == 17:
            return b"\0\x11\x04"
        return b"\0\x11" + bytes([place]) + self.lan[channel, number, place]

    def frame(self, said, sender, octets):
        """Answers a frame; the trap that it acknowledges."""
        heard, answers, kind = None, [], "none"
        message = message_in(octets)
        if is_ping(octets):
            kind = "ping"
            if octets[2] != 0xFF:
                answers.append(bytes([6, 0, octets[2], 0x86]))
            answers.append(bytes.fromhex("0600ff06000011be40") + octets[9:10] + bytes.fromhex("0010000011be0000000081") + bytes(7))
        elif message and message[:2] == b"\x20\x10" and message[5] == 0x17:
            kind = "command"
            heard = message[6:-1] if len(message) == 19 else None
            code = 0xC7 if heard is None else 0x00
            answers.append(lan(summed(bytes([message[3], 0x14])) + summed(b"\x20" + message[4:6] + bytes([code]))))
        said.append(f"frame {kind}")
        for answer in answers:
            said.append(f"send {sender} {answer.hex()} {'failed' if sender.endswith(':0') else 'done'}")
        return heard

    def take(self, item):
        """The report lines of one item and of the jobs behind it."""
        said, heard = [], None
        if item[0] == "event":
            said.append(self.event(item[1]))
        elif item[0] == "tick":
            self.seconds += 1
            self.delay = max(self.delay - 1, 0)
            self.postpone = self.postpone and max(self.postpone - 1, 0)
            said.append("tick")
            heard = "tick"
        elif item[0] == "power":
            self.power()
            said.append("power")
        elif item[0] == "frame":
            heard = self.frame(said, item[1], item[2])
        else:
            reply = self.command(item[1], item[2], item[3])
            said.append(f"reply {reply.hex()}")
            heard = item[3] if item[1:3] == (4, 0x17) and reply == b"\0" else None
        self.jobs(said, heard)
        return said

    def page(self):
        """What `show` says of it, but for its script, where no step is due."""
        ident = lambda number: f"{self.log[number - 1][0] + 256 * self.log[number - 1][1]:04x}"
        return [
            f"records {len(self.log)}",
            f"processed {self.done}",
            f"last {ident(self.done) if self.done else '0000'}",
            f"job {ident(self.number) if self.runs_job() else 'none'}",
            f"immediate {self.status:02x}",
            f"ticks {self.seconds}",
            f"delay {self.delay}",
            f"postpone {254 if self.postpone is None else self.postpone}",
            f"sequence {self.drawn % 65535 + 1}",
        ]


def line(item):
    if item[0] == "event":
        return f"event {item[1].hex()}"
    if item[0] in ("tick", "power"):
        return item[0]
    if item[0] == "frame":
        return f"frame {item[1]} {item[2].hex() or '-'}"
    return f"cmd {item[1]:02x} {item[2]:02x} {item[3].hex() or '-'}"


def random_filter(some):
    """A filter that often matches: some octets are FFh, masks are often zero."""
    octet = lambda usual: usual if some.random() < 0.8 else some.randrange(256)
    tests = [octet(some.choice([0, 0, 0xFF])) for _ in range(9)]
    return bytes(
        [octet(0x80), octet(some.choice([0x3F, 0x20, 0x11, 0x01, 0x01])), octet(some.choice([1, 1, 2])), octet(some.choice([0x10, 0x20]))]
        + [octet(0xFF), octet(0xFF), octet(some.choice([4, 0xFF])), octet(0xFF), octet(some.choice([1, 0xFF]))]
        + [octet(0xFF), octet(0xFF)]
        + tests
    )


# the keys of a settings document in the order of the octets that they give: how many, and what they are where the key is missing
KEYS = {
    "guid": (16, None),
    "agent": (4, None),
    "manufacturer": (4, 0),
    "system": (2, 0),
    "pet_port": (2, 162),
    "oem1_port": (2, 162),
    "oem2_port": (2, 162),
    "control": (1, 1),
    "actions": (1, 63),
    "delay": (1, 0),
    "filter": (20, 0),
}


def spelled(some, key, octets):
    """One of the ways to write a key's value."""
    digits = "".join(some.choice([str.upper, str.lower])(digit) for digit in octets.hex())
    quote = some.choice("'\"")
    if key == "guid":
        hyphens = "-".join([digits[:8], digits[8:12], digits[12:16], digits[16:20], digits[20:]])
        return quote + some.choice([digits, hyphens, "{" + hyphens + "}", "urn:uuid:" + hyphens]) + quote
    if key == "agent":
        return quote + ".".join(str(octet).zfill(some.randrange(4)) for octet in octets) + quote
    if key == "filter":
        return quote + digits + quote
    number = int.from_bytes(octets, "little")
    return some.choice([str(number), hex(number), oct(number), bin(number), f"+{number}"])


def refused_value(some, key):
    """A value that a key may not have."""
    length = KEYS[key][0]
    if key in ("guid", "agent", "filter"):
        return some.choice(["0", "''", "true", "'" + "0" * (2 * length - 1) + "'", "'" + "0" * (2 * length - 1) + "g'"])
    return some.choice(["-1", str(256**length), "1.0", "true", "'1'", "[1]"])


def random_port(some):
    return some.choice([0, 50000, 50000 + some.randrange(1000)]).to_bytes(2, "little")


def random_settings(some):
    """The octets that stand at each key of a controller's settings, and a document that gives them."""
    values, lines = {}, ["# a comment", ""]
    for key, (length, default) in KEYS.items():
        if default is not None and some.random() < 0.4:
            values[key] = default.to_bytes(length, "little")
            continue
        values[key] = {
            "control": some.choice([b"\x01", b"\x01", b"\x00", b"\x0f"]),
            "actions": some.choice([b"\x3f", b"\x3d", random_octets(some, 1)]),
            "filter": random_filter(some),
            "pet_port": random_port(some),
            "oem1_port": random_port(some),
            "oem2_port": random_port(some),
        }.get(key, random_octets(some, length))
        lines.append(f"{key} = {spelled(some, key, values[key])}")
    some.shuffle(lines)
    return values, lines


def spoilt(some, lines):
    """A document that is refused, and the last line that says so: the first key that is missing or wrong, or another key."""
    wrong = some.sample(list(KEYS), some.randrange(3))
    left = [line for line in lines if line.split(" = ")[0] not in wrong]
    missing = lambda key: KEYS[key][1] is None and some.random() < 0.5
    lines = left + [f"{key} = {refused_value(some, key)}" for key in wrong if not missing(key)]
    if not wrong or some.random() < 0.5:
        lines.append("another = 1")
    some.shuffle(lines)
    first = [key for key in KEYS if key in wrong] + ["unknown"]
    return lines, f"settings {first[0]}\n"


def init(state, settings, lines):
    settings.write_text("".join(line + "\n" for line in lines))
    done = subprocess.run([program, "init", state, settings], capture_output=True)
    return done.returncode, done.stdout.decode()


def random_event(some):
    number = some.choice([0, 0xFFFF] + list(range(1, 60)) * 3)
    kind = some.choice([2] * 12 + [0xC0, 0xE0, 0x00, 0x03])
    data = [some.choice([0x52, some.randrange(256)]), some.randrange(256), some.randrange(256)]
    stamp = some.choice([1000000000] * 5 + [883612799, 883612800, 0xFFFFFFFF, some.randrange(2**32)])
    return number.to_bytes(2, "little") + bytes([kind]) + stamp.to_bytes(4, "little") + bytes(
        [some.choice([0x20, some.randrange(256)]), 0, 4, 4, some.randrange(256)]
        + [some.choice([1, 0x81])]
        + data
    )


def random_octets(some, length):
    return bytes(some.randrange(256) for _ in range(length))


def random_table(some):
    """A command for the tables that alerts need."""
    kind = some.random()
    place = some.choice([1, 1, 2, 2, 3, 4])
    channel = some.choice([1, 1, 2])
    if kind < 0.35:
        first = some.choice([0x10, 0x10, 0x20]) + some.choice([8, 8, 8, 0]) + some.choice([0, 0, 1, 1, 2, 3, 4, 5])
        key = some.choice([0, 1, 2, 0x81, 0x82, some.randrange(256)])
        entry = some.choice([1, 2, 3, 4, 5, 16])
        return ("cmd", 4, 0x12, bytes([9, entry, first, some.choice([channel * 16 + place] * 5 + [some.randrange(256)]), key]))
    if kind < 0.55:
        wait = some.choice([0, 0, 1, 2, 2, some.randrange(256)])
        kind = some.choice([0x00, 0x80, 0x80, 0x06, 0x86, 0x07, 0x87, 0x01])
        return ("cmd", 12, 1, bytes([channel, 18, place, kind, wait, some.choice([0, 1, 2, 3, 7, 0xF9])]))
    if kind < 0.8:
        ip = some.choice([bytes([127, 0, 0, 1])] * 3 + [bytes([127, 0, some.randrange(1, 250), some.randrange(1, 250)]), bytes(4)])
        return ("cmd", 12, 1, bytes([channel, 19, place, 0, 0]) + ip + bytes(6))
    if kind < 0.88:
        key = bytes([some.choice([1, 1, 2, some.randrange(256)]), some.choice([1, 2, some.randrange(256)])])
        return ("cmd", 4, 0x12, bytes([12, some.randrange(9)]) + key)
    if kind < 0.96:
        text = bytes(some.choice([0x41, 0x42, 0x00] + [0x43] * 30) for _ in range(some.choice([16, 16, 5, 1])))
        return ("cmd", 4, 0x12, bytes([13, some.randrange(9), some.choice([1, 1, 2, 3, 4])]) + text)
    return ("cmd", 4, 0x12, bytes([10, some.choice([0, 1])]) + random_octets(some, 16))


def ready(some):
    """Commands with which most events have alerts: PEF is enabled, a filter asks for them, and a set has a few usable destinations."""
    items = [("cmd", 4, 0x12, bytes([1, 0x01])), ("cmd", 4, 0x12, bytes([2, 0x3F]))]
    for place in some.choice([(2,), (16,), (2, 16)]):
        front = [0x80, some.choice([0x01, 0x01, 0x31]), 1, some.choice([0x08, 0x10, 0x20])]
        items.append(("cmd", 4, 0x12, bytes([6, place] + front + [0xFF] * 7) + bytes(9)))
        items.append(("cmd", 4, 0x12, bytes([12, place // 2, place, 1])))
        for block in range(1, some.choice([2, 5])):
            items.append(("cmd", 4, 0x12, bytes([13, place // 2, block]) + bytes([0x40 + place]) * 16))
    for place in range(1, some.choice([2, 4, 5])):
        channel = some.choice([1, 1, 2])
        policy = some.choice([0, 1, 1, 2, 3, 4])
        kind = some.choice([0x00, 0x80, 0x80, 0x06, 0x86, 0x07])
        items.append(("cmd", 4, 0x12, bytes([9, place, 0x18 + policy, channel * 16 + place, some.choice([0, 1, 0x81])])))
        items.append(("cmd", 12, 1, bytes([channel, 18, place, kind, some.choice([0, 0, 1, 2]), some.choice([0, 0, 1, 2, 3])])))
        items.append(("cmd", 12, 1, bytes([channel, 19, place, 0, 0, 127, 0, 0, place]) + bytes(6)))
    return items + [random_table(some) for _ in range(some.choice([0, 0, 5]))]


def random_acknowledgement(some, model):
    """Often the one that is awaited, or nearly so."""
    octets = model.awaited or random_octets(some, 12)
    if some.random() < 0.5:
        place = some.randrange(12)
        octets = octets[:place] + bytes([octets[place] ^ some.choice([1, 0x80])]) + octets[place + 1 :]
    return ("cmd", 4, 0x17, octets if some.random() < 0.95 else octets[: some.randrange(12)])


def random_frame(some, model):
    """Often one that is answered, or nearly so."""
    ping = bytes([6, some.choice([0, 9]), some.choice([0xFF, 0xFF, 5]), 6]) + bytes.fromhex("000011be80") + bytes([some.randrange(256), 0, 0])
    payload = random_acknowledgement(some, model)[3]
    request = summed(b"\x20\x10") + summed(bytes([0x81, some.randrange(256), some.choice([0x17, 0x17, 0x17, 0x16])]) + payload)
    octets = some.choice([ping, lan(request), lan(request), lan(request) + b"\0", random_octets(some, some.choice([0, 4, 12, 33, 300]))])
    if octets and some.random() < 0.2:
        place = some.randrange(len(octets))
        octets = octets[:place] + bytes([octets[place] ^ some.choice([1, 2, 0x80])]) + octets[place + 1 :]
    return ("frame", f"127.0.0.{some.randrange(1, 200)}:{some.choice([0, 40000, 40001])}", octets)


def random_item(some, model):
    kind = some.random()
    if kind < 0.08:
        return random_frame(some, model)
    kind = (kind - 0.08) / 0.92
    if kind < 0.25:
        return ("event", random_event(some))
    if kind < 0.48:
        return ("tick",)
    if kind < 0.5:
        return ("power",)
    if kind < 0.6:
        return random_acknowledgement(some, model)
    return local(random_table(some) if kind < 0.8 else random_command(some))


def local(item):
    """The same, but that an address of a destination is one of loopback."""
    _, netfn, cmd, data = item
    if (netfn, cmd) == (12, 1) and len(data) == 15 and data[1] == 19 and data[5:9] != bytes(4):
        item = ("cmd", 12, 1, data[:5] + bytes([127, 0, data[7] % 200 + 1, data[8] % 200 + 1]) + data[9:])
    return item


def random_command(some):
    kind = some.random()
    if kind > 0.7:
        return random_remaining(some)
    kind /= 0.7
    if kind < 0.15:
        return ("cmd", 4, 0x12, bytes([6, some.choice([1, 2, 16, 0x81, 0, 17])]) + random_filter(some))
    if kind < 0.25:
        return ("cmd", 4, 0x12, bytes([1, some.choice([0, 1, 1, 0x0F])]))
    if kind < 0.32:
        return ("cmd", 4, 0x12, bytes([2, some.choice([0x3F, 0x3D, some.randrange(256)])]))
    if kind < 0.4:
        return ("cmd", 4, 0x12, bytes([7, some.randrange(20), some.choice([0x00, 0x80, some.randrange(256)])]))
    if kind < 0.6:
        number = some.choice(list(range(16)) + [some.randrange(256)])
        length = some.choice([0, 1, 1, 2, 3, 4, 17, 18, 20, 21, some.randrange(64)])
        rest = random_octets(some, length)
        if rest and some.random() < 0.7:
            rest = bytes([some.randrange(20)]) + rest[1:]
        if len(rest) > 1 and some.random() < 0.7:
            rest = rest[:1] + bytes([some.randrange(6)]) + rest[2:]
        return ("cmd", 4, 0x12, bytes([number]) + rest if some.random() < 0.97 else b"")
    if kind < 0.78:
        data = bytes([some.randrange(16) + 128 * (some.random() < 0.1), some.randrange(20), some.randrange(6)])
        return ("cmd", 4, 0x13, data if some.random() < 0.95 else random_octets(some, some.randrange(6)))
    if kind < 0.88:
        number = some.choice([16, 17, 18, 19, 19, some.randrange(256)])
        length = {16: 18, 18: 4, 19: 13}.get(number, 1) if some.random() < 0.9 else some.randrange(20)
        rest = random_octets(some, length)
        if rest and number != 16:
            rest = bytes([some.randrange(7)]) + rest[1:]
        if len(rest) > 1 and some.random() < 0.8:
            rest = rest[:1] + b"\0" + rest[2:]
        data = bytes([some.choice([1, 2, 2, 0x11, some.randrange(256)]), number]) + rest
        return ("cmd", 12, 1, data if some.random() < 0.97 else data[:1])
    if kind < 0.96:
        data = bytes([some.choice([1, 2, 0x81, some.randrange(256)]), some.choice([16, 17, 18, 19, 3]), some.randrange(7), 0])
        return ("cmd", 12, 2, data if some.random() < 0.95 else data[:3])
    return ("cmd", some.randrange(64), some.randrange(256), random_octets(some, some.randrange(65)))


def random_remaining(some):
    """What holds, marks, clears and sends at once; now and then with another length."""
    cmd = some.choice([0x10, 0x11, 0x11, 0x14, 0x14, 0x15, 0x15, 0x16, 0x16, 0x16, 0x47, 0x47])
    data = {
        0x10: b"",
        0x11: bytes([some.choice([0, 1, 2, 5, 0xFE, 0xFF, some.randrange(256)])]),
        0x14: bytes([some.choice([0, 1, 1, some.randrange(256)]), some.choice([0, 0, 1, 2, 3, 5, 9, some.randrange(256)]), some.choice([0, 0, 0, 1])]),
        0x15: b"",
        0x16: bytes([some.choice([1, 1, 2, some.randrange(256)]), some.choice([0, 1, 2, 0x40, 0x80, some.randrange(256)]), some.choice([0, 0x80, 0x81, 0x88, some.randrange(256)])]),
        0x47: bytes([some.randrange(256), 0]) + some.choice([b"CLR", b"CLR", b"CLR", b"CLS"]) + bytes([some.choice([0, 0xAA, 0xAA, 0xAA, 1])]),
    }[cmd]
    if some.random() < 0.05:
        data = random_octets(some, some.choice([0, 1, 2, 3, 4, 6, 11]))
    return ("cmd", 10 if cmd == 0x47 else 4, cmd, data)


def run(state, script):
    done = subprocess.run([program, "run", state, script], capture_output=True, timeout=60)
    return done.returncode, done.stdout.decode()


def check_page(seed, number, state, script, page, taken):
    """What `show` says, and that it changes nothing."""
    before = state.read_bytes()
    done = subprocess.run([program, "show", state], capture_output=True, timeout=60)
    wanted = "\n".join(page + [f"script {taken}", "pending no", "ok 0"]) + "\n"
    if (done.returncode, done.stdout.decode()) != (0, wanted) or state.read_bytes() != before:
        wrong(seed, number, f"show: status {done.returncode}", script.read_text(), wanted, done.stdout.decode())


def run_with_kills(some, state, script, span):
    """Runs the script until a call ends by itself; answers how many were killed before, each within a span that grows."""
    kills = 0
    while True:
        process = subprocess.Popen([program, "run", state, script], stdout=subprocess.DEVNULL, stderr=subprocess.DEVNULL)
        try:
            if process.wait(some.random() * span * (1 + kills / 8)) != 0:
                sys.exit(f"status {process.returncode} behind {kills} kills")
            return kills
        except subprocess.TimeoutExpired:
            process.kill()
            process.wait()
            kills += 1


def repeats(lines, wanted):
    """How many lines repeat the one before them, where they are those that are wanted but for such repeats; else None."""
    place = again = 0
    for line in lines:
        if wanted[place : place + 1] == [line]:
            place += 1
        elif place > 0 and wanted[place - 1] == line:
            again += 1
        else:
            return None
    return again if place == len(wanted) else None


def wrong(seed, number, what, script, wanted, got):
    print(f"seed {seed}, round {number}: {what}")
    for a, b in zip(wanted.splitlines() + [""], got.splitlines() + [""]):
        if a != b:
            print(f"wanted: {a}\ngot:    {b}")
            break
    print(script)
    sys.exit(1)


def play(folder, some, seed, number):
    """One state file and a few scripts."""
    values, lines = random_settings(some)
    model = Controller(values)
    state, settings, script = folder / "state", folder / "settings", folder / "script"
    for old in (state, folder / "state.plant"):
        old.unlink(missing_ok=True)
    bad, word = spoilt(some, lines)
    for text, wanted, file in ((bad, (4, word), b""), (lines, (0, "ok 0\n"), b"\xa5\1\x37\0" + b"".join(values.values()) + b"\0")):
        begin = time.monotonic()
        got = init(state, settings, text)
        span = 3 * (time.monotonic() - begin)
        if got != wanted or state.read_bytes() != file:
            wrong(seed, number, f"init: status {got[0]}", settings.read_text(), str(wanted), str(got))
    for which in range(some.randrange(1, 4)):
        items = ready(some) if which == 0 and some.random() < 0.8 else []
        pages, replies = [model.page()], []
        for item in items:
            replies.append(model.take(item))
            pages.append(model.page())
        for _ in range(some.randrange(1, 120)):
            items.append(random_item(some, model))
            replies.append(model.take(items[-1]))
            pages.append(model.page())
        count = len(items)
        head = [f"script {which:08x} {count}"]
        lines = [line(item) for item in items]
        cut = some.randrange(count + 1) if some.random() < 0.4 else None
        said = [f"open {which:08x} {count}"]
        if cut is not None:
            script.write_text("\n".join(head + lines[:cut]) + "\n")
            for reply in replies[:cut]:
                said += reply
            wanted = "\n".join(said + [f"line {cut + 2}"]) + "\n"
            status, got = run(state, script)
            if (status, got) != (4, wanted):
                wrong(seed, number, f"status {status}, first half", script.read_text(), wanted, got)
            check_page(seed, number, state, script, pages[cut], f"{which:08x} {count} {cut} open")
            said, items, replies = [], items[cut:], replies[cut:]
        script.write_text("\n".join(head + lines + ["end"]) + "\n")
        copy, copied_plant = folder / "copy", folder / "copy.plant"
        kills = None
        if some.random() < 0.5:
            shutil.copyfile(state, copy)
            shutil.copyfile(folder / "state.plant", copied_plant)
            kills = run_with_kills(some, copy, script, span)
        for reply in replies:
            said += reply
        taken = len(items) + (2 if cut is None else 1)
        wanted = "\n".join(said + ["close", f"ok {taken}"]) + "\n"
        status, got = run(state, script)
        if (status, got) != (0, wanted):
            wrong(seed, number, f"status {status}", script.read_text(), wanted, got)
        check_page(seed, number, state, script, pages[-1], f"{which:08x} {count} {count} closed")
        if kills is not None:
            lines = copied_plant.read_text().splitlines()
            again = repeats(lines, model.plant)
            if copy.read_bytes() != state.read_bytes() or again is None or again > kills:
                wrong(seed, number, f"behind {kills} kills", script.read_text(), "\n".join(model.plant), "\n".join(lines))
            model.kills += kills
        plant = "".join(act + "\n" for act in model.plant)
        if (folder / "state.plant").read_text() != plant:
            wrong(seed, number, "the plant's file", script.read_text(), plant, (folder / "state.plant").read_text())
    return len(model.plant), model.sends, model.kills


def main():
    words = sys.argv[1:]
    quick = words[:1] == ["--quick"]
    words = words[quick:]
    rounds = int(words[0]) if words else (25 if quick else 400)
    seed = int(words[1]) if len(words) > 1 else int(time.time())
    some = random.Random(seed)
    if not program.exists():
        sys.exit(f"{program} is missing: ./demo at the top proves and builds it")
    acts = sends = kills = 0
    with tempfile.TemporaryDirectory(dir="/dev/shm") as folder:
        for number in range(rounds):
            some_acts, some_sends, some_kills = play(pathlib.Path(folder), some, seed, number)
            acts, sends, kills = acts + some_acts, sends + some_sends, kills + some_kills
    print(f"{rounds} rounds, {acts} actions, {sends} traps, {kills} kills, seed {seed}: each run said and did what the model does, and so did show")


main()
