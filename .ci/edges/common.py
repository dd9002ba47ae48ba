"""What the checks of the program at the edges of a real system share."""
import os
import pathlib
import resource
import shutil
import signal
import subprocess

FILTER = "80200010ffff04ff010400000000000000000000"
GUID = "00112233445566778899aabbccddeeff"
SETTINGS = f'guid = "{GUID}"\nagent = "10.0.0.2"\nfilter = "{FILTER}"\n'
# what stands before the filter: GUID, agent address, and of the other keys the defaults: manufacturer and system ID, ports, PEF
# control, actions, delay
DEFAULTS = bytes.fromhex(GUID) + bytes([10, 0, 0, 2]) + bytes(6) + bytes([162, 0, 162, 0, 162, 0, 1, 63, 0])
MADE = bytes([0xA5, 1, 55, 0]) + DEFAULTS + bytes.fromhex(FILTER) + b"\x00"
ANOTHER_CALL = "another call of the program is at work on it"
UNFINISHED = "state: another script or capture is unfinished; finish that one first, with its own text\n"
FORMATTED = "state: it is formatted already, and was left as it is\n"


class Wrong(Exception):
    """The program did what it may not."""


def equal(got, wanted, what):
    if got != wanted:
        raise Wrong(f"{what}: {got!r}, and {wanted!r} was wanted")


def event(number):
    """A fan's event with this ID, for which the filter asks an action."""
    return number.to_bytes(2, "little") + bytes.fromhex("0200ca9a3b200004043001521020")


def script(count, ident=1, first=1):
    """A script of this many events, whose IDs count from `first`."""
    lines = "".join(f"event {event(number).hex()}\n" for number in range(first, first + count))
    return f"script {ident:08x} {count}\n{lines}end\n"


def entry(payload):
    return b"\xa5" + len(payload).to_bytes(2, "little") + payload


def opened(count, ident=1):
    return entry(b"\x05" + ident.to_bytes(4, "little") + count.to_bytes(4, "little"))


def taken(numbers, told=0):
    """The entries of events and of what their actions were told: 0 is done, 1 failed."""
    return b"".join(entry(b"\x01" + event(number)) + entry(bytes([0x10, told])) for number in numbers)


CLOSED = entry(b"\x06")


def state(*entries):
    """A state file with these entries."""
    return MADE[:-1] + b"".join(entries) + b"\x00"


def said(numbers, count, ident=1, told="done"):
    """The report of a whole script."""
    lines = "".join(f"event {number:04x}\nact diagnostic {number:04x} {told}\n" for number in numbers)
    return f"open {ident:08x} {count}\n{lines}close\nok {count + 2}\n"


def actions(numbers):
    """The plant's file."""
    return "".join(f"diagnostic {number:04x}\n" for number in numbers).encode()


class Call:
    """A program in a folder of its own, with a settings text and a script of one event."""

    def __init__(self, program, folder):
        self.program, self.folder = program, pathlib.Path(folder)
        shutil.rmtree(self.folder, ignore_errors=True)
        self.folder.mkdir()
        self.write("settings", SETTINGS)
        self.write("script", script(1))

    def write(self, name, content):
        (self.folder / name).write_bytes(content.encode() if isinstance(content, str) else content)

    def read(self, name):
        path = self.folder / name
        return path.read_bytes() if path.exists() else None

    def command(self, *words):
        return [self.program, *words]

    def run(self, *words, closed=(), limit=None, ignored=(), user=None, stdout=subprocess.PIPE, env=None):
        """Calls the program. Answers its status, what it wrote, and what it said on standard error.

        `closed` descriptors aren't open when it starts, its files have no more than `limit` octets, it ignores the signals
        `ignored`, and it has the rights of `user`."""

        def begin():
            for number in ignored:
                signal.signal(number, signal.SIG_IGN)
            if limit is not None:
                resource.setrlimit(resource.RLIMIT_FSIZE, (limit, limit))
            if user is not None:
                os.setgroups([])
                os.setgid(user)
                os.setuid(user)
            for number in closed:
                os.close(number)

        child = subprocess.run(
            self.command(*words),
            cwd=self.folder,
            stdin=subprocess.DEVNULL,
            stdout=stdout,
            stderr=subprocess.PIPE,
            preexec_fn=begin,
            env=env,
            timeout=60,
        )
        return child.returncode, (child.stdout or b"").decode(), child.stderr.decode()

    def check(self, wanted, *words, **how):
        equal(self.run(*words, **how), wanted, "pef_cli " + " ".join(words))

    def cannot(self, reason, *words, **how):
        self.check((1, "", f"cannot start\n{reason}\n"), *words, **how)
