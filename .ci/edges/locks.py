"""Several calls on one state file: one of them works, and the others are refused before they read or write."""
import os
import pathlib
import random
import subprocess
import threading
import time

from common import ANOTHER_CALL, CLOSED, Wrong, actions, equal, opened, said, script, state, taken

EVENTS = 20


def has_lock(process):
    """Whether this process has a lock on one of its files."""
    infos = pathlib.Path(f"/proc/{process}/fdinfo")
    return any("FLOCK" in info.read_text() for info in infos.iterdir())


class Overlap:
    """A call of `run` that waits in its script, behind so many of its lines."""

    def __init__(self, call, text, lines, wait=has_lock):
        # the script comes through a pipe, so the call ends when it is let
        pipe = call.folder / "pipe"
        pipe.unlink(missing_ok=True)
        os.mkfifo(pipe)
        self.child = subprocess.Popen(
            call.command("run", "state", "pipe"), cwd=call.folder, stdout=subprocess.PIPE, stderr=subprocess.PIPE
        )
        self.script = open(pipe, "wb", buffering=0)
        parts = text.encode().splitlines(keepends=True)
        self.rest = b"".join(parts[lines:])
        self.script.write(b"".join(parts[:lines]))
        end = time.monotonic() + 30
        while not wait(self.child.pid):
            if self.child.poll() is not None or time.monotonic() > end:
                raise Wrong("a call of run takes no lock")
            time.sleep(0.001)

    def end(self):
        """Lets the call go on to its end."""

        def feed():
            self.script.write(self.rest)
            self.script.close()

        feeder = threading.Thread(target=feed)
        feeder.start()
        out, err = self.child.communicate(timeout=60)
        feeder.join()
        return self.child.returncode, out.decode(), err.decode()

    def kill(self):
        self.child.kill()
        self.child.communicate()
        self.script.close()


def check(make, rounds=30):
    """So many overlapping calls with the same script, and so many with another one."""
    rng = random.Random(1)
    numbers = range(1, EVENTS + 1)
    text = script(EVENTS)
    whole = state(opened(EVENTS), taken(numbers), CLOSED)
    for other in (text, script(EVENTS, ident=2, first=101)):
        for _ in range(rounds):
            one = make()
            one.run("init", "state", "settings")
            one.write("script", other)
            first = Overlap(one, text, rng.randint(0, EVENTS + 1))
            one.cannot(f"state: {ANOTHER_CALL}", "run", "state", "script")
            one.cannot(f"state: {ANOTHER_CALL}", "init", "state", "settings")
            equal(first.end(), (0, said(numbers, EVENTS), ""), "the call that came first")
            equal(one.read("state"), whole, "the state file of two calls")
            equal(one.read("state.plant"), actions(numbers), "the plant's file of two calls")
    kill(make, text)


def kill(make, text):
    """The lock goes with the process."""
    one = make()
    one.run("init", "state", "settings")
    one.write("script", text)
    Overlap(one, text, EVENTS // 2).kill()
    equal(one.run("run", "state", "script")[0], 0, "the call behind one that was killed")
