"""The plant's file: opened before anything is taken, and no line of it is glued to another one."""
import os
import signal

from common import CLOSED, actions, equal, opened, said, script, state, taken

CUT = "the first step that failed: appending an action to the plant's file: "


def check(make):
    opened_first(make)
    cut_before(make)
    cut_in_a_call(make)
    full(make)


def opened_first(make):
    """What can't be opened is found out before anything is taken."""
    one = make()
    one.run("init", "state", "settings")
    made = one.read("state")
    equal(one.read("state.plant"), b"", "the plant's file of init")
    (one.folder / "state.plant").unlink()
    (one.folder / "state.plant").mkdir()
    one.cannot("state.plant: Is a directory (os error 21)", "run", "state", "script")
    (one.folder / "state.plant").rmdir()
    os.symlink("missing/plant", one.folder / "state.plant")
    one.cannot("state.plant: No such file or directory (os error 2)", "run", "state", "script")
    (one.folder / "state.plant").unlink()
    for link in (os.symlink, os.link):
        link(one.folder / "state", one.folder / "state.plant")
        one.cannot("state.plant: it is the state file itself", "run", "state", "script")
        (one.folder / "state.plant").unlink()
    equal(one.read("state"), made, "the state file of calls that couldn't start")


def cut_before(make):
    """A line that an earlier call left without its end keeps it to itself."""
    for left in (b"diag", b"reset 0007"):
        one = make()
        one.run("init", "state", "settings")
        one.write("state.plant", left)
        one.check((0, said([1], 1), ""), "run", "state", "script")
        equal(one.read("state.plant"), left + b"\n" + actions([1]), "the plant's file")


def cut_in_a_call(make):
    """A write that is cut short is a failed outcome, and the next action begins a line of its own."""
    limit = 1024
    for room in range(0, 16):
        one = make()
        one.run("init", "state", "settings")
        before = b"oem 0000\n" * 100
        before += b"x" * (limit - room - 1 - len(before)) + b"\n"
        one.write("state.plant", before)
        reason = "File too large (os error 27)" if room == 0 else "only a part of the line was written"
        one.check(
            (0, said([1], 1, told="failed"), f"{CUT}{reason}\n"),
            *("run", "state", "script"),
            limit=limit,
            ignored=[signal.SIGXFSZ],
        )
        line = actions([1])
        equal(one.read("state.plant"), before + line[:room], f"the plant's file with room for {room}")
        one.write("script", script(2, ident=2, first=2))
        one.check((0, said([2, 3], 2, ident=2), ""), "run", "state", "script")
        middle = b"\n" if room else b""
        equal(one.read("state.plant"), before + line[:room] + middle + actions([2, 3]), "the plant's file behind it")
        whole = state(opened(1), taken([1], told=1), CLOSED, opened(2, ident=2), taken([2, 3]), CLOSED)
        equal(one.read("state"), whole, "the state file")


def full(make):
    """A plant that takes nothing: each action fails, and the call ends as ever."""
    one = make()
    one.run("init", "state", "settings")
    (one.folder / "state.plant").unlink()
    os.symlink("/dev/full", one.folder / "state.plant")
    one.check((0, said([1], 1, told="failed"), f"{CUT}No space left on device (os error 28)\n"), "run", "state", "script")
    equal(one.read("state"), state(opened(1), taken([1], told=1), CLOSED), "the state file")
