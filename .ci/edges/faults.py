"""Faults of the system: what is answered and said, and what is left in the state file."""
import os
import signal

from common import CLOSED, MADE, equal, opened, said, script, state, taken

NOBODY = 65534
FULL = "No space left on device (os error 28)"
DENIED = "Permission denied (os error 13)"


def check(make):
    files(make)
    rights(make)
    devices(make)
    limits(make)
    outputs(make)


def files(make):
    """Files that are missing or folders."""
    one = make()
    (one.folder / "folder").mkdir()
    missing = "No such file or directory (os error 2)"
    is_folder = "Is a directory (os error 21)"
    for words, reason in (
        (("init", "state", "missing"), f"missing: {missing}"),
        (("init", "missing/state", "settings"), f"missing/state: {missing}"),
        (("run", "state", "script"), f"state: {missing}"),
        (("init", "folder", "settings"), f"folder: {is_folder}"),
        (("run", "folder", "script"), f"folder: {is_folder}"),
    ):
        one.cannot(reason, *words)
    equal(sorted(os.listdir(one.folder)), ["folder", "script", "settings"], "the files behind calls that couldn't start")
    one.check((6, "input failed\n", f"folder: reading it: {is_folder}\n"), "init", "state", "folder")
    equal(one.read("state"), b"", "the state file of settings that are a folder")
    one.run("init", "state", "settings")
    one.check((6, "input failed\n", f"folder: reading it: {is_folder}\n"), "run", "state", "folder")
    equal(one.read("state"), MADE, "the state file of a script that is a folder")


def rights(make):
    """Files and folders that this user may not open. The super-user may open all, so these calls have another user's rights."""
    if os.getuid() != 0:
        print("pef_cli: the rows on rights are shown by the super-user alone")
        return
    one = make()
    one.run("init", "state", "settings")
    for name, mode, words, reason in (
        ("state", 0o444, ("run", "state", "script"), f"state: {DENIED}"),
        ("state", 0o000, ("run", "state", "script"), f"state: {DENIED}"),
        ("settings", 0o000, ("init", "other", "settings"), f"settings: {DENIED}"),
        ("state.plant", 0o444, ("run", "state", "script"), f"state.plant: {DENIED}"),
        # the last octet says whether the last line has its end
        ("state.plant", 0o222, ("run", "state", "script"), f"state.plant: {DENIED}"),
        (".", 0o755, ("init", "other", "settings"), f"other: {DENIED}"),
    ):
        (one.folder / "state.plant").write_bytes(b"oem 0000\n")
        for open_to_all in (".", "state", "state.plant", "settings", "script"):
            (one.folder / open_to_all).chmod(0o777)
        (one.folder / name).chmod(mode)
        one.cannot(reason, *words, user=NOBODY)
        equal(one.read("state"), MADE, f"the state file where {name} has rights {mode:o}")


def devices(make):
    """A device that takes nothing, as the state file."""
    one = make()
    (one.folder / "full").symlink_to("/dev/full")
    one.check((7, "disk failed\n", "full: syncing it: Invalid argument (os error 22)\n"), "init", "full", "settings")
    one.check((7, "disk failed\n", "full: syncing it: Invalid argument (os error 22)\n"), "run", "full", "script")


def limits(make):
    """A limit on the length of files, at each length up to that of the whole file: as a full disk, it comes in the middle of a write."""
    whole = state(opened(1), taken([1]), CLOSED)
    for limit in range(0, len(whole) + 1):
        one = make()
        status, out, err = one.run("init", "state", "settings", limit=limit, ignored=[signal.SIGXFSZ])
        if limit < len(MADE):
            equal((status, out), (7, "disk failed\n"), f"init with {limit} octets")
            equal(err.startswith("state: writing "), True, f"what init said with {limit} octets")
            equal(one.read("state")[:1] != b"\xa5", True, f"the state file isn't formatted with {limit} octets")
            one.check((0, "ok 0\n", ""), "init", "state", "settings")
        equal(one.read("state"), MADE, "the state file of init")
        status, out, err = one.run("run", "state", "script", limit=limit, ignored=[signal.SIGXFSZ])
        if limit < len(whole):
            equal((status, out.endswith("disk failed\n")), (7, True), f"run with {limit} octets")
            equal(err.startswith("state: writing "), True, f"what run said with {limit} octets")
            equal(one.run("run", "state", "script")[0], 0, f"the call behind a limit of {limit}")
        equal(one.read("state"), whole, "the state file at last")
        lines = one.read("state.plant").splitlines()
        # the step that was due may be issued again in each call
        equal(set(lines) == {b"diagnostic 0001"} and len(lines) <= 2, True, f"the plant's lines with {limit} octets")

    # whoever doesn't ignore the signal is killed by it, and the file is as behind any kill
    one = make()
    one.run("init", "state", "settings")
    equal(one.run("run", "state", "script", limit=70)[0], -signal.SIGXFSZ, "run with a limit and its signal")
    one.check((0, said([1], 1), ""), "run", "state", "script")


def outputs(make):
    """An output that takes nothing."""
    one = make()
    one.run("init", "state", "settings")
    with open("/dev/full", "wb") as full:
        said_of_full = f"standard output: writing the report: {FULL}\n"
        one.check((8, "", said_of_full), "run", "state", "script", stdout=full)
        equal(one.read("state"), state(opened(1)), "the state file of a full output")
        one.check((8, "", said_of_full), "init", "other", "settings", stdout=full)
        equal(one.read("other"), MADE, "the state file of init with a full output")

    def broken():
        end, pipe = os.pipe()
        os.close(end)
        try:
            return one.run("run", "state", "script", stdout=pipe)
        finally:
            os.close(pipe)

    # the program's start ignores the signal
    wanted = (8, "", "standard output: writing the report: Broken pipe (os error 32)\n")
    equal(broken(), wanted, "run with a broken pipe")
    equal(one.run("run", "state", "script")[0], 0, "the call behind a broken pipe")
    equal(one.read("state"), state(opened(1), taken([1]), CLOSED), "the state file behind a broken pipe")
