"""What is said of files and texts that make no sense, and of a file that is full."""
from common import CLOSED, FILTER, MADE, SETTINGS, UNFINISHED, entry, equal, event, opened, script, state


def check(make):
    one = make()
    one.write("other", script(1, ident=2))
    gate = len(MADE) - 1
    for content, reason in (
        (b"", "no header of a controller's state file at octet 0; is it the right file, and was it made by init?"),
        (b"\x00" + MADE[1:], "no header of a controller's state file at octet 0; is it the right file, and was it made by init?"),
        (b"\xa5\x02\x02\x00\x6f\x02\x00", "no header of a controller's state file at octet 0; is it the right file, and was it made by init?"),
        (MADE[:-1], "no header of a controller's state file at octet 0; is it the right file, and was it made by init?"),
        (state(opened(1))[:-1], f"broken at octet {gate}: no whole entry stands there"),
        (state(opened(1), b"\xa5\xff\xff"), f"broken at octet {gate + 12}: no whole entry stands there"),
        (state(CLOSED), f"broken at octet {gate}: the entry there is whole, but unknown or out of order"),
        (state(opened(1), b"\xa5\x01\x00\x99"), f"broken at octet {gate + 12}: the entry there is whole, but unknown or out of order"),
    ):
        one.write("state", content)
        one.check((3, "unformatted\n", f"state: {reason}\n"), "run", "state", "script")
        equal(one.read("state"), content, "a state file that makes no sense")
    one.write("state", b"")
    keys = "manufacturer, system, pet_port, oem1_port, oem2_port, control, actions, delay and filter"
    expected = f"settings: expected a TOML document with guid and agent, and no other keys than {keys}\n"
    for content, word in (
        (f'filter = "{FILTER}"\n', "guid"),
        (SETTINGS.replace("agent", "agents"), "agent"),
        (SETTINGS + "delay = 256\nx = 1\n", "delay"),
        (SETTINGS + "x = 1\n", "unknown"),
        (SETTINGS + "x\n", "text"),
        (SETTINGS + "\n" * 65_537, "long"),
    ):
        one.write("settings", content)
        one.check((4, f"settings {word}\n", expected), "init", "state", "settings")
        equal(one.read("state"), b"", "the state file of settings that are refused")
    one.write("state", state(opened(3)))
    one.check((5, "unfinished 00000001 3\n", UNFINISHED), "run", "state", "other")
    expected = "script: expected script ID COUNT, then COUNT lines event, cmd, frame, tick or power, then end\n"
    for content, line in ((script(3)[:-4], 5), ("script 00000001 3\ntack\n", 2), ("", 1)):
        one.write("state", state())
        one.write("script", content)
        status, out, err = one.run("run", "state", "script")
        equal((status, out.splitlines()[-1], err), (4, f"line {line}", expected), "a script that makes no sense")
    one.write("script", script(1))
    # events under one ID are logged once, and this one asks for no action
    quiet = entry(b"\x01" + event(1)[:13] + b"\x53" + event(1)[14:])
    room = 16_777_216 - len(state(opened(0), CLOSED))
    content = state(opened(0), CLOSED, quiet * (room // len(quiet)))
    one.write("state", content)
    most = "state: there is no room for the next entry; a state file has at most 16,777,216 octets; make a new one with init\n"
    one.check((9, "full\n", most), "run", "state", "script")
    equal(one.read("state") == content, True, "a state file that is full stays as it is")
