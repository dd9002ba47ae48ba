"""Standard descriptors that are closed when the program starts: no file of the call takes their place."""
from itertools import product

from common import CLOSED, MADE, SETTINGS, actions, equal, opened, said, script, state, taken

WHOLE = state(opened(1), taken([1]), CLOSED)
FORMS = "init STATE SETTINGS\ninit-console STATE SETTINGS\nrun STATE SCRIPT\nreceive STATE CAPTURE\nlive STATE IP:PORT ARRIVALS\nlisten STATE IP:PORT ARRIVALS\nshow STATE\nlist STATE\n"
# where standard output is closed
NO_OUTPUT = "standard output: writing the report: Bad file descriptor (os error 9)\n"


def check(make):
    """Every combination with init, with run, and with words that are no form."""
    for which in product((False, True), repeat=3):
        closed = [number for number in range(3) if which[number]]
        one = make()
        heard = "" if which[2] else None  # nothing is heard of what is said on a closed descriptor

        def wanted(status, out, err):
            return (8 if which[1] and status == 0 else status, "" if which[1] else out, err if heard is None else heard)

        one.check(wanted(2, "usage\n", FORMS), closed=closed)
        one.check(wanted(0, "ok 0\n", NO_OUTPUT if which[1] else ""), "init", "state", "settings", closed=closed)
        equal(one.read("state"), MADE, f"the state file with {closed} closed")
        equal(one.read("settings"), SETTINGS.encode(), f"the settings with {closed} closed")

        one.check(wanted(0, said([1], 1), NO_OUTPUT if which[1] else ""), "run", "state", "script", closed=closed)
        # with no output the call ends behind the entry whose line can't be written
        equal(one.read("state"), state(opened(1)) if which[1] else WHOLE, f"the state file with {closed} closed")
        one.run("run", "state", "script")
        equal(one.read("state"), WHOLE, "the state file of the next call")
        equal(one.read("state.plant"), actions([1]), "the plant's file of the next call")
        equal(one.read("script"), script(1).encode(), f"the script with {closed} closed")
