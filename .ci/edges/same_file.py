"""`init` on a state file that is the settings by whatever name."""
import os

from common import SETTINGS, equal


def check(make):
    for name in ("settings", "./settings", "soft", "hard", "/absolute"):
        one = make()
        (one.folder / "soft").symlink_to("settings")
        os.link(one.folder / "settings", one.folder / "hard")
        if name == "/absolute":
            name = str(one.folder / "settings")
        for words in ((name, "settings"), ("settings", name)):
            one.cannot(f"{words[1]}: it is the state file and the settings at once", "init", *words)
            equal(one.read("settings"), SETTINGS.encode(), f"the settings behind init {' '.join(words)}")
        equal(sorted(os.listdir(one.folder)), ["hard", "script", "settings", "soft"], "the files behind init")
