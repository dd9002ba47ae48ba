"""Calls the proved program at the edges of a real system, and says which of them aren't as they must be.

usage: run.py PROGRAM"""
import pathlib
import sys
import tempfile

sys.dont_write_bytecode = True

import alerts
import console
import descriptors
import faults
import live
import locks
import plant
import reasons
import same_file
from common import Call, Wrong


def main(program):
    # in memory, where a sync costs nothing; a folder that another user may go through
    memory = "/dev/shm" if pathlib.Path("/dev/shm").is_dir() else None
    with tempfile.TemporaryDirectory(dir=memory) as folder:
        pathlib.Path(folder).chmod(0o755)
        count = 0

        def make():
            nonlocal count
            count += 1
            return Call(program, f"{folder}/{count}")

        wrong = 0
        for part in (descriptors, locks, plant, same_file, faults, reasons, console, alerts, live):
            try:
                part.check(make)
            except Wrong as fault:
                wrong += 1
                print(f"{part.__name__}: {fault}", file=sys.stderr)
    if wrong:
        sys.exit(f"{wrong} of the edges aren't as they must be")
    print("pef_cli: closed descriptors, locks, the plant's file, faults of the system, a console, alerts and what comes from the network are right")


main(str(pathlib.Path(sys.argv[1]).resolve()))
