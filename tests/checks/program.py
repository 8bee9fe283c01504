#!/usr/bin/env python3
"""End-to-end checks of the built program bin/hkrep, by subject (tests/checks/hkrep): what it prints, its status, and its standard error.

    tests/checks/program.py [SUBJECT ..]

Prints a line for each check and ends with 'N passed, M failed'. Standard library only."""
import pathlib
import sys

sys.path.append(str(pathlib.Path(__file__).resolve().parents[1] / "lib"))
from checks import ended, is_built
from hkrep import asks, devices, errors, faults, histories, items, links, world
from hkrep.running import PROGRAM

SUBJECTS = {"items": items, "faults": faults, "histories": histories, "world": world, "asks": asks, "errors": errors, "devices": devices, "links": links}


def main(words):
    if not is_built(PROGRAM):
        return ended()
    for subject in words or SUBJECTS:
        for check in SUBJECTS[subject].CHECKS:
            check()
    return ended()


if __name__ == "__main__":
    sys.exit(main(sys.argv[1:]))
