#!/usr/bin/env python3
"""Checks tests/side_by_side, by which the gate runs these checks, over small ones: what is printed comes in the order in which they are named, those that
are to be alone are, one that hangs fails by its name, and nothing is left running where it is interrupted or ended.

Prints a line for each check and ends with 'N passed, M failed'. Standard library only."""
import os
import pathlib
import signal
import subprocess
import sys
import tempfile
import time

sys.path.append(str(pathlib.Path(__file__).resolve().parents[1] / "lib"))
from checks import differ, ended, guarded, report

ROOT = pathlib.Path(__file__).resolve().parents[2]
PROGRAM = ROOT / "tests" / "side_by_side"
LIMIT = 120
# a check that says its word when it begins and when it ends, and waits in between for a file, or until the seconds are over
WAITS = """import pathlib, sys, time
word, file, seconds = sys.argv[1:]
print(word, "begins", flush=True)
deadline = time.monotonic() + float(seconds)
while not pathlib.Path(file).exists() and time.monotonic() < deadline:
    time.sleep(0.01)
pathlib.Path(word).touch()
print(word, "ends" if pathlib.Path(file).exists() else "waited in vain")
"""
# one that starts a program in a session of its own, says its number, and takes no notice of an interrupt
HANGS = """import signal, subprocess, sys
signal.signal(signal.SIGINT, signal.SIG_IGN)
child = subprocess.Popen(["sleep", "300"], start_new_session=True)
open("pid", "w").write(f"{child.pid}\\n")
child.wait()
"""


def begun(folder, *lines, **more):
    """The program with checks of that folder."""
    logs = folder / "logs"
    logs.mkdir()
    for name, text in (("waits.py", WAITS), ("hangs.py", HANGS)):
        (folder / name).write_text(text, encoding="utf-8")
    return subprocess.Popen([PROGRAM, logs, *(f"{folder}/{line}" for line in lines)], cwd=folder, stdout=subprocess.PIPE, stderr=subprocess.STDOUT, text=True,
                            env={**os.environ, **more})


def is_running(pid):
    try:
        return (pathlib.Path("/proc") / str(pid) / "stat").read_text(encoding="ascii").rpartition(")")[2].split()[0] != "Z"
    except OSError:
        return False


def in_order():
    """The second one ends before the first, and is printed behind it; the third, which is to be alone, begins when both have ended."""
    with tempfile.TemporaryDirectory() as name:
        folder = pathlib.Path(name)
        lines = ("waits.py one two 60", "waits.py two one 0 # first: it is waited for", "waits.py three two 0 # alone: it is asked for", "waits.py four three 0")
        said, _ = begun(folder, *lines).communicate(timeout=LIMIT)
        logs = [(folder / "logs" / f"{number:02}").read_text(encoding="utf-8") for number in range(4)]
    report("what checks say is printed in their order", differ([("what is printed", said, "".join(logs)), ("the first two, begun the other way", logs[:2], [
        "one begins\none ends\n", "two begins\ntwo waited in vain\n"]), ("one alone, and one before it", logs[2:], ["three begins\nthree ends\n", "four begins\nfour waited in vain\n"])]))


def hung():
    """A check that takes longer than it may fails by its name, and the others are run."""
    with tempfile.TemporaryDirectory() as name:
        folder = pathlib.Path(name)
        with begun(folder, "hangs.py", "waits.py other never 0", CHECK_LIMIT="5") as child:
            said, _ = child.communicate(timeout=LIMIT)
        pid = int((folder / "pid").read_text(encoding="ascii"))
        report("a check that hangs", differ([("what is printed", said.replace(name, ""), "\nFAILED /hangs.py: it took longer than 5 s, and was ended\n0 passed, 1 failed\n"
                                               "other begins\nother waited in vain\n"), ("what it started runs", is_running(pid), False)]))


def ended_by(number):
    """Nothing is left of a check where the program is interrupted or ended."""
    with tempfile.TemporaryDirectory() as name:
        folder, deadline = pathlib.Path(name), time.monotonic() + LIMIT
        with begun(folder, "hangs.py", "waits.py other never 300") as child:
            while not (folder / "pid").exists() or not (folder / "pid").read_text(encoding="ascii").endswith("\n"):
                if time.monotonic() > deadline:
                    break
                time.sleep(0.01)
            pid = int((folder / "pid").read_text(encoding="ascii"))
            child.send_signal(number)
            child.communicate(timeout=LIMIT)
        report(f"ended by {signal.Signals(number).name}", differ([("status", child.returncode, -number), ("what a check started runs", is_running(pid), False)]))


def main():
    guarded(in_order)
    guarded(hung)
    for number in (signal.SIGINT, signal.SIGTERM):
        guarded(ended_by, number)
    return ended()


if __name__ == "__main__":
    sys.exit(main())
