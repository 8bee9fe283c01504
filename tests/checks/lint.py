#!/usr/bin/env python3
"""The Python of clients/python and connectors: its layout by Debian's black, its style by pycodestyle, its types by mypy at its strictest
(setup.cfg has what they go by). Whichever isn't installed is skipped, and said.

    tests/checks/lint.py             a line for each check, and at the end 'N passed, M failed'
    tests/checks/lint.py --format    lays the files out, and checks nothing

Standard library only."""
import pathlib
import shutil
import subprocess
import sys

sys.path.append(str(pathlib.Path(__file__).resolve().parents[1] / "lib"))
from checks import ended, report, skip

ROOT = pathlib.Path(__file__).resolve().parents[2]
FOLDERS = ("clients/python", "connectors")
BLACK = ("black", "--quiet", "--line-length", "120", "--target-version", "py39")


def sources():
    """The modules, and the programs without a suffix that Python runs, as git knows them."""
    listed = subprocess.run(["git", "ls-files", *FOLDERS], cwd=ROOT, stdout=subprocess.PIPE, text=True, check=True).stdout.split()
    modules = [it for it in listed if it.endswith(".py")]
    return modules, [it for it in listed if "." not in pathlib.Path(it).name and is_program(ROOT / it)]


def is_program(path):
    with open(path, "rb") as it:
        first = it.readline()
    return first.startswith(b"#!") and b"python3" in first


def told(*words):
    """What a program says that finds something, line by line; nothing where it finds nothing."""
    ran = subprocess.run(words, cwd=ROOT, stdout=subprocess.PIPE, stderr=subprocess.STDOUT, text=True, check=False)
    lines = [line for line in ran.stdout.splitlines() if line.strip()]
    return lines if ran.returncode == 0 or lines else [f"{words[0]} ended with {ran.returncode}"]


def laid_out(files):
    """The files whose layout is another than black's."""
    ran = subprocess.run([it for it in BLACK if it != "--quiet"] + ["--check", *files], cwd=ROOT, stderr=subprocess.PIPE, text=True, check=False)
    lines = [line for line in ran.stderr.splitlines() if line.startswith(("would reformat", "error:"))]
    return lines if ran.returncode == 0 or lines else [ran.stderr]


def typed(modules, programs):
    """The modules in one go, and each program by itself, since several have one name."""
    problems = told("mypy", "--no-error-summary", *modules)
    for it in programs:
        problems += told("mypy", "--no-error-summary", "--follow-imports=silent", it)
    return problems


def checks(modules, programs):
    files = [*modules, *programs]
    return (("black", f"the layout of {len(files)} files", lambda: laid_out(files)),
            ("pycodestyle", f"the style of {len(files)} files", lambda: told("pycodestyle", *files)),
            ("mypy", f"the types of {len(files)} files", lambda: typed(modules, programs)))


def main(words):
    if words not in ([], ["--format"]):
        print("usage: tests/checks/lint.py [--format]", file=sys.stderr)
        return 2
    modules, programs = sources()
    if words:
        return subprocess.run([*BLACK, *modules, *programs], cwd=ROOT, check=False).returncode
    for tool, name, check in checks(modules, programs):
        if shutil.which(tool):
            report(name, check())
        else:
            skip(f"{tool} is not installed: {name}, not looked at")
    return ended()


if __name__ == "__main__":
    sys.exit(main(sys.argv[1:]))
