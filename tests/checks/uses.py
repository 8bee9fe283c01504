#!/usr/bin/env python3
"""A `use` names the crate that defines what it brings in, and not one that hands it on; and lines of tactics can be read.

    tests/checks/uses.py            a line for each, and at the end 'N passed, M failed'

hk_tests and use_library stand for strangers: they take what is handed on, by the names that callers know. Standard library only."""
import pathlib
import re
import sys

sys.path.append(str(pathlib.Path(__file__).resolve().parents[1] / "lib"))
from checks import ended, report

CRATES = pathlib.Path(__file__).resolve().parents[2] / "crates"
STRANGERS = {"hk_tests", "use_library"}
DEFINED = re.compile(r"^pub (?:const |unsafe )*(?:fn|struct|enum|trait|type|const|static|mod) (\w+)", re.M)
USED = re.compile(r"^use (hk_\w+)::([^;]+);", re.M)
# so long is a line of tactics at most
LONGEST = 140


def texts():
    """The text of each source, by its crate and name."""
    found = {}
    for path in sorted(CRATES.glob("*/src/**/*.rt")):
        found.setdefault(path.relative_to(CRATES).parts[0], {})[str(path.relative_to(CRATES))] = path.read_text(encoding="utf-8")
    return found


def last_names(tail):
    """What a use brings in, by its own name."""
    return re.findall(r"(\w+)(?: as \w+)?\s*(?=[,}]|$)", tail.strip())


def handed_on(crates):
    """Each use of a name that the crate which it names doesn't define."""
    defined = {crate: {name for text in files.values() for name in DEFINED.findall(text)} for crate, files in crates.items()}
    for crate, files in crates.items():
        for name, text in files.items():
            for other, tail in USED.findall(text) if crate not in STRANGERS else ():
                yield from (f"{name}: {it} isn't {other}'s" for it in last_names(tail) if it not in defined[other])


def long_tactics(crates):
    lines = [(name, line) for files in crates.values() for name, text in files.items() for line in text.splitlines() if "#[tactic(" in line]
    return [f"{name}: {len(line)} letters" for name, line in lines if len(line) > LONGEST]


def main():
    crates = texts()
    report("each use names the crate that defines", list(handed_on(crates)))
    report(f"lines of tactics have at most {LONGEST} letters", long_tactics(crates))
    return ended()


if __name__ == "__main__":
    sys.exit(main())
