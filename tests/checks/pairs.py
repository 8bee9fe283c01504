#!/usr/bin/env python3
"""Nothing is written twice: no ten lines of code stand in two places, and no ten lines of specs and proofs; and few places share six.

    tests/checks/pairs.py           two checks for each kind, and at the end 'N passed, M failed'
    tests/checks/pairs.py LEAST     prints each pair of places that share so many lines, also those that are known: by hand

Lines count without their blanks; empty ones, comments, lone brackets and imports don't count. A pair that stands is in KNOWN with its reason: one
that isn't there fails, and so does one that is there and is gone. Standard library only."""
import pathlib
import re
import sys

sys.path.append(str(pathlib.Path(__file__).resolve().parents[1] / "lib"))
from checks import ended, report

ROOT = pathlib.Path(__file__).resolve().parents[2]
LEAST = 10
# so many lines are shared by so many pairs of places at most, by kind
SHORT, MOST = 6, {"code": 69, "specs and proofs": 18}
KINDS = {"code": ("*/src/**/*.rt",), "specs and proofs": ("*/specs/**/*.antt", "*/proofs/**/*.antt")}
SKIPPED = re.compile(r"(//|--|use |pub use |ghost use |pub mod |mod |import |[\W_]*$)")

# the pairs of files that stand, by kind, each with why one piece doesn't serve for both
KNOWN = {
    "code": {
        ("hk_session/src/serving.rt", "hk_session/src/serving.rt"): "serve and serve_bytes say of one loop what each caller sees of it",
        ("hk_state/src/apply.rt", "hk_state/src/apply.rt"): "a join and a merge end alike; they go with the one way to put a version",
        ("hk_state/src/learn.rt", "hk_state/src/learn.rt"): "the same of what is learnt",
    },
    "specs and proofs": {
        ("hk_state/proofs/replica/ReplicaState/absorb_entry/Answers.antt", "hk_state/proofs/replica/ReplicaState/absorb_entry/Answers.antt"):
            "one answer for each of two ways out of a function",
    },
}


def counted(path):
    """The lines of a file that count, each with its number."""
    found = []
    for number, line in enumerate(path.read_text(encoding="utf-8").splitlines(), 1):
        text = " ".join(line.split())
        if not SKIPPED.match(text):
            found.append((number, text))
    return found


def files(patterns):
    return sorted({path for pattern in patterns for path in (ROOT / "crates").glob(pattern) if "out" not in path.parts})


def windows(lines, least):
    """Each run of so many lines of a file that count: where it begins, and the lines."""
    for at in range(len(lines) - least + 1):
        yield at, tuple(text for _, text in lines[at:at + least])


def length(one, one_at, other, other_at):
    """How many lines two places share from there on."""
    shared = 0
    while one_at + shared < len(one) and other_at + shared < len(other) and one[one_at + shared][1] == other[other_at + shared][1]:
        shared += 1
    return shared


def pairs(patterns, least):
    """Each pair of places: the names of their files, where each begins, and how many lines they share. Places inside one file don't overlap."""
    texts = {str(path.relative_to(ROOT / "crates")): counted(path) for path in files(patterns)}
    first, covered = {}, set()
    for name, lines in texts.items():
        for at, window in windows(lines, least):
            for other, other_at in first.setdefault(window, []):
                if (other, other_at - 1, name, at - 1) in covered:
                    covered.add((other, other_at, name, at))
                elif other != name or at - other_at >= least:
                    covered.add((other, other_at, name, at))
                    shared = length(texts[other], other_at, lines, at)
                    yield (other, name), texts[other][other_at][0], lines[at][0], shared
            first[window].append((name, at))


def check(kind, patterns):
    known, found = KNOWN[kind], {}
    for names, start, other, shared in pairs(patterns, LEAST):
        found.setdefault(names, []).append(f"{names[0]}:{start} ~ {names[1]}:{other}, {shared} lines")
    problems = [place for names, places in found.items() if names not in known for place in places]
    gone = [f"{' ~ '.join(names)} is gone: take it out of KNOWN" for names in known if names not in found]
    report(f"no {LEAST} lines of {kind} stand in two places, but in {len(known)} pairs of files that are known", problems + gone)
    count = len(list(pairs(patterns, SHORT)))
    report(f"at most {MOST[kind]} pairs of places in {kind} share {SHORT} lines", [f"{count} do"] if count > MOST[kind] else [])


def main(words):
    for kind, patterns in KINDS.items():
        if words:
            for names, start, other, shared in sorted(pairs(patterns, int(words[0])), key=lambda it: -it[3]):
                print(f"{shared:4} {names[0]}:{start} ~ {names[1]}:{other}")
        else:
            check(kind, patterns)
    return 0 if words else ended()


if __name__ == "__main__":
    sys.exit(main(sys.argv[1:]))
