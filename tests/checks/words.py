#!/usr/bin/env python3
"""Checks that the contracts of public functions keep within 110 columns, that no clause of any function is longer than 120
letters, and that few are longer than 100.

Looks at crates/*/src. Prints each place where a clause is too wide or too long, and at the end 'N passed, M failed'.
"""

import pathlib
import re
import sys

# the widest line of a clause of a public function
MOST_COLUMNS = 110

# the longest clause of any function, and how many may be longer than the shorter bound, in letters between its braces
MOST_LETTERS = 120
FEW_LETTERS, MOST_LONG = 100, 60


def exported(crate):
    """The names and the modules that a crate's lib.rt hands on: only what has one of these names, or stands in one of these
    modules, is public, whatever `pub` stands before it."""
    path = crate / "src" / "lib.rt"
    text = path.read_text(encoding="utf-8") if path.is_file() else ""
    names = {name for use in re.findall(r"^pub use ([^;]*);", text, re.M) for name in re.findall(r"\w+", use)}
    return names, set(re.findall(r"^pub mod (\w+);", text, re.M))


def wide_clauses(root):
    """The lines of clauses of public functions that are wider than 110 columns."""
    for crate in sorted(root.glob("crates/*")):
        names, modules = exported(crate)
        for path in sorted(crate.glob("src/**/*.rt")):
            is_whole = not modules.isdisjoint(path.relative_to(crate / "src").with_suffix("").parts)
            yield from wide_clauses_of(root, path, None if is_whole else names)


def wide_clauses_of(root, path, names):
    """Those of a file, of the functions that have one of these names, or stand with a type or trait that has; None stands for all."""
    owner, is_public, depth = "", False, 0
    for number, line in enumerate(path.read_text(encoding="utf-8").split("\n"), 1):
        head = re.match(r"(?:pub )?(?:impl\b(?:<.*?>)?(?: .* for)? (\w+)|trait (\w+))", line)
        if head:
            owner = head.group(1) or head.group(2)
        elif line.startswith("}"):
            owner = ""
        function = re.match(r"\s*(pub(?:\([a-z]+\))? )?(?:const )?fn (\w+)", line)
        if function:
            is_public = function.group(1) == "pub " and (names is None or (owner or function.group(2)) in names)
        starts = re.match(r"\s*(requires|ensures)\b", line)
        if (starts or depth > 0) and is_public and len(line) > MOST_COLUMNS:
            yield "%s:%d: %d columns" % (path.relative_to(root), number, len(line))
        if starts or depth > 0:
            depth += line.count("{") - line.count("}")


def clauses(text):
    """Each clause of a source: where its keyword stands, and what stands between its braces, its blanks folded."""
    for found in re.finditer(r"\b(?:requires|ensures)\*?\s+(?:\w+\s+)?\{", text):
        depth, end = 1, found.end()
        while depth and end < len(text):
            depth += {"{": 1, "}": -1}.get(text[end], 0)
            end += 1
        yield found.start(), " ".join(text[found.end() : end - 1].split())


def long_clauses(root):
    """The clauses of all functions that are longer than 120 letters, and the number of those longer than 100 where that is too high."""
    long = 0
    for path in sorted(root.glob("crates/*/src/**/*.rt")):
        text = path.read_text(encoding="utf-8")
        for start, clause in clauses(text):
            long += len(clause) > FEW_LETTERS
            if len(clause) > MOST_LETTERS:
                yield "%s:%d: %d letters" % (path.relative_to(root), text.count("\n", 0, start) + 1, len(clause))
    if long > MOST_LONG:
        yield "%d clauses are longer than %d letters, and %d may be" % (long, FEW_LETTERS, MOST_LONG)


def main():
    root = pathlib.Path(__file__).resolve().parents[2]
    if len(sys.argv) > 1:
        print("usage: tests/checks/words.py", file=sys.stderr)
        return 2
    failed = 0
    wide = list(wide_clauses(root))
    failed += bool(wide)
    for place in wide:
        print("FAILED clause too wide: %s" % place)
    long = list(long_clauses(root))
    failed += bool(long)
    for place in long:
        print("FAILED clause too long: %s" % place)
    print("%d passed, %d failed" % (2 - failed, failed))
    return 1 if failed else 0


if __name__ == "__main__":
    sys.exit(main())
