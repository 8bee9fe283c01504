#!/usr/bin/env python3
"""Nothing is said twice: no nine words of a sentence stand in two pages one after the other, and no sentence of nine words twice in one.

    tests/checks/doubles.py           a line for each that does, and at the end 'N passed, M failed'
    tests/checks/doubles.py PAGE ..   of these pages alone

Pages are all that a reader opens (README.md, CHANGELOG.md, docs, bench, uses, examples); not the CALLING.md of crates, which
docs/calling writes off the sources, and not listings, commands, or heads of tables. Links, quotes and stress count as the words in them."""
import pathlib
import re
import sys

sys.path.append(str(pathlib.Path(__file__).resolve().parents[1] / "lib"))
from checks import ended, report

ROOT = pathlib.Path(__file__).resolve().parents[2]
LEAST = 9


def pages():
    """Every page, by its name from the top of the tree."""
    found = [*ROOT.glob("*.md"), *(ROOT / "docs").glob("**/*.md"), *(ROOT / "bench").glob("*.md"), *(ROOT / "uses").glob("*.md"),
             *(ROOT / "examples").glob("**/*.md")]
    return {str(it.relative_to(ROOT)): it.read_text(encoding="utf-8") for it in sorted(found)}


def blocks(text):
    """Paragraphs, points of lists and cells of tables, without listings, commands, headings and heads of tables."""
    text = re.sub(r"^```.*?^```$", "", text, flags=re.M | re.S)
    lines = text.split("\n")
    kept = []
    for number, line in enumerate(lines):
        is_head = number + 1 < len(lines) and re.match(r"\|[-|: ]+\|$", lines[number + 1])
        if line.startswith(("    ", "#")) or is_head or re.match(r"\|[-|: ]+\|$", line):
            kept.append("")
        elif line.startswith("|"):
            kept += ["", *("\n" + cell + "\n" for cell in line.strip("|").split(" | ")), ""]
        else:
            kept += ["", line] if re.match(r"\s*([-*]|\d+\.) ", line) else [line]
    return [it for it in re.split(r"\n\s*\n", "\n".join(kept)) if it.strip()]


def words(sentence):
    """The words of a sentence, without what stresses, quotes or links them."""
    sentence = re.sub(r"!?\[([^\]]*)\]\([^)]*\)", r"\1", sentence)
    return tuple(re.findall(r"[\w^/.<>=-]*\w", sentence.lower()))


def sentences(text):
    """The sentences of a page, as words."""
    for block in blocks(text):
        for sentence in re.split(r"(?<=[.!?])[*\")]*\s+(?=\S)", " ".join(block.split())):
            found = words(sentence)
            if found:
                yield found


def doubled(texts):
    """Each sentence of nine words or more that stands twice, with its pages."""
    places = {}
    for name, text in texts.items():
        for sentence in sentences(text):
            if len(sentence) >= LEAST:
                places.setdefault(sentence, []).append(name)
    return [f"{', '.join(names)}: {' '.join(sentence)}" for sentence, names in places.items() if len(names) > 1]


def runs(texts):
    """Where a run of nine words inside sentences stands in two pages: its first words, once."""
    first, found = {}, []
    for name, text in texts.items():
        for sentence in sentences(text):
            last = -LEAST
            for at in range(len(sentence) - LEAST + 1):
                run = sentence[at:at + LEAST]
                other = first.setdefault(run, name)
                if other != name and at > last + LEAST:
                    found.append(f"{other}, {name}: {' '.join(run)}")
                    last = at
    return found


def main(names):
    texts = {name: text for name, text in pages().items() if not names or name in names}
    report("no sentence of nine words or more stands twice", doubled(texts))
    report("no nine words of a sentence stand in two pages", runs(texts))
    return ended()


if __name__ == "__main__":
    sys.exit(main(sys.argv[1:]))
