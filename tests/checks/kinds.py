#!/usr/bin/env python3
"""The kinds of messages are written down once, in crates/hk_message_head: what else tells of them says the same.

    tests/checks/kinds.py           a line for each place, and at the end 'N passed, M failed'

Its two tables are read as text. Compared with them are the tables of docs/FORMATS.md, the lists of docs/PROTOCOL.md and of hk_net's
pages, what `hkrep explain 4` says, and the Python client; and no number of a kind stands elsewhere in the crates' code. Standard library only."""
import pathlib
import re
import sys

ROOT = pathlib.Path(__file__).resolve().parents[2]
sys.path[:0] = [str(ROOT / "tests" / "lib"), str(ROOT / "clients" / "python")]
from checks import ended, report
from vadungsil import messages, reasons

HEAD = ROOT / "crates" / "hk_message_head" / "src"
# from this kind on messages are of version 2
LATER = 48
CONSTANT = re.compile(r"^pub const (\w+): u8 = (\d+);", re.M)
# a row of the table of requests: constant, name, what it does, how much there is to do
ROW = re.compile(r'^ +(\w+) => row\("(\w+)", (\w+), (\w+)')
# numbers of kinds where the code speaks of a kind
NUMBER = re.compile(r"(?<![\w.])(1[6-9]|2[0-3]|3[2-6]|4[89]|5\d|6[0-1]|6[4-9]|7[0-6])(?![\w.])")


def text(name):
    return (ROOT / name).read_text(encoding="utf-8")


def requests():
    """Each kind of requests by its number: its name, what it does, and how much there is to do; and the numbers by their constants."""
    source = (HEAD / "request_kinds.rt").read_text(encoding="utf-8")
    numbers = {name: int(number) for name, number in CONSTANT.findall(source)}
    rows = [ROW.match(line) for line in source.splitlines()]
    return {numbers[row[1]]: row.groups()[1:] for row in rows if row}, numbers


def replies():
    """Each kind of replies by its number: its name; and the numbers by their constants."""
    source = (HEAD / "reply_kinds.rt").read_text(encoding="utf-8")
    numbers = {name: int(number) for name, number in CONSTANT.findall(source)}
    found = {}
    for constants, name in re.findall(r'^ +([A-Z_ |]+) => "(\w+)"', source, re.M):
        found.update({numbers[constant]: name for constant in constants.split(" | ")})
    return found, numbers


def compared(name, found, wanted):
    report(name, [] if found == wanted else [f"found  {found}", f"wanted {wanted}"])


def formats(head):
    """The tables of FORMATS that begin so: names by numbers."""
    tables = re.findall(rf"^\| Kind \| {head} \| Body \|\n\|[-|]+\|\n((?:\|.*\n)+)", text("docs/FORMATS.md"), re.M)
    return {int(number): name for table in tables for number, name in re.findall(r"^\| (\d+) \| (\w+) \|", table, re.M)}


def named(page, sentence):
    """The names that a sentence lists, where the pattern has one group."""
    found = re.search(sentence, re.sub(r"\n/// ", " ", page))
    return re.findall(r"[A-Z]\w+", found[1]) if found else None


def ranges(numbers):
    """Those of a version, and those of the other, as the words have them."""
    first, later = [it for it in numbers if it < LATER], [it for it in numbers if it >= LATER]
    return f"{min(first)} to {max(first)} or {min(later)} to {max(later)}"


def written(kinds, names):
    """The lines of code outside of the tables where the number of a kind stands beside the word, or in a constant of such a name."""
    for path in sorted((ROOT / "crates").glob("*/src/**/*.rt")):
        if "out" in path.parts or path.parent == HEAD or "hk_tests" in path.parts:
            continue
        for number, line in enumerate(path.read_text(encoding="utf-8").splitlines(), 1):
            code = re.sub(r'"[^"]*"', "", line.partition("//")[0])
            constant = re.search(r"const (\w+): u8", code)
            is_about_kinds = re.search(r"kind|KIND", code) or (constant and constant[1] in names)
            if is_about_kinds and any(int(it) in kinds for it in NUMBER.findall(code)):
                yield f"{path.relative_to(ROOT)}:{number}: {line.strip()}"


def plain(kinds):
    """The names of the Python client's values, without what tells a question from its answer and a version from the other."""
    return {number: {re.sub(r"^(Ask|Later)(?=[A-Z])", "", it.__name__) for it in kind.values} for number, kind in kinds.items()}


def python(asked, told):
    of_ours = {"AskLatest": "Latest"}
    compared("the Python client has the same requests", plain(messages.REQUESTS), {it: {of_ours.get(row[0], row[0])} for it, row in asked.items()})
    ours = plain(messages.REPLIES)
    compared("and the same kinds of replies", sorted(ours), sorted(told))
    # a refusal and an answer are of several classes there
    same = {it: next(iter(names)) for it, names in ours.items() if len(names) == 1}
    compared("with the same names", same, {it: told[it] for it in same})


def pages(asked):
    names = {does: [row[0] for number, row in sorted(asked.items()) if row[1] == does] for does in ("Reads", "Feeds", "Changes")}
    first = [row[0] for number, row in sorted(asked.items()) if row[1] == "Reads" and number < LATER]
    later = [row[0] for number, row in sorted(asked.items()) if row[1] == "Reads" and number >= LATER]
    page = text("docs/PROTOCOL.md")
    compared("PROTOCOL: what read-only connections may send in version 2", named(page, r"Read-only connections may send ([^;]*);"), later)
    compared("PROTOCOL: in version 1", named(page, r"may ask and not change: ([^.]*) are answered"), first)
    compared("PROTOCOL: what feeders may send", named(page, r"its connections may send ([^,]*), and ask"), names["Feeds"])
    compared("PROTOCOL: and what they may not", named(page, r"each other change \(([^)]*)\) is refused 4"), names["Changes"])
    long = [row[0] for number, row in sorted(asked.items()) if row[2] == "Long"]
    staying = text("crates/hk_net/src/staying.rt")
    compared("hk_net: what is for a worker that gives long answers", named(staying, r"asks for something long \((Delta[^)]*?), a query"), long)


def main():
    (asked, asked_numbers), (told, told_numbers) = requests(), replies()
    compared("each kind of requests has a row", set(asked), set(asked_numbers.values()))
    compared("each kind of replies has a name", set(told), set(told_numbers.values()))
    compared("FORMATS: requests", formats("Request"), {it: row[0] for it, row in asked.items()})
    compared("FORMATS: replies", formats("Reply"), told)
    words = f"requests {ranges(asked)}, replies {ranges(told)}"
    report("explain 4 says which there are", [] if words in text("crates/hk_cli_reasons/src/known.rt") else [words])
    report("and so does the Python client", [] if words in reasons.REASONS[4].advice else [words])
    pages(asked)
    python(asked, told)
    report("no number of a kind stands elsewhere in the crates' code", list(written({*asked, *told}, {*asked_numbers, *told_numbers})))
    return ended()


if __name__ == "__main__":
    sys.exit(main())
