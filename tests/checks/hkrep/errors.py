"""What is said of what is refused, by standard error and by `explain`, and of command lines that are wrong; and the help."""
import re
import shutil
import subprocess

from checks import report
from hkrep.running import ROOT, at, check, check_bad_line, check_help, check_told, run
from messages import E1, E2


def reasons():
    """What standard error says: where, what was refused with its numbers, and what to do."""
    check_told("why a time is above the mark", at(1, 1, 5), E1,
               "refused 26: time 1 is above the resolved time 0; feed the marks of all streams, or ask at 0\n")
    check_told("which frame is cut", ["items"], E1 + E2[:9], "frame 2: refused 1: the input ends inside a frame; send the frame to its end\n")
    check_told("which item is of another log", at(1, 1, 5, log="8"), E1,
               "frame 1: refused 20: item of log 7, stream 1: another log; feed each log to a replica of its own\n")
    check_told("which command is refused", ["world"], b"world 7 1 1\nbegin 1\nput 1 1 5 9 41\ncommit 1 1\nmark 1\nbatch 1 1 2\n\nprune 1 9\nprune 1 1\n"
               b"ask 1 0 count 1\nask 1 2 get 1 5\nfront 2\nbegin 1\nremove 1 1 9\ncommit 1 1\n",
               "line 8: refused 24: time 9 is above the resolved time 1; prune to 1 at most\n"
               "line 10: refused 25: time 0 is below the oldest readable time 1; ask at 1 or later\n"
               "line 11: refused 26: time 2 is above the resolved time 1; feed the marks of all streams, or ask at 1\n"
               "line 12: refused 45: no such replica or item; name a replica that the world has, and an item that was emitted\n"
               "line 15: refused 31: table 1 key 9 has no row; remove only what is there when the transaction begins\n")
    opening = b"world 7 1 1\n\n"
    for line, told in ((b"commit 1 t", "commit 1 t: word 3 is no number; expected: commit SLOT STREAM"),
                       (b"commit 1 65", "commit 1 65: word 3 is outside its range; expected: commit SLOT STREAM"),
                       (b"commit 1 1", "commit 1 1: the slot has no transaction; expected: begin SLOT before it"),
                       (b"mark", "mark: a word is missing; expected: mark STREAM"),
                       (b"front 1 ", "front 1 : there is more than its words; expected: front REPLICA"),
                       (b"ask 1 0 all 1", "ask 1 0 all 1: word 4 is no query; expected: ask REPLICA TIME get TABLE KEY, or range TABLE LOW HIGH, "
                        "tag TABLE TAG, count TABLE"),
                       (b"front 1\r", "front 1?: word 2 is no number; expected: front REPLICA"),
                       (b"stop", "stop: no such command; expected: begin, put, remove, commit, mark, retire, absorb, batch, prune, merge, delta, ask or "
                        "front"),
                       (b"mark " + b"1" * 99, "mark " + "1" * 55 + "..: word 2 is outside its range; expected: mark STREAM")):
        check_told(f"what is wrong with {line[:20]!r}", ["world"], opening + line, f"line 3: {told}\n")
    check_told("a script begins with its world", ["world"], b"begin 1\n",
               "line 1: begin 1: the first line makes the world; expected: world LOG STREAMS REPLICAS\n")


def explained():
    """`explain` has each number of docs/FORMATS.md with its name."""
    rows = re.findall(r"^\| (\d+) \| (.*?) \| (.*?) \|$", (ROOT / "docs" / "FORMATS.md").read_text().split("## Faults and refusals")[1], re.M)
    lines = run(["explain"]).stdout.decode().splitlines()
    problems = [] if len(lines) == len(rows) == 36 else [f"{len(lines)} lines, {len(rows)} rows"]
    for (number, name, _), line in zip(rows, lines):
        if not line.startswith(f"{number} {name}: " if name else f"{number} ") or "; " not in line:
            problems.append(f"{number} {name}: {line!r}")
        words = [number, name.split(" ")[0], name.split(" ")[0].lower(), name.split(" ")[0].upper()] if name else [number]
        problems += [f"explain {word}" for word in words if run(["explain", word]).stdout.decode() != line + "\n"]
    report("explain has each refusal", problems[:5])
    for number in ("0", "11", "48", "94", "256", "282"):
        check_bad_line(f"explain {number}", ["explain", number], ["no refusal"])
    for word in ("x", "NotYe", "NotYets", "", "-1", "+26", str(2 ** 64)):
        check_bad_line(f"explain {word!r}", ["explain", word], ["error"])
    check_bad_line("explain of no name", ["explain", "Nothing"], ["invalid value 'Nothing'", "no refusal has this number or name"])


def kinds_of(table):
    """The kinds of the tables with this head in docs/FORMATS.md, in their order."""
    text = (ROOT / "docs" / "FORMATS.md").read_text()
    return [int(kind) for rows in re.findall(rf"^\| Kind \| {table} \| Body \|\n\|[-|]+\n((?:\|.*\n)+)", text, re.M) for kind in re.findall(r"^\| (\d+) \|", rows, re.M)]


def spans(kinds):
    """The kinds as the words have them: runs of consecutive ones."""
    ends = [kind for kind in kinds if kind + 1 not in kinds]
    begins = [kind for kind in kinds if kind - 1 not in kinds]
    return " or ".join(f"{begin} to {end}" for begin, end in zip(begins, ends))


def kinds():
    """`explain 4` has the kinds of docs/FORMATS.md, and a request of each of them that is read as items is told as one."""
    requests, replies = kinds_of("Request"), kinds_of("Reply")
    told = run(["explain", "4"]).stdout.decode()
    problems = [] if f"requests {spans(requests)}, replies {spans(replies)}\n" in told else [f"explain 4 says {told!r}, wanted {spans(requests)} and {spans(replies)}"]
    for kind in range(256):
        done = run(["items"], bytes([0, 0, 0, 2, 1 if kind < 48 else 2, kind])).stderr.decode()
        if ("give it to 'hkrep load', or to 'hkrep push'" in done) != (kind in requests):
            problems.append(f"items of kind {kind}: {done!r}")
    report("the kinds of messages, in words", problems)


def command_lines():
    usage = ["error", "--help"]
    check_bad_line("a plus sign", ["at", "--log", "7", "--streams", "1", "+7", "1", "5"], ["+7"])
    check_bad_line("a plus sign in an option", ["at", "--log", "+7", "--streams", "1", "1", "1", "5"], ["+7"])
    check_bad_line("a minus sign", ["at", "--log", "7", "--streams", "1", "-1", "1", "5"], usage)
    check_bad_line("no stream", at(1, 1, 5, streams="0"), usage)
    check_bad_line("65 streams", at(1, 1, 5, streams="65"), usage)
    check_bad_line("a time above the greatest", at(2 ** 62 + 1, 1, 5), usage)
    check_bad_line("a table above the greatest", at(1, 65536, 5), usage)
    check_bad_line("a key above the greatest", at(1, 1, 2 ** 64), usage)
    check_bad_line("a hexadecimal number", at("0x1", 1, 5), usage)
    check_bad_line("a number with a space", at(" 1", 1, 5), [])
    check_bad_line("an empty word", at("", 1, 5), [])
    check_bad_line("too few words", ["at", "--log", "7", "--streams", "1", "1", "1"], usage)
    check_bad_line("too many words", at(1, 1, 5) + ["6"], usage)
    check_bad_line("no log", ["at", "--streams", "1", "1", "1", "5"], ["--log"])
    check_bad_line("an unknown command", ["frobnicate"], usage)
    check_bad_line("no command", [], ["Usage: hkrep"])
    check_help("help", ["--help"], ["Usage: hkrep", "at", "items", "status"])
    check_help("help of at", ["at", "--help"], ["Usage: hkrep at", "--log", "0 to 4611686018427387904", "Example"])
    check_help("help of items", ["items", "--help"], ["Usage: hkrep items", "Example"])
    check_help("help of world", ["world", "--help"], ["Usage: hkrep world", "Example"])
    check_help("the version", ["--version"], ["hkrep"])
    if shutil.which("rt"):
        logic = subprocess.run(["rt", "version"], stdout=subprocess.PIPE, text=True, check=False).stdout.strip().rpartition("logic ")[2]
        check_help("the version names the logic", ["--version"], [f"logic {logic or '?'}"])
    text = run(["world", "--help"]).stdout.decode()
    table = (ROOT / "docs" / "FORMATS.md").read_text().split("## The world script")[1]
    forms = [row.split("`")[1] for row in table.splitlines() if row.startswith("| `")]
    report("help of world has each form", [form for form in forms if f"  {form}  " not in text] or ([] if len(forms) == 16 else [f"{len(forms)} forms"]))
    example = text.split("<<END")[1].split("END")[0]
    script = "".join(line.strip() + "\n" for line in example.splitlines() if line.strip())
    check("the example of world's help", ["world"], script.encode(),
          "begun 1 at 0\nok\ncommitted 1\nmark stream 1 n 1 m 1\ntaken\nfront horizon 0 readable 0\ntaken\n9 41\n")


CHECKS = (reasons, explained, kinds, command_lines)
