"""Goes through the bad cases of tests/lib/bad_records.py with an engine: an `Engine` puts what a case has there, and publish, follow and status
run as programs, one after the other in one Python (tests/lib/in_one_python.py). Needs bin/hkrep, and the package `vadungsil`."""
import json
import pathlib
import re
import select
import subprocess
import sys

import bad_records as bad
from checks import free_port
from journeys import HKREP, PATIENCE, ROOT, holds, kill
from vadungsil import decode
from vadungsil.node import Node

LIB = ROOT / "tests" / "lib"
# the follower ends where nothing more is there, and where the engine has less than the node for a moment
FOLLOW = ["--once", "--block", "20", "--patience", "0.1"]


class Programs:
    """Runs programs in one Python."""

    def __init__(self, start):
        self.start = start
        self.child = start(sys.executable, LIB / "in_one_python.py", stdin=subprocess.PIPE, stdout=subprocess.PIPE, text=True)

    def ran(self, *words):
        """The status, what was printed, and the lines on standard error."""
        self.child.stdin.write(json.dumps([str(word) for word in words]) + "\n")
        self.child.stdin.flush()
        holds(select.select([self.child.stdout], [], [], PATIENCE)[0], f"{words[0]} doesn't end")
        code, out, said = json.loads(self.child.stdout.readline())
        return code, out, said.splitlines()


class Engine:
    """An engine with nothing of the log in it at the begin of each case. `folder` is for files."""

    name = bad.ALL[0]

    def __init__(self, folder, programs):
        self.folder, self.programs, self.count = folder, programs, 0

    def begin(self):
        """Nothing of the log is there."""

    def words(self, side):
        """The program of a side, and how it finds the engine."""
        raise NotImplementedError

    def key(self):
        raise NotImplementedError

    def put(self, step):
        """Puts a message, and gives its name."""
        raise NotImplementedError

    def do(self, step):
        """A step of another kind than `Put` and `Published`."""
        raise NotImplementedError

    # ------------------------------------------------------------ one case

    def publish(self, frames, *more):
        path = self.folder / "given.bin"
        path.write_bytes(b"".join(frames))
        return self.programs.ran(*self.words("publish"), "--log", bad.LOG, "--streams", 1, *more, path)

    def made(self, case):
        """Does what a case has to be done, and gives the name of what was put last."""
        self.count += 1
        self.begin()
        name = ""
        for step in case.put:
            if isinstance(step, bad.Put):
                name = self.put(step)
            elif isinstance(step, bad.Published):
                self.publish([bad.OURS[number] for number in step.numbers], "--block", 1)
            else:
                self.do(step)
        return name

    def tried(self, case):
        """What is otherwise than the case says."""
        at, problems = self.made(case), []
        for said in sorted((it for it in case.said if self.name in it.engines), key=lambda it: ORDER.index(it.side)):
            wanted = [line.format(at=at, key=self.key(), engine=self.engine()) for line in (*said.before, said.line)]
            problems += [f"{case.name}: {problem}" for problem in SIDES[said.side](self, case, said, wanted)]
        return problems

    def engine(self):
        """What the programs call it."""
        return self.name

    def see_publish(self, case, said, wanted):
        """With --confirm nothing but what the case says is confirmed, and that is there; without, nothing is printed."""
        found = self.publish(case.given, "--confirm")
        problems = differs("publish --confirm", found, (said.status, wanted), "publish")
        problems += differing("confirmed", found[1], f"kept 1 {said.kept}\n" if said.kept else "")
        if said.kept and "not compared" not in said.line:
            confirmed = bad.Said("follow", 0, "..", node=[bad.OURS[number] for number in range(1, said.kept + 1)])
            problems += [f"confirmed: {it}" for it in self.see_follow(bad.Case("", (), ()), confirmed, [".."])]
        again = self.publish(case.given)
        problems += differing("status without --confirm", again[0], said.status) + differing("printed without it", again[1], "")
        return problems + (differing("said without it", again[2], found[2]) if said.status else [])

    def see_follow(self, case, said, wanted):
        """A node gets what the case says; where follow fails, some of it, and nothing else."""
        node, port = node_of(case, self.programs)
        try:
            found = self.programs.ran(*self.words("follow"), "--log", bad.LOG, "--streams", 1, *FOLLOW, "--node", port)
            problems = differs("follow", found, (said.status, wanted), "follow") + differing("printed", found[1], "")
            rows = rows_of(port) if case.node_streams == 1 else []
            had = [row_of(frame) for frame in said.node]
            return problems + differing("the node's rows", rows, had if said.status == 0 else had[:len(rows)])
        finally:
            kill(node)

    def see_status(self, _, said, wanted):
        code, out, lines = self.programs.ran(*self.words("status"), "--log", bad.LOG, "--streams", 1)
        named, *table = out.splitlines()
        problems = differs("status", (code, "", [f"status: {named}"]), (said.status, wanted), "status") + differing("said", lines, [])
        return problems + differing("the row of the stream", table[1].split()[:1], ["1"])


SIDES = {"follow": Engine.see_follow, "status": Engine.see_status, "publish": Engine.see_publish}
ORDER = list(SIDES)


def differing(what, got, wanted):
    return [] if got == wanted else [f"{what}: {got!r}, wanted {wanted!r}"]


def differs(what, found, wanted, prog):
    """A problem where status or lines are otherwise; what stands in the place of `..` isn't looked at."""
    code, _, lines = found
    status, texts = wanted
    patterns = [".*".join(map(re.escape, f"{prog}: {text}".split(".."))) for text in texts]
    same = code == status and len(lines) == len(patterns) and all(map(re.fullmatch, patterns, lines))
    return [] if same else [f"{what}: status {code}, {lines}, wanted {status}, {texts}"]


# ---------------------------------------------------------------- a node

def node_of(case, programs):
    """An empty node with a guard, or one that has what the case says; and its port."""
    port = free_port()
    node = programs.start(HKREP, "serve", "--log", bad.LOG, "--streams", case.node_streams, "--port", port, "--links", 8, "--guard",
                          stdout=subprocess.PIPE)
    node.stdout.readline()
    if case.fed:
        with Node(port, limit=PATIENCE) as it:
            it.items(case.fed)
    return node, port


def rows_of(port):
    """What a node has of the log: key, time and body of each row, in the order of keys."""
    with Node(port, limit=PATIENCE) as node:
        return [(it.version.key, it.version.born, it.row.body) for it in node.whole().facts]


def row_of(frame):
    """The same of the row that an entry has."""
    it = decode(frame)
    return it.rows[0].key, it.time, it.rows[0].row.body


def lines_of_page():
    """The rows of docs/CONNECTORS.md, "Bad records": each status, and what the line has."""
    text = (ROOT / "docs" / "CONNECTORS.md").read_text(encoding="utf-8")
    rows = [line.split("|")[2] for line in text.partition("\n## Bad records\n")[2].partition("\n## ")[0].splitlines() if line.startswith("| ")][1:]
    cells = [re.match(r" *(\d): (.*)", cell) for row in rows for cell in row.split(";")]
    return [(int(cell[1]), words) for cell in cells for words in re.findall("`([^`]+)`", cell[2])]


def differences_from_page():
    """Each line of the page is some case's, and each case that fails has a line of the page."""
    told, lines = lines_of_page(), [(said.status, said.line + " ".join(said.before)) for case in bad.CASES for said in case.said]

    def fits(row, line):
        return row[0] == line[0] and row[1] in line[1]

    return ([f"no case has {row}" for row in told if not any(fits(row, line) for line in lines)]
            + [f"the page has no {line}" for line in lines if line[0] and not any(fits(row, line) for row in told)])


def tried(engine):
    """Goes through the cases that an engine can have: what is otherwise, and how many there are."""
    cases = bad.of(engine.name)
    return [problem for case in cases for problem in engine.tried(case)], len(cases)


# ---------------------------------------------------------------- a file

class Unsaid:
    """The programs, without the line that a file has no checksums."""

    def __init__(self, programs):
        self.programs = programs

    def __getattr__(self, name):
        return getattr(self.programs, name)

    def ran(self, *words):
        code, out, lines = self.programs.ran(*words)
        return code, out, [line for line in lines if "corrupt bytes may not show" not in line]


class File(Engine):
    """A file for each case; `publish` is the publisher of connectors over `LogInFile`. What is put into it by hand is that of a file
    without checksums: with them it would be no more than what isn't kept yet (tests/checks/file_log.py)."""

    name = bad.FILE

    def __init__(self, folder, programs):
        super().__init__(folder, Unsaid(programs))

    def path(self):
        return self.folder / f"case{self.count}.log"

    def words(self, side):
        program = LIB / "publish_to_file.py" if side == "publish" else ROOT / "connectors" / "file" / side
        return [program, "--file", self.path()]

    def key(self):
        return str(self.path())

    engine = key

    def put(self, step):
        pathlib.Path(f"{self.path()}.sums").unlink(missing_ok=True)
        with open(self.path(), "ab") as file:
            at = file.tell()
            file.write(step.data)
        return f"byte {at + step.bad} of {self.path()}"
