#!/usr/bin/env python3
"""Want of memory: each request for memory that bin/hkrep makes is refused in turn, by a library that is preloaded
(tests/faults/failing_memory.c), and what is printed and replied is held beside what an undisturbed run gives.

    tests/checks/memory.py [CHECK ..]

Prints a line for each check and ends with 'N passed, M failed'. Standard library only."""
import concurrent.futures
import contextlib
import mmap
import os
import pathlib
import queue
import re
import socket
import struct
import subprocess
import sys
import tempfile
import threading
import time

sys.dont_write_bytecode = True
sys.path.append(str(pathlib.Path(__file__).resolve().parents[1] / "lib"))
import messages as say
from checks import differ, ended, free_port, is_built, report, timed
import reference

ROOT = pathlib.Path(__file__).resolve().parents[2]
PROGRAM = str(ROOT / "bin" / "hkrep")
LIMIT = 30
FIELDS = ("waits", "left", "stays", "count", "refused", "greatest")

FOLDER = tempfile.TemporaryDirectory()
POOL = concurrent.futures.ThreadPoolExecutor(max_workers=2 * (os.cpu_count() or 1))

def library(name):
    """A library of tests/faults, built once."""
    built = pathlib.Path(FOLDER.name) / f"{name}.so"
    if not built.exists():
        subprocess.run(["cc", "-shared", "-fPIC", "-O1", "-o", str(built), str(ROOT / "tests" / "faults" / f"{name}.c"), "-ldl"], check=True)
    return str(built)


class Page:
    """What a program shares with the preloaded library: which request is to fail, and what was asked for."""

    def __init__(self, waits=0, left=0, stays=0):
        self.file, self.name = tempfile.mkstemp(dir=FOLDER.name)
        os.write(self.file, struct.pack("6q", waits, left, stays, 0, 0, 0))
        self.shared = mmap.mmap(self.file, 48)

    def get(self, field):
        return struct.unpack_from("q", self.shared, 8 * FIELDS.index(field))[0]

    def set(self, field, value):
        struct.pack_into("q", self.shared, 8 * FIELDS.index(field), value)

    def arm(self, left, stays=0):
        """From now on requests count, and that one is refused; none where it is 0."""
        for field in ("waits", "left", "count", "refused", "greatest"):
            self.set(field, 0)
        self.set("stays", stays)
        self.set("left", left)

    def environment(self, step=0):
        libraries = [library("failing_memory")] + ([library("failing_io")] if step else [])
        return dict(os.environ, LD_PRELOAD=" ".join(libraries), FAILING_MEMORY=self.name, READ_STEP=str(step))

    def close(self):
        self.shared.close()
        os.close(self.file)
        os.unlink(self.name)

    def __enter__(self):
        return self

    def __exit__(self, *_):
        self.close()


class Ran:
    """A run of the program over some input: what it printed, its status, and what memory it asked for."""

    def __init__(self, args, data=b"", left=0, stays=0, waits=1, step=0):
        with Page(waits, left, stays) as page:
            ran = subprocess.run([PROGRAM, *args], input=data, stdout=subprocess.PIPE, stderr=subprocess.DEVNULL, timeout=LIMIT,
                                 env=page.environment(step), check=False)
            self.out, self.status = ran.stdout.decode("latin-1"), ran.returncode
            self.count, self.refused, self.greatest = page.get("count"), page.get("refused"), page.get("greatest")


def is_front_of_lines(printed, whole):
    """Whether it is some of the first lines, each whole, and then perhaps that memory was refused."""
    lines = printed.splitlines(keepends=True)
    if lines and lines[-1] in ("refused 90\n", '{"refused":90}\n'):
        lines.pop()
    return "".join(lines) == "".join(whole.splitlines(keepends=True)[:len(lines)])


# ---------------------------------------------------------------- what a program prints

E1 = say.entry(1, 1, [(1, 5, 9, b"\x41")])
E2 = say.entry(2, 2, [(1, 5, 9, b"\x42")], [(1, 5, 1)])
E3 = say.entry(3, 3, [(1, 6, 9, b"\x43")])
FRAMES = E1 + E3 + say.mark(1, 3, 3) + E2
LINES = "".join(f"{it.line()}\n" for it in reference.items_of(FRAMES)[0])
EACH_FRAME = [reference.frame(it, 2).decode("latin-1") for it in reference.items_of(FRAMES)[0]]
NEW_FRAMES = "".join(EACH_FRAME)
# the frames of whole lines before what stopped them
FRAME_FRONTS = ["".join(EACH_FRAME[:count]) for count in range(len(EACH_FRAME) + 1)]

# The same items in JSON.
JSON_LINES = """{"commit":{"log":"7","stream":1,"number":"1","time":"1","ends":[],"rows":[{"table":1,"key":"5","tag":9,"body":"41"}]}}
{"commit":{"log":"7","stream":1,"number":"3","time":"3","ends":[],"rows":[{"table":1,"key":"6","tag":9,"body":"43"}]}}
{"mark":{"log":"7","stream":1,"n":"3","m":"3"}}
{"commit":{"log":"7","stream":1,"number":"2","time":"2","ends":[{"table":1,"key":"5","born":"1"}],"rows":[{"table":1,"key":"5","tag":9,"body":"42"}]}}
"""


def commands():
    """Commands with their input and what they print undisturbed."""
    script = (ROOT / "examples" / "world" / "three_replicas.script").read_text(encoding="utf-8")
    lines, _ = reference.played(script)
    words = ["at", "--log", "7", "--streams", "1", "3", "1", "5"]
    return [(words, FRAMES, "9 42\n"), (["items"], FRAMES, LINES), (["rewrite"], FRAMES, NEW_FRAMES),
            (["items", "--json"], FRAMES, JSON_LINES), (["frames"], JSON_LINES.encode(), NEW_FRAMES), (["world"], script.encode(), "".join(f"{it}\n" for it in lines)), (["world", "--items", "/dev/null"], script.encode(), "".join(f"{it}\n" for it in lines))]


# The lines that a script prints where some of its commands are refused.
LINE = re.compile(r"begun 1 at \d|ok|committed (none|\d)|mark stream \d n \d m \d|taken|repeated|front horizon \d readable \d|\d 9 4\d|"
                  r"rows \d|count \d|refused (22 base \d readable \d|24 readable \d|25 horizon \d|26 readable \d|31 table 1 key 6|45|90)")


def problem_of_run(args, data, whole, **how):
    """Nothing, or what is wrong with a run that meets a refusal. A script goes on behind a command that is refused, the frames
    of a rewrite are written all or none, and those of lines up to the one that is in hand."""
    ran = Ran(args, data, **how)
    told = ran.out in {"rewrite": (whole, ""), "frames": FRAME_FRONTS}[args[0]] if args[0] in ("rewrite", "frames") else is_front_of_lines(ran.out, whole) or (args[0] == "world" and ran.out.endswith("\n") and all(map(LINE.fullmatch, ran.out.splitlines())))
    is_right = ran.status in (0, 1, 2) and told and ran.refused > 0 and (ran.status != 0 or ran.out == whole)
    return None if is_right else f"{how}: status {ran.status}, {ran.refused} refused, printed {ran.out[-200:]!r}"


def every_request():
    """Each request refused in turn, from the start of the process on: alone, and with all that come after."""
    for args, data, whole in commands():
        undisturbed = Ran(args, data, waits=0, step=50)
        problems = [] if undisturbed.out == whole else [f"undisturbed: printed {undisturbed.out!r}"]
        turns = [(left, stays) for stays in (0, 1) for left in range(1, undisturbed.count + 1)]
        told = POOL.map(lambda turn: problem_of_run(args, data, whole, left=turn[0], stays=turn[1], waits=0, step=50), turns)
        problems += [it for it in told if it]
        if undisturbed.count < 10:
            problems.append(f"only {undisturbed.count} requests were made")
        report(f"each request refused in turn, alone and with all after it ({' '.join(args[:2])}, {undisturbed.count} requests)", problems)


# ---------------------------------------------------------------- worlds

def told_by_line(lines):
    """What the definition tells of each command of a script; the script's first line opens the world."""
    world, told = reference.World(*map(int, lines[0].split(" ")[1:])), []
    for line in lines[1:]:
        try:
            told.append(world.told(line.split(" ")))
        except reference.Refused as refused:
            told.append([str(refused)])
    return told


def played(lines, left):
    return Ran(["world"], ("\n".join(lines) + "\n").encode(), left=left)


def printed(told):
    return "".join(f"{line}\n" for lines in told for line in lines)


class Script:
    """A script without empty lines, and what its commands are told."""

    def __init__(self, lines):
        self.lines, self.told = lines, told_by_line(lines)

    def refused_command(self, out):
        """The place of the command that was refused for want of memory where the script went on, else None."""
        rest = out
        for place, told in enumerate(self.told):
            whole = printed([told])
            if not rest.startswith(whole):
                return place if rest.startswith("refused 90\n") and len(rest) > len("refused 90\n") else None
            rest = rest[len(whole):]
        return None

    def problem(self, left):
        """Nothing, or what is wrong where one request is refused: the other commands are told what they are without the refused
        one; and where that is written twice, the second is told what it is told undisturbed, and so is the rest."""
        ran = played(self.lines, left)
        whole = printed(self.told)
        place = self.refused_command(ran.out)
        if place is None:
            is_right = is_front_of_lines(ran.out, whole) and ran.status in (0, 1) and ran.refused == 1
            return None, None if is_right else f"request {left}: status {ran.status}, printed {ran.out[-200:]!r}"
        line = self.lines[place + 1]
        without = told_by_line(self.lines[:place + 1] + self.lines[place + 2:])
        wanted = printed([*self.told[:place], ["refused 90"], *without[place:]])
        if (ran.out, ran.status) != (wanted, 1):
            return line, f"request {left}, refused {line!r}: printed {ran.out!r}, wanted {wanted!r}"
        again = played(self.lines[:place + 2] + self.lines[place + 1:], left)
        wanted = printed([*self.told[:place], ["refused 90"], *self.told[place:]])
        if (again.out, again.status) != (wanted, 1):
            return line, f"request {left}, {line!r} again: printed {again.out!r}, wanted {wanted!r}"
        return line, None


def scripts():
    """The scripts of the tests and the examples, and one in which more is added at once than a node of a tree holds."""
    paths = [*(ROOT / "tests" / "scripts").glob("*.script"), *(ROOT / "examples" / "world").glob("*.script")]
    found = [(it.stem, it.read_text(encoding="utf-8").split("\n")) for it in sorted(paths)]
    found.append(("many_rows", many_rows()))
    return [(name, Script([line for line in lines if line])) for name, lines in found]


def many_rows():
    """Sixteen keys, each written twice, in entries of eight rows; items that come late; wholes, deltas and prunes."""
    lines = ["world 7 2 3"]
    for round_ in range(4):
        lines.append("begin 1")
        lines += [f"put 1 {1 + key % 2} {key} {key % 3} {round_:02x}" for key in range(8 * (round_ % 2), 8 * (round_ % 2) + 8)]
        lines.append(f"commit 1 {1 + round_ % 2}")
    lines += ["mark 1", "mark 2", "batch 1 4 3 2", "absorb 1 6", "absorb 1 5", "front 1", "absorb 1 1", "front 1", "delta 2 1 0", "ask 2 4 tag 1 1",
              "prune 2 3", "batch 3 1 5", "merge 3 2", "ask 3 4 range 2 0 99", "ask 3 4 count 1", "merge 1 3", "delta 1 3 3", "prune 1 4",
              "ask 1 4 range 1 0 99", "ask 0 4 tag 2 2", "front 1"]
    return lines


def refused_commands():
    """Each request of a script refused in turn, once: the command that is refused left all as it was, and made again it is told
    what it would have been told."""
    kinds = {}
    for name, script in scripts():
        undisturbed = played(script.lines, 0)
        problems = [] if undisturbed.out == printed(script.told) else [f"undisturbed: {undisturbed.out!r}, wanted {printed(script.told)!r}"]
        for line, problem in POOL.map(script.problem, range(1, undisturbed.count + 1)):
            problems += [problem] if problem else []
            if line:
                kind = line.split(" ")[0]
                kinds[kind] = kinds.get(kind, 0) + 1
        report(f"each request of a script refused in turn, and the command made again ({name}, {undisturbed.count} requests)", problems)
    # a prune's one growth is a list that asks again for less, so one refusal alone does not refuse it; `every_request` refuses all
    missing = {"put", "remove", "commit", "mark", "absorb", "batch", "merge", "delta", "ask"} - set(kinds)
    report(f"commands of each kind were refused: {', '.join(f'{kind} {count}' for kind, count in sorted(kinds.items()))}",
           [f"never refused: {sorted(missing)}"] if missing else [])


# ---------------------------------------------------------------- nodes

class Node:
    """A node of `serve`, or of `node`, under the library, which is ended at the latest when the block is left. Its requests for memory count from when the
    page is armed on."""

    def __init__(self, links=2, *options, streams=1, command="serve", **how):
        self.command = command
        for _ in range(5):
            self.start(links, streams, options, Page(**{"waits": 1, **how}))
            if self.said not in {"serve": ("refused 93\n",), "node": ("",)}[command]:
                return
            # somebody took the port in between
            self.__exit__()
        raise RuntimeError("no port could be listened to")

    def start(self, links, streams, options, page):
        self.page, self.port = page, free_port()
        words = [self.command, "--log", "7", "--streams", str(streams), "--port", str(self.port), "--links", str(links), *options]
        self.child = subprocess.Popen([PROGRAM, *words], stdout=subprocess.PIPE, stderr=subprocess.DEVNULL, text=True, env=page.environment())
        lines = queue.Queue()
        threading.Thread(target=lambda: lines.put(self.child.stdout.readline()), daemon=True).start()
        self.said = lines.get(timeout=LIMIT)

    def is_listening(self):
        return self.said == f"listening {self.port}\n"

    def link(self):
        try:
            return say.Link(self.port, LIMIT)
        except ConnectionRefusedError as error:
            raise ConnectionRefusedError(f"{error}: the node said {self.said!r}, status {self.child.poll()}") from error

    def ends(self):
        """What it printed after its first line, and its status."""
        out, _ = self.child.communicate(timeout=LIMIT)
        return out.splitlines(), self.child.returncode

    def __enter__(self):
        return self

    def __exit__(self, *_):
        if self.child.poll() is None:
            self.child.kill()
        self.child.communicate()
        self.page.close()


def reply_to(link, request):
    """The reply, or None where the link ended without one."""
    try:
        return link.ask(request)
    except (EOFError, OSError):
        return None


def state_of(link):
    """What a link is told of the node's state."""
    front = link.ask(say.front())
    return [front] + [link.ask(it) for it in (say.full(), say.ask(front[2], say.scan(1, 0, 99)), say.ask(front[2], say.by_tag(1, 9)))]


def row(key, born, died=None, table=1):
    return (table, key, born, (9, bytes([born])), died)


MANY = [say.entry(n, n, [(1, n % 40, n % 3, bytes([n])), (2, n, 9, b"")], [(1, n % 40, n - 40)] if n > 40 else []) for n in range(1, 61)]
ALL = say.items(E1, E2, E3, say.mark(1, 3, 3))
LATE = say.items(E1, E3, say.mark(1, 3, 3))

# A request by its name, behind those that make a state.
CASES = [
    ("items", [], ALL), ("items that were waited for", [LATE], say.items(E2)), ("many items", [ALL], say.items(*MANY[3:], say.mark(1, 60, 60))),
    ("items that wait", [ALL], say.items(*MANY[9:30], *(say.mark(1, n, n) for n in range(35, 50)))),
    ("a delta", [ALL], say.join_this(base=2, streams=[(4, 4, [6, 8], [(7, 9)])], facts=[row(5, 4), (1, 6, 3, None, 4), row(7, 6)])),
    ("a whole", [LATE], say.merge_this(streams=[(4, 4, [], [])], facts=[(1, 5, 1, (9, b"\x41"), 2), (1, 5, 2, (9, b"\x42"), 4), row(5, 4), (1, 6, 3, (9, b"\x43"), None)])),
    ("a whole that raises the horizon", [LATE], say.merge_this(horizon=4, streams=[(4, 4, [], [])], facts=[row(5, 4), (1, 6, 3, (9, b"\x43"), None)])),
    ("a prune", [ALL], say.prune(3)), ("a prune of much", [say.items(*MANY, say.mark(1, 60, 60))], say.prune(59)),
    ("a front", [ALL], say.front()), ("a delta that is asked for", [ALL], say.delta(1)), ("a whole that is asked for", [LATE], say.full()),
    ("a get", [ALL], say.ask(3, say.get(1, 5))), ("a range", [ALL], say.ask(3, say.scan(1, 0, 9))), ("a tag", [ALL], say.ask(2, say.by_tag(1, 9))),
    ("a count", [ALL], say.ask(3, say.count(1)))]
# The same of a node that tests each change first; of some items it has heard before.
GUARDED = [
    ("items to a guarded node", [LATE], say.items(E1, E2, E3, *MANY[3:20], say.mark(1, 20, 20), say.mark(1, 30, 30))),
    ("a delta to a guarded node", [ALL], say.join_this(base=2, streams=[(4, 4, [6, 8], [(7, 9)])], facts=[row(5, 4), (1, 6, 3, None, 4), row(7, 6)]))]


class Change:
    """A request of CASES or GUARDED, to a node with these options, with what it is told undisturbed, how many requests for memory that takes, and the states around it."""

    def __init__(self, setup, request, *options):
        self.setup, self.request, self.options = setup, request, options
        with Node(1, *options) as node, self.made(node) as link:
            self.before = state_of(link)
            node.page.arm(0)
            self.told = link.ask(request)
            self.count = node.page.get("count")
            self.after = state_of(link)

    def made(self, node):
        """A link that is served, behind the requests that make the state."""
        link = node.link()
        for request in [say.front(), *self.setup]:
            link.ask(request)
        return link

    def disturbed(self, left):
        """How the request was told where one request for memory is refused, and what is wrong."""
        with Node(2, *self.options) as node:
            with self.made(node) as link:
                node.page.arm(left)
                told = reply_to(link, self.request)
                refused = node.page.get("refused")
                node.page.arm(0)
                if refused != 1:
                    return "none", [f"request {left}: {refused} were refused"]
                if told is not None:
                    kind, problems = self.of_reply(link, told, left)
                    problems += self.told_again(node.link(), self.after)
                    wanted = (["ended 0", "ended 0"], 0)
            if told is None:
                kind, problems, wanted = "ended", self.of_end(node.link()), (["ended 90", "ended 0"], 1)
            ends = node.ends()
        problems += [] if ends == wanted else [f"ends {ends}, wanted {wanted}"]
        return kind, [f"request {left} ({kind}): {it}" for it in problems]

    def of_reply(self, link, told, left):
        if told == self.told:
            return "no matter", self.is_state(link, self.after, "after it")
        if told == ("refused", 90, 0, 0):
            problems = self.is_state(link, self.before, "after 90")
            again = link.ask(self.request)
            problems += [] if again == self.told else [f"made again it is told {again}, wanted {self.told}"]
            return "90", problems + self.is_state(link, self.after, "made again")
        if self.told[0] == "done" and told == ("refused", 42, self.told[1], 0):
            problems = self.is_state(link, self.before, "after 42")
            # what waits is published by the next change, whatever that is
            next_ = link.ask(say.items() if left % 2 else self.request)
            problems += [] if next_ == ("done", self.told[1] + 1) else [f"the next change is told {next_}"]
            return "42", problems + self.is_state(link, self.after, "published")
        return "wrong", [f"told {told}"]

    def of_end(self, link):
        """The session's own buffers found no memory: the request was made or not, and may be made again."""
        with link:
            state = state_of(link)
            problems = [] if state in (self.before, self.after) else [f"after the end: {state}"]
            again = link.ask(self.request)
            wanted = self.told
            if self.told[0] == "done" and state == self.after:
                wanted = ("done", self.told[1] + 1)
            problems += [] if again == wanted else [f"made again it is told {again}, wanted {wanted}"]
            return problems + self.is_state(link, self.after, "made again")

    def told_again(self, link, state):
        """Another link sees the same."""
        with link:
            return self.is_state(link, state, "to another link")

    @staticmethod
    def is_state(link, wanted, when):
        state = state_of(link)
        return [] if state == wanted else [f"the state {when}: {state}, wanted {wanted}"]


def refused_requests():
    """Each request for memory of a node's answer refused in turn: 90 and the node is as before, or 42 and the next change publishes
    what waits, or the link ends; and the request made again is told what it would have been told."""
    kinds = {}
    for name, setup, request, *options in [*CASES, *((*it, "--guard") for it in GUARDED)]:
        change = Change(setup, request, *options)
        problems, count = [], 0
        for kind, wrong in POOL.map(change.disturbed, range(1, change.count + 1)):
            problems += wrong
            kinds[kind] = kinds.get(kind, 0) + 1
        report(f"each request for memory of a node's answer refused in turn ({name}, {change.count} requests)", problems)
    missing = {"90", "42", "ended"} - set(kinds)
    report(f"how a node answers: {', '.join(f'{kind} {count}' for kind, count in sorted(kinds.items()))}", [f"never {it}" for it in sorted(missing)])


# ---- a long-running node

# What a link asks one after the other: a change, a wait, and from the full snapshot on of a worker for long answers.
TURNS = [say.front(), ALL, say.wait(9, 20), say.ask(3, say.get(1, 5)), say.full(), say.whole(0, 9), say.hold(2), say.front()]


def turns(node):
    """What each is told, and None where the link ended; one that hangs raises."""
    told = []
    with node.link() as link:
        for request in TURNS:
            try:
                told.append(link.ask(request))
            except (EOFError, ConnectionError):
                told.append(None)
            except TimeoutError:
                told.append(("hangs",))
            if told[-1] in (None, ("hangs",)):
                break
    return told


def disturbed_turns(left):
    """The kinds of what is told where one request for memory is refused, from the accept on, and what is wrong with them, or with the next link's."""
    with Node(3, "--no-guard", "--workers", "1", command="node") as node, node.link() as first:
        # it listens before all of it is there
        first.ask(say.front())
        node.page.arm(left)
        told = turns(node)
        node.page.arm(0)
        kinds = ["ended" if it is None else it[:2] if it[0] == "refused" else it[0] for it in told]
        wrong = [f"request {left}, {at}: {kind}" for at, (kind, wanted) in enumerate(zip(kinds, TURN_KINDS)) if kind not in (wanted, *TURN_REFUSALS)]
        after = [it[0] for it in turns(node) if it]
        return kinds, wrong + ([] if after == TURN_KINDS else [f"request {left}: the next link is told {after}"])


TURN_KINDS = ["front", "done", "ready", "row", "fragment", "part", "held", "front"]
# what is told where memory was refused, and of times that lack since it was
TURN_REFUSALS = ("ended", ("refused", 90), ("refused", 42), ("refused", 26), "last part")


def refused_turns():
    """Each request for memory of a long-running node refused in turn, from a link's accept to its last reply: the link goes on or ends, and the next one is served."""
    with Node(3, "--no-guard", "--workers", "1", command="node") as node, node.link() as first:
        first.ask(say.front())
        node.page.arm(0)
        undisturbed, count = turns(node), node.page.get("count")
        problems = [] if [it and it[0] for it in undisturbed] == TURN_KINDS else [f"undisturbed: {undisturbed}"]
    seen = set()
    for kinds, wrong in POOL.map(disturbed_turns, range(1, count + 1)):
        problems += wrong
        seen.update(kinds)
    report(f"each request for memory of a long-running node refused in turn ({count} requests)", problems + [f"never {it}" for it in ("ended", ("refused", 90)) if it not in seen])


# ---- messages of version 2

# A request by its name, behind those that make the node's state and those that make the link's.
FIRST_FACT, LATER_FACTS = (1, 5, 2, None, 4), [row(5, 4), row(7, 6)]
JOINED = say.join_parts(base=2, streams=[(4, 4, [6, 8], [(7, 9)])], count=1 + len(LATER_FACTS))
MERGED = say.merge_parts(streams=[(4, 4, [], [])], count=4)
RELEASED = say.release(1)
LATER_CASES = [
    ("streams", [ALL], [], say.status()), ("the latest answer", [ALL], [], say.latest(say.scan(1, 0, 9))), ("a page", [ALL], [], say.page(3, 1, 0, 9, 1)),
    ("a whole in parts", [ALL], [], say.whole(0, 0)), ("a delta in parts", [ALL], [], say.whole(1, 99)), ("the next part", [ALL], [say.whole(0, 0)], say.more()),
    ("the last part", [ALL], [say.whole(0, 0), say.more()], say.more()), ("a part that is added", [ALL], [], say.add([FIRST_FACT])),
    ("parts behind it", [ALL], [say.add([FIRST_FACT])], say.add(LATER_FACTS)),
    ("a delta of parts", [ALL], [say.add([FIRST_FACT]), say.add(LATER_FACTS)], JOINED),
    ("a whole of parts", [LATE], [say.add([(1, 5, 1, (9, b"\x41"), 2)]), say.add([(1, 5, 2, (9, b"\x42"), 4), row(5, 4), (1, 6, 3, (9, b"\x43"), None)])], MERGED),
    ("a hold", [ALL], [], say.hold(2)), ("a second hold", [ALL], [say.hold(2)], say.hold(1)), ("a release", [ALL], [say.hold(2)], RELEASED),
    ("items that are counted", [LATE], [], say.feed(E1, E2))]


class LaterChange:
    """A request of LATER_CASES, with what it is told undisturbed, how many requests for memory that takes, and the state after it."""

    def __init__(self, setup, own, request):
        self.setup, self.own, self.request = setup, own, request
        with Node(1, "--messages", "2") as node, node.link() as link:
            self.make(link, [say.front(), *setup, *own])
            self.before = self.state(link)
            node.page.arm(0)
            self.told = link.ask(request)
            self.count = node.page.get("count")
            self.after = self.state(link)

    @staticmethod
    def make(link, requests):
        for request in requests:
            link.ask(request)

    @staticmethod
    def state(link):
        """What the node tells of itself, and the least hold."""
        return [*state_of(link), link.ask(say.status())[1].least_hold]

    def disturbed(self, left):
        """How the request was told where one request for memory is refused, and what is wrong."""
        with Node(2, "--messages", "2") as node:
            with node.link() as link:
                self.make(link, [say.front(), *self.setup, *self.own])
                node.page.arm(left)
                told = reply_to(link, self.request)
                refused = node.page.get("refused")
                node.page.arm(0)
                kind, problems = self.of_reply(link, told) if told is not None else ("ended", [])
            with node.link() as other:
                if told is None:
                    self.make(other, self.own)
                    # the hold has gone with its link, and that of the other link has the next number
                    again = other.ask(say.release(2) if self.request == RELEASED else self.request)
                    problems += [] if again[0] == self.told[0] else [f"over another link it is told {again}, wanted {self.told}"]
            ends = node.ends()[0]
        problems += [] if refused == 1 and ends == ["ended 90" if told is None else "ended 0", "ended 0"] else [f"{refused} were refused, {ends}"]
        return kind, [f"request {left} ({kind}): {it}" for it in problems]

    def of_reply(self, link, told):
        """90: all is as before, and made again it is told the same; of a head the parts are gone, and are added again. 42: the next change
        publishes what waits."""
        if told == self.told:
            return "no matter", differ([("after it", self.state(link), self.after)])
        if told == ("refused", 90, 0, 0):
            problems = differ([("after 90", self.state(link), self.before)])
            self.make(link, self.own if self.request in (JOINED, MERGED) else [])
            return "90", problems + differ([("made again", link.ask(self.request), self.told), ("and then", self.state(link), self.after)])
        if told[:2] == ("refused", 42):
            return "42", differ([("the next change", link.ask(say.items())[0], "done"), ("published", self.state(link), self.after)])
        return "wrong", [f"told {told}"]


def refused_later():
    """The same of requests of version 2. What a link gives, what was added to it and its holds are as they were where a request is refused 90."""
    kinds, problems, count = {}, [], 0
    for name, *parts in LATER_CASES:
        change = LaterChange(*parts)
        count += change.count
        for kind, wrong in POOL.map(change.disturbed, range(1, change.count + 1)):
            problems += [f"{name}: {it}" for it in wrong]
            kinds[kind] = kinds.get(kind, 0) + 1
    missing = [f"never {it}" for it in sorted({"90", "42", "ended"} - set(kinds))]
    told = ", ".join(f"{kind} {number}" for kind, number in sorted(kinds.items()))
    report(f"each request for memory of an answer of version 2 refused in turn ({len(LATER_CASES)} kinds, {count} requests: {told})", problems + missing)


def problem_of_start(left, stays):
    """What is wrong with a node, and a session of two requests, under which a request for memory fails from its start on."""
    with Node(1, waits=0, left=left, stays=stays) as node:
        told = []
        if node.is_listening():
            try:
                with node.link() as link:
                    link.send(ALL + say.ask(3, say.get(1, 5)))
                    link.half_close()
                    while len(told) < 3 and (reply := link.reply()) is not None:
                        told.append(reply)
            except (EOFError, OSError):
                pass
        lines, status = node.ends()
        ran = f"request {left}, {stays}: {node.said!r}, {lines}, status {status}, told {told}"
        allowed = {"done": [("row", (9, b"\x42")), ("refused", 90, 0, 0)], "refused": [("refused", 26, 0, 0), ("refused", 90, 0, 0)]}
        is_right = status in (0, 1, 2) and len(told) < 3
        is_right = is_right and (not told or told[0] in (("done", 2), ("refused", 90, 0, 0), ("refused", 42, 2, 0)))
        is_right = is_right and (len(told) < 2 or told[1] in allowed[told[0][0]])
        ends = (["ended 0"], ["ended 90"], ["refused 90"], []) if node.is_listening() else ([],)
        is_right = is_right and lines in ends and (node.is_listening() or node.said in ("refused 90\n", ""))
        return None if is_right else ran


def every_start():
    """Each request of a node that starts and serves a link, alone and with all after it: it ends by itself, and says why."""
    with Node(1, waits=0) as node, node.link() as link:
        link.send(ALL + say.ask(3, say.get(1, 5)))
        link.half_close()
        link.read_all()
        node.ends()
        count = node.page.get("count")
    turns = [(left, stays) for stays in (0, 1) for left in range(1, count + 1)]
    problems = [it for it in POOL.map(lambda turn: problem_of_start(*turn), turns) if it]
    report(f"each request refused in turn, alone and with all after it (serve, {count} requests)", problems)


def problem_of_push(left, stays):
    """What is wrong with a `push` to an undisturbed node, of which a request for memory fails: it prints a front of the replies."""
    requests, whole = ALL + say.ask(3, say.scan(1, 0, 9)) + say.full(), "done 2\n5 9 42\n6 9 43\nrows 2\nfragment base 0 horizon 0 facts 3\n"
    with Node(1) as node:
        ran = Ran(["push", "--port", str(node.port)], requests, left=left, stays=stays, waits=0)
        # it may have ended before it opened the link
        with contextlib.suppress(OSError):
            node.link().close()
        ends, _ = node.ends()
    is_right = ran.status in (0, 1, 2) and is_front_of_lines(ran.out, whole) and (ran.status != 0 or ran.out == whole) and len(ends) == 1
    return ran.count, None if is_right else f"request {left}, {stays}: status {ran.status}, printed {ran.out!r}, the node {ends}"


def every_push():
    """Each request of a `push`, alone and with all after it."""
    count, problem = problem_of_push(0, 0)
    turns = [(left, stays) for stays in (0, 1) for left in range(1, count + 1)]
    problems = [problem] if problem else []
    problems += [it for _, it in POOL.map(lambda turn: problem_of_push(*turn), turns) if it]
    report(f"each request refused in turn, alone and with all after it (push, {count} requests)", problems)


# ---------------------------------------------------------------- calls that no command makes

# Tests that arm the library themselves, by crate, and the least number of requests that they let fail: a node's changes, holds,
# releases and publishes (39); the fragment that several workers build (some 300, by how they take turns); and one that is given in parts and
# put together from them (26).
TESTS = (("hk_tests", "tests::node::rows::each_request_refused", 30), ("hk_tests", "tests::batch::each_request_refused", 200),
         ("hk_tests", "tests::batch::splitting::each_request_of_parts_refused", 20))


def refused_in_tests():
    """The tests of the crates that the gate has built, now with the library, so that what they arm is refused."""
    for crate, name, least in TESTS:
        program = ROOT / "crates" / crate / "out" / f"{crate}_tests"
        problems = []
        if not program.exists():
            problems.append(f"{program} is not built: rt test in crates/{crate} makes it")
        else:
            with Page() as page:
                ran = subprocess.run([str(program), name], stdout=subprocess.PIPE, stderr=subprocess.STDOUT, timeout=LIMIT, env=page.environment(),
                                     check=False)
                refused = page.get("refused")
            if ran.returncode != 0 or refused < least:
                problems.append(f"status {ran.returncode}, {refused} requests were refused: {ran.stdout.decode()[-300:]}")
        report(f"each request refused in turn ({crate}, {name})", problems)


# ---------------------------------------------------------------- false counts

# What one request for memory may have beside that: the states of 64 streams, as many as a count may name, 64 bytes each.
PLAIN_BYTES = 4_096

ROWS = [(1, key, 9, b"") for key in range(1, 31)]
ENDS = [(1, key, 1) for key in range(1, 31)]
ENTRY = say.fields_of_entry(2, 2, ROWS, ENDS)
FRAGMENT = say.fields_of_fragment(streams=[(0, 0, range(2, 40), [(n, n) for n in range(1, 40)])], facts=[row(key, 1) for key in range(1, 40)])
HEAD = say.fields.fields_of_head(streams=[(0, 0, range(2, 40), [(n, n) for n in range(1, 40)])])
PART = say.fields.fields_of_facts([row(key, 1) for key in range(1, 40)])
TOLD = say.fields.fields_of_told(streams=[(0, 0, 0, 0)] * 40)[2:]
ANSWER = [("kind", b"\2"), ("count of rows", say.u32(40))] + [
    field for key in range(40) for field in (("key", say.u64(key)), ("tag", say.u32(9)), ("body length", say.u16(0)))]


def falsified(fields, name, value, kept):
    """The frame in which a count has another value and so many of the fields behind it are left, and no more."""
    place = next(place for place, field in enumerate(fields) if field[0] == name)
    return say.spelled(fields[:place] + [(name, value)] + fields[place + 1:place + 1 + kept])


def falsified_everywhere(fields, counts):
    """Each count with its greatest values, behind which nothing is left, or all that was there."""
    return [(f"{name} {value.hex()}, {kept} fields left", falsified(fields, name, value, kept), fault)
            for name, value, fault in counts for kept in (0, 1, 20, len(fields))]


IN_ENTRIES = [("count of ends", b"\x04\0", None), ("count of ends", b"\xff\xff", 8), ("count of rows", b"\x04\0", None), ("count of rows", b"\xff\xff", 8),
              ("body length", b"\x10\0", None), ("body length", b"\xff\xff", 9)]
IN_FRAGMENTS = [("streams", b"\0\x40", None), ("streams", b"\xff\xff", 5), ("count of extra numbers", b"\xff" * 4, None), ("count of extra numbers", b"\x7f" * 4, None),
                ("count of waiting marks", b"\xff" * 4, None), ("count of facts", b"\xff" * 4, None), ("count of facts", b"\0\x10\0\0", None),
                ("body length", b"\xff\xff", 9)]
IN_HEADS, IN_PARTS = IN_FRAGMENTS[:5], IN_FRAGMENTS[5:]
IN_ITEMS = [("count", b"\0\1\0\0", None), ("count", b"\xff" * 4, 8)]
IN_ANSWERS = [("count of rows", b"\xff" * 4, None), ("count of rows", b"\0\x10\0\0", None), ("body length", b"\xff\xff", 9)]


def problem_of_size(name, data, fault, told, greatest):
    """The fault is told, which is 10 where the count alone is false, or one of the fields that then stand elsewhere; and nothing
    larger was asked for than the frame can hold: the values in memory have up to four times the bytes of their frames."""
    problems = [] if told == fault or (fault is None and told in (5, 6, 7, 10)) else [f"{name}: told {told}, wanted {fault or 10}"]
    most = 4 * len(data) + PLAIN_BYTES
    return problems + ([] if greatest <= most else [f"{name}: {greatest} bytes at once for a frame of {len(data)}"])


def size_of_items(case):
    name, data, fault = case
    ran = Ran(["items"], data)
    told = int(ran.out.split()[-1]) if ran.out.startswith("refused ") else ran.out
    return ran.greatest, problem_of_size(name, data, fault, told, ran.greatest)


def size_of_request(case):
    name, data, fault = case
    with Node(1, "--messages", "2") as node, node.link() as link:
        link.ask(say.front())
        node.page.arm(0)
        told = link.ask(data)
        greatest = node.page.get("greatest")
    return greatest, problem_of_size(name, data, fault, told[1] if told[0] == "refused" else told, greatest)


def size_of_reply(case):
    """A peer replies so to a request of `push`, of the reply's version."""
    name, data, fault = case
    asked = say.framed(b"\2\x30") if data[4] == 2 else say.front()
    with Page(waits=1) as page, socket.create_server(("127.0.0.1", 0)) as listener:
        listener.settimeout(LIMIT)
        words = [PROGRAM, "push", "--messages", "2", "--port", str(listener.getsockname()[1])]
        with subprocess.Popen(words, stdin=subprocess.PIPE, stdout=subprocess.PIPE, stderr=subprocess.DEVNULL, env=page.environment()) as child:
            child.stdin.write(asked)
            child.stdin.close()
            link, _ = listener.accept()
            with link:
                link.settimeout(LIMIT)
                link.recv(len(asked), socket.MSG_WAITALL)
                link.sendall(data)
                link.shutdown(socket.SHUT_WR)
                out = child.stdout.read().decode()
            child.wait(LIMIT)
        told = int(out.split()[-1]) if out.startswith("refused ") else out
        return page.get("greatest"), problem_of_size(name, data, fault, told, page.get("greatest"))


def false_counts():
    """A count that is false reserves no more than the rest of its frame can hold: the greatest request for memory, over each count
    of frames, requests and replies with its greatest values."""
    fragments = [(f"{kind} {name}", say.framed(bytes([1, kind]) + data[4:]), fault) for kind in (21, 22)
                 for name, data, fault in falsified_everywhere(FRAGMENT, IN_FRAGMENTS)]
    entries = falsified_everywhere(ENTRY, IN_ENTRIES)
    items = falsified_everywhere(say.fields_of_items([say.spelled(ENTRY)] * 20), IN_ITEMS)
    inside = [(f"inside items: {name}", say.items(data), fault) for name, data, fault in entries]
    replies = [(f"fragment {name}", say.framed(b"\1\x22" + data[4:]), fault) for name, data, fault in falsified_everywhere(FRAGMENT, IN_FRAGMENTS)]
    replies += [(f"answer {name}", say.framed(b"\1\x23" + data[4:]), fault) for name, data, fault in falsified_everywhere(ANSWER, IN_ANSWERS)]
    parts, later_heads = falsified_everywhere(PART, IN_PARTS), falsified_everywhere(HEAD, IN_HEADS)
    replies += [(f"part {name}", say.framed(b"\2\x44" + say.u64(1) + data[4:]), fault) for name, data, fault in parts]
    replies += [(f"last part {name}", say.framed(b"\2\x45" + say.u32(0) + data[4:]), fault) for name, data, fault in later_heads]
    replies += [(f"streams {name}", say.framed(b"\2\x41" + data[4:]), fault) for name, data, fault in falsified_everywhere(TOLD, IN_HEADS[:2])]
    replies += [(f"page {name}", say.framed(b"\2\x43\0" + data[5:]), fault) for name, data, fault in falsified_everywhere(ANSWER, IN_ANSWERS)]
    replies.append(("answer of one row", say.framed(b"\1\x23\1\1" + say.u32(9) + b"\x10\0"), None))
    requests = fragments + [(f"added {name}", say.framed(b"\2\x35" + data[4:]), fault) for name, data, fault in parts]
    requests += [(f"{kind} {name}", say.framed(bytes([2, kind]) + data[4:]), fault) for kind in (54, 55) for name, data, fault in later_heads]
    requests += inside + [(f"items {name}", say.framed(b"\1\x10" + data[6:]), fault) for name, data, fault in items]
    for what, size_of, cases in (("item frames", size_of_items, entries), ("requests", size_of_request, requests), ("replies", size_of_reply, replies)):
        told = list(POOL.map(size_of, cases))
        report(f"false counts of {what} reserve no more than their frames hold ({len(cases)}; {max(it[0] for it in told)} bytes at most)",
               [it for _, problems in told for it in problems])


def main(words):
    start = time.monotonic()
    if not is_built(pathlib.Path(PROGRAM)):
        return ended()
    for check in (every_request, every_start, every_push, refused_commands, refused_requests, refused_turns, refused_later, refused_in_tests, false_counts):
        if not words or check.__name__ in words:
            timed(check)
    print(f"memory: {time.monotonic() - start:.1f} s")
    return ended()


if __name__ == "__main__":
    sys.exit(main(sys.argv[1:]))
