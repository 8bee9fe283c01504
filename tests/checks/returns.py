#!/usr/bin/env python3
"""Checks that a node comes back with what it had: `hkrep save --out`, and `hkrep node --load` and `--from`. Saves and loads are killed at
places that the check reaches by the bytes that it lets through, and not by a clock.

Prints a line for each check and ends with 'N passed, M failed'. Standard library only."""
import os
import pathlib
import re
import resource
import signal
import socket
import subprocess
import sys
import tempfile
import threading
import time

sys.path.append(str(pathlib.Path(__file__).resolve().parents[1] / "lib"))
import messages as say
from checks import differ, ended, free_port, guarded, is_built, report
from staying import PROGRAM, OwnNode, said

# the rows of each time: what a log of so many entries of two rows each puts, by the definition
ENTRIES, BODY = 40, 2_000
NO_PLAIN_FILE = "it is a device, a pipe or a folder, which no file takes the place of; "
PLACES = 20
FOLDER = pathlib.Path(tempfile.mkdtemp(prefix="returns"))
FROM = re.compile(r"\d{4}-\d\d-\d\dT\d\d:\d\d:\d\d\.\d{3}Z (info|warn|error) - (load|from) (\S+): (.*)\n")


def body_of(number):
    return bytes([number % 251]) * BODY


def entries(first, last):
    """Entries first to last, each of which puts key 1 anew, and a key of its own."""
    frames = []
    for at in range(first, last + 1):
        frames.append(say.entry(at, at, [(1, 1, 9, body_of(at)), (1, 100 + at, 9, body_of(at))], [(1, 1, at - 1)] if at > 1 else []))
    return say.items(*frames, say.mark(1, last, last))


def rows_at(time_):
    """The rows of table 1 at a time."""
    return [(1, 9, body_of(time_)), *((100 + at, 9, body_of(at)) for at in range(1, time_ + 1))] if time_ else []


def what_it_has(node):
    """The range of readable times, and whether the rows of each of some times are those of the log."""
    with node.link() as link:
        front = link.ask(say.front())
        wrong = [at for at in sorted({0, min(1, front[2]), front[2] // 2, front[2]}) if link.ask(say.ask(at, say.scan(1, 0, 1_000))) != ("rows", rows_at(at))]
    return front, wrong


def run(*words, **more):
    done = subprocess.run([str(PROGRAM), *map(str, words)], capture_output=True, timeout=60, check=False, **more)
    return done.returncode, done.stdout, done.stderr.decode()


def fed(node, first, last):
    with node.link() as link:
        return link.ask(entries(first, last))[0]


def told(node, count):
    """The lines of what a node took before it listened, as (level, word, name, what)."""
    until = time.monotonic() + 10
    while sum(FROM.fullmatch(it) is not None for it in list(node.words)) < count and time.monotonic() < until:
        time.sleep(0.01)
    return [found.groups() for found in map(FROM.fullmatch, list(node.words)) if found]


def it_comes_back():
    """A node begins with a file, with what another has, with both, and with the first of several that answers."""
    file, away = FOLDER / "node.save", f"127.0.0.1:{free_port()}"
    with OwnNode() as node:
        pairs = [("items", fed(node, 1, 20), "done"), ("a save", run("save", "--port", node.port, "--out", file), (0, b"", "")),
                 ("more items", fed(node, 21, ENTRIES), "done")]
        here = f"127.0.0.1:{node.port}"
        cases = [("a file", ["--load", file], ("front", 0, 20), [("info", "load", str(file), "front horizon 0 readable 20")]),
                 ("a node", ["--from", node.port], ("front", 0, ENTRIES), [("info", "from", here, f"front horizon 0 readable {ENTRIES}")]),
                 ("both", ["--load", file, "--from", here], ("front", 0, ENTRIES),
                  [("info", "load", str(file), "front horizon 0 readable 20"), ("info", "from", here, f"front horizon 0 readable {ENTRIES}")]),
                 ("the second node", ["--from", away, "--from", f"{here},{away}", "--need-data"], ("front", 0, ENTRIES),
                  [("warn", "from", away, None), ("info", "from", here, f"front horizon 0 readable {ENTRIES}")])]
        for name, options, front, lines in cases:
            with OwnNode(*options) as second:
                heard = told(second, len(lines))
                pairs += [(f"{name}: what it has", what_it_has(second), (front, [])), (f"{name}: how many lines", len(heard), len(lines))]
                pairs += [(f"{name}: a line", got[:3] + (got[3] if wanted[3] else None,), wanted) for got, wanted in zip(heard, lines)]
    with OwnNode("--load", file, "--from", away) as node:
        pairs += [("where no node answers", what_it_has(node), (("front", 0, 20), []))]
    report("a node begins with what a file and another node have", differ(pairs))


def chunks():
    """A snapshot in chunks, as `save` writes one for which a message has no room."""
    facts = [(1, key, 1, (9, b"A"), None) for key in range(5)]
    head = {"streams": ((1, 1, (), ()),), "count": len(facts)}
    file = FOLDER / "chunks.save"
    file.write_bytes(say.add(facts[:2]) + say.add(facts[2:]) + say.merge_parts(**head))
    with OwnNode("--load", file) as node, node.link() as link:
        pairs = [("its rows", link.ask(say.ask(1, say.count(1))), ("number", 5))]
    report("a file in chunks", differ(pairs))


def bad_files():
    """A file that is cut, of another log, or not of `save` is told in a line, and nothing of it is taken."""
    whole = (FOLDER / "node.save").read_bytes()
    facts = [(1, 5, 1, (9, b"A"), None)]
    head = {"streams": ((1, 1, (), ()),), "count": 1}
    cases = {"cut": (whole[:-41], "refused 1: "), "cut in its checksum": (whole[:-1], "frame 2: refused 6: "), "cut in its head": (whole[:3], "refused 1: "), "empty": (b"", "refused 1: "),
             "of another log": (say.merge_this(log=8), "refused 20: "), "requests": (entries(1, 2), "refused 4: "), "item frames": (say.E1, "refused 4: "),
             "text": (b"a file of lines\n", "refused 2: "), "two snapshots": (whole + whole, "refused 4: "), "half a checksum": (whole[:-20], f"frame 2: refused 6: at byte {len(whole) - 40} the input ends inside"), "more behind it": (whole + b"\0", "refused 1: "),
             "chunks without a head": (say.add(facts), "refused 1: "), "a chunk that is cut": (say.add(facts) + say.merge_parts(**head)[:-2], "refused 1: "),
             "a head of more than came": (say.add(facts) + say.merge_parts(**{**head, "count": 2}), "refused ")}
    pairs = []
    for name, (data, start) in cases.items():
        file = FOLDER / "bad.save"
        file.write_bytes(data)
        with OwnNode("--load", file, "--load-or-empty") as node:
            lines = told(node, 1)
            pairs += [(f"{name}: what it has", what_it_has(node), (("front", 0, 0), [])), (f"{name}: lines", [it[:3] for it in lines], [("error", "load", str(file))])]
            pairs += [(f"{name}: why", it[3][:len(start)], start) for it in lines]
    for name, file in (("no such file", FOLDER / "none"), ("a folder", FOLDER)):
        port = free_port()
        status, out, errors = run("node", "--log", 7, "--streams", 1, "--port", port, "--load", file, "--load-or-empty", "--from", f"127.0.0.1:{free_port()}", "--need-data")
        lines = list(said(errors.splitlines()))
        pairs += [(f"{name}: its status", (status, out, len(lines)), (1, b"", 3)), (f"{name}: the last line", lines[-1][:27], "stopped: there is no data, ")]
    report("a file that isn't whole is told, and nothing of it is taken", differ(pairs))


def beside(file):
    return sorted(it.name for it in file.parent.iterdir() if it.name.startswith(file.name))


class Between:
    """Lets a node's replies through to one client, up to so many bytes; then it holds them back."""

    def __init__(self, node, most):
        self.most, self.reached, self.door = most, threading.Event(), socket.create_server(("127.0.0.1", 0))
        self.port = self.door.getsockname()[1]
        self.node = node
        threading.Thread(target=self.serve, daemon=True).start()

    def serve(self):
        client, _ = self.door.accept()
        with client, socket.create_connection(("127.0.0.1", self.node.port)) as link:
            threading.Thread(target=self.forward, args=(client, link), daemon=True).start()
            left = self.most
            while left and (piece := link.recv(min(left, 65_536))):
                client.sendall(piece)
                left -= len(piece)
            self.reached.set()
            try:
                client.recv(1)
            except ConnectionResetError:
                pass

    @staticmethod
    def forward(client, link):
        try:
            link.sendall(client.recv(65_536))
        except OSError:
            pass


def killed_saves():
    """A save that is killed while the reply comes, or while it writes, leaves the file as it was; the next one writes it whole."""
    file, pairs = FOLDER / "killed.save", []
    with OwnNode() as node:
        fed(node, 1, 10)
        pairs += [("the first save", run("save", "--port", node.port, "--out", file), (0, b"", ""))]
        old = file.read_bytes()
        fed(node, 11, ENTRIES)
        new, reply = run("save", "--port", node.port)[1], len(run("save", "--port", node.port, "--plain")[1])
        for at in range(PLACES // 2):
            between = Between(node, (reply - 1) * at // (PLACES // 2 - 1))
            child = subprocess.Popen([str(PROGRAM), "save", "--port", str(between.port), "--out", str(file)])
            pairs.append((f"kill {at} while it comes: there", between.reached.wait(30), True))
            child.kill()
            pairs += [(f"kill {at} while it comes: status", child.wait(30), -signal.SIGKILL), (f"kill {at} while it comes", file.read_bytes() == old, True)]
        for at in range(PLACES // 2):
            most = (len(new) - 1) * at // (PLACES // 2 - 1)
            done = subprocess.run([str(PROGRAM), "save", "--port", str(node.port), "--out", str(file)], capture_output=True, timeout=60, check=False,
                                  preexec_fn=lambda most=most: (resource.setrlimit(resource.RLIMIT_FSIZE, (most, most)), resource.setrlimit(resource.RLIMIT_CORE, (0, 0))))
            pairs += [(f"kill {at} while it writes: status", done.returncode, -signal.SIGXFSZ), (f"kill {at} while it writes", file.read_bytes() == old, True)]
        # a write that fails is none that ends the program where the signal is ignored
        status, out, errors = run("save", "--port", node.port, "--out", file,
                                  preexec_fn=lambda: (signal.signal(signal.SIGXFSZ, signal.SIG_IGN), resource.setrlimit(resource.RLIMIT_FSIZE, (9, 9))), restore_signals=False)
        pairs += [("a write that fails", (status, out, len(errors.splitlines())), (1, b"", 1)), ("the file after it", (file.read_bytes() == old, beside(file)), (True, [file.name]))]
        pairs += [("a node that isn't there", run("save", "--port", free_port(), "--connect-seconds", 0, "--out", file)[:2], (1, b"")),
                  ("the file after that", (file.read_bytes() == old, beside(file)), (True, [file.name]))]
        pairs += [("the next save", run("save", "--port", node.port, "--out", file), (0, b"", "")), ("the file, and what was before", (file.read_bytes() == new, (FOLDER / "killed.save.1").read_bytes() == old, beside(file)), (True, True, [file.name, "killed.save.1"]))]
    with OwnNode("--load", file) as node:
        pairs.append(("a node that begins with it", what_it_has(node), (("front", 0, ENTRIES), [])))
    report(f"a save that is killed at {PLACES} places, or fails", differ(pairs))


def killed_loads():
    """A node that is killed while it loads, at so many places of the file; until it has it no port is open; then it comes back with the file."""
    file, pipe, pairs = FOLDER / "killed.save", FOLDER / "pipe", []
    data = file.read_bytes()
    os.mkfifo(pipe)
    for at in range(PLACES):
        port = free_port()
        child = subprocess.Popen([str(PROGRAM), "node", "--log", "7", "--streams", "1", "--port", str(port), "--load", str(pipe)],
                                 stdout=subprocess.PIPE, stderr=subprocess.DEVNULL)
        with open(pipe, "wb", buffering=0) as to:
            to.write(data[:(len(data) - 1) * at // (PLACES - 1)])
            with socket.socket() as probe:
                pairs.append((f"kill {at}: the port", probe.connect_ex(("127.0.0.1", port)) != 0, True))
            child.kill()
            pairs.append((f"kill {at}: what it printed", (child.wait(30), child.stdout.read()), (-signal.SIGKILL, b"")))
        child.stdout.close()
    pairs.append(("the file", file.read_bytes() == data, True))
    with OwnNode("--load", file) as node:
        pairs.append(("a node that begins with it", what_it_has(node), (("front", 0, ENTRIES), [])))
    report(f"a load that is killed at {PLACES} places", differ(pairs))


def saves_side_by_side():
    """Saves into one file at once write it whole, one after the other; a link leads to it, and what is no plain file is refused."""
    file, link = FOLDER / "both.save", FOLDER / "link.save"
    with OwnNode() as node:
        fed(node, 1, ENTRIES)
        whole = run("save", "--port", node.port)[1]
        children = [subprocess.Popen([str(PROGRAM), "save", "--port", str(node.port), "--out", str(file)]) for _ in range(8)]
        pairs = [("the statuses", [it.wait(60) for it in children], [0] * 8), ("the file, and what was before", (file.read_bytes() == whole, (FOLDER / "both.save.1").read_bytes() == whole, beside(file)), (True, True, [file.name, "both.save.1"]))]
        file.write_bytes(b"old")
        link.symlink_to(file)
        pairs += [("through a link", run("save", "--port", node.port, "--out", link), (0, b"", "")), ("the link and the file", (link.is_symlink(), file.read_bytes() == whole), (True, True))]
        for name, target, why in (("a device", "/dev/null", NO_PLAIN_FILE), ("a folder", FOLDER, NO_PLAIN_FILE), ("no folder", FOLDER / "none" / "file", "")):
            status, out, errors = run("save", "--port", node.port, "--out", target)
            pairs.append((name, (status, out, errors.startswith(f"stopped: can't make the file {target}: {why}"), len(errors.splitlines())), (1, b"", True, 1)))
    report("saves side by side, through a link, and to what is no plain file", differ(pairs))


def main():
    if not is_built(PROGRAM):
        return ended()
    start = time.monotonic()
    for check in (it_comes_back, chunks, bad_files, killed_saves, killed_loads, saves_side_by_side):
        guarded(check)
    print(f"nodes that come back: {time.monotonic() - start:.1f} s")
    return ended()


if __name__ == "__main__":
    sys.exit(main())
