"""What the stories of connectors share (tests/checks/connectors.py, tests/checks/engine.py): a log and the rows that it has, programs that are started
and ended, and a node's rows beside the log's. The connectors' package, tests/lib/reference.py and the standard library."""
import os
import pathlib
import random
import shutil
import signal
import subprocess
import sys
import tempfile
import time

ROOT = pathlib.Path(__file__).resolve().parents[2]
HKREP = ROOT / "bin" / "hkrep"
sys.path[:0] = [str(ROOT / "tests" / "lib"), str(ROOT / "connectors" / "common")]

import reference
from feeding import Feed
from vadungsil import Entry, LogWriter, Mark, encode
from vadungsil.node import Node

LOG, STREAMS, PATIENCE = 7, 4, 120
WORDS = ["--log", LOG, "--streams", STREAMS]


class Story(AssertionError):
    """What went otherwise than it should."""


def holds(condition, text):
    if not condition:
        raise Story(text)


def log_of(entries, seed, fork=0):
    """A log: entries of one to three writes, one write in twenty a removal; marks of all streams after every tenth entry and at the end.
    Behind the entry `fork` another history goes on."""
    rand, writer, frames = random.Random(seed), LogWriter(LOG, STREAMS), []
    keys = max(4, entries // 4)
    for time_ in range(1, entries + 1):
        if fork and time_ == fork + 1:
            rand = random.Random(seed + 1)
        puts, removes = [], []
        for key in {rand.randrange(keys) for _ in range(rand.randint(1, 3))}:
            if writer.born(1, key) is not None and rand.random() < 0.05:
                removes.append((1, key))
            else:
                puts.append((1, key, rand.randrange(100), rand.randbytes(rand.randint(16, 112))))
        frames.append(encode(writer.commit(puts, removes, stream=rand.randint(1, STREAMS))))
        if time_ % 10 == 0 or time_ == entries:
            frames += [encode(mark) for mark in writer.marks()]
    return frames


def tables_of(frames, entries):
    """The log's rows at 12 times, as another program reads them."""
    items, _ = reference.items_of(b"".join(frames))
    times = sorted({0, *(entries * part // 11 for part in range(1, 12))})
    return {at: {key: row for (_, key), row in reference.shown(items, at).items()} for at in times}


def is_entry(frame):
    return frame[5] == 1


def stream_of(frame):
    return int.from_bytes(frame[14:16], "big")


def number_of(frame):
    return int.from_bytes(frame[16:24], "big")


# ---------------------------------------------------------------- programs

class Bench:
    """A folder, and the programs that a story starts; all of them are ended at its end."""

    def __init__(self, folder, entries, frames, tables):
        self.folder, self.entries, self.frames, self.tables = folder, entries, frames, tables
        self.children, self.rand = [], random.Random(1)
        self.write("log.bin", frames)

    def __exit__(self, *_):
        for child in self.children:
            kill(child)

    def write(self, name, frames):
        (self.folder / name).write_bytes(b"".join(frames))

    def said(self):
        return (self.folder / "said").read_text()[-1500:] if (self.folder / "said").exists() else ""

    def start(self, *words, **more):
        with open(self.folder / "said", "ab") as said:
            pipes = {"stdout": subprocess.DEVNULL, "stdin": subprocess.DEVNULL, **more}
            child = subprocess.Popen([str(word) for word in words], stderr=said, **pipes)
        self.children.append(child)
        return child

    def start_node(self, port, *more):
        node = self.start(HKREP, "node", *WORDS, "--port", port, "--links", 64, *more, stdout=subprocess.PIPE)
        holds(node.stdout.readline().startswith(b"listening on "), "the node doesn't listen")
        return node

    def reached(self, part, port=None):
        """Waits until the node has taken a part of all entries, and says how many it has."""
        feed = Feed(port or self.node_port)
        try:
            return waited(lambda: taken_of(feed, part * self.entries), f"the node doesn't come to {part} of the log")
        finally:
            feed.close()

    def same(self, port=None, tables=None):
        """The rows at 12 times are those of the log."""
        with Node(port or self.node_port, limit=PATIENCE) as node:
            front = node.front()
            holds(front.readable == self.entries, f"{front} where {self.entries} was to be readable")
            for at, wanted in sorted((tables or self.tables).items()):
                if at >= front.horizon:
                    rows = {key: (row.tag, row.body) for key, row in node.range(1, at=at)}
                    holds(rows == wanted, f"other rows at {at}")


def kill(child):
    if child.poll() is None:
        child.kill()
    child.wait()
    for pipe in (child.stdout, child.stdin):
        try:
            if pipe:
                pipe.close()
        except BrokenPipeError:
            pass


def demonstration(*words):
    """What a program that starts others printed and its status; whatever it left is ended with it, also where it takes too long."""
    child = subprocess.Popen([str(word) for word in words], stdout=subprocess.PIPE, stderr=subprocess.STDOUT, text=True,
                             start_new_session=True)
    try:
        return child.communicate(timeout=2 * PATIENCE)[0], child.returncode
    except subprocess.TimeoutExpired:
        return f"{words[0]} doesn't end", 1
    finally:
        try:
            os.killpg(child.pid, signal.SIGKILL)
        except ProcessLookupError:
            pass
        child.communicate()


def taken_of(feed, wanted):
    taken = sum(stream.prefix for stream in feed.streams(7))
    return taken if taken >= wanted else None


def waited(look, text, limit=PATIENCE):
    """What the look gives, once it gives something; its patience ends only where nothing moves at all."""
    begin = time.monotonic()
    while not (told := look()):
        holds(time.monotonic() - begin < limit, text() if callable(text) else text)
        time.sleep(0.002)
    return told


def status(child, wanted=0):
    try:
        got = child.wait(PATIENCE)
    except subprocess.TimeoutExpired:
        raise Story(f"{child.args[0]} doesn't end") from None
    holds(got == wanted, f"{pathlib.Path(child.args[0]).name}: status {got}, wanted {wanted}")


def play(story, make):
    """Plays a story on what `make` makes of a folder; gives its name, what is wrong, and what it told."""
    begin, folder = time.monotonic(), pathlib.Path(tempfile.mkdtemp(prefix="connectors"))
    problems, told = [], ""
    try:
        with make(folder) as bench:
            try:
                told = story(bench) or ""
            except Exception as error:      # whatever it is, this story failed, and the others go on
                problems = [f"{type(error).__name__}: {error}", bench.said()]
    except Exception as error:
        problems = [f"{type(error).__name__}: {error}"]
    finally:
        if not os.environ.get("KEEP"):
            shutil.rmtree(folder, ignore_errors=True)
    return f"{story.__name__.replace('_', ' ')} ({time.monotonic() - begin:.1f} s)", problems, told
