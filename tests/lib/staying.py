"""Long-running nodes for the tests, `hkrep node`, with what they print as it comes. Standard library only."""
import pathlib
import queue
import re
import resource
import subprocess
import threading

import messages as say
from checks import free_port

PROGRAM = pathlib.Path(__file__).resolve().parents[2] / "bin" / "hkrep"
LIMIT = 30
# how many lines of standard error are told where a line of standard output lacks
LAST_WORDS = 5

# a line of standard error: its time, how grave it is, the peer, and the words
LOGGED = re.compile(r"\S+Z (?:info|warn|error) \S+ (.*\n)")
# of the words, the end of a connection, and of how many more ends of one kind there is one line: ten a second have one of their own
ENDED = re.compile(r"link \d+: ended (\d+)\b")
MORE_ENDED = re.compile(r"([\d,]+) more: ended (\d+)\b")


def said(pipe):
    """The lines of a pipe as they come, but for the one of a program that was built without proofs."""
    return (line for line in pipe if not line.startswith("unproved: "))


def is_silent(link, seconds=0.3):
    """Whether nothing comes for a while."""
    link.socket.settimeout(seconds)
    try:
        return link.socket.recv(1) is None
    except TimeoutError:
        return True
    finally:
        link.socket.settimeout(LIMIT)


def most_memory(process):
    """The most bytes of a process that stood in memory at once, since it began or since that was last forgotten (clear_refs)."""
    text = pathlib.Path(f"/proc/{process}/status").read_text()
    return int(next(line for line in text.splitlines() if line.startswith("VmHWM")).split()[1]) * 1024


class Running:
    """A node, which is ended when the block is left, started behind the words before; limits are of `resource`."""

    def __init__(self, words, address="127.0.0.1", before=(), **limits):
        def restrict():
            for name, limit in limits.items():
                resource.setrlimit(getattr(resource, name), (limit, limit))

        self.address = address
        self.child = subprocess.Popen([*before, str(PROGRAM), *words], stdout=subprocess.PIPE, stderr=subprocess.PIPE, text=True, preexec_fn=restrict)
        self.lines, self.words = queue.Queue(), []
        threading.Thread(target=self._read, daemon=True).start()
        self.words_thread = threading.Thread(target=self._hear, daemon=True)
        self.words_thread.start()

    def _read(self):
        for line in self.child.stdout:
            self.lines.put(line.removesuffix("\n"))
        self.lines.put(None)

    def _hear(self):
        self.words.extend(said(self.child.stderr))

    def _failed(self, told):
        self.child.kill()
        self.child.wait()
        raise RuntimeError(f"the node said {told}")

    def line(self, limit=LIMIT):
        """The next line that it prints, or None where it ended."""
        try:
            return self.lines.get(timeout=limit)
        except queue.Empty:
            raise RuntimeError(f"the node printed no line for {limit} s; last on standard error: {self.words[-LAST_WORDS:]}") from None

    def link(self, port=None):
        return say.Link(port or self.port, LIMIT, self.address)

    def memory(self):
        """How many bytes of it stand in memory."""
        text = pathlib.Path(f"/proc/{self.child.pid}/status").read_text()
        return int(next(line for line in text.splitlines() if line.startswith("VmRSS")).split()[1]) * 1024

    def processor(self):
        """How many hundredths of a second it worked."""
        fields = pathlib.Path(f"/proc/{self.child.pid}/stat").read_text().rsplit(") ", 1)[1].split()
        return int(fields[11]) + int(fields[12])

    def __enter__(self):
        return self

    def __exit__(self, *_):
        self.child.kill()
        self.child.wait()
        self.words_thread.join(LIMIT)


class Staying(Running):
    """A node of log 7 that tells its words without the time, and whose lines are the ends of its connections, `ended` and the number, where they are told."""

    def __init__(self, links, *options, streams=1, reading=0, feeding=0, address="127.0.0.1", **limits):
        self.port, self.read_port, self.feed_port = free_port(), free_port(), free_port()
        self.opened = queue.Queue()
        words = ["node", "--log", "7", "--streams", str(streams), "--port", str(self.port), "--links", str(links), *map(str, options)]
        if feeding:
            words += ["--feed-port", str(self.feed_port), "--feed-links", str(feeding)]
        if reading:
            words += ["--read-port", str(self.read_port), "--read-links", str(reading)]
        super().__init__(words, address, **limits)
        told = self.opened.get(timeout=LIMIT)
        if not (told or "").startswith(f"listening on {address}:{self.port} "):
            self._failed(told)

    def _read(self):
        for line in self.child.stdout:
            self.opened.put(line.removesuffix("\n"))
        self.opened.put(None)

    def _hear(self):
        for line in said(self.child.stderr):
            found = LOGGED.fullmatch(line)
            words = found[1] if found else line
            self.words.append(words)
            if ended := ENDED.match(words):
                self.lines.put(f"ended {ended[1]}")
            if more := MORE_ENDED.match(words):
                for _ in range(int(more[1].replace(",", ""))):
                    self.lines.put(f"ended {more[2]}")
        self.lines.put(None)


class OwnNode(Running):
    """A node of `hkrep node` of log 7 with a stream, once it listens."""

    def __init__(self, *options, port=0, **limits):
        self.port = port or free_port()
        super().__init__(["node", "--log", "7", "--streams", "1", "--port", str(self.port), *map(str, options)], **limits)
        self.opened = self.line()
        if not (self.opened or "").startswith(f"listening on 127.0.0.1:{self.port} "):
            self._failed(self.opened)
