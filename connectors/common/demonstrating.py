"""What the demonstrations of all connectors share: a primary's log with the rows that it has at some times, nodes, and
the table at the end."""
from __future__ import annotations

import random
import socket
import subprocess
import tempfile
import time
from typing import Any, Dict, Iterator, List, Tuple

from built import needed_hkrep
from feeding import Feed
from vadungsil import LogWriter, encode
from vadungsil.node import Node

STREAMS, ACCOUNTS = 4, 50
WORDS = ["--log", "7", "--streams", str(STREAMS)]
Rows = Dict[int, bytes]


def free_port() -> int:
    with socket.socket() as probe:
        probe.bind(("127.0.0.1", 0))
        port: int = probe.getsockname()[1]
        return port


class Demonstration:
    """The programs that it started, which `end` ends."""

    def __init__(self) -> None:
        self.children: List["subprocess.Popen[bytes]"] = []
        self.begin, self.said = time.monotonic(), tempfile.TemporaryFile()
        self.hkrep = needed_hkrep()

    def start(self, *words: Any, **more: Any) -> "subprocess.Popen[bytes]":
        options: Dict[str, Any] = {"stdout": subprocess.DEVNULL, "stderr": self.said, **more}
        child: "subprocess.Popen[bytes]" = subprocess.Popen([str(word) for word in words], **options)
        self.children.append(child)
        return child

    def have_ended(self, *children: "subprocess.Popen[bytes]") -> bool:
        """Waits for connectors; where one failed, prints what all programs said last."""
        codes = [child.wait(300) for child in children]
        if any(codes):
            self.said.seek(0)
            print(
                f"a connector failed, statuses {codes}; what was said:",
                self.said.read().decode(errors="replace")[-2000:],
                sep="\n",
            )
        return not any(codes)

    def end(self) -> None:
        for child in self.children:
            if child.poll() is None:
                child.kill()
            child.wait()

    def node_on(self, port: int) -> "subprocess.Popen[bytes]":
        child = self.start(self.hkrep, "serve", *WORDS, "--port", port, "--links", 16, stdout=subprocess.PIPE)
        assert child.stdout is not None
        child.stdout.readline()
        return child

    def anew(self, node: "subprocess.Popen[bytes]", port: int) -> "subprocess.Popen[bytes]":
        node.kill()
        node.wait()
        return self.node_on(port)

    def compare(self, wanted: Dict[int, Rows], ports: List[int]) -> int:
        """The table: the rows of both nodes at some times, beside the primary's. 1 where some are others."""
        print("  time  rows  node one  node two")
        wrong = 0
        for at, rows in wanted.items():
            same = [rows_at(port, at) == rows for port in ports]
            wrong += same.count(False)
            print(f"{at:>6}{len(rows):>6}" + "".join("     equal" if it else "   OTHERS!" for it in same))
        print(f"{time.monotonic() - self.begin:.1f} s")
        return 1 if wrong else 0


def log_of(count: int, wanted: Dict[int, Rows]) -> Iterator[Tuple[int, bytes]]:
    """A primary's log, a transaction of two writes at a time, with marks after each twentieth; fills `wanted` with the
    rows at its times."""
    rand, writer = random.Random(7), LogWriter(7, STREAMS)
    rows: Rows = {}
    for at in range(1, count + 1):
        account, other = rand.sample(range(ACCOUNTS), 2)
        put = {account: b"%d" % rand.randrange(1000), other: b"%d" % rand.randrange(1000)}
        rows.update(put)
        entry = writer.commit([(1, key, 0, body) for key, body in put.items()], stream=rand.randint(1, STREAMS))
        piece = encode(entry) if entry else b""
        if at in wanted:
            wanted[at] = dict(rows)
        if at % 20 == 0 or at == count:
            piece += b"".join(encode(mark) for mark in writer.marks())
        yield at, piece


def rows_at(port: int, at: int) -> Rows:
    with Node(port) as node:
        return {key: row.body or b"" for key, row in node.range(1, at=at)}


def readable(port: int, least: int, follower: "subprocess.Popen[bytes]") -> None:
    """Waits until a node can be read so far, or its follower ended."""
    feed = Feed(port)
    while follower.poll() is None and feed.front().readable < least:
        time.sleep(0.002)
    feed.close()
