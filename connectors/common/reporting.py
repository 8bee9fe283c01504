"""How far a log is in an engine, and nodes behind it: what `status` does of each connector."""
from __future__ import annotations

import argparse
import time
from typing import Any, Callable, List, Optional, Tuple

from engine_log import EngineLog
from feeding import Certificates, Feed, LinkBroken, Refused, Stream, add_node_words, node_certificates, short
from vadungsil.errors import Broken


class Asked:
    """A node, over one connection that is kept while it holds."""

    def __init__(self, address: str, certificates: Certificates) -> None:
        self.address, self.certificates = address, certificates
        self.feed: Optional[Feed] = None

    def told(self, log: int) -> Tuple[Tuple[Stream, ...], str]:
        """Its streams, and its front as a line. 20: it has another log."""
        try:
            if self.feed is None:
                self.feed = Feed(self.address, limit=20, certificates=self.certificates)
            return self.feed.streams(log), self.feed.front().line()
        except BaseException:
            if self.feed is not None:
                self.feed.close()
            self.feed = None
            raise


def row_of_engine(store: EngineLog, stream: int, lines: List[str]) -> List[Any]:
    """The row of a stream: its first entry, its last, and the time that its last mark closes. Where a message is no
    block of the log, a line is added that names it, and what can't be known without it is 0."""
    row = [stream, 0, 0, 0]
    try:
        row[2] = store.last(stream)
        row[1] = store.first(stream)
        tail = store.tail(stream)
        row[2:] = [tail.number, tail.marked]
    except Broken as broken:
        lines.append(short(str(broken)))
    return row


def table_of(heads: List[str], rows: List[List[Any]]) -> List[str]:
    texts = [heads, *([str(it) for it in row] for row in rows)]
    widths = [max(map(len, column)) for column in zip(*texts)]
    return ["  ".join(text.rjust(width) for text, width in zip(row, widths)) for row in texts]


def lines_of(store: EngineLog, nodes: List[Asked]) -> Tuple[List[str], int]:
    """What to print, and the status."""
    lines: List[str] = []
    there = [row_of_engine(store, stream, lines) for stream in range(1, store.streams + 1)]
    code = 3 if lines else 0
    if not nodes:
        return lines + table_of(["stream", "first", "last", "marked"], there), code
    for node in nodes:
        try:
            streams, front = node.told(store.log)
        except (LinkBroken, Refused) as error:
            lines.append(f"node {node.address}: {error}")
            code = 1
            continue
        rows = []
        for (stream, first, last, marked), told in zip(there, streams):
            missing = f"{told.prefix + 1} to {first - 1}" if first > told.prefix + 1 else "-"
            lags = [max(last - told.prefix, 0), max(marked - told.closed, 0)]
            rows.append([stream, first, last, marked, told.prefix, told.closed, *lags, missing])
        lines.append(f"node {node.address}: {front}")
        heads = ["stream", "first", "last", "marked", "prefix", "closed", "behind", "in time", f"not in {store.engine}"]
        lines += table_of(heads, rows)
    return lines, code


def add_status_words(words: argparse.ArgumentParser) -> None:
    add_node_words(words, "a node; as often as wanted", default=[])
    words.add_argument(
        "--watch",
        nargs="?",
        type=float,
        const=1.0,
        metavar="SECONDS",
        help="again and again, every second without a number",
    )


def status(store: EngineLog, said: argparse.Namespace, beside: Callable[[], List[str]]) -> int:
    """All of it: the status. `beside` gives lines of the engine's own."""
    nodes = [Asked(it, node_certificates(said)) for it in said.node]
    while True:
        try:
            lines, code = lines_of(store, nodes)
            lines += beside()
        except store.errors as error:
            lines, code = [short(f"{store.engine}: {type(error).__name__}: {error}")], 1
            store.drop()
        print("\n".join(lines), flush=True)
        if said.watch is None:
            return code
        time.sleep(max(said.watch, 0.01))
        print(flush=True)
