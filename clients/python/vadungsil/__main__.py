"""The command: python3 -m vadungsil."""
from __future__ import annotations

import argparse
import os
import ssl
import sys
from typing import Any, BinaryIO, Callable, List, Optional

from . import __version__
from .address import ELSE, FORMS, Address, place_of
from .bodies import WAYS, table_of
from .errors import LinkBroken, Refused, TimeLimit, VadungsilError
from .export import FORMS as FILES
from .export import Progress, export, form_named, is_standard_output
from .items import Feeder
from .link import add_certificates, certificates_of
from .messages import MOST_ITEMS, MOST_MESSAGE
from .node import Node
from .nodes import Nodes
from .reasons import REASONS, explain
from .values import LAST_KEY, LAST_TIME, KeyRow, Number, One, Rows

PLACES = {
    "get": (("table", "key"), "the row of a key"),
    "range": (("table", "low", "high"), "the rows of the keys from LOW to HIGH"),
    "tag": (("table", "tag"), "the rows with a tag"),
    "count": (("table",), "how many rows a table has"),
}
ANSWERS_ROWS = ("get", "range", "tag")

# The greatest number of each place, and how that is said.
KEY, TIME = (LAST_KEY, "2^64 - 1"), (LAST_TIME, "2^62")
GREATEST = {
    "table": (2**16 - 1, "65535"),
    "key": KEY,
    "low": KEY,
    "high": KEY,
    "tag": (2**32 - 1, "2^32 - 1"),
    "time": TIME,
    "base": TIME,
    "horizon": TIME,
}
FEED, FEED_ONCE = "feed", "push"
WAYS_TOLD = (
    ("--table", WAYS[0], "a table for people, with bodies as text where they are plain text, else in hexadecimal"),
    ("--text", WAYS[1], "such a table, with all bodies as text"),
    ("--hex", WAYS[2], "such a table, with all bodies in hexadecimal"),
)


# ---------------------------------------------------------------- the words


def number(name: str) -> Callable[[str], int]:
    """What reads a number of this name, within its range."""
    most, told = GREATEST[name]

    def read(word: str) -> int:
        if not (word.isascii() and word.isdigit() and len(word) <= 30 and int(word) <= most):
            raise argparse.ArgumentTypeError(f"{name} must be 0 to {told}, and is {word!r}")
        return int(word)

    return read


def tables_of(word: str) -> List[int]:
    return [number("table")(it) for it in word.split(",")]


def reason_of(word: str) -> int:
    """The number of an error by its number or its name."""
    for it, reason in REASONS.items():
        if word in (str(it), reason.name) or word.lower() == reason.name.lower():
            return it
    raise argparse.ArgumentTypeError(f"no refusal has the number or the name {word!r}")


def parser() -> argparse.ArgumentParser:
    it = argparse.ArgumentParser(prog="vadungsil", description="Asks nodes of Vadungsil, and prints as hkrep does.")
    it.add_argument("--version", action="version", version=f"vadungsil {__version__}")
    it.add_argument("--port", type=int, help="the port of a node on this machine")
    it.add_argument(
        "--node",
        action="append",
        default=[],
        metavar="ADDRESS",
        help=f"a node, {FORMS}; several are asked as one; {ELSE}",
    )
    add_certificates(it)
    it.add_argument(
        "--limit", type=float, default=20.0, metavar="SECONDS", help="the most that a reply is waited for (20)"
    )
    commands = it.add_subparsers(dest="command", required=True, metavar="COMMAND")
    add_questions(commands)
    commands.add_parser("front", help="the range of readable times")
    add_feed(commands.add_parser(FEED, help="send the item frames of standard input, 65,536 at once"))
    add_feed(commands.add_parser(FEED_ONCE))
    commands.add_parser("whole", help="what the node holds, in a line")
    of = commands.add_parser("delta", help="what happened since a time, in a line")
    of.add_argument("base", type=number("base"))
    of = commands.add_parser("prune", help="drop the versions that ended up to a time")
    of.add_argument("horizon", type=number("horizon"))
    of = commands.add_parser("explain", help="what a refusal means, and what to do")
    of.add_argument("number", type=reason_of, nargs="?", help="its number or its name")
    add_export(commands.add_parser("export", help="write all rows of one moment"))
    return it


def add_questions(commands: Any) -> None:
    for name, (places, told) in PLACES.items():
        of = commands.add_parser(name, help=told)
        for place in places:
            of.add_argument(place, type=number(place))
        of.add_argument("--at", type=number("time"), metavar="T", help="the time; without it the resolved time")
        if name in ANSWERS_ROWS:
            ways = of.add_mutually_exclusive_group()
            for option, way, how in WAYS_TOLD:
                ways.add_argument(option, dest="way", action="store_const", const=way, help=how)


def add_feed(of: argparse.ArgumentParser) -> None:
    of.add_argument(
        "--messages", type=int, choices=(1, 2), default=1, help="the latest version of messages that the node reads"
    )


def add_export(of: argparse.ArgumentParser) -> None:
    of.add_argument("--at", type=number("time"), metavar="T", help="the time; without it the resolved time")
    of.add_argument("--form", choices=FILES, help="the form, where the file's ending doesn't say it")
    of.add_argument(
        "--out",
        default="-",
        metavar="FILE",
        help="where to; - is standard output; into a device or a pipe go csv and jsonl",
    )
    of.add_argument("--force", action="store_true", help="also over a file that stands")
    of.add_argument("--tables", type=tables_of, metavar="T,T", help="these tables alone")


def in_order(arguments: List[str]) -> List[str]:
    """The words with a time before its question behind it, as `hkrep ask` takes both: 3 get 1 5 is get 1 5 --at 3."""
    for at, (word, after) in enumerate(zip(arguments, arguments[1:])):
        before = arguments[at - 1] if at else ""
        is_value = before.startswith("-") and "=" not in before
        if after in PLACES and word.isascii() and word.isdigit() and not is_value:
            return [*arguments[:at], *arguments[at + 1 :], "--at", word]
    return arguments


# ---------------------------------------------------------------- asking


def asked(node: Any, words: argparse.Namespace) -> str:
    """The line, or lines, that a question to one or many nodes is answered."""
    if words.command == "get":
        row = node.get(words.table, words.key, at=words.at)
        return shown_as(words, [] if row is None else [KeyRow(words.key, row)], One(row).line)
    if words.command == "range":
        found = node.range(words.table, words.low, words.high, at=words.at)
        return shown_as(words, found, lambda: Rows(tuple(found)).line())
    if words.command == "tag":
        found = node.by_tag(words.table, words.tag, at=words.at)
        return shown_as(words, found, lambda: Rows(tuple(found)).line())
    if words.command == "count":
        return Number(node.count(words.table, at=words.at)).line()
    rows = export(node, words.out, words.form or form_named(words.out), words.at, words.tables, words.force)
    return "" if is_standard_output(words.out) else f"rows {rows}"


def shown_as(words: argparse.Namespace, rows: List[KeyRow], line: Callable[[], str]) -> str:
    """Rows as the words want them: a table for people, or the lines that hkrep prints."""
    return line() if words.way is None else table_of(rows, words.way)


def told(node: Node, words: argparse.Namespace) -> str:
    """The line that a request to one node is replied."""
    if words.command == "front":
        return node.front().line()
    if words.command == FEED:
        return fed(node, sys.stdin.buffer)
    if words.command == "whole":
        return node.whole().line()
    if words.command == "delta":
        return node.delta(words.base).line()
    return f"done {node.prune(words.horizon)}"


def fed(node: Node, source: BinaryIO) -> str:
    """Sends item frames, as many in a request as may be, and gives the line of the last reply."""
    feeding, feeder = Feeding(node), Feeder()
    try:
        for piece in iter(lambda: source.read(2**20), b""):
            for _, frame in feeder.feed_frames(piece):
                feeding.add(frame)
        feeder.finish()
        feeding.send()
    finally:
        feeding.progress.end()
    if feeding.operations.new is not None:
        print(f"new {feeding.new} of {feeding.progress.done}", file=sys.stderr)
    return f"done {feeding.operations}"


class Feeding:
    """Item frames on their way to a node."""

    def __init__(self, node: Node) -> None:
        self.node, self.progress = node, Progress(None, "items")
        self.frames: List[bytes] = []
        self.size = self.new = 0

    def add(self, frame: bytes) -> None:
        if len(self.frames) == MOST_ITEMS or self.size + len(frame) > MOST_MESSAGE - 6:
            self.send()
        self.frames.append(frame)
        self.size += len(frame)

    def send(self) -> None:
        self.operations = self.node.items(self.frames)
        self.new += self.operations.new or 0
        self.progress.add(len(self.frames))
        self.frames, self.size = [], 0


def run(words: argparse.Namespace) -> str:
    if words.command == "explain":
        numbers = sorted(REASONS) if words.number is None else [words.number]
        return "\n".join(explain(it) for it in numbers)
    addresses: List[Address] = [*words.node, *([] if words.port is None else [words.port])] or [place_of()]
    certificates = certificates_of(words)._asdict()
    if words.command in PLACES or words.command == "export":
        if len(addresses) > 1:
            with Nodes(addresses, words.limit, **certificates) as nodes:
                return asked(nodes, words)
        with Node(addresses[0], words.limit, **certificates) as node:
            return asked(node, words)
    with Node(addresses[0], words.limit, **certificates, messages=getattr(words, "messages", None)) as node:
        return told(node, words)


def main(arguments: Optional[List[str]] = None) -> int:
    words = parser().parse_args(in_order(sys.argv[1:] if arguments is None else arguments))
    if words.command == FEED_ONCE:
        print(f"vadungsil: {FEED_ONCE} is {FEED} now", file=sys.stderr)
        words.command = FEED
    try:
        lines = run(words)
        if lines:
            print(lines, flush=True)
    except Refused as refused:
        print(refused.line)
        print(refused, file=sys.stderr)
        return 1
    except TimeLimit as late:
        print("refused 91")
        print(f"refused 91: {late}; see whether the node runs, or give --limit more", file=sys.stderr)
        return 1
    except LinkBroken as broken:
        print("refused 93")
        print(f"refused 93: {broken}; {what_to_do(broken)}", file=sys.stderr)
        return 1
    except OSError as error:
        return _failed(error)
    except (ValueError, VadungsilError) as error:
        print(f"vadungsil: {error}", file=sys.stderr)
        return 2
    return 0


def what_to_do(broken: LinkBroken) -> str:
    """Where no connection holds: over TLS that is no matter of starting a node."""
    if isinstance(broken.__cause__, ssl.SSLError):
        return "see --cacert, --cert and --key, and which certificates stand before the node"
    return "'hkrep node' starts a node, and --node or HKREP_NODE names another"


def _failed(error: OSError) -> int:
    """Says what the system refused. What standard output still keeps goes nowhere, or Python would try again at its
    end."""
    print(f"vadungsil: {error.filename or 'standard output'}: {error.strerror or error}", file=sys.stderr)
    os.dup2(os.open(os.devnull, os.O_WRONLY), 1)
    return 1


if __name__ == "__main__":
    sys.exit(main())
