"""The command: python3 -m vadungsil.web."""
from __future__ import annotations

import argparse
import signal
import sys
import threading
from typing import Any, Callable, List, Optional, Tuple

from ..address import ELSE, FORMS, host_and_port, place_of
from ..link import add_certificates, certificates_of
from .server import Server


def parser() -> argparse.ArgumentParser:
    it = argparse.ArgumentParser(
        prog="python3 -m vadungsil.web",
        description="A page to look at nodes of Vadungsil, with /metrics and /api/. It only reads.",
    )
    it.add_argument(
        "--node",
        action="append",
        default=[],
        metavar="ADDRESS",
        help=f"a node, {FORMS}; may be given again; {ELSE}",
    )
    add_certificates(it)
    it.add_argument(
        "--http",
        default="127.0.0.1:8080",
        metavar="HOST:PORT",
        help="where to listen (127.0.0.1:8080); port 0 takes a free one",
    )
    it.add_argument(
        "--allow-host",
        action="append",
        default=[],
        metavar="NAME",
        help="a further Host that a request may name; may be given again",
    )
    it.add_argument(
        "--messages",
        type=int,
        choices=(1, 2),
        default=1,
        help="2 asks nodes that read version 2 for their operations and their least pinned time too",
    )
    for option, most in (("--table", 2**16 - 1), ("--stream", 64)):
        it.add_argument(
            option,
            action="append",
            default=[],
            type=named(most),
            metavar="NUMBER=NAME",
            help=f"what the page calls a {option[2:]}; may be given again",
        )
    it.add_argument(
        "--limit", type=float, default=10.0, metavar="SECONDS", help="the most that a node's reply is waited for (10)"
    )
    it.add_argument(
        "--every", type=float, default=1.0, metavar="SECONDS", help="from one look at the nodes to the next (1)"
    )
    return it


def named(most: int) -> Callable[[str], Tuple[int, str]]:
    """What reads NUMBER=NAME."""

    def read(word: str) -> Tuple[int, str]:
        number, equals, name = word.partition("=")
        if not (equals and name and not name.isdigit() and number.isascii() and number.isdigit() and len(number) < 9):
            raise argparse.ArgumentTypeError(f"{word!r} is no NUMBER=NAME, as 1=orders")
        if int(number) > most:
            raise argparse.ArgumentTypeError(f"{word!r}: the number is at most {most}")
        return int(number), name

    return read


def main(arguments: Optional[List[str]] = None) -> int:
    words_of = parser()
    words = words_of.parse_args(arguments)
    if not words.limit > 0 or not words.every >= 0.1:
        words_of.error("--limit is above 0, --every at least 0.1")
    try:
        server = Server(
            words.node or [place_of()],
            host_and_port(words.http, 0),
            words.limit,
            words.every,
            words.allow_host,
            certificates=certificates_of(words),
            messages=words.messages,
            names={"tables": dict(words.table), "streams": dict(words.stream)},
        )
    except ValueError as error:
        words_of.error(str(error))
    except OSError as error:
        print(f"can't listen on {words.http}: {error}", file=sys.stderr)
        return 1
    return run(server)


def run(server: Server) -> int:
    """Serves until Ctrl-C or SIGTERM."""

    def end(*_: Any) -> None:
        threading.Thread(target=server.shutdown, daemon=True).start()

    for number in (signal.SIGINT, signal.SIGTERM):
        signal.signal(number, end)
    if not str(server.server_address[0]).startswith("127."):
        print("others can reach this: it has no passwords and no encryption", file=sys.stderr)
    print(f"listening {server.address}", flush=True)
    server.start()
    try:
        server.serve_forever(poll_interval=0.1)
    finally:
        server.close()
    return 0


if __name__ == "__main__":
    sys.exit(main())
