"""The server: the page, /metrics, /api/ and the event stream over HTTP, within bounds. It answers GET and HEAD
alone."""
from __future__ import annotations

import json
import pathlib
import socket
import threading
from http.server import ThreadingHTTPServer
from itertools import chain
from typing import Any, Dict, Iterable, List, Optional, Tuple

from ..address import Address, place_of
from ..link import Certificates
from .api import Api, Names
from .exposition import text_of
from .handler import Handler
from .metrics import of_nodes, of_server
from .process import process
from .watch import watched_by_name

# Requests that are answered at once, and event streams among them.
MOST_REQUESTS, MOST_STREAMS = 64, 16
HERE = pathlib.Path(__file__).resolve().parent
ASSETS = {
    "/": ("page.html", "text/html; charset=utf-8"),
    "/page.css": ("page.css", "text/css; charset=utf-8"),
    "/page.js": ("page.js", "text/javascript; charset=utf-8"),
    "/draw.js": ("draw.js", "text/javascript; charset=utf-8"),
    "/overview.js": ("overview.js", "text/javascript; charset=utf-8"),
    "/rows.js": ("rows.js", "text/javascript; charset=utf-8"),
    "/tables.js": ("tables.js", "text/javascript; charset=utf-8"),
    "/icon.svg": ("icon.svg", "image/svg+xml"),
    "/api/openapi.json": ("openapi.json", "application/json; charset=utf-8"),
}


def hosts_of(host: str, port: int, allowed: Iterable[str]) -> List[str]:
    """What a request may say as its Host: the address that is listened on, the names of this machine where that is its
    loopback, and what was allowed, which may be a proxy's and so goes without a port too. A page of another name that
    resolves to this address is thereby kept out."""
    names = {host}
    if host.startswith("127.") or host == "localhost":
        names |= {"127.0.0.1", "localhost"}
    further = [name.lower() for name in allowed]
    found = {f"{name}:{port}" for name in [*names, *(name for name in further if ":" not in name)]} | set(further)
    return sorted(found | (names if port == 80 else set()))


class Server(ThreadingHTTPServer):
    """A web server of some nodes. `start` begins to watch them, `serve_forever` answers, `stop` ends both."""

    daemon_threads, allow_reuse_address, request_queue_size = True, True, 256

    def __init__(
        self,
        nodes: List[Address],
        http: Tuple[str, int] = ("127.0.0.1", 8080),
        limit: float = 10.0,
        every: float = 1.0,
        allowed: Iterable[str] = (),
        patience: float = 10.0,
        certificates: Certificates = Certificates(),
        messages: int = 1,
        names: Optional[Names] = None,
    ) -> None:
        """`limit`: seconds that a node's reply is waited for; `every`: seconds from one look at the nodes to the next;
        `patience`: seconds in which a request has to come, and each piece of an answer has to go; `certificates` are
        for nodes at tls://HOST:PORT; `messages`: 2 asks nodes for their operations and pinned times too; `names`: what
        the page calls "tables" and "streams", by their numbers.
        """
        if not nodes:
            raise ValueError("no nodes")
        certificates.see(place_of(it) for it in nodes)
        self._change = threading.Condition()
        self._changes = 0
        self.nodes = watched_by_name(
            list(nodes),
            limit=limit,
            every=every,
            changed=self._note_change,
            certificates=certificates,
            messages=messages,
        )
        self.patience, self.every, self.ended = patience, every, threading.Event()
        self._free, self._streams = threading.BoundedSemaphore(MOST_REQUESTS), threading.BoundedSemaphore(MOST_STREAMS)
        self._counts_lock, self._statuses, self.streams_open = (
            threading.Lock(),
            {},
            0,
        )  # type: threading.Lock, Dict[int, int], int
        self.assets = {path: ((HERE / name).read_bytes(), kind) for path, (name, kind) in ASSETS.items()}
        super().__init__(http, Handler)
        self.api = Api(self.nodes, names)
        self.hosts = hosts_of(http[0], self.server_address[1], allowed)

    @property
    def address(self) -> str:
        return f"http://{self.server_address[0]!s}:{self.server_address[1]}/"

    def start(self) -> None:
        for watched in self.nodes.values():
            watched.start()

    def stop(self) -> None:
        """Ends event streams, the watch and the listener. Not to be called by the thread of `serve_forever`."""
        self.ended.set()
        self._note_change()
        self.shutdown()
        self.close()

    def close(self) -> None:
        self.ended.set()
        self.server_close()
        self.api.close()
        for watched in self.nodes.values():
            watched.stop()

    # ------------------------------------------------------------ requests within bounds

    def server_bind(self) -> None:
        """As that of the library, but without asking for the machine's name."""
        if self.allow_reuse_address:
            self.socket.setsockopt(socket.SOL_SOCKET, socket.SO_REUSEADDR, 1)
        self.socket.bind(self.server_address)
        self.server_address = self.socket.getsockname()
        self.server_name, self.server_port = str(self.server_address[0]), self.server_address[1]

    def process_request(self, request: Any, client_address: Any) -> None:
        """A thread for each request; 503 at once where all are busy."""
        if not self._free.acquire(blocking=False):
            self.count(503)
            self._turn_away(request)
            return
        try:
            super().process_request(request, client_address)
        except BaseException:
            self._free.release()
            raise

    def process_request_thread(self, request: Any, client_address: Any) -> None:
        try:
            super().process_request_thread(request, client_address)
        finally:
            self._free.release()

    def _turn_away(self, request: Any) -> None:
        try:
            request.settimeout(0.1)
            request.sendall(
                b"HTTP/1.1 503 Service Unavailable\r\nContent-Length: 0\r\nRetry-After: 1\r\nConnection: close\r\n\r\n"
            )
        except OSError:
            pass
        self.shutdown_request(request)

    def handle_error(self, request: Any, client_address: Any) -> None:
        """A client that went away is passed over; anything else is a fault of this program, and is reported as the
        library does."""
        import sys

        if not isinstance(sys.exc_info()[1], (OSError, ValueError)):
            super().handle_error(request, client_address)

    # ------------------------------------------------------------ what handlers ask for

    def count(self, status: int) -> None:
        with self._counts_lock:
            self._statuses[status] = self._statuses.get(status, 0) + 1

    def metrics(self, form: str) -> bytes:
        """All metrics in a form of exposition.py."""
        with self._counts_lock:
            statuses, streams_open = dict(self._statuses), self.streams_open
        families = chain(of_nodes(self.nodes.values()), of_server(statuses, streams_open), process())
        return text_of(families, form).encode()

    def open_stream(self) -> bool:
        """A place for an event stream, if there is one; `close_stream` gives it back."""
        if not self._streams.acquire(blocking=False):
            return False
        with self._counts_lock:
            self.streams_open += 1
        return True

    def close_stream(self) -> None:
        with self._counts_lock:
            self.streams_open -= 1
        self._streams.release()

    def _note_change(self) -> None:
        with self._change:
            self._changes += 1
            self._change.notify_all()

    def events(self) -> Iterable[bytes]:
        """What an event stream says: how the nodes stand, once a second, and at once where one goes away or comes
        back."""
        while not self.ended.is_set():
            with self._change:
                seen = self._changes
            yield b"data: " + json.dumps(self.api.stand(), separators=(",", ":")).encode() + b"\n\n"
            with self._change:
                self._change.wait_for(lambda: self._changes != seen, self.every)


def serve_beside(server: Server) -> threading.Thread:
    """Serves in a thread; `server.stop()` ends it."""
    server.start()
    thread = threading.Thread(target=server.serve_forever, kwargs={"poll_interval": 0.05}, daemon=True)
    thread.start()
    return thread
