"""One request over HTTP: what is looked at before it is answered, and the heads of answers."""
from __future__ import annotations

import io
import json
import socket
import time as clock
from http.server import BaseHTTPRequestHandler
from typing import Any, Dict, Optional
from urllib.parse import parse_qsl, urlsplit

from ..errors import Refused
from .api import Unknown, json_of_refusal
from .exposition import form_for
from .questions import BadQuestion
from .watch import Away

# The longest request line, the most bytes of a request, and the most parameters.
MOST_LINE, MOST_HEAD, MOST_PARAMETERS = 2_048, 16_384, 16
PIECE = 65_536
JSON, TEXT = "application/json; charset=utf-8", "text/plain; charset=utf-8"
POLICY = (
    "default-src 'none'; script-src 'self'; style-src 'self'; connect-src 'self'; img-src 'self'; base-uri 'none'; "
    "form-action 'none'; frame-ancestors 'none'"
)
HEADS = {
    "Content-Security-Policy": POLICY,
    "X-Content-Type-Options": "nosniff",
    "Referrer-Policy": "no-referrer",
    "X-Frame-Options": "DENY",
    "Cross-Origin-Resource-Policy": "same-origin",
    "Cross-Origin-Opener-Policy": "same-origin",
    "Cache-Control": "no-store",
    "Connection": "close",
}


class TooMuch(OSError):
    """A request that is longer than may be."""


class _Within(io.RawIOBase):
    """What comes over a socket, within so many seconds and bytes in all."""

    def __init__(self, connection: socket.socket, seconds: float, most: int) -> None:
        self._connection, self._until, self._rest = connection, clock.monotonic() + seconds, most

    def readable(self) -> bool:
        return True

    def readinto(self, buffer: Any) -> int:
        left = self._until - clock.monotonic()
        if left <= 0:
            raise socket.timeout("the request took too long")
        if self._rest <= 0:
            raise TooMuch("the request is too long")
        self._connection.settimeout(left)
        count = self._connection.recv_into(memoryview(buffer)[: self._rest])
        self._rest -= count
        return count


class Handler(BaseHTTPRequestHandler):
    """Answers one request, and closes."""

    protocol_version, server_version, sys_version, disable_nagle_algorithm = "HTTP/1.1", "vadungsil", "", True
    server: Any

    def setup(self) -> None:
        super().setup()
        self.connection.settimeout(self.server.patience)
        self.rfile = io.BufferedReader(_Within(self.connection, self.server.patience, MOST_HEAD))
        self.path = self.command = ""
        self.status = 0

    def finish(self) -> None:
        """Closes; behind an error what the client still sends is dropped for a moment, so that it can read the
        answer."""
        super().finish()
        if self.status < 400:
            return
        try:
            self.connection.shutdown(socket.SHUT_WR)
            self.connection.settimeout(0.5)
            for _ in range(16):
                if not self.connection.recv(65_536):
                    break
        except OSError:
            pass

    def log_message(self, format: str, *args: Any) -> None:  # pylint: disable=redefined-builtin
        """Nothing: who wants a log of requests puts a proxy before it."""

    # ------------------------------------------------------------ one request

    def handle_one_request(self) -> None:
        self.close_connection = True
        self.requestline, self.request_version = "", self.protocol_version
        try:
            self.raw_requestline = self.rfile.readline(MOST_LINE + 1)
            if not self.raw_requestline:
                return
            if len(self.raw_requestline) > MOST_LINE:
                self.say(414, f"a request line has at most {MOST_LINE} bytes")
            elif self.parse_request():
                self.answer()
        except TooMuch:
            self.say(431, f"a request has at most {MOST_HEAD} bytes")
        except (socket.timeout, ConnectionError):
            return
        finally:
            self.close_connection = True

    def answer(self) -> None:
        """Looks at what is asked, and answers."""
        if self.command not in ("GET", "HEAD"):
            self.say(405, "this server only reads: GET", {"Allow": "GET, HEAD"})
        elif not self.headers.get("Host"):
            self.say(400, "a request names its Host")
        elif self.headers["Host"].lower() not in self.server.hosts:
            self.say(421, "another Host than this server's: name it with --allow-host, if it is one")
        elif (
            self.headers.get("Sec-Fetch-Site") in ("cross-site", "same-site")
            and self.headers.get("Sec-Fetch-Mode") != "navigate"
        ):
            self.say(403, "asked by another site's page")
        else:
            self.routed()

    def routed(self) -> None:
        try:
            parts = urlsplit(self.path)
        except ValueError:
            self.say(400, "the address can't be read")
            return
        if self.path in self.server.assets or (parts.path == "/" and not parts.scheme and not parts.netloc):
            data, kind = self.server.assets[parts.path]
            self.send(200, data, kind)
        elif self.path == "/metrics":
            form = form_for(",".join(self.headers.get_all("Accept", [])))
            self.send(200, self.server.metrics(form), form)
        elif self.path == "/api/events":
            self.stream()
        elif self.path.startswith("/api/"):
            self.called(parts.path[len("/api/") :], parts.query)
        else:
            self.say(404, "there is nothing here")

    def called(self, name: str, query: str) -> None:
        """A call of /api/."""
        try:
            pairs = parse_qsl(
                query,
                keep_blank_values=True,
                strict_parsing=bool(query),
                max_num_fields=MOST_PARAMETERS,
                errors="strict",
            )
        except ValueError:
            self.say(400, "the parameters can't be read")
            return
        words = dict(pairs)
        if len(words) < len(pairs):
            self.say(400, "a parameter is named twice")
            return
        try:
            self.send_json(*self.server.api.answer(name, words))
        except Unknown as error:
            self.say(404, f"there is nothing here: {error.args[0][:80]}")
        except BadQuestion as error:
            self.say(400, str(error))
        except Refused as refused:
            self.send_json(422, {"error": str(refused), "refused": json_of_refusal(refused)})
        except Away as away:
            self.say(503, str(away))

    def stream(self) -> None:
        """The event stream, until the client goes or the server ends."""
        if self.command == "HEAD":
            self.send(200, b"", "text/event-stream")
            return
        if not self.server.open_stream():
            self.say(503, "all event streams are taken", {"Retry-After": "5"})
            return
        try:
            self.head(200, "text/event-stream", None)
            for event in self.server.events():
                self.wfile.write(event)
        except OSError:
            pass
        finally:
            self.server.close_stream()

    # ------------------------------------------------------------ answers

    def head(self, status: int, kind: str, length: Optional[int], more: Optional[Dict[str, str]] = None) -> None:
        self.status = status
        self.server.count(status)
        self.connection.settimeout(self.server.patience)
        self.send_response(status)
        self.send_header("Content-Type", kind)
        if length is not None:
            self.send_header("Content-Length", str(length))
        for name, value in {**HEADS, **(more or {})}.items():
            self.send_header(name, value)
        self.end_headers()

    def send(self, status: int, data: bytes, kind: str, more: Optional[Dict[str, str]] = None) -> None:
        self.head(status, kind, len(data), more)
        if self.command != "HEAD":
            for at in range(0, len(data), PIECE):
                self.wfile.write(data[at : at + PIECE])

    def send_json(self, status: int, value: Any) -> None:
        self.send(status, json.dumps(value, separators=(",", ":")).encode() + b"\n", JSON)

    def say(self, status: int, words: str, more: Optional[Dict[str, str]] = None) -> None:
        """An error: JSON below /api/, else a line of text."""
        if self.path.startswith("/api/"):
            self.send(status, json.dumps({"error": words}).encode() + b"\n", JSON, more)
        else:
            self.send(status, f"{words}\n".encode(), TEXT, more)

    def send_error(self, code: int, message: Optional[str] = None, explain: Optional[str] = None) -> None:
        """What the library finds wrong with a request, in our form."""
        self.request_version = self.protocol_version
        self.say(code if code != 501 else 405, message or "a bad request")
