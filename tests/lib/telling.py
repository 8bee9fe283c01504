"""A node that tells numbers and tables that a check chooses, or one of an earlier release: what it answers to Stats and Tables is spelled here, all else is
answered by the node behind it. Standard library only."""
import contextlib
import socket
import struct
import threading

# each metric of docs/FORMATS.md: name, label, value
METRICS = ((1, 0, 40), (2, 0, 12), (3, 0, 900), (4, 0, 61), (5, 0, 1), (6, 0, 0), (7, 0, 1), (8, 0, 7_260), (9, 0, 1_000_000), (9, 1, 500_000), (10, 0, 900_000), (10, 1, 0),
           (11, 0, 47_185_920), (12, 0, 3), (12, 1, 2), (13, 0, 70), (13, 1, 2), (14, 0, 9), (14, 1, 2), (15, 0, 4_096), (16, 0, 65_536), (17, 20, 12), (17, 60, 3), (18, 26, 8),
           (18, 90, 1), (19, 0, 0), (20, 0, 1_002_003), (21, 0, 7), (60_000, 5, 1))
TABLES = (1, 2, 65_535)
STATS, OF_TABLES = b"\2\x3c", b"\2\x3d"
# a refusal of version 1: a kind that isn't known
UNKNOWN = b"\0\0\0\x13\1\x24\4" + bytes(16)


def read(link, size):
    found = b""
    while len(found) < size:
        piece = link.recv(size - len(found))
        if not piece:
            raise ConnectionError
        found += piece
    return found


def frame_of(link):
    """The next frame of a connection, whole."""
    head = read(link, 4)
    return head + read(link, int.from_bytes(head, "big"))


def framed(kind, body):
    return struct.pack(">IBB", len(body) + 2, 2, kind) + body


class Telling:
    """Listens on a port of its own; `asked` counts what was asked of Stats and of Tables. `metrics` of None: it is of an earlier release."""

    def __init__(self, behind, metrics=METRICS, tables=TABLES):
        self.behind, self.metrics, self.tables, self.asked = behind, metrics, tables, {STATS: 0, OF_TABLES: 0}
        self.listener = socket.create_server(("127.0.0.1", 0))
        self.port, self.links = self.listener.getsockname()[1], []
        threading.Thread(target=self.serve, daemon=True).start()

    def serve(self):
        with contextlib.suppress(OSError):
            while True:
                link, _ = self.listener.accept()
                self.links.append(link)
                threading.Thread(target=self.relay, args=(link,), daemon=True).start()

    def told(self, asked):
        self.asked[asked] += 1
        if self.metrics is None:
            return UNKNOWN
        if asked == STATS:
            return framed(75, struct.pack(">I", len(self.metrics)) + b"".join(struct.pack(">HHQ", *it) for it in self.metrics))
        return framed(76, struct.pack(f">I{len(self.tables)}H", len(self.tables), *self.tables))

    def relay(self, link):
        with contextlib.suppress(OSError), link, socket.create_connection(("127.0.0.1", self.behind)) as node:
            while True:
                frame = frame_of(link)
                if frame[4:] in self.asked:
                    link.sendall(self.told(frame[4:]))
                    if self.metrics is None:
                        return
                else:
                    node.sendall(frame)
                    link.sendall(frame_of(node))

    def __enter__(self):
        return self

    def __exit__(self, *_):
        for it in (self.listener, *self.links):
            with contextlib.suppress(OSError):
                it.shutdown(socket.SHUT_RDWR)
            it.close()
