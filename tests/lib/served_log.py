"""A server that replies as a node of a log does, from the second replica of tests/lib/reference.py: which items came, and up to where they were
pruned. It answers Front, Await, Whole, More and Delta, waits where it is asked to, and breaks connections where it is told to. And the
changes of a log as its primary made them. Standard library only."""
import contextlib
import random
import socket
import threading

import reference
from packaged import va

later = va.later
LOG = 7


def random_log(seed, streams, entries=60):
    """A primary with its log; each stream is retired at the end, so that the log ends."""
    source, primary = random.Random(seed), reference.Primary(LOG, streams)
    for _ in range(entries):
        tables, writes = primary.tables_at(primary.last()), {}
        for _ in range(source.randint(1, 3)):
            place = (source.randint(1, 2), source.randint(1, 6))
            writes[place] = None if place in tables and source.random() < 0.4 else (source.randint(8, 9), source.randbytes(source.randint(0, 2)))
        primary.commit(primary.last(), writes, source.randint(1, streams))
        if source.random() < 0.4:
            primary.mark(source.randint(1, streams))
    for stream in range(1, streams + 1):
        primary.mark(stream)
        primary.retire(stream)
    return primary


def changes_of(primary, since=0):
    """What its transactions did above a time: (time, table, key, row or None), a row being (tag, body)."""
    return [(time, *place, row) for time, _, writes in primary.history if time > since for place, row in writes]


def plain(change):
    """A change of the package in the same form."""
    return (change.time, change.table, change.key, None if change.row is None else (change.row.tag, change.row.body))


def prefix_of(taken):
    number = 0
    while number + 1 in taken:
        number += 1
    return number


def stream_of(taken, closed, waiting):
    prefix = prefix_of(taken)
    return va.Stream(prefix, closed, tuple(sorted(it for it in taken if it > prefix)), tuple(sorted(waiting.items())))


class ServedLog:
    """The server, on a port of its own. `each`: so many facts are in a chunk; `breaks` says of a request how many bytes of its reply are sent
    before the connection ends, None: all, and it goes on. `refuses` says of a request what else it is replied, if anything: a reply, or bytes as
    they are, of which none are silence. `is_staying`: an Await waits."""

    def __init__(self, streams=1, log=LOG, each=3, breaks=lambda request: None, is_staying=True, has_room=True, port=0, refuses=lambda request: None):
        self.streams, self.log, self.each, self.breaks, self.is_staying, self.has_room = streams, log, each, breaks, is_staying, has_room
        self.refuses, self.items, self.horizon, self.readable = refuses, [], 0, 0
        self.changed, self.stopped, self.links, self.asked = threading.Condition(), False, set(), []
        self.listener = socket.create_server(("127.0.0.1", port))
        self.port = self.listener.getsockname()[1]
        threading.Thread(target=self.serve, daemon=True).start()

    # ---- what it holds

    def take(self, items):
        with self.changed:
            self.items += items
            self.readable = reference.readable(self.items, self.streams)
            self.changed.notify_all()

    def prune(self, horizon):
        with self.changed:
            self.horizon = max(self.horizon, min(horizon, self.readable))

    def cut(self, base):
        """The fragment of what happened since a base."""
        horizon, rows, ends, streams = reference.content_of(self.items, self.streams, self.horizon)
        facts = []
        for version in sorted({*(it for it in rows if it[2] > base), *(it for it, died in ends.items() if died > base)}):
            row = rows.get(version) if version[2] > base else None
            facts.append(va.Fact(va.VersionKey(*version), None if row is None else va.Row(*row), ends.get(version)))
        return va.Fragment(self.log, base, horizon, tuple(stream_of(*it) for it in streams), tuple(facts))

    # ---- what it replies

    def reply(self, request, chunks):
        """The reply to a request over a connection, whose chunks are these."""
        refused = self.refuses(request)
        if refused is not None:
            return refused
        with self.changed:
            if isinstance(request, later.Await):
                self.changed.wait_for(lambda: self.stopped or self.readable >= request.time, request.milliseconds / 1_000 if self.is_staying else 0)
                return later.Ready(self.horizon, self.readable)
            if isinstance(request, later.More):
                return chunks.pop(0)
            if isinstance(request, (va.Delta, later.Whole)):
                return self.delta(request, chunks)
            return va.Front(self.horizon, self.readable)

    def delta(self, request, chunks):
        if request.base < self.horizon and (request.base or isinstance(request, va.Delta)):
            return va.Refused(25, self.horizon)
        if request.base == va.LAST_TIME:
            return va.Fragment(self.log, request.base, self.horizon, tuple(va.Stream(0, self.readable) for _ in range(self.streams)))
        fragment = self.cut(request.base)
        if isinstance(request, va.Delta):
            return fragment
        if not self.has_room:
            return va.Refused(46, 0)
        pieces = [fragment.facts[at:at + self.each] for at in range(0, len(fragment.facts), self.each)] or [()]
        left = len(fragment.facts)
        chunks.clear()
        for piece in pieces[:-1]:
            left -= len(piece)
            chunks.append(later.Part(piece, left))
        chunks.append(later.LastPart(pieces[-1], later.Head.of(fragment)))
        return chunks.pop(0)

    # ---- its connections

    def serve(self):
        with contextlib.suppress(OSError):
            while True:
                link, _ = self.listener.accept()
                self.links.add(link)
                threading.Thread(target=self.talk, args=(link,), daemon=True).start()

    def talk(self, link):
        chunks = []
        with link, contextlib.suppress(OSError, ValueError):
            while not self.stopped:
                head = link.recv(4, socket.MSG_WAITALL)
                if len(head) < 4:
                    break
                frame = head + link.recv(int.from_bytes(head, "big"), socket.MSG_WAITALL)
                request = later.decode_request(frame)
                self.asked.append(request)
                version = 2 if frame[4] == 2 else 1
                reply = self.reply(request, chunks)
                data = reply if isinstance(reply, bytes) else va.encode_reply(reply, version)
                sent = self.breaks(request)
                link.sendall(data if sent is None else data[:sent])
                if sent is not None or (data[5:6] == b"\x24" and 1 <= data[6] <= 10):
                    break
        self.links.discard(link)

    def close(self):
        """Ends it with its connections, as a node that is killed."""
        with self.changed:
            self.stopped = True
            self.changed.notify_all()
        with contextlib.suppress(OSError):
            self.listener.shutdown(socket.SHUT_RDWR)
        self.listener.close()
        for link in list(self.links):
            with contextlib.suppress(OSError):
                link.shutdown(socket.SHUT_RDWR)

    def __enter__(self):
        return self

    def __exit__(self, *_):
        self.close()
