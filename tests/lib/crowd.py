"""A crowd of connections to nodes, driven by one thread: each goes through the steps of a generator, which yields what it does next and is given the
replies. Standard library only."""
import heapq
import resource
import select
import socket
import time
from typing import NamedTuple

# how long nothing may move
LIMIT = 120
READ, WRITE = select.EPOLLIN, select.EPOLLOUT
# what keeps the system's own room for a connection small, so that a peer that doesn't read is felt: bytes of a segment, and of its receive buffer
SEGMENT, ROOM = 1_000, 4_096


class Say(NamedTuple):
    """Sends this and gets so many replies, a frame each. By itself all at once; `slow`: a byte at a time; `unread`: sends it and reads nothing until
    the next step; `cut`: closes its side behind it, and the node has to end it behind the replies."""
    data: bytes
    count: int
    way: str = ""


class Pause(NamedTuple):
    """Does nothing for so long."""
    seconds: float


def raised_files(wanted):
    """Raises this process's own limit of open files, which what it starts has too, as far as it may; gives what it is then."""
    soft, hard = resource.getrlimit(resource.RLIMIT_NOFILE)
    if soft < wanted:
        soft = wanted if hard == resource.RLIM_INFINITY else min(wanted, hard)
        resource.setrlimit(resource.RLIMIT_NOFILE, (soft, hard))
    return soft


class Member:
    """One connection: what it has still to send, what came that is no whole frame, and the step that it is at."""

    def __init__(self, crowd, name, port, is_small=False):
        self.crowd, self.name = crowd, name
        self.out, self.kept, self.replies, self.step, self.steps, self.watched = b"", b"", [], None, None, 0
        self.socket = socket.socket()
        self.socket.setsockopt(socket.IPPROTO_TCP, socket.TCP_NODELAY, 1)
        if is_small:
            self.socket.setsockopt(socket.IPPROTO_TCP, socket.TCP_MAXSEG, SEGMENT)
            self.socket.setsockopt(socket.SOL_SOCKET, socket.SO_RCVBUF, ROOM)
        self.socket.settimeout(LIMIT)
        self.socket.connect(("127.0.0.1", port))
        self.socket.setblocking(False)
        crowd.members[self.socket.fileno()] = self

    def watch(self):
        """Is told of what its step waits for, and of nothing else: also of a socket whose peer is gone."""
        waits = self.step is not None and not isinstance(self.step, Pause)
        wanted = (READ if waits and self.step.way != "unread" else 0) | (WRITE if waits and self.out and self.step.way != "slow" else 0)
        if wanted and self.watched:
            self.crowd.poll.modify(self.socket, wanted)
        elif wanted:
            self.crowd.poll.register(self.socket, wanted)
        elif self.watched:
            self.crowd.poll.unregister(self.socket)
        self.watched = wanted

    def send(self, most=None):
        try:
            self.out = self.out[self.socket.send(self.out[:most]):]
        except BlockingIOError:
            return
        if not self.out and self.step.way == "cut":
            self.socket.shutdown(socket.SHUT_WR)

    def take(self):
        """What came: whole frames are replies."""
        try:
            data = self.socket.recv(1 << 18)
        except BlockingIOError:
            return
        if not data:
            self.end()
            return
        self.crowd.moved = time.monotonic()
        self.kept += data
        at = 0
        while (end := at + 4 + int.from_bytes(self.kept[at:at + 4], "big")) <= len(self.kept) and len(self.kept) - at >= 4:
            self.replies.append(self.kept[at:end])
            at = end
        self.kept = self.kept[at:]
        if len(self.replies) > self.step.count:
            self.fail(f"{len(self.replies)} replies, wanted {self.step.count}")
        elif len(self.replies) == self.step.count and self.step.way != "cut" and not self.out:
            self.go_on()

    def end(self):
        """The node ended it, as it has to where it was cut and all replies came."""
        if self.step.way != "cut" or len(self.replies) != self.step.count or self.kept:
            self.fail(f"ended behind {len(self.replies)} replies, wanted {self.step.count}")
        else:
            self.close()
            self.go_on()

    def go_on(self):
        """The next step, if there is one."""
        while True:
            told, self.replies = self.replies, []
            try:
                self.step = self.steps.send(told if self.step is not None else None)
            except StopIteration:
                self.step = self.steps = None
                self.crowd.playing.discard(self)
                break
            if isinstance(self.step, Pause):
                self.crowd.wake_after(self, self.step.seconds)
                break
            self.out = self.step.data
            if self.step.way == "slow":
                self.crowd.slow.append(self)
            elif self.out:
                self.send()
            if self.out or self.step.count or self.step.way == "cut":
                break
        if self.socket.fileno() >= 0:
            self.watch()

    def fail(self, problem):
        self.crowd.problems.append(f"{self.name}: {problem}")
        self.crowd.playing.discard(self)
        self.steps = None
        self.close()

    def close(self):
        if self.socket.fileno() >= 0:
            self.crowd.members.pop(self.socket.fileno())
            self.socket.close()
            self.watched = 0

    def leave(self):
        """Breaks the connection off, with a reset."""
        self.socket.setsockopt(socket.SOL_SOCKET, socket.SO_LINGER, b"\1\0\0\0\0\0\0\0")
        self.close()


class Crowd:
    """All of them, and what went wrong."""

    def __init__(self):
        self.poll, self.members, self.playing, self.slow, self.sleeping, self.problems = select.epoll(), {}, set(), [], [], []
        self.moved = time.monotonic()

    def open(self, name, port, is_small=False):
        return Member(self, name, port, is_small)

    def play(self, member, steps):
        """Begins to go through these steps."""
        member.steps, member.step, member.replies = steps, None, []
        self.playing.add(member)
        self.guarded(member, member.go_on)

    def guarded(self, member, call):
        """What a step raises is a failure of this member alone."""
        try:
            call()
        except (OSError, AssertionError) as error:
            member.fail(f"{type(error).__name__}: {error}")

    def wake_after(self, member, seconds):
        heapq.heappush(self.sleeping, (time.monotonic() + seconds, id(member), member))

    def trickle(self):
        """A byte of each that sends slowly."""
        for member in self.slow:
            if member.steps is not None and member.out:
                self.guarded(member, lambda: member.send(1))
        self.slow = [member for member in self.slow if member.steps is not None and member.out]

    def wake(self):
        while self.sleeping and self.sleeping[0][0] <= time.monotonic():
            member = heapq.heappop(self.sleeping)[2]
            self.guarded(member, member.go_on)

    def meet(self, file, events):
        member = self.members.get(file)
        if member is None or member.steps is None:
            return
        if events & WRITE and member.out:
            self.guarded(member, member.send)
            self.guarded(member, member.watch)
        if events & ~WRITE and member.steps is not None:
            self.guarded(member, member.take)

    def run(self):
        """Until all have ended their steps; what still waits where nothing moved for too long has failed."""
        self.moved = time.monotonic()
        while self.playing:
            for file, events in self.poll.poll(0 if self.slow else 0.01, 4_096):
                self.meet(file, events)
            self.trickle()
            self.wake()
            if time.monotonic() > self.moved + LIMIT:
                for member in list(self.playing):
                    member.fail(f"nothing came for {LIMIT} s; it waits for {member.step}"[:200])

    def close(self):
        for member in list(self.members.values()):
            member.close()
        self.poll.close()
