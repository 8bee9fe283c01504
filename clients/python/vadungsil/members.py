"""The members of `Nodes`: which can be asked, which are away, and which are no nodes of the log."""
from __future__ import annotations

import threading
import time as clock
from contextlib import contextmanager, nullcontext
from typing import Any, Callable, Iterable, Iterator, List, Literal, NamedTuple, Optional, Set, Tuple, TypeVar

from .errors import LinkBroken, Refused, TooOld, VadungsilError
from .later_values import Request
from .messages import encode_request, reply_of
from .node import Node
from .requests import FRONT, Read, read_fragment, read_front, value_of
from .transfer import OwnLink
from .values import LAST_TIME, Delta, Fragment, Front
from .waiting import Steps, run

State = Literal["up", "away", "bad"]
Value = TypeVar("Value")

# A member that is away is waited for so long where no other answered, in seconds.
SECOND = 1.0

# It is spoken to again after a pause, which doubles up to the longest.
FIRST_PAUSE, LONGEST_PAUSE = 1.0, 30.0

# Refusals of a node that has another log than was meant.
OTHER_LOG = frozenset({20, 21})

# A delta since the last time of all has no facts: its head tells the log, its streams, and what can be read.
ASK_HEAD = encode_request(Delta(LAST_TIME))


class Member(NamedTuple):
    """What is known of one of the nodes. `state`: "up", it replied last; "away", it can't be reached, refused to say
    what it has, or nobody spoke to it yet; "bad", it is asked no more. `reason` says why it isn't up. `horizon` and
    `readable` are the oldest readable and the resolved time that it reported last, None where it reported none."""

    address: str
    state: State
    reason: str
    horizon: Optional[int]
    readable: Optional[int]


class BadMember(VadungsilError):
    """A member that is asked no more: its bytes were no reply, or it has another log, or it answered other rows than
    as many members as have to agree."""


class Tracked:
    """A node, and what is known of it, which changes under the lock of its `Members`."""

    def __init__(self, node: Node) -> None:
        self.node = node
        self.state: State = "away"
        self.error: Exception = LinkBroken(f"{node.name}: not spoken to yet")
        self.front: Optional[Front] = None
        self.told: Optional[Tuple[int, int]] = None
        self.is_new, self.is_greeting = True, False
        self.due, self.pause = 0.0, 0.0

    def set_away(self, error: Exception) -> None:
        if self.state == "bad":
            return
        self.state, self.error, self.told = "away", error, None
        self.pause = min(max(2 * self.pause, FIRST_PAUSE), LONGEST_PAUSE)
        self.due = clock.monotonic() + self.pause

    def set_bad(self, error: Exception) -> None:
        self.state, self.error = "bad", error

    def is_reached(self) -> bool:
        """Whether it replied last, be it only with its log, while it isn't known which one counts."""
        return self.state == "up" or (self.state == "away" and self.told is not None)

    def seen(self) -> Member:
        front = self.front
        reason = "" if self.state == "up" else str(self.error)
        times = (None, None) if front is None else (front.horizon, front.readable)
        return Member(self.node.name, self.state, reason, *times)


def _named(log: Optional[int], streams: Optional[int]) -> List[str]:
    named = (("log", log), ("number of streams", streams))
    return [f"{name} {number}" for name, number in named if number is not None]


def exchanged(node: Node, requests: List[bytes], read: Read) -> List[Any]:
    """What a node replies to requests of version 1. `BadMember`: bytes that are no reply to them; `Refused`: what the
    node itself refused."""
    with node._lock:
        try:
            rests = node._exchange(requests)
        except Refused as fault:
            raise _no_reply(node, fault) from fault
        try:
            return [_replied(node, rest, read) for rest in rests]
        except BadMember:
            node._drop()
            raise


def _no_reply(node: Node, fault: Refused) -> BadMember:
    return BadMember(f"{node.name}: its bytes are no reply: {fault}")


def _replied(node: Node, rest: bytes, read: Read, latest: int = 1) -> Any:
    try:
        return read(rest)
    except Refused as refused:
        if _is_refusal(rest, latest):
            raise refused.at(node.name)
        raise BadMember(f"{node.name}: its bytes are no reply to this: {refused}") from refused


def _is_refusal(rest: bytes, latest: int) -> bool:
    """Whether a node refused, rather than we its bytes."""
    try:
        return isinstance(reply_of(rest, latest), Refused)
    except Refused:
        return False


class MemberLink(OwnLink):
    """A connection of its own to a member, whose bytes make it a `BadMember` where they are no reply."""

    def __init__(self, node: Node, limit: Optional[float]) -> None:
        super().__init__(node._own_link())
        self._node, self._limit = node, limit

    def run(self, steps: Steps[Value]) -> Value:
        """What comes of steps. A `Refused` that the steps themselves raise is of what the member said."""
        return run(self._judged(steps), self.ask)

    def _judged(self, steps: Steps[Value]) -> Steps[Value]:
        try:
            return (yield from steps)
        except TooOld as error:
            raise error.at(self._node.name)
        except Refused as fault:
            raise _no_reply(self._node, fault) from fault

    def _exchanged(self, frame: bytes) -> bytes:
        try:
            return super()._exchanged(frame)
        except Refused as fault:
            raise _no_reply(self._node, fault) from fault

    def _read(self, rest: bytes, kinds: Tuple[type, ...]) -> Any:
        return _replied(self._node, rest, lambda it: value_of(it, *kinds, latest=2), 2)


def _front_of(node: Node) -> Front:
    front: Front = exchanged(node, [FRONT], read_front)[0]
    return front


@contextmanager
def within(node: Node, seconds: float) -> Iterator[None]:
    """In the block each wait for a node takes so many seconds at most."""
    with node._lock:
        whole = node.limit
        _set_limit(node, seconds if whole is None else min(whole, seconds))
        try:
            yield
        finally:
            _set_limit(node, whole)


def _set_limit(node: Node, limit: Optional[float]) -> None:
    node.limit = limit
    if node._link is not None:
        node._link.set_limit(limit)


class Members:
    """Nodes of one log. One that is away is spoken to by a thread of its own, so that a question that others answer
    doesn't wait for it. `log` and `streams`: what each has to have; None: what the first has of which `agree` report
    the same."""

    def __init__(self, nodes: Iterable[Node], agree: int, log: Optional[int], streams: Optional[int]) -> None:
        self.all = [Tracked(node) for node in nodes]
        self.agree, self._log, self._streams = agree, log, streams
        self.changed = threading.Condition()
        self._turn, self._closed = 0, 0

    def turned(self) -> List[Tracked]:
        """All of them, each time from the next one on."""
        with self.changed:
            turn, self._turn = self._turn, (self._turn + 1) % len(self.all)
        return self.all[turn:] + self.all[:turn]

    def ask(self, it: Tracked, ask: Callable[[Node], Value], is_short: bool = False, proves: bool = True) -> Value:
        """What a member that is up answers; what it raises decides whether it stays so. Where it `proves` that the
        member answers questions, its pauses begin anew."""
        try:
            with it.node._lock, within(it.node, SECOND) if is_short else nullcontext():
                if it.state != "up":  # another thread has found that while this one waited
                    raise LinkBroken(f"{it.node.name}: {it.state} by now")
                value = ask(it.node)
        except VadungsilError as error:
            raise self._noted(it, error, proves)
        with self.changed:
            it.pause *= not proves
        return value

    def apart(self, it: Tracked, ask: Callable[[], Value]) -> Value:
        """The same of what it is asked over a connection of its own, while others ask it too."""
        try:
            value = ask()
        except VadungsilError as error:
            raise self._noted(it, error, True)
        with self.changed:
            it.pause = 0.0
        return value

    def _noted(self, it: Tracked, error: VadungsilError, proves: bool) -> VadungsilError:
        """The same error, or a `BadMember` where it means one."""
        if isinstance(error, Refused) and error.number in OTHER_LOG:
            error = BadMember(f"{it.node.name}: it has another log: {error}")
        with self.changed:
            if isinstance(error, BadMember):
                it.set_bad(error)
            elif isinstance(error, Refused):
                it.pause *= not proves
            elif it.state == "up":
                it.set_away(error)
        return error

    def front(self, it: Tracked, is_short: bool = False) -> Front:
        """From where to where a member can read, asked now."""
        front = self.ask(it, _front_of, is_short, proves=False)
        with self.changed:
            it.front = front
        return front

    # ------------------------------------------------------------ who is away

    def greet(self, is_forced: bool = False, without: Iterable[Tracked] = ()) -> None:
        """Speaks to those that are away and whose pause is over, or to all that are away, each in a thread."""
        with self.changed:
            now = clock.monotonic()
            for it in self.all:
                is_away = it.state == "away" and it.told is None and not it.is_greeting and it not in without
                if is_away and (is_forced or it.due <= now):
                    threading.Thread(target=self._greeted, args=(it, self._closed), daemon=True).start()
                    it.is_greeting = True

    def _greeted(self, it: Tracked, closed: int) -> None:
        found: Any
        try:
            with within(it.node, SECOND):
                found = exchanged(it.node, [ASK_HEAD], read_fragment)[0]
        except Exception as error:  # pylint: disable=broad-except
            found = error
        with self.changed:
            is_closed = closed != self._closed
            it.is_new = it.is_greeting = False
            self._note_greeting(it, found)
            self.settle()
            self.changed.notify_all()
        if is_closed:
            it.node.close()

    def _note_greeting(self, it: Tracked, found: Any) -> None:
        if isinstance(found, Fragment):
            it.front, it.told = Front(found.horizon, found.readable), (found.log, len(found.streams))
        elif isinstance(found, BadMember) or (isinstance(found, Refused) and found.number in OTHER_LOG):
            it.set_bad(found)
        else:
            it.set_away(found)

    def settle(self, is_late: bool = False) -> None:
        """Whoever reported its log is up where that is the one that counts, and bad where it is another. Before it is
        known the members that are spoken to for the first time are waited for, unless it is late."""
        told = [(it, it.told) for it in self.all if it.state == "away" and it.told is not None]
        if told and (self._log is None or self._streams is None):
            self._choose([which for _, which in told if self._may_be(which)], is_late)
        for it, which in told:
            if not self._may_be(which):
                counts = " with ".join(_named(self._log, self._streams))
                it.set_bad(BadMember(f"{it.node.name}: it has {' with '.join(_named(*which))}, and not {counts}"))
            elif self._log is not None and self._streams is not None:
                it.state = "up"
            else:
                it.error = LinkBroken(f"{it.node.name}: fewer than {self.agree} members have reported its log yet")

    def _choose(self, told: List[Tuple[int, int]], is_late: bool) -> None:
        """The log of the first member of which so many report the same as have to agree, where that is known."""
        pending = 0 if is_late else sum(it.is_new and it.is_greeting for it in self.all)
        for it in self.all:
            if pending and it.is_new and it.is_greeting:
                return
            if it.told in told:
                count = told.count(it.told)
                if count >= self.agree:
                    self._log, self._streams = it.told
                if count + pending >= self.agree:
                    return

    def _may_be(self, told: Tuple[int, int]) -> bool:
        return self._log in (None, told[0]) and self._streams in (None, told[1])

    def close(self) -> None:
        """Closes the connections: at once, or where a member is just being spoken to, when that ends."""
        with self.changed:
            self._closed += 1
            idle = [it.node for it in self.all if not it.is_greeting]
        for node in idle:
            node.close()


class Round:
    """One question's way through the members: each that is up is given once, in this order, those in `unable` last.
    Those that are just being spoken to are waited for where no other is left, for a second at most; where fewer were
    reached than have to agree, all that are away are spoken to."""

    def __init__(self, members: Members, order: List[Tracked], unable: Set[Node]) -> None:
        self.members, self.order, self.unable = members, order, unable
        self.asked: Set[Tracked] = set()
        self.reached = 0
        self._is_forced, self._until = False, clock.monotonic() + SECOND
        members.greet()

    def next(self, is_enough: bool = False) -> Optional[Tracked]:
        """The next to ask, or None. With `is_enough` those alone are waited for that nobody spoke to before."""
        with self.members.changed:
            while True:
                found = self._found(is_enough)
                if found is not None or not self._is_waited(is_enough):
                    break
            if found is not None:
                self.asked.add(found)
            return found

    def is_last(self) -> bool:
        """Whether no other is left that is up and could answer."""
        return not self._left(True)

    def _left(self, is_able: bool) -> List[Tracked]:
        left = [it for it in self.order if it.state == "up" and it not in self.asked]
        return [it for it in left if it.node not in self.unable] if is_able else left

    def _greeting(self, is_enough: bool) -> bool:
        return any(it.is_greeting and it not in self.asked and (it.is_new or not is_enough) for it in self.order)

    def _found(self, is_enough: bool) -> Optional[Tracked]:
        is_late = clock.monotonic() >= self._until
        self.members.settle(is_late)
        able = self._left(True)
        if not able and (is_late or not self._greeting(is_enough)):
            able = self._left(False)
        return able[0] if able else None

    def _is_waited(self, is_enough: bool) -> bool:
        """Whether there was something to wait for; then it has been waited for."""
        wait = self._until - clock.monotonic()
        if wait > 0 and self._greeting(is_enough):
            self.members.changed.wait(wait)
            return True
        if self._is_forced or is_enough or self.reached >= self.members.agree:
            return False
        self._is_forced, self._until = True, clock.monotonic() + SECOND
        self.members.greet(True, self.asked)
        return True
