"""What is asked of a node by who waits, apart from who sends it: steps, each of which says what comes next, a request
or a pause, and is handed what came of it. Who waits has a connection of its own, and another where that breaks."""
from __future__ import annotations

import math
import time as clock
from types import TracebackType
from typing import Any, Callable, Generator, NamedTuple, Optional, Tuple, Type, TypeVar, Union

from .errors import LinkBroken, TimeLimit
from .later_values import Await, Ready, Request
from .link import PAUSE, Link
from .transfer import OwnLink
from .values import Front

Result = TypeVar("Result")

# A wait at a node takes so many seconds at most, and less than its reply is waited for; who waits longer asks again.
LONGEST = 30.0

# So long is waited beyond a time limit for the reply that says so.
SLACK = 1.0

# Where a node replies at once (it was started by `hkrep serve`), or is away, it is asked again after a pause, which
# doubles.
LONGEST_PAUSE = 1.0


class Asked(NamedTuple):
    """A request, the kinds of its reply, and how many seconds that is waited for; None: as the connection has it."""

    request: Request
    kinds: Tuple[type, ...]
    within: Optional[float] = None


Steps = Generator[Union[Asked, float], Any, Result]


def run(steps: Steps[Result], ask: Callable[..., Any]) -> Result:
    """What comes of steps, whose requests `ask` sends as `OwnLink.ask` does."""
    came: Any = None
    while True:
        try:
            step = steps.send(came)
        except StopIteration as end:
            result: Result = end.value
            return result
        if isinstance(step, float):
            clock.sleep(step)
            came = None
        else:
            came = ask(step.request, *step.kinds, within=step.within)


def end_of(timeout: Optional[float]) -> float:
    """When so many seconds will be over, None: never. `ValueError`: they are no number from 0 on."""
    if timeout is None:
        return math.inf
    if not timeout >= 0:
        raise ValueError(f"timeout is {timeout}, and must be None or seconds from 0 on")
    return clock.monotonic() + timeout


def within(end: float) -> Optional[float]:
    """How many seconds are waited for what has to come before the end of a time limit."""
    return None if end == math.inf else round(max(0.0, end - clock.monotonic()) + SLACK, 3)


def until(time: int, end: float, limit: Optional[float]) -> Steps[Front]:
    """Waits at a node till a time can be read there, or till the end of a time limit; gives its front at that moment.
    `limit` is how many seconds a reply is waited for."""
    longest, pause = LONGEST if limit is None else min(LONGEST, limit / 2), PAUSE
    while True:
        began = clock.monotonic()
        seconds = min(longest, max(0.0, end - began))
        ready: Ready = yield Asked(Await(time, math.ceil(1_000 * seconds)), (Ready,), within(end))
        now = clock.monotonic()
        if ready.readable >= time or now >= end:
            return Front(ready.horizon, ready.readable)
        if now - began < seconds / 2:
            yield min(pause, end - now)
            pause = min(2 * pause, LONGEST_PAUSE)


def reached(front: Front, time: int, timeout: Optional[float], name: str) -> Front:
    """The front of a node at the end of a wait. `TimeLimit`: the time can't be read there."""
    if front.readable < time:
        raise TimeLimit(
            f"{name}: time {time} can't be read there within {timeout} s: the resolved time is {front.readable}"
        )
    return front


class Breaks:
    """Whether who waits goes on over a new connection where one broke: for as long as a reply is waited for, once there
    was one, and before that for so many tries. `end`: a time limit of the wait itself."""

    def __init__(self, limit: Optional[float], tries: int, end: float = math.inf) -> None:
        self._limit, self._tries, self._end = math.inf if limit is None else limit, tries, end
        self.has_replied, self._left, self._broke, self._pause = False, tries, math.inf, PAUSE

    def replied(self) -> None:
        """A reply came, so it goes on as long as at first."""
        self.has_replied, self._broke, self._pause = True, math.inf, PAUSE

    def rest(self, error: BaseException, has_replied: bool) -> float:
        """How many seconds to wait before the next connection; raises the error where it doesn't go on."""
        if has_replied:
            self.replied()
        if isinstance(error, TimeLimit) or not isinstance(error, LinkBroken):
            raise error
        now = clock.monotonic()
        self._broke, self._left = min(self._broke, now), self._left - 1
        goes_on = now <= self._broke + self._limit if self.has_replied else self._left > 0
        if not goes_on or now + self._pause > self._end:
            self._broke, self._left = math.inf, self._tries
            raise error
        pause, self._pause = self._pause, min(2 * self._pause, LONGEST_PAUSE)
        return pause


class Apart:
    """A connection of its own to a node, for who waits. `rest` says, of an error and of whether a reply had come, how
    many seconds to wait before the next connection, or raises it."""

    def __init__(self, opened: Callable[[], Link], rest: Callable[[BaseException, bool], float]) -> None:
        self._opened, self._rest = opened, rest
        self._link: Optional[OwnLink] = None

    def run(self, steps: Callable[[], Steps[Result]]) -> Result:
        """What comes of steps, which begin anew over each connection."""
        while True:
            try:
                if self._link is None:
                    self._link = OwnLink(self._opened())
                return run(steps(), self._link.ask)
            except BaseException as error:  # pylint: disable=broad-except
                has_replied = self._link is not None and self._link.has_replied
                self.close()
                rest = self._rest(error, has_replied)
            clock.sleep(rest)

    def close(self) -> None:
        if self._link is not None:
            self._link.close()
            self._link = None

    def __enter__(self) -> "Apart":
        return self

    def __exit__(
        self, kind: Optional[Type[BaseException]], error: Optional[BaseException], trace: Optional[TracebackType]
    ) -> None:
        self.close()
