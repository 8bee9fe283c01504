"""Many nodes of one log as one.

Nodes that took the items of one log up to a time give equal answers at it, so questions of one moment may go to
different nodes."""
from __future__ import annotations

import threading
import time as clock
from typing import Any, Callable, Dict, Iterable, List, Optional, Set, Tuple

from .address import Address, place_of
from .changes import Changes, Found, Watch
from .errors import LinkBroken, NotYet, Refused, TooOld, VadungsilError
from .link import Certificates
from .members import SECOND, BadMember, Member, MemberLink, Members, Round, Tracked, exchanged
from .node import Node
from .requests import Moment, Read, Reads, ask_frame, read_number
from .values import LAST_KEY, MOST_STREAMS, Count, KeyRow, Query, Row, number_in, time_of

# A node that refuses with these may be the only one that does.
ELSEWHERE = frozenset({3, 4, 25, 26, 41, 90})

# It will refuse each question at this time so.
UNABLE = frozenset({25, 26, 41, 90})

# how many seconds pass before members are asked again for a time that was given
AGAIN = 0.02

Told = List[Tuple[str, Exception]]


class NoNode(LinkBroken):
    """No node could be reached, or fewer than have to agree, or they answer differently, as `str` of it says; `told`
    has what each one raised, by its name."""

    def __init__(self, told: Told, why: str = "") -> None:
        each = "; ".join(f"{name}: {error}" for name, error in told)
        super().__init__(": ".join(filter(None, (why, each))) or "no nodes")
        self.told = told


class Nodes(Reads[Optional[Row], List[KeyRow], int]):
    """`Nodes([7420, "other:7420"])`: each question goes to the next node in turn that can read its time. Threads may
    share it. The files `ca`, `cert` and `key` are for those of its addresses that begin with tls://, as those of a
    `Node`.

    A member that can't be reached, or sends no reply for `limit` seconds (for one second, where it is asked for its
    log, or was away and hasn't answered since), is away. It is spoken to again by a thread when a question comes 1, 2,
    4 .. 30 seconds later, and a question waits for that only where no other member answers it, for a second at most.
    Where fewer than `agree` can be reached, each question speaks to all that are away, for a second together. `limit`
    is for each wait, as that of a `Node`: a member that sends its reply byte by byte can hold a question longer.

    A member is bad, and asked no more, whose bytes are no reply, that has another log (20, 21), or that answered
    otherwise than `agree` others did: `members` says why. When it is first spoken to, and each time that it comes back,
    its log and number of streams are compared with `log` and `streams`, or where these aren't given with those of the
    first address that replies and of which `agree` members report the same. The head of an empty delta has both, also
    at a node that reads version 1 alone.

    With `agree` of 1 each member is believed: one that reports a resolved time that it hasn't gives wrong rows. With 2
    or more a resolved time counts that so many members report, and each question is asked until so many give the same
    answer; so fewer liars than `agree` can't give a wrong row. They can still make questions fail, as by a refusal that
    is the caller's fault, or by a time that one honest member has.

    `ValueError`: no addresses, `agree` below 1 or above their number, or an address twice where several have to agree.
    Refused 6: no log has this id; 5: nor this number of streams.

    Raised by questions: `NoNode` where fewer than `agree` members can be reached, or give the same answer; 25, 26, 41,
    90, and 3 or 4, where a member refused so and no other answered; each other refusal at once."""

    def __init__(
        self,
        addresses: Iterable[Address],
        limit: Optional[float] = 20.0,
        *,
        ca: Optional[str] = None,
        cert: Optional[str] = None,
        key: Optional[str] = None,
        agree: int = 1,
        log: Optional[int] = None,
        streams: Optional[int] = None,
    ) -> None:
        certificates, places = Certificates(ca, cert, key), [place_of(it) for it in addresses]
        certificates.see(places)
        if log is not None:
            number_in(log, 0, LAST_KEY, "log")
        if streams is not None:
            number_in(streams, 1, MOST_STREAMS, "number of streams", 5)
        self.nodes = [Node(it, limit, wait=0.0, **certificates.of(it)._asdict()) for it in places]
        if not self.nodes:
            raise ValueError("no addresses")
        if not 1 <= agree <= len(self.nodes):
            raise ValueError(f"agree is {agree}, and there are {len(self.nodes)} addresses")
        if agree > 1 and len({it.address for it in self.nodes}) < len(self.nodes):
            raise ValueError("an address is named twice, where several have to agree")
        self.agree, self._limit = agree, limit
        self._given, self._giving = 0, threading.Lock()  # the greatest time that was given as the latest
        self._members = Members(self.nodes, agree, log, streams)

    def members(self) -> List[Member]:
        """What is known of each node, in the order of the addresses. Nobody is asked: a member that is away stays so
        until a question comes when its pause is over."""
        with self._members.changed:
            return [it.seen() for it in self._members.all]

    def latest(self) -> int:
        """The greatest resolved time that at least `agree` members report. It never goes back: where the member that
        had the last one is gone, it is waited for another that has it, for `limit` seconds, and then `NotYet` is
        raised. `NoNode` where fewer report one."""
        end = None if self._limit is None else clock.monotonic() + self._limit
        while True:
            found = self._reported()
            with self._giving:
                if found >= self._given:
                    self._given = found
                    return found
                given = self._given
            if end is not None and clock.monotonic() >= end:
                raise NotYet(26, found, place=f"no {self.agree} members have time {given}, which was given before")
            clock.sleep(AGAIN)

    def _latest(self) -> int:
        """The time of a question without one. `NotYet` where nothing can be read yet."""
        time = self.latest()
        if time == 0:
            raise NotYet(26, 0, place="no member")
        return time

    def _reported(self) -> int:
        """The greatest resolved time that so many members report now."""
        times, told = [], []  # type: List[int], Told
        way = Round(self._members, self._members.all, set())
        while True:
            it = way.next(len(times) >= self.agree)
            if it is None:
                break
            try:
                times.append(self._members.front(it, it.pause > 0 and not way.is_last()).readable)
                way.reached += 1
            except (LinkBroken, Refused, BadMember) as error:
                told.append((it.node.name, error))
        if len(times) < self.agree:
            raise self._none(told)
        return sorted(times)[-self.agree]

    def at(self, time: Optional[int] = None) -> "NodesMoment":
        """One moment: this time, or the latest."""
        return NodesMoment(self, self._latest() if time is None else time_of(time))

    def changes(self, since: int) -> Changes:
        """As `Node.changes`, from whichever member can give them, and on from another where that one is away, lags, or
        was pruned. With `agree` of 2 or more each change is one that so many members give. A member has to read
        messages of version 2. `NoNode`: fewer than `agree` can give them, for `limit` seconds; `TooOld`: all were
        pruned beyond what was given."""
        return NodesChanges(self, Watch(since, self._limit))

    def _read(self, at: Optional[int], query: Query, read: Read) -> Any:
        if at is not None:
            return self._ask(at, query, read, set())
        end = None if self._limit is None else clock.monotonic() + self._limit
        while True:
            time = self._latest()
            try:
                return self._ask(time, query, read, set())
            except NotYet:  # the member that had the time is gone
                if end is not None and clock.monotonic() >= end:
                    raise
            clock.sleep(AGAIN)

    def _ask(self, time: int, query: Query, read: Read, unable: Set[Node]) -> Any:
        """The answer that `agree` nodes give; `unable` gets the nodes that can't read the time."""
        requests = [ask_frame(time, query)]
        return self._first(time, lambda node: exchanged(node, requests, read)[0], unable)

    def _first(self, time: int, ask: Callable[[Node], Any], unable: Set[Node]) -> Any:
        """What `agree` members answer alike, of those that report the time."""
        told: Told = []
        answers: List[Tuple[Tracked, Any]] = []
        way = Round(self._members, self._members.turned(), unable)
        while True:
            it = way.next()
            if it is None:
                raise self._unanswered(told, answers)
            try:
                answer = self._asked(it, time, ask, it.pause > 0 and not way.is_last())
            except Refused as refused:
                if refused.number not in ELSEWHERE:
                    raise
                if refused.number in UNABLE:
                    unable.add(it.node)
                way.reached += 1
                told.append((it.node.name, refused))
            except (LinkBroken, BadMember) as error:
                told.append((it.node.name, error))
            else:
                way.reached += 1
                answers.append((it, answer))
                if self._is_agreed(answers, answer):
                    return answer

    def _asked(self, it: Tracked, time: int, ask: Callable[[Node], Any], is_short: bool) -> Any:
        """A member's answer; 26 where it doesn't report this time as resolved."""
        if it.front is None or it.front.readable < time:
            readable = self._members.front(it, is_short).readable
            if readable < time:
                raise NotYet(26, readable, place=it.node.name)
        return self._members.ask(it, ask, is_short)

    def _is_agreed(self, answers: List[Tuple[Tracked, Any]], answer: Any) -> bool:
        """Whether so many members gave this answer as have to; then those that gave another are bad."""
        if self.agree == 1:
            return True
        others = [it for it, other in answers if other != answer]
        if len(answers) - len(others) < self.agree:
            return False
        self._set_others_bad(others)
        return True

    def _set_others_bad(self, others: Iterable[Tracked]) -> None:
        with self._members.changed:
            for it in others:
                it.set_bad(BadMember(f"{it.node.name}: it answered otherwise than {self.agree} members that agree"))

    def _unanswered(self, told: Told, answers: List[Tuple[Tracked, Any]]) -> VadungsilError:
        if any(answer != answers[0][1] for _, answer in answers):
            given: Told = [(it.node.name, BadMember(f"answered {str(answer)[:60]}")) for it, answer in answers]
            return NoNode(told + given, f"no {self.agree} members give the same answer")
        # what a node said tells more than that another was away
        for _, why in told:
            if isinstance(why, Refused):
                return why
        return self._none(told)

    def _none(self, told: Told) -> NoNode:
        """Says how many can be reached, where several have to, and the last error of each other."""
        asked = {name for name, _ in told}
        with self._members.changed:
            rest = [it for it in self._members.all if it.node.name not in asked]
            reached = sum(it.is_reached() for it in rest)
            each = told + [(it.node.name, it.error) for it in rest if it.state != "up"]
        return NoNode(
            each, f"{self.agree} members have to agree, and {reached} can be reached" if self.agree > 1 else ""
        )

    def close(self) -> None:
        """Closes the connections; the next question opens others."""
        self._members.close()

    def __enter__(self) -> "Nodes":
        return self

    def __exit__(self, *_: object) -> None:
        self.close()


class NodesChanges(Changes):
    """Those of many nodes. A member that gave some is asked first, over a connection of its own that is kept."""

    def __init__(self, nodes: Nodes, watch: Watch) -> None:
        super().__init__(watch)
        self._nodes, self._members = nodes, nodes._members
        self._links: Dict[Tracked, MemberLink] = {}

    def _fetch(self) -> None:
        while self._watch.is_waiting():
            try:
                self._look()
            except VadungsilError as error:
                rest = self._rest(error)
            else:
                self._watch.breaks.replied()
                continue
            clock.sleep(rest)

    def _rest(self, error: VadungsilError) -> float:
        """How many seconds to wait before the next look; raises the error where that is none. What a member refused
        says more than that another is away."""
        try:
            return self._watch.rest(error, False)
        except NoNode as nobody:
            raise _refused(nobody.told) or nobody

    def _look(self) -> None:
        """Gives what so many members agree on, of those that can be read above the base. Where they are too few, it
        waits for a second at the one that comes next to it."""
        ahead: List[Tuple[Tracked, Found]] = []
        behind: List[Tuple[int, Tracked]] = []
        told: Told = []
        way = Round(self._members, self._ordered(), set())
        it = way.next()
        while it is not None:
            readable = self._readable(it, told)
            if readable is not None:
                way.reached += 1
                is_given = None if readable <= self._watch.base else self._is_given(it, ahead, told)
                if is_given:
                    return
                if is_given is None:
                    behind.append((readable, it))
            it = way.next()
        for _, it in sorted(behind, key=lambda each: -each[0]):
            if self._is_given(it, ahead, told) is not False:
                return
        raise self._nothing(told, ahead)

    def _ordered(self) -> List[Tracked]:
        """The members: those that have a connection of its own first, then each time from the next one on. One that
        can't be asked any more has none."""
        for it in [it for it in self._links if it.state != "up"]:
            self._drop(it)
        return sorted(self._members.turned(), key=lambda it: it not in self._links)

    def _readable(self, it: Tracked, told: Told) -> Optional[int]:
        """Up to where a member can be read."""
        try:
            readable = self._members.front(it, it.pause > 0).readable
        except (LinkBroken, Refused, BadMember) as error:
            told.append((it.node.name, error))
            return None
        self._watch.breaks.has_replied = True
        return readable

    def _is_given(self, it: Tracked, ahead: List[Tuple[Tracked, Found]], told: Told) -> Optional[bool]:
        """Whether there are changes to give with what this member says; None: it can't say more within a second."""
        try:
            found = self._members.apart(it, lambda: self._link(it).run(self._watch.look(clock.monotonic() + SECOND)))
        except (LinkBroken, Refused, BadMember) as error:
            self._drop(it)
            if isinstance(error, Refused) and self._watch.has_other_way(error):
                return self._is_given(it, ahead, told)
            told.append((it.node.name, error))
            return False
        if found is None:
            return None
        ahead.append((it, found))
        return self._is_agreed(ahead)

    def _is_agreed(self, ahead: List[Tuple[Tracked, Found]]) -> bool:
        """Whether so many members gave the same changes up to some time as have to. Then these are given, and whoever
        gave others is bad."""
        agree = self._nodes.agree
        for readable in sorted((found.readable for _, found in ahead), reverse=True)[agree - 1 :]:
            said = [found.up_to(readable) for _, found in ahead if found.readable >= readable]
            for one in said:
                if said.count(one) >= agree:
                    self._nodes._set_others_bad([it for it, found in ahead if not found.is_like(one)])
                    self._watch.take(one)
                    return True
        return False

    def _nothing(self, told: Told, ahead: List[Tuple[Tracked, Found]]) -> VadungsilError:
        """The error where no member can go on. One that is away may do so later."""
        if len(ahead) >= self._nodes.agree > 1:
            each: Told = [(it.node.name, BadMember(f"{len(found.changes)} changes")) for it, found in ahead]
            return NoNode(told + each, f"no {self._nodes.agree} members give the same changes")
        is_away = any(it.state == "away" for it in self._members.all)
        return (None if is_away else _refused(told)) or self._nodes._none(told)

    def _link(self, it: Tracked) -> MemberLink:
        if it not in self._links:
            self._links[it] = MemberLink(it.node, self._watch.limit)
        return self._links[it]

    def _drop(self, it: Tracked) -> None:
        link = self._links.pop(it, None)
        if link is not None:
            link.close()

    def close(self) -> None:
        for it in list(self._links):
            self._drop(it)


def _refused(told: Told) -> Optional[Refused]:
    """What members refused: that they were pruned, before others."""
    refused = [error for _, error in told if isinstance(error, Refused)]
    return next((it for it in refused if isinstance(it, TooOld)), refused[0] if refused else None)


class NodesMoment(Moment[Optional[Row], List[KeyRow], int]):
    """Questions at one time, to whichever node can answer. 26 or 25 where each node that is reached refuses the
    time."""

    def __init__(self, nodes: Nodes, time: int) -> None:
        self.nodes, self.time = nodes, time
        self._unable: Set[Node] = set()

    def _read(self, query: Query, read: Read) -> Any:
        return self.nodes._ask(self.time, query, read, self._unable)

    def counts(self, tables: Iterable[int]) -> List[int]:
        """How many rows each of these tables has, asked of one node together."""
        requests = [ask_frame(self.time, Count(table)) for table in tables]
        counts: List[int] = self.nodes._first(
            self.time, lambda node: exchanged(node, requests, read_number), self._unable
        )
        return counts

    def __enter__(self) -> "NodesMoment":
        return self

    def __exit__(self, *_: object) -> None:
        pass
