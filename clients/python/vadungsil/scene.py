"""What a picture of a log or of a node shows: its streams, and the versions of some keys, on an axis of time."""
from __future__ import annotations

from typing import Dict, Iterable, List, NamedTuple, Optional, Sequence, Set, Tuple

from .errors import Refused
from .values import LAST_TIME, Entry, Fragment, Item, Mark, Row, number_in

Place = Tuple[int, int]

# So many keys are shown where none are named, and an axis of less than so many times begins at 0.
MOST_KEYS, MANY_TIMES = 6, 16


class Bar(NamedTuple):
    """A version: the times of its birth and its end, where they are known, and its row."""

    born: int
    died: Optional[int]
    row: Optional[Row]


class Line(NamedTuple):
    """A stream: entries (number, time, whether it is here), marks (n, m, whether it holds), and how far it is."""

    entries: List[Tuple[int, int, bool]]
    marks: List[Tuple[int, int, bool]]
    prefix: int
    closed: int
    lacks: List[int]


class Scene(NamedTuple):
    """What a picture shows, from the time `first` to `last`."""

    streams: List[Line]
    versions: Dict[Place, List[Bar]]
    horizon: int
    readable: int
    first: int
    last: int


# ---------------------------------------------------------------- of items


def _line(items: List[Item], missing: List[Item], number: int) -> Line:
    entries = {it.number: it for it in items if isinstance(it, Entry) and it.stream == number}
    absent = {
        it.number: it for it in missing if isinstance(it, Entry) and it.stream == number and it.number not in entries
    }
    prefix = next(n for n in range(len(entries) + 1) if n + 1 not in entries)
    marks = sorted({(it.n, it.m) for it in items if isinstance(it, Mark) and it.stream == number})
    closed = max((m for n, m in marks if n <= prefix), default=0)
    most = max([*entries, *(n for n, _ in marks)], default=0)
    lacks = [n for n in range(prefix + 1, min(most, prefix + 1_000) + 1) if n not in entries]
    shown = sorted(
        [(n, it.time, True) for n, it in entries.items()] + [(n, it.time, False) for n, it in absent.items()]
    )
    return Line(shown, [(n, m, n <= prefix) for n, m in marks], prefix, closed, lacks)


def _versions(items: Iterable[Item], horizon: int) -> Dict[Place, List[Bar]]:
    rows: Dict[Tuple[int, int, int], Row] = {}
    ends: Dict[Tuple[int, int, int], int] = {}
    for it in items:
        if isinstance(it, Entry):
            rows.update({(put.table, put.key, it.time): put.row for put in it.rows})
            ends.update({(end.table, end.key, end.born): it.time for end in it.ends})
    found: Dict[Place, List[Bar]] = {}
    for table, key, born in sorted(rows.keys() | ends.keys()):
        died = ends.get((table, key, born))
        if died is None or died > horizon:
            found.setdefault((table, key), []).append(Bar(born, died, rows.get((table, key, born))))
    return found


def _last(streams: List[Line], versions: Dict[Place, List[Bar]]) -> int:
    times = [time for line in streams for _, time, _ in line.entries] + [
        m for line in streams for _, m, _ in line.marks
    ]
    times += [line.closed for line in streams] + [bar.died or bar.born for bars in versions.values() for bar in bars]
    return max((time for time in times if time < LAST_TIME), default=0)


def _scene(
    streams: List[Line], versions: Dict[Place, List[Bar]], horizon: int, keys: Optional[Sequence[Place]]
) -> Scene:
    chosen = sorted(versions)[:MOST_KEYS] if keys is None else list(keys)
    last = _last(streams, versions)
    first = 0 if last < MANY_TIMES else horizon
    return Scene(
        streams,
        {place: versions.get(place, []) for place in chosen},
        horizon,
        min(line.closed for line in streams),
        first,
        last + max((last - first) // 12, 1),
    )


def scene_of_items(
    items: Iterable[Item],
    missing: Iterable[Item] = (),
    streams: Optional[int] = None,
    horizon: int = 0,
    keys: Optional[Sequence[Place]] = None,
) -> Scene:
    """The replica that took these items, pruned to `horizon`, its oldest readable time. `missing`: items that are drawn
    as not there. 20: of two logs, 21: of a stream above their number, 24: `horizon` is above the resolved time."""
    here, absent = list(items), list(missing)
    found: Set[int] = {it.log for it in [*here, *absent]}
    if len(found) > 1:
        raise Refused(20, place=f"logs {sorted(found)}")
    most = max((it.stream for it in [*here, *absent]), default=1)
    count = most if streams is None else number_in(streams, 1, 64, "number of streams", 5)
    if most > count:
        raise Refused(21, place=f"stream {most} of {count}")
    lines = [_line(here, absent, number) for number in range(1, count + 1)]
    scene = _scene(lines, _versions(here, horizon), horizon, keys)
    if horizon > scene.readable:
        raise Refused(24, scene.readable)
    return scene


def scene_of_whole(whole: Fragment, keys: Optional[Sequence[Place]] = None) -> Scene:
    """What a node holds. It doesn't list entries one by one, nor marks that took effect: of those the last is its
    closed time."""
    lines = [
        Line(
            [],
            [(it.prefix, it.closed, True), *((n, m, False) for n, m in it.waiting)],
            it.prefix,
            it.closed,
            [n for n in range(it.prefix + 1, min(it.extra[-1], it.prefix + 1_000)) if n not in set(it.extra)]
            if it.extra
            else [],
        )
        for it in whole.streams
    ]
    versions: Dict[Place, List[Bar]] = {}
    for fact in whole.facts:
        versions.setdefault((fact.version.table, fact.version.key), []).append(
            Bar(fact.version.born, fact.died, fact.row)
        )
    return _scene(lines, versions, whole.horizon, keys)
