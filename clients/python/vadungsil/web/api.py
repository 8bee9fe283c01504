"""The answers of /api/: what nodes reported, as JSON. Keys, times and all other 64-bit numbers are JSON strings of
decimal digits."""
from __future__ import annotations

from concurrent.futures import ThreadPoolExecutor
from typing import Any, Callable, Dict, List, Mapping, Optional, Tuple

from ..errors import Refused
from ..stats import Stats
from ..values import Front, KeyRow, Row
from .questions import PARAMETERS, TIMES, BadQuestion, Found, Question, changes_between, found_by, question_of, time_in
from .state import State, StreamState
from .watch import Away, Watched

Json = Dict[str, Any]
Answer = Tuple[int, Json]
Names = Mapping[str, Mapping[int, str]]

# What may have names.
NAMED = ("tables", "streams")


class Unknown(KeyError):
    """A path or a node that isn't there."""


# ---------------------------------------------------------------- values


def text_of(number: Optional[int]) -> Optional[str]:
    return None if number is None else str(number)


def json_of_row(key: int, row: Row) -> Json:
    return {"key": str(key), "tag": row.tag, "body": row.body.hex()}


def json_of_refusal(refused: Refused) -> Json:
    return {
        "number": refused.number,
        "name": refused.name,
        "fields": {name: str(value) for name, value in refused.fields.items()},
        "line": refused.line,
        "meaning": refused.meaning,
        "advice": refused.advice,
    }


def json_of_stream(stream: StreamState) -> Json:
    return {
        "stream": stream.number,
        "prefix": str(stream.prefix),
        "closed": str(stream.closed),
        "extra": stream.extra,
        "waiting": stream.waiting,
        "first_extra": [str(number) for number in stream.first_extra],
        "first_waiting": [{"n": str(n), "m": str(m)} for n, m in stream.first_waiting],
        "lag": str(stream.lag),
        "holds": stream.holds,
        "lacks": stream.lacks,
        "retired": stream.is_retired,
    }


# So many tables of a node are told; the count is of all.
TABLES_SHOWN = 256


def json_of_stats(stats: Stats) -> Json:
    """What a node reports of itself; None is what it doesn't report. Connections, and the most at
    once, are summed over its ports."""
    return {
        "memory": text_of(stats.memory),
        "connections": str(sum(stats.open.values())),
        "most_connections": str(sum(stats.most_open.values())),
        "version": stats.version,
        "guarded": stats.guarded,
        "seconds": text_of(stats.seconds),
        "rows": text_of(stats.rows),
        "keys": text_of(stats.keys),
    }


def json_of_node(watched: Watched) -> Json:
    """How a node stands; oldest readable time, resolved time and streams only where they are those of now."""
    state, age, up_for, lag, lacks = watched.state, watched.age, watched.up_for, watched.lag, watched.lacks
    found: Json = {
        "node": watched.name,
        "up": state.up,
        "age": None if age is None else round(age, 1),
        "up_for": None if up_for is None else round(up_for, 1),
        "error": state.error,
        "damaged": state.damaged,
        "log": None if state.log is None else str(state.log),
        "refused": None if state.refused is None else json_of_refusal(state.refused),
        "horizon": None,
        "readable": None,
        "lag": text_of(lag),
        "lacks": text_of(lacks),
        "lags": [text_of(it) for it in list(watched.lags)],
        "operations": text_of(state.operations),
        "least_hold": text_of(state.least_hold),
        "stats": None if state.stats is None else json_of_stats(state.stats),
        "tables": None if state.tables is None else list(state.tables[:TABLES_SHOWN]),
        "tables_count": None if state.tables is None else len(state.tables),
        "streams": [],
    }
    if state.is_known:
        found.update(
            horizon=str(state.horizon),
            readable=str(state.readable),
            streams=[json_of_stream(it) for it in state.streams],
        )
    return found


def window_of(states: List[State]) -> Optional[Json]:
    """The times that each node that is known can read; None where there are none."""
    known = [state for state in states if state.is_known]
    low, high = max((it.horizon for it in known), default=1), min((it.readable for it in known), default=0)
    return {"from": str(low), "to": str(high)} if low <= high else None


def json_of_found(found: Found) -> Json:
    return (
        {"count": str(found.count)}
        if found.count is not None
        else {"rows": [json_of_row(*it) for it in found.rows], "more": found.more}
    )


def json_of_changes(before: Found, after: Found) -> Json:
    changes, until = changes_between(before, after)

    def row(key: int, it: Optional[Row]) -> Optional[Json]:
        return None if it is None else json_of_row(key, it)

    told = [
        {"key": str(it.key), "what": it.what, "before": row(it.key, it.before), "after": row(it.key, it.after)}
        for it in changes
    ]
    return {"changes": told, "until": None if until is None else str(until)}


# ---------------------------------------------------------------- the calls


class Api:
    """The calls of /api/ on these nodes. `names` are what the page calls tables and streams, by their numbers."""

    def __init__(self, nodes: Dict[str, Watched], names: Optional[Names] = None) -> None:
        self.nodes, self.names = nodes, names or {}
        self._pool = ThreadPoolExecutor(4 * len(nodes), thread_name_prefix="ask")

    def close(self) -> None:
        self._pool.shutdown(wait=False)

    def answer(self, name: str, words: Mapping[str, str]) -> Answer:
        """The status and the body of /api/NAME. `Unknown` and `BadQuestion` say what is wrong with what was asked."""
        if name == "nodes":
            if words:
                raise BadQuestion("nodes takes no parameters")
            return 200, self.stand()
        if name == "changes":
            return self._changes(words)
        if name in PARAMETERS:
            return self._question(name, words)
        raise Unknown(name)

    def stand(self) -> Json:
        """How all nodes stand, and the window that all can read."""
        return {
            "nodes": [json_of_node(it) for it in self.nodes.values()],
            "window": window_of([it.state for it in self.nodes.values()]),
            "names": {of: {str(it): name for it, name in self.names.get(of, {}).items()} for of in NAMED},
        }

    def _chosen(self, words: Mapping[str, str]) -> List[Watched]:
        name = words.get("node", "")
        if name and name not in self.nodes:
            raise Unknown(f"no node {name[:80]!r}")
        return [self.nodes[name]] if name else list(self.nodes.values())

    def _question(self, kind: str, words: Mapping[str, str]) -> Answer:
        question, chosen, at = question_of(kind, words, ("at",)), self._chosen(words), time_in(words, "at")
        if at is None:
            at = self._latest(chosen)
        time = at
        return self._all(chosen, question, {"at": str(time)}, lambda it: json_of_found(found_by(it, question, time)))

    def _changes(self, words: Mapping[str, str]) -> Answer:
        kind = words.get("kind", "range")
        if kind not in ("get", "range", "tag"):
            raise BadQuestion(f"kind is none of get, range, tag: {kind[:40]!r}")
        question, chosen = question_of(kind, words, ("kind", *TIMES[1:])), self._chosen(words)
        first, last = (time_in(words, name) for name in TIMES[1:])
        if first is None:
            raise BadQuestion("from lacks: the first of two times")
        before, after = first, self._latest(chosen) if last is None else last

        def changed(it: Watched) -> Json:
            return json_of_changes(found_by(it, question, before), found_by(it, question, after))

        return self._all(chosen, question, {"from": str(before), "to": str(after)}, changed)

    def _latest(self, chosen: List[Watched]) -> int:
        """The least resolved time of the nodes that report theirs now."""
        marks, told = [], []  # type: List[int], List[Exception]

        def front(it: Watched) -> Front:
            return it.ask("front", lambda node: node.front())

        for ended in [self._pool.submit(front, it) for it in chosen]:
            try:
                marks.append(ended.result().readable)
            except (Away, Refused) as error:
                told.append(error)
        if not marks:
            raise told[0]
        return min(marks)

    def _all(self, chosen: List[Watched], question: Question, times: Json, call: Callable[[Watched], Json]) -> Answer:
        """What each node says, and whether those that answered say the same (None where fewer than two did)."""
        answers = list(self._pool.map(lambda it: {"node": it.name, **_told(it, call)}, chosen))
        contents = [
            {name: value for name, value in it.items() if name != "node"}
            for it in answers
            if "refused" not in it and "away" not in it
        ]
        equal = all(it == contents[0] for it in contents) if len(contents) > 1 else None
        status = 200 if contents else 422 if any("refused" in it for it in answers) else 503
        return status, {"question": question.as_json(), **times, "answers": answers, "equal": equal}


def _told(watched: Watched, call: Callable[[Watched], Json]) -> Json:
    try:
        return call(watched)
    except Refused as refused:
        return {"refused": json_of_refusal(refused)}
    except Away as away:
        return {"away": str(away)}


def rows_of(answer: Json) -> List[KeyRow]:
    """The rows of an answer, for who reads this interface in Python."""
    return [KeyRow(int(it["key"]), Row(it["tag"], bytes.fromhex(it["body"]))) for it in answer["rows"]]
