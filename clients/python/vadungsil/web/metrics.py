"""/metrics: what nodes reported, and what this server counted."""
from __future__ import annotations

import platform
from typing import Any, Callable, Dict, Iterable, List, Tuple

from .. import __version__
from ..stats import Stats
from .exposition import Families, Family, Sample, Value
from .meters import BOUNDS, Times
from .state import StreamState
from .watch import Watched

# ---------------------------------------------------------------- of a node

NODE: List[Tuple[Family, Callable[[Watched], Any]]] = [
    (Family("vadungsil_node_up", "gauge", "Whether the node replied to the last poll."), lambda it: it.state.up),
    (
        Family(
            "vadungsil_node_damaged",
            "gauge",
            "Whether the last reply was error 41: the node met a conflict and has failed.",
        ),
        lambda it: it.state.damaged,
    ),
    (
        Family("vadungsil_node_reply_age_seconds", "gauge", "Seconds since the node's last reply to a poll."),
        lambda it: it.age,
    ),
    (
        Family("vadungsil_horizon", "gauge", "The oldest readable time."),
        lambda it: it.state.horizon if it.state.is_known else None,
    ),
    (
        Family("vadungsil_readable", "gauge", "The resolved time: the newest that can be read."),
        lambda it: it.state.readable if it.state.is_known else None,
    ),
    (
        Family("vadungsil_lag", "gauge", "How far the resolved time is behind the newest time of any node of its log."),
        lambda it: it.lag,
    ),
    (
        Family("vadungsil_lacks", "gauge", "Entries that another node of its log has and this one lacks."),
        lambda it: it.lacks,
    ),
    (
        Family(
            "vadungsil_operations_total", "counter", "Operations that the node has done, if it is asked (--messages 2)."
        ),
        lambda it: it.state.operations,
    ),
    (
        Family("vadungsil_least_pinned", "gauge", "The least pinned time, if there is one (--messages 2)."),
        lambda it: it.state.least_hold,
    ),
    (
        Family(
            "vadungsil_links_opened_total",
            "counter",
            (
                "Connections to the node that were opened. 'hkrep node' gives the slot of an ended connection out"
                " again; 'hkrep serve' each slot once."
            ),
        ),
        lambda it: it.meters.links()[0],
    ),
    (
        Family("vadungsil_links_failed_total", "counter", "Connections to the node that broke or could not be opened."),
        lambda it: it.meters.links()[1],
    ),
]

STREAM: List[Tuple[Family, Callable[[StreamState], Value]]] = [
    (
        Family("vadungsil_stream_prefix", "gauge", "The number up to which all entries of the stream are there."),
        lambda it: it.prefix,
    ),
    (Family("vadungsil_stream_closed", "gauge", "The time up to which marks close the stream."), lambda it: it.closed),
    (
        Family(
            "vadungsil_stream_lag",
            "gauge",
            "How far the closed time is behind the greatest of the streams that are not retired.",
        ),
        lambda it: it.lag,
    ),
    (
        Family("vadungsil_stream_extra", "gauge", "Entries that are there above the prefix, behind a gap."),
        lambda it: it.extra,
    ),
    (Family("vadungsil_stream_waiting", "gauge", "Marks that wait for entries."), lambda it: it.waiting),
    (Family("vadungsil_stream_holds", "gauge", "Whether the stream holds the node back."), lambda it: it.holds),
    (Family("vadungsil_stream_retired", "gauge", "Whether the stream is retired."), lambda it: it.is_retired),
]

# ---------------------------------------------------------------- what a node tells of itself

TOLD: List[Tuple[Family, Callable[[Stats], Any]]] = [
    (Family("vadungsil_node_memory_bytes", "gauge", "Bytes of memory of the node's process."), lambda it: it.memory),
    (
        Family("vadungsil_node_memory_limit_bytes", "gauge", "Bytes of address space that it may take."),
        lambda it: it.memory_limit,
    ),
    (Family("vadungsil_node_run_seconds", "gauge", "Seconds since the node started."), lambda it: it.seconds),
    (
        Family("vadungsil_node_guarded", "gauge", "Whether the node refuses data that conflicts."),
        lambda it: it.guarded,
    ),
    (Family("vadungsil_node_rows", "gauge", "Rows of versions that the node holds."), lambda it: it.rows),
    (Family("vadungsil_node_ends", "gauge", "Ends of versions that the node holds."), lambda it: it.ends),
    (Family("vadungsil_node_keys", "gauge", "Keys of tables that the node holds."), lambda it: it.keys),
    (Family("vadungsil_node_body_bytes", "gauge", "Bytes of the bodies of its rows."), lambda it: it.body_bytes),
    (Family("vadungsil_node_pins", "gauge", "Pinned times."), lambda it: it.pins),
    (
        Family("vadungsil_node_read_bytes_total", "counter", "Bytes that the node read from connections."),
        lambda it: it.bytes_read,
    ),
    (
        Family("vadungsil_node_written_bytes_total", "counter", "Bytes that the node wrote to connections."),
        lambda it: it.bytes_written,
    ),
    (
        Family("vadungsil_node_failed_accepts_total", "counter", "Connections that the node could not accept."),
        lambda it: it.failed_accepts,
    ),
]

BUDGETS = {0: "shared", 1: "readers"}
# the label of each family's samples, and its words where these are not numbers
BY_LABEL: List[Tuple[Family, str, Dict[int, str], Callable[[Stats], Dict[int, int]]]] = [
    (
        Family("vadungsil_node_budget_bytes", "gauge", "Bytes that may wait in the node's memory (--link-bytes)."),
        "of",
        BUDGETS,
        lambda it: it.budget,
    ),
    (
        Family("vadungsil_node_reserved_bytes", "gauge", "Bytes of that budget that are reserved."),
        "of",
        BUDGETS,
        lambda it: it.reserved,
    ),
    (
        Family("vadungsil_node_connections", "gauge", "Connections that are open, by the number of the port."),
        "door",
        {},
        lambda it: it.open,
    ),
    (
        Family("vadungsil_node_connections_most", "gauge", "The most connections that were open at once."),
        "door",
        {},
        lambda it: it.most_open,
    ),
    (
        Family("vadungsil_node_opened_total", "counter", "Connections to the node that were opened."),
        "door",
        {},
        lambda it: it.opened,
    ),
    (
        Family("vadungsil_node_requests_total", "counter", "Requests of all clients, by the kind byte."),
        "kind",
        {},
        lambda it: it.requests,
    ),
    (
        Family("vadungsil_node_refusals_total", "counter", "Errors to all clients, by number."),
        "number",
        {},
        lambda it: it.refusals,
    ),
]

TABLES = Family("vadungsil_node_tables", "gauge", "Tables of which the node holds anything.")
VERSION = Family("vadungsil_node_version_info", "info", "The version of the node's program.")

REFUSED = Family("vadungsil_refused_total", "counter", "Errors of the node to this server, by number.")
SECONDS = Family(
    "vadungsil_answer_seconds", "histogram", "Seconds from a request of this server to the node's reply, by kind."
)


BUILD = Family("vadungsil_build_info", "info", "The version of this server, and of the Python that runs it.")
ANSWERS = Family("vadungsil_web_answers_total", "counter", "Answers of this server over HTTP, by status.")
EVENTS = Family("vadungsil_web_event_streams", "gauge", "Event streams that are open.")


def _of_nodes(nodes: List[Watched]) -> Families:
    for family, read in NODE:
        pairs = [(it.name, read(it)) for it in nodes]
        yield family, [Sample({"node": name}, value) for name, value in pairs if value is not None]


def _of_streams(nodes: List[Watched]) -> Families:
    known = [(it.name, stream) for it in nodes if it.state.is_known for stream in it.state.streams]
    for family, read in STREAM:
        yield family, [Sample({"node": name, "stream": str(it.number)}, read(it)) for name, it in known]


def _told(nodes: List[Watched]) -> Families:
    """What nodes report of themselves: nothing of a node that doesn't."""
    known = [(it.name, it.state.stats) for it in nodes if it.state.stats is not None]
    for family, read in TOLD:
        pairs = [(name, read(stats)) for name, stats in known]
        yield family, [Sample({"node": name}, value) for name, value in pairs if value is not None]
    for family, label, words, labelled in BY_LABEL:
        yield family, [
            Sample({"node": name, label: words.get(of, str(of))}, value)
            for name, stats in known
            for of, value in labelled(stats).items()
        ]
    tables = [(it.name, it.state.tables) for it in nodes]
    yield TABLES, [Sample({"node": name}, len(its)) for name, its in tables if its is not None]
    versions = [(name, stats.version) for name, stats in known]
    yield VERSION, [Sample({"node": name, "version": its}, 1) for name, its in versions if its is not None]


def _refused(watched: Watched) -> Iterable[Sample]:
    for number, count in watched.meters.refused().items():
        yield Sample({"node": watched.name, "number": str(number)}, count)


def _histogram(labels: Dict[str, str], times: Times) -> Iterable[Sample]:
    for bound, within in zip(BOUNDS, times.within):
        yield Sample({**labels, "le": repr(bound)}, within, "_bucket")
    yield Sample({**labels, "le": "+Inf"}, times.count, "_bucket")
    yield Sample(labels, times.total, "_sum")
    yield Sample(labels, times.count, "_count")


def of_nodes(nodes: Iterable[Watched]) -> Families:
    """What the nodes reported, and what this server counted of each."""
    found = list(nodes)
    yield from _of_nodes(found)
    yield from _of_streams(found)
    yield from _told(found)
    yield REFUSED, [sample for it in found for sample in _refused(it)]
    told = [({"node": it.name, "kind": kind}, times) for it in found for kind, times in it.meters.times().items()]
    yield SECONDS, [sample for labels, times in told for sample in _histogram(labels, times)]


def of_server(statuses: Dict[int, int], streams_open: int) -> Families:
    """What this server is and has answered."""
    yield BUILD, [Sample({"version": __version__, "python": platform.python_version()}, 1)]
    yield ANSWERS, [Sample({"code": str(status)}, count) for status, count in sorted(statuses.items())]
    yield EVENTS, [Sample({}, streams_open)]
