"""The messages of version 2 by the names of docs/FORMATS.md, "Messages of version 2": a node reads them where it was
started with `--messages 2`. A chunk is some facts of a fragment; its head is what the fragment is without its facts,
and how many they are. What stands here stands in `messages` and `later_values`; here it reads and writes version 2
without being asked."""
from __future__ import annotations

from . import messages as _messages
from .errors import Refused
from .reading import Bytes
from .later_values import (
    MOST_ROWS,
    MOST_WAIT,
    PART_BYTES,
    AddPart,
    Added,
    AskHold,
    AskLatest,
    AskPage,
    AskStreams,
    Await,
    Fed,
    Feed,
    Held,
    JoinParts,
    LastPart,
    LaterDone as Done,
    LaterReply,
    LaterRequest,
    Latest,
    MergeParts,
    More,
    Page,
    Part,
    Ready,
    Release,
    Reply,
    Request,
    Streams,
    StreamTold,
    Whole,
)
from .stats import AskStats, AskTables, Metric, Stats, Tables
from .values import (
    FragmentHead as Head,
)

__all__ = [
    "MOST_ROWS",
    "MOST_WAIT",
    "PART_BYTES",
    "AddPart",
    "Added",
    "AskHold",
    "AskLatest",
    "AskPage",
    "AskStats",
    "AskStreams",
    "AskTables",
    "Await",
    "Done",
    "Fed",
    "Feed",
    "Head",
    "Held",
    "JoinParts",
    "LastPart",
    "LaterReply",
    "LaterRequest",
    "Latest",
    "MergeParts",
    "Metric",
    "More",
    "Page",
    "Part",
    "Ready",
    "Refused",
    "Release",
    "Reply",
    "ReplyFeeder",
    "Request",
    "RequestFeeder",
    "Stats",
    "StreamTold",
    "Streams",
    "Tables",
    "Whole",
    "decode_reply",
    "decode_request",
    "encode_reply",
    "encode_request",
    "reply_of",
    "request_of",
]

encode_request = _messages.encode_request


def encode_reply(reply: Reply) -> bytes:
    """The frame of a reply. Refusals 30 to 36 and 91 to 93 have none (2)."""
    return _messages.encode_reply(reply, 2)


def request_of(rest: bytes) -> Request:
    """The request of the rest of a frame, of either version."""
    return _messages.request_of(rest, 2)


def reply_of(rest: bytes) -> Reply:
    """The reply of the rest of a frame, of either version; a refusal is given, not raised."""
    return _messages.reply_of(rest, 2)


def decode_request(frame: Bytes) -> Request:
    """The request of one whole frame, of either version."""
    return _messages.decode_request(frame, 2)


def decode_reply(frame: Bytes) -> Reply:
    """The reply of one whole frame, of either version; a refusal is given, not raised."""
    return _messages.decode_reply(frame, 2)


class RequestFeeder(_messages.RequestFeeder):
    """Requests of both versions, in pieces that are cut anyhow."""

    def __init__(self) -> None:
        super().__init__(2)


class ReplyFeeder(_messages.ReplyFeeder):
    """Replies of both versions, in pieces that are cut anyhow."""

    def __init__(self) -> None:
        super().__init__(2)
