"""The vectors of tests/vectors, and the values of the package of clients/python that they stand for."""
import json
import pathlib
import sys

sys.path.insert(0, str(pathlib.Path(__file__).resolve().parents[2] / "clients" / "python"))
import vadungsil as va

FOLDER = pathlib.Path(__file__).resolve().parents[1] / "vectors"


def vectors(name):
    return json.loads((FOLDER / f"{name}.json").read_text(encoding="utf-8"))


def is_of_version_2(it):
    """Whether a vector's first frame has the version byte 2."""
    return bytes.fromhex(it["bytes"])[4:5] == b"\2"


def item_of(value):
    if value["kind"] == "mark":
        return va.Mark(value["log"], value["stream"], value["n"], value["m"])
    ends = tuple(va.VersionKey(*it) for it in value["ends"])
    return va.Entry(value["log"], value["stream"], value["number"], value["time"], ends,
                    tuple(va.Put(table, key, va.Row(tag, bytes.fromhex(body))) for table, key, tag, body in value["rows"]))


def row_of(value):
    return None if value is None else va.Row(value[0], bytes.fromhex(value[1]))


def fragment_of(value):
    facts = [va.Fact(va.VersionKey(table, key, born), row_of(row), died) for table, key, born, row, died in value["facts"]]
    return va.Fragment(value["log"], value["base"], value["horizon"], tuple(va.Stream(**it) for it in value["streams"]), tuple(facts))


def request_of(value):
    kind = value["kind"]
    if kind == "ask":
        return va.Ask(value["time"], query_of(value["query"]))
    return {"items": lambda: va.Items(tuple(map(item_of, value["items"]))), "front": va.AskFront, "full": va.Full, "delta": lambda: va.Delta(value["base"]),
            "prune": lambda: va.Prune(value["horizon"]), "join": lambda: va.JoinThis(fragment_of(value["fragment"])),
            "merge": lambda: va.MergeThis(fragment_of(value["fragment"]))}[kind]()


def reply_of(value):
    return {"done": lambda: va.Done(value["operations"]), "front": lambda: va.Front(value["horizon"], value["readable"]),
            "fragment": lambda: fragment_of(value["fragment"]), "one": lambda: va.One(row_of(value["row"])),
            "rows": lambda: va.Rows(tuple((key, va.Row(tag, bytes.fromhex(body))) for key, tag, body in value["rows"])),
            "number": lambda: va.Number(value["count"]), "refused": lambda: va.Refused(value["number"], *value["values"])}[value["kind"]]()


def facts_of(value):
    return tuple(va.Fact(va.VersionKey(table, key, born), row_of(row), died) for table, key, born, row, died in value)


def head_of(value):
    return va.later.Head(value["log"], value["base"], value["horizon"], tuple(va.Stream(**it) for it in value["streams"]), value["count"])


def query_of(value):
    name, *words = value
    return {"get": va.Get, "range": va.Range, "tag": va.ByTag, "count": va.Count}[name](*words)


def later_request_of(value):
    later, kind = va.later, value["kind"]
    return {"streams": later.AskStreams, "latest": lambda: later.AskLatest(query_of(value["query"])), "more": later.More,
            "page": lambda: later.AskPage(*(value[name] for name in ("time", "table", "low", "high", "most"))),
            "whole": lambda: later.Whole(value["base"], value["part_bytes"]), "add": lambda: later.AddPart(facts_of(value["facts"])),
            "join parts": lambda: later.JoinParts(head_of(value["head"])), "merge parts": lambda: later.MergeParts(head_of(value["head"])),
            "feed": lambda: later.Feed(tuple(map(item_of, value["items"]))), "hold": lambda: later.AskHold(value["time"]), "release": lambda: later.Release(value["number"]),
            "await": lambda: later.Await(value["time"], value["milliseconds"]), "stats": later.AskStats, "tables": later.AskTables}[kind]()


def later_reply_of(value):
    later, kind = va.later, value["kind"]
    told = ("log", "horizon", "readable", "damaged", "operations", "hold")
    return {"done": lambda: later.Done(value["operations"]), "latest": lambda: later.Latest(value["time"], reply_of(value["answer"])),
            "streams": lambda: later.Streams(*(value[name] for name in told), tuple(later.StreamTold(*it) for it in value["streams"])),
            "page": lambda: later.Page(tuple(va.KeyRow(key, va.Row(tag, bytes.fromhex(body))) for key, tag, body in value["rows"]), value["more"]),
            "part": lambda: later.Part(facts_of(value["facts"]), value["left"]), "added": lambda: later.Added(value["count"]),
            "last part": lambda: later.LastPart(facts_of(value["facts"]), head_of(value["head"])),
            "fed": lambda: later.Fed(value["operations"], value["new"]), "held": lambda: later.Held(value["number"], value["time"]),
            "ready": lambda: later.Ready(value["horizon"], value["readable"]), "stats": lambda: later.Stats(tuple(map(tuple, value["metrics"]))),
            "tables": lambda: later.Tables(tuple(value["tables"])), "refused": lambda: va.Refused(value["number"], *value["values"])}[kind]()
