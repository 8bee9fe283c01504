"""Parts for tests/checks/web.py, web_page.py and alerts.py: a log with its rows by tests/lib/reference.py, a web server of nodes, requests over HTTP, a
strict reader of the text forms of metrics, and one of the schemas of the OpenAPI file. Standard library only."""
import contextlib
import http.client
import json
import math
import os
import pathlib
import random
import re
import subprocess
import sys
import time

sys.dont_write_bytecode = True
ROOT = pathlib.Path(__file__).resolve().parents[2]
PACKAGE = ROOT / "clients" / "python"
sys.path[:0] = [str(PACKAGE), str(ROOT / "tests" / "lib")]
import reference
import vadungsil as va
from client import Node as Served
from vadungsil.web import Server
from vadungsil.web.server import serve_beside

LIMIT, STREAMS, LAST = 30, 2, 40
BODIES = (b"<script>document.title = 'broken'</script>", b"<img src=x onerror=\"document.title='broken'\">", b'{"id":18446744073709551615,"in":[1,{"a":"{,}"}]}',
          b"plain", b"\xff\x00\xfe", b"")
KEYS = (0, 1, 2, 3, 5, 2 ** 63, 2 ** 64 - 1)


def log_of(entries=LAST, seed=1):
    """The frames of a log of two streams, with marks of both behind every fourth entry, and tests/lib/reference.py's reading of it."""
    rand, writer, frames = random.Random(seed), va.LogWriter(7, STREAMS), []
    for at in range(1, entries + 1):
        key = rand.choice(KEYS)
        removes = [(1, key)] if writer.born(1, key) and rand.random() < 0.3 else []
        puts = [] if removes else [(1, key, rand.randrange(3), BODIES[at % len(BODIES)])]
        frames.append(va.encode(writer.commit(puts, removes, rand.randint(1, STREAMS))))
        if at % 4 == 0:
            frames += [va.encode(mark) for mark in writer.marks()]
    items, fault = reference.items_of(b"".join(frames))
    if fault is not None:
        raise ValueError(f"the reference can't read the log: {fault}")
    return frames, items


FRAMES, ITEMS = log_of()


def rows_at(at, items=None):
    """The rows of table 1 at a time, by the reference: (key, tag, body), by rising key."""
    shown = reference.shown(ITEMS if items is None else items, at)
    return sorted((key, *row) for (table, key), row in shown.items() if table == 1)


def changes_of(before, after):
    """What came, went and became between two times, by the reference."""
    old, new = ({key: row for key, *row in rows_at(at)} for at in (before, after))
    return [(key, "came" if key not in old else "went" if key not in new else "became") for key in sorted({*old, *new}) if old.get(key) != new.get(key)]


def fed(port, frames=None):
    with va.Node(port) as node:
        node.items(FRAMES if frames is None else frames)


@contextlib.contextmanager
def nodes(count=1, frames=None, streams=STREAMS, links=16, words=()):
    """So many nodes that took the log."""
    with contextlib.ExitStack() as stack:
        found = [stack.enter_context(Served(links, streams=streams, words=words)) for _ in range(count)]
        for node in found:
            fed(node.port, frames)
        yield found


@contextlib.contextmanager
def web_of(ports, **more):
    """A web server of the nodes on these ports, which has looked at each once."""
    server = Server(list(ports), ("127.0.0.1", 0), **{"limit": 5.0, **more})
    serve_beside(server)
    web = Web(server)
    try:
        waited(lambda: all(it.state.error != "not asked yet" for it in server.nodes.values()))
        yield web
    finally:
        server.stop()


@contextlib.contextmanager
def page_of(ports, *words, before=""):
    """The command python3 -m vadungsil.web over the nodes on these ports, and its process; `before`: what the shell does first."""
    named = [word for port in ports for word in ("--node", str(port))]
    child = subprocess.Popen(["bash", "-c", f'{before} exec "$0" "$@"', sys.executable, "-m", "vadungsil.web", *named, "--http", "127.0.0.1:0", *words],
                             stdout=subprocess.PIPE, text=True, env={**os.environ, "PYTHONPATH": str(PACKAGE), "PYTHONDONTWRITEBYTECODE": "1"})
    try:
        web = Web(port=int(re.fullmatch(r"listening http://127\.0\.0\.1:(\d+)/\n", child.stdout.readline())[1]))
        waited(lambda: all(it["age"] is not None for it in web.json("/api/nodes")[1]["nodes"]))
        yield web, child
    finally:
        child.terminate()
        child.communicate(timeout=LIMIT)


def waited(holds, seconds=LIMIT):
    """Waits until it holds, and gives the seconds that it took."""
    begin = time.monotonic()
    while not holds():
        if time.monotonic() - begin > seconds:
            raise TimeoutError(f"not within {seconds} s")
        time.sleep(0.02)
    return time.monotonic() - begin


class Web:
    """Requests to a web server."""

    def __init__(self, server=None, port=None):
        self.server, self.port = server, port or server.server_address[1]

    @property
    def address(self):
        return f"http://127.0.0.1:{self.port}"

    def asked(self, path, method="GET", **heads):
        """The status, the heads and the body."""
        link = http.client.HTTPConnection("127.0.0.1", self.port, timeout=LIMIT)
        try:
            link.request(method, path, headers={name.replace("_", "-"): value for name, value in heads.items()})
            got = link.getresponse()
            return got.status, dict(got.getheaders()), got.read()
        finally:
            link.close()

    def json(self, path):
        status, _, body = self.asked(path)
        return status, json.loads(body)

    def rows(self, path):
        """The rows that the first node answered."""
        status, value = self.json(path)
        return [(int(it["key"]), it["tag"], bytes.fromhex(it["body"])) for it in value["answers"][0]["rows"]] if status == 200 else (status, value)

    def node(self, place=0):
        return self.json("/api/nodes")[1]["nodes"][place]

    def metric(self, name, **labels):
        return parsed_metrics(self.asked("/metrics")[2].decode())[1].get((name, tuple(sorted(labels.items()))))


# ---------------------------------------------------------------- the text forms of metrics

NAME = r"[a-zA-Z_:][a-zA-Z0-9_:]*"
SAMPLE = re.compile(rf'({NAME})(?:\{{((?:[a-zA-Z_][a-zA-Z0-9_]*="(?:[^"\\\n]|\\[\\"n])*",?)*)\}})? (\S+)$')
LABEL = re.compile(r'([a-zA-Z_][a-zA-Z0-9_]*)="((?:[^"\\\n]|\\[\\"n])*)"')
# by the kind of a family: how the names of its samples go on behind its own name, in Prometheus's text form and in OpenMetrics
PARTS = {"gauge": ("",), "counter": ("",), "histogram": ("_bucket", "_sum", "_count")}
OPEN_PARTS = {**PARTS, "counter": ("_total",), "info": ("_info",)}


def parsed_metrics(text, parts=None):
    """The kinds of the families and the samples by name and labels; a ValueError where a line or a histogram breaks the form."""
    if not text.endswith("\n"):
        raise ValueError("the last line has no end")
    parts, kinds, helped, samples, family = parts or PARTS, {}, set(), {}, None
    for number, line in enumerate(text.split("\n")[:-1], 1):
        if line.startswith("# HELP "):
            family, _, words = line[7:].partition(" ")
            if family in helped or not words or not re.fullmatch(NAME, family):
                raise ValueError(f"line {number}: {line}")
            helped.add(family)
        elif line.startswith("# TYPE "):
            name, kind = line[7:].split(" ")
            if name in kinds or name != family or kind not in parts or (kind == "counter" and not (name + parts[kind][0]).endswith("_total")):
                raise ValueError(f"line {number}: {line}")
            kinds[name] = kind
        else:
            name, labels, value = _sample(line, number)
            if family not in kinds or name not in {family + it for it in parts[kinds[family]]} or (name, labels) in samples:
                raise ValueError(f"line {number}: {line}")
            samples[name, labels] = value
    _check_histograms(kinds, samples)
    return kinds, samples


def parsed_openmetrics(text):
    """The same of OpenMetrics, which says where it ends, and whose counters have their end in the names of samples alone."""
    if not text.endswith("\n# EOF\n"):
        raise ValueError("no end")
    kinds, samples = parsed_metrics(text.removesuffix("# EOF\n"), OPEN_PARTS)
    if any(kind == "counter" and name.endswith("_total") for name, kind in kinds.items()):
        raise ValueError("a counter's family ends in _total")
    return kinds, samples


def _sample(line, number):
    found = SAMPLE.match(line)
    if not found:
        raise ValueError(f"line {number} is no sample: {line}")
    labels = LABEL.findall(found[2] or "")
    if len({name for name, _ in labels}) != len(labels):
        raise ValueError(f"line {number}: a label twice")
    return found[1], tuple(sorted(labels)), float(found[3])


def _check_histograms(types, samples):
    for name in [it for it, kind in types.items() if kind == "histogram"]:
        buckets = {}
        for (sample, labels), value in samples.items():
            if sample == f"{name}_bucket":
                rest = tuple(it for it in labels if it[0] != "le")
                buckets.setdefault(rest, []).append((float(dict(labels)["le"]), value))
        for rest, bounds in buckets.items():
            values = [value for _, value in bounds]
            if bounds != sorted(bounds) or values != sorted(values) or bounds[-1][0] != math.inf or samples[f"{name}_count", rest] != values[-1] \
                    or f"{name}_sum" not in {sample for sample, labels in samples if labels == rest}:
                raise ValueError(f"the histogram {name} of {rest}")


# ---------------------------------------------------------------- schemas

KINDS = {"string": str, "integer": int, "number": (int, float), "boolean": bool, "array": list, "object": dict, "null": type(None)}


def breaks(value, schema, document, place="answer"):
    """Where a value isn't as the schema says; an object has no other fields than those that are told."""
    if "$ref" in schema:
        return breaks(value, document["components"]["schemas"][schema["$ref"].rsplit("/", 1)[1]], document, place)
    if "anyOf" in schema:
        found = [breaks(value, one, document, place) for one in schema["anyOf"]]
        return [] if not all(found) else min(found, key=len)
    kind = schema["type"]
    if not isinstance(value, KINDS[kind]) or (isinstance(value, bool) and kind != "boolean"):
        return [f"{place} is no {kind}: {value!r}"]
    problems = []
    if "enum" in schema and value not in schema["enum"]:
        problems.append(f"{place}: {value!r} is none of {schema['enum']}")
    if "pattern" in schema and not re.search(schema["pattern"], value):
        problems.append(f"{place}: {value!r} is not as {schema['pattern']}")
    if kind == "array":
        problems += [problem for at, it in enumerate(value) for problem in breaks(it, schema["items"], document, f"{place}[{at}]")]
    if kind == "object" and ("properties" in schema or "additionalProperties" in schema):
        told = schema.get("properties", {})
        problems += [f"{place} has no {name}" for name in schema.get("required", []) if name not in value]
        for name, it in value.items():
            of = told.get(name, schema.get("additionalProperties"))
            problems += breaks(it, of, document, f"{place}.{name}") if of else [f"{place}.{name} is not told"]
    return problems
