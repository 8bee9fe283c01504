#!/usr/bin/env python3
"""Checks of deploy/prometheus and deploy/grafana, with the names and labels that /metrics of a running page has.

    tests/checks/alerts.py

Each expression of a rule and of a panel has to name metrics and labels that are there. Each rule has series at which it fires, and some at which it
doesn't; each panel has to show something of what the page says. Both are asked of promtool (Debian's package prometheus); where that isn't installed
they are skipped, and said so. Prints a line for each check and ends with 'N passed, M failed'. Standard library only."""
import contextlib
import json
import pathlib
import re
import shutil
import subprocess
import sys
import tempfile
from typing import NamedTuple

sys.dont_write_bytecode = True
sys.path.append(str(pathlib.Path(__file__).resolve().parents[1] / "lib"))
from checks import differ, ended, guarded, is_built, report, skip
from client import PROGRAM
from promql import labels_by_name, lacking
from telling import Telling
from web_parts import FRAMES, LAST, LIMIT, ROOT, STREAMS, Served, fed, page_of, parsed_metrics, va, waited

PROMETHEUS, DASHBOARD = ROOT / "deploy" / "prometheus", ROOT / "deploy" / "grafana" / "dashboard.json"
# what Prometheus adds to what it reads, with the job of the example
SCRAPED = {"job": "vadungsil", "instance": "127.0.0.1:8080"}
# seconds from one sample of a test to the next
STEP = 15


# ---------------------------------------------------------------- what a page says

def exposed():
    """The samples of a page of two nodes of which one lacks what the other has, after an error; a time is pinned, and the first tells its numbers."""
    with contextlib.ExitStack() as stack:
        whole, behind = [stack.enter_context(Served(8, streams=STREAMS, words=("--messages", "2"))) for _ in range(2)]
        fed(whole.port)
        fed(behind.port, FRAMES[:20])
        hold = stack.enter_context(va.Node(whole.port)).hold(3)
        telling = stack.enter_context(Telling(whole.port))
        web, _ = stack.enter_context(page_of([telling.port, behind.port], "--messages", "2"))
        web.json(f"/api/get?table=1&key=0&at={LAST + 1}")
        web.asked("/metrics")       # so that the next one has an answer to count
        waited(lambda: web.metric("vadungsil_least_pinned", node=f"127.0.0.1:{telling.port}") == 3.0)
        waited(lambda: web.metric("vadungsil_node_memory_bytes", node=f"127.0.0.1:{telling.port}") is not None)
        samples = parsed_metrics(web.asked("/metrics")[2].decode())[1]
        hold.release()
        return samples


def sample_of(samples, name, labels):
    """The first sample of a name that has these labels, among others."""
    for found, its in samples:
        if found == name and set(labels.items()) <= set(its):
            return dict(its)
    raise LookupError(f"the page says no {name} with {labels}")


def series(name, labels):
    """A series as promtool writes it."""
    return name + "{" + ", ".join(f"{label}={json.dumps(value)}" for label, value in sorted({**labels, **SCRAPED}.items())) + "}"


# ---------------------------------------------------------------- the rules

class Rule(NamedTuple):
    """An alert as the file has it."""
    name: str
    expression: str
    labels: dict
    summary: str


def rules_of(text):
    """The rules of the file, each of which is five lines in the same order."""
    found = []
    for part in text.split("      - alert: ")[1:]:
        name, lines = part.split("\n", 1)[0], dict(re.findall(r"^ +(\w+): (.*)$", part.split("\n", 1)[1], re.M))
        labels = dict(re.findall(r"(\w+): (\w+)", lines["labels"]))
        found.append(Rule(name, lines["expr"], labels, lines["summary"][1:-1]))
    return found


class Case(NamedTuple):
    """A rule at series of the page: for each its name, the labels that choose among the page's, and its values, 15 seconds from one to the next. At
    so many minutes it says something of the first one, whose labels `kept` stay; where it says nothing it doesn't fire."""
    rule: str
    minutes: float
    series: tuple
    said: str = ""
    kept: tuple = ("node", "job", "instance")


def of(name, values, **labels):
    return name, labels, values


READABLE, LAG, EXTRA, WAITING, REFUSED, OPENED, BUCKET = (f"vadungsil_{it}" for it in (
    "readable", "stream_lag", "stream_extra", "stream_waiting", "refused_total", "links_opened_total", "answer_seconds_bucket"))


def answers(fast, all_of_them):
    """Answers by the second bound and beyond: how many more took a second at most with each sample, and how many came."""
    return tuple(of(BUCKET, f"0+{more}x60", kind="range", le=bound) for bound, more in (("0.5", 0), ("1.0", fast), ("2.5", all_of_them), ("+Inf", all_of_them)))


MEMORY, RESERVED, BUDGET, ERRORS = (f"vadungsil_node_{it}" for it in ("memory_bytes", "reserved_bytes", "budget_bytes", "refusals_total"))
STREAM = ("node", "stream", "job", "instance")
CASES = (
    Case("VadungsilPageAway", 9, (of("vadungsil_build_info", "1+0x4 _x60"),), "no page is read: the other alerts see nothing", ()),
    Case("VadungsilPageAway", 9, (of("vadungsil_build_info", "1+0x60"),)),
    Case("VadungsilPageAway", 9, (of("vadungsil_build_info", "1+0x4 _x8 1+0x60"),)),
    Case("VadungsilNodeAway", 1, (of("vadungsil_node_up", "1 0+0x9"),), "NODE does not answer"),
    Case("VadungsilNodeAway", 2, (of("vadungsil_node_up", "1 0 0 1 0 0 1 0 0 1"),)),
    Case("VadungsilNodeDamaged", 1, (of("vadungsil_node_damaged", "0 0 1+0x9"),), "NODE met a conflict: rebuild it from one good source"),
    Case("VadungsilNodeDamaged", 1, (of("vadungsil_node_damaged", "0+0x9"),)),
    Case("VadungsilStandsStill", 11, (of(READABLE, "7+0x60"), of(LAG, "0+0x60", stream="1"), of(LAG, "3+0x60", stream="2")),
         "the resolved time of NODE has not moved for at least five minutes, and a stream is behind"),
    Case("VadungsilStandsStill", 11, (of(READABLE, "7+0x60"), of(LAG, "0+0x60", stream="1"), of(LAG, "0+0x60", stream="2"))),
    Case("VadungsilStandsStill", 11, (of(READABLE, "7+0x20 8+0x16 9+0x20"), of(LAG, "0+0x60", stream="1"), of(LAG, "3+0x60", stream="2"))),
    Case("VadungsilNodeBehind", 3, (of("vadungsil_lag", "10001+0x20"),), "NODE is 10001 behind the newest time of its log"),
    Case("VadungsilNodeBehind", 3, (of("vadungsil_lag", "10000+0x20"),)),
    Case("VadungsilNodeBehind", 3, (of("vadungsil_lag", "20000+0x6 5+0x2 20000+0x6"),)),
    Case("VadungsilStreamBehind", 3, (of(LAG, "10001+0x20", stream="2"),), "stream 2 holds NODE back by 10001", STREAM),
    Case("VadungsilStreamBehind", 3, (of(LAG, "10000+0x20", stream="2"),)),
    Case("VadungsilEntriesLack", 6, (of(EXTRA, "1+0x40", stream="2"), of(WAITING, "0+0x40", stream="2")),
         "stream 2 of NODE has had entries behind a gap, or marks that wait, for five minutes", STREAM),
    Case("VadungsilEntriesLack", 6, (of(WAITING, "2+0x40", stream="2"), of(EXTRA, "0+0x40", stream="2")),
         "stream 2 of NODE has had entries behind a gap, or marks that wait, for five minutes", STREAM),
    Case("VadungsilEntriesLack", 6, (of(EXTRA, "1+0x12 0 1+0x40", stream="2"), of(WAITING, "0+0x40", stream="2"))),
    Case("VadungsilNotPruned", 16, (of(READABLE, "1000005+0x80"), of("vadungsil_horizon", "4+0x80")), "NODE keeps more than a million times: prune it"),
    Case("VadungsilNotPruned", 16, (of(READABLE, "1000005+0x80"), of("vadungsil_horizon", "4+0x40 5+0x40"))),
    Case("VadungsilOutOfMemory", 2, (of(REFUSED, "0+0x4 1+0x9", number="90"),), "NODE returned error 90 (out of memory) to a query", ("node", "number", "job", "instance")),
    Case("VadungsilOutOfMemory", 9, (of(REFUSED, "0+0x4 1+0x60", number="90"),)),
    Case("VadungsilOutOfMemory", 2, (of(REFUSED, "0+0x4 1+1x9", number="26"), of(REFUSED, "0+0x60", number="90"))),
    Case("VadungsilMemoryHigh", 7, (of(MEMORY, "7000000001+0x60"),), "NODE has 7000000001 bytes of memory: prune it, or give it more"),
    Case("VadungsilMemoryHigh", 7, (of(MEMORY, "7000000000+0x60"),)),
    Case("VadungsilMemoryHigh", 7, (of(MEMORY, "8000000000+0x16 9 8000000000+0x9"),)),
    Case("VadungsilBudgetTaken", 3, (of(RESERVED, "801+0x60", of="shared"), of(BUDGET, "1000+0x60", of="shared"), of(RESERVED, "0+0x60", of="readers"), of(BUDGET, "1000+0x60", of="readers")),
         "connections of NODE make it keep more than 80 % of what --link-bytes allows (shared)", ("node", "of", "job", "instance")),
    Case("VadungsilBudgetTaken", 3, (of(RESERVED, "800+0x60", of="shared"), of(BUDGET, "1000+0x60", of="shared"), of(RESERVED, "801+0x60", of="readers"), of(BUDGET, "2000+0x60", of="readers"))),
    Case("VadungsilBudgetTaken", 3, (of(RESERVED, "900+0x6 9 900+0x6", of="readers"), of(BUDGET, "1000+0x60", of="readers"))),
    Case("VadungsilManyErrors", 12, (of(ERRORS, "0+16x60", number="90"), of(ERRORS, "0+0x60", number="26")), "NODE returns more than one error a second, other than 25 and 26", ("node",)),
    Case("VadungsilManyErrors", 12, (of(ERRORS, "0+16x60", number="90"),), "NODE returns more than one error a second, other than 25 and 26", ("node",)),
    Case("VadungsilManyErrors", 12, (of(ERRORS, "0+15x60", number="90"), of(ERRORS, "0+800x60", number="26"))),
    Case("VadungsilLinksUsedUp", 60, (of(OPENED, "1+0x200 2+1x19 21+0x60"),), "20 connections to NODE were opened within an hour; a node of serve has 64 in its life"),
    Case("VadungsilLinksUsedUp", 60, (of(OPENED, "1+0x200 2+1x14 16+0x60"),)),
    Case("VadungsilSlowAnswers", 12, answers(98, 100), "range of NODE takes more than a second (p99)", ("node", "kind")),
    Case("VadungsilSlowAnswers", 12, answers(99, 100)),
)


def tested(case, rule, samples):
    """One test of promtool."""
    chosen = [(name, sample_of(samples, name, labels), values) for name, labels, values in case.series]
    first = {**chosen[0][1], **SCRAPED}
    alert = {"exp_labels": {**rule.labels, **{it: first[it] for it in case.kept if case.said}},
             "exp_annotations": {"summary": case.said.replace("NODE", first.get("node", ""))}}
    return {"interval": f"{STEP}s", "input_series": [{"series": series(name, labels), "values": values} for name, labels, values in chosen],
            "alert_rule_test": [{"eval_time": f"{case.minutes}m", "alertname": rule.name, "exp_alerts": [alert] if case.said else []}]}


def promtool(*words):
    """What is wrong by promtool: nothing where it ends well."""
    got = subprocess.run(["promtool", *map(str, words)], stdout=subprocess.PIPE, stderr=subprocess.STDOUT, text=True, timeout=2 * LIMIT, check=False)
    return [] if got.returncode == 0 else [f"promtool {' '.join(map(str, words[:2]))}: {got.stdout.strip()}"]


def asked_of_promtool(tests, rules=()):
    """What is wrong by `promtool test rules`, which reads JSON as it reads YAML."""
    with tempfile.TemporaryDirectory() as folder:
        file = pathlib.Path(folder) / "tests.json"
        file.write_text(json.dumps({"rule_files": [str(it) for it in rules], "evaluation_interval": f"{STEP}s", "tests": tests}), encoding="utf-8")
        return promtool("test", "rules", file)


def fires_and_not(samples):
    """Each rule fires where it should, says what it should, and is silent where it should be; a test that wants something else is seen."""
    file = PROMETHEUS / "alerts.yml"
    rules = {it.name: it for it in rules_of(file.read_text())}
    counts = {(name, fires): sum(it.rule == name and bool(it.said) == fires for it in CASES) for name in rules for fires in (True, False)}
    problems = [f"{name} has no case in which it {'fires' if fires else 'is silent'}" for (name, fires), count in counts.items() if not count]
    problems += promtool("check", "rules", file) + promtool("check", "config", PROMETHEUS / "prometheus.yml")
    problems += asked_of_promtool([tested(it, rules[it.rule], samples) for it in CASES], [file])
    turned = next(it for it in CASES if it.rule == "VadungsilNodeAway")
    problems += [] if asked_of_promtool([tested(turned._replace(said=""), rules[turned.rule], samples)], [file]) else ["an alert that isn't wanted is not seen"]
    report(f"each alert fires and is silent where it should ({len(rules)} rules, {len(CASES)} cases)", problems)


# ---------------------------------------------------------------- the dashboard

def panels_of(dashboard):
    """The title, the expression for all nodes, and the labels of its legend, of each query of each panel."""
    for panel in dashboard["panels"]:
        for target in panel["targets"]:
            yield panel["title"], target["expr"].replace("$node", ".*"), re.findall(r"\{\{(\w+)\}\}", target["legendFormat"])


def shows(samples):
    """Each query of a panel has an answer over what the page says, and each sample of it the labels of the legend."""
    inputs = [{"series": series(name, dict(labels)), "values": f"{value:g}+{int(name.endswith(('_total', '_bucket', '_count', '_sum', '_prefix')))}x40"}
              for (name, labels), value in samples.items()]
    tests = []
    for _, expression, legend in panels_of(json.loads(DASHBOARD.read_text())):
        for label in legend:
            # one group with the word in it where all samples have the label; a second where one hasn't; none where there are no samples
            wanted = f'count by (there) (label_replace(({expression}), "there", "yes", "{label}", ".+")) > bool 0'
            tests.append({"expr": wanted, "eval_time": "8m", "exp_samples": [{"labels": '{there="yes"}', "value": 1}]})
    problems = asked_of_promtool([{"interval": f"{STEP}s", "input_series": inputs, "promql_expr_test": tests}])
    blind = {"expr": tests[0]["expr"].replace("vadungsil_", "vadungsil_no_"), **{name: tests[0][name] for name in ("eval_time", "exp_samples")}}
    problems += [] if asked_of_promtool([{"interval": f"{STEP}s", "input_series": inputs, "promql_expr_test": [blind]}]) else ["a metric that isn't there is not seen"]
    report(f"each panel of the dashboard shows something ({len(tests)} queries)", problems)


def laid_out(_):
    """Panels of Grafana 9 and later: each has a number of its own, all go by the variable for the data source, none lies over another."""
    dashboard, taken, problems = json.loads(DASHBOARD.read_text()), {}, []
    source = {"type": "prometheus", "uid": "${source}"}
    variables = {it["name"]: it for it in dashboard["templating"]["list"]}
    problems += differ([("numbers", len({it["id"] for it in dashboard["panels"]}), len(dashboard["panels"])), ("variables", sorted(variables), ["node", "source"]),
                        ("the source", (variables["source"]["type"], variables["source"]["query"]), ("datasource", "prometheus")),
                        ("the nodes' source", variables["node"]["datasource"], source), ("of Grafana 9", dashboard["schemaVersion"] <= 36, True)])
    for panel in dashboard["panels"]:
        place = panel["gridPos"]
        problems += differ([(f"{panel['title']}: source", [it["datasource"] for it in [panel, *panel["targets"]]], [source] * (1 + len(panel["targets"])))])
        for spot in ((x, y) for x in range(place["x"], place["x"] + place["w"]) for y in range(place["y"], place["y"] + place["h"])):
            problems += [f"{panel['title']} lies over {taken[spot]}"] if spot in taken else []
            taken[spot] = panel["title"]
    problems += [f"{it} lies beside the grid" for (x, _), it in taken.items() if x > 23]
    report(f"the panels of the dashboard ({len(dashboard['panels'])})", problems)


# ---------------------------------------------------------------- names

# what has to be found, so that the look for it isn't blind: an expression, the labels that are shown of it, and what is lacking
PLANTED = (
    ("vadungsil_node_up == 0", ("node",), []), ("vadungsil_nod_up == 0", (), ["no metric vadungsil_nod_up"]), ("1 == 1", (), ["no metric at all"]),
    ('rate(vadungsil_node_up{nod="a"}[5m])', (), ["vadungsil_node_up has no label nod"]), ("vadungsil_node_up", ("stream",), ["no metric there has the label stream"]),
    ('vadungsil_stream_lag{node=~"a=b", stream!="2"} and on (node) vadungsil_node_up', ("node", "stream"), []),
    ("sum by (kind) (vadungsil_node_up)", (), ["no metric there has the label kind"]), ("increase(node_up[1h] offset 5m) > 16", (), ["no metric node_up"]),
)


def named(samples):
    """Rules, panels, variables and the tables of docs/LOOKING.md name what there is, and the page names each rule with its cause."""
    known, problems = labels_by_name(samples), []
    rules, dashboard = rules_of((PROMETHEUS / "alerts.yml").read_text()), json.loads(DASHBOARD.read_text())
    for name, expression, shown in [*((it.name, it.expression, re.findall(r"\$labels\.(\w+)", it.summary)) for it in rules), *panels_of(dashboard)]:
        problems += [f"{name}: {it}" for it in lacking(expression, known, shown)]
        # a total only grows: what is looked at is how it grew
        problems += [f"{name}: the total itself" for it in re.findall(r"(?<!increase\()(?<!rate\()\b\w+_total", expression) if name.startswith("Vadungsil")]
    for query in [it["query"] for it in dashboard["templating"]["list"] if it["type"] == "query"]:
        name, label = re.fullmatch(r"label_values\((\w+), (\w+)\)", query).groups()
        problems += [f"{query}: {it}" for it in lacking(name, known, (label,))]
    looking = (ROOT / "docs" / "LOOKING.md").read_text()
    problems += [f"docs/LOOKING.md: no metric {it}" for it in sorted(set(re.findall(r"`((?:vadungsil|process)_[a-z_]+)`", looking)) - set(known))
                 if f"{it}_bucket" not in known]
    problems += differ([("the alerts of docs/LOOKING.md", re.findall(r"^\| `(Vadungsil\w+)` \|", looking, re.M), [it.name for it in rules])])
    for expression, shown, wanted in PLANTED:
        problems += differ([(expression, lacking(expression, known, shown), wanted)])
    report(f"rules and panels name metrics and labels that a page has ({len(known)} names)", problems)


def main():
    if not is_built(pathlib.Path(PROGRAM)):
        return ended()
    samples = {}
    guarded(lambda: samples.update(exposed()))
    checks = (named, laid_out, fires_and_not, shows) if shutil.which("promtool") else (named, laid_out)
    if len(checks) < 4:
        skip("promtool on alerts and dashboard: prometheus not installed")
    for check in checks:
        guarded(check, samples)
    return ended()


if __name__ == "__main__":
    sys.exit(main())
