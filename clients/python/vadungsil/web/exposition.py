"""The text forms of metrics: that of Prometheus (version 0.0.4), and OpenMetrics 1.0.0 for who asks for it."""
from __future__ import annotations

from typing import Dict, Iterable, List, NamedTuple, Optional, Tuple, Union

Value = Union[int, float, bool]
PLAIN = "text/plain; version=0.0.4; charset=utf-8"
OPEN = "application/openmetrics-text; version=1.0.0; charset=utf-8"

# What the samples of a kind have behind the name that OpenMetrics gives their family.
ENDS = {"counter": "_total", "info": "_info"}


class Family(NamedTuple):
    """A metric: its name as its samples have it, its kind as OpenMetrics calls it, what it is (without quotes)."""

    name: str
    kind: str
    told: str


class Sample(NamedTuple):
    """A number with its labels; `part` is what a histogram's has behind the name."""

    labels: Dict[str, str]
    value: Value
    part: str = ""


Families = Iterable[Tuple[Family, Iterable[Sample]]]


def _escaped(text: str) -> str:
    return text.replace("\\", "\\\\").replace("\n", "\\n").replace('"', '\\"')


def _line(family: Family, sample: Sample) -> str:
    listed = ",".join(f'{label}="{_escaped(text)}"' for label, text in sample.labels.items())
    number = repr(sample.value) if isinstance(sample.value, float) else str(int(sample.value))
    return f"{family.name}{sample.part}{{{listed}}} {number}" if listed else f"{family.name}{sample.part} {number}"


def _lines(family: Family, samples: Iterable[Sample], form: str) -> List[str]:
    """A family's lines; none where it has no samples."""
    lines = [_line(family, it) for it in samples]
    name, kind = family.name, family.kind
    if form == OPEN:
        name = name.removesuffix(ENDS.get(kind, ""))
    elif kind == "info":
        kind = "gauge"
    return [f"# HELP {name} {family.told}", f"# TYPE {name} {kind}", *lines] if lines else []


def text_of(families: Families, form: str = PLAIN) -> str:
    """All families in one of the two forms."""
    lines = [line for family, samples in families for line in _lines(family, samples, form)]
    return "\n".join([*lines, *(["# EOF"] if form == OPEN else []), ""])


# ---------------------------------------------------------------- which form


def _range_of(word: str) -> Tuple[str, float]:
    """One range of an Accept, and its weight: 0 where that can't be read, or for a version of OpenMetrics that isn't
    this one."""
    media, *rest = (it.strip().lower() for it in word.split(";"))
    parameters = {name.strip(): value.strip().strip('"') for name, _, value in (it.partition("=") for it in rest)}
    if media == OPEN.split(";", 1)[0] and parameters.get("version", "1.0.0") != "1.0.0":
        return media, 0.0
    try:
        return media, min(float(parameters.get("q", "1")), 1.0)
    except ValueError:
        return media, 0.0


def form_for(accept: Optional[str]) -> str:
    """The form that an Accept asks for: OpenMetrics where it is named, and weighs no less than plain text."""
    weights: Dict[str, float] = {}
    for media, weight in map(_range_of, (accept or "").split(",")):
        weights[media] = max(weight, weights.get(media, 0.0))
    plain = next((weights[it] for it in ("text/plain", "text/*", "*/*") if it in weights), 0.0)
    named = weights.get(OPEN.split(";", 1)[0], 0.0)
    return OPEN if named > 0 and named >= plain else PLAIN
