"""A picture of a log or of a node as SVG: python3 -m vadungsil.picture. Streams with their entries and marks, the
versions of some keys as bars on the axis of time, and what a question at each time is answered."""
from __future__ import annotations

import argparse
import pathlib
import sys
from typing import Iterator, List, Optional, Sequence, Tuple
from xml.sax.saxutils import escape

from .address import FORMS
from .bodies import is_plain
from .errors import LinkBroken, Refused, VadungsilError
from .items import Feeder
from .node import Node
from .scene import MANY_TIMES, MOST_KEYS, Bar, Line, Place, Scene, scene_of_items, scene_of_whole
from .values import LAST_TIME, Item, Row, key_of, table_of

MANY_MARKS = 4
WIDTH, LEFT, RIGHT, TOP, HIGH, LOW = 720, 120, 24, 16, 78, 34
INK, SOFT, HERE, LATE, GOOD, OLD, EARLY, SURE, UNSURE = (
    "#222",
    "#888",
    "#2b6cb0",
    "#c05621",
    "#c6f6d5",
    "#e2e8f0",
    "#fed7d7",
    "#bee3f8",
    "#edf2f7",
)


# ---------------------------------------------------------------- drawing


class Drawing:
    """The parts of a scene as SVG."""

    def __init__(self, scene: Scene) -> None:
        self.scene, self.count = scene, scene.last - scene.first + 1
        self.step = (WIDTH - LEFT - RIGHT) / self.count
        self.is_few = self.count <= MANY_TIMES

    def x(self, time: int) -> float:
        """The middle of a time on the axis."""
        inside = min(max(time, self.scene.first), self.scene.last)
        return round(LEFT + self.step * (inside - self.scene.first) + self.step / 2, 1)

    @staticmethod
    def text(
        at: float,
        y: float,
        words: object,
        size: int = 14,
        color: str = INK,
        anchor: str = "middle",
        weight: str = "normal",
    ) -> str:
        return (
            f'<text x="{at:g}" y="{y:g}" font-size="{size}" fill="{color}" text-anchor="{anchor}"'
            f' font-weight="{weight}">{escape(str(words))}</text>'
        )

    @staticmethod
    def line(x1: float, y1: float, x2: float, y2: float, color: str = INK, width: float = 1, dash: str = "") -> str:
        dashed = f' stroke-dasharray="{dash}"' if dash else ""
        return (
            f'<line x1="{x1:g}" y1="{y1:g}" x2="{x2:g}" y2="{y2:g}" stroke="{color}" stroke-width="{width:g}"{dashed}/>'
        )

    @staticmethod
    def box(at: float, y: float, width: float, height: float, color: str, stroke: str = "none") -> str:
        return f'<rect x="{at:g}" y="{y:g}" width="{width:g}" height="{height:g}" fill="{color}" stroke="{stroke}"/>'

    # ------------------------------------------------------------ streams

    def stream(self, number: int, line: Line, y: float) -> Iterator[str]:
        until = self.x(line.closed)
        yield self.text(12, y + 5, f"stream {number}", anchor="start", weight="bold")
        if line.lacks:
            named = ", ".join(map(str, line.lacks[:3])) + (" .." if len(line.lacks) > 3 else "")
            yield self.text(12, y + 22, f"lacks {named}", 12, LATE, "start")
        yield self.line(self.x(self.scene.first), y, until, y, HERE, 5)
        yield self.line(until, y, self.x(self.scene.last), y, SOFT, 2, "3 5")
        yield from self.entries(line, y)
        yield from self.marks(line, y)
        closed = "retired" if line.closed == LAST_TIME else f"closed {line.closed}"
        yield self.text(
            until,
            y + 28,
            closed if line.entries else f"prefix {line.prefix}, {closed}",
            12,
            HERE,
            "middle" if until < WIDTH - 120 else "end",
        )

    def entries(self, line: Line, y: float) -> Iterator[str]:
        """A circle for each entry, with its number where there is room; of those that would stand at one place, one."""
        radius, seen = min(11.0, max(self.step * 0.45, 2.0)), set()
        for number, time, here in line.entries:
            place = (self.x(time), here)
            if time < self.scene.first or place in seen:
                continue
            seen.add(place)
            color = HERE if here else LATE
            yield (
                f'<circle cx="{self.x(time):g}" cy="{y:g}" r="{radius:g}" fill="{HERE if here else "#fff"}"'
                f' stroke="{color}" stroke-width="2"/>'
            )
            if radius >= 9:
                yield self.text(self.x(time), y + 5, number, 13, "#fff" if here else LATE)

    def marks(self, line: Line, y: float) -> Iterator[str]:
        told = [it for it in line.marks if self.scene.first <= it[1] < LAST_TIME]
        for n, m, holds in told:
            color = HERE if holds else LATE
            if len(told) <= MANY_MARKS and line.entries:
                yield self.text(
                    self.x(m), y - 18, f"mark: {n} up to {m}" if holds else f"mark waits: {n} up to {m}", 12, color
                )
            else:
                yield self.line(self.x(m), y - 12, self.x(m), y + 12, color, 2)

    # ------------------------------------------------------------ versions

    def key(self, place: Place, bars: List[Bar], y: float) -> Iterator[str]:
        """A bar for each version; what is above the resolved time may still change, and is drawn pale."""
        yield self.text(12, y + 17, f"{place[0]}:{place[1]}", 13, anchor="start")
        edge = self.x(self.scene.readable) + self.step / 2
        follows = [self.x(bar.born) - self.step / 2 for bar in bars[1:]] + [float(WIDTH)]
        for bar, following in zip(bars, follows):
            left = self.x(bar.born) - self.step / 2
            right = WIDTH - RIGHT if bar.died is None else self.x(bar.died) - self.step / 2
            sure = min(max(edge, left), right)
            yield self.box(left, y, sure - left, 24, SURE)
            yield self.box(sure, y, right - sure, 24, UNSURE)
            yield self.line(left, y, left, y + 24, HERE, 2)
            if bar.died is not None:
                yield self.line(right, y, right, y + 24, HERE, 2)
            words = shown(bar.row)
            if 8 * len(words) + 6 <= min(right, following) - left:
                yield self.text(left + 8, y + 17, words, 13, anchor="start")

    # ------------------------------------------------------------ answers

    def answers(self, y: float) -> Iterator[str]:
        scene = self.scene
        yield self.text(12, y + 22, "a query at", anchor="start", weight="bold")
        spans = [
            (scene.first, scene.horizon - 1, OLD, "too old:", f"refused 25 horizon {scene.horizon}"),
            (scene.horizon, scene.readable, GOOD, "exactly the", "primary's rows"),
            (scene.readable + 1, scene.last, EARLY, "not yet:", f"refused 26 readable {scene.readable}"),
        ]
        for low, high, color, above, below in spans:
            if low > high:
                continue
            for first, last in [(time, time) for time in range(low, high + 1)] if self.is_few else [(low, high)]:
                left, right = self.x(first) - self.step / 2, self.x(last) + self.step / 2
                gap = 2 if right - left > 8 else 0
                yield self.box(left + gap, y, right - left - 2 * gap, 34, color)
                words = f"time {first}" if self.step >= 50 else str(first)
                if self.is_few or 8 * len(f"{low} to {high}") <= right - left:
                    yield self.text((left + right) / 2, y + 22, words if self.is_few else f"{low} to {high}", 13)
            if self.x(high) - self.x(low) + self.step >= 90:
                middle = (self.x(low) + self.x(high)) / 2
                yield from (self.text(middle, y + 54, above, 13), self.text(middle, y + 71, below, 13))

    def edges(self, y: float) -> Iterator[str]:
        both = [(self.scene.horizon, "oldest readable"), (self.scene.readable, "resolved time")]
        close = self.x(both[1][0]) - self.x(both[0][0]) < 150
        for place, (time, name) in enumerate(both):
            yield self.line(self.x(time), TOP + 30, self.x(time), y, INK, 1, "2 4")
            yield self.text(
                self.x(time) + (2 * place - 1) * 6 * close,
                TOP + 22,
                f"{name} {time}",
                13,
                INK,
                ("end", "start")[place] if close else "middle",
                "bold",
            )

    def parts(self, captions: Sequence[str]) -> Tuple[List[str], float]:
        """All parts, and the height."""
        found, y = [], float(TOP + HIGH)  # type: List[str], float
        for number, line in enumerate(self.scene.streams, 1):
            found += self.stream(number, line, y)
            y += HIGH
        y -= 26
        if self.scene.versions:
            found.append(self.text(12, y, "table:key", 12, SOFT, "start"))
            for place, bars in self.scene.versions.items():
                y += LOW
                found += self.key(place, bars, y - 24)
            y += 14
        found += [*self.answers(y), *self.edges(y)]
        for number, words in enumerate(captions):
            found.append(self.text(12, y + 104 + 20 * number, words, 13, INK, "start"))
        return found, y + 84 + (20 * len(captions) + 8 if captions else 0)


def shown(row: Optional[Row]) -> str:
    """A body in a few letters: as text where it is that, else in hexadecimal."""
    if row is None:
        return "?"
    text = row.body.decode("utf-8", "replace")
    words = text if is_plain(text) and text.strip() and text.encode() == row.body else row.body.hex() or "-"
    return words if len(words) <= 24 else f"{words[:22]}.."


def svg_of(scene: Scene, captions: Sequence[str] = ()) -> str:
    """The picture, with lines of words below it."""
    parts, height = Drawing(scene).parts(captions)
    head = (
        f'<svg xmlns="http://www.w3.org/2000/svg" width="{WIDTH}" height="{height:g}" viewBox="0 0 {WIDTH} {height:g}"'
        ' font-family="sans-serif">'
    )
    return "\n".join([head, Drawing.box(0, 0, WIDTH, height, "#fff"), *parts, "</svg>", ""])


# ---------------------------------------------------------------- the command


def parser() -> argparse.ArgumentParser:
    it = argparse.ArgumentParser(
        prog="python3 -m vadungsil.picture", description="Draws the item frames of standard input, or a node, as SVG."
    )
    it.add_argument(
        "--node", metavar="ADDRESS", help=f"a node in place of standard input, {FORMS}: it sends a full snapshot"
    )
    it.add_argument(
        "--keys", metavar="TABLE:KEY,..", help=f"the keys whose versions are drawn; without it the first {MOST_KEYS}"
    )
    it.add_argument(
        "--streams",
        type=int,
        metavar="N",
        help="the log's number of streams; without it the greatest that an item names",
    )
    it.add_argument("--horizon", type=int, default=0, metavar="T", help="as if the replica were pruned to this time")
    it.add_argument("--missing", metavar="FILE", help="item frames that are drawn as not there")
    it.add_argument(
        "--caption", action="append", default=[], metavar="WORDS", help="a line below the picture; may be given again"
    )
    it.add_argument("--out", metavar="FILE", help="where to; without it standard output")
    return it


def read_items(data: bytes) -> List[Item]:
    feeder = Feeder()
    found = feeder.feed(data)
    feeder.finish()
    return found


def places_of(words: Optional[str]) -> Optional[List[Place]]:
    if words is None:
        return None
    pairs = [word.split(":") for word in words.split(",")]
    if not all(len(pair) == 2 and all(part.isascii() and part.isdigit() for part in pair) for pair in pairs):
        raise ValueError(f"--keys takes TABLE:KEY,TABLE:KEY: {words}")
    return [(table_of(int(table)), key_of(int(key))) for table, key in pairs]


def drawn(words: argparse.Namespace) -> str:
    keys = places_of(words.keys)
    if words.node is not None:
        with Node(words.node) as node:
            return svg_of(scene_of_whole(node.whole(), keys), words.caption)
    missing = read_items(pathlib.Path(words.missing).read_bytes()) if words.missing else []
    return svg_of(
        scene_of_items(read_items(sys.stdin.buffer.read()), missing, words.streams, words.horizon, keys), words.caption
    )


def main(arguments: Optional[List[str]] = None) -> int:
    words_of = parser()
    words = words_of.parse_args(arguments)
    try:
        picture = drawn(words)
        if words.out:
            pathlib.Path(words.out).write_text(picture, encoding="utf-8")
        else:
            sys.stdout.write(picture)
    except Refused as refused:
        print(refused.line)
        print(refused, file=sys.stderr)
        return 1
    except LinkBroken as broken:
        print("refused 93")
        print(f"refused 93: {broken}", file=sys.stderr)
        return 1
    except (OSError, ValueError, VadungsilError) as error:
        words_of.error(str(error))
    return 0


if __name__ == "__main__":
    sys.exit(main())
