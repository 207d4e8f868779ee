"""Marks of a drawing as SVG text. Whatever comes from a model or a file goes through `escaped` before it is written."""

from __future__ import annotations

import html
import json
import re
from dataclasses import dataclass
from typing import Any, Iterable, Sequence, Tuple

Point = Tuple[float, float]
NO_CHARACTER = re.compile("[^\t\n\r\u0020-\ud7ff\ue000-\ufffd\U00010000-\U0010ffff]")


def escaped(value: object) -> str:
    """A value as text of HTML and XML, also within quotes; what neither of them can hold becomes U+FFFD."""
    return html.escape(NO_CHARACTER.sub("\ufffd", str(value)))


def script_json(tree: Any) -> str:
    """A value as JSON that may stand within a script element."""
    text = json.dumps(tree, separators=(",", ":"), sort_keys=True)
    return text.replace("<", "\\u003c").replace(">", "\\u003e").replace("&", "\\u0026")


def shortened(text: str, most: int) -> str:
    """A text of at most this many characters."""
    return text if len(text) <= most else text[:most - 1] + "…"


def number(value: float) -> str:
    """A coordinate, to a tenth."""
    return f"{value:.1f}".rstrip("0").rstrip(".")


def titled(name: str, marks: str, title: str) -> str:
    """An element, with the title that a pointer shows over it."""
    return f"<{name} {marks}><title>{escaped(title)}</title></{name}>" if title else f"<{name} {marks}/>"


def rect(kind: str, corner: Point, size: Point, title: str = "") -> str:
    """A rectangle of a class; `corner` is its upper left one."""
    (x, y), (width, height) = corner, size
    marks = f'class="{kind}" x="{number(x)}" y="{number(y)}" width="{number(width)}" height="{number(height)}"'
    return titled("rect", marks, title)


def line(kind: str, tail: Point, head: Point, title: str = "") -> str:
    """A line of a class."""
    (x1, y1), (x2, y2) = tail, head
    marks = f'class="{kind}" x1="{number(x1)}" y1="{number(y1)}" x2="{number(x2)}" y2="{number(y2)}"'
    return titled("line", marks, title)


def path(kind: str, points: Sequence[Point], title: str = "") -> str:
    """An open line through some points."""
    way = "L".join(f"{number(x)} {number(y)}" for x, y in points)
    return titled("path", f'class="{kind}" d="M{way}"', title)


def segments(kind: str, ends: Iterable[Tuple[Point, Point]]) -> str:
    """Some lines of a class as one element; a line of no length is a dot if its ends are round."""
    way = "".join(f"M{number(x1)} {number(y1)}L{number(x2)} {number(y2)}" for (x1, y1), (x2, y2) in ends)
    return f'<path class="{kind}" d="{way}"/>' if way else ""


def boxes(kind: str, parts: Iterable[Tuple[Point, Point]]) -> str:
    """Some rectangles of a class as one element: the upper left corner of each, and its size."""
    way = "".join(
        f"M{number(x)} {number(y)}h{number(width)}v{number(height)}h{number(-width)}z"
        for (x, y), (width, height) in parts
    )
    return f'<path class="{kind}" d="{way}"/>' if way else ""


def circle(kind: str, centre: Point, radius: float, title: str = "") -> str:
    """A disc of a class."""
    return titled("circle", f'class="{kind}" cx="{number(centre[0])}" cy="{number(centre[1])}" r="{radius:g}"', title)


def stretched(size: Point, marks: Iterable[str]) -> str:
    """Marks in a box of this size that is as wide as there is room, and as high as it says."""
    width, height = size
    return (
        f'<svg viewBox="0 0 {width:g} {height:g}" preserveAspectRatio="none" width="100%" height="{height:g}">'
        f'{"".join(marks)}</svg>'
    )


def along(kind: str, share: float, y: float, words: object, anchor: str = "start") -> str:
    """Words at a share of the width from 0 to 1, whose letters do not grow with it."""
    place = f'x="{100 * share:.2f}%" y="{number(y)}"'
    return f'<text class="{kind}" {place} text-anchor="{anchor}">{escaped(words)}</text>'


def text(kind: str, at: Point, words: object, anchor: str = "start") -> str:
    """Words at a point: `anchor` says whether they start there, end there, or have their middle there."""
    place = f'x="{number(at[0])}" y="{number(at[1])}"'
    return f'<text class="{kind}" {place} text-anchor="{anchor}">{escaped(words)}</text>'


def group(kind: str, marks: Iterable[str], vehicle: int = -1) -> str:
    """Marks that belong together, and to a vehicle."""
    whose = f' data-vehicle="{vehicle}"' if vehicle >= 0 else ""
    return f'<g class="{kind}"{whose}>{"".join(marks)}</g>'


@dataclass(frozen=True)
class Picture:
    """A drawing: what it shows in words, its height, its labels and, beside them, its body, as wide as these say.

    A body that `stretches` is drawn as wide as there is room; then `width` is what it is drawn for at first.
    """

    title: str
    description: str
    height: float
    body: str
    width: float
    labels: str = ""
    label_width: float = 0
    stretches: bool = False
