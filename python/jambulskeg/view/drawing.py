"""A day, or two side by side, as one SVG file: the charts, the map if places are known, and the cost in a line."""

from __future__ import annotations

from typing import List, Sequence, Tuple

from .axis import Axis
from .day import Day
from .legend import marks_of
from .loads import loads
from .route_map import route_map
from .style import PATTERNS, picture_style
from .svg import Picture, escaped, number, text
from .tables import PARTS
from .timeline import LETTER, axis_of, timeline

__all__ = ["drawing"]

MARGIN = 20
HEADING = 34
FEW = 20
"""How many of the visits that are left out are named."""


def drawing(days: Sequence[Day], titles: Sequence[str], in_degrees: bool = False, note: str = "") -> str:
    """The SVG of days beside each other, along one axis, with a note below the titles."""
    axis = axis_of(days)
    x: float = MARGIN
    height: float = 0
    columns: List[str] = []
    for day, title in zip(days, titles):
        lines = [title, cost_of(day), left_of(day), *whys_of(day), *([note] if note else [])]
        marks, width, below = column(pictures_of(day, axis, in_degrees), lines)
        columns.append(f'<g transform="translate({x:g} {MARGIN})">{marks}</g>')
        x, height = x + width + MARGIN, max(height, below)
    words = "; ".join(f"{title}: {cost_of(day)}; {left_of(day)}" for day, title in zip(days, titles))
    size = f"{x:g} {height + 2 * MARGIN:g}"
    return (
        f'<svg xmlns="http://www.w3.org/2000/svg" viewBox="0 0 {size}" width="{x:g}" height="{height + 2 * MARGIN:g}" '
        f'role="img" aria-labelledby="title words"><title id="title">{escaped(words)}</title>'
        f'<desc id="words">{escaped(timeline(days[0], axis).description)}</desc><style>{xml_style()}</style>{PATTERNS}'
        f'<rect class="even" width="100%" height="100%"/>{"".join(columns)}</svg>\n'
    )


def xml_style() -> str:
    """The style as XML holds it."""
    return picture_style().replace("&", "&amp;").replace("<", "&lt;")


def pictures_of(day: Day, axis: Axis, in_degrees: bool) -> List[Picture]:
    """The drawings of a day, from above."""
    found = [timeline(day, axis), *(loads(day, number, axis) for number in day.loads())]
    return [*found, route_map(day, in_degrees)] if day.places else found


def cost_of(day: Day) -> str:
    """The cost and its parts in a line."""
    parts = [(name, getattr(day.solution.parts, field)) for field, name, _ in PARTS]
    return f"cost {day.solution.cost}: " + (", ".join(f"{name} {value}" for name, value in parts if value) or "nothing")


def left_of(day: Day) -> str:
    """What was left out, in a line."""
    names = [day.names.node(node) for node in day.solution.dropped]
    more = f" and {len(names) - FEW} more" if len(names) > FEW else ""
    return f"left out: {', '.join(names[:FEW])}{more}" if names else "every visit is made"


def whys_of(day: Day) -> List[str]:
    """Why the first visits that were left out are, a line each."""
    left = day.solution.dropped[:FEW] if day.reasons else ()
    return [f"{day.names.node(node)}: {day.why_left(node)}" for node in left]


def column(pictures: Sequence[Picture], lines: Sequence[str]) -> Tuple[str, float, float]:
    """Drawings below each other under some lines: the marks, how wide, and how high."""
    width = max(picture.width + picture.label_width for picture in pictures)
    marks = [text("name" if place else "title", (0, 18 * (place + 1)), line) for place, line in enumerate(lines)]
    y: float = 18 * len(lines) + HEADING / 2
    for picture in pictures:
        marks += [text("name", (0, y + 14), picture.title), legend(picture, y + 22)]
        y += HEADING + (12 if marks_of(picture) else -8)
        marks.append(inner(0, y, (picture.label_width, picture.height), picture.labels))
        marks.append(inner(picture.label_width, y, (picture.width, picture.height), picture.body))
        y += picture.height + MARGIN
    return "".join(marks), width, y


def legend(picture: Picture, y: float) -> str:
    """What the marks of a picture mean, in a line."""
    x: float = 0
    out: List[str] = []
    for mark, words in marks_of(picture):
        out.append(f'<g transform="translate({number(x)} {number(y)})">{mark}{text("note", (40, 12), words)}</g>')
        x += 62 + LETTER * len(words)
    return "".join(out)


def inner(x: float, y: float, size: Tuple[float, float], marks: str) -> str:
    """A drawing within another."""
    if not marks:
        return ""
    width, height = size
    return f'<svg x="{x:g}" y="{y:g}" width="{width:g}" height="{height:g}">{marks}</svg>'
