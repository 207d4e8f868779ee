"""The page of a region: a map of all routes with the parts and the seams, a table of vans, and the journal.

A route is one element of the drawing and all visits are one more, so that tens of thousands are drawn at once.
"""

from __future__ import annotations

import os
from dataclasses import dataclass
from typing import Iterator, List, Sequence

from ..view.colours import colours_of
from ..view.ground import WIDTH, Ground, ground_of
from ..view.route_map import scale_of
from ..view.style import page_style
from ..view.svg import Point, boxes, escaped, group, number, segments
from .checking import Checked, VanDay
from .day import Region
from .planning import Planned
from .reading import RegionTables

__all__ = ["region_page"]

POLICY = "default-src 'none'; style-src 'unsafe-inline'; script-src 'unsafe-inline'"
LAYERS = (
    ("showareas", "the parts that the region was cut into", False),
    ("showlegs", "ways from and to the depots", False),
    ("onlyseams", "bring out routes that a seam has changed", False),
)


@dataclass(frozen=True)
class Drawn:
    """What is drawn: the tables, the plan, how it was found, and where the places lie in the map."""

    tables: RegionTables
    checked: Checked
    planned: Planned
    ground: Ground

    @property
    def points(self) -> Sequence[Point]:
        """The point of each place in the map."""
        return self.ground.points

    def colour(self, van: int) -> int:
        """The number of a van's colour."""
        return colours_of(tuple(entry.name for entry in self.region.vans))[van]

    @property
    def region(self) -> Region:
        """The region."""
        return self.tables.region


def region_page(tables: RegionTables, checked: Checked, planned: Planned, title: str, found: str) -> str:
    """The page of a region, one file without a network. `found` says what was checked."""
    drawn = Drawn(tables, checked, planned, ground_of(tables.region.places, tables.tables.degrees))
    body = "".join((
        f"<h1>{escaped(title)}</h1><p>{escaped(found)}</p>", facts(drawn), tools(drawn), region_map(drawn),
        "<h2>Left out</h2>" + left_list(drawn), '<h2 id="tables">Vans</h2>' + search() + van_table(drawn),
        "<h2>How it was found</h2>" + journal(drawn),
    ))
    return (
        '<!DOCTYPE html>\n<html lang="en"><head><meta charset="utf-8">'
        f'<meta http-equiv="Content-Security-Policy" content="{POLICY}">'
        '<meta name="viewport" content="width=device-width, initial-scale=1">'
        f"<title>{escaped(title)}</title><style>{page_style()}{own('page.css')}</style></head>"
        f'<body><a class="skip" href="#tables">To the table of vans</a><main>{body}</main>'
        f"<script>{own('page.js')}</script></body></html>\n"
    )


def own(name: str) -> str:
    """A file beside this module."""
    with open(os.path.join(os.path.dirname(os.path.abspath(__file__)), name), encoding="utf-8") as file:
        return file.read()


def facts(drawn: Drawn) -> str:
    """The plan in a few numbers."""
    checked, visits, used = drawn.checked, len(drawn.region.visits), len(drawn.checked.days())
    left = len(checked.left) + len(checked.missing)
    rows = [
        (f"{checked.cost:,}", "cost"), (f"{visits - left:,} of {visits:,}", "visits are made"),
        (f"{used} of {len(drawn.region.vans)}", "vans leave"), (len(checked.parts), "parts were checked"),
        (len(drawn.planned.mended), "routes changed by seams"),
    ]
    return '<ul class="facts">' + "".join(f"<li><b>{value}</b> {words}</li>" for value, words in rows) + "</ul>"


def tools(drawn: Drawn) -> str:
    """What of the map is shown, and the choice of a van to bring out."""
    options = "".join(
        f'<option value="{day.van}">{escaped(drawn.region.vans[day.van].name)}</option>'
        for day in drawn.checked.days()
    )
    shown = "".join(
        f'<label><input type="checkbox" data-layer="{layer}"{" checked" if on else ""}> {words}</label>'
        for layer, words, on in LAYERS
    )
    return (
        f'<div class="tools">{shown}<label for="vehicle">Bring out</label>'
        f'<select id="vehicle"><option value="">all vans</option>{options}</select></div>'
    )


def region_map(drawn: Drawn) -> str:
    """The map: parts, routes, visits, depots, and what is left out."""
    days = drawn.checked.days()
    ends = sorted({place for day in days for place in (day.places[0], day.places[-1])})
    words = (
        f"The routes of {len(days)} vans between {len(drawn.region.visits)} visits as straight lines. Squares are "
        "starts and ends, crosses are visits that nobody makes. The table of vans says the same in numbers."
    )
    left = [drawn.points[visit] for visit in (*drawn.checked.left, *drawn.checked.missing)]
    marks = (
        areas(drawn), "".join(route(drawn, day) for day in days),
        segments("dots", ((drawn.points[visit],) * 2 for day in days for visit in day.visits)),
        segments("left", (line for x, y in left for line in (
            ((x - 4, y - 4), (x + 4, y + 4)), ((x - 4, y + 4), (x + 4, y - 4))
        ))),
        boxes("depot", (((x - 5, y - 5), (10, 10)) for x, y in (drawn.points[place] for place in ends))),
        group("scale", scale_of(drawn.ground)),
    )
    return (
        f'<figure class="map scroll" tabindex="0" role="region" aria-label="Map"><svg id="map" role="img" '
        f'viewBox="0 0 {WIDTH} {number(drawn.ground.height)}" aria-label="{escaped(words)}">{"".join(marks)}</svg>'
        "</figure>"
    )


def way(points: Sequence[Point]) -> str:
    """An open line through points."""
    return "M" + "L".join(f"{number(x)} {number(y)}" for x, y in points)


def route(drawn: Drawn, day: VanDay) -> str:
    """The route of a van: its way among the visits, and those from the start and to the end."""
    stops = [drawn.points[place] for place in day.places]
    kind = "van mended" if day.van in set(drawn.planned.mended) else "van"
    colour = f"route c{drawn.colour(day.van)}"
    return (
        f'<g id="van{day.van}" class="{kind}"><title>{escaped(drawn.region.vans[day.van].name)}: '
        f'{len(day.visits)} visits</title><path class="way {colour}" d="{way(stops[1:-1])}"/>'
        f'<path class="legs {colour}" d="{way(stops[:2])}{way(stops[-2:])}"/></g>'
    )


def areas(drawn: Drawn) -> str:
    """The parts that the region was cut into, as the hulls of their visits."""
    hulls = (hull([drawn.points[visit] for visit in part.visits]) for part in drawn.planned.parts)
    return f'<g class="areas">{"".join(area(points) for points in hulls)}</g>'


def area(points: Sequence[Point]) -> str:
    """An area within its corners."""
    return f'<path class="area" d="{way(points)}Z"/>'


def hull(points: Sequence[Point]) -> List[Point]:
    """The corners of the convex hull of points, in turn."""
    ordered = sorted(set(points))
    return [*half_hull(ordered), *half_hull(ordered[::-1])]


def half_hull(ordered: Sequence[Point]) -> Iterator[Point]:
    """The corners on one side, but for the last point."""
    corners: List[Point] = []
    for x, y in ordered:
        while len(corners) > 1 and turn(corners[-2], corners[-1], (x, y)) <= 0:
            corners.pop()
        corners.append((x, y))
    yield from corners[:-1] if len(corners) > 1 else corners


def turn(one: Point, two: Point, three: Point) -> float:
    """Above 0 if the way through three points turns to the left."""
    return (two[0] - one[0]) * (three[1] - one[1]) - (two[1] - one[1]) * (three[0] - one[0])


def left_list(drawn: Drawn) -> str:
    """The visits that nobody makes, in words."""
    out = []
    for visits, words in (
        (drawn.checked.missing, "must be made and have no van"), (drawn.checked.left, "may be left out and are")
    ):
        if visits:
            names = ", ".join(escaped(drawn.region.places[visit].name) for visit in visits)
            out.append(f"<details><summary>{len(visits)} {words}</summary><p>{names}</p></details>")
    return "".join(out) or "<p>Every visit is made.</p>"


def search() -> str:
    """The search in the table of vans."""
    return (
        '<div class="tools" role="search"><label for="search">Search vans</label>'
        '<input type="search" id="search" autocomplete="off"><output id="count" aria-live="polite"></output></div>'
    )


def van_table(drawn: Drawn) -> str:
    """The vans that leave: a row brings its route out."""
    heads = ("van", "start", "visits", "load", "capacity", "from", "to", "cost", "changed by a seam")
    head = "".join(f'<th scope="col">{words}</th>' for words in heads)
    rows = "".join(van_row(drawn, day) for day in drawn.checked.days())
    return (
        f'<div class="scroll"><table id="vans"><caption>Vans that leave; a row brings its route out</caption>'
        f"<thead><tr>{head}</tr></thead><tbody>{rows}</tbody></table></div>"
    )


def van_row(drawn: Drawn, day: VanDay) -> str:
    """The row of a van."""
    van = drawn.region.vans[day.van]
    numbers = (
        len(day.visits), day.load, "" if van.capacity is None else van.capacity, *day.hours, f"{day.cost:,}",
    )
    cells = "".join(f'<td class="number">{value}</td>' for value in numbers)
    changed = "yes" if day.van in drawn.planned.mended else "no"
    return (
        f'<tr data-van="{day.van}"><th scope="row">{escaped(van.name)}</th><td>{escaped(van.start)}</td>{cells}'
        f"<td>{changed}</td></tr>"
    )


def journal(drawn: Drawn) -> str:
    """What each round came to."""
    lines = [entry.line() for entry in drawn.planned.journal]
    return f"<pre>{escaped(chr(10).join([*lines, 'ended: ' + drawn.planned.ended]))}</pre>"
