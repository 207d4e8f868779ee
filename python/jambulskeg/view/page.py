"""A page of one file, without a network: charts, a map, and the tables that say the same."""

from __future__ import annotations

from typing import Iterator, List, Sequence, Tuple

from .axis import Axis
from .compare import changes_table, costs_beside
from .day import Day
from .downloads import Download, download_links
from .legend import marks_of
from .loads import loads
from .route_map import route_map
from .sheets import POLICY, sheets
from .style import PATTERNS, page_script, page_style
from .svg import Picture, escaped, script_json
from .tables import PARTS, cost_table, left_table, parts_table, stops_table, visits_table
from .timeline import axis_of, timeline

__all__ = ["compare_page", "page"]


def page(
    day: Day, title: str, found: str, in_degrees: bool = False, files: Sequence[Download] = ()
) -> str:
    """The page of a day. `found` says what was checked; `files` are carried along, to be saved from the page."""
    axis = axis_of([day])
    parts = [
        f"<h1>{escaped(title)}</h1><p>{escaped(found)}</p>",
        facts(day),
        download_links(files),
        choice(day),
        "<h2>A sheet for each driver</h2>" + sheets(day),
        "<h2>What was left out</h2>" + left_table(day),
        "<h2>The day</h2>" + charts(day, axis, in_degrees),
        '<div class="beside"><section><h2>What it costs</h2>' + bar(day) + parts_table(day.solution.parts),
        "</section><section><h2>What each vehicle costs</h2>" + cost_table(day) + "</section></div>",
        '<h2 id="tables">Visits</h2>' + search() + visits_table(day),
        "<h2>Stops</h2>" + details("Stops of each vehicle", stops_table(day)),
    ]
    return whole(title, "".join(parts), [day])


def compare_page(days: Tuple[Day, Day], titles: Tuple[str, str], found: str, in_degrees: bool = False) -> str:
    """The page of two days of one model, side by side."""
    axis = axis_of(days)
    title = f"{titles[0]} beside {titles[1]}"
    columns = "".join(
        f"<section><h3>{escaped(name)}: cost {day.solution.cost}</h3>{facts(day)}{charts(day, axis, in_degrees)}"
        f"{details(f'What was left out, {name}', left_table(day))}"
        f"{details(f'Stops of each vehicle, {name}', stops_table(day))}</section>"
        for day, name in zip(days, titles)
    )
    parts = [
        f"<h1>{escaped(title)}</h1><p>{escaped(found)}</p>",
        "<h2>What they cost</h2>" + costs_beside(days, titles),
        choice(days[0]),
        "<h2>Both days</h2>" + f'<div class="beside">{columns}</div>',
        '<h2 id="tables">Visits</h2>' + search() + changes_table(days, titles),
    ]
    return whole(title, "".join(parts), days)


def whole(title: str, body: str, days: Sequence[Day]) -> str:
    """The page around its parts; it holds the solutions as JSON too."""
    trees = "".join(
        f'<script type="application/json" class="solution">{script_json(day.solution.tree())}</script>' for day in days
    )
    return (
        '<!DOCTYPE html>\n<html lang="en"><head><meta charset="utf-8">'
        f'<meta http-equiv="Content-Security-Policy" content="{POLICY}">'
        '<meta name="viewport" content="width=device-width, initial-scale=1">'
        f"<title>{escaped(title)}</title><style>{page_style()}</style></head>"
        f'<body{" class=two" if len(days) > 1 else ""}><a class="skip" href="#tables">To the table of visits</a>'
        f'<svg class="patterns" aria-hidden="true">{PATTERNS}</svg><main>{body}</main>'
        f"{trees}<script>{page_script()}</script></body></html>\n"
    )


def facts(day: Day) -> str:
    """The day in a few numbers."""
    made, left = len(day.made_by()), len(day.solution.dropped)
    rows = [
        (day.solution.cost, "cost"), (f"{len(day.routes())} of {len(day.model.vehicles)}", "vehicles leave"),
        (f"{made} of {made + left}", "visits are made"), (left, "left out"),
    ]
    return '<ul class="facts">' + "".join(f"<li><b>{value}</b> {words}</li>" for value, words in rows) + "</ul>"


def choice(day: Day) -> str:
    """The choice of a vehicle to bring out."""
    options = "".join(
        f'<option value="{route.vehicle}">{day.letters(route.vehicle)}: '
        f"{escaped(day.names.vehicle(route.vehicle))}</option>"
        for route in day.routes()
    )
    return (
        '<div class="tools"><label for="vehicle">Bring out</label>'
        f'<select id="vehicle"><option value="">all vehicles</option>{options}</select></div>'
    )


def search() -> str:
    """The search in the table of visits."""
    return (
        '<div class="tools" role="search"><label for="search">Search visits</label>'
        '<input type="search" id="search" autocomplete="off"><output id="count" aria-live="polite"></output></div>'
    )


def legend(picture: Picture) -> str:
    """What the marks of a chart mean, as far as it has them."""
    rows = [
        f'<li><svg viewBox="0 0 34 16" aria-hidden="true">{mark}</svg>{escaped(words)}</li>'
        for mark, words in marks_of(picture)
    ]
    return '<ul class="legend">' + "".join(rows) + "</ul>"


def charts(day: Day, axis: Axis, in_degrees: bool) -> str:
    """The charts of a day, and its map if its places are known."""
    picture = timeline(day, axis)
    parts: List[str] = [f"<p>Along the rows: {escaped(day.unit)}.</p>{legend(picture)}{chart(picture)}"]
    for number in day.loads():
        picture = loads(day, number, axis)
        name = escaped(day.model.dimensions[number].name)
        parts.append(f"<h3>{name}, beside the capacity</h3>{legend(picture)}{chart(picture)}")
    if day.places:
        picture = route_map(day, in_degrees)
        parts.append(f'<h3>Map</h3><figure class="map far">{svg(picture, picture.body)}</figure>')
    return "".join(parts)


def chart(picture: Picture) -> str:
    """A drawing beside its labels, as wide as the screen lets it be."""
    size = f'width="{picture.label_width:g}" height="{picture.height:g}"'
    return (
        f'<figure class="chart"><svg class="labels" {size} aria-hidden="true">{picture.labels}</svg>'
        f'<div class="body">{svg(picture, picture.body)}</div></figure>'
    )


def svg(picture: Picture, marks: str) -> str:
    """A drawing as an image with a name and a description."""
    words = escaped(f"{picture.title}. {picture.description}")
    size = f'width="100%" height="{picture.height:g}"' if picture.stretches else (
        f'viewBox="0 0 {picture.width:g} {picture.height:g}"'
    )
    return f'<svg {size} role="img" aria-label="{words}">{marks}</svg>'


def details(summary: str, content: str) -> str:
    """Something that is shown when it is asked for."""
    return f"<details><summary>{escaped(summary)}</summary>{content}</details>"


def bar(day: Day) -> str:
    """The parts of the cost as a bar; the table beside it says the same."""
    return f'<div class="bar" aria-hidden="true">{"".join(shares(day))}</div>'


def shares(day: Day) -> Iterator[str]:
    """The shares of the parts."""
    for field, name, _ in PARTS:
        value = getattr(day.solution.parts, field)
        if value > 0:
            yield f'<span class="part-{field}" style="flex:{value} 1 0" title="{escaped(name)}: {value}"></span>'
