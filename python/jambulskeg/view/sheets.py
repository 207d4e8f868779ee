"""A sheet for each driver: the stops in their order, when to be where, and what is known of each place."""

from __future__ import annotations

from typing import Any, List, Sequence, Tuple

from ..solution import Route
from .day import Day, Piece
from .stops import Stop, stops_of
from .style import page_style
from .svg import escaped
from .tables import badge, row, table, visits_text

__all__ = ["sheet", "sheet_page", "sheets"]

POLICY = "default-src 'none'; style-src 'unsafe-inline'; script-src 'unsafe-inline'"
MANY = 8
"""With more vehicles than this the sheets of a page are closed at first; print opens them."""


def sheets(day: Day) -> str:
    """The sheets of all vehicles that leave, as a part of a page."""
    is_many = len(day.routes()) > MANY
    state = "" if is_many else " open"
    parts = [
        f'<details class="sheet" data-vehicle="{route.vehicle}"{state}><summary>{badge(day, route.vehicle)} '
        f"{escaped(day.names.vehicle(route.vehicle))}<span>{escaped(in_short(day, route))}</span></summary>"
        f"{sheet(day, route)}</details>"
        for route in day.routes()
    ]
    shape = "sheets many" if is_many else "sheets roomy" if day.cells(0) else "sheets"
    return f'<div class="{shape}">{"".join(parts)}</div>' if parts else "<p>No vehicle leaves.</p>"


def in_short(day: Day, route: Route) -> str:
    """A route in a line: how many visits, from when to when, and the loads that it takes."""
    words = [visits_text(len(route.visits))]
    if day.is_timed:
        first, last = day.stops(route)[0], day.stops(route)[-1]
        words.append(f"{day.names.time(first)} to {day.names.time(last)}")
    for number in day.loads():
        dimension = day.model.dimensions[number]
        words.append(f"{dimension.name} {max(route.dimensions[number].cumuls)}")
    return ", ".join(words)


def sheet(day: Day, route: Route) -> str:
    """The table of a driver, with breaks between the stops."""
    stops = stops_of(day, route)
    asked = day.rows(route)
    heads, columns = columns_of(day, route, stops)
    shown = [head for head in heads if head]
    width = len(shown)
    breaks = day.breaks(route)
    rows: List[str] = [break_row(day, piece, width) for piece in breaks if piece.stop < 0]
    for stop, entry in zip(stops, asked):
        window = day.names.range(entry.window) if entry is not None and entry.window else ""
        cells: List[Any] = [str(stop.number), day.names.node(stop.node), *times(day, stop), window]
        cells += [*stop.loads, *(day.cells(stop.node).get(heading, "") for heading in columns)]
        rows.append(row([cell for cell, head in zip(cells, heads) if head], heads=shown))
        rows += [break_row(day, piece, width) for piece in breaks if piece.stop == stop.number]
    title = f"{day.names.vehicle(route.vehicle)}: stops in their order"
    return who_drives(day, route.vehicle) + table(title, shown, ["<tbody>", *rows, "</tbody>"], shape="wide")


def who_drives(day: Day, vehicle: int) -> str:
    """The further cells of a vehicle in a line."""
    words = ", ".join(f"{heading}: {cell}" for heading, cell in day.van_cells(vehicle).items() if cell)
    return f"<p>{escaped(words)}</p>" if words else ""


def columns_of(day: Day, route: Route, stops: Sequence[Stop]) -> Tuple[List[str], List[str]]:
    """The heads of a sheet, empty if the column has nothing to say, and the further columns that some stop has."""
    waits = any(stop.begins is not None and stop.arrival != stop.begins for stop in stops)
    has_window = any(entry is not None and entry.window for entry in day.rows(route))
    heads = ["stop", "place", *(["arrive", "begin" if waits else "", "leave"] if day.is_timed else ["", "", ""])]
    heads.append("begin within" if has_window else "")
    heads += [f"#{day.model.dimensions[number].name}" for number in day.loads()]
    used = {heading for stop in stops for heading, cell in day.cells(stop.node).items() if cell}
    further = [heading for heading in day.cells(0) if heading in used]
    return [*heads, *(f" {heading}" for heading in further)], further


def times(day: Day, stop: Stop) -> List[str]:
    """When the vehicle comes, when the visit begins, when it goes on, in words."""
    return ["" if at is None else day.names.time(at) for at in (stop.arrival, stop.begins, stop.departure)]


def break_row(day: Day, piece: Piece, width: int) -> str:
    """The row of a break."""
    words = f"break, {day.names.time(piece.low)} to {day.names.time(piece.high)}"
    return f'<tr class="pause"><td colspan="{width}">{escaped(words)}</td></tr>'


def sheet_page(day: Day, vehicle: int, title: str) -> str:
    """The sheet of one driver as a page of its own, to be printed; of a vehicle that stays, a page that says so."""
    route = day.solution.routes[vehicle]
    name = day.names.vehicle(vehicle)
    body = f"<p>{escaped(in_short(day, route))}</p>{sheet(day, route)}" if route.nodes else (
        "<p>This vehicle is not used.</p>"
    )
    return (
        '<!DOCTYPE html>\n<html lang="en"><head><meta charset="utf-8">'
        f'<meta http-equiv="Content-Security-Policy" content="{POLICY}">'
        '<meta name="viewport" content="width=device-width, initial-scale=1">'
        f"<title>{escaped(f'{name}, {title}')}</title><style>{page_style()}</style></head><body class=single><main>"
        f"<h1>{badge(day, vehicle)} {escaped(name)}</h1><p>{escaped(title)}</p>{body}</main></body></html>\n"
    )
