"""The chart of a load: for each vehicle a step line of how much is on board along the day, beside its capacity."""

from __future__ import annotations

from typing import List, Tuple

from ..records import HORIZON
from ..solution import Route
from .axis import Axis
from .day import Day
from .svg import Picture, group, line, path, stretched, text
from .timeline import EVERY, HEAD, LABELS, WIDTH, band, grid, heading, name_of

__all__ = ["levels_of", "loads"]

ROW = 44
ROOM = 4
FAR = 3
"""A capacity above this many times the greatest load is not drawn."""


def levels_of(day: Day, number: int, route: Route) -> List[Tuple[int, int]]:
    """The corners of the line of a route: where it is along the day, and the cumul of the dimension there.

    The value of a node is added where its visit ends; what the matrix adds comes along the drive.
    """
    cumuls, stops = route.dimensions[number].cumuls, day.stops(route)
    values = day.model.dimensions[number].evaluator_of(route.vehicle).values
    out = [(stops[0], cumuls[0])]
    for stop, node in enumerate(route.nodes[:-1]):
        left = stops[stop] + day.service(route, stop)
        level = cumuls[stop] + (values[node] if values else 0)
        out += [(left, cumuls[stop]), (left, level), (stops[stop + 1], cumuls[stop + 1])]
    return out


def loads(day: Day, number: int, axis: Axis) -> Picture:
    """The chart of a dimension, for all vehicles that leave."""
    dimension = day.model.dimensions[number]
    most = most_of(day, number)
    y: float = 0
    labels: List[str] = []
    body: List[str] = []
    bands: List[str] = []
    words: List[str] = []
    for place, route in enumerate(day.routes()):
        if place % EVERY == 0:
            y += HEAD
            words.append(heading(day, axis, y))
        labels += [name_of(day, route, y + 18), text("note", (32, y + 34), most_text(day, number, route))]
        bands.append(band(place, y, ROW))
        body.append(row_of(day, number, axis, route, (y, most)))
        y += ROW
    title = f"{dimension.name} of each vehicle"
    description = (
        f"A line for each vehicle shows its {dimension.name} along the day, beside its capacity. "
        "The table 'Stops of each vehicle' says the same."
    )
    marks = stretched((WIDTH, y), [*bands, *grid(day, axis, y), *body])
    return Picture(title, description, y, marks + "".join(words), WIDTH, "".join(labels), LABELS, True)


def greatest(day: Day, number: int, route: Route) -> int:
    """The greatest level of a route."""
    return max(level for _, level in levels_of(day, number, route))


def most_of(day: Day, number: int) -> int:
    """The greatest number that the rows of a dimension show."""
    levels = [greatest(day, number, route) for route in day.routes()]
    top = max([1, *levels])
    capacities = [day.model.dimensions[number].capacity_of(route.vehicle) for route in day.routes()]
    return max([top, *(capacity for capacity in capacities if capacity <= FAR * top)])


def most_text(day: Day, number: int, route: Route) -> str:
    """The greatest level of a route beside its capacity, in words."""
    capacity = day.model.dimensions[number].capacity_of(route.vehicle)
    return f"{greatest(day, number, route)}" + (f" of {capacity}" if capacity < HORIZON else "")


def row_of(day: Day, number: int, axis: Axis, route: Route, where: Tuple[float, int]) -> str:
    """The row of a vehicle: the line of its levels, and its capacity."""
    top, most = where
    base, high = top + ROW - ROOM, ROW - 2 * ROOM
    points = [(axis.at(at), base - high * max(0, level) / most) for at, level in levels_of(day, number, route)]
    capacity = day.model.dimensions[number].capacity_of(route.vehicle)
    dimension = day.model.dimensions[number].name
    colour = f"c{day.colour(route.vehicle)}"
    title = f"{day.names.vehicle(route.vehicle)}: {dimension} at most {most_text(day, number, route)}"
    marks = [
        line("base", (axis.left, base), (axis.left + axis.width, base)),
        path(f"area {colour}", [(points[0][0], base), *points, (points[-1][0], base)], title),
        path(f"level {colour}", points, title),
    ]
    if capacity <= most:
        y = base - high * capacity / most
        marks.append(line("capacity", (axis.left, y), (axis.left + axis.width, y), f"capacity {capacity}"))
    return group("row", marks, route.vehicle)
