"""The map of a day: each vehicle's route from place to place, as straight lines, its stops with letters and numbers."""

from __future__ import annotations

import math
from typing import Dict, Iterator, List, Sequence, Tuple

from ..solution import Route
from .day import Day
from .ground import WIDTH, Ground, ground_of, length_of_scale
from .svg import Picture, Point, circle, group, line, path, rect, shortened, text
from .tables import visits_text

__all__ = ["route_map"]

FEW = 150
"""Up to this many nodes have their names beside them, as far as there is room."""
LETTER = 6.3
"""The width of a letter of a name."""
Box = Tuple[float, float, float, float]
NUMBERED = 250
"""Up to this many stops have their letters and numbers on them."""
LINES = ("", " dashed", " dotted")


def route_map(day: Day, in_degrees: bool = False) -> Picture:
    """The map of a day whose places are known; in degrees, x is the longitude and y the latitude."""
    ground = ground_of(day.places, in_degrees)
    points = ground.points
    marks = [route_of(day, route, points) for route in day.routes()]
    marks += [group("places", [place_of(day, node, points) for node in range(len(points))])]
    marks += spots_of(day, points)
    if len(points) <= FEW:
        marks += [group("places names", names_of(day, ground))]
    marks += [group("scale", scale_of(ground))]
    far = f", {len(ground.far)} of them far out and brought to the edge" if ground.far else ""
    description = (
        f"The routes of {len(day.routes())} vehicles between {len(points)} places{far}, as straight lines; starts and "
        "ends are squares, visits have the letters of their vehicle and the number of the stop, visits that nobody "
        "makes are crosses. The sheets of the vehicles have the order of the stops."
    )
    return Picture("Map of the routes", description, ground.height, "".join(marks), WIDTH)


def route_of(day: Day, route: Route, points: Sequence[Point]) -> str:
    """The line of a route, with a head on each drive that is long enough."""
    stops = [points[node] for node in route.nodes]
    colour = f"c{day.colour(route.vehicle)}"
    title = f"{day.names.vehicle(route.vehicle)} ({day.letters(route.vehicle)}): {visits_text(len(route.visits))}"
    marks = [path(f"route {colour}{LINES[route.vehicle // 12 % 3]}", stops, title)]
    marks += [mark for tail, head in zip(stops, stops[1:]) for mark in head_of(colour, tail, head)]
    return group("way", marks, route.vehicle)


def head_of(colour: str, tail: Point, head: Point) -> Iterator[str]:
    """A small head in the middle of a drive, which says where it leads."""
    length = math.hypot(head[0] - tail[0], head[1] - tail[1])
    if length < 30:
        return
    x, y = (head[0] - tail[0]) / length, (head[1] - tail[1]) / length
    tip = ((tail[0] + head[0]) / 2 + 4 * x, (tail[1] + head[1]) / 2 + 4 * y)
    wings = [(tip[0] - 7 * x - side * 4 * y, tip[1] - 7 * y + side * 4 * x) for side in (1, -1)]
    yield path(f"head {colour}", [wings[0], tip, wings[1]])


def place_of(day: Day, node: int, points: Sequence[Point]) -> str:
    """The mark of a place."""
    x, y = points[node]
    name = day.names.node(node)
    if node in set(day.solution.dropped):
        ends = ((-5, -5), (5, 5)), ((-5, 5), (5, -5))
        return zoomed((x, y), "".join(line("cross", tail, head, f"{name}: left out") for tail, head in ends))
    if any(node in (vehicle.start, vehicle.end) for vehicle in day.model.vehicles):
        return zoomed((x, y), rect("depot", (-6, -6), (12, 12), f"{name}: start or end"))
    return circle("place", (x, y), 4 if len(points) <= 300 else 2.5, name)


def spots_of(day: Day, points: Sequence[Point]) -> List[str]:
    """On each visit the letters of its vehicle and the number of the stop; at one point they are one below another."""
    if len(day.made_by()) > NUMBERED:
        return []
    used: Dict[Tuple[int, int], int] = {}
    out = []
    for route in day.routes():
        marks = []
        for stop, node in enumerate(route.nodes[1:-1], 1):
            x, y = points[node]
            key = (round(x / 12), round(y / 12))
            below = 15 * used.get(key, 0)
            used[key] = used.get(key, 0) + 1
            marks.append(spot(day, route, stop, (x, y + below)))
        out.append(group("spots", marks, route.vehicle))
    return out


def spot(day: Day, route: Route, stop: int, at: Point) -> str:
    """The mark of a stop: the letters of its vehicle and its number."""
    words = f"{day.letters(route.vehicle)}{stop}"
    wide = 8 + 6.6 * len(words)
    title = f"{day.names.node(route.nodes[stop])}: stop {stop} of {day.names.vehicle(route.vehicle)}"
    box = rect(f"spot c{day.colour(route.vehicle)}", (-wide / 2, -7.5), (wide, 15), title)
    return zoomed(at, box + text("letters", (0, 4), words, "middle"))


def zoomed(at: Point, marks: str) -> str:
    """Marks around a point that are no smaller on a small screen."""
    return f'<g transform="translate({at[0]:.1f} {at[1]:.1f})"><g class="zoom">{marks}</g></g>'


def names_of(day: Day, ground: Ground) -> List[str]:
    """The names of places, beside their marks if there is room, and how far away those at the edge are."""
    taken = [(x - 14, y - 8, x + 14, y + 8) for x, y in ground.points]
    out = []
    for node, point in enumerate(ground.points):
        name = shortened(day.names.short(node), 14)
        if node in ground.far:
            name = f"{name}, {ground.far[node]:.0f}{ground.unit} away"
        for anchor, at, box in sides_of(point, LETTER * len(name)):
            if not any(overlap(box, other) for other in taken) and 0 < box[0] and box[2] < WIDTH:
                taken.append(box)
                out.append(text("placename", at, name, anchor))
                break
    return out


def sides_of(point: Point, wide: float) -> Iterator[Tuple[str, Point, Box]]:
    """Where words of this width may stand beside a mark: above or below it, to its right or its left."""
    x, y = point
    for base in (y - 9, y + 18):
        yield "start", (x + 10, base), (x + 10, base - 10, x + 10 + wide, base + 1)
        yield "end", (x - 10, base), (x - 10 - wide, base - 10, x - 10, base + 1)


def overlap(one: Box, other: Box) -> bool:
    """Whether two boxes, each given by its left, upper, right and lower edge, have something in common."""
    return one[0] < other[2] and other[0] < one[2] and one[1] < other[3] and other[1] < one[3]


def scale_of(ground: Ground) -> List[str]:
    """A length of the map, and how long it is."""
    length, wide = length_of_scale(ground)
    y = ground.height - 10
    return [
        path("ruler", [(12, y - 5), (12, y), (12 + wide, y), (12 + wide, y - 5)]),
        text("note", (18 + wide, y), f"{length:g}{ground.unit}"),
    ]
