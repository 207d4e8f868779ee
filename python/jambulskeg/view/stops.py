"""The stops of a route as they are told to a driver: when to be there, when the visit begins, when to go on."""

from __future__ import annotations

from dataclasses import dataclass
from typing import List, Optional, Tuple

from ..solution import Route
from .day import Day

__all__ = ["Stop", "stops_of"]


@dataclass(frozen=True)
class Stop:
    """A stop of a route; stop 0 is the start.

    `arrival` is when the vehicle comes there, `begins` when the visit does, `departure` when it goes on; None if
    the day has no times. At the start there is a departure alone, at the end an arrival. `loads` are the levels of the
    other dimensions after the stop.
    """

    vehicle: int
    number: int
    node: int
    arrival: Optional[int]
    begins: Optional[int]
    departure: Optional[int]
    loads: Tuple[int, ...]


def stops_of(day: Day, route: Route) -> List[Stop]:
    """The stops of a route from its start to its end."""
    last = len(route.nodes) - 1
    pieces = day.pieces(route) if day.is_timed else []
    begins = day.stops(route)
    ends = {piece.stop: piece.high for piece in pieces if piece.kind == "visit"}
    driven = {piece.stop + 1: piece.high for piece in pieces if piece.kind == "travel"}
    out: List[Stop] = []
    for number, node in enumerate(route.nodes):
        arrival = departure = None
        if day.is_timed:
            left = out[-1].departure if out else None
            arrival = driven.get(number, left) if number else None
            departure = ends.get(number, begins[number]) if number < last else None
        begin = begins[number] if day.is_timed and 0 < number < last else None
        loads = tuple(level_after(day, load, route, number) for load in day.loads())
        out.append(Stop(route.vehicle, number, node, arrival, begin, departure, loads))
    return out


def level_after(day: Day, number: int, route: Route, stop: int) -> int:
    """The level of a dimension when the vehicle leaves a stop, or has come to its end."""
    values = day.model.dimensions[number].evaluator_of(route.vehicle).values
    is_last = stop + 1 == len(route.nodes)
    return route.dimensions[number].cumuls[stop] + (values[route.nodes[stop]] if values and not is_last else 0)
