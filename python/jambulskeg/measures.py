"""What a model cannot ask of a day, measured in its answer: rides that last too long, breaks outside of working hours.

`answer_doubts(model, solution, longest_ride=45)` tells both in sentences; `rides` and `idle_breaks` give the numbers.
"""

from __future__ import annotations

from dataclasses import dataclass
from typing import Iterator, List, Optional

from .doubts import Doubt, DoubtKind
from .records import Model
from .solution import Solution

__all__ = ["IdleBreak", "Ride", "answer_doubts", "idle_breaks", "rides"]


@dataclass(frozen=True)
class Ride:
    """A pair that is served: its number, its vehicle, and what passes from the pickup's cumul to the delivery's."""

    pair: int
    vehicle: int
    length: int


@dataclass(frozen=True)
class IdleBreak:
    """A break that lies before its vehicle's day or after it: when it starts, and from when to when the day is."""

    dimension: int
    vehicle: int
    start: int
    day: "tuple[int, int]"


def rides(model: Model, solution: Solution, dimension: int = 0) -> List[Ride]:
    """How long each pair that is served rides, in a dimension, by the number of the pair.

    The visit at the pickup counts, the one at the delivery does not. Raises `IndexError` if there is no such dimension.
    """
    found = []
    for vehicle, route in enumerate(solution.routes):
        cumuls = dict(zip(route.nodes[1:-1], route.dimensions[dimension].cumuls[1:-1])) if route.nodes else {}
        found += [
            Ride(number, vehicle, cumuls[pair.delivery] - cumuls[pair.pickup])
            for number, pair in enumerate(model.pairs) if pair.pickup in cumuls
        ]
    return sorted(found, key=lambda ride: ride.pair)


def idle_breaks(model: Model, solution: Solution) -> Iterator[IdleBreak]:
    """The breaks that end before their vehicle's day begins, or begin when it has ended or later."""
    for vehicle, route in enumerate(solution.routes):
        for number, plan in enumerate(route.dimensions):
            for entry, start in zip(model.dimensions[number].breaks_of(vehicle), plan.breaks):
                day = (plan.cumuls[0], plan.cumuls[-1])
                if start + entry.duration <= day[0] or start >= day[1]:
                    yield IdleBreak(number, vehicle, start, day)


def answer_doubts(
    model: Model, solution: Solution, longest_ride: Optional[int] = None, dimension: int = 0
) -> List[Doubt]:
    """What looks wrong in an answer: rides longer than `longest_ride`, if that is given, and breaks outside of the day.

    The path of a doubt is that of the pair, or of the breaks of the vehicle.
    """
    found = [
        Doubt(DoubtKind.LONG_RIDE, f"/pairs/{ride.pair}",
              f"vehicle {ride.vehicle} has pair {ride.pair} on board for {ride.length}, and {longest_ride} is the most")
        for ride in (rides(model, solution, dimension) if longest_ride is not None and model.dimensions else ())
        if longest_ride is not None and ride.length > longest_ride
    ]
    return found + [
        Doubt(DoubtKind.BREAK_OUTSIDE, f"/dimensions/{entry.dimension}/breaks",
              f"vehicle {entry.vehicle} takes a break at {entry.start}, and its day is from {entry.day[0]} to "
              f"{entry.day[1]}")
        for entry in idle_breaks(model, solution)
    ]
