"""Second tours: a vehicle that is back leaves again.

A route has one start and one end, so a second tour is a further vehicle of the day. It begins where and when the first
tour of its vehicle ends, and has been paid for already.
"""

from __future__ import annotations

from dataclasses import replace
from typing import Any, Dict, List, Optional, Sequence

from ..arguments import A_MODEL, A_SOLUTION, NUMBERS, asks, number
from ..kinds import is_list
from ..records import HORIZON, MOST_VEHICLES, Dimension, Model, Vehicle, VehicleBreaks, VehicleRow
from ..solution import Route, Solution
from .moment import CannotBeReplanned, Where, clock_of, vans_of

__all__ = ["with_tours"]


@asks(model=A_MODEL, solution=A_SOLUTION, vehicles=NUMBERS, now=number(-HORIZON, HORIZON))
def with_tours(
    model: Model, solution: Solution, vehicles: Sequence[int], now: int, time: Optional[str] = None
) -> Model:
    """The day with a further vehicle for each of some vehicles that are back at `now`, or drive home, in their order.

    `solution` is the plan of the morning. Raises `CannotBeReplanned` if a vehicle is not back, if the model has
    100 vehicles, and if times begin at 0 for all vehicles.
    """
    clock = clock_of(model, now, time)
    vans = {van.vehicle: van for van in vans_of(model, solution, clock, None, frozenset())}
    if len(model.vehicles) + len(vehicles) > MOST_VEHICLES:
        raise CannotBeReplanned(f"there are at most {MOST_VEHICLES} vehicles, second tours among them")
    if vehicles and clock.time is not None and model.dimensions[clock.time].fix_start:
        raise CannotBeReplanned("a second tour cannot begin: the times of all vehicles begin at 0 ('fix_start')")
    for vehicle in vehicles:
        if vehicle not in vans or vans[vehicle].where is not Where.BACK:
            raise CannotBeReplanned(f"vehicle {vehicle} has no second tour: at {now} it is not back, nor drives home")
    tours = {vehicle: len(model.vehicles) + at for at, vehicle in enumerate(vehicles)}
    return replace(
        model,
        vehicles=[*model.vehicles, *(again(model.vehicles[vehicle]) for vehicle in vehicles)],
        dimensions=[
            with_vehicles(dimension, at, tours, solution.routes, at == clock.time)
            for at, dimension in enumerate(model.dimensions)
        ],
        allowed=[
            replace(row, vehicles=[*row.vehicles, *(tours[vehicle] for vehicle in vehicles if vehicle in row.vehicles)])
            for row in model.allowed
        ],
    )


def again(vehicle: Vehicle) -> Vehicle:
    """The vehicle of a second tour."""
    return replace(vehicle, start=vehicle.end, fixed=0)


def with_vehicles(
    dimension: Dimension, at: int, tours: Dict[int, int], routes: Sequence[Route], is_time: bool
) -> Dimension:
    """A dimension with what it asks of second tours, as it does of the first ones. In time a second tour begins when
    the first has ended, and what is left of its breaks is where the plan has it."""
    starts = longer_rows(dimension.starts, tours)
    breaks: List[VehicleBreaks] = []
    for vehicle, tour in tours.items():
        plan = routes[vehicle].dimensions[at]
        if is_time:
            starts = [row for row in starts if row.vehicle != tour]
            starts.append(VehicleRow(tour, (plan.cumuls[-1], HORIZON)))
        left = [
            replace(entry, from_=start, to=start)
            for entry, start in zip(dimension.breaks_of(vehicle), plan.breaks) if start >= plan.cumuls[-1]
        ]
        breaks += [VehicleBreaks(tour, left)] if left else []
    return replace(
        dimension,
        capacity=longer(dimension.capacity, tours),
        vehicle_evaluators=longer(dimension.vehicle_evaluators, tours),
        span_cost=longer(dimension.span_cost, tours),
        starts=starts,
        ends=longer_rows(dimension.ends, tours),
        breaks=[*dimension.breaks, *breaks],
    )


def longer(values: Any, tours: Dict[int, int]) -> Any:
    """What each vehicle has, with second tours; one value for all stays."""
    return [*values, *(values[vehicle] for vehicle in tours)] if is_list(values) else values


def longer_rows(rows: Sequence[VehicleRow], tours: Dict[int, int]) -> List[VehicleRow]:
    """What starts or ends ask, with those of second tours."""
    return [*rows, *(replace(row, vehicle=tours[row.vehicle]) for row in rows if row.vehicle in tours)]
