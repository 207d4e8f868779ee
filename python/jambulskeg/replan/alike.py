"""Vehicles at home that are alike are renumbered, so that fewer visits change vehicle.

A search gives the routes of alike vehicles in any order. Each route goes to the vehicle that had most of its visits.
"""

from __future__ import annotations

from dataclasses import replace
from typing import Dict, List, Sequence, Tuple

from ..records import Model, VehicleRow
from ..solution import Route, Solution
from .moment import Where
from .rest import Rest

__all__ = ["renumbered"]


def renumbered(rest: Rest, solution: Solution) -> Solution:
    """The solution of the rest whose alike vehicles at home have the routes that are most like those of the morning."""
    alike: Dict[object, List[int]] = {}
    for van in rest.vans:
        if van.where is Where.HOME:
            alike.setdefault(kind_of(rest.model, van.vehicle), []).append(van.vehicle)
    routes: List[Route] = list(solution.routes)
    for vehicles in alike.values():
        for before, now in matched(rest, solution, vehicles):
            routes[before] = replace(solution.routes[now], vehicle=before)
    return replace(solution, routes=routes)


def matched(rest: Rest, solution: Solution, vehicles: Sequence[int]) -> List[Tuple[int, int]]:
    """For each of some vehicles the one whose route it takes over, those with most visits in common first."""
    common = sorted(
        ((-len(set(rest.lists[before]).intersection(solution.routes[now].visits)), before != now, before, now)
         for before in vehicles for now in vehicles)
    )
    pairs: Dict[int, int] = {}
    for _, _, before, now in common:
        if before not in pairs and now not in pairs.values():
            pairs[before] = now
    return list(pairs.items())


def kind_of(model: Model, vehicle: int) -> object:
    """What two vehicles have in common that may change their routes."""
    return (
        model.vehicles[vehicle],
        tuple(vehicle in row.vehicles for row in model.allowed),
        tuple(
            (
                dimension.capacity_of(vehicle), dimension.evaluator_of(vehicle), dimension.span_cost_of(vehicle),
                row_of(dimension.starts, vehicle), row_of(dimension.ends, vehicle), dimension.breaks_of(vehicle),
            )
            for dimension in model.dimensions
        ),
    )


def row_of(rows: Sequence[VehicleRow], vehicle: int) -> Sequence[VehicleRow]:
    """What a start or an end asks, by no number of a vehicle."""
    return tuple(replace(row, vehicle=0) for row in rows if row.vehicle == vehicle)
