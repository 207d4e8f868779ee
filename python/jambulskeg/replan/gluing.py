"""The whole day that the morning and a solution of its rest make, and what it changes."""

from __future__ import annotations

from dataclasses import dataclass, replace
from typing import Dict, List, Sequence, Tuple

from ..arguments import A_MODEL, A_SOLUTION, a, asks
from ..complete import solution_of_routes
from ..model import meets
from ..program import ProgramLike
from ..records import Model
from ..rescue import as_own
from ..solution import Plan, Route, Solution
from .building import held_start
from .moment import CannotBeReplanned, Van, Where
from .rest import Rest

__all__ = ["Moved", "glue", "moved"]


@asks(model=A_MODEL, rest=a(Rest), solution=A_SOLUTION)
def glue(
    model: Model, rest: Rest, solution: Solution, program: ProgramLike = None, *, checked: bool = True
) -> Solution:
    """The solution of the whole day: what was made until the moment, and then what a solution of the rest makes.

    `model` is the model of the day, with the new orders if there are any: `rest.day`. How the solution was found is not
    looked at: it may have more tries than `rest.model` asks for. Raises `CannotBeReplanned` if `model` is another one.
    Raises `NotMet` if the solution is none of the rest, or if the model with the new orders does not allow what was
    made.
    """
    if model != rest.day:
        raise CannotBeReplanned("the rest is not one of this model: glue takes `rest.day`, which has the new orders")
    if checked:
        meets(rest.model, as_own(solution), program)
    routes = [glued(rest, van, solution.routes[van.vehicle]) for van in rest.vans]
    whole = solution_of_routes(model, routes)
    return meets(model, whole, program) if checked else whole


def glued(rest: Rest, van: Van, later: Route) -> Route:
    """The route of a vehicle over the whole day."""
    earlier = rest.morning.routes[van.vehicle]
    if van.where is Where.BACK:
        return earlier
    nodes = [rest.layout.nodes[node] for node in later.nodes]
    if van.where is Where.HOME:
        return Route(van.vehicle, nodes, from_home(rest, van, nodes, later.dimensions[:len(rest.day.dimensions)]))
    chain = len(rest.layout.chains[van.vehicle])
    whole = [*earlier.nodes[:van.stop], *nodes[chain:]]
    plans: List[Plan] = []
    for at, plan in enumerate(earlier.dimensions):
        cumuls = [*plan.cumuls[:van.stop], *later.dimensions[at].cumuls[chain:]]
        breaks = [*plan.breaks[:van.taken[at]], *later.dimensions[at].breaks]
        plans.append(Plan(plan.name, cumuls, slacks_of(rest.day, at, van.vehicle, whole, cumuls), breaks))
    return Route(van.vehicle, whole, plans)


def from_home(rest: Rest, van: Van, nodes: Sequence[int], plans: Sequence[Plan]) -> Sequence[Plan]:
    """The schedules of a vehicle that was at home; one that had to start earlier has waited until the moment."""
    at, start = rest.clock.time, held_start(rest.day, van, rest.clock)
    if at is None or start is None or not nodes:
        return plans
    cumuls = [start, *plans[at].cumuls[1:]]
    held = replace(plans[at], cumuls=cumuls, slacks=slacks_of(rest.day, at, van.vehicle, nodes, cumuls))
    return [*plans[:at], held, *plans[at + 1:]]


def slacks_of(model: Model, at: int, vehicle: int, nodes: Sequence[int], cumuls: Sequence[int]) -> List[int]:
    """The slacks that cumuls leave in the dimension of a number."""
    return [
        head - tail - model.transit(at, vehicle, *arc)
        for arc, tail, head in zip(zip(nodes, nodes[1:]), cumuls, cumuls[1:])
    ]


@dataclass(frozen=True)
class Moved:
    """What another plan changes of a plan.

    - `moved`: visits that another vehicle makes, with the vehicle before and now.
    - `brought_in`: visits that were left out and are made.
    - `left_out`: visits that were made and are left out.
    """

    moved: Sequence[Tuple[int, int, int]]
    brought_in: Sequence[int]
    left_out: Sequence[int]


@asks(before=A_SOLUTION, now=A_SOLUTION)
def moved(before: Solution, now: Solution) -> Moved:
    """What another plan of a day, or of one with more orders, changes."""
    old, new = vehicles_of(before), vehicles_of(now)
    return Moved(
        [(node, old[node], new[node]) for node in sorted(old) if node in new and old[node] != new[node]],
        sorted(set(new) - set(old)),
        sorted(set(old) - set(new)),
    )


def vehicles_of(solution: Solution) -> Dict[int, int]:
    """The vehicle of each visit that is made."""
    return {node: route.vehicle for route in solution.routes for node in route.visits}
