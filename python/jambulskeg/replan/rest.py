"""The rest of a day from a moment on."""

from __future__ import annotations

from dataclasses import dataclass, replace
from typing import FrozenSet, List, Optional, Sequence, Set, Tuple

from ..arguments import A_MODEL, A_SOLUTION, NUMBERS, a, asks, either, number
from ..model import meets
from ..program import ProgramLike
from ..records import HORIZON, Model
from ..rescue import as_own
from ..solution import Route, Solution
from .building import Building, can_go_on
from .layout import Layout, layout_of, open_visits, with_taken_back
from .moment import CannotBeReplanned, Clock, Unavailable, Van, Where, clock_of, on_board, vans_of

__all__ = ["Rest", "replan"]


@dataclass(frozen=True)
class Rest:
    """The rest of a day.

    `model` is what is still to be planned; `day` is the model of the whole day with the new orders, in which visits
    that were taken back may be left out for nothing. `layout.nodes` tells the node of the day of each node of the
    model. `vans` says where each vehicle is, `morning` is the plan so far. `lists` is what that plan would still make,
    as visits of the model, for a search that begins with given routes; `left` are the visits that are in none of
    them.
    """

    model: Model
    day: Model
    clock: Clock
    layout: Layout
    vans: Tuple[Van, ...]
    morning: Solution
    lists: Tuple[Tuple[int, ...], ...]
    left: Tuple[int, ...]

    @property
    def planned(self) -> int:
        """How many visits the plan of the morning makes that have not been begun."""
        routes = self.morning.routes
        return sum(len(routes[van.vehicle].visits) - len(begun_by(van, self.morning)) for van in self.vans)


@asks(
    model=A_MODEL, solution=A_SOLUTION, now=number(-HORIZON, HORIZON), done=either(NUMBERS), new=either(A_MODEL),
    unavailable=a(Unavailable),
)
def replan(
    model: Model, solution: Solution, now: int, *, done: Optional[Sequence[int]] = None, new: Optional[Model] = None,
    unavailable: Unavailable = Unavailable(), time: Optional[str] = None, program: ProgramLike = None,
    checked: bool = True,
) -> Rest:
    """The rest of the day from the moment `now` on, in the unit of the dimension of times.

    Each vehicle on the road begins at the visit where it is, or to which it drives, with its cumuls and the breaks
    left. One that has not left begins at `now` or later. No visit that is left begins before `now`.

    `done` are the visits that have been begun, if they are not those of the plan. `new` is the model of the day with
    the new orders: its first nodes and vehicles are those of `model`. `time` names the dimension of times. Without one
    it is that which looks most like it; if none has drives, `now` is in arc costs so far. How the plan was found is not
    looked at: it may have more tries than `model` asks for.

    Raises `CannotBeReplanned` if the rest cannot be said as a model, `NotMet` if the solution does not meet `model`.
    """
    solution = as_own(solution)
    if checked:
        meets(model, solution, program)
    day = with_taken_back(day_of(model, new), unavailable.visits)
    further = range(len(solution.routes), len(day.vehicles))
    solution = replace(solution, routes=[*solution.routes, *(Route(vehicle, (), ()) for vehicle in further)])
    clock, lost = clock_of(day, now, time), frozenset(unavailable.vehicles)
    vans = vans_of(day, solution, clock, done, lost)
    look_for_lost(day, solution, vans, lost)
    fixed = {node for van in vans for node in begun_by(van, solution)}
    look_for_halves(day, vans, solution, fixed)
    goes_on = {van.vehicle for van in vans if van.vehicle not in lost and can_go_on(day, van, clock)}
    still_open = open_visits(day, clock, fixed, goes_on, unavailable.visits)
    layout = layout_of(day, vans, solution, still_open)
    building = Building(day, clock, layout, vans, frozenset(fixed), frozenset(goes_on))
    lists, number = lists_of(building, solution), layout.number()
    listed = {node for nodes in lists for node in nodes}
    left = tuple(number[node] for node in still_open if number[node] not in listed)
    return Rest(building.model(), day, clock, layout, tuple(vans), solution, lists, left)


def day_of(model: Model, new: Optional[Model]) -> Model:
    """The day with the new orders. Raises `CannotBeReplanned` if it is not the same day with more nodes."""
    if new is None:
        return model
    same = (
        (new.nodes >= model.nodes, "it has fewer nodes"),
        (ends_of(new)[:len(model.vehicles)] == ends_of(model), "its vehicles have other starts and ends"),
        (names_of(new) == names_of(model), "it has other dimensions"),
        (len(new.matrices) == len(model.matrices), "it has other matrices"),
    )
    for is_same, why in same:
        if not is_same:
            raise CannotBeReplanned(f"the model with the new orders is not one of this day: {why}")
    for number, (matrix, old) in enumerate(zip(new.matrices, model.matrices)):
        if any(tuple(row[:model.nodes]) != tuple(known) for row, known in zip(matrix, old)):
            raise CannotBeReplanned(
                f"the model with the new orders is not one of this day: matrix {number} has other entries between the "
                f"first {model.nodes} nodes"
            )
    return new


def ends_of(model: Model) -> List[Tuple[int, int]]:
    """The start and the end of each vehicle."""
    return [(vehicle.start, vehicle.end) for vehicle in model.vehicles]


def names_of(model: Model) -> List[str]:
    """The names of the dimensions."""
    return [dimension.name for dimension in model.dimensions]


def look_for_lost(day: Model, morning: Solution, vans: Sequence[Van], lost: FrozenSet[int]) -> None:
    """Raises `CannotBeReplanned` if a lost vehicle has something on board, or is none of the day."""
    for vehicle in sorted(lost):
        if not 0 <= vehicle < len(day.vehicles):
            raise CannotBeReplanned(f"there is no vehicle {vehicle}")
        visits = begun_by(vans[vehicle], morning)
        for node in on_board(day, visits):
            raise CannotBeReplanned(
                f"vehicle {vehicle} is said to be lost, and has on board what it picked up at visit {node}"
            )


def look_for_halves(day: Model, vans: Sequence[Van], morning: Solution, fixed: Set[int]) -> None:
    """Raises `CannotBeReplanned` if one half of a pair is made so that the other can no longer be, as may be in new
    orders."""
    carried = {node for van in vans if van.where is Where.ROAD for node in on_board(day, begun_by(van, morning))}
    for number, pair in enumerate(day.pairs):
        is_half = (pair.pickup in fixed) != (pair.delivery in fixed)
        if is_half and pair.pickup not in carried:
            made, other = sorted((pair.pickup, pair.delivery), key=lambda node: node not in fixed)
            raise CannotBeReplanned(f"of pair {number} visit {made} is made, and visit {other} can no longer be")


def begun_by(van: Van, morning: Solution) -> Sequence[int]:
    """The visits of a vehicle that are made, and the one where it is or to which it drives."""
    route = morning.routes[van.vehicle]
    return {Where.HOME: (), Where.ROAD: route.nodes[1:van.stop + 1], Where.BACK: route.visits}[van.where]


def lists_of(building: Building, morning: Solution) -> Tuple[Tuple[int, ...], ...]:
    """What the plan of the morning would still make, by the nodes of the rest."""
    number = building.layout.number()
    lists = []
    for van in building.vans:
        visits = morning.routes[van.vehicle].visits[van.stop:] if van.vehicle in building.goes_on else ()
        chain = building.layout.chains.get(van.vehicle, ())
        lists.append((*chain, *(number[node] for node in visits if node in number)))
    return tuple(lists)
