"""The vans that a change touches, as a day of their own: what the program is asked first if the day is large.

A model of a thousand places takes the program a while to read, and a change touches two vans of them. Asked about these
two alone, it answers at once. The whole day is asked about soon after, and is not called fine before.
"""

from __future__ import annotations

from typing import List, Sequence

from ..complete import solution_of_routes
from ..errors import NotMet
from ..program import Program
from ..records import Model
from ..solution import Route, Solution
from .part import Cut
from .states import Lists, State

__all__ = ["check_touched", "listed_rules", "touched_by"]


def listed_rules(model: Model, lists: Lists) -> None:
    """Raises `NotMet` at a rule between vans that lists break: who may make a visit, groups, pairs."""
    made = {node for visits in lists for node in visits}
    for row in model.allowed:
        for vehicle, visits in enumerate(lists if row.node in made else ()):
            if row.node in visits and vehicle not in row.vehicles:
                raise NotMet("allowed", vehicle, visits.index(row.node) + 1)
    for number, group in enumerate(model.groups):
        if len(made.intersection(group.nodes)) > group.max:
            raise NotMet("group", -1, number)
    places = {node: (vehicle, at) for vehicle, visits in enumerate(lists) for at, node in enumerate(visits)}
    for number, pair in enumerate(model.pairs):
        one, other = places.get(pair.pickup), places.get(pair.delivery)
        if one != other and (one is None or other is None or one[0] != other[0] or one > other):
            raise NotMet("pair", -1, number)


def touched_by(state: State, after: State) -> List[int]:
    """The vans whose routes, or what their visits ask, are other in a state than in the one before it."""
    nodes = after.edits.other_than(state.edits)
    return [
        vehicle for vehicle, visits in enumerate(after.lists)
        if visits != state.lists[vehicle] or not nodes.isdisjoint(visits)
    ]


def check_touched(model: Model, solution: Solution, vehicles: Sequence[int], program: Program) -> None:
    """Asks the program whether the routes of some vehicles keep their rules. Raises `NotMet`, and as `Program.run`
    does."""
    lists: Lists = tuple(tuple(route.visits) for route in solution.routes)
    listed_rules(model, lists)
    visits = {node for vehicle in vehicles for node in lists[vehicle]}
    if not visits:
        return
    ends = {node for vehicle in vehicles for node in (model.vehicles[vehicle].start, model.vehicles[vehicle].end)}
    nodes = sorted(visits | ends)
    others = {node for visits_of in lists for node in visits_of} - visits
    part = Cut(model, nodes, vehicles, others).model()
    places = {node: place for place, node in enumerate(nodes)}
    routes = [moved(solution.routes[vehicle], number, places) for number, vehicle in enumerate(vehicles)]
    text = f'{{"model":{part.text()},"solution":{solution_of_routes(part, routes).text()}}}'
    try:
        program.ask(["check"], text)
    except NotMet as broken:
        raise NotMet(broken.rule, vehicles[broken.vehicle] if broken.vehicle >= 0 else -1, broken.place) from None


def moved(route: Route, number: int, places: "dict[int, int]") -> Route:
    """The same route by the numbers of a part of the day."""
    nodes: List[int] = [places[node] for node in route.nodes]
    return Route(number, nodes, route.dimensions)
