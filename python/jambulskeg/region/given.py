"""What is given out of a part, and what its answer comes to, without the model as an object.

A process may make it for another one: it is a text and a few numbers.
"""

from __future__ import annotations

from dataclasses import dataclass
from typing import FrozenSet, List, Optional, Sequence, Tuple

from ..records import Model, Refine
from ..refine import text_beside
from ..rescue import required_visits
from ..solution import Solution
from .day import Lists, Part, Region, model_of_part
from .mending import Effort, warmed

__all__ = ["Given", "given_of"]


@dataclass(frozen=True)
class Given:
    """A part as its searcher gets it: the text of its model, and if it refines, the `routes` that its vans have so far.

    `nodes[i]` is the place of node i. The nodes `required` must be made; to leave one out costs `duty`. `cost` is that
    of the routes so far, which leave out `left` of the required ones.
    """

    nodes: Tuple[int, ...]
    required: FrozenSet[int]
    duty: int
    model: str
    routes: Optional[List[List[int]]] = None
    refine: Optional[Refine] = None
    cost: int = 0
    left: int = 0

    @property
    def question(self) -> str:
        """What the searcher reads."""
        return self.model if self.refine is None else text_beside(self.model, self.routes, self.refine)

    def lists(self, solution: Solution) -> List[List[int]]:
        """The visits of each van, by their numbers in the region."""
        return [[self.nodes[node] for node in route.visits] for route in solution.routes]

    def missing(self, solution: Solution) -> int:
        """How many visits that must be made a solution leaves out."""
        return len(self.required.intersection(solution.dropped))


def given_of(region: Region, part: Part, effort: Effort, lists: Optional[Lists] = None) -> Given:
    """What is given out of a part, whose vans have these lists so far. Raises `Refused` at what a model cannot take."""
    model = model_of_part(region, part, effort.search)
    (relaxed, duty), required = model.relaxed, frozenset(required_visits(model.strict))
    given = Given(model.nodes, required, duty, relaxed.text(), refine=effort.refine)
    if lists is None:
        return given
    routes = model.own(lists)
    made = {node for visits in routes for node in visits}
    return Given(
        model.nodes, required, duty, given.model, routes, effort.refine and warmed(effort.refine, relaxed, routes),
        cost_of(relaxed, routes), len(required - made),
    )


def cost_of(model: Model, routes: Sequence[Sequence[int]]) -> int:
    """What routes cost in a model of a region, whose schedules cost nothing: arcs, vans that leave, and penalties."""
    made = {node for visits in routes for node in visits}
    cost = sum(
        group.penalty * (group.max - len(made.intersection(group.nodes)))
        for group in model.groups if group.penalty is not None
    )
    for vehicle, visits in enumerate(routes):
        if visits:
            entry = model.vehicles[vehicle]
            arcs = zip([entry.start, *visits], [*visits, entry.end])
            cost += entry.fixed + sum(model.arc_cost(vehicle, tail, head) for tail, head in arcs)
    return cost
