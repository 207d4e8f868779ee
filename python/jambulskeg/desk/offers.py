"""Where a visit could go: for each van the place that costs least, or why it fits nowhere there.

These are reckoned here and told as offers. Who takes one moves the visit, and the program then has the last word.
"""

from __future__ import annotations

from dataclasses import dataclass
from typing import Any, Dict, List, Optional, Set

from ..complete import CannotBeDriven
from ..costs import arcs_of, soft_of, span_of
from ..records import Model
from ..solution import Route
from .asking import Asker
from .changes import Move, Within
from .states import BadChange, Lists, State
from .words import sentence_of

__all__ = ["offers"]

MOST_PLACES = 12
"""How many places of a route are tried, those with the cheapest arcs first."""


@dataclass(frozen=True)
class Offers:
    """Looks for places for a visit in a state."""

    asker: Asker
    state: State
    node: int
    within: Within

    def all(self) -> List[Dict[str, Any]]:
        """An offer for each van, those that fit first, the cheapest first."""
        found = [self.of_vehicle(vehicle) for vehicle in range(len(self.state.lists))]
        return sorted(found, key=lambda entry: (entry["extra"] is None, entry["extra"] or 0))

    def of_vehicle(self, vehicle: int) -> Dict[str, Any]:
        """The offer of a van: the visit to go in front of, and what that costs more; or a sentence that says no."""
        out: Dict[str, Any] = {"vehicle": vehicle, "before": None, "extra": None, "sentence": ""}
        refusal: Optional[str] = None
        for before in self.places(vehicle):
            try:
                return {**out, "before": before, "extra": self.extra(vehicle, before)}
            except BadChange as problem:
                return {**out, "sentence": str(problem)}
            except CannotBeDriven as problem:
                refusal = refusal or self.why(problem, vehicle, before)
        return {**out, "sentence": refusal or "there is no place in its route"}

    def places(self, vehicle: int) -> List[Optional[int]]:
        """The visits of a route that the visit could go in front of (None: at the end), the cheapest arcs first."""
        model, ends = self.asker.model, self.asker.model.vehicles[vehicle]
        others = [node for node in self.state.lists[vehicle] if node != self.node]
        nodes = [ends.start, *others, ends.end]
        befores: List[Optional[int]] = [*others, None]
        costs = [
            (model.arc_cost(vehicle, tail, self.node) + model.arc_cost(vehicle, self.node, head)
             - model.arc_cost(vehicle, tail, head), place)
            for place, (tail, head) in enumerate(zip(nodes, nodes[1:]))
        ]
        return [befores[place] for _, place in sorted(costs)[:MOST_PLACES]]

    def moved(self, vehicle: int, before: Optional[int]) -> Lists:
        """The lists with the visit at a place. Raises `BadChange`."""
        return Move((self.node,), vehicle, before).applied(self.state, self.within).lists

    def extra(self, vehicle: int, before: Optional[int]) -> int:
        """What the day costs more, but for global spans. Raises `BadChange`, `CannotBeDriven`."""
        lists = self.moved(vehicle, before)
        was = self.state.lists
        changed = [number for number, visits in enumerate(lists) if visits != was[number]]
        moved = {node for number in changed for node in set(lists[number]) ^ set(was[number])}
        routes = sum(self.cost(number, lists) - self.cost(number, was) for number in changed)
        return routes + self.penalties(lists, moved) - self.penalties(was, moved)

    def penalties(self, lists: Lists, nodes: Set[int]) -> int:
        """What the groups of some visits cost."""
        made = {node for visits in lists for node in visits}
        return sum(
            group.penalty * (group.max - len(made.intersection(group.nodes))) for group in self.asker.model.groups
            if group.penalty is not None and not nodes.isdisjoint(group.nodes)
        )

    def cost(self, vehicle: int, lists: Lists) -> int:
        """What a route costs by itself."""
        return route_cost(self.asker.model, self.asker.route(vehicle, lists[vehicle]))

    def why(self, problem: CannotBeDriven, vehicle: int, before: Optional[int]) -> str:
        """Why a place is none."""
        return sentence_of(problem, self.moved(vehicle, before), self.within)


def route_cost(model: Model, route: Route) -> int:
    """What a route costs by itself: arcs, fixed costs, lateness, and its spans."""
    if not route.nodes:
        return 0
    plans = list(enumerate(route.dimensions))
    return arcs_of(model, route) + model.vehicles[route.vehicle].fixed + sum(
        soft_of(model, number, route, plan) + span_of(model, number, route, plan) for number, plan in plans
    )


def offers(asker: Asker, state: State, node: int, within: Within) -> List[Dict[str, Any]]:
    """Where a visit of a state could go, by van."""
    return Offers(asker, state, node, within).all()
