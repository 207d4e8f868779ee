"""Why a visit is left out, measured: it is put into each place of each route, the other visits being as they are.

    for node, reason in why_left_out(model, solution).items():
        print(node, reason.sentence(str, str))

A place is one that can be driven, or some rule forbids it. Nothing here is a proof that a visit does not fit: with the
other visits in another order it may.
"""

from __future__ import annotations

import time
from collections import Counter
from dataclasses import dataclass
from typing import Callable, Dict, Iterator, List, Optional, Sequence, Tuple, Union

from .complete import CannotBeDriven, route_of
from .costs import global_of, parts_of
from .model import spans
from .program import ProgramLike
from .records import Model, Policy
from .solution import Route, Solution

__all__ = ["Reason", "Site", "why_left_out", "why_not_shorter"]

SECONDS = 2.0
"""How long the places of all visits that are left out may be tried."""
NOT_ALLOWED = "the vehicles that may go there"
ORDER = "the order of deliveries"
Namer = Callable[[int], str]


@dataclass(frozen=True)
class Site:
    """A place for a visit: after the node `after` in the route of a vehicle. It says what the visit would cost there,
    and by how much the penalties would sink."""

    vehicle: int
    after: int
    cost: int
    spared: int


@dataclass(frozen=True)
class Reason:
    """Why a visit is left out. `best` is its cheapest place, None without any; `forbidden` says how many places each
    rule forbids; `tried` of `places` places were tried before the time was over; `partner` is left out with it."""

    node: int
    best: Optional[Site]
    forbidden: Tuple[Tuple[str, int], ...]
    tried: int
    places: int
    is_required: bool = False
    partner: Optional[int] = None

    def sentence(self, node: Namer, vehicle: Namer) -> str:
        """The reason in words, with these names of nodes and vehicles."""
        pair = "" if self.partner is None else f"together with {node(self.partner)} "
        if not self.places:
            return "as many visits of its group are made as may be"
        if self.best is None:
            return f"{pair}{self.forbids()}"
        whole = "" if self.tried == self.places else f" (of its {self.places} places {self.tried} were tried)"
        where = f"on {vehicle(self.best.vehicle)} after {node(self.best.after)}"
        return f"{pair}its cheapest place, {where}, would cost {self.best.cost}{self.beside(self.best)}{whole}"

    def beside(self, best: Site) -> str:
        """What is said beside the cost of the cheapest place."""
        if self.is_required:
            return "; a longer search may bring it in"
        more = "; a longer search may bring it in" if best.cost < best.spared else ""
        return f", and leaving it out costs {best.spared}{more}"

    def forbids(self) -> str:
        """Which rules forbid all places that were tried."""
        each = ", ".join(f"'{rule}' {count}" for rule, count in self.forbidden)
        if self.tried < self.places:
            return f"of its {self.places} places {self.tried} were tried, and each is forbidden: {each}"
        if len(self.forbidden) == 1:
            return f"'{self.forbidden[0][0]}' forbids each of its {self.tried} places"
        return f"each of its {self.tried} places is forbidden: {each}"


def why_left_out(
    model: Model, solution: Solution, seconds: float = SECONDS, required: Sequence[int] = ()
) -> Dict[int, Reason]:
    """For each visit that a solution leaves out the reason, measured within these seconds for all of them.

    `required` are visits that the day was to make, whatever they cost. Each visit has its share of the seconds, in
    which those places are tried first whose arcs cost least, and one at least.
    """
    until = time.monotonic() + seconds
    found: Dict[int, Reason] = {}
    for node in solution.dropped:
        now = time.monotonic()
        share = (until - now) / (len(solution.dropped) - len(found))
        found[node] = reason_of(model, solution, node, now + share, node in required)
    return found


def reason_of(model: Model, solution: Solution, node: int, until: float, is_required: bool) -> Reason:
    """The reason of one visit; the places that are not reached in time are left out."""
    pair = next((pair for pair in model.pairs if node in (pair.pickup, pair.delivery)), None)
    nodes = (node,) if pair is None else (pair.pickup, pair.delivery)
    partner = None if pair is None else nodes[0] + nodes[1] - node
    routes = solution.routes
    if is_full(model, solution, nodes):
        return Reason(node, None, (), 0, 0, is_required, partner)
    total = sum(places_in(len(route.visits), len(nodes)) for route in routes)
    best: Optional[Site] = None
    rules: "Counter[str]" = Counter()
    tried = measured = 0
    for vehicle, visits, count in lists_with(model, routes, nodes):
        if measured and time.monotonic() >= until:
            break
        tried, measured = tried + count, measured + int(not isinstance(visits, str))
        found = site_of(model, solution, vehicle, visits, nodes)
        if isinstance(found, str):
            rules[found] += count
        elif best is None or found.cost - found.spared < best.cost - best.spared:
            best = found
    return Reason(node, best, tuple(rules.most_common()), tried, total, is_required, partner)


def is_full(model: Model, solution: Solution, nodes: Sequence[int]) -> bool:
    """Whether a group of these nodes has as many visits as it may have."""
    made = {node for route in solution.routes for node in route.visits}
    return any(
        len(made.intersection(group.nodes)) >= group.max for group in model.groups
        if not made.issuperset(group.nodes) and any(node in group.nodes for node in nodes)
    )


def places_in(visits: int, nodes: int) -> int:
    """How many places a list has for one visit, or for a pickup and its delivery."""
    return visits + 1 if nodes == 1 else (visits + 1) * (visits + 2) // 2


def lists_with(
    model: Model, routes: Sequence[Route], nodes: Sequence[int]
) -> Iterator[Tuple[int, Union[str, List[int]], int]]:
    """The lists to be asked about, each with its vehicle and the places that it is for.

    First, for each vehicle that can make the nodes nowhere, the rule and how many places it has. Then, for each other
    vehicle, its list with the nodes put into each of its places, and 1. The cheapest by arcs and fixed costs come
    first.
    """
    found: List[Tuple[int, int, List[int]]] = []
    for route in routes:
        rule = forbidding(model, route, nodes)
        if rule is not None:
            yield route.vehicle, rule, places_in(len(route.visits), len(nodes))
            continue
        before = way_cost(model, route.vehicle, route.visits)
        for visits in lists_of(route.visits, nodes):
            found.append((way_cost(model, route.vehicle, visits) - before, route.vehicle, visits))
    for _, vehicle, visits in sorted(found, key=lambda entry: entry[0]):
        yield vehicle, visits, 1


def forbidding(model: Model, route: Route, nodes: Sequence[int]) -> Optional[str]:
    """The rule that forbids the nodes at all places of a route, None without any. It is that of the vehicles that may
    go there, or a load whose values are above the capacity in any order."""
    if any(route.vehicle not in model.vehicles_of(node) for node in nodes):
        return NOT_ALLOWED
    taken = [model.vehicles[route.vehicle].start, *route.visits, *nodes]
    for dimension in model.dimensions:
        evaluator = dimension.evaluator_of(route.vehicle)
        values = [evaluator.values[node] for node in taken] if evaluator.values and evaluator.matrix is None else []
        if sum(values) > dimension.capacity_of(route.vehicle):
            return dimension.name
    return None


def lists_of(visits: Sequence[int], nodes: Sequence[int]) -> Iterator[List[int]]:
    """A list with one node, or a pickup and its delivery, put into each place."""
    for first in range(len(visits) + 1):
        rest = visits[first:]
        for last in range(len(rest) + 1) if len(nodes) == 2 else (0,):
            yield [*visits[:first], nodes[0], *rest[:last], *nodes[1:], *rest[last:]]


def way_cost(model: Model, vehicle: int, visits: Sequence[int]) -> int:
    """What the arcs of a list cost, and that its vehicle leaves at all; nothing without visits."""
    if not visits:
        return 0
    ends = model.vehicles[vehicle]
    costs = model.matrices[ends.costs]
    nodes = [ends.start, *visits, ends.end]
    return ends.fixed + sum(costs[tail][head] for tail, head in zip(nodes, nodes[1:]))


def site_of(
    model: Model, solution: Solution, vehicle: int, visits: Union[str, Sequence[int]], nodes: Sequence[int]
) -> Union[Site, str]:
    """A list as a place for its new visits, or the rule that forbids it."""
    if isinstance(visits, str):
        return visits
    if not keeps_order(model, vehicle, visits):
        return ORDER
    try:
        route = route_of(model, vehicle, visits)
    except CannotBeDriven as broken:
        return broken.dimension
    at = route.nodes.index(nodes[0])
    cost, spared = change_of(model, solution, route)
    return Site(vehicle, route.nodes[at - 1], cost, spared)


def keeps_order(model: Model, vehicle: int, visits: Sequence[int]) -> bool:
    """Whether a vehicle with such an order of deliveries may have this list."""
    policy = model.vehicles[vehicle].policy
    if policy is Policy.ANY:
        return True
    pickup = {pair.delivery: pair.pickup for pair in model.pairs}
    loaded: List[int] = []
    picked = set(pickup.values())
    for node in visits:
        if node in picked:
            loaded.append(node)
        elif node in pickup:
            if loaded.pop(-1 if policy is Policy.LIFO else 0) != pickup[node]:
                return False
    return True


def change_of(model: Model, solution: Solution, route: Route) -> Tuple[int, int]:
    """What a route in place of its vehicle's would cost more, penalties aside, and by how much these would sink."""
    before = [solution.routes[route.vehicle]]
    old, new = parts_of(model, before), parts_of(model, [route])
    cost = sum(sign * (parts.arcs + parts.fixed + parts.soft + parts.span) for sign, parts in ((1, new), (-1, old)))
    if any(dimension.global_span_cost for dimension in model.dimensions):
        routes = [route if entry.vehicle == route.vehicle else entry for entry in solution.routes]
        cost += sum(
            global_of(model, number, [entry for entry in routes if entry.nodes])
            for number in range(len(model.dimensions))
        ) - solution.parts.global_
    added = set(route.visits) - set(before[0].visits)
    spared = sum(
        (group.penalty or 0) * len(added.intersection(group.nodes)) for group in model.groups
    )
    return cost, spared


def why_not_shorter(model: Model, solution: Solution, program: ProgramLike = None) -> str:
    """Why `shorten` leaves a solution as it is, in a sentence."""
    broken = [dimension.name for dimension in model.dimensions if dimension.breaks]
    found = spans(model, solution, program)
    reasons = [f"in '{name}' drivers have breaks, and no shortest schedules are told there" for name in broken]
    spared = [span for span in found if span.spared]
    if spared:
        routes = len({span.vehicle for span in spared})
        reasons.append(f"a shorter schedule of {routes} route{'s' if routes > 1 else ''} would cost more")
    elif found:
        names = ", ".join(f"'{name}'" for name in dict.fromkeys(span.dimension for span in found))
        reasons.append(f"in {names} no route can be shorter with its visits in this order")
    return "Both days are equal: " + ("; ".join(reasons) or "no vehicle leaves") + "."
