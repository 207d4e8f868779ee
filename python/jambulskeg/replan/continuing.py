"""The plan of the morning continued: its routes, and each visit that is in none of them where it costs least.

A search that begins with nothing may well end with a dearer day, in which many visits have changed vehicle.
"""

from __future__ import annotations

from typing import Iterator, List, Optional, Sequence, Tuple

from ..arguments import a, asks
from ..complete import CannotBeDriven, complete, route_of
from ..costs import arcs_of, soft_of, span_of
from ..errors import NotMet
from ..program import ProgramLike
from ..records import Model, Policy
from ..solution import Route, Solution
from .rest import Rest

__all__ = ["continued"]

MOST_PLACES = 20
"""How many places for a visit are priced, by what they add to the arcs."""



@asks(rest=a(Rest))
def continued(rest: Rest, program: ProgramLike = None, *, checked: bool = True) -> Optional[Solution]:
    """The solution of the rest that changes least; None if it leaves a visit out that must be made, or if its
    routes can no longer be driven."""
    model, lists = rest.model, [list(nodes) for nodes in rest.lists]
    prices = [price_of(model, driven(model, vehicle, nodes)) if rest.left else 0 for vehicle, nodes in enumerate(lists)]
    for item in items_of(model, rest.left):
        limit = worth_of(model, lists, item)
        found = cheapest(rest, lists, prices, item) if limit is None or limit > 0 else None
        if found is not None and (limit is None or found[0] < limit):
            added_price, vehicle, lists[found[1]] = found
            prices[vehicle] += added_price
    try:
        return complete(model, lists, program, checked=checked)
    except (CannotBeDriven, NotMet):
        return None


def items_of(model: Model, left: Sequence[int]) -> List[Tuple[int, ...]]:
    """The visits to be put in, a pair as a whole: first those that must be made."""
    halves = {pair.pickup: pair.delivery for pair in model.pairs}
    deliveries = set(halves.values())
    grouped = {node for group in model.groups if group.penalty is not None for node in group.nodes}
    items = [(node, halves[node]) if node in halves else (node,) for node in left if node not in deliveries]
    return sorted(items, key=lambda item: all(node in grouped for node in item))


def worth_of(model: Model, lists: Sequence[Sequence[int]], item: Sequence[int]) -> Optional[int]:
    """What it may cost to put an item in: the penalties that it spares, 0 if its group is complete; None if it
    must be made."""
    made = {node for nodes in lists for node in nodes}
    worth = 0
    for node in item:
        group = next((group for group in model.groups if node in group.nodes), None)
        if group is None:
            return None
        if len(made.intersection(group.nodes)) >= group.max:
            return 0
        if group.penalty is None:
            return None
        worth += group.penalty
    return worth


def cheapest(
    rest: Rest, lists: Sequence[List[int]], prices: Sequence[int], item: Sequence[int]
) -> Optional[Tuple[int, int, List[int]]]:
    """The cheapest place of an item: what it adds to the price of a list, the vehicle and its longer list; None if
    it fits nowhere."""
    model = rest.model
    places = sorted(
        (added(model, vehicle, nodes, longer), vehicle, longer)
        for vehicle in range(len(lists)) if all(vehicle in model.vehicles_of(node) for node in item)
        for nodes in [lists[vehicle]]
        for longer in longer_lists(nodes, item, len(rest.layout.chains.get(vehicle, ())))
        if keeps_policy(model, vehicle, longer)
    )
    priced: List[Tuple[int, int, List[int]]] = []
    for _, vehicle, longer in places:
        route = driven(model, vehicle, longer)
        if route is not None:
            priced.append((price_of(model, route) - prices[vehicle], vehicle, longer))
        if len(priced) == MOST_PLACES:
            break
    return min(priced, default=None)


def longer_lists(nodes: List[int], item: Sequence[int], begin: int) -> Iterator[List[int]]:
    """Each list that has an item too, from the place `begin` on."""
    for place in range(begin, len(nodes) + 1):
        one = [*nodes[:place], item[0], *nodes[place:]]
        if len(item) == 1:
            yield one
        else:
            yield from longer_lists(one, item[1:], place + 1)


def added(model: Model, vehicle: int, nodes: Sequence[int], longer: Sequence[int]) -> int:
    """What a longer list of a vehicle adds to the arcs."""
    return length_of(model, vehicle, longer) - length_of(model, vehicle, nodes)


def length_of(model: Model, vehicle: int, nodes: Sequence[int]) -> int:
    """The arc costs of a list."""
    ends = model.vehicles[vehicle]
    stops = [ends.start, *nodes, ends.end] if nodes else []
    return sum(model.arc_cost(vehicle, tail, head) for tail, head in zip(stops, stops[1:]))


def driven(model: Model, vehicle: int, nodes: Sequence[int]) -> Optional[Route]:
    """The route of a list; None if it cannot be driven."""
    try:
        return route_of(model, vehicle, nodes)
    except CannotBeDriven:
        return None


def price_of(model: Model, route: Optional[Route]) -> int:
    """What a route costs by itself."""
    if route is None or not route.nodes:
        return 0
    return arcs_of(model, route) + model.vehicles[route.vehicle].fixed + sum(
        soft_of(model, at, route, plan) + span_of(model, at, route, plan) for at, plan in enumerate(route.dimensions)
    )


def keeps_policy(model: Model, vehicle: int, nodes: Sequence[int]) -> bool:
    """Whether the deliveries of a list keep the order of its vehicle's policy."""
    policy = model.vehicles[vehicle].policy
    if policy is Policy.ANY:
        return True
    pickups = {pair.delivery: pair.pickup for pair in model.pairs}
    sources = set(pickups.values())
    loaded: List[int] = []
    for node in nodes:
        if node in sources:
            loaded.append(node)
        elif node in pickups:
            if pickups[node] not in loaded or loaded.pop(-1 if policy is Policy.LIFO else 0) != pickups[node]:
                return False
    return True
