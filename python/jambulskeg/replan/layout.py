"""The nodes of the model of the rest: what is still to be made, and where each vehicle begins.

A vehicle on the road begins at a node of its own, a copy of the place where it is. From there it goes through its
chain, at no cost and in no time. The chain is the pickups of what it has on board, and then the visit where it is. It
is required and for that vehicle alone. So no vehicle is forgotten on the road, and the order of deliveries is kept.
`Layout.barred_arcs` are those that no route may have, so that nothing comes before the chain or into it.

Van 3 has picked up 5, and is at visit 9. Its route begins with its start, 5 and 9, all three at the place of 9. Then
come the visits that are left.
"""

from __future__ import annotations

from dataclasses import dataclass, replace
from typing import Dict, Iterator, List, Mapping, Sequence, Set, Tuple

from ..records import MOST_NODES, Group, Model
from ..schedules import numbers_of
from ..solution import Solution
from .moment import CannotBeReplanned, Clock, Van, Where

__all__ = ["Layout", "layout_of", "open_visits", "with_taken_back"]


@dataclass(frozen=True)
class Layout:
    """The nodes of the rest.

    `nodes` are the nodes of the day that they are, `places` those whose arcs they have; `starts` and `chains` are, for
    each vehicle on the road, where it begins and its chain, as nodes of the rest.
    """

    nodes: Tuple[int, ...]
    places: Tuple[int, ...]
    starts: Mapping[int, int]
    chains: Mapping[int, Tuple[int, ...]]

    def number(self) -> Dict[int, int]:
        """For each node of the day that is one of the rest its number there."""
        made_up = set(self.starts.values())
        return {node: at for at, node in enumerate(self.nodes) if at not in made_up}

    def free_arcs(self) -> Iterator[Tuple[int, int]]:
        """The arcs from a start into its chain, and onwards in it."""
        for vehicle, chain in self.chains.items():
            row = (self.starts[vehicle], *chain)
            yield from ((tail, head) for at, tail in enumerate(row) for head in row[at + 1:])

    def barred_arcs(self, day: Model) -> Iterator[Tuple[int, int]]:
        """The arcs into a chain but its own, and those out of a chain before its end but to the vehicle's end."""
        number, free = self.number(), set(self.free_arcs())
        for vehicle, chain in self.chains.items():
            end = number[day.vehicles[vehicle].end]
            every = range(len(self.nodes))
            into = ((tail, head) for head in chain for tail in every if tail != head)
            out = ((tail, head) for tail in (self.starts[vehicle], *chain[:-1]) for head in every
                   if head not in (tail, end))
            yield from (arc for arc in (*into, *out) if arc not in free)


def layout_of(day: Model, vans: Sequence[Van], morning: Solution, still_open: Sequence[int]) -> Layout:
    """The nodes of the rest: starts, ends, chains and open visits in the order of the day, then the starts on the road.
    Raises `CannotBeReplanned` if they are too many."""
    road = [van for van in vans if van.where is Where.ROAD]
    present = {van.vehicle: morning.routes[van.vehicle].nodes[van.stop] for van in road}
    chains = {van.vehicle: (*van.on_board, present[van.vehicle]) for van in road}
    kept: Set[int] = {*still_open, *(node for chain in chains.values() for node in chain)}
    kept |= {vehicle.end for vehicle in day.vehicles}
    kept |= {vehicle.start for number, vehicle in enumerate(day.vehicles) if number not in present}
    nodes = sorted(kept)
    if len(nodes) + len(road) > MOST_NODES:
        raise CannotBeReplanned(f"the rest has {len(nodes) + len(road)} nodes, and not 1 to {MOST_NODES}")
    number = {node: at for at, node in enumerate(nodes)}
    place_of = {node: present[vehicle] for vehicle, chain in chains.items() for node in chain}
    return Layout(
        (*nodes, *present.values()),
        (*(place_of.get(node, node) for node in nodes), *present.values()),
        {vehicle: len(nodes) + at for at, vehicle in enumerate(present)},
        {vehicle: tuple(number[node] for node in chain) for vehicle, chain in chains.items()},
    )


def with_taken_back(day: Model, visits: Sequence[int]) -> Model:
    """The day in which some visits, and the other halves of their pairs, may be left out for nothing."""
    free = set(visits)
    free |= {node for pair in day.pairs for node in (pair.pickup, pair.delivery)
             if pair.pickup in free or pair.delivery in free}
    if not free:
        return day
    left = [(group, [node for node in group.nodes if node not in free]) for group in day.groups]
    groups = [replace(group, nodes=nodes, max=min(group.max, len(nodes))) for group, nodes in left if nodes]
    return replace(day, groups=[*groups, *(Group([node], 0) for node in sorted(free))])


@dataclass(frozen=True)
class Open:
    """What may still be made: the day, the moment, the visits that are made or begun, and the vehicles that go on."""

    day: Model
    clock: Clock
    fixed: Set[int]
    vehicles: Set[int]

    def why_not(self, node: int, taken_back: Sequence[int]) -> str:
        """Why a visit can no longer be made; empty if it can."""
        if node in taken_back:
            return "it is taken back"
        if not self.vehicles.intersection(self.day.vehicles_of(node)):
            return "no vehicle that may make it goes on"
        if self.clock.time is None:
            return ""
        dimension = self.day.dimensions[self.clock.time]
        row = next((row for row in dimension.nodes if row.node == node), None)
        capacity = max(map(dimension.capacity_of, range(len(self.day.vehicles))))
        is_late = all(high < self.clock.now for _, high in numbers_of(row, capacity))
        return f"it can no longer be begun at {self.clock.now}" if is_late else ""

    def left_of(self, group: Group) -> int:
        """How many visits of a group may still be made."""
        return group.max - len(self.fixed.intersection(group.nodes))


def open_visits(
    day: Model, clock: Clock, fixed: Set[int], vehicles: Set[int], taken_back: Sequence[int]
) -> List[int]:
    """The visits that are still to be made or may be: not `fixed` (made or begun), and not out of reach for good.

    `vehicles` are those that go on. Raises `CannotBeReplanned` if a visit that must be made cannot be.
    """
    rest = Open(day, clock, fixed, vehicles)
    for node in taken_back:
        if node in fixed:
            raise CannotBeReplanned(f"visit {node} cannot be taken back: it has been made, or a vehicle is on its way")
    visits = [node for node in day.visits() if node not in fixed]
    gone = {node: why for node in visits for why in [rest.why_not(node, taken_back)] if why}
    for number, group in enumerate(day.groups):
        if rest.left_of(group) < 0:
            raise CannotBeReplanned(f"of group {number} more visits are made than the {group.max} that it may have")
        if rest.left_of(group) == 0:
            gone.update({node: "its group is complete" for node in group.nodes if node not in fixed})
    take_pairs_out(rest, gone)
    look_for_duties(rest, gone)
    return [node for node in visits if node not in gone]


def take_pairs_out(rest: Open, gone: Dict[int, str]) -> None:
    """A pair of which one half is gone is gone. Raises `CannotBeReplanned` if the other half is on board."""
    for pair in rest.day.pairs:
        for one, other in ((pair.pickup, pair.delivery), (pair.delivery, pair.pickup)):
            if one in gone and other in rest.fixed:
                raise CannotBeReplanned(f"visit {other} is made, and the other half of its pair, visit {one}, is not: "
                                        f"{gone[one]}")
            if one in gone:
                gone.setdefault(other, gone[one])


def look_for_duties(rest: Open, gone: Mapping[int, str]) -> None:
    """Raises `CannotBeReplanned` if a visit is gone that must be made."""
    grouped = {node for group in rest.day.groups for node in group.nodes}
    for node in sorted(set(gone) - grouped):
        raise CannotBeReplanned(f"visit {node} must be made, and {gone[node]}")
    for number, group in enumerate(rest.day.groups):
        left = [node for node in group.nodes if node not in rest.fixed and node not in gone]
        if group.penalty is None and len(left) < rest.left_of(group):
            raise CannotBeReplanned(f"group {number} asks for {group.max} visits, and as many can no longer be made")
