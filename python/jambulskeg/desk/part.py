"""The part of a day that a search may change: no vans that are off or pinned, and no visits that these keep.

A search of the part gives lists of the whole day. What the vans that stay out cost together with the others (global
spans) is not seen by such a search. So the whole day is judged afterwards, and kept if it is cheaper.
"""

from __future__ import annotations

from dataclasses import dataclass, replace
from operator import itemgetter
from typing import Any, List, Mapping, Optional, Sequence, Set

from ..kinds import Matrix
from ..records import Allowed, Dimension, Evaluator, Group, Model, Pair
from .states import BadChange, Lists, State

__all__ = ["Part", "part_of"]


@dataclass(frozen=True)
class Part:
    """A part of a day: its model, and which nodes and vehicles of the day its own are."""

    model: Model
    nodes: Sequence[int]
    vehicles: Sequence[int]

    def lists(self, found: Sequence[Sequence[int]], state: State) -> Lists:
        """The lists of the day in which the part has these lists, and all else is as it was."""
        out = list(state.lists)
        for vehicle, visits in zip(self.vehicles, found):
            out[vehicle] = tuple(self.nodes[node] for node in visits)
        return tuple(out)

    def own(self, lists: Lists) -> List[List[int]]:
        """The lists of the part's vehicles in the day, by its own numbers."""
        places = {node: place for place, node in enumerate(self.nodes)}
        return [[places[node] for node in lists[vehicle]] for vehicle in self.vehicles]


def part_of(model: Model, state: State) -> Part:
    """The part of a day that a search may change. Raises `BadChange` if nothing may be changed."""
    vehicles = [vehicle for vehicle in range(len(model.vehicles)) if vehicle not in state.off | state.pinned]
    if not vehicles:
        raise BadChange("every van is pinned or switched off, so no search has anything to do")
    visits = free_visits(model, state, set(vehicles))
    if not visits:
        raise BadChange("no visit is left for the vans that are neither pinned nor switched off")
    ends = {node for vehicle in vehicles for node in (model.vehicles[vehicle].start, model.vehicles[vehicle].end)}
    nodes = sorted(visits | ends)
    if len(nodes) == model.nodes and len(vehicles) == len(model.vehicles):
        return Part(model, nodes, vehicles)
    return Part(Cut(model, nodes, vehicles, kept(state)).model(), nodes, vehicles)


def kept(state: State) -> Set[int]:
    """The visits that pinned vans keep."""
    return {node for vehicle in state.pinned for node in state.lists[vehicle]}


def free_visits(model: Model, state: State, vehicles: Set[int]) -> Set[int]:
    """The visits that some of the vehicles may make."""
    taken = kept(state)
    barred = {row.node for row in model.allowed if vehicles.isdisjoint(row.vehicles)}
    for group in model.groups:
        if len(taken.intersection(group.nodes)) >= group.max:
            barred.update(group.nodes)
    free = set(model.visits()) - taken - barred
    for pair in model.pairs:
        if not free.issuperset((pair.pickup, pair.delivery)):
            free -= {pair.pickup, pair.delivery}
    return free


class Cut:
    """Cuts a model down to some nodes and vehicles; `taken` are visits that others keep."""

    def __init__(self, model: Model, nodes: Sequence[int], vehicles: Sequence[int], taken: Set[int]) -> None:
        self.whole, self.nodes, self.vehicles, self.taken = model, nodes, vehicles, taken
        self.node_of = {node: place for place, node in enumerate(nodes)}
        self.vehicle_of = {vehicle: place for place, vehicle in enumerate(vehicles)}

    def model(self) -> Model:
        """The model of the nodes and vehicles."""
        whole = self.whole
        vehicles = [
            replace(entry, start=self.node_of[entry.start], end=self.node_of[entry.end])
            for entry in (whole.vehicles[vehicle] for vehicle in self.vehicles)
        ]
        return Model(
            nodes=len(self.nodes),
            matrices=[self.matrix(matrix) for matrix in whole.matrices],
            vehicles=vehicles,
            dimensions=[self.dimension(dimension) for dimension in whole.dimensions],
            groups=[group for group in map(self.group, whole.groups) if group is not None],
            pairs=[Pair(self.node_of[pair.pickup], self.node_of[pair.delivery]) for pair in whole.pairs
                   if pair.pickup in self.node_of and pair.delivery in self.node_of],
            allowed=[row for row in map(self.allowed, whole.allowed) if row is not None],
            search=whole.search,
            format=whole.format,
        )

    def matrix(self, matrix: Sequence[Sequence[int]]) -> Sequence[Sequence[int]]:
        """The entries between the nodes."""
        if len(self.nodes) == 1:
            return [[matrix[self.nodes[0]][self.nodes[0]]]]
        columns = itemgetter(*self.nodes)
        out = Matrix(columns(matrix[node]) for node in self.nodes)
        if isinstance(matrix, Matrix):
            out.kind = matrix.kind
            return out
        return [list(row) for row in out]

    def at_nodes(self, values: Optional[Sequence[int]]) -> Optional[List[int]]:
        """The values of the nodes."""
        return None if values is None else [values[node] for node in self.nodes]

    def at_vehicles(self, values: Any) -> Any:
        """The values of the vehicles; one for all stays so."""
        return [values[vehicle] for vehicle in self.vehicles] if isinstance(values, Sequence) else values

    def dimension(self, whole: Dimension) -> Dimension:
        """What adds up along the routes of the vehicles."""
        return replace(
            whole,
            evaluators=[Evaluator(entry.matrix, self.at_nodes(entry.values)) for entry in whole.evaluators],
            capacity=self.at_vehicles(whole.capacity),
            vehicle_evaluators=self.at_vehicles(whole.vehicle_evaluators),
            visit=self.at_nodes(whole.visit),
            nodes=self.rows(whole.nodes, "node", self.node_of),
            starts=self.rows(whole.starts, "vehicle", self.vehicle_of),
            ends=self.rows(whole.ends, "vehicle", self.vehicle_of),
            breaks=self.rows(whole.breaks, "vehicle", self.vehicle_of),
            span_cost=self.at_vehicles(whole.span_cost),
        )

    def rows(self, rows: Sequence[Any], key: str, place_of: Mapping[int, int]) -> List[Any]:
        """The rows of nodes or vehicles that are there, with their new numbers."""
        return [replace(row, **{key: place_of[getattr(row, key)]}) for row in rows if getattr(row, key) in place_of]

    def group(self, whole: Group) -> Optional[Group]:
        """A group as far as its visits may be made here: those that others keep count already."""
        nodes = [self.node_of[node] for node in whole.nodes if node in self.node_of]
        most = whole.max - len(self.taken.intersection(whole.nodes))
        if not nodes or most < 1:
            return None
        # A group without a penalty that cannot have enough visits any more is made as far as it can be.
        return Group(nodes, whole.penalty, min(most, len(nodes)))

    def allowed(self, whole: Allowed) -> Optional[Allowed]:
        """The vehicles here that may make a visit."""
        if whole.node not in self.node_of:
            return None
        left = [self.vehicle_of[vehicle] for vehicle in whole.vehicles if vehicle in self.vehicle_of]
        return Allowed(self.node_of[whole.node], left)
