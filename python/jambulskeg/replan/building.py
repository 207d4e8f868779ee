"""The model of the rest, field by field."""

from __future__ import annotations

from dataclasses import dataclass, replace
from typing import Dict, FrozenSet, Iterator, List, Optional, Sequence, Set

from ..intervals import Numbers, common
from ..records import (
    GREATEST_ENTRY, GREATEST_TRANSIT, HORIZON, MOST_DIMENSIONS, MOST_MATRICES, Allowed, Dimension, Evaluator, First,
    Group, Model, NodeRow, Pair, Vehicle, VehicleBreaks, VehicleRow,
)
from ..schedules import numbers_of
from .layout import Layout
from .moment import CannotBeReplanned, Clock, Van, Where

__all__ = ["Building", "can_go_on", "held_start"]

BARRED = GREATEST_TRANSIT
"""The transit of an arc that no route may have: above every cumul."""


def start_row(dimension: Dimension, vehicle: int) -> Optional[VehicleRow]:
    """What the start of a vehicle asks in a dimension."""
    return next((row for row in dimension.starts if row.vehicle == vehicle), None)


def can_go_on(day: Model, van: Van, clock: Clock) -> bool:
    """Whether a vehicle may make further visits: it is on the road, or it may still leave."""
    if van.where is not Where.HOME:
        return van.where is Where.ROAD
    return all(
        common(starts_of(dimension, van.vehicle), [(clock.now if at == clock.time else 0, HORIZON)])
        or (at == clock.time and held_start(day, van, clock) is not None)
        for at, dimension in enumerate(day.dimensions)
    )


def held_start(day: Model, van: Van, clock: Clock) -> Optional[int]:
    """The cumul at which a vehicle at home starts that leaves now, though all its starts are earlier. It may leave now,
    since it may wait on its first arc for as long as it likes. None for other vehicles."""
    if van.where is not Where.HOME or clock.time is None:
        return None
    dimension = day.dimensions[clock.time]
    starts, capacity = starts_of(dimension, van.vehicle), dimension.capacity_of(van.vehicle)
    may_wait = dimension.slack_max >= capacity and not dimension.breaks_of(van.vehicle)
    return starts[-1][1] if starts and starts[-1][1] < clock.now and may_wait else None


def starts_of(dimension: Dimension, vehicle: int) -> Numbers:
    """The cumuls with which a vehicle may start."""
    starts = numbers_of(start_row(dimension, vehicle), dimension.capacity_of(vehicle))
    return common(starts, [(0, 0)]) if dimension.fix_start else starts


@dataclass(frozen=True)
class Building:
    """What the model of the rest is made of: the day, the moment, its nodes, and where vehicles are. Beside that, which
    visits are made or begun, and which vehicles go on."""

    day: Model
    clock: Clock
    layout: Layout
    vans: Sequence[Van]
    fixed: FrozenSet[int]
    goes_on: FrozenSet[int]

    def held(self, vehicle: int) -> Optional[int]:
        """The cumul at which a vehicle starts that has waited until now; None for other vehicles."""
        return held_start(self.day, self.vans[vehicle], self.clock) if vehicle in self.goes_on else None

    def road(self) -> List[Van]:
        """The vehicles on the road."""
        return [van for van in self.vans if van.where is Where.ROAD]

    def made_up(self) -> Set[int]:
        """The nodes at which nothing is done any more: starts on the road, and pickups that are made."""
        return {*self.layout.starts.values(), *(node for chain in self.layout.chains.values() for node in chain[:-1])}

    def model(self) -> Model:
        """The model. Raises `CannotBeReplanned` if the day has no room for what it takes."""
        number = self.layout.number()
        search = self.day.search
        if search.first is First.SAVINGS:
            search = replace(search, first=First.PARALLEL_CHEAPEST_INSERTION)
        return replace(
            self.day,
            nodes=len(self.layout.nodes),
            matrices=self.matrices(),
            vehicles=[self.vehicle(vehicle, number) for vehicle in range(len(self.day.vehicles))],
            dimensions=[*(self.dimension(at, number) for at in range(len(self.day.dimensions))), *self.gate()],
            groups=list(self.groups(number)),
            pairs=[
                Pair(number[pair.pickup], number[pair.delivery])
                for pair in self.day.pairs if pair.pickup in number and pair.delivery in number
            ],
            allowed=list(self.allowed(number)),
            search=search,
        )

    def vehicle(self, vehicle: int, number: Dict[int, int]) -> Vehicle:
        """A vehicle; on the road it has been paid for already."""
        asked = self.day.vehicles[vehicle]
        if vehicle in self.layout.starts:
            return replace(asked, start=self.layout.starts[vehicle], end=number[asked.end], fixed=0)
        fixed = min(asked.fixed + self.waited(vehicle), GREATEST_ENTRY)
        return replace(asked, start=number[asked.start], end=number[asked.end], fixed=fixed)

    def waited(self, vehicle: int) -> int:
        """What it costs that a vehicle has waited until now, if it is used."""
        start = self.held(vehicle)
        if start is None or self.clock.time is None:
            return 0
        dimension = self.day.dimensions[self.clock.time]
        row = start_row(dimension, vehicle)
        late = row.soft.coefficient * max(0, start - row.soft.bound) if row is not None and row.soft is not None else 0
        return dimension.span_cost_of(vehicle) * (self.clock.now - start) + late

    def bars_in_time(self) -> bool:
        """Whether the dimension of times can bar arcs: no cumul of it is as great as `BARRED`."""
        if self.clock.time is None:
            return False
        dimension = self.day.dimensions[self.clock.time]
        least = min(min(evaluator.values or (0,)) for evaluator in dimension.evaluators)
        return max(map(dimension.capacity_of, range(len(self.day.vehicles)))) < BARRED + min(0, least)

    def timed(self) -> Sequence[Evaluator]:
        """The evaluators whose transits bar arcs."""
        return self.day.dimensions[self.clock.time].evaluators if self.clock.time is not None else ()

    def has_gate(self) -> bool:
        """Whether a matrix is needed that does nothing but bar arcs."""
        return bool(self.layout.chains) and (
            not self.bars_in_time() or any(evaluator.matrix is None for evaluator in self.timed())
        )

    def matrices(self) -> List[List[List[int]]]:
        """The matrices over the nodes of the rest, and perhaps one that bars arcs."""
        places, free = self.layout.places, list(self.layout.free_arcs())
        barred = list(self.layout.barred_arcs(self.day))
        bars = {evaluator.matrix for evaluator in self.timed()} if self.bars_in_time() else set()
        out = [[[row[head] for head in places] for row in map(matrix.__getitem__, places)]
               for matrix in self.day.matrices]
        if self.has_gate():
            bars.add(len(out))
            out.append([[0] * len(places) for _ in places])
        if len(out) > MOST_MATRICES:
            raise CannotBeReplanned(f"the day has {MOST_MATRICES} matrices, and its rest takes one more")
        for at, matrix in enumerate(out):
            for tail, head in free:
                matrix[tail][head] = 0
            for tail, head in barred if at in bars else ():
                matrix[tail][head] = BARRED
        return out

    def gate(self) -> Iterator[Dimension]:
        """The dimension that bars arcs if that of times cannot."""
        if not self.layout.chains or self.bars_in_time():
            return
        names = [dimension.name for dimension in self.day.dimensions]
        if len(names) == MOST_DIMENSIONS:
            raise CannotBeReplanned(f"the day has {MOST_DIMENSIONS} dimensions, and its rest takes one more")
        name = next(name for name in (f"on the road {at}" for at in range(1, MOST_DIMENSIONS + 1)) if name not in names)
        yield Dimension(name, [Evaluator(matrix=len(self.day.matrices))], slack_max=0, capacity=0, fix_start=True)

    def dimension(self, at: int, number: Dict[int, int]) -> Dimension:
        """A dimension of the day over the rest."""
        dimension, silent = self.day.dimensions[at], self.made_up()

        def kept(values: Optional[Sequence[int]]) -> Optional[List[int]]:
            return None if values is None else [
                0 if node in silent else values[of] for node, of in enumerate(self.layout.nodes)
            ]

        gate = len(self.day.matrices) if at == self.clock.time and self.has_gate() and self.bars_in_time() else None
        return replace(
            dimension,
            evaluators=[
                replace(evaluator, values=kept(evaluator.values),
                        matrix=gate if evaluator.matrix is None else evaluator.matrix)
                for evaluator in dimension.evaluators
            ],
            fix_start=dimension.fix_start and not self.layout.starts and at != self.clock.time,
            visit=kept(dimension.visit),
            nodes=list(self.node_rows(at, number)),
            starts=list(self.start_rows(at)),
            breaks=list(self.breaks(at)),
        )

    def node_rows(self, at: int, number: Dict[int, int]) -> Iterator[NodeRow]:
        """What the visits of the rest ask: a chain its cumuls, an open visit no time before the moment."""
        rows = {row.node: row for row in self.day.dimensions[at].nodes}
        chained = set()
        for van in self.road():
            cumul, chain = van.cumuls[at], self.layout.chains[van.vehicle]
            for node in chain:
                row = rows.get(self.layout.nodes[node])
                soft = row.soft if row is not None and node == chain[-1] else None
                chained.add(node)
                yield NodeRow(node, (cumul, cumul), soft=soft)
        ends = {node for vehicle in self.day.vehicles for node in (vehicle.start, vehicle.end)}
        for of, node in number.items():
            row = rows.get(of)
            if node in chained or of in ends:
                continue
            if at == self.clock.time:
                low, high = row.window if row is not None and row.window else (0, HORIZON)
                row = replace(row or NodeRow(of), window=(max(low, self.clock.now), high))
            if row is not None:
                yield replace(row, node=node)

    def start_rows(self, at: int) -> Iterator[VehicleRow]:
        """What the starts ask: on the road the cumuls there, at home no time before the moment."""
        dimension = self.day.dimensions[at]
        for van in self.vans:
            row = start_row(dimension, van.vehicle)
            if van.where is Where.ROAD:
                yield VehicleRow(van.vehicle, (van.cumuls[at], van.cumuls[at]))
                continue
            if at == self.clock.time and self.held(van.vehicle) is not None:
                row = VehicleRow(van.vehicle, (self.clock.now, self.clock.now))
            elif dimension.fix_start:
                row = replace(row or VehicleRow(van.vehicle), window=(0, 0))
            elif at == self.clock.time and van.vehicle in self.goes_on:
                low, high = row.window if row is not None and row.window else (0, HORIZON)
                row = replace(row or VehicleRow(van.vehicle), window=(max(low, self.clock.now), high))
            if row is not None:
                yield row

    def breaks(self, at: int) -> Iterator[VehicleBreaks]:
        """The breaks that are left; those of a vehicle on the road begin where its rest does, or later. Raises
        `CannotBeReplanned` if one was to begin earlier."""
        for row in self.day.dimensions[at].breaks:
            van = self.vans[row.vehicle]
            if van.where is not Where.ROAD:
                yield row
                continue
            begin = max(van.cumuls[at], self.clock.now if at == self.clock.time else 0)
            left = row.breaks[van.taken[at]:]
            for entry in left:
                if entry.to < begin:
                    raise CannotBeReplanned(
                        f"vehicle {row.vehicle} has not had its break that begins until {entry.to}, and at {begin} it "
                        "is too late for it"
                    )
            if left:
                yield VehicleBreaks(row.vehicle, [replace(entry, from_=max(entry.from_, begin)) for entry in left])

    def groups(self, number: Dict[int, int]) -> Iterator[Group]:
        """The groups of which something may still be made."""
        for group in self.day.groups:
            nodes = [number[node] for node in group.nodes if node in number and node not in self.fixed]
            left = group.max - len(self.fixed.intersection(group.nodes))
            if nodes and left > 0:
                yield replace(group, nodes=nodes, max=min(left, len(nodes)))

    def allowed(self, number: Dict[int, int]) -> Iterator[Allowed]:
        """Which vehicles may make what: a chain its own, an open visit those that go on."""
        ends = {node for vehicle in self.day.vehicles for node in (vehicle.start, vehicle.end)}
        by_node = {node: vehicle for vehicle, chain in self.layout.chains.items() for node in chain}
        for of, node in number.items():
            if of in ends:
                continue
            vehicles = [by_node[node]] if node in by_node else [
                vehicle for vehicle in self.day.vehicles_of(of) if vehicle in self.goes_on
            ]
            if len(vehicles) < len(self.day.vehicles):
                yield Allowed(node, vehicles)
