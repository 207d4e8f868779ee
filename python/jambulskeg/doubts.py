"""What a model may say and what looks wrong all the same: `for doubt in doubts(model): print(doubt.sentence)`.

Nothing here is a fault: the program solves such models. It does not tell that a visit can never be made, or that
seconds are beside minutes. A doubt says where to look, and may be unfounded.
"""

from __future__ import annotations

import statistics
from dataclasses import dataclass
from enum import Enum
from typing import Callable, Iterator, List, Optional, Sequence, Tuple

from .arguments import A_MODEL, asks
from .intervals import Numbers, common
from .records import Dimension, Evaluator, Model, NodeRow
from .schedules import chain_of, numbers_of

__all__ = ["Doubt", "DoubtKind", "doubts"]

SECONDS = 60
"""How many of the smaller unit the larger one may have, when units are doubted."""


class DoubtKind(Enum):
    """What is doubted."""

    LOAD_ABOVE_CAPACITY = "load above every capacity"
    NEGATIVE_LOAD = "negative load"
    WINDOW_NEVER_OPEN = "window never open"
    WINDOW_OUT_OF_REACH = "window out of reach"
    BREAKS_CANNOT_FOLLOW = "breaks cannot follow one another"
    BREAKS_WITHOUT_VISIT = "breaks without visit times"
    VISIT_WITHOUT_VALUES = "visit times that the way on lacks"
    PAIR_IN_ONE_GROUP = "pair in one group"
    PAIR_HALF_OPTIONAL = "pair half optional"
    DRIVE_ABOVE_WINDOWS = "drive above every window"
    UNITS = "units"
    PAID_TWICE = "paid twice"
    PENALTY_BELOW_ARCS = "penalty below every arc"
    ALL_ARCS_FREE = "no arc costs anything"
    LONG_RIDE = "long ride"
    BREAK_OUTSIDE = "break outside of the day"


@dataclass(frozen=True)
class Doubt:
    """What looks wrong: its kind, the path of the field in the model, and a sentence."""

    kind: DoubtKind
    path: str
    sentence: str


Look = Callable[[Model, int], Iterator[Doubt]]


@asks(model=A_MODEL)
def doubts(model: Model) -> List[Doubt]:
    """What looks wrong in a model, dimension by dimension, and then in its pairs and groups."""
    found = [doubt for number in range(len(model.dimensions)) for look in LOOKS for doubt in look(model, number)]
    return [*found, *pair_doubts(model), *penalty_doubts(model), *arc_doubts(model)]


def loads(model: Model, number: int) -> Iterator[Doubt]:
    """Loads that no vehicle has room for, and loads below 0 in a model without pairs."""
    dimension = model.dimensions[number]
    if dimension.slack_max or any(evaluator.matrix is not None for evaluator in dimension.evaluators):
        return
    for node in model.visits():
        path = f"/dimensions/{number}/evaluators"
        taken = {vehicle: model.transit(number, vehicle, node, node) for vehicle in model.vehicles_of(node)}
        if all(abs(load) > dimension.capacity_of(vehicle) for vehicle, load in taken.items()):
            yield Doubt(
                DoubtKind.LOAD_ABOVE_CAPACITY, path,
                f"no vehicle that may visit node {node} has room for its {max(taken.values())} of '{dimension.name}'",
            )
        elif min(taken.values()) < 0 and not model.pairs:
            yield Doubt(
                DoubtKind.NEGATIVE_LOAD, path,
                f"node {node} adds {min(taken.values())} to '{dimension.name}', and there are no pairs",
            )


def open_times(model: Model, number: int, row: NodeRow, vehicle: int) -> Numbers:
    """The cumuls that a visit allows a vehicle."""
    return numbers_of(row, model.dimensions[number].capacity_of(vehicle))


def is_reached(model: Model, number: int, row: NodeRow, vehicle: int) -> bool:
    """Whether a vehicle that drives straight there from its start can be there while a visit is open, and then at its
    end in time."""
    dimension, ends = model.dimensions[number], model.vehicles[vehicle]
    start, end = (
        numbers_of(next((stop for stop in stops if stop.vehicle == vehicle), None), dimension.capacity_of(vehicle))
        for stops in (dimension.starts, dimension.ends)
    )
    if not start or not end:
        return False
    earliest = (0 if dimension.fix_start else start[0][0]) + model.transit(number, vehicle, ends.start, row.node)
    latest = end[-1][1] - model.transit(number, vehicle, row.node, ends.end)
    return bool(common(open_times(model, number, row, vehicle), [(earliest, latest)]) if earliest <= latest else [])


def windows(model: Model, number: int) -> Iterator[Doubt]:
    """Windows that are forbidden whole, or that no vehicle reaches from its start."""
    dimension = model.dimensions[number]
    unreached = 0
    for place, row in enumerate(dimension.nodes):
        path, allowed = f"/dimensions/{number}/nodes/{place}", model.vehicles_of(row.node)
        if not any(open_times(model, number, row, vehicle) for vehicle in allowed):
            yield Doubt(
                DoubtKind.WINDOW_NEVER_OPEN, path,
                f"node {row.node} is open at no time of '{dimension.name}' that a vehicle's capacity allows",
            )
        elif not any(is_reached(model, number, row, vehicle) for vehicle in allowed):
            unreached += 1
            yield Doubt(
                DoubtKind.WINDOW_OUT_OF_REACH, path,
                f"no vehicle that drives straight to node {row.node} and on to its end keeps '{dimension.name}'",
            )
    if unreached > 1 and 2 * unreached > len(dimension.nodes):
        yield Doubt(
            DoubtKind.UNITS, f"/dimensions/{number}",
            f"{unreached} of {len(dimension.nodes)} visits are out of reach in '{dimension.name}': "
            "are drives and windows in one unit?",
        )


def breaks(model: Model, number: int) -> Iterator[Doubt]:
    """Breaks that cannot follow one another, and breaks that may begin in the middle of a visit."""
    dimension = model.dimensions[number]
    for place, row in enumerate(dimension.breaks):
        if chain_of(row.breaks) is None:
            yield Doubt(
                DoubtKind.BREAKS_CANNOT_FOLLOW, f"/dimensions/{number}/breaks/{place}",
                f"the breaks of vehicle {row.vehicle} cannot follow one another in this order, so it stays at home",
            )
        elif any(entry.duration > dimension.slack_max for entry in row.breaks):
            yield Doubt(
                DoubtKind.BREAKS_CANNOT_FOLLOW, f"/dimensions/{number}/slack_max",
                f"a break of vehicle {row.vehicle} is longer than the slack of an arc, so it is taken before the "
                "start or after the end only",
            )
    if dimension.breaks and dimension.visit is None and any(
        any(evaluator.values or ()) for evaluator in dimension.evaluators
    ):
        yield Doubt(
            DoubtKind.BREAKS_WITHOUT_VISIT, f"/dimensions/{number}/visit",
            f"'{dimension.name}' has values and breaks and no visit times: a break may begin during a visit",
        )


def least_way(model: Model, evaluator: Evaluator, node: int) -> int:
    """The least transit from a node to another one."""
    row = () if evaluator.matrix is None else model.matrices[evaluator.matrix][node]
    return min([*row[:node], *row[node + 1:]], default=0) + (evaluator.values[node] if evaluator.values else 0)


def short_ways(model: Model, number: int) -> Iterator[Doubt]:
    """Visits that take longer than some way from them to a next stop, which should have their time in it."""
    dimension = model.dimensions[number]
    if not dimension.visit or not any(dimension.visit):
        return
    used = [dimension.evaluators[entry] for entry in set(dimension.vehicle_evaluators or (0,))]
    ways = [(node, min(least_way(model, evaluator, node) for evaluator in used)) for node in model.visits()]
    short = [(node, way) for node, way in ways if way < dimension.visit[node]]
    if short:
        node, way = short[0]
        yield Doubt(
            DoubtKind.VISIT_WITHOUT_VALUES, f"/dimensions/{number}/visit",
            f"a visit of node {node} takes {dimension.visit[node]} and its way to a next stop {way} in all (so of "
            f"{len(short)} nodes): 'visit' adds nothing to '{dimension.name}', that is what 'values' do",
        )


def drives(model: Model, number: int) -> List[int]:
    """The way between each two different nodes in a dimension, by the matrices of its vehicles."""
    used = {model.dimensions[number].evaluator_of(vehicle).matrix for vehicle in range(len(model.vehicles))}
    return [
        entry for matrix in used if matrix is not None
        for tail, row in enumerate(model.matrices[matrix]) for head, entry in enumerate(row) if tail != head
    ]


def units(model: Model, number: int) -> Iterator[Doubt]:
    """A drive above every window, and windows beside which each drive is next to nothing."""
    dimension = model.dimensions[number]
    spans = [row.window for row in dimension.nodes if row.window]
    ways = drives(model, number)
    if not spans or not ways:
        return
    latest, longest = max(high for _, high in spans), max(ways)
    if statistics.median_low(ways) > latest:
        yield Doubt(
            DoubtKind.DRIVE_ABOVE_WINDOWS, f"/dimensions/{number}",
            f"more than half of the drives of '{dimension.name}' take longer than until the last window closes, "
            f"at {latest}: are they in a smaller unit?",
        )
    elif longest > latest:
        yield Doubt(
            DoubtKind.DRIVE_ABOVE_WINDOWS, f"/dimensions/{number}",
            f"a drive of {longest} in '{dimension.name}' is longer than until the last window closes, at {latest}",
        )
    elif longest and longest * SECONDS <= min(high - low for low, high in spans):
        yield Doubt(
            DoubtKind.UNITS, f"/dimensions/{number}",
            f"the longest drive of '{dimension.name}' is {longest}, a sixtieth of the shortest window or less: "
            "are windows in a smaller unit?",
        )


def paid_twice(model: Model, number: int) -> Iterator[Doubt]:
    """Arcs that cost what a dimension's spans cost once more."""
    dimension = model.dimensions[number]
    for vehicle, entry in enumerate(model.vehicles):
        matrix = dimension.evaluator_of(vehicle).matrix
        if matrix is not None and matrix == entry.costs and dimension.span_cost_of(vehicle):
            yield Doubt(
                DoubtKind.PAID_TWICE, f"/vehicles/{vehicle}/costs",
                f"the arcs of vehicle {vehicle} cost matrix {matrix}, and 'span_cost' of '{dimension.name}' pays the "
                "same once more",
            )
            return


LOOKS: Tuple[Look, ...] = (loads, windows, breaks, short_ways, units, paid_twice)


def group_of(model: Model, node: int) -> Optional[int]:
    """The number of the group in which a node is."""
    return next((number for number, group in enumerate(model.groups) if node in group.nodes), None)


def pair_doubts(model: Model) -> Iterator[Doubt]:
    """Pairs that no group lets be made, and pairs of which one alone may be left out."""
    for number, pair in enumerate(model.pairs):
        groups: Sequence[Optional[int]] = [group_of(model, node) for node in (pair.pickup, pair.delivery)]
        one, other = groups
        if one is not None and one == other and model.groups[one].max == 1:
            yield Doubt(
                DoubtKind.PAIR_IN_ONE_GROUP, f"/groups/{one}/max",
                f"pair {number} is in one group of which one visit alone is made, so it is never made: let 'max' "
                "be 2, or give each node a group of its own",
            )
        elif (one is None) != (other is None):
            yield Doubt(
                DoubtKind.PAIR_HALF_OPTIONAL, f"/pairs/{number}",
                f"of pair {number} one node is in a group and the other in none, so both must be made: give the "
                "other a group with the penalty 0",
            )


def cheapest_arcs(model: Model) -> List[int]:
    """For each node the least that an arc from or to another node costs some vehicle."""
    used = [model.matrices[number] for number in {vehicle.costs for vehicle in model.vehicles}]
    return [
        min(min([*row[:node], *row[node + 1:]], default=0) for row in rows)
        for node, rows in enumerate(zip(*used, *(zip(*matrix) for matrix in used)))
    ]


def penalty_doubts(model: Model) -> Iterator[Doubt]:
    """Penalties beside which each arc is dear, so that whoever they belong to is hardly visited at all."""
    arcs = cheapest_arcs(model) if any(group.penalty for group in model.groups) else []
    cheap = [
        (number, group.penalty, min(arcs[node] for node in group.nodes)) for number, group in enumerate(model.groups)
        if group.penalty and group.penalty < min(arcs[node] for node in group.nodes)
    ]
    if cheap:
        number, penalty, arc = cheap[0]
        yield Doubt(
            DoubtKind.PENALTY_BELOW_ARCS, f"/groups/{number}/penalty",
            f"to leave a visit of group {number} out costs {penalty}, and each arc to it {arc} or more (so of "
            f"{len(cheap)} of {len(model.groups)} groups): are penalties and arcs in one unit?",
        )


def arc_doubts(model: Model) -> Iterator[Doubt]:
    """Matrices of costs in which nothing costs anything, as those of places whose distances are rounded to 0."""
    used = sorted({vehicle.costs for vehicle in model.vehicles})
    costs = (
        entry for number in used for tail, row in enumerate(model.matrices[number])
        for head, entry in enumerate(row) if tail != head
    )
    if model.nodes > 1 and not any(costs):
        yield Doubt(
            DoubtKind.ALL_ARCS_FREE, f"/matrices/{used[0]}",
            "no arc costs anything, so guided search has nothing to penalise: were distances rounded to 0?",
        )
