"""The model file as dataclasses: each field is checked where it is written, with the code that the program would tell.

What one record can tell by itself (kinds, ranges, lengths) is found here. What takes the whole model is found by
`whole`: whether a node is a visit, whether a list has an entry for each vehicle. Rules on values are left to the
program.

Numbers are whole; units are the planner's own. Field names are those of docs/FORMAT.md, but for `from_` and `lambda_`.
"""

from __future__ import annotations

import json
from dataclasses import dataclass
from enum import Enum
from typing import Annotated, Any, Iterator, List, Mapping, Optional, Sequence, Set, Tuple, Union

from .errors import Fault
from .kinds import Either, Flag, Inner, Maybe, Record, Row, Span, Square, Text, Whole, Word
from .whole import model_faults

MOST_NODES = 1000
MOST_VEHICLES = 100
MOST_MATRICES = 16
MOST_DIMENSIONS = 4
HORIZON = 2**36
"""The greatest cumul; capacities and slack limits above it are read as it."""
LARGEST = 2**63 - 1
GREATEST_ENTRY = 2**40
"""The greatest entry of a matrix, fixed cost and penalty."""
GREATEST_TRANSIT = 2**30
GREATEST_COEFFICIENT = 10000
MOST_TRIES = 10**9
MOVES_OF_A_CUT = 1000
"""A cut of path LNS, or a step of ruin and recreate, takes about as long as this many moves, on large days longer."""

NODE = Whole(0, MOST_NODES - 1)
VEHICLE = Whole(0, MOST_VEHICLES - 1)
COEFFICIENT = Whole(0, GREATEST_COEFFICIENT)
AMOUNT = Whole(0, LARGEST)


class Policy(Enum):
    """The order of deliveries of the pairs on a vehicle."""

    ANY = "any"
    LIFO = "lifo"
    FIFO = "fifo"


class ScheduleRule(Enum):
    """By which rule a vehicle chooses one of its schedules, in each dimension; format 2 alone has it."""

    EARLIEST = "earliest"
    """The least cumuls, compared from the start on."""
    TIGHT = "tight"
    """The day ends as early as it can, begins as late as that allows, and then has the least cumuls."""


class First(Enum):
    """How the first solution is built (OR-Tools: FirstSolutionStrategy)."""

    PATH_CHEAPEST_ARC = "PATH_CHEAPEST_ARC"
    PARALLEL_CHEAPEST_INSERTION = "PARALLEL_CHEAPEST_INSERTION"
    SAVINGS = "SAVINGS"


class Improve(Enum):
    """How the first solution is improved (OR-Tools: LocalSearchMetaheuristic)."""

    NONE = "NONE"
    GREEDY_DESCENT = "GREEDY_DESCENT"
    GUIDED_LOCAL_SEARCH = "GUIDED_LOCAL_SEARCH"
    PATH_LNS = "PATH_LNS"
    TABU_SEARCH = "TABU_SEARCH"


class Neighbourhood(Enum):
    """The kinds of moves of a search."""

    TWO_OPT = "two_opt"
    OR_OPT = "or_opt"
    RELOCATE = "relocate"
    EXCHANGE = "exchange"
    CROSS = "cross"
    RELOCATE_PAIR = "relocate_pair"
    PAIR_ACTIVE = "pair_active"
    PAIR_INACTIVE = "pair_inactive"
    MAKE_ACTIVE = "make_active"
    MAKE_INACTIVE = "make_inactive"
    SWAP_ACTIVE = "swap_active"


def repeated(entries: Sequence[int], path: str) -> Iterator[Fault]:
    """A fault of code 16 at each entry that is at an earlier place too."""
    seen: Set[int] = set()
    for place, entry in enumerate(entries):
        if entry in seen:
            yield Fault(16, f"{path}/{place}", f"{entry} stands here a second time")
        seen.add(entry)


@dataclass(frozen=True)
class FirstVehicle(Record):
    """A vehicle of format 1, as a file has it: it has no field `schedule`."""

    start: Annotated[int, NODE]
    end: Annotated[int, NODE]
    costs: Annotated[int, Whole(0, MOST_MATRICES - 1)] = 0
    fixed: Annotated[int, Whole(0, GREATEST_ENTRY)] = 0
    policy: Annotated[Policy, Word(Policy)] = Policy.ANY


@dataclass(frozen=True)
class Vehicle(FirstVehicle):
    """A vehicle: the nodes where it starts and ends, the number of its cost matrix, and what it costs to use it at all.
    Beside that, the order of its deliveries and the rule of its schedules."""

    schedule: Annotated[ScheduleRule, Word(ScheduleRule)] = ScheduleRule.EARLIEST


@dataclass(frozen=True)
class Evaluator(Record):
    """Transits of a dimension: from i to j the entry of the matrix of that number, plus the value of i."""

    matrix: Annotated[Optional[int], Maybe(Whole(0, MOST_MATRICES - 1))] = None
    values: Annotated[
        Optional[Sequence[int]], Maybe(Row(Whole(-GREATEST_TRANSIT, GREATEST_TRANSIT), 1, MOST_NODES))
    ] = None


@dataclass(frozen=True)
class Soft(Record):
    """Each unit of a cumul above the bound costs the coefficient (OR-Tools: SetCumulVarSoftUpperBound)."""

    bound: Annotated[int, Whole(0, HORIZON)]
    coefficient: Annotated[int, COEFFICIENT]


@dataclass(frozen=True)
class NodeRow(Record):
    """What a visit asks of its cumul: it lies in the window, in no forbidden interval, and what is late costs."""

    node: Annotated[int, NODE]
    window: Annotated[Optional[Tuple[int, int]], Maybe(Span(HORIZON))] = None
    forbidden: Annotated[Sequence[Tuple[int, int]], Row(Span(HORIZON), 0, 16)] = ()
    soft: Annotated[Optional[Soft], Maybe(Inner(Soft))] = None


@dataclass(frozen=True)
class VehicleRow(Record):
    """What the start or the end of a vehicle asks of its cumul, as a `NodeRow` does of a visit's."""

    vehicle: Annotated[int, VEHICLE]
    window: Annotated[Optional[Tuple[int, int]], Maybe(Span(HORIZON))] = None
    forbidden: Annotated[Sequence[Tuple[int, int]], Row(Span(HORIZON), 0, 16)] = ()
    soft: Annotated[Optional[Soft], Maybe(Inner(Soft))] = None


StopRow = Union[NodeRow, VehicleRow]


@dataclass(frozen=True)
class Break(Record):
    """A break: it starts in `from_` to `to` (the latest start, not the end) and lasts `duration`."""

    from_: Annotated[int, Whole(0, HORIZON)]
    to: Annotated[int, Whole(0, HORIZON)]
    duration: Annotated[int, Whole(1, HORIZON)]

    def own_faults(self) -> Iterator[Fault]:
        if self.from_ > self.to:
            yield Fault(19, "", f"the break may start from {self.from_} to {self.to}, which is never")


@dataclass(frozen=True)
class VehicleBreaks(Record):
    """The breaks of a vehicle in their order; it takes all of them if it is used."""

    vehicle: Annotated[int, VEHICLE]
    breaks: Annotated[Sequence[Break], Row(Inner(Break), 1, 8)]


@dataclass(frozen=True)
class Dimension(Record):
    """What adds up along a route: time, load, distance (OR-Tools: RoutingDimension).

    The cumul at the next stop is the cumul here plus the transit plus a slack of 0 to `slack_max`. The first arc has
    slack too: under the rule `earliest` a vehicle leaves as early as that allows. So take the least `slack_max` with
    which everybody is served.
    """

    name: Annotated[str, Text(1, 64)]
    evaluators: Annotated[Sequence[Evaluator], Row(Inner(Evaluator), 1, 8)]
    slack_max: Annotated[int, AMOUNT]
    capacity: Annotated[Union[int, Sequence[int]], Either(AMOUNT, Row(AMOUNT, 1, MOST_VEHICLES))]
    vehicle_evaluators: Annotated[Optional[Sequence[int]], Maybe(Row(Whole(0, 7), 1, MOST_VEHICLES))] = None
    fix_start: Annotated[bool, Flag()] = False
    visit: Annotated[Optional[Sequence[int]], Maybe(Row(Whole(0, GREATEST_TRANSIT), 1, MOST_NODES))] = None
    nodes: Annotated[Sequence[NodeRow], Row(Inner(NodeRow), 0, MOST_NODES)] = ()
    starts: Annotated[Sequence[VehicleRow], Row(Inner(VehicleRow), 0, MOST_VEHICLES)] = ()
    ends: Annotated[Sequence[VehicleRow], Row(Inner(VehicleRow), 0, MOST_VEHICLES)] = ()
    breaks: Annotated[Sequence[VehicleBreaks], Row(Inner(VehicleBreaks), 0, MOST_VEHICLES)] = ()
    span_cost: Annotated[
        Union[int, Sequence[int]], Either(COEFFICIENT, Row(COEFFICIENT, 1, MOST_VEHICLES))
    ] = 0
    global_span_cost: Annotated[int, COEFFICIENT] = 0

    def own_faults(self) -> Iterator[Fault]:
        yield from repeated_rows([row.node for row in self.nodes], "/nodes", "node")
        yield from repeated_rows([row.vehicle for row in self.starts], "/starts", "vehicle")
        yield from repeated_rows([row.vehicle for row in self.ends], "/ends", "vehicle")
        yield from repeated_rows([row.vehicle for row in self.breaks], "/breaks", "vehicle")
        for vehicle, number in enumerate(self.vehicle_evaluators or ()):
            if number >= len(self.evaluators):
                yield Fault(14, f"/vehicle_evaluators/{vehicle}", f"there is no evaluator {number}")

    def evaluator_of(self, vehicle: int) -> Evaluator:
        """The evaluator of a vehicle."""
        return self.evaluators[self.vehicle_evaluators[vehicle] if self.vehicle_evaluators else 0]

    def capacity_of(self, vehicle: int) -> int:
        """The greatest cumul of a vehicle, at most `HORIZON`."""
        capacity = self.capacity if isinstance(self.capacity, int) else self.capacity[vehicle]
        return min(capacity, HORIZON)

    def span_cost_of(self, vehicle: int) -> int:
        """What a unit from the start's cumul to the end's costs of a vehicle."""
        return self.span_cost if isinstance(self.span_cost, int) else self.span_cost[vehicle]

    def breaks_of(self, vehicle: int) -> Sequence[Break]:
        """The breaks of a vehicle in their order."""
        return next((row.breaks for row in self.breaks if row.vehicle == vehicle), ())


def repeated_rows(keys: Sequence[int], path: str, key: str) -> Iterator[Fault]:
    """A fault of code 16 at the key of each row that has the key of an earlier one."""
    for fault in repeated(keys, path):
        yield Fault(16, f"{fault.path}/{key}", fault.detail)


@dataclass(frozen=True)
class Group(Record):
    """Visits of which at most `max` are made, each fewer at the penalty; without a penalty exactly `max` are.

    OR-Tools: AddDisjunction. A group of one visit with a penalty is an optional visit.
    """

    nodes: Annotated[Sequence[int], Row(NODE, 1, MOST_NODES)]
    penalty: Annotated[Optional[int], Maybe(Whole(0, GREATEST_ENTRY))] = None
    max: Annotated[int, Whole(1, MOST_NODES)] = 1

    def own_faults(self) -> Iterator[Fault]:
        yield from repeated(self.nodes, "/nodes")
        if self.max > len(self.nodes):
            yield Fault(14, "/max", f"{self.max} of {len(self.nodes)} nodes cannot be made")


@dataclass(frozen=True)
class Pair(Record):
    """A pickup and its delivery: both by one vehicle, the pickup first, or neither (OR-Tools: AddPickupAndDelivery)."""

    pickup: Annotated[int, NODE]
    delivery: Annotated[int, NODE]

    def own_faults(self) -> Iterator[Fault]:
        if self.pickup == self.delivery:
            yield Fault(16, "/delivery", f"{self.delivery} is the pickup too")


@dataclass(frozen=True)
class Allowed(Record):
    """The vehicles that may make a visit (OR-Tools: SetAllowedVehiclesForIndex)."""

    node: Annotated[int, NODE]
    vehicles: Annotated[Sequence[int], Row(VEHICLE, 1, MOST_VEHICLES)]

    def own_faults(self) -> Iterator[Fault]:
        yield from repeated(self.vehicles, "/vehicles")


@dataclass(frozen=True)
class Search(Record):
    """How a solution is looked for: construction, search, the most moves tried, the most solutions.

    - `lambda_` = (p, q) is the weight p/q of penalties in guided local search.
    - `cut` is how many visits path LNS takes out of a route at most.
    - `tenure` is for how many rounds a visit that was changed stays so in tabu search.

    About 10^6 tries are a beginning, 10^7 give a plan to print; the default stops most searches of 100 visits early. In
    path LNS a try is a cut, which takes about as long as `MOVES_OF_A_CUT` moves.
    """

    first: Annotated[First, Word(First)] = First.PATH_CHEAPEST_ARC
    improve: Annotated[Improve, Word(Improve)] = Improve.GREEDY_DESCENT
    tries: Annotated[int, Whole(0, MOST_TRIES)] = 100000
    solutions: Annotated[int, Whole(1, MOST_TRIES)] = MOST_TRIES
    lambda_: Annotated[Sequence[int], Row(Whole(1, 1000), 2, 2)] = (1, 10)
    neighbourhoods: Annotated[
        Optional[Sequence[Neighbourhood]], Maybe(Row(Word(Neighbourhood), 0, len(Neighbourhood)))
    ] = None
    cut: Annotated[int, Whole(1, 100)] = 10
    tenure: Annotated[int, Whole(1, 1000)] = 10

    def own_faults(self) -> Iterator[Fault]:
        words = list(Neighbourhood)
        yield from repeated([words.index(word) for word in self.neighbourhoods or ()], "/neighbourhoods")


@dataclass(frozen=True)
class Refine(Record):
    """A search by ruin and recreate from given routes, of the program vr_refine (SISR: Christiaens, Vanden Berghe).

    A step takes about `removed` visits out of neighbouring routes, from one of them a string of at most `string`. It
    puts them back at the cheapest places. `seed` is where its random numbers begin. `heat` is how much dearer a step
    may make the routes at first and still be kept; if it is None, the search chooses it. Its steps are the model's
    `tries`.
    """

    seed: Annotated[int, Whole(0, LARGEST)] = 0
    removed: Annotated[int, Whole(1, 100)] = 10
    string: Annotated[int, Whole(1, 100)] = 10
    heat: Annotated[Optional[int], Maybe(Whole(0, GREATEST_ENTRY))] = None


def moves_of(search: Search) -> int:
    """How many moves take about as long as the tries of a search."""
    return min(search.tries * MOVES_OF_A_CUT, MOST_TRIES) if search.improve is Improve.PATH_LNS else search.tries


def tries_for(improve: Improve, moves: int) -> int:
    """The tries with which a search takes about as long as one that tries this many moves."""
    return steps_for(moves) if improve is Improve.PATH_LNS else moves


def steps_for(moves: int) -> int:
    """The steps of ruin and recreate, or the cuts of path LNS, that take about as long as this many moves."""
    return -(-moves // MOVES_OF_A_CUT)


@dataclass(frozen=True, repr=False)
class Model(Record):
    """A model: nodes, matrices, vehicles, and what is asked of routes. `Model.of(tree)` reads one, `tree` writes it.

    A node where some vehicle starts or ends is no visit. Every other node is one, and must be made unless it is in a
    group. Raises `Refused` at the first faulty field; negative costs and transits are left to the program. A vehicle
    with a `schedule` of its own asks for `format=2`.
    """

    nodes: Annotated[int, Whole(1, MOST_NODES)]
    matrices: Annotated[
        Sequence[Sequence[Sequence[int]]],
        Row(Square(-GREATEST_TRANSIT, GREATEST_ENTRY, MOST_NODES), 1, MOST_MATRICES),
    ]
    vehicles: Annotated[Sequence[Vehicle], Row(Inner(Vehicle), 1, MOST_VEHICLES)]
    dimensions: Annotated[Sequence[Dimension], Row(Inner(Dimension), 0, MOST_DIMENSIONS)] = ()
    groups: Annotated[Sequence[Group], Row(Inner(Group), 0, 1000)] = ()
    pairs: Annotated[Sequence[Pair], Row(Inner(Pair), 0, 500)] = ()
    allowed: Annotated[Sequence[Allowed], Row(Inner(Allowed), 0, 1000)] = ()
    search: Annotated[Search, Inner(Search)] = Search()
    format: Annotated[int, Whole(1, 2)] = 1

    def __repr__(self) -> str:
        return f"Model({self.nodes} nodes, {len(self.vehicles)} vehicles, {len(self.dimensions)} dimensions)"

    def own_faults(self) -> Iterator[Fault]:
        yield from model_faults(self)

    @classmethod
    def faults_of(cls, tree: Any, path: str = "") -> Iterator[Fault]:
        """Each fault of a JSON object that should be a model; none exactly if `of` takes it."""
        is_first = cls is Model and isinstance(tree, Mapping) and tree.get("format", 1) == 1
        yield from FirstModel.faults_of(tree, path) if is_first else super().faults_of(tree, path)

    def tree(self) -> "dict[str, object]":
        return {"format": self.format, **super().tree()}

    def text(self) -> str:
        """The model file: one line of JSON."""
        return json.dumps(self.tree(), separators=(",", ":"))

    def visits(self) -> List[int]:
        """The nodes that are neither a start nor an end, ascending."""
        ends = {node for vehicle in self.vehicles for node in (vehicle.start, vehicle.end)}
        return [node for node in range(self.nodes) if node not in ends]

    def arc_cost(self, vehicle: int, tail: int, head: int) -> int:
        """What the arc between two nodes costs a vehicle."""
        return self.matrices[self.vehicles[vehicle].costs][tail][head]

    def transit(self, dimension: int, vehicle: int, tail: int, head: int) -> int:
        """The transit between two nodes, by the evaluator of a vehicle."""
        evaluator = self.dimensions[dimension].evaluator_of(vehicle)
        way = 0 if evaluator.matrix is None else self.matrices[evaluator.matrix][tail][head]
        return way + (0 if evaluator.values is None else evaluator.values[tail])

    def vehicles_of(self, node: int) -> Sequence[int]:
        """The vehicles that may make a visit."""
        row = next((row for row in self.allowed if row.node == node), None)
        return range(len(self.vehicles)) if row is None else row.vehicles


@dataclass(frozen=True)
class FirstModel(Model):
    """A model of format 1, as a file has it: in it `schedule` is a field that no vehicle has."""

    vehicles: Annotated[Sequence[Vehicle], Row(Inner(FirstVehicle), 1, MOST_VEHICLES)]
