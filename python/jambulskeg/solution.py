"""The solution text as dataclasses: routes with their schedules, the parts of the cost, and what the search did."""

from __future__ import annotations

import json
from dataclasses import dataclass
from enum import Enum
from typing import Annotated, Any, Dict, List, Sequence

from .kinds import Inner, Record, Row, Text, Whole, Word
from .records import LARGEST, MOST_NODES, MOST_VEHICLES

NUMBER = Whole(-(2**63), LARGEST)
NUMBERS = Row(NUMBER, 0, MOST_NODES + 2)


class Status(Enum):
    """The status of a solution."""

    SUCCESS = "ROUTING_SUCCESS"


class Stop(Enum):
    """Why a search ended: no search, no move helps, the limit of tries, the limit of solutions."""

    FIRST = "first"
    OPTIMUM = "optimum"
    TRIES = "tries"
    SOLUTIONS = "solutions"


@dataclass(frozen=True)
class Plan(Record):
    """The schedule of a used vehicle in a dimension: cumuls at its stops, slacks on its arcs, starts of its breaks."""

    name: Annotated[str, Text(0, 64)]
    cumuls: Annotated[Sequence[int], NUMBERS]
    slacks: Annotated[Sequence[int], NUMBERS]
    breaks: Annotated[Sequence[int], NUMBERS]


@dataclass(frozen=True)
class Route(Record):
    """The nodes of a vehicle from its start to its end, and its schedules; both empty if it is not used."""

    vehicle: Annotated[int, NUMBER]
    nodes: Annotated[Sequence[int], NUMBERS]
    dimensions: Annotated[Sequence[Plan], Row(Inner(Plan), 0, 4)]

    @property
    def visits(self) -> Sequence[int]:
        """The nodes between start and end."""
        return self.nodes[1:-1]


@dataclass(frozen=True)
class LeastSpan(Record):
    """How short a printed route could be in a dimension. `least` is its least span from the first cumul to the last,
    `printed` that of the printed cumuls. `cumuls` and `slacks` are the schedule of the least span whose cumuls are
    least."""

    cumuls: Annotated[Sequence[int], NUMBERS]
    dimension: Annotated[str, Text(0, 64)]
    least: Annotated[int, NUMBER]
    printed: Annotated[int, NUMBER]
    slacks: Annotated[Sequence[int], NUMBERS]
    vehicle: Annotated[int, NUMBER]

    @property
    def spared(self) -> int:
        """By how much the route could be shorter than it is printed."""
        return self.printed - self.least


@dataclass(frozen=True)
class Parts(Record):
    """The parts of a cost: arcs, fixed costs, global spans, penalties of groups, soft bounds, spans."""

    arcs: Annotated[int, NUMBER]
    fixed: Annotated[int, NUMBER]
    global_: Annotated[int, NUMBER]
    penalty: Annotated[int, NUMBER]
    soft: Annotated[int, NUMBER]
    span: Annotated[int, NUMBER]

    def total(self) -> int:
        """The sum of the parts."""
        return self.arcs + self.fixed + self.global_ + self.penalty + self.soft + self.span


@dataclass(frozen=True)
class Solution(Record):
    """A solution: what it costs, who is left out, each vehicle's route, and how the search ended."""

    cost: Annotated[int, NUMBER]
    dropped: Annotated[Sequence[int], Row(NUMBER, 0, MOST_NODES)]
    first_cost: Annotated[int, NUMBER]
    parts: Annotated[Parts, Inner(Parts)]
    routes: Annotated[Sequence[Route], Row(Inner(Route), 0, MOST_VEHICLES)]
    solutions: Annotated[int, NUMBER]
    status: Annotated[Status, Word(Status)]
    stop: Annotated[Stop, Word(Stop)]
    tries: Annotated[int, NUMBER]

    def text(self) -> str:
        """The line of the solution, as the program writes it but for the line feed."""
        return json.dumps(self.tree(), separators=(",", ":"), sort_keys=True, ensure_ascii=False)

    def lists(self) -> List[List[int]]:
        """For each vehicle the visits that it makes, in their order."""
        return [list(route.visits) for route in self.routes]

    def used(self) -> List[int]:
        """The vehicles that leave."""
        return [route.vehicle for route in self.routes if route.nodes]


Tree = Dict[str, Any]
