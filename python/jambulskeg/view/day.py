"""A day to be drawn: a solution of a model with the names of its places, and what each vehicle does when.

A day is drawn along one dimension, mostly of times. A model whose dimensions have no drives (only loads) is drawn along
the arc costs so far. If no arc costs anything, it is drawn along the numbers of the stops.
"""

from __future__ import annotations

from dataclasses import dataclass, field
from typing import Dict, List, Mapping, Optional, Sequence, Tuple

from ..places import Place
from ..reasons import Reason
from ..records import Dimension, Group, Model, NodeRow, StopRow
from ..schedules import rows_of
from ..solution import Plan, Route, Solution
from .colours import colours_of, letters

__all__ = ["Day", "Names", "Penalty", "Piece", "time_dimension"]


@dataclass(frozen=True)
class Names:
    """How nodes, vehicles and times are called.

    `clock` is the minute of the day at which the time 0 lies; if it is None, times are written as numbers.
    """

    places: Sequence[str] = ()
    vehicles: Sequence[str] = ()
    clock: Optional[int] = None

    def node(self, node: int) -> str:
        """The name of a node."""
        return self.places[node] if node < len(self.places) else f"node {node}"

    def short(self, node: int) -> str:
        """The name of a node beside its mark."""
        return self.places[node] if node < len(self.places) else str(node)

    def vehicle(self, vehicle: int) -> str:
        """The name of a vehicle."""
        return self.vehicles[vehicle] if vehicle < len(self.vehicles) else f"vehicle {vehicle}"

    def time(self, value: int) -> str:
        """A time as it is written."""
        if self.clock is None:
            return str(value)
        days, minute = divmod(value + self.clock, 1440)
        return f"{minute // 60}:{minute % 60:02}" + (f" (day {days + 1})" if days else "")

    def range(self, window: Sequence[int]) -> str:
        """An interval of times as it is written if there is little room."""
        return f"{self.time(window[0])}\u2013{self.time(window[1])}"


@dataclass(frozen=True)
class Piece:
    """What a vehicle does from `low` to `high`: `visit`, `travel`, `wait` or `break`; `stop` is the last one begun,
    -1 before the start."""

    kind: str
    low: int
    high: int
    stop: int


@dataclass(frozen=True)
class Penalty:
    """What a group costs since fewer of its visits are made than could be: `short` times its penalty."""

    number: int
    group: Group
    left: Tuple[int, ...]
    short: int

    @property
    def cost(self) -> int:
        """The cost, a part of all penalties."""
        return self.short * (self.group.penalty or 0)


@dataclass(frozen=True)
class Day:
    """A solution of a model, to be drawn. `time` is the number of the dimension along which it is, None if none is one
    of drives. `places` are where the nodes lie, as far as that is known. `further` has more cells of each node by their
    headings (a phone number, a note), `van_further` those of each vehicle. `reasons` has why visits are left out."""

    model: Model
    solution: Solution
    names: Names = Names()
    time: Optional[int] = None
    places: Sequence[Place] = ()
    further: Sequence[Mapping[str, str]] = ()
    reasons: Mapping[int, Reason] = field(default_factory=dict)
    van_further: Sequence[Mapping[str, str]] = ()

    @property
    def is_timed(self) -> bool:
        """Whether the day has times."""
        return self.time is not None

    @property
    def unit(self) -> str:
        """What the day is drawn along."""
        if self.time is not None:
            return self.model.dimensions[self.time].name
        return "arc costs so far" if self.solution.parts.arcs else "stops"

    def colour(self, vehicle: int) -> int:
        """The number of the colour of a vehicle."""
        return colours_of(tuple(self.names.vehicle(number) for number in range(len(self.model.vehicles))))[vehicle]

    def letters(self, vehicle: int) -> str:
        """The letters of a vehicle, which tell it apart without its colour."""
        return letters(vehicle)

    def cells(self, node: int) -> Mapping[str, str]:
        """The further cells of a node."""
        return self.further[node] if node < len(self.further) else {}

    def van_cells(self, vehicle: int) -> Mapping[str, str]:
        """The further cells of a vehicle."""
        return self.van_further[vehicle] if vehicle < len(self.van_further) else {}

    def why_left(self, node: int) -> str:
        """Why a visit is left out, in words; nothing if that was not measured."""
        reason = self.reasons.get(node)
        return reason.sentence(self.names.node, self.names.vehicle) if reason is not None else ""

    def routes(self) -> List[Route]:
        """The routes of the vehicles that leave."""
        return [route for route in self.solution.routes if route.nodes]

    def plan(self, route: Route) -> Optional[Plan]:
        """The times of a route."""
        return None if self.time is None else route.dimensions[self.time]

    def stops(self, route: Route) -> Sequence[int]:
        """Where the stops of a route lie along the day."""
        if self.time is not None:
            return route.dimensions[self.time].cumuls
        if not self.solution.parts.arcs:
            return range(len(route.nodes))
        so_far = [0]
        for tail, head in zip(route.nodes, route.nodes[1:]):
            so_far.append(so_far[-1] + self.model.arc_cost(route.vehicle, tail, head))
        return so_far

    def service(self, route: Route, stop: int) -> int:
        """How long the visit of a stop takes."""
        if self.time is None or stop + 1 >= len(route.nodes):
            return 0
        dimension = self.model.dimensions[self.time]
        stops = self.stops(route)
        node = route.nodes[stop]
        values = dimension.evaluator_of(route.vehicle).values
        taken = dimension.visit[node] if dimension.visit else max(0, values[node]) if values else 0
        return max(0, min(taken, stops[stop + 1] - stops[stop]))

    def breaks(self, route: Route) -> List[Piece]:
        """The breaks of a route."""
        plan = self.plan(route)
        if plan is None or self.time is None:
            return []
        asked = self.model.dimensions[self.time].breaks_of(route.vehicle)
        return [
            Piece("break", start, start + entry.duration, sum(1 for cumul in plan.cumuls if cumul <= start) - 1)
            for start, entry in zip(plan.breaks, asked)
        ]

    def pieces(self, route: Route) -> List[Piece]:
        """What a vehicle does from its start to its end, in order, and its breaks, also those before and after."""
        stops, breaks = self.stops(route), self.breaks(route)
        out = [piece for piece in breaks if piece.high <= stops[0]]
        for arc in range(len(stops) - 1):
            inside = [piece for piece in breaks if stops[arc] <= piece.low and piece.high <= stops[arc + 1]]
            work = (("visit", self.service(route, arc)), ("travel", self.drive(route, arc)))
            out += between(stops[arc], stops[arc + 1], work, inside, arc)
        return out + [piece for piece in breaks if piece.low >= stops[-1]]

    def drive(self, route: Route, arc: int) -> int:
        """How long the drive of an arc takes, without the visit before it."""
        stops = self.stops(route)
        if self.time is None:
            return stops[arc + 1] - stops[arc]
        transit = self.model.transit(self.time, route.vehicle, route.nodes[arc], route.nodes[arc + 1])
        return max(0, transit - self.service(route, arc))

    def rows(self, route: Route) -> List[Optional[StopRow]]:
        """What each stop of a route asks of its time."""
        return [None] * len(route.nodes) if self.time is None else self.asked(self.time, route)

    def asked(self, number: int, route: Route) -> List[Optional[StopRow]]:
        """What each stop of a route asks in a dimension."""
        return rows_of(self.model.dimensions[number], route.vehicle, route.nodes)

    def asked_by(self) -> Dict[int, NodeRow]:
        """What visits ask of their times."""
        return {} if self.time is None else {row.node: row for row in self.model.dimensions[self.time].nodes}

    def loads(self) -> List[int]:
        """The numbers of the dimensions that are drawn as lines: all but that of the day."""
        return [number for number in range(len(self.model.dimensions)) if number != self.time]

    def made_by(self) -> Dict[int, Tuple[int, int]]:
        """For each visit that is made the vehicle and the stop."""
        return {
            node: (route.vehicle, stop)
            for route in self.routes() for stop, node in enumerate(route.nodes) if 0 < stop < len(route.nodes) - 1
        }

    def penalties(self) -> List[Penalty]:
        """The groups that leave visits out, or of which fewer are made than could be."""
        made = self.made_by()
        out = []
        for number, group in enumerate(self.model.groups):
            left = tuple(node for node in group.nodes if node not in made)
            short = max(0, group.max - len(group.nodes) + len(left)) if group.penalty is not None else 0
            if left:
                out.append(Penalty(number, group, left, short))
        return out


def between(
    low: int, high: int, work: Sequence[Tuple[str, int]], breaks: Sequence[Piece], stop: int
) -> List[Piece]:
    """What lies from the beginning of a stop to that of the next. First comes the work, each kind for its length and
    interrupted by the breaks, then waiting."""
    out: List[Piece] = []
    for piece in (*breaks, Piece("end", high, high, stop)):
        left = []
        for kind, length in work:
            turn = min(piece.low, low + length)
            out.append(Piece(kind, low, turn, stop))
            left.append((kind, length - (turn - low)))
            low = turn
        out += [Piece("wait", low, piece.low, stop), piece]
        work, low = left, piece.high
    return [piece for piece in out[:-1] if piece.low < piece.high]


def time_dimension(model: Model, name: Optional[str] = None) -> Optional[int]:
    """The number of the dimension of a name. Without one, of the dimension that looks most like times: breaks, then
    visits that take time, then waiting, then windows. None if none has drives. Raises `ValueError` if no dimension has
    the name."""
    if name is not None:
        names = [dimension.name for dimension in model.dimensions]
        if name not in names:
            raise ValueError(f"no dimension has the name '{name}'; there are {', '.join(names) or 'none'}")
        return names.index(name)
    timed = [number for number, dimension in enumerate(model.dimensions) if has_drives(dimension)]
    return max(timed, key=lambda number: (looks_timed(model.dimensions[number]), -number)) if timed else None


def has_drives(dimension: Dimension) -> bool:
    """Whether a transit of the dimension depends on where it leads."""
    return any(evaluator.matrix is not None for evaluator in dimension.evaluators)


def looks_timed(dimension: Dimension) -> Tuple[bool, bool, bool, bool]:
    """How much a dimension looks like one of times."""
    waits = dimension.slack_max > 0
    return bool(dimension.breaks), bool(dimension.visit), waits, any(row.window for row in dimension.nodes)
