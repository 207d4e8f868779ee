"""VROOM's JSON: vehicles, jobs and shipments over matrices, as a model.

Every job and shipment is optional there, so it is here: leaving one out costs `PENALTY` times one more than its
priority. What VROOM has and a model has not is refused by its name, with its path.
"""

from __future__ import annotations

from dataclasses import dataclass
from typing import Any, Dict, FrozenSet, Iterator, List, Mapping, Optional, Sequence, Set, Tuple

from ..intervals import Interval
from ..kinds import is_list
from ..records import (
    HORIZON, MOST_DIMENSIONS, Allowed, Break, Dimension, Evaluator, Group, Model, NodeRow, Pair, Search, Vehicle,
    VehicleBreaks, VehicleRow,
)
from .reading import BadFile, json_of

PENALTY = 10**7
"""What it costs to leave out a job of priority 0; each step of priority adds as much. Above what any detour costs."""
TOP = {"vehicles", "jobs", "shipments", "matrices"}
VEHICLE = {"id", "description", "profile", "start", "start_index", "end", "end_index", "capacity", "costs", "skills",
           "time_window", "breaks", "max_tasks", "max_travel_time", "max_distance"}
JOB = {"id", "description", "location", "location_index", "service", "delivery", "pickup", "skills", "priority",
       "time_windows"}
SHIPMENT = {"amount", "skills", "priority", "pickup", "delivery"}
STEP = {"id", "description", "location", "location_index", "service", "time_windows"}
BREAK = {"id", "description", "service", "time_windows"}
DEFAULT_HOUR = 3600


@dataclass(frozen=True)
class Read:
    """A model, and what its nodes and vehicles are called: `job 3`, `pickup 4`, `start of vehicle 1`."""

    model: Model
    nodes: Tuple[str, ...]
    vehicles: Tuple[str, ...]


@dataclass(frozen=True)
class Task:
    """A stop: the index of its place (None for a start or end that a vehicle leaves open), and what is asked there."""

    name: str
    place: Optional[int]
    service: int = 0
    windows: Tuple[Interval, ...] = ()
    amounts: Tuple[int, ...] = ()
    skills: FrozenSet[int] = frozenset()
    priority: int = 0


def read_vroom(path: str, search: Search = Search()) -> Read:
    """The model of a file. Raises `BadFile` at what is faulty or cannot be said, `OSError`, `Refused`."""
    return Problem(Entry(path, "", json_of(path))).read(search)


@dataclass(frozen=True)
class Entry:
    """A value of the file with its path."""

    file: str
    path: str
    value: Any

    def fault(self, why: str) -> BadFile:
        """The exception for this value."""
        return BadFile(self.file, self.path or "/", why)

    def keyed(self, known: Set[str]) -> "Entry":
        """This value, an object with no other keys. Raises `BadFile` at one that a model cannot say."""
        if not isinstance(self.value, Mapping):
            raise self.fault("it is no object")
        for key in self.value:
            if key not in known:
                raise self.at(key).fault(f"a model cannot say '{key}'")
        return self

    def at(self, key: Any) -> "Entry":
        """The value of a key, None if it is absent."""
        is_there = isinstance(self.value, Mapping) and key in self.value or is_list(self.value)
        return Entry(self.file, f"{self.path}/{key}", self.value[key] if is_there else None)

    def has(self, key: str) -> bool:
        """Whether a key is there."""
        return key in self.value

    def each(self) -> List["Entry"]:
        """The values of a list; none if it is absent."""
        if self.value is None:
            return []
        if not is_list(self.value):
            raise self.fault("it is no list")
        return [Entry(self.file, f"{self.path}/{place}", entry) for place, entry in enumerate(self.value)]

    def whole(self, default: int = 0, low: int = 0, high: int = HORIZON) -> int:
        """A whole number; the default if it is absent."""
        if self.value is None:
            return default
        if isinstance(self.value, bool) or not isinstance(self.value, int) or not low <= self.value <= high:
            raise self.fault(f"{self.value!r} is no whole number from {low} to {high}")
        return self.value

    def interval(self) -> Interval:
        """A pair of times."""
        ends = [entry.whole() for entry in self.each()]
        if len(ends) != 2 or ends[0] > ends[1]:
            raise self.fault("it is no window [from, to]")
        return ends[0], ends[1]


class Problem:
    """The vehicles and tasks of a file, gathered as nodes of a model."""

    def __init__(self, top: Entry) -> None:
        self.top = top.keyed(TOP)
        self.tasks: List[Task] = []
        self.pairs: List[Pair] = []
        self.vehicles = [entry.keyed(VEHICLE) for entry in self.top.at("vehicles").each()]
        self.profiles = list(dict.fromkeys(self._profile(entry) for entry in self.vehicles))
        self.ends = [self._ends(entry) for entry in self.vehicles]
        self.jobs = [entry.keyed(JOB) for entry in self.top.at("jobs").each()]
        self.shipments = [entry.keyed(SHIPMENT) for entry in self.top.at("shipments").each()]
        self.sign = self._sign()
        self.first = len(self.tasks)
        for entry in self.jobs:
            self._add(entry, "job", self._amounts(entry.at(self.sign), 1), entry)
        for entry in self.shipments:
            self._add_shipment(entry)

    def _sign(self) -> str:
        """Which amounts jobs have: all are brought, or all are fetched. Raises `BadFile` if both come together."""
        signs = {sign for entry in self.jobs for sign in ("pickup", "delivery") if any(entry.at(sign).value or ())}
        if len(signs) > 1:
            raise self.top.at("jobs").fault("a model has one load that only grows: no 'pickup' beside a 'delivery'")
        if "delivery" in signs and any(any(entry.at("amount").value or ()) for entry in self.shipments):
            raise self.top.at("jobs").fault("a 'delivery' from the depot beside shipments: a model has no such load")
        return signs.pop() if signs else "delivery"

    def _profile(self, entry: Entry) -> str:
        """The name of the matrices of a vehicle."""
        found = entry.at("profile")
        if found.value is not None and not isinstance(found.value, str):
            raise found.fault("it is no text")
        return found.value or "car"

    def _ends(self, entry: Entry) -> Tuple[int, int]:
        """The nodes where a vehicle starts and ends. A start or end that is left open is as near as can be."""
        name = f"vehicle {entry.at('id').value}"
        found = []
        for end in ("start", "end"):
            place = entry.at(f"{end}_index")
            if place.value is None and entry.at(end).value is not None:
                raise entry.at(end).fault(f"say '{end}_index' and matrices: coordinates alone have no roads")
            found.append(len(self.tasks))
            self.tasks.append(Task(f"{end} of {name}", None if place.value is None else place.whole()))
        return found[0], found[1]

    def _amounts(self, entry: Entry, sign: int) -> Tuple[int, ...]:
        """The amounts of a task, with a sign."""
        return tuple(sign * value.whole() for value in entry.each())

    def _add(self, entry: Entry, kind: str, amounts: Tuple[int, ...], of: Entry) -> int:
        """Adds a stop, with the skills and the priority of a job or shipment; its node."""
        place = entry.at("location_index")
        if place.value is None:
            raise entry.fault("say 'location_index' and matrices: coordinates alone have no roads")
        self.tasks.append(Task(
            f"{kind} {entry.at('id').value}", place.whole(), entry.at("service").whole(),
            tuple(window.interval() for window in entry.at("time_windows").each()), amounts,
            frozenset(skill.whole() for skill in of.at("skills").each()), of.at("priority").whole(0, 0, 100),
        ))
        return len(self.tasks) - 1

    def _add_shipment(self, entry: Entry) -> None:
        """Adds both stops of a shipment."""
        nodes = [
            self._add(entry.at(kind).keyed(STEP), kind, self._amounts(entry.at("amount"), sign), entry)
            for kind, sign in (("pickup", 1), ("delivery", -1))
        ]
        self.pairs.append(Pair(*nodes))

    def read(self, search: Search) -> Read:
        """The model."""
        if not self.vehicles:
            raise self.top.at("vehicles").fault("there is no vehicle")
        dimensions = [self._time(), *self._loads(), *self._limits()]
        if len(dimensions) > MOST_DIMENSIONS:
            raise self.top.fault(f"a model has {MOST_DIMENSIONS} dimensions: time, each amount and each limit take one")
        model = Model(
            nodes=len(self.tasks), matrices=[*self._matrices("durations"), *self._costs(), *self._distances()],
            vehicles=[self._vehicle(number) for number in range(len(self.vehicles))], dimensions=dimensions,
            groups=[
                Group([node], PENALTY * (1 + self.tasks[node].priority)) for node in range(self.first, len(self.tasks))
            ],
            pairs=self.pairs, allowed=list(self._allowed()), search=search,
        )
        names = tuple(task.name for task in self.tasks)
        return Read(model, names, tuple(f"vehicle {entry.at('id').value}" for entry in self.vehicles))

    def _matrices(self, kind: str) -> List[List[List[int]]]:
        """The matrix of each profile over the nodes; a place that is left open is at hand from everywhere."""
        return [self._over_nodes(self._matrix(profile, kind)) for profile in self.profiles]

    def _matrix(self, profile: str, kind: str) -> Entry:
        """A matrix as it is written."""
        found = self.top.at("matrices").keyed(set(self.profiles)).at(profile).keyed({"durations", "distances", "costs"})
        rows = found.at(kind).each()
        if not rows or any(len(row.each()) != len(rows) for row in rows):
            raise found.at(kind).fault(f"the {kind} are no square matrix")
        return found.at(kind)

    def _over_nodes(self, matrix: Entry) -> List[List[int]]:
        """A matrix by nodes."""
        rows = [[entry.whole(0, 0, 2**30) for entry in row.each()] for row in matrix.each()]
        places = [task.place for task in self.tasks]
        for task, place in zip(self.tasks, places):
            if place is not None and place >= len(rows):
                raise matrix.fault(f"it has no row {place}, where {task.name} is")
        return [
            [0 if tail is None or head is None else rows[tail][head] for head in places] for tail in places
        ]

    def _costs(self) -> List[List[List[int]]]:
        """The cost matrix of each profile, if it is not that of the durations."""
        return self._matrices("costs") if self._has("costs") else []

    def _distances(self) -> List[List[List[int]]]:
        """The distances of each profile, if a vehicle has a limit on them."""
        return self._matrices("distances") if self._limited("max_distance") else []

    def _has(self, kind: str) -> bool:
        """Whether the profiles have matrices of a kind. Raises `BadFile` if some have and others have not."""
        found = {self.top.at("matrices").at(profile).at(kind).value is not None for profile in self.profiles}
        if len(found) > 1:
            raise self.top.at("matrices").fault(f"some profiles have {kind}, and others have not")
        return found.pop()

    def _limited(self, limit: str) -> bool:
        """Whether some vehicle has a limit."""
        return any(entry.at(limit).value is not None for entry in self.vehicles)

    def _number(self, vehicle: int) -> int:
        """The number of the matrices of a vehicle."""
        return self.profiles.index(self._profile(self.vehicles[vehicle]))

    def _vehicle(self, vehicle: int) -> Vehicle:
        """A vehicle: its ends, its cost matrix, its fixed cost."""
        costs = self.vehicles[vehicle].at("costs")
        if costs.value is not None:
            costs.keyed({"fixed", "per_hour"})
            if costs.at("per_hour").whole(DEFAULT_HOUR) != DEFAULT_HOUR:
                raise costs.at("per_hour").fault("a second costs 1, so 'per_hour' is 3600; give matrices of 'costs'")
        number = self._number(vehicle) + (len(self.profiles) if self._has("costs") else 0)
        return Vehicle(*self.ends[vehicle], number, costs.at("fixed").whole() if costs.value is not None else 0)

    def _evaluators(self, offset: int, values: Optional[Sequence[int]]) -> Dict[str, Any]:
        """The evaluators of a dimension over matrices, one for each profile."""
        count = len(self.profiles)
        return {
            "evaluators": [Evaluator(matrix=offset + number, values=values) for number in range(count)],
            "vehicle_evaluators": [*map(self._number, range(len(self.vehicles)))] if count > 1 else None,
        }

    def _time(self) -> Dimension:
        """The dimension of times in seconds."""
        service = [task.service for task in self.tasks]
        shifts = [
            VehicleRow(vehicle, entry.at("time_window").interval())
            for vehicle, entry in enumerate(self.vehicles) if entry.at("time_window").value is not None
        ]
        return Dimension(
            name="time", slack_max=HORIZON, capacity=HORIZON, visit=service, starts=shifts, ends=shifts,
            nodes=[row_of(node, task.windows) for node, task in enumerate(self.tasks) if task.windows],
            breaks=list(self._breaks()), **self._evaluators(0, service),
        )

    def _breaks(self) -> Iterator[VehicleBreaks]:
        """The breaks of each vehicle that has some, in the order of their starts."""
        for vehicle, entry in enumerate(self.vehicles):
            rows = sorted((self._break(one.keyed(BREAK)) for one in entry.at("breaks").each()), key=lambda it: it.from_)
            if rows:
                yield VehicleBreaks(vehicle, rows)

    def _break(self, entry: Entry) -> Break:
        """A break, which begins in its one window."""
        windows = [window.interval() for window in entry.at("time_windows").each()]
        if len(windows) != 1:
            raise entry.at("time_windows").fault("a break begins in one window")
        return Break(*windows[0], entry.at("service").whole(0, 1))

    def _loads(self) -> List[Dimension]:
        """A load for each component of the amounts."""
        size = max((len(task.amounts) for task in self.tasks), default=0)
        return [self._load(component) for component in range(size)]

    def _load(self, component: int) -> Dimension:
        """The load of one component."""
        values = [task.amounts[component] if component < len(task.amounts) else 0 for task in self.tasks]
        capacity = [self._capacity(entry, component) for entry in self.vehicles]
        return Dimension(f"amount {component}", [Evaluator(values=values)], 0, capacity, fix_start=True)

    def _capacity(self, entry: Entry, component: int) -> int:
        """How much a vehicle takes of one component. Raises `BadFile` if it does not say."""
        found = entry.at("capacity").each()
        if component >= len(found):
            raise entry.at("capacity").fault(f"it has no entry {component}, and the amounts of tasks have")
        return found[component].whole()

    def _limits(self) -> Iterator[Dimension]:
        """A dimension for each limit that some vehicle has: tasks, travel time, distance."""
        tasks = [int(node >= self.first) for node in range(len(self.tasks))]
        if self._limited("max_tasks"):
            yield self._limit("tasks", "max_tasks", {"evaluators": [Evaluator(values=tasks)]})
        if self._limited("max_travel_time"):
            yield self._limit("travel", "max_travel_time", self._evaluators(0, None))
        if self._limited("max_distance"):
            offset = len(self.profiles) * (2 if self._has("costs") else 1)
            yield self._limit("distance", "max_distance", self._evaluators(offset, None))

    def _limit(self, name: str, field: str, evaluators: Dict[str, Any]) -> Dimension:
        """A dimension whose capacity is a field of the vehicles."""
        limits = [entry.at(field).whole(HORIZON) for entry in self.vehicles]
        return Dimension(name=name, slack_max=0, capacity=limits, fix_start=True, **evaluators)

    def _allowed(self) -> Iterator[Allowed]:
        """The vehicles that have all skills of a task. Raises `BadFile` if none has."""
        skills = [{skill.whole() for skill in entry.at("skills").each()} for entry in self.vehicles]
        for node, task in enumerate(self.tasks):
            able = [vehicle for vehicle, of in enumerate(skills) if task.skills <= of]
            if not able:
                raise self.top.fault(f"no vehicle has the skills {sorted(task.skills)} of {task.name}")
            if len(able) < len(skills):
                yield Allowed(node, able)


def row_of(node: int, windows: Sequence[Interval]) -> NodeRow:
    """The window of a task from its first to its last one, without the times between them."""
    ordered = sorted(windows)
    gaps = [
        (before[1] + 1, after[0] - 1) for before, after in zip(ordered, ordered[1:]) if before[1] + 1 <= after[0] - 1
    ]
    return NodeRow(node, (ordered[0][0], max(high for _, high in ordered)), gaps)
