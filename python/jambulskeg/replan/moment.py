"""Where each vehicle of a plan is at a moment.

A vehicle drives first and waits afterwards. So between two visits it drives to the next one, and that visit is fixed.
Its rest begins there, at the time that the plan says. At a visit its rest begins with that visit, and what comes after
it is open. A vehicle that drives home is done for the day.
"""

from __future__ import annotations

from dataclasses import dataclass
from enum import Enum
from typing import FrozenSet, List, Optional, Sequence, Tuple

from ..arguments import NUMBERS
from ..errors import JambulskegError, WrongArgument
from ..intervals import in_words
from ..records import HORIZON, Dimension, Model
from ..schedules import line_of
from ..solution import Route, Solution

__all__ = ["CannotBeReplanned", "Clock", "Unavailable", "Van", "Where", "clock_of", "vans_of"]


class CannotBeReplanned(JambulskegError, ValueError):
    """The rest of the day cannot be said as a model: the sentence says which vehicle or visit is in the way."""


@dataclass(frozen=True)
class Unavailable:
    """What is lost: `vehicles` make no visit that they have not begun; `visits` are taken back by the customer."""

    vehicles: Sequence[int] = ()
    visits: Sequence[int] = ()

    def __post_init__(self) -> None:
        for name, numbers in (("vehicles", self.vehicles), ("visits", self.visits)):
            if NUMBERS(numbers):
                raise WrongArgument("Unavailable", name, numbers, NUMBERS(numbers))


class Where(Enum):
    """Where a vehicle is."""

    HOME = "it has not left"
    ROAD = "it is on the road"
    BACK = "it is back, or drives home"


@dataclass(frozen=True)
class Van:
    """A vehicle at the moment. On the road:

    - `stop` is the place in its nodes where its rest begins.
    - `cumuls` are those there, a number for each dimension.
    - `taken` is how many breaks of each dimension lie before it.
    - `on_board` are the pickups made before it whose deliveries are still to be made, in their order.
    """

    vehicle: int
    where: Where
    stop: int = 0
    cumuls: Tuple[int, ...] = ()
    taken: Tuple[int, ...] = ()
    on_board: Tuple[int, ...] = ()


@dataclass(frozen=True)
class Clock:
    """The moment `now` in the dimension of the number `time`; if that is None, in arc costs so far."""

    now: int
    time: Optional[int]

    def stops(self, model: Model, route: Route) -> Sequence[int]:
        """When each stop of a route begins."""
        if self.time is not None:
            return route.dimensions[self.time].cumuls
        so_far = [0]
        for tail, head in zip(route.nodes, route.nodes[1:]):
            so_far.append(so_far[-1] + model.arc_cost(route.vehicle, tail, head))
        return so_far

    def service(self, model: Model, vehicle: int, node: int) -> int:
        """How long a visit takes."""
        if self.time is None:
            return 0
        dimension = model.dimensions[self.time]
        values = dimension.evaluator_of(vehicle).values
        return dimension.visit[node] if dimension.visit else max(0, values[node]) if values else 0


def clock_of(model: Model, now: int, name: Optional[str] = None) -> Clock:
    """The clock of a moment, along the dimension of a name, or along the one that looks most like times.

    Raises `CannotBeReplanned` if no dimension has the name, if the moment is before the time 0, and if a time
    may run backwards.
    """
    if not 0 <= now <= HORIZON:
        raise CannotBeReplanned(f"the moment {now} is none of the model's, whose times are 0 to {HORIZON}")
    names = [dimension.name for dimension in model.dimensions]
    if name is not None and name not in names:
        raise CannotBeReplanned(f"no dimension has the name '{name}'; there are {', '.join(names) or 'none'}")
    timed = [number for number, dimension in enumerate(model.dimensions) if has_drives(dimension)]
    if name is None and not timed:
        return Clock(now, None)
    number = names.index(name) if name is not None else max(
        timed, key=lambda at: (looks_timed(model.dimensions[at]), -at)
    )
    if runs_backwards(model, number):
        raise CannotBeReplanned(f"the dimension '{names[number]}' has negative transits, so it is no time")
    return Clock(now, number)


def has_drives(dimension: Dimension) -> bool:
    """Whether a transit of the dimension depends on where it leads."""
    return any(evaluator.matrix is not None for evaluator in dimension.evaluators)


def looks_timed(dimension: Dimension) -> Tuple[bool, bool, bool, bool]:
    """How much a dimension looks like one of times, as a page of the day sees it."""
    waits = dimension.slack_max > 0
    return bool(dimension.breaks), bool(dimension.visit), waits, any(row.window for row in dimension.nodes)


def runs_backwards(model: Model, number: int) -> bool:
    """Whether some transit between two nodes is negative."""
    return any(
        way + (evaluator.values[tail] if evaluator.values else 0) < 0
        for evaluator in model.dimensions[number].evaluators
        for tail in range(model.nodes)
        for head, way in enumerate(ways_from(model, evaluator.matrix, tail)) if head != tail
    )


def ways_from(model: Model, matrix: Optional[int], tail: int) -> Sequence[int]:
    """The row of a matrix; of none, zeros."""
    return [0] * model.nodes if matrix is None else model.matrices[matrix][tail]


def vans_of(
    model: Model, solution: Solution, clock: Clock, done: Optional[Sequence[int]], lost: FrozenSet[int]
) -> List[Van]:
    """Where each vehicle is. `done` are the visits that have been begun, if they are not those of the plan. The
    vehicles `lost` make nothing that they have not begun. Raises `CannotBeReplanned`."""
    planned = {node for route in solution.routes for node in route.visits}
    for node in done or ():
        if node not in planned:
            raise CannotBeReplanned(f"visit {node} is said to be done, and the plan does not make it")
    return [van_of(model, route, clock, done, route.vehicle in lost) for route in solution.routes]


def van_of(model: Model, route: Route, clock: Clock, done: Optional[Sequence[int]], is_lost: bool) -> Van:
    """Where the vehicle of a route is."""
    stops = clock.stops(model, route) if route.nodes else ()
    begun, last = begun_of(route, stops, clock.now, done), len(route.nodes) - 1
    if begun < 0 or (is_lost and begun == 0):
        return Van(route.vehicle, Where.HOME)
    stays = begun > 0 and (is_lost or is_at(model, route, clock, begun))
    stop = begun if stays else begun + 1
    if begun == last or stop == last:
        return Van(route.vehicle, Where.BACK)
    cumuls = [plan.cumuls[stop] for plan in route.dimensions]
    if clock.time is not None and not stays and cumuls[clock.time] < clock.now:
        cumuls[clock.time] = late_begin(model, route, clock, stop)
    taken = [sum(1 for start in plan.breaks if start < plan.cumuls[stop]) for plan in route.dimensions]
    return Van(route.vehicle, Where.ROAD, stop, tuple(cumuls), tuple(taken), on_board(model, route.nodes[1:stop]))


def begun_of(route: Route, stops: Sequence[int], now: int, done: Optional[Sequence[int]]) -> int:
    """The last stop that has been begun, -1 if the vehicle has not left: by the plan, or by what is said to be done.
    Raises `CannotBeReplanned`."""
    has_left = bool(stops) and stops[0] < now
    planned = sum(1 for stop in stops if stop <= now) - 1 if has_left else -1
    if done is None:
        return planned
    places = [place for place, node in enumerate(route.nodes[:-1]) if place > 0 and node in done]
    if places != list(range(1, len(places) + 1)):
        missing = next(node for node in route.visits if node not in done)
        raise CannotBeReplanned(
            f"vehicle {route.vehicle} is said to have done visit {route.nodes[places[-1]]}, and not visit {missing}, "
            "which comes before it"
        )
    if len(places) > max(planned, 0):
        node = route.nodes[places[-1]]
        raise CannotBeReplanned(
            f"visit {node} is said to be done, and by the plan it begins at {stops[places[-1]]}, after {now}"
        )
    is_back = planned == len(route.nodes) - 1 == len(places) + 1
    return planned if is_back else min(planned, len(places))


def is_at(model: Model, route: Route, clock: Clock, stop: int) -> bool:
    """Whether a vehicle that has begun a visit is still there: it works, and no break on the way on has begun."""
    begin = clock.stops(model, route)[stop]
    if clock.now > begin + clock.service(model, route.vehicle, route.nodes[stop]):
        return False
    breaks = route.dimensions[clock.time].breaks if clock.time is not None else ()
    return not any(begin <= start <= clock.now for start in breaks)


def late_begin(model: Model, route: Route, clock: Clock, stop: int) -> int:
    """When a visit begins that should have been begun: the first moment from now on that it allows.

    Raises `CannotBeReplanned` if there is none, or if the way there may not take so long.
    """
    assert clock.time is not None
    vehicle, node = route.vehicle, route.nodes[stop]
    line = line_of(model, clock.time, vehicle, route.nodes)
    begins = [max(low, clock.now) for low, high in line.allowed[stop] if high >= clock.now]
    if not begins:
        raise CannotBeReplanned(
            f"vehicle {vehicle} has not begun visit {node}, which allows {in_words(line.allowed[stop])}; "
            f"at {clock.now} it is too late for it"
        )
    earlier = route.dimensions[clock.time].cumuls[stop - 1]
    if min(begins) > earlier + line.transits[stop - 1] + line.slack_max:
        raise CannotBeReplanned(
            f"vehicle {vehicle} comes to visit {node} at {min(begins)}, later than the 'slack_max' "
            f"{line.slack_max} of the dimension '{line.name}' allows after {earlier}"
        )
    return min(begins)


def on_board(model: Model, made: Sequence[int]) -> Tuple[int, ...]:
    """The pickups among the visits that are made whose deliveries are not, in their order."""
    open_pickups = {pair.pickup for pair in model.pairs if pair.delivery not in made}
    return tuple(node for node in made if node in open_pickups)
