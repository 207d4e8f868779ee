"""Why a changed day cannot be, in a sentence with the names that the planner gave."""

from __future__ import annotations

from typing import Callable, Dict, Mapping, Sequence

from ..complete import CannotBeDriven
from ..errors import JambulskegError, NotMet
from ..intervals import Numbers
from ..kinds import between
from ..records import HORIZON
from ..schedules import Line, line_of, reach_of
from ..view.day import time_dimension
from .changes import Within
from .states import Lists

__all__ = ["sentence_of"]


def sentence_of(problem: JambulskegError, lists: Lists, within: Within) -> str:
    """Why these lists are no day of the model, in a sentence."""
    if isinstance(problem, CannotBeDriven):
        return Undriven(problem, lists[problem.vehicle], within).sentence()
    if isinstance(problem, NotMet):
        return Broken(problem, lists, within).sentence()
    return str(problem)


class Undriven:
    """A list without a schedule: what happens at the first stop that no cumul is left for."""

    def __init__(self, problem: CannotBeDriven, visits: Sequence[int], within: Within) -> None:
        model, vehicle = within.model, problem.vehicle
        self.within, self.stop = within, problem.stop
        self.nodes = [model.vehicles[vehicle].start, *visits, model.vehicles[vehicle].end]
        names = [dimension.name for dimension in model.dimensions]
        self.number = names.index(problem.dimension)
        self.line: Line = line_of(model, self.number, vehicle, self.nodes)
        self.van = within.names.vehicle(vehicle)

    def sentence(self) -> str:
        """Why the list cannot be driven."""
        reached = reach_of(self.line).reached
        if any(reached[self.stop]):
            return f"The breaks of {self.van} find no place in its day."
        if self.stop == 0:
            return f"{self.van} cannot leave: its start allows {self.allowed(0)} in '{self.line.name}'."
        known = [piece for numbers in reached[self.stop - 1] for piece in numbers]
        transit = self.line.transits[self.stop - 1]
        first = min(low for low, _ in known) + transit
        last = max(high for _, high in known) + transit + self.line.slack_max
        if self.number == time_dimension(self.within.model):
            return self.timed(first, last)
        return self.loaded(first, last)

    def timed(self, first: int, last: int) -> str:
        """The same of times."""
        here, names = self.nodes[self.stop], self.within.names
        is_end = self.stop == len(self.nodes) - 1
        place = f"its end, {names.node(here)}," if is_end else f"{names.node(here)} (stop {self.stop})"
        asks = f"{'it must be there' if is_end else 'that visit may begin'} {self.allowed(self.stop)}"
        allowed = self.line.allowed[self.stop]
        before = names.node(self.nodes[self.stop - 1])
        if allowed and first > allowed[-1][1]:
            return f"{self.van} comes from {before} to {place} at {names.time(first)} at the earliest, and {asks}."
        if allowed and last < allowed[0][0]:
            return (
                f"{self.van} comes from {before} to {place} at {names.time(last)} at the latest, with all the waiting "
                f"that one drive may have, and {asks}."
            )
        room = ", and its breaks leave no room" if self.line.breaks else ""
        return (
            f"{self.van} comes from {before} to {place} from {names.time(first)} to {names.time(last)}, "
            f"and {asks}{room}."
        )

    def loaded(self, first: int, last: int) -> str:
        """The same of loads, or of what else adds up."""
        here, before = (self.within.names.node(self.nodes[stop]) for stop in (self.stop, self.stop - 1))
        allowed, name = self.line.allowed[self.stop], self.line.name
        if allowed and allowed[0][0] == 0 and first > allowed[-1][1]:
            return f"{self.van} would have '{name}' {first} after {before}, and may have {allowed[-1][1]} at most."
        has = between(first, min(last, HORIZON))
        return (
            f"{self.van} would have '{name}' {has} from {before} to {here} (stop {self.stop}), and may have "
            f"{self.allowed(self.stop)} there."
        )

    def allowed(self, stop: int) -> str:
        """The cumuls that a stop allows, in words."""
        numbers: Numbers = self.line.allowed[stop]
        is_time = self.number == time_dimension(self.within.model)
        write = self.time_piece if is_time else self.load_piece
        return " or ".join(write(low, high) for low, high in numbers) or "never"

    def time_piece(self, low: int, high: int) -> str:
        """An interval of times in words."""
        time = self.within.names.time
        if low == high:
            return f"at {time(low)}"
        if high >= HORIZON:
            return f"from {time(low)} on"
        return f"from {time(low)} to {time(high)}" if low > 0 else f"until {time(high)}"

    def load_piece(self, low: int, high: int) -> str:
        """An interval of loads in words."""
        return between(low, high) if high < HORIZON else f"{low} or more"


class Broken:
    """A rule that the program found broken."""

    def __init__(self, problem: NotMet, lists: Lists, within: Within) -> None:
        self.problem, self.lists, self.within = problem, lists, within

    def sentence(self) -> str:
        """What the rule says, with names."""
        tellers: Mapping[str, Callable[[], str]] = {
            "allowed": self.allowed, "pair": self.pair, "policy": self.policy, "group": self.group,
        }
        teller = tellers.get(self.problem.rule)
        return teller() if teller is not None else self.otherwise()

    def allowed(self) -> str:
        """A visit by a vehicle that may not make it."""
        names, node = self.within.names, self.lists[self.problem.vehicle][self.problem.place - 1]
        others = ", ".join(names.vehicle(vehicle) for vehicle in self.within.model.vehicles_of(node))
        van = names.vehicle(self.problem.vehicle)
        return f"{van} may not make {names.node(node)} (stop {self.problem.place}); {others} may."

    def pair(self) -> str:
        """A pair that is parted."""
        pair = self.within.model.pairs[self.problem.place]
        one, other = self.within.names.node(pair.pickup), self.within.names.node(pair.delivery)
        return f"{one} is picked up for {other}: one van makes both, {one} first, or nobody makes either."

    def policy(self) -> str:
        """Deliveries in an order that the vehicle does not allow."""
        policy = self.within.model.vehicles[self.problem.vehicle].policy.value
        orders: Dict[str, str] = {"lifo": "what it loaded last first", "fifo": "what it loaded first first"}
        return f"{self.within.names.vehicle(self.problem.vehicle)} delivers {orders.get(policy, policy)}."

    def group(self) -> str:
        """A choice of which too many are made."""
        group = self.within.model.groups[self.problem.place]
        most = "one" if group.max == 1 else str(group.max)
        return f"Of {self.within.visits(group.nodes)} at most {most} may be made."

    def otherwise(self) -> str:
        """A rule that is not broken by a change of lists alone, as the package tells it."""
        rule = self.problem.rule
        return f"The program found the rule '{rule}' broken: {self.problem}."
