"""From two spreadsheets to a plan: read, searched, checked, and written as a table, a page and a sheet a driver.

    tables = read_day("places.csv", "vans.csv")
    planned = plan_day(tables, seconds=10)
    print(planned.summary(), *planned.left_out(), sep="\\n")
    print(plan_csv(planned.model, planned.solution, planned.tables))

A day that the model's construction cannot find is looked for by others, and then by leaving visits out. What is left
out is told, and why; such a plan is never passed off as one that makes all visits that must be made.
"""

from __future__ import annotations

import re
import time
from concurrent.futures import ThreadPoolExecutor
from dataclasses import dataclass, field, replace
from threading import Event, Lock
from typing import Dict, List, Mapping, Optional, Tuple

from .complete import complete, leave_later
from .doubts import doubts
from .engines import Engine, OwnProcesses
from .errors import JambulskegError
from .places import DayTables, Roads, model_of_day
from .portfolio import Ended, portfolio
from .program import ProgramLike
from .reasons import Reason, why_left_out
from .records import MOST_TRIES, Group, Improve, Model, Search
from .rescue import FIRST_TRIES, Progress, Rescue, Way, missing, rescue, timed_solver, with_search
from .rounds import teller
from .solution import Solution

__all__ = ["SECONDS", "Planned", "plan_day"]

SECONDS = 10.0
"""How many seconds are searched if nobody says."""
GROWS = 4
"""How many times the tries of a portfolio are those of the one before it."""
GUIDED = Search(improve=Improve.GUIDED_LOCAL_SEARCH)
NUMBERED = re.compile(r"\b(node|vehicle) (\d+)\b")
"""How sentences about a model call nodes and vehicles."""


@dataclass(frozen=True)
class Planned:
    """A plan of a day.

    `solution` meets `model`. Both are those of the spreadsheets, but that the visits `required` may be left out for
    nothing. These must be made, and found no place. `reasons` say why visits are left out. `how` says how the plan was
    found, if no construction found it. `doubts` say what looks wrong in the day.
    """

    tables: DayTables
    model: Model
    solution: Solution
    how: str
    required: Tuple[int, ...] = ()
    reasons: Mapping[int, Reason] = field(default_factory=dict)
    doubts: Tuple[str, ...] = ()

    def place(self, node: int) -> str:
        """The name of a node."""
        return self.tables.places[node].name

    def van(self, vehicle: int) -> str:
        """The name of a vehicle."""
        return self.tables.vans[vehicle].name

    def summary(self) -> str:
        """The plan in a sentence."""
        visits, left = len(self.model.visits()), len(self.solution.dropped)
        return (
            f"cost {self.solution.cost}: {len(self.solution.used())} of {len(self.tables.vans)} vehicles leave, "
            f"{visits - left} of {visits} visits are made"
        ) + (f", {self.how}" if self.how else "")

    def left_out(self) -> List[str]:
        """A sentence for each visit that is left out: why."""
        return [
            f"left out: {self.place(node)}{', which must be made' if node in self.required else ''}: "
            f"{reason.sentence(self.place, self.van)}"
            for node, reason in self.reasons.items()
        ]


def plan_day(
    tables: DayTables, roads: Optional[Roads] = None, *, seconds: float = SECONDS, jobs: int = 1,
    program: ProgramLike = None, progress: Optional[Progress] = None, stop: Optional[Event] = None,
) -> Planned:
    """The plan of a day, searched for about `seconds`, by `jobs` searches at a time.

    One of them is `rescue`, the others are those of portfolios; `progress` is told of each cheaper solution. Once the
    event `stop` is set, the best plan so far is the answer. Each driver leaves as late as the plan lets him, if that is
    no dearer. Raises `Refused` if the model has a fault, `NoFirstSolution` if nothing is found, `Stopped`, and what the
    program raises.
    """
    model = model_of_day(tables, roads, GUIDED)
    looks = (*tables.doubts, *(named(tables, doubt.sentence) for doubt in doubts(model)))
    found, other = searched(model, seconds, jobs, program, (progress, stop))
    solution = found.solution or found.solved.solution
    if other is not None and (found.solution is None or other.cost < found.solution.cost):
        found, solution = replace(found, solution=other, way=Way.AS_ASKED, left_out=()), other
    required = tuple(missing(model, solution)) if found.solution is None else ()
    shown = replace(model, groups=[*model.groups, *(Group([node], 0) for node in required)])
    final = leave_later(shown, complete(shown, solution.lists(), program), program)
    reasons = why_left_out(shown, final, required=required)
    how = found.sentence if found.way in (Way.RUIN, Way.PENALTIES) and not required else ""
    return Planned(tables, shown, final, how, required, reasons, looks)


def searched(
    model: Model, seconds: float, jobs: int, program: ProgramLike, told: Tuple[Optional[Progress], Optional[Event]]
) -> Tuple[Rescue, Optional[Solution]]:
    """What `rescue` finds in some seconds, and the cheapest answer of portfolios of the other jobs beside it; `told` is
    what is told of the former, and what stops it."""
    tell = Cheapest(told[0] or teller())
    solver = timed_solver(seconds, program, progress=tell, stop=told[1])
    if jobs == 1:
        return rescue(model, program, solver=solver), None
    over = Event()
    with ThreadPoolExecutor(max_workers=1) as pool:
        others = pool.submit(by_portfolios, model, OwnProcesses(jobs - 1, program), program, over, tell)
        try:
            found = rescue(model, program, solver=solver)
        finally:
            over.set()
        return found, others.result()


@dataclass
class Cheapest:
    """Tells of each solution that is cheaper than all before, whoever finds it, by the seconds since it was made."""

    tell: Progress
    began: float = field(default_factory=time.monotonic)
    best: Optional[int] = None
    lock: Lock = field(default_factory=Lock)

    def __call__(self, _: float, cost: int) -> None:
        with self.lock:
            if self.best is None or cost < self.best:
                self.best = cost
                self.tell(time.monotonic() - self.began, cost)

    def ended(self, entry: Ended) -> None:
        """Takes note of a search of a portfolio."""
        if entry.cost is not None:
            self(entry.seconds, entry.cost)


def by_portfolios(
    model: Model, engine: Engine, program: ProgramLike, over: Event, tell: Cheapest
) -> Optional[Solution]:
    """The cheapest answer of portfolios whose tries grow, until an event ends them; None without any."""
    best: Optional[Solution] = None
    tries = FIRST_TRIES
    while not over.is_set() and tries <= MOST_TRIES:
        try:
            asked = with_search(model, tries=tries)
            found = portfolio(asked, engine, program, keep_going=True, stop=over, progress=tell.ended)
        except JambulskegError:
            return best
        best = found.solution if best is None or found.solution.cost < best.cost else best
        tries *= GROWS
    return best


def named(tables: DayTables, sentence: str) -> str:
    """A sentence about the model, with the names of the spreadsheets."""
    entries: Dict[str, List[str]] = {
        "node": [place.name for place in tables.places], "vehicle": [van.name for van in tables.vans],
    }

    def name(found: "re.Match[str]") -> str:
        names, number = entries[found[1]], int(found[2])
        return f"'{names[number]}'" if number < len(names) else found[0]

    return NUMBERED.sub(name, sentence)
