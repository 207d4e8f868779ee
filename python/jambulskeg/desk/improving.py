"""Better routes for a day, by rounds of the program, until the time is over or somebody stops them.

The rounds are those of `rounds`. With vr_refine they go on from the routes as they are. Without it each of them plans
the whole day anew. After each of these a few neighbouring vans at a time are planned anew, while the others keep their
routes.

What is found is put to the program as a whole day. It is kept if it leaves fewer required visits unmade, or as many and
costs less.

If nothing is planned yet, the first round is run to its end, however long that takes.
"""

from __future__ import annotations

import threading
import time
from dataclasses import dataclass, replace
from typing import List, Optional, Sequence, Tuple

from ..complete import CannotBeDriven, complete
from ..errors import NoFirstSolution, NotMet, ProgramSlow, Stopped
from ..model import solution_of
from ..records import MOST_TRIES, First, Improve, Model, tries_for
from ..rescue import relax
from ..rounds import NUMBERS, Rounds, with_search
from ..solution import Solution
from .asking import Asker, Verdict
from .nearby import Nearby
from .part import Part, part_of
from .states import Lists, State

__all__ = ["Improver", "MOST_SECONDS", "Point"]

PART_TRIES = 20000
MOST_SECONDS = 3600
"""The most seconds that a search may be given."""
SHARE = 2
"""How many times as long a few vans are planned anew as the whole day is."""
KINDS: Sequence[Tuple[First, Improve, Tuple[int, int]]] = (
    (First.PATH_CHEAPEST_ARC, Improve.GUIDED_LOCAL_SEARCH, (1, 10)),
    (First.PARALLEL_CHEAPEST_INSERTION, Improve.GUIDED_LOCAL_SEARCH, (1, 10)),
    (First.PARALLEL_CHEAPEST_INSERTION, Improve.PATH_LNS, (1, 10)),
    (First.PATH_CHEAPEST_ARC, Improve.GUIDED_LOCAL_SEARCH, (1, 5)),
    (First.PARALLEL_CHEAPEST_INSERTION, Improve.GUIDED_LOCAL_SEARCH, (1, 3)),
)
"""What a few vans are planned by, in turn."""


@dataclass(frozen=True)
class Point:
    """The best day that a search knew after some seconds: its cost, and how many required visits it leaves unmade."""

    seconds: float
    cost: int
    missing: int


def searched(model: Model) -> Model:
    """The model whose rounds go on until the time is over."""
    improve = model.search.improve if model.search.improve in NUMBERS else Improve.GUIDED_LOCAL_SEARCH
    return with_search(model, improve=improve, solutions=MOST_TRIES)


class Improver:
    """Looks for better routes from those of a state on."""

    def __init__(self, asker: Asker, state: State, seconds: float) -> None:
        """Raises `BadChange` if the state has no van that may be changed."""
        self.seconds, self.stopped = seconds, threading.Event()
        self.points: List[Point] = []
        self.rounds = 0
        self.best: Optional[Tuple[Lists, Verdict]] = None
        self.began = self._since = time.monotonic()
        self._asker, self._state = asker, state
        self._part: Part = part_of(asker.model, state)
        self._nearby = Nearby(asker.model)

    def left(self) -> float:
        """The seconds that are left."""
        return self.seconds - (time.monotonic() - self.began)

    def search(self) -> None:
        """Runs rounds until the time is over; of the relaxed model if no construction finds a day. Raises
        `NoFirstSolution`."""
        self.consider(self._state.lists)
        try:
            if not self.has_found(self._part.model) and not self.has_found(relax(self._part.model)[0]):
                raise NoFirstSolution("no construction finds a first solution, even where every visit may be left out")
        except Stopped:
            pass

    def has_found(self, model: Model) -> bool:
        """Runs rounds of a model, from the best routes so far if there are any; whether they find a day of it. Raises
        `Stopped`."""
        self._since = time.monotonic()
        rounds = Rounds(
            searched(model), max(0.0, self.left()), self._asker.program, lambda seconds, cost: None, self.stopped,
            self._asker.refining, seen=self.after_round,
        )
        rounds.run(self._part.own(self.best[0]) if self.best is not None and any(self.best[0]) else None)
        return rounds.best is not None

    def after_round(self, solution: Solution) -> None:
        """Considers what a round finds. Without vr_refine a few vans at a time are then planned anew, `SHARE` times as
        long as the round took. Raises `Stopped`."""
        self.rounds += 1
        self.consider(self._part.lists(solution.lists(), self._state))
        end = time.monotonic() + SHARE * (time.monotonic() - self._since)
        while self._asker.refining is None and min(self.left(), end - time.monotonic()) > 0:
            if not self.has_planned_part():
                break
        self._since = time.monotonic()

    def has_planned_part(self) -> bool:
        """Plans a few vans anew, and keeps what is found if that is better. Whether there were any vans, and the time
        was enough. Raises `Stopped`."""
        if self.best is None:
            return False
        state = replace(self._state, lists=self.best[0])
        vans = self._nearby.vans(state)
        if not vans:
            return False
        others = frozenset(range(len(state.lists))) - vans
        part = part_of(self._asker.model, replace(state, pinned=state.pinned | others))
        model = relax(part.model)[0] if self.best[1].missing else part.model
        now = complete(model, part.own(state.lists), checked=False)
        try:
            found = self.anew(model)
        except ProgramSlow:
            return False
        except NoFirstSolution:
            return True
        if found.cost < now.cost:
            self.consider(part.lists(found.lists(), state))
        return True

    def anew(self, model: Model) -> Solution:
        """What a search of a few vans finds. Raises `NoFirstSolution`, `ProgramSlow`, `Stopped`."""
        self.rounds += 1
        first, improve, weight = KINDS[self.rounds % len(KINDS)]
        asked = with_search(model, first=first, improve=improve, lambda_=weight, tries=tries_for(improve, PART_TRIES))
        return solution_of(self._asker.program.ask(["solve"], asked.text(), self.left(), self.stopped))

    def consider(self, lists: Lists) -> None:
        """Keeps a day if the program finds that it keeps its rules and is better than the best so far."""
        try:
            verdict = self._asker.judged(lists)
        except (CannotBeDriven, NotMet):
            return
        if self.best is None or worth(verdict) < worth(self.best[1]):
            self.best = lists, verdict
            spent = time.monotonic() - self.began
            self.points.append(Point(spent, verdict.solution.cost, len(verdict.missing)))


def worth(verdict: Verdict) -> Tuple[int, int]:
    """What days are compared by: the required visits that nobody makes, then the cost."""
    return len(verdict.missing), verdict.solution.cost
