"""A search for some seconds, as rounds.

Each round is a run of a program, deterministic for its tries; the seconds only decide which rounds are run. The first
rounds are short: one of each construction, which tell how fast it runs.

- With vr_refine each later round goes on from the best routes so far. It is ruin and recreate, with another seed each
  time, or the model's own search, whichever gained more for its seconds.
- Without it each later round begins anew. Rounds turn through the constructions, and then through the numbers of the
  search. These are the lambda of guided local search, the cut of path LNS, the tenure of tabu search.

A round is shorter the less is left of the limit, so that little is lost when the limit ends the last one.
"""

from __future__ import annotations

import itertools
import json
import sys
import time
from dataclasses import dataclass, field, replace
from enum import Enum
from threading import Event
from typing import Any, Callable, Dict, Iterator, List, Optional, Sequence, Tuple, Union

from .arguments import A_LIMIT, A_MODEL, ROUTES, asks, either
from .errors import NoFirstSolution, ProgramSlow, Refused, Stopped
from .model import meets, solution_of, solve
from .program import Program, ProgramLike, program_of
from .records import MOST_TRIES, First, Improve, Model, Refine, Search, tries_for
from .refine import Routes, at_hand, solve as refined, text_beside
from .solution import Solution, Stop

__all__ = [
    "ALIKE", "FIRST_STEPS", "FIRST_TRIES", "On", "Progress", "Round", "Solved", "constructions", "solve_for", "teller",
    "to_terminal", "with_search",
]

ALIKE = 23
"""The code of a construction that asks for vehicles that are alike."""

FIRST_TRIES = 50000
"""The tries of the first round, of path LNS fewer, so that it takes about as long."""

FIRST_STEPS = 500
"""The tries of the first round of ruin and recreate."""

GROWTH = 8
"""How many times as many tries the next round of its kind may have."""

NUMBERS: Dict[Improve, Tuple[str, Sequence[Any]]] = {
    Improve.GUIDED_LOCAL_SEARCH: ("lambda_", (
        (1, 10), (1, 20), (1, 5), (1, 3), (1, 40), (1, 2), (1, 7), (1, 14), (1, 30), (1, 1)
    )),
    Improve.PATH_LNS: ("cut", (10, 5, 3, 20, 7, 15)),
    Improve.TABU_SEARCH: ("tenure", (10, 5, 3, 20, 7, 15)),
}
"""The number that a search has, and those that rounds turn through after its own."""


class On(Enum):
    """How a round goes on from the best routes so far; the first one takes given routes, if there are any."""

    GIVEN = "the given routes"
    RUIN = "ruin and recreate"
    OWN = "the model's own search"


WAYS = (On.RUIN, On.OWN)
"""How rounds go on, one after the other at first."""


@dataclass(frozen=True)
class Round:
    """A round: its number from 1, its search, the cost that it found, the least cost so far, and the seconds since the
    beginning. `on` says how it went on from the best routes before it, None if it began anew; `refine` is what ruin and
    recreate was asked."""

    number: int
    search: Search
    cost: int
    best: int
    seconds: float
    on: Optional[On] = None
    refine: Optional[Refine] = None


@dataclass(frozen=True)
class Solved:
    """A solution, the model whose search found it, and the rounds that were run.

    `routes` are those that this search began with, None if it began anew; `refine` is what ruin and recreate was asked,
    None if it was the model's own search.
    """

    model: Model
    solution: Solution
    rounds: Tuple[Round, ...] = ()
    routes: Optional[Routes] = None
    refine: Optional[Refine] = None

    def again(self, program: ProgramLike = None) -> Solution:
        """The solution, found anew by one run of the program, which takes as long as its round. `program` is vr_cli."""
        if self.routes is None and self.refine is None:
            return solve(self.model, program)
        return refined(self.model, self.routes, self.refine, at_hand(program))


Progress = Callable[[float, int], None]
"""What is told of each cheaper solution: the seconds since the beginning, and its cost."""


@asks(model=A_MODEL)
def with_search(model: Model, **fields: Any) -> Model:
    """The model with other fields of its search."""
    return replace(model, search=replace(model.search, **fields))


def to_terminal(seconds: float, cost: int) -> None:
    """Tells of a cheaper solution on standard error."""
    sys.stderr.write(f"{seconds:8.1f} s  cost {cost}\n")
    sys.stderr.flush()


def teller() -> Progress:
    """What is told of cheaper solutions if nothing else is asked for: the terminal, if there is one."""
    return to_terminal if sys.stderr.isatty() else lambda seconds, cost: None


def constructions(search: Search) -> List[First]:
    """The constructions, that of the search first."""
    return [search.first, *(word for word in First if word is not search.first)]


def numbers_of(search: Search) -> Iterator[Search]:
    """The search with its own number, and then with others."""
    name, numbers = NUMBERS.get(search.improve, ("tries", (search.tries,)))
    own = getattr(search, name)
    yield search
    yield from (replace(search, **{name: number}) for number in numbers if number != own)


@asks(model=A_MODEL, time_limit=A_LIMIT, begin=either(ROUTES))
def solve_for(
    model: Model, time_limit: float, program: ProgramLike = None, *, checked: bool = True,
    progress: Optional[Progress] = None, stop: Optional[Event] = None, begin: Optional[Routes] = None,
) -> Solved:
    """The cheapest solution of rounds within `time_limit` seconds; with 0 seconds, that of the first round.

    If a vr_refine belongs to `program`, which is vr_cli, later rounds go on from the best so far. They do not if the
    model asks for no search (`NONE`), or limits its solutions. If they do, `begin` are routes that the first round
    takes as they are, or filled up by insertion. If that cannot be, rounds begin with the constructions.

    No round is ended before there is a solution. Ends early if no search has anything left to do, or if `stop` is set:
    then the best so far is handed out. `progress` is told of each cheaper solution; if it is None, a terminal is.
    Raises `NoFirstSolution` if no construction finds one, `Stopped` if `stop` was set before there was a solution, and
    what `solve` raises.
    """
    goes_on = model.search.improve is not Improve.NONE and model.search.solutions == MOST_TRIES
    refiner = at_hand(program) if goes_on else None
    rounds = Rounds(model, time_limit, program_of(program), progress or teller(), stop, refiner)
    try:
        rounds.run(begin)
    except Stopped:
        if rounds.best is None:
            raise
    if rounds.best is None:
        raise rounds.problem or Stopped()
    if checked:
        meets(rounds.best.model, rounds.best.solution, program)
    return replace(rounds.best, rounds=tuple(rounds.rounds))


@dataclass
class Rounds:
    """Rounds that are run: the best so far, and how many seconds the tries of a kind of round took. `seen` gets the
    solution of each round, and may itself use some of the time that is left."""

    model: Model
    limit: float
    program: Program
    tell: Progress
    stop: Optional[Event]
    refiner: Optional[Program] = None
    best: Optional[Solved] = None
    problem: Optional[NoFirstSolution] = None
    rounds: List[Round] = field(default_factory=list)
    pace: Dict[Union[First, On], Tuple[float, int]] = field(default_factory=dict)
    gains: Dict[On, float] = field(default_factory=dict)
    seen: Callable[[Solution], None] = lambda solution: None

    def __post_init__(self) -> None:
        self.began = time.monotonic()
        text = replace(self.model, search=Search()).text()
        self.text = text[:-1] + ',"search":'

    def left(self) -> float:
        """The seconds that are left."""
        return self.limit - (time.monotonic() - self.began)

    def goes_on(self) -> bool:
        """Whether another round is worth while: nothing has been found, or more than a twenty-fifth is left."""
        if self.stop is not None and self.stop.is_set():
            return False
        return self.best is None or self.left() > self.limit / 25

    def run(self, begin: Optional[Routes]) -> None:
        """Runs rounds until the limit, from given routes or from the constructions."""
        if self.refiner is not None and begin is not None and self.takes(self.refiner, begin):
            self.go_on(self.refiner)
            return
        words = constructions(self.model.search)
        for search in numbers_of(self.model.search):
            turn = [replace(search, first=word) for word in words]
            while turn and self.goes_on():
                turn = self.turned(turn, words)
                if self.refiner is not None:
                    self.go_on(self.refiner)
                    return

    def turned(self, turn: Sequence[Search], words: List[First]) -> List[Search]:
        """Runs a round of each search of a turn; those of which longer rounds are to come. A construction that finds
        nothing, or is too slow, is taken out of the words."""
        again = []
        for search in turn:
            if search.first not in words or not self.goes_on():
                continue
            try:
                if self.is_short(search):
                    again.append(search)
            except (NoFirstSolution, ProgramSlow, Refused) as problem:
                self.look_at(problem, search)
                words.remove(search.first)
        return again

    def is_short(self, search: Search) -> bool:
        """Runs a round of a search; whether it was shorter than it should be, and a longer one may find more."""
        aim = min(self.limit / 10, self.left() / 3)
        tries, wanted = self.tries_of(search.first, aim, tries_for(search.improve, FIRST_TRIES))
        before = self.pace.get(search.first)
        solution = self.anew(replace(search, tries=tries))
        return solution.stop is Stop.TRIES and (before is None or tries < min(wanted, MOST_TRIES))

    def tries_of(self, kind: Union[First, On], aim: float, least: int) -> Tuple[int, int]:
        """The tries of the next round of a kind, and those that would take as many seconds as it is to take."""
        seconds, tries = self.pace.get(kind, (aim, 0))
        wanted = int(tries * aim / max(seconds, 1e-6))
        return min(max(wanted, least), GROWTH * tries or least, MOST_TRIES), wanted

    def look_at(self, problem: Exception, asked: Search) -> None:
        """Raises the problem of a round if it is one of the model."""
        if isinstance(problem, NoFirstSolution):
            self.problem = problem
        is_own = asked.first is self.model.search.first
        if isinstance(problem, Refused) and (problem.code != ALIKE or is_own):
            raise problem

    def anew(self, search: Search) -> Solution:
        """The solution of a round that begins anew. Raises `ProgramSlow` at the limit.

        The first round of another construction has less: a twentieth of the limit, or twice the very first round's time
        if that is more.
        """
        seconds = None if self.best is None else self.left()
        if seconds is not None and search.first not in self.pace:
            seconds = min(seconds, max(self.limit / 20, 2 * self.rounds[0].seconds, 0.1))
        begin = time.monotonic()
        solution = solution_of(self.program.ask(["solve"], self.text_of(search), seconds, self.stop))
        self.pace[search.first] = (time.monotonic() - begin, solution.tries or search.tries)
        self.note(Solved(replace(self.model, search=search), solution), None)
        return solution

    def text_of(self, search: Search) -> str:
        """The text of the model with a search."""
        return f"{self.text}{json.dumps(search.tree())}}}"

    def note(self, found: Solved, on: Optional[On]) -> None:
        """Keeps what a round found if it is the best so far, and tells of it."""
        seconds, cost = time.monotonic() - self.began, found.solution.cost
        is_best = self.best is None or cost < self.best.solution.cost
        if self.best is None or is_best:
            self.best = found
        least = self.best.solution.cost
        self.rounds.append(Round(len(self.rounds) + 1, found.model.search, cost, least, seconds, on, found.refine))
        if is_best:
            self.tell(seconds, cost)
        self.seen(found.solution)

    def go_on(self, refiner: Program) -> None:
        """Runs rounds that go on from the best so far."""
        if self.best is None:
            self.begin_by_ruin(refiner)
        searches, seeds = itertools.cycle(numbers_of(self.model.search)), itertools.count(1)
        while self.best is not None and self.goes_on():
            on = self.next_kind()
            refine = Refine(seed=next(seeds)) if on is On.RUIN else None
            search = self.model.search if on is On.RUIN else next(searches)
            try:
                self.one_more(refiner, on, replace(search, first=self.best.model.search.first), refine)
            except ProgramSlow:
                return

    def next_kind(self) -> On:
        """How the next round goes on: a way whose rounds are still short, in turn. Else the one that gained more a
        second in its last round. If none gained anything, it is the other one than before."""
        short = [on for on in WAYS if on not in self.gains]
        if short:
            return short[0]
        ways = sorted(WAYS, key=lambda on: on is self.rounds[-1].on)
        return max(ways, key=lambda on: self.gains[on])

    def one_more(self, refiner: Program, on: On, search: Search, refine: Optional[Refine]) -> None:
        """Runs a round that goes on from the best so far. Raises `ProgramSlow` at the limit."""
        assert self.best is not None
        share, least = (0.4, FIRST_STEPS) if on is On.RUIN else (0.1, tries_for(search.improve, FIRST_TRIES))
        tries, wanted = self.tries_of(on, min(0.75 * share * self.limit, share * self.left()), least)
        before, begin = self.best.solution, time.monotonic()
        asked = replace(search, tries=tries)
        found = self.found_on(refiner, asked, before.lists(), refine, self.left())
        seconds = max(time.monotonic() - begin, 1e-6)
        is_first = on not in self.pace
        self.pace[on] = (seconds, found.solution.tries or tries)
        self.note(found, on)
        if found.solution.stop is not Stop.TRIES or not is_first and tries >= min(wanted, MOST_TRIES):
            self.gains[on] = max(0, before.cost - found.solution.cost) / seconds

    def takes(self, refiner: Program, begin: Routes) -> bool:
        """Whether given routes keep all rules, or insertion fills them up: then that is the first round."""
        search = replace(self.model.search, tries=0)
        try:
            self.note(self.found_on(refiner, search, begin, None, None), On.GIVEN)
        except NoFirstSolution:
            return False
        return True

    def found_on(
        self, refiner: Program, search: Search, routes: Optional[Routes], refine: Optional[Refine],
        seconds: Optional[float],
    ) -> Solved:
        """What a search finds that begins with routes, or with the construction."""
        text = text_beside(self.text_of(search), routes, refine)
        solution = solution_of(refiner.ask(["solve"], text, seconds, self.stop))
        return Solved(replace(self.model, search=search), solution, (), routes, refine)

    def begin_by_ruin(self, refiner: Program) -> None:
        """Ruin and recreate from the model's construction, which found nothing: with more and more steps, for half of
        what is left of the limit. The first round may take a second at least."""
        tries, left = FIRST_STEPS, self.left() / 2
        end = time.monotonic() + left
        while self.best is None and tries <= MOST_TRIES and (tries == FIRST_STEPS or left > 0):
            search = replace(self.model.search, tries=tries)
            try:
                self.note(self.found_on(refiner, search, None, Refine(), max(left, 1.0)), On.RUIN)
            except NoFirstSolution:
                tries *= GROWTH
            except ProgramSlow:
                return
            left = end - time.monotonic()
