"""Many searches of one model, the cheapest checked answer kept.

A portfolio runs constructions times searches, guided ones with several lambdas. If there is a vr_refine, it runs ruin
and recreate too, with several seeds. Each search is a process of its own, on an engine of `engines`.

All are run to their ends, and among equal costs the one that comes first is kept. So the same arguments give the same
answer, whatever the order in which they end.

    found = portfolio(model, OwnProcesses(4))
    print(found.solution.cost, found.outcomes[found.number].name)
"""

from __future__ import annotations

import sys
import time
from dataclasses import dataclass, field, replace
from threading import Event, Lock
from typing import Callable, Dict, List, Optional, Sequence, Tuple, Union

from .arguments import A_MODEL, NUMBERS as WHOLE_NUMBERS, PAIRS, asks, either, number
from .engines import Answer, Engine, OwnProcesses, Task, TellingEngine
from .errors import JambulskegError, NoFirstSolution, NotMet, Refused, Stopped
from .model import meets
from .program import ProgramLike
from .records import First, Improve, Model, Refine, Search, moves_of, steps_for, tries_for
from .refine import Question
from .rescue import as_own
from .rounds import ALIKE
from .solution import Solution

__all__ = [
    "Ended", "Incomplete", "LAMBDAS", "Outcome", "Portfolio", "Refining", "SEEDS", "Variant", "collected", "portfolio",
    "refinings", "tell_ended", "variants",
]


def an_engine(value: object) -> str:
    """Something that runs searches."""
    return "" if callable(getattr(value, "run", None)) else "an engine, such as OwnProcesses(4)"


LAMBDAS: Sequence[Tuple[int, int]] = ((1, 10), (1, 5), (1, 3), (1, 20))
"""The weights of penalties that guided searches are run with."""

SEEDS: Sequence[int] = (0, 1, 2, 3)
"""The seeds that ruin and recreate is run with."""

NUMBERS = {
    Improve.GUIDED_LOCAL_SEARCH: ", lambda {}/{}", Improve.PATH_LNS: ", cut {}", Improve.TABU_SEARCH: ", tenure {}"
}
"""The numbers of a search in words."""


class Incomplete(JambulskegError):
    """Some searches ended by an accident, so that another run might give another answer: `outcomes` says which."""

    def __init__(self, outcomes: Sequence["Outcome"]) -> None:
        self.outcomes = outcomes
        first = outcomes[0]
        more = f", and {len(outcomes) - 1} others" if len(outcomes) > 1 else ""
        super().__init__(
            f"{first.name} ended by an accident{more}: {first.problem}; --keep-going takes the best of the others"
        )


@dataclass(frozen=True)
class Refining:
    """Ruin and recreate as one of the searches of a portfolio: from the construction of `search`, as many steps as it
    has `tries`."""

    search: Search
    refine: Refine


Variant = Union[Search, Refining]
"""A search of a portfolio."""


@dataclass(frozen=True)
class Outcome:
    """What a search of a portfolio came to: its solution, or what went wrong. `refine` is what ruin and recreate was
    asked, None if it was the search that `search` names."""

    search: Search
    solution: Optional[Solution] = None
    problem: Optional[JambulskegError] = None
    refine: Optional[Refine] = None

    @property
    def name(self) -> str:
        """The search in words."""
        if self.refine is not None:
            return f"{self.search.first.value}, ruin and recreate, seed {self.refine.seed}"
        words = f"{self.search.first.value}, {self.search.improve.value}"
        return words + NUMBERS.get(self.search.improve, "").format(*numbers_of(self.search))

    @property
    def is_accident(self) -> bool:
        """Whether it might end otherwise another time, though nobody stopped it."""
        is_plain = isinstance(self.problem, (NoFirstSolution, Refused, NotMet, Stopped))
        return self.problem is not None and not is_plain


@dataclass(frozen=True)
class Portfolio:
    """The cheapest answer: `solution` is one of `model` and was checked against it; `outcomes[number]` found it."""

    model: Model
    solution: Solution
    number: int
    outcomes: Tuple[Outcome, ...]

    @property
    def stopped(self) -> int:
        """How many searches had not ended when the portfolio was stopped."""
        return sum(1 for outcome in self.outcomes if isinstance(outcome.problem, Stopped))


@dataclass(frozen=True)
class Ended:
    """A search that has ended; `ended` is how many of `searches` have.

    It has the seconds since the beginning, its cost and the least cost so far, None without an answer. If there are
    several models, it has the name of its own.
    """

    seconds: float
    cost: Optional[int]
    best: Optional[int]
    ended: int
    searches: int
    model: str = ""


Watcher = Callable[[Ended], None]
"""What is told of each search that has ended."""


def tell_ended(entry: Ended) -> None:
    """Tells of a search that has ended on standard error."""
    cost = "no answer yet" if entry.best is None else f"cost {entry.best}"
    of = f"{entry.model}: " if entry.model else ""
    sys.stderr.write(f"{entry.seconds:8.1f} s  {of}{cost}  ({entry.ended} of {entry.searches} searches)\n")
    sys.stderr.flush()


def watcher() -> Optional[Watcher]:
    """What is told if nothing else is asked for: the terminal, if there is one."""
    return tell_ended if sys.stderr.isatty() else None


@dataclass
class Tally:
    """The searches that have ended: `names` has the model of each task. It may be told by any thread."""

    names: Sequence[str]
    tell: Watcher
    began: float = field(default_factory=time.monotonic)
    ended: int = 0
    best: Dict[str, int] = field(default_factory=dict)
    lock: Lock = field(default_factory=Lock)

    def __call__(self, place: int, answered: Answer) -> None:
        with self.lock:
            self.ended += 1
            name, cost = self.names[place], None if isinstance(answered, JambulskegError) else answered.cost
            if cost is not None:
                self.best[name] = min(cost, self.best.get(name, cost))
            seconds = time.monotonic() - self.began
            self.tell(Ended(seconds, cost, self.best.get(name), self.ended, len(self.names), name))


@asks(model=A_MODEL, tries=either(number(0)), seeds=WHOLE_NUMBERS)
def refinings(model: Model, tries: Optional[int] = None, seeds: Sequence[int] = SEEDS) -> List[Refining]:
    """Ruin and recreate with each seed, from the model's construction, of as many steps as take about as long as
    the searches of `variants`."""
    own = model.search if tries is None else replace(model.search, tries=tries)
    search = replace(own, tries=steps_for(moves_of(own)))
    return [Refining(search, Refine(seed=seed)) for seed in seeds]


@asks(model=A_MODEL, tries=either(number(0)), lambdas=PAIRS)
def variants(
    model: Model, tries: Optional[int] = None, lambdas: Sequence[Tuple[int, int]] = LAMBDAS
) -> List[Search]:
    """The searches of a portfolio: the model's own first, then those with each construction. These are a descent, a
    guided search of each lambda, path LNS and tabu search. `tries` takes the place of the model's. Path LNS, whose
    tries are cuts, gets as many as take about as long as the others."""
    own = model.search if tries is None else replace(model.search, tries=tries)
    moves = moves_of(own)
    out = [own]
    for first in First:
        by_moves = replace(own, first=first, improve=Improve.GREEDY_DESCENT, tries=moves)
        out.append(by_moves)
        out += [replace(by_moves, improve=Improve.GUIDED_LOCAL_SEARCH, lambda_=weight) for weight in lambdas]
        out.append(replace(by_moves, improve=Improve.PATH_LNS, tries=tries_for(Improve.PATH_LNS, moves)))
        out.append(replace(by_moves, improve=Improve.TABU_SEARCH))
    return [search for place, search in enumerate(out) if key_of(search) not in map(key_of, out[:place])]


def numbers_of(search: Search) -> Tuple[int, ...]:
    """The numbers of a search that no other kind of search looks at."""
    numbers = {
        Improve.GUIDED_LOCAL_SEARCH: tuple(search.lambda_), Improve.PATH_LNS: (search.cut,),
        Improve.TABU_SEARCH: (search.tenure,),
    }
    return numbers.get(search.improve, ())


def key_of(search: Search) -> Tuple[First, Improve, Tuple[int, ...]]:
    """What a search depends on."""
    return search.first, search.improve, numbers_of(search)


@asks(model=A_MODEL, engine=either(an_engine), tries=either(number(0)), lambdas=PAIRS)
def portfolio(
    model: Model, engine: Optional[Engine] = None, program: ProgramLike = None, *, tries: Optional[int] = None,
    lambdas: Sequence[Tuple[int, int]] = LAMBDAS, keep_going: bool = False, stop: Optional[Event] = None,
    progress: Optional[Watcher] = None,
) -> Portfolio:
    """The cheapest checked answer of the searches of `variants`, and of `refinings` if the engine has a vr_refine. They
    are run by an engine: one process, if none is named.

    `program` is the one that checks. Once the event `stop` is set, running searches are ended and the best of the
    others is the answer. `progress` is told of each search that has ended; if it is None, a terminal is.

    Raises `NoFirstSolution` if no search has an answer, `Stopped` if none had one when it was stopped, and `Refused` if
    the model has a fault. Raises `EngineFailed`, and `Incomplete` if a search ended by an accident, unless
    `keep_going`.
    """
    used = engine or OwnProcesses(1, program)
    searches = searches_of(model, used, tries, lambdas)
    answers = run_by(used, [task_of(model, search) for search in searches], stop, progress)
    return collected(model, searches, answers, program, keep_going=keep_going)


def searches_of(
    model: Model, engine: Engine, tries: Optional[int], lambdas: Sequence[Tuple[int, int]]
) -> List[Variant]:
    """The searches of a portfolio that an engine runs."""
    refines = isinstance(engine, TellingEngine) and engine.has_refiner()
    return [*variants(model, tries, lambdas), *(refinings(model, tries) if refines else ())]


def task_of(model: Model, search: Variant) -> Task:
    """What an engine is asked for a search."""
    if isinstance(search, Refining):
        return Question(replace(model, search=search.search), None, search.refine)
    return replace(model, search=search)


def run_by(
    engine: Engine, tasks: Sequence[Task], stop: Optional[Event], progress: Optional[Watcher] = None,
    names: Sequence[str] = (),
) -> List[Answer]:
    """What an engine answers; `names` are those of the models of the tasks. An engine that tells nothing has no
    questions among its tasks; one that knows nothing of stops is asked without."""
    if isinstance(engine, TellingEngine):
        watch = progress or watcher()
        return engine.run_all(tasks, stop, watch and Tally(names or [""] * len(tasks), watch))
    models = [task for task in tasks if isinstance(task, Model)]
    return engine.run(models) if stop is None else engine.run(models, stop)


def collected(
    model: Model, searches: Sequence[Variant], answers: Sequence[Answer], program: ProgramLike = None, *,
    keep_going: bool = False,
) -> Portfolio:
    """The cheapest checked one of the answers of some searches. Raises as `portfolio` does."""
    outcomes = [outcome_of(search, found) for search, found in zip(searches, answers)]
    accidents = [outcome for outcome in outcomes if outcome.is_accident]
    if accidents and not keep_going:
        raise Incomplete(accidents)
    found = [(number, outcome.solution) for number, outcome in enumerate(outcomes) if outcome.solution is not None]
    for number, solution in sorted(found, key=lambda entry: entry[1].cost):
        try:
            return Portfolio(model, meets(model, fitted(model, solution), program), number, tuple(outcomes))
        except NotMet as broken:
            outcomes[number] = replace(outcomes[number], solution=None, problem=broken)
    raise why_none(outcomes)


def outcome_of(search: Variant, found: Answer) -> Outcome:
    """The outcome of a search."""
    own, refine = (search.search, search.refine) if isinstance(search, Refining) else (search, None)
    if isinstance(found, JambulskegError):
        return Outcome(own, problem=found, refine=refine)
    return Outcome(own, found, refine=refine)


def fitted(model: Model, solution: Solution) -> Solution:
    """A solution that another search of the model found, with as many tries and solutions as the model's may have."""
    within = solution.tries <= model.search.tries and solution.solutions <= model.search.solutions
    return solution if within else as_own(solution)


def why_none(outcomes: Sequence[Outcome]) -> JambulskegError:
    """Why no search has an answer: a fault of the model, a broken rule, an accident, or no first solution."""
    problems = [outcome.problem for outcome in outcomes if outcome.problem is not None]
    faults = [fault for fault in problems if isinstance(fault, Refused) and fault.code != ALIKE]
    others = [problem for problem in problems if not isinstance(problem, (Refused, NoFirstSolution))]
    return (faults + others + [NoFirstSolution(
        "no construction finds a first solution, which does not say that there is none; "
        "jambulskeg.rescue.rescue tries penalties"
    )])[0]
