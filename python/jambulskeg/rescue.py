"""An answer when the construction finds none.

All constructions may end without a first solution on models that have solutions. `rescue` tries, in this order:

- the construction that the model asks for, then the others;
- ruin and recreate from what the construction leaves (with vr_refine);
- the model with every required visit made optional, at a penalty above what any day costs.

It tells which way it went. An answer that leaves out a required visit is never passed off as one of the model.
"""

from __future__ import annotations

import time
from dataclasses import dataclass, replace
from enum import Enum
from threading import Event
from typing import Callable, Iterable, List, Optional, Sequence, Tuple

from .arguments import A_LIMIT, A_MODEL, asks, either, number
from .errors import NoFirstSolution, Refused
from .model import meets, solve
from .program import Program, ProgramLike, program_of
from .records import GREATEST_ENTRY, First, Group, Improve, Model, Refine, StopRow, moves_of, steps_for
from .refine import Routes, at_hand, solve as refined
from .rounds import ALIKE, FIRST_TRIES, On, Progress, Round, Solved, constructions, solve_for, teller, with_search
from .solution import Solution, Stop

__all__ = [
    "FIRST_TRIES", "RESCUE_STEPS", "RESCUE_TRIES", "Progress", "Rescue", "Round", "Solved", "Solver", "TimedSolver",
    "Way", "relax", "rescue", "solve_for", "timed_solver", "with_search",
]

RESCUE_TRIES = 1000000
"""The tries of a search that is to bring in visits that were left out, if no more are asked for."""
RESCUE_STEPS = 5000
"""The steps of ruin and recreate that is to find a first solution, if no more are asked for."""


class Way(Enum):
    """How an answer was found."""

    AS_ASKED = "the construction that the model asks for"
    OTHER_CONSTRUCTION = "another construction"
    RUIN = "ruin and recreate from what the construction leaves"
    GIVEN = "the routes that it began with"
    PENALTIES = "penalties for required visits"


@dataclass(frozen=True)
class Rescue:
    """What was found, and how.

    `solution` is one of the model, or None if the required visits `left_out` stay out. `model` is the model with the
    search that was run, which the solution meets. `solved` is what the program found, with the model that it was asked.
    By penalties, that is the relaxed one, in which leaving out costs `penalty` a visit.
    """

    way: Way
    model: Model
    solved: Solved
    solution: Optional[Solution]
    left_out: Tuple[int, ...] = ()
    penalty: int = 0

    @property
    def construction(self) -> First:
        """The construction that led there."""
        return self.solved.model.search.first

    @property
    def sentence(self) -> str:
        """Which way it went, and who is left out."""
        said = f"by {self.way.value}" + ("" if self.way is Way.GIVEN else f" ({self.construction.value})")
        if not self.left_out:
            return said
        nodes = ", ".join(map(str, self.left_out))
        return f"no solution was found; {said}, these required visits stay out: {nodes}"


Solver = Callable[[Model], Solved]
"""How a model is solved; raises `NoFirstSolution` if the construction finds nothing."""


@asks(model=A_MODEL, seconds=either(A_LIMIT), tries=number(0))
def rescue(
    model: Model, program: ProgramLike = None, *, checked: bool = True, seconds: Optional[float] = None,
    solver: Optional[Solver] = None, tries: int = RESCUE_TRIES,
) -> Rescue:
    """An answer of the model, by other constructions, by ruin and recreate or by penalties if its own finds none.

    `seconds` is the most that each run may take. `solver` solves a model in place of the program's `solve`, for
    instance `timed_solver(10)`. `tries` is the least number of tries of guided local search over penalties. If visits
    stay out, more may bring them in. Raises what `solve` raises; `NoFirstSolution` only if penalties do not help.
    """
    found = program_of(program)
    once: Solver = lambda asked: Solved(asked, solve(asked, found, checked=checked, seconds=seconds))
    for construction in words_for(solver or once, model):
        solved = tried(solver or once, with_search(model, first=construction), construction is model.search.first)
        if solved is not None:
            return Rescue(way_of(model, solved), solved.model, solved, solved.solution)
    solved = None if solver else by_ruin(model, found, checked, seconds)
    if solved is not None:
        return Rescue(Way.RUIN, solved.model, solved, solved.solution)
    best = by_penalties(model, solver or once, tries)
    if not best.left_out:
        own = as_own(best.solved.solution)
        best = replace(best, solution=meets(model, own, found) if checked else own)
    return best


def way_of(model: Model, solved: Solved) -> Way:
    """How a solution of a model was found that leaves nobody out."""
    begun = solved.rounds[0].on if solved.rounds else None
    if begun is not None:
        return Way.GIVEN if begun is On.GIVEN else Way.RUIN
    return Way.AS_ASKED if solved.model.search.first is model.search.first else Way.OTHER_CONSTRUCTION


def by_ruin(model: Model, program: Program, checked: bool, seconds: Optional[float]) -> Optional[Solved]:
    """What ruin and recreate finds that begins with the lists at which the model's construction ends; None without
    vr_refine, or if it finds nothing."""
    refiner = at_hand(program)
    if refiner is None or model.search.improve is Improve.NONE:
        return None
    asked = with_search(model, tries=max(RESCUE_STEPS, steps_for(moves_of(model.search))))
    try:
        solution = refined(asked, None, Refine(), refiner, checked=checked, seconds=seconds)
    except NoFirstSolution:
        return None
    return Solved(asked, solution, refine=Refine())


@dataclass
class TimedSolver:
    """A solver by rounds, all of whose models together have `time_limit` seconds from the first one on. It turns
    through the constructions by itself."""

    time_limit: float
    program: Program
    checked: bool
    progress: Progress
    stop: Optional[Event]
    began: Optional[float] = None
    begin: Optional[Routes] = None

    def __call__(self, model: Model) -> Solved:
        """The cheapest solution of rounds; each model gets one round at least, even if no seconds are left. Raises as
        `solve_for` does."""
        now = time.monotonic()
        self.began = now if self.began is None else self.began
        spent = now - self.began
        return solve_for(
            model, max(0.0, self.time_limit - spent), self.program, checked=self.checked, stop=self.stop,
            begin=self.begin, progress=lambda seconds, cost: self.progress(spent + seconds, cost),
        )


@asks(time_limit=A_LIMIT)
def timed_solver(
    time_limit: float, program: ProgramLike = None, *, checked: bool = True, progress: Optional[Progress] = None,
    stop: Optional[Event] = None, begin: Optional[Routes] = None,
) -> TimedSolver:
    """A solver for `rescue` that has `time_limit` seconds.

        rescue(model, solver=timed_solver(10, progress=show, stop=pressed))

    `progress` is told of each cheaper solution, by the seconds since the beginning and its cost; if it is None, a
    terminal is. Penalties for visits that must be made are a part of that cost as long as `rescue` needs them. Once the
    event `stop` is set, by another thread or a signal, the best solution so far is the answer. With vr_refine the first
    round takes the routes `begin`, if they are given and can be filled up.
    """
    return TimedSolver(time_limit, program_of(program), checked, progress or teller(), stop, begin=begin)


def words_for(solver: Solver, model: Model) -> Sequence[First]:
    """The constructions with which a solver is asked, the model's own first; a timed solver turns through them itself.
    """
    return [model.search.first] if isinstance(solver, TimedSolver) else constructions(model.search)


def tried(solver: Solver, model: Model, is_asked: bool) -> Optional[Solved]:
    """What a model gives, None if its construction finds none. None as well if the construction is not the one that was
    asked for and asks for other vehicles (SAVINGS)."""
    try:
        return solver(model)
    except NoFirstSolution:
        return None
    except Refused as refused:
        if refused.code != ALIKE or is_asked:
            raise
        return None


def greatest_cost(model: Model) -> int:
    """A bound of what any day of the model costs: every stop at its dearest arc, and all spans over all cumuls."""
    vehicles = range(len(model.vehicles))
    dearest = max(max(map(max, matrix)) for matrix in model.matrices)
    cost = (model.nodes + len(vehicles)) * max(0, dearest) + sum(vehicle.fixed for vehicle in model.vehicles)
    cost += sum(group.max * (group.penalty or 0) for group in model.groups)
    for dimension in model.dimensions:
        most = max(map(dimension.capacity_of, vehicles))
        cost += most * (dimension.global_span_cost + sum(map(dimension.span_cost_of, vehicles)))
        rows: List[StopRow] = [*dimension.nodes, *dimension.starts, *dimension.ends]
        cost += most * sum(row.soft.coefficient for row in rows if row.soft is not None)
    return cost


def required_visits(model: Model) -> List[int]:
    """The visits that are in no group."""
    grouped = {node for group in model.groups for node in group.nodes}
    return [node for node in model.visits() if node not in grouped]


@asks(model=A_MODEL)
def relax(model: Model) -> Tuple[Model, int]:
    """The model with a penalty in place of each duty, and that penalty. It is above what any day costs, as far as the
    file can say it (2^40)."""
    penalty = min(greatest_cost(model) + 1, GREATEST_ENTRY)
    groups = [replace(group, penalty=penalty) if group.penalty is None else group for group in model.groups]
    groups += [Group([node], penalty) for node in required_visits(model)]
    return replace(model, groups=groups), penalty


def missing(model: Model, solution: Solution) -> List[int]:
    """The required visits that a solution of the relaxed model leaves out. Of a group that makes fewer than it must,
    those that it leaves out."""
    return missing_of(model, solution.dropped)


def missing_of(model: Model, left_out: Iterable[int]) -> List[int]:
    """Of visits that are left out, those that `missing` tells."""
    dropped = set(left_out)
    left = dropped.intersection(required_visits(model))
    for group in model.groups:
        outside = dropped.intersection(group.nodes)
        if group.penalty is None and len(group.nodes) - len(outside) < group.max:
            left |= outside
    return sorted(left)


def by_penalties(model: Model, solver: Solver, tries: int) -> Rescue:
    """The best answer of the relaxed model: the first that leaves nobody out, else that with fewest, then the cheapest.

    Raises `NoFirstSolution` if no construction finds one.
    """
    relaxed, penalty = relax(model)
    asked = model.search.tries if model.search.improve is Improve.GUIDED_LOCAL_SEARCH else 0
    relaxed = with_search(relaxed, improve=Improve.GUIDED_LOCAL_SEARCH, tries=max(asked, tries))
    found: List[Rescue] = []
    for construction in words_for(solver, model):
        solved = tried(solver, with_search(relaxed, first=construction), False)
        if solved is not None:
            left = tuple(missing(model, solved.solution))
            found.append(Rescue(Way.PENALTIES, model, solved, None, left, penalty))
            if not left:
                return found[-1]
    if not found:
        raise NoFirstSolution("no construction finds a first solution, even where every visit may be left out")
    return min(found, key=lambda entry: (len(entry.left_out), entry.solved.solution.cost))


def as_own(solution: Solution) -> Solution:
    """A solution of the relaxed model that leaves no required visit out, as a plan of the model itself. No search of
    the model has found it, but it costs the same."""
    return replace(solution, first_cost=solution.cost, solutions=1, stop=Stop.FIRST, tries=0)
