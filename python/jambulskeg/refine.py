"""Routes that are there already, by the program vr_refine: what they cost, and searches that go on from them.

    priced = price(model, [[3, 1], [2]])             # what a plan made by hand costs; `NotMet` says what it breaks
    better = solve(model, priced, Refine(seed=1))    # goes on from it, by ruin and recreate
"""

from __future__ import annotations

import functools
import json
import operator
import os
import shutil
from dataclasses import dataclass
from threading import Event
from typing import Any, List, Optional, Sequence, Tuple, Union

from . import program as programs
from .arguments import A_LIMIT, A_MODEL, ROUTES, Rule, a, asks, either
from .complete import CannotBeDriven, route_of
from .errors import JambulskegError, NoFirstSolution, NotMet, ProgramMissing
from .findings import Finding, sentence_of
from .kinds import is_list
from .model import meets, solution_of
from .program import Program, ProgramLike, in_repository, sought
from .records import Model, Refine, Search, Vehicle
from .solution import Solution

__all__ = [
    "BESIDE", "QUESTIONS", "Question", "Refine", "Routes", "at_hand", "begin", "belonging", "find", "price",
    "program_of", "refines", "solve",
]

NAME = "vr_refine"
VARIABLE = "VR_REFINE"
BESIDE = in_repository(NAME)
"""Where vr_refine lies in the repository."""
NONE_TO_BEGIN = (
    "there are no routes to begin with: the construction finds none, or the given ones cannot be driven, or insertion "
    "cannot fill them up"
)
NONE_FOUND = "ruin and recreate found no routes that keep all rules, which does not say that there are none"
Routes = Union[Solution, Sequence[Sequence[int]]]
"""A solution, or for each vehicle the visits that it makes, in their order, without its start and end."""


def find(path: Optional[str] = None) -> str:
    """The path of vr_refine: `path`, else that of VR_REFINE, else beside vr_cli, else in the repository of this
    package, else on the path. Raises `ProgramMissing` as `program.find` does, and `WrongArgument`."""
    try:
        places = beside(programs.find())
    except ProgramMissing:
        places = ()
    return sought(NAME, VARIABLE, [*dict.fromkeys((*places, *BESIDE))], path)


def beside(vr_cli: str) -> Tuple[str, ...]:
    """Where the vr_refine lies that belongs to a vr_cli."""
    own = os.path.join(os.path.dirname(vr_cli), NAME)
    return (own, *BESIDE) if vr_cli in programs.BESIDE else (own,)


def program_of(given: ProgramLike) -> Program:
    """The vr_refine at hand: the one handed in, the one at a path, or the one that is found. Raises `WrongArgument`."""
    return Program(find()) if given is None else programs.program_of(given)


def belonging(vr_cli: ProgramLike = None) -> Optional[Program]:
    """The vr_refine that belongs to a vr_cli; None if there is none.

    It is that of VR_REFINE, or lies beside vr_cli. Raises `ProgramMissing` if VR_REFINE names no program.
    """
    places = beside(programs.program_of(vr_cli).path)
    if not os.environ.get(VARIABLE) and not any(map(shutil.which, places)):
        return None
    return Program(sought(NAME, VARIABLE, places))


def at_hand(vr_cli: ProgramLike = None) -> Optional[Program]:
    """The vr_refine that belongs to a vr_cli, if it knows ruin and recreate; else None. Raises as `belonging` does."""
    found = belonging(vr_cli)
    return found if found is not None and refines(found) else None


def refines(program: ProgramLike = None) -> bool:
    """Whether a vr_refine knows ruin and recreate; one without it refuses the object `refine`, and does the rest."""
    path = shutil.which(program_of(program).path)
    return path is not None and known_to_refine(path, os.stat(path).st_mtime_ns)


@functools.lru_cache(maxsize=100)
def known_to_refine(path: str, _changed: int) -> bool:
    """Whether a program answers the smallest question; it is asked once as long as its file does not change."""
    smallest = Model(1, [[[0]]], [Vehicle(0, 0)], search=Search(tries=0))
    try:
        return bool(Program(path).run(["solve"], Question(smallest, refine=Refine()).text()))
    except JambulskegError:
        return False


def lists_of(routes: Routes) -> List[List[int]]:
    """The visits of each vehicle."""
    given = routes.lists() if isinstance(routes, Solution) else routes
    return [[*map(operator.index, visits)] for visits in given]


def text_beside(model: str, routes: Optional[Routes], refine: Optional[Refine]) -> str:
    """What the program reads, with the text of a model."""
    lists = None if routes is None else lists_of(routes)
    asked = None if refine is None else refine.tree()
    more = [f',"{key}":{json.dumps(value)}' for key, value in (("routes", lists), ("refine", asked))
            if value is not None]
    return "".join((f'{{"model":{model}', *more, "}"))


@dataclass(frozen=True)
class Question:
    """What vr_refine is asked: a model, and beside it routes and what is asked of ruin and recreate."""

    model: Model
    routes: Optional[Routes] = None
    refine: Optional[Refine] = None

    def text(self) -> str:
        """What the program reads."""
        return text_beside(self.model.text(), self.routes, self.refine)

    def answer(
        self, word: str, program: ProgramLike, *, checked: bool, seconds: Optional[float] = None,
        stop: Optional[Event] = None,
    ) -> Solution:
        """The solution that a mode of the program writes, found to meet the model by vr_cli if that is asked for."""
        try:
            solution = solution_of(program_of(program).ask([word], self.text(), seconds, stop))
        except NoFirstSolution:
            raise NoFirstSolution(NONE_TO_BEGIN if self.refine is None else NONE_FOUND) from None
        return meets(self.model, solution, seconds=seconds) if checked else solution


def questions(value: Any) -> str:
    """Models or questions in a list."""
    is_well = is_list(value) and all(isinstance(entry, (Model, Question)) for entry in value)
    return "" if is_well else "a list of models"


QUESTIONS: Rule = questions


@asks(model=A_MODEL, routes=ROUTES, seconds=either(A_LIMIT))
def price(
    model: Model, routes: Routes, program: ProgramLike = None, *, checked: bool = True, seconds: Optional[float] = None
) -> Solution:
    """The solution of routes as they are, with the schedules that the model's rules choose: what they cost.

    `program` is vr_refine, here and below; `seconds` is the most that each run may take. Raises `NotMet` with the first
    rule that the routes break and a sentence that says where. Raises `Refused` if they are no routes of the model, with
    the path: `/routes/1/0` is the first visit of vehicle 1. Raises `ProgramMissing`, and what `Program.run` raises.
    """
    try:
        return Question(model, routes).answer("price", program, checked=checked, seconds=seconds)
    except NotMet as broken:
        raise NotMet(broken.rule, broken.vehicle, broken.place, why_not(model, lists_of(routes), broken)) from None


def why_not(model: Model, lists: Sequence[Sequence[int]], broken: NotMet) -> str:
    """What is wrong with routes, in a sentence."""
    if broken.rule == "schedule":
        try:
            route_of(model, broken.vehicle, lists[broken.vehicle])
        except CannotBeDriven as problem:
            return str(problem)
    ends = [(vehicle.start, vehicle.end) for vehicle in model.vehicles]
    nodes = [[start, *visits, end] for (start, end), visits in zip(ends, lists)]
    return sentence_of(Finding(None, broken.rule, broken.vehicle, broken.place), nodes)


@asks(model=A_MODEL, routes=either(ROUTES), seconds=either(A_LIMIT))
def begin(
    model: Model, routes: Optional[Routes] = None, program: ProgramLike = None, *, checked: bool = True,
    seconds: Optional[float] = None,
) -> Solution:
    """The solution that the model's own search begins with: `routes` if they keep all rules; else, if they can be
    driven, these filled up by parallel insertion; without `routes` the model's first solution.

    Raises `NoFirstSolution` if there is none, and else as `price` does.
    """
    return Question(model, routes).answer("first", program, checked=checked, seconds=seconds)


@asks(model=A_MODEL, routes=either(ROUTES), refine=either(a(Refine)), seconds=either(A_LIMIT))
def solve(
    model: Model, routes: Optional[Routes] = None, refine: Optional[Refine] = None, program: ProgramLike = None, *,
    checked: bool = True, seconds: Optional[float] = None, stop: Optional[Event] = None,
) -> Solution:
    """The best solution that a search finds from `routes`, or from the model's construction without them.

    With `refine` it is ruin and recreate, of as many steps as the model has `tries`. That also begins with routes that
    lack visits, and with a construction that does. Without it, it is the model's own search, from what `begin` gives.
    `stop` is an event: once it is set, the search is ended (`Stopped`). Raises `NoFirstSolution` if nothing is found,
    and else as `price` does.
    """
    asked = Question(model, routes, refine)
    return asked.answer("solve", program, checked=checked, seconds=seconds, stop=stop)
