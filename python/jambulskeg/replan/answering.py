"""The rest solved, and the whole day that comes of it."""

from __future__ import annotations

from dataclasses import dataclass
from threading import Event
from typing import Callable, Optional

from ..arguments import A_LIMIT, a, asks
from ..errors import NoFirstSolution, Stopped
from ..program import ProgramLike
from ..refine import Routes
from ..rescue import Progress, Solver, rescue, timed_solver
from ..solution import Solution
from .alike import renumbered
from .continuing import continued
from .gluing import Moved, glue, moved
from .rest import Rest

__all__ = ["Replanned", "RestSolver", "from_morning", "going_on", "searched", "solve_rest"]

RestSolver = Callable[[Rest], Solution]
"""How the rest is solved: gives a solution of `rest.model`, or raises `NoFirstSolution`. A search that begins with
given routes begins with `rest.lists`, or with the lists of `continued(rest)`."""


@dataclass(frozen=True)
class Replanned:
    """The day replanned: `whole` is the solution of the whole day, `rest` that of its rest.

    `kept` is the cost of the whole day if the plan of the morning goes on, with new orders where they cost least. It is
    None if that cannot be. `is_kept` says whether that plan is the answer; `moved` is what changes.
    """

    whole: Solution
    rest: Solution
    kept: Optional[int]
    is_kept: bool
    moved: Moved


def searched(solver: Optional[Solver] = None, program: ProgramLike = None) -> RestSolver:
    """A solver of the rest that begins with nothing: `rescue`, with a solver of models such as `timed_solver(10)`."""

    def search(rest: Rest) -> Solution:
        found = rescue(rest.model, program, solver=solver)
        if found.solution is None:
            nodes = ", ".join(str(rest.layout.nodes[node]) for node in found.left_out)
            raise NoFirstSolution(f"no solution of the rest was found: these required visits stay out: {nodes}")
        return found.solution

    return search


@asks(seconds=A_LIMIT)
def from_morning(
    seconds: float, program: ProgramLike = None, *, progress: Optional[Progress] = None, stop: Optional[Event] = None
) -> RestSolver:
    """A solver of the rest that goes on from the routes of the morning for some seconds, so that few visits change
    vehicle. Without vr_refine it begins with nothing, as `searched(timed_solver(seconds))` does."""

    def search(rest: Rest) -> Solution:
        kept = continued(rest, program, checked=False)
        begin: Routes = rest.lists if kept is None else kept
        return searched(timed_solver(seconds, program, progress=progress, stop=stop, begin=begin), program)(rest)

    return search


@asks(rest=a(Rest))
def solve_rest(rest: Rest, solver: Optional[RestSolver] = None, program: ProgramLike = None) -> Replanned:
    """The cheaper one of what a search finds and of the plan of the morning continued, put together with the morning.
    Vehicles that are alike and have not left are renumbered, so that fewer visits change vehicle.

    Raises `NoFirstSolution` or `Stopped` if the search does and the plan cannot go on.
    """
    kept = continued(rest, program)
    try:
        found = renumbered(rest, (solver or searched(program=program))(rest))
    except (NoFirstSolution, Stopped):
        if kept is None:
            raise
        found = kept
    best = found if kept is None or found.cost < kept.cost else kept
    whole = glue(rest.day, rest, best, program)
    cost = None if kept is None else glue(rest.day, rest, kept, program).cost
    return Replanned(whole, best, cost, best is kept, moved(rest.morning, whole))


def going_on(rest: Rest) -> Solution:
    """A solver of the rest that does not search: the plan of the morning continued. Raises `NoFirstSolution` if it
    cannot be."""
    found = continued(rest)
    if found is None:
        raise NoFirstSolution("the plan of the morning cannot go on: a visit that must be made fits nowhere")
    return found
