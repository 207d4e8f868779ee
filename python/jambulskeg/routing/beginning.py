"""Searches that begin with an assignment: its routes are priced, and a search goes on from them by vr_refine."""

from __future__ import annotations

from typing import Optional, Sequence

from ..complete import complete
from ..model import meets
from ..program import ProgramLike
from ..records import Model
from ..refine import belonging, price, solve as refined
from ..rescue import Rescue, Way
from ..rounds import Progress, Solved, solve_for
from ..solution import Solution

__all__ = ["go_on", "priced"]


def priced(model: Model, lists: Sequence[Sequence[int]], program: ProgramLike) -> Solution:
    """The solution of lists of visits as they are. Raises `NotMet` with the first rule that they break, and
    `CannotBeDriven` if there is no vr_refine to name it. A visit that is made twice is none of its rules."""
    refiner, nodes = belonging(program), [node for visits in lists for node in visits]
    if refiner is None or len(set(nodes)) < len(nodes):
        return complete(model, lists, program)
    return meets(model, price(model, lists, refiner, checked=False), program)


def go_on(
    model: Model, begin: Solution, program: ProgramLike, seconds: Optional[float], progress: Optional[Progress],
    checked: bool,
) -> Rescue:
    """What a search finds that begins with a solution, no dearer than that one: rounds for some seconds, or the model's
    own search once. Without vr_refine the former begin anew, and the latter is left out."""
    refiner, solved = belonging(program), Solved(model, begin)
    if seconds is not None:
        solved = solve_for(model, seconds, program, checked=checked, progress=progress, begin=begin)
    elif refiner is not None:
        solution = refined(model, begin, None, refiner, checked=False)
        solved = Solved(model, meets(model, solution, program) if checked else solution, routes=begin)
    if solved.solution.cost > begin.cost:
        solved = Solved(model, begin)
    return Rescue(Way.GIVEN, solved.model, solved, solved.solution)
