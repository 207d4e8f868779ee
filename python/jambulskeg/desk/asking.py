"""What lists of visits cost, asked of the program: `Asker.judged` is the one place that a changed day goes through.

vr_refine prices the lists. If it is not at hand, the schedules of routes are completed here, and vr_cli checks the
whole day. Schedules are kept, whoever found them, so a change completes the routes that it changes alone.
"""

from __future__ import annotations

import json
import os
import subprocess
import tempfile
import threading
import weakref
from collections import OrderedDict
from dataclasses import dataclass, replace
from typing import AbstractSet, Dict, List, Optional, Sequence, Tuple

from ..complete import route_of, solution_of_routes
from ..errors import NotMet, ProgramFailed
from ..kinds import Matrix
from ..model import solution_of
from ..program import Program, answer, tree_of
from ..records import Group, Model
from ..refine import at_hand
from ..rescue import missing, missing_of, required_visits
from ..solution import Route, Solution
from .states import Lists

__all__ = ["Asker", "Verdict", "lenient", "merged"]

MOST_ROUTES = 5000
"""How many routes with their schedules are kept."""
Routes = Dict[Tuple[int, Tuple[int, ...]], Route]
"""Routes by their vehicles and visits, those asked for of late at the end."""


@dataclass(frozen=True)
class Verdict:
    """What the program found of a day: its schedules and costs, and the visits that must be made and are not.

    If `missing` is empty, the solution meets the model. Else the day is unfinished: the solution meets the model in
    which these may be left out for nothing. So it can be told apart from a day that breaks another rule.
    """

    solution: Solution
    missing: Tuple[int, ...] = ()

    @property
    def is_fine(self) -> bool:
        """Whether the program found that the day keeps all rules of its model."""
        return not self.missing


def merged(model: Model) -> Model:
    """The same model with each matrix once, which is shorter to hand over."""
    first: Dict[Matrix, int] = {}
    numbers: List[int] = []
    for matrix in model.matrices:
        numbers.append(first.setdefault(matrix, len(first)))  # type: ignore[arg-type]
    if len(first) == len(numbers):
        return model
    dimensions = [
        replace(dimension, evaluators=[
            entry if entry.matrix is None else replace(entry, matrix=numbers[entry.matrix])
            for entry in dimension.evaluators
        ]) for dimension in model.dimensions
    ]
    vehicles = [replace(vehicle, costs=numbers[vehicle.costs]) for vehicle in model.vehicles]
    return replace(model, matrices=list(first), dimensions=dimensions, vehicles=vehicles)


def lenient(model: Model) -> Model:
    """The model in which a visit that must be made may be left out for nothing."""
    groups = [replace(group, penalty=0) if group.penalty is None else group for group in model.groups]
    return replace(model, groups=[*groups, *(Group([node], 0) for node in required_visits(model))])


def same(some: Sequence[object], others: Sequence[object]) -> bool:
    """Whether two lists have the same objects."""
    return len(some) == len(others) and all(one is other for one, other in zip(some, others))


class Texts:
    """Models as texts. Matrices are most of a model, and are written once."""

    def __init__(self) -> None:
        self._known: Optional[Tuple[Sequence[object], str]] = None

    def of(self, model: Model) -> str:
        """The model file."""
        if self._known is None or not same(self._known[0], model.matrices):
            self._known = model.matrices, json.dumps(model.matrices, separators=(",", ":"))
        tree = model.tree()
        del tree["matrices"]
        return json.dumps(tree, separators=(",", ":"))[:-1] + f',"matrices":{self._known[1]}}}'


class Held:
    """A model in a file without a name, which the program reads together with what it is asked about. So what never
    changes is handed over once."""

    def __init__(self, text: str) -> None:
        self._file, path = tempfile.mkstemp()
        os.unlink(path)
        weakref.finalize(self, os.close, self._file)
        self._length = self._written(f'{{"model":{text},', 0)
        self._lock = threading.Lock()

    def _written(self, text: str, place: int) -> int:
        """Writes from a place on, and tells the place at which the file then ends."""
        data = memoryview(text.encode("utf-8", "surrogatepass"))
        os.ftruncate(self._file, place)
        while data:
            count = os.pwrite(self._file, data, place)
            data, place = data[count:], place + count
        return place

    def check(self, program: Program, solution: Solution) -> None:
        """Asks whether a solution meets the model. Raises `NotMet`, and as `Program.run` does."""
        self._asked(program, "check", f'"solution":{solution.text()}')

    def price(self, program: Program, lists: Lists) -> Solution:
        """What lists cost, by vr_refine. Raises `NotMet`, and as `Program.run` does."""
        return solution_of(self._asked(program, "price", f'"routes":{json.dumps(lists)}'))

    def _asked(self, program: Program, word: str, field: str) -> object:
        """What a program answers about the model and a further field."""
        with self._lock:
            self._written(f"{field}}}", self._length)
            os.lseek(self._file, 0, os.SEEK_SET)
            return tree_of(run_on(program, [word], self._file))


def run_on(program: Program, words: Sequence[str], file: int) -> str:
    """What the program writes when it reads a file, as `Program.run` has it."""
    try:
        ran = subprocess.run(
            [program.path, *words], stdin=file, stdout=subprocess.PIPE, stderr=subprocess.PIPE, check=False
        )
    except OSError as problem:
        raise ProgramFailed(f"the program {program.path} could not be started: {problem.strerror}") from problem
    return answer(ran.returncode, ran.stdout, ran.stderr)


class Asker:
    """Asks the program about days of one model, for one thread at a time; `refining` is the vr_refine beside it."""

    def __init__(
        self, model: Model, program: Program, texts: Optional[Texts] = None, routes: Optional[Routes] = None
    ) -> None:
        self.model, self.program, self.refining = model, program, at_hand(program)
        self._texts = texts or Texts()
        self._lock = threading.Lock()
        self._routes = OrderedDict(routes or {})
        self._held: Dict[bool, Held] = {}

    def of_model(self, model: Model, changed: AbstractSet[int]) -> "Asker":
        """An asker about another model, mostly of the same matrices, in which some visits ask for something else. The
        schedules of routes without these are kept."""
        kept = {key: route for key, route in self._routes.items() if changed.isdisjoint(key[1])}
        return Asker(model, self.program, self._texts, kept)

    def apart(self) -> "Asker":
        """An asker about the same model for another thread."""
        return Asker(self.model, self.program, self._texts, self._routes)

    def judged(self, lists: Lists) -> Verdict:
        """What the program finds of these lists, with the schedules that it would choose.

        Raises `CannotBeDriven` if a list has no schedule, `NotMet` with the rule that is broken otherwise, and what
        `Program.run` raises.
        """
        if self.refining is not None:
            return self.priced(lists, self.refining)
        found = self.reckoned(lists)
        self.check(found)
        return found

    def priced(self, lists: Lists, refining: Program) -> Verdict:
        """The same by vr_refine. Raises as `judged` does."""
        made = {node for visits in lists for node in visits}
        left = tuple(missing_of(self.model, (node for node in self.model.visits() if node not in made)))
        try:
            solution = self._held_for(bool(left)).price(refining, lists)
        except NotMet:
            self.reckoned(lists)  # if a route cannot be driven, this raises at the stop
            raise
        for vehicle, visits in enumerate(lists):
            self._keep((vehicle, visits), solution.routes[vehicle])
        return Verdict(solution, left)

    def reckoned(self, lists: Lists) -> Verdict:
        """The same, without asking the program. Raises `CannotBeDriven`."""
        solution = solution_of_routes(self.model, [self.route(number, visits) for number, visits in enumerate(lists)])
        return Verdict(solution, tuple(missing(self.model, solution)))

    def route(self, vehicle: int, visits: Tuple[int, ...]) -> Route:
        """The route of a vehicle with its schedules. Raises `CannotBeDriven`."""
        key = vehicle, visits
        known = self._routes.get(key)
        return self._keep(key, route_of(self.model, vehicle, visits) if known is None else known)

    def _keep(self, key: Tuple[int, Tuple[int, ...]], route: Route) -> Route:
        """Keeps a route, which is handed back."""
        self._routes[key] = route
        self._routes.move_to_end(key)
        if len(self._routes) > MOST_ROUTES:
            self._routes.popitem(last=False)
        return route

    def check(self, found: Verdict) -> None:
        """Asks whether what was reckoned is so; any thread may. Raises `NotMet`, and as `Program.run` does."""
        self._held_for(bool(found.missing)).check(self.program, found.solution)

    def _held_for(self, is_lenient: bool) -> Held:
        """The model as the program reads it, or the one in which all visits may be left out."""
        with self._lock:
            if is_lenient not in self._held:
                self._held[is_lenient] = Held(self._texts.of(lenient(self.model) if is_lenient else self.model))
            return self._held[is_lenient]
