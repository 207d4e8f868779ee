"""The model file and what is asked of it: `solve`, `first`, `check`, `spans`. The records are those of `records` and
`solution`.

Each answer that is handed out was found to meet its model by the program's proved check; `checked=False` leaves that
out. Whoever adds a mode of the program adds a function here, beside `solve`.
"""

from __future__ import annotations

import json
import operator
import os
from dataclasses import dataclass
from threading import Event as EventOf
from typing import Any, Callable, List, Optional, Sequence, Tuple, Union

from .arguments import A_FILE, A_LIMIT, A_MODEL, A_PATH, A_SOLUTION, asks, either, number
from .errors import CAUSES, Fault, NotJson, NotMet, ProgramFailed, Refused
from .findings import Finding, explain
from .kinds import Whole
from .program import ProgramLike, lines_of, program_of, tree_of
from .records import (
    MOST_VEHICLES, Allowed, Break, Dimension, Evaluator, First, Group, Improve, Model, Neighbourhood, NodeRow, Pair,
    Policy, ScheduleRule, Search, Soft, StopRow, Vehicle, VehicleBreaks, VehicleRow,
)
from .solution import LeastSpan, Parts, Plan, Route, Solution, Status, Stop

__all__ = [
    "Allowed", "Break", "Dimension", "Evaluator", "Event", "Finding", "First", "Group", "Improve", "LeastSpan", "Model",
    "Neighbourhood", "NodeRow", "Pair", "Parts", "Plan", "Policy", "Route", "ScheduleRule", "Search", "SearchLog",
    "Soft", "Solution", "Status", "Stop", "StopRow", "Vehicle", "VehicleBreaks", "VehicleRow", "check", "explain",
    "first", "generate", "import_tsplib", "meets", "read_model", "read_solution", "solve", "solve_with_log", "spans",
]


@dataclass(frozen=True)
class Event:
    """An event of a search: how many moves had been tried, `first`, `move` or `round`, and the cost then."""

    tries: int
    word: str
    cost: int


@dataclass(frozen=True)
class SearchLog:
    """What a search did: moves made, rounds in which no move helped, the least cost, and each event in order."""

    moves: int
    rounds: int
    best: int
    events: Tuple[Event, ...]


@asks(model=A_MODEL, seconds=either(A_LIMIT))
def solve(
    model: Model, program: ProgramLike = None, *, checked: bool = True, seconds: Optional[float] = None,
    stop: Optional[EventOf] = None,
) -> Solution:
    """The solution of the whole search that the model asks for; the same model always gives the same one.

    `seconds` is the most that each run of the program may take; once the event `stop` is set, it is ended (`Stopped`).
    Raises `Refused` if the model has a fault,
    `NoFirstSolution` if the construction finds none (see `jambulskeg.rescue`), and what `Program.run` raises.
    """
    return answered(model, "solve", program, checked, seconds, stop)


@asks(model=A_MODEL, seconds=either(A_LIMIT))
def first(
    model: Model, program: ProgramLike = None, *, checked: bool = True, seconds: Optional[float] = None
) -> Solution:
    """The first solution, by the construction that the model asks for. Raises as `solve` does."""
    return answered(model, "first", program, checked, seconds)


def answered(
    model: Model, word: str, program: ProgramLike, checked: bool, seconds: Optional[float],
    stop: Optional[EventOf] = None,
) -> Solution:
    """The solution that a mode of the program writes, found to meet the model if that is asked for."""
    found = program_of(program)
    solution = solution_of(found.ask([word], model.text(), seconds, stop))
    if checked:
        meets(model, solution, found, seconds=seconds)
    return solution


@asks(model=A_MODEL, seconds=either(A_LIMIT))
def solve_with_log(
    model: Model, program: ProgramLike = None, *, checked: bool = True, seconds: Optional[float] = None
) -> Tuple[Solution, SearchLog]:
    """The solution as `solve` has it, and what the search did. Raises as `solve` does."""
    found = program_of(program)
    lines = lines_of(found.run(["solve", "--log"], model.text(), seconds))
    solution, log = solution_of(tree_of(lines[0] if lines else "")), log_of(lines[1:])
    if checked:
        meets(model, solution, found, seconds=seconds)
    return solution, log


def log_of(lines: Sequence[str]) -> SearchLog:
    """The reports of a search. Raises `ProgramFailed` if they are none."""
    try:
        moves, rounds, best = (int(word) for word in lines[0].split()[1::2])
        events = [line.split() for line in lines[1:]]
        return SearchLog(moves, rounds, best, tuple(Event(int(t), word, int(cost)) for t, word, cost in events))
    except (ValueError, IndexError):
        raise ProgramFailed("the program wrote reports of a search that cannot be read") from None


def solution_of(tree: object) -> Solution:
    """The solution that the program wrote. Raises `ProgramFailed` if it has another form."""
    try:
        return Solution.of(tree)
    except Refused as fault:
        raise ProgramFailed(f"the program wrote a solution of another form: {fault}") from fault


@asks(model=A_MODEL, solution=A_SOLUTION, seconds=either(A_LIMIT))
def check(
    model: Model, solution: Solution, program: ProgramLike = None, *, seconds: Optional[float] = None
) -> Finding:
    """Whether a solution, from wherever it comes, keeps all rules of the model and costs what it says.

    Raises `Refused` if the model has a fault, at a path that begins with `/model`.
    """
    try:
        tree = program_of(program).ask(["check"], beside(model, solution), seconds)
    except NotMet as broken:
        return Finding(None, broken.rule, broken.vehicle, broken.place)
    if not isinstance(tree, dict) or not isinstance(tree.get("cost"), int):
        raise ProgramFailed("the program wrote a finding that cannot be read")
    return Finding(cost=tree["cost"])


def beside(model: Model, solution: Solution) -> str:
    """What `check` and `spans` read: a model and a solution of it."""
    return f'{{"model":{model.text()},"solution":{solution.text()}}}'


@asks(model=A_MODEL, solution=A_SOLUTION, seconds=either(A_LIMIT))
def meets(
    model: Model, solution: Solution, program: ProgramLike = None, *, seconds: Optional[float] = None
) -> Solution:
    """The solution itself. Raises `NotMet` if it breaks a rule of the model."""
    finding = check(model, solution, program, seconds=seconds)
    if finding.rule is not None:
        raise NotMet(finding.rule, finding.vehicle, finding.place, explain(finding, solution))
    return solution


@asks(model=A_MODEL, solution=A_SOLUTION, seconds=either(A_LIMIT))
def spans(
    model: Model, solution: Solution, program: ProgramLike = None, *, seconds: Optional[float] = None
) -> List[LeastSpan]:
    """How short each printed route could be, by vehicle and then dimension.

    A dimension in which some vehicle has breaks is left out, and so is a vehicle that is not used. What a schedule
    costs is not looked at. Raises `NotMet` if the solution breaks a rule of the model, and else as `check` does.
    """
    try:
        tree = program_of(program).ask(["spans"], beside(model, solution), seconds)
    except NotMet as broken:
        finding = Finding(None, broken.rule, broken.vehicle, broken.place)
        raise NotMet(broken.rule, broken.vehicle, broken.place, explain(finding, solution)) from None
    try:
        return [LeastSpan.of(entry) for entry in tree["spans"]]
    except (Refused, KeyError, TypeError) as fault:
        raise ProgramFailed(f"the program wrote spans that cannot be read: {fault}") from fault


@asks(number=number(0, 2**64 - 1))
def generate(number: int, program: ProgramLike = None) -> Model:
    """A model to try things with, of a number up to 2^64 - 1: sixty visits, six vehicles."""
    return Model.of(program_of(program).ask(["generate", str(number)]))


@asks(file=A_FILE, seconds=either(A_LIMIT))
def import_tsplib(
    file: Union[str, "os.PathLike[str]", bytes], vehicles: int, program: ProgramLike = None, *,
    seconds: Optional[float] = None
) -> Model:
    """The model of a TSPLIB file of type CVRP, given by its path or as its bytes, with 1 to 100 vehicles.

    Raises `Refused` at the first faulty line, whose number is the path (`/8`; `/0` if the file ends too early or the
    depot has a demand), and if there may not be this many vehicles; `OSError` if the file cannot be read.
    """
    for fault in Whole(1, MOST_VEHICLES).faults(vehicles, "/vehicles"):
        raise Refused(fault, "the import")
    name, data = ("the file", file) if isinstance(file, bytes) else (os.fspath(file), bytes_of(file))
    try:
        tree = program_of(program).ask(["import", str(operator.index(vehicles))], data, seconds)
    except Refused as refused:
        raise Refused(at_line(refused.fault), name) from None
    try:
        return Model.of(tree)
    except Refused as fault_of_tree:
        raise ProgramFailed(f"the program wrote a model that cannot be read: {fault_of_tree}") from fault_of_tree


def bytes_of(path: Union[str, "os.PathLike[str]"]) -> bytes:
    """The bytes of a file."""
    with open(path, "rb") as file:
        return file.read()


def at_line(fault: Fault) -> Fault:
    """A fault of a TSPLIB file, with its line in words."""
    line = fault.path.lstrip("/")
    place = "at the end of the file" if line == "0" else f"in line {line}"
    return Fault(fault.code, fault.path, f"{place}, {CAUSES.get(fault.code, 'something is wrong')}")


@asks(path=A_PATH)
def read_model(path: str) -> Model:
    """The model of a file. Raises `OSError`, `Refused`, and `NotJson` if the file is no JSON."""
    return Model.of(json_of(path, json.loads))


@asks(path=A_PATH)
def read_solution(path: str) -> Solution:
    """The solution in the first line of a file. Raises as `read_model` does."""
    return Solution.of(json_of(path, lambda text: json.JSONDecoder().raw_decode(text.lstrip())[0]))


def json_of(path: str, read: Callable[[str], Any]) -> Any:
    """What a file has, read from its text. Raises `NotJson` with the place, `OSError`."""
    try:
        with open(path, encoding="utf-8") as file:
            return read(file.read())
    except (ValueError, RecursionError) as fault:
        raise NotJson(f"{path} is no JSON text in UTF-8: {fault}") from None
