"""`price` and `refine`: what a plan costs that is there already, and a search that goes on from it."""

from __future__ import annotations

import argparse
import json
import sys
from typing import Any, Iterator, List, Optional, Tuple

from ..errors import NotMet, ProgramMissing, Refused
from ..findings import PARTS
from ..model import json_of, meets, read_model
from ..output import Output
from ..portfolio import fitted
from ..records import MOST_TRIES, Improve, Model
from ..refine import at_hand, price
from ..replan import moved
from ..rounds import solve_for, to_terminal, with_search
from ..solution import Solution
from ..stopping import stopping
from .plan import seconds_of

__all__ = ["add_price", "add_refine", "run_price", "run_refine"]

PLAN = "a solution, or a list of the visits of each vehicle, as in [[3,1],[2]], alone or as 'routes' of an object"


def add_price(command: argparse.ArgumentParser) -> None:
    """The words of `price`."""
    command.add_argument("model", metavar="MODEL", help="the model file")
    command.add_argument("plan", metavar="PLAN", help=PLAN)
    command.add_argument("-o", "--output", metavar="SOLUTION", help="the solution with its schedules")
    command.set_defaults(run=run_price)


def add_refine(command: argparse.ArgumentParser) -> None:
    """The words of `refine`."""
    command.add_argument("model", metavar="MODEL", help="the model file")
    command.add_argument("plan", metavar="PLAN", help=PLAN)
    command.add_argument("-o", "--output", metavar="SOLUTION", required=True, help="the solution that is found")
    command.add_argument("--seconds", type=seconds_of, default=10.0, metavar="S", help="how long is searched: 10")
    command.add_argument("--progress", action="store_true",
                         help="tell each cheaper plan on standard error; a terminal is told anyway")
    command.set_defaults(run=run_refine)


def read_lists(path: str) -> Any:
    """The visits of each vehicle in a file, in its first JSON value; whether they are such is asked later. Raises
    `NotJson`, `Refused`, `OSError`."""
    tree = json_of(path, lambda text: json.JSONDecoder().raw_decode(text.lstrip())[0])
    if isinstance(tree, dict) and "cost" in tree:
        return Solution.of(tree).lists()
    return tree["routes"] if isinstance(tree, dict) and "routes" in tree else tree


def priced(asked: argparse.Namespace, model: Model, lists: Any) -> Solution:
    """The solution of the lists of a file as they are. Raises `ValueError` with the file and the place."""
    try:
        return price(model, lists)
    except Refused as fault:
        file = asked.model if fault.path.startswith("/model") else asked.plan
        raise ValueError(f"{file}: {fault.sentence.replace('the input', '', 1)}") from None


def run_price(asked: argparse.Namespace) -> int:
    """Tells what a plan costs, or which rule it breaks."""
    model = read_model(asked.model)
    lists = read_lists(asked.plan)
    try:
        if asked.output is None:
            found = priced(asked, model, lists)
        else:
            with Output(asked.output) as out:
                found = priced(asked, model, lists)
                out.write(found.text() + "\n")
    except NotMet as broken:
        raise ValueError(f"{asked.plan}: {broken}") from None
    for line in lines_of(found):
        print(line)
    return 0


def lines_of(solution: Solution) -> Iterator[str]:
    """What a plan costs, by parts, and what each vehicle makes."""
    parts = {part: value for part, value in solution.parts.tree().items() if value}
    yield f"cost {solution.cost}" + (": " if parts else "") + ", ".join(
        f"{part} {parts[part]}" for part in PARTS if part in parts
    )
    for route in solution.routes:
        if route.nodes:
            yield f"vehicle {route.vehicle}: {' '.join(map(str, route.nodes))}"
    if solution.dropped:
        yield f"left out: {', '.join(map(str, solution.dropped))}"


def run_refine(asked: argparse.Namespace) -> int:
    """Writes what a search finds that goes on from a plan."""
    if at_hand() is None:
        raise ProgramMissing(
            "refine asks for a vr_refine that knows ruin and recreate, beside vr_cli or named by the variable VR_REFINE"
        )
    model, lists = read_model(asked.model), read_lists(asked.plan)
    before, looks = looked_at(asked, model, lists)
    improve = Improve.GREEDY_DESCENT if model.search.improve is Improve.NONE else model.search.improve
    with stopping() as stop, Output(asked.output) as out:
        found = solve_for(
            with_search(model, improve=improve, solutions=MOST_TRIES), asked.seconds, begin=lists, stop=stop,
            progress=to_terminal if asked.progress else None,
        ).solution
        found = meets(model, fitted(model, found))
        out.write(found.text() + "\n")
    for line in [*looks, *told(before, found)]:
        sys.stderr.write(line + "\n")
    return stop.status


def looked_at(asked: argparse.Namespace, model: Model, lists: Any) -> Tuple[Optional[Solution], List[str]]:
    """The solution of a plan, or why there is none, in a line."""
    try:
        return priced(asked, model, lists), []
    except NotMet as broken:
        return None, [f"look at: {asked.plan}: {broken}"]


def told(before: Optional[Solution], after: Solution) -> Iterator[str]:
    """What a search has changed of a plan."""
    if before is None:
        yield f"cost {after.cost}"
        return
    changed = moved(before, after)
    made = sum(len(route.visits) for route in before.routes)
    yield f"cost {after.cost}, {before.cost} before; {len(changed.moved)} of {made} visits changed vehicle"
