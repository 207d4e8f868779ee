"""python3 tests/measure_rounds.py, by hand: what a search for 2 and for 10 seconds finds, by rounds that go on from the
best routes so far (`timed_solver` with a vr_refine that knows ruin and recreate), by rounds that begin anew (without
it), by rounds of the model's own construction with twice as many tries each, and by a portfolio with as many tries as
take about as long on four processors."""

from __future__ import annotations

import os
import sys
import time
from dataclasses import replace
from typing import List, Tuple
from unittest import mock

TOP = os.path.dirname(os.path.dirname(os.path.abspath(__file__)))
sys.path.insert(0, TOP)

from jambulskeg.engines import OwnProcesses  # noqa: E402
from jambulskeg.errors import ProgramSlow  # noqa: E402
from jambulskeg.model import Model, generate, read_model, solve  # noqa: E402
from jambulskeg.portfolio import portfolio  # noqa: E402
from jambulskeg.refine import at_hand  # noqa: E402
from jambulskeg.rescue import rescue, timed_solver  # noqa: E402
from jambulskeg.rounds import FIRST_TRIES, with_search  # noqa: E402

HUNDRED = os.path.join(os.path.dirname(TOP), "examples", "hundred-customers.json")
LIMITS = {2: (15000000, 7000000), 10: (80000000, 25000000)}
"""The tries of a portfolio for each limit: of hundred-customers, of generate 8."""


def doubled(model: Model, limit: float) -> int:
    """The cost after rounds of one construction."""
    end, tries, costs = time.monotonic() + limit, FIRST_TRIES, [solve(with_search(model, tries=1)).cost]
    while time.monotonic() < end:
        try:
            asked = with_search(model, tries=tries)
            costs.append(solve(asked, checked=False, seconds=end - time.monotonic()).cost)
        except ProgramSlow:
            break
        tries *= 2
    return min(costs)


def gone_on(model: Model, limit: float) -> Tuple[int, float]:
    """The cost after rounds that go on, and the seconds at the end of the last one."""
    found = rescue(model, solver=timed_solver(limit)).solved
    return found.solution.cost, found.rounds[-1].seconds


def turned(model: Model, limit: float) -> Tuple[int, float]:
    """The same of rounds that begin anew."""
    with mock.patch("jambulskeg.rounds.at_hand", return_value=None):
        return gone_on(model, limit)


def beside(model: Model, tries: int) -> Tuple[int, float]:
    """The cost of a portfolio, and its seconds."""
    begin = time.monotonic()
    found = portfolio(replace(model), OwnProcesses(4), tries=tries)
    return found.solution.cost, time.monotonic() - begin


def main() -> None:
    """Prints a line for each day and limit."""
    days: List[Tuple[str, Model]] = [("hundred-customers", read_model(HUNDRED)), ("generate 8", generate(8))]
    for at, (name, model) in enumerate(days):
        for limit, tries in LIMITS.items():
            print(f"{name}, {limit} s: ", end="")
            for way, rounds in (("goes on", gone_on), ("anew", turned)) if at_hand() else (("anew", turned),):
                cost, seconds = rounds(model, limit)
                print(f"{way} {cost} (last round ended at {seconds:.1f} s), ", end="", flush=True)
            print(f"one construction {doubled(model, limit)}, ", end="", flush=True)
            cost, seconds = beside(model, tries[at])
            print(f"portfolio of {tries[at]} tries {cost} in {seconds:.1f} s", flush=True)


if __name__ == "__main__":
    main()
