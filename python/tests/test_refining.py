"""Ruin and recreate: what it finds, and rounds, rescues and portfolios that go on from the best routes so far.

These tests ask for a vr_refine that knows ruin and recreate; with one that refuses the object `refine` they are
skipped.
"""

from __future__ import annotations

import contextlib
import io
import os
import threading
import time
import unittest
from typing import Any, List
from unittest import mock

from jambulskeg.engines import GnuParallel, OwnProcesses, Slurm
from jambulskeg.errors import NoFirstSolution, ProgramKilled, Refused, Stopped
from jambulskeg.model import Improve, Model, Stop, check, first, read_model, solve as solve_anew
from jambulskeg.portfolio import SEEDS, portfolio, refinings, variants
from jambulskeg.program import find as find_solver
from jambulskeg.records import Refine
from jambulskeg.refine import find, refines, solve
from jambulskeg.replan import from_morning, replan, solve_rest
from jambulskeg.rescue import RESCUE_STEPS, Rescue, Solved, Way, rescue, timed_solver, with_search
from jambulskeg.rounds import FIRST_STEPS, On, solve_for

from .support import AS_REAL, EXAMPLES, Fake, environment, example, solved, tree_with
from .test_portfolio import PARALLEL, SBATCH, engine_on_path

DAY = read_model(os.path.join(EXAMPLES, "service-day.json"))
PLACES = [0, -6, 6, -5, 5, 1, 7, 6]
LOADED: Any = {
    "nodes": 8, "matrices": [[[abs(i - j) for j in PLACES] for i in PLACES]], "vehicles": [{"start": 0, "end": 0}] * 3,
    "dimensions": [{
        "name": "load", "evaluators": [{"values": [0, 2, 3, 3, 2, 3, 3, 2]}], "slack_max": 0, "capacity": 6,
        "fix_start": True,
    }],
}
"""A day that no construction finds: all vehicles are full."""


def as_refiner() -> str:
    """How a `Fake` goes on as the real vr_refine."""
    return f"REAL = {find()!r}\n{AS_REAL}"


@unittest.skipUnless(refines(), "the vr_refine at hand does not know ruin and recreate")
class RefiningTests(unittest.TestCase):
    def test_what_it_finds(self) -> None:
        fewer = Model.of(tree_with(matrices=[[[0, 5, 9], [1, 0, 9], [2, 1, 0]]], search={"tries": 7}))
        for routes in (None, [[1, 2]]):
            found = solve(fewer, routes, Refine())
            self.assertEqual((found.cost, found.stop, found.tries), (11, Stop.TRIES, 7))
        begun = first(DAY)
        found = solve(with_search(DAY, tries=300), begun, Refine())
        self.assertEqual(found.first_cost, begun.cost)
        self.assertLess(found.cost, begun.cost)
        self.assertTrue(check(with_search(DAY, tries=300), found).meets)
        self.assertEqual(found, solve(with_search(DAY, tries=300), begun.lists(), Refine(0, 10, 10)))
        other = Refine(seed=1, removed=3, string=2, heat=0)
        self.assertNotEqual(found, solve(with_search(DAY, tries=300), begun, other))

    def test_a_day_that_no_construction_finds(self) -> None:
        model = Model.of(LOADED)
        self.assertRaises(NoFirstSolution, lambda: solve(model))
        self.assertEqual(solve(with_search(model, tries=500), None, Refine()).cost, 50)
        self.assertRaisesRegex(
            NoFirstSolution, "ruin and recreate", lambda: solve(with_search(model, tries=0), None, Refine())
        )


@unittest.skipUnless(refines(), "the vr_refine at hand does not know ruin and recreate")
class RoundTests(unittest.TestCase):
    def test_rounds_go_on_from_the_best_so_far(self) -> None:
        for limit in (0.3, 1.5, 5.0, 15.0):  # On a busy machine few rounds are over sooner.
            with mock.patch("jambulskeg.rounds.FIRST_TRIES", 5000):
                found = solve_for(DAY, limit)
            ways = [entry.on for entry in found.rounds]
            if On.OWN in ways and found.solution.cost == 1338:
                break
        self.assertEqual(ways[:4], [None, None, None, On.RUIN])
        self.assertIn(On.OWN, ways)
        self.assertEqual(found.solution.cost, 1338)
        seeds = [entry.refine.seed for entry in found.rounds if entry.refine is not None]
        self.assertEqual(seeds, list(range(1, len(seeds) + 1)))
        self.assertEqual([entry.search.tries for entry in found.rounds[:4]], [5000, 5000, 5000, FIRST_STEPS])
        self.assertTrue(check(found.model, found.solution).meets)

    def test_a_round_gives_its_answer_again(self) -> None:
        for improve in (Improve.GREEDY_DESCENT, Improve.GUIDED_LOCAL_SEARCH):
            found = solve_for(with_search(DAY, improve=improve), 0.15)
            self.assertEqual(found.again(), found.solution)
        poor = with_search(DAY, improve=Improve.GREEDY_DESCENT)
        for seconds in (0.1, 0.3, 1.0, 2.0, 4.0, 8.0):  # A busy machine may want more of them.
            with mock.patch("jambulskeg.rounds.FIRST_TRIES", 1):
                found = solve_for(poor, seconds)
            if found.routes is not None:
                break
        self.assertIsNotNone(found.routes)
        self.assertEqual(found.again(), found.solution)
        self.assertNotEqual(found.solution, solve_anew(found.model))

    def test_where_it_does_not_go_on(self) -> None:
        for fields in ({"improve": Improve.NONE}, {"solutions": 2}):
            rounds = solve_for(with_search(DAY, **fields), 0.1).rounds
            self.assertEqual({entry.on for entry in rounds}, {None})
        self.assertEqual(len(solve_for(DAY, 0).rounds), 1)

    def test_little_of_a_limit_is_lost(self) -> None:
        model, ends = read_model(os.path.join(EXAMPLES, "hundred-customers.json")), []
        for _ in range(8):  # A busy machine may miss it.
            ends.append(solve_for(model, 0.5).rounds[-1].seconds)
            if 0.45 < ends[-1] < 0.55:
                break
        self.assertTrue(0.45 < ends[-1] < 0.55, ends)

    def test_it_begins_by_ruin_if_no_construction_finds_a_day(self) -> None:
        model = Model.of({**LOADED, "search": {"improve": "GUIDED_LOCAL_SEARCH"}})
        for found in (rescue(model), rescue(model, solver=timed_solver(0)), rescue(model, solver=timed_solver(0.1))):
            self.assertIs(found.way, Way.RUIN)
            self.assertTrue(found.solution is not None and check(found.model, found.solution).meets)
            self.assertIn("by ruin and recreate", found.sentence)
            self.assertEqual(found.solved.again(), found.solution)
        self.assertEqual(rescue(model).solved.model.search.tries, RESCUE_STEPS)
        full = Model.of({**LOADED, "vehicles": [{"start": 0, "end": 0}] * 2, "search": {"tries": 100}})
        self.assertIsNone(rescue(full, solver=timed_solver(0.1)).solution)

    def test_rounds_take_given_routes_first(self) -> None:
        poor = first(DAY)
        found = solve_for(DAY, 0, begin=poor)
        self.assertEqual([(entry.on, entry.cost) for entry in found.rounds], [(On.GIVEN, poor.cost)])
        self.assertEqual(found.again(), found.solution)
        begun = rescue(DAY, solver=timed_solver(0.1, begin=poor.lists()))
        self.assertEqual((begun.way, begun.sentence), (Way.GIVEN, "by the routes that it began with"))
        self.assertNotIn(None, {entry.on for entry in begun.solved.rounds})
        lists = poor.lists()
        lists[0] = lists[0][1:]
        self.assertEqual(solve_for(DAY, 0, begin=lists).rounds[0].on, On.GIVEN)
        wrong = [[1, 2, 3] * 2, *lists[1:]]
        self.assertRaises(Refused, lambda: solve_for(DAY, 0, begin=wrong))
        late = [[*range(16, 0, -1)], [], [], []]
        self.assertIsNone(solve_for(DAY, 0, begin=late).rounds[0].on)

    def test_it_stops_with_the_best_so_far(self) -> None:
        stop, told = threading.Event(), []

        def progress(seconds: float, cost: int) -> None:
            told.append(cost)
            threading.Timer(0.1, stop.set).start()

        found = solve_for(DAY, 600, progress=progress, stop=stop)
        self.assertLess(found.rounds[-1].seconds, 60)
        self.assertEqual(found.solution.cost, told[-1])

    def test_a_refiner_that_is_killed_slow_or_stopped(self) -> None:
        with Fake(f"if len(text) > 1000: os.kill(os.getpid(), 9)\n{as_refiner()}") as path:
            with mock.patch.dict(os.environ, environment(VR_REFINE=path)):
                self.assertRaises(ProgramKilled, lambda: solve_for(DAY, 60.0))
        with Fake(f"if len(text) > 1000: time.sleep(60)\n{as_refiner()}") as path:
            with mock.patch.dict(os.environ, environment(VR_REFINE=path)):
                began = time.monotonic()
                self.assertEqual({entry.on for entry in solve_for(DAY, 0.5).rounds}, {None})
                stop = threading.Event()
                threading.Timer(0.2, stop.set).start()
                self.assertRaises(Stopped, lambda: solve(DAY, None, Refine(), stop=stop))
                self.assertLess(time.monotonic() - began, 20)

    def test_the_days_of_the_guides(self) -> None:
        def by_refining(model: Model, *_: object, **__: object) -> Rescue:
            asked = with_search(model, tries=2000)
            found = solve(asked, None, Refine())
            return Rescue(Way.RUIN, asked, Solved(asked, found, refine=Refine()), found)

        totals = {
            "salesman": 7293, "longest_route": 1552, "capacities": 6208, "time_windows": 71, "dropped_visits": 7548,
            "breaks": 71, "pickups": 210504, "several_trips": 6208,
        }
        for name, total in totals.items():
            with contextlib.redirect_stdout(io.StringIO()) as out:
                with mock.patch("jambulskeg.routing.routing_model.rescue", by_refining):
                    example(name).main()
            self.assertRegex(out.getvalue(), rf"(?m)^(total|longest|arcs|objective|any order): {total}\b", name)


@unittest.skipUnless(refines(), "the vr_refine at hand does not know ruin and recreate")
class PortfolioTests(unittest.TestCase):
    def test_seeds_run_beside_the_other_searches(self) -> None:
        model, told = with_search(DAY, tries=20000), []
        found = portfolio(model, OwnProcesses(2), progress=told.append)
        names = [outcome.name for outcome in found.outcomes]
        self.assertEqual(names[-1], "PARALLEL_CHEAPEST_INSERTION, ruin and recreate, seed 3")
        self.assertEqual(len(names), len(variants(model)) + len(SEEDS))
        refined = [outcome for outcome in found.outcomes if outcome.refine is not None]
        self.assertEqual([outcome.search.tries for outcome in refined], [20] * len(SEEDS))
        for outcome, entry in zip(refined, refinings(model)):
            self.assertEqual((outcome.search, outcome.refine), (entry.search, entry.refine))
            self.assertEqual(outcome.solution, solve(with_search(DAY, tries=20), None, entry.refine))
        self.assertEqual([entry.ended for entry in told], [*range(1, len(names) + 1)])
        self.assertEqual(told[-1].best, found.solution.cost)
        self.assertEqual(portfolio(model, OwnProcesses(1)).solution, found.solution)

    def test_each_engine_asks_both_programs(self) -> None:
        model = with_search(read_model(os.path.join(EXAMPLES, "breaks-day.json")), tries=300)
        want = portfolio(model)
        refiner = os.path.abspath(find())
        for name, body, engines in (
            ("parallel", PARALLEL, (GnuParallel(2), GnuParallel(2, find_solver(), refiner=refiner))),
            ("sbatch", SBATCH, (Slurm(2), Slurm(2, find_solver(), refiner=refiner))),
        ):
            with mock.patch.dict(os.environ, {"VR_REFINE": refiner}), engine_on_path(name, body):
                for engine in engines:
                    told: List[Any] = []
                    found = portfolio(model, engine, progress=told.append)
                    self.assertEqual((found.solution, found.number), (want.solution, want.number))
                    self.assertEqual([entry.solution for entry in found.outcomes],
                                     [entry.solution for entry in want.outcomes])
                    self.assertEqual(len(told), len(found.outcomes))
        self.assertFalse(GnuParallel(1, "vr").has_refiner())

    def test_a_rest_goes_on_from_the_morning(self) -> None:
        rest = replan(DAY, solved("service-day"), 100)
        for seconds in (0, 0.2):
            found = solve_rest(rest, from_morning(seconds))
            self.assertLessEqual(found.whole.cost, 1338)
            self.assertEqual(list(found.moved.moved), [])


if __name__ == "__main__":
    unittest.main()
