"""An answer where the construction finds none, and rounds that turn through constructions.

No vr_refine is at hand here; `test_refining` has rounds that go on from the best so far.
"""

from __future__ import annotations

import contextlib
import io
import os
import threading
import time
import unittest
from dataclasses import replace
from threading import Event
from typing import Any, List, Sequence, Tuple
from unittest import mock

from jambulskeg.errors import NoFirstSolution, NotMet, ProgramSlow, Refused, Stopped
from jambulskeg.model import First, Group, Improve, Model, Search, Solution, check, read_model, solve
from jambulskeg.records import GREATEST_ENTRY
from jambulskeg.rescue import (
    FIRST_TRIES, RESCUE_TRIES, Progress, Rescue, Round, Solved, TimedSolver, Way, as_own, by_penalties, greatest_cost,
    missing, relax, required_visits, rescue, solve_for, timed_solver, tried, with_search,
)
from jambulskeg.rounds import ALIKE, constructions, numbers_of, teller, to_terminal

from .support import AS_REAL, EXAMPLES, THREE, Fake, example, need_searches, solved

DAY = read_model(os.path.join(EXAMPLES, "service-day.json"))


def impossible() -> Model:
    """A model of which one visit alone can be made."""
    time = {"name": "time", "evaluators": [{"matrix": 0}], "slack_max": 0, "capacity": 17, "fix_start": True}
    return Model.of({**THREE, "dimensions": [time]})


class WithoutRefining(unittest.TestCase):
    """Tests that find no vr_refine."""

    def setUp(self) -> None:
        for module in ("rounds", "rescue"):
            patch = mock.patch(f"jambulskeg.{module}.at_hand", return_value=None)
            patch.start()
            self.addCleanup(patch.stop)


class RescueTests(WithoutRefining):
    def test_as_asked(self) -> None:
        found = rescue(DAY)
        self.assertEqual((found.way, found.construction), (Way.AS_ASKED, First.PARALLEL_CHEAPEST_INSERTION))
        self.assertEqual(found.solution, solved("service-day"))
        self.assertEqual(found.solved.model, DAY)
        self.assertEqual(found.sentence, "by the construction that the model asks for (PARALLEL_CHEAPEST_INSERTION)")

    def test_another_construction(self) -> None:
        city = example("city")
        load = {"name": "load", "evaluators": [{"values": city.DEMANDS}], "slack_max": 0, "capacity": 15}
        model = Model.of({
            "nodes": 17, "matrices": [city.DISTANCES], "vehicles": [{"start": 0, "end": 0}] * 4, "dimensions": [load],
            "search": {"first": "PARALLEL_CHEAPEST_INSERTION"},
        })
        self.assertRaises(NoFirstSolution, lambda: solve(model))
        found = rescue(model)
        self.assertIs(found.way, Way.OTHER_CONSTRUCTION)
        self.assertEqual(found.solution, solve(found.solved.model))
        self.assertIs(found.construction, First.PATH_CHEAPEST_ARC)
        self.assertTrue(found.solution and check(model, found.solution).meets)
        rounds = rescue(model, solver=timed_solver(0))
        self.assertTrue(rounds.solution and check(rounds.model, rounds.solution).meets)

    def test_penalties(self) -> None:
        model = read_model(os.path.join(EXAMPLES, "service-day.json"))
        required = replace(model, groups=[])
        with mock.patch("jambulskeg.rescue.tried", side_effect=self.only_relaxed):
            found = rescue(required)
        self.assertIs(found.way, Way.PENALTIES)
        self.assertEqual(found.left_out, ())
        self.assertEqual(found.penalty, greatest_cost(required) + 1)
        solution = found.solution
        assert solution is not None
        self.assertTrue(check(required, solution).meets)
        self.assertEqual((solution.dropped, solution.parts.penalty, solution.tries), ((), 0, 0))
        self.assertEqual(solution.cost, found.solved.solution.cost)

    def test_the_fewest_stay_out_and_then_the_cheapest_is_taken(self) -> None:
        model = impossible()
        relaxed, _ = relax(model)
        fewest = by_penalties(model, lambda asked: Solved(asked, solve(asked)), 100).solved.solution
        more = replace(fewest, dropped=(1, 2), cost=1)
        answers = [Solved(relaxed, answer) for answer in (more, fewest, replace(fewest, cost=fewest.cost - 1))]
        with mock.patch("jambulskeg.rescue.tried", side_effect=answers):
            best = by_penalties(model, lambda asked: answers[0], 100)
        self.assertEqual((best.left_out, best.solved.solution.cost), ((2,), fewest.cost - 1))

    def test_the_tries_over_penalties_are_no_fewer_than_asked(self) -> None:
        for own, least, asked in ((5000, 2000, 5000), (500, 2000, 2000)):
            model = with_search(impossible(), improve=Improve.GUIDED_LOCAL_SEARCH, tries=own)
            self.assertEqual(rescue(model, tries=least).solved.model.search.tries, asked)

    def test_penalties_are_above_those_of_the_model(self) -> None:
        model = impossible()
        groups = [Group([1], 1000), Group([2])]
        self.assertEqual(greatest_cost(replace(model, groups=groups)), greatest_cost(model) + 1000)
        self.assertEqual([group.penalty for group in relax(replace(model, groups=groups))[0].groups],
                         [1000, greatest_cost(model) + 1001])

    def test_all_models_share_the_time_limit(self) -> None:
        told: List[Tuple[float, int]] = []
        with mock.patch("jambulskeg.rescue.solve_for") as run, mock.patch("time.monotonic", side_effect=[2, 5, 14]):
            solver = timed_solver(10, progress=lambda seconds, cost: told.append((seconds, cost)))
            for _ in range(3):
                solver(DAY)
                run.call_args.kwargs["progress"](1, 99)
        self.assertEqual([call.args[1] for call in run.call_args_list], [10, 7, 0])
        self.assertEqual(told, [(1, 99), (4, 99), (13, 99)])

    @staticmethod
    def only_relaxed(solver: Any, model: Model, is_asked: bool) -> Any:
        return tried(solver, model, is_asked) if model.groups else None

    def test_what_stays_out_is_told(self) -> None:
        model = impossible()
        found = rescue(model, tries=2000)
        self.assertIsNone(found.solution)
        self.assertEqual((found.left_out, found.solved.model.search.tries), ((2,), 2000))
        self.assertEqual(found.solved.solution.dropped, (2,))
        self.assertIn("no solution was found", found.sentence)
        self.assertIn("stay out: 2", found.sentence)
        self.assertGreaterEqual(found.solved.solution.parts.penalty, found.penalty)
        self.assertFalse(check(model, found.solved.solution).meets)
        self.assertTrue(check(found.solved.model, found.solved.solution).meets)

    def test_groups_without_a_penalty(self) -> None:
        model = replace(impossible(), groups=[Group([1, 2], max=2)])
        found = rescue(model)
        self.assertEqual((found.solution, found.left_out), (None, (2,)))
        one = replace(impossible(), groups=[Group([1, 2], max=1)])
        solution = rescue(one).solution
        self.assertTrue(solution and solution.dropped == (2,) and check(one, solution).meets)

    def test_the_parts_of_it(self) -> None:
        model = replace(DAY, groups=[Group([1, 2], max=1), Group([3], 7)])
        relaxed, penalty = relax(model)
        self.assertEqual(required_visits(model), list(range(4, 17)))
        self.assertEqual([group.penalty for group in relaxed.groups], [penalty, 7] + [penalty] * 13)
        self.assertGreater(penalty, solved("service-day").cost)
        dear = replace(DAY, vehicles=[replace(vehicle, fixed=GREATEST_ENTRY) for vehicle in DAY.vehicles])
        self.assertEqual(relax(dear)[1], GREATEST_ENTRY)
        solution = solved("service-day")
        self.assertEqual(missing(model, replace(solution, dropped=[1, 2, 3, 4])), [1, 2, 4])
        self.assertEqual(missing(model, replace(solution, dropped=[1, 3])), [])
        self.assertEqual(constructions(with_search(DAY, first=First.SAVINGS).search)[0], First.SAVINGS)
        own = as_own(solution)
        self.assertEqual((own.first_cost, own.tries, own.solutions), (solution.cost, 0, 1))
        self.assertGreaterEqual(RESCUE_TRIES, FIRST_TRIES)

    def test_savings_with_other_vehicles_is_passed_over(self) -> None:
        def asked(model: Model) -> Solved:
            return Solved(model, solve(model))

        self.assertEqual(ALIKE, 23)
        unlike = replace(impossible(), vehicles=[{"start": 0, "end": 0}, {"start": 0, "end": 0, "fixed": 1}])
        savings = with_search(unlike, first=First.SAVINGS)
        self.assertIsNone(tried(asked, savings, False))
        self.assertRaises(Refused, lambda: rescue(savings))
        self.assertRaises(Refused, lambda: tried(asked, replace(DAY, nodes=3), False))

    def test_no_way_at_all(self) -> None:
        def none(model: Model) -> Solved:
            raise NoFirstSolution("none")

        self.assertRaises(NoFirstSolution, lambda: rescue(DAY, solver=none))
        self.assertRaises(NoFirstSolution, lambda: by_penalties(DAY, none, 1000))

    def test_an_answer_is_checked(self) -> None:
        def wrong(model: Model) -> Solved:
            if not model.groups:
                raise NoFirstSolution("none")
            solution = solve(model)
            return Solved(model, replace(solution, parts=replace(solution.parts, arcs=1)))

        model = Model.of(THREE)
        self.assertRaises(NotMet, lambda: rescue(model, solver=wrong))
        self.assertIsInstance(rescue(model, solver=wrong, checked=False), Rescue)


class RoundTests(WithoutRefining):
    def test_rounds_turn_through_constructions_and_numbers(self) -> None:
        told: List[Tuple[float, int]] = []
        progress: Progress = lambda seconds, cost: told.append((seconds, cost))
        for limit in (0.3, 1.5, 5.0, 15.0):  # On a busy machine few rounds are over sooner.
            told.clear()
            with mock.patch("jambulskeg.rounds.FIRST_TRIES", 5000):
                found = solve_for(with_search(DAY, tries=1), limit, progress=progress)
            if len({tuple(entry.search.lambda_) for entry in found.rounds}) > 1:
                break
        rounds: Sequence[Round] = found.rounds
        self.assertEqual([entry.number for entry in rounds], list(range(1, len(rounds) + 1)))
        self.assertGreater(len({tuple(entry.search.lambda_) for entry in rounds}), 1)
        self.assertEqual(found.solution.cost, min(entry.cost for entry in rounds))
        self.assertEqual(solve(found.model), found.solution)
        self.assertEqual(found.again(), found.solution)
        self.assertEqual({(entry.on, entry.refine) for entry in rounds}, {(None, None)})
        costs = [entry.cost for entry in rounds]
        self.assertEqual([entry.best for entry in rounds], [min(costs[:at + 1]) for at in range(len(costs))])
        self.assertEqual([cost for _, cost in told], sorted({entry.best for entry in rounds}, reverse=True))
        self.assertEqual(sorted(seconds for seconds, _ in told), [seconds for seconds, _ in told])

    def test_the_first_rounds_are_short(self) -> None:
        rounds: Sequence[Round] = ()
        for seconds in (0.5, 2, 10):  # A busy machine may want more of them.
            stop = Event()
            threading.Timer(seconds, stop.set).start()
            with contextlib.suppress(Stopped):
                rounds = solve_for(with_search(DAY, tries=1), 100, stop=stop).rounds
            if len(rounds) >= 3:
                break
        self.assertEqual([entry.search.first for entry in rounds[:3]], constructions(DAY.search))
        self.assertEqual({entry.search.tries for entry in rounds[:3]}, {FIRST_TRIES})

    def test_little_of_a_limit_is_left(self) -> None:
        for name in ("service-day", "hundred-customers"):
            model, ends = read_model(os.path.join(EXAMPLES, f"{name}.json")), []
            for _ in range(8):  # A busy machine may miss it.
                ends.append(solve_for(model, 0.5).rounds[-1].seconds)
                if 0.3 < ends[-1] < 0.55:
                    break
            self.assertTrue(0.3 < ends[-1] < 0.55, ends)

    def test_the_numbers_of_searches(self) -> None:
        searches = list(numbers_of(Search(improve=Improve.GUIDED_LOCAL_SEARCH, lambda_=(1, 20))))
        self.assertEqual([tuple(entry.lambda_) for entry in searches[:3]], [(1, 20), (1, 10), (1, 5)])
        self.assertEqual([entry.cut for entry in numbers_of(Search(improve=Improve.PATH_LNS, cut=4))][:3], [4, 10, 5])
        self.assertEqual([entry.tenure for entry in numbers_of(Search(improve=Improve.TABU_SEARCH))][:3], [10, 5, 3])
        self.assertEqual(len(list(numbers_of(Search()))), 1)

    def test_no_time_gives_one_round(self) -> None:
        found = solve_for(DAY, 0)
        self.assertEqual([entry.search.tries for entry in found.rounds], [FIRST_TRIES])
        self.assertEqual(found.solution, solve(with_search(DAY, tries=FIRST_TRIES)))

    def test_a_descent_ends_early(self) -> None:
        model = with_search(DAY, improve=Improve.GREEDY_DESCENT)
        self.assertEqual([entry.search.first for entry in solve_for(model, 60).rounds], constructions(DAY.search))
        none = with_search(DAY, improve=Improve.NONE)
        self.assertEqual(len(solve_for(none, 60).rounds), 3)

    def test_a_first_round_of_cuts_is_as_long_as_one_of_moves(self) -> None:
        need_searches()
        for improve, tries in ((Improve.PATH_LNS, FIRST_TRIES // 1000), (Improve.TABU_SEARCH, FIRST_TRIES)):
            found = solve_for(with_search(DAY, improve=improve), 0)
            self.assertEqual([entry.search.tries for entry in found.rounds], [tries])
            self.assertLess(found.solution.cost, found.solution.first_cost)

    def test_constructions_that_find_nothing_are_passed_over(self) -> None:
        late = read_model(os.path.join(EXAMPLES, "shifts-tight.json"))
        late = with_search(late, first=First.PATH_CHEAPEST_ARC)
        self.assertRaises(NoFirstSolution, lambda: solve(late))
        found = rescue(late, solver=timed_solver(0.15))
        self.assertIs(found.way, Way.OTHER_CONSTRUCTION)
        self.assertEqual(found.solved.solution.cost, 745)
        self.assertRaises(NoFirstSolution, lambda: solve_for(impossible(), 0.1))
        unlike = replace(DAY, vehicles=[*DAY.vehicles[:3], replace(DAY.vehicles[3], fixed=60)])
        self.assertNotIn(First.SAVINGS, {entry.search.first for entry in solve_for(unlike, 0.1).rounds})
        self.assertRaises(Refused, lambda: solve_for(with_search(unlike, first=First.SAVINGS), 0.1))

    def test_a_round_that_the_limit_ends_gives_nothing(self) -> None:
        with Fake(f"if '\"tries\"' not in text or 'SAVINGS' in text: time.sleep(60)\n{AS_REAL}") as path:
            begin = time.monotonic()
            found = solve_for(DAY, 0.4, path)
            self.assertLess(time.monotonic() - begin, 2.4)
            self.assertNotIn(First.SAVINGS, {entry.search.first for entry in found.rounds})
            self.assertRaises(ProgramSlow, lambda: rescue(with_search(DAY, tries=100000), path, seconds=0.3))

    def test_it_stops_with_the_best_so_far(self) -> None:
        stop = Event()
        told: List[int] = []

        def progress(seconds: float, cost: int) -> None:
            told.append(cost)
            threading.Timer(0.1, stop.set).start()

        begin = time.monotonic()
        found = rescue(DAY, solver=timed_solver(60, progress=progress, stop=stop))
        self.assertLess(time.monotonic() - begin, 10)
        self.assertEqual(found.solved.solution.cost, told[-1])
        stop.set()
        self.assertRaises(Stopped, lambda: rescue(DAY, solver=timed_solver(60, stop=stop)))
        stopped = timed_solver(60, stop=stop)
        self.assertIsInstance(stopped, TimedSolver)
        with Fake("time.sleep(60)") as path:
            waiting = Event()
            threading.Timer(0.3, waiting.set).start()
            self.assertRaises(Stopped, lambda: solve(DAY, path, stop=waiting))
            self.assertRaises(Stopped, lambda: solve_for(DAY, 60, path, stop=waiting))

    def test_progress_on_a_terminal(self) -> None:
        with mock.patch("sys.stderr", new=io.StringIO()) as stderr:
            to_terminal(12.25, 7)
            self.assertEqual(stderr.getvalue(), "    12.2 s  cost 7\n")
            solve_for(DAY, 0)
            timed_solver(0)(DAY)
            self.assertEqual(len(stderr.getvalue().splitlines()), 1)
            with mock.patch.object(stderr, "isatty", return_value=True):
                self.assertIs(teller(), to_terminal)
                solve_for(DAY, 0)
            self.assertRegex(stderr.getvalue(), "[.0-9]+ s  cost 1338")

    def test_unchecked(self) -> None:
        with Fake("sys.stdout.write(subprocess.run([REAL, 'first'], input=text, stdout=subprocess.PIPE, text=True)"
                  ".stdout); sys.exit(9 if 'check' in sys.argv else 0)") as path:
            solution: Solution = solve_for(DAY, 0, path, checked=False).solution
        self.assertEqual(solution.cost, 1658)


if __name__ == "__main__":
    unittest.main()
