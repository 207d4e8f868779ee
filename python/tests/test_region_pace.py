"""How a region keeps to its seconds, and what processes of Python find ahead of those who ask."""

from __future__ import annotations

import contextlib
import os
import pickle
import signal
import tempfile
import time
import unittest
from dataclasses import replace
from typing import List
from unittest import mock

from jambulskeg.engines import EngineFailed
from jambulskeg.errors import NotMet, ProgramFailed
from jambulskeg.model import solution_of
from jambulskeg.program import Program, find
from jambulskeg.region import Asked, OwnCrew, Part, Planned, Region, Searcher, Store, cut, model_of_part, plan
from jambulskeg.region.ahead import FEW, ahead, work
from jambulskeg.region.crew import Answers, TextOf
from jambulskeg.region.given import cost_of, given_of
from jambulskeg.region.mending import effort_of
from jambulskeg.region.pace import USUAL_SPEED, Pace
from jambulskeg.region.tasks import agreed, beside

from .region_support import made_region


class AheadTests(unittest.TestCase):
    def test_results_come_from_other_processes(self) -> None:
        with ahead(lambda number: (number * number, os.getpid()), FEW, 2) as found:
            results = [found(number) for number in range(FEW)]
        self.assertEqual([square for square, _ in results], [number * number for number in range(FEW)])
        self.assertNotIn(os.getpid(), {process for _, process in results})
        with ahead(lambda number: os.getpid(), FEW - 1, 2) as found:
            self.assertEqual(found(0), os.getpid())

    def test_what_fails_there_is_raised_here(self) -> None:
        def make(number: int) -> int:
            if number == 3:
                raise NotMet("once", 1, 2)
            return number

        with ahead(make, FEW, 2) as found:
            self.assertEqual(found(2), 2)
            with self.assertRaises(NotMet):
                found(3)

    def test_a_process_writes_what_it_makes(self) -> None:
        reads, writes = os.pipe()
        with mock.patch("os._exit") as ended, mock.patch("os.closerange"), mock.patch("signal.signal"):
            work(lambda number: 6 // number, range(3), writes)
        ended.assert_called_once_with(0)
        os.close(writes)
        with os.fdopen(reads, "rb") as file:
            self.assertEqual([pickle.load(file) for _ in range(3)], [(0, []), (1, [6]), (2, [3])])

    def test_what_a_killed_process_leaves_is_made_here(self) -> None:
        with ahead(lambda number: (os.getpid(), bytes(200_000)), FEW, 2) as found:
            os.kill(found(0)[0], signal.SIGKILL)
            self.assertEqual(found(FEW - 2)[0], os.getpid())
            self.assertNotEqual(found(FEW - 1)[0], os.getpid())


class GivenTests(unittest.TestCase):
    def test_routes_cost_what_the_program_says(self) -> None:
        region = made_region(60)
        part = Part(tuple(region.visits), tuple(range(len(region.vans))))
        given = given_of(region, part, effort_of(0, 300_000, True))
        solution = solution_of(Program(find()).ask(["solve"], given.model))
        again = given_of(region, part, effort_of(1, 300_000, True), given.lists(solution))
        self.assertEqual((again.cost, again.left), (solution.cost, given.missing(solution)))
        relaxed, duty = model_of_part(region, part, effort_of(0, 300_000, True).search).relaxed
        self.assertEqual((relaxed.text(), duty), (given.model, given.duty))
        self.assertEqual(cost_of(relaxed, solution.lists()), solution.cost)
        text = beside(given.model, solution)
        self.assertIs(agreed(text, solution, Program(find())), solution)
        with self.assertRaisesRegex(ProgramFailed, "cannot be read"):
            agreed(text, replace(solution, cost=1), Program(find()))
        with self.assertRaisesRegex(NotMet, "sum of its parts"):
            agreed(beside(given.model, replace(solution, cost=1)), replace(solution, cost=1), Program(find()))


class Sleeper:
    """A crew that waits for a moment at each part, and has no answers."""

    searcher = Searcher("none", True)

    def __init__(self, seconds: float) -> None:
        self._seconds = seconds

    def each(self, count: int, text_of: TextOf) -> Answers:
        """Waits, and then fails."""
        time.sleep(self._seconds * count)
        raise EngineFailed("asleep")
        yield

    def close(self) -> None:
        """Nothing is left to end."""


class PaceTests(unittest.TestCase):
    region: Region
    parts: List[Part]

    @classmethod
    def setUpClass(cls) -> None:
        cls.region = made_region(60)
        cls.parts = cut(cls.region)

    def test_rounds_say_how_fast_the_machine_is(self) -> None:
        spent = 0.0
        pace = Pace(10.6, 2, lambda: spent)
        self.assertEqual(pace.tries(), 2 * USUAL_SPEED * 10)
        spent = 4.0
        pace.note(4000, 4)
        self.assertEqual(pace.tries(), 6000)
        spent = 5.0
        pace.note(4, 1)  # One part keeps one process busy, and says little.
        self.assertEqual(pace.tries(), 5000)
        spent = 11.0
        self.assertEqual(pace.tries(), 0)

    def test_a_measure_takes_little(self) -> None:
        began = time.monotonic()
        pace = Pace(100, 2, lambda: time.monotonic() - began)
        pace.measure(self.region, self.parts, OwnCrew(2))
        self.assertGreater(pace.tries(), 0)
        pace.measure(self.region, self.parts, Sleeper(0.01))
        pace.measure(self.region, [], Sleeper(0.01))

    def test_seconds_are_kept_and_gone_on_with(self) -> None:
        asked = Asked(seconds=2, jobs=2, most=60)
        with tempfile.TemporaryDirectory() as folder, contextlib.closing(Store(folder)) as store:
            lines: List[int] = []

            def end(entry: object) -> None:
                lines.append(1)
                raise KeyboardInterrupt

            began = time.monotonic()
            with self.assertRaises(KeyboardInterrupt):
                plan(self.region, asked, OwnCrew(2), store, progress=end)
            first = store.read("asked.json") or {}
            found: Planned = plan(self.region, asked, OwnCrew(2), store, resume=True)
            self.assertEqual(found.journal[0].tries, first["first"])
            self.assertIn(found.ended, ("the seconds are over", "no part gains"))
            self.assertLess(time.monotonic() - began, 30)


if __name__ == "__main__":
    unittest.main()
