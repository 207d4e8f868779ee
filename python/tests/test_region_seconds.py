"""The seconds of a region: from the start of the process, and enough of them left for the end."""

from __future__ import annotations

import subprocess
import sys
import unittest
from unittest import mock

from jambulskeg.region import Searcher, cut
from jambulskeg.region.crew import Answers, TextOf
from jambulskeg.region.pace import WRITING, Pace, age

from .region_support import made_region


class Clock:
    """A clock that goes on as it is told to."""

    def __init__(self) -> None:
        self.now = 0.0

    def monotonic(self) -> float:
        """The seconds."""
        return self.now

    def given(self, *_: object) -> mock.Mock:
        """What is given out of a part, after a moment."""
        self.now += 0.01
        return mock.Mock(question="")


class Crew:
    """A crew that solves some parts at a time, in a second each."""

    searcher = Searcher("none", True)

    def __init__(self, clock: Clock, at_a_time: int) -> None:
        self._clock, self._at_a_time = clock, at_a_time

    def each(self, count: int, text_of: TextOf) -> Answers:
        """Answers nothing."""
        self._clock.now += -(-count // self._at_a_time)
        return
        yield

    def close(self) -> None:
        """Nothing is left to end."""


class FinishTests(unittest.TestCase):
    def finish(self, at_a_time: int) -> float:
        """What is kept for the end of 300 visits, if a crew of four solves this many parts at a time."""
        region, clock = made_region(300), Clock()
        with mock.patch("os.cpu_count", return_value=4), mock.patch("jambulskeg.region.pace.time", clock), \
                mock.patch("jambulskeg.region.pace.given_of", clock.given):
            pace = Pace(100.0, 4, lambda: 0.0)
            pace.measure(region, cut(region), Crew(clock, at_a_time))
        return pace.finish - WRITING

    def test_more_is_kept_for_the_end_beside_other_work(self) -> None:
        free, busy = self.finish(4), self.finish(1)
        self.assertGreater(free, 0.01)
        self.assertAlmostEqual(self.finish(2), 2 * free)
        self.assertAlmostEqual(busy, 4 * free)


class AgeTests(unittest.TestCase):
    def test_a_process_knows_how_long_it_has_run(self) -> None:
        code = (
            "import time; time.sleep(0.3); from jambulskeg.region import pace; pace.OLDEST = 1e9; print(pace.age())"
        )
        ran = subprocess.run([sys.executable, "-c", code], stdout=subprocess.PIPE, text=True, check=True)
        self.assertGreater(float(ran.stdout), 0.25 if sys.platform == "linux" else -1)

    def test_without_linux_nothing_is_known(self) -> None:
        with mock.patch("builtins.open", side_effect=FileNotFoundError):
            self.assertEqual(age(), 0.0)
        with mock.patch("time.clock_gettime", return_value=1e9):
            self.assertEqual(age(), 0.0)


if __name__ == "__main__":
    unittest.main()
