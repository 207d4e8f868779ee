"""Rides and breaks of an answer, measured."""

from __future__ import annotations

import contextlib
import io
import os
import tempfile
import unittest
from dataclasses import replace

from jambulskeg.__main__ import main
from jambulskeg.complete import complete
from jambulskeg.doubts import DoubtKind
from jambulskeg.measures import IdleBreak, Ride, answer_doubts, idle_breaks, rides
from jambulskeg.model import Break, Dimension, Evaluator, Model, Pair, Vehicle, VehicleBreaks

MATRIX = [[0, 5, 9, 7], [5, 0, 4, 6], [9, 4, 0, 3], [7, 6, 3, 0]]
TIME = Dimension(
    name="time", evaluators=[Evaluator(matrix=0, values=[0, 2, 2, 2])], slack_max=50, capacity=200,
    breaks=[VehicleBreaks(0, [Break(0, 5, 3), Break(100, 120, 9)])],
)
DAY = Model(nodes=4, matrices=[MATRIX], vehicles=[Vehicle(0, 0)], dimensions=[TIME], pairs=[Pair(1, 3)])


class MeasureTests(unittest.TestCase):
    def test_rides(self) -> None:
        solution = complete(DAY, [[1, 2, 3]])
        self.assertEqual(rides(DAY, solution), [Ride(0, 0, 14)])
        self.assertEqual(answer_doubts(DAY, solution, 14)[0].kind, DoubtKind.BREAK_OUTSIDE)
        long = answer_doubts(DAY, solution, 13)[0]
        self.assertEqual((long.kind, long.path), (DoubtKind.LONG_RIDE, "/pairs/0"))
        self.assertIn("on board for 14, and 13 is the most", long.sentence)

    def test_breaks_outside_of_the_day(self) -> None:
        solution = complete(DAY, [[1, 2, 3]])
        self.assertEqual(list(idle_breaks(DAY, solution)), [IdleBreak(0, 0, 100, (0, 28))])
        calm = replace(DAY, dimensions=[replace(TIME, breaks=[])])
        self.assertEqual(answer_doubts(calm, complete(calm, [[1, 2, 3]])), [])

    def test_the_command(self) -> None:
        with tempfile.TemporaryDirectory() as folder:
            files = [os.path.join(folder, name) for name in ("model.json", "solution.json")]
            for path, text in zip(files, (DAY.text(), complete(DAY, [[1, 2, 3]]).text())):
                with open(path, "w", encoding="utf-8") as file:
                    file.write(text)
            with contextlib.redirect_stdout(io.StringIO()) as out:
                self.assertEqual(main(["doubts", *files, "--longest-ride", "10"]), 0)
        self.assertIn("/pairs/0: vehicle 0 has pair 0 on board for 14", out.getvalue())
        self.assertIn("/dimensions/0/breaks: vehicle 0 takes a break at 100", out.getvalue())


if __name__ == "__main__":
    unittest.main()
