"""How short printed routes could be: the program against a look at every start, its answers, routes shortened."""

from __future__ import annotations

import os
import random
import unittest
from dataclasses import replace
from typing import List, Tuple

from jambulskeg.complete import complete, leave_later, shorten
from jambulskeg.errors import JambulskegError, NotMet, ProgramFailed, Refused
from jambulskeg.model import (
    Evaluator, LeastSpan, Model, NodeRow, Plan, Solution, Vehicle, VehicleRow, check, first, read_model, read_solution,
    solve, spans,
)
from jambulskeg.schedules import Line, line_of, tight

from .support import EXAMPLES, THREE, Fake, ask, in_format_2, need, random_tree

DAY = read_model(os.path.join(EXAMPLES, "windows-day.json"))
SOLVED = read_solution(os.path.join(EXAMPLES, "windows-day.solved.json"))


def read(name: str) -> str:
    with open(os.path.join(EXAMPLES, name), encoding="utf-8") as file:
        return file.read()


def least_of(line: Line) -> Tuple[int, Plan]:
    """The least span of a line without breaks, and the first schedule that has it, by a look at every start."""
    found: List[Tuple[int, int, Plan]] = []
    for low, high in line.allowed[0]:
        for start in range(low, high + 1):
            plan = tight(replace(line, allowed=[[(start, start)], *line.allowed[1:]]))
            if plan is not None:
                found.append((plan.cumuls[-1] - start, start, plan))
    span, _, plan = min(found, key=lambda entry: entry[:2])
    return span, plan


def expected(model: Model, solution: Solution) -> List[LeastSpan]:
    """What `spans` should tell of a solution."""
    out = []
    for route in solution.routes:
        for number, plan in enumerate(route.dimensions):
            if not model.dimensions[number].breaks:
                span, best = least_of(line_of(model, number, route.vehicle, route.nodes))
                printed = plan.cumuls[-1] - plan.cumuls[0]
                out.append(LeastSpan(best.cumuls, plan.name, span, printed, best.slacks, route.vehicle))
    return out


class SpanTests(unittest.TestCase):
    def setUp(self) -> None:
        need("spans")

    def test_the_example(self) -> None:
        self.assertEqual(ask("spans", read("windows-day.check.json")), (0, read("windows-day.spans.json")))
        found = spans(DAY, SOLVED)
        self.assertEqual(found, expected(DAY, SOLVED))
        self.assertEqual([(span.vehicle, span.least, span.printed, span.spared) for span in found],
                         [(0, 202, 266, 64), (1, 40, 40, 0)])

    def test_days_made_at_random(self) -> None:
        rng, told, shorter = random.Random(18), 0, 0
        for number in range(40):
            tree = random_tree(rng)
            model = Model.of(in_format_2(rng, tree) if number % 2 else tree)
            try:
                solution = solve(model)
            except JambulskegError:
                continue
            found = spans(model, solution)
            self.assertEqual(found, expected(model, solution), model.text())
            told, shorter = told + len(found), shorter + sum(span.spared > 0 for span in found)
            short = shorten(model, solution)
            self.assertTrue(check(model, short).meets)
            self.assertLessEqual(short.cost, solution.cost)
            self.assertEqual(short.lists(), solution.lists())
        self.assertGreater(told, 20)
        self.assertGreater(shorter, 2)

    def test_a_broken_solution_is_told(self) -> None:
        for call in (spans, shorten):
            with self.assertRaises(NotMet) as broken:
                call(DAY, replace(SOLVED, cost=1))
            self.assertEqual(broken.exception.rule, "cost")
            self.assertIn("the sum of its parts", str(broken.exception))

    def test_a_faulty_model_is_refused(self) -> None:
        model = Model.of({**THREE, "matrices": [[[0, -1, 9], [5, 0, 4], [9, 4, 0]]]})
        with self.assertRaises(Refused) as refused:
            spans(model, first(Model.of(THREE)))
        self.assertEqual((refused.exception.code, refused.exception.path), (20, "/model/vehicles/0/costs"))

    def test_routes_are_shortened(self) -> None:
        short = shorten(DAY, SOLVED)
        self.assertEqual((short.cost, SOLVED.cost), (344, 400))
        self.assertEqual([span.spared for span in spans(DAY, short)], [0, 0])
        self.assertEqual(short.lists(), SOLVED.lists())
        self.assertEqual(shorten(DAY, SOLVED, checked=False), short)

    def test_a_route_is_not_shortened_where_that_is_dearer(self) -> None:
        unpaid = replace(DAY, dimensions=[replace(DAY.dimensions[0], span_cost=0)])
        solution = complete(unpaid, SOLVED.lists())
        self.assertEqual(spans(unpaid, solution)[0].spared, 64)
        self.assertEqual(shorten(unpaid, solution), solution)

    def test_a_route_that_is_shorter_where_it_ends_later(self) -> None:
        time = replace(
            DAY.dimensions[0], slack_max=5, nodes=[NodeRow(1, (20, 30))],
            starts=[VehicleRow(0, forbidden=[(6, 19)])], evaluators=[Evaluator(matrix=0)],
        )
        model = Model(2, [[[0, 10], [10, 0]]], [Vehicle(0, 0)], [time])
        solution = complete(model, [[1]])
        self.assertEqual(leave_later(model, solution).routes[0].dimensions[0].cumuls, (5, 20, 30))
        self.assertEqual(shorten(model, solution).routes[0].dimensions[0].cumuls, (20, 30, 40))


class AnswerTests(unittest.TestCase):
    def test_spans_that_cannot_be_read(self) -> None:
        for text in ("{}", "[]", "5", '{"spans":5}', '{"spans":[{}]}', '{"spans":[5]}', "no JSON"):
            with Fake(f"print({text!r})") as path:
                self.assertRaises(ProgramFailed, lambda: spans(DAY, SOLVED, path))

    def test_a_program_that_does_not_know_the_word(self) -> None:
        with Fake("print('{\"status\":\"USAGE\"}'); sys.exit(1)") as path:
            self.assertRaisesRegex(ProgramFailed, "another version", lambda: spans(DAY, SOLVED, path))
            self.assertRaisesRegex(ProgramFailed, "another version", lambda: shorten(DAY, SOLVED, path))


if __name__ == "__main__":
    unittest.main()
