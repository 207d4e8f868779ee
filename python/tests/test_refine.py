"""Routes that are there already: the program vr_refine found, what routes cost, and the model's search from them.

What ruin and recreate finds is looked at by `test_refining`.
"""

from __future__ import annotations

import os
import threading
import time
import unittest
from dataclasses import replace
from typing import Any, List
from unittest import mock

from jambulskeg.errors import (
    NoFirstSolution, NotMet, ProgramFailed, ProgramKilled, ProgramMissing, ProgramSlow, Refused, Stopped, WrongArgument,
)
from jambulskeg.findings import Finding, sentence_of
from jambulskeg.model import Model, Stop, check, first, read_model, read_solution, solve as solve_anew
from jambulskeg.program import Program, find as find_solver, sought
from jambulskeg.records import Refine, Search
from jambulskeg.refine import (
    BESIDE, QUESTIONS, Question, Routes, at_hand, begin, belonging, find, price, program_of, refines, solve,
)

from .support import EXAMPLES, THREE, Fake, environment, tree_with

MODEL = Model.of(THREE)
RULES: Any = {
    "nodes": 7, "matrices": [[[int(i != j) for j in range(7)] for i in range(7)]],
    "vehicles": [{"start": 0, "end": 0, "policy": policy} for policy in ("lifo", "any")],
    "dimensions": [
        {"name": "time", "evaluators": [{"matrix": 0}], "slack_max": 0, "capacity": 5, "fix_start": True}
    ],
    "groups": [{"nodes": [5, 6]}], "pairs": [{"pickup": 1, "delivery": 2}, {"pickup": 3, "delivery": 4}],
    "allowed": [{"node": 5, "vehicles": [0]}],
}
REFUSES = "print('{\"code\":13,\"path\":\"/refine\"}'); sys.exit(5)"


class FindingTests(unittest.TestCase):
    def test_the_order_of_places(self) -> None:
        with Fake("") as named, Fake("") as solver, Fake("") as on_path:
            own = os.path.join(os.path.dirname(solver), "vr_refine")
            os.link(solver, own)
            os.link(on_path, os.path.join(os.path.dirname(on_path), "vr_refine"))
            path = os.path.dirname(on_path)
            with mock.patch.dict(os.environ, environment(VR_CLI=solver, VR_REFINE=named, PATH=path), clear=True):
                self.assertEqual((find(), find(on_path)), (named, on_path))
                self.assertEqual(program_of(None), Program(named))
                self.assertEqual(program_of(on_path), Program(on_path))
                self.assertEqual(program_of(Program("x")), Program("x"))
            with mock.patch.dict(os.environ, environment(VR_CLI=solver, VR_REFINE=None, PATH=path), clear=True):
                self.assertEqual(find(), own)
            with mock.patch.dict(os.environ, environment(VR_CLI="/nowhere", VR_REFINE=None, PATH=path), clear=True):
                self.assertIn(find(), BESIDE)
                with mock.patch("jambulskeg.refine.BESIDE", ("/nowhere",)):
                    self.assertEqual(find(), os.path.join(path, "vr_refine"))

    def test_a_missing_program_is_told(self) -> None:
        with mock.patch("jambulskeg.refine.BESIDE", ("/nowhere",)):
            with Fake("") as solver:
                with mock.patch.dict(os.environ, environment(VR_CLI=solver, VR_REFINE=None, PATH=""), clear=True):
                    self.assertRaisesRegex(ProgramMissing, "vr_refine was not found.*VR_REFINE", find)
                    self.assertRaises(ProgramMissing, lambda: price(MODEL, [[1, 2]]))
                    self.assertEqual((at_hand(), belonging()), (None, None))
        with mock.patch.dict(os.environ, environment(VR_REFINE="/nowhere")):
            for call in (find, at_hand, lambda: begin(MODEL)):
                self.assertRaisesRegex(ProgramMissing, "VR_REFINE names no program", call)
        self.assertRaisesRegex(ProgramMissing, "handed in", lambda: solve(MODEL, program="/nowhere"))
        self.assertRaises(WrongArgument, lambda: sought("x", "X", (), 7))  # type: ignore[arg-type]

    def test_a_program_that_does_not_refine_is_not_at_hand(self) -> None:
        with Fake(REFUSES) as old, Fake("os.kill(os.getpid(), 9)") as killed, Fake("print('{}')") as new:
            for path, is_new in ((old, False), (killed, False), (new, True)):
                self.assertIs(refines(path), is_new)
                with mock.patch.dict(os.environ, environment(VR_REFINE=path)):
                    self.assertEqual((at_hand(), belonging()), (Program(path) if is_new else None, Program(path)))
            os.link(new, os.path.join(os.path.dirname(new), "vr_refine"))
            with mock.patch.dict(os.environ, environment(VR_REFINE=None), clear=True):
                self.assertEqual(at_hand(new), Program(os.path.join(os.path.dirname(new), "vr_refine")))
                self.assertIsNone(at_hand(old))


class PriceTests(unittest.TestCase):
    def test_what_routes_cost(self) -> None:
        found = price(MODEL, [[2, 1]])
        self.assertEqual((found.cost, found.first_cost, found.lists(), found.stop), (18, 18, [[2, 1]], Stop.FIRST))
        self.assertEqual(price(Model.of(RULES), [[1, 2, 5], [3, 4]]).dropped, (6,))
        for name in ("service-day", "breaks-day", "pickups"):
            path = os.path.join(EXAMPLES, name)
            model, solution = read_model(f"{path}.json"), read_solution(f"{path}.solved.json")
            priced = price(model, solution)
            self.assertEqual((priced.cost, priced.routes), (solution.cost, solution.routes))
            self.assertTrue(check(model, priced).meets)

    def test_each_broken_rule_has_its_sentence(self) -> None:
        rows = (
            ([[1, 2], [5]], "required", -1, 3, "visit 3 is not made, and must be: it is in no group"),
            ([[1, 2], [3, 4]], "group", -1, 0, "group 0 has"),
            ([[1, 2, 5], [4, 3]], "pair", -1, 1, "pair 1"),
            ([[1, 3, 2, 4, 5], []], "policy", 0, -1, "vehicle 0 does not deliver in the order"),
            ([[1, 2], [3, 4, 5]], "allowed", 1, 3, "vehicle 1 makes node 5 at place 3"),
            ([[1, 3, 4, 2, 5], []], "schedule", 0, 0, "vehicle 0 cannot drive its list in the dimension 'time'"),
        )
        for routes, rule, vehicle, place, sentence in rows:
            with self.assertRaisesRegex(NotMet, sentence) as broken:
                price(Model.of(RULES), routes)
            found = broken.exception
            self.assertEqual((found.rule, found.vehicle, found.place), (rule, vehicle, place))
        self.assertIn("no schedule in dimension 1", sentence_of(Finding(None, "schedule", 0, 1), [[0, 1, 0]]))

    def test_routes_that_are_none_of_the_model(self) -> None:
        rows = (([[1], [2]], 15, "/routes"), ([[1, 3]], 14, "/routes/0/1"), ([[0]], 18, "/routes/0/0"),
                ([[1, 2, 1]], 16, "/routes/0/2"))
        for routes, code, path in rows:
            with self.assertRaises(Refused) as refused:
                price(MODEL, routes)
            self.assertEqual((refused.exception.code, refused.exception.path), (code, path))
        wrong: List[Any] = [None, 7, "12", [1, 2], [[1.5]], {0: [1]}]
        for routes in wrong:
            self.assertRaises(WrongArgument, lambda: price(MODEL, routes))
        negative = Model.of(tree_with(matrices=[[[0, 5, 9], [5, 0, -4], [9, 4, 0]]]))
        with self.assertRaises(Refused) as refused:
            price(negative, [[1, 2]])
        self.assertEqual((refused.exception.code, refused.exception.path), (20, "/model/vehicles/0/costs"))

    def test_a_record_of_what_is_asked(self) -> None:
        self.assertEqual(Refine().tree(), {})
        self.assertEqual(Refine(7, 3, 4, 5).tree(), {"seed": 7, "removed": 3, "string": 4, "heat": 5})
        for fields, path in (({"seed": -1}, "/seed"), ({"removed": 0}, "/removed"), ({"string": 101}, "/string"),
                             ({"heat": 2**40 + 1}, "/heat")):
            with self.assertRaises(Refused) as refused:
                Refine(**fields)
            self.assertEqual((refused.exception.code, refused.exception.path), (14, path))
        self.assertRaises(WrongArgument, lambda: solve(MODEL, refine={}))  # type: ignore[arg-type]


    def test_a_question_is_one_line(self) -> None:
        asked = Question(MODEL, [[2, 1]], Refine(seed=3))
        self.assertTrue(asked.text().endswith(',"routes":[[2, 1]],"refine":{"seed": 3}}'))
        self.assertNotIn("\n", asked.text())
        self.assertEqual(asked.answer("price", None, checked=True).cost, 18)
        self.assertEqual((QUESTIONS([asked, MODEL]), QUESTIONS([7])), ("", "a list of models"))


class BeginTests(unittest.TestCase):
    def test_routes_to_begin_with(self) -> None:
        optional = Model.of(tree_with(groups=[{"nodes": [2], "penalty": 3}]))
        begun: List[Any] = [([[1]], [[1]]), ([[]], [[2, 1]])]
        for routes, wanted in begun:
            self.assertEqual(begin(optional, routes).lists(), wanted)
        self.assertEqual(begin(MODEL, [[1]]).lists(), [[2, 1]])
        self.assertEqual(begin(MODEL), first(MODEL))
        rules = Model.of(RULES)
        self.assertRaisesRegex(NoFirstSolution, "no routes to begin with", lambda: begin(rules, [[1, 2], [3]]))

    def test_the_models_own_search_goes_on_from_routes(self) -> None:
        day = read_model(os.path.join(EXAMPLES, "service-day.json"))
        morning = first(day)
        later = solve(day, morning)
        self.assertEqual((later.first_cost, later.cost), (morning.cost, 1338))
        self.assertTrue(check(day, later).meets)
        self.assertEqual(later, solve_anew(day))
        self.assertEqual(solve(replace(MODEL, search=Search(tries=0)), [[2, 1]]).stop, Stop.TRIES)


class FailureTests(unittest.TestCase):
    def test_a_program_that_fails(self) -> None:
        calls = (lambda path: price(MODEL, [[1, 2]], path), lambda path: begin(MODEL, None, path),
                 lambda path: solve(MODEL, None, Refine(), path))
        rows = (("os.kill(os.getpid(), 9)", ProgramKilled), ("sys.exit(77)", ProgramFailed),
                ("sys.exit(1)", ProgramFailed), ("print('{}')", ProgramFailed))
        for body, kind in rows:
            with Fake(body) as path:
                for call in calls:
                    self.assertRaises(kind, lambda: call(path))
        with Fake("sys.exit(6)") as path:
            self.assertRaisesRegex(NoFirstSolution, "ruin and recreate", lambda: solve(MODEL, None, Refine(), path))
            self.assertRaisesRegex(NoFirstSolution, "no routes to begin", lambda: solve(MODEL, [[1]], None, path))

    def test_a_slow_program_and_one_that_is_stopped(self) -> None:
        began, stop = time.monotonic(), threading.Event()
        with Fake("time.sleep(60)") as path:
            self.assertRaises(ProgramSlow, lambda: price(MODEL, [[1, 2]], path, seconds=0.2))
            self.assertRaises(ProgramSlow, lambda: begin(MODEL, [[1, 2]], path, seconds=0.2))
            self.assertRaises(ProgramSlow, lambda: solve(MODEL, [[1, 2]], program=path, seconds=0.2))
            threading.Timer(0.2, stop.set).start()
            self.assertRaises(Stopped, lambda: solve(MODEL, [[1, 2]], Refine(), path, stop=stop))
        self.assertLess(time.monotonic() - began, 20)

    def test_an_answer_that_does_not_meet_is_not_handed_out(self) -> None:
        lie = price(MODEL, [[1, 2]]).text().replace('"cost":18', '"cost":17')
        with Fake(f"print({lie!r})") as path:
            routes: Routes = [[1, 2]]
            for call in (lambda: price(MODEL, routes, path), lambda: solve(MODEL, routes, Refine(), path)):
                with self.assertRaises(NotMet) as broken:
                    call()
                self.assertEqual(broken.exception.rule, "cost")
            self.assertEqual(price(MODEL, routes, path, checked=False).cost, 17)

    def test_it_is_not_the_program_of_the_package(self) -> None:
        with self.assertRaises(ProgramFailed):
            price(MODEL, [[1, 2]], find_solver())


if __name__ == "__main__":
    unittest.main()
