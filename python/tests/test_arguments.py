"""Wrong calls are told by the package's own exceptions, each with a sentence."""

from __future__ import annotations

import math
import os
import pathlib
import unittest
from typing import Any, Callable, Dict, List

from jambulskeg import (
    arguments, batch, complete, doubts, engines, model, portfolio, program, refine, replan, rescue, rounds,
)
from jambulskeg.errors import JambulskegError, WrongArgument
from jambulskeg.model import Model, generate, read_model, read_solution

from .support import EXAMPLES, THREE

DAY = Model.of(THREE)
PLAN = model.solve(DAY)
REST = replan.replan(DAY, PLAN, 3)
Call = Callable[[Any], Any]

NO_MODELS: Dict[str, Call] = {
    "solve": model.solve, "first": model.first, "solve_with_log": model.solve_with_log,
    "check": lambda bad: model.check(bad, PLAN), "meets": lambda bad: model.meets(bad, PLAN),
    "spans": lambda bad: model.spans(bad, PLAN), "rescue": rescue.rescue, "relax": rescue.relax,
    "solve_for": lambda bad: rounds.solve_for(bad, 1), "a timed solver": lambda bad: rescue.timed_solver(1)(bad),
    "with_search": lambda bad: rounds.with_search(bad, tries=1), "complete": lambda bad: complete.complete(bad, [[1]]),
    "leave_later": lambda bad: complete.leave_later(bad, PLAN), "shorten": lambda bad: complete.shorten(bad, PLAN),
    "shape_faults": lambda bad: complete.shape_faults(bad, {}), "doubts": doubts.doubts,
    "portfolio": portfolio.portfolio, "variants": portfolio.variants, "batch": lambda bad: batch.batch({"a": bad}),
    "replan": lambda bad: replan.replan(bad, PLAN, 3), "glue": lambda bad: replan.glue(bad, REST, PLAN),
    "price": lambda bad: refine.price(bad, PLAN), "begin": refine.begin, "refine": refine.solve,
    "refinings": portfolio.refinings,
}
NO_SOLUTIONS: Dict[str, Call] = {
    "check": lambda bad: model.check(DAY, bad), "meets": lambda bad: model.meets(DAY, bad),
    "spans": lambda bad: model.spans(DAY, bad), "leave_later": lambda bad: complete.leave_later(DAY, bad),
    "shorten": lambda bad: complete.shorten(DAY, bad), "replan": lambda bad: replan.replan(DAY, bad, 3),
    "glue": lambda bad: replan.glue(DAY, REST, bad), "moved": lambda bad: replan.moved(bad, PLAN),
}
NO_SECONDS: Dict[str, Call] = {
    "solve": lambda bad: model.solve(DAY, seconds=bad), "check": lambda bad: model.check(DAY, PLAN, seconds=bad),
    "rescue": lambda bad: rescue.rescue(DAY, seconds=bad), "timed_solver": rescue.timed_solver,
    "solve_for": lambda bad: rounds.solve_for(DAY, bad), "price": lambda bad: refine.price(DAY, PLAN, seconds=bad),
}
NO_COUNTS: Dict[str, Call] = {
    "own": engines.OwnProcesses, "parallel": engines.GnuParallel, "slurm": engines.Slurm, "generate": generate,
    "tries of rescue": lambda bad: rescue.rescue(DAY, tries=bad),
    "tries of a portfolio": lambda bad: portfolio.portfolio(DAY, tries=bad),
    "lambdas": lambda bad: portfolio.portfolio(DAY, lambdas=[bad]), "now": lambda bad: replan.replan(DAY, PLAN, bad),
    "done": lambda bad: replan.replan(DAY, PLAN, 3, done=[bad]),
    "lost": lambda bad: replan.replan(DAY, PLAN, 3, unavailable=replan.Unavailable([bad])),
}
NO_PATHS: Dict[str, Call] = {
    "read_model": read_model, "read_solution": read_solution, "read_folder": batch.read_folder,
    "find": program.find, "refiner": refine.find, "program": lambda bad: model.solve(DAY, bad),
    "Program": lambda bad: model.solve(DAY, program.Program(bad)),
}
OTHERS: Dict[str, Call] = {
    "continued": replan.continued, "solve_rest": replan.solve_rest, "glue": lambda bad: replan.glue(DAY, bad, PLAN),
    "new": lambda bad: replan.replan(DAY, PLAN, 3, new=bad),
    "unavailable": lambda bad: replan.replan(DAY, PLAN, 3, unavailable=bad),
    "engine": lambda bad: portfolio.portfolio(DAY, bad), "models": batch.batch,
    "import": lambda bad: model.import_tsplib(bad, 3), "run": lambda bad: engines.OwnProcesses().run(bad),
    "run by parallel": lambda bad: engines.GnuParallel().run(bad), "run by slurm": lambda bad: engines.Slurm().run(bad),
    "routes": lambda bad: refine.price(DAY, bad), "refine": lambda bad: refine.solve(DAY, PLAN, bad),
    "explain": lambda bad: model.explain(bad, PLAN), "explained": lambda bad: model.explain(model.Finding(1), bad),
}


class ArgumentTests(unittest.TestCase):
    def refused(self, calls: Dict[str, Call], values: List[Any]) -> None:
        """Each call with each value ends in a sentence of one line, which names the argument."""
        for name, call in calls.items():
            for value in values:
                with self.subTest(name, value=value), self.assertRaises(JambulskegError) as caught:
                    call(value)
                self.assertNotIn("\n", str(caught.exception))
                self.assertLess(len(str(caught.exception)), 250)

    def test_wrong_arguments(self) -> None:
        self.refused(NO_MODELS, [THREE, None, 7, "x", [DAY], PLAN])
        self.refused(NO_SOLUTIONS, [PLAN.tree(), None, 7, "x", DAY])
        self.refused(NO_SECONDS, [math.nan, math.inf, -1, "1", [], True])
        self.refused(NO_COUNTS, [-2**64, 1.5, "1", [], math.nan])
        self.refused(NO_PATHS, [7, b"x", ["a"], 1.5, "a\0b"])
        self.refused(OTHERS, [7, {"a": 1}, [1]])

    def test_the_sentence(self) -> None:
        with self.assertRaises(WrongArgument) as caught:
            model.solve(DAY.tree())  # type: ignore[arg-type]
        problem = caught.exception
        self.assertEqual((problem.call, problem.argument), ("solve", "model"))
        self.assertRegex(str(problem), "^solve: model is {.* of the kind dict, and not a Model; Model.of")
        self.assertIsInstance(problem, TypeError)
        said = "generate: number is -1 .* from 0 to 18446744073709551615"
        self.assertRaisesRegex(WrongArgument, said, lambda: generate(-1))

    def test_what_may_be_given(self) -> None:
        path = pathlib.Path(EXAMPLES) / "three-nodes.json"
        self.assertEqual(read_model(path).nodes, 3)  # type: ignore[arg-type]
        self.assertEqual(program.find(pathlib.Path(program.find())), program.find())  # type: ignore[arg-type]
        self.assertEqual(model.solve(DAY, seconds=2 * 10**6).cost, PLAN.cost)
        self.assertTrue(os.path.exists(path))

    def test_rules(self) -> None:
        rule: arguments.Rule = arguments.either(arguments.a(Model))
        self.assertEqual((rule(None), rule(DAY), rule(7)), ("", "", "a Model"))
        self.assertEqual(arguments.number(1, 3)(4), "a whole number from 1 to 3")
        given = {
            arguments.A_COUNT: 0, arguments.A_LIMIT: -1, arguments.A_PATH: 7, arguments.A_FILE: 7,
            arguments.NUMBERS: [1.5], arguments.PAIRS: [(1,)], arguments.MODELS: {"a": 1}, arguments.ROUTES: [7], refine.QUESTIONS: [7],
            arguments.A_MODEL: 7, arguments.A_SOLUTION: 7,
        }
        for wanted, value in given.items():
            self.assertNotEqual(wanted(value), "")
        same: Call = lambda x: x
        self.assertEqual(arguments.asks(x=rule)(same)(None), None)


if __name__ == "__main__":
    unittest.main()
