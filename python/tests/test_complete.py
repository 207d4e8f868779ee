"""Plans by hand: schedules and costs of lists, drivers that leave later, faults of a solution's form."""

from __future__ import annotations

import glob
import json
import os
import unittest
from dataclasses import replace
from typing import Any, Dict, List

from jambulskeg.complete import CannotBeDriven, complete, leave_later, shape_faults
from jambulskeg.costs import parts_of
from jambulskeg.errors import NotMet, Refused
from jambulskeg.model import Group, Model, Solution, check, first, read_model, read_solution

from .support import EXAMPLES, THREE

DAY = read_model(os.path.join(EXAMPLES, "service-day.json"))
SOLVED = read_solution(os.path.join(EXAMPLES, "service-day.solved.json"))


def as_plan(solution: Solution) -> Solution:
    """A solution without what the search told."""
    return replace(solution, first_cost=solution.cost, solutions=1, tries=0, stop="first")


class CompleteTests(unittest.TestCase):
    def test_the_examples_are_completed(self) -> None:
        for path in glob.glob(os.path.join(EXAMPLES, "*.solved.json")):
            model, solution = read_model(path.replace(".solved.json", ".json")), read_solution(path)
            self.assertEqual(complete(model, solution.lists()), as_plan(solution), path)
            self.assertEqual(parts_of(model, solution.routes), solution.parts)

    def test_lists_that_are_none(self) -> None:
        for code, lists in (
            (15, [[1]]), (18, [[0], [], [], []]), (14, [[17], [], [], []]), (11, 5), (11, [5, [], [], []]),
            (12, [[1.5], [], [], []]),
        ):
            with self.assertRaises(Refused) as refused:
                complete(DAY, lists)  # type: ignore[arg-type]
            self.assertEqual(refused.exception.code, code)

    def test_lists_that_break_a_rule(self) -> None:
        with self.assertRaises(NotMet) as twice:
            complete(DAY, [[1, 1], [], [], []])
        self.assertEqual((twice.exception.rule, twice.exception.vehicle, twice.exception.place), ("once", 0, 2))
        self.assertEqual(len(complete(DAY, [[1, 1], [], [], []], checked=False).dropped), 15)

    def test_lists_that_cannot_be_driven(self) -> None:
        with self.assertRaises(CannotBeDriven) as late:
            complete(DAY, [[], [16, 1], [], []])
        self.assertEqual((late.exception.vehicle, late.exception.dimension), (1, "time"))
        self.assertEqual((late.exception.stop, late.exception.node), (2, 1))
        self.assertRegex(str(late.exception), "node 1 .stop 2. allows 10 to 130, and from node 16")
        small = replace(DAY, dimensions=[DAY.dimensions[0], replace(DAY.dimensions[1], capacity=3)])
        with self.assertRaises(CannotBeDriven) as full:
            complete(small, SOLVED.lists())
        self.assertEqual(full.exception.dimension, "load")

    def test_breaks_and_starts_that_cannot_be(self) -> None:
        def model(**fields: Any) -> Model:
            time: Dict[str, Any] = {
                "name": "time", "evaluators": [{"matrix": 0}], "slack_max": 9, "capacity": 60, **fields
            }
            return Model.of({**THREE, "dimensions": [time]})

        for breaks in ([{"from": 3, "to": 4, "duration": 20}], [{"from": 9, "to": 9, "duration": 5}] * 2):
            day = model(fix_start=True, breaks=[{"vehicle": 0, "breaks": breaks}])
            with self.assertRaisesRegex(CannotBeDriven, "break") as caught:
                complete(day, [[1, 2]])
            self.assertEqual(caught.exception.vehicle, 0)
        with self.assertRaises(CannotBeDriven) as caught:
            complete(model(fix_start=True, starts=[{"vehicle": 0, "window": [1, 2]}]), [[1, 2]])
        self.assertEqual(caught.exception.stop, 0)
        home = complete(replace(model(global_span_cost=3), groups=[Group([1], 7), Group([2], 8)]), [[]])
        self.assertEqual((home.cost, home.dropped, home.parts.global_), (15, (1, 2), 0))


class LaterTests(unittest.TestCase):
    def test_drivers_leave_later(self) -> None:
        later = leave_later(DAY, SOLVED)
        self.assertEqual((SOLVED.cost, later.cost, later.lists()), (1338, 1318, SOLVED.lists()))
        self.assertTrue(check(DAY, later).meets)
        self.assertEqual(leave_later(DAY, later, checked=False), later)
        for route, after in zip(SOLVED.routes, later.routes):
            for plan, tight in zip(route.dimensions, after.dimensions):
                self.assertLessEqual(tight.cumuls[-1], plan.cumuls[-1])
                self.assertGreaterEqual(tight.cumuls[0], plan.cumuls[0])

    def test_nothing_gets_dearer(self) -> None:
        for path in glob.glob(os.path.join(EXAMPLES, "*.reply.json")):
            model, solution = read_model(path.replace(".reply.json", ".json")), read_solution(path)
            self.assertLessEqual(leave_later(model, solution).cost, solution.cost, path)

    def test_soft_bounds_hold_a_stop(self) -> None:
        model = Model.of({**THREE, "nodes": 2, "matrices": [[[0, 5], [5, 0]]], "dimensions": [{
            "name": "time", "evaluators": [{"matrix": 0}], "slack_max": 20, "capacity": 60, "span_cost": 1,
            "nodes": [{"node": 1, "soft": {"bound": 6, "coefficient": 9}}],
            "ends": [{"vehicle": 0, "window": [30, 60]}],
        }]})
        solution = first(model)
        later = leave_later(model, solution)
        self.assertEqual(list(solution.routes[0].dimensions[0].cumuls), [0, 5, 30])
        self.assertEqual(list(later.routes[0].dimensions[0].cumuls), [1, 6, 30])

    def test_where_nobody_pays_for_waiting_they_leave_later_too(self) -> None:
        time = replace(DAY.dimensions[0], span_cost=0)
        model = replace(DAY, dimensions=[time, *DAY.dimensions[1:]])
        early = complete(model, [[4, 9, 14], [], [], []])
        later = leave_later(model, early)
        self.assertEqual(later.cost, early.cost)
        self.assertLess(early.routes[0].dimensions[0].cumuls[0], later.routes[0].dimensions[0].cumuls[0])

    def test_a_late_stop_comes_no_later(self) -> None:
        model = Model.of({**THREE, "dimensions": [{
            "name": "time", "evaluators": [{"matrix": 0}], "slack_max": 20, "capacity": 60, "span_cost": 1,
            "nodes": [{"node": 1, "soft": {"bound": 6, "coefficient": 1}}, {"node": 2, "window": [12, 60]}],
        }]})
        early = complete(model, [[2, 1]])
        later = leave_later(model, early)
        self.assertEqual([list(plan.routes[0].dimensions[0].cumuls) for plan in (early, later)],
                         [[0, 12, 16, 21], [3, 12, 16, 21]])

    def test_a_solution_that_does_not_meet(self) -> None:
        self.assertRaises(NotMet, lambda: leave_later(DAY, replace(SOLVED, cost=1)))


class ShapeTests(unittest.TestCase):
    def paths(self, tree: Any) -> List[str]:
        return [fault.path for fault in shape_faults(DAY, tree)]

    def test_the_faults_of_a_form(self) -> None:
        self.assertEqual(self.paths(json.loads(SOLVED.text())), [])
        tree = json.loads(SOLVED.text())
        tree["routes"][1]["dimensions"][0]["cumuls"].pop()
        tree["routes"][1]["dimensions"][1]["slacks"].append(1)
        tree["routes"][1]["nodes"][1] = 99
        tree["routes"][2]["vehicle"] = 3
        tree["routes"][2]["dimensions"].append(tree["routes"][1]["dimensions"][0])
        tree["dropped"] = [17]
        tree["routes"][3]["nodes"] = [0, 0]
        self.assertEqual(self.paths(tree), [
            "/dropped/0", "/routes/1/nodes/1", "/routes/1/dimensions/0/cumuls", "/routes/1/dimensions/1/slacks",
            "/routes/2/vehicle", "/routes/2/dimensions", "/routes/3/nodes",
            "/routes/3/dimensions/0/cumuls", "/routes/3/dimensions/0/slacks",
            "/routes/3/dimensions/1/cumuls", "/routes/3/dimensions/1/slacks",
        ])
        tree["routes"].pop()
        tree["cost"], tree["more"] = 5.0, 1
        del tree["stop"], tree["parts"]["arcs"]
        self.assertEqual(self.paths(tree), ["/cost", "/parts/arcs", "/stop", "/more"])
        self.assertEqual(self.paths(7), [""])

    def test_what_has_no_fault_of_form_is_not_found_so(self) -> None:
        for key, value in (("tries", -1), ("cost", 0), ("dropped", [3, 2]), ("first_cost", 1)):
            tree: Any = {**json.loads(SOLVED.text()), key: value}
            self.assertEqual(self.paths(tree), [])
            self.assertNotIn(check(DAY, Solution.of(tree)).rule, ("shape", None))
        tree = json.loads(SOLVED.text())
        tree["routes"].pop()
        self.assertEqual(self.paths(tree), ["/routes"])
        self.assertEqual(check(DAY, Solution.of(tree)).rule, "shape")


if __name__ == "__main__":
    unittest.main()
