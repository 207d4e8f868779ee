"""Each rule that a solution may break, found by the program and told in a sentence."""

from __future__ import annotations

import os
import unittest
from dataclasses import replace
from typing import Any, List

from jambulskeg.complete import complete
from jambulskeg.errors import NotMet
from jambulskeg.findings import SENTENCES
from jambulskeg.model import Allowed, Finding, Group, Model, Pair, Solution, check, explain, meets, read_model

from .support import EXAMPLES, solved

DAY = read_model(os.path.join(EXAMPLES, "service-day.json"))
LISTS: List[List[int]] = [[], [4, 9, 1, 14, 12, 15], [6, 11, 3, 8, 16], [7, 2, 10, 5, 13]]


class FindingTests(unittest.TestCase):
    def broken(self, rule: str, words: str, model: Model, solution: Solution) -> None:
        finding = check(model, solution)
        self.assertEqual(finding.rule, rule)
        self.assertFalse(finding.meets)
        with self.assertRaises(NotMet) as caught:
            meets(model, solution)
        self.assertIn(words, str(caught.exception))
        self.assertEqual(str(caught.exception), explain(finding, solution))

    def test_lists(self) -> None:
        def day(lists: Any, **fields: Any) -> Any:
            model = replace(DAY, **fields)
            return model, complete(model, lists, checked=False)

        self.broken("once", "vehicle 0 makes node 1 at place 2", *day([[1, 1], [], [], []]))
        self.broken("required", "visit 1 is not made, and must be", *day([[], [], [], []], groups=[]))
        self.broken("group", "group 0 has more visits", *day(LISTS, groups=[Group([1, 2])]))
        self.broken("pair", "of pair 0", *day(LISTS, pairs=[Pair(1, 4)]))
        self.broken("allowed", "vehicle 1 makes node 4 at place 1", *day(LISTS, allowed=[Allowed(4, [0])]))
        lifo = [replace(vehicle, policy="lifo") for vehicle in DAY.vehicles]
        self.broken("policy", "vehicle 1", *day(LISTS, vehicles=lifo, pairs=[Pair(4, 1), Pair(9, 14)]))
        ends = [replace(vehicle, end=0) for vehicle in DAY.vehicles]
        self.assertTrue(check(*day(LISTS, vehicles=ends)).meets)

    def test_schedules(self) -> None:
        solution = complete(DAY, LISTS)

        def with_plan(vehicle: int, **fields: Any) -> Solution:
            route = solution.routes[vehicle]
            plan = replace(route.dimensions[0], **fields)
            routes = list(solution.routes)
            routes[vehicle] = replace(route, dimensions=[plan, *route.dimensions[1:]])
            return replace(solution, routes=routes)

        plan = solution.routes[1].dimensions[0]
        late = [plan.cumuls[0], 500, *plan.cumuls[2:]]
        self.broken("cumul", "vehicle 1 has at stop 1, node 4", DAY, with_plan(1, cumuls=late))
        self.broken("slack", "after stop 0, node 0", DAY, with_plan(1, slacks=[61, *plan.slacks[1:]]))
        home = complete(DAY, [[1, 9, 4, 12], [], [], []])
        broken = replace(home.routes[0].dimensions[0], breaks=[61, 200])
        route = replace(home.routes[0], dimensions=[broken, home.routes[0].dimensions[1]])
        self.broken("break", "vehicle 0 has in dimension 0", DAY, replace(home, routes=[route, *home.routes[1:]]))

    def test_costs(self) -> None:
        solution = complete(DAY, LISTS)
        self.broken("ends", "vehicle 1 has node 4 at place 0", DAY, replace(solution, routes=[
            replace(route, nodes=[4, *route.nodes[1:]]) if route.vehicle == 1 else route for route in solution.routes
        ]))
        self.broken("dropped", "'dropped'", DAY, replace(solution, dropped=[3]))
        self.broken("parts", "'soft'", DAY, replace(solution, parts=replace(solution.parts, soft=1)))
        self.broken("cost", "the sum of its parts", DAY, replace(solution, cost=1))
        self.broken("first_cost", "less than the cost", DAY, replace(solution, first_cost=1))
        self.broken("limits", "within the limits", DAY, replace(solution, tries=DAY.search.tries + 1))
        self.broken("shape", "complete.shape_faults", DAY, replace(solution, routes=[]))

    def test_every_rule_has_a_sentence(self) -> None:
        solution = solved("service-day")
        self.assertIn("costs 1338", explain(check(DAY, solution), solution))
        self.assertEqual(len(SENTENCES), 17)
        for rule in SENTENCES:
            for vehicle, place in ((-1, -1), (0, 0), (1, 99), (99, 1)):
                self.assertTrue(explain(Finding(None, rule, vehicle, place), solution))
        self.assertIn("'other'", explain(Finding(None, "other"), solution))


if __name__ == "__main__":
    unittest.main()
