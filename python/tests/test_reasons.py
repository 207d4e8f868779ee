"""Why visits are left out: the cheapest place is that of all lists completed one by one, and rules are named."""

from __future__ import annotations

import os
import random
import unittest
from dataclasses import replace
from typing import Dict, List

from jambulskeg.complete import CannotBeDriven, complete
from jambulskeg.errors import NoFirstSolution, NotMet
from jambulskeg.model import Allowed, Group, Model, Pair, Policy, Solution, read_model, read_solution, solve
from jambulskeg.reasons import Reason, Site, keeps_order, why_left_out, why_not_shorter

from .support import EXAMPLES, THREE, random_tree


def costs_by_hand(model: Model, solution: Solution, node: int) -> List[int]:
    """What the day costs with a visit in each place where the program takes it."""
    pair = next(([pair.pickup, pair.delivery] for pair in model.pairs if node in (pair.pickup, pair.delivery)), [node])
    found = []
    for vehicle, visits in enumerate(solution.lists()):
        for first in range(len(visits) + 1):
            for last in range(first, len(visits) + 1) if len(pair) == 2 else [first]:
                lists = solution.lists()
                lists[vehicle] = [*visits[:first], pair[0], *visits[first:last], *pair[1:], *visits[last:]]
                try:
                    found.append(complete(model, lists).cost)
                except (CannotBeDriven, NotMet):
                    pass
    return found


class ReasonTests(unittest.TestCase):
    def test_random_days(self) -> None:
        rng = random.Random(8)
        kinds: Dict[bool, int] = {True: 0, False: 0}
        for _ in range(150):
            model = Model.of(random_tree(rng))
            try:
                solution = solve(model, checked=False)
            except NoFirstSolution:
                continue
            for node, reason in why_left_out(model, solution, 60).items():
                by_hand = costs_by_hand(model, solution, node) if reason.places else []
                if reason.best is None:
                    self.assertEqual(by_hand, [])
                else:
                    self.assertEqual(min(by_hand), solution.cost + reason.best.cost - reason.best.spared)
                self.assertEqual(reason.tried, reason.places)
                self.assertTrue(reason.sentence(str, str))
                kinds[reason.best is None] += 1
        self.assertGreater(min(kinds.values()), 5, kinds)

    def test_sentences(self) -> None:
        site = Site(1, 4, 85, 60)
        for reason, said in (
            (Reason(7, site, (("load", 2),), 9, 9),
             "its cheapest place, on B after n4, would cost 85, and leaving it out costs 60"),
            (Reason(7, replace(site, cost=50), (), 9, 9),
             "its cheapest place, on B after n4, would cost 50, and leaving it out costs 60; a longer search may bring "
             "it in"),
            (Reason(7, site, (), 5, 9, True),
             "its cheapest place, on B after n4, would cost 85; a longer search may bring it in (of its 9 places 5 "
             "were tried)"),
            (Reason(7, None, (("load", 9),), 9, 9), "'load' forbids each of its 9 places"),
            (Reason(7, None, (("time", 5), ("load", 4)), 9, 9, partner=8),
             "together with n8 each of its 9 places is forbidden: 'time' 5, 'load' 4"),
            (Reason(7, None, (), 0, 0), "as many visits of its group are made as may be"),
            (Reason(7, None, (("load", 2), ("time", 1)), 3, 9),
             "of its 9 places 3 were tried, and each is forbidden: 'load' 2, 'time' 1"),
        ):
            self.assertEqual(reason.sentence("n{}".format, "AB".__getitem__), said)

    def test_the_time_is_bounded(self) -> None:
        model = replace(Model.of(THREE), groups=[Group([1], 0), Group([2], 0)])
        reasons = why_left_out(model, complete(model, [[]]), 0)
        self.assertEqual([reason.tried for reason in reasons.values()], [1, 1])
        line = Model.of({
            "format": 1, "nodes": 5, "vehicles": [{"start": 0, "end": 0}] * 3,
            "matrices": [[[abs(tail - head) for head in range(5)] for tail in range(5)]],
            "groups": [{"nodes": [2], "penalty": 1}],
        })
        reason = why_left_out(line, complete(line, [[4], [1, 3], []]), 0)[2]
        self.assertEqual((reason.best, reason.tried, reason.places), (Site(0, 0, 0, 1), 1, 6))

    def test_groups_and_vehicles(self) -> None:
        model = replace(Model.of(THREE), groups=[Group([1, 2], 50)])
        self.assertEqual(why_left_out(model, complete(model, [[1]]))[2].places, 0)
        pair = Model.of({**THREE, "vehicles": [{"start": 0, "end": 0}] * 2})
        two = replace(pair, groups=[Group([1], 5), Group([2], 5)], allowed=[Allowed(1, [1])])
        reason = why_left_out(two, complete(two, [[2], []]))[1]
        self.assertEqual((reason.best, reason.forbidden), (Site(1, 0, 10, 5), (("the vehicles that may go there", 2),)))

    def test_orders_of_deliveries(self) -> None:
        vehicles = [{"start": 0, "end": 0, "policy": word} for word in ("any", "lifo", "fifo")]
        model = Model.of({
            "format": 1, "nodes": 5, "matrices": [[[0] * 5] * 5], "vehicles": vehicles,
            "pairs": [{"pickup": 1, "delivery": 2}, {"pickup": 3, "delivery": 4}],
        })
        self.assertEqual((model.pairs[0], model.vehicles[1].policy), (Pair(1, 2), Policy.LIFO))
        self.assertEqual([keeps_order(model, vehicle, [1, 3, 4, 2]) for vehicle in range(3)], [True, True, False])
        self.assertEqual([keeps_order(model, vehicle, [1, 3, 2, 4]) for vehicle in range(3)], [True, False, True])

    def test_why_not_shorter(self) -> None:
        said = {}
        for name in ("service-day", "pickups", "windows-day"):
            model = read_model(os.path.join(EXAMPLES, f"{name}.json"))
            said[name] = why_not_shorter(model, read_solution(os.path.join(EXAMPLES, f"{name}.solved.json")))
        self.assertIn("in 'time' drivers have breaks", said["service-day"])
        self.assertIn("a shorter schedule of 1 route would cost more", said["windows-day"])
        self.assertTrue(said["pickups"].startswith("Both days are equal: in 'box' no route"), said["pickups"])


if __name__ == "__main__":
    unittest.main()
