"""Doubts: each kind on a model that has it, and none on models that have nothing to doubt."""

from __future__ import annotations

import glob
import json
import os
import unittest
from typing import Any, Dict, List

from jambulskeg.doubts import Doubt, DoubtKind, doubts
from jambulskeg.model import Model, read_model

from .support import EXAMPLES, THREE


def with_time(**fields: Any) -> Model:
    time = {"name": "time", "evaluators": [{"matrix": 0}], "slack_max": 9, "capacity": 60}
    return Model.of({**THREE, "dimensions": [{**time, **fields}]})


def kinds(model: Model) -> List[DoubtKind]:
    return [doubt.kind for doubt in doubts(model)]


class DoubtTests(unittest.TestCase):
    def test_the_examples(self) -> None:
        for path in glob.glob(os.path.join(EXAMPLES, "*.solved.json")):
            model = read_model(path.replace(".solved.json", ".json"))
            self.assertEqual([kind for kind in kinds(model) if kind is not DoubtKind.PAID_TWICE], [], path)

    def test_visits_that_take_no_time(self) -> None:
        self.assertEqual(kinds(with_time(visit=[0, 4, 5])), [DoubtKind.VISIT_WITHOUT_VALUES])
        found = doubts(with_time(visit=[9, 5, 4]))
        self.assertEqual([doubt.path for doubt in found], ["/dimensions/0/visit"])
        self.assertIn("a visit of node 1 takes 5 and its way to a next stop 4 in all (so of 1 nodes)", found[0].sentence)
        self.assertEqual(kinds(with_time(visit=[9, 4, 4])), [])
        evaluators: Any = [{"values": [0, 5, 3]}, {"matrix": 0, "values": [0, 4, 6]}]
        self.assertEqual(kinds(with_time(visit=[0, 5, 9], evaluators=evaluators, vehicle_evaluators=[1])), [])
        self.assertEqual(kinds(with_time(visit=[0, 5, 4], evaluators=evaluators)), [DoubtKind.VISIT_WITHOUT_VALUES])

    def test_penalties(self) -> None:
        groups: Any = [{"nodes": [1], "penalty": 3}, {"nodes": [2], "penalty": 4}]
        found = doubts(Model.of({**THREE, "groups": groups}))
        self.assertEqual([(doubt.kind, doubt.path) for doubt in found],
                         [(DoubtKind.PENALTY_BELOW_ARCS, "/groups/0/penalty")])
        self.assertIn("costs 3, and each arc to it 4 or more (so of 1 of 2 groups)", found[0].sentence)
        free: Any = [{"nodes": [1], "penalty": 0}, {"nodes": [2]}]
        self.assertEqual(kinds(Model.of({**THREE, "groups": free})), [])
        both: Any = [{"nodes": [1, 2], "penalty": 3, "max": 2}]
        self.assertEqual(kinds(Model.of({**THREE, "groups": both})), [DoubtKind.PENALTY_BELOW_ARCS])
        one_way: Any = [[0, 5, 9], [5, 0, 4], [2, 4, 0]]
        self.assertEqual(kinds(Model.of({**THREE, "matrices": [one_way], "groups": groups[1:]})), [])

    def test_arcs_that_are_free(self) -> None:
        found = doubts(Model.of({**THREE, "matrices": [[[5, 0, 0], [0, 5, 0], [0, 0, 5]]]}))
        self.assertEqual([(doubt.kind, doubt.path) for doubt in found], [(DoubtKind.ALL_ARCS_FREE, "/matrices/0")])
        self.assertEqual(kinds(Model.of({**THREE, "matrices": [[[0, 0, 0], [0, 0, 0], [0, 1, 0]]]})), [])
        self.assertEqual(kinds(Model.of({**THREE, "nodes": 1, "matrices": [[[0]]]})), [])

    def test_loads(self) -> None:
        load: Dict[str, Any] = {"name": "load", "evaluators": [{"values": [0, 7, -1]}], "slack_max": 0, "capacity": 5}
        self.assertEqual(kinds(Model.of({**THREE, "dimensions": [load]})),
                         [DoubtKind.LOAD_ABOVE_CAPACITY, DoubtKind.NEGATIVE_LOAD])
        pairs = [{"pickup": 1, "delivery": 2}]
        self.assertEqual(kinds(Model.of({**THREE, "dimensions": [load], "pairs": pairs})),
                         [DoubtKind.LOAD_ABOVE_CAPACITY])

    def test_windows(self) -> None:
        self.assertEqual(kinds(with_time(nodes=[{"node": 1, "window": [3, 8], "forbidden": [[0, 9]]}, {"node": 2}])),
                         [DoubtKind.WINDOW_NEVER_OPEN, DoubtKind.DRIVE_ABOVE_WINDOWS])
        self.assertEqual(kinds(with_time(nodes=[{"node": 1, "window": [0, 60]}, {"node": 2, "window": [0, 8]}])),
                         [DoubtKind.WINDOW_OUT_OF_REACH])
        self.assertEqual(kinds(with_time(nodes=[{"node": 1, "window": [61, 70]}, {"node": 2, "window": [0, 60]}])),
                         [DoubtKind.WINDOW_NEVER_OPEN])
        late = [{"vehicle": 0, "window": [50, 60]}]
        found = doubts(with_time(starts=late, nodes=[{"node": 1, "window": [0, 40]}, {"node": 2, "window": [0, 40]}]))
        self.assertEqual([doubt.kind for doubt in found], [DoubtKind.WINDOW_OUT_OF_REACH] * 2 + [DoubtKind.UNITS])
        self.assertEqual([doubt.path for doubt in found],
                         ["/dimensions/0/nodes/0", "/dimensions/0/nodes/1", "/dimensions/0"])
        never = [{"vehicle": 0, "window": [70, 80]}]
        self.assertEqual(kinds(with_time(starts=never, nodes=[{"node": 1, "window": [0, 40]}])),
                         [DoubtKind.WINDOW_OUT_OF_REACH])

    def test_breaks(self) -> None:
        def breaks(*entries: List[int]) -> Any:
            rows = [{"from": low, "to": high, "duration": length} for low, high, length in entries]
            return [{"vehicle": 0, "breaks": rows}]

        self.assertEqual(kinds(with_time(breaks=breaks([9, 12, 5], [5, 12, 5]))), [DoubtKind.BREAKS_CANNOT_FOLLOW])
        self.assertEqual(kinds(with_time(breaks=breaks([9, 12, 10]))), [DoubtKind.BREAKS_CANNOT_FOLLOW])
        self.assertEqual(kinds(with_time(breaks=breaks([9, 12, 9]))), [])
        values = [{"matrix": 0, "values": [0, 1, 1]}]
        self.assertEqual(kinds(with_time(breaks=breaks([9, 12, 9]), evaluators=values)),
                         [DoubtKind.BREAKS_WITHOUT_VISIT])
        self.assertEqual(kinds(with_time(breaks=breaks([9, 12, 9]), evaluators=values, visit=[0, 1, 1])), [])

    def test_units(self) -> None:
        with open(os.path.join(EXAMPLES, "service-day.json"), encoding="utf-8") as file:
            day = json.load(file)
        for row in day["dimensions"][0]["nodes"]:
            row["window"] = [60 * bound for bound in row["window"]]
        self.assertIn(DoubtKind.UNITS, kinds(Model.of(day)))
        day["dimensions"][0]["capacity"] = 28800
        self.assertIn(DoubtKind.UNITS, kinds(Model.of(day)))
        day["matrices"][0] = [[3600 * way for way in row] for row in day["matrices"][0]]
        self.assertIn(DoubtKind.DRIVE_ABOVE_WINDOWS, kinds(Model.of(day)))

    def test_minutes_paid_twice(self) -> None:
        self.assertEqual(kinds(with_time(span_cost=1)), [DoubtKind.PAID_TWICE])
        other = {**THREE, "matrices": THREE["matrices"] * 2, "vehicles": [{"start": 0, "end": 0, "costs": 1}]}
        time = {"name": "t", "evaluators": [{"matrix": 0}], "slack_max": 0, "capacity": 60, "span_cost": 1}
        self.assertEqual(kinds(Model.of({**other, "dimensions": [time]})), [])

    def test_pairs(self) -> None:
        pairs = [{"pickup": 1, "delivery": 2}]
        for groups, found in (
            ([{"nodes": [1, 2], "penalty": 9}], [DoubtKind.PAIR_IN_ONE_GROUP]),
            ([{"nodes": [1, 2], "penalty": 9, "max": 2}], []),
            ([{"nodes": [1], "penalty": 9}], [DoubtKind.PAIR_HALF_OPTIONAL]),
            ([{"nodes": [1], "penalty": 9}, {"nodes": [2], "penalty": 0}], []),
        ):
            model = Model.of({**THREE, "pairs": pairs, "groups": groups})
            self.assertEqual(kinds(model), found)
            self.assertTrue(all(isinstance(doubt, Doubt) and doubt.sentence for doubt in doubts(model)))


if __name__ == "__main__":
    unittest.main()
