"""Records: reading, writing, and the fault of each field with its code and path."""

from __future__ import annotations

import glob
import json
import os
import unittest
from typing import Any, Callable

from jambulskeg.errors import CAUSES, Fault, Refused
from jambulskeg.kinds import Flag, Kind, Maybe, Square, Text, Word, between, is_list, key_of, kinds_of, whole_fault
from jambulskeg.model import (
    Allowed, Break, Dimension, Evaluator, First, Group, Improve, Model, Neighbourhood, NodeRow, Pair, Policy,
    ScheduleRule, Search, Soft, Vehicle, VehicleBreaks, VehicleRow, read_model, read_solution,
)
from jambulskeg.records import repeated

from .support import EXAMPLES, THREE, tree_with

LOAD = {"name": "load", "evaluators": [{"values": [0, 1, 1]}], "slack_max": 0, "capacity": 2}


class Index:
    """A whole number of another library."""

    def __index__(self) -> int:
        return 7


class RecordTests(unittest.TestCase):
    def refused(self, code: int, path: str, make: Callable[[], Any]) -> None:
        with self.assertRaises(Refused) as caught:
            make()
        self.assertEqual((caught.exception.code, caught.exception.path), (code, path), str(caught.exception))
        self.assertIn(path, caught.exception.sentence)

    def test_examples_are_read_and_written(self) -> None:
        for path in glob.glob(os.path.join(EXAMPLES, "*.solved.json")):
            with open(path, encoding="utf-8") as file:
                self.assertEqual(read_solution(path).text() + "\n", file.read(), path)
            model = read_model(path.replace(".solved.json", ".json"))
            self.assertEqual(Model.of(json.loads(model.text())), model, path)

    def test_a_vehicle_chooses_its_schedules_in_format_2_alone(self) -> None:
        tight = Vehicle(0, 0, schedule=ScheduleRule.TIGHT)
        model = Model(1, [[[0]]], [tight], format=2)
        self.assertEqual(model.tree()["vehicles"], [{"start": 0, "end": 0, "schedule": "tight"}])
        self.assertEqual(Model.of(model.tree()), model)
        self.assertEqual(list(Model.faults_of(model.tree())), [])
        self.refused(13, "/vehicles/0/schedule", lambda: Model(1, [[[0]]], [tight]))
        for word in ("tight", "earliest"):
            vehicle = {"start": 0, "end": 0, "schedule": word}
            tree = {**model.tree(), "format": 1, "vehicles": [vehicle]}
            self.refused(13, "/vehicles/0/schedule", lambda: Model.of(tree))
        self.refused(17, "/schedule", lambda: Vehicle(0, 0, schedule="loose"))  # type: ignore[arg-type]
        self.refused(14, "/format", lambda: Model(1, [[[0]]], [Vehicle(0, 0)], format=3))

    def test_cuts_and_tenures(self) -> None:
        for search, tree in (
            (Search(improve=Improve.PATH_LNS, cut=100), {"improve": "PATH_LNS", "cut": 100}),
            (Search(improve=Improve.TABU_SEARCH, tenure=1000), {"improve": "TABU_SEARCH", "tenure": 1000}),
            (Search(improve=Improve.TABU_SEARCH, cut=10, tenure=10), {"improve": "TABU_SEARCH"}),
        ):
            self.assertEqual(search.tree(), tree)
            self.assertEqual(Search.of(tree), search)

    def test_a_field_is_checked_where_it_is_written(self) -> None:
        self.refused(14, "/fixed", lambda: Vehicle(0, 1, fixed=-1))
        self.refused(11, "/start", lambda: Vehicle("0", 1))  # type: ignore[arg-type]
        self.refused(11, "/start", lambda: Vehicle(True, 1))
        self.refused(12, "/start", lambda: Vehicle(0.0, 1))  # type: ignore[arg-type]
        self.refused(17, "/policy", lambda: Vehicle(0, 1, policy="random"))  # type: ignore[arg-type]
        self.refused(11, "/policy", lambda: Vehicle(0, 1, policy=3))  # type: ignore[arg-type]
        self.refused(19, "", lambda: Break(5, 1, 2))
        self.refused(14, "/duration", lambda: Break(1, 5, 0))
        self.refused(19, "/window", lambda: NodeRow(1, (9, 5)))
        self.refused(15, "/window", lambda: NodeRow(1, (9,)))  # type: ignore[arg-type]
        self.refused(14, "/coefficient", lambda: Soft(1, 10001))
        self.refused(16, "/delivery", lambda: Pair(1, 1))
        self.refused(16, "/nodes/1", lambda: Group([1, 1]))
        self.refused(14, "/max", lambda: Group([1, 2], max=3))
        self.refused(15, "/nodes", lambda: Group([]))
        self.refused(16, "/vehicles/1", lambda: Allowed(1, [0, 0]))
        self.refused(15, "/breaks", lambda: VehicleBreaks(0, []))
        self.refused(14, "/vehicle", lambda: VehicleRow(100))
        self.refused(14, "/matrix", lambda: Evaluator(matrix=16))
        self.refused(14, "/tries", lambda: Search(tries=10**9 + 1))
        self.refused(15, "/lambda", lambda: Search(lambda_=(1,)))
        self.refused(16, "/neighbourhoods/1", lambda: Search(neighbourhoods=[Neighbourhood.CROSS] * 2))
        for number in (0, 101):
            self.refused(14, "/cut", lambda: Search(cut=number))
        for number in (0, 1001):
            self.refused(14, "/tenure", lambda: Search(tenure=number))
        self.refused(11, "/tenure", lambda: Search(tenure="10"))  # type: ignore[arg-type]

    def test_a_dimension_is_checked(self) -> None:
        def made(**fields: Any) -> Dimension:
            return Dimension.of({**LOAD, **fields})

        self.refused(15, "/name", lambda: made(name=""))
        self.refused(11, "/name", lambda: made(name=5))
        self.refused(11, "/fix_start", lambda: made(fix_start=1))
        self.refused(16, "/nodes/1/node", lambda: made(nodes=[{"node": 1}, {"node": 1}]))
        self.refused(16, "/starts/1/vehicle", lambda: made(starts=[{"vehicle": 0}, {"vehicle": 0}]))
        self.refused(14, "/vehicle_evaluators/0", lambda: made(vehicle_evaluators=[1]))
        self.refused(14, "/capacity/1", lambda: made(capacity=[1, -1]))
        self.refused(11, "/visit", lambda: made(visit="none"))
        self.assertEqual(made(capacity=2**40).capacity_of(0), 2**36)
        breaks = made(span_cost=[1, 2], breaks=[{"vehicle": 1, "breaks": [{"from": 0, "to": 1, "duration": 2}]}])
        self.assertEqual((breaks.span_cost_of(1), len(breaks.breaks_of(1)), len(breaks.breaks_of(0))), (2, 1, 0))
        self.assertEqual(breaks.evaluator_of(0).values, (0, 1, 1))

    def test_a_model_is_refused_with_its_path(self) -> None:
        self.refused(10, "/nodes", lambda: Model.of({}))
        self.refused(11, "", lambda: Model.of([]))
        self.refused(13, "/colour", lambda: Model.of(tree_with(colour=1)))
        self.refused(12, "/matrices/0/0/1", lambda: Model.of(tree_with(matrices=[[[0, 5.0, 9], [5, 0, 4], [9, 4, 0]]])))
        self.refused(15, "/matrices/0/1", lambda: Model.of(tree_with(matrices=[[[0, 5], [5]]])))
        self.refused(11, "/matrices/0", lambda: Model.of(tree_with(matrices=[7])))
        self.refused(15, "/matrices", lambda: Model.of(tree_with(matrices=[])))
        self.refused(11, "/groups", lambda: Model.of(tree_with(groups=None)))
        self.refused(14, "/vehicles/0/start", lambda: Model.of(tree_with(vehicles=[{"start": 1000, "end": 0}])))
        self.refused(16, "/pairs/0/delivery", lambda: Model.of(tree_with(pairs=[{"pickup": 1, "delivery": 1}])))
        self.refused(14, "/format", lambda: Model(**THREE, format=3))

    def test_a_model_answers(self) -> None:
        model = Model.of(tree_with(dimensions=[LOAD], allowed=[{"node": 1, "vehicles": [0]}]))
        self.assertEqual((model.visits(), model.arc_cost(0, 1, 2), model.transit(0, 0, 2, 0)), ([1, 2], 4, 1))
        self.assertEqual((list(model.vehicles_of(1)), list(model.vehicles_of(2))), ([0], [0]))
        self.assertEqual(model.tree()["format"], 1)
        self.assertEqual(repr(model), "Model(3 nodes, 1 vehicles, 1 dimensions)")
        self.assertNotIn("search", model.tree())
        self.assertEqual(Search(First.SAVINGS, Improve.NONE).tree(), {"first": "SAVINGS", "improve": "NONE"})
        self.assertEqual(Vehicle(0, 0, policy="lifo").policy, Policy.LIFO)  # type: ignore[arg-type]

    def test_kinds(self) -> None:
        self.assertEqual(Vehicle(Index(), 0).start, 7)  # type: ignore[arg-type]
        self.assertEqual([whole_fault(value) for value in (3, True, 0.5, "3", Index())], [0, 11, 12, 11, 0])
        self.assertEqual([fault.code for fault in Square(0, 9, 2).faults([[1] * 3] * 3, "")], [15])
        self.assertEqual([fault.path for fault in Square(0, 9, 3).faults([[1, 10], [Index(), 1]], "/m")], ["/m/0/1"])
        self.assertEqual([Maybe(Flag()).taken(None), Maybe(Flag()).tree(True)], [None, True])
        self.assertEqual([fault.code for fault in Square(0, 9, 3).faults(5, "")], [11])
        self.assertEqual([fault.code for fault in Text(0, 3).faults("äö", "")], [15])
        self.assertEqual(Word(Policy).tree(Policy.FIFO), "fifo")
        self.assertEqual([between(3, 3), between(1, 2), is_list("ab"), key_of("from_")], ["3", "1 to 2", False, "from"])
        self.assertEqual(list(kinds_of(Pair)), ["pickup", "delivery"])
        self.assertEqual([fault.path for fault in repeated([1, 2, 1], "/x")], ["/x/2"])
        self.assertRaises(NotImplementedError, lambda: list(Kind().faults(1, "")))

    def test_causes_have_sentences(self) -> None:
        for code, cause in CAUSES.items():
            self.assertIn(cause, Fault(code, "/x").sentence)


if __name__ == "__main__":
    unittest.main()
