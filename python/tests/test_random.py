"""Models made at random: the package answers as the program does, plans by hand are the program's own, and a script in
OR-Tools' calls says the same model as the file."""

from __future__ import annotations

import json
import random
import unittest
from dataclasses import replace
from typing import Any, Dict, List, Tuple

from jambulskeg.complete import complete, leave_later, shape_faults
from jambulskeg.doubts import doubts
from jambulskeg.errors import NoFirstSolution, Refused
from jambulskeg.model import Model, ScheduleRule, Solution, check, first, solve, solve_with_log
from jambulskeg.rescue import Way, rescue
from jambulskeg.routing import pywrapcp

from .support import ask, in_format_2, mutated, need_searches, random_tree

MODELS = 40
LEFT_TO_THE_PROGRAM = (20, 21, 22, 23)
"""The codes of rules on values, which the package does not look for."""


def refusal(tree: Any) -> Tuple[int, str]:
    """The code and the path of the first fault of a model, as the package finds it without the program."""
    try:
        Model.of(tree)
    except Refused as refused:
        return refused.code, refused.path
    return 0, ""


class RandomTests(unittest.TestCase):
    def test_the_package_answers_as_the_program(self) -> None:
        solved = 0
        for number in range(MODELS):
            rng = random.Random(number)
            tree = random_tree(rng)
            if number % 2:
                tree = in_format_2(rng, tree)
            text = json.dumps(tree)
            status, line = ask("solve", text)
            if status == 5:
                told = json.loads(line)
                with self.assertRaises(Refused) as refused:
                    solve(Model.of(tree))
                self.assertEqual((refused.exception.code, refused.exception.path), (told["code"], told["path"]))
                continue
            model = Model.of(tree)
            self.assertEqual(json.loads(model.text()), json.loads(Model.of(json.loads(model.text())).text()))
            self.assertIsInstance(doubts(model), list)
            if status == 6:
                self.assertRaises(NoFirstSolution, lambda: solve(model))
                self.rescued(model)
                continue
            solved += 1
            solution = solve(model)
            self.assertEqual(solution.text() + "\n", line, number)
            self.assertEqual(first(model).text() + "\n", ask("first", text)[1], number)
            self.assertEqual(solve_with_log(model)[0], solution)
            self.by_hand(model, solution)
        self.assertGreater(solved, MODELS // 4)

    def test_path_lns_and_tabu_search_answer_as_the_program(self) -> None:
        need_searches()
        solved = 0
        for number in range(MODELS):
            rng = random.Random(5000 + number)
            tree = random_tree(rng)
            improve, word, most = rng.choice([("PATH_LNS", "cut", 100), ("TABU_SEARCH", "tenure", 1000)])
            tree["search"].update({"improve": improve, word: rng.choice([1, 2, 3, most, 0, most + 1])})
            text = json.dumps(tree)
            status, line = ask("solve", text)
            if status == 5:
                self.assertEqual(refusal(tree), (14, f"/search/{word}"), number)
            elif status == 0:
                model = Model.of(tree)
                solution = solve(model)
                self.assertEqual(solution.text() + "\n", line, number)
                self.assertEqual(solve_with_log(model)[0], solution)
                solved += 1
        self.assertGreater(solved, MODELS // 4)

    def test_a_faulty_model_is_refused_as_by_the_program(self) -> None:
        refused = 0
        for number in range(MODELS):
            rng = random.Random(3000 + number)
            tree = random_tree(rng)
            tree["search"] = {"tries": 0}
            if ask("first", json.dumps(tree))[0] == 5:
                continue
            for _ in range(10):
                changed = mutated(rng, tree)
                status, line = ask("first", json.dumps(changed))
                told = json.loads(line)
                fault = (told["code"], told["path"]) if status == 5 else (0, "")
                if fault[0] not in LEFT_TO_THE_PROGRAM and changed.get("format") in (1, 2):
                    self.assertEqual(refusal(changed), fault, number)
                    refused += bool(fault[0])
        self.assertGreater(refused, MODELS)

    def test_a_schedule_in_format_1_is_refused_as_by_the_program(self) -> None:
        values: List[Any] = ["tight", "earliest", "Tight", "", None, True, 1, [], {}]
        for number, value in enumerate(values * 4):
            rng = random.Random(4000 + number)
            tree = random_tree(rng)
            vehicle = rng.choice(tree["vehicles"])
            vehicle["schedule"] = value
            vehicle.update(rng.choice([{}, {"colour": 1}, {"zone": 1}, {"policy": "random"}]))
            tree["dimensions"] += rng.choice([[], [{"name": ""}]])
            told = json.loads(ask("first", json.dumps(tree))[1])
            self.assertEqual(refusal(tree), (told["code"], told["path"]), number)

    def by_hand(self, model: Model, solution: Solution) -> None:
        """The program's lists have the program's schedules and costs, and drivers can leave later."""
        plan = complete(model, solution.lists())
        self.assertEqual(plan, replace(solution, first_cost=solution.cost, solutions=1, tries=0, stop="first"))
        self.assertLessEqual(leave_later(model, solution).cost, solution.cost)
        self.assertEqual(shape_faults(model, solution.tree()), [])

    def rescued(self, model: Model) -> None:
        """What is found in place of nothing is a solution of the model, or leaves somebody out and says so."""
        try:
            found = rescue(model, tries=20_000)
        except NoFirstSolution:
            return
        self.assertIsNot(found.way, Way.AS_ASKED)
        self.assertEqual(found.solution is None, bool(found.left_out))
        if found.solution is not None:
            self.assertTrue(check(found.model, found.solution).meets)


class FormTests(unittest.TestCase):
    def test_faults_of_a_form_are_those_of_the_program(self) -> None:
        found, asked = 0, 0
        for number in range(MODELS):
            rng = random.Random(2000 + number)
            tree = random_tree(rng)
            status, line = ask("solve", json.dumps(tree))
            if status != 0:
                continue
            model = Model.of(tree)
            for _ in range(10):
                changed = mutated(rng, json.loads(line))
                told = json.loads(ask("check", json.dumps({"model": tree, "solution": changed}))[1])
                faults = shape_faults(model, changed)
                self.assertEqual(bool(faults), told.get("rule") == "shape", (number, faults, told))
                found, asked = found + bool(faults), asked + 1
        self.assertLess(asked // 4, found)


class ScriptTests(unittest.TestCase):
    """A script in OR-Tools' calls, made of a model of a file, says that model."""

    def test_scripts_say_the_same_model(self) -> None:
        for number in range(MODELS):
            tree = random_tree(random.Random(1000 + number))
            tree["vehicles"] = [{**vehicle, "costs": 0} for vehicle in tree["vehicles"]]
            text = json.dumps(tree)
            status, line = ask("solve", text)
            if status != 0:
                continue
            routing = self.script(tree)
            routing.schedule = ScheduleRule.EARLIEST
            model = replace(routing.to_model(), search=tree["search"])
            self.assertEqual(solve(model).text() + "\n", line, number)
            parameters = pywrapcp.DefaultRoutingSearchParameters()
            parameters.tries = tree["search"]["tries"]
            assignment = routing.SolveWithParameters(parameters)
            self.assertTrue(check(assignment.model, assignment.solution).meets)

    def script(self, tree: Dict[str, Any]) -> Any:
        """The model of a file, said call by call."""
        ends = [[vehicle[key] for vehicle in tree["vehicles"]] for key in ("start", "end")]
        manager = pywrapcp.RoutingIndexManager(tree["nodes"], len(tree["vehicles"]), *ends)
        routing = pywrapcp.RoutingModel(manager)

        def between(matrix: Any) -> int:
            return int(routing.RegisterTransitCallback(
                lambda tail, head: int(matrix[manager.IndexToNode(tail)][manager.IndexToNode(head)])
            ))

        routing.SetArcCostEvaluatorOfAllVehicles(between(tree["matrices"][0]))
        policies = {"any": 0, "lifo": 1, "fifo": 2}
        for vehicle, entry in enumerate(tree["vehicles"]):
            routing.SetFixedCostOfVehicle(entry["fixed"], vehicle)
            routing.SetPickupAndDeliveryPolicyOfVehicle(policies[entry["policy"]], vehicle)
        for dimension in tree["dimensions"]:
            self.dimension(manager, routing, dimension, tree["matrices"], between)
        for group in tree["groups"]:
            routing.AddDisjunction(
                manager.NodesToIndices(group["nodes"]), group.get("penalty", -1), group.get("max", 1)
            )
        for pair in tree.get("pairs", ()):
            routing.AddPickupAndDelivery(*manager.NodesToIndices(pair.values()))
        for row in tree.get("allowed", ()):
            routing.SetAllowedVehiclesForIndex(row["vehicles"], manager.NodeToIndex(row["node"]))
        return routing

    def dimension(self, manager: Any, routing: Any, tree: Dict[str, Any], matrices: Any, between: Any) -> None:
        """A dimension, said call by call."""
        numbers = []
        for entry in tree["evaluators"]:
            values = entry.get("values")
            if "matrix" not in entry:
                numbers.append(routing.RegisterUnaryTransitVector(values))
                continue
            rows = matrices[entry["matrix"]]
            numbers.append(between([
                [way + (values[tail] if values else 0) for way in row] for tail, row in enumerate(rows)
            ]))
        vehicles = range(routing.vehicles())
        each = [numbers[number] for number in tree.get("vehicle_evaluators", [0] * len(vehicles))]
        capacity = tree["capacity"]
        routing.AddDimensionWithVehicleTransitAndCapacity(
            each, tree["slack_max"], capacity if isinstance(capacity, list) else [capacity], tree["fix_start"],
            tree["name"],
        )
        made = routing.GetDimensionOrDie(tree["name"])
        self.rows(manager, routing, made, tree)
        made.SetGlobalSpanCostCoefficient(tree.get("global_span_cost", 0))
        costs = tree.get("span_cost", 0)
        for vehicle in vehicles:
            made.SetSpanCostCoefficientForVehicle(costs[vehicle] if isinstance(costs, list) else costs, vehicle)
        by_node = tree.get("visit", [0] * routing.nodes())
        visit = [by_node[manager.IndexToNode(index)] for index in range(routing.Size())]
        for row in tree.get("breaks", ()):
            pauses = [
                routing.solver().FixedDurationIntervalVar(entry["from"], entry["to"], entry["duration"], False, "pause")
                for entry in row["breaks"]
            ]
            made.SetBreakIntervalsOfVehicle(pauses, row["vehicle"], visit)

    def rows(self, manager: Any, routing: Any, made: Any, tree: Dict[str, Any]) -> None:
        """What stops ask, said call by call."""
        rows = [(manager.NodeToIndex(row["node"]), row) for row in tree.get("nodes", ())]
        rows += [(routing.Start(row["vehicle"]), row) for row in tree.get("starts", ())]
        rows += [(routing.End(row["vehicle"]), row) for row in tree.get("ends", ())]
        for index, row in rows:
            if "window" in row:
                made.CumulVar(index).SetRange(*row["window"])
            for interval in row.get("forbidden", ()):
                made.CumulVar(index).RemoveInterval(*interval)
            if "soft" in row:
                made.SetCumulVarSoftUpperBound(index, row["soft"]["bound"], row["soft"]["coefficient"])


if __name__ == "__main__":
    unittest.main()
