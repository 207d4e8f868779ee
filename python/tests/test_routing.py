"""OR-Tools' names of which a model is made: the numbering, callbacks, variables, constraints, dimensions, groups."""

from __future__ import annotations

import io
import unittest
from dataclasses import replace
from typing import Any, Callable, List, Tuple
from unittest import mock

from jambulskeg.complete import complete
from jambulskeg.errors import Unsupported
from jambulskeg.model import Policy, ScheduleRule, solve
from jambulskeg.routing import pywrapcp
from jambulskeg.routing.dimension import MatrixPool
from jambulskeg.routing.refused import HINTED

from .routing_support import MATRIX, RoutingTest, guided, made


class ManagerTests(RoutingTest):
    def test_the_numbering_is_that_of_or_tools(self) -> None:
        manager = pywrapcp.RoutingIndexManager(6, 3, [0, 2, 2], [5, 0, 5])
        self.assertEqual([manager.IndexToNode(index) for index in range(manager.GetNumberOfIndices())],
                         [0, 1, 2, 3, 4, 2, 5, 0, 5])
        self.assertEqual([manager.GetStartIndex(vehicle) for vehicle in range(3)], [0, 2, 5])
        self.assertEqual([manager.GetEndIndex(vehicle) for vehicle in range(3)], [6, 7, 8])
        self.assertEqual([manager.NodeToIndex(node) for node in range(6)], [0, 1, 2, 3, 4, -1])
        self.assertEqual((manager.GetNumberOfNodes(), manager.GetNumberOfVehicles()), (6, 3))
        self.assertEqual((manager.NodesToIndices([1, 2]), manager.IndicesToNodes([5, 6])), ([1, 2], [2, 5]))
        self.assertEqual((manager.tails(), manager.heads()), ([0, 1, 2, 3, 4, 5], [1, 3, 4, 6, 7, 8]))
        self.assertEqual([manager.is_visit(index) for index in (0, 1, 2, 6)], [False, True, False, False])
        self.assertEqual((manager.starts(), manager.ends()), ([0, 2, 2], [5, 0, 5]))
        routing = pywrapcp.RoutingModel(manager)
        self.assertEqual((routing.Size(), routing.nodes(), routing.vehicles()), (6, 6, 3))
        self.assertEqual([routing.IsStart(index) for index in (0, 1, 2, 5, 6)], [True, False, True, True, False])
        self.assertEqual([routing.IsEnd(index) for index in (0, 5, 6, 8)], [False, False, True, True])
        self.assertEqual((routing.Start(2), routing.End(0)), (5, 6))

    def test_refused(self) -> None:
        self.refused(14, lambda: pywrapcp.RoutingIndexManager(3, 1, 3))
        self.refused(15, lambda: pywrapcp.RoutingIndexManager(3, 2, [0], [0]))
        self.refused(15, lambda: pywrapcp.RoutingIndexManager(3, 2, [0, 0], [0]))
        manager = pywrapcp.RoutingIndexManager(3, 1, 0)
        for call in (manager.IndexToNode, manager.NodeToIndex):
            self.assertRaises(IndexError, lambda: call(9))
            self.assertRaises(IndexError, lambda: call(-1))
        self.unsupported("RoutingIndexManager.num_unique_depots", lambda: manager.num_unique_depots)

    def test_a_vehicle_that_is_not_there(self) -> None:
        manager, routing, number = made()
        routing.AddDimension(number, 0, 100, True, "way")
        way = routing.GetDimensionOrDie("way")
        calls: List[Callable[[int], Any]] = [
            manager.known_vehicle, manager.GetStartIndex, manager.GetEndIndex, routing.Start, routing.End,
            routing.GetFixedCostOfVehicle, lambda vehicle: routing.SetFixedCostOfVehicle(1, vehicle),
            lambda vehicle: routing.SetArcCostEvaluatorOfVehicle(number, vehicle),
            lambda vehicle: routing.GetArcCostForVehicle(0, 1, vehicle),
            lambda vehicle: routing.SetPickupAndDeliveryPolicyOfVehicle(1, vehicle),
            lambda vehicle: way.SetSpanCostCoefficientForVehicle(1, vehicle),
            lambda vehicle: way.SetBreakIntervalsOfVehicle([], vehicle, [0] * routing.Size()),
        ]
        for call in calls:
            for vehicle in (-1, 2):
                self.assertRaisesRegex(IndexError, f"there is no vehicle {vehicle}", call, vehicle)


class CallbackTests(RoutingTest):
    def test_a_callback_is_asked_once_for_each_arc(self) -> None:
        manager = pywrapcp.RoutingIndexManager(4, 2, 0)
        routing = pywrapcp.RoutingModel(manager)
        asked: List[Tuple[int, int]] = []

        def one(tail: int, head: int) -> int:
            asked.append((tail, head))
            return 1

        number = routing.RegisterTransitCallback(one)
        routing.SetArcCostEvaluatorOfAllVehicles(number)
        routing.AddDimension(number, 0, 10, True, "d")
        model = routing.to_model()
        self.assertEqual(routing.to_model(), model)
        self.assertEqual(len(asked), len(set(asked)))
        self.assertEqual(len(asked), 3 * 2 + 2 * 3 + 3 * 2)
        self.assertEqual(model.matrices, (((0, 1, 1, 1), (1, 0, 1, 1), (1, 1, 0, 1), (1, 1, 1, 0)),))

    def test_no_arc_leads_from_a_start_to_an_end(self) -> None:
        manager = pywrapcp.RoutingIndexManager(4, 2, [0, 1], [3, 3])
        routing = pywrapcp.RoutingModel(manager)
        callback = mock.Mock(return_value=1)
        routing.SetArcCostEvaluatorOfAllVehicles(routing.RegisterTransitCallback(callback))
        routing.CloseModel()
        asked = [call.args for call in callback.call_args_list]
        self.assertEqual([pair for pair in asked if routing.IsStart(pair[0]) and routing.IsEnd(pair[1])], [])
        self.assertEqual(len(asked), 2 + 2)

    def test_equal_matrices_are_shared(self) -> None:
        _, routing, number = made()
        twin = routing.RegisterTransitMatrix(MATRIX)
        other = routing.RegisterTransitMatrix([[9] * 4] * 4)
        routing.SetArcCostEvaluatorOfVehicle(twin, 1)
        routing.AddDimensionWithVehicleTransits([number, other], 0, 100, True, "d")
        model = routing.to_model()
        self.assertEqual(len(model.matrices), 2)
        self.assertEqual([vehicle.costs for vehicle in model.vehicles], [0, 0])
        self.assertEqual([entry.matrix for entry in model.dimensions[0].evaluators], [0, 1])
        self.assertEqual(model.dimensions[0].vehicle_evaluators, (0, 1))
        self.assertEqual(model.matrices[1][0], (0, 9, 9, 9))

    def test_unary_callbacks_are_values(self) -> None:
        manager, routing, _ = made()
        unary = routing.RegisterUnaryTransitCallback(lambda index: 10 * manager.IndexToNode(index))
        vector = routing.RegisterUnaryTransitVector([0, 1, 2, 3])
        routing.AddDimension(unary, 0, 100, True, "tens")
        routing.AddDimension(vector, 0, 100, True, "ones")
        routing.SetArcCostEvaluatorOfVehicle(vector, 1)
        model = routing.to_model()
        self.assertEqual([dimension.evaluators[0].values for dimension in model.dimensions],
                         [(0, 10, 20, 30), (0, 1, 2, 3)])
        self.assertEqual(model.matrices[1], ((0, 0, 0, 0), (1, 0, 1, 1), (2, 2, 0, 2), (3, 3, 3, 0)))
        self.assertEqual(routing.GetArcCostForVehicle(2, 1, 1), 2)

    def test_refused(self) -> None:
        manager, routing, _ = made()
        half = routing.RegisterTransitCallback(lambda tail, head: 0.5)
        routing.SetArcCostEvaluatorOfAllVehicles(half)
        self.unsupported("RegisterTransitCallback", routing.CloseModel)
        index = routing.RegisterTransitCallback(lambda tail, head: tail)
        routing.SetArcCostEvaluatorOfAllVehicles(index)
        with self.assertRaisesRegex(Unsupported, "depends on more than its two nodes"):
            routing.CloseModel()
        unary = routing.RegisterUnaryTransitCallback(lambda index: index)
        routing.SetArcCostEvaluatorOfAllVehicles(unary)
        self.unsupported("RegisterUnaryTransitCallback", routing.CloseModel)
        self.unsupported("RegisterTransitMatrix", lambda: routing.RegisterTransitMatrix([[1]]))
        self.unsupported("RegisterTransitMatrix", lambda: routing.RegisterTransitMatrix([[1.5] * 4] * 4))
        self.unsupported("RegisterUnaryTransitVector", lambda: routing.RegisterUnaryTransitVector([1]))
        self.unsupported("SetArcCostEvaluator", lambda: routing.SetArcCostEvaluatorOfAllVehicles(99))
        broken = routing.RegisterTransitCallback(lambda tail, head: [][tail])
        routing.SetArcCostEvaluatorOfAllVehicles(broken)
        self.assertRaises(IndexError, routing.CloseModel)

    def test_costs(self) -> None:
        _, routing, number = made()
        routing.SetFixedCostOfAllVehicles(7)
        routing.SetFixedCostOfVehicle(9, 1)
        routing.AddDimension(number, 5, 100, True, "time")
        routing.GetDimensionOrDie("time").SetSpanCostCoefficientForVehicle(2, 1)
        self.assertEqual([routing.GetFixedCostOfVehicle(vehicle) for vehicle in (0, 1)], [7, 9])
        self.assertEqual([vehicle.fixed for vehicle in routing.to_model().vehicles], [7, 9])
        start, end = routing.Start(1), routing.End(1)
        self.assertEqual([routing.GetArcCostForVehicle(*arc, 1) for arc in ((start, 1), (1, 2), (1, end), (start, end),
                                                                            (1, 1))], [24, 12, 15, 0, 0])
        self.assertEqual(routing.GetArcCostForVehicle(1, 2, 0), 4)


class DimensionTests(RoutingTest):
    def test_what_a_dimension_says(self) -> None:
        manager, routing, number = made()
        self.assertTrue(routing.AddDimensionWithVehicleTransitAndCapacity([number] * 2, 4, [50, 60], False, "time"))
        self.assertFalse(routing.AddDimension(number, 4, 50, False, "time"))
        self.assertTrue(routing.HasDimension("time"))
        time = routing.GetMutableDimension("time")
        self.assertEqual(time.name(), "time")
        visit = time.CumulVar(1)
        visit.SetRange(3, 40)
        visit.SetMin(5)
        visit.SetMax(2**62)
        visit.RemoveInterval(-5, 7)
        visit.RemoveInterval(9, 8)
        visit.RemoveValue(20)
        time.CumulVar(2).SetValue(30)
        time.CumulVar(routing.Start(1)).SetMin(1)
        time.CumulVar(routing.End(0)).SetMax(45)
        time.SetCumulVarSoftUpperBound(1, 10, 3)
        self.assertEqual([time.HasCumulVarSoftUpperBound(index) for index in (1, 2)], [True, False])
        time.SetSpanCostCoefficientForAllVehicles(2)
        time.SetGlobalSpanCostCoefficient(3)
        pause = routing.solver().FixedDurationIntervalVar(5, 15, 2, False, "pause")
        self.assertEqual(pause.Name(), "pause")
        time.SetBreakIntervalsOfVehicle([pause], 1, [0, 1, 2, 3, 0])
        self.assertEqual(routing.to_model().dimensions[0].tree(), {
            "name": "time", "evaluators": [{"matrix": 0}], "slack_max": 4, "capacity": [50, 60],
            "visit": [0, 1, 2, 3],
            "nodes": [{"node": 1, "window": [5, 40], "forbidden": [[0, 7], [20, 20]],
                       "soft": {"bound": 10, "coefficient": 3}}, {"node": 2, "window": [30, 30]}],
            "starts": [{"vehicle": 1, "window": [1, 2**36]}], "ends": [{"vehicle": 0, "window": [0, 45]}],
            "breaks": [{"vehicle": 1, "breaks": [{"from": 5, "to": 15, "duration": 2}]}],
            "span_cost": 2, "global_span_cost": 3,
        })

    def test_a_capacity_for_each_vehicle(self) -> None:
        _, routing, number = made()
        self.assertTrue(routing.AddDimensionWithVehicleCapacity(number, 0, [7, 9], True, "way"))
        record = routing.GetDimensionOrDie("way").to_record(routing._said.transits, MatrixPool())
        self.assertEqual((record.capacity, record.fix_start, record.slack_max), ((7, 9), True, 0))

    def test_dimensions_of_values(self) -> None:
        _, routing, _ = made()
        self.assertEqual(routing.AddConstantDimension(1, 3, True, "stops"), (1, True))
        self.assertEqual(routing.AddConstantDimension(1, 3, True, "stops"), (2, False))
        self.assertEqual(routing.AddConstantDimensionWithSlack(2, 9, 4, False, "twos"), (3, True))
        self.assertEqual(routing.AddVectorDimension([0, 1, 2, 3], 9, True, "load"), (4, True))
        self.assertEqual(routing.AddMatrixDimension(MATRIX, 99, True, "way"), (5, True))
        stops, twos, load, way = routing.to_model().dimensions
        self.assertEqual((stops.evaluators[0].values, stops.capacity, twos.slack_max), ((1,) * 4, 3, 4))
        self.assertEqual((load.evaluators[0].values, way.evaluators[0].matrix), ((0, 1, 2, 3), 0))
        self.assertTrue(all(len(visits) <= 2 for visits in routing.Solve().solution.lists()))

    def test_a_span_bound_where_starts_are_fixed(self) -> None:
        _, routing, number = made()
        routing.AddDimension(number, 0, 100, True, "fixed")
        routing.AddDimension(number, 0, 100, False, "free")
        routing.GetDimensionOrDie("fixed").SetSpanUpperBoundForVehicle(30, 1)
        self.assertEqual(routing.to_model().dimensions[0].tree()["ends"], [{"vehicle": 1, "window": [0, 30]}])
        self.unsupported("SetSpanUpperBoundForVehicle",
                         lambda: routing.GetDimensionOrDie("free").SetSpanUpperBoundForVehicle(30, 1))

    def test_refused(self) -> None:
        manager, routing, number = made()
        self.unsupported("AddDimensionWithVehicleTransits",
                         lambda: routing.AddDimensionWithVehicleTransits([number] * 3, 0, 9, True, "x"))
        self.unsupported("AddDimension", lambda: routing.AddDimension(number, -1, 9, True, "x"))
        self.unsupported("AddDimension", lambda: routing.AddDimension(number, 0, 9.5, True, "x"))
        routing.AddDimension(number, 9, 90, True, "time")
        time = routing.GetDimensionOrDie("time")
        self.assertRaises(KeyError, lambda: routing.GetDimensionOrDie("none"))
        self.assertRaises(IndexError, lambda: time.CumulVar(77))
        self.assertRaises(IndexError, lambda: time.SlackVar(77))
        self.refused(19, lambda: time.CumulVar(1).SetRange(5, 4))
        self.refused(19, lambda: time.CumulVar(1).SetMax(-1))
        self.refused(14, lambda: time.SetCumulVarSoftUpperBound(1, 5, 10001))
        self.unsupported("SlackVar", lambda: time.SlackVar(1) + 1)
        self.unsupported("SlackVar(1).SetValue(3)", lambda: time.SlackVar(1).SetMax(3))
        self.unsupported("SlackVar(1).SetRange(1, 3)", lambda: time.SlackVar(1).SetRange(1, 3))
        self.unsupported("SlackVar.SetMin", lambda: time.SlackVar(1).SetMin(3))
        self.unsupported("SetCumulVarSoftLowerBound", lambda: time.SetCumulVarSoftLowerBound(1, 2, 3))
        pause = routing.solver().FixedDurationIntervalVar(5, 15, 2, False, "pause")
        times = [0] * routing.Size()
        self.unsupported("SetBreakIntervalsOfVehicle", lambda: time.SetBreakIntervalsOfVehicle([pause], 0, times, 1))
        self.unsupported("SetBreakIntervalsOfVehicle", lambda: time.SetBreakIntervalsOfVehicle([pause], 0, 3))
        self.unsupported("SetBreakIntervalsOfVehicle", lambda: time.SetBreakIntervalsOfVehicle([5], 0, times))
        self.unsupported("SetBreakIntervalsOfVehicle",
                         lambda: time.SetBreakIntervalsOfVehicle([pause], 0, [1, 0, 0, 0, 2]))
        time.SetBreakIntervalsOfVehicle([pause], 0, times)
        self.unsupported("SetBreakIntervalsOfVehicle",
                         lambda: time.SetBreakIntervalsOfVehicle([pause], 1, [1] * routing.Size()))
        backwards = routing.solver().FixedDurationIntervalVar(15, 5, 2, False, "pause")
        time.SetBreakIntervalsOfVehicle([backwards], 0, times)
        self.refused(19, routing.CloseModel)


class ConstraintTests(RoutingTest):
    def test_what_a_pair_says(self) -> None:
        _, routing, number = made()
        routing.AddDimension(number, 0, 100, True, "way")
        way, solver = routing.GetDimensionOrDie("way"), routing.solver()
        solver.Add(routing.VehicleVar(1) == routing.VehicleVar(2))
        self.unsupported("VehicleVar(1) == VehicleVar(2)", routing.CloseModel)
        routing.AddPickupAndDelivery(1, 2)
        solver.Add(routing.VehicleVar(2) == routing.VehicleVar(1))
        solver.Add(routing.ActiveVar(1) == routing.ActiveVar(2))
        solver.Add(way.CumulVar(1) <= way.CumulVar(2))
        solver.Add(way.CumulVar(2) >= way.CumulVar(1))
        routing.CloseModelWithParameters(guided())
        self.assertEqual([pair.tree() for pair in routing.to_model().pairs], [{"pickup": 1, "delivery": 2}])
        solver.Add(way.CumulVar(2) <= way.CumulVar(1))
        self.unsupported("CumulVar(2) <= CumulVar(1)", routing.CloseModel)

    def test_an_order_needs_transits_of_one_sign(self) -> None:
        _, routing, _ = made()
        routing.AddPickupAndDelivery(1, 2)
        routing.AddDimension(routing.RegisterUnaryTransitVector([0, 1, -1, 0]), 0, 9, True, "load")
        load = routing.GetDimensionOrDie("load")
        routing.solver().Add(load.CumulVar(1) <= load.CumulVar(2))
        self.unsupported("CumulVar(1) <= CumulVar(2)", routing.CloseModel)

    def test_a_variable_beside_a_number(self) -> None:
        _, routing, number = made()
        routing.AddDimension(number, 9, 100, False, "way")
        way, solver = routing.GetDimensionOrDie("way"), routing.solver()
        solver.Add(way.CumulVar(1) <= 30)
        solver.Add(way.CumulVar(1) >= 10)
        solver.Add(way.CumulVar(1) != 20)
        solver.Add(way.CumulVar(2) == 15)
        solver.Add(routing.VehicleVar(3) == 1)
        solver.Add(routing.VehicleVar(2) != 1)
        model = routing.to_model()
        self.assertEqual([row.tree() for row in model.dimensions[0].nodes], [
            {"node": 1, "window": [10, 30], "forbidden": [[20, 20]]}, {"node": 2, "window": [15, 15]}])
        self.assertEqual([row.tree() for row in model.allowed], [
            {"node": 2, "vehicles": [0]}, {"node": 3, "vehicles": [1]}])

    def test_refused(self) -> None:
        _, routing, number = made()
        routing.AddDimension(number, 9, 100, False, "way")
        routing.AddDimension(number, 9, 100, False, "other")
        way, other, solver = routing.GetDimensionOrDie("way"), routing.GetDimensionOrDie("other"), routing.solver()
        one, two = way.CumulVar(1), way.CumulVar(2)
        for relation in (one < two, one > two, one != two, one == two, one <= other.CumulVar(2), one < 5, one > 5,
                         routing.NextVar(1) == 2, routing.NextVar(1) == routing.NextVar(2), routing.ActiveVar(1) <= 0,
                         routing.VehicleVar(1) <= 1, routing.NextVar(1).Member([2, 3])):
            self.unsupported("Solver.Add", lambda: solver.Add(relation))
        self.unsupported("ActiveVar(1).SetValue(0)", lambda: solver.Add(routing.ActiveVar(1) == 0))
        for name in ("SetValue", "SetValues", "RemoveValue"):
            self.unsupported(f"NextVar.{name}", lambda: getattr(routing.NextVar(1), name))
        self.unsupported("Solver.Add", lambda: solver.Add(True))
        self.unsupported("Solver.Add", lambda: solver.Add(one <= 2.5))
        for call in (lambda: one + two, lambda: 1 + one, lambda: one - two, lambda: 1 - one, lambda: one * 2,
                     lambda: 2 * one):
            self.unsupported("CumulVar(1)", call)
        self.unsupported("Solver.Sum", lambda: solver.Sum([one, two]))
        self.unsupported("FixedDurationIntervalVar", lambda: solver.FixedDurationIntervalVar(5, 15, 2, True, "maybe"))
        self.unsupported("FixedDurationIntervalVar", lambda: solver.FixedDurationIntervalVar(one, 5, "moving"))
        self.unsupported("FixedDurationIntervalVar", lambda: solver.FixedDurationIntervalVar(1, 5, "short"))
        self.assertEqual(one.Name(), "CumulVar(1)")
        self.assertIn(one, {one: 1})
        self.assertGreaterEqual(solver.WallTime(), 0)


class VisitTests(RoutingTest):
    def test_groups(self) -> None:
        _, routing, _ = made()
        self.assertEqual(routing.AddDisjunction([1], 50), 0)
        self.assertEqual(routing.AddDisjunction([2, 3], 20, 2), 1)
        self.assertEqual([group.tree() for group in routing.to_model().groups], [
            {"nodes": [1], "penalty": 50}, {"nodes": [2, 3], "penalty": 20, "max": 2}])
        _, required, _ = made()
        required.AddDisjunction([1, 2])
        self.assertEqual([group.tree() for group in required.to_model().groups], [{"nodes": [1, 2]}])
        self.unsupported("PENALIZE_ONCE", lambda: routing.AddDisjunction([1, 2], 9, 2, routing.PENALIZE_ONCE))
        routing.AddDisjunction([1], 9, 1, routing.PENALIZE_PER_INACTIVE)
        self.refused(16, lambda: solve(routing.to_model()))
        self.refused(18, lambda: routing.AddDisjunction([0], 9))
        self.unsupported("AddDisjunction", lambda: routing.AddDisjunction([1], 0.5))

    def test_policies(self) -> None:
        _, routing, _ = made()
        routing.SetPickupAndDeliveryPolicyOfAllVehicles(pywrapcp.RoutingModel.PICKUP_AND_DELIVERY_LIFO)
        routing.SetPickupAndDeliveryPolicyOfVehicle(routing.PICKUP_AND_DELIVERY_FIFO, 1)
        self.assertEqual([entry.policy for entry in routing.to_model().vehicles], [Policy.LIFO, Policy.FIFO])
        self.unsupported("policy 7", lambda: routing.SetPickupAndDeliveryPolicyOfAllVehicles(7))
        self.refused(18, lambda: routing.AddPickupAndDelivery(0, 1))

    def test_vehicles_of_a_visit(self) -> None:
        _, routing, _ = made(4, matrix=[*([*row, 1] for row in MATRIX), [1, 1, 1, 1, 0]])
        routing.SetAllowedVehiclesForIndex([0, 1, 2], 1)
        routing.SetAllowedVehiclesForIndex([3], 2)
        routing.SetAllowedVehiclesForIndex([], 2)
        routing.SetAllowedVehiclesForIndex([3], 1)
        routing.SetAllowedVehiclesForIndex([-1, 0, 1, 2], 1)
        routing.VehicleVar(1).RemoveValue(2)
        routing.VehicleVar(2).SetValues([-1, 3, 1])
        routing.VehicleVar(3).SetRange(1, 2)
        routing.VehicleVar(3).RemoveValues([1])
        self.assertEqual([row.tree() for row in routing.to_model().allowed], [
            {"node": 1, "vehicles": [0, 1]}, {"node": 2, "vehicles": [1, 3]}, {"node": 3, "vehicles": [2]}])
        routing.AddDisjunction([2], 9)
        routing.CloseModel()
        routing.AddDisjunction([3], 9)
        self.assertEqual([group.nodes for group in routing.to_model().groups], [(2,)])
        routing.AddDisjunction([1, 4], 9)
        routing.CloseModel()
        routing.ActiveVar(4).SetMin(1)
        self.unsupported("for node 4", routing.CloseModel)
        self.refused(15, lambda: routing.VehicleVar(3).SetValue(0))
        _, other, _ = made()
        other.VehicleVar(1).RemoveValue(0)
        other.SetAllowedVehiclesForIndex([0], 1)
        self.refused(15, other.CloseModel)
        self.refused(18, lambda: routing.SetAllowedVehiclesForIndex([0], 0))
        self.refused(14, lambda: routing.SetAllowedVehiclesForIndex([4], 1))
        self.unsupported("VehicleVar(0)", lambda: routing.VehicleVar(0).RemoveValue(0))
        self.unsupported("SetValues", lambda: routing.VehicleVar(1).SetValues([0.5]))
        for call in (routing.NextVar, routing.VehicleVar, routing.ActiveVar):
            self.assertRaises(IndexError, lambda: call(99))

    def test_the_finalizer(self) -> None:
        _, routing, number = made()
        routing.AddDimension(number, 9, 100, False, "way")
        way = routing.GetDimensionOrDie("way")
        routing.AddVariableMinimizedByFinalizer(way.CumulVar(routing.End(0)))
        routing.AddToAssignment(way.SlackVar(1))
        self.unsupported("MinimizedByFinalizer", lambda: routing.AddVariableMinimizedByFinalizer(7))
        self.unsupported("AddToAssignment", lambda: routing.AddToAssignment(7))
        self.unsupported("MaximizedByFinalizer", lambda: routing.AddVariableMaximizedByFinalizer(way.CumulVar(1)))
        self.assertEqual(routing.to_model().format, 1)
        routing.AddVariableMaximizedByFinalizer(way.CumulVar(routing.Start(0)))
        self.assertEqual({vehicle.schedule for vehicle in routing.to_model().vehicles}, {ScheduleRule.TIGHT})

    def test_hints_are_told_once(self) -> None:
        _, routing, number = made()
        routing.AddDimension(number, 9, 100, False, "way")
        parameters = pywrapcp.DefaultRoutingSearchParameters()
        HINTED.clear()
        with mock.patch("sys.stderr", new_callable=io.StringIO) as said:
            for _ in range(2):
                routing.SetPrimaryConstrainedDimension("way")
                routing.AddVariableMinimizedByFinalizer(routing.GetDimensionOrDie("way").SlackVar(1))
                parameters.use_full_propagation = True
        told = said.getvalue().splitlines()
        self.assertEqual([line.split(" changes nothing: ")[0] for line in told], [
            "jambulskeg: RoutingModel.SetPrimaryConstrainedDimension",
            "jambulskeg: RoutingModel.AddVariableMinimizedByFinalizer",
            "jambulskeg: RoutingSearchParameters.use_full_propagation",
        ])
        self.assertRaises(KeyError, lambda: routing.SetPrimaryConstrainedDimension("none"))

    def test_disjunctions_are_told(self) -> None:
        _, routing, _ = made()
        number = routing.AddDisjunction([1, 3], 7, 2)
        self.assertEqual(routing.GetNumberOfDisjunctions(), 1)
        self.assertEqual((routing.GetDisjunctionPenalty(number), routing.GetDisjunctionMaxCardinality(number)), (7, 2))
        self.assertEqual(routing.GetDisjunctionNodeIndices(number), [1, 3])
        self.assertRaises(IndexError, lambda: routing.GetDisjunctionPenalty(1))
        self.assertEqual([routing.VehicleIndex(index) for index in (0, 1, 4, 5, 6)], [0, -1, 1, 0, 1])

    def test_a_misspelt_attribute(self) -> None:
        _, routing, number = made()
        routing.AddDimension(number, 9, 100, False, "way")
        way = routing.GetDimensionOrDie("way")
        self.unsupported("RoutingModel.schedul", lambda: setattr(routing, "schedul", 1))
        self.unsupported("RoutingDimension.slack", lambda: setattr(way, "slack", 1))
        self.unsupported("CumulVar.low", lambda: setattr(way.CumulVar(1), "low", 1))


class SameVehicleTests(RoutingTest):
    def test_by_the_vehicles_that_are_allowed(self) -> None:
        _, routing, _ = made()
        solver = routing.solver()
        solver.Add(routing.VehicleVar(1) == routing.VehicleVar(2))
        self.unsupported("VehicleVar(1) == VehicleVar(2)", routing.CloseModel)
        solver.Add(solver.MemberCt(routing.VehicleVar(1), [1]))
        solver.Add(routing.VehicleVar(2).Member([1]))
        solver.Add(routing.VehicleVar(3) != routing.VehicleVar(1))
        self.unsupported("VehicleVar(3) != VehicleVar(1)", routing.CloseModel)
        routing.SetAllowedVehiclesForIndex([0], 3)
        self.assertEqual([row.vehicles for row in routing.to_model().allowed], [(1,), (1,), (0,)])

    def test_visits_that_may_be_left_out(self) -> None:
        _, routing, _ = made()
        for index in (1, 2):
            routing.AddDisjunction([index], 5)
        routing.SetAllowedVehiclesForIndex([0], 1)
        routing.SetAllowedVehiclesForIndex([1], 2)
        routing.solver().Add(routing.VehicleVar(1) != routing.VehicleVar(2))
        self.unsupported("VehicleVar(1) != VehicleVar(2)", routing.CloseModel)
        routing.solver().Add(routing.ActiveVar(2) == 1)
        self.assertEqual([group.nodes for group in routing.to_model().groups], [(1,)])


class SlackTests(RoutingTest):
    def test_stops_that_ask_for_no_slack(self) -> None:
        _, routing, _ = made(1)
        demands = routing.RegisterUnaryTransitVector([0, 4, -6, 3])
        routing.AddDimension(demands, 6, 6, True, "load")
        load = routing.GetDimensionOrDie("load")
        self.assertFalse(load.pays_for_waiting())
        for index in (1, 3):
            load.SlackVar(index).SetValue(0)
        routing.solver().Add(load.SlackVar(1) == 0)
        routing.AddDisjunction([2], 0)
        found = routing.Solve()
        self.assertEqual([found.Value(load.SlackVar(index)) for index in (1, 3)], [0, 0])
        self.assertEqual(found.Value(routing.ActiveVar(2)), 1)

    def test_stops_that_may_ask_for_it(self) -> None:
        def closing(index: int, fixed: bool, *calls: Callable[[Any], Any]) -> Callable[[], Any]:
            _, routing, _ = made(1)
            number = routing.RegisterUnaryTransitVector([0, 4, -6, 3])
            routing.AddDimension(number, 6, 20, fixed, "load")
            load = routing.GetDimensionOrDie("load")
            load.SlackVar(index).SetMax(0)
            for call in calls:
                call(load)
            return lambda: load.check_slacks(routing._said.transits)

        closing(1, True)()
        for refused in (
            closing(2, True), closing(1, False), closing(1, True, lambda load: load.CumulVar(3).SetMin(2)),
            closing(1, True, lambda load: load.SetGlobalSpanCostCoefficient(1)),
        ):
            self.unsupported("SlackVar(", refused)


class ArrayTests(RoutingTest):
    def test_arrays_are_taken_as_lists(self) -> None:
        manager = pywrapcp.RoutingIndexManager(3, 2, array([0, 1]), array([0, 1]))
        routing = pywrapcp.RoutingModel(manager)
        number = routing.RegisterTransitMatrix(array([array([0, 2, 3]), array([2, 0, 4]), array([3, 4, 0])]))
        routing.SetArcCostEvaluatorOfAllVehicles(number)
        routing.AddVectorDimension(array([0, 1, 1]), 9, True, "load")
        model = routing.to_model()
        self.assertEqual(model.matrices[0], ((0, 2, 3), (2, 0, 4), (3, 4, 0)))
        matrices = array([array([array(row) for row in matrix]) for matrix in model.matrices])
        self.assertEqual(replace(model, matrices=matrices), model)
        self.assertEqual(complete(model, array([array([2]), array([])])).cost, 6)


def array(values: Any) -> Any:
    """An array of another library, which no type of Python's own says."""
    return Array(values)


class Array:
    """What a list looks like in another library: it has a length, entries and `tolist`, and is no sequence."""

    def __init__(self, values: Any) -> None:
        self._values = list(values)

    def __len__(self) -> int:
        return len(self._values)

    def __getitem__(self, place: Any) -> Any:
        return self._values[place]

    def __bool__(self) -> bool:
        raise ValueError("the truth value of an array is ambiguous")

    def tolist(self) -> Any:
        return [value.tolist() if isinstance(value, Array) else value for value in self._values]


if __name__ == "__main__":
    unittest.main()
