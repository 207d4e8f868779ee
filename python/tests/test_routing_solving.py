"""OR-Tools' names of which searches are asked, and what is read of their answers; what is refused by name."""

from __future__ import annotations

import io
import os
import re
import unittest
from typing import Any, Callable, List
from unittest import mock

from jambulskeg.errors import NoFirstSolution, NotMet
from jambulskeg.model import First, Improve, Model, ScheduleRule, check
from jambulskeg.rescue import Way
from jambulskeg.routing import pywrapcp, routing_enums_pb2
from jambulskeg.routing.refused import WHY, UnknownName, refuse

from .routing_support import RoutingTest, guided, made
from .support import Fake


class ParameterTests(RoutingTest):
    def test_parameters(self) -> None:
        parameters = pywrapcp.DefaultRoutingSearchParameters()
        self.assertEqual(parameters.search().tree(), {"tries": 10**9})
        strategies = routing_enums_pb2.FirstSolutionStrategy
        parameters.first_solution_strategy = strategies.SAVINGS
        parameters.local_search_metaheuristic = 2
        parameters.solution_limit = 5
        parameters.guided_local_search_lambda_coefficient = 0.25
        parameters.log_search = 1
        search = parameters.search()
        self.assertEqual((search.first, search.improve, search.tries, search.solutions, search.lambda_),
                         (First.SAVINGS, Improve.GUIDED_LOCAL_SEARCH, 10**6, 5, (1, 4)))
        self.assertIs(parameters.log_search, True)
        parameters.local_search_metaheuristic = routing_enums_pb2.LocalSearchMetaheuristic.TABU_SEARCH
        self.assertEqual(parameters.search().tree()["improve"], "TABU_SEARCH")
        self.assertEqual(parameters.search().tries, 10**6)
        parameters.time_limit.seconds = 3
        parameters.time_limit.nanos = 500000000
        self.assertEqual(parameters.time_limit.total(), 3.5)
        parameters.time_limit.FromMilliseconds(1250)
        self.assertEqual(parameters.time_limit.total(), 1.25)
        other = pywrapcp.DefaultRoutingSearchParameters()
        other.CopyFrom(parameters)
        self.assertEqual((other.time_limit.total(), other.local_search_metaheuristic.name), (1.25, "TABU_SEARCH"))
        parameters.lns_time_limit.seconds = 2
        parameters.time_limit.FromSeconds(0)
        self.assertIsNone(parameters.time_limit.total())
        self.assertEqual((strategies.Value("SAVINGS"), strategies.Name(10)), (10, "SAVINGS"))
        self.assertIn("AUTOMATIC", strategies.keys())
        self.assertEqual(routing_enums_pb2.RoutingSearchStatus.ROUTING_SUCCESS, 1)

    def test_refused(self) -> None:
        parameters = pywrapcp.DefaultRoutingSearchParameters()

        def setting(name: str, value: Any) -> Callable[[], None]:
            return lambda: setattr(parameters, name, value)

        strategies, heuristics = routing_enums_pb2.FirstSolutionStrategy, routing_enums_pb2.LocalSearchMetaheuristic
        self.unsupported("CHRISTOFIDES", setting("first_solution_strategy", strategies.CHRISTOFIDES))
        self.unsupported("first_solution_strategy", setting("first_solution_strategy", 99))
        self.unsupported("SIMULATED_ANNEALING", setting("local_search_metaheuristic", heuristics.SIMULATED_ANNEALING))
        self.unsupported("GENERIC_TABU", setting("local_search_metaheuristic", heuristics.GENERIC_TABU_SEARCH))
        self.unsupported("lns_time_limit", setting("lns_time_limit", 1))
        self.unsupported("local_search_operators", lambda: parameters.local_search_operators)
        self.unsupported("time_limit", setting("time_limit", 3))
        for limit in (1.5, 0, -1):
            self.unsupported("solution_limit", setting("solution_limit", limit))
        self.unsupported("tries", setting("tries", -1))
        self.unsupported("lambda", setting("guided_local_search_lambda_coefficient", 0.1234567))
        self.unsupported("lambda", setting("guided_local_search_lambda_coefficient", 0))
        self.unsupported("Duration", lambda: setattr(parameters.time_limit, "minutes", 3))
        self.unsupported("Duration", lambda: setattr(parameters.time_limit, "seconds", 0.5))
        self.unsupported("Duration.seconds = -1", lambda: parameters.time_limit.FromSeconds(-1))
        parameters.tries = 10
        parameters.time_limit.seconds = 1
        self.unsupported("tries", parameters.search)


class SolvingTests(RoutingTest):
    def test_the_rule_of_schedules(self) -> None:
        manager, routing, number = made(1)
        routing.AddDimension(number, 100, 200, False, "time")
        time = routing.GetDimensionOrDie("time")
        time.SetSpanCostCoefficientForAllVehicles(1)
        time.CumulVar(manager.NodeToIndex(2)).SetRange(50, 60)
        start, end = (time.CumulVar(index) for index in (routing.Start(0), routing.End(0)))
        late = routing.Solve()
        routing.schedule = ScheduleRule.EARLIEST
        early = routing.Solve()
        routing.schedule = ScheduleRule.TIGHT
        self.assertEqual((early.model.format, late.model.format), (1, 2))
        self.assertEqual([vehicle.schedule for vehicle in late.model.vehicles], [ScheduleRule.TIGHT])
        for found in (early, late):
            self.assertEqual(check(found.model, found.solution).cost, found.ObjectiveValue())
        self.assertEqual(late.Value(end) - late.Value(start), late.solution.parts.arcs)
        self.assertLess(late.ObjectiveValue(), early.ObjectiveValue())
        self.assertEqual((late.Min(start), late.Max(start)), (late.Value(start),) * 2)
        again = routing.ReadAssignmentFromRoutes([manager.NodesToIndices(late.solution.lists()[0])], True)
        self.assertEqual(again.ObjectiveValue(), late.ObjectiveValue())

    def test_what_is_read_of_a_solution(self) -> None:
        manager, routing, number = made()
        routing.AddDimension(number, 9, 100, False, "way")
        way = routing.GetDimensionOrDie("way")
        way.CumulVar(1).SetMin(12)
        way.CumulVar(3).SetMin(70)
        pause = routing.solver().FixedDurationIntervalVar(6, 7, 2, False, "pause")
        for vehicle in (0, 1):
            way.CumulVar(routing.Start(vehicle)).SetMax(9)
            way.SetBreakIntervalsOfVehicle([pause], vehicle, [0] * routing.Size())
        routing.AddDisjunction([3], 1)
        self.assertEqual(routing.status(), routing.ROUTING_NOT_SOLVED)
        solution = routing.SolveWithParameters(guided())
        self.assertEqual(routing.status(), pywrapcp.RoutingModel.ROUTING_SUCCESS)
        self.assertEqual((solution.ObjectiveValue(), routing.rescued.way), (19, Way.AS_ASKED))
        used = 0 if routing.IsVehicleUsed(solution, 0) else 1
        unused = 1 - used
        self.assertFalse(routing.IsVehicleUsed(solution, unused))
        start, end = routing.Start(used), routing.End(used)
        first = solution.Value(routing.NextVar(start))
        second = solution.Value(routing.NextVar(first))
        self.assertEqual({first, second}, {1, 2})
        self.assertEqual(solution.Value(routing.NextVar(second)), end)
        self.assertEqual(solution.Value(routing.NextVar(3)), 3)
        self.assertEqual(solution.Value(routing.NextVar(routing.Start(unused))), routing.End(unused))
        self.assertEqual([solution.Value(routing.VehicleVar(index)) for index in (1, 3, end)], [used, -1, used])
        self.assertEqual([solution.Value(routing.ActiveVar(index)) for index in (1, 3)], [1, 0])
        plan = solution.solution.routes[used].dimensions[0]
        self.assertEqual([solution.Value(way.CumulVar(index)) for index in (start, first, second, end)],
                         list(plan.cumuls))
        self.assertEqual([solution.Value(way.SlackVar(index)) for index in (start, first, second)], list(plan.slacks))
        for index in (start, first, second, end):
            cumul = way.CumulVar(index)
            self.assertLessEqual(solution.Min(cumul), solution.Value(cumul))
            self.assertGreaterEqual(solution.Max(cumul), solution.Value(cumul))
        self.assertEqual(solution.Min(routing.NextVar(start)), first)
        self.assertEqual([solution.Value(way.CumulVar(3)), solution.Max(way.CumulVar(3)),
                          solution.Value(way.SlackVar(3))], [70, 70, 0])
        self.assertEqual(solution.Value(way.CumulVar(routing.End(unused))), 0)
        self.read_breaks(solution, used, plan.breaks[0])
        self.unsupported("Assignment.Value", lambda: solution.Value(3))
        self.unsupported("Assignment.Save", lambda: solution.Save("x"))

    def test_a_vehicle_that_is_not_used_has_its_least_cumuls(self) -> None:
        _, routing, number = made()
        routing.AddDimension(number, 100, 100, False, "way")
        way = routing.GetDimensionOrDie("way")
        ends = [(way.CumulVar(routing.Start(vehicle)), way.CumulVar(routing.End(vehicle))) for vehicle in (0, 1)]
        for start, end in ends:
            start.SetRange(2, 9)
            end.SetRange(30, 40)
        solution = routing.Solve()
        start, end = ends[1 if routing.IsVehicleUsed(solution, 0) else 0]
        self.assertEqual([(found.Min(one), found.Max(one)) for found in [solution] for one in (start, end)],
                         [(2, 2), (30, 30)])

    def read_breaks(self, solution: Any, used: int, start: int) -> None:
        breaks = solution.IntervalVarContainer()
        self.assertEqual(breaks.Size(), 2)
        taken, left = breaks.Element(used), breaks.Element(1 - used)
        self.assertEqual((taken.PerformedValue(), taken.StartValue(), taken.EndValue()), (1, start, start + 2))
        self.assertEqual((left.PerformedValue(), left.StartValue(), left.DurationValue()), (0, 6, 2))
        self.assertEqual(taken.Var().Name(), "pause")

    def test_nothing_found(self) -> None:
        _, routing, number = made()
        routing.AddDimension(number, 0, 9, True, "way")
        self.assertIsNone(routing.SolveWithParameters(guided()))
        self.assertEqual(routing.status(), routing.ROUTING_FAIL)
        self.assertEqual(routing.rescued.left_out, (1, 2))
        self.assertIsNone(routing.Solve())
        with mock.patch("jambulskeg.routing.routing_model.rescue", side_effect=NoFirstSolution("none")):
            self.assertIsNone(routing.Solve())
        self.assertIsNone(routing.rescued)

    def test_a_model_that_is_refused(self) -> None:
        _, routing, _ = made(matrix=[[0, -1], [1, 0]])
        self.refused(20, routing.Solve)

    def test_time_limits_and_progress(self) -> None:
        _, routing, _ = made()
        parameters = guided(tries=None, log_search=True)
        parameters.time_limit.FromMilliseconds(100)
        with mock.patch("sys.stderr", new=io.StringIO()) as stderr:
            solution = routing.SolveWithParameters(parameters)
        self.assertEqual(solution.ObjectiveValue(), 18)
        self.assertTrue(check(solution.model, solution.solution).meets)
        self.assertRegex(stderr.getvalue(), "^ +[.0-9]+ s  cost 18")

    def test_assignments_of_routes(self) -> None:
        _, routing, number = made()
        routing.AddDimension(number, 0, 40, True, "way")
        known = routing.ReadAssignmentFromRoutes([[1, 3], [2]], True)
        self.assertEqual((known.ObjectiveValue(), known.solution.lists()), (34, [[1, 3], [2]]))
        rows = ([[1]], NotMet, "visit 2 is not made, and must be"), ([[1, 3, 2]] * 2, NotMet, "node 1 at place 1")
        for routes, kind, sentence in rows:
            with mock.patch("sys.stderr", new=io.StringIO()) as stderr:
                self.assertIsNone(routing.ReadAssignmentFromRoutes(routes, True))
            self.assertIsInstance(routing.broken, kind)
            self.assertRegex(stderr.getvalue(), f"^jambulskeg: RoutingModel.ReadAssignmentFromRoutes: .*{sentence}")
        self.refused(18, lambda: routing.ReadAssignmentFromRoutes([[0]], True))
        self.assertEqual(routing.Solve(known).ObjectiveValue(), 18)
        best = routing.Solve()
        none = pywrapcp.DefaultRoutingSearchParameters()
        none.tries = 0
        again = routing.SolveFromAssignmentWithParameters(best, none)
        self.assertLessEqual(again.ObjectiveValue(), best.ObjectiveValue())
        self.unsupported("SolveFromAssignment", lambda: routing.SolveFromAssignmentWithParameters([[1]], none))

    def test_a_search_goes_on_from_an_assignment(self) -> None:
        _, routing, _ = made()
        known = routing.ReadAssignmentFromRoutes([[1, 3], [2]], True)
        none, short = pywrapcp.DefaultRoutingSearchParameters(), pywrapcp.DefaultRoutingSearchParameters()
        none.tries = 0
        short.time_limit.FromMilliseconds(100)
        kept = routing.SolveFromAssignmentWithParameters(known, none)
        self.assertEqual((kept.ObjectiveValue(), kept.solution.lists()), (34, [[1, 3], [2]]))
        self.assertEqual((routing.status(), routing.rescued.way), (1, Way.GIVEN))
        self.assertEqual(routing.rescued.sentence, "by the routes that it began with")
        self.assertLessEqual(routing.SolveFromAssignmentWithParameters(known, short).ObjectiveValue(), 34)
        self.assertEqual(routing.SolveFromAssignmentWithParameters(None, none).ObjectiveValue(), 18)
        cheap = routing.ReadAssignmentFromRoutes([[1, 2, 3]], True)
        self.assertEqual(routing.SolveFromAssignmentsWithParameters([known, None, cheap], none).ObjectiveValue(),
                         cheap.ObjectiveValue())
        self.assertEqual(routing.SolveFromAssignmentsWithParameters([], none).ObjectiveValue(), 18)

    def test_an_assignment_is_kept_where_the_search_finds_nothing_cheaper(self) -> None:
        _, routing, number = made()
        best = routing.Solve()
        dear = routing.ReadAssignmentFromRoutes([[2, 1], [3]], False)
        with mock.patch("jambulskeg.routing.routing_model.belonging", return_value=None):
            for found in (None, dear):
                with mock.patch.object(type(routing), "SolveWithParameters", return_value=found):
                    self.assertEqual(routing.Solve(best).ObjectiveValue(), best.ObjectiveValue())
        self.assertEqual(routing.Solve(best).ObjectiveValue(), best.ObjectiveValue())
        routing.AddDisjunction([3], 0)
        routing.AddDimension(number, 0, 3, True, "short")
        for module in ("routing_model", "beginning"):
            with mock.patch("sys.stderr", new=io.StringIO()) as stderr:
                with mock.patch(f"jambulskeg.routing.{module}.belonging", return_value=None):
                    self.assertIsNone(routing.Solve(best))
            self.assertEqual(routing.status(), routing.ROUTING_FAIL)
            self.assertIn("cannot drive its list in the dimension 'short'", stderr.getvalue())

    def test_the_program_and_the_check_can_be_chosen(self) -> None:
        body = (
            "ran = subprocess.run([REAL, *sys.argv[1:]], input=text, stdout=subprocess.PIPE, text=True)\n"
            "sys.stdout.write(ran.stdout.replace('\"cost\":18', '\"cost\":17')); sys.exit(ran.returncode)"
        )
        _, routing, _ = made()
        with Fake(body) as path:
            routing.program = path
            self.assertRaises(NotMet, routing.Solve)
            routing.checked = False
            self.assertEqual(routing.Solve().ObjectiveValue(), 17)

    def test_a_model_without_costs(self) -> None:
        routing = pywrapcp.RoutingModel(pywrapcp.RoutingIndexManager(3, 1, 0))
        solution: Any = routing.Solve()
        self.assertEqual(solution.ObjectiveValue(), 0)
        self.assertIsInstance(routing.to_model(), Model)


class RefusalTests(RoutingTest):
    def test_names_are_refused_one_by_one(self) -> None:
        manager, routing, number = made()
        routing.AddDimension(number, 0, 100, True, "way")
        way = routing.GetDimensionOrDie("way")
        owners = {
            "Assignment": routing.Solve(), "NextVar": routing.NextVar(1), "ActiveVar": routing.ActiveVar(1),
            "CumulVar": way.CumulVar(1), "SlackVar": way.SlackVar(1), "RoutingModel": routing,
            "RoutingDimension": way, "pywrapcp": pywrapcp, "Solver": routing.solver(),
            "RoutingSearchParameters": pywrapcp.DefaultRoutingSearchParameters(),
        }
        for full in WHY:
            owner, _, name = full.partition(".")
            with self.assertRaises(UnknownName) as caught:
                getattr(owners[owner], name)
            self.assertEqual(caught.exception.name, full)
        self.assertFalse(hasattr(routing, "AddEverything"))
        self.unsupported("RoutingModel.ROUTING_MAYBE", lambda: pywrapcp.RoutingModel.ROUTING_MAYBE)
        self.unsupported("RoutingModel.AddEverything", lambda: routing.AddEverything())
        self.assertRaises(AttributeError, lambda: routing.__nothing__)
        self.unsupported("RoutingModel(manager, parameters)", lambda: pywrapcp.RoutingModel(manager, object()))
        self.assertIn("it is not among the calls", str(refuse("X.y")))

    def test_the_page_names_every_call(self) -> None:
        page = os.path.join(os.path.dirname(os.path.dirname(os.path.abspath(__file__))), "OR-TOOLS.md")
        with open(page, encoding="utf-8") as file:
            text = file.read()
        owners = (pywrapcp.RoutingIndexManager, pywrapcp.RoutingModel, pywrapcp.RoutingDimension, pywrapcp.Assignment)
        names: List[str] = [name for owner in owners for name, value in vars(owner).items()
                            if name[0].isupper() and callable(value)]
        names += [full.partition(".")[2] for full in WHY]
        absent = [name for name in names if not re.search(rf"`([A-Za-z]+\.)?{name}[`(]", text)]
        self.assertEqual(absent, [])


if __name__ == "__main__":
    unittest.main()
