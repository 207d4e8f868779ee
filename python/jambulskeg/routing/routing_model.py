"""`RoutingModel`: a script says its model here call by call, and has it solved by the program."""

from __future__ import annotations

import sys
from typing import Any, Callable, List, Optional, Sequence, Tuple

from ..complete import CannotBeDriven
from ..errors import Fault, JambulskegError, NoFirstSolution, NotMet, Refused
from ..model import solve
from ..program import ProgramLike, program_of
from ..records import Model, Policy, ScheduleRule
from ..refine import belonging
from ..rescue import Rescue, Solver as ModelSolver, rescue, timed_solver
from ..rounds import Solved, to_terminal
from ..solution import Solution
from .assignment import Assignment, as_assignment
from .beginning import go_on, priced
from .building import Said
from .dimension import RoutingDimension
from .manager import RoutingIndexManager
from .parameters import DefaultRoutingSearchParameters, RoutingSearchParameters
from .refused import Named, hint, refuse
from .routing_enums_pb2 import RoutingSearchStatus
from .solver import Solver
from .transits import as_whole, checked_table, checked_values, table_of, values_of
from .variables import ActiveVar, CumulVar, IntVar, VarKind, VehicleVar

NO_PENALTY = -1


class RoutingModel(Named):
    """A model of routes, with OR-Tools' calls. Indices are those of the manager.

    What the program cannot do is refused by name (`jambulskeg.errors.Unsupported`), what it refuses raises `Refused`.
    `program` is the program or its path, None to have it found; `checked` says whether each answer is put to the
    proved check; `schedule` is the rule by which all vehicles choose their schedules, None for the one that is nearest
    to OR-Tools: `TIGHT` if slack is there and spans are paid, or a late start was asked for, else `EARLIEST`;
    `rescued` tells after a search which way it went, and `broken` what routes break that were handed in.
    """

    PICKUP_AND_DELIVERY_NO_ORDER = 0
    PICKUP_AND_DELIVERY_LIFO = 1
    PICKUP_AND_DELIVERY_FIFO = 2
    PENALIZE_ONCE = 0
    PENALIZE_PER_INACTIVE = 1
    ROUTING_NOT_SOLVED = RoutingSearchStatus.ROUTING_NOT_SOLVED
    ROUTING_SUCCESS = RoutingSearchStatus.ROUTING_SUCCESS
    ROUTING_FAIL = RoutingSearchStatus.ROUTING_FAIL
    ROUTING_FAIL_TIMEOUT = RoutingSearchStatus.ROUTING_FAIL_TIMEOUT
    ROUTING_INVALID = RoutingSearchStatus.ROUTING_INVALID
    ROUTING_INFEASIBLE = RoutingSearchStatus.ROUTING_INFEASIBLE
    ROUTING_OPTIMAL = RoutingSearchStatus.ROUTING_OPTIMAL
    POLICIES = (Policy.ANY, Policy.LIFO, Policy.FIFO)

    def __init__(self, index_manager: RoutingIndexManager, parameters: Any = None) -> None:
        if parameters is not None:
            raise refuse("RoutingModel(manager, parameters)", "a model has no parameters")
        self.program: ProgramLike = None
        self.checked = True
        self.schedule: Optional[ScheduleRule] = None
        self.rescued: Optional[Rescue] = None
        self.broken: Optional[JambulskegError] = None
        self._manager = index_manager
        self._said = Said(index_manager)
        self._status = RoutingSearchStatus.ROUTING_NOT_SOLVED

    # The shape of the model

    def Start(self, vehicle: int) -> int:
        """The index of the start of a vehicle."""
        return self._manager.GetStartIndex(vehicle)

    def End(self, vehicle: int) -> int:
        """The index of the end of a vehicle."""
        return self._manager.GetEndIndex(vehicle)

    def IsStart(self, index: int) -> bool:
        """Whether an index is the start of a vehicle."""
        return index < self.Size() and not self._manager.is_visit(index)

    def IsEnd(self, index: int) -> bool:
        """Whether an index is the end of a vehicle."""
        return index >= self.Size()

    def Size(self) -> int:
        """How many indices have a next one: visits and starts."""
        return len(self._manager.tails())

    def nodes(self) -> int:
        """How many nodes there are."""
        return self._manager.GetNumberOfNodes()

    def vehicles(self) -> int:
        """How many vehicles there are."""
        return self._manager.GetNumberOfVehicles()

    def solver(self) -> Solver:
        """What takes constraints and makes breaks."""
        return self._said.solver

    # Callbacks and costs

    def RegisterTransitCallback(self, callback: Callable[[int, int], int]) -> int:
        """A callback of two indices; its number. It is asked once for each pair that an arc can join, when a model is
        built. Its value must be whole and depend on the two nodes alone."""
        return self._said.transits.add(lambda: table_of(self._manager, callback), False)

    def RegisterUnaryTransitCallback(self, callback: Callable[[int], int]) -> int:
        """A callback of the index that is left; its number."""
        return self._said.transits.add(lambda: values_of(self._manager, callback), True)

    def RegisterTransitMatrix(self, matrix: Sequence[Sequence[int]]) -> int:
        """A matrix by nodes; its number."""
        table = checked_table(self._manager, matrix)
        return self._said.transits.add(lambda: table, False)

    def RegisterUnaryTransitVector(self, values: Sequence[int]) -> int:
        """Values by node; their number."""
        found = checked_values(self._manager, values)
        return self._said.transits.add(lambda: found, True)

    def SetArcCostEvaluatorOfAllVehicles(self, evaluator: int) -> None:
        """What arcs cost, by the number of a callback; without one they cost nothing."""
        number = self._said.transits.known(evaluator, "RoutingModel.SetArcCostEvaluatorOfAllVehicles")
        self._said.costs = [number] * len(self._said.costs)

    def SetArcCostEvaluatorOfVehicle(self, evaluator: int, vehicle: int) -> None:
        """The same for one vehicle. Raises `IndexError` if there is no such vehicle."""
        number = self._said.transits.known(evaluator, "RoutingModel.SetArcCostEvaluatorOfVehicle")
        self._said.costs[self._manager.known_vehicle(vehicle)] = number

    def SetFixedCostOfAllVehicles(self, cost: int) -> None:
        """What it costs to use a vehicle at all, 0 to 2^40."""
        self._said.fixed = [cost] * len(self._said.fixed)

    def SetFixedCostOfVehicle(self, cost: int, vehicle: int) -> None:
        """The same for one vehicle. Raises `IndexError` if there is no such vehicle."""
        self._said.fixed[self._manager.known_vehicle(vehicle)] = cost

    def GetFixedCostOfVehicle(self, vehicle: int) -> int:
        """The fixed cost of a vehicle. Raises `IndexError` if there is no such vehicle."""
        return self._said.fixed[self._manager.known_vehicle(vehicle)]

    def GetArcCostForVehicle(self, from_index: int, to_index: int, vehicle: int) -> int:
        """What the arc between two indices costs: by the callback, and the span cost of its transits. The arc from the
        start has the fixed cost too. It is 0 from a start to an end, and from an index to itself."""
        if from_index == to_index or (self.IsStart(from_index) and self.IsEnd(to_index)):
            return 0
        number = self._said.costs[self._manager.known_vehicle(vehicle)]
        cost = 0 if number is None else self._between(number, from_index, to_index)
        for dimension in self._said.dimensions.values():
            if dimension.span_cost(vehicle):
                way = self._between(dimension.evaluators[vehicle], from_index, to_index)
                cost += dimension.span_cost(vehicle) * way
        return cost + (self._said.fixed[vehicle] if self.IsStart(from_index) else 0)

    def _between(self, number: int, from_index: int, to_index: int) -> int:
        """The value of a callback between two indices."""
        tail, head = self._manager.IndexToNode(from_index), self._manager.IndexToNode(to_index)
        values = self._said.transits.values(number)
        return self._said.transits.matrix(number)[tail][head] if values is None else values[tail]

    # Dimensions

    def AddDimension(
        self, evaluator: int, slack_max: int, capacity: int, fix_start_cumul_to_zero: bool, name: str
    ) -> bool:
        """A dimension of one callback and one capacity; False if there is one of this name already."""
        return self._add("AddDimension", [evaluator], slack_max, [capacity], fix_start_cumul_to_zero, name)

    def AddDimensionWithVehicleCapacity(
        self, evaluator: int, slack_max: int, vehicle_capacities: Sequence[int], fix_start_cumul_to_zero: bool,
        name: str,
    ) -> bool:
        """A dimension with a capacity for each vehicle."""
        return self._add(
            "AddDimensionWithVehicleCapacity", [evaluator], slack_max, vehicle_capacities, fix_start_cumul_to_zero, name
        )

    def AddDimensionWithVehicleTransits(
        self, evaluators: Sequence[int], slack_max: int, capacity: int, fix_start_cumul_to_zero: bool, name: str
    ) -> bool:
        """A dimension with a callback for each vehicle, at most 8 different ones."""
        return self._add(
            "AddDimensionWithVehicleTransits", evaluators, slack_max, [capacity], fix_start_cumul_to_zero, name
        )

    def AddDimensionWithVehicleTransitAndCapacity(
        self, evaluators: Sequence[int], slack_max: int, vehicle_capacities: Sequence[int],
        fix_start_cumul_to_zero: bool, name: str,
    ) -> bool:
        """A dimension with a callback and a capacity for each vehicle."""
        return self._add(
            "AddDimensionWithVehicleTransitAndCapacity", evaluators, slack_max, vehicle_capacities,
            fix_start_cumul_to_zero, name,
        )

    def AddConstantDimension(
        self, value: int, capacity: int, fix_start_cumul_to_zero: bool, name: str
    ) -> Tuple[int, bool]:
        """A dimension in which each arc adds the value, without slack; the number of its callback, and whether it was
        added."""
        return self.AddConstantDimensionWithSlack(value, capacity, 0, fix_start_cumul_to_zero, name)

    def AddConstantDimensionWithSlack(
        self, value: int, capacity: int, slack_max: int, fix_start_cumul_to_zero: bool, name: str
    ) -> Tuple[int, bool]:
        """The same with slack."""
        number = self.RegisterUnaryTransitVector([value] * self.nodes())
        return number, self.AddDimension(number, slack_max, capacity, fix_start_cumul_to_zero, name)

    def AddVectorDimension(
        self, values: Sequence[int], capacity: int, fix_start_cumul_to_zero: bool, name: str
    ) -> Tuple[int, bool]:
        """A dimension of values by nodes, without slack; the number of its callback, and whether it was added."""
        number = self.RegisterUnaryTransitVector(values)
        return number, self.AddDimension(number, 0, capacity, fix_start_cumul_to_zero, name)

    def AddMatrixDimension(
        self, values: Sequence[Sequence[int]], capacity: int, fix_start_cumul_to_zero: bool, name: str
    ) -> Tuple[int, bool]:
        """A dimension of a matrix by nodes, without slack; the number of its callback, and whether it was added."""
        number = self.RegisterTransitMatrix(values)
        return number, self.AddDimension(number, 0, capacity, fix_start_cumul_to_zero, name)

    def _add(
        self, call: str, evaluators: Sequence[int], slack_max: int, capacities: Sequence[int], fix_start: bool,
        name: str,
    ) -> bool:
        """Adds a dimension; a list of one value is for all vehicles."""
        title, vehicles = f"RoutingModel.{call}", self.vehicles()
        if name in self._said.dimensions:
            return False
        each = [list(values) * vehicles if len(values) == 1 else list(values) for values in (evaluators, capacities)]
        if any(len(values) != vehicles for values in each):
            raise refuse(title, f"it takes a value for each of {vehicles} vehicles")
        numbers = [self._said.transits.known(number, title) for number in each[0]]
        limits = [as_whole(value, title) for value in (slack_max, *each[1])]
        if min(limits) < 0:
            raise refuse(title, "slack_max and capacities are 0 or more")
        self._said.dimensions[name] = RoutingDimension(
            self._manager, numbers, limits[0], limits[1:], bool(fix_start), name
        )
        return True

    def SetPrimaryConstrainedDimension(self, name: str) -> None:
        """A hint for OR-Tools' search, which is taken and changes nothing. Raises `KeyError` if there is none."""
        self.GetDimensionOrDie(name)
        hint("RoutingModel.SetPrimaryConstrainedDimension", "every dimension is asked in each step")

    def GetDimensionOrDie(self, name: str) -> RoutingDimension:
        """The dimension of a name. Raises `KeyError` if there is none."""
        return self._said.dimensions[name]

    def GetMutableDimension(self, name: str) -> RoutingDimension:
        """The same."""
        return self._said.dimensions[name]

    def HasDimension(self, name: str) -> bool:
        """Whether there is a dimension of a name."""
        return name in self._said.dimensions

    # Groups, pairs, vehicles of visits

    def AddDisjunction(
        self, indices: Sequence[int], penalty: int = NO_PENALTY, max_cardinality: int = 1,
        penalty_cost_behavior: Optional[int] = None,
    ) -> int:
        """Visits of which at most `max_cardinality` are made, each fewer at the penalty; without one (or below 0)
        exactly as many. The number of the disjunction."""
        title = "RoutingModel.AddDisjunction"
        if penalty_cost_behavior == self.PENALIZE_ONCE and max_cardinality > 1 and penalty > 0:
            raise refuse(f"{title} (PENALIZE_ONCE)", "a penalty is paid for each visit fewer")
        nodes = [self._visit(index, title) for index in indices]
        self._said.groups.append((nodes, as_whole(penalty, title), as_whole(max_cardinality, title)))
        return len(self._said.groups) - 1

    def GetNumberOfDisjunctions(self) -> int:
        """How many disjunctions there are."""
        return len(self._said.groups)

    def GetDisjunctionPenalty(self, disjunction: int) -> int:
        """The penalty of a disjunction, -1 without one. Raises `IndexError` if there is no such disjunction."""
        return self._said.group(disjunction)[1]

    def GetDisjunctionMaxCardinality(self, disjunction: int) -> int:
        """How many of its visits are made at most. Raises `IndexError` if there is no such disjunction."""
        return self._said.group(disjunction)[2]

    def GetDisjunctionNodeIndices(self, disjunction: int) -> List[int]:
        """The indices of its visits. Raises `IndexError` if there is no such disjunction."""
        return self._manager.NodesToIndices(self._said.group(disjunction)[0])

    def AddPickupAndDelivery(self, pickup: int, delivery: int) -> None:
        """A pickup and its delivery: by one vehicle, the pickup first, or neither."""
        title = "RoutingModel.AddPickupAndDelivery"
        self._said.pairs.append((self._visit(pickup, title), self._visit(delivery, title)))

    def SetPickupAndDeliveryPolicyOfAllVehicles(self, policy: int) -> None:
        """The order of deliveries on each vehicle."""
        for vehicle in range(self.vehicles()):
            self.SetPickupAndDeliveryPolicyOfVehicle(policy, vehicle)

    def SetPickupAndDeliveryPolicyOfVehicle(self, policy: int, vehicle: int) -> None:
        """The order of deliveries on one vehicle: any, last in first out, or first in first out."""
        if policy not in range(len(self.POLICIES)):
            raise refuse(f"pickup and delivery policy {policy!r}", "there are NO_ORDER, LIFO and FIFO")
        self._said.policies[self._manager.known_vehicle(vehicle)] = self.POLICIES[policy]

    def SetAllowedVehiclesForIndex(self, vehicles: Sequence[int], index: int) -> None:
        """The vehicles that may make a visit, if it is made; an empty list allows all, and -1 changes nothing."""
        title, everyone = "RoutingModel.SetAllowedVehiclesForIndex", range(self.vehicles())
        self._visit(index, title)
        for vehicle in vehicles:
            if vehicle not in everyone and vehicle != -1:
                raise Refused(Fault(14, "", f"there is no vehicle {vehicle}"), title)
        self._said.rules(index).allowed = set(vehicles or everyone)

    def _visit(self, index: int, title: str) -> int:
        """The node of an index that is a visit."""
        if not self._manager.is_visit(index):
            raise Refused(Fault(18, "", f"index {index} is a start, an end, or none"), title)
        return self._manager.IndexToNode(index)

    # Variables

    def NextVar(self, index: int) -> IntVar:
        """Where a solution goes from an index; the index itself if it is left out."""
        return IntVar(VarKind.NEXT, self._known(index))

    def VehicleVar(self, index: int) -> VehicleVar:
        """The vehicle of an index, which says which vehicles may make a visit."""
        return VehicleVar(self._known(index), self._said.rules(index) if self._manager.is_visit(index) else None)

    def ActiveVar(self, index: int) -> ActiveVar:
        """1 if a visit is made, else 0; it may be said to be 1."""
        return ActiveVar(self._known(index), self._said.rules(index) if self._manager.is_visit(index) else None)

    def VehicleIndex(self, index: int) -> int:
        """The vehicle of a start or an end, -1 of a visit."""
        self._known(index)
        for vehicle in range(self.vehicles()):
            if index in (self.Start(vehicle), self.End(vehicle)):
                return vehicle
        return -1

    def _known(self, index: int) -> int:
        self._manager.IndexToNode(index)
        return index

    def AddVariableMinimizedByFinalizer(self, variable: IntVar) -> None:
        """Takes a variable. The schedule has the least cumuls that its rule leaves; of others it is a hint."""
        name = "RoutingModel.AddVariableMinimizedByFinalizer"
        if not isinstance(variable, IntVar):
            raise refuse(name, "it is had for variables of the model alone")
        if not isinstance(variable, CumulVar):
            hint(name, "the schedule is chosen by its rule")

    def AddVariableMaximizedByFinalizer(self, variable: IntVar) -> None:
        """Takes the cumul of a start: all vehicles then begin as late as their ends allow (`ScheduleRule.TIGHT`)."""
        if not isinstance(variable, CumulVar) or not self.IsStart(variable.index):
            raise refuse(
                "RoutingModel.AddVariableMaximizedByFinalizer",
                "it is had for the cumul of a start, CumulVar(routing.Start(vehicle)): days then begin late",
            )
        self._said.begins_late = True

    def AddToAssignment(self, variable: IntVar) -> None:
        """Takes a variable of the model, since an assignment has them all."""
        if not isinstance(variable, IntVar):
            raise refuse("RoutingModel.AddToAssignment", "it is had for variables of the model alone")

    # The model and its answers

    def CloseModel(self) -> None:
        """Builds the model, so that what cannot be had is told."""
        self.to_model(DefaultRoutingSearchParameters())

    def CloseModelWithParameters(self, parameters: RoutingSearchParameters) -> None:
        """The same with the parameters of a search."""
        self.to_model(parameters)

    def to_model(self, parameters: Optional[RoutingSearchParameters] = None) -> Model:
        """The model that was said, for `jambulskeg.model`. Raises `Unsupported` at a constraint that it cannot say."""
        return self._said.to_model((parameters or DefaultRoutingSearchParameters()).search(), self.schedule)

    def status(self) -> int:
        """What the last search came to: `ROUTING_NOT_SOLVED`, `ROUTING_SUCCESS`, or `ROUTING_FAIL`."""
        return self._status

    def Solve(self, assignment: Optional[Assignment] = None) -> Optional[Assignment]:
        """The answer with default parameters, beginning from an assignment if there is one."""
        parameters = DefaultRoutingSearchParameters()
        if assignment is None:
            return self.SolveWithParameters(parameters)
        return self.SolveFromAssignmentWithParameters(assignment, parameters)

    def SolveWithParameters(self, parameters: RoutingSearchParameters) -> Optional[Assignment]:
        """The answer, or None if no solution was found; `rescued` tells which way it went.

        If the construction finds none, the others are tried, and then penalties for required visits. An answer that
        leaves out a required visit is not handed out. Raises `Refused` if the program refuses the model.
        """
        model = self.to_model(parameters)
        try:
            self.rescued = rescue(model, self.program, checked=self.checked, solver=self._solver_for(parameters))
        except NoFirstSolution:
            self.rescued = None
        solution = self.rescued.solution if self.rescued else None
        if solution is None or self.rescued is None:
            self._status = RoutingSearchStatus.ROUTING_FAIL
            return None
        self._status = RoutingSearchStatus.ROUTING_SUCCESS
        return Assignment(self._manager, self.rescued.model, solution, self._said.breaks())

    def _solver_for(self, parameters: RoutingSearchParameters) -> ModelSolver:
        """How models are solved: once, or in rounds until the time limit of the whole search."""
        found, limit = program_of(self.program), parameters.time_limit.total()
        if limit is None:
            return lambda model: Solved(model, solve(model, found, checked=self.checked))
        progress = to_terminal if parameters.log_search else None
        return timed_solver(limit, found, checked=self.checked, progress=progress)

    def SolveFromAssignmentWithParameters(
        self, assignment: Optional[Assignment], parameters: RoutingSearchParameters
    ) -> Optional[Assignment]:
        """What a search finds that begins with the assignment, which is no dearer; None if the assignment breaks a rule
        of the model as it is now, which `broken` tells. Without vr_refine the cheaper of the assignment and of what a
        search finds that begins with a first solution of its own."""
        return self.SolveFromAssignmentsWithParameters([assignment], parameters)

    def SolveFromAssignmentsWithParameters(
        self, assignments: Sequence[Optional[Assignment]], parameters: RoutingSearchParameters
    ) -> Optional[Assignment]:
        """The same, from the cheapest of some assignments that break no rule; without any it is `SolveWithParameters`.
        """
        title = "RoutingModel.SolveFromAssignmentsWithParameters"
        known = [as_assignment(entry, title) for entry in assignments if entry is not None]
        if not known:
            return self.SolveWithParameters(parameters)
        model = self.to_model(parameters)
        begun = [found for entry in known for found in [self._priced(title, entry.solution.lists(), model)] if found]
        self._status = RoutingSearchStatus.ROUTING_FAIL
        if not begun:
            return None
        best = min(begun, key=lambda solution: solution.cost)
        if belonging(self.program) is None:
            found = self.SolveWithParameters(parameters)
            self._status = RoutingSearchStatus.ROUTING_SUCCESS
            is_found = found is not None and found.ObjectiveValue() <= best.cost
            return found if is_found else Assignment(self._manager, model, best, self._said.breaks())
        limit, progress = parameters.time_limit.total(), to_terminal if parameters.log_search else None
        self.rescued = go_on(model, best, self.program, limit, progress, self.checked)
        self._status = RoutingSearchStatus.ROUTING_SUCCESS
        solved = self.rescued.solved
        return Assignment(self._manager, solved.model, solved.solution, self._said.breaks())

    def ReadAssignmentFromRoutes(
        self, routes: Sequence[Sequence[int]], ignore_inactive_indices: bool
    ) -> Optional[Assignment]:
        """The assignment of routes, which are lists of indices without starts and ends; None if they cannot be
        driven or break a rule, which `broken` tells. No index of a visit is inactive, so the last argument changes
        nothing."""
        title = "RoutingModel.ReadAssignmentFromRoutes"
        lists = [[self._visit(index, title) for index in route] for route in routes]
        lists += [[] for _ in range(self.vehicles() - len(lists))]
        model = self.to_model()
        found = self._priced(title, lists, model)
        return None if found is None else Assignment(self._manager, model, found, self._said.breaks())

    def _priced(self, title: str, lists: Sequence[Sequence[int]], model: Model) -> Optional[Solution]:
        """The solution of lists of visits; None if they break a rule, which is told on standard error."""
        self.broken = None
        try:
            return priced(model, lists, self.program)
        except (CannotBeDriven, NotMet) as problem:
            self.broken = problem
            sys.stderr.write(f"jambulskeg: {title}: {problem}\n")
            return None

    def IsVehicleUsed(self, assignment: Assignment, vehicle: int) -> bool:
        """Whether a vehicle leaves."""
        return not self.IsEnd(assignment.Value(self.NextVar(self.Start(vehicle))))
