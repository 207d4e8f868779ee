"""What of OR-Tools cannot be had, by name: every name that a class here does not have is refused, none is ignored."""

from __future__ import annotations

import sys
from typing import Any, Dict, Set

from ..errors import Unsupported

ONE_SOLUTION = "the program tells one solution, when its search has ended"
NO_HANDS_ON = "the program searches by itself; nothing can be handed into its search"
NOT_SAID = "the model cannot say it"
TWO_NODES = "a transit depends on its two nodes alone"
OWN_LIMITS = "the search has no such parameter; it is limited by tries, solutions and time_limit"
NO_ORDER = "no rule says which stop comes next; pairs, policies, windows and SetAllowedVehiclesForIndex come nearest"
REQUIRED = "a visit that must be made is in no disjunction; solver().Add(ActiveVar(i) == 1) says the same"
SLACK = "slack_max holds for all stops alike; SlackVar(i).SetValue(0) is had where the stop asks for no slack anyway"
DOCKS = "no rule joins several vehicles: give the vehicles shifts that begin one after the other (CumulVar(Start))"
NO_FILES = "write the solution as JSON (Assignment.solution.text()) and read it by jambulskeg.model.read_solution"

WHY: Dict[str, str] = {
    "Assignment.Save": NO_FILES,
    "ActiveVar.SetMax": "a visit that is not made is left out of the model",
    "ActiveVar.SetRange": REQUIRED,
    "Assignment.Add": "an assignment has every variable by itself",
    "CumulVar.SetValues": "RemoveInterval takes out the numbers between",
    "NextVar.RemoveValue": NO_ORDER,
    "NextVar.RemoveValues": NO_ORDER,
    "NextVar.SetMax": NO_ORDER,
    "NextVar.SetMin": NO_ORDER,
    "NextVar.SetRange": NO_ORDER,
    "NextVar.SetValue": NO_ORDER,
    "NextVar.SetValues": NO_ORDER,
    "SlackVar.SetMin": SLACK,
    "SlackVar.SetValues": SLACK,
    "RoutingDimension.SetCumulVarPiecewiseLinearCost": "soft upper bounds are the only costs of a cumul",
    "RoutingDimension.SetCumulVarSoftLowerBound": "soft upper bounds are the only costs of a cumul",
    "RoutingDimension.SetSlackCostCoefficientForAllVehicles": "slack costs nothing; SetSpanCostCoefficient counts it",
    "RoutingDimension.SetSlackCostCoefficientForVehicle": "slack costs nothing; SetSpanCostCoefficient counts it",
    "RoutingDimension.SetSoftSpanUpperBoundForVehicle": "spans have no bound",
    "RoutingDimension.SetQuadraticCostSoftSpanUpperBoundForVehicle": "spans have no bound",
    "RoutingDimension.SetBreakDistanceDurationOfVehicle": "breaks have a range of starts and a duration",
    "RoutingDimension.SetPickupToDeliveryLimitFunctionForPair": "no limit joins the cumuls of two stops",
    "RoutingDimension.AddNodePrecedence": "no rule joins two visits but that of a pair",
    "RoutingDimension.TransitVar": "read the cumuls and the slack",
    "RoutingModel.AddAtSolutionCallback": ONE_SOLUTION,
    "RoutingModel.AddSearchMonitor": f"{ONE_SOLUTION}; log_search tells of each round on standard error",
    "RoutingModel.AddLocalSearchOperator": NO_HANDS_ON,
    "RoutingModel.AddLocalSearchFilter": NO_HANDS_ON,
    "RoutingModel.AddIntervalToAssignment": "breaks are in the assignment by themselves",
    "RoutingModel.AddDimensionDependentDimensionWithVehicleCapacity": TWO_NODES,
    "RoutingModel.AddPickupAndDeliverySets": "a pair has one pickup and one delivery",
    "RoutingModel.AddResourceGroup": NOT_SAID,
    "RoutingModel.AddSoftSameVehicleConstraint": NOT_SAID,
    "RoutingModel.AddTemporalTypeIncompatibility": NOT_SAID,
    "RoutingModel.AddHardTypeIncompatibility": NOT_SAID,
    "RoutingModel.AddWeightedVariableMinimizedByFinalizer": "the rule of the schedule has no weights",
    "RoutingModel.AddWeightedVariableMaximizedByFinalizer": "the rule of the schedule has no weights",
    "RoutingModel.ApplyLocks": "a search begins with a first solution of its own",
    "RoutingModel.ApplyLocksToAllVehicles": "a search begins with a first solution of its own",
    "RoutingModel.ConsiderEmptyRouteCostsForVehicle": "a vehicle without visits costs nothing",
    "RoutingModel.CostVar": "read Assignment.ObjectiveValue()",
    "RoutingModel.ReadAssignment": NO_FILES,
    "RoutingModel.RegisterStateDependentTransitCallback": TWO_NODES,
    "RoutingModel.RegisterCumulDependentTransitCallback": TWO_NODES,
    "RoutingModel.SetAmortizedCostFactorsOfAllVehicles": "a used vehicle costs its fixed cost",
    "RoutingModel.SetAmortizedCostFactorsOfVehicle": "a used vehicle costs its fixed cost",
    "RoutingModel.SetFirstSolutionEvaluator": NO_HANDS_ON,
    "RoutingModel.SetMaximumNumberOfActiveVehicles": "leave vehicles out of the model, or give them a fixed cost",
    "RoutingModel.SetVehicleUsedWhenEmpty": "a vehicle without visits is not used and costs nothing",
    "RoutingModel.SetVisitType": NOT_SAID,
    "RoutingModel.WriteAssignment": NO_FILES,
    "RoutingSearchParameters.local_search_operators": OWN_LIMITS,
    "RoutingSearchParameters.number_of_solutions_to_collect": ONE_SOLUTION,
    "RoutingSearchParameters.savings_parameters": OWN_LIMITS,
    "Solver.AllDifferent": "visits on different vehicles: SetAllowedVehiclesForIndex with lists that share none",
    "Solver.Cumulative": DOCKS,
    "Solver.IntervalVar": "a break has a range of starts and one duration: FixedDurationIntervalVar",
    "Solver.SearchLog": f"{ONE_SOLUTION}; log_search tells of each round on standard error",
    "Solver.SearchMonitor": f"{ONE_SOLUTION}; log_search tells of each round on standard error",
    "Solver.TimeLimit": "set time_limit of the search parameters",
    "Solver.IntVar": NOT_SAID,
    "Solver.Max": NOT_SAID,
    "Solver.Min": NOT_SAID,
    "Solver.Sum": NOT_SAID,
    "pywrapcp.DefaultRoutingModelParameters": "a model has no parameters",
    "pywrapcp.SearchMonitor": f"{ONE_SOLUTION}; log_search tells of each round on standard error",
    "pywrapcp.Solver": "the constraint solver itself is not here",
}
"""Why a name of OR-Tools is refused, for those that scripts use most."""

ELSE = "it is not among the calls of python/OR-TOOLS.md"


HINTED: Set[str] = set()
"""The hints that were told."""


def hint(name: str, why: str) -> None:
    """Tells once, on standard error, of a call that is taken and changes nothing: it only helps OR-Tools' search."""
    if name not in HINTED:
        HINTED.add(name)
        sys.stderr.write(f"jambulskeg: {name} changes nothing: {why}\n")


class UnknownName(Unsupported, AttributeError):
    """A name of OR-Tools that is not here."""


def refuse(name: str, why: str = "") -> Unsupported:
    """The exception that refuses a name. Without a reason given, it has the one that is known of the name."""
    return Unsupported(name, why or WHY.get(name, ELSE))


def unknown(owner: str, name: str) -> AttributeError:
    """The exception for a name that an owner does not have. Names of Python's own protocols are plainly absent."""
    if name.startswith("_"):
        return AttributeError(f"{owner} has no {name}")
    full = f"{owner}.{name}"
    return UnknownName(full, WHY.get(full, ELSE))


class NamedType(type):
    """The type of such classes. It refuses what is asked of the class itself, such as a constant, and lets a thing that
    was made get no further attributes."""

    def __call__(cls, *words: Any, **fields: Any) -> Any:
        made = super().__call__(*words, **fields)
        made.__dict__["_is_made"] = True
        return made

    def __getattr__(cls, name: str) -> Any:
        raise unknown(cls.__name__, name)


class Named(metaclass=NamedType):
    """A class with OR-Tools' name: a name that it does not have is refused by name."""

    TITLE = ""
    """What the class is called in OR-Tools, if that is not its name here."""

    def __getattr__(self, name: str) -> Any:
        raise unknown(self.TITLE or type(self).__name__, name)

    def __setattr__(self, name: str, value: Any) -> None:
        if "_is_made" in self.__dict__ and name not in self.__dict__:
            raise unknown(self.TITLE or type(self).__name__, name)
        super().__setattr__(name, value)
