"""A dimension as a script says it: `RoutingModel.GetDimensionOrDie(name)`."""

from __future__ import annotations

from typing import Any, Dict, List, Optional, Sequence, Tuple

from ..records import Break, Dimension, Evaluator, NodeRow, Soft, VehicleBreaks, VehicleRow
from .manager import RoutingIndexManager
from .refused import Named, refuse
from .transits import Table, Transits, as_whole
from .variables import WHY_SLACK, CumulVar, IntervalVar, SlackVar, StopRules


class MatrixPool:
    """The matrices of a model: equal ones are shared."""

    def __init__(self) -> None:
        self.matrices: List[Table] = []
        self._numbers: Dict[Table, int] = {}

    def number(self, table: Table) -> int:
        """The number of a matrix, which is added if it is new."""
        if table not in self._numbers:
            self._numbers[table] = len(self.matrices)
            self.matrices.append(table)
        return self._numbers[table]


class RoutingDimension(Named):
    """What adds up along routes. Indices are those of the manager; values are whole numbers in the script's units."""

    def __init__(
        self, manager: RoutingIndexManager, evaluators: List[int], slack_max: int, capacities: List[int],
        fix_start: bool, name: str,
    ) -> None:
        self._manager, self._name = manager, name
        self.evaluators, self._capacities, self._fix_start = evaluators, capacities, fix_start
        self._slack_max = slack_max
        self._stops: Dict[int, StopRules] = {}
        self._span_costs = [0] * manager.GetNumberOfVehicles()
        self._global_span_cost = 0
        self.breaks: Dict[int, List[IntervalVar]] = {}
        self._visit: Optional[Tuple[int, ...]] = None

    def name(self) -> str:
        """The name of the dimension."""
        return self._name

    def stop(self, index: int) -> StopRules:
        """What is asked of an index. Raises `IndexError` if there is none."""
        self._manager.IndexToNode(index)
        return self._stops.setdefault(index, StopRules())

    def CumulVar(self, index: int) -> CumulVar:
        """The cumul of an index, whose range can be set."""
        return CumulVar(index, self._name, self.stop(index))

    def SlackVar(self, index: int) -> SlackVar:
        """The slack after an index, which a solution tells, and which can be set to 0 if none is asked for."""
        return SlackVar(index, self._name, self.stop(index))

    def SetCumulVarSoftUpperBound(self, index: int, bound: int, coefficient: int) -> None:
        """Each unit of the cumul above the bound costs the coefficient, 0 to 10000."""
        self.stop(index).soft = Soft(bound, coefficient)

    def HasCumulVarSoftUpperBound(self, index: int) -> bool:
        """Whether an index has a soft upper bound."""
        return self.stop(index).soft is not None

    def SetSpanCostCoefficientForAllVehicles(self, coefficient: int) -> None:
        """What a unit from a vehicle's start to its end costs, 0 to 10000."""
        self._span_costs = [coefficient] * len(self._span_costs)

    def SetSpanCostCoefficientForVehicle(self, coefficient: int, vehicle: int) -> None:
        """The same for one vehicle. Raises `IndexError` if there is no such vehicle."""
        self._span_costs[self._manager.known_vehicle(vehicle)] = coefficient

    def span_cost(self, vehicle: int) -> int:
        """The span cost of a vehicle."""
        return self._span_costs[vehicle]

    def SetGlobalSpanCostCoefficient(self, coefficient: int) -> None:
        """What a unit from the least start to the greatest end of all used vehicles costs, 0 to 10000."""
        self._global_span_cost = coefficient

    def SetSpanUpperBoundForVehicle(self, bound: int, vehicle: int) -> None:
        """The greatest span of a vehicle. It can be had only if the start is fixed to 0, so that the end is the
        span."""
        if not self._fix_start:
            raise refuse(
                "RoutingDimension.SetSpanUpperBoundForVehicle",
                "spans have no bound, but for a dimension with fix_start_cumul_to_zero",
            )
        self.CumulVar(self._manager.GetEndIndex(vehicle)).SetMax(bound)

    def SetBreakIntervalsOfVehicle(
        self, breaks: Sequence[IntervalVar], vehicle: int, node_visit_transits: Sequence[int], *delays: Any
    ) -> None:
        """The breaks of a vehicle, which takes all of them in this order; none begins before the visit is over.

        `node_visit_transits` has by index how long the visit takes, the same for every vehicle of the dimension.
        Raises `IndexError` if there is no such vehicle.
        """
        name = "RoutingDimension.SetBreakIntervalsOfVehicle"
        if delays or not hasattr(node_visit_transits, "__len__"):
            raise refuse(name, "it takes the breaks, the vehicle, and the visit times by index")
        if not all(isinstance(entry, IntervalVar) for entry in breaks):
            raise refuse(name, "breaks are made by Solver.FixedDurationIntervalVar")
        visit = self._visit_times(node_visit_transits, name)
        if self._visit not in (None, visit):
            raise refuse(name, "the visit times are those of another vehicle too")
        self._visit = visit
        self.breaks[self._manager.known_vehicle(vehicle)] = list(breaks)

    def _visit_times(self, by_index: Sequence[int], name: str) -> Tuple[int, ...]:
        """Visit times by node. Raises `Unsupported` if two indices of one node have other times."""
        found: Dict[int, int] = {}
        for index, value in enumerate(by_index):
            node, time = self._manager.IndexToNode(index), as_whole(value, name)
            if found.setdefault(node, time) != time:
                raise refuse(name, f"node {node} has {found[node]} at one index and {time} at another")
        return tuple(found.get(node, 0) for node in range(self._manager.GetNumberOfNodes()))

    def pays_for_waiting(self) -> bool:
        """Whether slack is there, and spans are paid, of vehicles or of all together."""
        return self._slack_max > 0 and (any(self._span_costs) or self._global_span_cost > 0)

    def check_slacks(self, transits: Transits) -> None:
        """Raises `Unsupported` at a stop that was said to be without slack, if that would change what can be driven.

        It changes nothing if there is no slack at all. It changes nothing either in a dimension whose cumuls start at 0
        and have upper bounds alone. There less slack is never worse, and the schedule has the least cumuls. So the
        sample of several trips keeps its meaning, in which only the stops that reload use slack.
        """
        is_free = self._slack_max == 0 or (
            self._fix_start and not self.breaks and not self.pays_for_waiting()
            and all(rules.low == 0 and not rules.forbidden for rules in self._stops.values())
        )
        for index, rules in sorted(self._stops.items()):
            if rules.is_without_slack and not (is_free and self._goes_up(transits, index)):
                raise refuse(f"SlackVar({index}).SetValue(0)", WHY_SLACK)

    def _goes_up(self, transits: Transits, index: int) -> bool:
        """Whether no transit from an index is negative."""
        node = self._manager.IndexToNode(index)
        return self._slack_max == 0 or all(min(transits.matrix(number)[node]) >= 0 for number in self.evaluators)

    def to_record(self, transits: Transits, pool: MatrixPool) -> Dimension:
        """The dimension as a model has it."""
        numbers = sorted(set(self.evaluators))
        each = [numbers.index(number) for number in self.evaluators]
        return Dimension(
            name=self._name,
            evaluators=[evaluator_of(transits, pool, number) for number in numbers],
            slack_max=self._slack_max,
            capacity=one_or_each(self._capacities),
            vehicle_evaluators=each if len(numbers) > 1 else None,
            fix_start=self._fix_start,
            visit=self._visit,
            nodes=self._node_rows(),
            starts=self._vehicle_rows(self._manager.GetStartIndex),
            ends=self._vehicle_rows(self._manager.GetEndIndex),
            breaks=[
                VehicleBreaks(vehicle, [Break(entry.start_min, entry.start_max, entry.duration) for entry in entries])
                for vehicle, entries in sorted(self.breaks.items()) if entries
            ],
            span_cost=one_or_each(self._span_costs),
            global_span_cost=self._global_span_cost,
        )

    def _node_rows(self) -> List[NodeRow]:
        """What is asked of visits."""
        return [
            NodeRow(self._manager.IndexToNode(index), rules.window(), rules.forbidden, rules.soft)
            for index, rules in sorted(self._stops.items())
            if rules.is_asked() and self._manager.is_visit(index)
        ]

    def _vehicle_rows(self, index_of: Any) -> List[VehicleRow]:
        """What is asked of the starts, or of the ends."""
        rules = [self._stops.get(index_of(vehicle)) for vehicle in range(len(self._span_costs))]
        return [
            VehicleRow(vehicle, rule.window(), rule.forbidden, rule.soft)
            for vehicle, rule in enumerate(rules) if rule is not None and rule.is_asked()
        ]


def one_or_each(values: List[int]) -> Any:
    """The one value that all vehicles have, or the list of them."""
    return values[0] if len(set(values)) == 1 else values


def evaluator_of(transits: Transits, pool: MatrixPool, number: int) -> Evaluator:
    """The evaluator of a registered callback: values of one index, else a matrix."""
    values = transits.values(number)
    return Evaluator(values=values) if values is not None else Evaluator(matrix=pool.number(transits.matrix(number)))
