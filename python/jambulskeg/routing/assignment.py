"""What a script reads of a solution: `Assignment.Value(routing.NextVar(index))` and its like."""

from __future__ import annotations

from typing import Any, Dict, List, Optional, Tuple

from ..intervals import Interval
from ..records import Model
from ..schedules import line_of, numbers_of, ranges, rows_of
from ..solution import Route, Solution
from .manager import RoutingIndexManager
from .refused import Named, refuse
from .variables import IntervalVar, IntVar, VarKind


class IntervalVarElement(Named):
    """A break in a solution."""

    def __init__(self, variable: IntervalVar, start: Optional[int]) -> None:
        self._variable, self._start = variable, start

    def Var(self) -> IntervalVar:
        """The break as the model has it."""
        return self._variable

    def PerformedValue(self) -> int:
        """1 if the break is taken, 0 if its vehicle is not used."""
        return int(self._start is not None)

    def StartValue(self) -> int:
        """When it starts; the least start of its range if it is not taken."""
        return self._variable.start_min if self._start is None else self._start

    def DurationValue(self) -> int:
        """How long it lasts."""
        return self._variable.duration

    def EndValue(self) -> int:
        """When it ends."""
        return self.StartValue() + self.DurationValue()


class IntervalVarContainer(Named):
    """The breaks of a solution, by vehicle and in order."""

    def __init__(self, elements: List[IntervalVarElement]) -> None:
        self._elements = elements

    def Size(self) -> int:
        """How many breaks there are."""
        return len(self._elements)

    def Element(self, place: int) -> IntervalVarElement:
        """The break at a place from 0."""
        return self._elements[place]


class Assignment(Named):
    """A solution as a script asks for it.

    `solution` is the solution itself, and `model` the model that it was found to meet. `Value` tells its schedule, by
    the rule of `RoutingModel.schedule`. `Min` and `Max` of a cumul tell how early and how late the stop may come if its
    vehicle starts and ends when it does. What is left out, and a vehicle that is not used, has the least cumul that it
    may have.
    """

    def __init__(
        self, manager: RoutingIndexManager, model: Model, solution: Solution, breaks: List[Tuple[int, int, IntervalVar]]
    ) -> None:
        self.model, self.solution = model, solution
        self._manager, self._breaks = manager, breaks
        self._names = [dimension.name for dimension in model.dimensions]
        self._next: Dict[int, int] = {}
        self._vehicle: Dict[int, int] = {}
        self._values: Dict[Tuple[VarKind, str, int], int] = {}
        self._ranges: Dict[Tuple[int, int], Dict[int, Interval]] = {}
        for vehicle, route in enumerate(solution.routes):
            self._note(vehicle, route)

    def _note(self, vehicle: int, route: Route) -> None:
        """Notes what a route gives its indices."""
        indices = self._indices(vehicle, route)
        self._next.update(zip(indices, indices[1:]))
        self._vehicle.update((index, vehicle) for index in indices)
        for plan in route.dimensions:
            for index, cumul in zip(indices, plan.cumuls):
                self._values[VarKind.CUMUL, plan.name, index] = cumul
            for index, slack in zip(indices, plan.slacks):
                self._values[VarKind.SLACK, plan.name, index] = slack

    def _indices(self, vehicle: int, route: Route) -> List[int]:
        """The indices of the stops of a vehicle."""
        start, end = self._manager.GetStartIndex(vehicle), self._manager.GetEndIndex(vehicle)
        return [start, *map(self._manager.NodeToIndex, route.visits), end]

    def ObjectiveValue(self) -> int:
        """The cost."""
        return self.solution.cost

    def Value(self, variable: IntVar) -> int:
        """The value of a variable: of a NextVar the index itself if it is left out, of a VehicleVar -1 there."""
        if not isinstance(variable, IntVar):
            raise refuse(f"Assignment.Value({variable!r})", "it is no variable of the model")
        index = variable.index
        if variable.kind is VarKind.NEXT:
            return self._next.get(index, index)
        if variable.kind is VarKind.VEHICLE:
            return self._vehicle.get(index, -1)
        if variable.kind is VarKind.ACTIVE:
            return int(index in self._vehicle)
        known = self._values.get((variable.kind, variable.dimension, index))
        return self._unused(variable) if known is None else known

    def Min(self, variable: IntVar) -> int:
        """The least value of a cumul; of another variable its value."""
        return self._range(variable)[0]

    def Max(self, variable: IntVar) -> int:
        """The greatest value of a cumul; of another variable its value."""
        return self._range(variable)[1]

    def _range(self, variable: IntVar) -> Interval:
        """The range of a variable; of a route all at once, since a script asks for one after the other."""
        value = self.Value(variable)
        vehicle = self._vehicle.get(variable.index, -1)
        if variable.kind is not VarKind.CUMUL or vehicle < 0 or not self.solution.routes[vehicle].nodes:
            return value, value
        number = self._names.index(variable.dimension)
        if (number, vehicle) not in self._ranges:
            route = self.solution.routes[vehicle]
            line = line_of(self.model, number, vehicle, route.nodes)
            self._ranges[number, vehicle] = dict(
                zip(self._indices(vehicle, route), ranges(line, route.dimensions[number]))
            )
        return self._ranges[number, vehicle][variable.index]

    def _unused(self, variable: IntVar) -> int:
        """The least value of a cumul or slack that no route has."""
        if variable.kind is VarKind.SLACK:
            return 0
        dimension = self.model.dimensions[self._names.index(variable.dimension)]
        vehicle = self._vehicle.get(variable.index, 0)
        nodes = [-1, self._manager.IndexToNode(variable.index), -1]
        start, visit, end = rows_of(dimension, vehicle, nodes)
        is_visit = self._manager.is_visit(variable.index)
        row = visit if is_visit else start if variable.index == self._manager.GetStartIndex(vehicle) else end
        numbers = numbers_of(row, dimension.capacity_of(vehicle))
        return numbers[0][0] if numbers else 0

    def IntervalVarContainer(self) -> IntervalVarContainer:
        """The breaks of the solution."""
        elements = []
        for number, vehicle, entry in self._breaks:
            plans = self.solution.routes[vehicle].dimensions
            order = [known for at, of, known in self._breaks if (at, of) == (number, vehicle)].index(entry)
            elements.append(IntervalVarElement(entry, plans[number].breaks[order] if plans else None))
        return IntervalVarContainer(elements)


def as_assignment(value: Any, name: str) -> Assignment:
    """An assignment that was handed in. Raises `Unsupported` if it is none."""
    if not isinstance(value, Assignment):
        raise refuse(name, "an assignment of ReadAssignmentFromRoutes or of a search is asked for")
    return value
