"""What a script has said of its model, and the model of the program that says the same."""

from __future__ import annotations

from typing import Any, Dict, List, Optional, Tuple

from ..records import Allowed, Group, Model, Pair, Policy, ScheduleRule, Search, Vehicle
from .dimension import MatrixPool, RoutingDimension
from .manager import RoutingIndexManager
from .refused import refuse
from .solver import Solver
from .transits import Transits
from .variables import IntervalVar, VarKind, VisitRules


class Said:
    """The calls of a script, gathered: what arcs and vehicles cost, dimensions, groups, pairs, vehicles of visits."""

    def __init__(self, manager: RoutingIndexManager) -> None:
        vehicles = manager.GetNumberOfVehicles()
        self.manager, self.transits, self.solver = manager, Transits(manager), Solver()
        self.costs: List[Optional[int]] = [None] * vehicles
        self.fixed = [0] * vehicles
        self.policies = [Policy.ANY] * vehicles
        self.dimensions: Dict[str, RoutingDimension] = {}
        self.groups: List[Tuple[List[int], int, int]] = []
        self.pairs: List[Tuple[int, int]] = []
        self.visits: Dict[int, VisitRules] = {}
        self.begins_late = False

    def group(self, number: int) -> Tuple[List[int], int, int]:
        """A group: its nodes, its penalty (-1 without one), how many are made at most. Raises `IndexError`."""
        if not 0 <= number < len(self.groups):
            raise IndexError(f"there is no disjunction {number}")
        return self.groups[number]

    def rules(self, index: int) -> VisitRules:
        """Which vehicles may make the visit of an index."""
        node = self.manager.IndexToNode(index)
        return self.visits.setdefault(node, VisitRules(self.manager.GetNumberOfVehicles()))

    def schedule(self) -> ScheduleRule:
        """The rule of schedules nearest to OR-Tools: tight if waiting is paid, or a late start was asked for."""
        late = self.begins_late or any(dimension.pays_for_waiting() for dimension in self.dimensions.values())
        return ScheduleRule.TIGHT if late else ScheduleRule.EARLIEST

    def to_model(self, search: Search, schedule: Optional[ScheduleRule]) -> Model:
        """The model, whose vehicles choose their schedules by this rule; by that of `schedule()` if none is given.

        Raises `Unsupported` at what it cannot say, `Refused` at a value that it cannot have.
        """
        schedule = schedule or self.schedule()
        self._check_same()
        self._check_apart()
        self._check_ordered()
        self._check_required()
        for dimension in self.dimensions.values():
            dimension.check_slacks(self.transits)
        pool, size = MatrixPool(), range(self.manager.GetNumberOfNodes())
        vehicles = range(self.manager.GetNumberOfVehicles())
        zero = tuple((0,) * len(size) for _ in size)
        costs = [pool.number(zero if cost is None else self.transits.matrix(cost)) for cost in self.costs]
        ends = zip(self.manager.starts(), self.manager.ends(), costs, self.fixed, self.policies)
        return Model(
            nodes=len(size),
            vehicles=[Vehicle(*entry, schedule) for entry in ends],
            dimensions=[dimension.to_record(self.transits, pool) for dimension in self.dimensions.values()],
            matrices=pool.matrices,
            groups=[
                Group(nodes, None if penalty < 0 else penalty, most) for nodes, penalty, most in self.groups
                if not self._is_made_alone(nodes)
            ],
            pairs=[Pair(*pair) for pair in self.pairs],
            allowed=[
                Allowed(node, rules.vehicles()) for node, rules in sorted(self.visits.items())
                if len(rules.vehicles()) < len(vehicles)
            ],
            search=search,
            format=1 if schedule is ScheduleRule.EARLIEST else 2,
        )

    def breaks(self) -> List[Tuple[int, int, IntervalVar]]:
        """Each break with the number of its dimension and its vehicle."""
        return [
            (number, vehicle, entry)
            for number, dimension in enumerate(self.dimensions.values())
            for vehicle, entries in sorted(dimension.breaks.items()) for entry in entries
        ]

    def _check_same(self) -> None:
        """Raises `Unsupported` at a constraint on two vehicles that no pair says."""
        for relation, indices in self.solver.same:
            one, other = map(self.manager.IndexToNode, indices)
            is_pair = (one, other) in self.pairs or (other, one) in self.pairs
            if not is_pair and not (relation.left.kind is VarKind.VEHICLE and self._share_one_vehicle(*indices)):
                raise refuse(
                    f"Solver.Add({relation.in_words()})",
                    "it is had for a pickup and its delivery, and for required visits of one vehicle "
                    "(SetAllowedVehiclesForIndex)",
                )

    def _check_apart(self) -> None:
        """Raises `Unsupported` if two visits are to be on different vehicles and no allowed vehicles say so."""
        for relation, indices in self.solver.apart:
            vehicles = [set(self.rules(index).vehicles()) for index in indices]
            if vehicles[0] & vehicles[1] or all(map(self._may_be_left_out, indices)):
                raise refuse(
                    f"Solver.Add({relation.in_words()})",
                    "allow them vehicles of which none is the same (SetAllowedVehiclesForIndex), one of them required",
                )

    def _share_one_vehicle(self, one: int, other: int) -> bool:
        """Whether two required visits have the same one vehicle that may make them."""
        vehicles = [self.rules(index).vehicles() for index in (one, other)]
        is_required = not any(map(self._may_be_left_out, (one, other)))
        return is_required and vehicles[0] == vehicles[1] and len(vehicles[0]) == 1

    def _may_be_left_out(self, index: int) -> bool:
        """Whether a group may leave the visit of an index out."""
        node = self.manager.IndexToNode(index)
        return any(
            node in nodes and (penalty >= 0 or most < len(nodes)) and not self._is_made_alone(nodes)
            for nodes, penalty, most in self.groups
        )

    def _is_made_alone(self, nodes: List[int]) -> bool:
        """Whether a group has one visit alone, which was said to be made: then the group says nothing."""
        return len(nodes) == 1 and nodes[0] in self.visits and self.visits[nodes[0]].must_be_made

    def _check_ordered(self) -> None:
        """Raises `Unsupported` at an order of two cumuls that no pair says."""
        for relation, (name, *indices) in self.solver.ordered:
            pair: Any = tuple(map(self.manager.IndexToNode, indices))
            if pair not in self.pairs or min(map(self.transits.least, self.dimensions[name].evaluators)) < 0:
                raise refuse(
                    f"Solver.Add({relation.in_words()})",
                    "it is had for a pickup and its delivery alone, in a dimension without negative transits",
                )

    def _check_required(self) -> None:
        """Raises `Unsupported` at a visit that a variable says must be made, and that a group may leave out."""
        for nodes, penalty, most in self.groups:
            for node in nodes if len(nodes) > 1 and (penalty >= 0 or most < len(nodes)) else ():
                if node in self.visits and self.visits[node].must_be_made:
                    raise refuse(
                        f"VehicleVar without -1, or ActiveVar 1, for node {node}",
                        "the visit is in a disjunction of several that may leave it out",
                    )
