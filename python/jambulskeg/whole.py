"""What only the whole model tells of its fields: lengths, and numbers of nodes, vehicles and matrices that are there.

With it a `Model` that was made can be looked into without a fault. The rules on values (codes 20 to 23) are left to the
program. They are about negative arc costs and transits, and about vehicles that SAVINGS asks to be alike.
"""

from __future__ import annotations

from typing import TYPE_CHECKING, Any, Iterator, Optional, Sequence, Set

from .errors import Fault
from .kinds import is_list

if TYPE_CHECKING:
    from .records import Dimension, FirstVehicle, Model


def has_rule(vehicle: "FirstVehicle") -> bool:
    """Whether a vehicle says another rule of schedules than that of format 1."""
    rule = getattr(vehicle, "schedule", None)
    return rule is not None and rule.value != "earliest"


def model_faults(model: "Model") -> Iterator[Fault]:
    """Each fault of a model whose records are right by themselves, in the order of the file."""
    visits = Visits(model)
    for number, matrix in enumerate(model.matrices):
        yield from sized(matrix, model.nodes, f"/matrices/{number}", "nodes")
    for number, vehicle in enumerate(model.vehicles):
        path = f"/vehicles/{number}"
        yield from known(vehicle.start, model.nodes, f"{path}/start", "node")
        yield from known(vehicle.end, model.nodes, f"{path}/end", "node")
        yield from known(vehicle.costs, len(model.matrices), f"{path}/costs", "matrix")
        if model.format == 1 and has_rule(vehicle):
            yield Fault(13, f"{path}/schedule", "a model whose vehicles have this field says format 2")
    names = Unlike("dimension")
    for number, dimension in enumerate(model.dimensions):
        yield from names.faults(dimension.name, f"/dimensions/{number}/name")
        yield from dimension_faults(model, dimension, visits, f"/dimensions/{number}")
    yield from visit_faults(model, visits)


def sized(values: Any, length: int, path: str, of_what: str) -> Iterator[Fault]:
    """A fault if a list has not an entry for each node, or vehicle; one value and None are for all."""
    if is_list(values) and len(values) != length:
        yield Fault(15, path, f"there are {len(values)} entries for {length} {of_what}")


def known(number: Optional[int], length: int, path: str, what: str) -> Iterator[Fault]:
    """A fault if a number is none of those that there are."""
    if number is not None and number >= length:
        yield Fault(14, path, f"there is no {what} {number}")


class Visits:
    """The visits of a model."""

    def __init__(self, model: "Model") -> None:
        self._nodes, self._visits = model.nodes, set(model.visits())

    def faults(self, node: int, path: str) -> Iterator[Fault]:
        """A fault if a node is not there, or is a start or an end."""
        yield from known(node, self._nodes, path, "node")
        if node < self._nodes and node not in self._visits:
            yield Fault(18, path, f"node {node} is a start or an end, and no visit")


class Unlike:
    """Entries of which each may be there once."""

    def __init__(self, what: str) -> None:
        self._what = what
        self._earlier: Set[object] = set()

    def faults(self, entry: object, path: str) -> Iterator[Fault]:
        """A fault if an entry is in an earlier place; notes it."""
        if entry in self._earlier:
            yield Fault(16, path, f"{entry!r} is in an earlier {self._what}")
        self._earlier.add(entry)


def dimension_faults(model: "Model", dimension: "Dimension", visits: Visits, path: str) -> Iterator[Fault]:
    """The faults of a dimension."""
    nodes, vehicles = model.nodes, len(model.vehicles)
    for number, evaluator in enumerate(dimension.evaluators):
        place = f"{path}/evaluators/{number}"
        yield from known(evaluator.matrix, len(model.matrices), f"{place}/matrix", "matrix")
        yield from sized(evaluator.values, nodes, f"{place}/values", "nodes")
    yield from sized(dimension.vehicle_evaluators, vehicles, f"{path}/vehicle_evaluators", "vehicles")
    yield from sized(dimension.capacity, vehicles, f"{path}/capacity", "vehicles")
    yield from sized(dimension.visit, nodes, f"{path}/visit", "nodes")
    for number, row in enumerate(dimension.nodes):
        yield from visits.faults(row.node, f"{path}/nodes/{number}/node")
    yield from rows_known([row.vehicle for row in dimension.starts], vehicles, f"{path}/starts")
    yield from rows_known([row.vehicle for row in dimension.ends], vehicles, f"{path}/ends")
    yield from rows_known([row.vehicle for row in dimension.breaks], vehicles, f"{path}/breaks")
    yield from sized(dimension.span_cost, vehicles, f"{path}/span_cost", "vehicles")


def rows_known(numbers: Sequence[int], vehicles: int, path: str) -> Iterator[Fault]:
    """A fault at each row of a vehicle that is not there."""
    for place, number in enumerate(numbers):
        yield from known(number, vehicles, f"{path}/{place}/vehicle", "vehicle")


def visit_faults(model: "Model", visits: Visits) -> Iterator[Fault]:
    """The faults of groups, pairs and allowed vehicles."""
    grouped, paired, allowed = Unlike("group"), Unlike("pair"), Unlike("row")
    for number, group in enumerate(model.groups):
        for place, node in enumerate(group.nodes):
            path = f"/groups/{number}/nodes/{place}"
            yield from (*visits.faults(node, path), *grouped.faults(node, path))
    for number, pair in enumerate(model.pairs):
        for path, node in ((f"/pairs/{number}/pickup", pair.pickup), (f"/pairs/{number}/delivery", pair.delivery)):
            yield from (*visits.faults(node, path), *paired.faults(node, path))
    for number, row in enumerate(model.allowed):
        path = f"/allowed/{number}/node"
        yield from (*visits.faults(row.node, path), *allowed.faults(row.node, path))
        for place, vehicle in enumerate(row.vehicles):
            yield from known(vehicle, len(model.vehicles), f"/allowed/{number}/vehicles/{place}", "vehicle")
