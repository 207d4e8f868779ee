"""What lists of visits with given schedules cost: the six parts, as docs/FORMAT.md has them."""

from __future__ import annotations

from typing import Sequence

from .records import Model
from .schedules import rows_of
from .solution import Parts, Plan, Route

__all__ = ["parts_of"]


def parts_of(model: Model, routes: Sequence[Route]) -> Parts:
    """The parts of the cost of routes at their cumuls; each vehicle's route once, in order."""
    used = [route for route in routes if route.nodes]
    return Parts(
        arcs=sum(arcs_of(model, route) for route in used),
        fixed=sum(model.vehicles[route.vehicle].fixed for route in used),
        global_=sum(global_of(model, number, used) for number in range(len(model.dimensions))),
        penalty=penalty_of(model, used),
        soft=sum(soft_of(model, number, route, plan) for route in used for number, plan in enumerate(route.dimensions)),
        span=sum(span_of(model, number, route, plan) for route in used for number, plan in enumerate(route.dimensions)),
    )


def arcs_of(model: Model, route: Route) -> int:
    """The arc costs of a route."""
    return sum(model.arc_cost(route.vehicle, tail, head) for tail, head in zip(route.nodes, route.nodes[1:]))


def global_of(model: Model, number: int, used: Sequence[Route]) -> int:
    """The cost of a dimension from the least start cumul to the greatest end cumul of used vehicles."""
    plans = [route.dimensions[number].cumuls for route in used]
    if not plans:
        return 0
    latest, first = max(cumuls[-1] for cumuls in plans), min(cumuls[0] for cumuls in plans)
    return model.dimensions[number].global_span_cost * (latest - first)


def penalty_of(model: Model, used: Sequence[Route]) -> int:
    """The penalties of groups with fewer visits than they may have."""
    active = {node for route in used for node in route.visits}
    return sum(
        group.penalty * (group.max - len(active.intersection(group.nodes)))
        for group in model.groups if group.penalty is not None
    )


def soft_of(model: Model, number: int, route: Route, plan: Plan) -> int:
    """What the cumuls of a route above their soft bounds cost."""
    rows = rows_of(model.dimensions[number], route.vehicle, route.nodes)
    return sum(
        row.soft.coefficient * max(0, cumul - row.soft.bound)
        for row, cumul in zip(rows, plan.cumuls) if row is not None and row.soft is not None
    )


def span_of(model: Model, number: int, route: Route, plan: Plan) -> int:
    """What a route costs from its first cumul to its last."""
    return model.dimensions[number].span_cost_of(route.vehicle) * (plan.cumuls[-1] - plan.cumuls[0])
