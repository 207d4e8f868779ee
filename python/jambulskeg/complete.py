"""Plans made by hand, from lists of visits.

`complete` gives lists their schedules and costs, or says why they cannot be driven. `leave_later` lets drivers leave
later, and `shorten` makes routes as short as they can be. `shape_faults` finds faults of a solution's form.

    plan = complete(model, [[3, 1], [2]])       # vehicle 0 makes the visits 3 and 1, vehicle 1 the visit 2
    plan = leave_later(model, plan)
    plan = shorten(model, plan)
"""

from __future__ import annotations

import operator
from dataclasses import replace
from typing import Any, Iterator, List, Mapping, Sequence

from .arguments import A_MODEL, A_SOLUTION, asks
from .costs import parts_of
from .errors import Fault, JambulskegError, Refused
from .intervals import common, in_words
from .kinds import Row, between
from .model import meets, spans
from .program import ProgramLike
from .records import MOST_NODES, NODE, Model
from .schedules import Line, chosen, line_of, reach_of, rows_of, tight
from .solution import Plan, Route, Solution, Status, Stop

__all__ = ["CannotBeDriven", "complete", "leave_later", "shape_faults", "shorten"]


class CannotBeDriven(JambulskegError, ValueError):
    """No schedule of the list of `vehicle` keeps the rules of the dimension of the name `dimension`.

    `stop` is the first stop of the list that no cumul is left for, the start being stop 0. `node` is the node there.
    """

    def __init__(self, vehicle: int, dimension: str, stop: int, node: int, why: str) -> None:
        self.vehicle, self.dimension, self.stop, self.node = vehicle, dimension, stop, node
        super().__init__(f"vehicle {vehicle} cannot drive its list in the dimension '{dimension}': {why}")


@asks(model=A_MODEL)
def complete(
    model: Model, lists: Sequence[Sequence[int]], program: ProgramLike = None, *, checked: bool = True
) -> Solution:
    """The solution whose vehicles make these visits in this order, with the schedule that the program would choose.

    `lists` has the visits of each vehicle, without start and end; an empty list leaves it at home. Raises `Refused` if
    the lists are none of the model's nodes, and `CannotBeDriven` if a list has no schedule. If `checked`, it raises
    `NotMet` with the rule that the lists break otherwise: a visit twice, a pair apart, a vehicle that may not ..
    """
    faults = list(Row(Row(NODE, 0, MOST_NODES), len(model.vehicles), len(model.vehicles)).faults(lists, ""))
    faults += list(unknown_nodes(model, lists)) if not faults else []
    if faults:
        raise Refused(faults[0], "the lists")
    routes = [route_of(model, vehicle, [*map(operator.index, visits)]) for vehicle, visits in enumerate(lists)]
    solution = solution_of_routes(model, routes)
    return meets(model, solution, program) if checked else solution


def unknown_nodes(model: Model, lists: Sequence[Sequence[int]]) -> Iterator[Fault]:
    """A fault at each node of the lists that the model does not have, or that is no visit."""
    visits = set(model.visits())
    for vehicle, nodes in enumerate(lists):
        for place, node in enumerate(nodes):
            if node not in visits:
                yield Fault(18 if node < model.nodes else 14, f"/{vehicle}/{place}", f"{node} is no visit")


def solution_of_routes(model: Model, routes: Sequence[Route]) -> Solution:
    """The solution of routes with their schedules, as one that no search has touched."""
    parts = parts_of(model, routes)
    made = {node for route in routes for node in route.visits}
    return Solution(
        cost=parts.total(),
        dropped=[node for node in model.visits() if node not in made],
        first_cost=parts.total(),
        parts=parts,
        routes=routes,
        solutions=1,
        status=Status.SUCCESS,
        stop=Stop.FIRST,
        tries=0,
    )


def route_of(model: Model, vehicle: int, visits: Sequence[int]) -> Route:
    """The route of a vehicle with its chosen schedules. Raises `CannotBeDriven` if there is none."""
    if not visits:
        return Route(vehicle, (), ())
    nodes = [model.vehicles[vehicle].start, *visits, model.vehicles[vehicle].end]
    plans: List[Plan] = []
    for number in range(len(model.dimensions)):
        line = line_of(model, number, vehicle, nodes)
        plan = chosen(line, model.vehicles[vehicle].schedule)
        if plan is None:
            raise cannot_be_driven(line, vehicle, nodes)
        plans.append(plan)
    return Route(vehicle, nodes, plans)


def cannot_be_driven(line: Line, vehicle: int, nodes: Sequence[int]) -> CannotBeDriven:
    """Why a line without a schedule has none: the first stop that no cumul is left for, or the breaks."""
    reach = reach_of(line)
    for stop, levels in enumerate(reach.reached):
        if not any(levels):
            return CannotBeDriven(vehicle, line.name, stop, nodes[stop], why_not(line, nodes, stop))
    stop = len(nodes) - 1
    return CannotBeDriven(vehicle, line.name, stop, nodes[stop], "its breaks find no place in the day")


def why_not(line: Line, nodes: Sequence[int], stop: int) -> str:
    """In words, why no cumul is left for a stop."""
    allows = f"node {nodes[stop]} (stop {stop}) allows {in_words(line.allowed[stop])}"
    if stop == 0:
        return allows
    before = reach_of(line).reached[stop - 1]
    known = sorted(piece for numbers in before for piece in numbers)
    low, high = known[0][0], max(piece[1] for piece in known)
    transit = line.transits[stop - 1]
    breaks = ", if its breaks leave room" if line.breaks else ""
    return (
        f"{allows}, and from node {nodes[stop - 1]} it comes there at "
        f"{between(low + transit, high + transit + line.slack_max)}{breaks}"
    )


@asks(model=A_MODEL, solution=A_SOLUTION)
def leave_later(
    model: Model, solution: Solution, program: ProgramLike = None, *, checked: bool = True
) -> Solution:
    """The same routes, each day ending as early as it can and beginning as late as that allows, if it is no dearer.

    No stop comes later than it did beyond its soft bound. A vehicle that does not ask for `tight` has the earliest
    schedule: a driver who may wait leaves early and is paid for waiting. Raises `NotMet` if the solution breaks a rule.
    If it is not `checked`, it has to meet its model.
    """
    solution = meets(model, solution, program) if checked else solution
    for vehicle, route in enumerate(solution.routes):
        for number in range(len(route.dimensions)):
            plan = later_plan(model, number, route)
            if plan == route.dimensions[number]:
                continue
            later = with_plan(model, solution, vehicle, number, plan)
            if later.cost <= solution.cost:
                solution = later
    return meets(model, solution, program) if checked else solution


def with_plan(model: Model, solution: Solution, vehicle: int, number: int, plan: Plan) -> Solution:
    """The solution with another schedule of one route in one dimension."""
    route, routes = solution.routes[vehicle], list(solution.routes)
    plans = list(route.dimensions)
    plans[number] = plan
    routes[vehicle] = replace(route, dimensions=plans)
    parts = parts_of(model, routes)
    return replace(solution, routes=routes, parts=parts, cost=parts.total())


def later_plan(model: Model, number: int, route: Route) -> Plan:
    """The tight schedule of a route in a dimension that brings no stop further above its soft bound."""
    line = line_of(model, number, route.vehicle, route.nodes)
    rows = rows_of(model.dimensions[number], route.vehicle, route.nodes)
    printed = route.dimensions[number]
    allowed = [
        common(numbers, [(0, max(row.soft.bound, cumul))]) if row is not None and row.soft is not None else numbers
        for row, numbers, cumul in zip(rows, line.allowed, printed.cumuls)
    ]
    return tight(replace(line, allowed=allowed)) or printed


@asks(model=A_MODEL, solution=A_SOLUTION)
def shorten(model: Model, solution: Solution, program: ProgramLike = None, *, checked: bool = True) -> Solution:
    """The same routes, each with the schedule of its least span, as `model.spans` tells it, if it is no dearer.

    Unlike `leave_later` it lets a day end later if it is shorter so. A dimension in which some vehicle has breaks keeps
    its schedules. Raises `NotMet` if the solution breaks a rule.
    """
    numbers = {dimension.name: number for number, dimension in enumerate(model.dimensions)}
    for span in spans(model, solution, program):
        plan = Plan(span.dimension, span.cumuls, span.slacks, ())
        shorter = with_plan(model, solution, span.vehicle, numbers[span.dimension], plan)
        if shorter.cost <= solution.cost:
            solution = shorter
    return meets(model, solution, program) if checked else solution


@asks(model=A_MODEL)
def shape_faults(model: Model, tree: Any) -> List[Fault]:
    """Each fault of the form of a solution, given as the JSON object, with its path. There is none if `check` finds no
    fault of the rule `shape`. The rules of the form are those of docs/FORMAT.md."""
    faults = list(Solution.faults_of(tree))
    faults += [fault for fault in route_faults(model, tree)] if not faults else []
    return faults


def route_faults(model: Model, tree: Mapping[str, Any]) -> Iterator[Fault]:
    """The faults of a solution whose fields are of the right kinds, against its model."""
    if len(tree["routes"]) != len(model.vehicles):
        yield Fault(15, "/routes", f"there are {len(model.vehicles)} vehicles, used or not")
    for place, node in enumerate(tree["dropped"]):
        if not 0 <= node < model.nodes:
            yield Fault(14, f"/dropped/{place}", f"the model has no node {node}")
    for place, route in enumerate(tree["routes"][:len(model.vehicles)]):
        path = f"/routes/{place}"
        if route["vehicle"] != place:
            yield Fault(14, f"{path}/vehicle", f"the routes are in the order of the vehicles, here {place}")
        for at, node in enumerate(route["nodes"]):
            if not 0 <= node < model.nodes:
                yield Fault(14, f"{path}/nodes/{at}", f"the model has no node {node}")
        yield from plan_faults(model, place, route, path)


def plan_faults(model: Model, vehicle: int, route: Mapping[str, Any], path: str) -> Iterator[Fault]:
    """The faults of the form of one route's nodes and schedules."""
    stops = len(route["nodes"])
    if stops in (1, 2):
        yield Fault(15, f"{path}/nodes", "a used vehicle has a start, visits and an end, an unused one no nodes")
    names = [dimension.name for dimension in model.dimensions] if stops else []
    if [plan["name"] for plan in route["dimensions"]] != names:
        yield Fault(15, f"{path}/dimensions", f"the dimensions of the route are {names}, in this order")
        return
    for number, plan in enumerate(route["dimensions"]):
        breaks = len(model.dimensions[number].breaks_of(vehicle))
        for key, length in (("cumuls", stops), ("slacks", stops - 1), ("breaks", breaks)):
            if len(plan[key]) != length:
                yield Fault(15, f"{path}/dimensions/{number}/{key}", f"there are {length} of them")
