"""The benchmark files of Solomon (customers with windows) and of Li and Lim (pickups and deliveries with windows)."""

from __future__ import annotations

from dataclasses import dataclass, replace
from fractions import Fraction
from typing import List, Optional, Sequence

from ..places import Rounding
from ..records import HORIZON, Dimension, Evaluator, Model, NodeRow, Pair, Search, Vehicle, VehicleRow
from .reading import BadFile, Line, Point, Scale, lines_of

MOST_DEMAND = 2**30


@dataclass(frozen=True)
class Stop:
    """A line of such a file: where, how much, from when to when, how long."""

    point: Point
    demand: int
    ready: int
    due: int
    service: int


def read_solomon(
    path: str, factor: int = 10, rounding: Rounding = Rounding.DOWN, fixed: int = 0, search: Search = Search()
) -> Model:
    """The model of a file of Solomon's form, as the sets of 100 to 1000 customers have it.

    Distances and times are multiplied by `factor` and distances then rounded: 10 and down is the usual choice, one
    decimal that is cut off. `fixed` is what a vehicle costs. Raises `BadFile`, `OSError`, `Refused`.
    """
    lines = lines_of(path)
    heads = {line.words[0].upper(): place for place, line in reversed([*enumerate(lines)])}
    for head in ("VEHICLE", "CUSTOMER"):
        if head not in heads:
            raise BadFile(path, "", f"it has no line {head}")
    fleet = numbers_after(lines, heads["VEHICLE"], path)
    stops = stops_of(lines[first_row(lines, heads["CUSTOMER"], path):], Scale(Fraction(factor), rounding))
    return model_of(stops, fleet, Scale(Fraction(factor), rounding), fixed, search)


def read_li_lim(
    path: str, factor: int = 10, rounding: Rounding = Rounding.DOWN, fixed: int = 0, search: Search = Search()
) -> Model:
    """The model of a file of Li and Lim's form: a pickup and its delivery name each other in the last two columns.

    The first line has the vehicles, their capacity and their speed, which is 1. The rest is as in `read_solomon`.
    """
    lines = lines_of(path)
    if not lines:
        raise BadFile(path, "", "it has no line")
    if len(lines[0].words) > 2 and lines[0].number_at(2) != 1:
        raise lines[0].fault("the speed is not 1, and a model has no speeds")
    scale = Scale(Fraction(factor), rounding)
    stops, rows = stops_of(lines[1:], scale), lines[1:]
    model = model_of(stops, lines[0], scale, fixed, search)
    return replace(model, pairs=[pair for pair in (pair_of(line, rows) for line in rows) if pair])


def pair_of(line: Line, rows: Sequence[Line]) -> Optional[Pair]:
    """The pair of a pickup; None of a delivery and of the depot. Raises `BadFile` if the two do not name each other."""
    pickup, delivery = (line.whole_at(place, 0, len(rows) - 1) for place in (7, 8))
    if delivery == 0:
        return None
    node = line.whole_at(0, 0, len(rows) - 1)
    if pickup or rows[delivery].whole_at(7, 0, len(rows) - 1) != node:
        raise line.fault(f"pickup {node} and delivery {delivery} do not name each other")
    return Pair(node, delivery)


def numbers_after(lines: Sequence[Line], head: int, path: str) -> Line:
    """The line of numbers after a heading."""
    return lines[first_row(lines, head, path)]


def first_row(lines: Sequence[Line], head: int, path: str) -> int:
    """The place of the first line of numbers after a heading."""
    for place in range(head + 1, len(lines)):
        if lines[place].words[0].lstrip("+-").isdigit():
            return place
    raise BadFile(path, f"line {lines[head].number}", "no line of numbers follows")


def stops_of(lines: Sequence[Line], scale: Scale) -> List[Stop]:
    """The stops of lines that are numbered from 0, the depot first."""
    stops: List[Stop] = []
    for line in lines:
        if line.whole_at(0, 0, HORIZON) != len(stops):
            raise line.fault(f"this should be the line of number {len(stops)}")
        stops.append(Stop(
            (line.number_at(1), line.number_at(2)), line.whole_at(3, -MOST_DEMAND, MOST_DEMAND),
            *(scale.whole(line.number_at(place)) for place in (4, 5, 6)),
        ))
        if stops[-1].ready > stops[-1].due:
            raise line.fault("its window ends before it begins")
    return stops


def model_of(stops: Sequence[Stop], fleet: Line, scale: Scale, fixed: int, search: Search) -> Model:
    """The model: vehicles leave the depot and come back to it within its window; a visit may wait for its window."""
    if not stops:
        raise fleet.fault("there is no depot and no customer")
    count, capacity = fleet.whole_at(0, 1, HORIZON), fleet.whole_at(1, 0, HORIZON)
    depot = (stops[0].ready, stops[0].due)
    day = [VehicleRow(vehicle, depot) for vehicle in range(count)]
    service = [stop.service for stop in stops]
    time = Dimension(
        name="time", evaluators=[Evaluator(matrix=0, values=service)], slack_max=stops[0].due, capacity=stops[0].due,
        visit=service, starts=day, ends=day,
        nodes=[NodeRow(node, (stop.ready, stop.due)) for node, stop in enumerate(stops) if node],
    )
    load = Dimension(
        name="load", evaluators=[Evaluator(values=[stop.demand for stop in stops])], slack_max=0, capacity=capacity,
        fix_start=True,
    )
    return Model(
        nodes=len(stops), matrices=[scale.matrix([stop.point for stop in stops])],
        vehicles=[Vehicle(0, 0, fixed=fixed) for _ in range(count)], dimensions=[time, load], search=search,
    )
