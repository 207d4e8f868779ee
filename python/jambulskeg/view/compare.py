"""What two days of one model have in common, and where they part."""

from __future__ import annotations

from typing import Any, List, Tuple

from .day import Day
from .tables import PARTS, clock_cell, clock_head, row, table, van_cell

__all__ = ["changes_table", "costs_beside", "signed"]


def costs_beside(days: Tuple[Day, Day], titles: Tuple[str, str]) -> str:
    """The parts of both costs and how they differ."""
    one, other = days[0].solution.parts, days[1].solution.parts
    rows = [
        row([name, getattr(one, field), getattr(other, field), signed(getattr(other, field) - getattr(one, field))])
        for field, name, _ in PARTS
    ]
    rows.append(row(["all", one.total(), other.total(), signed(other.total() - one.total())], ' class="sum"'))
    rows.append(row(["vehicles that leave", *(len(day.routes()) for day in days),
                     signed(len(days[1].routes()) - len(days[0].routes()))]))
    heads = ["part", f"#{titles[0]}", f"#{titles[1]}", "change"]
    return table("Both costs", heads, ["<tbody>", *rows, "</tbody>"])


def signed(value: int) -> str:
    """A difference with its sign."""
    return f"{value:+}" if value else "0"


def changes_table(days: Tuple[Day, Day], titles: Tuple[str, str]) -> str:
    """Each visit on both days: who makes it, and when; a mark says what changed."""
    heads = ["visit", *(f"vehicle, {title}" for title in titles)]
    heads += [clock_head(days[0], f"begins, {title}") for title in titles] if days[0].is_timed else []
    made = [day.made_by() for day in days]
    routes = [{route.vehicle: route for route in day.routes()} for day in days]
    rows = []
    for node in days[0].model.visits():
        places = [found.get(node, (-1, -1)) for found in made]
        cells: List[Any] = [days[0].names.node(node)]
        cells += [van_cell(days[0], vehicle) if stop > 0 else "left out" for vehicle, stop in places]
        begins = [day.stops(by[vehicle])[stop] if stop > 0 else None
                  for day, by, (vehicle, stop) in zip(days, routes, places)]
        if days[0].is_timed:
            cells += ["" if at is None else clock_cell(day, at) for day, at in zip(days, begins)]
        rows.append(row([*cells, changed(places, begins)]))
    return table("Each visit on both days", [*heads, "what changed"], ["<tbody>", *rows, "</tbody>"], "visits", "sorts")


def changed(places: List[Tuple[int, int]], begins: List[Any]) -> str:
    """What differs between two days of a visit, in words."""
    (one, first), (other, second) = places
    if first < 0 or second < 0:
        return "" if first == second else "now left out" if second < 0 else "now made"
    if one != other:
        return "another vehicle"
    if begins[0] != begins[1]:
        return "later" if begins[1] > begins[0] else "earlier"
    return "" if first == second else "another place in the route"
