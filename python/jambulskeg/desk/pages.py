"""What the page is told, as JSON: a day with its routes, costs and steps, and its charts as pieces of a page.

Texts from files are handed over as they are; the page writes them as text alone. Charts are those of `view`.
"""

from __future__ import annotations

from dataclasses import replace
from typing import Any, Dict, FrozenSet, List, Optional, Sequence, Tuple

from ..complete import CannotBeDriven
from ..errors import JambulskegError, NotMet
from ..reasons import why_left_out
from ..records import HORIZON, Allowed, Group, Model
from ..solution import Parts, Route
from ..view.compare import changes_table, costs_beside
from ..view.day import Day
from ..view.page import bar, charts, choice, details, facts, search
from ..view.sheets import sheets
from ..view.svg import escaped
from ..view.tables import PARTS, cost_table, left_table, parts_table, stops_table, visits_table
from ..view.timeline import axis_of
from .days import OpenDay
from .states import State, load_dimension
from .words import sentence_of

__all__ = ["beside", "checked", "drawn_parts", "parts_tree", "problem_of", "told"]

SECONDS = 0.4
"""How long it is measured why visits are left out."""
MOST_REASONS = 20
"""Of as many visits that is measured."""
MOST_STEPS = 60
"""How many of the latest steps are told at a time."""


def told(day: OpenDay) -> Dict[str, Any]:
    """A day as it is at its present step."""
    with day.lock:
        step = day.step
        out = {
            "id": day.identity, "name": day.name, "source": day.basis.source, "step": step.number,
            "can_undo": step.number > 0, "can_redo": day.can_redo, "doubts": list(day.basis.doubts),
            "steps": [{"number": entry.number, "words": entry.words, "cost": entry.cost, "fine": entry.is_fine}
                      for entry in day.path_to(step.number, MOST_STEPS)],
            "notice": day.notice, "clock": day.basis.clock, "has_places": bool(day.basis.places),
        }
        try:
            drawn, verdict = day.drawn(), day.known()
        except (CannotBeDriven, NotMet) as problem:
            sentence = sentence_of(problem, step.state.lists, day.within)
            return {**out, "status": "broken", "sentence": f"The program finds: {sentence}"}
        names = [drawn.names.node(node) for node in verdict.missing]
        return {
            **out, "status": status_of(day, verdict.is_fine), "missing": names,
            "cost": verdict.solution.cost, "parts": parts_tree(verdict.solution.parts), "time": time_name(drawn),
            "load": load_name(drawn.model), "vehicles": vehicles_of(drawn, step.state), "nodes": nodes_of(drawn),
            "left": list(verdict.solution.dropped), "further": [dict(row) for row in day.basis.further],
        }


def status_of(day: OpenDay, is_fine: bool) -> str:
    """What a day is: `empty`, `checking` if the program was not asked about all of it yet, `fine` if the program found
    that it keeps all rules, else `unfinished`."""
    if not any(day.step.state.lists):
        return "empty"
    return "checking" if day.is_draft else "fine" if is_fine else "unfinished"


def checked(day: OpenDay) -> Dict[str, Any]:
    """What the program found of the present step meanwhile, and what was undone since."""
    with day.lock:
        try:
            status = status_of(day, day.known().is_fine)
        except (CannotBeDriven, NotMet):
            status = "broken"
        return {"step": day.at, "status": status, "notice": day.notice}


def parts_tree(parts: Optional[Parts]) -> List[List[Any]]:
    """The parts of a cost by their names."""
    return [] if parts is None else [[name, getattr(parts, field)] for field, name, _ in PARTS]


def time_name(day: Day) -> Optional[str]:
    """The name of the dimension of times."""
    return None if day.time is None else day.model.dimensions[day.time].name


def load_name(model: Model) -> Optional[str]:
    """The name of the dimension of loads."""
    number = load_dimension(model)
    return None if number is None else model.dimensions[number].name


def vehicles_of(day: Day, state: State) -> List[Dict[str, Any]]:
    """Each vehicle with its route, and when its visits begin."""
    return [
        {
            "name": day.names.vehicle(route.vehicle), "colour": day.colour(route.vehicle),
            "letters": day.letters(route.vehicle), "off": route.vehicle in state.off,
            "pinned": route.vehicle in state.pinned, "visits": list(route.visits),
            "begins": begins_of(day, route), "load": load_of(day, route),
            "start": day.names.node(day.model.vehicles[route.vehicle].start),
            "end": day.names.node(day.model.vehicles[route.vehicle].end),
        }
        for route in day.solution.routes
    ]


def begins_of(day: Day, route: Route) -> List[str]:
    """When a used vehicle is at its stops, from the start to the end, as it is written."""
    if day.time is None or not route.nodes:
        return []
    return [day.names.time(value) for value in route.dimensions[day.time].cumuls]


def load_of(day: Day, route: Route) -> str:
    """The greatest load of a vehicle beside its capacity."""
    number = load_dimension(day.model)
    if number is None:
        return ""
    capacity = day.model.dimensions[number].capacity_of(route.vehicle)
    most = max(route.dimensions[number].cumuls) if route.nodes else 0
    return f"{most} of {capacity}" if capacity < HORIZON else str(most)


def nodes_of(day: Day) -> List[List[Any]]:
    """Each node: its name, window, demand and penalty (None: it must be made), what it belongs to, and the other visit
    of its pair. It belongs to 'visit', to 'end' if it is a start or end, to 'choice' if it is one of several."""
    model = day.model
    windows = {} if day.time is None else {row.node: row.window for row in model.dimensions[day.time].nodes}
    load = load_dimension(model)
    demands = None if load is None else model.dimensions[load].evaluators[0].values
    penalties, choices = penalties_of(model)
    visits = set(model.visits())
    partners = {pair.pickup: pair.delivery for pair in model.pairs}
    partners.update({pair.delivery: pair.pickup for pair in model.pairs})
    return [
        [
            day.names.node(node), windows.get(node), demands[node] if demands else 0, penalties.get(node),
            "choice" if node in choices else "visit" if node in visits else "end", partners.get(node),
        ]
        for node in range(model.nodes)
    ]


def penalties_of(model: Model) -> Tuple[Dict[int, Optional[int]], Dict[int, int]]:
    """The penalty of each visit that is in a group of its own, and the groups of those that are choices."""
    penalties: Dict[int, Optional[int]] = {}
    choices: Dict[int, int] = {}
    for number, group in enumerate(model.groups):
        for node in group.nodes:
            penalties[node] = group.penalty
            if len(group.nodes) > 1:
                choices[node] = number
    return penalties, choices


def inert(text: str) -> str:
    """A piece of a page whose styles the page sets itself, as its policy asks. Texts of files are escaped before, so
    they have no such mark."""
    return text.replace(' style="', ' data-style="')


def drawn_parts(day: OpenDay) -> Dict[str, str]:
    """The charts and tables of the present step, as pieces of a page, and why visits are left out."""
    with day.lock:
        drawn, missing, state = day.drawn(), day.known().missing, day.step.state
    drawn = with_reasons(drawn, missing, state.off | state.pinned)
    axis = axis_of([drawn])
    return {
        "charts": inert(choice(drawn) + charts(drawn, axis, day.basis.in_degrees)),
        "costs": inert(bar(drawn) + parts_table(drawn.solution.parts)
                       + details("What each vehicle costs", cost_table(drawn))),
        "left": left_table(drawn),
        "visits": search() + visits_table(drawn),
        "stops": details("Stops of each vehicle", stops_table(drawn)),
        "sheets": sheets(drawn),
    }


def with_reasons(day: Day, missing: Sequence[int], closed: FrozenSet[int]) -> Day:
    """The day with the reasons why visits are left out, of which `missing` must be made. Vans that are `closed` (off or
    pinned) have no place for them."""
    grouped = {node for group in day.model.groups for node in group.nodes}
    alone = [Group([node], 0) for node in missing if node not in grouped]
    shown = replace(day.model, groups=[*day.model.groups, *alone])
    if len(closed) == len(shown.vehicles) or not day.routes():
        return replace(day, model=shown)
    open_to = {node: [vehicle for vehicle in shown.vehicles_of(node) if vehicle not in closed]
               for node in day.solution.dropped[:MOST_REASONS]}
    few = [node for node, vehicles in open_to.items() if vehicles]
    rows = [row for row in shown.allowed if row.node not in open_to]
    asked = replace(shown, allowed=[*rows, *(Allowed(node, open_to[node]) for node in few)])
    return replace(day, model=shown, reasons=why_left_out(asked, replace(day.solution, dropped=few), SECONDS, missing))


def beside(days: Tuple[OpenDay, OpenDay], steps: Tuple[Optional[int], Optional[int]]) -> Dict[str, str]:
    """Two days, or two steps of one, side by side, as a piece of a page."""
    drawn = days[0].drawn(steps[0]), days[1].drawn(steps[1])
    titles = tuple(title_of(day, step) for day, step in zip(days, steps))
    one, other = titles
    axis = axis_of(drawn)
    columns = "".join(
        f"<section>{heading(title, entry)}{facts(entry)}{charts(entry, axis, day.basis.in_degrees)}</section>"
        for title, entry, day in zip(titles, drawn, days)
    )
    is_alike = names_of(drawn[0]) == names_of(drawn[1])
    table = changes_table(drawn, (one, other)).replace(' id="visits"', "", 1) if is_alike else (
        "<p>The two days have other visits, so only their costs and routes are beside each other.</p>"
    )
    return {"html": inert(f'{costs_beside(drawn, (one, other))}<div class="beside">{columns}</div>{table}')}


def heading(title: str, day: Day) -> str:
    """The heading of a day beside another."""
    return f"<h3>{escaped(title)}: cost {day.solution.cost}</h3>"


def title_of(day: OpenDay, step: Optional[int]) -> str:
    """How a day, or a step of it, is called beside another."""
    return day.name if step is None else f"{day.name}, step {step}: {day.steps[step].words}"


def names_of(day: Day) -> Sequence[str]:
    """The names of all nodes."""
    return [day.names.node(node) for node in range(day.model.nodes)]


def problem_of(problem: JambulskegError) -> Dict[str, Any]:
    """What went wrong, as JSON."""
    out: Dict[str, Any] = {"error": str(problem)}
    for name in ("file", "line", "column", "path"):
        if hasattr(problem, name):
            out[name] = getattr(problem, name)
    return out
