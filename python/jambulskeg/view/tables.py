"""The tables of a page: the parts of the cost, what was left out, each visit, and the stops of each vehicle."""

from __future__ import annotations

from typing import Any, Dict, Iterable, Iterator, List, Optional, Sequence, Tuple

from ..costs import arcs_of, soft_of, span_of
from ..records import NodeRow
from ..solution import Parts, Route
from .day import Day, Penalty
from .svg import escaped

__all__ = [
    "Markup", "PARTS", "badge", "cost_table", "left_table", "parts_table", "stops_table", "table", "van_cell",
    "visits_table", "visits_text",
]

PARTS: Sequence[Tuple[str, str, str]] = (
    ("arcs", "arcs", "the arc costs of all vehicles that leave"),
    ("fixed", "fixed costs", "what it costs that these vehicles leave at all"),
    ("span", "spans", "what each vehicle's way from its start to its end costs in the dimensions"),
    ("global_", "global spans", "from the first start to the last end of all vehicles"),
    ("soft", "lateness", "what lies beyond soft bounds"),
    ("penalty", "penalties", "visits that are left out"),
)
"""The parts of a cost: the field, its name, and what it is."""


class Markup(str):
    """A cell that is HTML already: whatever it has of a model or a file was escaped."""


def badge(day: Day, vehicle: int) -> Markup:
    """The letters of a vehicle on its colour."""
    return Markup(f'<b class="badge c{day.colour(vehicle)}">{escaped(day.letters(vehicle))}</b>')


def van_cell(day: Day, vehicle: int) -> Markup:
    """The name of a vehicle, with its badge."""
    return Markup(f"{badge(day, vehicle)} {escaped(day.names.vehicle(vehicle))}")


def visits_text(count: int) -> str:
    """How many visits, in words."""
    return "1 visit" if count == 1 else f"{count} visits"


def table(
    caption: str, heads: Sequence[str], bodies: Iterable[str], identity: str = "", shape: str = ""
) -> str:
    """A table of bodies that are HTML already; the first column has the names of the rows. A head that begins with #
    is over numbers. Shapes are `wide` (as wide as the page) and `sorts` (sorted by its heads, wide too)."""
    cells = "".join(
        f'<th scope="col" class="number">{escaped(head[1:])}</th>' if head.startswith("#") else
        f'<th scope="col">{escaped(head)}</th>' for head in heads
    )
    name = (f' id="{identity}"' if identity else "") + (f' class="{shape}"' if shape else "")
    return (
        f'<div class="scroll far" tabindex="0" role="region" aria-label="{escaped(caption)}">'
        f"<table{name}><caption>{escaped(caption)}</caption><thead><tr>{cells}</tr></thead>{''.join(bodies)}</table>"
        '</div><p class="hint" aria-hidden="true">the table goes on to the right \u203a</p>'
    )


def row(cells: Sequence[Any], marks: str = "", key: str = "", heads: Sequence[str] = ()) -> str:
    """A row; numbers are set to the right, and a key of a colour is before the first cell. With `heads` each cell
    knows its own, for screens on which the row is no row any more."""
    first, *rest = cells
    colour = f'<i class="key {key}"></i>' if key else ""
    known = [f' data-head="{escaped(head.lstrip("# "))}"' for head in heads[1:]] or [""] * len(rest)
    words = "".join(
        f'<td class="number"{head}>{cell}</td>' if isinstance(cell, int) else f"<td{head}>{marked(cell)}</td>"
        for cell, head in zip(rest, known)
    )
    return f'<tr{marks}><th scope="row">{colour}{marked(first)}</th>{words}</tr>'


def marked(cell: object) -> str:
    """A cell as HTML."""
    return cell if isinstance(cell, Markup) else escaped(cell)


def parts_table(parts: Parts) -> str:
    """The parts of a cost, each with what it is."""
    rows = [row([name, getattr(parts, field), words], key=f"part-{field}") for field, name, words in PARTS]
    rows.append(row(["all", parts.total(), "the cost of the day"], ' class="sum"'))
    return table("The parts of the cost", ["part", "#cost", "what it is"], ["<tbody>", *rows, "</tbody>"])


def cost_table(day: Day) -> str:
    """What each vehicle costs; what only all of them together cost is in the table of the parts."""
    rows = []
    for route in day.routes():
        arcs, fixed = arcs_of(day.model, route), day.model.vehicles[route.vehicle].fixed
        span = sum(span_of(day.model, number, route, plan) for number, plan in enumerate(route.dimensions))
        soft = sum(soft_of(day.model, number, route, plan) for number, plan in enumerate(route.dimensions))
        rows.append(row([
            van_cell(day, route.vehicle), len(route.visits), arcs, fixed, span, soft, arcs + fixed + span + soft
        ]))
    heads = ["vehicle", "#visits", "#arcs", "#fixed cost", "#spans", "#lateness", "#together"]
    return table("What each vehicle costs", heads, ["<tbody>", *rows, "</tbody>"], shape="sorts")


def left_table(day: Day) -> str:
    """What was left out, and why it costs."""
    penalties = day.penalties()
    if not penalties:
        return "<p>Every visit is made.</p>"
    rows = [left_row(day, penalty) for penalty in penalties]
    rows.append(row(["all", day.solution.parts.penalty, "", ""], ' class="sum"'))
    heads = ["left out", "#cost", "what it costs", "why, with the others as they are"]
    return table("What was left out, and why", heads, ["<tbody>", *rows, "</tbody>"], shape="wide")


def left_row(day: Day, penalty: Penalty) -> str:
    """The row of a group of which visits are left out."""
    group = penalty.group
    left = ", ".join(day.names.node(node) for node in penalty.left)
    made = len(group.nodes) - len(penalty.left)
    if group.penalty is None:
        costs = f"exactly {group.max} of {len(group.nodes)} are made; the others cost nothing"
    elif len(group.nodes) == 1:
        reason = day.reasons.get(penalty.left[0])
        is_duty = reason is not None and reason.is_required
        costs = "it should be made" if is_duty else f"it may be left out at a penalty of {group.penalty}"
    else:
        costs = f"of {len(group.nodes)} visits {made} are made and {group.max} could be: "
        costs += f"{penalty.short} times the penalty {group.penalty}"
    whys = {node: day.why_left(node) for node in penalty.left}
    is_one = len(set(whys.values())) == 1
    why = next(iter(whys.values())) if is_one else "; ".join(f"{day.names.node(n)}: {whys[n]}" for n in whys)
    return row([left, penalty.cost, costs, why])


def visits_table(day: Day, identity: str = "visits") -> str:
    """Each visit of the model: who makes it and when, and what it asks."""
    made, asked = day.made_by(), day.asked_by()
    routes = {route.vehicle: route for route in day.routes()}
    partners = partners_of(day)
    heads = ["visit", "vehicle", "#stop"]
    heads += ["pair"] if partners else []
    heads += [clock_head(day, "begins"), "window", "forbidden", "beyond the soft bound"] if day.is_timed else []
    heads += [f" {heading}" for heading in day.cells(0)]
    rows: List[Tuple[List[Any], str]] = []
    for node in day.model.visits():
        vehicle, stop = made.get(node, (-1, -1))
        cells: List[Any] = [day.names.node(node), van_cell(day, vehicle) if stop > 0 else "left out"]
        cells.append(stop if stop > 0 else "")
        cells += [partners.get(node, "")] if partners else []
        begins = day.stops(routes[vehicle])[stop] if stop > 0 else None
        cells += time_cells(day, asked.get(node), begins) if day.is_timed else []
        cells += [day.cells(node).get(heading, "") for heading in day.cells(0)]
        rows.append((cells, "" if stop > 0 else ' class="left"'))
    shown = [at for at, head in enumerate(heads) if at < 3 or any(cells[at] != "" for cells, _ in rows)]
    lines = [row([cells[at] for at in shown], marks) for cells, marks in rows]
    return table("Each visit", [heads[at] for at in shown], ["<tbody>", *lines, "</tbody>"], identity, "sorts")


def partners_of(day: Day) -> Dict[int, str]:
    """For each node of a pair the other one, in words."""
    out = {}
    for pair in day.model.pairs:
        out[pair.pickup] = f"delivered at {day.names.node(pair.delivery)}"
        out[pair.delivery] = f"picked up at {day.names.node(pair.pickup)}"
    return out


def time_cells(day: Day, asked: Optional[NodeRow], begins: Optional[int]) -> List[Any]:
    """When a visit begins and what it asks of its time."""
    late = ""
    if asked is not None and asked.soft is not None and begins is not None and begins > asked.soft.bound:
        late = f"{begins - asked.soft.bound} at {asked.soft.coefficient} each"
    return [
        "" if begins is None else clock_cell(day, begins),
        range_text(day, asked.window) if asked is not None and asked.window else "",
        ", ".join(range_text(day, entry) for entry in asked.forbidden) if asked is not None else "",
        late,
    ]


def clock_cell(day: Day, value: int) -> Any:
    """A time in a cell: a number if it is written as one."""
    return value if day.names.clock is None else day.names.time(value)


def clock_head(day: Day, words: str) -> str:
    """The head of a column of times, which are numbers if the day has no clock."""
    return words if day.names.clock is not None else f"#{words}"


def range_text(day: Day, window: Sequence[int]) -> str:
    """An interval of times in words."""
    return f"{day.names.time(window[0])} to {day.names.time(window[1])}"


def stops_table(day: Day) -> str:
    """The stops of each vehicle in order, with all that the charts show."""
    loads = day.loads()
    heads = ["stop", *([clock_head(day, day.unit), "until", "then"] if day.is_timed else [f"#{day.unit}"])]
    heads += [f"#{day.model.dimensions[number].name}" for number in loads]
    bodies = []
    for route in day.routes():
        name = f"{van_cell(day, route.vehicle)}: {visits_text(len(route.visits))}"
        head = f'<tr><th colspan="{len(heads)}" scope="rowgroup">{name}</th></tr>'
        rows = "".join(stop_rows(day, route, loads))
        bodies.append(f'<tbody data-vehicle="{route.vehicle}">{head}{rows}</tbody>')
    return table("Stops of each vehicle", heads, bodies, shape="wide")


def stop_rows(day: Day, route: Route, loads: Sequence[int]) -> Iterator[str]:
    """The rows of a route, one for each stop."""
    stops, then = day.stops(route), pieces_text(day, route)
    until = {piece.stop: piece.high for piece in day.pieces(route) if piece.kind == "visit"}
    if then.get(-1):
        yield row(["before the start", "", "", then[-1], *("" for _ in loads)])
    for stop, node in enumerate(route.nodes):
        cells: List[Any] = [day.names.node(node), clock_cell(day, stops[stop]) if day.is_timed else stops[stop]]
        if day.is_timed:
            cells += [day.names.time(until[stop]) if stop in until else "", then.get(stop, "")]
        yield row([*cells, *(route.dimensions[number].cumuls[stop] for number in loads)])


def pieces_text(day: Day, route: Route) -> Dict[int, str]:
    """For each stop what the vehicle does after it, in words."""
    words = {"travel": "drives", "wait": "waits", "break": "break"}
    out: Dict[int, List[str]] = {}
    for piece in day.pieces(route):
        if piece.kind in words:
            at = f" {day.names.time(piece.low)} to {day.names.time(piece.high)}" if piece.kind == "break" else ""
            out.setdefault(piece.stop, []).append(f"{words[piece.kind]} {piece.high - piece.low}" + at)
    return {stop: ", ".join(pieces) for stop, pieces in out.items()}
