"""The chart of a day: a row for each vehicle, time along it.

A row has the names of its visits, and a bar of what the vehicle does: visits, drives, waiting, breaks. Below it is a
lane for each visit with a window. A lane has the window as a line, its forbidden intervals as gaps, and a mark where
the visit begins.
"""

from __future__ import annotations

from typing import Dict, Iterator, List, Sequence, Tuple

from ..records import HORIZON, StopRow
from ..solution import Route
from .axis import Axis
from .day import Day, Piece
from .svg import Picture, Point, along, boxes, group, line, rect, segments, shortened, stretched, text

__all__ = ["axis_of", "band", "grid", "heading", "name_of", "timeline"]

WIDTH = 1080
LABELS = 130
MARGIN = 14
HEAD = 24
"""The height of the numbers of the axis."""
NAMES = 13
BAR = 16
LANE = 3
LANES = 24
LEAST = 3
"""The least width of a visit or a break."""
GAP = 8
IDLE = 20
"""The height of the row of a vehicle that is not used."""
EVERY = 12
"""After this many vehicles the axis is written again."""
LETTER = 6.4
"""The width of a letter of a visit's name, rather too much."""
SPARE = 3
"""By how much words may seem to stick out at either end of a row."""
ROOMS = (("wl", 960), ("wm", 560), ("ws", 220))
"""The classes of words, and how wide a chart is at least when words of that class are shown."""
THICK = {"visit": BAR, "wait": 8, "break": 12}
WORDS = {"travel": "drives", "wait": "waits", "break": "break of"}


def axis_of(days: Sequence[Day]) -> Axis:
    """The axis of some days: from the first start, or break, to the last end, and a little of the windows beside it."""
    numbers = [at for day in days for route in day.routes() for at in (day.stops(route)[0], day.stops(route)[-1])]
    for piece in (piece for day in days for route in day.routes() for piece in day.breaks(route)):
        numbers += [piece.low, piece.high]
    low, high = min(numbers, default=0), max(numbers, default=1)
    room = (high - low) // 8
    near = [edge for day in days for edge in window_edges(day) if low - room <= edge <= high + room]
    return Axis(min([low, *near]), max([high, *near]), MARGIN, WIDTH - 2 * MARGIN)


def window_edges(day: Day) -> Iterator[int]:
    """The ends of the windows of a day."""
    for row in day.asked_by().values():
        yield from row.window or ()


def timeline(day: Day, axis: Axis) -> Picture:
    """The chart of a day along an axis."""
    y: float = 0
    labels: List[str] = []
    body: List[str] = []
    bands: List[str] = []
    words: List[str] = []
    for place, route in enumerate(day.solution.routes):
        if place % EVERY == 0:
            y += HEAD
            words.append(heading(day, axis, y))
        height = row_height(day, route)
        labels.append(name_of(day, route, y + (NAMES if route.nodes else 0) + BAR - 4))
        bands.append(band(place, y, height))
        body.append(row_of(day, axis, route, y))
        words.append(names_of(day, axis, route, y))
        y += height
    title = f"Each vehicle's day along {day.unit}"
    marks = stretched((WIDTH, y), [*bands, *grid(day, axis, y), *body])
    return Picture(title, described(day), y, marks + "".join(words), WIDTH, "".join(labels), LABELS, True)


def band(place: int, y: float, height: float) -> str:
    """The ground of a row."""
    return rect("band" if place % 2 else "band even", (0, y), (WIDTH, height))


def described(day: Day) -> str:
    """The chart in words."""
    unused = len(day.solution.routes) - len(day.routes())
    return (
        f"{len(day.routes())} vehicles leave, {unused} are not used. A row for each vehicle shows its visits, drives, "
        "waiting and breaks, and below them the windows of its visits. The table 'Stops of each vehicle' says the same."
    )


def grid(day: Day, axis: Axis, height: float) -> List[str]:
    """A line at each number of the axis."""
    ticks = axis.ticks(12, day.names.clock is not None)
    return [line("tick", (axis.at(tick), 0), (axis.at(tick), height)) for tick in ticks]


def heading(day: Day, axis: Axis, y: float) -> str:
    """The numbers of the axis."""
    ticks = axis.ticks(12, day.names.clock is not None)
    words = [(axis.at(tick) / WIDTH, day.names.time(tick)) for tick in ticks]
    marks = [
        along(f"number fit {kinds}", share, y - 8, word, "middle")
        for (share, word), kinds in zip(words, rooms(words, True)) if kinds
    ]
    return group("axis", marks)


def rooms(words: Sequence[Tuple[float, str]], in_middle: bool) -> List[str]:
    """For each of some words along a row, at their shares of the width, the classes of charts that have room for it."""
    out = [""] * len(words)
    for kind, width in ROOMS:
        free: float = -SPARE
        for at, (share, word) in enumerate(words):
            long = LETTER * len(word)
            begin = share * width - (long / 2 if in_middle else 0)
            if begin >= free and begin + long <= width + SPARE and word:
                out[at] += f"{' ' if out[at] else ''}{kind}"
                free = begin + long + 3
    return out


def name_of(day: Day, route: Route, y: float) -> str:
    """The name of a vehicle, with its letters on its colour."""
    name = text("name", (32, y), shortened(day.names.vehicle(route.vehicle), 14))
    if not route.nodes:
        return group("label idle", [name], route.vehicle)
    marks = [
        rect(f"swatch c{day.colour(route.vehicle)}", (4, y - 12), (24, 15)),
        text("letters", (16, y), day.letters(route.vehicle), "middle"),
    ]
    return group("label", [*marks, name], route.vehicle)


def row_height(day: Day, route: Route) -> float:
    """The height of the row of a route."""
    return NAMES + BAR + LANE * lanes_of(day, route) + GAP if route.nodes else IDLE


def lanes_of(day: Day, route: Route) -> int:
    """How many lanes the windows of a route take."""
    return min(LANES, sum(1 for row in day.rows(route)[1:-1] if row is not None))


def row_of(day: Day, axis: Axis, route: Route, y: float) -> str:
    """The row of a vehicle."""
    if not route.nodes:
        return ""
    top = y + NAMES
    marks = list(shift_of(day, axis, route, top))
    marks += bars_of(day, axis, route, top)
    marks += visits_of(day, axis, route, top)
    marks += windows_of(day, axis, route, top + BAR + 3)
    return group("row", marks, route.vehicle)


def shift_of(day: Day, axis: Axis, route: Route, top: float) -> Iterator[str]:
    """From when to when the vehicle may be out."""
    if day.time is None:
        return
    first, last = day.rows(route)[0], day.rows(route)[-1]
    most = day.model.dimensions[day.time].capacity_of(route.vehicle)
    low = first.window[0] if first is not None and first.window else 0
    high = min(most, last.window[1] if last is not None and last.window else HORIZON)
    title = f"{day.names.vehicle(route.vehicle)} may be out from {day.names.time(low)} to {day.names.time(high)}"
    yield rect("shift", (axis.at(low), top - 1), (axis.at(high) - axis.at(low), BAR + 2), title)


def bars_of(day: Day, axis: Axis, route: Route, top: float) -> List[str]:
    """The bar of a vehicle: its drives as one line, its waiting as one area, and each visit and break by itself."""
    pieces = day.pieces(route)
    ends = [(axis.at(piece.low), axis.at(piece.high), piece.kind) for piece in pieces]
    middle = top + BAR / 2
    marks = [
        segments("travel", [((low, middle), (high, middle)) for low, high, kind in ends if kind == "travel"]),
        boxes("wait", [((low, middle - THICK["wait"] / 2), (high - low, THICK["wait"]))
                       for low, high, kind in ends if kind == "wait"]),
    ]
    before: Dict[int, List[Piece]] = {}
    for piece in pieces:
        before.setdefault(piece.stop + 1, []).extend([] if piece.kind == "visit" else [piece])
    for piece in [*pieces, *brief_visits(day, route)]:
        if piece.kind in ("visit", "break"):
            low, width = axis.at(piece.low), axis.at(piece.high) - axis.at(piece.low)
            corner, size = (low, middle - THICK[piece.kind] / 2), (max(LEAST, width), THICK[piece.kind])
            kind = f"visit c{day.colour(route.vehicle)}" if piece.kind == "visit" else piece.kind
            marks.append(rect(kind, corner, size, piece_title(day, route, piece, before.get(piece.stop, []))))
    return marks


def brief_visits(day: Day, route: Route) -> List[Piece]:
    """The visits of a route that take no time."""
    stops = day.stops(route)
    return [
        Piece("visit", stops[stop], stops[stop], stop)
        for stop in range(1, len(stops) - 1) if not day.service(route, stop)
    ]


def piece_title(day: Day, route: Route, piece: Piece, before: Sequence[Piece]) -> str:
    """A visit or a break in words; of a visit also what comes before it."""
    name = day.names.vehicle(route.vehicle)
    times = f"{day.names.time(piece.low)} to {day.names.time(piece.high)} ({piece.high - piece.low})"
    if piece.kind == "break":
        return f"{name} takes a break, {times}"
    way = ", ".join(f"{WORDS[entry.kind]} {entry.high - entry.low}" for entry in before)
    return f"{day.names.node(route.nodes[piece.stop])}: {name}, {times}" + (f"; before it: {way}" if way else "")


def visits_of(day: Day, axis: Axis, route: Route, top: float) -> List[str]:
    """A mark where each stop begins."""
    ticks = [((axis.at(at), top), (axis.at(at), top + BAR)) for at in day.stops(route)]
    return [segments("begin", ticks[1:-1]), segments("end", [ticks[0], ticks[-1]])]


def names_of(day: Day, axis: Axis, route: Route, y: float) -> str:
    """The name of each visit above its mark, in the charts that have room for it."""
    if not route.nodes:
        return group("row idle", [along("note", axis.left / WIDTH, y + BAR - 4, "not used")], route.vehicle)
    stops = list(zip(route.nodes, day.stops(route)))[1:-1]
    words = [(axis.at(at) / WIDTH, shortened(day.names.short(node), 14)) for node, at in stops]
    marks = [
        along(f"stop fit {kinds}", share, y + NAMES - 3, word)
        for (share, word), kinds in zip(words, rooms(words, False)) if kinds
    ]
    return group("row", marks, route.vehicle)


def windows_of(day: Day, axis: Axis, route: Route, top: float) -> List[str]:
    """The windows of the visits of a route, each in its lane, and marks where these begin."""
    marks: List[str] = []
    begins: List[Tuple[Point, Point]] = []
    stops = day.stops(route)
    rows = [(stop, row) for stop, row in enumerate(day.rows(route)[:-1]) if stop and row is not None]
    for place, (stop, row) in enumerate(rows):
        at = (axis.at(stops[stop]), top + LANE * (place % LANES) + 1)
        marks += window_of(day, axis, row, route.nodes[stop], at[1])
        marks += late_of(day, axis, row, stops[stop], at[1])
        begins.append((at, at))
    return [*marks, segments("at", begins)]


def window_of(day: Day, axis: Axis, row: StopRow, node: int, y: float) -> Iterator[str]:
    """The window of a visit, and its forbidden intervals."""
    low, high = row.window or (axis.low, axis.high)
    name = day.names.node(node)
    if row.window or row.forbidden:
        title = f"{name} may begin from {day.names.time(low)} to {day.names.time(high)}" if row.window else ""
        yield line("window", (axis.at(low), y), (axis.at(high), y), title)
    for least, most in row.forbidden:
        if least <= axis.high and most >= axis.low:
            title = f"{name} may not begin from {day.names.time(least)} to {day.names.time(most)}"
            yield line("forbidden", (axis.at(least), y), (axis.at(most), y), title)


def late_of(day: Day, axis: Axis, row: StopRow, cumul: int, y: float) -> Iterator[str]:
    """From a soft bound to a visit that begins later."""
    if row.soft is not None and cumul > row.soft.bound:
        cost = row.soft.coefficient * (cumul - row.soft.bound)
        title = f"{cumul - row.soft.bound} beyond the soft bound {day.names.time(row.soft.bound)} costs {cost}"
        yield line("late", (axis.at(row.soft.bound), y), (axis.at(cumul), y), title)


