"""A day for other programs: a table for spreadsheets, a map for geographic programs, a calendar.

All three are texts, made of a model, a solution that meets it, and the two spreadsheets that the day came from. Those
by the names that end in `_of` are made of a `view.Day`. Nothing is read or written here.

    tables = read_day("places.csv", "vans.csv")
    text = plan_csv(model, solution, tables)
"""

from __future__ import annotations

import csv
import datetime
import hashlib
import io
import json
import re
from typing import Dict, Iterator, List, Mapping, Optional, Sequence

from .errors import JambulskegError
from .places import DayTables
from .reasons import Reason
from .records import Model
from .solution import Route, Solution
from .tables import another
from .view import Day, day_of
from .view.downloads import Download
from .view.stops import Stop, stops_of

__all__ = [
    "CannotBeExported", "clock_text", "csv_of", "day_of_tables", "downloads", "geojson", "geojson_of", "guarded",
    "icalendar", "icalendar_of", "plan_csv",
]

MARK = "\ufeff"
"""Without this first character Excel takes a text in UTF-8 for another one."""
FORMULA = re.compile(r"[=@\t\r]|[+-](?![\d\s().,/-]*$)")
"""How a cell begins that a spreadsheet would take for a formula; a number or a phone number is none."""
LINE = 75
"""The most bytes of a line of a calendar."""


class CannotBeExported(JambulskegError, ValueError):
    """The day lacks what the file is made of: places for a map, times of day for a calendar."""


def day_of_tables(
    model: Model, solution: Solution, tables: Optional[DayTables] = None, *, time: Optional[str] = None,
    clock: Optional[int] = None, reasons: Optional[Mapping[int, Reason]] = None,
) -> Day:
    """The day of a solution with the names of its spreadsheets, whose times are minutes after midnight.

    `time` and `clock` are those of `view.day_of`; with the vehicles of a spreadsheet the time 0 is midnight if no
    `clock` says else. Without `reasons` none are told. Raises `CannotBeDrawn` if the tables are not the model's.
    """
    if tables is None:
        return day_of(model, solution, time=time, clock=clock, reasons=reasons or {})
    return day_of(
        model, solution, places=tables.places, vehicles=[van.name for van in tables.vans], time=time,
        clock=0 if clock is None and tables.vans else clock, further=tables.further, van_further=tables.van_further,
        reasons=reasons or {},
    )


def plan_csv(
    model: Model, solution: Solution, tables: Optional[DayTables] = None, *, time: Optional[str] = None,
    clock: Optional[int] = None,
) -> str:
    """The plan as a table, whose cells are parted as in the file of places; see `csv_of`."""
    day = day_of_tables(model, solution, tables, time=time, clock=clock)
    return csv_of(day, tables.delimiter if tables is not None else ",")


def csv_of(day: Day, delimiter: str = ",") -> str:
    """A day as a table with a row for each stop, and at its end one without a van for each visit left out.

    Its columns are van, stop (0 at the start), name, arrival, begins, departure, the loads after the stop, and the
    further columns of the places. A text that a spreadsheet would take for a formula has an apostrophe before it.
    """
    heads = ["van", "stop", "name", "arrival", "begins", "departure", *load_names(day)]
    own, further = len(heads), list(day.cells(0))
    for heading in further:
        heads.append(another(heading, heads))
    out = io.StringIO()
    writer = csv.writer(out, delimiter=delimiter)
    writer.writerow([guarded(heading) for heading in heads])
    for cells, node in plan_rows(day):
        filled = [*cells, *[""] * (own - len(cells)), *(day.cells(node).get(heading, "") for heading in further)]
        writer.writerow([guarded(str(cell)) for cell in filled])
    return MARK + out.getvalue()


def load_names(day: Day) -> List[str]:
    """The names of the loads of a day; `load` if it has none."""
    return [day.model.dimensions[number].name for number in day.loads()] or ["load"]


def plan_rows(day: Day) -> "Iterator[tuple[List[object], int]]":
    """The cells of each row of a plan as far as the day has them, with the node."""
    for route in day.routes():
        for stop in stops_of(day, route):
            times = [clock_text(day, value) for value in (stop.arrival, stop.begins, stop.departure)]
            names = [day.names.vehicle(route.vehicle), stop.number, day.names.node(stop.node)]
            yield [*names, *times, *stop.loads], stop.node
    for node in day.solution.dropped:
        yield ["", "", day.names.node(node)], node


def guarded(cell: str) -> str:
    """The text of a cell that no spreadsheet takes for a formula: an apostrophe comes before one that it would."""
    return f"'{cell}" if FORMULA.match(cell) else cell


def clock_text(day: Day, value: Optional[int]) -> str:
    """A time as spreadsheets read it, 26:00 being two at night; a number if the day has no clock."""
    if value is None or day.names.clock is None:
        return "" if value is None else str(value)
    minutes = value + day.names.clock
    return f"{minutes // 60}:{minutes % 60:02}"


def geojson(
    model: Model, solution: Solution, tables: Optional[DayTables] = None, *, time: Optional[str] = None,
    clock: Optional[int] = None,
) -> str:
    """The plan as a map; see `geojson_of`."""
    return geojson_of(day_of_tables(model, solution, tables, time=time, clock=clock))


def geojson_of(day: Day) -> str:
    """A day as a map: routes as lines and stops as points (GeoJSON, RFC 7946).

    The coordinates are those of the places: longitude and latitude if x and y are these, else x and y as they are.
    Raises `CannotBeExported` if no places are known.
    """
    if not day.places:
        raise CannotBeExported("a map (GeoJSON) asks for the places of the nodes")
    features = [line_feature(day, route) for route in day.routes()]
    for route in day.routes():
        features += [point_feature(day, stop.node, stop) for stop in stops_of(day, route)]
    features += [point_feature(day, node, None) for node in day.solution.dropped]
    return json.dumps({"type": "FeatureCollection", "features": features}, ensure_ascii=False, indent=1) + "\n"


def line_feature(day: Day, route: Route) -> Dict[str, object]:
    """The line of a route."""
    points = [[day.places[node].x, day.places[node].y] for node in route.nodes]
    properties: Dict[str, object] = {"van": day.names.vehicle(route.vehicle), "visits": len(route.visits)}
    for heading, cell in day.van_cells(route.vehicle).items():
        properties[another(heading, list(properties))] = cell
    return {"type": "Feature", "geometry": {"type": "LineString", "coordinates": points}, "properties": properties}


def point_feature(day: Day, node: int, stop: Optional[Stop]) -> Dict[str, object]:
    """The point of a stop, or of a visit that is left out, which has no van."""
    properties: Dict[str, object] = {"name": day.names.node(node), "van": None}
    if stop is not None:
        properties.update(van=day.names.vehicle(stop.vehicle), stop=stop.number)
        times = (("arrival", stop.arrival), ("begins", stop.begins), ("departure", stop.departure))
        properties.update({word: clock_text(day, value) for word, value in times if value is not None})
        properties.update(zip(load_names(day), stop.loads))
    for heading, cell in day.cells(node).items():
        properties[another(heading, list(properties))] = cell
    where = [day.places[node].x, day.places[node].y]
    return {"type": "Feature", "geometry": {"type": "Point", "coordinates": where}, "properties": properties}


def icalendar(
    model: Model, solution: Solution, date: datetime.date, tables: Optional[DayTables] = None, *,
    time: Optional[str] = None, clock: Optional[int] = None,
) -> str:
    """The plan as a calendar; see `icalendar_of`."""
    day = day_of_tables(model, solution, tables, time=time, clock=clock)
    return icalendar_of(day, date, tables is not None and tables.degrees)


def icalendar_of(day: Day, date: datetime.date, in_degrees: bool = False) -> str:
    """The visits and breaks of a day as a calendar of a date (iCalendar, RFC 5545), in the local time of its reader. In
    degrees, each visit says where it is. Raises `CannotBeExported` if the day has no times of day."""
    if not has_clock(day):
        raise CannotBeExported("a calendar (iCalendar) asks for times of day: say at which one the time 0 lies")
    lines = ["BEGIN:VCALENDAR", "VERSION:2.0", "PRODID:-//jambulskeg//plan of a day//EN", "CALSCALE:GREGORIAN"]
    for route in day.routes():
        for stop in stops_of(day, route):
            lines += stop_event(day, date, stop, in_degrees)
        for piece in day.breaks(route):
            lines += event(day, date, route.vehicle, (piece.low, piece.high), "break")
    return "".join(folded(line) + "\r\n" for line in [*lines, "END:VCALENDAR"])


def has_clock(day: Day) -> bool:
    """Whether the times of a day are times of day."""
    return day.is_timed and day.names.clock is not None


def stop_event(day: Day, date: datetime.date, stop: Stop, in_degrees: bool) -> List[str]:
    """The event of a stop: a visit with all that is known of its place, or the start or the end of the route."""
    name, begins = day.names.node(stop.node), stop.begins
    if begins is None:
        words = f"{'leave' if not stop.number else 'back at'} {name}"
        at = (stop.arrival if stop.number else stop.departure) or 0
        return event(day, date, stop.vehicle, (at, at), words)
    notes = [f"stop {stop.number}", *(f"{heading}: {cell}" for heading, cell in day.cells(stop.node).items() if cell)]
    more = [f"LOCATION:{plain(name)}", "DESCRIPTION:" + plain("\n".join(notes))]
    if in_degrees and day.places:
        more.append(f"GEO:{day.places[stop.node].y:.6f};{day.places[stop.node].x:.6f}")
    return event(day, date, stop.vehicle, (begins, stop.departure or begins), name, more)


def event(
    day: Day, date: datetime.date, vehicle: int, span: "tuple[int, int]", words: str, more: Sequence[str] = ()
) -> List[str]:
    """The lines of an event of a vehicle; one that takes no time has no end."""
    van = day.names.vehicle(vehicle)
    mark = hashlib.sha256(f"{date}|{vehicle}|{van}|{span}|{words}".encode("utf-8", "replace")).hexdigest()[:32]
    begin, end = (moment(date, minute + (day.names.clock or 0)) for minute in span)
    lines = [
        "BEGIN:VEVENT", f"UID:{mark}@jambulskeg", f"DTSTAMP:{date:%Y%m%d}T000000Z", f"DTSTART:{begin}",
        f"SUMMARY:{plain(f'{words} ({van})')}", f"CATEGORIES:{plain(van)}", *more, "END:VEVENT",
    ]
    return lines if span[0] == span[1] else [*lines[:4], f"DTEND:{end}", *lines[4:]]


def moment(date: datetime.date, minutes: int) -> str:
    """A minute after midnight of a date, as a calendar writes it."""
    found = datetime.datetime.combine(date, datetime.time()) + datetime.timedelta(minutes=minutes)
    return f"{found:%Y%m%dT%H%M%S}"


def plain(text: str) -> str:
    """A text of a calendar; what it cannot hold is left out."""
    kept = re.sub("[\x00-\x08\x0b-\x1f\x7f\ud800-\udfff]", "", text.replace("\r\n", "\n"))
    return re.sub(r"([\\;,])", r"\\\1", kept).replace("\n", "\\n")


def folded(line: str) -> str:
    """A line of a calendar in pieces of at most 75 bytes, each further one after a blank."""
    pieces = [""]
    for letter in line:
        if len((pieces[-1] + letter).encode("utf-8")) > LINE:
            pieces.append(" ")
        pieces[-1] += letter
    return "\r\n".join(pieces)


def downloads(
    model: Model, solution: Solution, tables: Optional[DayTables] = None, *, date: Optional[datetime.date] = None,
    time: Optional[str] = None, clock: Optional[int] = None,
) -> List[Download]:
    """What a page of the day offers: the table, the map if places are known, the calendar if a date is."""
    day = day_of_tables(model, solution, tables, time=time, clock=clock)
    delimiter, in_degrees = (",", False) if tables is None else (tables.delimiter, tables.degrees)
    files = [Download("plan.csv", "text/csv", csv_of(day, delimiter), "Table (CSV)")]
    if day.places:
        files.append(Download("plan.geojson", "application/geo+json", geojson_of(day), "Map (GeoJSON)"))
    if date is not None and has_clock(day):
        text = icalendar_of(day, date, in_degrees)
        files.append(Download("plan.ics", "text/calendar", text, "Calendar (iCalendar)"))
    return files
