"""From coordinates and spreadsheets to a model.

A matrix of whole numbers from coordinates: `from_places(places, Measure.EUCLID)`. A whole day from two CSV files, one
of places and one of vehicles, with what looks wrong in them: `tables = read_day("places.csv", "vans.csv")`, and its
model: `model_of_day(tables)`.
"""

from __future__ import annotations

import math
import re
from collections import Counter
from dataclasses import dataclass, replace
from enum import Enum
from typing import Callable, Dict, Iterator, List, Mapping, Optional, Sequence, Tuple

from .records import (
    GREATEST_ENTRY, GREATEST_TRANSIT, HORIZON, MOST_NODES, MOST_VEHICLES, Dimension, Evaluator, Group, Model, NodeRow,
    Search, Vehicle, VehicleRow,
)
from .tables import BadTable, Table, TableSource, read_table, shown, whole

__all__ = [
    "BadTable", "DayTables", "METRES", "Measure", "Place", "Roads", "Rounding", "TableSource", "Van", "from_places",
    "great_circle", "model_from_csv", "model_of", "model_of_day", "read_day", "read_places", "read_vans", "rounded",
    "whole",
]

EARTH = 6371008.8
"""The mean radius of the Earth in metres."""


class Measure(Enum):
    """How far two places are apart.

    `EUCLID` and `MANHATTAN` in the unit of the coordinates; `GREAT_CIRCLE` in metres, x being the longitude and y the
    latitude in degrees.
    """

    EUCLID = "euclid"
    MANHATTAN = "manhattan"
    GREAT_CIRCLE = "great circle"


class Rounding(Enum):
    """How a distance becomes a whole number: to the nearest one (halves up), up, or down.

    Distances that were rounded up keep the triangle inequality; those to the nearest number may miss it by one.
    """

    NEAREST = "nearest"
    UP = "up"
    DOWN = "down"


@dataclass(frozen=True)
class Place:
    """A place of the day. `window` is when a visit may begin, `service` how long it takes; `penalty` is what it costs
    to leave the visit out, None if it must be made."""

    name: str
    x: float
    y: float
    demand: int = 0
    window: Optional[Tuple[int, int]] = None
    service: int = 0
    penalty: Optional[int] = None


@dataclass(frozen=True)
class Van:
    """A vehicle by the names of its places. `shift` is the range of its times from the start to the end."""

    name: str
    start: str
    end: str
    capacity: Optional[int] = None
    fixed: int = 0
    shift: Optional[Tuple[int, int]] = None


ROUND: Dict[Rounding, Callable[[float], int]] = {
    Rounding.NEAREST: lambda value: math.floor(value + 0.5),
    Rounding.UP: math.ceil,
    Rounding.DOWN: math.floor,
}


def rounded(value: float, rounding: Rounding = Rounding.NEAREST) -> int:
    """A distance as a whole number."""
    return ROUND[rounding](value)


def great_circle(one: Place, other: Place) -> float:
    """The metres between two places by longitude and latitude, by the formula of haversines."""
    here, there = math.radians(one.y), math.radians(other.y)
    across = math.radians(other.x - one.x)
    share = math.sin((there - here) / 2) ** 2 + math.cos(here) * math.cos(there) * math.sin(across / 2) ** 2
    return 2 * EARTH * math.asin(min(1.0, math.sqrt(share)))


APART: Dict[Measure, Callable[[Place, Place], float]] = {
    Measure.EUCLID: lambda one, other: math.hypot(one.x - other.x, one.y - other.y),
    Measure.MANHATTAN: lambda one, other: abs(one.x - other.x) + abs(one.y - other.y),
    Measure.GREAT_CIRCLE: great_circle,
}


def from_places(
    places: Sequence[Place], measure: Measure = Measure.EUCLID, rounding: Rounding = Rounding.NEAREST,
    scale: float = 1.0,
) -> List[List[int]]:
    """The matrix of the places, in their order: each distance times `scale`, rounded once.

    `scale` turns units: with coordinates in kilometres, 1000 gives metres; with metres, 60 / 40000 gives minutes at
    40 km an hour.
    """
    return scaled(distances(places, measure), rounding, scale)


def distances(places: Sequence[Place], measure: Measure) -> List[List[float]]:
    """How far each place is from those before it and from itself; the way back is as long."""
    return [ways_to(one, places[:at + 1], measure) for at, one in enumerate(places)]


def ways_to(one: Place, others: Sequence[Place], measure: Measure) -> List[float]:
    """How far a place is from others."""
    if measure is Measure.EUCLID:  # The same without a call of Python for each.
        return [math.hypot(one.x - other.x, one.y - other.y) for other in others]
    apart = APART[measure]
    return [apart(one, other) for other in others]


def scaled(ways: Sequence[Sequence[float]], rounding: Rounding, scale: float) -> List[List[int]]:
    """The whole matrix of `distances`, each times `scale`, rounded once."""
    lower = [whole_ways(row, rounding, scale) for row in ways]
    return [row + [lower[head][tail] for head in range(tail + 1, len(lower))] for tail, row in enumerate(lower)]


def whole_ways(ways: Sequence[float], rounding: Rounding, scale: float) -> List[int]:
    """Some ways, each times `scale`, rounded once."""
    if rounding is Rounding.NEAREST:  # The same without a call of Python for each.
        return [math.floor(way * scale + 0.5) for way in ways]
    whole_of = ROUND[rounding]
    return [whole_of(way * scale) for way in ways]


PLACE_COLUMNS = ("name", "x", "y", "lat", "lon", "demand", "open", "close", "service", "penalty")
VAN_COLUMNS = ("name", "start", "end", "capacity", "fixed", "from", "to")
OTHER_NAMES = {"latitude": "lat", "longitude": "lon", "lng": "lon", "long": "lon"}
FARTHEST = 1e8
"""The greatest coordinate that is read."""
YARD = re.compile(r"\b(?:yards?|depots?|dépôts?|depósitos?|warehouses?|garages?|hubs?|betriebshof|lager)(?:\b|\d)")
"""Names of places where vehicles mostly start."""
FINE = re.compile(r"-?\d{1,3}[.,]\d{3,}")
"""A coordinate as one in degrees is written."""


@dataclass(frozen=True)
class DayTables:
    """A day as two spreadsheets say it: node i is place i, vehicle k is van k.

    `further` has for each place the cells of the columns that nobody asks for, such as a phone number or a note. They
    come by their headings and in their order; `van_further` has those of the vehicles. `degrees` says that x is the
    longitude and y the latitude. `doubts` are sentences about what may be said and looks wrong all the same.
    `delimiter` parts the cells of the places.
    """

    places: Tuple[Place, ...]
    vans: Tuple[Van, ...]
    further: Tuple[Mapping[str, str], ...] = ()
    van_further: Tuple[Mapping[str, str], ...] = ()
    degrees: bool = False
    doubts: Tuple[str, ...] = ()
    delimiter: str = ","


def read_day(places: TableSource, vans: TableSource) -> DayTables:
    """The day of two CSV files, each a path, or a name and the bytes of an upload.

    Places have the columns name, x and y (or lat and lon). They may have demand, open and close (when a visit may
    begin), service, and penalty. If the penalty is empty, the visit must be made.

    Vehicles have start and end (names of places; an empty end is the start), name and capacity. The others are fixed
    (the cost of using it), from and to (its shift).

    Raises `BadTable` at the first cell that cannot be read, with its line and column; `OSError`.
    """
    table, degrees, found = table_of_places(places)
    stops = places_of(table, degrees)
    van_table = read_table(vans, VAN_COLUMNS, {})
    drivers = vans_of(van_table, stops)
    looks = [*found, *van_table.doubts, *doubts_of_places(table, stops, drivers, degrees)]
    looks += doubled_names(van_table, [van.name for van in drivers])
    return DayTables(
        tuple(stops), tuple(drivers), tuple(line.further for line in table.lines),
        tuple(line.further for line in van_table.lines), degrees, tuple(map(str, looks)), table.delimiter,
    )


def read_places(path: str) -> List[Place]:
    """The places of a CSV file, as `read_day` reads them; what it doubts in the form of the file is a fault here.

    Raises `BadTable`, `OSError`.
    """
    return list(strict_places(path).places)


def strict_places(path: str) -> DayTables:
    """The places of a CSV file, with no vehicles. Raises `BadTable` also if the form of the file is doubted."""
    table, degrees, doubts = table_of_places(path)
    if doubts:
        raise doubts[0]
    found = tuple(places_of(table, degrees))
    return DayTables(found, (), tuple(line.further for line in table.lines), (), degrees, (), table.delimiter)


def read_vans(path: str, places: Sequence[Place]) -> List[Van]:
    """The vehicles of a CSV file, as `read_day` reads them; what it doubts in the form of the file is a fault here.

    Raises `BadTable`, `OSError`.
    """
    table = read_table(path, VAN_COLUMNS, {})
    if table.doubts:
        raise table.doubts[0]
    return vans_of(table, places)


def table_of_places(source: TableSource) -> Tuple[Table, bool, List[BadTable]]:
    """The table of places, whether it says where they lie in degrees, and what looks wrong in its form."""
    table = read_table(source, PLACE_COLUMNS, OTHER_NAMES)
    doubts, known = list(table.doubts), table.heads.known
    degrees = "lat" in known and "lon" in known
    if degrees and "x" in known and "y" in known:
        doubts.append(table.heads.bad("x", "lat and lon are there too, so x and y are not read"))
    return table.without(*(("x", "y") if degrees else ("lat", "lon"))), degrees, doubts


def places_of(table: Table, degrees: bool, most: int = MOST_NODES) -> List[Place]:
    """The places of a table, which are as many as one model takes, or `most`."""
    heads = table.heads
    across, up = ("lon", "lat") if degrees else ("x", "y")
    heads.need("name", across, up)
    if not table.lines:
        raise BadTable(heads.file, heads.number, "", "there are no places below the headings")
    if len(table.lines) > most:
        raise table.lines[most].bad("", f"there may be {most} places at most")
    names: Dict[str, int] = {}
    places: List[Place] = []
    for line in table.lines:
        name = line.text("name")
        if name in names:
            raise line.bad("name", f"'{shown(name)}' is in an earlier line too, line {names[name]}")
        names[name] = line.number
        places.append(Place(
            name, line.real(across, 180 if degrees else FARTHEST), line.real(up, 90 if degrees else FARTHEST),
            line.whole("demand", GREATEST_TRANSIT, -GREATEST_TRANSIT), line.window("open", "close", HORIZON),
            line.whole("service", GREATEST_TRANSIT), line.maybe("penalty", GREATEST_ENTRY),
        ))
    return places


def vans_of(table: Table, places: Sequence[Place], most: int = MOST_VEHICLES) -> List[Van]:
    """The vehicles of a table, as many as one model takes, or `most`; their starts and ends are among the places."""
    table.heads.need("start")
    if not table.lines:
        raise BadTable(table.heads.file, table.heads.number, "", "there are no vehicles below the headings")
    if len(table.lines) > most:
        raise table.lines[most].bad("", f"there may be {most} vehicles at most")
    names = {place.name for place in places}
    vans: List[Van] = []
    for line in table.lines:
        start = line.text("start")
        van = Van(
            line.text("name", f"vehicle {len(vans)}"), start, line.text("end", start),
            line.maybe("capacity", GREATEST_ENTRY), line.whole("fixed", GREATEST_ENTRY),
            line.window("from", "to", HORIZON),
        )
        for column, name in (("start", van.start), ("end", van.end)):
            if name not in names:
                near = next((entry for entry in names if entry.casefold() == name.casefold()), None)
                meant = f"; is '{shown(near)}' meant?" if near else ""
                raise line.bad(column, f"no place has the name '{shown(name)}'{meant}")
        vans.append(van)
    return vans


def doubled_names(table: Table, names: Sequence[str]) -> Iterator[BadTable]:
    """A doubt at each name that an earlier line has too."""
    count = Counter(names)
    for at, (line, name) in enumerate(zip(table.lines, names)):
        if count[name] > 1 and name in names[:at]:
            yield line.bad("name", f"an earlier vehicle is called '{shown(name)}' too")


def doubts_of_places(
    table: Table, places: Sequence[Place], vans: Sequence[Van], degrees: bool
) -> Iterator[BadTable]:
    """What looks wrong in a table of places: a second yard, cells that are not used, coordinates."""
    ends = {name for van in vans for name in (van.start, van.end)}
    visits = [(line, place) for line, place in zip(table.lines, places) if place.name not in ends]
    plain = [place for _, place in visits if is_plain(place)]
    for line, place in visits:
        if YARD.search(place.name.casefold()) or (len(visits) > 2 and plain == [place]):
            name = shown(place.name)
            yield line.bad("name", f"no vehicle starts or ends at '{name}', so it is a visit like the others")
    for line, place in zip(table.lines, places):
        unused = [column for column in ("open", "penalty") if place.name in ends and line.has(column)]
        if unused:
            column, instead = unused[0], "; write 'from' and 'to' of the vehicles" if unused[0] == "open" else ""
            yield line.bad(column, f"vehicles start or end at '{shown(place.name)}', so this is not used{instead}")
    yield from coordinate_doubts(table, places, degrees)


def is_plain(place: Place) -> bool:
    """Whether nothing is said of a place but where it lies."""
    return place.window is None and place.penalty is None and not place.demand and not place.service


def coordinate_doubts(table: Table, places: Sequence[Place], degrees: bool) -> Iterator[BadTable]:
    """Places that all lie at one point, and degrees in the columns x and y."""
    first = table.lines[0]
    across, up = ("lon", "lat") if degrees else ("x", "y")
    wide = max(max(values) - min(values) for values in ([place.x for place in places], [place.y for place in places]))
    if not degrees and looks_like_degrees(table, places):
        yield first.bad(across, "x and y look like degrees; call the columns 'lon' and 'lat'")
    elif len(places) > 1 and (wide == 0 or not degrees and wide < 0.5 and are_close(places)):
        yield first.bad(across, f"all distances of '{across}' and '{up}' are 0 (they are rounded to whole numbers)")


def looks_like_degrees(table: Table, places: Sequence[Place]) -> bool:
    """Whether most coordinates are written as those of a map: at most 180 and 90, and finer than a hundredth."""
    fine = [line for line in table.lines if FINE.fullmatch(line.text("x")) and FINE.fullmatch(line.text("y"))]
    within = all(abs(place.x) <= 180 and abs(place.y) <= 90 for place in places)
    return within and len(places) > 1 and 2 * len(fine) > len(places)


def are_close(places: Sequence[Place]) -> bool:
    """Whether all distances are rounded to 0."""
    return not any(map(any, from_places(places)))


@dataclass(frozen=True)
class Roads:
    """How places are joined: the measure, the rounding, and the greatest wait on an arc. A distance is multiplied by
    `scale` for costs, and by `pace` for times."""

    measure: Measure = Measure.EUCLID
    rounding: Rounding = Rounding.NEAREST
    scale: float = 1.0
    pace: float = 1.0
    slack_max: int = 60


METRES = Roads(Measure.GREAT_CIRCLE, pace=60 / 40000)
"""For places in degrees: arcs cost metres, and take the minutes of 40 kilometres an hour as the crow flies."""


def model_of_day(tables: DayTables, roads: Optional[Roads] = None, search: Search = Search()) -> Model:
    """The model of a day; see `model_of`. Places in degrees are always apart by great circles.

    Without `roads` these are `METRES` for places in degrees, and else `Roads()`. Raises `Refused`.
    """
    found = roads or (METRES if tables.degrees else Roads())
    if tables.degrees:
        found = replace(found, measure=Measure.GREAT_CIRCLE)
    return model_of(tables.places, tables.vans, found, search)


def model_from_csv(
    places: str, vehicles: str, roads: Optional[Roads] = None, search: Search = Search()
) -> Model:
    """The model of two CSV files; see `model_of`. Places with lat and lon are apart by great circles.

    Raises `BadTable`, `OSError`, `Refused`.
    """
    found = strict_places(places)
    return model_of_day(replace(found, vans=tuple(read_vans(vehicles, found.places))), roads, search)


def model_of(
    places: Sequence[Place], vans: Sequence[Van], roads: Roads = Roads(), search: Search = Search()
) -> Model:
    """The model of places and vehicles: node i is place i. Matrix 0 has costs, matrix 1 times.

    A dimension `time` is there if a place has a window or a service time, or a vehicle has a shift. A dimension `load`
    is there if a vehicle has a capacity. Raises `Refused` at what the model cannot take.
    """
    nodes = {place.name: node for node, place in enumerate(places)}
    ends = {name for van in vans for name in (van.start, van.end)}
    ways = distances(places, roads.measure)
    costs, times = (scaled(ways, roads.rounding, factor) for factor in (roads.scale, roads.pace))
    dimensions = []
    if any(place.window or place.service for place in places) or any(van.shift for van in vans):
        dimensions.append(time_of(places, vans, ends, roads.slack_max))
    if any(van.capacity is not None for van in vans):
        dimensions.append(load_of(places, vans))
    return Model(
        nodes=len(places),
        matrices=[costs, times],
        vehicles=[Vehicle(nodes[van.start], nodes[van.end], fixed=van.fixed) for van in vans],
        dimensions=dimensions,
        groups=[
            Group([nodes[place.name]], place.penalty)
            for place in places if place.penalty is not None and place.name not in ends
        ],
        search=search,
    )


def time_of(places: Sequence[Place], vans: Sequence[Van], ends: "set[str]", slack_max: int) -> Dimension:
    """The dimension of times: drives and service times, windows of visits, shifts of vehicles."""
    service = [place.service for place in places]
    shifts = [VehicleRow(vehicle, van.shift) for vehicle, van in enumerate(vans) if van.shift]
    latest = [HORIZON if van.shift is None else van.shift[1] for van in vans]
    return Dimension(
        name="time",
        evaluators=[Evaluator(matrix=1, values=service)],
        slack_max=slack_max,
        capacity=latest,
        visit=service,
        nodes=[
            NodeRow(node, place.window)
            for node, place in enumerate(places) if place.window and place.name not in ends
        ],
        starts=shifts,
        ends=shifts,
    )


def load_of(places: Sequence[Place], vans: Sequence[Van]) -> Dimension:
    """The dimension of loads; a vehicle without a capacity takes everything."""
    total = sum(abs(place.demand) for place in places)
    return Dimension(
        name="load",
        evaluators=[Evaluator(values=[place.demand for place in places])],
        slack_max=0,
        capacity=[total if van.capacity is None else van.capacity for van in vans],
        fix_start=True,
    )
