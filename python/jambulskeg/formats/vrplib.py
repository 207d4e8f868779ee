"""Files of VRPLIB with fractions: CVRP and CVRPTW, with coordinates or weights, windows and service times.

The program's own `import` takes files of type CVRP in whole numbers, and is proved; take that if it serves.
"""

from __future__ import annotations

from fractions import Fraction
from typing import Callable, Dict, Iterable, Iterator, List, Optional, Sequence, Tuple

from ..places import Rounding
from ..records import HORIZON, MOST_NODES, Dimension, Evaluator, Model, NodeRow, Search, Vehicle, VehicleRow
from .reading import BadFile, Line, Point, Scale, lines_of

KEYWORDS = ("NAME", "COMMENT", "TYPE", "DIMENSION", "CAPACITY", "VEHICLES", "EDGE_WEIGHT_TYPE", "EDGE_WEIGHT_FORMAT",
            "NODE_COORD_TYPE", "DISPLAY_DATA_TYPE", "SERVICE_TIME")
SECTIONS = ("NODE_COORD_SECTION", "EDGE_WEIGHT_SECTION", "DEMAND_SECTION", "DEPOT_SECTION", "TIME_WINDOW_SECTION",
            "SERVICE_TIME_SECTION")
FORMATS: Dict[str, Callable[[int, int], Iterable[int]]] = {
    "FULL_MATRIX": lambda row, size: range(size),
    "LOWER_ROW": lambda row, size: range(row),
    "LOWER_DIAG_ROW": lambda row, size: range(row + 1),
    "UPPER_ROW": lambda row, size: range(row + 1, size),
    "UPPER_DIAG_ROW": lambda row, size: range(row, size),
}
"""The columns that each form of a matrix has in a row."""


def read_vrplib(
    path: str, vehicles: Optional[int] = None, factor: int = 10, rounding: Rounding = Rounding.NEAREST,
    search: Search = Search(),
) -> Model:
    """The model of a file. Distances, weights, windows and service times are multiplied by `factor` and rounded.

    `vehicles` is how many there are, in place of the file's VEHICLES. Raises `BadFile` at a line that is none of the
    form, and at a keyword or section that a model cannot say. It raises that too if something is missing. `OSError` and
    `Refused` may come as well.
    """
    found = File(path)
    count = vehicles if vehicles is not None else found.whole("VEHICLES", 1, HORIZON)
    return found.model(count, Scale(Fraction(factor), rounding), search)


class File:
    """The keywords and sections of a file."""

    def __init__(self, path: str) -> None:
        self.path = path
        self.words: Dict[str, Line] = {}
        self.sections: Dict[str, List[Line]] = {}
        section: Optional[List[Line]] = None
        for line in lines_of(path):
            head = line.words[0].rstrip(":").upper()
            if head == "EOF":
                break
            if head in SECTIONS:
                section = self.sections.setdefault(head, [])
            elif head[:1].isalpha():
                self._keyword(line, head)
            elif section is None:
                raise line.fault("no section has begun")
            else:
                section.append(line)

    def _keyword(self, line: Line, head: str) -> None:
        """Notes a line `KEYWORD : value`."""
        if head not in KEYWORDS:
            raise line.fault(f"a model cannot say {head}; known are {', '.join(KEYWORDS + SECTIONS)}")
        value = " ".join(line.words)[len(head):].strip().lstrip(":").split()
        self.words[head] = Line(line.file, line.number, value)

    def word(self, name: str, default: str = "") -> str:
        """The value of a keyword as one word."""
        line = self.words.get(name)
        return line.words[0] if line is not None and line.words else default

    def whole(self, name: str, low: int, high: int) -> int:
        """The whole number of a keyword that must be there."""
        if name not in self.words:
            raise BadFile(self.path, "", f"it does not say {name}")
        return self.words[name].whole_at(0, low, high)

    def section(self, name: str, size: int) -> List[Line]:
        """The rows of a section that must be there, in the order of their numbers, 1 to `size`."""
        if name not in self.sections:
            raise BadFile(self.path, "", f"it has no {name}")
        rows: Dict[int, Line] = {}
        for line in self.sections[name]:
            number = line.whole_at(0, 1, size)
            if number in rows:
                raise line.fault(f"number {number} is there a second time")
            rows[number] = line
        for number in range(1, size + 1):
            if number not in rows:
                raise BadFile(self.path, "", f"{name} has no row {number}")
        return [rows[number] for number in range(1, size + 1)]

    def matrix(self, size: int, scale: Scale) -> List[List[int]]:
        """The distances, by coordinates or as they are written."""
        kind = self.word("EDGE_WEIGHT_TYPE")
        if kind == "EUC_2D":
            rows = self.section("NODE_COORD_SECTION", size)
            points: List[Point] = [(line.number_at(1), line.number_at(2)) for line in rows]
            return scale.matrix(points)
        if kind == "EXPLICIT":
            return self._explicit(size, scale)
        raise BadFile(self.path, "", f"EDGE_WEIGHT_TYPE is {kind or 'missing'}; known are EUC_2D and EXPLICIT")

    def _explicit(self, size: int, scale: Scale) -> List[List[int]]:
        """The weights of EDGE_WEIGHT_SECTION."""
        form = self.word("EDGE_WEIGHT_FORMAT")
        if form not in FORMATS:
            raise BadFile(self.path, "", f"EDGE_WEIGHT_FORMAT is {form or 'missing'}; known are {', '.join(FORMATS)}")
        made, weights = [[0] * size for _ in range(size)], self._weights()
        for row in range(size):
            for column in FORMATS[form](row, size):
                line, place = next(weights, (None, 0))
                if line is None:
                    raise BadFile(self.path, "", f"EDGE_WEIGHT_SECTION ends before row {row + 1}, column {column + 1}")
                made[row][column] = scale.whole(line.number_at(place))
                if form != "FULL_MATRIX":
                    made[column][row] = made[row][column]
        for line, place in weights:
            raise line.fault(f"'{line.words[place]}' is after the last weight")
        return made

    def _weights(self) -> Iterator[Tuple[Line, int]]:
        """The words of EDGE_WEIGHT_SECTION."""
        for line in self.sections.get("EDGE_WEIGHT_SECTION", []):
            for place in range(len(line.words)):
                yield line, place

    def depot(self, size: int) -> int:
        """The node of the one depot."""
        lines = [line for line in self.sections.get("DEPOT_SECTION", []) if line.words[0] != "-1"]
        if len(lines) > 1:
            raise lines[1].fault("a second depot; give the vehicles of such a file their starts in a model of your own")
        return lines[0].whole_at(0, 1, size) - 1 if lines else 0

    def model(self, vehicles: int, scale: Scale, search: Search) -> Model:
        """The model of the file."""
        size, depot = self.whole("DIMENSION", 1, MOST_NODES), self.depot(self.whole("DIMENSION", 1, MOST_NODES))
        return Model(
            nodes=size, matrices=[self.matrix(size, scale)], vehicles=[Vehicle(depot, depot)] * vehicles,
            dimensions=[*self._time(size, depot, vehicles, scale), *self._load(size)], search=search,
        )

    def _load(self, size: int) -> Sequence[Dimension]:
        """The load, if there is a capacity."""
        if "CAPACITY" not in self.words:
            return []
        demands = [line.whole_at(1, 0, 2**30) for line in self.section("DEMAND_SECTION", size)]
        capacity = self.whole("CAPACITY", 0, HORIZON)
        return [Dimension("load", [Evaluator(values=demands)], slack_max=0, capacity=capacity, fix_start=True)]

    def _time(self, size: int, depot: int, vehicles: int, scale: Scale) -> Sequence[Dimension]:
        """The time, if there are windows or service times."""
        if not {"TIME_WINDOW_SECTION", "SERVICE_TIME_SECTION", "SERVICE_TIME"} & {*self.sections, *self.words}:
            return []
        service = self._service(size, depot, scale)
        windows = self._windows(size, scale)
        day = windows[depot] if windows else (0, HORIZON)
        rows = [VehicleRow(vehicle, day) for vehicle in range(vehicles)]
        nodes = [NodeRow(node, window) for node, window in enumerate(windows) if node != depot]
        return [Dimension(
            "time", [Evaluator(matrix=0, values=service)], slack_max=day[1], capacity=day[1], visit=service,
            nodes=nodes, starts=rows, ends=rows,
        )]

    def _windows(self, size: int, scale: Scale) -> List[Tuple[int, int]]:
        """The window of each node, none if the file has no windows."""
        if "TIME_WINDOW_SECTION" not in self.sections:
            return []
        rows = self.section("TIME_WINDOW_SECTION", size)
        return [(scale.whole(line.number_at(1)), scale.whole(line.number_at(2))) for line in rows]

    def _service(self, size: int, depot: int, scale: Scale) -> List[int]:
        """How long each visit takes; at the depot nothing if one number is said of all."""
        if "SERVICE_TIME_SECTION" in self.sections:
            return [scale.whole(line.number_at(1)) for line in self.section("SERVICE_TIME_SECTION", size)]
        one = scale.whole(self.words["SERVICE_TIME"].number_at(0)) if "SERVICE_TIME" in self.words else 0
        return [0 if node == depot else one for node in range(size)]
