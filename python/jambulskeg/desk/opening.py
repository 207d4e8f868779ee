"""How a day is made: of two spreadsheets, of a model file, or of an example."""

from __future__ import annotations

import json
import os
import re
from dataclasses import dataclass, replace
from typing import Any, List, Sequence, Tuple

from ..doubts import doubts
from ..errors import NoFirstSolution, NotJson
from ..model import first
from ..places import Measure, Roads, model_of_day, read_day
from ..plan import named
from ..program import REPOSITORY, Program
from ..records import Improve, Model, ScheduleRule, Search
from .asking import merged
from .folder import Basis
from .states import BadChange

__all__ = ["Upload", "Ways", "basis_of_model", "basis_of_tables", "example_basis", "examples"]

EXAMPLES = os.path.join(REPOSITORY, "examples")
SHEETS = os.path.join(REPOSITORY, "python", "examples")
OF_SHEETS = "three vans (two spreadsheets)"
"""The example that is made of spreadsheets."""
MOST_OF_LINE = 160
CLOCK = re.compile(rb"\b\d{1,2}:[0-5]\d\b")
Upload = Tuple[str, bytes]
"""A file from the page: its name, which is only shown, and what it has."""


@dataclass(frozen=True)
class Ways:
    """How places are joined: by straight lines or along the sides of blocks, and how many kilometres a unit of x and y
    is. Beside that, how many kilometres a van drives in an hour, what one costs, and how long a van may wait on a
    drive."""

    measure: Measure = Measure.EUCLID
    unit: float = 1.0
    speed: float = 40.0
    cost: float = 1.0
    wait: int = 480

    def roads(self, in_degrees: bool) -> Roads:
        """The same as the package says it; in degrees, distances are metres."""
        unit = 0.001 if in_degrees else self.unit
        return Roads(self.measure, scale=self.cost * unit, pace=60 * unit / self.speed, slack_max=self.wait)


def basis_of_tables(places: Upload, vans: Upload, ways: Ways) -> Basis:
    """The day of two spreadsheets. Raises `BadTable` with the file, the line and the column, and `Refused`."""
    tables = read_day(places, vans)
    model = merged(model_of_day(tables, ways.roads(tables.degrees), Search(improve=Improve.GUIDED_LOCAL_SEARCH)))
    has_clock = any(CLOCK.search(data) for _, data in (places, vans))
    looks = [at_row(doubt, (places, vans)) for doubt in tables.doubts]
    looks += [named(tables, doubt) for doubt in doubted(model)]
    return Basis(timely(model), tables, 0 if has_clock else None, looks, f"{places[0]} and {vans[0]}")


def at_row(doubt: str, uploads: Sequence[Upload]) -> str:
    """A doubt about a table, with the line that it is about."""
    for name, data in uploads:
        found = re.match(re.escape(name) + r", line (\d+)", doubt)
        lines = data.decode("utf-8", "replace").splitlines()
        if found and 0 < int(found[1]) <= len(lines) and lines[int(found[1]) - 1].strip():
            return f"{doubt}. The line is: {lines[int(found[1]) - 1].strip()[:MOST_OF_LINE]}"
    return doubt


def timely(model: Model) -> Model:
    """The model whose vehicles leave as late as their days allow, so that no shift begins with waiting."""
    vehicles = [replace(vehicle, schedule=ScheduleRule.TIGHT) for vehicle in model.vehicles]
    return replace(model, vehicles=vehicles, format=2)


def doubted(model: Model) -> List[str]:
    """What looks wrong in a model, in sentences."""
    return [doubt.sentence for doubt in doubts(model)]


def basis_of_model(upload: Upload, program: Program) -> Basis:
    """The day of a model file. Raises `NotJson`, and `Refused` with the path of the faulty field."""
    name, data = upload
    try:
        tree: Any = json.loads(data.decode("utf-8"))
    except (ValueError, RecursionError) as fault:
        raise NotJson(f"{name} is no JSON text in UTF-8: {fault}") from None
    model = merged(Model.of(tree))
    accepted(model, program)
    return Basis(model, None, None, doubted(model), name)


def accepted(model: Model, program: Program) -> None:
    """Lets the program read a model. Raises `Refused` if it does not take it."""
    try:
        first(model, program, checked=False)
    except NoFirstSolution:
        pass


def examples() -> List[str]:
    """The names of the examples that are at hand: the models of the repository, and its two spreadsheets."""
    found: Sequence[str] = os.listdir(EXAMPLES) if os.path.isdir(EXAMPLES) else ()
    models = sorted(name[:-5] for name in found if re.fullmatch(r"[a-z-]+\.json", name))
    return [*([OF_SHEETS] if os.path.isfile(os.path.join(SHEETS, "places.csv")) else []), *models]


def example_basis(name: str, program: Program) -> Basis:
    """The day of an example. Raises `BadChange` if there is none of this name."""
    if name not in examples():
        raise BadChange("there is no such example")
    if name == OF_SHEETS:
        uploads = [upload(os.path.join(SHEETS, file)) for file in ("places.csv", "vans.csv")]
        return replace(basis_of_tables(uploads[0], uploads[1], Ways(speed=30)), source=name)
    return replace(basis_of_model(upload(os.path.join(EXAMPLES, f"{name}.json")), program), source=name)


def upload(path: str) -> Upload:
    """A file of this machine as one from the page."""
    with open(path, "rb") as file:
        return os.path.basename(path), file.read()
