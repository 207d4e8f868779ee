"""The whole plan of a region, checked: part by part by the program, and over all parts by this package.

The program's proved check finds that each part meets its model, with each visit of the part made. That no van and no
visit is in two parts, and that what is in none is told as left out, is counted here.
"""

from __future__ import annotations

from dataclasses import dataclass, replace
from typing import Dict, Iterator, List, Optional, Sequence, Tuple

from ..complete import complete
from ..costs import parts_of
from ..errors import JambulskegError
from ..exports import day_of_tables, plan_rows
from ..program import ProgramLike, program_of
from ..records import Model, ScheduleRule
from ..solution import Route, Solution
from ..view import Day
from ..view.sheets import sheet
from .ahead import ahead
from .day import Lists, Part, PartModel, Region, model_of_part
from .mending import Standing
from .reading import RegionTables
from .store import Store
from .tasks import agreed, beside

__all__ = ["Checked", "CheckedPart", "SharedTwice", "VanDay", "check_plan"]

ARRIVES, LEAVES = 3, 5
"""The columns of a plan's rows that say when a van comes and when it goes on."""
VISITS, VANS = 150, 50
"""The most visits and vans of a part that is checked; its model grows with the square of the visits."""


class SharedTwice(JambulskegError):
    """A van or a visit is in two parts of a plan, or in none."""


@dataclass(frozen=True)
class VanDay:
    """The day of a van: its places from the start to the end, what its arcs, fixed costs and the like come to, from
    when to when it is out, the most that it carries, and its stops as rows of a table and as a sheet for the driver.
    """

    van: int
    places: Tuple[int, ...]
    cost: int
    hours: Tuple[str, str]
    load: str
    rows: Tuple[Tuple[str, ...], ...]
    sheet: str = ""

    @property
    def visits(self) -> Tuple[int, ...]:
        """The places between the start and the end."""
        return self.places[1:-1]


@dataclass(frozen=True)
class CheckedPart:
    """A part of the whole plan, which the check found to meet its model: what it costs, and the days of its vans."""

    part: Part
    cost: int
    days: Tuple[VanDay, ...]


@dataclass(frozen=True)
class Checked:
    """A whole plan: its parts, what it costs with the penalties of what is left out, the visits that may be left out
    and are, and those that must be made and have no van."""

    parts: Tuple[CheckedPart, ...]
    cost: int
    left: Tuple[int, ...]
    missing: Tuple[int, ...]

    def days(self) -> List[VanDay]:
        """The days of the vans that leave, by their numbers."""
        return sorted((day for part in self.parts for day in part.days), key=lambda day: day.van)


def check_plan(
    tables: RegionTables, standing: Standing, program: ProgramLike = None, *, jobs: int = 1,
    store: Optional[Store] = None, sheets: bool = False
) -> Checked:
    """The whole plan, each day of a van ending as early as it can and beginning as late as that allows.

    With a `store`, each part is kept as `checked/NUMBER.json`, the object that `vr_cli check` reads; with `sheets` each
    day has a sheet for its driver. Raises `NotMet`, `SharedTwice`, `OSError`.
    """
    found, region = program_of(program), tables.region
    pieces = list(pieces_of(standing))

    def one(number: int) -> CheckedPart:
        part = pieces[number]
        model = model_of_part(region, part)
        solution = late_starts(model.strict, model.own([standing.routes[van] for van in part.vans]))
        text = beside(model.strict.text(), solution)
        agreed(text, solution, found)
        if store is not None:
            store.write(f"checked/{number:04}.json", text)
        return checked_part(tables, model, solution, sheets)

    with ahead(one, len(pieces), jobs) as checked:
        parts = tuple(map(checked, range(len(pieces))))
    left = left_out(region, parts)
    penalties = [region.places[visit].penalty for visit in left]
    return Checked(
        parts, sum(part.cost for part in parts) + sum(penalty or 0 for penalty in penalties),
        tuple(visit for visit, penalty in zip(left, penalties) if penalty is not None),
        tuple(visit for visit, penalty in zip(left, penalties) if penalty is None),
    )


def late_starts(model: Model, lists: Lists) -> Solution:
    """The solution of given visits, each day ending as early as it can and beginning as late as that allows. Schedules
    cost nothing in a model of a region. Raises `CannotBeDriven`."""
    vehicles = [replace(vehicle, schedule=ScheduleRule.TIGHT) for vehicle in model.vehicles]
    return complete(replace(model, format=2, vehicles=vehicles), lists, checked=False)


def pieces_of(standing: Standing) -> Iterator[Part]:
    """Routes put together, one after the other, with all their visits and no others."""
    vans: List[int] = []
    visits: List[int] = []
    for van in standing.used():
        if vans and (len(vans) == VANS or len(visits) + len(standing.routes[van]) > VISITS):
            yield Part(tuple(sorted(visits)), tuple(vans))
            vans, visits = [], []
        vans.append(van)
        visits += standing.routes[van]
    if vans:
        yield Part(tuple(sorted(visits)), tuple(vans))


def checked_part(tables: RegionTables, model: PartModel, solution: Solution, sheets: bool) -> CheckedPart:
    """A part that was checked, with the days of its vans."""
    day = day_of_tables(model.strict, solution, tables.of_part(model.nodes, model.part.vans))
    rows: Dict[int, List[Tuple[str, ...]]] = {}
    at = 0
    cells = [tuple(map(str, entry)) for entry, _ in plan_rows(day)]
    for route in day.routes():
        rows[route.vehicle], at = cells[at:at + len(route.nodes)], at + len(route.nodes)
    days = tuple(day_of_van(model, day, route, rows[route.vehicle], sheets) for route in day.routes())
    return CheckedPart(model.part, solution.cost, days)


def day_of_van(
    model: PartModel, day: Day, route: Route, rows: Sequence[Tuple[str, ...]], sheets: bool
) -> VanDay:
    """The day of a van by its route in a part."""
    parts = parts_of(model.strict, [route])
    loads = [str(max(route.dimensions[number].cumuls)) for number in day.loads()]
    return VanDay(
        model.part.vans[route.vehicle], tuple(model.nodes[node] for node in route.nodes),
        parts.arcs + parts.fixed + parts.soft + parts.span, (rows[0][LEAVES], rows[-1][ARRIVES]), ", ".join(loads),
        tuple(rows), sheet(day, route) if sheets else "",
    )


def left_out(region: Region, parts: Sequence[CheckedPart]) -> List[int]:
    """The visits that no part makes. Raises `SharedTwice` where a van or a visit is in two, or is none of the region's.
    """
    days = [day for part in parts for day in part.days]
    once(range(len(region.vans)), [day.van for day in days], "van")
    made = [visit for day in days for visit in day.visits]
    once(region.visits, made, "visit")
    return sorted(set(region.visits).difference(made))


def once(known: Sequence[int], found: Sequence[int], what: str) -> None:
    """Raises `SharedTwice` at the first number that is there twice, or is not known."""
    seen, able = set(), set(known)
    for number in found:
        if number in seen or number not in able:
            raise SharedTwice(f"{what} {number} is in two parts of the plan, or is none of the region's")
        seen.add(number)
