"""A region from two spreadsheets: those of a day, with as many lines as there are, and columns for skills and pairs."""

from __future__ import annotations

import re
from dataclasses import dataclass, replace
from typing import Dict, FrozenSet, List, Optional, Sequence, Tuple

from ..places import (
    METRES, VAN_COLUMNS, DayTables, Measure, Place, Roads, TableSource, doubts_of_places, places_of, table_of_places,
    vans_of,
)
from ..tables import Table, TableLine, read_table
from .day import Region
from .roads import RoadTable

__all__ = ["RegionTables", "read_region"]

MOST_PLACES, MOST_VANS = 1_000_000, 100_000
NEEDS, SKILLS, PICKUP = "needs", "skills", "pickup"
"""The further columns that a region reads."""
WORDS = re.compile(r"[\s,;/|]+")


@dataclass(frozen=True)
class RegionTables:
    """A region and the two spreadsheets that it is read from, with their further cells and what looks wrong in them."""

    region: Region
    tables: DayTables

    @classmethod
    def of(cls, region: Region) -> "RegionTables":
        """The tables of a region that was made without spreadsheets."""
        degrees = region.roads.measure is Measure.GREAT_CIRCLE
        return cls(region, DayTables(tuple(region.places), tuple(region.vans), degrees=degrees))

    def of_part(self, places: Sequence[int], vans: Sequence[int]) -> DayTables:
        """The tables of some places and vans."""
        whole = self.tables
        return DayTables(
            tuple(whole.places[place] for place in places), tuple(whole.vans[van] for van in vans),
            tuple(whole.further[place] for place in places) if whole.further else (),
            tuple(whole.van_further[van] for van in vans) if whole.van_further else (),
            whole.degrees, (), whole.delimiter,
        )


def read_region(
    places: TableSource, vans: TableSource, roads: Optional[Roads] = None, *, costs: Optional[str] = None,
    times: Optional[str] = None,
) -> RegionTables:
    """The region of two CSV files, with the columns of `places.read_day`, and three further ones.

    `needs` of a place are the skills that it asks of its van, as words, and `skills` of a vehicle those that it has;
    `pickup` of a place names the place where its van must have been before. `costs` and `times` are paths of tables of
    roads (see `roads`); times are those of `costs` if only these are given. Raises `BadTable` at the first cell that
    cannot be read, `BadRoads`, `OSError`.
    """
    table, degrees, found = table_of_places(places)
    stops = places_of(table, degrees, MOST_PLACES)
    van_table = read_table(vans, VAN_COLUMNS, {})
    drivers = vans_of(van_table, stops, MOST_VANS)
    looks = [*found, *van_table.doubts, *doubts_of_places(table, stops, drivers, degrees)]
    way = roads or (METRES if degrees else Roads())
    region = Region(
        tuple(stops), tuple(drivers), replace(way, measure=Measure.GREAT_CIRCLE) if degrees else way,
        words_of(table, NEEDS), words_of(van_table, SKILLS), pairs_of(table, stops),
        RoadTable(costs, len(stops)) if costs else None, RoadTable(times, len(stops)) if times else None,
    )
    needs_are_met(region, table)
    return RegionTables(region, DayTables(
        tuple(stops), tuple(drivers), tuple(line.further for line in table.lines),
        tuple(line.further for line in van_table.lines), degrees, tuple(map(str, looks)), table.delimiter,
    ))


def cell(line: TableLine, column: str) -> str:
    """The text of a further column, whose heading may have capitals."""
    at = next((at for heading, at in line.heads.further.items() if heading.casefold() == column), None)
    return "" if at is None else line.cells[at]


def words_of(table: Table, column: str) -> Tuple[FrozenSet[str], ...]:
    """The words of a further column, for each line; nothing where there is no such column."""
    if not any(heading.casefold() == column for heading in table.heads.further):
        return ()
    return tuple(
        frozenset(word.casefold() for word in WORDS.split(cell(line, column)) if word) for line in table.lines
    )


def pairs_of(table: Table, places: Sequence[Place]) -> Tuple[Tuple[int, int], ...]:
    """The pickups and deliveries that the column `pickup` says. Raises `BadTable`."""
    numbers: Dict[str, int] = {place.name: number for number, place in enumerate(places)}
    pairs: List[Tuple[int, int]] = []
    paired: Dict[int, str] = {}
    for number, line in enumerate(table.lines):
        name = cell(line, PICKUP)
        if not name:
            continue
        if name not in numbers:
            raise line.bad(PICKUP, f"no place has the name '{name}'")
        pair = numbers[name], number
        for visit in pair:
            if visit in paired or pair[0] == pair[1]:
                raise line.bad(PICKUP, f"'{places[visit].name}' is in a pair already, or would be in one with itself")
        paired.update({pair[0]: name, pair[1]: name})
        pairs.append(pair)
    return tuple(pairs)


def needs_are_met(region: Region, table: Table) -> None:
    """Raises `BadTable` at a visit that needs what no van has, and at a pair where a van starts or ends."""
    kinds = set(region.skills) or {frozenset()}
    for number, needs in enumerate(region.needs):
        if needs and not any(needs <= skills for skills in kinds):
            raise table.lines[number].bad(NEEDS, f"no vehicle has the skills {', '.join(sorted(needs))}")
    visits = set(region.visits)
    for one, other in region.pairs:
        if one not in visits or other not in visits:
            raise table.lines[other].bad(PICKUP, "a vehicle starts or ends at one of the two")
