"""The plan of a region as one table of all stops, and as sheets for drivers: a page for each, and one page of all."""

from __future__ import annotations

import csv
import io
from typing import Iterator, List, Tuple

from ..exports import MARK, guarded
from ..output import names_of_sheets
from ..tables import another
from ..view.style import page_style
from ..view.svg import escaped
from .checking import Checked, VanDay
from .reading import RegionTables

__all__ = ["plan_table", "sheet_files"]

COLUMNS = ("van", "stop", "name", "arrival", "begins", "departure", "load")
POLICY = "default-src 'none'; style-src 'unsafe-inline'"
TO_PRINT = "section{break-after:page}@media print{@page{size:A4 portrait}}"


def plan_table(tables: RegionTables, checked: Checked) -> str:
    """The plan as a table with the columns of `exports.plan_csv`: a row for each stop, and at its end one without a van
    for each visit that is left out, first those that must be made."""
    further = list(tables.tables.further[0]) if tables.tables.further else []
    heads = list(COLUMNS)
    for heading in further:
        heads.append(another(heading, heads))
    out = io.StringIO()
    writer = csv.writer(out, delimiter=tables.tables.delimiter)
    writer.writerow([guarded(heading) for heading in heads])
    for cells, place in rows_of(tables, checked):
        filled = [*cells, *[""] * (len(COLUMNS) - len(cells))]
        kept = tables.tables.further[place] if further else {}
        writer.writerow([guarded(cell) for cell in (*filled, *(kept[heading] for heading in further))])
    return MARK + out.getvalue()


def rows_of(tables: RegionTables, checked: Checked) -> Iterator[Tuple[Tuple[str, ...], int]]:
    """The cells of each row, with its place."""
    for day in checked.days():
        yield from zip(day.rows, day.places)
    for place in (*checked.missing, *checked.left):
        yield ("", "", tables.region.places[place].name), place


def sheet_files(tables: RegionTables, checked: Checked, title: str) -> List[Tuple[str, str]]:
    """The names and texts of the sheets, which `check_plan` was asked for: a page for each van that leaves, and
    `all.html` with all of them, each on a page of its own when it is printed."""
    days = checked.days()
    names = names_of_sheets([tables.region.vans[day.van].name for day in days], ".html")
    bodies = [sheet_body(tables, day) for day in days]
    files = [(name, page_of(title, body)) for name, body in zip(names, bodies)]
    return [*files, ("all.html", page_of(title, "".join(f"<section>{body}</section>" for body in bodies)))]


def sheet_body(tables: RegionTables, day: VanDay) -> str:
    """The sheet of a van under its name."""
    hours = f", {day.hours[0]} to {day.hours[1]}" if all(day.hours) else ""
    name = tables.region.vans[day.van].name
    return f"<h1>{escaped(name)}</h1><p>{len(day.visits)} visits{hours}</p>{day.sheet}"


def page_of(title: str, body: str) -> str:
    """A page of one file."""
    return (
        '<!DOCTYPE html>\n<html lang="en"><head><meta charset="utf-8">'
        f'<meta http-equiv="Content-Security-Policy" content="{POLICY}">'
        '<meta name="viewport" content="width=device-width, initial-scale=1">'
        f"<title>{escaped(title)}</title><style>{page_style()}{TO_PRINT}</style></head>"
        f"<body class=single><main>{body}</main></body></html>\n"
    )
