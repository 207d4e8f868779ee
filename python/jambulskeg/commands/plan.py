"""`plan`: from two spreadsheets to a table, a page, and a sheet for each driver."""

from __future__ import annotations

import argparse
import datetime
import os
import re
import sys
from contextlib import contextmanager
from dataclasses import replace
from typing import Iterator, List, Optional, Sequence, Tuple

from ..exports import day_of_tables, downloads, geojson, icalendar, plan_csv
from ..output import Output, Outputs, names_of_sheets
from ..places import METRES, DayTables, Roads, read_day
from ..plan import SECONDS, Planned, plan_day
from ..program import find
from ..stopping import stopping
from ..view import page, sheet_page

__all__ = ["LEFT_OUT", "add_plan", "run_plan"]

FEW = 20
"""How many of the visits that are left out are told."""
LEFT_OUT = 3
"""The exit status of a plan that leaves out visits that must be made."""
SHEET = re.compile(r"\d{2,3}(?:-.*)?\.html")
"""How a sheet is called."""


def add_plan(command: argparse.ArgumentParser) -> None:
    """The words of `plan`."""
    command.add_argument("places", metavar="PLACES.csv", help="columns name, x, y (or lat, lon) and more")
    command.add_argument("vans", metavar="VANS.csv", help="columns start and more")
    command.add_argument("-o", "--output", metavar="PLAN.csv", help="a row for each stop; else to standard output")
    command.add_argument("--page", metavar="DAY.html", help="the day as a page that needs no network")
    command.add_argument("--sheets", metavar="DIR", help="a page to be printed for each vehicle")
    command.add_argument("--geojson", metavar="FILE", help="the day as a map")
    command.add_argument("--ics", metavar="FILE", help="the day as a calendar")
    command.add_argument("--model", metavar="FILE", help="the model file, for the other commands")
    command.add_argument("--solution", metavar="FILE", help="the solution, for the other commands")
    command.add_argument("--seconds", type=seconds_of, default=SECONDS, metavar="S", help="how long is searched: 10")
    command.add_argument("--jobs", type=jobs_of, default=1, metavar="N", help="searches at a time: 1")
    command.add_argument(
        "--speed", type=speed_of, metavar="V", help="units of x and y an hour, of lat and lon kilometres: 60, 40"
    )
    command.add_argument("--wait", type=jobs_of, metavar="MINUTES", help="the longest wait before a visit: 60")
    command.add_argument("--date", type=datetime.date.fromisoformat, metavar="YYYY-MM-DD", help="the day: today")
    command.add_argument("--title", help="the title of the page and the sheets")
    command.set_defaults(run=run_plan)


def seconds_of(text: str) -> float:
    """Some seconds from 0 on."""
    found = float(text)
    if not 0 <= found < 10**7:
        raise argparse.ArgumentTypeError(f"{text} is no number of seconds")
    return found


def speed_of(text: str) -> float:
    """A speed above 0."""
    found = float(text)
    if not 0 < found < 10**7:
        raise argparse.ArgumentTypeError(f"{text} is no speed")
    return found


def jobs_of(text: str) -> int:
    """A whole number above 0."""
    found = int(text)
    if found < 1:
        raise argparse.ArgumentTypeError(f"{text} is not above 0")
    return found


def run_plan(asked: argparse.Namespace) -> int:
    """Plans a day and writes what is asked for; the files are opened before the search."""
    tables = read_day(asked.places, asked.vans)
    find()
    title = asked.title or (f"Plan of {asked.date.isoformat()}" if asked.date else "Plan of the day")
    date = asked.date or datetime.date.today()
    for sentence in [*(f"look at: {doubt}" for doubt in tables.doubts), *unread(tables)]:
        tell(sentence)
    sheets = sheet_paths(asked.sheets, tables)
    files = [path for path in (
        asked.output, asked.page, asked.geojson, asked.ics, asked.model, asked.solution, *sheets
    ) if path]
    inputs = [asked.places, asked.vans]
    with stopping() as stop, new_folder(asked.sheets), Outputs(files, inputs) as outputs:
        roads = roads_of(asked, tables)
        planned = plan_day(tables, roads, seconds=asked.seconds, jobs=asked.jobs, stop=stop)
        for path, text in texts_of(asked, planned, title, date):
            outputs.write(path, text)
        for vehicle, path in enumerate(sheets):
            outputs.write(path, sheet_text(planned, vehicle, title))
    if not files:
        Output(None).write(plan_csv(planned.model, planned.solution, tables))
    for doubt in planned.doubts[len(tables.doubts):]:
        tell(f"look at: {doubt}")
    tell(planned.summary())
    left = planned.left_out()
    more = [f".. and {len(left) - FEW} more are left out"] if len(left) > FEW else []
    for line in [*left[:FEW], *more, *earlier_sheets(asked.sheets, sheets)]:
        tell(line)
    return stop.status or (LEFT_OUT if planned.required else 0)


def unread(tables: DayTables) -> Iterator[str]:
    """A sentence for each table with columns that plan nothing: they are kept, and come back in what is written."""
    for whose, further in (("places", tables.further), ("vehicles", tables.van_further)):
        columns = list(dict.fromkeys(heading for row in further for heading in row))
        if columns:
            more = f" and {len(columns) - FEW} more" if len(columns) > FEW else ""
            yield f"columns of the {whose} that are kept and plan nothing: {', '.join(columns[:FEW])}{more}"


def tell(sentence: str) -> None:
    """A line on standard error."""
    sys.stderr.write(sentence + "\n")


def roads_of(asked: argparse.Namespace, tables: DayTables) -> Roads:
    """How places are joined, by the words of the command."""
    roads = METRES if tables.degrees else Roads()
    if asked.speed:
        roads = replace(roads, pace=60 / asked.speed / (1000 if tables.degrees else 1))
    return replace(roads, slack_max=asked.wait) if asked.wait else roads


def sheet_paths(folder: Optional[str], tables: DayTables) -> List[str]:
    """The paths of the sheets in a folder."""
    if not folder:
        return []
    return [os.path.join(folder, name) for name in names_of_sheets([van.name for van in tables.vans], ".html")]


def earlier_sheets(folder: Optional[str], sheets: Sequence[str]) -> List[str]:
    """A sentence for each sheet in the folder that is none of this plan."""
    if not folder:
        return []
    names = sorted(name for name in os.listdir(folder) if SHEET.fullmatch(name))
    paths = [os.path.join(folder, name) for name in names]
    return [f"look at: {path} is a sheet of an earlier plan" for path in paths if path not in sheets]


@contextmanager
def new_folder(folder: Optional[str]) -> Iterator[None]:
    """Makes a folder if it is not there, and takes it away again if the work within ends by an exception."""
    is_new = bool(folder) and not os.path.isdir(folder or "")
    if folder:
        os.makedirs(folder, exist_ok=True)
    try:
        yield
    except BaseException:
        if is_new and folder:
            os.rmdir(folder)
        raise


def texts_of(
    asked: argparse.Namespace, planned: Planned, title: str, date: datetime.date
) -> Iterator[Tuple[str, str]]:
    """The path and the text of each file that is asked for, but for the sheets."""
    model, solution, tables = planned.model, planned.solution, planned.tables
    if asked.output:
        yield asked.output, plan_csv(model, solution, tables)
    if asked.page:
        yield asked.page, page_text(planned, title, date)
    if asked.geojson:
        yield asked.geojson, geojson(model, solution, tables)
    if asked.ics:
        yield asked.ics, icalendar(model, solution, date, tables)
    if asked.model:
        yield asked.model, model.text() + "\n"
    if asked.solution:
        yield asked.solution, solution.text() + "\n"


def page_text(planned: Planned, title: str, date: datetime.date) -> str:
    """The page of a plan, which carries its table, its map and its calendar along."""
    day = day_of_tables(planned.model, planned.solution, planned.tables, reasons=planned.reasons)
    files = downloads(planned.model, planned.solution, planned.tables, date=date)
    left = ", ".join(planned.place(node) for node in planned.required)
    found = "The proved check found that this keeps all rules and costs what it says." if not left else (
        f"These visits must be made and found no place: {left}. The proved check found that the others keep all rules."
    )
    return page(day, title, found, planned.tables.degrees, files)


def sheet_text(planned: Planned, vehicle: int, title: str) -> str:
    """The sheet of a vehicle."""
    day = day_of_tables(planned.model, planned.solution, planned.tables)
    return sheet_page(day, vehicle, title)
