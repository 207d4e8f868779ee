"""A day as a file for others: for the program, for spreadsheets, maps and calendars, for drivers, to be printed."""

from __future__ import annotations

import datetime
import io
import re
import zipfile
from dataclasses import dataclass
from typing import Callable, Mapping, Optional, Tuple

from ..exports import csv_of, geojson_of, icalendar_of
from ..output import names_of_sheets
from ..view.day import Day
from ..view.page import page
from ..view.sheets import sheet_page
from .days import OpenDay
from .folder import Basis

__all__ = ["exported"]

CALENDAR = re.compile(r"icalendar-(\d{4}-\d{2}-\d{2})")
CHECKED = "The proved check found that this keeps all rules of the model and costs what it says."
UNFINISHED = "Unfinished: visits that must be made are not. The proved check found that all other rules are kept."


@dataclass(frozen=True)
class Source:
    """What a file is made of: a step of a day, what the day was opened with, its name, and what the program found."""

    day: Day
    basis: Basis
    name: str
    is_fine: bool

    @property
    def found(self) -> str:
        """What the program found, in a sentence."""
        return CHECKED if self.is_fine else UNFINISHED


def as_json(source: Source) -> bytes:
    """The model and the solution in one object, as the program's `check` reads it."""
    return encoded(f'{{"model":{source.day.model.text()},"solution":{source.day.solution.text()}}}\n')


def as_csv(source: Source) -> bytes:
    """A line for each stop."""
    tables = source.basis.tables
    return encoded(csv_of(source.day, "," if tables is None else tables.delimiter))


def as_geojson(source: Source) -> bytes:
    """Routes as lines, stops as points."""
    return encoded(geojson_of(source.day))


def as_page(source: Source) -> bytes:
    """The page of the day, as `python -m jambulskeg view` writes it."""
    return encoded(page(source.day, source.name, source.found, source.basis.in_degrees))


def as_sheets(source: Source) -> bytes:
    """A page for each driver, all in one archive."""
    out = io.BytesIO()
    names = [source.day.names.vehicle(vehicle) for vehicle in range(len(source.day.model.vehicles))]
    title = source.name if source.is_fine else f"{source.name} (unfinished)"
    with zipfile.ZipFile(out, "w", zipfile.ZIP_DEFLATED) as archive:
        for vehicle, file in enumerate(names_of_sheets(names, ".html")):
            archive.writestr(file, encoded(sheet_page(source.day, vehicle, title)))
    return out.getvalue()


def encoded(text: str) -> bytes:
    """A text as a file has it."""
    return text.encode("utf-8", "replace")


Writer = Callable[[Source], bytes]
KINDS: Mapping[str, Tuple[str, str, Writer]] = {
    "json": ("application/json", "json", as_json),
    "csv": ("text/csv; charset=utf-8", "csv", as_csv),
    "geojson": ("application/geo+json", "geojson", as_geojson),
    "page": ("application/octet-stream", "html", as_page),
    "sheets": ("application/zip", "zip", as_sheets),
}
"""The kinds of files by the words of their paths: type, ending, writer. Pages are never shown by the desk itself, whose
policy they do not have."""


def exported(opened: OpenDay, word: str) -> Optional[Tuple[str, str, bytes]]:
    """The present step of a day as a file: its type, the ending of its name, its bytes; None if there is no such
    kind. Raises `CannotBeExported` if the day lacks what the file is made of."""
    calendar = CALENDAR.fullmatch(word)
    if word not in KINDS and calendar is None:
        return None
    with opened.lock:
        source = Source(opened.drawn(), opened.basis, opened.name, opened.verdict().is_fine)
    if calendar is None:
        kind, ending, write = KINDS[word]
        return kind, ending, write(source)
    try:
        date = datetime.date.fromisoformat(calendar[1])
    except ValueError:
        return None
    text = icalendar_of(source.day, date, source.basis.in_degrees)
    return "text/calendar; charset=utf-8", "ics", encoded(text)
