"""CSV files as spreadsheets write them: a table of lines whose cells know their line and column.

Excel in Europe parts cells by semicolons and writes 2,5; Excel in America, LibreOffice and pandas part them by commas
and write 2.5. What all of these write is read. The rest is refused by a `BadTable` with the line and the column.
"""

from __future__ import annotations

import codecs
import csv
import difflib
import io
import math
import re
from dataclasses import dataclass, field, replace
from typing import Callable, Dict, Iterator, List, Mapping, Optional, Sequence, Tuple, TypeVar, Union

from .errors import JambulskegError

__all__ = ["BadTable", "Heads", "Table", "TableLine", "TableSource", "another", "finite", "read_table", "whole"]

TableSource = Union[str, Tuple[str, bytes]]
"""A path, or the name and the bytes of a file that was handed in."""
TIME = re.compile(r"(?:(\d+) days? )?(\d+):([0-5]\d)(?::00(?:\.0+)?)?(?:\s*([ap])\.?\s?m\.?)?", re.IGNORECASE)
"""A time of day in whole minutes, as people, spreadsheets and pandas write it."""
WHOLE = re.compile(r"([+-]?\d+)(?:\.0*)?", re.ASCII)
"""A whole number, also as pandas writes those of a column with gaps: 2.0."""
REAL = re.compile(r"[+-]?(?:\d+\.?\d*|\.\d+)(?:e[+-]?\d+)?", re.ASCII | re.IGNORECASE)
DOTTED = re.compile(r"\d{1,2}[.,]\d\d")
"""What is a time in some countries and a number in others."""
COMMA = re.compile(r"-?\d+,\d+")
"""A number with a decimal comma."""
DELIMITERS = ",;\t"
SEPARATOR = re.compile(r'"?sep=([,;\t|])"?[,;\t|]*', re.IGNORECASE)
"""The first line of some files for Excel, which says what parts the cells."""
ALIKE = 0.75
"""From this likeness on, by `difflib`, a heading is taken for a misspelt one."""
OWN_FILES = (b"PK\x03\x04", b"\xd0\xcf\x11\xe0")
"""How the files begin that spreadsheets save when nobody asks for CSV."""
MOST_SHOWN = 60
"""How many characters of a text a sentence shows."""
T = TypeVar("T")


def shown(text: str) -> str:
    """A text of a file as a sentence shows it: the beginning of a long one."""
    return text if len(text) <= MOST_SHOWN else text[:MOST_SHOWN] + ".."


class BadTable(JambulskegError, ValueError):
    """A CSV file that cannot be read: the `file`, the `line` from 1, the `column` (empty for the line), and why."""

    def __init__(self, file: str, line: int, column: str, why: str) -> None:
        self.file, self.line, self.column, self.why = file, line, column, why
        place = f", column '{shown(column)}'" if column else ""
        super().__init__(f"{file}, line {line}{place}: {why}")


def whole(text: str) -> int:
    """A whole number, also as a time of day. So 8:30, 08:30:00 and 8:30 AM are 510 minutes, and 26:00 is two at night.

    Raises `ValueError` if it is none.
    """
    number, time = WHOLE.fullmatch(text), TIME.fullmatch(text)
    if number:
        return int(number[1])
    if not time:
        raise ValueError(text)
    days, hour, minute = int(time[1] or 0), int(time[2]), int(time[3])
    if time[4]:
        if not 1 <= hour <= 12:
            raise ValueError(text)
        hour = hour % 12 + (12 if time[4] in "pP" else 0)
    return 1440 * days + 60 * hour + minute


def finite(text: str) -> float:
    """The number of a text. Raises `ValueError` if it is none, or not finite."""
    found = float(text) if REAL.fullmatch(text) else math.nan
    if not math.isfinite(found):
        raise ValueError(text)
    return found


@dataclass(frozen=True)
class Heads:
    """The line of headings: for each column that is read its place in a line, and for each further one."""

    file: str
    number: int
    known: Mapping[str, int] = field(default_factory=dict)
    further: Mapping[str, int] = field(default_factory=dict)

    def bad(self, column: str, why: str) -> BadTable:
        """What is wrong with a heading."""
        return BadTable(self.file, self.number, column, why)

    def need(self, *columns: str) -> None:
        """Raises `BadTable` at the first of these columns that is not there."""
        for column in columns:
            if column not in self.known:
                there = ", ".join(map(shown, [*self.known, *self.further][:MOST_SHOWN]))
                raise self.bad(column, f"there is no such column; there are {there}")

    def without(self, *columns: str) -> "Heads":
        """The same headings, these columns being further ones."""
        aside = {column: at for column, at in self.known.items() if column in columns}
        further = sorted([*self.further.items(), *aside.items()], key=lambda entry: entry[1])
        return replace(self, known={c: at for c, at in self.known.items() if c not in aside}, further=dict(further))


@dataclass(frozen=True)
class TableLine:
    """A line of a CSV file, which says its number when a cell is faulty; `point` is its decimal point."""

    heads: Heads
    number: int
    cells: Sequence[str]
    point: str = "."

    def bad(self, column: str, why: str) -> BadTable:
        """What is wrong with a cell."""
        return BadTable(self.heads.file, self.number, column, why)

    @property
    def further(self) -> Dict[str, str]:
        """The cells of further columns, in their order."""
        return {column: self.cells[at] for column, at in self.heads.further.items()}

    def has(self, *columns: str) -> bool:
        """Whether one of these cells has a text."""
        return any(self.text(column, "") for column in columns)

    def text(self, column: str, default: Optional[str] = None) -> str:
        """The text of a cell that has one, else the default. Raises `BadTable` if there is neither."""
        at = self.heads.known.get(column)
        found = (self.cells[at] if at is not None else "") or default
        if found is None:
            raise self.bad(column, "the cell is empty")
        return found

    def read(self, column: str, read: Callable[[str], T], kind: str, default: T) -> T:
        """The value of a cell, or the default if it is empty. Raises `BadTable` if it is no such value."""
        text = self.text(column, "")
        try:
            return read(text.replace(self.point, ".")) if text else default
        except ValueError:
            raise self.bad(column, f"'{shown(text)}' is {kind}{hint(text, self.point)}") from None

    def whole(self, column: str, most: int, least: int = 0) -> int:
        """The whole number of a cell, from `least` to `most`; 0 if it is empty."""
        return self.maybe(column, most, least) or 0

    def maybe(self, column: str, most: int, least: int = 0) -> Optional[int]:
        """The whole number of a cell, from `least` to `most`; None if it is empty."""
        kind = "neither a whole number nor a time like 8:30 or 9:00 AM"
        found = self.read(column, lambda text: (whole(text),), kind, None)
        if found is not None and not least <= found[0] <= most:
            bound = f"below {least}" if found[0] < least else f"above {most}"
            raise self.bad(column, f"{shown(self.text(column))} is {bound}")
        return None if found is None else found[0]

    def real(self, column: str, most: float) -> float:
        """The number of a cell that must have one, from -`most` to `most`."""
        self.text(column)
        found = self.read(column, finite, "no number", 0.0)
        if abs(found) > most:
            raise self.bad(column, f"'{shown(self.text(column))}' is beyond {'-' if found < 0 else ''}{most:g}")
        return found

    def window(self, low: str, high: str, most: int) -> Optional[Tuple[int, int]]:
        """The interval of two cells, None if both are empty. Raises `BadTable` if one is, or they are turned."""
        if not self.has(low, high):
            return None
        for column, other in ((low, high), (high, low)):
            if not self.has(column):
                raise self.bad(column, f"the cell is empty, and that of '{other}' is not: give both or none")
        for column in (low, high):
            if DOTTED.fullmatch(self.text(column)):
                raise self.bad(column, f"'{self.text(column)}' may be a time or a number: write 9:30, or 9")
        found = self.whole(low, most), self.whole(high, most)
        if found[0] > found[1]:
            turned = f"{shown(self.text(high))} is before {shown(self.text(low))}"
            raise self.bad(high, f"{turned}; two at night is written 26:00")
        return found


def hint(text: str, point: str) -> str:
    """What a text that is no number may be after all, in words."""
    if point == "." and COMMA.fullmatch(text):
        return "; where commas part the cells, a number has a point, as 3.5"
    try:
        found = finite(text.replace(point, "."))
    except ValueError:
        return ""
    is_time = 0 < found < 1 and len(text) > 3
    return "; a spreadsheet keeps times as parts of a day: give the cell the form 8:30" if is_time else ""


@dataclass(frozen=True)
class Table:
    """The lines of a CSV file that are not blank, its headings, and what looks wrong in its form."""

    heads: Heads
    lines: Tuple[TableLine, ...]
    doubts: Tuple[BadTable, ...]
    delimiter: str = ","

    def without(self, *columns: str) -> "Table":
        """The same table, these columns being further ones."""
        heads = self.heads.without(*columns)
        return replace(self, heads=heads, lines=tuple(replace(line, heads=heads) for line in self.lines))


def read_table(source: TableSource, columns: Sequence[str], others: Mapping[str, str]) -> Table:
    """The table of a CSV file whose first line that is not blank has the headings.

    `columns` are those that are read, `others` other names for some of them. Capitals and blanks in headings do not
    matter; further columns are kept as they are. Lines without a text in any cell are left out. Raises `BadTable` at a
    line with more cells than headings, at faulty quotes, and at bytes that are no text; `OSError`.
    """
    name, data = source if isinstance(source, tuple) else (source, bytes_of(source))
    text, doubts = decoded(name, data)
    delimiter, first, body = parted(text)
    rows = list(rows_of(name, body, delimiter, first))
    if not rows:
        raise BadTable(name, 1, "", "the file is empty; its first line has the names of the columns")
    (number, headings), *lines = rows
    heads, found = heads_of(Heads(name, number), headings, columns, others, [cells for _, cells in lines])
    point = "." if delimiter == "," else ","
    table = tuple(TableLine(heads, at, filled(heads, at, cells, len(headings)), point) for at, cells in lines)
    return Table(heads, table, (*doubts, *found), delimiter)


def bytes_of(path: str) -> bytes:
    """The bytes of a file."""
    with open(path, "rb") as file:
        return file.read()


def decoded(name: str, data: bytes) -> Tuple[str, List[BadTable]]:
    """The text of a CSV file in UTF-8, in UTF-16 with its mark, or, with a doubt, in Windows-1252."""
    if data.startswith(OWN_FILES):
        raise BadTable(name, 1, "", "this is a spreadsheet's own file; save it as 'CSV UTF-8'")
    is_wide = data.startswith((codecs.BOM_UTF16_LE, codecs.BOM_UTF16_BE))
    doubts: List[BadTable] = []
    try:
        text = data.decode("utf-16" if is_wide else "utf-8-sig")
    except UnicodeDecodeError as fault:
        line = data.count(b"\n", 0, fault.start) + 1
        text, doubts = western(name, line, b"" if is_wide else data)
    if "\x00" in text:
        line = text.count("\n", 0, text.index("\x00")) + 1
        raise BadTable(name, line, "", "this is no text in UTF-8; save the file as 'CSV UTF-8'")
    return text, doubts


def western(name: str, line: int, data: bytes) -> Tuple[str, List[BadTable]]:
    """The text as Excel's plain 'CSV' writes it in western Europe and America, with a doubt: nothing in it says so."""
    why = "this is no text in UTF-8; save the file as 'CSV UTF-8'"
    try:
        text = data.decode("cp1252")
    except UnicodeDecodeError:
        text = ""
    if not text:
        raise BadTable(name, line, "", why)
    begin = text.split("\n")[line - 1].strip()
    doubt = f"{why} if '{shown(begin)}' has wrong letters (it was read as Windows-1252)"
    return text, [BadTable(name, line, "", doubt)]


def parted(text: str) -> Tuple[str, int, str]:
    """What parts the cells of a text, how many lines come before it, and the text without them."""
    begin = re.match(r"[^\r\n]*(?:\r\n|\r|\n|$)", text)
    line = begin[0] if begin else ""
    told = SEPARATOR.fullmatch(line.rstrip("\r\n"))
    if told:
        return told[1], 1, text[len(line):]
    filled_line = next((line for line in re.split(r"[\r\n]+", text) if line.strip(DELIMITERS + " \"")), "")
    plain = re.sub(r'"[^"]*"', "", filled_line)
    return max(DELIMITERS, key=plain.count), 0, text


def rows_of(name: str, text: str, delimiter: str, before: int) -> Iterator[Tuple[int, List[str]]]:
    """The cells of each line that is not blank, with the number of the line where it begins."""
    reader = csv.reader(io.StringIO(text, newline=""), delimiter=delimiter, strict=True)
    begin = before + 1
    try:
        for cells in reader:
            stripped = [cell.strip() for cell in cells]
            if any(stripped):
                yield begin, stripped
            begin = before + reader.line_num + 1
    except csv.Error as fault:
        raise BadTable(name, begin, "", f"the quotes of this line are faulty: {fault}") from None


def filled(heads: Heads, number: int, cells: Sequence[str], length: int) -> List[str]:
    """The cells of a line, as many as there are headings. Raises `BadTable` if there are more."""
    if any(cells[length:]):
        last = max([*heads.known.items(), *heads.further.items()], key=lambda entry: entry[1])[0]
        raise BadTable(heads.file, number, last, "the line has more cells than there are columns")
    return [*cells[:length], *[""] * (length - len(cells))]


def heads_of(
    heads: Heads, headings: Sequence[str], columns: Sequence[str], others: Mapping[str, str],
    lines: Sequence[Sequence[str]],
) -> Tuple[Heads, List[BadTable]]:
    """The columns by their headings, and what looks wrong in these."""
    known: Dict[str, int] = {}
    further: Dict[str, int] = {}
    doubts: List[BadTable] = []
    for at, heading in enumerate(headings):
        word = " ".join(heading.split()).casefold()
        word = others.get(word, word)
        if word in columns and word not in known:
            known[word] = at
        elif heading or any(cells[at:at + 1] != [""] and cells[at:at + 1] for cells in lines):
            further[another(heading or f"column {at + 1}", [*columns, *further])] = at
        if word in columns and known[word] != at:
            doubts.append(heads.bad(heading, "the heading is there twice; the first such column is taken"))
    heads = replace(heads, known=known, further=further)
    return heads, [*doubts, *misspelt(heads, columns)]


def another(heading: str, used: Sequence[str]) -> str:
    """A heading that is not used yet: 'phone', else 'phone (2)', .."""
    number, out = 1, heading
    while out in used:
        number += 1
        out = f"{heading} ({number})"
    return out


def misspelt(heads: Heads, columns: Sequence[str]) -> Iterator[BadTable]:
    """A doubt at each further column that is called almost like one that is missing."""
    missing = [column for column in columns if column not in heads.known]
    for heading in heads.further:
        near = difflib.get_close_matches(heading.casefold(), [c for c in missing if len(c) > 1], 1, ALIKE)
        if near:
            yield heads.bad(heading, f"this column is not read; is '{near[0]}' meant?")
