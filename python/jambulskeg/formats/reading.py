"""What the readers share: lines of words with their numbers, and whole numbers made of fractions."""

from __future__ import annotations

import json
import math
from dataclasses import dataclass
from fractions import Fraction
from typing import Any, Callable, Dict, Iterator, List, Sequence, Tuple

from ..errors import JambulskegError
from ..places import Rounding

Point = Tuple[Fraction, Fraction]
"""A place of a plane, as it is written."""


class BadFile(JambulskegError, ValueError):
    """A file that cannot be read: the `file`, the `place` (a line, or a path of JSON), and why."""

    def __init__(self, file: str, place: str, why: str) -> None:
        self.file, self.place = file, place
        super().__init__(f"{file}, {place}: {why}" if place else f"{file}: {why}")


@dataclass(frozen=True)
class Line:
    """A line of a file that has words."""

    file: str
    number: int
    words: Sequence[str]

    def fault(self, why: str) -> BadFile:
        """The exception for this line."""
        return BadFile(self.file, f"line {self.number}", why)

    def number_at(self, place: int) -> Fraction:
        """The number at a place. Raises `BadFile` if there is none."""
        if place >= len(self.words):
            raise self.fault(f"it has {len(self.words)} words, and {place + 1} are asked for")
        try:
            return Fraction(self.words[place])
        except (ValueError, ZeroDivisionError):
            raise self.fault(f"'{self.words[place]}' is no number") from None

    def whole_at(self, place: int, low: int, high: int) -> int:
        """The whole number at a place. Raises `BadFile` if it is none from `low` to `high`."""
        found = self.number_at(place)
        if found.denominator != 1 or not low <= found <= high:
            raise self.fault(f"'{self.words[place]}' is no whole number from {low} to {high}")
        return int(found)


def text_of(path: str) -> str:
    """The text of a file. Raises `BadFile` if it is no UTF-8, `OSError`."""
    with open(path, "rb") as file:
        data = file.read()
    try:
        return data.decode("utf-8-sig")
    except UnicodeDecodeError:
        raise BadFile(path, "", "this is no text in UTF-8") from None


def lines_of(path: str) -> List[Line]:
    """The lines of a file that have words."""
    lines = enumerate(text_of(path).splitlines(), 1)
    return [Line(path, number, line.split()) for number, line in lines if line.split()]


def json_of(path: str) -> Any:
    """The value of a JSON file. Raises `BadFile` with the line if it is none."""
    try:
        return json.loads(text_of(path))
    except json.JSONDecodeError as fault:
        raise BadFile(path, f"line {fault.lineno}", f"this is no JSON: {fault.msg}") from None
    except RecursionError:
        raise BadFile(path, "", "this JSON nests too deep") from None


@dataclass(frozen=True)
class Scale:
    """How a fraction becomes a whole number: times the factor, then rounded."""

    factor: Fraction
    rounding: Rounding

    def way(self, one: Point, other: Point) -> int:
        """The distance of two places in a plane: exact, up to the one rounding."""
        square = ((one[0] - other[0]) ** 2 + (one[1] - other[1]) ** 2) * self.factor**2
        return root(square, self.rounding)

    def matrix(self, points: Sequence[Point]) -> List[List[int]]:
        """The distances of all places."""
        return [[self.way(one, other) for other in points] for one in points]

    def whole(self, value: Fraction) -> int:
        """A number that the factor makes whole, else rounded."""
        return ROUND[self.rounding](value * self.factor)


ROUND: Dict[Rounding, Callable[[Fraction], int]] = {
    Rounding.NEAREST: lambda value: math.floor(value + Fraction(1, 2)), Rounding.UP: math.ceil,
    Rounding.DOWN: math.floor,
}


def root(square: Fraction, rounding: Rounding) -> int:
    """The square root as a whole number, rounded exactly."""
    over, under = square.numerator, square.denominator
    if rounding is Rounding.NEAREST:
        return (math.isqrt(4 * over // under) + 1) // 2
    below = math.isqrt(over // under)
    return below if rounding is Rounding.DOWN or below * below * under == over else below + 1


def entries(matrix: Sequence[Sequence[Any]]) -> Iterator[Tuple[int, int, Any]]:
    """Each entry of a matrix with its row and column."""
    for tail, row in enumerate(matrix):
        for head, entry in enumerate(row):
            yield tail, head, entry
