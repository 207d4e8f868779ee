"""Tables of roads: a whole matrix in a binary file, of which parts are read without the rest being loaded.

A file has a number of 4 bytes, the lowest first, for each pair of places: row by row, each row one place's ways to all
places in the order of the table of places. 10,000 places take 400 MB.
"""

from __future__ import annotations

import mmap
import os
import sys
from array import array
from typing import Iterable, List, Sequence

from ..errors import JambulskegError

__all__ = ["BadRoads", "RoadTable", "write_roads"]

WIDTH = 4


class BadRoads(JambulskegError, ValueError):
    """A file of roads that has not a number for each pair of places."""


class RoadTable:
    """A file of roads between some places, memory-mapped. Raises `BadRoads` where its size is another, `OSError`."""

    def __init__(self, path: str, places: int) -> None:
        size, expected = os.path.getsize(path), WIDTH * places * places
        if size != expected:
            raise BadRoads(
                f"{path}: {places} places need {expected} bytes, {WIDTH} for each pair, and the file has {size}"
            )
        self._places = places
        with open(path, "rb") as file:
            self._map = mmap.mmap(file.fileno(), 0, access=mmap.ACCESS_READ)

    def among(self, places: Sequence[int]) -> List[List[int]]:
        """The matrix among some places."""
        return [self._row(tail, places) for tail in places]

    def _row(self, tail: int, places: Sequence[int]) -> List[int]:
        """The ways of one place to some."""
        size = WIDTH * self._places
        row = array("I" if array("I").itemsize == WIDTH else "L", self._map[tail * size:(tail + 1) * size])
        if sys.byteorder == "big":
            row.byteswap()
        return [row[head] for head in places]


def write_roads(path: str, rows: Iterable[Sequence[int]]) -> None:
    """Writes a table of roads, row by row. Raises `OverflowError` at a way that is negative or above 2^32 - 1."""
    with open(path, "wb") as file:
        for row in rows:
            numbers = array("I" if array("I").itemsize == WIDTH else "L", row)
            if sys.byteorder == "big":
                numbers.byteswap()
            file.write(numbers.tobytes())
