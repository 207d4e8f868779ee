"""Which visits lie near each other, and so which routes are neighbours."""

from __future__ import annotations

import math
from collections import Counter
from functools import cached_property
from itertools import chain
from typing import Dict, Iterable, Iterator, List, Mapping, Optional, Sequence, Tuple

from .day import Point

__all__ = ["Near", "nearest"]

A_CELL = 3
"""About how many visits lie in a cell of the grid."""


class Grid:
    """Visits by the cells of a grid."""

    def __init__(self, points: Sequence[Point], visits: Sequence[int]) -> None:
        self._points = points
        xs, ys = [points[visit][0] for visit in visits], [points[visit][1] for visit in visits]
        wide, high = max(xs) - min(xs), max(ys) - min(ys)
        area = max(wide * high, max(wide, high) ** 2 / len(visits)) or 1.0
        self._side = math.sqrt(area * A_CELL / len(visits))
        self._cells: Dict[Tuple[int, int], List[int]] = {}
        for visit in visits:
            self._cells.setdefault(self._cell(visit), []).append(visit)
        columns, rows = zip(*self._cells)
        self._rings = max(max(columns) - min(columns), max(rows) - min(rows)) + 1

    def _cell(self, visit: int) -> Tuple[int, int]:
        x, y = self._points[visit]
        return math.floor(x / self._side), math.floor(y / self._side)

    def near(self, visit: int, count: int) -> List[int]:
        """The nearest other visits, the nearest first; of equally near ones those with lower numbers."""
        x, y = self._points[visit]
        found: List[Tuple[float, int]] = []
        for ring in range(self._rings + 1):
            if len(found) >= count:
                found.sort()
                del found[count:]
                if found[-1][0] <= ((ring - 1) * self._side) ** 2:
                    break
            for other in self._ring(self._cell(visit), ring):
                if other != visit:
                    there = self._points[other]
                    found.append(((there[0] - x) ** 2 + (there[1] - y) ** 2, other))
        return [other for _, other in sorted(found)[:count]]

    def _ring(self, middle: Tuple[int, int], ring: int) -> Iterator[int]:
        """The visits of the cells that lie this many cells away from one."""
        column, row = middle
        for across in range(-ring, ring + 1):
            steps = range(-ring, ring + 1) if abs(across) == ring else (-ring, ring)
            for up in steps:
                yield from self._cells.get((column + across, row + up), ())


class Near(Dict[int, List[int]]):
    """The nearest other visits of each visit, the nearest first."""

    @cached_property
    def around(self) -> Dict[int, List[int]]:
        """For each visit those that are near to it, and those that it is near to: twice, where it is both."""
        out = {visit: list(others) for visit, others in self.items()}
        for visit, others in self.items():
            for other in others:
                out[other].append(visit)
        return out

    def links(self, van_of: Mapping[int, int], visits: Iterable[int]) -> "Counter[Optional[int]]":
        """For each van how often one of its visits lies near one of these, both ways; None stands for those that no van
        makes."""
        return Counter(map(van_of.get, chain.from_iterable(map(self.around.__getitem__, visits))))


def nearest(points: Sequence[Point], visits: Sequence[int], count: int) -> Near:
    """The nearest other visits of each visit."""
    if not visits:
        return Near()
    grid = Grid(points, visits)
    return Near((visit, grid.near(visit, count)) for visit in visits)
