"""The reply of OSRM's table service (`/table/v1/driving/..?annotations=duration,distance`) as whole matrices."""

from __future__ import annotations

from dataclasses import dataclass
from fractions import Fraction
from typing import Any, List, Optional, Tuple

from ..kinds import is_list
from ..places import Rounding
from ..records import GREATEST_TRANSIT
from .reading import ROUND, BadFile, entries, json_of

Matrix = List[List[int]]


@dataclass(frozen=True)
class RoadTable:
    """What a road router says of all places: durations and distances, None if the reply has them not.

    `no_road` has the pairs (from, to) between which it knows no road. Their entries are 2^30, which no shift below that
    has room for.
    """

    durations: Optional[Matrix]
    distances: Optional[Matrix]
    no_road: Tuple[Tuple[int, int], ...]


def read_osrm(
    path: str, seconds: float = 60, metres: float = 1, rounding: Rounding = Rounding.UP
) -> RoadTable:
    """The matrices of a reply: durations in units of this many `seconds` (60: minutes), distances in units of this many
    `metres`, rounded once. Rounding up, the default, keeps the triangle inequality.

    Raises `BadFile` if the reply is none, says no `Ok`, or has no square matrix; `OSError`.
    """
    reply = json_of(path)
    if not isinstance(reply, dict) or reply.get("code") != "Ok":
        said = reply.get("message") or reply.get("code") if isinstance(reply, dict) else None
        raise BadFile(path, "", f"it is no table of OSRM with code Ok{f': it says {said}' if said else ''}")
    if "durations" not in reply and "distances" not in reply:
        raise BadFile(path, "", "it has neither durations nor distances; ask for annotations=duration,distance")
    made = [
        matrix_of(path, reply.get(name), f"/{name}", Fraction(unit), rounding)
        for name, unit in (("durations", seconds), ("distances", metres))
    ]
    absent = sorted({pair for _, pairs in made for pair in pairs})
    return RoadTable(made[0][0], made[1][0], tuple(absent))


def matrix_of(
    path: str, matrix: Any, place: str, unit: Fraction, rounding: Rounding
) -> Tuple[Optional[Matrix], List[Tuple[int, int]]]:
    """A matrix in whole units, and the pairs without a road."""
    if matrix is None:
        return None, []
    if not is_list(matrix) or any(not is_list(row) or len(row) != len(matrix) for row in matrix):
        raise BadFile(path, place, "it is no square matrix: sources and destinations must be all places")
    made, absent = [[0] * len(matrix) for _ in matrix], []
    for tail, head, entry in entries(matrix):
        if entry is None:
            absent.append((tail, head))
            made[tail][head] = GREATEST_TRANSIT
        else:
            made[tail][head] = entry_of(path, entry, f"{place}/{tail}/{head}", unit, rounding)
    return made, absent


def entry_of(path: str, entry: Any, place: str, unit: Fraction, rounding: Rounding) -> int:
    """An entry in whole units."""
    if isinstance(entry, bool) or not isinstance(entry, (int, float)) or not 0 <= entry < float("inf"):
        raise BadFile(path, place, f"{entry!r} is no number from 0")
    found = ROUND[rounding](Fraction(entry) / unit)
    if found >= GREATEST_TRANSIT:
        raise BadFile(path, place, f"{found} is above what a model takes; choose a greater unit")
    return found
