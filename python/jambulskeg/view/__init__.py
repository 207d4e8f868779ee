"""Pictures of a day: one page without a network, or one SVG, and a sheet for each driver.

    day = day_of(model, solution, places=read_places("places.csv"))
    text = page(day, "Monday", "")
"""

from __future__ import annotations

from typing import Mapping, Optional, Sequence

from ..errors import JambulskegError
from ..model import Model, Solution
from ..places import Place
from ..reasons import Reason, why_left_out
from .day import Day, Names, time_dimension
from .downloads import Download
from .drawing import drawing
from .page import compare_page, page
from .sheets import sheet_page

__all__ = [
    "CannotBeDrawn", "Day", "Download", "Names", "compare_page", "day_of", "drawing", "page", "sheet_page",
]


class CannotBeDrawn(JambulskegError, ValueError):
    """What was handed in beside the day does not belong to it."""


def day_of(
    model: Model, solution: Solution, *, places: Sequence[Place] = (), vehicles: Sequence[str] = (),
    time: Optional[str] = None, clock: Optional[int] = None, further: Sequence[Mapping[str, str]] = (),
    van_further: Sequence[Mapping[str, str]] = (), reasons: Optional[Mapping[int, Reason]] = None,
) -> Day:
    """A day to be drawn. The solution meets the model (see `model.meets`).

    `places` has a place for each node, `further` more cells of each; `vehicles` has a name for each vehicle, and
    `van_further` more cells. `time` names
    the dimension that the day is drawn along; without it the one that looks most like times is taken. `clock` is the
    minute of the day at which the time 0 lies, if times are minutes. `reasons` say why visits are left out; without
    them they are measured, for two seconds at most. Raises `CannotBeDrawn` if these do not belong to the model.
    """
    for what, entries, count, of in (
        ("places", places, model.nodes, "nodes"), ("rows of further cells", further, model.nodes, "nodes"),
        ("names", vehicles, len(model.vehicles), "vehicles"),
        ("rows of further cells", van_further, len(model.vehicles), "vehicles"),
    ):
        if entries and len(entries) != count:
            raise CannotBeDrawn(f"there are {len(entries)} {what}, and the model has {count} {of}")
    try:
        number = time_dimension(model, time)
    except ValueError as fault:
        raise CannotBeDrawn(str(fault)) from None
    measured = why_left_out(model, solution) if reasons is None else reasons
    names = Names([place.name for place in places], vehicles, clock)
    return Day(model, solution, names, number, places, further, measured, van_further)
