"""Where places lie in a map: most of them fill it, and those that lie far out are brought to its edge."""

from __future__ import annotations

import math
import statistics
from dataclasses import dataclass, field
from typing import Dict, List, Mapping, Sequence, Tuple

from ..places import EARTH, Place
from .svg import Point

__all__ = ["Ground", "ground_of"]

WIDTH = 1000
LEAST, MOST = 260, 900
MARGIN = 30
FAR = 3
"""A place is far out if its distance from the middle is this many times that of three quarters of the places."""
FEWEST = 6
"""With fewer places none is far out."""
TENTH = 10
"""At most one place in ten, and one at least, may be far out."""
DEGREE = math.radians(1) * EARTH / 1000
"""The kilometres of a degree of latitude."""


@dataclass(frozen=True)
class Ground:
    """The points of places, the height of the map, and the points for each unit of distance. The unit is a kilometre if
    places are in degrees, else one of x and y. `far` has the distance from the middle of each place at the edge."""

    points: List[Point]
    height: float
    scale: float
    unit: str
    far: Mapping[int, float] = field(default_factory=dict)


def ground_of(places: Sequence[Place], in_degrees: bool) -> Ground:
    """The ground of some places; the north is above."""
    middle = math.radians(sum(place.y for place in places) / len(places)) if in_degrees else 0.0
    unit = DEGREE if in_degrees else 1.0
    flat = [(place.x * math.cos(middle) * unit, place.y * unit) for place in places]
    far = far_out(flat)
    near = [point for at, point in enumerate(flat) if at not in far]
    left, low = min(x for x, _ in near), min(y for _, y in near)
    across, up = max(x for x, _ in near) - left, max(y for _, y in near) - low
    scales = [(room - 2 * MARGIN) / length for room, length in ((WIDTH, across), (MOST, up)) if length > 0]
    scale = min(scales, default=1.0)
    height = max(LEAST, up * scale + 2 * MARGIN)
    right, below = (WIDTH - across * scale) / 2, (height + up * scale) / 2
    points = [(right + (x - left) * scale, below - (y - low) * scale) for x, y in flat]
    shown = [brought_in(point, height) if at in far else point for at, point in enumerate(points)]
    return Ground(shown, height, scale, " km" if in_degrees else "", far)


def far_out(flat: Sequence[Point]) -> Dict[int, float]:
    """The places that lie far from the others, with their distances from the middle; none if many do."""
    if len(flat) < FEWEST:
        return {}
    x, y = statistics.median(x for x, _ in flat), statistics.median(y for _, y in flat)
    ways = [math.hypot(across - x, up - y) for across, up in flat]
    usual = sorted(ways)[3 * len(ways) // 4]
    far = {at: way for at, way in enumerate(ways) if way > FAR * usual > 0}
    return far if len(far) <= max(1, len(flat) // TENTH) else {}


def brought_in(point: Point, height: float) -> Point:
    """A point on the way to the middle of the map, at its edge; one that lies within is left where it is."""
    x, y = WIDTH / 2, height / 2
    across, up = point[0] - x, point[1] - y
    shares = [(room / 2 - MARGIN) / abs(way) for room, way in ((WIDTH, across), (height, up)) if way]
    share = min([1.0, *shares])
    return x + across * share, y + up * share


def length_of_scale(ground: Ground) -> Tuple[float, float]:
    """A round length of about a sixth of the map, and its points."""
    most = WIDTH / 6 / ground.scale
    power = 10.0 ** math.floor(math.log10(most))
    length = next(digit * power for digit in (5, 2, 1) if digit * power <= most * 1.0000001)
    return length, length * ground.scale
