"""A region cut into parts that each fit a run of the program.

Visits go to the sites where vans start, each to the nearest that has vans left for it. The visits of a site are halved
again and again: across the directions from the site, or across the distances, whichever is longer, so that parts are
as routes are. Then the vans of the site are shared out by what the parts need of loads, hours and skills.
"""

from __future__ import annotations

import math
from dataclasses import dataclass
from typing import Callable, Dict, FrozenSet, List, Sequence, Tuple

from ..places import EARTH, Measure
from ..records import MOST_VEHICLES
from .day import Part, Point, Region

__all__ = ["MOST_VISITS", "cut"]

MOST_VISITS = 150
"""The most visits of a part, where nothing else is asked for. Parts of 100 cost 1.3 percent more in the same seconds,
since each has fewer routes to choose among; parts of 250, 340 and 500 cost 1, 2 and 4 percent more, since they are not
searched to an end."""
FULL = 0.95
"""A site is full when this share of its loads or hours is used."""
NEAR_SITES = 4
"""A visit goes to one of as many nearest sites, unless none of them has vans left for it."""
VANS_OF_A_PART = 80
"""A part is cut small enough for about this many vans; a model takes 100."""
LOCAL = 0.6
"""The drive between near visits, as a share of the square root of the area for each."""

MOST_IN_A_MODEL = 800
"""More visits are in no part, however few vans there are."""

Unit = Tuple[int, ...]
Units = List[Unit]
"""Visits that stay in one part: pairs, and single ones."""


@dataclass(frozen=True)
class Need:
    """Loads and hours, of visits or of vans."""

    load: float
    hours: float

    def __add__(self, other: "Need") -> "Need":
        return Need(self.load + other.load, self.hours + other.hours)

    def of(self, whole: "Need") -> float:
        """The larger share of loads and of hours."""
        return max(self.load / whole.load if whole.load else 0.0, self.hours / whole.hours if whole.hours else 0.0)


NOTHING = Need(0, 0)


@dataclass(frozen=True)
class Site:
    """Vans that start in one place, or in places near each other."""

    at: Point
    vans: Tuple[int, ...]
    supply: Need


def cut(region: Region, most: int = MOST_VISITS) -> List[Part]:
    """Parts of at most `most` visits, in which each visit and each van is once; a van that no part needs is in none.
    Where vans are fewer than such parts, parts are larger. The same region gives the same parts.
    """
    sites = sites_of(region, most)
    parts: List[Part] = []
    for site, units in zip(sites, shared_among(region, sites)):
        needs = {unit: need_of_unit(region, site, unit) for unit in units}
        pieces = divided(region, site, needs, most) if units else [[]]
        parts += with_vans(region, site, pieces, needs)
    return [part for part in parts if part.visits]


def units_of(region: Region) -> Units:
    """The visits that stay together."""
    return [region.together(visit) for visit in region.visits if region.together(visit)[0] == visit]


def sites_of(region: Region, most: int) -> List[Site]:
    """The places where vans start, put together by halves where they are more than the region has parts."""
    starts: Dict[int, List[int]] = {}
    for van, start in enumerate(region.starts):
        starts.setdefault(start, []).append(van)
    groups = [sorted(starts)]
    wanted = max(1, math.ceil(len(region.visits) / most))
    if len(starts) <= wanted:
        groups = [[start] for start in sorted(starts)]
    while len(groups) < wanted and max(map(len, groups)) > 1:
        group = max(groups, key=len)
        groups.remove(group)
        groups += halves_by_place(region.points, group)
    return [site_of(region, [van for start in group for van in starts[start]]) for group in groups if group]


def halves_by_place(points: Sequence[Point], places: Sequence[int]) -> List[List[int]]:
    """Places halved across the longer side of the box around them."""
    spans = [max(points[place][axis] for place in places) - min(points[place][axis] for place in places)
             for axis in (0, 1)]
    axis = 0 if spans[0] >= spans[1] else 1
    ordered = sorted(places, key=lambda place: (points[place][axis], place))
    return [ordered[:len(ordered) // 2], ordered[len(ordered) // 2:]]


def site_of(region: Region, vans: Sequence[int]) -> Site:
    """The site of some vans, in the middle of their starts."""
    at = [region.points[region.starts[van]] for van in vans]
    middle = sum(x for x, _ in at) / len(at), sum(y for _, y in at) / len(at)
    return Site(middle, tuple(vans), sum((supply_of(region, van) for van in vans), NOTHING))


def supply_of(region: Region, van: int) -> Need:
    """What a van gives; without a capacity or a shift, as much as anybody needs."""
    capacity, shift = region.vans[van].capacity, region.vans[van].shift
    return Need(math.inf if capacity is None else capacity, math.inf if shift is None else shift[1] - shift[0])


def need_of(region: Region, site: Site, visit: int) -> Need:
    """What a visit needs: its load, its service, the drive from a near visit, and its share of the way to the site."""
    place, pace = region.places[visit], region.roads.pace
    (x, y), (left, low) = region.points[visit], site.at
    vans = max(1, len(site.vans))
    capacity = site.supply.load / vans
    share = min(1.0, abs(place.demand) / capacity) if 0 < capacity < math.inf else 0.05
    drive = LOCAL * region.apart + 2 * math.hypot(x - left, y - low) * max(share, 0.01)
    return Need(abs(place.demand), place.service + drive * pace * unit_of(region))


def need_of_unit(region: Region, site: Site, unit: Sequence[int]) -> Need:
    """What visits that stay together need."""
    return sum((need_of(region, site, visit) for visit in unit), NOTHING)


def unit_of(region: Region) -> float:
    """How many units of distance a unit of the plane has: metres where places are in degrees."""
    return math.radians(EARTH) if region.roads.measure is Measure.GREAT_CIRCLE else 1.0


def shared_among(region: Region, sites: Sequence[Site]) -> List[Units]:
    """The units of each site: first those for which the second nearest site is much further than the nearest."""
    points, out, used = region.points, [[] for _ in sites], [NOTHING for _ in sites]  # type: ignore[var-annotated]

    def ways(unit: Unit) -> List[Tuple[float, int]]:
        x, y = points[unit[0]]
        return sorted((math.hypot(x - site.at[0], y - site.at[1]), at) for at, site in enumerate(sites))

    def fits(unit: Unit, at: int, share: float) -> bool:
        return (used[at] + need_of_unit(region, sites[at], unit)).of(sites[at].supply) <= share

    def site_for(unit: Unit) -> int:
        able = [at for _, at in near[unit] if can_site(region, sites[at], unit)] or [near[unit][0][1]]
        found = next((at for at in able if fits(unit, at, FULL)), able[0])
        if fits(unit, found, 1.0):
            return found
        others = (at for _, at in ways(unit) if fits(unit, at, FULL) and can_site(region, sites[at], unit))
        return next(others, found)

    near = {unit: ways(unit)[:NEAR_SITES] for unit in units_of(region)}
    ordered = sorted(near, key=lambda unit: (near[unit][0][0] - near[unit][-1 if len(near[unit]) < 2 else 1][0], unit))
    for unit in ordered:
        at = site_for(unit)
        used[at] += need_of_unit(region, sites[at], unit)
        out[at].append(unit)
    return out


def can_site(region: Region, site: Site, unit: Sequence[int]) -> bool:
    """Whether some van of a site can make a unit."""
    if not region.needs or not any(region.needs[visit] for visit in unit):
        return True
    return any(region.can_make(van, unit[0]) for van in site.vans)


def divided(region: Region, site: Site, needs: Dict[Unit, Need], most: int) -> List[Units]:
    """The units of a site in pieces of at most `most` visits, as long as each has a van."""
    units = list(needs)
    pieces = pieces_of(site, units, most)
    while True:
        found = halved(region, site, units, pieces, len(site.vans), needs)
        largest = max(sum(map(len, piece)) for piece in found)
        if largest <= most or pieces >= len(site.vans):
            return found
        pieces += 1


def pieces_of(site: Site, units: Units, most: int) -> int:
    """How many parts the units of a site are cut into: no more than it has vans, unless a model could not take them."""
    visits = sum(map(len, units))
    by_vans = math.ceil(len(site.vans) / VANS_OF_A_PART) if len(site.vans) <= visits else 1
    wanted = max(1, math.ceil(FULL * visits / most), by_vans)
    return max(min(wanted, len(site.vans)), math.ceil(visits / MOST_IN_A_MODEL))


def halved(
    region: Region, site: Site, units: Units, pieces: int, vans: int, needs: Dict[Unit, Need]
) -> List[Units]:
    """The units cut into this many pieces by halves, each with the loads and hours for whole vans."""
    if pieces <= 1 or len(units) < 2:
        return [units]
    ordered = sorted(units, key=key_across(region, site, units))
    left = pieces // 2
    left_vans = max(left, min(vans - (pieces - left), round(vans * left / pieces)))
    weights = [needs[unit].of(site.supply) for unit in ordered]
    if not any(weights):
        weights = [len(unit) for unit in ordered]
    share, done, at = sum(weights) * left_vans / max(1, vans), 0.0, 0
    while at < len(ordered) - 1 and done + weights[at] / 2 <= share:
        done += weights[at]
        at += 1
    at = max(1, at)
    return [
        *halved(region, site, ordered[:at], left, left_vans, needs),
        *halved(region, site, ordered[at:], pieces - left, vans - left_vans, needs),
    ]


def key_across(
    region: Region, site: Site, units: Units
) -> Callable[[Unit], Tuple[float, Unit]]:
    """By what units are ordered to be halved: the direction from the site, or the distance."""
    ways = {unit: way_of(region, site, unit) for unit in units}
    begin, span = gap_of([angle for angle, _ in ways.values()])
    far = sorted(length for _, length in ways.values())
    width = span * far[len(far) // 2]
    depth = far[(len(far) * 9) // 10] - far[len(far) // 10]
    if width >= depth:
        return lambda unit: ((ways[unit][0] - begin) % (2 * math.pi), unit)
    return lambda unit: (ways[unit][1], unit)


def way_of(region: Region, site: Site, unit: Sequence[int]) -> Tuple[float, float]:
    """The direction and the distance from a site to the middle of a unit."""
    x = sum(region.points[visit][0] for visit in unit) / len(unit) - site.at[0]
    y = sum(region.points[visit][1] for visit in unit) / len(unit) - site.at[1]
    return math.atan2(y, x), math.hypot(x, y)


def gap_of(angles: Sequence[float]) -> Tuple[float, float]:
    """Where directions begin after their widest gap, and how wide they are from there."""
    ordered = sorted(angles)
    gaps = [(head - tail, head) for tail, head in zip(ordered, ordered[1:])]
    gaps.append((ordered[0] + 2 * math.pi - ordered[-1], ordered[0]))
    gap, begin = max(gaps)
    return begin, 2 * math.pi - gap


def with_vans(region: Region, site: Site, divisions: Sequence[Units], needs: Dict[Unit, Need]) -> List[Part]:
    """Parts of the pieces of a site, its vans shared out by need, those with rare skills first."""
    pieces = [[visit for unit in units for visit in unit] for units in divisions]
    wants = [sum((needs[unit] for unit in units), NOTHING) for units in divisions]
    given: List[List[int]] = [[] for _ in pieces]
    supplies = [NOTHING for _ in pieces]
    asked = [skills_of(region, piece) for piece in pieces]
    for van in sorted(site.vans, key=lambda van: (
        -len(skills_at(region, van, asked)), -supply_of(region, van).load, van
    )):
        open_to = [at for at in range(len(pieces)) if pieces[at] and len(given[at]) < MOST_VEHICLES]
        if not open_to:
            break
        skills = skills_at(region, van, asked)
        at = min(open_to, key=lambda at: (
            -want_of_skills(region, asked[at], given[at], skills), share_of(supplies[at], wants[at]), at
        ))
        given[at].append(van)
        supplies[at] = supplies[at] + supply_of(region, van)
    return [Part(tuple(sorted(piece)), tuple(sorted(vans))) for piece, vans in zip(pieces, given)]


def share_of(supply: Need, want: Need) -> float:
    """How much of what is wanted is there: the lesser share of loads and of hours."""
    shares = [have / need for have, need in ((supply.load, want.load), (supply.hours, want.hours)) if need > 0]
    return min(shares, default=math.inf if supply is not NOTHING else 0.0)


def skills_of(region: Region, visits: Sequence[int]) -> Dict[FrozenSet[str], int]:
    """The sets of skills that visits ask for, and how many of them do."""
    out: Dict[FrozenSet[str], int] = {}
    for visit in visits if region.needs else ():
        if region.needs[visit]:
            out[region.needs[visit]] = out.get(region.needs[visit], 0) + 1
    return out


def skills_at(region: Region, van: int, asked: Sequence[Dict[FrozenSet[str], int]]) -> FrozenSet[str]:
    """The skills of a van that some visit asks for."""
    wanted = {skill for part in asked for needs in part for skill in needs}
    return frozenset(region.skills[van] & wanted) if region.skills else frozenset()


def want_of_skills(
    region: Region, asked: Dict[FrozenSet[str], int], vans: Sequence[int], skills: FrozenSet[str]
) -> float:
    """How many visits of a part ask for skills that a van has, for each such van that the part would then have."""
    needs = [(need, count) for need, count in asked.items() if need <= skills]
    return max((
        count / (1 + sum(1 for van in vans if need <= region.skills[van])) for need, count in needs
    ), default=0.0)
