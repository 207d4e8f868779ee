"""Regions made by a rule, as tests and measurements take them.

The rule: n visits lie in a square whose side is 100 times the root of n, so that there are as many for each unit of
area in every region. A unit is ten metres: 10,000 visits are 100 by 100 kilometres. Half of the visits lie anywhere,
half around towns (one for each 200 visits, spread 3 kilometres). Each has a load of 1 to 9 and takes five minutes; half
have a window of two or four hours that opens between 8:00 and 15:00 on a half hour; one in ten may be left out for
3000. There is a depot for each 1000 visits. Vans take 120, are out from 8:00 to 18:00 at most, cost 500, and are 12
percent more than the loads ask for, shared out to the depots in turn. They drive 40 kilometres an hour.
"""

from __future__ import annotations

import csv
import math
import random
from typing import Optional, Sequence, Tuple

from jambulskeg.places import Place, Roads, Van
from jambulskeg.region import Region

ROADS = Roads(pace=0.015, slack_max=600)
"""The roads of the rule: a unit of ten metres takes 0.015 minutes."""
ROAD_WORDS = ("--speed", "4000", "--wait", "600")
"""The same as words of the command: 4000 units are 40 kilometres."""


def made_region(visits: int, seed: int = 1) -> Region:
    """The region of a number of visits by the rule."""
    rng = random.Random(1000003 * seed + visits)
    side, depots = 100 * math.sqrt(visits), max(1, round(visits / 1000))
    towns = [(rng.uniform(0, side), rng.uniform(0, side)) for _ in range(max(1, visits // 200))]
    places = [
        Place(f"depot {depot}", round(rng.uniform(0.1 * side, 0.9 * side)), round(rng.uniform(0.1 * side, 0.9 * side)))
        for depot in range(depots)
    ]
    places += [made_visit(rng, number, side, towns) for number in range(visits)]
    vans = [
        Van(f"van {van}", f"depot {van % depots}", f"depot {van % depots}", 120, 500, (480, 1080))
        for van in range(math.ceil(visits * 5.0 / 120 * 1.12))
    ]
    return Region(tuple(places), tuple(vans), ROADS)


def made_visit(rng: random.Random, number: int, side: float, towns: Sequence[Tuple[float, float]]) -> Place:
    """A visit of the rule."""
    if rng.random() < 0.5:
        x, y = rng.uniform(0, side), rng.uniform(0, side)
    else:
        town = rng.choice(towns)
        x, y = (min(side, max(0.0, rng.gauss(middle, 300))) for middle in town)
    window: Optional[Tuple[int, int]] = None
    if rng.random() < 0.5:
        low = 480 + 30 * rng.randrange(15)
        window = (low, low + rng.choice((120, 240)))
    penalty = 3000 if rng.random() < 0.1 else None
    return Place(f"visit {number}", round(x), round(y), rng.randint(1, 9), window, 5, penalty)


def clock(minute: int) -> str:
    """A time as a spreadsheet has it."""
    return f"{minute // 60}:{minute % 60:02}"


def write_tables(region: Region, places: str, vans: str) -> None:
    """The region as two CSV files."""
    with open(places, "w", encoding="utf-8", newline="") as file:
        writer = csv.writer(file)
        writer.writerow(["name", "x", "y", "demand", "open", "close", "service", "penalty", "phone"])
        for number, place in enumerate(region.places):
            window = [clock(minute) for minute in place.window] if place.window else ["", ""]
            writer.writerow([
                place.name, place.x, place.y, place.demand, *window, place.service,
                "" if place.penalty is None else place.penalty, f"555-{number:05}",
            ])
    with open(vans, "w", encoding="utf-8", newline="") as file:
        writer = csv.writer(file)
        writer.writerow(["name", "start", "capacity", "fixed", "from", "to"])
        for van in region.vans:
            shift = [clock(minute) for minute in van.shift or (0, 0)]
            writer.writerow([van.name, van.start, van.capacity, van.fixed, *shift])
