"""python3 tests/measure_region.py [VISITS ..], by hand: seconds, memory and cost of regions by region_support's rule.

Each visit gets 240,000 tries, about as many as four processors of a slow machine manage in 60 seconds for 10,000. With
the word `alone` the parts get all tries and no seams; with `anew` vr_cli searches all parts, also if vr_refine is at
hand; with `once`, up to 999 visits are also one run of vr_refine with as many seconds of a processor as the region took
of all, and one of vr_cli with as many tries as a model may ask for. README.md has what it printed; `picture` reads such
rows and writes their drawing.
"""

from __future__ import annotations

import contextlib
import math
import os
import resource
import sys
import tempfile
import time
from dataclasses import replace
from typing import List, Sequence, Tuple

sys.path.insert(0, os.path.dirname(os.path.dirname(os.path.abspath(__file__))))

from jambulskeg.model import solve
from jambulskeg.places import model_of
from jambulskeg.program import find
from jambulskeg.records import MOST_TRIES, First, Improve, Refine, Search
from jambulskeg.refine import solve as refined
from jambulskeg.region import Asked, OwnCrew, RegionTables, Searcher, Store, check_plan, plan, region_page
from tests.region_support import made_region

JOBS = 4
OF_A_VISIT = 240_000
"""The tries for each visit."""
PROBED = 20_000
"""The steps of the first run of vr_refine, which tells how long a step takes."""
MOST_FASTER = 10.0
"""A run has this many times the steps of the one before at most."""
ENOUGH = 0.95
"""A run that takes this share of the seconds is long enough."""


def used() -> float:
    """The processor seconds of this process and of its children that have ended."""
    found = [resource.getrusage(who) for who in (resource.RUSAGE_SELF, resource.RUSAGE_CHILDREN)]
    return sum(entry.ru_utime + entry.ru_stime for entry in found)


def measured(visits: int, seams: bool, searcher: Searcher) -> float:
    """Plans a region and prints what it took; the processor seconds."""
    region, began, before = made_region(visits), time.monotonic(), used()
    tables = RegionTables.of(region)
    with tempfile.TemporaryDirectory() as folder, contextlib.closing(Store(folder)) as store:
        asked = Asked(jobs=JOBS, tries=OF_A_VISIT * visits, seams=seams)
        found = plan(region, asked, OwnCrew(JOBS, searcher), store)
        whole = check_plan(tables, found.standing, jobs=JOBS, store=store, sheets=True)
        page = region_page(tables, whole, found, "A region", "")
    seconds, first = used() - before, found.journal[0]
    most = resource.getrusage(resource.RUSAGE_SELF).ru_maxrss // 1024
    words = ("" if seams else ", parts alone") + ("" if searcher.refines else ", anew")
    print(
        f"| {visits:,}{words} | {time.monotonic() - began:.0f} | {seconds:.0f} | "
        f"{seconds / JOBS:.0f} | {most} | {len(found.parts)} | {first.cost:,} | {whole.cost:,} | "
        f"{100 - 100 * whole.cost / first.cost:.1f} % | {len(whole.days())} | {len(whole.missing)} | "
        f"{len(page.encode()) // 1024} KB | {os.getloadavg()[0]:.0f} |", flush=True
    )
    return seconds


def once(visits: int, seconds: float) -> None:
    """One run of each program on the whole region: vr_cli with all tries of a model, vr_refine with these seconds."""
    region, before = made_region(visits), used()
    search = Search(First.PARALLEL_CHEAPEST_INSERTION, Improve.GUIDED_LOCAL_SEARCH, MOST_TRIES)
    model = model_of(region.places, region.vans, region.roads, search)
    found = solve(model)
    print(f"one run of {visits} visits: {used() - before:.0f} processor seconds, cost {found.cost:,}", flush=True)
    steps, needed = PROBED, 0.0
    while needed < ENOUGH * seconds:
        steps = int(steps * min(MOST_FASTER, seconds / needed)) if needed else steps
        before = used()
        found = refined(replace(model, search=replace(search, tries=steps)), refine=Refine())
        needed = used() - before
    print(f"one run of vr_refine: {steps:,} steps, {needed:.0f} processor seconds, cost {found.cost:,}", flush=True)


def picture(rows: Sequence[Tuple[int, float, float]]) -> str:
    """A drawing of rows of visits, processor seconds and cost: both for each visit, the most of each being the top."""
    def points(values: Sequence[float]) -> List[Tuple[float, float]]:
        top, low = max(values), math.log10(rows[0][0])
        wide = math.log10(rows[-1][0]) - low or 1
        return [(60 + 620 * (math.log10(row[0]) - low) / wide, 260 - 200 * value / top)
                for row, value in zip(rows, values)]

    marks = ['<rect width="740" height="320" fill="#fff"/>', '<path d="M60 40V260H700" fill="none" stroke="#4a5361"/>']
    lines = (
        ("#1f5fa8", "milliseconds of a processor for each visit", [1000 * row[1] / row[0] for row in rows], -8),
        ("#b4451f", "cost for each visit", [row[2] / row[0] for row in rows], 18),
    )
    for at, (colour, words, values, aside) in enumerate(lines):
        way = points(values)
        marks.append(f'<path d="M{"L".join(f"{x:.0f} {y:.0f}" for x, y in way)}" fill="none" stroke="{colour}"/>')
        for (x, y), value in zip(way, values):
            marks.append(f'<circle cx="{x:.0f}" cy="{y:.0f}" r="4" fill="{colour}"/>')
            place = f'x="{x:.0f}" y="{y + aside:.0f}" text-anchor="middle"'
            marks.append(f'<text {place} fill="{colour}">{value:.0f}</text>')
        marks.append(f'<text x="64" y="{18 + 18 * at}" fill="{colour}">{words}</text>')
    marks += [
        f'<text x="{x:.0f}" y="280" text-anchor="middle">{row[0]:,}</text>'
        for row, (x, _) in zip(rows, points([1.0] * len(rows)))
    ]
    return (
        '<svg xmlns="http://www.w3.org/2000/svg" viewBox="0 0 740 320" font-family="sans-serif" font-size="13">'
        f'{"".join(marks)}<text x="380" y="305" text-anchor="middle">visits</text></svg>'
    )


def rows_of(lines: Sequence[str]) -> List[Tuple[int, float, float]]:
    """The visits, processor seconds and costs of rows that were printed."""
    cells = [[cell.strip().replace(",", "") for cell in line.strip("|\n ").split("|")] for line in lines]
    return [(int(row[0]), float(row[2]), float(row[7])) for row in cells if row[0].isdigit()]


def main() -> None:
    """Measures what is asked for."""
    if sys.argv[1:] == ["picture"]:
        print(picture(rows_of(sys.stdin.readlines())))
        return
    words = sys.argv[1:]
    searcher = Searcher(os.path.abspath(find())) if "anew" in words else Searcher.found()
    for visits in [int(word) for word in words if word.isdigit()] or [1000, 2000, 5000]:
        seconds = measured(visits, "alone" not in words, searcher)
        if "once" in words:
            once(visits, seconds)


if __name__ == "__main__":
    main()
