"""Schedules of small lines against an enumeration of all schedules, and sets of intervals against sets of numbers."""

from __future__ import annotations

import itertools
import random
import unittest
from typing import Iterator, List, Optional, Sequence, Set, Tuple

from jambulskeg.intervals import Numbers, common, in_words, united, without
from jambulskeg.model import Break, Model, Plan, ScheduleRule, StopRow
from jambulskeg.schedules import (
    Line, break_starts, chain_of, chosen, crossing, earliest, line_of, numbers_of, ranges, reach_of, rows_of, tight,
)

MOST = 12
Schedule = Tuple[List[int], List[int]]


def numbers(sets: Numbers) -> Set[int]:
    return {number for low, high in sets for number in range(low, high + 1)}


def breaks_at(line: Line, cumuls: Sequence[int], slacks: Sequence[int]) -> Iterator[List[int]]:
    """Each list of break starts that keeps the rules at these cumuls, in order."""
    for starts in itertools.product(*(range(entry.from_, entry.to + 1) for entry in line.breaks)):
        room = list(slacks)
        ends = [start + entry.duration for start, entry in zip(starts, line.breaks)]
        if any(end > start for end, start in zip(ends, starts[1:])):
            continue
        for start, end in zip(starts, ends):
            if end <= cumuls[0] or start >= cumuls[-1]:
                continue
            arcs = [arc for arc in range(len(slacks))
                    if start >= cumuls[arc] + line.visits[arc] and end <= cumuls[arc + 1]]
            if not arcs:
                break
            room[arcs[0]] -= end - start
        else:
            if min(room) >= 0:
                yield list(starts)


def schedules(line: Line) -> Iterator[Schedule]:
    """Each schedule of a line, the least first."""
    for cumuls in itertools.product(*(sorted(numbers(allowed)) for allowed in line.allowed)):
        slacks = [head - tail - way for tail, head, way in zip(cumuls, cumuls[1:], line.transits)]
        if all(0 <= slack <= line.slack_max for slack in slacks):
            for starts in breaks_at(line, cumuls, slacks):
                yield list(cumuls), starts


def random_line(rng: random.Random) -> Line:
    stops = rng.randint(3, 4)
    allowed = []
    for _ in range(stops):
        low, high = sorted(rng.choices(range(MOST), k=2))
        cut = rng.randrange(MOST)
        allowed.append(without(united([(low, high)]), [(cut, cut + rng.randrange(3))] if rng.random() < 0.5 else []))
    breaks = []
    for _ in range(rng.choice([0, 0, 1, 1, 2])):
        start = rng.randrange(MOST)
        breaks.append(Break(start, start + rng.randrange(6), rng.randint(1, 3)))
    return Line(
        "time", allowed, [rng.randrange(4) for _ in range(stops - 1)], [rng.randrange(4) for _ in range(stops - 1)],
        rng.randrange(7), breaks,
    )


class IntervalTests(unittest.TestCase):
    def test_sets(self) -> None:
        rng = random.Random(3)
        for _ in range(200):
            one, other = (united([(low, low + rng.randrange(5) - 1) for low in rng.choices(range(20), k=3)])
                          for _ in range(2))
            self.assertEqual(numbers(common(one, other)), numbers(one) & numbers(other))
            self.assertEqual(numbers(without(one, other)), numbers(one) - numbers(other))
            self.assertTrue(all(high + 1 < low for (_, high), (low, _) in zip(one, one[1:])))
        self.assertEqual(in_words([(1, 3), (5, 5)]), "1 to 3 or 5")
        self.assertEqual(in_words([]), "no number")


class ScheduleTests(unittest.TestCase):
    def test_the_chosen_schedules(self) -> None:
        rng, found = random.Random(7), 0
        for _ in range(1500):
            line = random_line(rng)
            every = list(schedules(line))
            plan, last = earliest(line), tight(line)
            self.assertEqual((plan, last), (chosen(line, ScheduleRule.EARLIEST), chosen(line, ScheduleRule.TIGHT)))
            self.assertEqual(plan is not None, bool(every), line)
            self.assertEqual(reach_of(line).is_feasible(), bool(every))
            if plan is None or last is None:
                self.assertIsNone(last)
                continue
            found += 1
            self.assertEqual((list(plan.cumuls), list(plan.breaks)), min(every), line)
            end = min(cumuls[-1] for cumuls, _ in every)
            start = max(cumuls[0] for cumuls, _ in every if cumuls[-1] == end)
            least = min(entry for entry in every if entry[0][0] == start and entry[0][-1] == end)
            self.assertEqual((list(last.cumuls), list(last.breaks)), least, line)
            self.assertEqual(list(plan.breaks), break_starts(line, plan.cumuls, plan.slacks))
            alike = [cumuls for cumuls, _ in every if (cumuls[0], cumuls[-1]) == (plan.cumuls[0], plan.cumuls[-1])]
            for stop, (low, high) in enumerate(ranges(line, plan)):
                self.assertEqual((low, high), (min(c[stop] for c in alike), max(c[stop] for c in alike)))
        self.assertGreater(found, 300)

    def test_chains_and_crossings(self) -> None:
        self.assertIsNone(chain_of([Break(5, 6, 3), Break(0, 7, 1)]))
        chain = chain_of([Break(5, 6, 3), Break(0, 9, 1)])
        self.assertEqual(chain and (chain.latest, chain.length, chain.end), (6, 4, 9))
        line = Line("t", [[(0, 9)]] * 2, [4], [6], 3, [Break(0, 9, 3)])
        self.assertIsNone(crossing(line, 0, line.breaks))
        way = crossing(line, 0, [])
        self.assertEqual(way and (way.from_one(1), way.image([(1, 2)]), way.preimage([(9, 9)])),
                         ((5, 8), [(5, 9)], [(2, 5)]))

    def test_lines_of_a_model(self) -> None:
        model = Model.of({
            "nodes": 3, "matrices": [[[0, 5, 5], [5, 0, 5], [5, 5, 0]]], "vehicles": [{"start": 0, "end": 0}],
            "dimensions": [{
                "name": "time", "evaluators": [{"matrix": 0}], "slack_max": 2**50, "capacity": 50, "fix_start": True,
                "nodes": [{"node": 1, "window": [9, 99], "forbidden": [[20, 30]]}], "visit": [1, 2, 3],
                "ends": [{"vehicle": 0, "window": [40, 45]}],
            }],
        })
        line = line_of(model, 0, 0, [0, 2, 1, 0])
        self.assertEqual(line.allowed, [[(0, 0)], [(0, 50)], [(9, 19), (31, 50)], [(40, 45)]])
        self.assertEqual((line.visits, line.slack_max), ([1, 3, 2], 2**36))
        row: Optional[StopRow] = rows_of(model.dimensions[0], 0, [0, 1, 0])[0]
        self.assertIsNone(row)
        self.assertEqual(numbers_of(None, 7), [(0, 7)])
        plan = earliest(line)
        self.assertEqual(plan, Plan("time", [0, 5, 10, 40], [0, 0, 25], []))


if __name__ == "__main__":
    unittest.main()
