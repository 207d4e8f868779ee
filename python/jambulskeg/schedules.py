"""The schedules of one list of visits in one dimension: whether there are any, the earliest, and the latest start.

A line is walked from both ends.

- Forward, `reached[k][b]` are the cumuls of stop k with which some cumuls before it and the first b breaks keep all
  rules.
- Backward, `leads[k][b]` are those from which the rest and the breaks from number b on can be kept.

Both are exact sets of whole numbers, and a schedule takes its cumuls from what is in both. The rules are those of
docs/FORMAT.md; what is built here is always put to the proved check by whoever calls.
"""

from __future__ import annotations

from dataclasses import dataclass, replace
from typing import List, Optional, Sequence, Set, Tuple

from .intervals import Interval, Numbers, common, united, without
from .records import HORIZON, Break, Dimension, Model, ScheduleRule, StopRow
from .solution import Plan

__all__ = ["Line", "chosen", "earliest", "line_of", "ranges", "tight"]

Levels = List[Numbers]
"""For each number of breaks a set of cumuls."""
EARLY, LATE = -(2**62), 2**62
"""Before and after every cumul."""


@dataclass(frozen=True)
class Line:
    """A list of visits of a vehicle in a dimension.

    - `allowed[k]` are the cumuls that stop k allows.
    - `transits[k]` is the transit of the arc after stop k, `visits[k]` the time that the visit takes there.
    - `slack_max` is the greatest slack, `breaks` are the vehicle's breaks.
    """

    name: str
    allowed: List[Numbers]
    transits: List[int]
    visits: List[int]
    slack_max: int
    breaks: Sequence[Break]


def rows_of(dimension: Dimension, vehicle: int, nodes: Sequence[int]) -> List[Optional[StopRow]]:
    """For each stop of a route what the dimension asks of it."""
    by_node = {row.node: row for row in dimension.nodes}
    start = next((row for row in dimension.starts if row.vehicle == vehicle), None)
    end = next((row for row in dimension.ends if row.vehicle == vehicle), None)
    return [start, *(by_node.get(node) for node in nodes[1:-1]), end]


def numbers_of(row: Optional[StopRow], capacity: int) -> Numbers:
    """The cumuls that a stop allows under a capacity."""
    low, high = row.window if row and row.window else (0, HORIZON)
    return without(united([(low, min(high, capacity))]), row.forbidden if row else ())


def line_of(model: Model, number: int, vehicle: int, nodes: Sequence[int]) -> Line:
    """The line of a route, given by its nodes from start to end, in the dimension of a number."""
    dimension = model.dimensions[number]
    capacity = dimension.capacity_of(vehicle)
    allowed = [numbers_of(row, capacity) for row in rows_of(dimension, vehicle, nodes)]
    if dimension.fix_start:
        allowed[0] = common(allowed[0], [(0, 0)])
    arcs = list(zip(nodes, nodes[1:]))
    return Line(
        dimension.name,
        allowed,
        [model.transit(number, vehicle, tail, head) for tail, head in arcs],
        [dimension.visit[tail] if dimension.visit else 0 for tail, _ in arcs],
        min(dimension.slack_max, HORIZON),
        dimension.breaks_of(vehicle),
    )


@dataclass(frozen=True)
class Chain:
    """Breaks that follow one another at once. They can begin at `latest` at the latest, and last `length` together.
    They end `length` after their begin, or at `end` if they have to wait for their ranges."""

    latest: int
    length: int
    end: int


def chain_of(breaks: Sequence[Break]) -> Optional[Chain]:
    """The chain of some breaks in order; None if they cannot follow one another."""
    latest, length, end = LATE, 0, EARLY
    for entry in breaks:
        latest = min(latest, entry.to - length)
        end = max(end, entry.from_)
        if end > entry.to:
            return None
        length, end = length + entry.duration, end + entry.duration
    return Chain(latest, length, end)


@dataclass(frozen=True)
class Crossing:
    """An arc with some breaks inside. From the cumul c, which is at most `latest`, it leads to the cumuls from max(c +
    `least`, `end`) to c + `most`. `end` is the earliest end of the breaks."""

    latest: int
    least: int
    most: int
    end: int

    def from_one(self, cumul: int) -> Interval:
        """The cumuls after the arc that one cumul leads to, as an interval that may be empty."""
        if cumul > self.latest:
            return (0, -1)
        return max(cumul + self.least, self.end), cumul + self.most

    def image(self, numbers: Numbers) -> Numbers:
        """The cumuls that some cumuls lead to; neighbours lead to intervals that touch, so each interval to one."""
        out = []
        for low, high in numbers:
            low, high = max(low, self.end - self.most), min(high, self.latest)
            if low <= high:
                out.append((max(low + self.least, self.end), high + self.most))
        return united(out)

    def preimage(self, numbers: Numbers) -> Numbers:
        """The cumuls that lead to some of these."""
        return united(
            (max(low, self.end) - self.most, min(high - self.least, self.latest))
            for low, high in numbers if self.end <= high
        )


def crossing(line: Line, arc: int, breaks: Sequence[Break]) -> Optional[Crossing]:
    """The arc with these breaks inside; None if they do not fit."""
    transit, visit = line.transits[arc], line.visits[arc]
    if not breaks:
        return Crossing(LATE, transit, transit + line.slack_max, EARLY)
    chain = chain_of(breaks)
    if chain is None or chain.length > line.slack_max or visit + chain.length > transit + line.slack_max:
        return None
    return Crossing(
        chain.latest - visit, max(transit, visit) + chain.length, transit + line.slack_max, chain.end
    )


def crossings(line: Line, arc: int) -> List[Tuple[int, int, Crossing]]:
    """Each way to cross an arc: how many breaks were taken before it, how many after it, and where it leads."""
    out = []
    for taken in range(len(line.breaks) + 1):
        for after in range(taken, len(line.breaks) + 1):
            way = crossing(line, arc, line.breaks[taken:after])
            if way is not None:
                out.append((taken, after, way))
    return out


@dataclass(frozen=True)
class Reach:
    """What is reached at each stop of a line from its start, what leads to its end, and how its arcs are crossed."""

    reached: List[Levels]
    leads: List[Levels]
    ways: List[List[Tuple[int, int, Crossing]]]

    def both(self, stop: int, level: int) -> Numbers:
        """The cumuls that a schedule may have at a stop with a number of breaks taken."""
        return common(self.reached[stop][level], self.leads[stop][level])

    def is_feasible(self) -> bool:
        """Whether the line has a schedule."""
        return any(self.both(0, level) for level in range(len(self.reached[0])))


def reach_of(line: Line) -> Reach:
    """The sets of a line from both ends."""
    ways = [crossings(line, arc) for arc in range(len(line.transits))]
    reached, leads = [start_levels(line)], [end_levels(line)]
    for arc, found in enumerate(ways):
        reached.append(stepped(line, arc + 1, [(taken, after, way.image(reached[-1][taken]))
                                               for taken, after, way in found]))
    for arc, found in reversed(list(enumerate(ways))):
        leads.append(stepped(line, arc, [(after, taken, way.preimage(leads[-1][after]))
                                         for taken, after, way in found]))
    return Reach(reached, leads[::-1], ways)


def start_levels(line: Line) -> Levels:
    """For each number of breaks the cumuls of the start at which these have ended."""
    chains = [chain_of(line.breaks[:number]) for number in range(len(line.breaks) + 1)]
    return [common(line.allowed[0], [(chain.end, LATE)]) if chain else [] for chain in chains]


def end_levels(line: Line) -> Levels:
    """For each number of breaks the cumuls of the end after which the others can begin."""
    chains = [chain_of(line.breaks[number:]) for number in range(len(line.breaks) + 1)]
    return [common(line.allowed[-1], [(EARLY, chain.latest)]) if chain else [] for chain in chains]


def stepped(line: Line, stop: int, parts: Sequence[Tuple[int, int, Numbers]]) -> Levels:
    """The levels of a stop, each of the parts that come to it and are allowed there."""
    return [
        common(united(piece for _, to, numbers in parts if to == level for piece in numbers), line.allowed[stop])
        for level in range(len(line.breaks) + 1)
    ]


def earliest(line: Line) -> Optional[Plan]:
    """The schedule with the least cumuls from the start on, its breaks as early as they can; None without any."""
    reach = reach_of(line)
    if not reach.is_feasible():
        return None
    least = [(reach.both(0, level)[0][0], level) for level in range(len(line.breaks) + 1) if reach.both(0, level)]
    cumuls = [min(least)[0]]
    levels = {level for cumul, level in least if cumul == cumuls[0]}
    for arc in range(len(line.transits)):
        cumul, levels = next_least(reach, arc, cumuls[-1], levels)
        cumuls.append(cumul)
    slacks = [head - tail - way for tail, head, way in zip(cumuls, cumuls[1:], line.transits)]
    return Plan(line.name, cumuls, slacks, break_starts(line, cumuls, slacks))


def next_least(reach: Reach, arc: int, cumul: int, levels: Set[int]) -> Tuple[int, Set[int]]:
    """The least cumul after an arc from which the rest can be kept, and with how many breaks taken."""
    found = []
    for taken, after, way in reach.ways[arc]:
        low, high = way.from_one(cumul)
        ahead = common([(low, high)], reach.both(arc + 1, after)) if taken in levels and low <= high else []
        if ahead:
            found.append((ahead[0][0], after))
    least = min(found)[0]
    return least, {after for number, after in found if number == least}


def break_starts(line: Line, cumuls: Sequence[int], slacks: Sequence[int]) -> List[int]:
    """The earliest starts of the breaks at these cumuls, which have room for them. Each is in the first place where it
    fits: one that is taken earlier leaves no less room for those after it."""
    starts: List[int] = []
    place, room, done = -1, LATE, EARLY
    for entry in line.breaks:
        start = max(done, entry.from_)
        while not fits(line, cumuls, place, start, entry, room):
            place += 1
            is_arc = place < len(slacks)
            free = cumuls[place] + (line.visits[place] if is_arc else 0)
            room, start = slacks[place] if is_arc else LATE, max(done, entry.from_, free)
        starts.append(start)
        done, room = start + entry.duration, room - entry.duration
    return starts


def fits(line: Line, cumuls: Sequence[int], place: int, start: int, entry: Break, room: int) -> bool:
    """Whether a break that starts here ends before the next stop, and the slack has room for it."""
    is_last = place == len(line.transits)
    return start <= entry.to and entry.duration <= room and (is_last or start + entry.duration <= cumuls[place + 1])


def chosen(line: Line, rule: ScheduleRule) -> Optional[Plan]:
    """The schedule of a line under the rule of its vehicle; None without any."""
    return tight(line) if rule is ScheduleRule.TIGHT else earliest(line)


def tight(line: Line) -> Optional[Plan]:
    """The schedule that ends as early as any and begins as late as that allows, the least of these; None without."""
    levels = range(len(line.breaks) + 1)
    reach = reach_of(line)
    ends = [piece[0] for level in levels for piece in reach.both(len(line.transits), level)]
    if not ends:
        return None
    line = replace(line, allowed=[*line.allowed[:-1], [(min(ends), min(ends))]])
    reach = reach_of(line)
    start = max(piece[1] for level in levels for piece in reach.both(0, level))
    return earliest(replace(line, allowed=[[(start, start)], *line.allowed[1:]]))


def ranges(line: Line, plan: Plan) -> List[Interval]:
    """For each stop the least and the greatest cumul of the schedules that start and end when this one does."""
    ends = [[(cumul, cumul)] for cumul in (plan.cumuls[0], plan.cumuls[-1])]
    reach = reach_of(replace(line, allowed=[ends[0], *line.allowed[1:-1], ends[1]]))
    found = []
    for stop in range(len(plan.cumuls)):
        pieces = [piece for level in range(len(line.breaks) + 1) for piece in reach.both(stop, level)]
        found.append((min(low for low, _ in pieces), max(high for _, high in pieces)))
    return found
