"""How many moves are tried in the seconds that were asked for, by the machine at hand.

Its speed is measured before the first parts and after each round. The seconds are those of the whole plan: searches end
early enough for the check of the whole and for its pages.
"""

from __future__ import annotations

import os
import time
from contextlib import closing
from typing import Callable, List, Sequence

from ..engines import EngineFailed
from .crew import Crew
from .day import Part, Region
from .given import given_of
from .mending import effort_of

__all__ = ["USUAL_SPEED", "Pace", "age"]

USUAL_SPEED = 20_000_000
"""About how many moves a processor tries in a second, in parts of about 100 visits, with all that is done for it."""
PROBED = 0.01
"""The share of the seconds in which a machine of usual speed is measured."""
MOST_PROBED = 5_000_000
"""The most tries of a part by which it is measured."""
FINISH = 5
"""How many times as long as the models of all visits the check of the whole plan and its pages take."""
WRITING = 0.6
"""How many seconds are kept for the beginning and the end of a process."""
OLDEST = 10.0
"""A process that seems older than this when it begins to work has another clock, and its age is not known."""


class Pace:
    """The seconds of a plan, of which `spent` are over and `finish` are kept for its end, and the speed of those who
    search `jobs` parts at a time."""

    def __init__(self, seconds: float, jobs: int, spent: Callable[[], float]) -> None:
        self._seconds, self.jobs, self._spent = seconds, max(1, jobs), spent
        self._speed, self.finish, self._noted = float(USUAL_SPEED * self.jobs), WRITING, spent()

    def tries(self) -> int:
        """The moves that can be tried in the seconds that are left for searches."""
        return int(self._speed * max(0.0, self._seconds - self.finish - self._spent()))

    def note(self, tries: int, parts: int) -> None:
        """Notes the tries of a round that has ended now."""
        now = self._spent()
        if parts >= 2 * self.jobs and now > self._noted:
            self._speed = tries / (now - self._noted)
        self._noted = now

    def measure(self, region: Region, parts: Sequence[Part], crew: Crew) -> None:
        """Has some parts searched for a moment; nobody takes their answers."""
        tries = int(min(MOST_PROBED, max(1, PROBED * self._seconds * USUAL_SPEED)))
        some = [parts[at % len(parts)] for at in range(self.jobs if parts else 0)]
        began, effort = time.monotonic(), effort_of(0, tries, crew.searcher.refines)
        texts = [given_of(region, part, effort).question for part in some]
        for_each = (time.monotonic() - began) / max(1, sum(len(part.visits) for part in some))
        processors = float(min(self.jobs, os.cpu_count() or 1))
        try:
            alone, together = searched(crew, texts[:1]), searched(crew, texts)
            self._speed = max(1, len(texts)) * tries / together
            processors = max(1.0, min(processors, len(texts) * alone / together))  # Others may use the rest.
        except EngineFailed:
            pass  # It is told where answers are taken.
        self.finish += FINISH * for_each * len(region.visits) / processors
        self._noted = self._spent()


def searched(crew: Crew, texts: List[str]) -> float:
    """Waits for the answers to some texts; the seconds that it took."""
    began = time.monotonic()
    if texts:
        with closing(crew.each(len(texts), lambda at: texts[at])) as answers:
            for _ in answers:
                pass
    return time.monotonic() - began


def age() -> float:
    """The seconds since this process began, as Linux tells them; 0 where they are not known."""
    try:
        with open("/proc/self/stat", "rb") as file:
            ticks = int(file.read().rpartition(b")")[2].split()[19])
        found = time.clock_gettime(time.CLOCK_BOOTTIME) - ticks / os.sysconf("SC_CLK_TCK")
    except (AttributeError, IndexError, OSError, ValueError):
        return 0.0
    return found if 0.0 <= found <= OLDEST else 0.0
