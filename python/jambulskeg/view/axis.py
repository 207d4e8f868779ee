"""An axis: from numbers of a model to places in a drawing, and the numbers that are written along it."""

from __future__ import annotations

from dataclasses import dataclass
from typing import List

MINUTES = (1, 2, 5, 10, 15, 30, 60, 120, 180, 240, 360, 720)
DAY = 1440


@dataclass(frozen=True)
class Axis:
    """The numbers from `low` to `high` along `width`, beginning at `left`."""

    low: int
    high: int
    left: float
    width: float

    def at(self, value: float) -> float:
        """The place of a number; one that lies outside has the place of the nearer end."""
        inside = min(max(value, self.low), self.high)
        return self.left + self.width * (inside - self.low) / max(1, self.high - self.low)

    def ticks(self, most: int, is_clock: bool = False) -> List[int]:
        """At most about `most` round numbers along the axis; of a clock, round times in minutes."""
        step = step_of(self.high - self.low, most, is_clock)
        return list(range(-(-self.low // step) * step, self.high + 1, step))


def step_of(length: int, most: int, is_clock: bool) -> int:
    """The least round step that parts a length into at most `most` pieces."""
    least = max(1, -(-length // max(1, most)))
    for step in MINUTES if is_clock else ():
        if step >= least:
            return step
    if is_clock:
        return -(-least // DAY) * DAY
    power = 1
    while True:
        for digit in (1, 2, 5):
            if digit * power >= least:
                return digit * power
        power *= 10
