"""Sets of whole numbers as intervals: sorted, apart by at least one number, both ends of each among them."""

from __future__ import annotations

from typing import Iterable, List, Tuple

Interval = Tuple[int, int]
Numbers = List[Interval]


def united(intervals: Iterable[Interval]) -> Numbers:
    """The numbers of some intervals, which may overlap or be empty."""
    pieces = [(low, high) for low, high in intervals if low <= high]
    if len(pieces) < 2:
        return pieces
    out: Numbers = []
    for low, high in sorted(pieces):
        if out and low <= out[-1][1] + 1:
            out[-1] = (out[-1][0], max(out[-1][1], high))
        else:
            out.append((low, high))
    return out


def common(one: Numbers, other: Numbers) -> Numbers:
    """The numbers in both sets."""
    return [
        (max(low, least), min(high, most))
        for low, high in one
        for least, most in other
        if max(low, least) <= min(high, most)
    ]


def without(numbers: Numbers, forbidden: Iterable[Interval]) -> Numbers:
    """The numbers in none of the forbidden intervals."""
    out = numbers
    for low, high in forbidden:
        out = [
            piece for least, most in out for piece in ((least, min(most, low - 1)), (max(least, high + 1), most))
            if piece[0] <= piece[1]
        ]
    return out


def in_words(numbers: Numbers) -> str:
    """The set in words."""
    return " or ".join(f"{low} to {high}" if low < high else str(low) for low, high in numbers) or "no number"
