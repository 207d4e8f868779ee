"""The colour and the letters of each vehicle: the same in bars, map, tables and sheets.

Colours alone tell no more than a few vehicles apart, and nobody on grey paper; so each has letters too: A, B, .., AA.
"""

from __future__ import annotations

from functools import lru_cache
from typing import Dict, List, Tuple

__all__ = ["ROUTES", "colours_of", "letters"]

ROUTES = (
    ("#1f5fa8", "#7db4f0"), ("#b4451f", "#f0a07d"), ("#15803d", "#6fd08c"), ("#7c3aed", "#b79cf5"),
    ("#8a6100", "#e0b84a"), ("#0e7490", "#5fc8dc"), ("#be185d", "#f08cb8"), ("#4d7c0f", "#a8d05a"),
    ("#86198f", "#e29bf5"), ("#b91c1c", "#f58c8c"), ("#0f766e", "#5fd0c0"), ("#57534e", "#c8c2bc"),
)
"""The colours of vehicles, light and dark; each is told apart from the ground at a ratio of 3 at least."""
WORDS: Dict[str, int] = {
    "blue": 0, "navy": 0, "orange": 1, "green": 2, "purple": 3, "violet": 3, "yellow": 4, "gold": 4, "amber": 4,
    "brown": 4, "cyan": 5, "pink": 6, "olive": 7, "lime": 7, "magenta": 8, "red": 9, "teal": 10, "turquoise": 10,
    "grey": 11, "gray": 11, "black": 11, "silver": 11, "white": 11,
}
"""Which of them a word is; a vehicle that is called 'red' is red."""


@lru_cache(maxsize=64)
def colours_of(names: Tuple[str, ...]) -> Tuple[int, ...]:
    """The number of the colour of each vehicle: that of its name, else the first one that fewest others have."""
    taken: Dict[int, int] = dict.fromkeys(range(len(ROUTES)), 0)
    found: List[int] = []
    for name in names:
        word = WORDS.get(name.strip().casefold(), -1)
        found.append(word if word >= 0 and not taken[word] else -1)
        if found[-1] >= 0:
            taken[word] += 1
    for at, colour in enumerate(found):
        if colour < 0:
            found[at] = min(taken, key=lambda number: (taken[number], number))
            taken[found[at]] += 1
    return tuple(found)


def letters(vehicle: int) -> str:
    """The letters of a vehicle: A to Z, then AA, AB, .."""
    word = ""
    number = vehicle + 1
    while number:
        number, letter = divmod(number - 1, 26)
        word = chr(ord("A") + letter) + word
    return word
