"""What the marks of the charts mean."""

from __future__ import annotations

from typing import List, Tuple

from .svg import Picture

__all__ = ["LEGEND", "marks_of"]

LEGEND = (
    ("visit", "".join(f'<rect class="visit c{at}" x="{10 * at + 2}" width="9" height="16"/>' for at in range(3)),
     "visit, in the colour of its vehicle"),
    ("travel", '<path class="travel" d="M2 8L32 8"/>', "drive"),
    ("wait", '<rect class="wait" x="2" y="4" width="30" height="8"/>', "waiting"),
    ("break", '<rect class="break" x="2" y="2" width="30" height="12"/>', "break"),
    ("window", '<line class="window" x1="2" y1="8" x2="32" y2="8"/><path class="at" d="M14 8L14 8"/>',
     "window of a visit, and where it begins"),
    ("forbidden", '<line class="window" x1="2" y1="8" x2="32" y2="8"/>'
     '<line class="forbidden" x1="12" y1="8" x2="24" y2="8"/>', "forbidden in it"),
    ("late", '<line class="late" x1="2" y1="8" x2="32" y2="8"/>', "beyond a soft bound"),
    ("shift", '<rect class="shift" x="2" width="30" height="16"/>', "when the vehicle may be out"),
    ("capacity", '<line class="capacity" x1="2" y1="8" x2="32" y2="8"/>', "capacity"),
)
"""The class of a mark, the mark in a box of 34 by 16, and words."""


def marks_of(picture: Picture) -> List[Tuple[str, str]]:
    """The marks that a picture has, and what they mean."""
    return [(mark, words) for kind, mark, words in LEGEND if is_there(picture, kind)]


def is_there(picture: Picture, kind: str) -> bool:
    """Whether a picture has a mark of a class."""
    return f'class="{kind}"' in picture.body or f'class="{kind} ' in picture.body
