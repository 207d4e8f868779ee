"""What a picture and a page look like: their styles, the patterns of waiting and breaks, and the page's script."""

from __future__ import annotations

import os
from functools import lru_cache

from .colours import ROUTES

__all__ = ["PATTERNS", "ROUTES", "page_script", "page_style", "picture_style"]

FOLDER = os.path.dirname(os.path.abspath(__file__))
PARTS = {"arcs": 0, "fixed": 1, "span": 2, "global_": 3, "soft": 4, "penalty": 9}
"""Which of these colours the parts of the cost have."""
PATTERNS = (
    '<defs><pattern id="hatch" width="6" height="6" patternUnits="userSpaceOnUse" patternTransform="rotate(45)">'
    '<rect class="hatchground" width="6" height="6"/><line class="hatchline" x1="1" y1="0" x2="1" y2="6"/></pattern>'
    '<pattern id="dots" width="4" height="4" patternUnits="userSpaceOnUse">'
    '<rect class="dotground" width="4" height="4"/><circle class="dot" cx="2" cy="2" r="1"/></pattern></defs>'
)
"""Hatched and dotted grounds, so that breaks and waiting are told apart without colours too."""


@lru_cache(maxsize=None)
def read(name: str) -> str:
    """A file beside this module."""
    with open(os.path.join(FOLDER, name), encoding="utf-8") as file:
        return file.read()


def colour_rules(shade: int) -> str:
    """The colours of vehicles and of parts in one of the two shades."""
    rules = [
        f".route.c{at},.head.c{at},.level.c{at}{{stroke:{colours[shade]}}}"
        f".visit.c{at},.swatch.c{at},.spot.c{at},.area.c{at}{{fill:{colours[shade]}}}"
        f".badge.c{at}{{background:{colours[shade]}}}"
        for at, colours in enumerate(ROUTES)
    ]
    rules += [
        f".part-{part}{{background:{ROUTES[at][shade]};fill:{ROUTES[at][shade]}}}" for part, at in PARTS.items()
    ]
    return "".join(rules)


def picture_style() -> str:
    """The style of drawings, light, and dark if a screen asks for it."""
    dark = read("picture-dark.css") + colour_rules(1)
    return f"{read('picture.css')}{colour_rules(0)}@media screen and (prefers-color-scheme:dark){{{dark}}}"


def page_style() -> str:
    """The style of a page with drawings."""
    return read("page.css") + picture_style()


def page_script() -> str:
    """The script of a page: it looks for visits, sorts tables, brings out a vehicle, and opens tables for print."""
    return read("page.js")
