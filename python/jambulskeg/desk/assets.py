"""The files of the page: its HTML, its style after that of `view`, and its scripts."""

from __future__ import annotations

import os
from functools import lru_cache
from typing import Mapping, Tuple

from ..view.style import PATTERNS, page_script, page_style

__all__ = ["ASSETS", "asset"]

FOLDER = os.path.join(os.path.dirname(os.path.abspath(__file__)), "page")
SCRIPTS = (
    "ask.js", "board.js", "charts.js", "costs.js", "days.js", "desk.js", "drag.js", "keys.js", "make.js", "panel.js",
    "search.js", "store.js",
)
ASSETS: Mapping[str, Tuple[str, str]] = {
    "page": ("text/html; charset=utf-8", "desk.html"),
    "desk.css": ("text/css; charset=utf-8", "desk.css"),
    "view.js": ("text/javascript; charset=utf-8", ""),
    **{name: ("text/javascript; charset=utf-8", name) for name in SCRIPTS},
}
"""For each path the kind of its file and the file, none for the script of `view`. Nothing else of this machine is ever
served as a file."""


@lru_cache(maxsize=None)
def asset(name: str) -> Tuple[str, bytes]:
    """The kind and the bytes of a file of the page."""
    kind, file = ASSETS[name]
    if not file:
        return kind, page_script().encode("utf-8")
    with open(os.path.join(FOLDER, file), encoding="utf-8") as opened:
        text = opened.read().replace("<!-- patterns -->", PATTERNS)
    return kind, (page_style() + text if file.endswith(".css") else text).encode("utf-8")
