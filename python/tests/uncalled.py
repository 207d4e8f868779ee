"""python3 tests/uncalled.py, by hand: runs all tests, and names the functions of the package that none of them called.

A function without a body, such as that of a protocol, is never called.
"""

from __future__ import annotations

import ast
import os
import sys
import threading
import unittest
from types import FrameType
from typing import Any, Iterator, Set, Tuple

TOP = os.path.dirname(os.path.dirname(os.path.abspath(__file__)))
sys.path.insert(0, TOP)

PACKAGE = os.path.join(TOP, "jambulskeg")
CALLED: Set[Tuple[str, int]] = set()
"""The file and the first line of each function that was called; a decorator's line where there is one."""


def note(frame: FrameType, event: str, _: Any) -> None:
    """Notes a call of a function of the package."""
    if event == "call" and frame.f_code.co_filename.startswith(PACKAGE):
        CALLED.add((frame.f_code.co_filename, frame.f_code.co_firstlineno))


def functions() -> Iterator[Tuple[str, int, str]]:
    """The file, the first line and the name of each function of the package."""
    for folder, _, files in os.walk(PACKAGE):
        for path in (os.path.join(folder, file) for file in sorted(files) if file.endswith(".py")):
            with open(path, encoding="utf-8") as file:
                tree = ast.parse(file.read())
            for node in ast.walk(tree):
                if isinstance(node, ast.FunctionDef):
                    yield path, min([node.lineno, *(entry.lineno for entry in node.decorator_list)]), node.name


def main() -> None:
    """Runs the tests and names what they did not call."""
    threading.setprofile(note)
    sys.setprofile(note)
    suite = unittest.defaultTestLoader.discover(os.path.join(TOP, "tests"), top_level_dir=TOP)
    unittest.TextTestRunner().run(suite)
    sys.setprofile(None)
    found = list(functions())
    left = [(path, name) for path, line, name in found if (path, line) not in CALLED]
    for path, name in left:
        print(f"never called: {os.path.relpath(path, PACKAGE)}, {name}")
    print(f"{len(found) - len(left)} of {len(found)} functions were called")


if __name__ == "__main__":
    main()
