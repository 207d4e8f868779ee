"""Every public call of the package is used by some test, has a docstring, and no function is long."""

from __future__ import annotations

import ast
import glob
import inspect
import os
import re
import shutil
import subprocess
import unittest
from types import ModuleType
from typing import Iterator, List, Tuple, Union

from jambulskeg import (
    batch, complete, desk, doubts, engines, errors, exports, formats, model, output, places, plan, portfolio, program,
    reasons, refine, region, replan, rescue, rounds, schedules, tables, view,
)
from jambulskeg.routing import pywrapcp

PACKAGE = os.path.join(os.path.dirname(os.path.dirname(os.path.abspath(__file__))), "jambulskeg")
MOST_LINES = 40
MOST_COLUMNS = 120
Called = Union[ast.FunctionDef, ast.ClassDef]


def sources() -> List[str]:
    return sorted(glob.glob(os.path.join(PACKAGE, "**", "*.py"), recursive=True))


def read(path: str) -> str:
    with open(path, encoding="utf-8") as file:
        return file.read()


def entries(path: str) -> Iterator[Tuple[str, Called]]:
    """Each function, class and method of a module, with the name of its class."""
    for node in ast.parse(read(path)).body:
        if isinstance(node, (ast.FunctionDef, ast.ClassDef)):
            yield "", node
        if isinstance(node, ast.ClassDef):
            for part in node.body:
                if isinstance(part, ast.FunctionDef):
                    yield node.name, part


def public(module: ModuleType) -> Iterator[str]:
    """The names that a module hands out, and those of the methods of its classes."""
    for name in module.__all__:
        yield name
        value = getattr(module, name)
        if inspect.isclass(value):
            for part in vars(value):
                if not part.startswith("_") and part not in INHERITED and callable(getattr(value, part)):
                    yield part


class PublicTests(unittest.TestCase):
    def test_public_calls_are_used(self) -> None:
        tests = "".join(read(path) for path in glob.glob(os.path.join(os.path.dirname(__file__), "*.py")))
        words = set(re.findall(r"\w+", tests))
        names = {f"{module.__name__}: {name}" for module in MODULES for name in public(module)}
        self.assertEqual([name for name in sorted(names) if name.split(": ")[1] not in words], [])

    def test_public_calls_say_what_they_give(self) -> None:
        silent = [
            f"{os.path.basename(path)}: {node.name}" for path in sources() for _, node in entries(path)
            if not node.name.startswith("_") and node.name not in INHERITED and ast.get_docstring(node) is None
        ]
        self.assertEqual(silent, [])

    def test_functions_are_short(self) -> None:
        long = [
            f"{os.path.basename(path)}: {node.name}" for path in sources() for _, node in entries(path)
            if isinstance(node, ast.FunctionDef) and (node.end_lineno or 0) - node.lineno >= MOST_LINES
        ]
        self.assertEqual(long, [])

    @unittest.skipIf(shutil.which("mypy") is None, "no type checker is at hand")
    def test_types_are_right(self) -> None:
        ran = subprocess.run(
            ["mypy", "--strict", f"--cache-dir={os.devnull}", "-p", "jambulskeg"], cwd=os.path.dirname(PACKAGE),
            check=False, stdout=subprocess.PIPE, text=True,
        )
        self.assertEqual(ran.returncode, 0, ran.stdout)

    def test_lines_are_short(self) -> None:
        wide = [f"{path}:{number}" for path in sources() for number, line in enumerate(read(path).split("\n"), 1)
                if len(line) > MOST_COLUMNS]
        self.assertEqual(wide, [])


INHERITED = ("faults", "is_plain", "taken", "tree", "own_faults", "kind_of", "applied", "words")
"""What a kind, a record and a change of a day say once, where they are defined first."""
MODULES = (
    batch, complete, desk, doubts, engines, errors, exports, formats, model, output, places, plan, portfolio, program,
    reasons, refine, region, replan, rescue, rounds, schedules, tables, view, pywrapcp,
)
"""The modules whose calls are for users."""


if __name__ == "__main__":
    unittest.main()
