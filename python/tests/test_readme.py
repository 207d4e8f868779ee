"""What README.md shows in Python can be copied: each piece runs, one after the other."""

from __future__ import annotations

import contextlib
import inspect
import io
import os
import re
import tempfile
import unittest
from typing import Any, Dict, List
from unittest import mock

from jambulskeg import complete, desk, engines, errors, exports, places, portfolio, region, replan, view
from jambulskeg.errors import JambulskegError
from jambulskeg.model import read_model, read_solution
from jambulskeg.places import read_places
from jambulskeg.program import find

from .support import EXAMPLES

README = os.path.join(os.path.dirname(os.path.dirname(os.path.abspath(__file__))), "README.md")
MODULES = (complete, desk, engines, errors, exports, places, portfolio, region, replan, view)
"""The modules that hand out exceptions."""
BLOCK = re.compile(r"(?:^    .*\n(?:\n(?=    ))*)+", re.MULTILINE)


def blocks() -> List[str]:
    """The pieces of README.md that may be copied."""
    with open(README, encoding="utf-8") as file:
        found = BLOCK.findall(file.read())
    return [re.sub("^    ", "", block, flags=re.MULTILINE) for block in found]


def write(path: str, text: str) -> None:
    with open(path, "w", encoding="utf-8") as file:
        file.write(text)


def raised() -> List[str]:
    """The names of all exceptions that modules hand out."""
    named = [(name, getattr(module, name)) for module in MODULES for name in module.__all__]
    return sorted(name for name, value in named if inspect.isclass(value) and issubclass(value, JambulskegError))


def shortened(piece: str) -> str:
    """A piece whose searches take less: fewer seconds, and fewer steps of ruin and recreate."""
    piece = re.sub(r"(timed_solver|from_morning)\(10", r"\1(0", piece)
    return piece.replace("seconds=1)", "seconds=0.2)").replace("Search(tries=5000)", "Search(tries=500)")


class ReadmeTests(unittest.TestCase):
    def setUp(self) -> None:
        folder = tempfile.TemporaryDirectory()
        self.addCleanup(folder.cleanup)
        self.addCleanup(os.chdir, os.getcwd())
        names = mock.patch.dict(os.environ, {"VR_CLI": os.path.abspath(find())})
        names.start()
        self.addCleanup(names.stop)
        os.chdir(folder.name)
        os.symlink(EXAMPLES, "examples")
        first, second = next(block for block in blocks() if block.startswith("name,x,y")).split("\n\n")
        write("places.csv", first)
        write("vehicles.csv", second)

    def test_each_exception_is_told(self) -> None:
        with open(README, encoding="utf-8") as file:
            text = file.read()
        self.assertEqual(len(raised()), 31)
        self.assertEqual([name for name in raised() if f"`{name}`" not in text], [])

    def test_each_piece_runs(self) -> None:
        pieces = [block for block in blocks() if block.startswith("from ")]
        self.assertEqual(len(pieces), 13)
        model = read_model(os.path.join(EXAMPLES, "service-day.json"))
        solution = read_solution(os.path.join(EXAMPLES, "service-day.solved.json"))
        write("model.json", model.text())
        write("solution.json", solution.text())
        names: Dict[str, Any] = {"places": ()}
        with contextlib.redirect_stdout(io.StringIO()) as out:
            for piece in pieces:
                exec(shortened(piece), names)
                names.update(lists=solution.lists(), tree=solution.tree())
        said = out.getvalue()
        self.assertIn("by the construction that the model asks for (PATH_CHEAPEST_ARC)", said)
        self.assertIn("1338 [[1, 6, 11, 3, 16, 8], [2, 7, 12, 4, 9, 14], [], [13, 5, 10, 15]]", said)
        self.assertIn("321 GUIDED_LOCAL_SEARCH\n321 PATH_LNS\n321 TABU_SEARCH\n", said)
        self.assertIn("cost 130: 1 of 2 vehicles leave, 2 of 2 visits are made\n", said)
        self.assertRegex(said, r"\n1\d+ \(9,\)\nMoved\(moved=\[\(5, 3, 2\)")
        self.assertRegex(said.replace("\r", ""), r"\n(blue|red),2,Ben,12:37,13:00,13:15,6\n")
        self.assertEqual([place.name for place in read_places("places.csv")], ["yard", "Ada", "Ben"])


if __name__ == "__main__":
    unittest.main()
