"""python -m jambulskeg: its words, what it writes, and how it says what is wrong."""

from __future__ import annotations

import contextlib
import io
import json
import os
import subprocess
import sys
import tempfile
import unittest
import xml.dom.minidom
from typing import List, Tuple
from unittest import mock

from jambulskeg.__main__ import main
from jambulskeg.model import Model, check, read_model, read_solution

from .support import EXAMPLES, THREE, Fake, environment, tree_with

TOP = os.path.dirname(os.path.dirname(os.path.abspath(__file__)))
QUICK = Model.of(tree_with(search={"tries": 300}))
"""A day whose searches are over at once."""


def called(*words: str) -> Tuple[int, str, str]:
    """The exit status of a command, and what it wrote to its two outputs."""
    out, told = io.StringIO(), io.StringIO()
    with contextlib.redirect_stdout(out), contextlib.redirect_stderr(told):
        try:
            status = main(words)
        except SystemExit as stopped:
            status = int(stopped.code or 0)
    return status, out.getvalue(), told.getvalue()


class CommandCase(unittest.TestCase):
    """Tests with a folder of their own."""

    def setUp(self) -> None:
        folder = tempfile.TemporaryDirectory()
        self.addCleanup(folder.cleanup)
        self.folder = folder.name

    def at(self, name: str) -> str:
        """A file of the test's folder."""
        return os.path.join(self.folder, name)

    def write(self, name: str, text: str) -> str:
        """Writes a file; its path."""
        with open(self.at(name), "w", encoding="utf-8") as file:
            file.write(text)
        return self.at(name)

    def read(self, name: str) -> str:
        """The text of a file."""
        with open(self.at(name), encoding="utf-8") as file:
            return file.read()


class CommandTests(CommandCase):
    def test_portfolio_then_view(self) -> None:
        model = self.write("three.json", QUICK.text())
        status, out, told = called("portfolio", model, "--jobs", "2", "--tries", "50", "--lambda", "1/4")
        self.assertEqual((status, json.loads(out)["cost"]), (0, 18))
        self.assertEqual(told.count("*"), 1)
        self.assertEqual(called("portfolio", model, "-o", self.at("a.json"))[:2], (0, ""))
        self.assertEqual(check(read_model(model), read_solution(self.at("a.json"))).cost, 18)
        self.assertEqual(called("view", model, self.at("a.json"), "-o", self.at("a.html"), "--title", "A <day>")[0], 0)
        self.assertIn("<h1>A &lt;day&gt;</h1>", self.read("a.html"))
        self.assertIn("The proved check found", self.read("a.html"))

    def test_the_answer_is_written_before_it_is_told(self) -> None:
        model = self.write("three.json", QUICK.text())
        with mock.patch("jambulskeg.__main__.outcome_line", side_effect=BrokenPipeError(32, "Broken pipe")):
            self.assertEqual(called("portfolio", model, "-o", self.at("a.json"))[0], 1)
        self.assertEqual(read_solution(self.at("a.json")).cost, 18)

    def test_view_with_places_and_names(self) -> None:
        model = self.write("three.json", QUICK.text())
        self.assertEqual(called("portfolio", model, "-o", self.at("a.json"))[0], 0)
        places = self.write("places.csv", "name,x,y\nyard,0,0\nA<da,1,2\nBen,3,1\n")
        vans = self.write("vans.csv", "name,start\nred <,yard\n")
        words = ["--places", places, "--vehicles", vans, "--degrees", "--clock", "8:30"]
        self.assertEqual(called("view", model, self.at("a.json"), "-o", self.at("a.html"), *words)[0], 0)
        self.assertIn("A&lt;da", self.read("a.html"))
        self.assertIn("red &lt;", self.read("a.html"))
        pair = ["--compare", self.at("a.json"), self.at("a.json")]
        self.assertEqual(called("view", model, *pair, "-o", self.at("b.html"), *words)[0], 0)
        self.assertIn("a (1) beside a (2)", self.read("b.html"))
        self.assertEqual(called("view", model, *pair, "-o", self.at("b.svg"), "--svg", "--unchecked")[0], 0)
        xml.dom.minidom.parse(self.at("b.svg"))

    def test_view_of_shorter_routes(self) -> None:
        words = [os.path.join(EXAMPLES, f"windows-day.{end}") for end in ("json", "solved.json")]
        self.assertEqual(called("view", *words, "--shorter", "-o", self.at("a.html")), (0, "", ""))
        for said in ("windows-day beside windows-day, shorter", "windows-day: cost 400", "both keep all rules"):
            self.assertIn(said, self.read("a.html"))
        self.assertIn("windows-day, shorter: cost 344", self.read("a.html"))
        pair = ["--compare", words[1], words[1]]
        status, _, told = called("view", words[0], *pair, "--shorter", "-o", self.at("b.html"))
        self.assertEqual((status, told.split(", ")[0]), (1, "jambulskeg: view takes a SOLUTION"))

    def test_shorter_days_that_are_equal_say_why(self) -> None:
        words = [os.path.join(EXAMPLES, f"service-day.{end}") for end in ("json", "solved.json")]
        why = "Both days are equal: in 'time' drivers have breaks, and no shortest schedules are told there"
        status, _, told = called("view", *words, "--shorter", "-o", self.at("a.html"))
        self.assertEqual((status, told[:len(why)]), (0, why))
        self.assertIn(why.replace("'", "&#x27;"), self.read("a.html"))
        self.assertEqual(called("view", *words, "--shorter", "--svg", "-o", self.at("a.svg"))[0], 0)
        self.assertIn("Both days are equal", self.read("a.svg"))

    def test_exports(self) -> None:
        model = self.write("three.json", QUICK.text())
        self.assertEqual(called("portfolio", model, "-o", self.at("a.json"))[0], 0)
        places = self.write("places.csv", "name,lat,lon,Phone\nyard,0,0,\nAda,1,2,01\nBen,3,1,02\n")
        words = ["view", model, self.at("a.json"), "--places", places]
        self.assertEqual(called(*words, "--csv", self.at("a.csv"), "--geojson", self.at("a.geojson"))[:2], (0, ""))
        self.assertIn("vehicle 0,1,Ada,,,,,01", self.read("a.csv"))
        self.assertEqual(len(json.loads(self.read("a.geojson"))["features"]), 5)
        self.assertEqual(called(*words, "-o", self.at("a.html"))[0], 0)
        self.assertIn('download="plan.geojson"', self.read("a.html"))
        vans = self.write("vans.csv", "name,capacty,start\nred,,yard\n")
        told = called(*words, "--vehicles", vans, "--csv", self.at("a.csv"))[2]
        self.assertIn("look at: " + vans + ", line 1, column 'capacty': this column is not read; is 'capacity'", told)
        day = [os.path.join(EXAMPLES, f"service-day.{end}") for end in ("json", "solved.json")]
        status, _, told = called("view", *day, "--clock", "8:00", "--ics", self.at("a.ics"), "--date", "2026-12-01")
        self.assertEqual((status, told, "DTSTART:20261201T080000" in self.read("a.ics")), (0, "", True))
        for more, said in (
            ([*words[:3], "--geojson", self.at("b")], "asks for the places"),
            ([*words, "--ics", self.at("b")], "asks for times of day"),
            (words, "view writes a file: say -o, --csv, --geojson or --ics"),
            (["view", model, "--compare", self.at("a.json"), self.at("a.json"), "--csv", self.at("b")], "one SOLUTION"),
            ([*words, "-o", self.at("none/b")], "none/b: No such file"),
            ([*words, "-o", "/dev/full"], "/dev/full: No space left on device"),
        ):
            status, out, told = called(*more)
            self.assertEqual((status, out), (1, ""), more)
            self.assertIn(said, told)
        with Fake("os.kill(os.getpid(), 9)") as path, mock.patch.dict(os.environ, {"VR_CLI": path}):
            self.assertIn("the program was ended by the signal SIGKILL", called(*words, "--csv", self.at("b"))[2])
        self.assertFalse(os.path.exists(self.at("b")))

    def test_doubts(self) -> None:
        self.assertEqual(called("doubts", self.write("three.json", Model.of(THREE).text())), (0, "", ""))
        status, out, _ = called("doubts", os.path.join(EXAMPLES, "service-day.json"))
        self.assertEqual((status, out.splitlines()), (0, [
            "/vehicles/0/costs: the arcs of vehicle 0 cost matrix 0, and 'span_cost' of 'time' pays the same once more"
        ]))

    def test_batch(self) -> None:
        for name in ("breaks-day", "pickups"):
            self.write(f"{name}.json", read_model(os.path.join(EXAMPLES, f"{name}.json")).text())
        status, out, _ = called("batch", self.folder, "--jobs", "2", "--tries", "200", "-o", self.at("out"))
        self.assertEqual(status, 0)
        self.assertEqual([line.split(":")[0] for line in out.splitlines()], ["breaks-day", "pickups"])
        self.assertEqual(sorted(os.listdir(self.at("out"))), ["breaks-day.solved.json", "pickups.solved.json"])
        self.write("faulty.json", '{"format":1}')
        status, out, _ = called("batch", self.folder, "--tries", "200")
        self.assertEqual(status, 1)
        self.assertEqual(out.splitlines()[-1], "faulty: Model/nodes: a required field is absent (code 10)")
        self.assertTrue(os.path.exists(self.at("pickups.solved.json")))
        self.assertEqual(called("batch", self.at("out"))[0], 1)

    def test_what_is_wrong_is_said(self) -> None:
        model = self.write("three.json", QUICK.text())
        solution = self.write("wrong.json", "{}")
        self.assertEqual(called("portfolio", model, "-o", self.at("a.json"))[0], 0)
        tree = json.loads(self.read("a.json"))
        self.write("false.json", json.dumps({**tree, "cost": 1}))
        self.write("two.json", json.dumps({**tree, "routes": tree["routes"] * 2}))
        self.write("no.csv", "name,x,y\na,1,2\n")
        page = ["-o", self.at("page.html")]
        for words, said in (
            (["view", model, *page], "view takes a SOLUTION"),
            (["view", model, solution, *page], "a required field is absent"),
            (["view", model, self.at("false.json"), *page], "false.json: the cost is not the sum"),
            (["view", model, self.at("two.json"), *page], "two.json: it is no solution of this model, /routes: there"),
            (["view", model, self.at("none.json"), *page], "none.json: No such file"),
            (["view", model, self.at("a.json"), *page, "--places", self.at("no.csv")], "1 places"),
            (["view", model, self.at("a.json"), *page, "--time", "hours"], "no dimension has the name"),
            (["view", model, self.at("a.json"), *page, "--vehicles", self.at("no.csv")], "asks for --places"),
            (["portfolio", self.write("bad.json", "{")], "bad.json is no JSON text in UTF-8: Expecting property name"),
            (["portfolio", model, "--sshlogin", "a"], "--sshlogin belongs to --with parallel"),
            (["portfolio", model, "--folder", "a", "--with", "parallel"], "--folder belongs to --with slurm"),
        ):
            status, out, told = called(*words)
            self.assertEqual((status, out), (1, ""), words)
            self.assertIn(said, told)
            self.assertEqual(told.count("\n"), 1)
        unknown: List[List[str]] = [
            [], ["draw"], ["portfolio", model, "--jobs", "0"], ["portfolio", model, "--lambda", "x"]
        ]
        for words in unknown:
            self.assertEqual(called(*words)[0], 2)

    def test_the_program_is_missing(self) -> None:
        model = self.write("three.json", Model.of(THREE).text())
        with mock.patch.dict(os.environ, {"VR_CLI": "/no/such/program"}):
            self.assertIn("VR_CLI names no program", called("portfolio", model)[2])

    def test_as_a_process(self) -> None:
        ran = subprocess.run(
            [sys.executable, "-W", "error", "-m", "jambulskeg", "portfolio", "-h"], cwd=TOP, env=environment(),
            stdout=subprocess.PIPE, check=False, text=True,
        )
        self.assertEqual(ran.returncode, 0)
        self.assertIn("--with {own,parallel,slurm}", ran.stdout)


if __name__ == "__main__":
    unittest.main()
