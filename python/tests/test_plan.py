"""python -m jambulskeg plan: from two spreadsheets to files, and nothing half written where it goes wrong."""

from __future__ import annotations

import contextlib
import io
import os
import signal
import subprocess
import sys
import tempfile
import time
import unittest
from typing import Tuple
from unittest import mock

from jambulskeg.__main__ import main
from jambulskeg.commands.plan import LEFT_OUT, add_plan, run_plan
from jambulskeg.model import check, read_model, read_solution
from jambulskeg.places import Roads, read_day
from jambulskeg.plan import SECONDS, Planned, plan_day

from .support import AS_REAL, EXAMPLES, Fake, environment

TOP = os.path.dirname(os.path.dirname(os.path.abspath(__file__)))
FILES = os.path.join(TOP, "examples")
PLACES, VANS = os.path.join(FILES, "places.csv"), os.path.join(FILES, "vans.csv")
FULL = "name,x,y,demand\nyard,0,0,\nAda,3,4,6\nBen,6,8,6\nCleo,0,9,9\n"
ONE = "name,start,capacity\nred,yard,13\n"


def called(*words: str) -> Tuple[int, str, str]:
    """The exit status of a command, and what it wrote to its two outputs."""
    out, told = io.StringIO(), io.StringIO()
    with contextlib.redirect_stdout(out), contextlib.redirect_stderr(told):
        try:
            status = main(words)
        except SystemExit as stopped:
            status = int(stopped.code or 0)
    return status, out.getvalue(), told.getvalue()


class PlanCase(unittest.TestCase):
    """A folder of its own for each test."""

    def setUp(self) -> None:
        folder = tempfile.TemporaryDirectory()
        self.addCleanup(folder.cleanup)
        self.folder = folder.name

    def at(self, name: str) -> str:
        return os.path.join(self.folder, name)

    def write(self, name: str, text: str) -> str:
        with open(self.at(name), "w", encoding="utf-8") as file:
            file.write(text)
        return self.at(name)

    def read(self, name: str) -> str:
        with open(self.at(name), encoding="utf-8") as file:
            return file.read()

    def plan(self, *words: str) -> Tuple[int, str, str]:
        """The command for the day of the examples, with a short search."""
        return called("plan", PLACES, VANS, "--seconds", "0", "--speed", "30", "--wait", "120", *words)


class PlanTests(PlanCase):
    def test_all_files(self) -> None:
        words = [word for name in ("page", "geojson", "ics", "model", "solution", "sheets")
                 for word in (f"--{name}", self.at(name))]
        status, out, told = self.plan("-o", self.at("plan.csv"), "--date", "2026-12-01", *words)
        self.assertEqual((status, out), (0, ""))
        self.assertRegex(told, r"cost \d+: 3 of 3 vehicles leave, 11 of 12 visits are made")
        self.assertRegex(told, r"left out: Lea: its cheapest place, on \w+ after yard, would cost 80, and leaving it")
        self.assertEqual(check(read_model(self.at("model")), read_solution(self.at("solution"))).cost, 237)
        self.assertIn("<h1>Plan of 2026-12-01</h1>", self.read("page"))
        for name in ("plan.csv", "plan.geojson", "plan.ics"):
            self.assertIn(f'download="{name}"', self.read("page"))
        self.assertEqual(sorted(os.listdir(self.at("sheets"))), ["01-red.html", "02-blue.html", "03-green.html"])
        self.assertEqual(self.read("plan.csv").split("\n")[0], "\ufeffvan,stop,name,arrival,begins,departure,load")
        self.assertIn("DTSTART:20261201T", self.read("ics"))

    def test_the_first_day_of_the_tutorial(self) -> None:
        folder = os.path.join(EXAMPLES, "first-day")
        words = [os.path.join(folder, name) for name in ("places.csv", "vans.csv")]
        status, out, told = called("plan", *words, "--seconds", "0")
        with open(os.path.join(EXAMPLES, "..", "docs", "HOWTO.md"), encoding="utf-8") as file:
            text = file.read()
        self.assertEqual((status, len(told.splitlines())), (0, 4))
        for line in told.splitlines():
            self.assertIn(f"    {line}\n", text)
        for name in words:
            with open(name, encoding="utf-8") as file:
                self.assertIn(file.readline(), text)
        self.assertIn("sign for it, second floor", out)

    def test_to_standard_output(self) -> None:
        status, out, told = self.plan()
        self.assertEqual(status, 0)
        self.assertEqual(len(out.splitlines()), 19)

    def test_doubts_are_told(self) -> None:
        places = self.write("p.csv", "name,lat,lon,penalty\nyard,1,1,\nAda,1.5,1,5\nAda2,1.5,1.5,\nDepot 2,1,1.5,\n")
        status, _, told = called("plan", places, self.write("v.csv", "start\nyard\n"), "--seconds", "0")
        self.assertEqual(status, 0)
        self.assertIn("line 5, column 'name': no vehicle starts or ends at 'Depot 2'", told)
        self.assertIn("look at: to leave a visit of group 0 out costs 5", told)

    def test_columns_that_plan_nothing_are_told(self) -> None:
        places = self.write("p.csv", "name,x,y,Phone,From\nyard,0,0,,\nAda,1,1,0791,13:00\n")
        status, _, told = called("plan", places, self.write("v.csv", "start,Plate\nyard,B 12\n"), "--seconds", "0")
        self.assertEqual(status, 0)
        self.assertIn("columns of the places that are kept and plan nothing: Phone, From\n", told)
        self.assertIn("columns of the vehicles that are kept and plan nothing: Plate\n", told)

    def test_doubts_of_the_model_have_names(self) -> None:
        rows = "yard,0,0,,,\nAda,90,0,0:00,0:30,500\nBen,1,1,0:10,9:00,\n"
        places = self.write("p.csv", f"name,x,y,open,close,penalty\n{rows}")
        status, _, told = called("plan", places, self.write("v.csv", "start\nyard\n"), "--seconds", "0")
        self.assertEqual(status, 0)
        self.assertIn("look at: no vehicle that drives straight to 'Ada' and on to its end keeps 'time'", told)
        self.assertIn("left out: Ada: 'time' forbids each of its 2 places", told)

    def test_a_day_that_cannot_make_all_visits(self) -> None:
        words = [self.write("p.csv", FULL), self.write("v.csv", ONE), "--seconds", "0", "-o", self.at("plan.csv")]
        status, _, told = called("plan", *words, "--page", self.at("day.html"), "--solution", self.at("s.json"))
        self.assertEqual(status, LEFT_OUT)
        self.assertIn("left out: Cleo, which must be made: 'load' forbids each of its 3 places", told)
        self.assertIn("These visits must be made and found no place: Cleo.", self.read("day.html"))
        self.assertEqual(read_solution(self.at("s.json")).cost, 20)
        self.assertIn("\n,,Cleo,,,,\n", self.read("plan.csv").replace("\r", ""))

    def test_a_day_that_the_construction_cannot_find(self) -> None:
        loads = "".join(f"{at},{at},0,{load}\n" for at, load in enumerate((5, 5, 4, 4, 3, 3), 1))
        words = [self.write("p.csv", f"name,x,y,demand\nyard,0,0,\n{loads}"),
                 self.write("v.csv", "start,capacity\nyard,12\nyard,12\n"), "--seconds", "0"]
        status, _, told = called("plan", *words)
        self.assertEqual((status, "6 of 6 visits are made" in told), (0, True), told)
        self.assertRegex(told, r"visits are made(, by penalties for required visits)?")

    def test_many_searches(self) -> None:
        planned: Planned = plan_day(read_day(PLACES, VANS), Roads(pace=2), seconds=0.2, jobs=3)
        self.assertIn("vehicles leave, 1", planned.summary())
        self.assertEqual((planned.required, planned.van(0), planned.place(1)), ((), "red", "Ada"))
        self.assertEqual(planned.left_out()[0][:14], "left out: Lea:")

    def test_an_unused_vehicle_has_a_sheet_that_says_so(self) -> None:
        vans = self.write("v.csv", "name,start\nred,yard\nblue,yard\n")
        status, _, _ = called("plan", self.write("p.csv", FULL), vans, "--seconds", "0", "--sheets", self.at("s"))
        self.assertEqual(status, 0)
        texts = [self.read(os.path.join("s", name)) for name in sorted(os.listdir(self.at("s")))]
        self.assertEqual(["is not used" in text for text in texts].count(True), 1)
        vans = self.write("v.csv", "name,start\nred,yard\n")
        told = called("plan", self.at("p.csv"), vans, "--seconds", "0", "--sheets", self.at("s"))[2]
        self.assertIn(f"look at: {self.at('s/02-blue.html')} is a sheet of an earlier plan\n", told)


class FaultTests(PlanCase):
    """What goes wrong leaves no file."""

    def setUp(self) -> None:
        super().setUp()
        self.words = ["-o", self.at("plan.csv"), "--page", self.at("day.html"), "--sheets", self.at("sheets")]

    def test_refused_inputs(self) -> None:
        bad = self.write("bad.csv", "name,x,y,open,close\nyard,0,0,,\nAda,3,4,soon,9:00\n")
        good = self.write("v.csv", "start\nyard\n")
        for words, said in (
            ([bad, good], "bad.csv, line 3, column 'open': 'soon' is neither a whole number nor a time like 8:30"),
            ([self.at("none.csv"), good], "none.csv: No such file or directory"),
            ([PLACES, bad], "bad.csv, line 1, column 'start': there is no such column"),
        ):
            status, out, told = called("plan", *words, *self.words)
            self.assertEqual((status, out, told.count("\n")), (1, "", 1))
            self.assertIn(said, told)
        for words in (["--seconds", "x"], ["--seconds", "-1"], ["--seconds", "nan"], ["--jobs", "0"], ["--speed", "0"],
                      ["--wait", "0"], ["--date", "today"]):
            self.assertEqual(called("plan", PLACES, VANS, *words, *self.words)[0], 2, words)
        self.assertEqual(sorted(os.listdir(self.folder)), ["bad.csv", "v.csv"])

    def test_a_killed_program(self) -> None:
        with Fake("os.kill(os.getpid(), 9)") as path, mock.patch.dict(os.environ, {"VR_CLI": path}):
            status, out, told = self.plan(*self.words)
        self.assertEqual((status, out), (1, ""))
        self.assertIn("the program was ended by the signal SIGKILL", told)
        self.assertEqual(os.listdir(self.folder), [])

    def test_a_missing_program_is_told_before_the_search(self) -> None:
        with mock.patch.dict(os.environ, {"VR_CLI": "/no/such/program"}):
            self.assertIn("VR_CLI names no program", self.plan(*self.words)[2])
        self.assertEqual(os.listdir(self.folder), [])

    @unittest.skipUnless(os.path.exists("/dev/full"), "there is no device that is always full")
    def test_a_full_disk(self) -> None:
        for word in ("--page", "-o", "--geojson"):
            status, _, told = self.plan("--solution", self.at("s.json"), word, "/dev/full")
            self.assertEqual((status, told.splitlines()[-1]), (1, "jambulskeg: /dev/full: No space left on device"))
        with open("/dev/full", "wb") as full:
            ran = subprocess.run(
                [sys.executable, "-W", "error", "-m", "jambulskeg", "plan", PLACES, VANS, "--seconds", "0"], cwd=TOP,
                env=environment(), stdout=full, stderr=subprocess.PIPE, check=False, text=True,
            )
        self.assertEqual((ran.returncode, ran.stderr.splitlines()[-1]),
                         (1, "jambulskeg: standard output: No space left on device"))
        self.assertEqual(os.listdir(self.folder), [])

    def test_a_folder_that_is_not_there_is_told_before_the_search(self) -> None:
        with mock.patch("jambulskeg.commands.plan.plan_day", side_effect=AssertionError("the search has begun")):
            status, _, told = self.plan("-o", self.at("none/plan.csv"))
        self.assertEqual((status, told.endswith("none/plan.csv: No such file or directory\n")), (1, True), told)

    def test_it_is_stopped_from_outside(self) -> None:
        body = "print(os.getpid(), file=open(os.environ['PID'], 'w'), flush=True)\ntime.sleep(60)"
        with Fake(body) as path:
            names = environment(VR_CLI=path, PID=self.at("pid"))
            process = subprocess.Popen(
                [sys.executable, "-m", "jambulskeg", "plan", PLACES, VANS, *self.words], cwd=TOP, env=names,
                stderr=subprocess.DEVNULL,
            )
            pid = wait_for(self.at("pid"))
            process.send_signal(signal.SIGTERM)
            self.assertEqual(process.wait(30), 143)
        with self.assertRaises(ProcessLookupError):
            os.kill(pid, 0)
        self.assertEqual(os.listdir(self.folder), ["pid"])

    def test_it_is_stopped_and_writes_the_best_so_far(self) -> None:
        with Fake(f"print(file=open(os.environ['RUNS'], 'a'), flush=True)\n{AS_REAL}") as path:
            process = subprocess.Popen(
                [sys.executable, "-m", "jambulskeg", "plan", PLACES, VANS, "--seconds", "120", *self.words], cwd=TOP,
                env=environment(VR_CLI=path, RUNS=self.at("runs")), stderr=subprocess.PIPE,
            )
            while not os.path.exists(self.at("runs")) or os.path.getsize(self.at("runs")) < 4:
                time.sleep(0.05)
            process.send_signal(signal.SIGTERM)
            told = process.communicate(timeout=60)[1].decode()
        self.assertEqual((process.returncode, "3 of 3 vehicles leave" in told), (143, True), told)
        self.assertEqual(sorted(os.listdir(self.folder)), ["day.html", "plan.csv", "runs", "sheets"])

    def test_the_words_are_registered(self) -> None:
        self.assertEqual(SECONDS, 10)
        self.assertTrue(callable(add_plan) and callable(run_plan))
        self.assertIn("--sheets DIR", called("plan", "-h")[1])


def wait_for(path: str) -> int:
    """The number in a file, when it is there."""
    for _ in range(1200):
        if os.path.exists(path) and os.path.getsize(path):
            with open(path, encoding="utf-8") as file:
                return int(file.read())
        time.sleep(0.05)
    raise AssertionError(f"{path} was not written")


if __name__ == "__main__":
    unittest.main()
