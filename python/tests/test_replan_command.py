"""python -m jambulskeg replan: what it writes, and how it says what is wrong."""

from __future__ import annotations

import os
from dataclasses import replace
from typing import List
from unittest import mock

from jambulskeg.complete import complete
from jambulskeg.model import check, read_model, read_solution
from jambulskeg.output import Output
from jambulskeg.places import Roads, model_from_csv
from jambulskeg.replan import replan

from .support import AS_REAL, EXAMPLES, Fake
from .test_command import CommandCase, called

DAY = [os.path.join(EXAMPLES, f"service-day.{end}") for end in ("json", "solved.json")]
TABLE = "name,x,y,demand,open,close,service,penalty\nyard,0,0,,,,,\nAda,30,40,2,8:00,15:00,10,500\nBen,-20,10,4,,,15,\n"
LATE = "Eve,30,30,3,9:30,15:00,5,900\nFay,5,5,1,,,2,\n"
VANS = "name,start,end,capacity,from,to\nred,yard,yard,15,8:00,16:00\nblue,yard,yard,15,8:00,16:00\n"


class ReplanCommandTests(CommandCase):
    def test_the_rest_and_the_whole_day(self) -> None:
        words = ["replan", *DAY, "-o", self.at("whole.json"), "--rest", self.at("rest.json"), "--seconds", "0"]
        for now in ("100", "1:40", "9:40"):
            clock = ["--clock", "8:00"] if now == "9:40" else []
            status, out, told = called(*words, "--now", now, *clock)
            self.assertEqual((status, told), (0, ""))
            self.assertEqual(out.splitlines(), [
                "on the road 3, at home 1, back 0", "the plan of the morning goes on: the whole day costs 1338",
                "the whole day costs 1338, by that plan", "0 of 9 visits changed vehicle",
            ])
        model, plan = read_model(DAY[0]), read_solution(DAY[1])
        self.assertEqual(check(model, read_solution(self.at("whole.json"))).cost, 1338)
        self.assertEqual(read_model(self.at("rest.json")), replan(model, plan, 100).model)

    def test_what_is_lost_and_taken_back(self) -> None:
        words = ["replan", *DAY, "--now", "100", "-o", self.at("whole.json"), "--keep"]
        status, out, _ = called(*words, "--without-vehicle", "3")
        self.assertEqual(status, 0)
        self.assertIn("4 of 10 visits changed vehicle: 5 from vehicle 3 to 2, 10 from", out)
        status, out, told = called(*words, "--without-visit", "9")
        self.assertEqual((status, out), (1, ""))
        self.assertIn("--day says where", told)
        status, out, _ = called(*words, "--without-visit", "9", "--day", self.at("day.json"))
        self.assertIn("left out: 9", out)
        self.assertTrue(check(read_model(self.at("day.json")), read_solution(self.at("whole.json"))).meets)
        self.assertEqual(called(*words, "--done", "1,6,2")[0], 0)

    def test_a_second_tour(self) -> None:
        words = ["replan", *DAY, "--now", "4:10", "-o", self.at("whole.json"), "--keep", "--day", self.at("day.json")]
        status, out, _ = called(*words, "--again", "1", "--again", "0")
        self.assertEqual((status, out.splitlines()[-2:]), (0, [
            "vehicle 4 is the second tour of vehicle 1", "vehicle 5 is the second tour of vehicle 0"
        ]))
        self.assertEqual(len(read_model(self.at("day.json")).vehicles), 6)
        self.assertIn("vehicle 2 has no second tour", called(*words, "--again", "2")[2])

    def test_progress(self) -> None:
        words = ["replan", *DAY, "--now", "100", "-o", self.at("whole.json"), "--seconds", "0"]
        self.assertRegex(called(*words, "--progress")[2], r"^ +[.0-9]+ s  cost \d+\n$")

    def test_new_orders(self) -> None:
        old, new, vans = (self.write(*entry) for entry in (
            ("old.csv", TABLE), ("new.csv", TABLE + LATE), ("vans.csv", VANS)
        ))
        model = model_from_csv(old, vans, Roads(pace=1.5))
        self.write("day.json", model.text())
        self.write("plan.json", complete(model, [[1, 2], []]).text())
        words = ["replan", self.at("day.json"), self.at("plan.json"), "--now", "9:00", "--seconds", "0"]
        files = ["-o", self.at("whole.json"), "--day", self.at("longer.json")]
        status, out, told = called(*words, *files, "--new", new, "--pace", "1.5")
        self.assertEqual((status, told), (0, ""))
        self.assertIn("came in: 3 (Eve), 4 (Fay)", out)
        longer = read_model(self.at("longer.json"))
        self.assertEqual(longer, model_from_csv(new, vans, Roads(pace=1.5)))
        self.assertTrue(check(longer, read_solution(self.at("whole.json"))).meets)
        status, more, _ = called(*words, *files, "--new", self.at("longer.json"))
        self.assertEqual(more.replace("3, 4", "3 (Eve), 4 (Fay)"), out)
        self.assertIn("measure, the scale and the pace", called(*words, *files, "--new", new)[2])

    def test_new_orders_in_degrees(self) -> None:
        table = "name,lat,lon,open,close\nyard,0,0,,\nAda,0,0.1,8:00,20:00\nBen,0.1,0.1,8:00,20:00\n"
        old, new, vans = (self.write(*entry) for entry in (
            ("old.csv", table), ("new.csv", table + "Eve,0.1,0,8:00,20:00\n"), ("vans.csv", VANS)
        ))
        model = model_from_csv(old, vans)
        self.write("day.json", model.text())
        self.write("plan.json", complete(model, [[1, 2], []]).text())
        words = ["replan", self.at("day.json"), self.at("plan.json"), "--now", "8:10", "--seconds", "0"]
        status, _, told = called(*words, "-o", self.at("whole.json"), "--day", self.at("longer.json"), "--new", new)
        self.assertEqual((status, told), (0, ""))
        self.assertEqual(read_model(self.at("longer.json")).matrices, model_from_csv(new, vans).matrices)

    def test_what_is_wrong_is_said(self) -> None:
        words = ["replan", *DAY, "-o", self.at("whole.json"), "--seconds", "0"]
        cases: List[List[str]] = [
            [*words, "--now", "eleven"], [*words, "--now", "7:00", "--clock", "8:00"],
            [*words, "--now", "100", "--done", "6"],
            ["replan", DAY[0], DAY[0], "--now", "100", "-o", self.at("whole.json")],
            [*words, "--now", "100", "--new", self.at("none.csv")],
            [*words[:-4], "-o", self.at("no/such/folder.json"), "--now", "100"],
            [*words[:-4], "-o", "/dev/full", "--now", "100", "--keep"],
            [*words, "--now", "100", "--time", "hours"],
        ]
        sentences = [
            "--now takes a time of day", "the moment -60 is none", "done visit 6, and not visit 1", "a required field",
            "none.csv: No such file", "no/such/folder.json: No such file", "/dev/full: No space left",
            "no dimension has the name 'hours'",
        ]
        for case, sentence in zip(cases, sentences):
            status, out, told = called(*case)
            self.assertEqual((status, out), (1, ""), case)
            self.assertIn(sentence, told)
            self.assertEqual(told.count("\n"), 1)
        for wrong in (["--seconds", "-1"], ["--seconds", "nan"], ["--done", "x"]):
            self.assertEqual(called(*words, "--now", "100", *wrong)[0], 2)
        self.assertEqual(os.listdir(self.folder), [])

    def test_a_killed_program(self) -> None:
        words = ["replan", *DAY, "--now", "100", "-o", self.write("whole.json", "old"), "--seconds", "0"]
        body = f"if 'check' not in sys.argv: os.kill(os.getpid(), 9)\n{AS_REAL}"
        with Fake(body) as path, mock.patch.dict(os.environ, {"VR_CLI": path}):
            status, out, told = called(*words)
        self.assertEqual((status, out), (1, ""))
        self.assertIn("ended by the signal SIGKILL", told)
        self.assertEqual((self.read("whole.json"), os.listdir(self.folder)), ("old", ["whole.json"]))


class OutputTests(CommandCase):
    def test_a_file_is_written_whole_or_not_at_all(self) -> None:
        path = self.write("a.json", "old")
        os.chmod(path, 0o640)
        os.symlink(path, self.at("link.json"))
        with Output(self.at("link.json")) as out:
            self.assertEqual(self.read("a.json"), "old")
            out.write("é")
            self.assertEqual(self.read("a.json"), "é")
        self.assertTrue(os.path.islink(self.at("link.json")))
        self.assertEqual(os.stat(path).st_mode & 0o777, 0o640)
        with self.assertRaises(ZeroDivisionError), Output(path) as out:
            out.write(str(1 // 0))
        self.assertEqual((self.read("a.json"), sorted(os.listdir(self.folder))), ("é", ["a.json", "link.json"]))

    def test_what_cannot_be_written_is_told_at_the_beginning(self) -> None:
        for path, said in ((self.folder, "Is a directory"), (self.at("none/a"), "No such file")):
            with self.assertRaisesRegex(OSError, said) as caught:
                Output(path)
            self.assertEqual(caught.exception.filename, path)
        with mock.patch("os.access", return_value=False), self.assertRaisesRegex(OSError, "Permission denied"):
            Output(self.write("a.json", ""))

    def test_a_full_disk(self) -> None:
        with Output("/dev/full") as out, self.assertRaisesRegex(OSError, "No space left.*: '/dev/full'"):
            out.write("a")
        with mock.patch("os.fsync", side_effect=OSError(28, "No space left on device")):
            with Output(self.write("a.json", "old")) as out, self.assertRaisesRegex(OSError, "No space.*a.json"):
                out.write("new")
        self.assertEqual((self.read("a.json"), os.listdir(self.folder)), ("old", ["a.json"]))


if __name__ == "__main__":
    import unittest

    unittest.main()
