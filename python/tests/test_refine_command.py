"""python -m jambulskeg refine: what it finds, and how it says what is wrong.

These tests ask for a vr_refine that knows ruin and recreate; with one that refuses the object `refine` they are
skipped.
"""

from __future__ import annotations

import os
import signal
import subprocess
import sys
import time
import unittest
from unittest import mock

from jambulskeg.model import Improve, check, first, read_model, read_solution
from jambulskeg.refine import refines
from jambulskeg.rounds import with_search

from .support import EXAMPLES, Fake
from .test_command import TOP, CommandCase, called
from .test_refining import as_refiner

SERVICE = os.path.join(EXAMPLES, "service-day.json")
DAY = read_model(SERVICE)


@unittest.skipUnless(refines(), "the vr_refine at hand does not know ruin and recreate")
class RefineTests(CommandCase):
    def test_it_goes_on_from_a_plan(self) -> None:
        begun = first(DAY)
        plan, out = self.write("plan.json", begun.text()), self.at("out.json")
        for improve in (Improve.GUIDED_LOCAL_SEARCH, Improve.NONE):
            model = self.write("day.json", with_search(DAY, improve=improve, tries=100).text())
            for limit in ("0.1", "0.3", "1", "5", "15"):  # On a busy machine few rounds are over sooner.
                status, said, told = called("refine", model, plan, "--seconds", limit, "-o", out)
                self.assertEqual((status, said), (0, ""))
                self.assertRegex(told, rf"^cost \d+, {begun.cost} before; \d+ of 16 visits changed vehicle\n$")
                if read_solution(out).cost < begun.cost:
                    break
            self.assertLess(read_solution(out).cost, begun.cost)
            self.assertTrue(check(read_model(model), read_solution(out)).meets)
        said = called("refine", SERVICE, plan, "--seconds", "0", "--progress", "-o", out)[2]
        self.assertRegex(said, rf"^ +[.0-9]+ s  cost {begun.cost}\ncost {begun.cost}, {begun.cost} before; 0 of 16 ")

    def test_a_plan_that_breaks_a_rule(self) -> None:
        lists = first(DAY).lists()
        words = ["--seconds", "0", "-o", self.at("out.json")]
        status, _, told = called("refine", SERVICE, self.write("plan.json", str([lists[0][1:], *lists[1:]])), *words)
        self.assertEqual(status, 0)
        self.assertRegex(told, r"^cost \d+, \d+ before; |^look at: .*plan.json: visit \d+ is not made.*\ncost \d+\n")
        self.assertTrue(check(DAY, read_solution(self.at("out.json"))).meets)
        for text, sentence in (("[[1]]", "plan.json: /routes: "), ("[[0],[],[],[]]", "plan.json: /routes/0/0: ")):
            status, out, told = called("refine", SERVICE, self.write("plan.json", text), *words)
            self.assertEqual((status, out, told.count("\n")), (1, "", 1))
            self.assertIn(sentence, told)

    def test_a_full_disk_and_a_killed_program(self) -> None:
        words = ["refine", SERVICE, self.write("plan.json", first(DAY).text()), "--seconds", "20"]
        self.assertIn("/dev/full: No space left", called(*words[:-1], "0", "-o", "/dev/full")[2])
        kills = "if len(text) > 1000 and sys.argv[1] == 'solve': os.kill(os.getpid(), 9)\n"
        with Fake(f"{kills}{as_refiner()}") as path, mock.patch.dict(os.environ, {"VR_REFINE": path}):
            status, out, told = called(*words, "-o", self.write("out.json", "old"))
        self.assertEqual((status, out), (1, ""))
        self.assertIn("ended by the signal SIGKILL", told)
        self.assertEqual(self.read("out.json"), "old")

    def test_it_stops_with_the_best_so_far(self) -> None:
        words = ["refine", SERVICE, self.write("plan.json", first(DAY).text()), "--seconds", "600", "--progress"]
        with subprocess.Popen(
            [sys.executable, "-m", "jambulskeg", *words, "-o", self.at("out.json")], cwd=TOP, stderr=subprocess.PIPE
        ) as process:
            assert process.stderr is not None
            process.stderr.readline()
            time.sleep(0.05)
            process.send_signal(signal.SIGTERM)
            self.assertIn(b"before;", process.stderr.read())
        self.assertEqual(process.returncode, 143)
        self.assertTrue(check(DAY, read_solution(self.at("out.json"))).meets)


if __name__ == "__main__":
    unittest.main()
