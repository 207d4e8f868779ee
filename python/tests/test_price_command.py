"""python -m jambulskeg price: what it tells, and how it says what is wrong; `refine` without ruin and recreate.

What `refine` finds is looked at by `test_refine_command`.
"""

from __future__ import annotations

import os
import unittest
from typing import List
from unittest import mock

from jambulskeg.model import Model, check, read_model, read_solution

from .support import EXAMPLES, THREE, Fake, environment
from .test_command import CommandCase, called
from .test_refine import REFUSES, RULES

SERVICE = [os.path.join(EXAMPLES, f"service-day.{end}") for end in ("json", "solved.json")]


class PriceTests(CommandCase):
    def test_what_a_plan_costs(self) -> None:
        model = self.write("three.json", Model.of(THREE).text())
        for name, text in (("a.json", "[[2,1]]"), ("b.json", '{"routes":[[2,1]]}')):
            plan = self.write(name, text)
            self.assertEqual(called("price", model, plan), (0, "cost 18: arcs 18\nvehicle 0: 0 2 1 0\n", ""))
        status, out, told = called("price", model, plan, "-o", self.at("out.json"))
        self.assertEqual((status, out.splitlines()[0], told), (0, "cost 18: arcs 18", ""))
        self.assertEqual(check(read_model(model), read_solution(self.at("out.json"))).cost, 18)
        rules, made = self.write("rules.json", Model.of(RULES).text()), self.write("made.json", "[[1,2,5],[3,4]]")
        status, out, _ = called("price", rules, made)
        lines = ["cost 7: arcs 7", "vehicle 0: 0 1 2 5 0", "vehicle 1: 0 3 4 0", "left out: 6"]
        self.assertEqual(out.splitlines(), lines)
        self.assertEqual(called("price", *SERVICE)[1].splitlines()[0][:10], "cost 1338:")

    def test_what_is_wrong_is_said(self) -> None:
        model = self.write("a.json", Model.of(THREE).text())
        rules = self.write("r.json", Model.of(RULES).text())
        rows = (
            (model, "[[1,0]]", "plan.json: /routes/0/1: the node is a start or an end"),
            (model, "[[1,2],[]]", "plan.json: /routes: "), (model, "[[1,7]]", "plan.json: /routes/0/1: "),
            (model, "[[1,1]]", "plan.json: /routes/0/1: "), (model, "7", "price: routes is 7"),
            (model, "{", "plan.json is no JSON text"), (model, "[[1]]", "plan.json: visit 2 is not made, and must be"),
            (model, '{"cost":1}', "a required field"), (self.at("none.json"), "[[1,2]]", "none.json: No such file"),
            (rules, "[[1,2],[3,4,5]]", "plan.json: vehicle 1 makes node 5 at place 3"),
            (rules, "[[1,3,4,2,5],[]]", "plan.json: vehicle 0 cannot drive its list in the dimension 'time'"),
        )
        for path, text, sentence in rows:
            status, out, told = called("price", path, self.write("plan.json", text), "-o", self.at("out.json"))
            self.assertEqual((status, out, told.count("\n")), (1, "", 1), text)
            self.assertIn(sentence, told)
        self.assertFalse(os.path.exists(self.at("out.json")))
        negative = Model.of({**THREE, "matrices": [[[0, 5, 9], [5, 0, -4], [9, 4, 0]]]})
        told = called("price", self.write("n.json", negative.text()), self.write("plan.json", "[[1,2]]"))[2]
        self.assertIn("n.json: /model/vehicles/0/costs: ", told)

    def test_a_full_disk_and_a_killed_program(self) -> None:
        words = ["price", self.write("a.json", Model.of(THREE).text()), self.write("plan.json", "[[1,2]]")]
        self.assertEqual(called(*words, "-o", "/dev/full")[0], 1)
        self.assertIn("/dev/full: No space left", called(*words, "-o", "/dev/full")[2])
        self.assertIn("no/such.json: No such file", called(*words, "-o", self.at("no/such.json"))[2])
        with Fake("os.kill(os.getpid(), 9)") as path, mock.patch.dict(os.environ, {"VR_REFINE": path}):
            status, out, told = called(*words, "-o", self.write("out.json", "old"))
        self.assertEqual((status, out), (1, ""))
        self.assertIn("ended by the signal SIGKILL", told)
        self.assertEqual(self.read("out.json"), "old")
        with mock.patch.dict(os.environ, environment(VR_REFINE="/no/such")):
            self.assertIn("VR_REFINE names no program", called(*words)[2])

    def test_refine_asks_for_ruin_and_recreate(self) -> None:
        words: List[str] = ["refine", *SERVICE, "-o", self.write("out.json", "old")]
        with Fake(REFUSES) as path, mock.patch.dict(os.environ, {"VR_REFINE": path}):
            status, out, told = called(*words)
        self.assertEqual((status, out), (1, ""))
        self.assertIn("refine asks for a vr_refine that knows ruin and recreate", told)
        self.assertEqual(self.read("out.json"), "old")
        self.assertEqual(called(*words, "--seconds", "-1")[0], 2)
        self.assertEqual(called("refine", *SERVICE)[0], 2)


if __name__ == "__main__":
    unittest.main()
