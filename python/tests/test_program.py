"""The program: where it is found, each of its statuses, and one that is missing, failing, slow or killed."""

from __future__ import annotations

import json
import os
import subprocess
import sys
import tempfile
import threading
import time
import unittest
from dataclasses import replace
from typing import Any, Callable, List
from unittest import mock

from jambulskeg.errors import (
    DeviceFailed, JambulskegError, NoFirstSolution, NoMemory, NotJson, NotMet, ProgramFailed, ProgramKilled,
    ProgramMissing, ProgramSlow, Refused, TooLong,
)
from jambulskeg.model import (
    Event, Finding, Model, Parts, Route, SearchLog, Status, Stop, check, first, generate, meets, read_model, read_solution,
    solve, solve_with_log,
)
from jambulskeg.program import Program, ProgramLike, answer, exception_of, find, lines_of, program_of, tree_of

from .support import THREE, Fake, ask, environment, tree_with

MODEL = Model.of(THREE)


class FindingTests(unittest.TestCase):
    def test_the_order_of_places(self) -> None:
        with Fake("") as named, Fake("") as on_path:
            with mock.patch.dict(os.environ, environment(VR_CLI=named, PATH=os.path.dirname(on_path)), clear=True):
                self.assertEqual(find(), named)
                self.assertEqual(find(on_path), on_path)
                self.assertEqual(program_of(None), Program(named))
                given: ProgramLike = Program("x")
                self.assertEqual(program_of(given), Program("x"))
            with mock.patch.dict(os.environ, environment(VR_CLI=None, PATH=os.path.dirname(on_path)), clear=True):
                with mock.patch("jambulskeg.program.BESIDE", ("/nowhere",)):
                    self.assertEqual(find(), on_path)
                with mock.patch("jambulskeg.program.BESIDE", ("/nowhere", named)):
                    self.assertEqual(Program.found().path, named)

    def test_a_missing_program_is_told(self) -> None:
        with mock.patch.dict(os.environ, environment(VR_CLI=None, PATH=""), clear=True):
            with mock.patch("jambulskeg.program.BESIDE", ("/nowhere",)):
                self.assertRaisesRegex(ProgramMissing, "VR_CLI", find)
        with mock.patch.dict(os.environ, environment(VR_CLI="/nowhere/vr_cli"), clear=True):
            self.assertRaisesRegex(ProgramMissing, "VR_CLI names no program.*/nowhere", lambda: solve(MODEL))
        self.assertRaisesRegex(ProgramMissing, "the path that was handed in", lambda: solve(MODEL, "/nowhere"))

    def test_it_works_from_another_folder(self) -> None:
        script = "from jambulskeg.model import *; print(solve(Model(1, [[[0]]], [Vehicle(0, 0)])).cost)"
        package = os.path.dirname(os.path.dirname(os.path.abspath(__file__)))
        with tempfile.TemporaryDirectory() as folder:
            ran = subprocess.run(
                [sys.executable, "-W", "error", "-c", script], cwd=folder, stdout=subprocess.PIPE, check=True,
                env=environment(PYTHONPATH=package, VR_CLI=find()),
            )
        self.assertEqual(ran.stdout.split(), [b"0"])


class FileTests(unittest.TestCase):
    def test_a_file_that_is_no_json_is_named(self) -> None:
        with tempfile.TemporaryDirectory() as folder:
            for name, data in (("cut", b'{"format":1,'), ("latin", b'"\xe9"'), ("deep", b"[" * 100000)):
                path = os.path.join(folder, name)
                with open(path, "wb") as file:
                    file.write(data)
                self.assertRaisesRegex(NotJson, f"{name} is no JSON text", lambda: read_model(path))
                self.assertRaisesRegex(NotJson, f"{name} is no JSON text", lambda: read_solution(path))
            self.assertRaises(OSError, lambda: read_model(os.path.join(folder, "none")))

    def test_a_solution_is_the_first_line_of_a_file(self) -> None:
        text = json.dumps(tree_with(format=1))
        with tempfile.TemporaryDirectory() as folder:
            path = os.path.join(folder, "logged")
            with open(path, "w", encoding="utf-8") as file:
                file.write(ask("solve --log", text)[1])
            self.assertEqual(read_solution(path), solve(Model.of(json.loads(text))))


class StatusTests(unittest.TestCase):
    def test_the_statuses_of_the_program(self) -> None:
        program = Program.found()
        self.assertRaises(NotJson, lambda: program.run(["solve"], "{"))
        self.assertRaises(TooLong, lambda: program.run(["solve"], " " * (2**26 + 1)))
        self.assertRaisesRegex(ProgramFailed, "words", lambda: program.run(["sing"]))
        with self.assertRaises(Refused) as refused:
            program.run(["solve"], json.dumps({"format": 1, "nodes": 1001}))
        self.assertEqual((refused.exception.code, refused.exception.path), (14, "/nodes"))
        self.assertIn("the number is out of its range", refused.exception.sentence)
        far: Any = {**THREE, "dimensions": [
            {"name": "t", "evaluators": [{"matrix": 0}], "slack_max": 0, "capacity": 3}
        ]}
        self.assertRaises(NoFirstSolution, lambda: first(Model.of(far)))
        with self.assertRaises(NotMet) as broken:
            program.ask(["check"], json.dumps({"model": MODEL.tree(), "solution": {}}))
        self.assertEqual((broken.exception.rule, broken.exception.vehicle), ("shape", -1))

    def test_each_status_has_its_exception(self) -> None:
        kinds = {2: DeviceFailed, 3: DeviceFailed, 7: NoMemory, 10: ProgramFailed, 77: ProgramFailed}
        for status, kind in kinds.items():
            with Fake(f"sys.stderr.write('woe'); sys.exit({status})") as path:
                self.assertRaises(kind, lambda: solve(MODEL, path))
        self.assertIn("woe", str(exception_of(77, b"", b"woe\n")))
        for status, text in ((5, b"{}"), (9, b'{"rule":"x"}'), (5, b"[]"), (9, b"garbage")):
            self.assertIsInstance(exception_of(status, text, b""), ProgramFailed)
        self.assertRaises(ProgramFailed, lambda: answer(0, b"\xff", b""))
        self.assertRaises(ProgramFailed, lambda: tree_of("no tree"))
        self.assertEqual(lines_of("a\nb\n"), ["a", "b"])

    def test_a_killed_program(self) -> None:
        with Fake("os.kill(os.getpid(), 9)") as path:
            with self.assertRaises(ProgramKilled) as killed:
                solve(MODEL, path)
        self.assertEqual(killed.exception.signal, 9)
        self.assertIn("SIGKILL", str(killed.exception))

    def test_a_program_that_reads_late_gets_the_whole_input(self) -> None:
        late = "os.execv('/bin/sh', ['/bin/sh', '-c', 'sleep 0.5; wc -c'])"
        with Fake(late) as path, open(path, encoding="utf-8") as file:
            body = file.read().replace("text = sys.stdin.read()\n", "")
            with open(path, "w", encoding="utf-8") as other:
                other.write(body)
            said = Program(path).run(["solve"], "x" * 10**6, 20, threading.Event())
        self.assertEqual(int(said), 10**6)

    def test_a_slow_program(self) -> None:
        began = time.monotonic()
        with Fake("time.sleep(60)") as path:
            with self.assertRaises(ProgramSlow) as slow:
                solve(MODEL, path, seconds=0.2)
        self.assertEqual(slow.exception.seconds, 0.2)
        self.assertLess(time.monotonic() - began, 20)

    def test_an_interrupted_call_ends_its_program(self) -> None:
        with Fake("time.sleep(60)") as path:
            with mock.patch("subprocess.Popen.communicate", side_effect=KeyboardInterrupt):
                began = time.monotonic()
                self.assertRaises(KeyboardInterrupt, lambda: solve(MODEL, path))
        self.assertLess(time.monotonic() - began, 20)

    def test_a_program_that_cannot_be_run(self) -> None:
        with tempfile.TemporaryDirectory() as folder:
            path = os.path.join(folder, "vr_cli")
            with open(path, "wb") as file:
                file.write(b"\x00no program")
            self.assertRaises(ProgramMissing, lambda: solve(MODEL, path))
            os.chmod(path, 0o700)
            self.assertRaisesRegex(ProgramFailed, "could not be started", lambda: solve(MODEL, path))

    def test_a_program_that_reads_nothing(self) -> None:
        text = "x" * 10**6
        with tempfile.TemporaryDirectory() as folder:
            path = os.path.join(folder, "vr_cli")
            with open(path, "w", encoding="utf-8") as file:
                file.write("#!/bin/sh\nexit 7\n")
            os.chmod(path, 0o700)
            self.assertRaises(NoMemory, lambda: Program(path).run(["solve"], text))


class AnswerTests(unittest.TestCase):
    def test_reports_and_findings_that_cannot_be_read(self) -> None:
        with Fake("sys.stdout.write(subprocess.run([REAL, 'solve'], input=text, stdout=subprocess.PIPE, text=True)"
                  ".stdout + 'no report')") as path:
            self.assertRaisesRegex(ProgramFailed, "reports", lambda: solve_with_log(MODEL, path))
            self.assertRaisesRegex(ProgramFailed, "finding", lambda: check(MODEL, solve(MODEL), path))
        long = replace(solve(MODEL), dropped=[1] * 1000)
        with mock.patch.object(type(long), "text", return_value=" " * 2**26):
            self.assertRaises(TooLong, lambda: check(MODEL, long))

    def test_answers_of_another_form(self) -> None:
        for body in ("print('{}')", "print('no json')", "pass", "print('[1]')", "sys.stdout.write('\\u00e4' * 9)"):
            with Fake(body) as path:
                self.assertRaises(ProgramFailed, lambda: solve(MODEL, path))
                self.assertRaises(ProgramFailed, lambda: solve_with_log(MODEL, path))
                self.assertRaises(ProgramFailed, lambda: check(MODEL, first(MODEL), path))

    def test_an_answer_that_does_not_meet_is_not_handed_out(self) -> None:
        body = (
            "ran = subprocess.run([REAL, *sys.argv[1:]], input=text, stdout=subprocess.PIPE, text=True)\n"
            "out = ran.stdout if sys.argv[1] == 'check' else ran.stdout.replace('\"cost\":18', '\"cost\":17')\n"
            "sys.stdout.write(out); sys.exit(ran.returncode)"
        )
        with Fake(body) as path:
            calls: List[Callable[..., Any]] = [solve, first, solve_with_log]
            for call in calls:
                with self.assertRaises(NotMet) as broken:
                    call(MODEL, path)
                self.assertEqual(broken.exception.rule, "cost")
            self.assertEqual(solve(MODEL, path, checked=False).cost, 17)
            self.assertEqual(first(MODEL, path, checked=False).cost, 17)
            self.assertEqual(solve_with_log(MODEL, path, checked=False)[0].cost, 17)

    def test_answers(self) -> None:
        solution, log = solve_with_log(MODEL)
        self.assertEqual((solution.cost, solution.lists(), solution.used()), (18, [[1, 2]], [0]))
        self.assertEqual((log.moves, log.rounds, log.best, log.events[0].word), (0, 0, 18, "first"))
        self.assertEqual((log.events[0].tries, log.events[0].cost), (0, 18))
        finding = check(MODEL, solution)
        self.assertTrue(finding.meets)
        self.assertEqual(finding.cost, 18)
        self.assertIs(meets(MODEL, solution), solution)
        kinds = ((log, SearchLog), (log.events[0], Event), (finding, Finding), (solution.parts, Parts),
                 (solution.routes[0], Route), (solution.status, Status), (solution.stop, Stop))
        self.assertTrue(all(isinstance(value, kind) for value, kind in kinds))
        self.assertEqual(solution.parts.total(), 18)
        self.assertEqual(generate(7).nodes, 61)
        self.assertTrue(issubclass(Refused, (JambulskegError, ValueError)))


if __name__ == "__main__":
    unittest.main()
