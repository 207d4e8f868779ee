"""Portfolios and batches: the cheapest checked answer, the same however searches end, by each engine.

GNU parallel and Slurm are stood in for by small programs here; try_engines.py tries the real ones.
"""

from __future__ import annotations

import io
import math
import os
import stat
import tempfile
import unittest
from contextlib import contextmanager
from dataclasses import replace
from threading import Event
from typing import Callable, Dict, Iterator, List, Optional, Sequence, Tuple
from unittest import mock

from jambulskeg.batch import Found, batch, read_folder
from jambulskeg.engines import (
    Answer, Engine, EngineFailed, GnuParallel, OwnProcesses, Slurm, Task, TellingEngine, Told,
)
from jambulskeg.errors import (
    Fault, JambulskegError, NoFirstSolution, NoMemory, NotMet, ProgramFailed, ProgramKilled, Refused,
)
from jambulskeg.model import Improve, Model, check, read_model, solve
from jambulskeg.portfolio import (
    LAMBDAS, SEEDS, Ended, Incomplete, Outcome, Portfolio, Refining, Variant, collected, portfolio, refinings,
    tell_ended, variants,
)
from jambulskeg.program import find

from .support import AS_REAL, EXAMPLES, PYTHON, THREE, Fake, need_searches

KILLS = "if '\"lambda\":[1,5]' in text: os.kill(os.getpid(), 9)\n"
PARALLEL = """
import subprocess, sys
records = sys.stdin.read().splitlines(True)
outs = []
for number, record in reversed(list(enumerate(records, 1))):
    if LOST != number:
        line = sys.argv[-1].replace("{#}", str(number))
        outs.append(subprocess.run(["sh", "-c", line], input=record, stdout=subprocess.PIPE, text=True).stdout)
sys.stdout.write("".join(outs))
sys.stderr.write("some machine is gone\\n" if LOST > 0 else "")
"""
SBATCH = """
import os, re, subprocess, sys
script = sys.argv[-1]
print(7, flush=True)
most = int(re.search(r"--array=0-(\\d+)%", open(script).read()).group(1))
for task in range(most, -1, -1):
    if LOST != task:
        subprocess.run(["sh", script], env={**os.environ, "SLURM_ARRAY_TASK_ID": str(task)})
sys.stderr.write("sbatch: error: a node is gone\\n" if LOST > 0 else "")
"""


def small(name: str = "breaks-day", **search: object) -> Model:
    """An example with few tries."""
    model = read_model(os.path.join(EXAMPLES, f"{name}.json"))
    return replace(model, search=replace(model.search, **{"tries": 300, **search}))  # type: ignore[arg-type]


def cost_of(model: Model) -> float:
    """What a model's own search costs; without end where it has no answer."""
    try:
        return solve(model).cost
    except (NoFirstSolution, Refused):
        return math.inf


def told(found: Found) -> Tuple[object, ...]:
    """What a portfolio came to, in a form that may be compared."""
    assert isinstance(found, Portfolio)
    return found.solution, found.number, [(outcome.solution, str(outcome.problem)) for outcome in found.outcomes]


@contextmanager
def engine_on_path(name: str, body: str, lost: int = -1) -> Iterator[str]:
    """A stand-in for an engine, found on the path; the folder where searches lie is the present one. The task `lost`
    is never run."""
    here = os.getcwd()
    with tempfile.TemporaryDirectory() as folder:
        path = os.path.join(folder, name)
        with open(path, "w", encoding="utf-8") as file:
            file.write(f"{PYTHON}LOST = {lost}\n{body}")
        os.chmod(path, stat.S_IRWXU)
        program = os.path.abspath(find())
        words = {"PATH": folder + os.pathsep + os.environ["PATH"], "VR_CLI": program}
        with mock.patch.dict(os.environ, words):
            os.chdir(folder)
            try:
                yield folder
            finally:
                os.chdir(here)


class Backwards:
    """An engine whose searches end the last first."""

    def run(self, models: Sequence[Model], stop: Optional[Event] = None) -> List[Answer]:
        found: List[Answer] = []
        for model in reversed(models):
            found = OwnProcesses(1).run([model]) + found
        return found


class PortfolioTests(unittest.TestCase):
    def test_variants(self) -> None:
        model = small(improve=Improve.GUIDED_LOCAL_SEARCH)
        found = variants(model)
        self.assertEqual(len(found), 3 * (3 + len(LAMBDAS)))
        self.assertEqual(found[0], model.search)
        self.assertEqual(len(variants(small(improve=Improve.NONE), lambdas=[(2, 3)])), 13)
        self.assertEqual(len(variants(small(improve=Improve.TABU_SEARCH, tenure=3), lambdas=[])), 9)

    def test_a_cut_stands_for_many_moves(self) -> None:
        model = small(improve=Improve.GUIDED_LOCAL_SEARCH)
        for tries, cuts in ((0, 0), (77, 1), (20000, 20), (20001, 21)):
            found = {search.improve: search.tries for search in variants(model, tries)}
            self.assertEqual((found.pop(Improve.PATH_LNS), set(found.values())), (cuts, {tries}))
        found = {search.improve: search.tries for search in variants(small(improve=Improve.PATH_LNS, tries=3))}
        self.assertEqual((found.pop(Improve.PATH_LNS), set(found.values())), (3, {3000}))

    def test_searches_in_words(self) -> None:
        names = [Outcome(search).name for search in variants(small(cut=7, tenure=3), lambdas=[(2, 3)])]
        self.assertIn("SAVINGS, GUIDED_LOCAL_SEARCH, lambda 2/3", names)
        self.assertEqual(names[-2:], ["SAVINGS, PATH_LNS, cut 7", "SAVINGS, TABU_SEARCH, tenure 3"])
        self.assertEqual(len(set(names)), len(names))

    def test_the_cheapest_is_kept_whatever_the_order(self) -> None:
        need_searches()
        model = small("service-day", tries=2000)
        engines: List[Engine] = [OwnProcesses(1), OwnProcesses(4), Backwards()]
        found = [portfolio(model, engine) for engine in engines]
        self.assertEqual(len({result.solution.text() for result in found}), 1)
        self.assertEqual(len({result.number for result in found}), 1)
        costs = [cost_of(replace(model, search=search)) for search in variants(model)]
        self.assertEqual(found[0].solution.cost, min(costs))
        self.assertEqual(found[0].number, costs.index(min(costs)))
        self.assertEqual(check(model, found[0].solution).cost, min(costs))
        self.assertFalse(Outcome(model.search, found[0].solution).is_accident)

    def test_each_search_that_has_ended_is_told(self) -> None:
        model, own = small(), OwnProcesses(2)
        watched: List[Ended] = []
        watch: Callable[[Ended], None] = watched.append
        engine: TellingEngine = own
        told: Told = lambda number, answered: None
        tasks: List[Task] = [model]
        self.assertEqual(engine.run_all(tasks, None, told), [solve(model)])
        found = portfolio(model, own, progress=watch)
        count = len(found.outcomes)
        ended = [(entry.ended, entry.searches) for entry in watched]
        self.assertEqual(ended, [(number, count) for number in range(1, count + 1)])
        costs = [entry.cost for entry in watched if entry.cost is not None]
        self.assertEqual((min(costs), watched[-1].best), (found.solution.cost,) * 2)
        self.assertEqual(sorted(entry.seconds for entry in watched), [entry.seconds for entry in watched])
        with mock.patch("sys.stderr", new=io.StringIO()) as stderr:
            portfolio(model)
            self.assertEqual(stderr.getvalue(), "")
            with mock.patch.object(stderr, "isatty", return_value=True):
                batch({"monday": model})
            lines = stderr.getvalue().splitlines()
            tell_ended(Ended(1.0, None, None, 1, 21))
        said = rf"^ +[.0-9]+ s  monday: cost {found.solution.cost}  \({count} of {count} searches\)$"
        self.assertRegex(lines[-1], said)
        self.assertEqual(stderr.getvalue().splitlines()[-1], "     1.0 s  no answer yet  (1 of 21 searches)")

    def test_ruin_and_recreate_beside_them(self) -> None:
        found: List[Refining] = refinings(small(tries=20000), seeds=[5, 7])
        self.assertEqual([(entry.search.tries, entry.refine.seed) for entry in found], [(20, 5), (20, 7)])
        self.assertEqual(len(refinings(small())), len(SEEDS))
        entry: Variant = found[0]
        outcome = collected(small(), [entry], [solve(small())]).outcomes[0]
        self.assertEqual(outcome.name, f"{small().search.first.value}, ruin and recreate, seed 5")
        self.assertIsInstance(GnuParallel(1, "vr", refiner="vr_refine").has_refiner(), bool)
        script = Slurm(1, "vr", refiner="a refiner").script("folder", 0, 3, [2])
        self.assertIn("case $task in 2) 'a refiner' solve ;; *) vr solve ;; esac; printf", script)

    def test_more_tries_than_the_model_has(self) -> None:
        model = small("service-day", tries=10)
        found = portfolio(model, tries=3000)
        self.assertEqual(check(model, found.solution).cost, found.solution.cost)
        self.assertEqual(found.solution.tries, 0)

    def test_accidents_are_told(self) -> None:
        model = small()
        with Fake(KILLS + AS_REAL) as path:
            with self.assertRaises(Incomplete) as caught:
                portfolio(model, OwnProcesses(2, path))
            self.assertTrue(all(outcome.is_accident for outcome in caught.exception.outcomes))
            self.assertIsInstance(caught.exception.outcomes[0].problem, ProgramKilled)
            found = portfolio(model, OwnProcesses(2, path), keep_going=True)
        self.assertEqual(found.solution.cost, portfolio(model).solution.cost)

    def test_no_answer(self) -> None:
        need_searches()
        nowhere = Model.of({**THREE, "groups": [{"nodes": [1, 2]}], "pairs": [{"pickup": 1, "delivery": 2}]})
        with self.assertRaises(NoFirstSolution):
            portfolio(nowhere)
        negative = Model.of({**THREE, "matrices": [[[0, -5, 9], [5, 0, 4], [9, 4, 0]]]})
        with self.assertRaises(Refused) as caught:
            portfolio(negative)
        self.assertEqual(caught.exception.code, 20)

    def test_vehicles_that_differ_leave_savings_out(self) -> None:
        need_searches()
        model = Model.of(
            {**THREE, "vehicles": [{"start": 0, "end": 0}, {"start": 0, "end": 0, "fixed": 3}], "search": {"tries": 300}}
        )
        found = portfolio(model)
        codes = {outcome.problem.code for outcome in found.outcomes if isinstance(outcome.problem, Refused)}
        self.assertEqual(codes, {23})

    def test_an_answer_that_breaks_a_rule_is_passed_over(self) -> None:
        model = small()
        searches = variants(model)
        answers: List[Answer] = [solve(replace(model, search=search)) for search in searches[:2]]
        right = solve(model)
        answers[1] = replace(right, cost=1)
        found = collected(model, searches[:2], answers)
        self.assertEqual((found.number, found.solution), (0, right))
        self.assertIsInstance(found.outcomes[1].problem, NotMet)
        with self.assertRaises(NotMet):
            collected(model, searches[:1], answers[1:])

    def test_a_fault_of_the_model_is_told_before_an_accident(self) -> None:
        model = small()
        alike, fault = Refused(Fault(23, "/search/first")), Refused(Fault(20, "/vehicles/0/costs"))
        out_of_memory = NoMemory("none")
        cases: List[Tuple[List[Answer], JambulskegError]] = [
            ([ProgramKilled(9), alike, fault], fault), ([alike, out_of_memory], out_of_memory),
        ]
        for answers, problem in cases:
            with self.assertRaises(type(problem)) as caught:
                collected(model, variants(model)[:len(answers)], answers, keep_going=True)
            self.assertIs(caught.exception, problem)


class EngineTests(unittest.TestCase):
    def test_gnu_parallel(self) -> None:
        model, want = small(), told(portfolio(small()))
        with engine_on_path("parallel", PARALLEL):
            self.assertEqual(told(portfolio(model, GnuParallel(2))), want)
        words = GnuParallel(3, "vr", ["a", ":"], ["--bar"]).words(5)
        self.assertEqual(words[-6:-1], ["--sshlogin", "a", "--sshlogin", ":", "--bar"])
        self.assertIn("--jobs 3", " ".join(words))

    def test_slurm(self) -> None:
        model, want = small(), told(portfolio(small()))
        with engine_on_path("sbatch", SBATCH) as folder:
            self.assertEqual(told(portfolio(model, Slurm(2))), want)
            self.assertEqual(os.listdir(folder), ["sbatch"])
            self.assertEqual(told(portfolio(model, Slurm(2, folder="kept"))), want)
            self.assertIn("0.result", os.listdir("kept"))
            with open(os.path.join("kept", "job-0.sh"), encoding="utf-8") as file:
                self.assertIn(f"--array=0-{len(portfolio(model).outcomes) - 1}%2\n", file.read())
            with self.assertRaisesRegex(EngineFailed, "not empty"):
                Slurm(2, folder="kept").run([model])
            with mock.patch("jambulskeg.engines.MOST_TASKS", 4):
                self.assertEqual(told(portfolio(model, Slurm(2))), want)
        script = Slurm(5, "vr cli").script("a folder", 1000, 7)
        self.assertIn("#SBATCH --array=0-6%5\n", script)
        self.assertIn("cd 'a folder'", script)
        self.assertTrue(callable(Slurm().submit))

    def test_engines_that_are_missing_or_lose_a_task(self) -> None:
        model = small()
        with engine_on_path("parallel", PARALLEL, lost=2):
            with self.assertRaisesRegex(EngineFailed, "some machine is gone"):
                portfolio(model, GnuParallel(2))
        with engine_on_path("sbatch", SBATCH, lost=2), mock.patch("jambulskeg.engines.LATE_FILES", 0.1):
            with self.assertRaisesRegex(EngineFailed, "a node is gone"):
                portfolio(model, Slurm(2))
        with engine_on_path("sbatch", "import sys\nsys.exit('sbatch: error: no such partition')"):
            with self.assertRaisesRegex(EngineFailed, "took no job; it said: sbatch: error: no such partition"):
                portfolio(model, Slurm(2))
        missing: List[Engine] = [GnuParallel(1, "vr"), Slurm(1, "vr")]
        with mock.patch.dict(os.environ, {"PATH": "/nowhere"}):
            for engine in missing:
                with self.assertRaisesRegex(EngineFailed, "could not be started"):
                    engine.run([model])

    def test_programs_that_fail_where_they_are_run(self) -> None:
        model = small()
        for name, body in (("parallel", PARALLEL), ("sbatch", SBATCH)):
            with engine_on_path(name, body), Fake(KILLS + AS_REAL) as path:
                for program, kind in ((path, ProgramKilled), ("/no/such/program", ProgramFailed)):
                    engines: Dict[str, Engine] = {"parallel": GnuParallel(1, program), "sbatch": Slurm(1, program)}
                    with self.assertRaises(Incomplete) as caught:
                        portfolio(model, engines[name])
                    self.assertIsInstance(caught.exception.outcomes[0].problem, kind)


class BatchTests(unittest.TestCase):
    def test_each_model_has_the_answer_of_its_portfolio(self) -> None:
        need_searches()
        models = {"a": small(), "b": small("pickups"), "c": Model.of({**THREE, "groups": [{"nodes": [1, 2]}],
                                                                      "pairs": [{"pickup": 1, "delivery": 2}]})}
        found = batch(models, OwnProcesses(2))
        self.assertEqual(told(found["a"]), told(portfolio(models["a"])))
        self.assertEqual(told(found["b"]), told(portfolio(models["b"])))
        self.assertIsInstance(found["c"], NoFirstSolution)
        self.assertIsInstance(batch({"a": small()}, tries=50)["a"], Portfolio)

    def test_a_folder(self) -> None:
        with tempfile.TemporaryDirectory() as folder:
            for name, text in (("a.json", small().text()), ("a.solved.json", "x"), ("b.json", "{"), ("c.txt", "")):
                with open(os.path.join(folder, name), "w", encoding="utf-8") as file:
                    file.write(text)
            models, faulty = read_folder(folder)
        self.assertEqual((list(models), [name for name, _ in faulty]), (["a"], ["b"]))


if __name__ == "__main__":
    unittest.main()
