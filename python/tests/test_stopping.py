"""Commands that are stopped: at once, with no process left, and with the best answer so far written."""

from __future__ import annotations

import os
import signal
import subprocess
import sys
import threading
import time
import unittest
from threading import Event
from typing import Dict, List, Tuple
from unittest import mock

from jambulskeg.batch import batch
from jambulskeg.engines import Answer, Engine, GnuParallel, OwnProcesses, Slurm
from jambulskeg.errors import ProgramSlow, Stopped
from jambulskeg.model import check, read_model, read_solution, solve
from jambulskeg.output import Output
from jambulskeg.portfolio import Portfolio, collected, portfolio, variants
from jambulskeg.program import Program, find, outputs_of
from jambulskeg.stopping import Stop, stopping

from .support import AS_REAL, EXAMPLES, Fake, environment
from .test_command import QUICK, TOP, CommandCase, called
from .test_portfolio import engine_on_path, small

ENDLESS = (
    "if 'solve' in sys.argv and 'GUIDED_LOCAL_SEARCH' in text:\n"
    "    open(os.path.join(os.environ['PIDS'], str(os.getpid())), 'w').close(); time.sleep(600)\n" + AS_REAL
)
"""A program whose guided searches never end; each leaves a file with the number of its process."""


def is_alive(pid: int) -> bool:
    """Whether there is a process."""
    try:
        os.kill(pid, 0)
    except OSError:
        return False
    return True


def end_all(process: "subprocess.Popen[str]") -> None:
    """Ends a process that leads a group of its own, and all that it began, if it did not end by itself."""
    if process.poll() is None:
        os.killpg(process.pid, signal.SIGKILL)
        process.communicate()


class StoppedCommandTests(CommandCase):
    def stopped(self, number: int, words: List[str], seen: int) -> Tuple[int, str, str]:
        """Runs a command, stops its process alone by a signal once `seen` guided searches run, and finds that none is
        left soon after. Its status, and what it wrote to its outputs."""
        pids = self.at("pids")
        os.makedirs(pids, exist_ok=True)
        with Fake(ENDLESS) as path:
            process = subprocess.Popen(
                [sys.executable, "-W", "error", "-m", "jambulskeg", *words], cwd=TOP,
                env=environment(VR_CLI=path, PIDS=pids), stdout=subprocess.PIPE, stderr=subprocess.PIPE, text=True,
                start_new_session=True,
            )
            self.addCleanup(end_all, process)
            end = time.monotonic() + 30
            while len(os.listdir(pids)) < seen and time.monotonic() < end:
                time.sleep(0.02)
            process.send_signal(number)
            begin = time.monotonic()
            out, told = process.communicate(timeout=30)
            self.assertLess(time.monotonic() - begin, 5)
            left = [name for name in os.listdir(pids) if is_alive(int(name))]
        self.assertEqual(left, [])
        return process.returncode, out, told

    def test_a_portfolio(self) -> None:
        model = self.write("day.json", small("service-day").text())
        for number, status in ((signal.SIGTERM, 143), (signal.SIGINT, 130)):
            words = ["portfolio", model, "--jobs", "3", "-o", self.at("a.json")]
            found, out, told = self.stopped(number, words, seen=3)
            self.assertEqual((found, out), (status, ""), told)
            self.assertIn("stopped before there was an answer", told)
            self.assertEqual(told.count("*"), 1)
            self.assertTrue(check(read_model(model), read_solution(self.at("a.json"))).meets)
            self.assertEqual(sorted(os.listdir(self.folder)), ["a.json", "day.json", "pids"])
            for name in os.listdir(self.at("pids")):
                os.unlink(os.path.join(self.at("pids"), name))

    def test_a_portfolio_without_an_answer(self) -> None:
        model = self.write("day.json", small("service-day", tries=77).text())
        self.write("a.json", "old")
        found, out, told = self.stopped(signal.SIGTERM, ["portfolio", model, "-o", self.at("a.json")], seen=1)
        self.assertEqual((found, out, told), (143, "", "jambulskeg: stopped before there was an answer\n"))
        self.assertEqual(self.read("a.json"), "old")

    def test_a_batch(self) -> None:
        os.mkdir(self.at("models"))
        for name in ("a", "b"):
            self.write(f"models/{name}.json", small("service-day").text())
        words = ["batch", self.at("models"), "--jobs", "8", "--lambda", "1/10", "-o", self.at("out")]
        found, out, _ = self.stopped(signal.SIGTERM, words, seen=6)
        self.assertEqual(found, 143)
        self.assertRegex(out, "a: cost 16")

    def test_a_day_planned_anew(self) -> None:
        day = [os.path.join(EXAMPLES, f"service-day.{end}") for end in ("json", "solved.json")]
        words = ["replan", *day, "--now", "100", "-o", self.at("whole.json"), "--seconds", "60"]
        found, out, told = self.stopped(signal.SIGINT, words, seen=1)
        self.assertEqual((found, told), (130, ""))
        self.assertIn("the whole day costs 1338, by that plan", out)
        self.assertEqual(read_solution(self.at("whole.json")).cost, 1338)

    def test_a_full_disk(self) -> None:
        model = self.write("day.json", QUICK.text())
        with open("/dev/full", "w", encoding="utf-8") as full:
            ran = subprocess.run(
                [sys.executable, "-W", "error", "-m", "jambulskeg", "portfolio", model], cwd=TOP, stdout=full,
                stderr=subprocess.PIPE, env=environment(VR_CLI=find()), check=False, text=True,
            )
        self.assertEqual((ran.returncode, ran.stderr), (1, "jambulskeg: standard output: No space left on device\n"))
        told = called("portfolio", model, "-o", "/dev/full")[2]
        self.assertEqual(told, "jambulskeg: /dev/full: No space left on device\n")

    def test_a_standard_output_that_takes_nothing(self) -> None:
        full = mock.Mock(write=mock.Mock(side_effect=OSError(28, "No space left on device")))
        full.fileno.side_effect = OSError
        with mock.patch("sys.stdout", new=full), self.assertRaisesRegex(OSError, "No space left.*standard output"):
            Output(None).write("a")

    def test_the_output_is_opened_before_the_search(self) -> None:
        model = self.write("day.json", small("service-day", tries=10**9).text())
        begin = time.monotonic()
        for words, said in (
            (["portfolio", model, "-o", self.at("no/such.json")], "no/such.json: No such file or directory"),
            (["portfolio", model, "-o", self.folder], "Is a directory"),
            (["batch", self.folder, "-o", "/dev/null/x"], "Not a directory"),
        ):
            status, out, told = called(*words)
            self.assertEqual((status, out), (1, ""))
            self.assertIn(said, told)
        self.assertLess(time.monotonic() - begin, 5)


class StopTests(unittest.TestCase):
    def test_a_signal_sets_the_event_and_a_second_one_ends(self) -> None:
        with stopping() as stop:
            self.assertEqual(stop.status, 0)
            os.kill(os.getpid(), signal.SIGINT)
            self.assertTrue(stop.wait(5))
            self.assertEqual(stop.status, 130)
            with self.assertRaises(KeyboardInterrupt):
                os.kill(os.getpid(), signal.SIGINT)
                time.sleep(5)
        with self.assertRaises(Stopped) as caught, stopping() as stop:
            stop.number = signal.SIGTERM
            raise Stopped()
        self.assertEqual(caught.exception.signal, signal.SIGTERM)

    def test_another_thread_takes_no_signals(self) -> None:
        found: List[Stop] = []

        def run() -> None:
            with stopping() as stop:
                found.append(stop)

        thread = threading.Thread(target=run)
        thread.start()
        thread.join()
        self.assertEqual([stop.is_set() for stop in found], [False])

    def test_engines(self) -> None:
        stop = Event()
        stop.set()
        self.assertRaises(Stopped, lambda: portfolio(small(), OwnProcesses(2), stop=stop))
        waits = (
            "import os, signal, sys, time\nsignal.signal(15, lambda *_: sys.exit(0))\n"
            "open(__file__ + '.pid', 'w').write(str(os.getpid()))\nprint('7', flush=True)\ntime.sleep(60)"
        )
        engines: Dict[str, Engine] = {"parallel": GnuParallel(2), "sbatch": Slurm(2)}
        for name, engine in engines.items():
            with engine_on_path(name, waits) as folder:
                with open(os.path.join(folder, "scancel"), "w", encoding="utf-8") as file:
                    file.write('#!/bin/sh\nkill "$(cat "$(dirname "$0")/sbatch.pid")"\n')
                os.chmod(os.path.join(folder, "scancel"), 0o700)
                begin = time.monotonic()
                threading.Timer(0.5, stop.set).start()
                self.assertRaises(Stopped, lambda: portfolio(small(), engine, stop=stop))
                self.assertLess(time.monotonic() - begin, 10)

    def test_what_had_ended_is_kept(self) -> None:
        found = batch({"a": small()}, OwnProcesses(1), tries=50, stop=Event())["a"]
        assert isinstance(found, Portfolio)
        self.assertEqual(found.stopped, 0)
        searches = variants(small())
        answers: List[Answer] = [Stopped(), *(solve(small()) for _ in searches[1:])]
        kept = collected(small(), searches, answers)
        self.assertEqual((kept.stopped, kept.number), (1, 1))

    def test_an_interrupt_ends_the_searches(self) -> None:
        body = "open(os.path.join(os.path.dirname(sys.argv[0]), str(os.getpid())), 'w').close(); time.sleep(60)"
        with Fake(body) as path:
            begin = time.monotonic()
            timer = threading.Timer(1, lambda: os.kill(os.getpid(), signal.SIGINT))
            timer.start()
            self.assertRaises(KeyboardInterrupt, lambda: portfolio(small(), OwnProcesses(2, path)))
            self.assertLess(time.monotonic() - begin, 10)
            pids = [int(name) for name in os.listdir(os.path.dirname(path)) if name.isdigit()]
            self.assertEqual([pid for pid in pids if is_alive(pid)], [])

    def test_outputs(self) -> None:
        pipe = subprocess.PIPE
        with subprocess.Popen(["cat"], stdin=pipe, stdout=pipe, stderr=pipe) as process:
            self.assertEqual(outputs_of(process, b"a" * 10**6, 60, Event())[0], b"a" * 10**6)

    def test_an_input_that_is_read_late_is_read_whole(self) -> None:
        pipe = subprocess.PIPE
        late = "import sys, time; time.sleep(1); sys.stdout.write(str(len(sys.stdin.read())))"
        with subprocess.Popen([sys.executable, "-c", late], stdin=pipe, stdout=pipe, stderr=pipe) as process:
            self.assertEqual(outputs_of(process, b"a" * 10**6, 60, Event())[0], b"1000000")
        with Fake("time.sleep(60)") as path:
            self.assertRaises(ProgramSlow, lambda: Program(path).run(["solve"], b"a" * 10**6, 0.5))


if __name__ == "__main__":
    unittest.main()
