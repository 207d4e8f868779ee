"""python3 tests/try_region.py [VISITS [TRIES]], by hand and as root: one plan by own processes, GNU parallel and Slurm.

It needs what try_engines.py needs but for ssh; Slurm is started for this machine alone, in a folder that goes at the
end. `60s` in place of TRIES plans with `--seconds 60` by each engine first, and then with half of the fewest tries that
these came to; last comes the plan of parts without seams, with the same seconds or tries. Up to 1000 visits the run is
killed at ten moments (the parent, a worker, a worker's job, a full disk), and goes on each time. Memory is that of the
whole machine, beyond what was in use before. README.md has what it printed.
"""

from __future__ import annotations

import contextlib
import hashlib
import json
import os
import random
import resource
import shutil
import signal
import subprocess
import sys
import tempfile
import time
from threading import Event, Thread
from typing import List, Optional, Sequence

TOP = os.path.dirname(os.path.dirname(os.path.abspath(__file__)))
sys.path.insert(0, TOP)

from jambulskeg.commands.plan import LEFT_OUT
from jambulskeg.program import find
from tests.region_support import ROAD_WORDS, made_region, write_tables
from tests.try_engines import STOPS, run, start_slurm, write

JOBS = "4"
ENGINES = (["--with", "own"], ["--with", "parallel"], ["--with", "slurm", "--option=--partition=all"])
LOOK = 0.2
"""How many seconds pass between two looks at the memory in use."""


class Memory:
    """How much memory of the machine is in use at most, beyond what was in use before."""

    def __init__(self) -> None:
        self._over, self._before, self.most = Event(), available(), 0
        self._looks = Thread(target=self._look, daemon=True)

    def _look(self) -> None:
        while not self._over.wait(LOOK):
            self.most = max(self.most, self._before - available())

    def __enter__(self) -> "Memory":
        self._looks.start()
        return self

    def __exit__(self, *_: object) -> None:
        self._over.set()
        self._looks.join()


def available() -> int:
    """The megabytes of memory that Linux could still give out."""
    with open("/proc/meminfo", encoding="ascii") as file:
        return next(int(line.split()[1]) // 1024 for line in file if line.startswith("MemAvailable:"))


def words_of(folder: str, name: str, tries: int, *more: str) -> List[str]:
    """The command that plans the region of the folder; without `tries`, by the seconds among `more`."""
    return [
        sys.executable, "-m", "jambulskeg", "region", os.path.join(folder, "places.csv"),
        os.path.join(folder, "vans.csv"), *ROAD_WORDS, "--jobs", JOBS, *(["--tries", str(tries)] if tries else []),
        "-o", os.path.join(folder, f"{name}.csv"), "--page", os.path.join(folder, f"{name}.html"), *more,
    ]


def mark(path: str) -> str:
    """A short mark of a file's bytes."""
    with open(path, "rb") as file:
        return hashlib.sha256(file.read()).hexdigest()[:12]


def compare_engines(folder: str, tries: int) -> str:
    """The plan by each engine; all are the same bytes, whose mark is given back."""
    marks = [planned(folder, f"plan{number}", tries, *engine) for number, engine in enumerate(ENGINES)]
    print(f"plans that differ: {len(set(marks)) - 1}")
    return marks[0]


def planned(folder: str, name: str, tries: int, *more: str) -> str:
    """Plans the region of the folder, and tells what it took; the mark of the plan, or what was wrong."""
    before, began, load = resource.getrusage(resource.RUSAGE_CHILDREN), time.monotonic(), os.getloadavg()[0]
    with Memory() as memory:
        ran = subprocess.run(words_of(folder, name, tries, *more), stdout=subprocess.PIPE, stderr=subprocess.PIPE,
                             text=True, check=False)
    seconds, after = time.monotonic() - began, resource.getrusage(resource.RUSAGE_CHILDREN)
    found = mark(os.path.join(folder, f"{name}.csv")) if ran.returncode in (0, LEFT_OUT) else ran.stderr[-300:]
    used = after.ru_utime + after.ru_stime - before.ru_utime - before.ru_stime
    print(
        f"{' '.join(more)}: status {ran.returncode}, {seconds:.1f} s, {used:.1f} s of processors (without those of "
        f"Slurm's workers), {memory.most} MB, of one process {after.ru_maxrss // 1024} MB, at work before: {load:.0f}; "
        f"{found}; {ran.stdout.strip()}", flush=True
    )
    return found


def tries_of(folder: str, seconds: str) -> int:
    """Half of the fewest tries that plans of these seconds came to, one by each engine, since other machines and other
    days are slower."""
    tried = []
    for number, engine in enumerate(ENGINES):
        planned(folder, f"timed{number}", 0, *engine, "--seconds", seconds)
        with open(os.path.join(folder, f"timed{number}.csv.region", "state.json"), encoding="utf-8") as file:
            tried.append(int(json.load(file)["tried"]))
    print(f"tries of {seconds} seconds: {', '.join(f'{tries:,}' for tries in tried)}", flush=True)
    return min(tried) // 2


def killed(folder: str, tries: int, known: str) -> None:
    """Runs that are ended at moments taken at random go on to the same plan."""
    rng = random.Random(8)
    kinds = ["parent", "worker", "job", "disk", "parent", "worker", "job", "parent", "disk", "worker"]
    for number, kind in enumerate(kinds):
        name = f"killed{number}"
        engine = ENGINES[2] if kind == "job" else ENGINES[0]
        place = os.path.join(folder, f"{name}.region")
        if kind == "disk":
            os.makedirs(place)
            run("mount", "-t", "tmpfs", "-o", f"size={rng.randrange(60, 260)}k", "none", place)
        more = [*engine, "--quiet", "--folder", place]
        began = time.monotonic()
        process = subprocess.Popen(words_of(folder, name, tries, *more), stdout=subprocess.PIPE,
                                   stderr=subprocess.PIPE, text=True)
        moment = rng.uniform(1, 6)
        struck = strike(kind, process, moment)
        said = process.communicate()[1].strip().splitlines()[-1:]
        status = process.returncode
        if kind == "disk":
            said = [line.replace(folder, "FOLDER") for line in said]
            run("mount", "-o", "remount,size=64m", place)
        more = [*ENGINES[0], "--quiet", "--folder", place, "--resume"]
        if status:
            run(*words_of(folder, name, tries, *more))
        path = os.path.join(folder, f"{name}.csv")
        same = os.path.exists(path) and mark(path) == known
        if kind == "disk":
            run("umount", place)
        print(
            f"{kind} {struck}: status {status} {' '.join(said)[:150]}; {'went on' if status else 'ended by itself'}, "
            f"{'the same plan' if same else 'ANOTHER PLAN'}, {time.monotonic() - began:.1f} s", flush=True
        )


def strike(kind: str, process: "subprocess.Popen[str]", moment: float) -> str:
    """Kills what is to be killed after some seconds; what was struck."""
    time.sleep(moment)
    if kind == "parent":
        process.send_signal(signal.SIGKILL)
    elif kind == "worker":
        found: Optional[int] = None
        for _ in range(200):
            found = child_of(process.pid)
            if found:
                with contextlib.suppress(ProcessLookupError):  # It has just ended.
                    os.kill(found, signal.SIGKILL)
                break
            time.sleep(0.02)
    elif kind == "job":
        for _ in range(300):
            jobs = run("squeue", "--noheader", "--states=running", "--array", "--format=%i").stdout.split()
            if jobs:
                run("scancel", jobs[0])
                break
            time.sleep(0.1)
    else:
        return "full"
    return f"killed after {moment:.1f} s"


def child_of(parent: int) -> Optional[int]:
    """A search that a process has started."""
    lines = run("ps", "-eo", "pid,ppid,comm").stdout.splitlines()[1:]
    rows = [line.split() for line in lines]
    return next((int(pid) for pid, owner, name, *_ in rows if int(owner) == parent and name.startswith("vr_")), None)


def main(words: Sequence[str]) -> None:
    """Tries all, and ends what it started."""
    visits, amount = int(words[0]) if words else 600, words[1] if len(words) > 1 else "3e8"
    os.environ["PYTHONPATH"] = TOP
    os.environ["VR_CLI"] = os.path.abspath(find())
    with tempfile.TemporaryDirectory() as folder:
        write_tables(made_region(visits), os.path.join(folder, "places.csv"), os.path.join(folder, "vans.csv"))
        try:
            start_slurm(folder)
            seconds = amount[:-1] if amount.endswith("s") else ""
            tries = tries_of(folder, seconds) if seconds else int(float(amount))
            known = compare_engines(folder, tries)
            same = ["--seconds", seconds] if seconds else []
            planned(folder, "alone", 0 if seconds else tries, *ENGINES[0], "--no-seams", *same)
            if visits <= 1000:
                killed(folder, tries, known)
            write(os.path.join(folder, "end"), "")
        finally:
            for end in reversed(STOPS):
                end()
            time.sleep(2)
            shutil.rmtree(os.path.join(folder, "spool"), ignore_errors=True)


if __name__ == "__main__":
    main(sys.argv[1:])
