"""Workers that Slurm has started, which take parts from a folder that all nodes see.

Slurm starts few tasks at a time and takes seconds for each, so a job array is asked for workers, once: each takes a
part by a rename, which only one can do, solves it, and hands the answer in by another rename. Workers end by
themselves after a minute without work. What a worker that is gone had taken is given out again.
"""

from __future__ import annotations

import os
import shlex
import subprocess
import time
from typing import Dict, Sequence, Set

from ..engines import Answer, EngineFailed, answer_of, last_of, results, started, work_of
from .crew import Answers, Searcher, TextOf

__all__ = ["SlurmCrew"]

IDLE = 60
"""After this many seconds without work a worker ends."""
LOOK = 0.1
"""How many seconds pass between two looks into the folder."""
ASK = 5.0
"""How many seconds pass between two questions to Slurm which workers are at work."""
STARTS = 3
"""How often workers are asked for where all of them are gone."""
WORKER = """#!/bin/sh
#SBATCH --job-name=jambulskeg
#SBATCH --array=1-{jobs}
#SBATCH --ntasks=1
#SBATCH --output=/dev/null
cd {folder} || exit 1
me=$SLURM_ARRAY_JOB_ID-$SLURM_ARRAY_TASK_ID
for old in taken/*.$me; do
    [ -e "$old" ] && {{ name=${{old##*/}}; mv "$old" "open/${{name%.$me}}"; }}
done
idle=0
while [ ! -e end ] && [ $idle -lt {rests} ]; do
    for task in open/*; do
        name=${{task##*/}}
        mv "$task" "taken/$name.$me" 2>/dev/null || continue
        idle=0
        {{ {work}; }} < "taken/$name.$me" > "taken/$name.$me.part"
        mv "taken/$name.$me.part" "done/$name"
        rm -f "taken/$name.$me"
    done
    idle=$((idle + 1))
    sleep {look}
done
"""


class SlurmCrew:
    """A job array of `jobs` workers, begun with the first parts and ended by `close`.

    `folder`, new or empty, is one that every node sees at the same path, and the searcher too; `options` are further
    words of sbatch.
    """

    def __init__(self, jobs: int, searcher: Searcher, options: Sequence[str], folder: str) -> None:
        self.searcher = searcher
        self._jobs, self._options = max(1, jobs), list(options)
        self._folder = os.path.abspath(folder)
        self._job, self._starts, self._given = "", 0, 0

    def each(self, count: int, text_of: TextOf) -> Answers:
        """The number of each part and its answer, as they come. Raises `EngineFailed` where Slurm keeps no worker."""
        for name in ("open", "taken", "done", "new"):
            os.makedirs(os.path.join(self._folder, name), exist_ok=True)
        first = self._given
        self._given += count
        waiting: Dict[str, int] = {}
        for at in range(count):
            waiting[f"{first + at:08}"] = at
            self._give(f"{first + at:08}", text_of(at))
        asked = time.monotonic() if self._job else 0.0
        while waiting:
            came = sorted(waiting.keys() & set(os.listdir(self._path("done"))))
            for name in came:
                yield waiting.pop(name), self._answer(name)
            if time.monotonic() - asked >= ASK:
                self._look_after(set(waiting))
                asked = time.monotonic()
            if not came:
                time.sleep(LOOK)

    def close(self) -> None:
        """Ends the workers."""
        if self._job:
            with open(self._path("end"), "w", encoding="ascii"):
                pass
            ran("scancel", self._job)
            self._job = ""

    def _path(self, *names: str) -> str:
        return os.path.join(self._folder, *names)

    def _give(self, name: str, text: str) -> None:
        """Gives out a part: it is there as a whole or not at all."""
        with open(self._path("new", name), "w", encoding="utf-8") as file:
            file.write(text)
        os.replace(self._path("new", name), self._path("open", name))

    def _answer(self, name: str) -> Answer:
        """The answer that was handed in for a part."""
        with open(self._path("done", name), encoding="utf-8", errors="replace") as file:
            found = results(file.read())
        os.unlink(self._path("done", name))
        task = int(name)
        return answer_of(found, task, "a worker of Slurm handed in half an answer")

    def _look_after(self, waiting: Set[str]) -> None:
        """Gives out again what workers had taken that are gone, and asks for workers where none is left."""
        alive = self._alive()
        for entry in sorted(os.listdir(self._path("taken"))):
            name, _, rest = entry.partition(".")
            if name in waiting and not rest.endswith(".part") and rest not in alive:
                try:
                    os.replace(self._path("taken", entry), self._path("open", name))
                except FileNotFoundError:
                    continue  # It was handed in just now.
        if not alive:
            self._start()

    def _alive(self) -> Set[str]:
        """The workers that run or wait for their turn, as they call themselves."""
        if not self._job:
            return set()
        asked = ran("squeue", "--noheader", "--array", "--format=%F-%K", "--jobs", self._job)
        return set(asked.stdout.split()) if not asked.returncode else set()

    def _start(self) -> None:
        """Asks Slurm for the workers. Raises `EngineFailed` where it takes no job, or they were gone too often."""
        if self._starts == STARTS:
            raise EngineFailed(f"Slurm ended all workers {STARTS} times before their parts were solved")
        path = self._path("worker.sh")
        with open(path, "w", encoding="utf-8") as file:
            file.write(self._script())
        asked = ran("sbatch", "--parsable", *self._options, path, folder=self._folder)
        self._job = asked.stdout.strip().split(";")[0]
        if not self._job:
            raise EngineFailed(f"sbatch took no job; it said: {last_of(asked.stderr)}")
        self._starts += 1

    def _script(self) -> str:
        """The script of a worker."""
        work = work_of(self.searcher.path, '"$((1$name - 100000000))"')
        return WORKER.format(
            jobs=self._jobs, folder=shlex.quote(self._folder), rests=int(IDLE / LOOK), look=LOOK, work=work
        )


def ran(*words: str, folder: str = ".") -> "subprocess.CompletedProcess[str]":
    """A command that has run to its end. Raises `EngineFailed` where there is no such program."""
    process = started(words, folder)
    with process:
        out, errors = process.communicate()
    return subprocess.CompletedProcess(words, process.returncode, out, errors)
