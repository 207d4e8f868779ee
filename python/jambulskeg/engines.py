"""Where searches run side by side: in processes of this machine, by GNU parallel, or as a job array of Slurm.

Each engine takes models and gives for each, in their order, the program's solution or what went wrong. A `Question` in
place of a model is one of vr_refine. Every search is a process of its own, and deterministic, so the answers do not
depend on where or when it runs.
"""

from __future__ import annotations

import os
import re
import shlex
import shutil
import subprocess
import tempfile
import time
from concurrent.futures import FIRST_COMPLETED, Future, ThreadPoolExecutor, wait
from contextlib import contextmanager
from dataclasses import dataclass
from threading import Event
from typing import (
    IO, Callable, Dict, Iterable, Iterator, List, Optional, Protocol, Sequence, Set, Tuple, TypeVar, Union,
    runtime_checkable,
)

from .arguments import A_COUNT, asks
from .errors import JambulskegError, ProgramFailed, ProgramSlow, Stopped, WrongArgument
from .model import Model, Solution, solution_of, solve
from .program import TICK, Program, ProgramLike, answer, outputs_of, program_of, tree_of
from .refine import QUESTIONS, Question, at_hand

__all__ = [
    "Answer", "Engine", "EngineFailed", "GnuParallel", "OwnProcesses", "Slurm", "Task", "TellingEngine", "Told",
]

T = TypeVar("T")
Answer = Union[Solution, JambulskegError]
Task = Union[Model, Question]
"""What is searched: a model, or a question of vr_refine."""
Told = Callable[[int, Answer], None]
"""What is told of each search that has ended: its place in the list, and its answer. It may be called by any thread."""
LOOKS = 1.0
"""How many seconds pass between two looks at which tasks of another program have ended."""
MOST_TASKS = 1000
"""The most tasks of one job array; Slurm takes 1001 if its operator says nothing else."""
LATE_FILES = 30.0
"""How many seconds results may come after their job, as on file systems of a network."""
Results = Dict[int, Tuple[int, str]]
"""The status and the text of tasks by their numbers."""
RESULT = re.compile(r"^(.*)\n*\nstatus (\d+) (\d+)$", re.MULTILINE)


class EngineFailed(JambulskegError):
    """An engine is missing, or ended before all its tasks had."""


class Engine(Protocol):
    """What runs searches."""

    def run(self, models: Sequence[Model], stop: Optional[Event] = None) -> List[Answer]:
        """For each model its solution, or the exception that `solve` would raise; `Stopped` for those that had not
        ended when `stop` was set."""


@runtime_checkable
class TellingEngine(Protocol):
    """An engine that tells of each search as it ends, and may have a vr_refine."""

    def run_all(
        self, tasks: Sequence[Task], stop: Optional[Event] = None, told: Optional[Told] = None
    ) -> List[Answer]:
        """As `Engine.run`, with questions of vr_refine too; `told` is called as searches end."""

    def has_refiner(self) -> bool:
        """Whether it can ask vr_refine for ruin and recreate."""


@dataclass(frozen=True)
class OwnProcesses:
    """At most `jobs` processes of this machine at a time."""

    jobs: int = 1
    program: ProgramLike = None

    def __post_init__(self) -> None:
        look_at_jobs(self)

    def has_refiner(self) -> bool:
        """Whether a vr_refine belongs to the program."""
        return at_hand(self.program) is not None

    def run(self, models: Sequence[Task], stop: Optional[Event] = None) -> List[Answer]:
        """For each model its solution, or the exception that `solve` would raise. No process is left, however it ends.
        """
        return self.run_all(models, stop)

    @asks(tasks=QUESTIONS)
    def run_all(
        self, tasks: Sequence[Task], stop: Optional[Event] = None, told: Optional[Told] = None
    ) -> List[Answer]:
        """The same, and `told` is called as searches end."""
        found, ended = program_of(self.program), stop or Event()

        def one(number: int) -> Answer:
            answered = solved(tasks[number], found, ended)
            if told is not None:
                told(number, answered)
            return answered

        pool = ThreadPoolExecutor(max_workers=max(1, self.jobs))
        try:
            searches = [pool.submit(one, number) for number in range(len(tasks))]
            for search in each_ended(searches):
                search.result()
            return [search.result() for search in searches]
        except BaseException:
            ended.set()
            raise
        finally:
            pool.shutdown(wait=True, cancel_futures=True)


def each_ended(tasks: "Iterable[Future[T]]") -> "Iterator[Future[T]]":
    """Tasks of threads, as they end. Waits are short: Python may see a signal only after the wait that it meets."""
    left = set(tasks)
    while left:
        ended, left = wait(left, timeout=TICK, return_when=FIRST_COMPLETED)
        yield from ended


def look_at_jobs(engine: "Union[OwnProcesses, GnuParallel, Slurm]") -> None:
    """Raises `WrongArgument` if an engine is to run no searches at a time, or the number is none."""
    wanted = A_COUNT(engine.jobs)
    if wanted:
        raise WrongArgument(type(engine).__name__, "jobs", engine.jobs, wanted)


def solved(task: Task, program: Program, stop: Event) -> Answer:
    """The solution of a model or a question, or what `solve` raises."""
    try:
        if stop.is_set():
            return Stopped()
        if isinstance(task, Question):
            return task.answer("solve", at_hand(program), checked=False, stop=stop)
        return solve(task, program, checked=False, stop=stop)
    except JambulskegError as problem:
        return problem


@dataclass(frozen=True)
class GnuParallel:
    """GNU parallel with at most `jobs` tasks at a time on each machine.

    `sshlogins` are its `--sshlogin` words (`:` is this machine), `options` further words of its own. Models go to the
    tasks, and answers come back, by their pipes, so machines need no common files. The program lies at the same path
    everywhere, or `program` is a name that is on the path there. So it is with vr_refine and `refiner`; if `program` is
    named and `refiner` is not, nothing is refined.
    """

    jobs: int = 1
    program: str = ""
    sshlogins: Sequence[str] = ()
    options: Sequence[str] = ()
    refiner: str = ""

    def __post_init__(self) -> None:
        look_at_jobs(self)

    def has_refiner(self) -> bool:
        """Whether a vr_refine is named, or belongs to the program that is found."""
        return bool(refiner_of(self))

    def run(self, models: Sequence[Task], stop: Optional[Event] = None) -> List[Answer]:
        """For each model its solution, or the exception that `solve` would raise."""
        return self.run_all(models, stop)

    @asks(tasks=QUESTIONS)
    def run_all(
        self, tasks: Sequence[Task], stop: Optional[Event] = None, told: Optional[Told] = None
    ) -> List[Answer]:
        """The same, and `told` is called soon after searches end."""
        with tempfile.TemporaryFile("w+", encoding="utf-8") as texts:
            longest = 0
            for task in tasks:
                longest = max(longest, texts.write(task.text() + "\n"))
            texts.seek(0)
            words = self.words(longest, questions_of(tasks, 1))
            out, errors = self.called(words, texts, stop, Tellings(told, 1))
        found = results(out)
        return [answer_of(found, task, errors, stop) for task in range(1, len(tasks) + 1)]

    def called(
        self, words: Sequence[str], texts: IO[str], stop: Optional[Event], tellings: "Tellings"
    ) -> Tuple[str, str]:
        """What GNU parallel wrote to its two outputs; it is ended if this process is stopped."""
        with tempfile.TemporaryFile("w+", encoding="utf-8") as out:
            process = started(words, os.getcwd(), texts, out=out)
            with process:
                try:
                    errors: str = waited(process, stop, lambda: tellings.look(results(whole_text(out))))
                except BaseException as problem:
                    stop_twice(process)
                    if not isinstance(problem, Stopped):
                        raise
                    errors = process.communicate()[1]
            text = whole_text(out)
            tellings.look(results(text))
            return text, errors

    def words(self, longest: int, questions: Sequence[int] = ()) -> List[str]:
        """The call, for tasks whose texts have at most this many characters; the numbers of those for vr_refine."""
        logins = [word for login in self.sshlogins for word in ("--sshlogin", login)]
        block = str(max(longest + 1, 2**20))
        return [
            "parallel", "--will-cite", "--jobs", str(self.jobs), "--pipe", "-N1", "--block", block, *logins,
            *self.options, work_of(self.program, "{#}", refiner_of(self), questions),
        ]


@dataclass(frozen=True)
class Slurm:
    """Slurm: a job array, a task for each model, at most `jobs` of them at a time; results come by files.

    `folder`, new or empty, keeps the files; without it they lie in this folder for a while. Either way every node sees
    it at the same path, and the program too. `options` are further words of sbatch, such as `--partition=long`. If
    `program` is named and `refiner`, the path of vr_refine, is not, nothing is refined.
    """

    jobs: int = 1
    program: str = ""
    options: Sequence[str] = ()
    folder: Optional[str] = None
    refiner: str = ""

    def __post_init__(self) -> None:
        look_at_jobs(self)

    def has_refiner(self) -> bool:
        """Whether a vr_refine is named, or belongs to the program that is found."""
        return bool(refiner_of(self))

    def run(self, models: Sequence[Task], stop: Optional[Event] = None) -> List[Answer]:
        """For each model its solution, or the exception that `solve` would raise."""
        return self.run_all(models, stop)

    @asks(tasks=QUESTIONS)
    def run_all(
        self, tasks: Sequence[Task], stop: Optional[Event] = None, told: Optional[Told] = None
    ) -> List[Answer]:
        """The same, and `told` is called soon after searches end."""
        with working_folder(self.folder) as folder:
            for number, task in enumerate(tasks):
                with open(os.path.join(folder, f"{number}.json"), "w", encoding="utf-8") as file:
                    file.write(task.text())
            errors, tellings, refined = "", Tellings(told, 0), questions_of(tasks, 0)
            for begin in range(0, len(tasks), MOST_TASKS):
                if stop is None or not stop.is_set():
                    numbers = range(begin, min(begin + MOST_TASKS, len(tasks)))
                    errors += self.submit(folder, numbers, refined, stop, tellings)
            end = time.monotonic() + (0 if stop is not None and stop.is_set() else LATE_FILES)
            return [answer_of(results_of(folder, task, end), task, errors, stop) for task in range(len(tasks))]

    def submit(
        self, folder: str, numbers: range, refined: Sequence[int] = (), stop: Optional[Event] = None,
        tellings: "Optional[Tellings]" = None,
    ) -> str:
        """Runs a job array over some of the tasks, to its end; what sbatch said of it."""
        path = os.path.join(folder, f"job-{numbers.start}.sh")
        with open(path, "w", encoding="utf-8") as file:
            file.write(self.script(folder, numbers.start, len(numbers), refined))
        command = ["sbatch", "--parsable", "--wait", *self.options, path]
        looks = tellings or Tellings(None, 0)
        process = started(command, folder)
        with process:
            job = (process.stdout.readline() if process.stdout else "").strip().split(";")[0]
            try:
                errors = waited(process, stop, lambda: looks.look_in(folder, numbers))
            except BaseException as problem:
                with started(["scancel", job], folder) as ending:
                    ending.communicate()
                if not isinstance(problem, Stopped):
                    raise
                errors = process.communicate()[1]
        if not job:
            raise EngineFailed(f"sbatch took no job; it said: {last_of(errors)}")
        looks.look_in(folder, numbers)
        return errors

    def script(self, folder: str, begin: int, tasks: int, refined: Sequence[int] = ()) -> str:
        """The script of a job array; the numbers of tasks for vr_refine."""
        return (
            f"#!/bin/sh\n#SBATCH --job-name=jambulskeg\n#SBATCH --array=0-{tasks - 1}%{self.jobs}\n"
            "#SBATCH --ntasks=1\n#SBATCH --output=/dev/null\n"
            f"cd {shlex.quote(folder)} || exit 1\n"
            f"task=$((SLURM_ARRAY_TASK_ID + {begin}))\n"
            f"{{ {work_of(self.program, '$task', refiner_of(self), refined)}; }} < $task.json > $task.result\n"
        )


class Tellings:
    """Which searches of another program were told of; its first task has the number `first`."""

    def __init__(self, told: Optional[Told], first: int) -> None:
        self._told, self._first = told, first
        self._known: Set[int] = set()

    def look(self, found: Results) -> None:
        """Tells of each result that was not told yet."""
        told = self._told
        if told is None:
            return
        for number in sorted(set(found) - self._known):
            self._known.add(number)
            told(number - self._first, answer_of(found, number, ""))

    def look_in(self, folder: str, numbers: range) -> None:
        """The same of results that are files."""
        for number in numbers if self._told is not None else ():
            if number not in self._known:
                self.look(results_of(folder, number, 0))


def waited(process: "subprocess.Popen[str]", stop: Optional[Event], look: Callable[[], None]) -> str:
    """What a process says on its standard error until it ends; `look` is called now and then. Raises `Stopped`."""
    while True:
        try:
            errors: str = outputs_of(process, seconds=LOOKS, stop=stop)[1]
            return errors
        except ProgramSlow:
            look()


def whole_text(file: IO[str]) -> str:
    """What another process has written to a file until now, which goes on where it was."""
    data, number = b"", file.fileno()
    while True:
        piece = os.pread(number, 2**24, len(data))
        if not piece:
            return data.decode("utf-8", "replace")
        data += piece


def questions_of(tasks: Sequence[Task], first: int) -> List[int]:
    """The numbers of the tasks that are for vr_refine; the first of all has the number `first`."""
    return [number for number, task in enumerate(tasks, first) if isinstance(task, Question)]


def refiner_of(engine: "Union[GnuParallel, Slurm]") -> str:
    """The path of vr_refine where an engine runs tasks; none if there is none."""
    found = None if engine.refiner or engine.program else at_hand()
    return engine.refiner or (found.path if found is not None else "")


def work_of(program: str, task: str, refiner: str = "", refined: Sequence[int] = ()) -> str:
    """The shell's line of a task: the program's answer, then a line with the number of the task and the status. The
    tasks of the numbers `refined` are for vr_refine."""
    call = f"{shlex.quote(program or program_of(None).path)} solve"
    if refined:
        numbers = "|".join(map(str, refined))
        call = f"case {task} in {numbers}) {shlex.quote(refiner)} solve ;; *) {call} ;; esac"
    return f"{call}; printf '\\nstatus %s %s\\n' {task} $?"


@contextmanager
def working_folder(asked: Optional[str]) -> Iterator[str]:
    """The folder that was asked for, which stays, or one that goes at the end. Raises `EngineFailed` if the former
    has files, since old results would be taken for new ones."""
    if asked is None:
        folder = tempfile.mkdtemp(prefix="jambulskeg-", dir=os.getcwd())
        try:
            yield folder
        finally:
            shutil.rmtree(folder, ignore_errors=True)
        return
    os.makedirs(asked, exist_ok=True)
    if os.listdir(asked):
        raise EngineFailed(f"the folder {asked} is not empty; results of an earlier run may lie there")
    yield os.path.abspath(asked)


def started(
    command: Sequence[str], folder: str, text: Optional[IO[str]] = None, errors: Optional[IO[str]] = None,
    out: Optional[IO[str]] = None,
) -> "subprocess.Popen[str]":
    """A process in a folder, that reads a file, and writes its answer and what it says of itself to files or to pipes.
    Raises `EngineFailed` if there is no such program."""
    try:
        return subprocess.Popen(
            command, cwd=folder, stdin=text or subprocess.DEVNULL, stdout=out or subprocess.PIPE,
            stderr=errors or subprocess.PIPE, text=True, encoding="utf-8", errors="replace",
        )
    except OSError as problem:
        raise EngineFailed(f"'{command[0]}' could not be started: {problem.strerror}") from problem


def stop_twice(process: "subprocess.Popen[str]") -> None:
    """Ends GNU parallel: at the first signal it starts nothing more, at the second it ends what runs."""
    for _ in range(2):
        process.terminate()
        time.sleep(0.5)


def last_of(errors: str) -> str:
    """The last line of what a process said."""
    return (errors.strip().splitlines()[-1:] or ["nothing"])[0]


def results(out: str) -> Results:
    """What tasks wrote, by their numbers."""
    return {int(task): (int(status), text) for text, task, status in RESULT.findall(out)}


def results_of(folder: str, task: int, end: float) -> Results:
    """What a task wrote to its file, which is waited for until `end`."""
    while True:
        try:
            with open(os.path.join(folder, f"{task}.result"), encoding="utf-8", errors="replace") as file:
                found = results(file.read())
        except OSError:
            found = {}
        if found or time.monotonic() >= end:
            return found
        time.sleep(0.2)


def answer_of(found: Results, task: int, errors: str, stop: Optional[Event] = None) -> Answer:
    """The solution of a task, or the exception of its status. Raises `EngineFailed` if it wrote nothing."""
    is_stopped = stop is not None and stop.is_set()
    if is_stopped and (task not in found or found[task][0] > 128):
        return Stopped()
    if task not in found:
        raise EngineFailed(f"a task has no result (number {task}); the engine said: {last_of(errors)}")
    status, text = found[task]
    if status in (126, 127):
        return ProgramFailed(f"where the task was run the program could not be started (status {status} of the shell)")
    try:
        out = answer(128 - status if status > 128 else status, text.encode("utf-8"), b"")
        return solution_of(tree_of(out.split("\n", 1)[0]))
    except JambulskegError as problem:
        return problem
