"""Who solves the parts of a round: processes of this machine, GNU parallel, or workers that Slurm has started.

All of them run one program, the searcher. A crew hands out each answer as it comes, so that it is kept at once;
`engines`, which it uses, waits for all.
"""

from __future__ import annotations

import os
import tempfile
from concurrent.futures import ThreadPoolExecutor
from dataclasses import dataclass, field
from threading import Event
from typing import IO, Callable, Generator, List, Protocol, Sequence, Tuple

from ..engines import (
    Answer, EngineFailed, GnuParallel, answer_of, each_ended, last_of, results, started, stop_twice,
)
from ..errors import JambulskegError, Stopped
from ..model import solution_of
from ..program import Program, ProgramLike, program_of
from ..refine import at_hand

__all__ = ["Answers", "Crew", "OwnCrew", "ParallelCrew", "Searcher", "TextOf"]

Answers = Generator[Tuple[int, Answer], None, None]
"""The numbers of parts and their answers, as they come."""
TextOf = Callable[[int], str]
"""What the searcher is given for the part of a number, made when it is asked for."""


@dataclass(frozen=True)
class Searcher:
    """The program that searches parts, at its path on the machines of the crew: vr_refine, which goes on from the
    routes as they are (`refines`), or vr_cli, which begins anew."""

    path: str
    refines: bool = False

    @classmethod
    def found(cls, program: ProgramLike = None) -> "Searcher":
        """The vr_refine that belongs to a vr_cli, or else that vr_cli itself. Raises `ProgramMissing`."""
        refining = at_hand(program)
        return cls(os.path.abspath((refining or program_of(program)).path), refining is not None)


class Crew(Protocol):
    """What solves parts side by side."""

    @property
    def searcher(self) -> Searcher:
        """The program that the crew runs."""

    def each(self, count: int, text_of: TextOf) -> Answers:
        """The number of each of `count` parts and its answer, as they come. Raises `EngineFailed` where the crew
        itself fails; the answers before that hold."""

    def close(self) -> None:
        """Ends what the crew has started."""


@dataclass(frozen=True)
class OwnCrew:
    """At most `jobs` processes of this machine at a time."""

    jobs: int = 1
    searcher: Searcher = field(default_factory=Searcher.found)

    def each(self, count: int, text_of: TextOf) -> Answers:
        """The number of each part and its answer, as they come."""
        found = Program(self.searcher.path)
        pool, stop = ThreadPoolExecutor(max_workers=max(1, self.jobs)), Event()
        try:
            tasks = {pool.submit(lambda at: searched(text_of(at), found, stop), at): at for at in range(count)}
            for task in each_ended(tasks):
                yield tasks[task], task.result()
        finally:
            stop.set()
            pool.shutdown(wait=True, cancel_futures=True)

    def close(self) -> None:
        """Nothing is left to end."""


def searched(text: str, program: Program, stop: Event) -> Answer:
    """The searcher's answer to a text, or what it raises."""
    try:
        return Stopped() if stop.is_set() else solution_of(program.ask(["solve"], text, stop=stop))
    except JambulskegError as problem:
        return problem


@dataclass(frozen=True)
class ParallelCrew:
    """GNU parallel, called once for each round: at most `jobs` parts at a time on each machine, those of `sshlogins`,
    with further words of its own."""

    jobs: int
    searcher: Searcher
    sshlogins: Sequence[str] = ()
    options: Sequence[str] = ()

    def each(self, count: int, text_of: TextOf) -> Answers:
        """The number of each part and its answer, as they come. Raises `EngineFailed` where some have no answer."""
        with tempfile.TemporaryFile("w+", encoding="utf-8") as texts, tempfile.TemporaryFile("w+") as errors:
            longest = max(texts.write(text_of(at) + "\n") for at in range(count))
            texts.seek(0)
            seen = set()
            for at, answer in self._answers(longest, texts, errors):
                seen.add(at)
                yield at, answer
            if len(seen) < count:
                errors.seek(0)
                raise EngineFailed(
                    f"{count - len(seen)} of {count} parts have no result; GNU parallel said: "
                    f"{last_of(errors.read())}"
                )

    def _answers(self, longest: int, texts: IO[str], errors: IO[str]) -> Answers:
        """What GNU parallel writes, task by task; it is ended where this process is stopped."""
        engine = GnuParallel(self.jobs, self.searcher.path, self.sshlogins, self.options)
        process = started(engine.words(longest), os.getcwd(), texts, errors)
        with process:
            try:
                lines: List[str] = []
                for line in process.stdout or ():
                    lines.append(line)
                    if line.startswith("status "):
                        for task in (found := results("".join(lines).rstrip("\n"))):
                            yield task - 1, answer_of(found, task, "")
                        lines.clear()
            except BaseException:
                stop_twice(process)
                raise

    def close(self) -> None:
        """Nothing is left to end."""
