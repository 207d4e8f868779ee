"""Finding a program, running it, and telling its statuses apart as exceptions; `find` finds vr_cli."""

from __future__ import annotations

import json
import os
import shutil
import subprocess
import time
from dataclasses import dataclass
from threading import Event, Thread
from typing import IO, Any, Dict, List, Optional, Sequence, Tuple, Type, Union

from .errors import (
    DeviceFailed, Fault, JambulskegError, NoFirstSolution, NoMemory, NotJson, NotMet, ProgramFailed, ProgramKilled,
    ProgramMissing, ProgramSlow, Refused, Stopped, TooLong, WrongArgument,
)

__all__ = ["BESIDE", "Program", "ProgramLike", "find", "program_of", "sought"]

NAME = "vr_cli"
VARIABLE = "VR_CLI"
TICK = 0.05
"""How many seconds pass at most until a process is ended that is to stop."""
LONGEST_WAIT = 3600.0
"""How many seconds are waited for a process at a time: the operating system takes no more than some days."""
REPOSITORY = os.path.dirname(os.path.dirname(os.path.dirname(os.path.abspath(__file__))))


def in_repository(name: str) -> Tuple[str, str]:
    """Where a program lies in the repository that this package belongs to: as it is handed out, and as it is built."""
    return (
        os.path.join(REPOSITORY, "release", "x86_64-linux", name),
        os.path.join(REPOSITORY, "crates", name, "out", name),
    )


BESIDE = in_repository(NAME)
"""Where vr_cli lies in the repository."""

PLAIN: Dict[int, Tuple[Type[JambulskegError], str]] = {
    1: (ProgramFailed, "the program does not know the words that it was called with; it is another version"),
    2: (DeviceFailed, "the program could not read its input"),
    3: (DeviceFailed, "the program could not write its answer"),
    4: (NotJson, "the input is no JSON text in UTF-8, or has a number that no reader takes"),
    6: (
        NoFirstSolution,
        "the construction found no first solution, which does not say that there is none; "
        "jambulskeg.rescue.rescue tries other constructions, and then penalties",
    ),
    7: (NoMemory, "the program was refused memory"),
    8: (TooLong, "the input has more than 67108864 bytes"),
    10: (ProgramFailed, "the operating system did not hand the program its words"),
}
"""What the statuses mean that need no look at the text."""


def find(path: Optional[str] = None) -> str:
    """The path of the program: `path`, else that of VR_CLI, else in the repository of this package, else on the path.

    Raises `ProgramMissing` with the places that were looked at, also if `path` or VR_CLI names no program, and
    `WrongArgument`.
    """
    return sought(NAME, VARIABLE, BESIDE, path)


def sought(name: str, variable: str, places: Sequence[str], path: Optional[str] = None) -> str:
    """The path of a program: `path`, else that of the variable, else the first of some places, else on the path. Raises
    as `find` does."""
    if path is not None and not is_path(path):
        raise WrongArgument("find", "path", path, "a path")
    named = os.fspath(path or "") or os.environ.get(variable)
    if named:
        found = shutil.which(named)
        if found is None:
            whose = "the path that was handed in" if path else f"the variable {variable}"
            raise ProgramMissing(f"{whose} names no program that can be run: {named}")
        return found
    for place in (*places, name):
        found = shutil.which(place)
        if found is not None:
            return found
    raise ProgramMissing(
        f"the program {name} was not found at {' or '.join(places)}, and not on the path; build it by ./vr in its "
        f"repository, or let the variable {variable} name it"
    )


def is_path(value: object) -> bool:
    """Whether a value may name a file or a folder."""
    return isinstance(value, (str, os.PathLike)) and "\0" not in os.fspath(value)


@dataclass(frozen=True)
class Program:
    """The built program at a path. It keeps no state: calls may be made side by side, from threads too."""

    path: str

    @classmethod
    def found(cls, path: Optional[str] = None) -> "Program":
        """The program that `find` finds."""
        return cls(find(path))

    def run(
        self, words: Sequence[str], text: Union[str, bytes] = "", seconds: Optional[float] = None,
        stop: Optional[Event] = None,
    ) -> str:
        """What the program writes when called with these words on this input.

        `seconds` is how long it may take. Raises `ProgramSlow` after that, and `Stopped` soon after `stop` is set.
        Raises `ProgramKilled` if a signal ended it, `ProgramFailed` if it could not be run, and else the exception of
        its status. The process is ended before anything is raised.
        """
        if not is_path(self.path):
            raise WrongArgument("Program", "path", self.path, "a path")
        command = [self.path, *words]
        data = text if isinstance(text, bytes) else text.encode("utf-8", "surrogatepass")
        try:
            process = subprocess.Popen(
                command, stdin=subprocess.PIPE, stdout=subprocess.PIPE, stderr=subprocess.PIPE
            )
        except OSError as problem:
            raise ProgramFailed(f"the program {self.path} could not be started: {problem.strerror}") from problem
        with process:
            try:
                out, errors = outputs_of(process, data, seconds, stop)
            except BaseException:
                process.kill()
                raise
        return answer(process.returncode, out, errors)

    def ask(
        self, words: Sequence[str], text: Union[str, bytes] = "", seconds: Optional[float] = None,
        stop: Optional[Event] = None,
    ) -> Any:
        """The JSON object in the first line of what the program writes. Raises as `run` does."""
        return tree_of(self.run(words, text, seconds, stop).split("\n", 1)[0])


def outputs_of(
    process: "subprocess.Popen[Any]", data: Any = None, seconds: Optional[float] = None, stop: Optional[Event] = None
) -> Tuple[Any, Any]:
    """What a process writes to its two outputs, its input being `data`. Raises `ProgramSlow` after some seconds, and
    `Stopped` soon after `stop` is set; the process runs on then."""
    end = None if seconds is None else time.monotonic() + seconds
    if data is not None:
        feed(process, data)
    while True:
        left = LONGEST_WAIT if end is None else min(max(0.0, end - time.monotonic()), LONGEST_WAIT)
        if stop is not None:
            left = min(left, TICK)
        try:
            return process.communicate(timeout=left)
        except subprocess.TimeoutExpired:
            pass
        if stop is not None and stop.is_set():
            raise Stopped()
        if end is not None and time.monotonic() >= end:
            raise ProgramSlow(seconds or 0)


def feed(process: "subprocess.Popen[Any]", data: Any) -> None:
    """Writes the input of a process: what the pipe holds at once, and the rest by a thread of its own. `communicate`
    would lose what is left of it, were it asked a second time."""
    stdin, process.stdin = process.stdin, None
    if stdin is None:
        return
    rest = after_pipe(stdin.fileno(), data)
    if rest:
        Thread(target=written, args=(stdin, rest), daemon=True).start()
    else:
        stdin.close()


def written(pipe: "IO[Any]", data: Any) -> None:
    """Writes all of some bytes to a pipe, and closes it."""
    try:
        with pipe:
            pipe.write(data)
    except OSError:
        pass  # The process has ended, and did not read all of it.


def after_pipe(pipe: int, data: bytes) -> bytes:
    """What is left of some bytes when a pipe has taken what it holds; it waits for nobody."""
    os.set_blocking(pipe, False)
    try:
        return data[os.write(pipe, data):]
    except OSError:
        return data  # The pipe is full, or nobody reads it.
    finally:
        os.set_blocking(pipe, True)


ProgramLike = Union[Program, str, None]


def program_of(given: ProgramLike) -> Program:
    """The program at hand: the one handed in, the one at a path, or the one that is found. Raises `WrongArgument`."""
    if given is not None and not isinstance(given, (Program, str, os.PathLike)):
        raise WrongArgument("program_of", "program", given, "a Program or the path of one")
    return given if isinstance(given, Program) else Program.found(given)


def tree_of(text: str) -> Any:
    """The value of a JSON text of the program. Raises `ProgramFailed` if it is none."""
    try:
        return json.loads(text)
    except ValueError:
        raise ProgramFailed(f"the program wrote no JSON: {text[:80]!r}") from None


def answer(status: int, out: bytes, errors: bytes) -> str:
    """The text of a run that went well. Raises the exception of its status."""
    if status < 0:
        raise ProgramKilled(-status)
    if status == 0:
        try:
            return out.decode("utf-8")
        except UnicodeDecodeError:
            raise ProgramFailed("the program wrote bytes that are no text in UTF-8") from None
    if status in PLAIN:
        kind, sentence = PLAIN[status]
        raise kind(sentence)
    raise exception_of(status, out, errors)


def exception_of(status: int, out: bytes, errors: bytes) -> JambulskegError:
    """The exception of a status whose text says more: 5 a refusal, 9 a broken rule; else the run failed."""
    try:
        tree: Dict[str, Any] = json.loads(out)
        if status == 5:
            return Refused(Fault(int(tree["code"]), str(tree["path"])))
        if status == 9:
            return NotMet(str(tree["rule"]), int(tree["vehicle"]), int(tree["place"]))
    except (ValueError, KeyError, TypeError):
        pass
    last = errors.decode("utf-8", "replace").strip().splitlines()[-1:] or ["nothing on standard error"]
    return ProgramFailed(f"the program ended with status {status}, which it does not have; it said: {last[0]}")


def lines_of(text: str) -> List[str]:
    """The lines of what the program wrote."""
    return text.splitlines()
