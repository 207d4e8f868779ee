"""Everything that can go wrong, as exceptions with a sentence; those of the program carry its status, code and path."""

from __future__ import annotations

import signal
from dataclasses import dataclass
from typing import Optional

__all__ = [
    "CAUSES", "DeviceFailed", "Fault", "JambulskegError", "NoFirstSolution", "NoMemory", "NotJson", "NotMet",
    "ProgramFailed", "ProgramKilled", "ProgramMissing", "ProgramSlow", "Refused", "Stopped", "TooLong", "Unsupported",
    "WrongArgument",
]

CAUSES = {
    10: "a required field is absent",
    11: "the value is of another kind",
    12: "the number is not whole, or too large",
    13: "there is no such field",
    14: "the number is out of its range",
    15: "the list or text has another length than it may have",
    16: "the entry must be unlike the earlier ones",
    17: "the word is none of those that may stand here",
    18: "the node is a start or an end, and no visit",
    19: "the interval ends before it begins",
    20: "the cost matrix of a vehicle has a negative entry",
    21: "the matrix of an evaluator has an entry above 2^30",
    22: "a transit is negative in a dimension that has breaks or span costs",
    23: "SAVINGS asks for vehicles that are alike and for no allowed rows",
    40: "the line is none that may stand there",
    41: "the keyword or section stands a second time",
    42: "the word is none that the keyword may have",
    43: "the number is out of its range",
    44: "the node stood earlier in its section, or this is a second depot",
    45: "something is missing that must come earlier, or before the end of the file",
    46: "the demand of the depot is not 0",
}
"""The causes of refusal by code, as docs/FORMAT.md has them; from 40 on those of a TSPLIB file."""


class JambulskegError(Exception):
    """What this package raises: `str` gives one sentence that says what to mend."""


class ProgramMissing(JambulskegError):
    """The program, vr_cli or vr_refine, was found nowhere."""


class ProgramFailed(JambulskegError):
    """The program could not be started, or ended in a way that is none of its own."""


class ProgramKilled(ProgramFailed):
    """The program was ended by the signal `signal`."""

    def __init__(self, number: int) -> None:
        self.signal = number
        names = {entry.value: entry.name for entry in signal.Signals}
        super().__init__(f"the program was ended by the signal {names.get(number, number)}; it wrote no answer")


class ProgramSlow(JambulskegError):
    """The program took longer than the `seconds` that it was given, and was ended."""

    def __init__(self, seconds: float) -> None:
        self.seconds = seconds
        super().__init__(f"the program had no answer after {seconds:g} seconds and was ended; ask for fewer tries")


class Stopped(JambulskegError):
    """What was asked was stopped before it had an answer; `signal` is the number of the signal that did it, or 0."""

    def __init__(self) -> None:
        self.signal = 0
        super().__init__("stopped before there was an answer")


class NoMemory(JambulskegError):
    """Status 7: the program was refused memory."""


class DeviceFailed(JambulskegError):
    """Status 2 or 3: the program could not read its input or write its answer."""


class NotJson(JambulskegError, ValueError):
    """Status 4, or a file: the text is no JSON in UTF-8, nests too deep, or has a number that no reader takes."""


class TooLong(JambulskegError, ValueError):
    """Status 8: the input has more than 64 MiB."""


class NoFirstSolution(JambulskegError):
    """Status 6: the construction found no first solution; a solution may exist all the same."""


@dataclass(frozen=True)
class Fault:
    """A fault of a model or of a solution.

    `code` is one of `CAUSES`; `path` names the field: each key, and each place in a list from 0, after a `/`. Of a
    TSPLIB file it is the line after a `/`, and `/0` for the whole file.
    """

    code: int
    path: str
    detail: str = ""

    @property
    def sentence(self) -> str:
        """What is wrong, with the place."""
        what = self.detail or CAUSES.get(self.code, "the program refuses it")
        return f"{self.path}: {what} (code {self.code})"


class Refused(JambulskegError, ValueError):
    """Status 5, or a field that was found faulty before the program was asked: `code`, `path`, `sentence`.

    The path begins at the record that was made, or at the whole input of the program.
    """

    def __init__(self, fault: Fault, owner: str = "the input") -> None:
        self.fault = fault
        self.code, self.path = fault.code, fault.path
        self.sentence = owner + fault.sentence
        super().__init__(self.sentence)


class NotMet(JambulskegError):
    """Status 9: the solution breaks the rule `rule`; `vehicle` and `place` are -1 if they do not apply."""

    def __init__(self, rule: str, vehicle: int, place: int, why: Optional[str] = None) -> None:
        self.rule, self.vehicle, self.place = rule, vehicle, place
        at = "" if vehicle < 0 else f" of vehicle {vehicle}"
        at += "" if place < 0 else f" at place {place}"
        super().__init__(why or f"the solution breaks the rule '{rule}'{at}")


class WrongArgument(JambulskegError, TypeError, ValueError):
    """A call was given something else than it takes: the name of the `call`, and that of the `argument`."""

    def __init__(self, call: str, argument: str, value: object, wanted: str) -> None:
        self.call, self.argument = call, argument
        given = repr(value)
        given = given if len(given) <= 40 else f"{given[:37]}.."
        super().__init__(f"{call}: {argument} is {given} of the kind {type(value).__name__}, and not {wanted}")


class Unsupported(JambulskegError, NotImplementedError):
    """A name or a meaning of OR-Tools that cannot be had: `name` says which."""

    def __init__(self, name: str, why: str) -> None:
        self.name = name
        super().__init__(f"{name} cannot be had: {why}")
