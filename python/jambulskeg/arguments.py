"""What public calls may be given: a wrong argument is told by a sentence, and not by what happens to break.

    @asks(model=A_MODEL, seconds=either(A_LIMIT))
    def solve(model, seconds=None): ..
"""

from __future__ import annotations

import functools
import inspect
import math
import operator
from typing import Any, Callable, Mapping, Type, TypeVar, Union, cast

from .errors import WrongArgument
from .kinds import is_list
from .program import is_path
from .records import Model
from .solution import Solution

__all__ = [
    "A_COUNT", "A_FILE", "A_LIMIT", "A_MODEL", "A_PATH", "A_SOLUTION", "MODELS", "NUMBERS", "PAIRS", "ROUTES",
    "Rule", "a", "asks", "either", "number",
]

F = TypeVar("F", bound=Callable[..., Any])
Rule = Callable[[Any], str]
"""What is wanted in place of a value, in words; empty if the value will do."""


def asks(**rules: Rule) -> Callable[[F], F]:
    """A call that looks at its arguments first. Raises `WrongArgument`."""

    def with_rules(call: F) -> F:
        signature = inspect.signature(call)

        @functools.wraps(call)
        def inner(*given: Any, **named: Any) -> Any:
            for name, value in signature.bind(*given, **named).arguments.items():
                wanted = rules[name](value) if name in rules else ""
                if wanted:
                    raise WrongArgument(call.__name__, name, value, wanted)
            return call(*given, **named)

        return cast(F, inner)

    return with_rules


def a(kind: Type[Any], hint: str = "") -> Rule:
    """A value of a class."""
    return lambda value: "" if isinstance(value, kind) else f"a {kind.__name__}{hint}"


def either(rule: Rule) -> Rule:
    """None, or what a rule takes."""
    return lambda value: "" if value is None else rule(value)


def is_whole(value: Any) -> bool:
    """Whether a value is a whole number, also one of another library."""
    return hasattr(value, "__index__") and not isinstance(value, bool)


def number(low: int, high: Union[int, float] = math.inf) -> Rule:
    """A whole number from `low` to `high`."""
    words = f"a whole number of {low} or more" if high == math.inf else f"a whole number from {low} to {high}"
    return lambda value: "" if is_whole(value) and low <= operator.index(value) <= high else words


def limit(value: Any) -> str:
    """A number of seconds."""
    is_number = hasattr(value, "__float__") and not isinstance(value, bool)
    return "" if is_number and 0 <= float(value) < math.inf else "a number of seconds, 0 or more"


def path(value: Any) -> str:
    """A path of a file or a folder."""
    return "" if is_path(value) else "a path"


def numbers(value: Any) -> str:
    """Whole numbers."""
    return "" if is_list(value) and all(map(is_whole, value)) else "a list of whole numbers"


def pairs(value: Any) -> str:
    """Pairs of whole numbers."""
    is_well = is_list(value) and all(is_list(pair) and len(pair) == 2 and not numbers(pair) for pair in value)
    return "" if is_well else "pairs of whole numbers"


def routes(value: Any) -> str:
    """Visits of each vehicle, or a solution that has them."""
    is_well = isinstance(value, Solution) or is_list(value) and not any(map(numbers, value))
    return "" if is_well else "a solution, or for each vehicle a list of visits"


def models(value: Any) -> str:
    """Models by their names."""
    is_well = isinstance(value, Mapping) and all(isinstance(model, Model) for model in value.values())
    return "" if is_well else "models by their names"


A_MODEL = a(Model, "; Model.of(tree) makes one of JSON, read_model(path) reads one")
A_SOLUTION = a(Solution, "; Solution.of(tree) makes one of JSON, read_solution(path) reads one")
A_LIMIT: Rule = limit
A_COUNT = number(1)
A_PATH: Rule = path
A_FILE: Rule = lambda value: "" if isinstance(value, bytes) else path(value) and "a path or bytes"
NUMBERS: Rule = numbers
PAIRS: Rule = pairs
ROUTES: Rule = routes
MODELS: Rule = models
