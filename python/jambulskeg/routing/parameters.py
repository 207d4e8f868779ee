"""The search parameters that a script sets, with OR-Tools' names; one that is not here is refused by name."""

from __future__ import annotations

from fractions import Fraction
from typing import Any, Optional

from ..records import MOST_TRIES, First, Improve, Search
from .refused import Named, hint, refuse, unknown
from .routing_enums_pb2 import FirstSolutionStrategy, LocalSearchMetaheuristic
from .transits import as_whole

GUIDED_TRIES = 1000000
"""The tries of guided local search and tabu search if neither a time limit nor `tries` is set."""

FIRST = {
    FirstSolutionStrategy.UNSET: First.PATH_CHEAPEST_ARC,
    FirstSolutionStrategy.AUTOMATIC: First.PATH_CHEAPEST_ARC,
    FirstSolutionStrategy.PATH_CHEAPEST_ARC: First.PATH_CHEAPEST_ARC,
    FirstSolutionStrategy.PARALLEL_CHEAPEST_INSERTION: First.PARALLEL_CHEAPEST_INSERTION,
    FirstSolutionStrategy.SAVINGS: First.SAVINGS,
}
IMPROVE = {
    LocalSearchMetaheuristic.UNSET: Improve.GREEDY_DESCENT,
    LocalSearchMetaheuristic.AUTOMATIC: Improve.GREEDY_DESCENT,
    LocalSearchMetaheuristic.GREEDY_DESCENT: Improve.GREEDY_DESCENT,
    LocalSearchMetaheuristic.GUIDED_LOCAL_SEARCH: Improve.GUIDED_LOCAL_SEARCH,
    LocalSearchMetaheuristic.TABU_SEARCH: Improve.TABU_SEARCH,
}


PLAIN = (
    "first_solution_strategy", "local_search_metaheuristic", "solution_limit", "log_search",
    "guided_local_search_lambda_coefficient", "tries",
)
"""The parameters that are plain values."""
HINTS = ("use_full_propagation", "use_cp", "use_cp_sat", "optimization_step", "log_tag")
"""The parameters that only say how OR-Tools' own search goes, and never what a solution is."""


class Duration(Named):
    """A length of time: whole `seconds` and `nanos`."""

    seconds: int
    nanos: int

    def __init__(self) -> None:
        self.__dict__.update(seconds=0, nanos=0)

    def __setattr__(self, name: str, value: Any) -> None:
        if name not in self.__dict__:
            raise unknown("Duration", name)
        found = as_whole(value, f"Duration.{name}")
        if found < 0:
            raise refuse(f"Duration.{name} = {found}", "a length of time is 0 or more; 0 means no limit")
        self.__dict__[name] = found

    def CopyFrom(self, other: "Duration") -> None:
        """Takes the length of another."""
        self.seconds, self.nanos = other.seconds, other.nanos

    def FromSeconds(self, seconds: int) -> None:
        """The length of whole seconds."""
        self.seconds, self.nanos = seconds, 0

    def FromMilliseconds(self, milliseconds: int) -> None:
        """The length of whole milliseconds."""
        self.seconds, self.nanos = milliseconds // 1000, milliseconds % 1000 * 1000000

    def total(self) -> Optional[float]:
        """The length in seconds; None if it is 0, which means no limit."""
        return self.seconds + self.nanos / 1e9 or None


class RoutingSearchParameters(Named):
    """How a solution is looked for; `DefaultRoutingSearchParameters()` makes one.

    `first_solution_strategy` and `local_search_metaheuristic` take members of `routing_enums_pb2`; `solution_limit` is
    the most solutions, 1 or more; `time_limit` decides how many rounds of growing tries are run; `log_search` tells
    of them on standard error; `guided_local_search_lambda_coefficient` is the weight of penalties. `tries`, which
    OR-Tools has not, is the most moves that are tried: with it a run gives the same answer on every machine.
    """

    def __init__(self) -> None:
        self.__dict__.update(
            first_solution_strategy=FirstSolutionStrategy.AUTOMATIC,
            local_search_metaheuristic=LocalSearchMetaheuristic.AUTOMATIC,
            solution_limit=MOST_TRIES,
            time_limit=Duration(),
            lns_time_limit=Duration(),
            log_search=False,
            guided_local_search_lambda_coefficient=0.1,
            tries=None,
        )

    def __setattr__(self, name: str, value: Any) -> None:
        title = f"RoutingSearchParameters.{name}"
        if name in ("time_limit", "lns_time_limit"):
            raise refuse(title, f"set its seconds, as in parameters.{name}.seconds = 10, or CopyFrom")
        if name in HINTS:
            hint(title, "the search has no such parameter")
        elif name not in self.__dict__:
            raise unknown("RoutingSearchParameters", name)
        else:
            self.__dict__[name] = checked(name, title, value)

    def CopyFrom(self, other: "RoutingSearchParameters") -> None:
        """Takes what other parameters say."""
        self.time_limit.CopyFrom(other.time_limit)
        self.lns_time_limit.CopyFrom(other.lns_time_limit)
        self.__dict__.update({name: other.__dict__[name] for name in PLAIN})

    def search(self) -> Search:
        """The search that the parameters ask for. Raises `Unsupported` if both `tries` and a time limit are set."""
        if self.tries is not None and self.time_limit.total() is not None:
            raise refuse("RoutingSearchParameters.tries beside time_limit", "each says how long a search goes on")
        weight = Fraction(self.guided_local_search_lambda_coefficient).limit_denominator(1000)
        improve = IMPROVE[self.local_search_metaheuristic]
        tries = self.tries
        if tries is None:
            tries = MOST_TRIES if improve is Improve.GREEDY_DESCENT else GUIDED_TRIES
        return Search(
            FIRST[self.first_solution_strategy], improve, tries, min(self.solution_limit, MOST_TRIES),
            (weight.numerator, weight.denominator),
        )


def checked(name: str, title: str, value: Any) -> Any:
    """The value of a parameter. Raises `Unsupported` if it cannot be had."""
    if name == "first_solution_strategy":
        return known(FirstSolutionStrategy, FIRST, title, value)
    if name == "local_search_metaheuristic":
        return known(LocalSearchMetaheuristic, IMPROVE, title, value)
    if name == "log_search":
        return bool(value)
    if name == "guided_local_search_lambda_coefficient":
        weight = Fraction(value).limit_denominator(1000)
        if not 0 < weight.numerator <= 1000 or abs(weight - Fraction(value)) > Fraction(1, 10**9):
            raise refuse(f"{title} = {value}", "it is a fraction p/q with p and q from 1 to 1000")
        return value
    if name == "tries" and value is None:
        return None
    found = as_whole(value, title)
    if found < (1 if name == "solution_limit" else 0):
        raise refuse(f"{title} = {found}", "a limit is no number below 0, and of solutions there is one")
    return found


def known(words: Any, table: Any, title: str, value: Any) -> Any:
    """The member of an enumeration, if the program has it."""
    try:
        word = words(value)
    except ValueError:
        raise refuse(f"{title} = {value!r}", f"there is no such {words.__name__}") from None
    if word not in table:
        names = ", ".join(entry.name for entry in table if entry.name != "UNSET")
        raise refuse(f"{words.__name__}.{word.name}", f"there are {names}")
    return word


def DefaultRoutingSearchParameters() -> RoutingSearchParameters:
    """The parameters that a script begins with: cheapest arcs, and a descent to its end."""
    return RoutingSearchParameters()
