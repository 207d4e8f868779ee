"""The enumerations of OR-Tools, with its numbers. Setting a parameter to one that the program has not is refused."""

from __future__ import annotations

from enum import IntEnum
from typing import List


class Enumeration(IntEnum):
    """An enumeration that is asked as those of OR-Tools are."""

    @classmethod
    def Value(cls, name: str) -> int:
        """The member of a name. Raises `KeyError` if there is none."""
        return cls[name]

    @classmethod
    def Name(cls, number: int) -> str:
        """The name of a member. Raises `ValueError` if there is none."""
        return cls(number).name

    @classmethod
    def keys(cls) -> List[str]:
        """The names of all members."""
        return [entry.name for entry in cls]


class FirstSolutionStrategy(Enumeration):
    """How a first solution is built."""

    UNSET = 0
    GLOBAL_CHEAPEST_ARC = 1
    LOCAL_CHEAPEST_ARC = 2
    PATH_CHEAPEST_ARC = 3
    PATH_MOST_CONSTRAINED_ARC = 4
    EVALUATOR_STRATEGY = 5
    ALL_UNPERFORMED = 6
    BEST_INSERTION = 7
    PARALLEL_CHEAPEST_INSERTION = 8
    LOCAL_CHEAPEST_INSERTION = 9
    SAVINGS = 10
    SWEEP = 11
    FIRST_UNBOUND_MIN_VALUE = 12
    CHRISTOFIDES = 13
    SEQUENTIAL_CHEAPEST_INSERTION = 14
    AUTOMATIC = 15
    LOCAL_CHEAPEST_COST_INSERTION = 16


class LocalSearchMetaheuristic(Enumeration):
    """How a solution is improved."""

    UNSET = 0
    GREEDY_DESCENT = 1
    GUIDED_LOCAL_SEARCH = 2
    SIMULATED_ANNEALING = 3
    TABU_SEARCH = 4
    GENERIC_TABU_SEARCH = 5
    AUTOMATIC = 6


class RoutingSearchStatus(Enumeration):
    """What a search came to, as `RoutingModel.status()` tells it."""

    ROUTING_NOT_SOLVED = 0
    ROUTING_SUCCESS = 1
    ROUTING_PARTIAL_SUCCESS_LOCAL_OPTIMUM_NOT_REACHED = 2
    ROUTING_FAIL = 3
    ROUTING_FAIL_TIMEOUT = 4
    ROUTING_INVALID = 5
    ROUTING_INFEASIBLE = 6
    ROUTING_OPTIMAL = 7
