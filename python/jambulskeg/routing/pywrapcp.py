"""What a script takes from `ortools.constraint_solver.pywrapcp`."""

from __future__ import annotations

from typing import Any

from .assignment import Assignment
from .dimension import RoutingDimension
from .manager import RoutingIndexManager
from .parameters import DefaultRoutingSearchParameters, RoutingSearchParameters
from .refused import unknown
from .routing_model import RoutingModel

__all__ = [
    "Assignment", "DefaultRoutingSearchParameters", "RoutingDimension", "RoutingIndexManager", "RoutingModel",
    "RoutingSearchParameters",
]


def __getattr__(name: str) -> Any:
    raise unknown("pywrapcp", name)
