"""What tests of OR-Tools' names share: a small model, parameters, and how refusals are looked at."""

from __future__ import annotations

import unittest
from typing import Any, Callable

from jambulskeg.errors import Refused, Unsupported
from jambulskeg.routing import pywrapcp, routing_enums_pb2

MATRIX = [[0, 5, 9, 3], [5, 0, 4, 8], [9, 4, 0, 6], [3, 8, 6, 0]]


def made(vehicles: int = 2, *ends: Any, matrix: Any = None) -> Any:
    """A manager, a model, and the number of a callback that its arcs cost."""
    table = MATRIX if matrix is None else matrix
    manager = pywrapcp.RoutingIndexManager(len(table), vehicles, *(ends or (0,)))
    routing = pywrapcp.RoutingModel(manager)
    number = routing.RegisterTransitCallback(
        lambda tail, head: int(table[manager.IndexToNode(tail)][manager.IndexToNode(head)])
    )
    routing.SetArcCostEvaluatorOfAllVehicles(number)
    return manager, routing, number


def guided(**fields: Any) -> Any:
    parameters = pywrapcp.DefaultRoutingSearchParameters()
    parameters.local_search_metaheuristic = routing_enums_pb2.LocalSearchMetaheuristic.GUIDED_LOCAL_SEARCH
    for name, value in {"tries": 5000, **fields}.items():
        setattr(parameters, name, value)
    return parameters


class RoutingTest(unittest.TestCase):
    def unsupported(self, name: str, call: Callable[[], Any]) -> None:
        with self.assertRaises(Unsupported) as caught:
            call()
        self.assertIn(name, caught.exception.name)
        self.assertIn(name, str(caught.exception))

    def refused(self, code: int, call: Callable[[], Any]) -> None:
        with self.assertRaises(Refused) as caught:
            call()
        self.assertEqual(caught.exception.code, code, str(caught.exception))
