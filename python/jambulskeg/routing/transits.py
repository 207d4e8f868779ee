"""Callbacks as tables: each is asked once for each pair of indices that an arc can join, and becomes a matrix of nodes.

A vehicle without visits drives nowhere. So no arc leads from a start to an end, and none from a node to itself; such
entries are 0. A callback of one index becomes a list of values.
"""

from __future__ import annotations

import operator
from typing import Any, Callable, Dict, List, Optional, Sequence, Tuple

from ..kinds import is_list
from .manager import RoutingIndexManager
from .refused import refuse

Table = Tuple[Tuple[int, ...], ...]
Values = Tuple[int, ...]


def as_whole(value: Any, name: str) -> int:
    """A whole number that was handed in. Raises `Unsupported` at a fractional value."""
    try:
        return operator.index(value)
    except TypeError:
        raise refuse(name, f"{value!r} is no whole number; round it yourself") from None


class Transits:
    """The callbacks and tables that a model has registered, by number."""

    def __init__(self, manager: RoutingIndexManager) -> None:
        self._manager = manager
        self._makers: List[Callable[[], Any]] = []
        self._unary: List[bool] = []
        self._made: Dict[int, Any] = {}

    def add(self, make: Callable[[], Any], is_unary: bool) -> int:
        """Registers what gives a table, or values; its number."""
        self._makers.append(make)
        self._unary.append(is_unary)
        return len(self._makers) - 1

    def known(self, number: Any, name: str) -> int:
        """A number that was handed to a call. Raises `Unsupported` if nothing is registered by it."""
        found = as_whole(number, name)
        if not 0 <= found < len(self._makers):
            raise refuse(name, f"no callback has the number {found}")
        return found

    def values(self, number: int) -> Optional[Values]:
        """The values by node of a callback of one index, None of one of two."""
        return self._table(number) if self._unary[number] else None

    def matrix(self, number: int) -> Table:
        """The matrix by nodes of a callback, also of one of one index."""
        values = self.values(number)
        if values is None:
            table: Table = self._table(number)
            return table
        size = range(len(values))
        return tuple(tuple(0 if head == tail else values[tail] for head in size) for tail in size)

    def least(self, number: int) -> int:
        """The least value of a callback."""
        values = self.values(number)
        return min(values) if values is not None else min(entry for row in self.matrix(number) for entry in row)

    def _table(self, number: int) -> Any:
        if number not in self._made:
            self._made[number] = self._makers[number]()
        return self._made[number]


def table_of(manager: RoutingIndexManager, callback: Callable[[int, int], Any]) -> Table:
    """The matrix by nodes of a callback of two indices.

    Raises `Unsupported` at a fractional value, and if two indices of one node have different transits.
    """
    name = "RoutingModel.RegisterTransitCallback"
    nodes = manager.GetNumberOfNodes()
    table: List[List[Optional[int]]] = [[None] * nodes for _ in range(nodes)]
    heads = [(index, manager.IndexToNode(index), manager.is_visit(index)) for index in manager.heads()]
    for tail in manager.tails():
        tail_node, is_visit = manager.IndexToNode(tail), manager.is_visit(tail)
        row = table[tail_node]
        for head, head_node, leads_to_visit in heads:
            if tail_node == head_node or not (is_visit or leads_to_visit):
                continue
            value = callback(tail, head)
            if type(value) is not int:
                value = as_whole(value, name)
            if row[head_node] not in (None, value):
                raise refuse(name, f"the transit from node {tail_node} to node {head_node} is {row[head_node]} at one "
                             f"index and {value} at another: it depends on more than its two nodes")
            row[head_node] = value
    return tuple(tuple(entry or 0 for entry in row) for row in table)


def values_of(manager: RoutingIndexManager, callback: Callable[[int], Any]) -> Values:
    """The values by node of a callback of one index. Raises `Unsupported` as `table_of` does."""
    name = "RoutingModel.RegisterUnaryTransitCallback"
    found: List[Optional[int]] = [None] * manager.GetNumberOfNodes()
    for index in manager.tails():
        node, value = manager.IndexToNode(index), as_whole(callback(index), name)
        if found[node] not in (None, value):
            raise refuse(name, f"node {node} has {found[node]} at one index and {value} at another")
        found[node] = value
    return tuple(entry or 0 for entry in found)


def checked_table(manager: RoutingIndexManager, matrix: Any) -> Table:
    """A matrix by nodes that was handed in, with 0 from a node to itself. Raises `Unsupported` if it is none."""
    name, nodes = "RoutingModel.RegisterTransitMatrix", manager.GetNumberOfNodes()
    if not is_list(matrix) or len(matrix) != nodes or any(len(row) != nodes for row in matrix):
        raise refuse(name, f"a matrix of {nodes} rows of {nodes} numbers is asked for")
    return tuple(
        tuple(0 if head == tail else as_whole(entry, name) for head, entry in enumerate(row))
        for tail, row in enumerate(matrix)
    )


def checked_values(manager: RoutingIndexManager, values: Sequence[Any]) -> Values:
    """Values by node that were handed in. Raises `Unsupported` if they are none."""
    name, nodes = "RoutingModel.RegisterUnaryTransitVector", manager.GetNumberOfNodes()
    if not is_list(values) or len(values) != nodes:
        raise refuse(name, f"a list of {nodes} numbers is asked for")
    return tuple(as_whole(value, name) for value in values)
