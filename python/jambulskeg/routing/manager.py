"""The numbering of OR-Tools: an index for each visit and for each start and end of a vehicle, in the same order."""

from __future__ import annotations

import operator
from typing import Any, Dict, Iterable, List, Optional, Sequence

from ..errors import Fault, Refused
from ..kinds import is_list
from .refused import Named

UNASSIGNED = -1
"""The index of a node at which vehicles end and none starts: it has no index as a node."""


def node_of(value: Any, nodes: int, path: str) -> int:
    """A node that was handed in. Raises `Refused` if there is no such node."""
    found = operator.index(value)
    if not 0 <= found < nodes:
        raise Refused(Fault(14, path, f"there is no node {found}"), "RoutingIndexManager")
    return found


class RoutingIndexManager(Named):
    """Nodes and vehicles: `RoutingIndexManager(nodes, vehicles, depot)` or `(nodes, vehicles, starts, ends)`.

    A visit keeps its place in the numbering, and so does the start of the first vehicle that starts there. The starts
    of further vehicles follow, and then the ends. Raises `Refused` at nodes that are not there.
    """

    def __init__(self, num_nodes: int, num_vehicles: int, depot: Any, ends: Optional[Sequence[int]] = None) -> None:
        nodes, vehicles = operator.index(num_nodes), operator.index(num_vehicles)
        starts = list(depot) if is_list(depot) else [depot] * vehicles
        lasts = list(ends) if ends is not None else starts
        for path, row in (("/starts", starts), ("/ends", lasts)):
            if len(row) != vehicles:
                raise Refused(Fault(15, path, f"there are {len(row)}, and {vehicles} vehicles"), "RoutingIndexManager")
        self._starts = [node_of(node, nodes, f"/starts/{at}") for at, node in enumerate(starts)]
        self._ends = [node_of(node, nodes, f"/ends/{at}") for at, node in enumerate(lasts)]
        self._nodes = nodes
        self._index_to_node: List[int] = []
        self._node_to_index: Dict[int, int] = {}
        self._number_nodes()
        self._start_indices = self._number_starts()
        self._size = len(self._index_to_node)
        self._end_indices = [self._size + vehicle for vehicle in range(vehicles)]
        self._index_to_node.extend(self._ends)

    def _number_nodes(self) -> None:
        """Numbers the nodes in order, but for those where vehicles only end."""
        for node in range(self._nodes):
            if node in self._starts or node not in self._ends:
                self._node_to_index[node] = len(self._index_to_node)
                self._index_to_node.append(node)

    def _number_starts(self) -> List[int]:
        """Numbers the starts that share a node with an earlier one; the index of each vehicle's start."""
        indices: List[int] = []
        for vehicle, node in enumerate(self._starts):
            if node in self._starts[:vehicle]:
                indices.append(len(self._index_to_node))
                self._index_to_node.append(node)
            else:
                indices.append(self._node_to_index[node])
        return indices

    def GetNumberOfNodes(self) -> int:
        """How many nodes there are."""
        return self._nodes

    def GetNumberOfVehicles(self) -> int:
        """How many vehicles there are."""
        return len(self._starts)

    def GetNumberOfIndices(self) -> int:
        """How many indices there are, those of ends among them."""
        return len(self._index_to_node)

    def known_vehicle(self, vehicle: int) -> int:
        """The number of a vehicle, from 0. Raises `IndexError` if there is no such vehicle."""
        if not 0 <= vehicle < len(self._starts):
            raise IndexError(f"there is no vehicle {vehicle}")
        return vehicle

    def GetStartIndex(self, vehicle: int) -> int:
        """The index of the start of a vehicle. Raises `IndexError` if there is no such vehicle."""
        return self._start_indices[self.known_vehicle(vehicle)]

    def GetEndIndex(self, vehicle: int) -> int:
        """The index of the end of a vehicle. Raises `IndexError` if there is no such vehicle."""
        return self._end_indices[self.known_vehicle(vehicle)]

    def IndexToNode(self, index: int) -> int:
        """The node of an index. Raises `IndexError` if there is no such index."""
        if index < 0:
            raise IndexError(f"there is no index {index}")
        return self._index_to_node[index]

    def NodeToIndex(self, node: int) -> int:
        """The index of a node, -1 of one where vehicles only end. Raises `IndexError` if there is no such node."""
        if not 0 <= node < self._nodes:
            raise IndexError(f"there is no node {node}")
        return self._node_to_index.get(node, UNASSIGNED)

    def NodesToIndices(self, nodes: Iterable[int]) -> List[int]:
        """The indices of some nodes."""
        return [self.NodeToIndex(node) for node in nodes]

    def IndicesToNodes(self, indices: Iterable[int]) -> List[int]:
        """The nodes of some indices."""
        return [self.IndexToNode(index) for index in indices]

    def tails(self) -> List[int]:
        """The indices from which arcs lead: visits and starts."""
        return list(range(self._size))

    def heads(self) -> List[int]:
        """The indices to which arcs lead: visits and ends."""
        return [index for index in range(len(self._index_to_node)) if index not in self._start_indices]

    def is_visit(self, index: int) -> bool:
        """Whether an index is that of a visit."""
        return 0 <= index < self._size and index not in self._start_indices

    def starts(self) -> Sequence[int]:
        """The node at which each vehicle starts."""
        return self._starts

    def ends(self) -> Sequence[int]:
        """The node at which each vehicle ends."""
        return self._ends
