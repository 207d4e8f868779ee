"""Which vans a search plans anew together, the others keeping their routes: one, and those whose visits are near its.

So a search goes on from the routes as they are, and is quick even if the whole day is large.
"""

from __future__ import annotations

import random
from typing import Dict, FrozenSet, List

from ..records import Model
from .states import State

__all__ = ["Nearby"]

MOST_VANS = 4
"""At most as many vans are planned anew together."""
LEAST_VANS = 2


class Nearby:
    """Chooses vans of a day, those that are neither off nor pinned; one after another is the first."""

    def __init__(self, model: Model) -> None:
        self._model, self._random, self._turn = model, random.Random(1), 0

    def vans(self, state: State) -> FrozenSet[int]:
        """Some vans to be planned anew together; none if so few have visits that they are the whole day."""
        used = [vehicle for vehicle, visits in enumerate(state.lists) if visits and vehicle not in state.pinned]
        if len(used) <= LEAST_VANS:
            return frozenset()
        self._turn += 1
        first = used[self._turn % len(used)]
        count = self._random.randint(LEAST_VANS, min(MOST_VANS, len(used) - 1))
        found = frozenset([first, *self.near(first, state, used)[:count - 1]])
        return found | self.spare(state)

    def near(self, first: int, state: State, used: List[int]) -> List[int]:
        """The other vans, those with a visit near one of the first van's more likely before the others."""
        costs = self._model.matrices[self._model.vehicles[first].costs]
        away: Dict[int, float] = {}
        for vehicle in used:
            if vehicle != first:
                least = min(min(costs[node][other] for other in state.lists[vehicle]) for node in state.lists[first])
                away[vehicle] = (1 + least) * self._random.uniform(0.5, 2)
        return sorted(away, key=lambda vehicle: away[vehicle])

    def spare(self, state: State) -> FrozenSet[int]:
        """A van that has no visits, for those that are left out; none if there is none."""
        idle = [vehicle for vehicle, visits in enumerate(state.lists)
                if not visits and vehicle not in state.off | state.pinned]
        return frozenset([self._random.choice(idle)] if idle and self._random.random() < 0.5 else [])
