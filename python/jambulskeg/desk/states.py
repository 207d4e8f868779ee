"""What a day is between two changes: who makes which visits in which order, what was edited, which vans are off.

The model of a state is the model that was opened, with the state's edits. A van that is switched off makes no visit:
its list is empty, and no search is given it.
"""

from __future__ import annotations

from dataclasses import dataclass, field, replace
from typing import Any, Dict, FrozenSet, Mapping, Optional, Sequence, Set, Tuple

from ..errors import JambulskegError
from ..records import Dimension, Evaluator, Group, Model, NodeRow
from ..view.day import time_dimension

__all__ = ["BadChange", "Edits", "Lists", "State", "edited", "load_dimension", "with_delta"]

Lists = Tuple[Tuple[int, ...], ...]
"""For each vehicle the visits that it makes, in order."""
Window = Optional[Tuple[int, int]]


class BadChange(JambulskegError, ValueError):
    """A change that is not made, with a sentence for the planner that says why."""


@dataclass(frozen=True)
class Edits:
    """What was edited, by node: when a visit may begin, how much it loads, its penalty (None: it must be made)."""

    windows: Mapping[int, Window] = field(default_factory=dict)
    demands: Mapping[int, int] = field(default_factory=dict)
    penalties: Mapping[int, Optional[int]] = field(default_factory=dict)

    def tree(self) -> Dict[str, Any]:
        """The edits as JSON; kinds without any are left out."""
        kinds = (("windows", self.windows), ("demands", self.demands), ("penalties", self.penalties))
        return {name: [[node, value] for node, value in sorted(rows.items())] for name, rows in kinds if rows}

    @classmethod
    def of(cls, tree: Mapping[str, Any]) -> "Edits":
        """The edits of a JSON object that `tree` wrote."""
        windows = {int(node): None if pair is None else (int(pair[0]), int(pair[1]))
                   for node, pair in tree.get("windows", ())}
        demands = {int(node): int(value) for node, value in tree.get("demands", ())}
        penalties = {int(node): None if value is None else int(value) for node, value in tree.get("penalties", ())}
        return cls(windows, demands, penalties)

    def over(self, earlier: "Edits") -> "Edits":
        """These edits after earlier ones."""
        return Edits(
            {**earlier.windows, **self.windows}, {**earlier.demands, **self.demands},
            {**earlier.penalties, **self.penalties},
        )

    def other_than(self, earlier: "Edits") -> Set[int]:
        """The visits that ask for another window or demand than after earlier edits."""
        kinds = (self.windows, earlier.windows), (self.demands, earlier.demands)
        return {node for now, was in kinds for node in {*now, *was}
                if (node in now, now.get(node)) != (node in was, was.get(node))}

    def __bool__(self) -> bool:
        return bool(self.windows or self.demands or self.penalties)


@dataclass(frozen=True)
class State:
    """A day between two changes. Vans that are `off` stay at home, vans that are `pinned` keep their routes."""

    lists: Lists
    edits: Edits = Edits()
    off: FrozenSet[int] = frozenset()
    pinned: FrozenSet[int] = frozenset()

    def vehicle_of(self, node: int) -> Optional[int]:
        """The vehicle that makes a visit, None if nobody does."""
        return next((vehicle for vehicle, visits in enumerate(self.lists) if node in visits), None)

    def delta(self, earlier: "State") -> Dict[str, Any]:
        """What is other than in an earlier state, as JSON."""
        routes = [[vehicle, list(visits)] for vehicle, (visits, old) in enumerate(zip(self.lists, earlier.lists))
                  if visits != old]
        out: Dict[str, Any] = {"routes": routes} if routes else {}
        if self.edits != earlier.edits:
            out["edits"] = self.edits.tree()
        for name, now, before in (("off", self.off, earlier.off), ("pinned", self.pinned, earlier.pinned)):
            if now != before:
                out[name] = sorted(now)
        return out


def with_delta(state: State, delta: Mapping[str, Any]) -> State:
    """The state after what `State.delta` wrote."""
    lists = list(state.lists)
    for vehicle, visits in delta.get("routes", ()):
        lists[vehicle] = tuple(visits)
    return State(
        tuple(lists),
        Edits.of(delta["edits"]) if "edits" in delta else state.edits,
        frozenset(delta["off"]) if "off" in delta else state.off,
        frozenset(delta["pinned"]) if "pinned" in delta else state.pinned,
    )


def edited(model: Model, edits: Edits) -> Model:
    """The model with its edits. Raises `BadChange` if one cannot be said in it."""
    if not edits:
        return model
    dimensions = list(model.dimensions)
    time, load = time_dimension(model), load_dimension(model)
    if edits.windows:
        if time is None:
            raise BadChange("this day has no times, so a visit has no window")
        dimensions[time] = with_windows(dimensions[time], edits.windows)
    if edits.demands:
        if load is None:
            raise BadChange("this day has no loads, so a visit has no demand")
        dimensions[load] = with_demands(dimensions[load], edits.demands, model.nodes)
    return replace(model, dimensions=dimensions, groups=with_penalties(model.groups, edits.penalties))


def with_windows(dimension: Dimension, windows: Mapping[int, Window]) -> Dimension:
    """The dimension in which some visits have other windows."""
    rows = {row.node: row for row in dimension.nodes}
    for node, window in windows.items():
        rows[node] = replace(rows[node], window=window) if node in rows else NodeRow(node, window)
    return replace(dimension, nodes=list(rows.values()))


def load_dimension(model: Model) -> Optional[int]:
    """The number of the first dimension that counts what visits load: its vehicles have one evaluator, without a
    matrix. None if there is none."""
    for number, dimension in enumerate(model.dimensions):
        if len(dimension.evaluators) == 1 and dimension.evaluators[0].matrix is None:
            return number
    return None


def with_demands(dimension: Dimension, demands: Mapping[int, int], nodes: int) -> Dimension:
    """The dimension in which some visits load other amounts."""
    values = list(dimension.evaluators[0].values or [0] * nodes)
    for node, amount in demands.items():
        values[node] = amount
    return replace(dimension, evaluators=[Evaluator(values=values)])


def with_penalties(groups: Sequence[Group], penalties: Mapping[int, Optional[int]]) -> Sequence[Group]:
    """The groups in which some visits cost other amounts to leave out, or must be made."""
    out, alone = [], dict(penalties)
    for group in groups:
        known = [node for node in group.nodes if node in penalties]
        if known and len(group.nodes) > 1:
            raise BadChange("the visit is one of a choice of several, whose penalty belongs to all of them")
        penalty = alone.pop(known[0]) if known else group.penalty
        if not known or penalty is not None:
            out.append(replace(group, penalty=penalty) if known else group)
    return [*out, *(Group([node], penalty) for node, penalty in sorted(alone.items()) if penalty is not None)]
