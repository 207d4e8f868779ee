"""What a planner may change: visits are moved, vans switched off or pinned, windows, demands and penalties edited.

A change makes one state of another. Whether the new one keeps the rules is not asked here: `days` puts it to the
program. What comes from the page is read by `change_of`, which takes nothing on trust.
"""

from __future__ import annotations

from dataclasses import dataclass, replace
from typing import Any, Dict, List, Mapping, Optional, Sequence, Set, Tuple

from ..records import GREATEST_ENTRY, GREATEST_TRANSIT, HORIZON, Model
from ..view.day import Names
from .states import BadChange, Edits, Lists, State

__all__ = ["BadChange", "Change", "Edit", "Move", "Pin", "Switch", "Within", "change_of"]

MOST_NAMED = 4
"""A sentence names at most this many visits."""


@dataclass(frozen=True)
class Within:
    """What a change is made in: the model, and how its nodes and vehicles are called."""

    model: Model
    names: Names

    def visits(self, nodes: Sequence[int]) -> str:
        """Some visits in words."""
        named = [self.names.node(node) for node in nodes[:MOST_NAMED]]
        more = len(nodes) - len(named)
        return ", ".join(named) + (f" and {more} more" if more else "")

    def partner(self, node: int) -> Optional[int]:
        """The other node of the pair of a visit."""
        for pair in self.model.pairs:
            if node in (pair.pickup, pair.delivery):
                return pair.delivery if node == pair.pickup else pair.pickup
        return None

    def is_pickup(self, node: int) -> bool:
        """Whether a visit is the pickup of a pair."""
        return any(pair.pickup == node for pair in self.model.pairs)


class Change:
    """A change of a day."""

    def applied(self, state: State, within: Within) -> State:
        """The state after the change. Raises `BadChange` if it is not to be made."""
        raise NotImplementedError

    def words(self, within: Within) -> str:
        """The change as the list of steps tells it."""
        raise NotImplementedError


def unpinned(state: State, vehicle: Optional[int], within: Within) -> None:
    """Raises `BadChange` if a vehicle is pinned, so that its route stays as it is."""
    if vehicle is not None and vehicle in state.pinned:
        raise BadChange(f"{within.names.vehicle(vehicle)} is pinned, so its route stays as it is; unpin it first")


@dataclass(frozen=True)
class Move(Change):
    """Visits go, in this order, into the route of a vehicle in front of a visit (None: at its end). If the vehicle is
    None, they go out of all routes.

    The other visit of a pair goes along when the pair would else be parted: the pickup right in front of the delivery.
    """

    nodes: Tuple[int, ...]
    vehicle: Optional[int]
    before: Optional[int] = None

    def applied(self, state: State, within: Within) -> State:
        moved = self.with_partners(state, within)
        for vehicle in (self.vehicle, *(state.vehicle_of(node) for node in moved)):
            unpinned(state, vehicle, within)
        if self.vehicle is not None and self.vehicle in state.off:
            raise BadChange(f"{within.names.vehicle(self.vehicle)} is switched off; switch it on first")
        lists = taken_out(state.lists, set(moved))
        if self.vehicle is None:
            return replace(state, lists=lists)
        return replace(state, lists=put_in(lists, self.vehicle, self.place(lists[self.vehicle], within), moved))

    def place(self, visits: Sequence[int], within: Within) -> int:
        """Where in a route the visits go in."""
        if self.before is None:
            return len(visits)
        if self.before not in visits:
            raise BadChange(f"{within.names.node(self.before)} is not in the route that the visits are to go into")
        return visits.index(self.before)

    def with_partners(self, state: State, within: Within) -> List[int]:
        """The visits, and each other visit of a pair that would be parted from its own."""
        out: List[int] = []
        for node in self.nodes:
            partner = within.partner(node)
            is_parted = partner is not None and partner not in self.nodes and (
                self.vehicle is None or state.vehicle_of(partner) != self.vehicle
            )
            if partner is None or not is_parted:
                out.append(node)
            elif self.vehicle is None and state.vehicle_of(partner) is None:
                out.append(node)
            else:
                out += [node, partner] if within.is_pickup(node) else [partner, node]
        return out

    def words(self, within: Within) -> str:
        what = within.visits(self.nodes)
        if self.vehicle is None:
            return f"{what} left out"
        where = "at its end" if self.before is None else f"before {within.names.node(self.before)}"
        return f"{what} to {within.names.vehicle(self.vehicle)}, {where}"


def taken_out(lists: Lists, nodes: Set[int]) -> Lists:
    """The lists without some visits; a list that has none of them is kept as it is."""
    return tuple(
        visits if nodes.isdisjoint(visits) else tuple(node for node in visits if node not in nodes)
        for visits in lists
    )


def put_in(lists: Lists, vehicle: int, place: int, nodes: Sequence[int]) -> Lists:
    """The lists with some visits put in at a place of one of them."""
    visits = lists[vehicle]
    return (*lists[:vehicle], (*visits[:place], *nodes, *visits[place:]), *lists[vehicle + 1:])


@dataclass(frozen=True)
class Switch(Change):
    """A vehicle is switched off, which leaves its visits out, or on again."""

    vehicle: int
    is_on: bool

    def applied(self, state: State, within: Within) -> State:
        if self.is_on:
            return replace(state, off=state.off - {self.vehicle})
        unpinned(state, self.vehicle, within)
        if len(state.off | {self.vehicle}) == len(state.lists):
            raise BadChange("one van at least stays switched on")
        lists = taken_out(state.lists, set(state.lists[self.vehicle]))
        return replace(state, lists=lists, off=state.off | {self.vehicle})

    def words(self, within: Within) -> str:
        return f"{within.names.vehicle(self.vehicle)} switched {'on' if self.is_on else 'off'}"


@dataclass(frozen=True)
class Pin(Change):
    """A vehicle is pinned, so that its route stays as it is, or unpinned."""

    vehicle: int
    is_pinned: bool

    def applied(self, state: State, within: Within) -> State:
        pins = state.pinned | {self.vehicle} if self.is_pinned else state.pinned - {self.vehicle}
        return replace(state, pinned=pins)

    def words(self, within: Within) -> str:
        return f"{within.names.vehicle(self.vehicle)} {'pinned' if self.is_pinned else 'unpinned'}"


@dataclass(frozen=True)
class Edit(Change):
    """Another window, demand or penalty of a visit. With `leave` the visit is left out of its route at once, for an
    edit with which the route could not be driven."""

    edits: Edits
    node: int
    leave: bool = False

    def applied(self, state: State, within: Within) -> State:
        out = replace(state, edits=self.edits.over(state.edits))
        return Move((self.node,), None).applied(out, within) if self.leave else out

    def words(self, within: Within) -> str:
        name, names = within.names.node(self.node), within.names
        said = [
            f"may begin {names.time(window[0])} to {names.time(window[1])}" if window else "may begin at any time"
            for window in self.edits.windows.values()
        ]
        said += [f"loads {amount}" for amount in self.edits.demands.values()]
        said += ["must be made" if penalty is None else f"may be left out for {penalty}"
                 for penalty in self.edits.penalties.values()]
        return f"{name} {', '.join(said)}" + (", and is left out" if self.leave else "")


KINDS = ("move", "switch", "pin", "edit")


@dataclass(frozen=True)
class Reader:
    """Reads the fields of a change that came from the page. Raises `BadChange` at each that is none."""

    tree: Mapping[str, Any]
    within: Within

    def number(self, name: str, low: int, high: int) -> int:
        """A whole number in a range."""
        value = self.tree.get(name)
        if not isinstance(value, int) or isinstance(value, bool) or not low <= value <= high:
            raise BadChange(f"'{name}' is a whole number from {low} to {high}")
        return value

    def vehicle(self) -> int:
        """The number of a vehicle."""
        return self.number("vehicle", 0, len(self.within.model.vehicles) - 1)

    def visit(self, value: Any) -> int:
        """The number of a visit."""
        if not isinstance(value, int) or isinstance(value, bool) or value not in self.within.model.visits():
            raise BadChange("a visit is told by the number of a node where no vehicle starts or ends")
        return value

    def flag(self, name: str) -> bool:
        """Yes or no."""
        value = self.tree.get(name, False)
        if not isinstance(value, bool):
            raise BadChange(f"'{name}' is true or false")
        return value

    def move(self) -> Move:
        """A move of visits."""
        nodes = self.tree.get("nodes")
        if not isinstance(nodes, list) or not nodes or len(nodes) > self.within.model.nodes:
            raise BadChange("'nodes' is a list of visits")
        visits = set(self.within.model.visits())
        if not all(isinstance(node, int) and not isinstance(node, bool) and node in visits for node in nodes):
            raise BadChange("'nodes' is a list of visits")
        if len(set(nodes)) < len(nodes):
            raise BadChange("a visit is moved once at a time")
        vehicle = None if self.tree.get("vehicle") is None else self.vehicle()
        before = None if self.tree.get("before") is None else self.visit(self.tree["before"])
        if before in nodes:
            raise BadChange("visits cannot go in front of one of themselves")
        return Move(tuple(nodes), vehicle, before)

    def edit(self) -> Edit:
        """An edit of a window, a demand or a penalty."""
        node, leave = self.visit(self.tree.get("node")), self.flag("leave")
        found: Dict[str, Dict[int, Any]] = {}
        if "window" in self.tree:
            found["windows"] = {node: self.window(self.tree["window"])}
        if "demand" in self.tree:
            found["demands"] = {node: self.number("demand", -GREATEST_TRANSIT, GREATEST_TRANSIT)}
        if "penalty" in self.tree:
            is_required = self.tree["penalty"] is None
            found["penalties"] = {node: None if is_required else self.number("penalty", 0, GREATEST_ENTRY)}
        if not found:
            raise BadChange("an edit has a 'window', a 'demand' or a 'penalty'")
        return Edit(Edits(**found), node, leave)

    def window(self, value: Any) -> Optional[Tuple[int, int]]:
        """A window, or None for no window at all."""
        if value is None:
            return None
        is_pair = isinstance(value, list) and len(value) == 2
        if not is_pair or not all(isinstance(edge, int) and not isinstance(edge, bool) for edge in value):
            raise BadChange("a window has two whole numbers, or times of day")
        low, high = value
        if not 0 <= low <= high <= HORIZON:
            raise BadChange("a window does not end before it begins, and begins at 0 at the earliest")
        return low, high


def change_of(tree: Any, within: Within) -> Change:
    """The change that the page sent. Raises `BadChange` if it is none."""
    kind = tree.get("kind") if isinstance(tree, Mapping) else None
    if kind not in KINDS:
        raise BadChange(f"a change is one of {', '.join(KINDS)}")
    reader = Reader(tree, within)
    if kind == "move":
        return reader.move()
    if kind == "edit":
        return reader.edit()
    vehicle = reader.vehicle()
    return Switch(vehicle, reader.flag("on")) if kind == "switch" else Pin(vehicle, reader.flag("pinned"))
