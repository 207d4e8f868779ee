"""`RoutingModel.solver()`: the constraints that a model says all the same, and the breaks.

`Add` takes what a pickup and its delivery say already (one vehicle, the pickup no later), and a variable beside a
number. Every other constraint is refused by name. Whether there is such a pair is asked when the model is closed, so
the pair may come before or after.
"""

from __future__ import annotations

import time
from typing import Any, Callable, Dict, Iterable, List, Tuple

from ..errors import Unsupported
from .refused import DOCKS, Named, refuse
from .transits import as_whole
from .variables import ActiveVar, CumulVar, IntervalVar, IntVar, Relation, SlackVar, VarKind, VehicleVar

SameVehicle = Tuple[int, int]
CumulOrder = Tuple[str, int, int]


class Solver(Named):
    """The solver of a model, as a script asks for it by `routing.solver()`."""

    def __init__(self) -> None:
        self.same: List[Tuple[Relation, SameVehicle]] = []
        self.apart: List[Tuple[Relation, SameVehicle]] = []
        self.ordered: List[Tuple[Relation, CumulOrder]] = []
        self._began = time.monotonic()

    def Add(self, relation: Any) -> None:
        """Adds a constraint. Raises `Unsupported` if a model cannot say it. Known are:

        - `VehicleVar(a) == VehicleVar(b)`, `ActiveVar(a) == ActiveVar(b)` and `CumulVar(a) <= CumulVar(b)` of a pickup
          a and its delivery b;
        - two vehicles that are the same, or not, by the vehicles that are allowed;
        - a cumul beside a number;
        - `VehicleVar(a)` beside a number by `==` and `!=`, or among some;
        - `ActiveVar(a) == 1` and `SlackVar(a) == 0`.
        """
        if not isinstance(relation, Relation):
            raise refuse("Solver.Add", f"{relation!r} is no relation of two variables or of one and a number")
        if isinstance(relation.right, IntVar):
            self._add_of_two(relation, relation.left, relation.right)
        else:
            self._add_of_one(relation)

    def _add_of_two(self, relation: Relation, left: IntVar, right: IntVar) -> None:
        """Notes a constraint on two variables, which a pair must say."""
        kinds = (left.kind, right.kind)
        if kinds in ((VarKind.VEHICLE,) * 2, (VarKind.ACTIVE,) * 2) and relation.sign == "==":
            self.same.append((relation, (left.index, right.index)))
        elif kinds == (VarKind.VEHICLE,) * 2 and relation.sign == "!=":
            self.apart.append((relation, (left.index, right.index)))
        elif kinds == (VarKind.CUMUL,) * 2 and relation.sign in ("<=", ">=") and left.dimension == right.dimension:
            ends = (left.index, right.index) if relation.sign == "<=" else (right.index, left.index)
            self.ordered.append((relation, (left.dimension, *ends)))
        else:
            raise unsaid(relation)

    def _add_of_one(self, relation: Relation) -> None:
        """Lets a variable keep to a number at once."""
        action = ONE.get((relation.left.kind, relation.sign))
        if action is None:
            raise unsaid(relation)
        right, name = relation.right, f"Solver.Add({relation.in_words()})"
        is_among = relation.sign == "in"
        action(relation.left, [as_whole(value, name) for value in right] if is_among else as_whole(right, name))

    def MemberCt(self, variable: IntVar, values: Iterable[int]) -> Relation:
        """The relation that a variable is among these, for `Add`."""
        return variable.Member(values)

    def FixedDurationIntervalVar(
        self, start_min: Any, start_max: int, duration: Any = None, optional: Any = False, name: str = ""
    ) -> IntervalVar:
        """A break that starts in `start_min` to `start_max`, both among them, and lasts `duration`.

        Raises `Unsupported` for an optional break and for one whose start depends on a variable.
        """
        title = "Solver.FixedDurationIntervalVar"
        if isinstance(start_min, (IntVar, Relation)):
            raise refuse(f"{title} ({variable_words(start_min)})", f"its start is a variable; {DOCKS}")
        if not hasattr(duration, "__index__"):
            raise refuse(title, "a break has a range of starts: start_min, start_max, duration, optional, name")
        if optional:
            raise refuse(f"{title} (optional)", "a used vehicle takes all of its breaks")
        start, latest, length = (as_whole(value, title) for value in (start_min, start_max, duration))
        return IntervalVar(start, latest, length, str(name))

    def WallTime(self) -> int:
        """The milliseconds since the model was made."""
        return int(1000 * (time.monotonic() - self._began))


def variable_words(start: Any) -> str:
    """A start that is a variable, in words."""
    return str(start.in_words())


def unsaid(relation: Relation) -> Unsupported:
    """The exception that refuses a constraint."""
    return refuse(f"Solver.Add({relation.in_words()})", "a model cannot say it")


ONE: Dict[Tuple[VarKind, str], Callable[[Any, Any], None]] = {
    (VarKind.ACTIVE, "=="): ActiveVar.SetValue,
    (VarKind.ACTIVE, ">="): ActiveVar.SetMin,
    (VarKind.SLACK, "=="): SlackVar.SetValue,
    (VarKind.SLACK, "<="): SlackVar.SetMax,
    (VarKind.VEHICLE, "in"): VehicleVar.SetValues,
    (VarKind.CUMUL, "=="): CumulVar.SetValue,
    (VarKind.CUMUL, "!="): CumulVar.RemoveValue,
    (VarKind.CUMUL, "<="): CumulVar.SetMax,
    (VarKind.CUMUL, ">="): CumulVar.SetMin,
    (VarKind.VEHICLE, "=="): VehicleVar.SetValue,
    (VarKind.VEHICLE, "!="): VehicleVar.RemoveValue,
}
"""What a variable beside a number says, by its kind and the sign."""
