"""The variables of OR-Tools, as far as a model says something of them or a solution has their value."""

from __future__ import annotations

from enum import Enum
from typing import Any, Iterable, List, Optional, Set, Tuple

from ..errors import Fault, Refused
from ..intervals import Interval
from ..records import HORIZON, Soft
from .refused import Named, refuse, unknown
from .transits import as_whole


WHY_SLACK = "slack_max holds for all stops alike; 0 is had where the stop asks for no slack anyway"


class VarKind(Enum):
    """What a variable is."""

    NEXT = "NextVar"
    VEHICLE = "VehicleVar"
    ACTIVE = "ActiveVar"
    CUMUL = "CumulVar"
    SLACK = "SlackVar"


class Relation:
    """A relation between a variable and another one or a number, for `Solver.Add`."""

    def __init__(self, left: "IntVar", sign: str, right: Any) -> None:
        self.left, self.sign, self.right = left, sign, right

    def in_words(self) -> str:
        """The relation in words."""
        right = self.right.in_words() if isinstance(self.right, IntVar) else repr(self.right)
        return f"{self.left.in_words()} {self.sign} {right}"


class IntVar(Named):
    """A variable of an index: its kind, and for cumuls and slacks the name of the dimension."""

    def __init__(self, kind: VarKind, index: int, dimension: str = "") -> None:
        self.kind, self.index, self.dimension = kind, index, dimension

    def __getattr__(self, name: str) -> Any:
        kind = self.__dict__.get("kind")
        raise unknown(kind.value if kind else "IntVar", name)

    def in_words(self) -> str:
        """The variable in words."""
        return f"{self.kind.value}({self.index})"

    def Name(self) -> str:
        """The variable in words."""
        return self.in_words()

    def Member(self, values: Iterable[int]) -> Relation:
        """The relation that the variable is among these, for `Solver.Add`."""
        return Relation(self, "in", list(values))

    def __hash__(self) -> int:
        return hash((self.kind, self.index, self.dimension))

    def __eq__(self, other: object) -> Any:
        return Relation(self, "==", other)

    def __ne__(self, other: object) -> Any:
        return Relation(self, "!=", other)

    def __le__(self, other: object) -> Relation:
        return Relation(self, "<=", other)

    def __ge__(self, other: object) -> Relation:
        return Relation(self, ">=", other)

    def __lt__(self, other: object) -> Relation:
        return Relation(self, "<", other)

    def __gt__(self, other: object) -> Relation:
        return Relation(self, ">", other)

    def __add__(self, other: object) -> Relation:
        raise refuse(f"{self.in_words()} + ..", "a model has no sums of variables")

    def __radd__(self, other: object) -> Relation:
        raise refuse(f".. + {self.in_words()}", "a model has no sums of variables")

    def __sub__(self, other: object) -> Relation:
        raise refuse(f"{self.in_words()} - ..", "a model has no differences of variables")

    def __rsub__(self, other: object) -> Relation:
        raise refuse(f".. - {self.in_words()}", "a model has no differences of variables")

    def __mul__(self, other: object) -> Relation:
        raise refuse(f"{self.in_words()} * ..", "a model has no products of variables")

    def __rmul__(self, other: object) -> Relation:
        raise refuse(f".. * {self.in_words()}", "a model has no products of variables")


class StopRules:
    """What a model asks of the cumul of a stop: the window, the forbidden intervals, the soft upper bound."""

    def __init__(self) -> None:
        self.low, self.high = 0, HORIZON
        self.forbidden: List[Interval] = []
        self.soft: Optional[Soft] = None
        self.is_without_slack = False

    def window(self) -> Optional[Tuple[int, int]]:
        """The window, None if every cumul lies in it."""
        return None if (self.low, self.high) == (0, HORIZON) else (self.low, self.high)

    def narrow(self, low: int, high: int, name: str) -> None:
        """Takes the numbers outside the interval out. Raises `Refused` if none is left."""
        low, high = max(self.low, low), min(self.high, high)
        if low > high:
            raise Refused(Fault(19, "", f"no cumul from {low} to {high} is left"), name)
        self.low, self.high = low, high

    def is_asked(self) -> bool:
        """Whether anything is asked."""
        return self.window() is not None or bool(self.forbidden) or self.soft is not None


class CumulVar(IntVar):
    """The cumul of an index in a dimension."""

    def __init__(self, index: int, dimension: str, rules: StopRules) -> None:
        super().__init__(VarKind.CUMUL, index, dimension)
        self._rules = rules

    def SetRange(self, low: int, high: int) -> None:
        """The cumul lies in `low` to `high`. Raises `Refused` if no number is left."""
        self._rules.narrow(as_whole(low, "CumulVar.SetRange"), as_whole(high, "CumulVar.SetRange"), self.in_words())

    def SetMin(self, low: int) -> None:
        """The cumul is at least `low`."""
        self._rules.narrow(as_whole(low, "CumulVar.SetMin"), HORIZON, self.in_words())

    def SetMax(self, high: int) -> None:
        """The cumul is at most `high`."""
        self._rules.narrow(0, as_whole(high, "CumulVar.SetMax"), self.in_words())

    def SetValue(self, value: int) -> None:
        """The cumul is `value`."""
        self.SetRange(value, value)

    def RemoveInterval(self, low: int, high: int) -> None:
        """The cumul lies not in `low` to `high`, both among them; at most 16 such intervals a stop."""
        piece = (
            max(0, as_whole(low, "CumulVar.RemoveInterval")), min(HORIZON, as_whole(high, "CumulVar.RemoveInterval"))
        )
        if piece[0] <= piece[1]:
            self._rules.forbidden.append(piece)

    def RemoveValue(self, value: int) -> None:
        """The cumul is not `value`."""
        self.RemoveInterval(value, value)


class VisitRules:
    """Which vehicles may make a visit: those that its variable leaves, among those that the model allows. Beside that,
    whether it was said that it must be made."""

    def __init__(self, vehicles: int) -> None:
        self.left: Set[int] = set(range(vehicles))
        self.allowed: Set[int] = set(range(vehicles))
        self.must_be_made = False

    def keep(self, vehicles: Iterable[int], name: str) -> None:
        """Takes the other vehicles out. Raises `Refused` if none is left."""
        self.left.intersection_update(vehicles)
        if not self.left:
            raise Refused(Fault(15, "", "no vehicle is left that may make the visit"), name)

    def vehicles(self) -> List[int]:
        """The vehicles that may make the visit, ascending."""
        return sorted(self.left & self.allowed)


class VehicleVar(IntVar):
    """The vehicle of an index, -1 if it is left out, as far as it says which vehicles may make a visit."""

    def __init__(self, index: int, rules: Optional[VisitRules]) -> None:
        super().__init__(VarKind.VEHICLE, index)
        self._of_visit = rules

    @property
    def _rules(self) -> VisitRules:
        if self._of_visit is None:
            raise refuse(self.in_words(), "starts and ends have the vehicle that they have")
        return self._of_visit

    def SetValues(self, values: Iterable[int]) -> None:
        """The vehicle is among these; if -1 is not, the visit must be made."""
        found = {as_whole(value, "VehicleVar.SetValues") for value in values}
        self._rules.must_be_made |= -1 not in found
        self._rules.keep(found, self.in_words())

    def SetValue(self, value: int) -> None:
        """The vehicle is this one, and the visit must be made."""
        self.SetValues([value])

    def SetRange(self, low: int, high: int) -> None:
        """The vehicle is among `low` to `high`; if that leaves -1 out, the visit must be made."""
        self.SetValues(range(max(-1, as_whole(low, "VehicleVar.SetRange")), as_whole(high, "VehicleVar.SetRange") + 1))

    def RemoveValue(self, value: int) -> None:
        """The vehicle is not this one; without -1 the visit must be made."""
        self.RemoveValues([value])

    def RemoveValues(self, values: Iterable[int]) -> None:
        """The vehicle is none of these; without -1 the visit must be made."""
        found = {as_whole(value, "VehicleVar.RemoveValue") for value in values}
        self._rules.must_be_made |= -1 in found
        self._rules.keep(self._rules.left - found, self.in_words())


class ActiveVar(IntVar):
    """Whether a visit is made, 1 or 0, as far as it says that it must be."""

    def __init__(self, index: int, rules: Optional[VisitRules]) -> None:
        super().__init__(VarKind.ACTIVE, index)
        self._of_visit = rules

    def SetValue(self, value: int) -> None:
        """The visit must be made, which 1 says; a start and an end are always there."""
        if as_whole(value, "ActiveVar.SetValue") != 1:
            raise refuse(f"{self.in_words()}.SetValue({value})", "a visit that is not made is left out of the model")
        if self._of_visit is not None:
            self._of_visit.must_be_made = True

    def SetMin(self, low: int) -> None:
        """The visit must be made if `low` is 1; 0 says nothing."""
        if as_whole(low, "ActiveVar.SetMin") > 0:
            self.SetValue(low)


class SlackVar(IntVar):
    """The slack after a stop, as far as it says that there is none."""

    def __init__(self, index: int, dimension: str, rules: StopRules) -> None:
        super().__init__(VarKind.SLACK, index, dimension)
        self._rules = rules

    def SetValue(self, value: int) -> None:
        """There is no slack after the stop, which 0 says. That is had if the stop asks for none anyway; whether it
        does is asked when the model is closed."""
        if as_whole(value, "SlackVar.SetValue") != 0:
            raise refuse(f"SlackVar({self.index}).SetValue({value})", WHY_SLACK)
        self._rules.is_without_slack = True

    def SetMax(self, high: int) -> None:
        """The same for 0."""
        self.SetValue(high)

    def SetRange(self, low: int, high: int) -> None:
        """The same for 0 to 0."""
        if as_whole(low, "SlackVar.SetRange") > 0:
            raise refuse(f"SlackVar({self.index}).SetRange({low}, {high})", WHY_SLACK)
        self.SetValue(high)


class IntervalVar(Named):
    """A break as `Solver.FixedDurationIntervalVar` makes it: the range of its start, and how long it lasts."""

    def __init__(self, start_min: int, start_max: int, duration: int, name: str) -> None:
        self.start_min, self.start_max, self.duration, self.name = start_min, start_max, duration, name

    def Name(self) -> str:
        """The name of the break."""
        return self.name
