"""What a field of a record may hold: kinds check a value, take it over, and write it as JSON.

A `Record` is a frozen dataclass whose fields are annotated with their kinds, so a field is checked where it is written:

    class Pair(Record):
        pickup: Annotated[int, Whole(0, 999)]
"""

from __future__ import annotations

import dataclasses
import operator
from enum import Enum
from functools import lru_cache
from typing import Any, Dict, Iterator, Mapping, Sequence, Tuple, Type, TypeVar, get_type_hints

from .errors import Fault, Refused

R = TypeVar("R", bound="Record")


class Kind:
    """What values a field takes."""

    def faults(self, value: Any, path: str) -> Iterator[Fault]:
        """Each fault of the value, in the order of its parts; what comes first is what the program would tell."""
        raise NotImplementedError

    def is_plain(self, value: Any) -> bool:
        """Whether a value has no fault, seen at a glance. If not, `faults` looks closer."""
        return False

    def taken(self, value: Any) -> Any:
        """The value as the record keeps it; it has no fault."""
        return value

    def tree(self, value: Any) -> Any:
        """The kept value as JSON has it."""
        return value


def between(least: int, most: int) -> str:
    """A range in words."""
    return str(least) if least == most else f"{least} to {most}"


def is_list(value: Any) -> bool:
    """Whether a value is a sequence and not a text. An array of another library, as numpy's, is one too."""
    if isinstance(value, (list, tuple)):
        return True
    if isinstance(value, (str, bytes)):
        return False
    return isinstance(value, Sequence) or (
        hasattr(value, "tolist") and hasattr(value, "__len__") and getattr(value, "ndim", 1) > 0
    )


def whole_fault(value: Any) -> int:
    """0 if a value is a whole number of 64 bits, also one of another library; else the code of its fault."""
    if isinstance(value, bool) or not isinstance(value, float) and not hasattr(value, "__index__"):
        return 11
    return 12 if isinstance(value, float) or not -(2**63) <= operator.index(value) < 2**63 else 0


@dataclasses.dataclass(frozen=True)
class Whole(Kind):
    """A whole number from `low` to `high`, both among them."""

    low: int
    high: int

    def is_plain(self, value: Any) -> bool:
        return type(value) is int and self.low <= value <= self.high

    def faults(self, value: Any, path: str) -> Iterator[Fault]:
        code = whole_fault(value)
        if code:
            yield Fault(code, path, f"{value!r} is no whole number of 64 bits")
        elif not self.low <= operator.index(value) <= self.high:
            yield Fault(14, path, f"{value} is not in {between(self.low, self.high)}")

    def taken(self, value: Any) -> int:
        return operator.index(value)


class Flag(Kind):
    """`True` or `False`."""

    def faults(self, value: Any, path: str) -> Iterator[Fault]:
        if not isinstance(value, bool):
            yield Fault(11, path, f"{value!r} is neither True nor False")


@dataclasses.dataclass(frozen=True)
class Text(Kind):
    """A text of `least` to `most` bytes in UTF-8."""

    least: int
    most: int

    def faults(self, value: Any, path: str) -> Iterator[Fault]:
        if not isinstance(value, str):
            yield Fault(11, path, f"{value!r} is no text")
        elif not self.least <= len(value.encode("utf-8", "surrogatepass")) <= self.most:
            yield Fault(15, path, f"the text has not {between(self.least, self.most)} bytes")


@dataclasses.dataclass(frozen=True)
class Word(Kind):
    """A member of `words`, or its text."""

    words: Type[Enum]

    def faults(self, value: Any, path: str) -> Iterator[Fault]:
        if isinstance(value, self.words):
            return
        if not isinstance(value, str):
            yield Fault(11, path, f"{value!r} is no text")
        elif value not in [word.value for word in self.words]:
            yield Fault(17, path, f"{value!r} is none of {', '.join(str(word.value) for word in self.words)}")

    def taken(self, value: Any) -> Enum:
        return self.words(value)

    def tree(self, value: Any) -> Any:
        return value.value


@dataclasses.dataclass(frozen=True)
class Row(Kind):
    """A list of `least` to `most` values of one kind."""

    kind: Kind
    least: int
    most: int

    def is_plain(self, value: Any) -> bool:
        return type(value) in (list, tuple) and self.least <= len(value) <= self.most and all(
            map(self.kind.is_plain, value)
        )

    def faults(self, value: Any, path: str) -> Iterator[Fault]:
        if not is_list(value):
            yield Fault(11, path, "the value is no list")
            return
        if not self.least <= len(value) <= self.most:
            yield Fault(15, path, f"there are {len(value)} entries, and not {between(self.least, self.most)}")
        for place, entry in enumerate(value):
            yield from self.kind.faults(entry, f"{path}/{place}")

    def taken(self, value: Any) -> Tuple[Any, ...]:
        return tuple(map(self.kind.taken, value))

    def tree(self, value: Any) -> Any:
        return [self.kind.tree(entry) for entry in value]


class Matrix(Tuple[Tuple[int, ...], ...]):
    """A matrix that was found to have no fault, which is not looked for again when a model is made of another."""

    kind: "Square"


@dataclasses.dataclass(frozen=True)
class Square(Kind):
    """A matrix: as many rows as columns, of whole numbers from `low` to `high`; as many as a million of them."""

    low: int
    high: int
    most: int

    def faults(self, value: Any, path: str) -> Iterator[Fault]:
        if isinstance(value, Matrix) and value.kind == self:
            return
        if not is_list(value):
            yield Fault(11, path, "the value is no list of rows")
            return
        size = len(value)
        lengths = {len(row) if is_list(row) else size for row in value}
        if not 1 <= size <= self.most:
            yield Fault(15, path, f"there are {size} rows, and not {between(1, self.most)}")
        elif len(lengths) == 1 and lengths != {size}:
            yield Fault(15, path, f"there are {size} rows of {lengths.pop()} entries")
            return
        row_kind = Row(Whole(self.low, self.high), size, size)
        for place, row in enumerate(value):
            if not (is_list(row) and len(row) == size and self.is_plain_row(row)):
                yield from row_kind.faults(row, f"{path}/{place}")

    def is_plain_row(self, row: Sequence[Any]) -> bool:
        """Whether all entries are numbers of Python in the range, found without a look at each by name."""
        return set(map(type, row)) == {int} and min(row) >= self.low and max(row) <= self.high

    def taken(self, value: Any) -> Matrix:
        if isinstance(value, Matrix) and value.kind == self:
            return value
        matrix = Matrix(tuple(map(operator.index, row)) for row in value)
        matrix.kind = self
        return matrix


@dataclasses.dataclass(frozen=True)
class Span(Kind):
    """An interval `[low, high]` of numbers up to `most`, both ends among them."""

    most: int

    def faults(self, value: Any, path: str) -> Iterator[Fault]:
        found = list(Row(Whole(0, self.most), 2, 2).faults(value, path))
        yield from found
        if not found and value[0] > value[1]:
            yield Fault(19, path, f"{value[0]} is after {value[1]}")

    def taken(self, value: Any) -> Tuple[int, int]:
        return operator.index(value[0]), operator.index(value[1])

    def tree(self, value: Any) -> Any:
        return list(value)


@dataclasses.dataclass(frozen=True)
class Either(Kind):
    """One value for all, or a list of values, one for each."""

    one: Kind
    each: Kind

    def kind_of(self, value: Any) -> Kind:
        return self.each if is_list(value) else self.one

    def is_plain(self, value: Any) -> bool:
        return self.kind_of(value).is_plain(value)

    def faults(self, value: Any, path: str) -> Iterator[Fault]:
        yield from self.kind_of(value).faults(value, path)

    def taken(self, value: Any) -> Any:
        return self.kind_of(value).taken(value)

    def tree(self, value: Any) -> Any:
        return self.kind_of(value).tree(value)


@dataclasses.dataclass(frozen=True)
class Maybe(Kind):
    """A value of a kind, or None, which means an absent field."""

    kind: Kind

    def is_plain(self, value: Any) -> bool:
        return value is None or self.kind.is_plain(value)

    def faults(self, value: Any, path: str) -> Iterator[Fault]:
        if value is not None:
            yield from self.kind.faults(value, path)

    def taken(self, value: Any) -> Any:
        return None if value is None else self.kind.taken(value)

    def tree(self, value: Any) -> Any:
        return None if value is None else self.kind.tree(value)


@dataclasses.dataclass(frozen=True)
class Inner(Kind):
    """A record, or the JSON object of one."""

    record: "Type[Record]"

    def is_plain(self, value: Any) -> bool:
        return isinstance(value, self.record)

    def faults(self, value: Any, path: str) -> Iterator[Fault]:
        if not isinstance(value, self.record):
            yield from self.record.faults_of(value, path)

    def taken(self, value: Any) -> "Record":
        return value if isinstance(value, self.record) else self.record.made_of(value)

    def tree(self, value: Any) -> Any:
        return value.tree()


@lru_cache(maxsize=None)
def key_of(name: str) -> str:
    """The key in the file of a field of a record: `from_` is `from`, which Python keeps for itself."""
    return name.rstrip("_")


KNOWN_KINDS: "Dict[type, Mapping[str, Kind]]" = {}
fields_of = lru_cache(maxsize=None)(dataclasses.fields)
"""The fields of a record; looked up once a record."""


def kinds_of(record: "Type[Record]") -> Mapping[str, Kind]:
    """The kind of each field of a record, in the order of the fields; looked up once a record."""
    if record not in KNOWN_KINDS:
        hints = get_type_hints(record, include_extras=True)
        KNOWN_KINDS[record] = {
            field.name: hints[field.name].__metadata__[0] for field in dataclasses.fields(record)
        }
    return KNOWN_KINDS[record]


@dataclasses.dataclass(frozen=True)
class Record:
    """A frozen dataclass that checks its fields when it is made, and is read from and written as a JSON object."""

    def __post_init__(self) -> None:
        for name, kind in kinds_of(type(self)).items():
            value = getattr(self, name)
            for fault in () if kind.is_plain(value) else kind.faults(value, "/" + key_of(name)):
                raise Refused(fault, type(self).__name__)
            object.__setattr__(self, name, kind.taken(value))
        for fault in self.own_faults():
            raise Refused(fault, type(self).__name__)

    def own_faults(self) -> Iterator[Fault]:
        """What is wrong between fields that are right by themselves."""
        return iter(())

    @classmethod
    def faults_of(cls, tree: Any, path: str = "") -> Iterator[Fault]:
        """Each fault of a JSON object that should be such a record; none exactly if `of` takes it."""
        if not isinstance(tree, Mapping):
            yield Fault(11, path, f"the value is no object of the kind {cls.__name__}")
            return
        is_well, known = True, set()
        for field in fields_of(cls):
            key = key_of(field.name)
            known.add(key)
            for fault in field_faults(cls, field, tree, f"{path}/{key}"):
                is_well = False
                yield fault
        for key in sorted(set(tree) - known, key=str):
            is_well = False
            yield Fault(13, f"{path}/{key}")
        if is_well:
            for fault in cls.made_of(tree).own_faults():
                yield Fault(fault.code, path + fault.path, fault.detail)

    @classmethod
    def of(cls: Type[R], tree: Any) -> R:
        """The record of a JSON object. Raises `Refused` with the first fault."""
        for fault in cls.faults_of(tree):
            raise Refused(fault, cls.__name__)
        return cls.made_of(tree)

    @classmethod
    def made_of(cls: Type[R], tree: Mapping[str, Any]) -> R:
        """The record of an object whose fields have no fault."""
        made = object.__new__(cls)
        for field in fields_of(cls):
            key = key_of(field.name)
            value = kinds_of(cls)[field.name].taken(tree[key]) if key in tree else field.default
            object.__setattr__(made, field.name, value)
        return made

    def tree(self) -> Dict[str, Any]:
        """The record as a JSON object; fields that have their default are left out."""
        kinds, out = kinds_of(type(self)), {}
        for field in fields_of(type(self)):
            value = getattr(self, field.name)
            if field.default is dataclasses.MISSING or value != field.default:
                out[key_of(field.name)] = kinds[field.name].tree(value)
        return out


def field_faults(cls: "Type[Record]", field: Any, tree: Mapping[str, Any], path: str) -> Iterator[Fault]:
    """The faults of one field of a JSON object: absent, null, or those of its kind."""
    key = key_of(field.name)
    if key not in tree:
        if field.default is dataclasses.MISSING:
            yield Fault(10, path)
    elif tree[key] is None:
        yield Fault(11, path, "null means nothing here; leave the field out")
    elif not kinds_of(cls)[field.name].is_plain(tree[key]):
        yield from kinds_of(cls)[field.name].faults(tree[key], path)
