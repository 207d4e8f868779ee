"""What the desk answers, without HTTP: paths after the token, JSON in and out."""

from __future__ import annotations

import base64
import binascii
import json
import os
import threading
from collections import OrderedDict
from dataclasses import dataclass, field, replace
from typing import Any, Callable, Dict, List, Mapping, Optional, Sequence, Tuple

from ..errors import JambulskegError
from ..places import Measure
from ..program import Program
from ..tables import whole
from .assets import ASSETS, asset
from .changes import Move, change_of
from .days import Answer, OpenDay, capital
from .exporting import exported
from .folder import KEPT, Basis, Folder, NoSuchDay
from .guard import Turned
from .offers import Offers, offers
from .opening import Upload, Ways, basis_of_model, basis_of_tables, example_basis, examples
from .pages import beside, checked, drawn_parts, problem_of, told
from .searching import Searches
from .states import BadChange

__all__ = ["Reply", "Service"]

MOST_OPEN = 6
"""How many days are kept open."""
DAY = 1440
FAR = 10**6
"""The greatest number of a form."""
UNITS = {"km": 1.0, "m": 0.001}
"""How many kilometres the units of x and y are."""


@dataclass(frozen=True)
class Reply:
    """An answer: its status, its kind, its bytes, and the name of the file that it is saved as, if there is one."""

    status: int
    kind: str
    data: bytes
    file: str = ""

    @classmethod
    def of(cls, tree: Any, status: int = 200) -> "Reply":
        """An answer in JSON."""
        data = json.dumps(tree, separators=(",", ":")).encode("ascii")
        return cls(status, "application/json; charset=utf-8", data)

    def headers(self) -> Mapping[str, str]:
        """The headers that go with it."""
        return {"Content-Disposition": f'attachment; filename="{self.file}"'} if self.file else {}


@dataclass
class Service:
    """A folder of days, the program, and the searches that are at work."""

    folder: Folder
    program: Program
    searches: Searches
    days: "OrderedDict[str, OpenDay]" = field(default_factory=OrderedDict)
    lock: threading.Lock = field(default_factory=threading.Lock)

    def close(self) -> None:
        """Ends searches, and leaves the folder."""
        self.searches.stop_all()
        for day in self.days.values():
            day.close()
        self.folder.close()

    def get(self, parts: Sequence[str]) -> Reply:
        """The answer to what is asked for. Raises `Turned` if there is nothing."""
        name = "/".join(parts) or "page"
        if name in ASSETS:
            kind, data = asset(name)
            return Reply(200, kind, data)
        if parts[:1] == ["api"]:
            return self.minded(lambda: self.got(list(parts[1:])))
        raise Turned(404, "there is nothing here")

    def post(self, parts: Sequence[str], tree: Any) -> Reply:
        """The answer to what is to be changed. Raises `Turned` if there is nothing of the kind."""
        if parts[:1] != ["api"] or not isinstance(tree, dict):
            raise Turned(404 if isinstance(tree, dict) else 400, "there is nothing here")
        return self.minded(lambda: self.posted(list(parts[1:]), tree))

    def minded(self, work: Callable[[], Reply]) -> Reply:
        """What work gives; what goes wrong is told in a sentence."""
        try:
            return work()
        except NoSuchDay as problem:
            raise Turned(404, str(problem)) from None
        except JambulskegError as problem:
            return Reply.of(problem_of(problem), 422)
        except OSError as problem:
            return Reply.of({"error": f"the folder of days: {problem.strerror}"}, 507)

    def got(self, parts: List[str]) -> Reply:
        """The answer to a path after `api`."""
        if parts == ["days"]:
            return Reply.of({
                "days": [self.folder.told(identity) for identity in self.folder.identities()],
                "examples": examples(), "folder": self.folder.path,
            })
        if parts[:1] == ["beside"] and len(parts) == 5:
            days = self.day(parts[1]), self.day(parts[3])
            return Reply.of(beside(days, (self.step(days[0], parts[2]), self.step(days[1], parts[4]))))
        if parts[:1] != ["day"] or len(parts) < 2:
            raise Turned(404, "there is nothing here")
        day, rest = self.day(parts[1]), parts[2:]
        if rest[:1] == ["why"] and len(rest) == 2:
            return self.why(day, rest[1])
        if rest[:1] == ["export"] and len(rest) == 2:
            return self.file(day, rest[1])
        plain: Dict[Tuple[str, ...], Callable[[], Any]] = {
            (): lambda: told(day), ("charts",): lambda: drawn_parts(day), ("search",): lambda: self.search_tree(day),
            ("steps",): lambda: steps_tree(day), ("checked",): lambda: checked(day),
        }
        if tuple(rest) not in plain:
            raise Turned(404, "there is nothing here")
        return Reply.of(plain[tuple(rest)]())

    def day(self, identity: str) -> OpenDay:
        """A day, opened if it was not yet. Raises `NoSuchDay`, and as `Folder.opened` does."""
        with self.lock:
            if identity not in self.days:
                self.days[identity] = OpenDay(identity, *self.folder.opened(identity), self.program)
                self.make_room()
            self.days.move_to_end(identity)
            return self.days[identity]

    def make_room(self) -> None:
        """Closes days that were not asked for of late."""
        for identity in list(self.days)[:-MOST_OPEN]:
            if not self.searches.is_busy(identity):
                self.days.pop(identity).close()

    def step(self, day: OpenDay, text: str) -> Optional[int]:
        """A step of a day by its number, or `now`."""
        if text == "now":
            return None
        if not text.isdecimal() or len(text) > 9 or int(text) not in day.steps:
            raise Turned(404, "the day has no such step")
        return int(text)

    def file(self, day: OpenDay, word: str) -> Reply:
        """A day as a file for others."""
        found = exported(day, word)
        if found is None:
            raise Turned(404, "there is no such kind of file")
        kind, ending, data = found
        return Reply(200, kind, data, f"{day.identity}.{ending}")

    def why(self, day: OpenDay, text: str) -> Reply:
        """Where a visit could go, and why it fits nowhere else."""
        with day.lock:
            state, within, asker = day.step.state, day.within, day.asker(day.step.state.edits).apart()
        if not text.isdecimal() or len(text) > 4 or int(text) not in within.model.visits():
            raise Turned(404, "the day has no such visit")
        return Reply.of({"offers": offers(asker, state, int(text), within)})

    def search_tree(self, day: OpenDay) -> Any:
        """How the latest search of a day goes."""
        search = self.searches.of(day.identity)
        return {"status": "none"} if search is None else search.tree()

    def posted(self, parts: List[str], tree: Mapping[str, Any]) -> Reply:
        """The answer to a change after `api`."""
        if parts == ["days"]:
            return Reply.of({"id": self.made(tree)})
        if parts[:1] != ["day"] or len(parts) != 3:
            raise Turned(404, "there is nothing here")
        day, word = self.day(parts[1]), parts[2]
        if word == "plan":
            return Reply.of(self.searches.begin(day, seconds_of(tree)).tree())
        if word == "stop":
            search = self.searches.of(day.identity)
            if search is not None:
                search.stop()
            return Reply.of(self.search_tree(day))
        if word == "name":
            day.rename(text_of(tree, "name"))
            return Reply.of({"name": day.name})
        return self.changed(day, word, tree)

    def made(self, tree: Mapping[str, Any]) -> str:
        """Makes a day, which is open at once; the word that it is found by."""
        basis, keep = self.basis_of(tree)
        with self.lock:
            identity = self.folder.created(basis, name_of(tree, basis), keep)
            self.days[identity] = OpenDay(identity, basis, self.folder.journal(identity), self.program)
            self.make_room()
        return identity

    def changed(self, day: OpenDay, word: str, tree: Mapping[str, Any]) -> Reply:
        """The answer to a change of a day, and the day after it."""
        works: Dict[str, Callable[[], Answer]] = {
            "change": lambda: change(day, tree.get("change"), whole_of(tree, "step")),
            "undo": day.undo, "redo": day.redo, "goto": lambda: day.goto(whole_of(tree, "number")),
        }
        if word not in works:
            raise Turned(404, "there is nothing here")
        if self.searches.is_busy(day.identity):
            raise BadChange("a search is at work on this day; stop it first")
        with day.lock:
            return Reply.of({"answer": works[word]().tree(), "day": told(day)})

    def basis_of(self, tree: Mapping[str, Any]) -> Tuple[Basis, List[Tuple[str, bytes]]]:
        """What a new day is made of, and the files that are kept with it."""
        kind = text_of(tree, "from")
        if kind == "example":
            return clocked(example_basis(text_of(tree, "example"), self.program), tree), []
        if kind == "model":
            return clocked(basis_of_model(upload_of(tree, "model"), self.program), tree), []
        if kind != "tables":
            raise BadChange("a day is made of tables, of a model, or of an example")
        places, vans = upload_of(tree, "places"), upload_of(tree, "vans")
        return basis_of_tables(places, vans, ways_of(tree)), list(zip(KEPT, (places[1], vans[1])))


def change(day: OpenDay, tree: Any, step: int) -> Answer:
    """Makes a change that the page sent. A move to the `best` place of a van goes where it costs least."""
    if isinstance(tree, dict) and tree.get("kind") == "move" and tree.get("best") is True:
        move = change_of({**tree, "before": None}, day.within)
        asker, state = day.asker(day.step.state.edits), day.step.state
        if isinstance(move, Move) and len(move.nodes) == 1 and move.vehicle is not None:
            offer = Offers(asker, state, move.nodes[0], day.within).of_vehicle(move.vehicle)
            if offer["extra"] is None:
                return Answer(False, day.at, capital(offer["sentence"]), "schedule", move.vehicle)
            return day.change(replace(move, before=offer["before"]), step)
    return day.change(change_of(tree, day.within), step)


def clocked(basis: Basis, tree: Mapping[str, Any]) -> Basis:
    """A day whose time 0 lies at a time of day, if the request says so. Raises `BadChange`."""
    text = text_of(tree, "clock").strip() if "clock" in tree else ""
    if not text:
        return basis
    try:
        minute = whole(text)
    except ValueError:
        raise BadChange("the time 0 lies at a time of day such as 8:00") from None
    if not 0 <= minute < DAY:
        raise BadChange("the time 0 lies at a time of day such as 8:00")
    return replace(basis, clock=minute)


def name_of(tree: Mapping[str, Any], basis: Basis) -> str:
    """The name of a new day."""
    name = " ".join(text_of(tree, "name").split()) if "name" in tree else ""
    return (name or os.path.splitext(basis.source)[0].split(" (")[0] or "day")[:80]


def text_of(tree: Mapping[str, Any], name: str) -> str:
    """A text of a request. Raises `BadChange`."""
    value = tree.get(name)
    if not isinstance(value, str):
        raise BadChange(f"'{name}' is a text")
    return value


def whole_of(tree: Mapping[str, Any], name: str) -> int:
    """A whole number of a request. Raises `BadChange`."""
    value = tree.get(name)
    if not isinstance(value, int) or isinstance(value, bool):
        raise BadChange(f"'{name}' is a whole number")
    return value


def real_of(tree: Mapping[str, Any], name: str, default: float) -> float:
    """A number above 0 of a request. Raises `BadChange`."""
    value = tree.get(name, default)
    if not isinstance(value, (int, float)) or isinstance(value, bool) or not 0 < value <= FAR:
        raise BadChange(f"'{name}' is a number above 0")
    return float(value)


def seconds_of(tree: Mapping[str, Any]) -> float:
    """The seconds that a search is given."""
    return real_of(tree, "seconds", 10)


def ways_of(tree: Mapping[str, Any]) -> Ways:
    """How the places of a request are joined. Raises `BadChange`."""
    word, unit = tree.get("measure", Measure.EUCLID.value), tree.get("unit", "km")
    if word not in (Measure.EUCLID.value, Measure.MANHATTAN.value) or unit not in UNITS:
        raise BadChange("the distances are none that the desk knows")
    wait = int(real_of(tree, "wait", 480))
    return Ways(Measure(word), UNITS[unit], real_of(tree, "speed", 40), real_of(tree, "cost", 1), wait)


def upload_of(tree: Mapping[str, Any], name: str) -> Upload:
    """A file of a request: its name, and its bytes in base 64. Raises `BadChange`."""
    value = tree.get(name)
    if not isinstance(value, dict):
        raise BadChange(f"the file '{name}' is missing")
    try:
        return text_of(value, "name")[:200], base64.b64decode(text_of(value, "data"), validate=True)
    except (binascii.Error, ValueError):
        raise BadChange(f"the file '{name}' did not come whole") from None


def steps_tree(day: OpenDay) -> Any:
    """All steps that lead to the present one."""
    with day.lock:
        steps = day.path_to(day.at, len(day.steps))
        return {"steps": [{"number": step.number, "words": step.words, "cost": step.cost, "fine": step.is_fine}
                          for step in steps]}
