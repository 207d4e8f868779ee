"""The folder of days: each day is a folder of its own, with the model, the names, and the journal.

    FOLDER/monday/model.json      the model as it was opened
    FOLDER/monday/day.json        names of places and vehicles, where they lie, the clock, and what looked odd
    FOLDER/monday/journal         each step since

A day is made under another name and renamed when it is whole. Days are named by words of letters, digits and dashes
alone, so no name that comes from the page leads out of the folder.
"""

from __future__ import annotations

import json
import os
import re
import shutil
import tempfile
from dataclasses import dataclass
from typing import IO, Any, Dict, List, Mapping, Optional, Sequence, Tuple

from ..errors import JambulskegError
from ..model import read_model
from ..places import DayTables, Place, Van
from ..records import Model
from ..view.day import Names
from .journal import Journal, line_of, lines_read, synced_folder, write_whole

try:
    import fcntl
except ImportError:  # if there is none, two desks of one folder are not kept apart
    fcntl = None  # type: ignore[assignment]

__all__ = ["Basis", "Folder", "FolderInUse", "NoSuchDay"]

IDENTITY = re.compile("[a-z0-9][a-z0-9-]{0,63}")
JOURNAL, MODEL, DAY = "journal", "model.json", "day.json"
KEPT = ("places.csv", "vans.csv")
"""The files that a day may be made of, which are kept with it."""
LOCK = ".desk.lock"
PART = ".desk-new-"
"""How folders of days begin that are not whole yet."""


class FolderInUse(JambulskegError):
    """Another desk serves the folder."""


class NoSuchDay(JambulskegError):
    """The folder has no day of that name."""


@dataclass(frozen=True)
class Basis:
    """What a day was opened with: its model, and the two tables if it was made of them. Beside these the minute at
    which the time 0 lies, what looked odd, and what it was read from."""

    model: Model
    tables: Optional[DayTables] = None
    clock: Optional[int] = None
    doubts: Sequence[str] = ()
    source: str = ""

    @property
    def names(self) -> Names:
        """How nodes, vehicles and times are called."""
        if self.tables is None:
            return Names((), (), self.clock)
        vans = [van.name for van in self.tables.vans]
        return Names([place.name for place in self.tables.places], vans, self.clock)

    @property
    def places(self) -> Sequence[Place]:
        """Where the nodes lie, as far as that is known."""
        return () if self.tables is None else self.tables.places

    @property
    def further(self) -> Sequence[Mapping[str, str]]:
        """What else the table says of each place."""
        return () if self.tables is None else self.tables.further

    @property
    def van_further(self) -> Sequence[Mapping[str, str]]:
        """What else the table says of each vehicle."""
        return () if self.tables is None else self.tables.van_further

    @property
    def in_degrees(self) -> bool:
        """Whether places lie by longitude and latitude."""
        return self.tables is not None and self.tables.degrees

    def tree(self) -> Dict[str, Any]:
        """What is kept beside the model, as JSON."""
        return {
            "clock": self.clock, "doubts": list(self.doubts), "source": self.source,
            "tables": None if self.tables is None else tables_tree(self.tables),
        }

    @classmethod
    def of(cls, model: Model, tree: Mapping[str, Any]) -> "Basis":
        """The basis of a model and of what `tree` wrote."""
        tables = None if tree["tables"] is None else tables_of(tree["tables"])
        return cls(model, tables, tree["clock"], tree["doubts"], tree["source"])


def tables_tree(tables: DayTables) -> Dict[str, Any]:
    """What pages and files need of two tables; the rest is in the model."""
    return {
        "places": [[place.name, place.x, place.y] for place in tables.places],
        "vans": [[van.name, van.start, van.end] for van in tables.vans],
        "further": [dict(row) for row in tables.further], "degrees": tables.degrees, "delimiter": tables.delimiter,
        "van_further": [dict(row) for row in tables.van_further],
    }


def tables_of(tree: Mapping[str, Any]) -> DayTables:
    """The tables of what `tables_tree` wrote."""
    places = tuple(Place(name, x, y) for name, x, y in tree["places"])
    vans = tuple(Van(name, start, end) for name, start, end in tree["vans"])
    further, van_further = tuple(tree["further"]), tuple(tree["van_further"])
    return DayTables(places, vans, further, van_further, tree["degrees"], (), tree["delimiter"])


class Folder:
    """A folder of days that this process alone writes."""

    def __init__(self, path: str) -> None:
        """Takes the folder, which is made if it is missing. Raises `FolderInUse`, `OSError`."""
        os.makedirs(path, exist_ok=True)
        self.path = os.path.realpath(path)
        self._lock = locked(os.path.join(self.path, LOCK))
        for name in os.listdir(self.path):
            if name.startswith(PART):
                without_part(os.path.join(self.path, name))

    def close(self) -> None:
        """Leaves the folder to others, also while a program begins, which has the open lock until it runs."""
        if fcntl is not None:
            fcntl.flock(self._lock, fcntl.LOCK_UN)
        self._lock.close()

    def identities(self) -> List[str]:
        """The days of the folder, in the order of their names."""
        return sorted(name for name in os.listdir(self.path) if self.is_day(name))

    def is_day(self, identity: str) -> bool:
        """Whether there is a day of this name in the folder itself."""
        if IDENTITY.fullmatch(identity) is None:
            return False
        path = os.path.join(self.path, identity)
        return not os.path.islink(path) and os.path.isfile(os.path.join(path, JOURNAL))

    def path_of(self, identity: str) -> str:
        """The folder of a day. Raises `NoSuchDay`."""
        if not self.is_day(identity):
            raise NoSuchDay("there is no such day in the folder")
        return os.path.join(self.path, identity)

    def created(self, basis: Basis, name: str, keep: Sequence[Tuple[str, bytes]] = ()) -> str:
        """Makes a day, with copies of the files that it was read from; the word that it is found by."""
        part = tempfile.mkdtemp(prefix=PART, dir=self.path)
        files = [(MODEL, basis.model.text().encode("utf-8", "surrogatepass")),
                 (DAY, json.dumps(basis.tree()).encode("ascii")),
                 (JOURNAL, line_of({"do": "open", "name": name, "format": 1})), *keep]
        for file, data in files:
            write_whole(os.path.join(part, file), data)
        identity = self.free(name)
        os.chmod(part, 0o755)
        os.rename(part, os.path.join(self.path, identity))
        synced_folder(self.path)
        return identity

    def free(self, name: str) -> str:
        """A word for a new day of a name."""
        word = re.sub("[^a-z0-9]+", "-", name.lower()).strip("-")[:40] or "day"
        number, found = 1, word
        while os.path.lexists(os.path.join(self.path, found)):
            number += 1
            found = f"{word}-{number}"
        return found

    def opened(self, identity: str) -> Tuple[Basis, Journal]:
        """A day that was kept. Raises `NoSuchDay`, `JournalFaulty`, `OSError`, and as `read_model` does."""
        path = self.path_of(identity)
        with open(os.path.join(path, DAY), encoding="utf-8") as file:
            tree = json.load(file)
        return Basis.of(read_model(os.path.join(path, MODEL)), tree), self.journal(identity)

    def journal(self, identity: str) -> Journal:
        """The journal of a day. Raises as `opened` does."""
        return Journal.opened(os.path.join(self.path_of(identity), JOURNAL))

    def told(self, identity: str) -> Dict[str, Any]:
        """A day as the list of days shows it, read from its journal alone."""
        with open(os.path.join(self.path_of(identity), JOURNAL), "rb") as file:
            entries, _ = lines_read(file.read())
        out: Dict[str, Any] = {"id": identity, "name": identity, "cost": None, "steps": 0}
        known: Dict[int, Any] = {0: None}
        for entry in entries:
            out["name"] = entry.get("name", out["name"])
            if entry["do"] == "step":
                known[entry["number"]] = entry.get("cost")
                out["steps"] += 1
            if entry["do"] in ("step", "at"):
                out["cost"] = known.get(entry["number"])
        return out


def without_part(path: str) -> None:
    """Takes away a day that was never whole; a folder with other files is none."""
    files = {name[:-len(".part")] if name.endswith(".part") else name for name in os.listdir(path)}
    if files <= {JOURNAL, MODEL, DAY, *KEPT}:
        shutil.rmtree(path, ignore_errors=True)


def locked(path: str) -> IO[str]:
    """The open lock of a folder. Raises `FolderInUse` if another process has it."""
    handle = open(path, "w", encoding="ascii")
    try:
        if fcntl is not None:
            fcntl.flock(handle, fcntl.LOCK_EX | fcntl.LOCK_NB)
    except OSError:
        handle.close()
        raise FolderInUse(f"another desk serves the folder {os.path.dirname(path)}; close that one first") from None
    return handle
