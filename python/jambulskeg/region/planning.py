"""The plan of a region: its parts solved side by side, then its seams mended in rounds, each round kept on disk."""

from __future__ import annotations

import hashlib
import json
import time
from dataclasses import asdict, dataclass, replace
from typing import Any, Callable, Dict, List, Optional, Sequence, Tuple

from ..errors import JambulskegError
from ..program import ProgramLike
from ..records import MOST_TRIES
from ..solution import Solution
from .crew import Crew
from .cutting import MOST_VISITS, cut
from .day import Part, Region
from .given import Given
from .mending import Shape, Standing, applied, effort_of, first_effort, groups_of
from .near import Near, nearest
from .pace import Pace
from .store import Store
from .tasks import Round, solve_parts

__all__ = ["Asked", "Entry", "Planned", "Progress", "RunDiffers", "plan"]

CUTTING_SHARE = 0.4
"""The share of the tries that the first parts get."""
LEVELS = (1, 3, 10)
"""How many times the first tries a seam gets, the next when few routes can be mended by the present ones."""
ALL_FROM = 1
"""From this place in `LEVELS` on routes that come from one part are solved anew too, since the tries are more then."""
OF_A_ROUND = 10**6
"""The numbers that the parts of a round have for themselves."""
FEWEST_TRIES, FIRST_TRIES = 30_000, 1_500_000
"""The first tries of a seam, at least and at most."""
PASSES = 12
"""The tries are enough for as many rounds over all routes with the first tries of a seam."""
RESTED = 0.15
"""The next tries are begun when no larger share of the routes is awake."""
ROUNDS = 16
"""A round has about this part of the tries at most, so that a run that is ended has lost little."""
LEAST_PARTS = 16
"""A round has as many parts at least, so that few processors wait for the last one."""
NEAR = 10
"""How many near visits of each visit say which routes are neighbours."""


class RunDiffers(JambulskegError, ValueError):
    """A folder holds a run of other tables or other words, or one that was not to go on."""


@dataclass(frozen=True)
class Asked:
    """What is asked of a plan: the seconds for all of it with `jobs` processes at a time, or the moves that are tried
    in all (`tries`; no clock is looked at then); how large parts and seams are at most. By itself a seam has the usual
    shape for the program that searches it.
    """

    seconds: float = 60
    jobs: int = 1
    tries: Optional[int] = None
    most: int = MOST_VISITS
    shape: Optional[Shape] = None
    seams: bool = True


@dataclass(frozen=True)
class Entry:
    """A round in the journal: its number (0: the first parts), how many parts it had and how many became cheaper, the
    tries of each, the cost after it, how many visits that must be made have no van, how many vans leave, and the
    seconds since the beginning."""

    number: int
    parts: int
    better: int
    tries: int
    cost: int
    missing: int
    vans: int
    seconds: float

    def line(self) -> str:
        """The round in words."""
        what = "parts" if self.number == 0 else f"seams, round {self.number}"
        missing = f"; {self.missing} visits have no van yet" if self.missing else ""
        better = "" if self.number == 0 else f", {self.better} cheaper"
        return (
            f"{self.seconds:7.1f} s  {what}: {self.parts} of {self.tries:,} tries{better}; cost {self.cost:,}, "
            f"{self.vans} vans{missing}"
        )


Progress = Callable[[Entry], None]


@dataclass(frozen=True)
class Planned:
    """How far a run is: the plan, the place in `LEVELS`, the tries so far, the first parts, the vans whose routes a
    seam has changed, the journal, and why the run has ended (empty while it goes on)."""

    standing: Standing
    level: int
    tried: int
    parts: Tuple[Part, ...]
    mended: Tuple[int, ...]
    journal: Tuple[Entry, ...]
    ended: str = ""

    def text(self) -> str:
        """The file of a run's state."""
        return json.dumps({
            **{key: getattr(self, key) for key in ("level", "tried", "mended", "ended")},
            "routes": self.standing.routes, "awake": sorted(self.standing.awake), "origins": self.standing.origins,
            "parts": [asdict(part) for part in self.parts], "journal": [asdict(entry) for entry in self.journal],
        }, separators=(",", ":"))

    @classmethod
    def of(cls, tree: Dict[str, Any]) -> "Planned":
        """The state that a file has."""
        routes = tuple(tuple(visits) for visits in tree["routes"])
        return cls(
            Standing(routes, frozenset(tree["awake"]), tuple(tree["origins"])), tree["level"], tree["tried"],
            tuple(Part(tuple(part["visits"]), tuple(part["vans"])) for part in tree["parts"]),
            tuple(tree["mended"]), tuple(Entry(**entry) for entry in tree["journal"]), tree["ended"],
        )


@dataclass(frozen=True)
class Outcome:
    """What a part came to: the lists of its vans where they are kept, by how much they are dearer than before (or what
    the routes cost, if there was nothing before), and how many more visits that must be made have no van."""

    lists: Optional[List[List[int]]] = None
    cost: int = 0
    missing: int = 0


def plan(
    region: Region, asked: Asked, crew: Crew, store: Store, program: ProgramLike = None,
    progress: Optional[Progress] = None, *, resume: bool = False, began: Optional[float] = None,
) -> Planned:
    """The plan of a region, by as many rounds as the tries or the seconds allow.

    With `tries` its rounds depend on the region and on what is asked alone, not on the crew or the machine; with
    seconds, on the speed of these too. `began` is when the seconds began, as `time.monotonic` tells it. Raises
    `RunDiffers`, `NotSolved`, `EngineFailed`, `Refused`, `OSError`; what was solved is kept then.
    """
    run = Run(region, asked, crew, store, program, progress or (lambda entry: None), began)
    state = run.found(resume) or run.first_parts()
    while not state.ended:
        why = run.why_ended(state)
        state = run.keep(replace(state, ended=why)) if why else run.next_round(state)
    return state


class Run:
    """A run in a folder."""

    def __init__(
        self, region: Region, asked: Asked, crew: Crew, store: Store, program: ProgramLike, progress: Progress,
        began: Optional[float],
    ) -> None:
        self._region, self._asked, self._crew, self._store = region, asked, crew, store
        self._program, self._progress, self._refines = program, progress, crew.searcher.refines
        self._shape = asked.shape or Shape.usual(self._refines)
        self._began, self._before = time.monotonic() if began is None else began, 0.0
        self._pace, self._budget = Pace(asked.seconds, asked.jobs, self.elapsed), asked.tries or 0
        self._head: Dict[str, Any] = {}
        self._near = Near()

    def found(self, resume: bool) -> Optional[Planned]:
        """The state that the folder has, None where it has none. Raises `RunDiffers`."""
        head = {"digest": digest_of(self._region, self._asked, self._shape, self._refines)}
        old, state = self._store.read("asked.json"), self._store.read("state.json")
        if old is not None and not resume and not (state or {}).get("ended"):
            raise RunDiffers(
                f"the folder {self._store.folder} has a run that is not at its end; --resume goes on with it, and "
                "another --folder begins anew"
            )
        if old is not None and resume and old.get("digest") != head["digest"]:
            raise RunDiffers(
                f"the run in the folder {self._store.folder} has other tables, was asked otherwise, or its parts were "
                "searched by another program"
            )
        if resume and state is not None:
            found = Planned.of(state)
            self._before = found.journal[-1].seconds
            if not found.ended:
                self._measure(found.parts)
            return found
        if not resume:
            for folder in ("answers", "checked"):
                self._store.forget(folder)
            self._store.take_away("state.json")
            old = None
        self._head = {**head, **(old or {})}
        self._store.write("asked.json", json.dumps(self._head), lasting=True)
        return None

    def elapsed(self) -> float:
        """The seconds since the beginning, those of a run that was ended earlier included."""
        return self._before + time.monotonic() - self._began

    def _measure(self, parts: Sequence[Part]) -> None:
        """Finds how many moves are tried in all, if the seconds say it."""
        if self._asked.tries is None:
            self._pace.measure(self._region, parts, self._crew)
            self._budget = max(1, self._pace.tries())

    def first_parts(self) -> Planned:
        """The parts that the region is cut into, solved; visits of a part without vans wait for a seam."""
        parts = [part for part in cut(self._region, self._asked.most) if part.vans]
        tries = self._first_tries(parts)
        effort = first_effort(tries, max((len(part.visits) for part in parts), default=0), self._refines)

        def judge(at: int, given: Given, solution: Optional[Solution]) -> Outcome:
            if solution is None:
                return Outcome()
            return Outcome(given.lists(solution), solution.cost - solution.parts.penalty)

        outcomes = solve_parts(
            Round(self._region, 0, parts, effort, jobs=self._asked.jobs), self._crew, self._store, judge, self._program
        )
        self._pace.note(tries * len(parts), len(parts))
        standing = Standing(((),) * len(self._region.vans))
        for at, (part, outcome) in enumerate(zip(parts, outcomes)):
            standing = applied(standing, part, outcome.lists or [[] for _ in part.vans], at)
        entry = self._entry(0, standing, outcomes, tries, (self._penalties(standing), 0))
        entry = replace(entry, missing=self._missing(standing))
        return self.keep(Planned(standing, 0, tries * len(parts), tuple(parts), (), (entry,)))

    def _first_tries(self, parts: Sequence[Part]) -> int:
        """The tries of the first parts; those of a run that was ended before they were solved, so that its answers
        hold."""
        if "first" not in self._head:
            self._measure(parts)
            share, searched = CUTTING_SHARE if self._asked.seams else 1.0, len(parts)
            if self._asked.tries is None:  # The last parts keep few processors busy.
                searched += -searched % self._pace.jobs
            tries = max(1, min(MOST_TRIES, int(self._budget * share) // max(1, searched)))
            self._head["first"] = tries
            self._store.write("asked.json", json.dumps(self._head), lasting=True)
        else:
            self._measure(parts)
        first: int = self._head["first"]
        return first

    def _penalties(self, standing: Standing) -> int:
        """The penalties of visits that have no van."""
        made = standing.van_of()
        return sum(self._region.places[visit].penalty or 0 for visit in self._region.visits if visit not in made)

    def _missing(self, standing: Standing) -> int:
        """How many visits that must be made have no van."""
        made = standing.van_of()
        return sum(
            1 for visit in self._region.visits if visit not in made and self._region.places[visit].penalty is None
        )

    def why_ended(self, state: Planned) -> str:
        """Why no further round is begun, empty where one is."""
        if not self._asked.seams:
            return "seams were not asked for"
        if state.level >= len(LEVELS):
            return "no part gains"
        if self._asked.tries is None:
            return "the seconds are over" if self._tries(state) < FEWEST_TRIES else ""
        return "the tries are used up" if self._left(state) < self._tries(state) else ""

    def _left(self, state: Planned) -> int:
        """The tries that are left."""
        return self._pace.tries() if self._asked.tries is None else self._budget - state.tried

    def _tries(self, state: Planned) -> int:
        """The tries of a seam; no more than each process has left, if the clock ends the run."""
        seams = max(1, len(state.standing.used()) // self._shape.routes)
        first = int(self._budget * (1 - CUTTING_SHARE)) // (PASSES * seams)
        tries = max(FEWEST_TRIES, min(FIRST_TRIES, first)) * LEVELS[min(state.level, len(LEVELS) - 1)]
        return min(MOST_TRIES, tries, self._left(state) // self._pace.jobs if self._asked.tries is None else tries)

    def _room(self, state: Planned, tries: int) -> int:
        """How many parts the next round may have."""
        left, jobs = self._left(state), self._pace.jobs if self._asked.tries is None else 1
        return min(max(LEAST_PARTS, self._budget // ROUNDS // tries), max(1, left // (tries * jobs)) * jobs)

    def next_round(self, state: Planned) -> Planned:
        """The state after a round of seams, or after all routes were woken for more tries."""
        region, standing, used = self._region, state.standing, state.standing.used()
        self._near = self._near or nearest(region.points, region.visits, NEAR)
        number, tries = len(state.journal), max(1, self._tries(state))
        parts = []
        if len(standing.awake.intersection(used)) > RESTED * len(used):
            parts = groups_of(
                region, standing, self._near, number, self._shape, seams_alone=state.level < ALL_FROM,
                most=self._room(state, tries),
            )
        if not parts:
            return replace(state, level=state.level + 1, standing=replace(standing, awake=frozenset(used)))
        lists = [[standing.routes[van] for van in part.vans] for part in parts]

        effort = effort_of(number, tries, self._refines)
        outcomes = solve_parts(
            Round(region, number, parts, effort, lists, self._asked.jobs), self._crew, self._store, gain, self._program
        )
        self._pace.note(tries * len(parts), len(parts))
        mended = set(state.mended)
        for at, (part, outcome) in enumerate(zip(parts, outcomes)):
            standing = applied(standing, part, outcome.lists, OF_A_ROUND * number + at)
            mended.update(part.vans if outcome.lists is not None else ())
        last = state.journal[-1]
        entry = self._entry(number, standing, outcomes, tries, (last.cost, last.missing))
        return self.keep(replace(
            state, standing=standing, tried=state.tried + tries * len(parts), mended=tuple(sorted(mended)),
            journal=(*state.journal, entry),
        ))

    def _entry(
        self, number: int, standing: Standing, outcomes: Sequence[Outcome], tries: int, before: Tuple[int, int]
    ) -> Entry:
        """The journal's entry of a round, after the cost and the missing visits before it."""
        return Entry(
            number, len(outcomes), sum(outcome.lists is not None for outcome in outcomes), tries,
            before[0] + sum(outcome.cost for outcome in outcomes),
            before[1] + sum(outcome.missing for outcome in outcomes), len(standing.used()),
            round(self.elapsed(), 1),
        )

    def keep(self, state: Planned) -> Planned:
        """Keeps the state on disk, after which the answers of its round are not needed."""
        self._store.write("state.json", state.text(), lasting=True)
        lines = [entry.line() for entry in state.journal] + ([f"ended: {state.ended}"] if state.ended else [])
        self._store.write("journal.txt", "\n".join(lines) + "\n")
        self._store.forget("answers")
        if not state.ended:
            self._progress(state.journal[-1])
        return state


def gain(_: int, given: Given, solution: Optional[Solution]) -> Outcome:
    """What a seam came to beside the routes as they were."""
    if solution is None or solution.cost >= given.cost:
        return Outcome()
    missing = given.missing(solution) - given.left
    return Outcome(given.lists(solution), solution.cost - given.cost - missing * given.duty, missing)


def digest_of(region: Region, asked: Asked, shape: Shape, refines: bool) -> str:
    """A digest of the tables and of all that a plan depends on."""
    what = region, asked.tries or asked.seconds, asked.most, shape, asked.seams, refines
    return hashlib.sha256(repr(what).encode("utf-8", "surrogatepass")).hexdigest()
