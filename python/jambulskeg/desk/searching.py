"""Searches that are at work: each in a thread of its own, as many at a time as the desk was told.

A search changes its day once, at the end, and never for the worse.
"""

from __future__ import annotations

import threading
import time
from dataclasses import replace
from typing import Any, Dict, Optional

from ..errors import JambulskegError
from .days import Answer, OpenDay
from .improving import MOST_SECONDS, Improver
from .states import BadChange

__all__ = ["Search", "Searches"]

LEAST_SECONDS = 1
LOOK = 0.05
"""How many seconds pass between two looks whether a waiting search was stopped."""


class Search(threading.Thread):
    """A search of better routes for a day as it is at its present step."""

    def __init__(self, day: OpenDay, seconds: float, turn: threading.Semaphore) -> None:
        """Raises `BadChange` if nothing may be changed, or the seconds are none that may be given."""
        if not LEAST_SECONDS <= seconds <= MOST_SECONDS:
            raise BadChange(f"a search takes {LEAST_SECONDS} to {MOST_SECONDS} seconds")
        super().__init__(daemon=True)
        self.day, self._turn = day, turn
        self.status = "waiting"
        self.sentence = "The search waits for another one to end."
        with day.lock:
            self._at, self._state = day.at, day.step.state
            self._improver = Improver(day.asker(self._state.edits).apart(), self._state, seconds)

    @property
    def is_alive_still(self) -> bool:
        """Whether the search has not ended."""
        return self.status in ("waiting", "searching")

    def tree(self) -> Dict[str, Any]:
        """How the search goes, as JSON."""
        found = self._improver
        spent = 0.0 if self.status == "waiting" else time.monotonic() - found.began
        return {
            "status": self.status, "sentence": self.sentence, "rounds": found.rounds, "asked": found.seconds,
            "spent": round(min(spent, found.seconds), 1),
            "points": [[round(point.seconds, 2), point.cost, point.missing] for point in list(found.points)],
        }

    def stop(self) -> None:
        """Ends the search; the best day is kept."""
        self._improver.stopped.set()

    def run(self) -> None:
        """Searches, and changes the day once."""
        while not self._turn.acquire(timeout=LOOK):
            if self._improver.stopped.is_set():
                self.status, self.sentence = "ended", "The search was stopped before its turn."
                return
        try:
            self._improver.began = time.monotonic()
            self.status, self.sentence = "searching", "The search is at work."
            self._improver.search()
            sentence = self.adopted().sentence
            self.status, self.sentence = "ended", sentence
        except (JambulskegError, OSError) as problem:
            self.status, self.sentence = "failed", f"The search failed: {problem}"
        finally:
            if self.is_alive_still:
                self.status, self.sentence = "failed", "The search failed by a fault of the desk."
            self._turn.release()

    def adopted(self) -> Answer:
        """Makes a step of the best day, if it is better than the one that the search began with."""
        found = self._improver
        if found.best is None:
            return Answer(False, self._at, "The search found no day.")
        state = replace(self._state, lists=found.best[0])
        with self.day.lock:
            if self.day.at != self._at:
                return Answer(False, self.day.at, "The day was changed meanwhile; what was found is not kept.")
            if state == self._state:
                return Answer(True, self._at, "The search found nothing better, so the routes stay as they are.")
            spent = round(min(found.seconds, time.monotonic() - found.began))
            return self.day.made(state, f"planned in {spent} s")


class Searches:
    """The latest search of each day, at most this many at a time."""

    def __init__(self, jobs: int) -> None:
        self._turn = threading.BoundedSemaphore(jobs)
        self._lock = threading.Lock()
        self._latest: Dict[str, Search] = {}

    def begin(self, day: OpenDay, seconds: float) -> Search:
        """Begins a search. Raises `BadChange` if one is at work on the day, and as `Search` does."""
        with self._lock:
            if self.is_busy(day.identity):
                raise BadChange("a search is at work on this day")
            search = Search(day, seconds, self._turn)
            self._latest[day.identity] = search
            search.start()
            return search

    def of(self, identity: str) -> Optional[Search]:
        """The latest search of a day."""
        return self._latest.get(identity)

    def is_busy(self, identity: str) -> bool:
        """Whether a search of a day has not ended."""
        search = self._latest.get(identity)
        return search is not None and search.is_alive_still

    def stop_all(self) -> None:
        """Ends all searches, and waits for them."""
        for search in list(self._latest.values()):
            search.stop()
        for search in list(self._latest.values()):
            search.join(5)
