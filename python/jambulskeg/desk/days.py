"""A day that is open: its steps, the one it is at, and what the program found of it.

A change is put to the program before it becomes a step, and a step is in the journal before it is shown. Undo and redo
move between steps, which are all kept; a change after an undo begins another branch, and redo follows the latest one.
"""

from __future__ import annotations

import contextlib
import threading
from collections import OrderedDict
from dataclasses import dataclass, replace
from typing import Any, Dict, List, Mapping, Optional, Tuple

from ..complete import CannotBeDriven
from ..errors import JambulskegError, NotMet, Refused
from ..program import Program
from ..solution import Parts
from ..view.day import Day, time_dimension
from .asking import Asker, Verdict
from .changes import Change, Within
from .folder import Basis
from .journal import Journal
from .states import BadChange, Edits, Lists, State, edited, with_delta
from .touched import check_touched, listed_rules, touched_by
from .words import sentence_of

__all__ = ["Answer", "OpenDay", "Step"]

MOST_VERDICTS = 40
"""The verdicts of as many steps are kept; others are asked for again."""
MOST_ASKERS = 4
LARGE = 300
"""With as many nodes a day is large: the program is asked about the vans that a change touches, and then about all."""
MOST_TOUCHED = 8
MOST_NAME = 80


@dataclass(frozen=True)
class Step:
    """A step of a day: its number, the step that it was made from, what was done, the state after it, and its cost.

    `is_fine` says whether the program found that it keeps all rules. It is None if the program was not asked about the
    whole day yet.
    """

    number: int
    parent: int
    words: str
    state: State
    cost: int = 0
    is_fine: Optional[bool] = False


@dataclass(frozen=True)
class Answer:
    """What came of a change: whether it was made, and the step that the day is at.

    A change that was not made has a `sentence`. As far as a rule was broken, it also has the `rule`, the `vehicle`, the
    `place` in its route, and the `dimension`.
    """

    is_made: bool
    step: int
    sentence: str = ""
    rule: str = ""
    vehicle: int = -1
    place: int = -1
    dimension: str = ""
    before: Optional[Parts] = None

    def tree(self) -> Dict[str, Any]:
        """The answer as JSON."""
        return {
            "made": self.is_made, "step": self.step, "sentence": self.sentence, "rule": self.rule,
            "vehicle": self.vehicle, "place": self.place, "dimension": self.dimension,
            "before": None if self.before is None else self.before.tree(),
        }


class OpenDay:
    """An open day. Its calls may come from several threads; each waits for the others."""

    def __init__(self, identity: str, basis: Basis, journal: Journal, program: Program) -> None:
        self.identity, self.journal = identity, journal
        self.basis, self.names = basis, basis.names
        self.lock = threading.RLock()
        self.name = identity
        empty: Lists = tuple(() for _ in self.basis.model.vehicles)
        self.steps: Dict[int, Step] = {0: Step(0, 0, "opened", State(empty))}
        self.at = 0
        self._forward: Dict[int, int] = {}
        self._verdicts: "OrderedDict[int, Verdict]" = OrderedDict()
        self._drafts: Dict[int, Verdict] = {}
        self._is_checking = False
        self.notice = ""
        self._first = Asker(self.basis.model, program)
        self._askers: "OrderedDict[str, Asker]" = OrderedDict()
        for entry in journal.entries:
            self.take(entry)

    def take(self, entry: Mapping[str, Any]) -> None:
        """Goes on by a line of the journal."""
        if entry["do"] == "step":
            parent = self.steps[entry["parent"]]
            state = with_delta(parent.state, entry["delta"])
            self.note(Step(entry["number"], parent.number, entry["words"], state, entry["cost"], entry["fine"]))
        elif entry["do"] == "at":
            self.go(entry["number"])
        elif entry["do"] == "checked":
            self.steps[entry["number"]] = replace(self.steps[entry["number"]], is_fine=entry["fine"])
        self.name = entry.get("name", self.name)

    def note(self, step: Step) -> None:
        """Is at a new step."""
        self.steps[step.number] = step
        self._forward[step.parent] = step.number
        self.at = step.number

    def go(self, number: int) -> None:
        """Is at another step."""
        if number == self.step.parent:
            self._forward[number] = self.at
        self.at = number

    @property
    def step(self) -> Step:
        """The step that the day is at."""
        return self.steps[self.at]

    @property
    def can_redo(self) -> bool:
        """Whether a step was undone."""
        return self.at in self._forward

    @property
    def within(self) -> Within:
        """The model of the present state, and names."""
        return self.within_of(self.step.state)

    def within_of(self, state: State) -> Within:
        """The model of a state, and names."""
        return Within(self.asker(state.edits).model, self.names)

    def asker(self, edits: Edits) -> Asker:
        """Who asks about days with some edits. Raises `BadChange` if these cannot be said in the model."""
        if not edits:
            return self._first
        key = repr(edits.tree())
        if key not in self._askers:
            try:
                model = edited(self.basis.model, edits)
            except Refused as refused:
                raise BadChange(f"the model does not take this: {refused.sentence}") from None
            present = self.step.state.edits
            near = self._askers.get(repr(present.tree()))
            changed = edits.other_than(Edits() if near is None else present)
            self._askers[key] = (near or self._first).of_model(model, changed)
            if len(self._askers) > MOST_ASKERS:
                self._askers.popitem(last=False)
        self._askers.move_to_end(key)
        return self._askers[key]

    def judged(self, state: State) -> Verdict:
        """What the program finds of a state. Raises as `Asker.judged` does, and `BadChange`."""
        if any(state.lists[vehicle] for vehicle in state.off):
            raise BadChange("a van that is switched off makes visits")
        return self.asker(state.edits).judged(state.lists)

    def verdict(self, number: Optional[int] = None) -> Verdict:
        """What the program found of a step, by default of that which the day is at. Raises as `judged` does."""
        with self.lock:
            key = self.at if number is None else number
            if key not in self._verdicts:
                self.keep(key, self.judged(self.steps[key].state))
            self._verdicts.move_to_end(key)
            return self._verdicts[key]

    def known(self, number: Optional[int] = None) -> Verdict:
        """The same, though perhaps only the vans that the step touches were put to the program. Of a large day that was
        opened again, a step that the program was asked about before is reckoned first, and asked about soon."""
        with self.lock:
            key = self.at if number is None else number
            is_new = key not in self._verdicts and key not in self._drafts
            if is_new and self.basis.model.nodes >= LARGE and self.steps[key].is_fine is not None:
                state = self.steps[key].state
                self._keep_draft(key, self.asker(state.edits).reckoned(state.lists))
                self.check_soon()
            draft = self._drafts.get(key)
            return self.verdict(number) if draft is None else draft

    def _keep_draft(self, number: int, verdict: Verdict) -> None:
        """Keeps what was reckoned of a step, until the program was asked about the whole of it."""
        self._drafts[number] = verdict
        self._drafts = dict(list(self._drafts.items())[-MOST_VERDICTS:])

    @property
    def is_draft(self) -> bool:
        """Whether the program was not asked about the whole of the present step yet."""
        return self.at in self._drafts

    def keep(self, number: int, verdict: Verdict) -> None:
        """Keeps the verdict of a step."""
        self._verdicts[number] = verdict
        self._drafts.pop(number, None)
        if len(self._verdicts) > MOST_VERDICTS:
            self._verdicts.popitem(last=False)

    def drawn(self, number: Optional[int] = None) -> Day:
        """A step as the view draws it."""
        with self.lock:
            verdict = self.known(number)
            model = self.asker(self.steps[self.at if number is None else number].state.edits).model
            basis = self.basis
            return Day(
                model, verdict.solution, self.names, time_dimension(model), basis.places, basis.further,
                van_further=basis.van_further,
            )

    def change(self, change: Change, at: Optional[int] = None) -> Answer:
        """Makes a change if the program finds that the day then keeps its rules. Visits that must be made and that
        nobody makes do not count. `at` is the step that the planner saw; at another one nothing is made."""
        with self.lock:
            if at is not None and at != self.at:
                return Answer(False, self.at, "The day was changed meanwhile; look at it as it is now.")
            state = self.step.state
            try:
                after = change.applied(state, self.within)
                return self.made(after, change.words(self.within_of(after)))
            except BadChange as problem:
                return Answer(False, self.at, capital(str(problem)))

    def made(self, after: State, words: str) -> Answer:
        """Makes a step of a state, if the program finds nothing against it."""
        if after == self.step.state:
            return Answer(True, self.at, "Nothing changes.")
        try:
            verdict, is_whole = self.found(after)
        except (CannotBeDriven, NotMet) as problem:
            return self.refused(problem, after)
        before = self.parts()
        delta, number = after.delta(self.step.state), len(self.steps)
        cost, is_fine = verdict.solution.cost, verdict.is_fine if is_whole else None
        self.journal.append({
            "do": "step", "number": number, "parent": self.at, "words": words, "delta": delta, "cost": cost,
            "fine": is_fine,
        })
        self.note(Step(number, self.at, words, after, cost, is_fine))
        if is_whole:
            self.keep(number, verdict)
        else:
            self._keep_draft(number, verdict)
            self.check_soon()
        return Answer(True, number, capital(words), before=before)

    def found(self, after: State) -> Tuple[Verdict, bool]:
        """What the program finds of a state, and whether it was asked about the whole day. Of a large day it is asked
        about the vans that the state changes."""
        state, asker = self.step.state, self.asker(after.edits)
        if (after.lists, after.edits) == (state.lists, state.edits) and self.parts() is not None:
            return self.known(), not self.is_draft
        touched = touched_by(state, after)
        if asker.model.nodes < LARGE or len(touched) > MOST_TOUCHED or self.parts() is None:
            return self.judged(after), True
        verdict = asker.reckoned(after.lists)
        check_touched(asker.model, verdict.solution, touched, asker.program)
        return verdict, False

    def check_soon(self) -> None:
        """Lets the program be asked about the whole of the present step, in another thread."""
        with self.lock:
            if self.is_draft and not self._is_checking:
                self._is_checking = True
                threading.Thread(target=self.check_drafts, daemon=True).start()

    def check_drafts(self) -> None:
        """Asks the program about the whole of the present step, until it was asked about the one that is present."""
        while True:
            with self.lock:
                number, draft = self.at, self._drafts.get(self.at)
                self._is_checking = draft is not None
                if draft is None:
                    return
                asker = self.asker(self.step.state.edits)
            problem: Optional[JambulskegError] = None
            try:
                asker.check(draft)
            except JambulskegError as found:
                problem = found
            with self.lock, contextlib.suppress(OSError, ValueError):  # the journal may be closed meanwhile
                self.checked(number, draft, problem)

    def checked(self, number: int, draft: Verdict, problem: Optional[JambulskegError]) -> None:
        """Notes what the program found of the whole of a step; one that breaks a rule is undone."""
        self._drafts.pop(number, None)
        if problem is None:
            self.keep(number, draft)
            if self.steps[number].is_fine != draft.is_fine:
                self.steps[number] = replace(self.steps[number], is_fine=draft.is_fine)
                self.journal.append({"do": "checked", "number": number, "fine": draft.is_fine})
        if not isinstance(problem, NotMet):
            if problem is not None:  # after an accident the program is asked once more when the step is told
                self.steps[number] = replace(self.steps[number], is_fine=None)
            return
        state = self.steps[number].state
        self.notice = f"Undone: {sentence_of(problem, state.lists, self.within_of(state))}"
        if self.at == number:
            self.journal.append({"do": "at", "number": self.step.parent})
            self.go(self.step.parent)

    def parts(self) -> Optional[Parts]:
        """The parts of the cost of the present step; None if the program has something against it."""
        try:
            return self.known().solution.parts
        except JambulskegError:
            return None

    def refused(self, problem: JambulskegError, after: State) -> Answer:
        """The answer if a rule would be broken."""
        try:
            listed_rules(self.within_of(after).model, after.lists)
        except NotMet as broken:  # the schedule is broken too, but this is what to mend
            problem = broken
        sentence = sentence_of(problem, after.lists, self.within_of(after))
        if isinstance(problem, CannotBeDriven):
            return Answer(False, self.at, sentence, "schedule", problem.vehicle, problem.stop, problem.dimension)
        assert isinstance(problem, NotMet)
        return Answer(False, self.at, sentence, problem.rule, problem.vehicle, problem.place)

    def undo(self) -> Answer:
        """Goes back to the step that the present one was made from."""
        with self.lock:
            if self.at == 0:
                return Answer(False, 0, "There is nothing to undo.")
            return self.gone(self.step.parent, f"Undone: {self.step.words}")

    def redo(self) -> Answer:
        """Goes on to the latest step that was made from the present one."""
        with self.lock:
            if not self.can_redo:
                return Answer(False, self.at, "There is nothing to redo.")
            number = self._forward[self.at]
            return self.gone(number, f"Done again: {self.steps[number].words}")

    def goto(self, number: int) -> Answer:
        """Goes to any step."""
        with self.lock:
            if number not in self.steps:
                return Answer(False, self.at, "There is no such step.")
            return self.gone(number, f"At the step: {self.steps[number].words}")

    def gone(self, number: int, sentence: str) -> Answer:
        """Goes to a step, and keeps that."""
        before = self.parts()
        self.journal.append({"do": "at", "number": number})
        self.go(number)
        self.check_soon()
        return Answer(True, number, capital(sentence), before=before)

    def close(self) -> None:
        """Closes the journal."""
        with self.lock:
            self.journal.close()

    def rename(self, name: str) -> None:
        """Gives the day another name. Raises `BadChange` if it is none."""
        name = " ".join(name.split())
        if not 1 <= len(name) <= MOST_NAME:
            raise BadChange(f"a name has 1 to {MOST_NAME} letters")
        with self.lock:
            self.journal.append({"do": "name", "name": name})
            self.name = name

    def path_to(self, number: int, most: int) -> List[Step]:
        """The steps that lead to a step, the latest first, as many as `most`."""
        out = [self.steps[number]]
        while out[-1].number and len(out) < most:
            out.append(self.steps[out[-1].parent])
        return out


def capital(sentence: str) -> str:
    """A sentence that begins with a capital letter and ends with a full stop."""
    text = sentence[:1].upper() + sentence[1:]
    return text if text.endswith(".") else f"{text}."
