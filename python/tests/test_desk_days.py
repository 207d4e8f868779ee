"""Days and their changes, without a server: what is made, what is refused and why, undo, edits, parts of days."""

from __future__ import annotations

import json
import os
import random
import tempfile
import threading
import time
import unittest
from dataclasses import replace
from typing import Any, Callable, Dict, List, Optional, Set, Tuple
from unittest import mock

from jambulskeg.complete import CannotBeDriven, complete, route_of
from jambulskeg.desk import Answer, Asker, BadChange, Edits, Folder, FolderInUse, OpenDay, State, Verdict, change_of
from jambulskeg.desk.asking import lenient, merged
from jambulskeg.desk.changes import Move, Within
from jambulskeg.desk.folder import Basis, NoSuchDay
from jambulskeg.desk.improving import Improver
from jambulskeg.desk.nearby import LEAST_VANS, MOST_VANS, Nearby
from jambulskeg.desk.offers import offers
from jambulskeg.desk.opening import basis_of_model, example_basis
from jambulskeg.desk.part import part_of
from jambulskeg.desk.states import Lists, edited
from jambulskeg.desk.pages import told
from jambulskeg.desk.touched import check_touched, touched_by
from jambulskeg.errors import JambulskegError, NotJson, NotMet, ProgramFailed, Refused
from jambulskeg.model import check, first, read_model, solve
from jambulskeg.program import Program
from jambulskeg.records import Allowed, Model
from jambulskeg.refine import find as find_refine
from jambulskeg.rounds import with_search
from jambulskeg.view.day import Names

from .desk_support import THREE_VANS
from .support import EXAMPLES, solved

PROGRAM = Program.found()


def tupled(lists: List[List[int]]) -> Lists:
    """Lists of visits as a state has them."""
    return tuple(tuple(visits) for visits in lists)


def model_named(name: str) -> Model:
    """An example."""
    return read_model(os.path.join(EXAMPLES, f"{name}.json"))


class DayTests(unittest.TestCase):
    def setUp(self) -> None:
        folder = tempfile.TemporaryDirectory()
        self.addCleanup(folder.cleanup)
        self.folder = Folder(os.path.join(folder.name, "days"))
        self.addCleanup(self.folder.close)
        self.days: List[OpenDay] = []

    def opened(self, basis: Basis, name: str = "Monday") -> OpenDay:
        """A new day."""
        return self.again(self.folder.created(basis, name))

    def again(self, identity: str) -> OpenDay:
        """A day as it is on the disk."""
        for day in self.days:
            self.awaited(day)
        day = OpenDay(identity, *self.folder.opened(identity), PROGRAM)
        self.days.append(day)
        self.addCleanup(day.close)
        return day

    def awaited(self, day: OpenDay) -> None:
        """Waits until the program was asked about all of a day, and that is kept."""
        while day.is_draft:
            time.sleep(0.005)
        with day.lock:
            pass

    def three_vans(self) -> OpenDay:
        """The day of the two spreadsheets."""
        return self.opened(example_basis(THREE_VANS, PROGRAM))

    def asked(self, day: OpenDay, **tree: Any) -> Answer:
        """What comes of a change, said as the page says it."""
        return day.change(change_of(tree, day.within), day.at)

    def move(self, day: OpenDay, names: str, vehicle: Optional[int], before: Optional[str] = None) -> Answer:
        """What comes of a move, told by names."""
        nodes = [self.node(day, name) for name in names.split()]
        return self.asked(day, kind="move", nodes=nodes, vehicle=vehicle,
                          before=None if before is None else self.node(day, before))

    def node(self, day: OpenDay, name: str) -> int:
        """The number of a place."""
        return list(day.basis.names.places).index(name)

    def lists(self, day: OpenDay) -> List[str]:
        """The routes by names."""
        return [" ".join(day.basis.names.node(node) for node in visits) for visits in day.step.state.lists]

    def test_moves(self) -> None:
        day = self.three_vans()
        self.assertEqual(self.move(day, "Cleo Hana Ada", 0).sentence, "Cleo, Hana, Ada to red, at its end.")
        self.move(day, "Gus", 1)
        self.assertEqual(self.lists(day), ["Cleo Hana Ada", "Gus", ""])
        answer = self.move(day, "Ada Hana Cleo", 1, "Gus")
        self.assertFalse(answer.is_made)
        self.assertIn("blue comes from Hana to Cleo (stop 3) at 9:", answer.sentence)
        self.assertIn("that visit may begin from 8:00 to 9:30.", answer.sentence)
        self.assertEqual((answer.rule, answer.vehicle, answer.place, answer.dimension), ("schedule", 1, 3, "time"))
        self.assertTrue(self.move(day, "Cleo Ada", 1, "Gus").is_made)
        self.assertEqual(self.lists(day), ["Hana", "Cleo Ada Gus", ""])
        self.assertEqual(self.move(day, "Hana", 0).sentence, "Nothing changes.")
        self.assertTrue(self.move(day, "Hana Ada", None).is_made)
        self.assertEqual(self.lists(day), ["", "Cleo Gus", ""])
        before = self.move(day, "Fay", 2).before
        assert before is not None
        self.assertEqual((before.fixed, before.total()), (30, 113))

    def test_loads_are_refused_in_words(self) -> None:
        day = self.three_vans()
        self.move(day, "Fay Jana", 2)
        answer = self.move(day, "Ivo", 2)
        self.assertEqual(answer.sentence, "green would have 'load' 12 after Ivo, and may have 10 at most.")
        self.assertEqual(answer.dimension, "load")

    def test_vans_that_are_off_or_pinned(self) -> None:
        day = self.three_vans()
        self.move(day, "Ada", 0)
        self.assertTrue(self.asked(day, kind="switch", vehicle=0, on=False).is_made)
        self.assertEqual(self.lists(day), ["", "", ""])
        self.assertEqual(self.move(day, "Ada", 0).sentence, "Red is switched off; switch it on first.")
        self.asked(day, kind="switch", vehicle=1, on=False)
        self.assertEqual(self.asked(day, kind="switch", vehicle=2, on=False).sentence,
                         "One van at least stays switched on.")
        self.asked(day, kind="switch", vehicle=0, on=True)
        self.move(day, "Ada", 0)
        self.asked(day, kind="pin", vehicle=0, pinned=True)
        for answer in (self.move(day, "Ada", 2), self.move(day, "Ben", 0), self.move(day, "Ada", None),
                       self.asked(day, kind="switch", vehicle=0, on=False)):
            self.assertEqual((answer.is_made, answer.sentence),
                             (False, "Red is pinned, so its route stays as it is; unpin it first."))
        self.asked(day, kind="pin", vehicle=0, pinned=False)
        self.assertTrue(self.move(day, "Ada", 2).is_made)

    def test_undo_and_redo_without_end(self) -> None:
        day = self.three_vans()
        for name in "Ada Ben Cleo Dora".split():
            self.move(day, name, 0 if name < "C" else 1, None if name != "Cleo" else None)
        seen = self.lists(day)
        for _ in range(9):
            day.undo()
        self.assertEqual((day.at, self.lists(day), day.undo().sentence), (0, ["", "", ""], "There is nothing to undo."))
        for _ in range(9):
            day.redo()
        self.assertEqual((self.lists(day), day.redo().is_made), (seen, False))
        day.undo()
        self.move(day, "Gus", 2)
        day.undo()
        day.redo()
        self.assertIn("Gus", self.lists(day)[2])
        day.goto(4)
        self.assertEqual(self.lists(day), seen)
        self.assertFalse(day.goto(99).is_made)
        again = self.again(day.identity)
        self.assertEqual((self.lists(again), again.at, len(again.steps)), (seen, 4, len(day.steps)))
        self.assertTrue(again.undo().is_made and again.redo().is_made)

    def test_edits(self) -> None:
        day = self.three_vans()
        self.move(day, "Cleo Hana Ada", 0)
        ada, lea = self.node(day, "Ada"), self.node(day, "Lea")
        refused = self.asked(day, kind="edit", node=ada, window=[480, 500])
        self.assertIn("that visit may begin from 8:00 to 8:20", refused.sentence)
        self.assertEqual(refused.rule, "schedule")
        done = self.asked(day, kind="edit", node=ada, window=[480, 500], leave=True)
        self.assertEqual(done.sentence, "Ada may begin 8:00 to 8:20, and is left out.")
        self.assertEqual(self.lists(day), ["Cleo Hana", "", ""])
        self.asked(day, kind="edit", node=ada, window=None)
        self.asked(day, kind="edit", node=ada, demand=9)
        self.assertIn("'load' 15", self.move(day, "Ada", 0).sentence)
        self.asked(day, kind="edit", node=lea, penalty=75)
        self.assertEqual(day.verdict().solution.parts.penalty, 75)
        self.assertIn(lea, self.verdict_after(day, kind="edit", node=lea, penalty=None).missing)
        self.assertNotIn(ada, self.verdict_after(day, kind="edit", node=ada, penalty=0).missing)
        again = self.again(day.identity)
        self.assertEqual(again.step.state, day.step.state)
        self.assertEqual(again.within.model, day.within.model)
        self.assertIn("must be made", again.step.words + "".join(step.words for step in again.steps.values()))

    def verdict_after(self, day: OpenDay, **tree: Any) -> Verdict:
        """What the program finds after a change."""
        self.assertTrue(self.asked(day, **tree).is_made)
        return day.verdict()

    def test_what_cannot_be_edited(self) -> None:
        choice = self.opened(basis_of_model(("choice", json.dumps({
            "format": 1, "nodes": 3, "matrices": [[[0] * 3] * 3], "vehicles": [{"start": 0, "end": 0}],
            "groups": [{"nodes": [1, 2], "penalty": 5}],
        }).encode()), PROGRAM))
        self.assertIn("one of a choice", self.asked(choice, kind="edit", node=1, penalty=3).sentence)
        self.assertIn("no times", self.asked(choice, kind="edit", node=1, window=[1, 2]).sentence)
        self.assertIn("no loads", self.asked(choice, kind="edit", node=1, demand=3).sentence)
        self.assertEqual(self.asked(choice, kind="move", nodes=[1, 2], vehicle=0).sentence,
                         "Of node 1, node 2 at most one may be made.")

    def test_pairs_go_together(self) -> None:
        day = self.opened(basis_of_model(("pickups", model_named("pickups").text().encode()), PROGRAM))
        pair = day.basis.model.pairs[0]
        self.assertTrue(self.asked(day, kind="move", nodes=[pair.delivery], vehicle=0).is_made)
        self.assertEqual(day.step.state.lists[0], (pair.pickup, pair.delivery))
        answer = self.asked(day, kind="move", nodes=[pair.delivery], vehicle=0, before=pair.pickup)
        self.assertFalse(answer.is_made)
        self.assertIn("one van makes both", answer.sentence)
        self.assertTrue(self.asked(day, kind="move", nodes=[pair.pickup], vehicle=None).is_made)
        self.assertEqual(day.step.state.lists[0], ())

    def test_who_may_make_a_visit(self) -> None:
        tree = {"format": 1, "nodes": 3, "matrices": [[[0] * 3] * 3], "vehicles": [{"start": 0, "end": 0}] * 2,
                "allowed": [{"node": 1, "vehicles": [1]}]}
        day = self.opened(basis_of_model(("day", json.dumps(tree).encode()), PROGRAM))
        self.assertEqual(self.asked(day, kind="move", nodes=[2, 1], vehicle=0).sentence,
                         "vehicle 0 may not make node 1 (stop 2); vehicle 1 may.")

    def test_rules_in_words(self) -> None:
        plain: Dict[str, Any] = {
            "format": 1, "nodes": 5, "matrices": [[[0] * 5] * 5], "vehicles": [{"start": 0, "end": 0}]
        }
        pairs = [{"pickup": 1, "delivery": 2}, {"pickup": 3, "delivery": 4}]
        stack = self.of_tree({**plain, "pairs": pairs, "vehicles": [{"start": 0, "end": 0, "policy": "lifo"}]})
        answer = self.asked(stack, kind="move", nodes=[1, 3, 2, 4], vehicle=0)
        self.assertEqual((answer.sentence, answer.rule), ("vehicle 0 delivers what it loaded last first.", "policy"))
        load = {"name": "box", "evaluators": [{"values": [0, 1, 1, 1, 1]}], "slack_max": 0, "capacity": 9,
                "nodes": [{"node": 2, "window": [3, 5]}], "fix_start": True}
        answer = self.asked(self.of_tree({**plain, "dimensions": [load]}), kind="move", nodes=[1, 2], vehicle=0)
        self.assertEqual(answer.sentence, "vehicle 0 would have 'box' 1 from node 1 to node 2 (stop 2), and may have "
                                          "3 to 5 there.")

    def of_tree(self, tree: Dict[str, Any]) -> OpenDay:
        """The day of a model."""
        return self.opened(basis_of_model(("day", json.dumps(tree).encode()), PROGRAM))

    def test_what_is_no_change(self) -> None:
        day = self.three_vans()
        wrong: List[Any] = [
            None, [], {}, {"kind": "paint"}, {"kind": "move"}, {"kind": "move", "nodes": []},
            {"kind": "move", "nodes": [0], "vehicle": 1}, {"kind": "move", "nodes": [1, 1], "vehicle": 1},
            {"kind": "move", "nodes": [1], "vehicle": 3}, {"kind": "move", "nodes": [1], "vehicle": True},
            {"kind": "move", "nodes": [True], "vehicle": 1}, {"kind": "move", "nodes": [1], "vehicle": 1, "before": 1},
            {"kind": "move", "nodes": [1], "vehicle": -1}, {"kind": "move", "nodes": ["1"], "vehicle": 1},
            {"kind": "switch", "vehicle": 0, "on": 1}, {"kind": "pin", "vehicle": 7, "pinned": True},
            {"kind": "edit", "node": 1}, {"kind": "edit", "node": 0, "demand": 1},
            {"kind": "edit", "node": 1, "demand": 2**31}, {"kind": "edit", "node": 1, "window": [5]},
            {"kind": "edit", "node": 1, "window": [9, 5]}, {"kind": "edit", "node": 1, "window": [0, 2**37]},
            {"kind": "edit", "node": 1, "penalty": -1}, {"kind": "edit", "node": 1, "penalty": 2.5},
        ]
        for tree in wrong:
            with self.assertRaises(BadChange, msg=str(tree)):
                change_of(tree, day.within)
        self.assertFalse(self.move(day, "Ada", 1, "Ben").is_made)
        self.assertEqual(len(day.journal.entries), 1)

    def test_a_day_that_was_changed_meanwhile(self) -> None:
        day = self.three_vans()
        change = change_of({"kind": "move", "nodes": [1], "vehicle": 0}, day.within)
        self.assertTrue(day.change(change, 0).is_made)
        self.assertIn("meanwhile", day.change(change, 0).sentence)

    def test_states_and_what_is_other_in_them(self) -> None:
        day = self.three_vans()
        self.move(day, "Ada Ben", 0)
        self.move(day, "Ben", 1)
        state, earlier = day.step.state, day.steps[1].state
        self.assertEqual(state.delta(earlier), {"routes": [[0, [1]], [1, [2]]]})
        self.assertEqual((state.vehicle_of(2), state.vehicle_of(3)), (1, None))
        self.assertEqual([step.number for step in day.path_to(2, 2)], [2, 1])
        self.assertIs(day.within_of(state).model, day.basis.model)
        self.assertTrue(self.folder.is_day("monday"))

    def test_names_of_days(self) -> None:
        day = self.three_vans()
        day.rename("  Tuesday   <b> ")
        for name in ("", " ", "x" * 81):
            self.assertRaises(BadChange, day.rename, name)
        self.assertEqual(self.again("monday").name, "Tuesday <b>")
        told = self.folder.told("monday")
        self.assertEqual((told["name"], told["cost"], told["steps"]), ("Tuesday <b>", None, 0))
        free = [self.folder.free(name) for name in ("Monday", "../../etc", "日")]
        self.assertEqual(free, ["monday-2", "etc", "day"])
        for name in ("..", "monday/../monday", "nobody", "", ".desk.lock"):
            self.assertRaises(NoSuchDay, self.folder.path_of, name)
        os.symlink(self.folder.path_of("monday"), os.path.join(self.folder.path, "linked"))
        self.assertEqual(self.folder.identities(), ["monday"])
        self.assertRaises(FolderInUse, Folder, self.folder.path)

    def test_a_folder_is_left_while_a_program_begins(self) -> None:
        with tempfile.TemporaryDirectory() as path:
            folder = Folder(path)
            of_program = os.dup(folder._lock.fileno())
            self.addCleanup(os.close, of_program)
            folder.close()
            Folder(path).close()

    def test_files_that_are_no_models(self) -> None:
        self.assertRaises(NotJson, basis_of_model, ("a", b"\xff"), PROGRAM)
        with self.assertRaises(Refused) as refused:
            basis_of_model(("a", json.dumps({**model_named("three-nodes").tree(), "nodes": 4}).encode()), PROGRAM)
        self.assertEqual(refused.exception.path, "/matrices/0")
        self.assertRaises(BadChange, example_basis, "../three-nodes", PROGRAM)


class LargeDayTests(DayTests):
    """All of the above, with the program asked about the vans that change first, and then about the whole day."""

    def setUp(self) -> None:
        super().setUp()
        large = mock.patch("jambulskeg.desk.days.LARGE", 1)
        large.start()
        self.addCleanup(large.stop)

    def test_the_whole_day_is_checked_soon(self) -> None:
        day = self.three_vans()
        day.verdict()
        held = threading.Event()
        check = Asker.check

        def slow(asker: Asker, found: Verdict) -> None:
            held.wait(10)
            check(asker, found)

        with mock.patch.object(Asker, "check", slow):
            self.assertTrue(self.move(day, "Ada", 0).is_made)
            self.assertTrue(self.move(day, "Ben", 1).is_made)
            self.assertEqual((day.is_draft, day.step.is_fine, told(day)["status"]), (True, None, "checking"))
            self.assertFalse(self.move(day, "Gus Cleo", 0).is_made)
            held.set()
            self.awaited(day)
        self.assertEqual((told(day)["status"], day.step.is_fine), ("unfinished", False))
        self.assertEqual(day.journal.entries[-1], {"do": "checked", "number": 2, "fine": False})
        entries = len(day.journal.entries)
        day.check_soon()
        day.check_drafts()
        self.assertEqual(len(day.journal.entries), entries)
        day.undo()
        self.awaited(day)
        self.assertEqual(self.again(day.identity).step.is_fine, False)

    def test_a_day_that_is_opened_again_is_asked_about_soon(self) -> None:
        day = self.three_vans()
        self.assertTrue(self.move(day, "Ada", 0).is_made)
        seen = told(day)
        for check in (mock.DEFAULT, ProgramFailed("it was killed")):
            again = self.again(day.identity)
            entries = len(again.journal.entries)
            with mock.patch.object(Asker, "check", side_effect=[check]):
                first = told(again)
                self.awaited(again)
            self.assertEqual((first["cost"], first["status"]), (seen["cost"], "checking"))
            self.assertEqual((told(again)["status"], len(again.journal.entries)), ("unfinished", entries))

    def test_what_the_whole_day_breaks_is_undone(self) -> None:
        day = self.three_vans()
        day.verdict()
        with mock.patch.object(Asker, "check", side_effect=NotMet("cost", -1, -1)):
            self.assertTrue(self.move(day, "Ada", 0).is_made)
            self.awaited(day)
        self.assertEqual((day.at, self.lists(day)), (0, ["", "", ""]))
        self.assertIn("Undone: The program found the rule 'cost' broken", told(day)["notice"])
        self.assertEqual(self.again(day.identity).at, 0)

    def test_after_an_accident_the_program_is_asked_again(self) -> None:
        day = self.three_vans()
        day.verdict()
        with mock.patch.object(Asker, "check", side_effect=ProgramFailed("it was killed")):
            self.assertTrue(self.move(day, "Ada", 0).is_made)
            self.awaited(day)
        self.assertEqual((day.at, day.step.is_fine, told(day)["status"]), (1, None, "unfinished"))

    def test_touched_vans_are_judged_as_the_whole_day_is(self) -> None:
        rng = random.Random(11)
        for name in ("service-day", "pickups", "breaks-day", "shifts-tight", "windows-day"):
            model = merged(model_named(name))
            asker = Asker(model, PROGRAM)
            state = State(tupled(solve(model).lists()))
            for _ in range(40):
                nodes = rng.sample(model.visits(), rng.randint(1, 2))
                move = Move(tuple(nodes), rng.choice([None, *range(len(model.vehicles))]))
                after = move.applied(state, Within(model, Names()))
                whole = self.outcome(lambda: Asker(model, PROGRAM).judged(after.lists))
                part = self.outcome(lambda: self.touched(asker, state, after))
                self.assertEqual(whole, part, (name, nodes, after.lists))
                state = after if isinstance(whole, int) else state

    def touched(self, asker: Asker, state: State, after: State) -> Verdict:
        """What is found by the vans that change alone."""
        found = asker.reckoned(after.lists)
        check_touched(asker.model, found.solution, touched_by(state, after), PROGRAM)
        return found

    def outcome(self, work: Callable[[], Verdict]) -> Any:
        """A cost, or what is wrong."""
        try:
            return work().solution.cost
        except NotMet as problem:
            return problem.rule, problem.vehicle, problem.place
        except JambulskegError as problem:
            return str(problem)


class AskingTests(unittest.TestCase):
    def test_routes_without_a_changed_visit_are_kept(self) -> None:
        model, lists = merged(model_named("service-day")), ((1, 6, 11), (2, 7), (), (13, 5))
        asker, edits = Asker(model, PROGRAM), Edits({7: None, 1: None}, {5: 1}, {11: 3})
        asker.judged(lists)
        changed = edits.other_than(Edits({1: None, 2: None}))
        self.assertEqual(changed, {2, 7, 5})
        with mock.patch("jambulskeg.desk.asking.route_of", wraps=route_of) as completed:
            found = asker.of_model(edited(model, edits), changed).reckoned(lists)
        self.assertEqual([call[0][1] for call in completed.call_args_list], [1, 3])
        self.assertEqual(found.solution.routes[0], complete(model, lists, checked=False).routes[0])

    def test_the_program_is_asked_about_each_day(self) -> None:
        for name in ("service-day", "pickups", "windows-day", "shifts-tight"):
            model = model_named(name)
            lists = tupled(solve(model).lists())
            found = Asker(merged(model), PROGRAM).judged(lists)
            self.assertTrue(found.is_fine)
            self.assertEqual(found.solution, complete(model, lists))
            self.assertEqual(check(model, found.solution).cost, found.solution.cost)

    def test_both_programs_find_the_same(self) -> None:
        rng, refining = random.Random(5), Program(find_refine())
        for name in ("service-day", "pickups", "optional-pairs", "breaks-day"):
            model = merged(model_named(name))
            askers = Asker(model, PROGRAM), Asker(model, PROGRAM)
            askers[0].refining, askers[1].refining = refining, None
            lists = solve(model).lists()
            for _ in range(6):
                found = [self.found(asker, tupled(lists)) for asker in askers]
                self.assertEqual(found[0], found[1], (name, lists))
                for visits in lists:
                    rng.shuffle(visits) if rng.random() < 0.2 else visits.pop() if visits else None

    def found(self, asker: Asker, lists: Lists) -> Any:
        """What an asker finds, or the exception that it raises."""
        try:
            return asker.judged(lists)
        except NotMet as problem:
            return problem.rule, problem.vehicle, problem.place
        except CannotBeDriven as problem:
            return problem.vehicle, problem.stop, problem.dimension

    def test_a_day_that_is_not_finished(self) -> None:
        model = model_named("savings")
        empty: Tuple[Tuple[int, ...], ...] = tuple(() for _ in model.vehicles)
        found = Asker(model, PROGRAM).judged(empty)
        self.assertEqual((found.is_fine, len(found.missing)), (False, len(model.visits())))
        self.assertRaises((NotMet, Refused), Asker(model, PROGRAM).judged, ((1, 1), *empty[1:]))
        self.assertFalse(any(group.penalty is None for group in lenient(model).groups))

    def test_random_days_are_judged_as_the_whole_is(self) -> None:
        rng = random.Random(7)
        for name in ("service-day", "pickups", "optional-pairs", "breaks-day"):
            model = model_named(name)
            asker = Asker(merged(model), PROGRAM)
            for _ in range(12):
                lists: List[List[int]] = [[] for _ in model.vehicles]
                for node in model.visits():
                    lists[rng.randrange(len(lists))].append(node)
                found = self.outcome(lambda: asker.judged(tupled(lists)))
                self.assertEqual(found, self.outcome(lambda: Verdict(complete(model, lists))))

    def outcome(self, work: Callable[[], Verdict]) -> Any:
        """A cost, or what is wrong."""
        try:
            return work().solution.cost if work().is_fine else "required"
        except NotMet as problem:
            return problem.rule
        except JambulskegError as problem:
            return str(problem)

    def test_each_matrix_once(self) -> None:
        model = model_named("three-nodes")
        twice = Model.of({**model.tree(), "matrices": [model.matrices[0], model.matrices[0]],
                          "vehicles": [{"start": 0, "end": 0, "costs": 1}]})
        self.assertEqual((len(merged(twice).matrices), merged(twice).vehicles[0].costs), (1, 0))
        self.assertIs(merged(model), model)


class PartTests(unittest.TestCase):
    def test_pinned_vans_stay_as_they_are(self) -> None:
        for name in ("service-day", "shifts-tight", "windows-day", "savings"):
            model = model_named(name)
            found = solved(name)
            pinned = min(found.used(), key=lambda vehicle: len(found.routes[vehicle].visits))
            state = State(tupled(found.lists()), pinned=frozenset([pinned]))
            part = part_of(model, state)
            self.assertNotIn(pinned, part.vehicles)
            lists = part.lists(solve(part.model).lists(), state)
            self.assertEqual(lists[pinned], state.lists[pinned])
            self.assertTrue(Asker(model, PROGRAM).judged(lists).solution.cost >= 0)

    def test_vans_that_are_off_get_nothing(self) -> None:
        model = model_named("service-day")
        empty: Tuple[Tuple[int, ...], ...] = ((), (), (), ())
        state = State(empty, off=frozenset([0, 2]))
        lists = part_of(model, state).lists(solve(part_of(model, state).model).lists(), state)
        self.assertEqual((lists[0], lists[2]), ((), ()))
        self.assertTrue(lists[1] or lists[3])
        self.assertEqual(part_of(model, State(empty)).model, model)
        barred = replace(model, allowed=[Allowed(3, [0]), Allowed(4, [1, 2])])
        part = part_of(barred, state)
        self.assertNotIn(3, part.nodes)
        self.assertEqual(part.model.allowed, (Allowed(part.nodes.index(4), [0]),))

    def test_vans_that_are_planned_anew_together(self) -> None:
        model = model_named("hundred-customers")
        lists = tupled(solved("hundred-customers").lists())
        state = State(lists, off=frozenset(v for v, visits in enumerate(lists) if not visits), pinned=frozenset([0]))
        nearby = Nearby(model)
        seen: Set[int] = set()
        for _ in range(60):
            vans = nearby.vans(state)
            self.assertFalse(vans & (state.off | state.pinned))
            self.assertTrue(LEAST_VANS <= len(vans) <= MOST_VANS + 1)
            seen |= vans
        self.assertEqual(seen, {v for v, visits in enumerate(lists) if visits} - {0})
        self.assertEqual(nearby.vans(State(((1,), (2,), (), ()))), frozenset())

    def test_nothing_to_search(self) -> None:
        model = model_named("service-day")
        with self.assertRaises(BadChange):
            part_of(model, State(((), (), (), ()), pinned=frozenset(range(4))))
        full = State((tuple(model.visits()), (), (), ()), pinned=frozenset([0]))
        self.assertRaises(BadChange, part_of, model, full)


class ImproverTests(unittest.TestCase):
    def improved(self, model: Model, state: State, seconds: float, stop: float = 60) -> Improver:
        """A search that has ended, or was stopped after some seconds."""
        found = Improver(Asker(model, PROGRAM), state, seconds)
        timer = threading.Timer(stop, found.stopped.set)
        timer.start()
        found.search()
        timer.cancel()
        return found

    def test_it_goes_on_from_the_routes(self) -> None:
        model = model_named("hundred-customers")
        lists = tupled(first(model).lists())
        found = self.improved(model, State(lists, pinned=frozenset([0])), 0.4)
        assert found.best is not None
        self.assertEqual((found.points[0].cost, found.best[0][0]), (Asker(model, PROGRAM).judged(lists).solution.cost,
                                                                    lists[0]))
        self.assertEqual(found.points[-1].cost, found.best[1].solution.cost)
        self.assertLess(found.points[-1].cost, found.points[0].cost)
        self.assertGreater(found.rounds, 1)

    def test_it_is_stopped_at_once(self) -> None:
        model = with_search(model_named("hundred-customers"), tries=10**9)
        began = time.monotonic()
        found = self.improved(model, State(tupled(first(model).lists())), 600, 0.1)
        self.assertLess(time.monotonic() - began, 5)
        self.assertIsNotNone(found.best)

    def test_a_day_that_no_construction_finds(self) -> None:
        model = example_basis(THREE_VANS, PROGRAM).model
        found = self.improved(model, State(((), (), ()), off=frozenset([0, 1])), 0.3)
        assert found.best is not None
        self.assertTrue(found.best[1].missing and found.best[0][2])


class OfferTests(unittest.TestCase):
    def test_offers_cost_what_they_say(self) -> None:
        model = model_named("service-day")
        asker, names = Asker(merged(model), PROGRAM), Names()
        lists = tupled(solve(model).lists())
        state = State(lists)
        within = Within(asker.model, names)
        state = Move((9,), None).applied(state, within)
        cost = asker.judged(state.lists).solution.cost
        for node in (3, 9, 16):
            for offer in offers(asker, state, node, within):
                if offer["extra"] is None:
                    self.assertIn("vehicle", offer["sentence"])
                    continue
                after = Move((node,), offer["vehicle"], offer["before"]).applied(state, within)
                self.assertEqual(asker.judged(after.lists).solution.cost, cost + offer["extra"])

    def test_edits_read_and_written(self) -> None:
        edits = Edits({1: (2, 3), 2: None}, {1: 4}, {3: None})
        self.assertEqual(Edits.of(json.loads(json.dumps(edits.tree()))), edits)
        model = model_named("service-day")
        changed = edited(model, Edits({1: (2, 300)}, {1: 4}, {1: 17}))
        self.assertEqual(changed.dimensions[0].nodes[0].window, (2, 300))
        kept: Dict[int, Optional[int]] = {group.nodes[0]: group.penalty for group in changed.groups}
        self.assertEqual(kept[1], 17)
        self.assertEqual(edited(model, Edits()), model)


if __name__ == "__main__":
    unittest.main()
