"""Regions: cut, solved side by side, mended, checked; the same plan whoever solves it, and whenever it is ended."""

from __future__ import annotations

import contextlib
import errno
import io
import json
import math
import os
import random
import re
import sys
import tempfile
import unittest
from dataclasses import replace
from typing import Any, Callable, Dict, Iterator, List, Optional, Sequence, Tuple
from unittest import mock

from jambulskeg.__main__ import main
from jambulskeg.engines import Answer, EngineFailed
from jambulskeg.errors import NoFirstSolution, NoMemory, Refused
from jambulskeg.model import check
from jambulskeg.places import BadTable, Place, Roads, Van
from jambulskeg.program import find
from jambulskeg.records import Model
from jambulskeg.region import (
    Asked, BadRoads, Checked, CheckedPart, Crew, Entry, FolderTaken, NotSolved, OwnCrew, ParallelCrew, Part, PartModel,
    Planned, Region, RegionTables, RoadTable, RunDiffers, Searcher, Shape, SharedTwice, SlurmCrew, Standing, Store,
    VanDay, check_plan, cut, model_of_part, plan, plan_table, read_region, region_page, sheet_files, write_roads,
)
from jambulskeg.region.checking import once
from jambulskeg.region.crew import Answers, TextOf
from jambulskeg.region.mending import WARMTH, effort_of, first_effort, groups_of
from jambulskeg.region.near import Near, nearest
from jambulskeg.region.tasks import Round, solve_parts
from jambulskeg.solution import Solution

from .region_support import ROAD_WORDS, made_region, write_tables
from .test_portfolio import PARALLEL, engine_on_path

SMALL = Asked(tries=300_000, most=60, shape=Shape(3, 60))
"""What is asked where the plan itself does not matter."""


class Backwards:
    """A crew whose answers come in another order, and go through `change`, which may raise or give none."""

    def __init__(self, change: Callable[[int, Answer], Optional[Answer]] = lambda count, answer: answer) -> None:
        self._change, self.count, self.searcher = change, 0, Searcher.found()

    def each(self, count: int, text_of: TextOf) -> Answers:
        """The answers, the last part's first."""
        order = list(range(count))[::-1]
        for at, answer in OwnCrew(1, self.searcher).each(count, lambda place: text_of(order[place])):
            self.count += 1
            changed = self._change(self.count, answer)
            if changed is not None:
                yield order[at], changed

    def close(self) -> None:
        """Nothing is left to end."""


@contextlib.contextmanager
def kept() -> Iterator[Store]:
    """A folder of a run."""
    with tempfile.TemporaryDirectory() as folder, contextlib.closing(Store(folder)) as store:
        yield store


def planned(region: Region, asked: Asked = SMALL, crew: Optional[Crew] = None) -> Planned:
    """The plan of a region, in a folder that goes."""
    with kept() as store:
        return plan(region, asked, crew or OwnCrew(2), store)


def checked(region: Region, found: Planned) -> Checked:
    """The whole plan, checked."""
    return check_plan(RegionTables.of(region), found.standing)


class CuttingTests(unittest.TestCase):
    def holds(self, region: Region, most: int) -> List[Part]:
        """Each visit is in one part, each van in one at most, and no part is too large."""
        parts = cut(region, most)
        self.assertEqual(sorted(visit for part in parts for visit in part.visits), region.visits)
        vans = [van for part in parts for van in part.vans]
        self.assertEqual(len(vans), len(set(vans)))
        self.assertLessEqual(max(len(part.visits) for part in parts), most)
        self.assertLessEqual(max(len(part.vans) for part in parts), 100)
        self.assertEqual(cut(region, most), parts)
        return parts

    def test_depots_share_the_region(self) -> None:
        region = made_region(3000)
        parts = self.holds(region, 150)
        self.assertGreaterEqual(min(len(part.visits) for part in parts), 60)
        for part in parts:
            self.assertEqual(len({region.starts[van] for van in part.vans}), 1)
            load = sum(region.places[visit].demand for visit in part.visits)
            self.assertLessEqual(load, 120 * len(part.vans))

    def test_vans_from_homes(self) -> None:
        region = made_region(400)
        rng = random.Random(2)
        homes = [Place(f"home {van}", rng.randrange(2000), rng.randrange(2000)) for van in range(len(region.vans))]
        vans = [replace(van, start=home.name, end=home.name) for van, home in zip(region.vans, homes)]
        parts = self.holds(replace(region, places=(*region.places[1:], *homes), vans=tuple(vans)), 100)
        self.assertTrue(all(part.vans for part in parts))

    def test_pairs_and_skills(self) -> None:
        region = with_pairs(made_region(300), 60)
        for part in self.holds(region, 50):
            self.assertFalse({region.partner.get(visit, visit) for visit in part.visits}.difference(part.visits))
        region = with_skills(made_region(600))
        for part in self.holds(region, 150):
            asks = any(region.needs[visit] for visit in part.visits)
            self.assertTrue(not asks or any(region.skills[van] for van in part.vans))

    def test_small_and_odd(self) -> None:
        region = made_region(1)
        self.assertEqual(cut(region), [Part((1,), (0,))])
        self.assertEqual(cut(replace(region, places=region.places[:1])), [])
        same = replace(region, places=(*region.places, *(replace(region.places[1], name=f"v{n}") for n in range(40))))
        self.assertEqual([len(part.visits) for part in cut(same, 10)], [41])
        self.holds(replace(same, vans=[*same.vans] * 5), 10)
        line = [Place("yard", 0, 0), *(Place(f"v{n}", n, 0) for n in range(1, 100))]
        free = Region(line, [Van("van", "yard", "yard")] * 5)
        self.holds(free, 30)
        self.assertEqual(nearest(free.points, free.visits, 2)[50], [49, 51])


def with_pairs(region: Region, pairs: int) -> Region:
    """The region with pickups and their deliveries, far from each other."""
    visits, places = list(region.visits), list(region.places)
    random.Random(5).shuffle(visits)
    both = tuple(zip(visits[:pairs], visits[pairs:2 * pairs]))
    for one, other in both:
        places[one] = replace(places[one], window=None, penalty=None)
        places[other] = replace(places[other], window=None, penalty=None, demand=-places[one].demand)
    return replace(region, places=tuple(places), pairs=both)


def with_skills(region: Region) -> Region:
    """The region with some visits that need a lift, and some vans that have one."""
    rng, ends = random.Random(3), {*region.starts}
    lift, none = frozenset({"lift"}), frozenset({""}) - {""}
    needs = [lift if place not in ends and rng.random() < 0.15 else none for place in range(len(region.places))]
    return replace(
        region, needs=tuple(needs), skills=tuple(none if van % 3 else lift for van in range(len(region.vans)))
    )


class NearTests(unittest.TestCase):
    def test_nearest_is_nearest(self) -> None:
        region = made_region(300)
        near, points = nearest(region.points, region.visits, 7), region.points
        for visit in region.visits:
            ways = sorted((math.dist(points[visit], points[other]), other) for other in region.visits if other != visit)
            self.assertEqual(
                [math.dist(points[visit], points[other]) for other in near[visit]], [way for way, _ in ways[:7]]
            )
        self.assertEqual(nearest(points, [], 7), {})
        self.assertEqual(nearest(points, [5], 7), {5: []})

    def test_links_go_both_ways(self) -> None:
        near, vans = Near({1: [2, 3], 2: [1], 3: [4], 4: [3]}), {1: 0, 2: 0, 3: 1}
        self.assertEqual((near.links(vans, [1, 2])[1], near.links(vans, [3])), (1, {0: 1, None: 2}))

    def test_groups_share_nothing(self) -> None:
        region = made_region(600)
        parts = [part for part in cut(region, 20) if part.vans]
        routes: List[Tuple[int, ...]] = [()] * len(region.vans)
        for part in parts[:-2]:
            routes[part.vans[0]] = part.visits
        standing = Standing(tuple(routes), frozenset(range(len(routes))))
        near = nearest(region.points, region.visits, 10)
        groups = groups_of(region, standing, near, 1, Shape(4, 90))
        self.assertGreater(len(groups), 3)
        for own in ("vans", "visits"):
            numbers = [number for group in groups for number in getattr(group, own)]
            self.assertEqual(len(numbers), len(set(numbers)))
        self.assertEqual(groups_of(region, standing, near, 1, Shape(4, 90)), groups)
        self.assertNotEqual(groups_of(region, standing, near, 2, Shape(4, 90)), groups)
        made = standing.van_of()
        self.assertTrue(any(visit not in made for group in groups for visit in group.visits))


class PlanTests(unittest.TestCase):
    asked: Asked
    region: Region
    found: Planned
    whole: Checked

    @classmethod
    def setUpClass(cls) -> None:
        cls.region = made_region(600)
        cls.asked = Asked(tries=12_000_000)
        cls.found = planned(cls.region, cls.asked)
        cls.whole = checked(cls.region, cls.found)

    def test_seams_gain_and_the_whole_is_checked(self) -> None:
        costs = [entry.cost for entry in self.found.journal]
        self.assertEqual(costs, sorted(costs, reverse=True))
        self.assertLess(costs[-1], costs[0])
        self.assertEqual((self.whole.cost, self.whole.missing), (costs[-1], ()))
        visits = [visit for day in self.whole.days() for visit in day.visits]
        self.assertEqual(sorted([*visits, *self.whole.left]), self.region.visits)
        self.assertLessEqual(self.found.tried, self.asked.tries or 0)
        self.assertTrue(self.found.mended)
        self.assertIn("seams, round 1:", self.found.journal[1].line())

    def test_the_order_of_answers_does_not_matter(self) -> None:
        other = planned(self.region, self.asked, Backwards())
        self.assertEqual(other.standing, self.found.standing)
        self.assertEqual([entry.cost for entry in other.journal], [entry.cost for entry in self.found.journal])

    def test_parts_alone(self) -> None:
        alone = planned(self.region, replace(self.asked, seams=False))
        self.assertEqual((len(alone.journal), alone.ended), (1, "seams were not asked for"))
        self.assertGreater(alone.journal[0].tries, self.found.journal[0].tries)

    def test_the_state_is_read_back(self) -> None:
        self.assertEqual(Planned.of(json.loads(self.found.text())), self.found)
        self.assertIsInstance(self.found.journal[-1], Entry)

    def test_table_sheets_and_page(self) -> None:
        tables = RegionTables.of(self.region)
        whole = check_plan(tables, self.found.standing, sheets=True, jobs=2)
        rows = plan_table(tables, whole).splitlines()
        self.assertEqual(rows[0], "\ufeffvan,stop,name,arrival,begins,departure,load")
        self.assertEqual(len(rows), 1 + 600 + 2 * len(whole.days()))
        files = dict(sheet_files(tables, whole, "Monday"))
        self.assertEqual(len(files), len(whole.days()) + 1)
        self.assertEqual(files["all.html"].count("<section>"), len(whole.days()))
        text = region_page(tables, whole, self.found, "A <region>", "checked")
        self.assertIn("A &lt;region&gt;", text)
        self.assertEqual(len(re.findall(r'<g id="van\d+" class="van', text)), len(whole.days()))
        self.assertEqual(text.count('class="area"'), len(self.found.parts))
        for day in whole.days():
            self.assertIsInstance(day, VanDay)
            self.assertTrue(re.fullmatch(r"\d+:\d\d", day.hours[0]))

    def test_a_part_is_kept_for_the_check(self) -> None:
        with kept() as store:
            whole = check_plan(RegionTables.of(self.region), self.found.standing, store=store)
            self.assertEqual(len(os.listdir(store.path("checked"))), len(whole.parts))
            tree = store.read("checked/0000.json") or {}
            self.assertIsInstance(whole.parts[0], CheckedPart)
            finding = check(Model.of(tree["model"]), Solution.of(tree["solution"]))
            self.assertEqual(finding.cost, whole.parts[0].cost)

    def test_nothing_is_shared_twice(self) -> None:
        for numbers in ([1, 1], [4]):
            with self.assertRaises(SharedTwice):
                once([1, 2, 3], numbers, "van")


class RulesTests(unittest.TestCase):
    def test_too_few_vans_leave_out_and_tell(self) -> None:
        region = made_region(120)
        few = replace(region, vans=region.vans[:3])
        found = planned(few)
        whole = checked(few, found)
        self.assertTrue(whole.missing)
        self.assertEqual(found.journal[-1].missing, len(whole.missing))
        self.assertEqual(found.journal[-1].cost, whole.cost)
        self.assertIn("have no van yet", found.journal[-1].line())

    def test_visits_move_to_a_neighbour_that_has_vans(self) -> None:
        rng = random.Random(4)
        west = [Place(f"w{n}", rng.randrange(100), rng.randrange(200), 5) for n in range(40)]
        east = [Place(f"e{n}", 110 + rng.randrange(100), rng.randrange(200), 5) for n in range(40)]
        vans = [Van("west", "west yard", "west yard", 60), *(Van(f"east {n}", "east yard", "east yard", 60)
                                                               for n in range(8))]
        region = Region([Place("west yard", 50, 100), Place("east yard", 160, 100), *west, *east], vans)
        found = planned(region, replace(SMALL, tries=6_000_000, most=40))
        self.assertEqual((found.journal[-1].missing, checked(region, found).missing), (0, ()))

    def test_pairs_stay_together(self) -> None:
        region = with_pairs(made_region(150), 30)
        whole = checked(region, planned(region))
        where = {visit: (day.van, at) for day in whole.days() for at, visit in enumerate(day.visits)}
        for one, other in region.pairs:
            self.assertEqual(one in where, other in where)
            if one in where:
                self.assertEqual(where[one][0], where[other][0])
                self.assertLess(where[one][1], where[other][1])

    def test_skills_are_kept(self) -> None:
        region = with_skills(made_region(120))
        whole = checked(region, planned(region))
        self.assertTrue(any(region.needs[visit] for day in whole.days() for visit in day.visits))
        for day in whole.days():
            for visit in day.visits:
                self.assertLessEqual(region.needs[visit], region.skills[day.van])
        model: PartModel = model_of_part(region, Part(tuple(region.visits), (1,)))
        self.assertEqual(len(model.nodes), 1 + sum(not needs for needs in region.needs[1:]))

    def test_a_fault_of_the_model_is_told(self) -> None:
        region = made_region(20)
        with self.assertRaises(Refused):
            planned(replace(region, roads=Roads(scale=1e11)))


class ResumeTests(unittest.TestCase):
    region: Region
    found: Planned
    count: int

    @classmethod
    def setUpClass(cls) -> None:
        cls.region, crew = made_region(120), Backwards()
        cls.found = planned(cls.region, SMALL, crew)
        cls.count = crew.count

    def test_ended_at_any_answer_it_goes_on_to_the_same_plan(self) -> None:
        for last in random.Random(6).sample(range(1, self.count), 4):
            def end(count: int, answer: Answer, last: int = last) -> Answer:
                if count == last:
                    raise KeyboardInterrupt
                return answer
            with kept() as store:
                with self.assertRaises(KeyboardInterrupt):
                    plan(self.region, SMALL, Backwards(end), store)
                again = Backwards()
                found = plan(self.region, SMALL, again, store, resume=True)
                self.assertEqual(found.standing, self.found.standing)
                self.assertLessEqual(again.count + last, self.count + 1)

    def test_a_full_disk_loses_nothing(self) -> None:
        rng = random.Random(7)
        for last in rng.sample(range(2, 18), 3):
            with kept() as store:
                counts = iter(range(1, 10**6))

                def full(*paths: str) -> None:
                    if next(counts) == last:
                        raise OSError(errno.ENOSPC, os.strerror(errno.ENOSPC), paths[1])
                    real(*paths)

                real = os.replace
                with mock.patch("jambulskeg.region.store.os.replace", full), self.assertRaises(OSError):
                    plan(self.region, SMALL, OwnCrew(2), store)
                left = [file for _, _, files in os.walk(store.folder) for file in files if file.endswith(".part")]
                self.assertEqual(left, [])
                found = plan(self.region, SMALL, OwnCrew(2), store, resume=True)
                self.assertEqual(found.standing, self.found.standing)

    def test_a_lie_is_refused_and_solved_again(self) -> None:
        def lie(count: int, answer: Answer) -> Answer:
            if count not in lies or not isinstance(answer, Solution):
                return answer
            return replace(answer, cost=answer.cost - 1)
        lies: Sequence[int] = (1, 6)
        self.assertEqual(planned(self.region, SMALL, Backwards(lie)).standing, self.found.standing)
        lies = range(10**6)
        with self.assertRaises(NotSolved) as caught:
            planned(self.region, SMALL, Backwards(lie))
        self.assertIn("given out 3 times: the cost is not the sum of its parts", str(caught.exception))
        self.assertIn("--resume", str(caught.exception))

    def test_accidents_are_given_out_again(self) -> None:
        def forget(count: int, answer: Answer) -> Optional[Answer]:
            if count == 4:
                raise EngineFailed("a node is gone")
            return NoMemory("none") if count == 2 else answer
        self.assertEqual(planned(self.region, SMALL, Backwards(forget)).standing, self.found.standing)

    def test_kept_answers_are_checked_too(self) -> None:
        with kept() as store:
            def end(count: int, answer: Answer) -> Answer:
                if count == 3:
                    raise KeyboardInterrupt
                return answer
            with self.assertRaises(KeyboardInterrupt):
                plan(self.region, SMALL, Backwards(end), store)
            names = sorted(os.listdir(store.path("answers")))
            self.assertEqual(len(names), 2)
            tree = store.read(f"answers/{names[0]}") or {}
            store.write(f"answers/{names[0]}", json.dumps({**tree, "cost": 1}))
            store.write(f"answers/{names[1]}", "{")
            self.assertEqual(plan(self.region, SMALL, OwnCrew(2), store, resume=True).standing, self.found.standing)

    def test_whose_folder_it_is(self) -> None:
        with kept() as store:
            with self.assertRaises(FolderTaken):
                Store(store.folder)
            with self.assertRaises(KeyboardInterrupt):
                plan(self.region, SMALL, Backwards(stop), store)
            with self.assertRaisesRegex(RunDiffers, "not at its end"):
                plan(self.region, SMALL, OwnCrew(2), store)
            with self.assertRaisesRegex(RunDiffers, "other tables"):
                plan(self.region, replace(SMALL, most=50), OwnCrew(2), store, resume=True)
            other = OwnCrew(2, Searcher("vr", not Searcher.found().refines))
            with self.assertRaisesRegex(RunDiffers, "searched by another program"):
                plan(self.region, SMALL, other, store, resume=True)
            done = plan(self.region, SMALL, OwnCrew(2), store, resume=True)
            again = plan(self.region, SMALL, Backwards(stop), store, resume=True)
            self.assertEqual(again, done)
            store.take_away("none")
            self.assertEqual(plan(self.region, SMALL, OwnCrew(2), store).standing, done.standing)

    def test_the_clock_ends_a_plan(self) -> None:
        found = planned(self.region, Asked(seconds=0.01, jobs=2, most=60))
        self.assertIn(found.ended, ("the seconds are over", "the tries are used up"))
        self.assertEqual(checked(self.region, found).missing, ())


def stop(count: int, answer: Answer) -> Answer:
    """Ends a run at its first answer."""
    raise KeyboardInterrupt


SBATCH = """
import os, subprocess, sys
folder = os.path.dirname(os.path.abspath(sys.argv[-1]))
job = 1 + len([name for name in os.listdir(folder) if name.startswith("job")])
open(os.path.join(folder, f"job{job}"), "w").close()
if job == 1:  # Its worker takes a part and is gone.
    name = sorted(os.listdir(os.path.join(folder, "open")))[0]
    os.replace(os.path.join(folder, "open", name), os.path.join(folder, "taken", name + ".1-1"))
else:
    words = {**os.environ, "SLURM_ARRAY_JOB_ID": str(job), "SLURM_ARRAY_TASK_ID": "1"}
    subprocess.Popen(["sh", sys.argv[-1]], env=words, stdout=subprocess.DEVNULL, stderr=subprocess.DEVNULL)
print(job)
"""
SQUEUE = "import sys\nprint('2-1' if sys.argv[-1] == '2' else '')\n"


class CrewTests(unittest.TestCase):
    asked = replace(SMALL, tries=300_000)

    def test_gnu_parallel_finds_the_same_plan(self) -> None:
        region = made_region(120)
        known = planned(region, self.asked)
        for lost in (-1, 2):
            with engine_on_path("parallel", PARALLEL, lost):
                found = planned(region, self.asked, ParallelCrew(2, Searcher.found()))
            self.assertEqual(found.standing, known.standing)
        with engine_on_path("parallel", "sys = __import__('sys'); sys.exit(sys.stderr.write('no machine\\n'))"):
            with self.assertRaisesRegex(NotSolved, "3 of 3 parts have no result; GNU parallel said: no machine"):
                planned(region, self.asked, ParallelCrew(2, Searcher.found()))

    def test_workers_of_slurm_find_the_same_plan(self) -> None:
        region = made_region(120)
        known = planned(region, self.asked)
        with engine_on_path("sbatch", SBATCH) as folder, mock.patch("jambulskeg.region.slurm_crew.ASK", 0.2):
            for name, body in (("squeue", SQUEUE), ("scancel", "")):
                with open(name, "w", encoding="utf-8") as file:
                    file.write(f"#!{sys.executable}\n{body}")
                os.chmod(name, 0o755)
            crew = SlurmCrew(1, Searcher.found(), ["--partition=long"], os.path.join(folder, "crew"))
            found = planned(region, self.asked, crew)
            crew.close()
            self.assertTrue(os.path.exists("crew/job2") and os.path.exists("crew/end"))
        self.assertEqual(found.standing, known.standing)

    def test_slurm_takes_no_job(self) -> None:
        with engine_on_path("sbatch", "import sys; sys.stderr.write('no such partition\\n')"):
            with self.assertRaisesRegex(NotSolved, "sbatch took no job; it said: no such partition"):
                planned(made_region(60), SMALL, SlurmCrew(1, Searcher("vr_cli"), [], "crew"))


class RefiningTests(unittest.TestCase):
    def test_what_the_searcher_is_given(self) -> None:
        region = made_region(40)
        part, lists = Part(tuple(region.visits), (0, 1)), ((5, 9, 2), ())
        texts: List[Dict[str, Any]] = []

        class Reads(Backwards):
            """A crew that reads what it is given, and has no answer."""

            def each(self, count: int, text_of: TextOf) -> Answers:
                texts.append(json.loads(text_of(0)))
                yield 0, NoFirstSolution("none")

        for effort, routes in ((first_effort(9000, 40, True), None), (effort_of(7, 9000, True), [lists]),
                               (effort_of(7, 9000, False), [lists])):
            with kept() as store:
                solve_parts(Round(region, 0, [part], effort, routes), Reads(), store, lambda at, model, found: at)
        first, seam, anew = texts
        self.assertEqual((first["refine"], "routes" in first), ({}, False))
        self.assertEqual((seam["refine"]["seed"], seam["routes"]), (7, [[5, 9, 2], []]))
        self.assertEqual(seam["model"]["search"]["tries"], 6)
        ways = [0, *lists[0], 0]
        mean = sum(round(math.dist(region.points[one], region.points[other])) for one, other in zip(ways, ways[1:])) / 4
        self.assertAlmostEqual(seam["refine"]["heat"], WARMTH * mean, delta=2)
        self.assertEqual((set(anew) & {"model", "routes", "refine"}, anew["search"]["tries"]), (set(), 9000))

    @unittest.skipUnless(Searcher.found().refines, "the vr_refine at hand does not know ruin and recreate")
    def test_going_on_is_cheaper(self) -> None:
        region = made_region(150)
        found = planned(region, SMALL)
        anew = planned(region, replace(SMALL, shape=Shape.usual(False)), OwnCrew(2, Searcher(find())))
        self.assertLess(found.journal[-1].cost, anew.journal[-1].cost)


class RoadTests(unittest.TestCase):
    def test_a_table_is_a_matrix(self) -> None:
        region = made_region(30)
        rows = [[abs(tail - head) * 10 for head in range(31)] for tail in range(31)]
        with tempfile.TemporaryDirectory() as folder:
            path = os.path.join(folder, "costs.bin")
            write_roads(path, rows)
            table = RoadTable(path, 31)
            self.assertEqual(table.among([3, 30, 0]), [[0, 270, 30], [270, 0, 300], [30, 300, 0]])
            with self.assertRaisesRegex(BadRoads, "32 places need 4096 bytes, 4 for each pair, and the file has 3844"):
                RoadTable(path, 32)
            roads = replace(region, costs=table)
            model = model_of_part(roads, Part(tuple(roads.visits), (0, 1))).strict
            self.assertEqual([[list(row) for row in matrix] for matrix in model.matrices], [rows, rows])
            faster = replace(region, costs=table, times=RoadTable(path, 31))
            self.assertEqual(checked(faster, planned(faster)).cost, planned(roads).journal[-1].cost)
        with self.assertRaises(OverflowError):
            write_roads(os.devnull, [[-1]])


class ReadingTests(unittest.TestCase):
    VANS = b"name,start,capacity,skills\nred,yard,9,Lift; cold\nblue,yard,9,\n"

    def read(self, places: str) -> RegionTables:
        """The region of some places, with two vans."""
        return read_region(("places.csv", places.encode()), ("vans.csv", self.VANS))

    def test_columns_of_a_region(self) -> None:
        tables = self.read("name,x,y,Needs,pickup,note\nyard,0,0,,,\nAda,1,1,lift,,gate 3\nBen,2,2,COLD LIFT,Ada,\n")
        region = tables.region
        self.assertEqual([sorted(needs) for needs in region.needs], [[], ["lift"], ["cold", "lift"]])
        self.assertEqual([sorted(skills) for skills in region.skills], [["cold", "lift"], []])
        self.assertEqual((region.pairs, region.together(2)), (((1, 2),), (1, 2)))
        self.assertEqual(tables.of_part([1], [0]).further[0]["note"], "gate 3")
        self.assertEqual([region.can_make(van, 1) for van in (0, 1)], [True, False])

    def test_faults_have_their_place(self) -> None:
        for line, column, why in (
            ("Ada,1,1,snow,", "needs", "no vehicle has the skills snow"),
            ("Ada,1,1,,Eve", "pickup", "no place has the name 'Eve'"),
            ("Ada,1,1,,Ada", "pickup", "'Ada' is in a pair already, or would be in one with itself"),
            ("Ada,1,1,,yard", "pickup", "a vehicle starts or ends at one of the two"),
        ):
            with self.assertRaises(BadTable) as caught:
                self.read(f"name,x,y,needs,pickup\nyard,0,0,,\n{line}\n")
            self.assertEqual((caught.exception.line, caught.exception.column), (3, column))
            self.assertIn(why, str(caught.exception))

    def test_degrees_cost_metres(self) -> None:
        tables = self.read("name,lat,lon\nyard,52,13\nAda,52.1,13\n")
        self.assertEqual(model_of_part(tables.region, Part((1,), (0,))).strict.matrices[0][0][1], 11120)
        self.assertTrue(tables.tables.degrees)


class CommandTests(unittest.TestCase):
    def setUp(self) -> None:
        folder = tempfile.TemporaryDirectory()
        self.addCleanup(folder.cleanup)
        self.addCleanup(os.chdir, os.getcwd())
        os.chdir(folder.name)

    def run_words(self, *words: str) -> Tuple[int, str, str]:
        """The status of a command, and what it wrote."""
        out, errors = io.StringIO(), io.StringIO()
        with contextlib.redirect_stdout(out), contextlib.redirect_stderr(errors):
            status = main(["region", "places.csv", "vans.csv", *ROAD_WORDS, "--jobs", "2", *words])
        return status, out.getvalue(), errors.getvalue()

    def test_from_tables_to_sheets(self) -> None:
        write_tables(made_region(100), "places.csv", "vans.csv")
        words = ("--tries", "600000", "--most", "40", "-o", "plan.csv", "--page", "r.html", "--sheets", "sheets")
        status, out, errors = self.run_words(*words)
        self.assertEqual(status, 0)
        self.assertRegex(out, r"^100 of 100 visits, \d+ of \d+ vans, cost \d+; \d+ parts meet their models; ")
        self.assertRegex(errors, r"parts: \d of [\d,]+ tries; cost [\d,]+, \d+ vans\n.* seams, round 1: ")
        with open("plan.csv", encoding="utf-8") as file:
            first = file.read()
        self.assertIn("555-", first)
        self.assertIn("all.html", os.listdir("sheets"))
        self.assertEqual(self.run_words(*words, "--quiet")[2], "")
        with open("plan.csv", encoding="utf-8") as file:
            self.assertEqual(file.read(), first)
        self.assertEqual(sorted(os.listdir("plan.csv.region")),
                         ["answers", "asked.json", "checked", "journal.txt", "lock", "state.json"])

    def test_who_is_left_out_is_told(self) -> None:
        region = made_region(60)
        write_tables(replace(region, vans=region.vans[:1]), "places.csv", "vans.csv")
        status, out, errors = self.run_words("--tries", "200000", "-o", "plan.csv")
        self.assertEqual(status, 3)
        self.assertRegex(errors, r"left out: visit \d+, .* and \d+ others, which must be made; plan.csv has the plan")

    def test_words_that_do_not_go_together(self) -> None:
        write_tables(made_region(10), "places.csv", "vans.csv")
        for words in (["--sshlogin", ":"], ["--option", "x"]):
            status, _, errors = self.run_words("-o", "plan.csv", *words)
            self.assertEqual(status, 1)
            self.assertIn(words[0], errors)
        self.assertEqual(os.listdir("plan.csv.region") and os.path.exists("plan.csv"), False)


if __name__ == "__main__":
    unittest.main()
