"""Days planned anew: each rest glued to its morning meets the model of the whole day."""

from __future__ import annotations

import os
import random
import tempfile
import unittest
from dataclasses import replace
from typing import Any, Dict, List, Tuple

from jambulskeg.complete import complete
from jambulskeg.errors import NoFirstSolution, NotMet
from jambulskeg.model import Break, Model, Solution, Stop, VehicleBreaks, check, read_model, read_solution, solve
from jambulskeg.places import Place, Roads, model_from_csv, read_places
from jambulskeg.records import Evaluator, Group, Pair, Policy
from jambulskeg.replan import (
    CannotBeReplanned, Clock, Layout, Moved, Replanned, Rest, RestSolver, Unavailable, Van, Where, continued, glue,
    going_on, moved, replan, searched, solve_rest, with_places, with_tours,
)
from jambulskeg.replan.alike import renumbered
from jambulskeg.replan.moment import clock_of
from jambulskeg.rescue import Solved, rescue, timed_solver, with_search

from .support import EXAMPLES, THREE, in_format_2, random_tree

MOMENTS = {
    "service-day": (0, 100, 150, 200), "pickups": (10, 25), "breaks-day": (30, 100, 150), "reloads": (50, 100, 140),
    "parcels": (50, 120, 200), "windows-day": (100, 200), "shifts-tight": (600, 700), "optional-pairs": (20, 50),
    "two-vans": (10, 40), "hundred-customers": (500,),
}
"""The moments at which examples are planned anew; those without times in arc costs so far."""


def day(name: str) -> Tuple[Model, Solution]:
    """An example and its solution."""
    return read_model(os.path.join(EXAMPLES, f"{name}.json")), read_solution(
        os.path.join(EXAMPLES, f"{name}.solved.json")
    )


def moment_of(rng: random.Random, model: Model, plan: Solution) -> int:
    """A moment of a day, often one at which something begins."""
    clock: Clock = clock_of(model, 0)
    stops = [stop for route in plan.routes if route.nodes for stop in clock.stops(model, route)] or [0]
    return rng.choice([rng.randint(0, max(stops) + 1), rng.choice(stops), rng.choice(stops) + rng.randint(0, 5)])


def shrunk(tree: Dict[str, Any], nodes: int) -> Dict[str, Any]:
    """The model of the first nodes alone."""
    out = {**tree, "nodes": nodes, "matrices": [[row[:nodes] for row in matrix[:nodes]] for matrix in tree["matrices"]]}
    out["dimensions"] = [
        {**dimension, "evaluators": [
            {key: value[:nodes] if key == "values" else value for key, value in evaluator.items()}
            for evaluator in dimension["evaluators"]
        ], "nodes": [row for row in dimension.get("nodes", []) if row["node"] < nodes],
            **({"visit": dimension["visit"][:nodes]} if "visit" in dimension else {})}
        for dimension in tree["dimensions"]
    ]
    out["pairs"] = [pair for pair in tree.get("pairs", []) if max(pair.values()) < nodes]
    groups = [{**group, "nodes": [node for node in group["nodes"] if node < nodes]} for group in tree.get("groups", [])]
    out["groups"] = [
        {**group, "max": min(group.get("max", 1), len(group["nodes"]))} for group in groups if group["nodes"]
    ]
    out["allowed"] = [row for row in tree.get("allowed", []) if row["node"] < nodes]
    return out


def on_board_day(policy: Policy) -> Model:
    """Three pairs, 1 to 4, 2 to 3 and 5 to 6, on a line, and two vehicles of a policy."""
    return Model.of({
        "nodes": 7, "matrices": [[[abs(i - j) for j in range(7)] for i in range(7)]],
        "pairs": [{"pickup": 1, "delivery": 4}, {"pickup": 2, "delivery": 3}, {"pickup": 5, "delivery": 6}],
        "vehicles": [{"start": 0, "end": 0, "policy": policy.value}] * 2,
        "search": {"first": "PARALLEL_CHEAPEST_INSERTION"},
    })


def nothing(rest: Rest) -> Solution:
    """A search that finds nothing."""
    raise NoFirstSolution("none")


class Random:
    """A day made at random, its plan, and a moment of it."""

    def __init__(self, seed: int) -> None:
        self.rng = random.Random(seed)
        tree = random_tree(self.rng)
        self.tree = in_format_2(self.rng, tree) if self.rng.random() < 0.4 else tree
        self.model = Model.of(self.tree)
        self.plan = solve(self.model)
        self.now = moment_of(self.rng, self.model, self.plan)

    @classmethod
    def several(cls, seed: int, number: int) -> List["Random"]:
        """So many days that have plans."""
        found: List[Random] = []
        while len(found) < number:
            seed += 1
            try:
                found.append(cls(seed))
            except (NoFirstSolution, CannotBeReplanned):
                pass
        return found


class ReplanCase(unittest.TestCase):
    """What is asked of every rest."""

    def whole(self, rest: Rest, solution: Solution) -> Solution:
        """The whole day of a solution of the rest: it meets its model, the morning stays, no vehicle is forgotten."""
        found = glue(rest.day, rest, solution)
        self.assertTrue(check(rest.day, found).meets)
        for van, old, new in zip(rest.vans, rest.morning.routes, found.routes):
            if van.where is Where.BACK:
                self.assertEqual(old, new)
            if van.where is Where.ROAD:
                self.assertEqual(old.nodes[:van.stop + 1], new.nodes[:van.stop + 1])
                self.assertEqual(new.nodes[-1], rest.day.vehicles[van.vehicle].end)
                for before, after in zip(old.dimensions, new.dimensions):
                    self.assertEqual(before.cumuls[:van.stop], after.cumuls[:van.stop])
                self.assertEqual(tuple(plan.cumuls[van.stop] for plan in new.dimensions), van.cumuls)
            if van.where is Where.HOME and rest.clock.time is not None and new.nodes:
                time = new.dimensions[rest.clock.time]
                self.assertGreaterEqual(time.cumuls[0] + time.slacks[0], rest.clock.now)
        self.nothing_begins_earlier(rest, found)
        return found

    def nothing_begins_earlier(self, rest: Rest, found: Solution) -> None:
        """No visit that had not been begun begins before the moment."""
        begun = {node for route in rest.morning.routes if route.nodes
                 for node, stop in zip(route.nodes, rest.clock.stops(rest.day, route)) if stop <= rest.clock.now}
        for route in found.routes if rest.clock.time is not None else ():
            stops = rest.clock.stops(rest.day, route) if route.nodes else ()
            for node, cumul in list(zip(route.nodes, stops))[1:-1]:
                self.assertTrue(node in begun or cumul >= rest.clock.now, (node, cumul))

    def replanned(self, model: Model, plan: Solution, now: int, **words: Any) -> Tuple[Rest, List[Solution]]:
        """The rest, and the whole days of its search and of the plan continued."""
        rest = replan(model, plan, now, checked=False, **words)
        answers = [continued(rest)]
        try:
            answers.append(renumbered(rest, solve(rest.model)))
        except NoFirstSolution:
            pass
        return rest, [self.whole(rest, answer) for answer in answers if answer is not None]


class ExampleTests(ReplanCase):
    def test_examples(self) -> None:
        for name, moments in MOMENTS.items():
            model, plan = day(name)
            for now in moments:
                with self.subTest(name, now=now):
                    rest, found = self.replanned(model, plan, now)
                    self.assertEqual(found[0], replace(
                        plan, first_cost=plan.cost, tries=0, solutions=1, stop=Stop.FIRST
                    ))
                    self.assertEqual(rest.left, tuple(rest.layout.number()[node] for node in plan.dropped
                                                      if node in rest.layout.number()))

    def test_no_vehicle_is_forgotten_on_the_road(self) -> None:
        model, plan = day("service-day")
        rest, found = self.replanned(model, plan, 178)
        self.assertEqual([van.where for van in rest.vans], [Where.ROAD, Where.ROAD, Where.HOME, Where.ROAD])
        self.assertEqual(rest.lists[:2], ((rest.layout.number()[8],), (rest.layout.number()[14],)))
        self.assertEqual([route.nodes[-1] for route in found[1].routes if route.nodes], [0, 0, 0])
        self.assertEqual([answer.cost for answer in found], [1338, 1338])
        self.assertRaises(NotMet, lambda: glue(model, rest, complete(rest.model, [[], [], [], []], checked=False)))

    def test_more_tries_than_the_model_has(self) -> None:
        model, plan = day("service-day")
        rest = replan(with_search(model, tries=10), plan, 60)
        found = rescue(rest.model, solver=timed_solver(0))
        assert found.solution is not None
        self.assertGreater(found.solution.tries, 10)
        self.whole(rest, found.solution)
        self.assertFalse(solve_rest(rest, searched(timed_solver(0))).whole.tries)

    def test_a_day_that_was_planned_anew_is_planned_anew(self) -> None:
        model, plan = day("service-day")
        rest, found = self.replanned(model, plan, 60, unavailable=Unavailable(visits=[16]))
        for answer in found:
            again, later = self.replanned(rest.day, answer, 130)
            self.assertEqual(later[0].cost, answer.cost)
            self.assertEqual(again.day, rest.day)

    def test_vehicles_at_a_visit_on_the_way_and_home(self) -> None:
        model, plan = day("service-day")
        moments = (60, 69, 70, 71, 189)
        wheres = {now: [(van.where, van.stop) for van in replan(model, plan, now).vans] for now in moments}
        self.assertEqual([wheres[now][0] for now in wheres], [
            (Where.ROAD, 1), (Where.ROAD, 1), (Where.ROAD, 1), (Where.ROAD, 2), (Where.BACK, 0)
        ])
        self.assertEqual(wheres[60][2:], [(Where.HOME, 0), (Where.ROAD, 1)])
        self.assertIsInstance(replan(model, plan, 60).vans[0], Van)

    def test_the_nodes_of_a_rest(self) -> None:
        rest = replan(*day("two-vans"), 10)
        layout: Layout = rest.layout
        start, (stop,) = layout.starts[0], layout.chains[0]
        self.assertEqual((start, layout.nodes[start], layout.places[stop]), (5, layout.nodes[stop], layout.nodes[stop]))
        self.assertEqual(list(layout.free_arcs()), [(start, stop)])
        barred = set(layout.barred_arcs(rest.day))
        others = {(start, node) for node in range(1, 5)} - {(start, stop)}
        self.assertEqual({arc for arc in barred if arc[0] == start}, others)
        self.assertIn((1 if stop != 1 else 2, stop), barred)

    def test_breaks_that_were_taken_are_gone(self) -> None:
        model, plan = day("service-day")
        starts = plan.routes[0].dimensions[0].breaks
        for now in (starts[0] - 1, starts[0] + 1, 178):
            rest = replan(model, plan, now)
            van = rest.vans[0]
            begin = plan.routes[0].dimensions[0].cumuls[van.stop]
            self.assertEqual(van.taken[0], sum(1 for start in starts if start < begin))
            self.assertEqual(len(rest.model.dimensions[0].breaks_of(0)), len(starts) - van.taken[0])
            for entry in rest.model.dimensions[0].breaks_of(0):
                self.assertGreaterEqual(entry.from_, max(now, begin))

    def test_what_is_on_board_goes_to_its_delivery_on_its_vehicle(self) -> None:
        for policy, visits in ((Policy.ANY, [1, 2, 5, 6, 4, 3]), (Policy.LIFO, [1, 2, 5, 6, 3, 4]),
                               (Policy.FIFO, [1, 2, 4, 3, 5, 6])):
            model = on_board_day(policy)
            for now, loaded in ((2, (1,)), (3, (1, 2))):
                rest, found = self.replanned(model, complete(model, [visits, []]), now)
                self.assertEqual(rest.vans[0].on_board, loaded)
                for answer in found:
                    self.assertEqual(answer.lists()[0][:2], [1, 2])
                    self.assertLessEqual({3, 4}, set(answer.lists()[0]))


class ChangeTests(ReplanCase):
    def test_a_lost_vehicle(self) -> None:
        model, plan = day("service-day")
        rest, found = self.replanned(model, plan, 100, unavailable=Unavailable(vehicles=[0, 3]))
        for answer in found:
            self.assertEqual([answer.lists()[vehicle] for vehicle in (0, 3)], [[1, 6], []])
            self.assertLessEqual(set(moved(plan, answer).left_out), {3, 5, 8, 10, 11, 13, 15, 16})
        self.assertEqual(rest.planned, 9 + 2)
        self.assertTrue(moved(plan, found[0]).moved)

    def test_a_visit_taken_back(self) -> None:
        model, plan = day("service-day")
        rest, found = self.replanned(model, plan, 100, unavailable=Unavailable(visits=[9, 16]))
        for answer in found:
            self.assertLessEqual({9, 16}, set(answer.dropped))
            self.assertEqual(answer.parts.penalty, 0)
        required = replace(model, groups=[])
        plan = complete(required, plan.lists())
        rest, found = self.replanned(required, plan, 100, unavailable=Unavailable(visits=[9]))
        self.assertEqual(found[0].dropped, (9,))
        self.assertEqual(rest.day.groups, (Group([9], 0),))

    def test_a_pair_is_taken_back_as_a_whole(self) -> None:
        model, plan = day("pickups")
        _, found = self.replanned(model, plan, 10, unavailable=Unavailable(visits=[4]))
        self.assertEqual(found[0].dropped, (3, 4))

    def test_a_late_vehicle(self) -> None:
        model, plan = day("service-day")
        rest, found = self.replanned(model, plan, 85, done=[1, 2, 7])
        self.assertEqual(rest.vans[0].cumuls[0], 85)
        self.assertEqual(found[0].routes[0].dimensions[0].cumuls[:3], (0, 60, 85))
        vans = replan(model, plan, 100).vans
        done = [node for van, route in zip(vans, plan.routes) for node in route.nodes[1:van.stop]]
        self.assertEqual(replan(model, plan, 100, done=done).model, replan(model, plan, 100).model)
        late = replace(plan.routes[0].dimensions[0])
        self.assertEqual(late.cumuls[2], 80)

    def test_new_orders(self) -> None:
        model, _ = day("service-day")
        morning = Model.of(shrunk(model.tree(), 15))
        plan = solve(morning)
        rest, found = self.replanned(morning, plan, 60, new=model)
        self.assertEqual([rest.layout.nodes[node] for node in rest.left][-2:], [15, 16])
        self.assertEqual(moved(plan, found[0]).moved, [])
        self.assertEqual(moved(plan, found[0]).brought_in, [15, 16])

    def test_the_better_of_search_and_plan_is_taken(self) -> None:
        model, plan = day("service-day")
        rest = replan(model, plan, 0)
        worse: RestSolver = lambda rest: solve(replace(rest.model, search=replace(rest.model.search, tries=0)))
        for solver in (worse, going_on, nothing):
            found = solve_rest(rest, solver)
            self.assertTrue(found.is_kept)
            self.assertEqual((found.whole.cost, found.kept, found.moved), (1338, 1338, Moved([], [], [])))
        self.assertEqual(searched()(rest), solve(rest.model))
        begun = [node for node in plan.lists()[0][:1]]
        late = replan(model, plan, 65, done=begun)
        self.assertIsInstance(solve_rest(late, searched(lambda model: Solved(model, solve(model)))), Replanned)

    def test_alike_vehicles_at_home_are_renumbered(self) -> None:
        model, plan = day("service-day")
        rest = replan(model, plan, 0)
        turned = complete(rest.model, [*rest.lists[1:], rest.lists[0]])
        self.assertEqual(renumbered(rest, turned), complete(rest.model, rest.lists))
        unlike = replace(model, vehicles=[replace(vehicle, fixed=at) for at, vehicle in enumerate(model.vehicles)])
        other = replan(unlike, complete(unlike, plan.lists()), 0)
        self.assertEqual(renumbered(other, turned), turned)
        self.assertEqual(renumbered(replan(model, plan, 100), turned).routes[0], turned.routes[0])

    def test_places(self) -> None:
        with tempfile.TemporaryDirectory() as folder:
            text = ("name,x,y,demand,open,close,service,penalty\nyard,0,0,,,,,\n"
                    "Ada,30,40,2,0,500,10,500\nBen,-20,10,4,0,500,15,\n")
            for name, more in (("old.csv", ""), ("new.csv", "Eve,30,30,3,200,400,5,90\nFay,5,5,1,,,2,\n")):
                with open(os.path.join(folder, name), "w", encoding="utf-8") as file:
                    file.write(text + more)
            with open(os.path.join(folder, "vans.csv"), "w", encoding="utf-8") as file:
                file.write("name,start,end,capacity,from,to\nred,yard,yard,15,0,600\nblue,yard,yard,15,0,600\n")
            old, new, vans = (os.path.join(folder, name) for name in ("old.csv", "new.csv", "vans.csv"))
            roads = Roads(pace=1.5)
            model = model_from_csv(old, vans, roads)
            longer = with_places(model, read_places(new), roads)
            self.assertEqual(longer, model_from_csv(new, vans, roads))
            for places, said in ((read_places(new), "measure, the scale"), (read_places(new)[:2], "2 places for 3")):
                self.assertRaisesRegex(CannotBeReplanned, said, lambda: with_places(model, places))
            counted = replace(model, dimensions=[model.dimensions[0]])
            heavy = [*read_places(old), Place("Gus", 1, 1, demand=3)]
            self.assertRaisesRegex(CannotBeReplanned, "'Gus' has a demand", lambda: with_places(counted, heavy, roads))
            untimed = replace(model, dimensions=[model.dimensions[1]])
            slow = [*read_places(old), Place("Gus", 1, 1, service=3)]
            self.assertRaisesRegex(CannotBeReplanned, "'Gus' has a time", lambda: with_places(untimed, slow, roads))
            other = [replace(place, service=1) for place in read_places(new)]
            self.assertRaisesRegex(CannotBeReplanned, "service times", lambda: with_places(model, other, roads))
            self.replanned(model, solve(model), 40, new=longer)


class HeldTests(ReplanCase):
    def day(self, slack_max: int) -> Tuple[Model, Solution]:
        """Two vehicles that start at 0, of which one stays at home, and a visit that comes in later."""
        way = [[0 if i == j else 10 for j in range(4)] for i in range(4)]
        time = {"name": "time", "evaluators": [{"matrix": 0}], "slack_max": slack_max, "capacity": 100,
                "fix_start": True, "span_cost": 2, "nodes": [{"node": 3, "window": [70, 75]}]}
        load = {"name": "load", "evaluators": [{"values": [0, 1, 1, 2]}], "slack_max": 0, "capacity": 2}
        model = Model.of({"nodes": 4, "matrices": [way], "vehicles": [{"start": 0, "end": 0}] * 2,
                          "dimensions": [time, load], "groups": [{"nodes": [3], "penalty": 999}]})
        return model, complete(model, [[1, 2], []])

    def test_a_vehicle_that_starts_at_0_has_waited(self) -> None:
        model, plan = self.day(100)
        rest, found = self.replanned(model, plan, 15)
        for answer in found:
            self.assertEqual(answer.lists(), [[1, 2], [3]])
            self.assertEqual(answer.routes[1].dimensions[0].cumuls, (0, 70, 80))
        self.assertEqual((rest.model.vehicles[1].fixed, rest.model.dimensions[0].starts[1].window), (30, (15, 15)))

    def test_a_vehicle_that_may_not_wait_so_long_stays_at_home(self) -> None:
        model, plan = self.day(70)
        _, found = self.replanned(model, plan, 15)
        self.assertEqual([answer.lists() for answer in found], [[[1, 2], []]] * len(found))


class TourTests(ReplanCase):
    def test_a_second_tour(self) -> None:
        model, plan = day("service-day")
        now = 245
        rest, _ = self.replanned(model, plan, now, new=with_tours(model, plan, [0, 1], now))
        self.assertEqual([van.where for van in rest.vans], [
            Where.BACK, Where.BACK, Where.HOME, Where.BACK, Where.HOME, Where.HOME
        ])
        late = [replace(row, window=(row.window[0], 480)) if row.window else row for row in model.dimensions[0].nodes]
        longer = shrunk(model.tree(), 16)
        morning = Model.of(longer)
        open_late = replace(model, dimensions=[replace(model.dimensions[0], nodes=late), model.dimensions[1]])
        plan = solve(morning)
        ends = [route.dimensions[0].cumuls[-1] if route.nodes else 0 for route in plan.routes]
        now = max(ends) + 1
        backs = [vehicle for vehicle, end in enumerate(ends) if end]
        rest, found = self.replanned(morning, plan, now, new=with_tours(open_late, plan, backs, now))
        tour = len(model.vehicles)
        begins = rest.model.dimensions[0].starts
        self.assertEqual({row.vehicle for row in begins} & {tour}, {tour})
        for answer in found:
            self.assertEqual(answer.dropped, ())
            used = next(route for route in answer.routes if 16 in route.visits)
            self.assertGreaterEqual(used.dimensions[0].cumuls[0], now)
            first = answer.routes[backs[used.vehicle - tour]] if used.vehicle >= tour else used
            self.assertLessEqual(first.dimensions[0].cumuls[-1], max(ends) if used.vehicle >= tour else 480)

    def test_what_a_second_tour_takes_over(self) -> None:
        model, plan = day("parcels")
        first = plan.routes[0]
        longer = with_tours(model, plan, [0], 300)
        self.assertEqual((longer.vehicles[3].start, longer.vehicles[3].end, longer.vehicles[3].fixed), (0, 0, 0))
        self.assertEqual(longer.vehicles[3].policy, Policy.LIFO)
        time = longer.dimensions[0]
        self.assertEqual(time.capacity_of(3), time.capacity_of(0))
        end = first.dimensions[0].cumuls[-1]
        self.assertEqual([row.window for row in time.starts if row.vehicle == 3], [(end, 2**36)])
        for row in model.allowed:
            self.assertEqual(3 in longer.vehicles_of(row.node), 0 in row.vehicles)
        breaks, plan_of_breaks = day("breaks-day")
        late = with_tours(breaks, plan_of_breaks, [1], 150).dimensions[0]
        self.assertEqual([(entry.from_, entry.to) for entry in late.breaks_of(2)], [(141, 141), (210, 210)])

    def test_who_has_no_second_tour(self) -> None:
        model, plan = day("service-day")
        for vehicles, now, said in (([0], 100, "vehicle 0 has no second tour: at 100"), ([9], 300, "vehicle 9 has no"),
                                    ([0] * 97, 300, "at most 100 vehicles")):
            with self.assertRaisesRegex(CannotBeReplanned, said):
                with_tours(model, plan, vehicles, now)
        reloads, plan = day("reloads")
        self.assertRaisesRegex(CannotBeReplanned, "'fix_start'", lambda: with_tours(reloads, plan, [0], 150))


class RefusedTests(unittest.TestCase):
    def refused(self, said: str, model: Model, plan: Solution, now: int, **words: Any) -> None:
        """What cannot be said is told in a sentence."""
        with self.assertRaisesRegex(CannotBeReplanned, said):
            replan(model, plan, now, **words)

    def test_what_cannot_be_said(self) -> None:
        model, plan = day("service-day")
        three = Model.of(THREE)
        self.refused("is none of the model's", model, plan, -1)
        self.refused("no dimension has the name 'hours'", model, plan, 9, time="hours")
        reloads, plan_of_reloads = day("reloads")
        self.refused("'crates' has negative transits", reloads, plan_of_reloads, 9, time="crates")
        self.refused("visit 99 is said to be done", model, plan, 100, done=[99])
        self.refused("done visit 6, and not visit 1", model, plan, 100, done=[6])
        self.refused("begins at 110, after 100", model, plan, 100, done=[1, 6, 11])
        self.refused("has not begun visit 1", model, plan, 178, done=[])
        self.refused("there is no vehicle 9", model, plan, 100, unavailable=Unavailable(vehicles=[9]))
        self.refused("visit 6 cannot be taken back", model, plan, 100, unavailable=Unavailable(visits=[6]))
        self.refused("fewer nodes", model, plan, 100, new=three)
        self.refused("other starts", model, plan, 100, new=replace(model, vehicles=model.vehicles[:3], dimensions=[]))
        self.refused("other dimensions", model, plan, 100, new=replace(model, dimensions=model.dimensions[:1]))
        self.refused("other matrices", model, plan, 100, new=replace(model, matrices=[*model.matrices] * 2))
        other = [[entry + 1 for entry in row] for row in model.matrices[0]]
        self.refused("matrix 0 has other entries", model, plan, 100, new=replace(model, matrices=[other]))
        self.assertRaises(NotMet, lambda: replan(model, replace(plan, cost=1), 100))
        self.assertEqual(replan(model, replace(plan, tries=10**9), 100).morning, replan(model, plan, 100).morning)
        rest = replan(model, plan, 100)
        self.assertRaisesRegex(CannotBeReplanned, "rest.day", lambda: glue(three, rest, plan))

    def test_what_is_on_board_of_a_lost_vehicle(self) -> None:
        model, plan = day("pickups")
        self.refused("on board what it picked up at visit 1", model, plan, 10, unavailable=Unavailable(vehicles=[1]))
        model = on_board_day(Policy.ANY)
        plan = complete(model, [[1, 2, 5, 6, 3, 4], []])
        self.refused("visit 1 is made, and the other half", model, plan, 2, unavailable=Unavailable(visits=[4]))
        self.refused("what it picked up at visit 1", model, plan, 2, unavailable=Unavailable(vehicles=[0]))

    def test_pairs_and_groups_of_new_orders_that_come_too_late(self) -> None:
        model, plan = day("service-day")
        pairs = [Pair(10, 6)]
        self.refused("of pair 0 visit 6 is made, and visit 10", model, plan, 100, new=replace(model, pairs=pairs))
        groups = [Group([1, 2, 7], 5)]
        self.refused("of group 0 more visits are made than the 1", model, plan, 100, new=replace(model, groups=groups))

    def test_a_visit_that_must_be_made_and_cannot_be(self) -> None:
        model, plan = day("service-day")
        required = replace(model, groups=[])
        plan = complete(required, plan.lists())
        self.refused("visit 3 must be made, and no vehicle", required, plan, 100, unavailable=Unavailable(
            vehicles=[0, 1, 2, 3]
        ))
        groups = replace(model, groups=[Group([5, 10], max=2)])
        self.refused("group 0 asks for 2 visits", replace(groups, groups=[*groups.groups, *(
            Group([node], 1000) for node in groups.visits() if node not in (5, 10)
        )]), replace(plan, cost=plan.cost), 100, unavailable=Unavailable(vehicles=[0, 1, 2, 3]))
        closed = replace(required, dimensions=[replace(required.dimensions[0], nodes=[
            replace(row, window=(0, 99)) if row.node == 10 else row
            for row in required.dimensions[0].nodes
        ]), required.dimensions[1]])
        self.refused("visit 10 must be made, and it can no longer be begun at 100", required, plan, 100, new=closed)

    def test_who_stays_out_is_told(self) -> None:
        model, plan = day("service-day")
        required = replace(model, groups=[group for group in model.groups if 16 not in group.nodes])
        time, load = required.dimensions
        demands = [*(load.evaluators[0].values or ())][:16] + [16]
        heavy = replace(required, dimensions=[time, replace(load, evaluators=[Evaluator(values=demands)])])
        rest = replan(required, plan, 100, new=heavy, checked=False)
        for solver in (nothing, searched(lambda model: Solved(model, solve(model))), going_on):
            with self.assertRaisesRegex(NoFirstSolution, "none|stay out: 16|fits nowhere"):
                solve_rest(rest, solver)

    def test_a_break_that_is_too_late(self) -> None:
        model, plan = day("breaks-day")
        time = model.dimensions[0]
        lunch, pause = time.breaks_of(1)
        rows = [VehicleBreaks(1, [Break(lunch.from_, 145, lunch.duration), pause])]
        tight = replace(model, dimensions=[replace(time, breaks=rows), *model.dimensions[1:]])
        plan = complete(tight, plan.lists())
        replan(tight, plan, 140, done=[1, 5])
        self.refused("vehicle 1 has not had its break that begins until 145, and at 150", tight, plan, 150, done=[1, 5])

    def test_four_dimensions_without_times(self) -> None:
        load = {"evaluators": [{"values": [0, 1, 1]}], "slack_max": 0, "capacity": 9}
        model = Model.of({**THREE, "dimensions": [{"name": str(number), **load} for number in range(4)]})
        self.refused("4 dimensions, and its rest takes one more", model, solve(model), 6)
        matrices = [THREE["matrices"][0]] * 16
        self.refused("16 matrices", Model.of({**THREE, "matrices": matrices}), solve(Model.of(THREE)), 6)

    def test_too_many_nodes(self) -> None:
        size = 1000
        model = Model.of({
            "nodes": size, "matrices": [[[0 if i == j else 1 for j in range(size)] for i in range(size)]],
            "vehicles": [{"start": 0, "end": 0}],
        })
        plan = complete(model, [list(range(1, size))], checked=False)
        self.refused("the rest has 1001 nodes", model, plan, 1, checked=False)


class RandomTests(ReplanCase):
    def test_the_plan_goes_on_at_any_moment(self, number: int = 60, seed: int = 0) -> None:
        """The plan of the morning is a plan of its rest, and both cost the same but for what is past."""
        for made in Random.several(seed, number):
            with self.subTest(now=made.now, tree=made.tree):
                rest = replan(made.model, made.plan, made.now, checked=False)
                kept = complete(rest.model, rest.lists)
                whole = self.whole(rest, kept)
                self.assertLessEqual(whole.cost, made.plan.cost)
                try:
                    found = renumbered(rest, solve(rest.model))
                except NoFirstSolution:
                    continue
                if not any(dimension.global_span_cost for dimension in made.model.dimensions):
                    self.assertEqual(self.whole(rest, found).cost - found.cost, whole.cost - kept.cost)

    def test_days_that_change(self, number: int = 40, seed: int = 10000) -> None:
        """New orders, lost vehicles, visits taken back, and vehicles that are late."""
        counted = 0
        for made in Random.several(seed, number):
            with self.subTest(now=made.now, tree=made.tree):
                rng, model, plan = made.rng, made.model, made.plan
                words: Dict[str, Any] = {}
                if rng.random() < 0.5:
                    model = Model.of(shrunk(made.tree, model.nodes - 1))
                    words["new"] = made.model
                if rng.random() < 0.3:
                    words["unavailable"] = Unavailable([rng.randrange(len(model.vehicles))], [])
                elif rng.random() < 0.5:
                    words["unavailable"] = Unavailable([], [rng.choice(model.visits())])
                if rng.random() < 0.3:
                    words["done"] = [node for visits in plan.lists() for node in visits[:rng.randrange(3)]]
                try:
                    plan = solve(model) if "new" in words else plan
                    self.replanned(model, plan, made.now, **words)
                    counted += 1
                except (NoFirstSolution, CannotBeReplanned):
                    pass
        self.assertGreater(counted, number // 4)


if __name__ == "__main__":
    unittest.main()
