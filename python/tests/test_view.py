"""Pictures: what is drawn is the solution, texts are escaped, and a page needs no network."""

from __future__ import annotations

import json
import os
import random
import re
import time
import unittest
import xml.dom.minidom
from html.parser import HTMLParser
from typing import Any, Dict, List, Optional, Tuple

from jambulskeg.complete import complete, leave_later
from jambulskeg.errors import NoFirstSolution
from jambulskeg.model import Model, Solution, read_model, solve
from jambulskeg.places import Place
from jambulskeg.reasons import why_left_out
from jambulskeg.view import CannotBeDrawn, Day, Download, Names, compare_page, day_of, drawing, page, sheet_page
from jambulskeg.view.axis import Axis
from jambulskeg.view.colours import ROUTES, colours_of, letters
from jambulskeg.view.compare import changes_table, signed
from jambulskeg.view.loads import levels_of
from jambulskeg.view.route_map import route_map
from jambulskeg.view.sheets import sheets
from jambulskeg.view.ground import ground_of, length_of_scale
from jambulskeg.view.svg import escaped, script_json
from jambulskeg.view.tables import left_table, stops_table, visits_table
from jambulskeg.view.timeline import axis_of, rooms, timeline

from .support import EXAMPLES, THREE, random_tree, solved

NASTY = "<script>alert(1)</script> & \"quoted\" 'too' \x00\x1b \ud800 ]]>"
EMPTY = {"meta", "rect", "line", "path", "circle", "input", "br"}


class Reader(HTMLParser):
    """Reads a page: each element that is opened is closed, and which there are."""

    def __init__(self) -> None:
        super().__init__()
        self.open: List[str] = []
        self.seen: Dict[str, int] = {}
        self.marks: List[Tuple[str, str, Optional[str]]] = []

    def handle_starttag(self, tag: str, attrs: List[Tuple[str, Optional[str]]]) -> None:
        self.seen[tag] = self.seen.get(tag, 0) + 1
        self.marks += [(tag, name, value) for name, value in attrs]
        if tag not in ("meta", "input"):
            self.open.append(tag)

    def handle_startendtag(self, tag: str, attrs: List[Tuple[str, Optional[str]]]) -> None:
        self.seen[tag] = self.seen.get(tag, 0) + 1

    def handle_endtag(self, tag: str) -> None:
        if not self.open or self.open.pop() != tag:
            raise AssertionError(f"{tag} is closed, and was not the last one opened")


def read(text: str) -> Reader:
    """A page that was read to its end."""
    reader = Reader()
    reader.feed(text)
    reader.close()
    if reader.open:
        raise AssertionError(f"left open: {reader.open}")
    return reader


def day(name: str, **fields: Any) -> Day:
    """A day of an example."""
    model = read_model(os.path.join(EXAMPLES, f"{name}.json"))
    return day_of(model, solved(name), **fields)


def random_days(count: int) -> List[Day]:
    """Days of models made at random."""
    rng = random.Random(31)
    found: List[Day] = []
    while len(found) < count:
        model = Model.of(random_tree(rng))
        try:
            found.append(day_of(model, solve(model)))
        except NoFirstSolution:
            pass
    return found


def day_with_a_break(begin: int, **fields: Any) -> Day:
    """A day of one visit of 10 minutes from 130 on, an hour away, with a break of 20 minutes at a time."""
    model = Model.of({
        "format": 1, "nodes": 2, "matrices": [[[0, 60], [60, 0]]], "vehicles": [{"start": 0, "end": 0}],
        "dimensions": [{
            "name": "time", "evaluators": [{"matrix": 0, "values": [0, 10]}], "slack_max": 30, "capacity": 480,
            "nodes": [{"node": 1, "window": [130, 250]}],
            "breaks": [{"vehicle": 0, "breaks": [{"from": begin, "to": begin, "duration": 20}]}], **fields,
        }],
    })
    return day_of(model, complete(model, [[1]]))


class PieceTests(unittest.TestCase):
    def test_a_visit_is_interrupted_by_a_break_where_visit_is_absent(self) -> None:
        drawn = day_with_a_break(136)
        self.assertEqual([(piece.kind, piece.low, piece.high) for piece in drawn.pieces(drawn.routes()[0])], [
            ("travel", 40, 100), ("wait", 100, 130), ("visit", 130, 136), ("break", 136, 156), ("visit", 156, 160),
            ("travel", 160, 220),
        ])
        self.assertIn("<td>160</td><td>break 20 136 to 156, drives 60</td>", stops_table(drawn))
        read(page(drawn, "break", ""))

    def test_a_break_belongs_to_the_stop_that_has_begun(self) -> None:
        for begin, stop in ((60, 0), (129, 0), (130, 1), (131, 1), (150, 1)):
            drawn = day_with_a_break(begin)
            self.assertEqual([piece.stop for piece in drawn.breaks(drawn.routes()[0])], [stop], begin)

    def test_a_drive_is_interrupted_by_a_break_and_then_waits(self) -> None:
        drawn = day_with_a_break(60, visit=[0, 10])
        route = drawn.routes()[0]
        self.assertEqual([(piece.kind, piece.low, piece.high) for piece in drawn.pieces(route)], [
            ("travel", 40, 60), ("break", 60, 80), ("travel", 80, 120), ("wait", 120, 130), ("visit", 130, 140),
            ("travel", 140, 200),
        ])
        self.assertEqual(drawn.plan(route), route.dimensions[0])

    def test_pieces_fill_each_route_and_are_its_transits_and_slacks(self) -> None:
        for drawn in random_days(40):
            for route in drawn.routes() if drawn.is_timed else ():
                stops, plan = drawn.stops(route), route.dimensions[drawn.time or 0]
                inside = [piece for piece in drawn.pieces(route) if stops[0] <= piece.low and piece.high <= stops[-1]]
                self.assertEqual(sum(piece.high - piece.low for piece in inside), stops[-1] - stops[0])
                for one, other in zip(inside, inside[1:]):
                    self.assertEqual(one.high, other.low)
                idle = sum(piece.high - piece.low for piece in inside if piece.kind in ("wait", "break"))
                drives = [drawn.drive(route, arc) for arc in range(len(stops) - 1)]
                visits = sum(piece.high - piece.low for piece in inside if piece.kind == "visit")
                self.assertEqual(idle + visits + sum(drives), stops[-1] - stops[0])
                self.assertLessEqual(idle, sum(plan.slacks))
                self.assertEqual(sum(p.high - p.low for p in inside if p.kind == "travel"), sum(drives))
                self.assertEqual(len([p for p in drawn.pieces(route) if p.kind == "break"]), len(drawn.breaks(route)))

    def test_penalties_are_those_of_the_cost(self) -> None:
        group = Model.of({**THREE, "groups": [{"nodes": [1, 2], "penalty": 50}]})
        groups = [day_of(group, complete(group, [list(range(1, end))])) for end in (1, 2)]
        self.assertEqual([entry.short for drawn in groups for entry in drawn.penalties()], [1, 0])
        for drawn in [*random_days(60), *groups]:
            self.assertEqual(sum(entry.cost for entry in drawn.penalties()), drawn.solution.parts.penalty)
            left = {node for entry in drawn.penalties() for node in entry.left}
            self.assertEqual(sorted(left), list(drawn.solution.dropped))

    def test_levels_are_the_cumuls(self) -> None:
        for drawn in random_days(40):
            for number in drawn.loads():
                for route in drawn.routes():
                    levels = levels_of(drawn, number, route)
                    cumuls = list(route.dimensions[number].cumuls)
                    self.assertEqual([level for _, level in levels[::3]], cumuls)
                    self.assertEqual([level for _, level in levels[2::3]], cumuls[1:])
                    self.assertEqual([at for at, _ in levels], sorted(at for at, _ in levels))


class DayTests(unittest.TestCase):
    def test_the_dimension_that_is_drawn_along(self) -> None:
        self.assertEqual(day("service-day").time, 0)
        self.assertEqual(day("service-day", time="load").unit, "load")
        pickups = day("pickups")
        self.assertEqual((pickups.time, pickups.unit, pickups.loads()), (None, "arc costs so far", [0]))
        self.assertEqual(list(pickups.stops(pickups.routes()[0])), [0, 8, 17, 26, 35, 39, 44, 50])
        free = Model.of({**THREE, "matrices": [[[0, 0, 0]] * 3]})
        flat = day_of(free, solve(free))
        self.assertEqual((flat.unit, list(flat.stops(flat.routes()[0]))), ("stops", [0, 1, 2, 3]))
        faults: List[Dict[str, Any]] = [{"time": "hours"}, {"places": [Place("a", 0, 0)]}, {"vehicles": ["a", "b"]}]
        for fault in faults:
            with self.assertRaises(CannotBeDrawn):
                day("service-day", **fault)

    def test_names(self) -> None:
        names = Names(["yard"], ["red"], 510)
        self.assertEqual((names.node(0), names.node(1), names.short(1)), ("yard", "node 1", "1"))
        self.assertEqual((names.vehicle(0), names.vehicle(1)), ("red", "vehicle 1"))
        self.assertEqual((names.time(5), names.time(1000), Names().time(70)), ("8:35", "1:10 (day 2)", "70"))

    def test_what_a_day_tells(self) -> None:
        drawn = day("windows-day")
        route = drawn.routes()[0]
        self.assertEqual(drawn.made_by()[route.nodes[1]], (route.vehicle, 1))
        self.assertEqual(drawn.rows(route), drawn.asked(0, route))
        self.assertEqual(drawn.asked_by()[3].node, 3)
        self.assertEqual(drawn.service(route, len(route.nodes) - 1), 0)

    def test_ticks_are_round(self) -> None:
        self.assertEqual(Axis(3, 97, 0, 100).ticks(10), [10, 20, 30, 40, 50, 60, 70, 80, 90])
        self.assertEqual(Axis(485, 720, 0, 100).ticks(4, True), [540, 600, 660, 720])
        self.assertEqual(Axis(0, 100000, 0, 100).ticks(12, True)[1] % 1440, 0)
        self.assertEqual(Axis(5, 5, 0, 100).ticks(12), [5])
        self.assertEqual([Axis(0, 10, 5, 100).at(value) for value in (-3, 5, 99)], [5, 55, 105])


class PageTests(unittest.TestCase):
    def test_examples_are_drawn(self) -> None:
        for name in ("service-day", "breaks-day", "pickups", "windows-day", "optional-visits", "three-nodes"):
            drawn = day(name)
            reader = read(page(drawn, name, "checked"))
            self.assertEqual(reader.open, [])
            self.assertEqual(reader.seen["h1"], 1)
            xml.dom.minidom.parseString(drawing([drawn], [name]))

    def test_random_days_are_drawn(self) -> None:
        for number, drawn in enumerate(random_days(25)):
            read(page(drawn, str(number), ""))
            xml.dom.minidom.parseString(drawing([drawn, drawn], ["one", "other"]))

    def test_a_day_on_which_nobody_leaves(self) -> None:
        model = Model.of({**THREE, "groups": [{"nodes": [1], "penalty": 0}, {"nodes": [2], "penalty": 0}]})
        drawn = day_of(model, complete(model, [[]]), places=[Place("a", 1, 1)] * 3)
        text = page(drawn, "empty", "")
        self.assertIn("left out", text)
        read(text)
        xml.dom.minidom.parseString(drawing([drawn], ["empty"]))

    def test_texts_are_escaped(self) -> None:
        tree = json.loads(read_model(os.path.join(EXAMPLES, "breaks-day.json")).text())
        tree["dimensions"][0]["name"] = "<b>&\""
        tree["dimensions"][1]["name"] = "</script><i>"
        model = Model.of(tree)
        places = [Place(f"{NASTY}{node}", node, node * node) for node in range(model.nodes)]
        cells = [{NASTY: NASTY}] * model.nodes
        drawn = day_of(model, solve(model), places=places, vehicles=[NASTY, "b"], further=cells)
        files = [Download(NASTY, "text/csv", NASTY, NASTY)]
        read(sheet_page(drawn, 0, NASTY))
        self.assertNotIn("<script", sheet_page(drawn, 0, NASTY))
        texts = [page(drawn, NASTY, NASTY, files=files), compare_page((drawn, drawn), (NASTY, "b"), NASTY)]
        texts.append(drawing([drawn], [NASTY]))
        for text in texts:
            self.assertNotIn("<script>alert", text)
            self.assertNotIn("<b>&", text)
            self.assertNotIn("\x00", text)
            text.encode("utf-8")
        self.assertEqual([read(text).seen["script"] for text in texts[:2]], [2, 3])
        xml.dom.minidom.parseString(texts[2])
        islands = re.findall(r'<script type="application/json"[^>]*>(.*?)</script>', texts[0])
        self.assertEqual(Solution.of(json.loads(islands[0])), drawn.solution)
        self.assertEqual(escaped("a<b>\x07"), "a&lt;b&gt;\ufffd")
        self.assertEqual(json.loads(script_json("</script>&")), "</script>&")
        self.assertNotIn("<", script_json("</script>"))

    def test_a_page_needs_no_network(self) -> None:
        files = [Download("plan.csv", "text/csv", "van,stop\n", "Table")]
        text = page(day("service-day"), "day", "", files=files)
        marks = read(text).marks
        self.assertEqual([value for _, name, value in marks if name in ("src", "href", "action", "data")],
                         ["#tables", "data:text/csv;base64,dmFuLHN0b3AK"])
        self.assertNotRegex(text, r"https?://|@import|url\((?!#)")
        self.assertIn("default-src 'none'", text)

    def test_charts_have_words_and_tables(self) -> None:
        text = page(day("service-day"), "day", "")
        marks = read(text).marks
        images = [value for tag, name, value in marks if tag == "svg" and name == "role"]
        said = [value for tag, name, value in marks if tag == "svg" and name == "aria-label"]
        self.assertEqual((len(images), len(said)), (2, 2))
        regions = [value for tag, name, value in marks if tag == "div" and name == "tabindex"]
        self.assertEqual(len(regions), text.count('class="scroll'))
        self.assertIn("Stops of each vehicle", text)
        self.assertIn('<label for="search">', text)
        self.assertIn('lang="en"', text)

    def test_tables_say_what_is_there(self) -> None:
        drawn = day("windows-day")
        table = visits_table(drawn)
        self.assertIn(" at 2 each", table)
        self.assertIn("180 to 240", table)
        self.assertIn("waits ", stops_table(drawn))
        self.assertIn("delivered at node 2", visits_table(day("pickups")))
        self.assertIn("Every visit is made", left_table(drawn))
        self.assertIn("break 30 90 to 120", stops_table(day("breaks-day")))
        self.assertEqual(timeline(drawn, axis_of([drawn])).body.count("may not begin from 180 to 240"), 1)
        optional = day("optional-visits")
        for entry in optional.penalties():
            self.assertIn(f'<td class="number">{entry.cost}</td>', left_table(optional))

    def test_two_days(self) -> None:
        one = day("service-day")
        other = day_of(one.model, leave_later(one.model, one.solution))
        text = compare_page((one, other), ("printed", "later"), "")
        read(text)
        self.assertIn(signed(other.solution.cost - one.solution.cost), text)
        self.assertEqual([signed(value) for value in (-3, 0, 4)], ["-3", "0", "+4"])
        self.assertIn("<td>later</td>", changes_table((one, other), ("printed", "later")))
        self.assertEqual(axis_of([one, other]).low, min(axis_of([one]).low, axis_of([other]).low))
        swapped = complete(one.model, one.solution.lists()[::-1])
        self.assertIn("another vehicle", changes_table((one, day_of(one.model, swapped)), ("a", "b")))
        empty = day_of(one.model, complete(one.model, [[], [], [], [13]]))
        self.assertIn("now left out", changes_table((one, empty), ("a", "b")))
        self.assertIn("now made", changes_table((empty, one), ("a", "b")))

    def test_places_lie_within_the_map(self) -> None:
        places = [Place(str(at), 8 + at / 10, 50 - at / 20) for at in range(5)]
        for in_degrees in (False, True):
            ground = ground_of(places, in_degrees)
            self.assertTrue(all(0 < x < 1000 and 0 < y < ground.height for x, y in ground.points))
            self.assertLess(ground.points[0][1], ground.points[4][1])
        ground = ground_of([Place("a", 3, 4)] * 2, False)
        self.assertEqual(ground.points, [(500, ground.height / 2)] * 2)
        self.assertEqual(length_of_scale(ground)[0], 100)

    def test_a_place_far_out_does_not_squeeze_the_map(self) -> None:
        near = [Place(str(at), at % 4, at // 4) for at in range(12)]
        ground = ground_of([*near, Place("far", 60, 1)], False)
        self.assertEqual(list(ground.far), [12])
        self.assertAlmostEqual(ground.far[12], 58.0, 0)
        self.assertGreater(max(x for x, _ in ground.points[:12]) - min(x for x, _ in ground.points[:12]), 700)
        self.assertTrue(0 < ground.points[12][0] <= 970 and 0 < ground.points[12][1] < ground.height)
        clusters: List[List[Place]] = [[Place("far", 60, 1)] * 5, []]
        for others in clusters:
            self.assertEqual(ground_of([*near, *others], False).far, {})
        self.assertEqual(ground_of([near[0], Place("far", 60, 1)], False).far, {})
        degrees = ground_of([Place("a", 8, 47), Place("b", 8, 48)], True)
        self.assertAlmostEqual((degrees.points[0][1] - degrees.points[1][1]) / degrees.scale, 111.2, 1)
        self.assertEqual((degrees.unit, length_of_scale(degrees)[0]), (" km", 20))

    def test_a_map_has_letters_numbers_and_a_scale(self) -> None:
        places = [Place(f"p{node}", node % 5, node // 5) for node in range(17)]
        drawn = day("service-day", places=places)
        marks = route_map(drawn).body
        for route in drawn.routes():
            for stop in range(1, len(route.nodes) - 1):
                self.assertIn(f">{drawn.letters(route.vehicle)}{stop}</text>", marks)
        self.assertIn('class="ruler"', marks)
        at_one = day_of(drawn.model, drawn.solution, places=[places[0]] * 17)
        self.assertEqual(route_map(at_one).body.count('class="spot'), 16 + 3)


class VanTests(unittest.TestCase):
    def test_colours_are_those_of_names(self) -> None:
        self.assertEqual(colours_of(("red", "Blue", "van", "red")), (9, 0, 1, 2))
        self.assertEqual(sorted(colours_of(tuple("x" * at for at in range(12)))), list(range(len(ROUTES))))
        many = colours_of(("red",) * 30)
        self.assertLessEqual(max(map(many.count, many)), 3)
        self.assertEqual([letters(at) for at in (0, 25, 26, 99)], ["A", "Z", "AA", "CV"])

    def test_a_van_has_one_colour_everywhere(self) -> None:
        places = [Place(f"p{node}", node % 5, node // 5) for node in range(17)]
        drawn = day("service-day", places=places, vehicles=["one", "red", "two", "three"])
        text = page(drawn, "day", "")
        self.assertEqual([drawn.colour(vehicle) for vehicle in range(4)], [0, 9, 1, 2])
        for kind in ("visit", "swatch", "level", "area", "route", "spot", "badge"):
            self.assertIn(f'class="{kind} c9"', text)
        self.assertNotIn('class="visit"', text)

    def test_a_sheet_has_all_that_is_known(self) -> None:
        model = read_model(os.path.join(EXAMPLES, "breaks-day.json"))
        cells = [{"Phone": f"0{node}", "empty": ""} for node in range(model.nodes)]
        drivers = [{"Driver": f"<{vehicle}>"} for vehicle in range(len(model.vehicles))]
        drawn = day_of(model, solve(model), further=cells, van_further=drivers, clock=480)
        self.assertEqual((drawn.van_cells(1), drawn.cells(2)["Phone"]), ({"Driver": "<1>"}, "02"))
        text = sheets(drawn)
        self.assertEqual(text.count("<details"), len(drawn.routes()))
        self.assertEqual(text.count('class="pause"'), sum(len(drawn.breaks(route)) for route in drawn.routes()))
        self.assertIn("<p>Driver: &lt;0&gt;</p>", text)
        self.assertIn("> Phone</th>", text)
        self.assertNotIn("empty", text)
        self.assertIn('<td data-head="Phone">03</td>', text)
        self.assertIn("\u2013", text)
        single = sheet_page(drawn, drawn.routes()[0].vehicle, "Monday")
        self.assertEqual((read(single).seen["h1"], "Monday" in single), (1, True))
        unused = day("service-day")
        self.assertIn("This vehicle is not used.", sheet_page(unused, 2, ""))

    def test_why_a_visit_is_left_out(self) -> None:
        drawn = day("optional-visits")
        left = drawn.solution.dropped[0]
        self.assertEqual(drawn.reasons, why_left_out(drawn.model, drawn.solution))
        self.assertEqual(drawn.why_left(left), "'hours' forbids each of its 5 places")
        for text in (left_table(drawn), page(drawn, "", ""), drawing([drawn], [""])):
            self.assertIn(escaped(drawn.why_left(left)), text)
        quiet = day_of(drawn.model, drawn.solution, reasons={})
        self.assertEqual(quiet.why_left(left), "")

    def test_words_are_shown_where_there_is_room(self) -> None:
        self.assertEqual(rooms([(0.0, "x" * 10), (0.05, "y"), (0.5, "z"), (0.999, "w")], False),
                         ["wl wm ws", "", "wl wm ws", ""])
        self.assertEqual(rooms([(0.1, "x" * 12), (0.2, "y")], False), ["wl wm ws", "wl"])
        self.assertEqual(rooms([(0.0, "left"), (0.5, "mid"), (0.5, "")], True), ["", "wl wm ws", ""])

    def test_tables_are_sorted_and_wide(self) -> None:
        text = page(day("service-day"), "", "")
        self.assertEqual((text.count('class="sorts"'), text.count("container-type")), (2, 2))
        self.assertIn("aria-sort", text)


class LargeTests(unittest.TestCase):
    def test_a_hundred_vehicles_by_a_thousand_visits(self) -> None:
        rows = [[abs(tail - head) for head in range(1000)] for tail in range(1000)]
        windows = [{"node": node, "window": [node, node + 900]} for node in range(1, 1000)]
        model = Model.of({
            "format": 1, "nodes": 1000, "matrices": [rows], "vehicles": [{"start": 0, "end": 0}] * 100, "dimensions": [
                {"name": "time", "evaluators": [{"matrix": 0, "values": [5] * 1000}], "slack_max": 100,
                 "capacity": 5000, "nodes": windows},
                {"name": "load", "evaluators": [{"values": [1] * 1000}], "slack_max": 0, "capacity": 20},
            ],
        })
        lists = [list(range(max(1, 10 * vehicle), 10 * vehicle + 10)) for vehicle in range(100)]
        drawn = day_of(model, complete(model, lists, checked=False), places=[
            Place(f"place {node}", node % 37, node % 41) for node in range(1000)
        ])
        began = time.process_time()
        text = page(drawn, "large", "")
        self.assertLess(time.process_time() - began, 1)
        self.assertLess(len(text), 2_000_000)


if __name__ == "__main__":
    unittest.main()
