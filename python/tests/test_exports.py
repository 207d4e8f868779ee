"""Exports: each stop is there once, cells are guarded and parted as they came, and calendars keep their rules."""

from __future__ import annotations

import csv
import datetime
import io
import json
import os
import random
import re
import unittest
from typing import Dict, List, Tuple

from jambulskeg.complete import complete
from jambulskeg.errors import NoFirstSolution
from jambulskeg.exports import (
    CannotBeExported, clock_text, csv_of, day_of_tables, downloads, geojson, geojson_of, guarded, icalendar,
    icalendar_of, plan_csv,
)
from jambulskeg.model import Model, Solution, read_model, read_solution, solve
from jambulskeg.places import DayTables, Roads, model_of_day, read_day
from jambulskeg.view import Day, Download
from jambulskeg.view.stops import stops_of

from .support import EXAMPLES, random_tree

PLACES = (
    "name;x;y;demand;open;close;service;Phone;note;van\nyard;0;0;;;;;;;\n"
    "Ada;30;0;2;9:00;11:00;10;+49 30 1234;=1+1;x\nBen;60;0;3;23:30;26:00;15;;\"two\nlines; ä\";\n"
)
VANS = "name,start,capacity,from,to,visits\n@red,yard,9,8:00,28:00,few\n"
DATE = datetime.date(2026, 12, 31)


def tables_and_plan(places: str = PLACES) -> Tuple[DayTables, Model, Solution]:
    """Two visits of one van, the second one over midnight."""
    tables = read_day(("p.csv", places.encode()), ("v.csv", VANS.encode()))
    model = model_of_day(tables, Roads(slack_max=1000))
    return tables, model, complete(model, [[1, 2]], checked=False)


def rows(text: str, delimiter: str = ",") -> List[List[str]]:
    return list(csv.reader(io.StringIO(text.lstrip("\ufeff"), newline=""), delimiter=delimiter, strict=True))


class CsvTests(unittest.TestCase):
    def test_a_plan_of_spreadsheets(self) -> None:
        tables, model, solution = tables_and_plan()
        text = plan_csv(model, solution, tables)
        self.assertTrue(text.startswith("\ufeffvan;stop;name;arrival;begins;departure;load;Phone;note;van (2)\r\n"))
        self.assertEqual(rows(text, ";")[1:], [
            ["'@red", "0", "yard", "", "", "8:00", "0", "", "", ""],
            ["'@red", "1", "Ada", "8:30", "9:00", "9:10", "2", "+49 30 1234", "'=1+1", "x"],
            ["'@red", "2", "Ben", "9:40", "23:30", "23:45", "5", "", "two\nlines; ä", ""],
            ["'@red", "3", "yard", "24:45", "", "", "5", "", "", ""],
        ])

    def test_what_is_left_out_is_a_row(self) -> None:
        tables, model, solution = tables_and_plan(PLACES.replace(";x\n", ";x\nCleo;5;5;0;;;;;;\n"))
        found = rows(plan_csv(model, complete(model, [[1, 3]], checked=False), tables), ";")
        self.assertEqual(found[-1], ["", "", "Cleo", "", "", "", "", "", "", ""])

    def test_random_models(self) -> None:
        rng = random.Random(5)
        for _ in range(40):
            model = Model.of(random_tree(rng))
            try:
                solution = solve(model, checked=False)
            except NoFirstSolution:
                continue
            found = rows(plan_csv(model, solution))
            stops = sum(len(route.nodes) for route in solution.routes)
            self.assertEqual(len(found), 1 + stops + len(solution.dropped))
            self.assertEqual({len(cells) for cells in found}, {len(found[0])})

    def test_stops_are_in_order(self) -> None:
        for name in ("service-day", "breaks-day", "windows-day", "shifts-tight"):
            model = read_model(os.path.join(EXAMPLES, f"{name}.json"))
            day = day_of_tables(model, read_solution(os.path.join(EXAMPLES, f"{name}.solved.json")))
            for route in day.routes():
                stops = stops_of(day, route)
                times = [at for stop in stops for at in (stop.arrival, stop.begins, stop.departure) if at is not None]
                self.assertEqual(times, sorted(times), name)
                self.assertEqual((stops[0].arrival, stops[-1].departure), (None, None))

    def test_formulas(self) -> None:
        for cell in ("=1+1", "@SUM(A1)", "+A1", "-A1", "-2+3+cmd|' /C calc'!A0", "\tx", "\r=1"):
            self.assertEqual(guarded(cell), f"'{cell}")
        for cell in ("", "-3.5", "+49 30 1234", "+1 (555) 123-4567", "-1,5", "1=1", "a@b", "'x"):
            self.assertEqual(guarded(cell), cell)

    def test_times(self) -> None:
        _, model, solution = tables_and_plan()
        days: List[Day] = [day_of_tables(model, solution), day_of_tables(model, solution, clock=60)]
        self.assertEqual([clock_text(day, 1500) for day in days], ["1500", "26:00"])
        self.assertEqual([clock_text(day, None) for day in days], ["", ""])


    def test_days_and_tables_give_the_same(self) -> None:
        tables, model, solution = tables_and_plan()
        day = day_of_tables(model, solution, tables)
        self.assertEqual(csv_of(day, ";"), plan_csv(model, solution, tables))
        self.assertEqual(geojson_of(day), geojson(model, solution, tables))
        self.assertEqual(icalendar_of(day, DATE), icalendar(model, solution, DATE, tables))


class MapTests(unittest.TestCase):
    def test_a_map(self) -> None:
        tables, model, solution = tables_and_plan()
        found = json.loads(geojson(model, solution, tables))["features"]
        self.assertEqual([entry["geometry"]["type"] for entry in found], ["LineString"] + ["Point"] * 4)
        self.assertEqual(found[0]["geometry"]["coordinates"], [[0, 0], [30, 0], [60, 0], [0, 0]])
        self.assertEqual(found[0]["properties"], {"van": "@red", "visits": 2, "visits (2)": "few"})
        self.assertEqual(found[2]["properties"], {
            "name": "Ada", "van": "@red", "stop": 1, "arrival": "8:30", "begins": "9:00",
            "departure": "9:10", "load": 2, "Phone": "+49 30 1234", "note": "=1+1", "van (2)": "x",
        })
        left = json.loads(geojson(model, complete(model, [[1]], checked=False), tables))["features"][-1]
        self.assertEqual((left["properties"]["name"], left["properties"]["van"]), ("Ben", None))
        with self.assertRaises(CannotBeExported):
            geojson(model, solution)


class CalendarTests(unittest.TestCase):
    def events(self, text: str) -> List[Dict[str, str]]:
        """The events of a calendar, whose lines are put together again."""
        self.assertTrue(all(len(line.encode()) <= 75 for line in text.split("\r\n")))
        self.assertNotIn("\n", text.replace("\r\n", ""))
        lines = text.replace("\r\n ", "").split("\r\n")
        self.assertEqual((lines[0], lines[-2], lines[-1]), ("BEGIN:VCALENDAR", "END:VCALENDAR", ""))
        out: List[Dict[str, str]] = []
        for line in lines:
            key, _, value = line.partition(":")
            out += [{}] if line == "BEGIN:VEVENT" else []
            if out:
                out[-1][key] = value
        return out

    def test_a_calendar(self) -> None:
        tables, model, solution = tables_and_plan()
        found = self.events(icalendar(model, solution, DATE, tables))
        self.assertEqual([event["SUMMARY"] for event in found],
                         ["leave yard (@red)", "Ada (@red)", "Ben (@red)", "back at yard (@red)"])
        self.assertEqual([(event["DTSTART"], event.get("DTEND")) for event in found], [
            ("20261231T080000", None), ("20261231T090000", "20261231T091000"),
            ("20261231T233000", "20261231T234500"), ("20270101T004500", None),
        ])
        self.assertEqual(found[2]["DESCRIPTION"], "stop 2\\nnote: two\\nlines\\; ä")
        self.assertEqual(len({event["UID"] for event in found}), 4)
        self.assertEqual(icalendar(model, solution, DATE, tables), icalendar(model, solution, DATE, tables))

    def test_breaks_and_places(self) -> None:
        model = read_model(os.path.join(EXAMPLES, "breaks-day.json"))
        solution = read_solution(os.path.join(EXAMPLES, "breaks-day.solved.json"))
        with self.assertRaises(CannotBeExported):
            icalendar(model, solution, DATE)
        found = self.events(icalendar(model, solution, DATE, clock=480))
        self.assertIn("break (vehicle 0)", [event["SUMMARY"] for event in found])
        degrees = "name,lat,lon,service\nyard,47.5,8.5,\n" + "Long name " * 20 + ",47.6,8.6,5\n"
        tables = read_day(("p.csv", degrees.encode()), ("v.csv", b"start,from,to\nyard,0,900\n"))
        model = model_of_day(tables)
        found = self.events(icalendar(model, complete(model, [[1]]), DATE, tables))
        self.assertEqual(found[1]["GEO"], "47.600000;8.600000")


class DownloadTests(unittest.TestCase):
    def test_which_files_there_are(self) -> None:
        tables, model, solution = tables_and_plan()
        for words, names in (
            ({}, ["plan.csv"]), ({"tables": tables}, ["plan.csv", "plan.geojson"]),
            ({"tables": tables, "date": DATE}, ["plan.csv", "plan.geojson", "plan.ics"]),
        ):
            found: List[Download] = downloads(model, solution, **words)  # type: ignore[arg-type]
            self.assertEqual([file.name for file in found], names)
            self.assertTrue(all(re.fullmatch(r"data:[\w/+-]+;base64,[\w+/=]+", file.link) for file in found))


if __name__ == "__main__":
    unittest.main()
