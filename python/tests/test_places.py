"""Places: distances and their rounding, CSV files and their faults, and the model that they make."""

from __future__ import annotations

import os
import tempfile
import unittest
from typing import Callable, Optional

from jambulskeg.model import Search, solve
from jambulskeg.places import (
    BadTable, Measure, Place, Roads, Rounding, Van, from_places, great_circle, load_of, model_from_csv, model_of,
    read_places, read_vans, rounded, time_of, whole,
)

PLACES = """name,x,y,demand,open,close,service,penalty
yard,0,0,,,,,
Ada,3,4,2,0:00,1:30,10,
Ben,0,8,1,20,90,5,300
"""
VANS = """name,start,end,capacity,fixed,from,to
red,yard,,2,50,0,200
blue,yard,yard,3,,,
"""


class DistanceTests(unittest.TestCase):
    def test_measures(self) -> None:
        places = [Place("a", 0, 0), Place("b", 1, 1)]
        self.assertEqual(from_places(places), [[0, 1], [1, 0]])
        self.assertEqual(from_places(places, Measure.EUCLID, Rounding.UP), [[0, 2], [2, 0]])
        self.assertEqual(from_places(places, Measure.EUCLID, Rounding.DOWN, 100), [[0, 141], [141, 0]])
        self.assertEqual(from_places(places, Measure.MANHATTAN), [[0, 2], [2, 0]])
        self.assertEqual([rounded(0.5), rounded(1.4999), rounded(2.5)], [1, 1, 3])

    def test_great_circles(self) -> None:
        pole, equator, other = Place("n", 0, 90), Place("e", 0, 0), Place("o", 180, 0)
        self.assertAlmostEqual(great_circle(pole, equator), 10007557.2, 0)
        self.assertAlmostEqual(great_circle(equator, other), 20015114.4, 0)
        self.assertEqual(from_places([pole, equator], Measure.GREAT_CIRCLE, scale=0.001), [[0, 10008], [10008, 0]])

    def test_times_of_day(self) -> None:
        self.assertEqual([whole("8:30"), whole("510"), whole("-3")], [510, 510, -3])
        for text in ("8:3", "8:75", "x", "1.5", ""):
            self.assertRaises(ValueError, lambda: whole(text))


class TableTests(unittest.TestCase):
    def setUp(self) -> None:
        self.folder = tempfile.TemporaryDirectory()
        self.addCleanup(self.folder.cleanup)

    def file(self, name: str, text: str) -> str:
        path = os.path.join(self.folder.name, name)
        with open(path, "w", encoding="utf-8") as file:
            file.write(text)
        return path

    def test_a_model_of_two_files(self) -> None:
        places, vans = self.file("places.csv", PLACES), self.file("vans.csv", VANS)
        model = model_from_csv(places, vans, Roads(pace=2, slack_max=30), Search(tries=1000))
        self.assertEqual(model.matrices, (((0, 5, 8), (5, 0, 5), (8, 5, 0)), ((0, 10, 16), (10, 0, 10), (16, 10, 0))))
        self.assertEqual([vehicle.fixed for vehicle in model.vehicles], [50, 0])
        time, load = model.dimensions
        self.assertEqual((time.name, time.visit, time.capacity), ("time", (0, 10, 5), (200, 2**36)))
        self.assertEqual([row.window for row in time.nodes], [(0, 90), (20, 90)])
        self.assertEqual([row.window for row in time.starts], [(0, 200)])
        self.assertEqual((load.capacity, load.evaluators[0].values), ((2, 3), (0, 2, 1)))
        self.assertEqual([(group.nodes, group.penalty) for group in model.groups], [((2,), 300)])
        self.assertEqual(solve(model).cost, 18)

    def test_a_model_of_places_alone(self) -> None:
        places = [Place("a", 0, 0), Place("b", 3, 4)]
        model = model_of(places, [Van("v", "a", "b")])
        self.assertEqual((model.dimensions, model.groups, model.visits()), ((), (), []))
        self.assertEqual(load_of(places, [Van("v", "a", "a", 7)]).capacity, (7,))
        self.assertEqual(model_of([Place("yard", 0, 0, penalty=5)], [Van("v", "yard", "yard")]).groups, ())
        self.assertEqual(time_of(places, [Van("v", "a", "a", shift=(5, 9))], {"a"}, 3).capacity, (9,))

    def test_an_optional_file(self) -> None:
        path = self.file("places.csv", "name,x,y\nyard,1.5,-2e1\n")
        self.assertEqual(read_places(path), [Place("yard", 1.5, -20.0)])
        self.assertEqual(read_places(self.file("other.csv", "\ufeffname;x;y\r\nyard;1.5;-2e1\r\n")), read_places(path))
        self.assertEqual(read_vans(self.file("v.csv", "start\nyard\n"), read_places(path)),
                         [Van("vehicle 0", "yard", "yard")])

    def test_files_as_spreadsheets_write_them(self) -> None:
        text = "name;x;y;open;close\r\nyard;11,5;-0,25;;\r\nAda;1.5;2;08:30:00;9:00\r\n"
        self.assertEqual(read_places(self.file("p.csv", text)),
                         [Place("yard", 11.5, -0.25), Place("Ada", 1.5, 2.0, window=(510, 540))])
        for cell in ("8:60", "8:5", "8:30:15", "8:30:00:00", ":30", "a:30"):
            self.bad("open", 2, lambda: read_places(self.file("p.csv", f"name,x,y,open,close\na,1,1,{cell},9:00\n")))
        self.bad("x", 2, lambda: read_places(self.file("p.csv", 'name,x,y\na,"1,5",1\n')))
        self.bad("x", 2, lambda: read_places(self.file("p.csv", "name;x;y\na;1.234,5;1\n")))
        path = self.file("latin.csv", "")
        with open(path, "wb") as file:
            file.write("name,x,y\nyard,1,2\nJörg,3,4\n".encode("latin-1"))
        self.bad("", 3, lambda: read_places(path), "latin.csv, line 3: this is no text in UTF-8")

    def bad(self, column: str, line: int, call: Callable[[], object], why: Optional[str] = None) -> None:
        with self.assertRaises(BadTable) as caught:
            call()
        self.assertEqual((caught.exception.column, caught.exception.line), (column, line))
        self.assertIn(why or "", str(caught.exception))

    def test_faults_of_places(self) -> None:
        for column, line, text in (
            ("", 1, ""),
            ("", 1, "name,x,y\n"),
            ("demnd", 1, "name,x,y,demnd\na,1,1,2\n"),
            ("x", 1, "name,x,x,y\na,1,2,3\n"),
            ("y", 1, "name,x,colour\na,1,red\n"),
            ("x", 2, "name,x,y\na,,1\n"),
            ("x", 2, "name,x,y\na,east,1\n"),
            ("y", 2, "name,x,y\na,1,nan\n"),
            ("y", 2, "name,x,y\na,1\n"),
            ("name", 3, "name,x,y\na,1,1\na,2,2\n"),
            ("name", 1, "x,y\n1,1\n"),
            ("name", 2, "name,x,y\n,1,1\n"),
            ("demand", 2, "name,x,y,demand\na,1,1,2.5\n"),
            ("close", 2, "name,x,y,open,close\na,1,1,5,\n"),
            ("close", 2, "name,x,y,open,close\na,1,1,5,4\n"),
            ("open", 2, "name,x,y,open,close\na,1,1,soon,4\n"),
            ("penalty", 2, "name,x,y,demand,open,close,service,penalty\na,1,1,2,3,4,5,6,7\n"),
        ):
            expected = "penalty" if text.endswith("6,7\n") else column
            self.bad(expected, line, lambda: read_places(self.file("p.csv", text)))

    def test_faults_of_vehicles(self) -> None:
        places = [Place("a", 0, 0)]
        self.bad("start", 2, lambda: read_vans(self.file("v.csv", "name,start\nred,\n"), places))
        self.bad("end", 2, lambda: read_vans(self.file("v.csv", "start,end\na,b\n"), places), "has the name 'b'")
        self.bad("capacity", 2, lambda: read_vans(self.file("v.csv", "start,capacity\na,much\n"), places))


if __name__ == "__main__":
    unittest.main()
