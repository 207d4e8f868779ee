"""Files that others write, as models: benchmarks, VRPLIB, OSRM's tables, VROOM's problems.

The files are written here by the rules of their forms.
"""

from __future__ import annotations

import contextlib
import io
import json
import os
import tempfile
import unittest
from typing import Any, Callable, Dict, List, Tuple

from jambulskeg.__main__ import main
from jambulskeg.formats import (
    BadFile, Read, RoadTable, read_li_lim, read_osrm, read_solomon, read_vroom, read_vrplib,
)
from jambulskeg.model import Model, Vehicle, check, read_model, solve
from jambulskeg.places import Rounding

SOLOMON = """R101S

VEHICLE
NUMBER     CAPACITY
  2         20

CUSTOMER
CUST NO.  XCOORD.   YCOORD.    DEMAND   READY TIME  DUE DATE   SERVICE   TIME

    0      35         35          0          0       230          0
    1      41         49         10        161       171         10
    2      35         17          7         50        60         10
    3      55         45         13        116       126         10
"""
LI_LIM = """2\t20\t1
0\t40\t50\t0\t0\t200\t0\t0\t0
1\t45\t68\t-10\t0\t180\t9\t2\t0
2\t42\t66\t10\t0\t180\t9\t0\t1
"""
VRPLIB = """NAME : small
TYPE : CVRPTW
VEHICLES : 2
DIMENSION : 3
CAPACITY : 9
SERVICE_TIME : 1.5
EDGE_WEIGHT_TYPE : EUC_2D
NODE_COORD_SECTION
1 0.0 0.0
2 1.5 2.0
3 -3.25 0
DEMAND_SECTION
1 0
2 4
3 5
TIME_WINDOW_SECTION
1 0 20
2 2.5 9
3 0 20
DEPOT_SECTION
1
-1
EOF
"""
EXPLICIT = """TYPE: CVRP
DIMENSION: 3
EDGE_WEIGHT_TYPE: EXPLICIT
EDGE_WEIGHT_FORMAT: LOWER_ROW
EDGE_WEIGHT_SECTION
1.5
2.25 3
CAPACITY: 9
DEMAND_SECTION
1 0
2 4
3 5
EOF
"""
OSRM = {
    "code": "Ok", "durations": [[0, 61.2, None], [60, 0, 120.5], [59.9, 300, 0]],
    "distances": [[0, 1000.4, None], [1000, 0, 2000], [999.6, 5000, 0]],
}
VROOM: Dict[str, Any] = {
    "vehicles": [
        {"id": 1, "start_index": 0, "end_index": 0, "capacity": [4], "skills": [1], "time_window": [0, 4000],
         "breaks": [{"id": 1, "time_windows": [[600, 900]], "service": 60}], "costs": {"fixed": 5}},
        {"id": 2, "start_index": 1, "capacity": [4], "max_tasks": 2},
    ],
    "jobs": [
        {"id": 3, "location_index": 1, "service": 30, "delivery": [2], "time_windows": [[0, 100], [200, 3000]]},
        {"id": 4, "location_index": 2, "delivery": [1], "skills": [1], "priority": 9},
    ],
    "matrices": {"car": {"durations": [[0, 100, 200], [100, 0, 150], [200, 150, 0]]}},
}
NO_JOBS: Dict[str, Any] = {"jobs": []}
SHIPPED: Dict[str, Any] = {
    "vehicles": [{"id": 1, "start_index": 0, "end_index": 0, "capacity": [3], "max_travel_time": 900}],
    "shipments": [
        {"amount": [2], "pickup": {"id": 5, "location_index": 1}, "delivery": {"id": 5, "location_index": 2}},
    ],
    "matrices": VROOM["matrices"],
}


class FormatTest(unittest.TestCase):
    def setUp(self) -> None:
        folder = tempfile.TemporaryDirectory()
        self.addCleanup(folder.cleanup)
        self.folder = folder.name

    def file(self, text: Any) -> str:
        path = os.path.join(self.folder, "file")
        with open(path, "w", encoding="utf-8") as file:
            file.write(text if isinstance(text, str) else json.dumps(text))
        return path

    def refused(self, read: Callable[[str], Any], text: Any, place: str, why: str) -> None:
        with self.assertRaises(BadFile) as caught:
            read(self.file(text))
        self.assertEqual(caught.exception.place, place, str(caught.exception))
        self.assertIn(why, str(caught.exception))
        self.assertEqual(caught.exception.file, os.path.join(self.folder, "file"))

    def meets(self, model: Model) -> Any:
        """The answer to a model, which the check finds to meet it."""
        solution = solve(model)
        self.assertEqual(check(model, solution).cost, solution.cost)
        return solution


class BenchmarkTests(FormatTest):
    def test_solomon(self) -> None:
        model = read_solomon(self.file(SOLOMON))
        self.assertEqual(model.matrices[0], (
            (0, 152, 180, 223), (152, 0, 325, 145), (180, 325, 0, 344), (223, 145, 344, 0)))
        time, load = model.dimensions
        self.assertEqual((time.nodes[0].window, time.visit, load.capacity), ((1610, 1710), (0, 100, 100, 100), 20))
        self.assertEqual(sorted(self.meets(model).lists()), [[1], [2, 3]])
        self.assertEqual(read_solomon(self.file(SOLOMON), 1, Rounding.UP).matrices[0][0], (0, 16, 18, 23))
        self.assertEqual(read_solomon(self.file(SOLOMON), 1, Rounding.NEAREST).matrices[0][0], (0, 15, 18, 22))
        self.refused(read_solomon, SOLOMON.replace("VEHICLE\n", "CARS\n"), "", "no line VEHICLE")
        self.refused(read_solomon, SOLOMON.replace("161", "1x1"), "line 11", "'1x1' is no number")
        self.refused(read_solomon, SOLOMON.replace("161 ", "181 "), "line 11", "ends before it begins")
        self.refused(read_solomon, SOLOMON.replace("\n    2  ", "\n    9  "), "line 12", "number 2")

    def test_li_lim(self) -> None:
        model = read_li_lim(self.file(LI_LIM))
        self.assertEqual([pair.tree() for pair in model.pairs], [{"pickup": 2, "delivery": 1}])
        self.assertEqual(sorted(self.meets(model).lists()), [[], [2, 1]])
        self.refused(read_li_lim, LI_LIM.replace("\t0\t1\n", "\t0\t2\n"), "line 4", "do not name each other")
        self.refused(read_li_lim, LI_LIM.replace("20\t1", "20\t2"), "line 1", "speed")
        self.refused(read_li_lim, "", "", "no line")

    def test_vrplib(self) -> None:
        model = read_vrplib(self.file(VRPLIB), factor=100)
        self.assertEqual(model.matrices[0], ((0, 250, 325), (250, 0, 515), (325, 515, 0)))
        self.assertEqual((len(model.vehicles), model.dimensions[0].visit), (2, (0, 150, 150)))
        self.assertEqual(model.dimensions[0].nodes[0].window, (250, 900))
        self.assertEqual(self.meets(model).cost, 1090)
        self.assertEqual(read_vrplib(self.file(EXPLICIT), 1, 4).matrices[0], ((0, 6, 9), (6, 0, 12), (9, 12, 0)))
        self.refused(read_vrplib, EXPLICIT, "", "it does not say VEHICLES")
        self.refused(read_vrplib, VRPLIB.replace("EUC_2D", "GEO"), "", "EDGE_WEIGHT_TYPE is GEO")
        self.refused(read_vrplib, VRPLIB.replace("TYPE : CVRPTW", "BACKHAULS : 1"), "line 2", "BACKHAULS")
        self.refused(read_vrplib, VRPLIB.replace("3 -3.25 0\n", ""), "", "NODE_COORD_SECTION has no row 3")
        self.refused(read_vrplib, VRPLIB.replace("2 4\n", "2 4.5\n"), "line 14", "4.5")
        explicit = EXPLICIT.replace("TYPE: CVRP", "VEHICLES: 1", 1)
        self.refused(read_vrplib, explicit.replace("2.25 3", "2.25"), "", "ends before row 3, column 2")
        self.refused(read_vrplib, explicit.replace("2.25 3", "2.25 3 4"), "line 7", "after the last weight")


class RouterTests(FormatTest):
    def test_osrm(self) -> None:
        table = read_osrm(self.file(OSRM))
        self.assertIsInstance(table, RoadTable)
        self.assertEqual(table.durations, [[0, 2, 2**30], [1, 0, 3], [1, 5, 0]])
        self.assertEqual(table.distances, [[0, 1001, 2**30], [1000, 0, 2000], [1000, 5000, 0]])
        self.assertEqual(table.no_road, ((0, 2),))
        self.assertEqual(read_osrm(self.file(OSRM), 1, 100, Rounding.NEAREST).distances, [
            [0, 10, 2**30], [10, 0, 20], [10, 50, 0]])
        assert table.distances is not None
        model = Model(nodes=3, matrices=[table.distances], vehicles=[Vehicle(0, 0)])
        self.assertEqual(self.meets(model).cost, 4001)
        self.assertIsNone(read_osrm(self.file({**OSRM, "distances": None})).distances)
        self.refused(read_osrm, {"code": "NoTable", "message": "too big"}, "", "too big")
        self.refused(read_osrm, {"code": "Ok"}, "", "neither")
        self.refused(read_osrm, {"code": "Ok", "durations": [[0, 1]]}, "/durations", "square")
        self.refused(read_osrm, {"code": "Ok", "durations": [[0, -1], [1, 0]]}, "/durations/0/1", "-1")
        self.refused(read_osrm, {"code": "Ok", "durations": [[0, 1e15], [1, 0]]}, "/durations/0/1", "greater unit")
        self.refused(read_osrm, '{"code": "Ok", "durations": [[NaN]]}', "/durations/0/0", "nan")
        self.refused(read_osrm, "{", "line 1", "no JSON")


class VroomTests(FormatTest):
    def test_jobs(self) -> None:
        found = read_vroom(self.file(VROOM))
        self.assertIsInstance(found, Read)
        model = found.model
        self.assertEqual(found.nodes[-2:], ("job 3", "job 4"))
        self.assertEqual(found.vehicles, ("vehicle 1", "vehicle 2"))
        self.assertEqual([dimension.name for dimension in model.dimensions], ["time", "amount 0", "tasks"])
        self.assertEqual([row.tree() for row in model.dimensions[0].nodes], [
            {"node": 4, "window": [0, 3000], "forbidden": [[101, 199]]}])
        self.assertEqual([row.tree() for row in model.allowed], [{"node": 5, "vehicles": [0]}])
        self.assertEqual([group.penalty for group in model.groups], [10**7, 10**8])
        solution = self.meets(model)
        self.assertEqual((list(solution.dropped), [list(visits) for visits in solution.lists()]), ([], [[5], [4]]))
        self.assertEqual(solution.cost, 405)

    def test_shipments(self) -> None:
        model = read_vroom(self.file(SHIPPED)).model
        self.assertEqual([dimension.name for dimension in model.dimensions], ["time", "amount 0", "travel"])
        self.assertEqual([pair.tree() for pair in model.pairs], [{"pickup": 2, "delivery": 3}])
        self.assertEqual([list(visits) for visits in self.meets(model).lists()], [[2, 3]])

    def test_what_a_model_has_not(self) -> None:
        changes: List[Tuple[Dict[str, Any], str, str]] = [
            ({"jobs": [{"id": 1, "location_index": 1, "setup": 9}]}, "/jobs/0/setup", "'setup'"),
            ({"jobs": [{"id": 1, "location": [2.3, 48.8]}]}, "/jobs/0", "location_index"),
            ({"vehicles": [{"id": 1, "start_index": 0, "speed_factor": 2}]}, "/vehicles/0/speed_factor", "cannot say"),
            ({"vehicles": []}, "/vehicles", "no vehicle"),
            ({"vehicles": [{"id": 1, "start_index": 9, "capacity": [9], "skills": [1]}]}, "/matrices/car/durations",
             "no row 9"),
            ({"vehicles": [{"id": 1, "start_index": 0}]}, "/vehicles/0/capacity", "no entry 0"),
            ({"options": {"g": True}}, "/options", "'options'"),
            ({"matrices": {"car": {"durations": [[0, 1]]}}}, "/matrices/car/durations", "square"),
            ({"matrices": {}}, "/matrices/car", "object"),
            ({"jobs": [*VROOM["jobs"], {"id": 9, "location_index": 1, "pickup": [1]}]}, "/jobs", "pickup"),
            ({"shipments": SHIPPED["shipments"]}, "/jobs", "shipments"),
            ({"jobs": [{"id": 1, "location_index": 1, "skills": [7]}]}, "/", "skills [7]"),
            ({"jobs": [{"id": 1, "location_index": 1, "time_windows": [[5, 4]]}]}, "/jobs/0/time_windows/0", "window"),
            ({"jobs": [{"id": 1, "location_index": 1, "service": 1.5}]}, "/jobs/0/service", "1.5"),
        ]
        for change, place, why in changes:
            self.refused(read_vroom, {**VROOM, **change}, place, why)
        costs: Dict[str, Any] = {"vehicles": [{"id": 1, "start_index": 0, "capacity": [9], "costs": {"per_hour": 7}}]}
        self.refused(read_vroom, {**VROOM, **costs, **NO_JOBS}, "/vehicles/0/costs/per_hour", "3600")


class CommandTests(FormatTest):
    def test_a_model_is_written(self) -> None:
        output = os.path.join(self.folder, "model.json")
        self.assertEqual(main(["convert", "solomon", self.file(SOLOMON), "-o", output]), 0)
        self.assertEqual(read_model(output), read_solomon(self.file(SOLOMON)))
        forms: List[Tuple[List[str], Any, Callable[[str], Model]]] = [
            (["li-lim", "--fixed", "7"], LI_LIM, lambda path: read_li_lim(path, fixed=7)),
            (["vrplib", "--vehicles", "3", "--rounding", "up"], VRPLIB,
             lambda path: read_vrplib(path, 3, rounding=Rounding.UP)),
            (["vroom"], VROOM, lambda path: read_vroom(path).model),
        ]
        for words, text, read in forms:
            with contextlib.redirect_stdout(io.StringIO()) as out:
                self.assertEqual(main(["convert", words[0], self.file(text), *words[1:]]), 0)
            self.assertEqual(out.getvalue(), read(self.file(text)).text() + "\n")

    def test_what_goes_wrong_is_told(self) -> None:
        with contextlib.redirect_stderr(io.StringIO()) as said:
            self.assertEqual(main(["convert", "vroom", self.file("[")]), 1)
            self.assertEqual(main(["convert", "vroom", os.path.join(self.folder, "none")]), 1)
            self.assertEqual(main(["convert", "vroom", self.file(VROOM), "-o", "/dev/full"]), 1)
        self.assertIn("this is no JSON", said.getvalue())
        self.assertIn("No such file", said.getvalue())
        self.assertIn("No space left", said.getvalue())


if __name__ == "__main__":
    unittest.main()
