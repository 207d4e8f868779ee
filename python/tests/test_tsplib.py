"""TSPLIB files: the example as a model, models of files made at random, faults by their lines."""

from __future__ import annotations

import math
import os
import pathlib
import random
import unittest
from typing import Any, List, Tuple

from jambulskeg.errors import CAUSES, ProgramFailed, Refused
from jambulskeg.model import Dimension, Evaluator, Model, Vehicle, import_tsplib, read_model, solve

from .support import EXAMPLES, Fake, need

ORCHARD = os.path.join(EXAMPLES, "orchard-rounds.vrp")


def lines() -> List[str]:
    """The lines of the example."""
    with open(ORCHARD, encoding="utf-8") as file:
        return file.read().splitlines()


def with_line(number: int, line: str) -> bytes:
    """The example with another line of a number from 1."""
    return "\n".join([*lines()[:number - 1], line, *lines()[number:]]).encode()


def random_file(rng: random.Random) -> Tuple[bytes, Model]:
    """A file made at random, and its model for three vehicles."""
    nodes = rng.randint(1, 9)
    places = [(rng.randint(-99, 99), rng.randint(-99, 99)) for _ in range(nodes)]
    depot = rng.randrange(nodes)
    demands = [0 if node == depot else rng.randint(0, 9) for node in range(nodes)]
    matrix = [[math.floor(math.hypot(x - u, y - v) + 0.5) for u, v in places] for x, y in places]
    space = rng.choice([" ", "\t", "  "])
    rows = [space.join(map(str, (node + 1, x, y))) for node, (x, y) in enumerate(places)]
    loads = [space.join(map(str, (node + 1, demand))) for node, demand in enumerate(demands)]
    gap = rng.choice(["\n", "\r\n", "\n\n"])
    end: List[str] = rng.choice([["EOF"], [], ["EOF", "text"]])
    text = gap.join([
        "NAME : x", "TYPE : CVRP", f"DIMENSION : {nodes}", "EDGE_WEIGHT_TYPE : EUC_2D", "CAPACITY : 20",
        "NODE_COORD_SECTION", *rng.sample(rows, nodes), "DEMAND_SECTION", *rng.sample(loads, nodes), "DEPOT_SECTION",
        str(depot + 1), "-1", *end,
    ])
    load = Dimension("load", [Evaluator(values=demands)], slack_max=0, capacity=20, fix_start=True)
    return text.encode(), Model(nodes, [matrix], [Vehicle(depot, depot)] * 3, [load])


class ImportTests(unittest.TestCase):
    def setUp(self) -> None:
        need("import 1")

    def test_the_example(self) -> None:
        model = import_tsplib(ORCHARD, 3)
        self.assertEqual(model, read_model(ORCHARD.replace(".vrp", ".json")))
        self.assertEqual(model, import_tsplib(pathlib.Path(ORCHARD), 3))
        self.assertEqual(model, import_tsplib("\r\n".join(lines()).encode(), 3))
        self.assertEqual((model.nodes, len(model.vehicles), model.dimensions[0].capacity), (11, 3, 40))
        self.assertEqual(solve(model).cost, 321)

    def test_files_made_at_random(self) -> None:
        rng = random.Random(17)
        for _ in range(40):
            text, model = random_file(rng)
            self.assertEqual(import_tsplib(text, 3), model, text)

    def test_faults_by_their_lines(self) -> None:
        for code, path, data in (
            (40, "/9", with_line(9, "2 42.5 68")), (41, "/3", with_line(3, "NAME : again")),
            (42, "/3", with_line(3, "TYPE : TSP")), (43, "/6", with_line(6, "CAPACITY : -1")),
            (44, "/9", with_line(9, "1 42 68")), (45, "/0", b""), (45, "/0", with_line(6, "")),
            (46, "/0", with_line(20, "1 5")), (40, "/1", b"\xff\xfe"),
        ):
            with self.assertRaises(Refused) as refused:
                import_tsplib(data, 3)
            self.assertEqual((refused.exception.code, refused.exception.path), (code, path))
            self.assertIn("at the end of the file" if path == "/0" else f"in line {path[1:]}", str(refused.exception))
            self.assertIn(CAUSES[code], str(refused.exception))


class FaultTests(unittest.TestCase):
    def test_vehicles_that_there_cannot_be(self) -> None:
        for code, vehicles in ((14, 0), (14, 101), (14, -1), (12, 1.5), (11, "3"), (11, True)):
            number: Any = vehicles
            with self.assertRaises(Refused) as refused:
                import_tsplib(ORCHARD, number)
            self.assertEqual((refused.exception.code, refused.exception.path), (code, "/vehicles"))

    def test_a_file_that_is_not_there(self) -> None:
        self.assertRaises(FileNotFoundError, lambda: import_tsplib("/nowhere.vrp", 1))

    def test_a_file_is_named_where_it_is_faulty(self) -> None:
        body = "print('{\"code\":43,\"path\":\"/6\",\"status\":\"ROUTING_INVALID\"}'); sys.exit(5)"
        with Fake(body) as path:
            self.assertRaisesRegex(
                Refused, "orchard-rounds.vrp/6: in line 6, the number is out of its range .code 43.",
                lambda: import_tsplib(ORCHARD, 1, path),
            )

    def test_models_that_cannot_be_read(self) -> None:
        for text in ("{}", "5", '{"format":1}', "no JSON"):
            with Fake(f"print({text!r})") as path:
                self.assertRaises(ProgramFailed, lambda: import_tsplib(ORCHARD, 1, path))

    def test_a_program_that_does_not_know_the_word(self) -> None:
        with Fake("print('{\"status\":\"USAGE\"}'); sys.exit(1)") as path:
            self.assertRaisesRegex(ProgramFailed, "another version", lambda: import_tsplib(ORCHARD, 1, path))


if __name__ == "__main__":
    unittest.main()
