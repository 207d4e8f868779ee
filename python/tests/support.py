"""What tests share: small models, models made at random, and programs that misbehave."""

from __future__ import annotations

import importlib
import json
import os
import random
import re
import stat
import subprocess
import sys
import tempfile
import unittest
from types import ModuleType
from typing import Any, Dict, Iterator, List, Optional, Tuple

from jambulskeg.model import Solution, read_solution
from jambulskeg.program import find

EXAMPLES = os.path.join(os.path.dirname(os.path.dirname(os.path.dirname(os.path.abspath(__file__)))), "examples")
THREE: Dict[str, Any] = {
    "nodes": 3, "matrices": [[[0, 5, 9], [5, 0, 4], [9, 4, 0]]], "vehicles": [{"start": 0, "end": 0}]
}


def solved(name: str) -> Solution:
    """What the program answers to an example, as its file has it."""
    return read_solution(os.path.join(EXAMPLES, f"{name}.solved.json"))


def ask(word: str, text: str) -> Tuple[int, str]:
    """The status and the text of the program, asked without the package."""
    ran = subprocess.run([find(), *word.split()], input=text.encode(), stdout=subprocess.PIPE, check=False)
    return ran.returncode, ran.stdout.decode()


def need(words: str) -> None:
    """Skips a test where the program at hand does not know these words."""
    if ask(words, "")[0] == 1:
        raise unittest.SkipTest(f"the program at hand does not know the words '{words}': {find()}")


def need_searches() -> None:
    """Skips a test where the program at hand does not know path LNS and tabu search."""
    for improve in ("PATH_LNS", "TABU_SEARCH"):
        if ask("first", json.dumps(tree_with(format=1, search={"improve": improve})))[0] == 5:
            raise unittest.SkipTest(f"the program at hand does not know {improve}: {find()}")


PYTHON = f"#!{sys.executable} -IS\n"
"""The first line of a program in Python that starts quickly."""
AS_REAL = """
handle = os.memfd_create("text")
os.write(handle, text.encode())
os.lseek(handle, 0, 0)
os.dup2(handle, 0)
os.execv(REAL, [REAL, *sys.argv[1:]])
"""
"""How a `Fake` goes on as the real program, at what was its input."""


class Fake:
    """A program in Python: `with Fake("sys.exit(3)") as path`. The real one is `REAL`, the input is `text`. The body may
    name the modules json, os, subprocess, sys and time."""

    def __init__(self, body: str, mode: int = stat.S_IRWXU) -> None:
        self._body, self._mode = body, mode
        self._folder = tempfile.TemporaryDirectory()

    def __enter__(self) -> str:
        path = os.path.join(self._folder.name, "vr_cli")
        body = f"REAL = {find()!r}\ntext = sys.stdin.read()\n{self._body}\n"
        modules = sorted(set(re.findall(r"\b(json|os|subprocess|sys|time)\.", body)))
        with open(path, "w", encoding="utf-8") as file:
            file.write(f"{PYTHON}import {', '.join(modules)}\n{body}")
        os.chmod(path, self._mode)
        return path

    def __exit__(self, *_: object) -> None:
        self._folder.cleanup()


def random_matrix(rng: random.Random, size: int, most: int = 60) -> List[List[int]]:
    return [[0 if i == j else rng.randint(1, most) for j in range(size)] for i in range(size)]


def random_window(rng: random.Random, latest: int) -> List[int]:
    low = rng.randint(0, latest - 20)
    return [low, rng.randint(low + 10, latest)]


def random_row(rng: random.Random, key: str, number: int) -> Dict[str, Any]:
    """What a stop asks, at random."""
    row: Dict[str, Any] = {key: number}
    if rng.random() < 0.8:
        row["window"] = random_window(rng, 300)
    if rng.random() < 0.3:
        row["forbidden"] = [random_window(rng, 300) for _ in range(rng.randint(1, 2))]
    if rng.random() < 0.3:
        row["soft"] = {"bound": rng.randint(0, 200), "coefficient": rng.randint(0, 4)}
    return row


def random_time(rng: random.Random, visits: List[int], nodes: int, vehicles: int) -> Dict[str, Any]:
    """A dimension of times with all that it may have."""
    service = [rng.randint(0, 10) for _ in range(nodes)]
    time: Dict[str, Any] = {
        "name": "time", "evaluators": [{"matrix": 0, "values": service}, {"matrix": 1}],
        "vehicle_evaluators": [rng.randint(0, 1) for _ in range(vehicles)],
        "slack_max": rng.choice([0, 20, 60, 2**40]), "capacity": rng.choice([400, [400] * vehicles]),
        "fix_start": rng.random() < 0.3,
        "nodes": [random_row(rng, "node", node) for node in visits if rng.random() < 0.5],
        "span_cost": rng.choice([0, 1, [2] * vehicles]), "global_span_cost": rng.choice([0, 0, 3]),
    }
    for key in ("starts", "ends"):
        if rng.random() < 0.3:
            time[key] = [{"vehicle": 0, "window": [0, 390]}]
    if rng.random() < 0.4:
        time["visit"] = service
        time["breaks"] = [
            {"vehicle": vehicle, "breaks": [
                {"from": 40 * at, "to": 40 * at + rng.randint(10, 120), "duration": rng.randint(1, 20)}
                for at in range(1, rng.randint(2, 3))
            ]} for vehicle in range(vehicles) if rng.random() < 0.6
        ]
    return time


def random_tree(rng: random.Random) -> Dict[str, Any]:
    """A model of a few nodes with fields of every kind."""
    nodes, vehicles = rng.randint(4, 10), rng.randint(1, 3)
    ends = [rng.randrange(2) for _ in range(vehicles)]
    visits = [node for node in range(nodes) if node not in {0, *ends}]
    tree: Dict[str, Any] = {
        "format": 1, "nodes": nodes, "matrices": [random_matrix(rng, nodes), random_matrix(rng, nodes)],
        "vehicles": [
            {"start": 0, "end": end, "fixed": rng.choice([0, 30]), "policy": rng.choice(["any", "lifo", "fifo"]),
             "costs": rng.randint(0, 1)} for end in ends
        ],
        "dimensions": [],
        "search": {
            "first": rng.choice(["PATH_CHEAPEST_ARC", "PARALLEL_CHEAPEST_INSERTION"]),
            "improve": rng.choice(["NONE", "GREEDY_DESCENT", "GUIDED_LOCAL_SEARCH"]), "tries": rng.randint(0, 3000),
            "lambda": [rng.randint(1, 5), 10],
        },
    }
    if rng.random() < 0.8:
        tree["dimensions"].append(random_time(rng, visits, nodes, vehicles))
    if rng.random() < 0.5:
        loads = [rng.randint(0, 4) if node in visits else 0 for node in range(nodes)]
        tree["dimensions"].append(
            {"name": "load", "evaluators": [{"values": loads}], "slack_max": 0, "capacity": 14, "fix_start": True}
        )
    add_rules(rng, tree, visits)
    return tree


def in_format_2(rng: random.Random, tree: Dict[str, Any]) -> Dict[str, Any]:
    """The same model, some of whose vehicles say by which rule they choose their schedules."""
    rules: "list[Dict[str, str]]" = [{}, {"schedule": "earliest"}, {"schedule": "tight"}, {"schedule": "tight"}]
    return {**tree, "format": 2, "vehicles": [{**vehicle, **rng.choice(rules)} for vehicle in tree["vehicles"]]}


def add_rules(rng: random.Random, tree: Dict[str, Any], visits: List[int]) -> None:
    """Adds groups, pairs and allowed vehicles."""
    shuffled = rng.sample(visits, len(visits))
    if len(visits) > 3 and rng.random() < 0.5:
        tree["pairs"] = [{"pickup": shuffled[0], "delivery": shuffled[1]}]
    optional = [node for node in shuffled if rng.random() < 0.5]
    tree["groups"] = [{"nodes": [node], "penalty": rng.randint(0, 200)} for node in optional]
    if rng.random() < 0.3 and len(visits) > len(optional) + 1:
        rest = [node for node in shuffled if node not in optional]
        tree["groups"].append({"nodes": rest, "max": rng.randint(1, len(rest))})
    if rng.random() < 0.3:
        tree["allowed"] = [{"node": visits[-1], "vehicles": [len(tree["vehicles"]) - 1]}]


def paths_of(tree: Any, path: Tuple[Any, ...] = ()) -> Iterator[Tuple[Any, ...]]:
    """The path of each value in a JSON tree but the tree itself."""
    entries = tree.items() if isinstance(tree, dict) else enumerate(tree) if isinstance(tree, list) else ()
    for key, value in entries:
        yield (*path, key)
        yield from paths_of(value, (*path, key))


def mutated(rng: random.Random, tree: Any) -> Any:
    """The tree with one change of its form or its values, at a place taken at random."""
    tree = json.loads(json.dumps(tree))
    *way, last = rng.choice(list(paths_of(tree)))
    at = tree
    for key in way:
        at = at[key]
    change = rng.randrange(5)
    if change == 0:
        del at[last]
    elif change == 1:
        at[last] = rng.choice([None, True, 1.5, "x", [], {}, -1, 7, 2**63, -2**63 - 1, "first", [0, 1], [1, 2, 3]])
    elif change == 2 and isinstance(at, list):
        at.insert(last, at[last])
    elif change == 3 and isinstance(at, dict):
        at["more"] = 1
    elif type(at[last]) is int:
        at[last] += rng.choice([-1, 1, 3])
    return tree


def tree_with(**fields: Any) -> Dict[str, Any]:
    """The model of three nodes with other fields."""
    return {**THREE, **fields}


def environment(**names: Optional[str]) -> Dict[str, str]:
    """This process's environment with some variables set, or taken out where they are None."""
    out = {name: value for name, value in os.environ.items() if name not in names}
    out.update({name: value for name, value in names.items() if value is not None})
    return out


def example(name: str) -> ModuleType:
    """An example of python/examples as a module."""
    folder = os.path.join(os.path.dirname(os.path.dirname(os.path.abspath(__file__))), "examples")
    if folder not in sys.path:
        sys.path.insert(0, folder)
    return importlib.import_module(name)
