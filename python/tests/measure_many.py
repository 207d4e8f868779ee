"""python3 tests/measure_many.py [FOLDER], by hand: processor seconds and megabytes of reading, portfolio and pictures of
a day of 1000 places and 100 vehicles, as README.md has them. The day and its pages are left in the folder where one is
named."""

from __future__ import annotations

import json
import os
import random
import sys
import tempfile

sys.path.insert(0, os.path.dirname(os.path.dirname(os.path.abspath(__file__))))

from jambulskeg.engines import OwnProcesses
from jambulskeg.model import First, Model, Search, read_model
from jambulskeg.places import Place, Roads, Van, model_of
from jambulskeg.portfolio import portfolio
from jambulskeg.view import day_of, drawing, page
from tests.measure import timed

NODES, VEHICLES = 1000, 100


def places() -> "list[Place]":
    """A yard and 999 customers with windows, loads and penalties."""
    rng = random.Random(1)
    out = [Place("yard", 500, 500)]
    for number in range(1, NODES):
        low = rng.randrange(8000)
        out.append(Place(
            f"customer {number}", rng.uniform(0, 1000), rng.uniform(0, 1000), rng.randint(1, 9), (low, low + 2000), 60,
            2000,
        ))
    return out


def measured(folder: str) -> None:
    """Measures a day whose files lie in the folder."""
    where = places()
    vans = [Van(f"van {number}", "yard", "yard", 60, 10, (0, 12000)) for number in range(VEHICLES)]
    asked = model_of(where, vans, Roads(slack_max=1000), Search(First.PARALLEL_CHEAPEST_INSERTION, tries=20000))
    path = os.path.join(folder, "day.json")
    with open(path, "w", encoding="utf-8") as file:
        file.write(asked.text())
    model: Model = timed("reading", lambda: read_model(path))
    found = timed("portfolio, one job (20000 tries a search)", lambda: portfolio(model, OwnProcesses(1)))
    print(f"{len(found.outcomes)} searches, cost {found.solution.cost}, {len(found.solution.used())} vehicles leave")
    day = day_of(model, found.solution, places=where, vehicles=[van.name for van in vans])
    for name, draw in (("page", lambda: page(day, "A thousand", "")), ("svg", lambda: drawing([day], ["A thousand"]))):
        text = timed(name, draw)
        print(f"{name}: {len(text.encode()) // 1024} KB")
        with open(os.path.join(folder, "day." + {"page": "html"}.get(name, name)), "w", encoding="utf-8") as file:
            file.write(text)
    with open(os.path.join(folder, "day.solved.json"), "w", encoding="utf-8") as file:
        json.dump(found.solution.tree(), file)


if __name__ == "__main__":
    if len(sys.argv) > 1:
        os.makedirs(sys.argv[1], exist_ok=True)
        measured(sys.argv[1])
    else:
        with tempfile.TemporaryDirectory() as temporary:
            measured(temporary)
