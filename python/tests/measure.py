"""python3 tests/measure.py, by hand: processor seconds and megabytes of a day of 1000 places, as README.md has them."""

from __future__ import annotations

import json
import os
import random
import resource
import sys
from typing import Any, Callable, Sequence

sys.path.insert(0, os.path.dirname(os.path.dirname(os.path.abspath(__file__))))

from jambulskeg.complete import complete, leave_later
from jambulskeg.doubts import doubts
from jambulskeg.model import First, Model, Search, meets, solve
from jambulskeg.places import Place, Roads, Van, model_of
from jambulskeg.routing import pywrapcp


def processor_seconds() -> float:
    """The seconds of a processor that this process and the programs that it ran have taken, which other work on the
    machine changes little."""
    used = [resource.getrusage(who) for who in (resource.RUSAGE_SELF, resource.RUSAGE_CHILDREN)]
    return sum(entry.ru_utime + entry.ru_stime for entry in used)


def timed(name: str, call: Callable[[], Any]) -> Any:
    """What a call gives; prints its processor seconds and the most memory of this process so far."""
    began = processor_seconds()
    found = call()
    seconds = processor_seconds() - began
    memory = resource.getrusage(resource.RUSAGE_SELF).ru_maxrss // 1024
    print(f"{name}: {seconds:.2f} s, {memory} MB", flush=True)
    return found


def day() -> Model:
    """A day of 1000 places with windows, loads and penalties, and 60 vans."""
    rng = random.Random(1)
    places = []
    for number in range(1000):
        low = rng.randrange(8000)
        places.append(Place(
            str(number), rng.uniform(0, 1000), rng.uniform(0, 1000), rng.randint(1, 9), (low, low + 2000), 30, 10000
        ))
    vans = [Van(str(number), "0", "0", 120, 100, (0, 20000)) for number in range(60)]
    return model_of(places, vans, Roads(slack_max=3000), Search(First.PARALLEL_CHEAPEST_INSERTION))


def script(matrix: Sequence[Sequence[int]]) -> Model:
    """The model of a script whose callback looks into a matrix."""
    manager = pywrapcp.RoutingIndexManager(len(matrix), 60, 0)
    routing = pywrapcp.RoutingModel(manager)
    number = routing.RegisterTransitCallback(
        lambda tail, head: matrix[manager.IndexToNode(tail)][manager.IndexToNode(head)]
    )
    routing.SetArcCostEvaluatorOfAllVehicles(number)
    return routing.to_model()


def main() -> None:
    model = timed("a model of places (2 matrices)", day)
    text = timed("its text", model.text)
    timed("the text read", lambda: Model.of(json.loads(text)))
    timed("its doubts", lambda: doubts(model))
    solution = timed("solved, unchecked (100000 tries)", lambda: solve(model, checked=False))
    timed("checked", lambda: meets(model, solution))
    timed("its lists completed, unchecked", lambda: complete(model, solution.lists(), checked=False))
    timed("left later, unchecked", lambda: leave_later(model, solution, checked=False))
    timed("a script's callback asked", lambda: script(model.matrices[0]))


if __name__ == "__main__":
    main()
