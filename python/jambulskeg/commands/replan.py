"""`replan`: the rest of a day that has begun, planned anew at a moment."""

from __future__ import annotations

import argparse
import math
from contextlib import ExitStack
from dataclasses import replace
from typing import List, Optional, Sequence, Tuple

from ..model import read_model, read_solution
from ..output import Output
from ..places import METRES, Measure, Place, Roads, strict_places, whole
from ..records import Model
from ..replan import (
    Replanned, Rest, Unavailable, Where, from_morning, going_on, replan, searched, solve_rest, with_places, with_tours,
)
from ..rescue import timed_solver
from ..rounds import to_terminal
from ..stopping import stopping

__all__ = ["add_replan", "run_replan"]


def add_replan(command: argparse.ArgumentParser) -> None:
    """The words of `replan`."""
    command.add_argument("model", metavar="DAY", help="the model file of the day")
    command.add_argument("solution", metavar="SOLUTION", help="the plan of the morning: a solution of it")
    command.add_argument("--now", metavar="TIME", required=True, help="the moment: 11:00, or a time of the model")
    command.add_argument("-o", "--output", metavar="FILE", required=True, help="the solution of the whole day")
    command.add_argument("--day", metavar="FILE", help="the model of the whole day, if it has new orders")
    command.add_argument("--rest", metavar="FILE", help="the model of the rest of the day")
    command.add_argument(
        "--new", metavar="FILE",
        help="new orders: the places of the day as CSV with the new ones at the end, or a model file NAME.json of the "
        "day with the new nodes at the end",
    )
    command.add_argument("--measure", choices=[entry.value for entry in Measure], default=Measure.EUCLID.value,
                         help="with --new CSV: how far places are apart, as when the day was made")
    command.add_argument("--scale", type=float, default=1.0, help="with --new CSV: a distance times this is a cost")
    command.add_argument("--pace", type=float, help="with --new CSV: a distance times this is a time; 1, and of lat "
                         "and lon that of 40 kilometres an hour")
    command.add_argument("--done", metavar="N,..", type=numbers, help="the visits that have been begun, if they are "
                         "not those that the plan begins until now")
    command.add_argument("--without-vehicle", metavar="N", type=int, action="append", default=[],
                         help="a vehicle that makes nothing more")
    command.add_argument("--without-visit", metavar="N", type=int, action="append", default=[],
                         help="a visit that the customer has taken back")
    command.add_argument("--again", metavar="N", type=int, action="append", default=[],
                         help="a vehicle that is back, or drives home, and may leave once more")
    command.add_argument("--clock", metavar="H:MM", type=whole, default=0,
                         help="the time of day at which the model's time 0 lies; 0:00 if it is left out")
    command.add_argument("--time", metavar="NAME", help="the dimension of times")
    command.add_argument("--seconds", type=seconds, default=10.0, help="how long is searched; 10 if it is left out")
    command.add_argument("--keep", action="store_true", help="do not search: the plan goes on, with new orders put in")
    command.add_argument("--anew", action="store_true", help="do not begin with the routes of the morning")
    command.add_argument("--progress", action="store_true",
                         help="tell each cheaper plan on standard error; a terminal is told anyway")
    command.set_defaults(run=run_replan)


def numbers(text: str) -> List[int]:
    """Whole numbers with commas between them."""
    return [int(word) for word in text.split(",") if word.strip()]


def seconds(text: str) -> float:
    """A number of seconds, 0 or more."""
    found = float(text)
    if not 0 <= found < math.inf:
        raise argparse.ArgumentTypeError(f"{text} is no number of seconds")
    return found


def run_replan(asked: argparse.Namespace) -> int:
    """Writes the solution of the whole day, and tells what it changes."""
    model, morning = read_model(asked.model), read_solution(asked.solution)
    day, places = new_day(asked, model)
    if asked.again:
        day = with_tours(day or model, morning, asked.again, moment(asked), asked.time)
    lost = Unavailable(asked.without_vehicle, asked.without_visit)
    rest = replan(model, morning, moment(asked), done=asked.done, new=day, unavailable=lost, time=asked.time)
    if rest.day != model and asked.day is None:
        raise ValueError("the whole day has another model now: --day says where that is written")
    with stopping() as stop, ExitStack() as files:
        models = [
            (files.enter_context(Output(path)), entry)
            for path, entry in ((asked.day, rest.day), (asked.rest, rest.model)) if path is not None
        ]
        out = files.enter_context(Output(asked.output))
        tell = to_terminal if asked.progress else None
        anew = searched(timed_solver(asked.seconds, progress=tell, stop=stop))
        search = anew if asked.anew else from_morning(asked.seconds, progress=tell, stop=stop)
        found = solve_rest(rest, going_on if asked.keep else search)
        for file, entry in models:
            file.write(entry.text() + "\n")
        out.write(found.whole.text() + "\n")
    for line in lines_of(rest, found, [place.name for place in places]):
        print(line)
    for tour, vehicle in enumerate(asked.again, len(model.vehicles)):
        print(f"vehicle {tour} is the second tour of vehicle {vehicle}")
    return stop.status


def moment(asked: argparse.Namespace) -> int:
    """The moment in the time of the model. Raises `ValueError` if it is none."""
    try:
        text, clock = str(asked.now), int(asked.clock)
        return whole(text) - (clock if ":" in text else 0)
    except ValueError:
        raise ValueError(f"--now takes a time of day, 11:00, or a whole number, and not '{asked.now}'") from None


def new_day(asked: argparse.Namespace, model: Model) -> Tuple[Optional[Model], Sequence[Place]]:
    """The day with the new orders, and its places if they are known."""
    if asked.new is None:
        return None, ()
    if asked.new.endswith(".json"):
        return read_model(asked.new), ()
    tables = strict_places(asked.new)
    known = METRES if tables.degrees else Roads(Measure(asked.measure))
    roads = replace(known, scale=asked.scale, pace=known.pace if asked.pace is None else asked.pace)
    return with_places(model, tables.places, roads, asked.time), tables.places


def lines_of(rest: Rest, found: Replanned, names: Sequence[str]) -> List[str]:
    """What the command tells."""
    def named(node: int) -> str:
        return f"{node} ({names[node]})" if node < len(names) else str(node)

    where = [van.where for van in rest.vans]
    moved, left = found.moved, found.whole.dropped
    changed = ", ".join(f"{named(node)} from vehicle {old} to {new}" for node, old, new in moved.moved)
    lines = [
        f"on the road {where.count(Where.ROAD)}, at home {where.count(Where.HOME)}, back {where.count(Where.BACK)}",
        "the plan of the morning cannot go on" if found.kept is None else
        f"the plan of the morning goes on: the whole day costs {found.kept}",
        f"the whole day costs {found.whole.cost}" + (", by that plan" if found.is_kept else ""),
        f"{len(moved.moved)} of {rest.planned} visits changed vehicle" + (f": {changed}" if changed else ""),
    ]
    for what, nodes in (("came in", moved.brought_in), ("left out", left)):
        lines += [f"{what}: {', '.join(map(named, nodes))}"] if nodes else []
    return lines
