"""python -m jambulskeg: plans from spreadsheets, pictures of a day, what looks wrong in a model, many searches.

Ends with 0 if there is an answer, with 1 and a sentence if there is none, with 2 if the words are unknown.
`plan` ends with 3 if visits that must be made are left out.
"""

from __future__ import annotations

import argparse
import datetime
import os
import signal
import sys
import time
from typing import Iterator, List, Optional, Sequence, Tuple

from .batch import Found, batch, read_folder
from .commands.plan import add_plan
from .commands.refine import add_price, add_refine
from .commands.replan import add_replan
from .complete import shape_faults, shorten
from .desk.command import add_desk
from .doubts import doubts
from .engines import Engine, GnuParallel, OwnProcesses, Slurm
from .errors import JambulskegError, NotMet, Stopped
from .exports import day_of_tables, downloads, geojson, icalendar, plan_csv
from .formats.command import add_convert
from .measures import answer_doubts
from .model import meets, read_model, read_solution
from .output import Output, Outputs
from .places import DayTables, read_day, strict_places, whole
from .portfolio import LAMBDAS, Outcome, Portfolio, portfolio
from .program import find
from .reasons import why_left_out, why_not_shorter
from .records import Model
from .refine import at_hand
from .solution import Solution
from .stopping import stopping
from .region.command import add_region
from .region.pace import age
from .view import Day, compare_page, drawing, page
from .view.day import time_dimension

__all__ = ["main"]

STOPPED = 130
"""The exit status if it is stopped from the keyboard, as shells have it."""
BELONGS = {
    "sshlogin": ("parallel",), "folder": ("slurm",), "option": ("parallel", "slurm"),
    "remote_program": ("parallel", "slurm"), "remote_refine": ("parallel", "slurm"),
}
"""The engines that some words belong to."""


def main(words: Optional[Sequence[str]] = None) -> int:
    """Runs a command; its exit status. Without `words` they are those of the process, whose seconds count from its
    start."""
    asked = parser().parse_args(words)
    asked.began = time.monotonic() - (age() if words is None else 0.0)
    try:
        status: int = asked.run(asked)
        return status
    except KeyboardInterrupt:
        return STOPPED
    except Stopped as problem:
        return failed(str(problem)) and 128 + (problem.signal or signal.SIGINT)
    except OSError as problem:
        return failed(f"{problem.filename or 'a file'}: {problem.strerror}")
    except (JambulskegError, ValueError) as problem:
        return failed(str(problem))


def failed(sentence: str) -> int:
    """Tells what went wrong."""
    sys.stderr.write(f"jambulskeg: {sentence}\n")
    return 1


def parser() -> argparse.ArgumentParser:
    """The words that are taken."""
    out = argparse.ArgumentParser(
        prog="python -m jambulskeg", description="Vehicle routing by the programs vr_cli and vr_refine."
    )
    names = "plan|price|refine|view|doubts|portfolio|batch|convert|replan|desk|region"
    commands = out.add_subparsers(required=True, metavar=names)
    add_plan(commands.add_parser("plan", help="from two spreadsheets to a plan, a page, and a sheet a driver"))
    add_price(commands.add_parser("price", help="what a plan costs that is there already, or which rule it breaks"))
    add_refine(commands.add_parser("refine", help="a search that goes on from a plan, for some seconds"))
    add_view(commands.add_parser("view", help="a page (or an SVG) of a day, or of two side by side"))
    look = commands.add_parser("doubts", help="what a model may say and looks wrong, a line each")
    look.add_argument("model", metavar="MODEL", help="the model file")
    look.add_argument("solution", metavar="SOLUTION", nargs="?", help="an answer to it, which is looked at too")
    look.add_argument("--longest-ride", type=int, metavar="N", help="how long a pair may be on board")
    look.add_argument("--time", metavar="NAME", help="the dimension in which rides are measured")
    look.set_defaults(run=run_doubts)
    one = commands.add_parser("portfolio", help="many searches of a model, the cheapest checked answer kept")
    one.add_argument("model", metavar="MODEL", help="the model file")
    one.add_argument("-o", "--output", metavar="SOLUTION", help="where it is written; else to standard output")
    one.set_defaults(run=run_portfolio)
    many = commands.add_parser("batch", help="the same for each model NAME.json of a folder")
    many.add_argument("models", metavar="FOLDER", help="the folder of model files; NAME.*.json are left out")
    many.add_argument(
        "-o", "--output", metavar="FOLDER", help="where NAME.solved.json are written; else in the folder itself"
    )
    many.set_defaults(run=run_batch)
    for command in (one, many):
        add_search(command)
    add_convert(commands.add_parser("convert", help="a file of Solomon, Li and Lim, VRPLIB or VROOM as a model"))
    add_replan(commands.add_parser("replan", help="the rest of a day that has begun, planned anew at a moment"))
    add_desk(commands.add_parser("desk", help="a folder of days in a browser: planned, seen, and changed by hand"))
    add_region(commands.add_parser("region", help="a plan of thousands of visits from two spreadsheets, in parts"))
    return out


def add_view(command: argparse.ArgumentParser) -> None:
    """The words of `view`."""
    command.add_argument("model", metavar="MODEL", help="the model file")
    command.add_argument("solution", metavar="SOLUTION", nargs="?", help="the solution, as the program wrote it")
    command.add_argument("--compare", nargs=2, metavar=("A", "B"), help="two solutions of the model, side by side")
    command.add_argument(
        "--shorter", action="store_true", help="beside it the same routes, as short as can be if that is no dearer"
    )
    command.add_argument("-o", "--output", metavar="FILE", help="the page that is written")
    command.add_argument("--svg", action="store_true", help="an SVG in place of a page")
    command.add_argument("--places", metavar="CSV", help="a place for each node: columns name, x, y and more")
    command.add_argument("--degrees", action="store_true", help="x is the longitude and y the latitude, in degrees")
    command.add_argument("--vehicles", metavar="CSV", help="with --places: columns name, start and more")
    command.add_argument("--time", metavar="NAME", help="the dimension that the day is drawn along")
    command.add_argument(
        "--clock", metavar="H:MM", type=whole, help="times are minutes from this time of day; 0:00 for midnight"
    )
    command.add_argument("--csv", metavar="FILE", help="a table with a row for each stop")
    command.add_argument("--geojson", metavar="FILE", help="with --places: the day as a map")
    command.add_argument("--ics", metavar="FILE", help="with --clock: the day as a calendar")
    command.add_argument("--date", type=datetime.date.fromisoformat, metavar="YYYY-MM-DD", help="the day: today")
    command.add_argument("--title", help="the title of the page")
    command.add_argument("--unchecked", action="store_true", help="do not ask whether the solution meets the model")
    command.set_defaults(run=run_view)


def add_search(command: argparse.ArgumentParser) -> None:
    """The words of `portfolio` and `batch`."""
    command.add_argument("--jobs", type=positive, default=1, metavar="N", help="searches at a time (on each machine)")
    command.add_argument("--tries", type=positive, metavar="N", help="in place of the model's")
    command.add_argument(
        "--lambda", dest="lambdas", type=weight, action="append", metavar="P/Q", help="weights of guided searches"
    )
    command.add_argument("--keep-going", action="store_true", help="take the best if some searches were ended")
    command.add_argument("--with", dest="engine", choices=("own", "parallel", "slurm"), default="own",
                         help="processes of this machine, GNU parallel, or a job array of Slurm")
    command.add_argument("--sshlogin", action="append", default=[], metavar="LOGIN", help="GNU parallel's machines")
    command.add_argument("--option", action="append", default=[], metavar="WORD",
                         help="a further word of parallel or sbatch, as in --option=--partition=long")
    command.add_argument("--folder", metavar="DIR", help="a new folder that keeps the files of slurm")
    command.add_argument("--remote-program", metavar="PATH", help="vr_cli on the machines of parallel or slurm")
    command.add_argument("--remote-refine", metavar="PATH", help="vr_refine there; without it nothing is refined there")


def positive(text: str) -> int:
    """A whole number above 0."""
    found = int(text)
    if found < 1:
        raise argparse.ArgumentTypeError(f"{text} is not above 0")
    return found


def weight(text: str) -> Tuple[int, int]:
    """A weight as P/Q."""
    over, _, under = text.partition("/")
    return int(over), int(under or 1)


def run_view(asked: argparse.Namespace) -> int:
    """Writes a page or an SVG, and the day for other programs."""
    if (asked.solution is None) == (asked.compare is None) or (asked.compare and asked.shorter):
        return failed("view takes a SOLUTION, perhaps with --shorter, or --compare A B")
    exports = [path for path in (asked.csv, asked.geojson, asked.ics) if path]
    if exports and asked.compare:
        return failed("--csv, --geojson and --ics take one SOLUTION, without --compare")
    paths = [path for path in (asked.output, *exports) if path]
    if not paths:
        return failed("view writes a file: say -o, --csv, --geojson or --ics")
    model = read_model(asked.model)
    files: List[str] = asked.compare or [asked.solution]
    solutions = [read_solution(file) for file in files]
    if not asked.unchecked:
        for file, solution in zip(files, solutions):
            check_file(model, file, solution)
    note = ""
    if asked.shorter:
        solutions.append(shorten(model, solutions[0], checked=not asked.unchecked))
        note = why_not_shorter(model, solutions[0]) if solutions[1] == solutions[0] else ""
    tables = tables_of(asked)
    inputs = [path for path in (asked.model, *files, asked.places, asked.vehicles) if path]
    with Outputs(paths, inputs) as outputs:
        for path, text in exported(asked, model, solutions[0], tables):
            outputs.write(path, text)
        if asked.output:
            days = days_of(asked, model, solutions, tables)
            titles = titles_of(asked, files)
            outputs.write(asked.output, text_of(asked, tables, days, (titles, note)))
    looks = [f"look at: {doubt}" for doubt in (tables.doubts if tables is not None else ())]
    for line in [*looks, *([note] if note else [])]:
        sys.stderr.write(line + "\n")
    return 0


def found_of(asked: argparse.Namespace, days: Sequence[Day]) -> str:
    """What was checked, in a sentence."""
    return "The proved check was not asked." if asked.unchecked else (
        f"The proved check found that {'both keep' if len(days) == 2 else 'this keeps'} all rules of the model and "
        f"{'cost what they say' if len(days) == 2 else 'costs what it says'}."
    )


def exported(
    asked: argparse.Namespace, model: Model, solution: Solution, tables: Optional[DayTables]
) -> Iterator[Tuple[str, str]]:
    """The path and the text of each file for other programs."""
    if asked.csv:
        yield asked.csv, plan_csv(model, solution, tables, time=asked.time, clock=asked.clock)
    if asked.geojson:
        yield asked.geojson, geojson(model, solution, tables, time=asked.time, clock=asked.clock)
    if asked.ics:
        date = asked.date or datetime.date.today()
        yield asked.ics, icalendar(model, solution, date, tables, time=asked.time, clock=asked.clock)


def check_file(model: Model, file: str, solution: Solution) -> None:
    """Raises `ValueError` if the solution of a file does not meet the model, of its form with the first fault."""
    try:
        meets(model, solution)
    except NotMet as broken:
        faults = shape_faults(model, solution.tree()) if broken.rule == "shape" else []
        why = f"it is no solution of this model, {faults[0].sentence}" if faults else broken
        raise ValueError(f"{file}: {why}") from None


def text_of(
    asked: argparse.Namespace, tables: Optional[DayTables], days: Sequence[Day], words: Tuple[Sequence[str], str]
) -> str:
    """The text of a page or of an SVG, with the titles of the days and a note on both."""
    titles, note = words
    if asked.svg:
        return drawing(days, titles, asked.degrees, note)
    found = f"{found_of(asked, days)} {note}".strip()
    if len(days) == 2:
        return compare_page((days[0], days[1]), (titles[0], titles[1]), found, asked.degrees)
    day = days[0]
    date = asked.date or (datetime.date.today() if asked.clock is not None else None)
    files = downloads(day.model, day.solution, tables, date=date, time=asked.time, clock=asked.clock)
    return page(day, titles[0], found, asked.degrees, files)


def titles_of(asked: argparse.Namespace, files: Sequence[str]) -> List[str]:
    """What the days are called: by the title, or by the names of their files. Equal names are told apart by
    more of the name, or by numbers."""
    names = [os.path.basename(file).split(".")[0] for file in files]
    if len(set(names)) < len(names):
        names = [os.path.splitext(os.path.basename(file))[0] for file in files]
    if len(set(names)) < len(names):
        names = [f"{name} ({place})" for place, name in enumerate(names, 1)]
    names = [asked.title] if asked.title and len(names) == 1 else names
    return [*names, f"{names[0]}, shorter"] if asked.shorter else names


def tables_of(asked: argparse.Namespace) -> Optional[DayTables]:
    """The places and vehicles that are named beside the model; None if there are none."""
    if asked.vehicles and not asked.places:
        raise ValueError("--vehicles asks for --places, where its starts and ends have their names")
    if not asked.places:
        return None
    tables = read_day(asked.places, asked.vehicles) if asked.vehicles else strict_places(asked.places)
    asked.degrees = asked.degrees or tables.degrees
    return tables


def days_of(
    asked: argparse.Namespace, model: Model, solutions: Sequence[Solution], tables: Optional[DayTables]
) -> List[Day]:
    """The days to be drawn."""
    return [
        day_of_tables(
            model, solution, tables, time=asked.time, clock=asked.clock, reasons=why_left_out(model, solution)
        ) for solution in solutions
    ]


def write(path: str, text: str) -> None:
    """Writes a file, whole or not at all."""
    with Output(path) as out:
        out.write(text)


def run_doubts(asked: argparse.Namespace) -> int:
    """Writes the path and the sentence of each doubt."""
    model = read_model(asked.model)
    found = doubts(model)
    if asked.solution is not None:
        solution = read_solution(asked.solution)
        check_file(model, asked.solution, solution)
        found += answer_doubts(model, solution, asked.longest_ride, time_dimension(model, asked.time) or 0)
    for doubt in found:
        print(f"{doubt.path}: {doubt.sentence}")
    return 0


def engine_of(asked: argparse.Namespace) -> Engine:
    """The engine that was asked for."""
    for word, engines in BELONGS.items():
        if getattr(asked, word) and asked.engine not in engines:
            raise ValueError(f"--{word.replace('_', '-')} belongs to --with {' or '.join(engines)}")
    if asked.engine == "own":
        return OwnProcesses(asked.jobs)
    program = asked.remote_program or os.path.abspath(find())
    here = None if asked.remote_program else at_hand()
    refiner = asked.remote_refine or (os.path.abspath(here.path) if here is not None else "")
    if asked.engine == "parallel":
        return GnuParallel(asked.jobs, program, asked.sshlogin, asked.option, refiner)
    return Slurm(asked.jobs, program, asked.option, asked.folder, refiner)


def run_portfolio(asked: argparse.Namespace) -> int:
    """Writes the cheapest answer of a portfolio, and on standard error what each search came to."""
    model, engine = read_model(asked.model), engine_of(asked)
    with stopping() as stop, Output(asked.output) as out:
        found = portfolio(
            model, engine, tries=asked.tries, lambdas=asked.lambdas or LAMBDAS, keep_going=asked.keep_going, stop=stop
        )
        out.write(found.solution.text() + "\n")
    for number, outcome in enumerate(found.outcomes):
        sys.stderr.write(f"{'*' if number == found.number else ' '} {outcome_line(outcome)}\n")
    return stop.status


def outcome_line(outcome: Outcome) -> str:
    """A line for a search."""
    if outcome.solution is None:
        return f"{'-':>12}  {outcome.name}: {outcome.problem}"
    return f"{outcome.solution.cost:12}  {outcome.name}; {outcome.solution.tries} tries, {outcome.solution.stop.value}"


def run_batch(asked: argparse.Namespace) -> int:
    """Writes the cheapest answer of each model, and a line for each; 1 if a model has none."""
    models, faulty = read_folder(asked.models)
    if not models and not faulty:
        return failed(f"the folder {asked.models} has no file NAME.json")
    output = asked.output or asked.models
    os.makedirs(output, exist_ok=True)
    with Output(os.path.join(output, "solved.json")):
        pass  # So it is known before the searches that the folder can be written to.
    with stopping() as stop:
        found = batch(
            models, engine_of(asked), tries=asked.tries, lambdas=asked.lambdas or LAMBDAS,
            keep_going=asked.keep_going, stop=stop,
        )
        for name, entry in found.items():
            if isinstance(entry, Portfolio):
                write(os.path.join(output, f"{name}.solved.json"), entry.solution.text() + "\n")
    for name, entry in found.items():
        print(model_line(name, entry))
    for name, fault in faulty:
        print(f"{name}: {fault}")
    no_answer = faulty or any(not isinstance(entry, Portfolio) for entry in found.values())
    return stop.status or (1 if no_answer else 0)


def model_line(name: str, entry: Found) -> str:
    """A line for a model."""
    if not isinstance(entry, Portfolio):
        return f"{name}: {entry}"
    return f"{name}: cost {entry.solution.cost}, {entry.outcomes[entry.number].name}"


if __name__ == "__main__":
    sys.exit(main())
