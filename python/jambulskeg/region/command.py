"""python -m jambulskeg region: from two spreadsheets of thousands of lines to a plan, sheets of drivers, and a page."""

from __future__ import annotations

import argparse
import os
from dataclasses import replace
from typing import Tuple

from ..commands.plan import LEFT_OUT, jobs_of, roads_of, seconds_of, speed_of, tell
from ..output import Output, Outputs
from ..stopping import ending
from .checking import Checked, check_plan
from .crew import Crew, OwnCrew, ParallelCrew, Searcher
from .cutting import MOST_VISITS
from .mending import Shape
from .page import region_page
from .planning import Asked, Entry, Planned, plan
from .reading import RegionTables, read_region
from .slurm_crew import SlurmCrew
from .store import Store
from .writing import plan_table, sheet_files

__all__ = ["add_region"]


def add_region(command: argparse.ArgumentParser) -> None:
    """The words of `region`."""
    command.add_argument("places", metavar="PLACES", help="the CSV file of places")
    command.add_argument("vans", metavar="VANS", help="the CSV file of vans")
    command.add_argument("-o", "--output", metavar="PLAN", required=True, help="the CSV file of stops that is written")
    command.add_argument("--page", metavar="HTML", help="a page with the map, the vans and the journal")
    command.add_argument("--sheets", metavar="DIR", help="a page to be printed for each van, and one of all")
    command.add_argument("--title", help="the title of the pages; else the name of PLAN")
    add_amounts(command)
    add_roads(command)
    add_crew(command)
    command.set_defaults(run=run_region)


def add_amounts(command: argparse.ArgumentParser) -> None:
    """The words that say how long is searched, and how large parts are."""
    command.add_argument("--seconds", type=seconds_of, default=60.0, metavar="S", help="for all of the command; 60")
    command.add_argument("--tries", type=jobs_of, metavar="N",
                         help="moves tried in all, in place of what the seconds allow; the same plan everywhere")
    command.add_argument("--most", type=jobs_of, default=MOST_VISITS, metavar="N",
                         help=f"visits of a part at most; {MOST_VISITS}")
    own, refined = Shape.usual(False), Shape.usual(True)
    command.add_argument(
        "--seam", type=jobs_of, nargs=2, metavar=("ROUTES", "VISITS"),
        help=f"routes and visits of a seam at most; {refined.routes} and {refined.visits}, without vr_refine "
        f"{own.routes} and {own.visits}",
    )
    command.add_argument("--no-seams", action="store_true", help="the parts alone")


def add_roads(command: argparse.ArgumentParser) -> None:
    """The words that say how far places are apart."""
    command.add_argument(
        "--speed", type=speed_of, metavar="V", help="units of x and y an hour, of lat and lon kilometres: 60, 40"
    )
    command.add_argument("--wait", type=jobs_of, metavar="MINUTES", help="the longest wait before a visit: 60")
    command.add_argument("--costs", metavar="FILE", help="a table of roads in place of distances: 4 bytes a pair")
    command.add_argument("--times", metavar="FILE", help="the same for times; else those of --costs")


def add_crew(command: argparse.ArgumentParser) -> None:
    """The words that say who solves parts, and where the run is kept."""
    command.add_argument("--jobs", type=jobs_of, default=os.cpu_count() or 1, metavar="N", help="parts at a time")
    command.add_argument("--with", dest="engine", choices=("own", "parallel", "slurm"), default="own",
                         help="processes of this machine, GNU parallel, or workers that Slurm starts")
    command.add_argument("--sshlogin", action="append", default=[], metavar="LOGIN", help="GNU parallel's machines")
    command.add_argument("--option", action="append", default=[], metavar="WORD",
                         help="a further word of parallel or sbatch, as in --option=--partition=long")
    command.add_argument("--remote-program", metavar="PATH",
                         help="vr_cli on the machines of parallel or slurm, which then searches all parts")
    command.add_argument("--remote-refine", metavar="PATH", help="vr_refine there, which then searches all parts")
    command.add_argument("--folder", metavar="DIR", help="where the run is kept; else PLAN.region")
    command.add_argument("--resume", action="store_true", help="go on with the run in the folder")
    command.add_argument("--quiet", action="store_true", help="tell nothing of the rounds")


def run_region(asked: argparse.Namespace) -> int:
    """Plans a region, and writes what was asked for; `LEFT_OUT` if visits that must be made have no van."""
    tables = read_region(asked.places, asked.vans, costs=asked.costs, times=asked.times)
    tables = replace(tables, region=replace(tables.region, roads=roads_of(asked, tables.tables)))
    for doubt in tables.tables.doubts:
        tell(f"look at: {doubt}")
    files = [path for path in (asked.output, asked.page) if path]
    with ending(), Outputs(files) as outputs:
        planned, checked = run_of(asked, tables)
        title = asked.title or os.path.splitext(os.path.basename(asked.output))[0]
        outputs.write(asked.output, plan_table(tables, checked))
        if asked.page:
            outputs.write(asked.page, region_page(tables, checked, planned, title, found_of(checked)))
        if asked.sheets:
            os.makedirs(asked.sheets, exist_ok=True)
            for name, text in sheet_files(tables, checked, title):
                with Output(os.path.join(asked.sheets, name)) as sheet:
                    sheet.write(text)
    return told(asked, tables, planned, checked)


def run_of(asked: argparse.Namespace, tables: RegionTables) -> Tuple[Planned, Checked]:
    """The plan, checked, by the crew that was asked for, in its folder; its seconds began with the command."""
    store = Store(asked.folder or asked.output + ".region")
    try:
        crew = crew_of(asked, store)
        try:
            planned = plan(
                tables.region, amounts_of(asked), crew, store, progress=None if asked.quiet else tell_entry,
                resume=asked.resume, began=asked.began,
            )
        finally:
            crew.close()
        return planned, check_plan(
            tables, planned.standing, jobs=asked.jobs, store=store, sheets=bool(asked.sheets)
        )
    finally:
        store.close()


def amounts_of(asked: argparse.Namespace) -> Asked:
    """What is asked of the plan."""
    shape = Shape(*asked.seam) if asked.seam else None
    return Asked(asked.seconds, asked.jobs, asked.tries, asked.most, shape, not asked.no_seams)


def crew_of(asked: argparse.Namespace, store: Store) -> Crew:
    """Who solves the parts."""
    if asked.sshlogin and asked.engine != "parallel":
        raise ValueError("--sshlogin belongs to --with parallel")
    if (asked.option or asked.remote_program or asked.remote_refine) and asked.engine == "own":
        raise ValueError("--option, --remote-program and --remote-refine belong to --with parallel or slurm")
    searcher = searcher_of(asked)
    if asked.engine == "own":
        return OwnCrew(asked.jobs, searcher)
    if asked.engine == "parallel":
        return ParallelCrew(asked.jobs, searcher, asked.sshlogin, asked.option)
    return SlurmCrew(asked.jobs, searcher, asked.option, store.path(f"slurm-{os.getpid()}"))


def searcher_of(asked: argparse.Namespace) -> Searcher:
    """The program that searches parts: that of other machines, if one is named."""
    if asked.remote_refine:
        return Searcher(asked.remote_refine, True)
    return Searcher(asked.remote_program) if asked.remote_program else Searcher.found()


def found_of(checked: Checked) -> str:
    """What was checked, in words."""
    return (
        f"The proved check found that each of {len(checked.parts)} parts keeps all rules of its model and costs what "
        "it says. That each van and each visit is in one part alone was counted over all parts."
    )


def told(asked: argparse.Namespace, tables: RegionTables, planned: Planned, checked: Checked) -> int:
    """Says what the plan is; its exit status."""
    made = len(tables.region.visits) - len(checked.left) - len(checked.missing)
    print(
        f"{made} of {len(tables.region.visits)} visits, {len(checked.days())} of {len(tables.region.vans)} vans, cost "
        f"{checked.cost}; {len(checked.parts)} parts meet their models; {planned.tried} tries; {planned.ended}"
    )
    if checked.missing:
        names = ", ".join(tables.region.places[visit].name for visit in checked.missing[:5])
        more = f" and {len(checked.missing) - 5} others" if len(checked.missing) > 5 else ""
        tell(f"left out: {names}{more}, which must be made; {asked.output} has the plan of the others")
        return LEFT_OUT
    return 0


def tell_entry(entry: Entry) -> None:
    """Tells of a round."""
    tell(entry.line())
