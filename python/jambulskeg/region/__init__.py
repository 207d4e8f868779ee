"""A region of thousands of visits: cut into parts, solved side by side, and mended along the seams.

    from jambulskeg.region import Asked, OwnCrew, Store, check_plan, plan, read_region
    tables = read_region("places.csv", "vans.csv")
    planned = plan(tables.region, Asked(seconds=60, jobs=4), OwnCrew(4), Store("monday.region"))
    checked = check_plan(tables, planned.standing, jobs=4)
"""

from .checking import Checked, CheckedPart, SharedTwice, VanDay, check_plan
from .crew import Crew, OwnCrew, ParallelCrew, Searcher
from .cutting import cut
from .day import Part, PartModel, Region, model_of_part
from .mending import Shape, Standing
from .page import region_page
from .planning import Asked, Entry, Planned, RunDiffers, plan
from .reading import RegionTables, read_region
from .roads import BadRoads, RoadTable, write_roads
from .slurm_crew import SlurmCrew
from .store import FolderTaken, Store
from .tasks import NotSolved
from .writing import plan_table, sheet_files

__all__ = [
    "Asked", "BadRoads", "Checked", "CheckedPart", "Crew", "Entry", "FolderTaken", "NotSolved", "OwnCrew",
    "ParallelCrew", "Part", "PartModel", "Planned", "Region", "RegionTables", "RoadTable", "RunDiffers", "Searcher",
    "Shape", "SharedTwice", "SlurmCrew", "Standing", "Store", "VanDay", "check_plan", "cut", "model_of_part", "plan",
    "plan_table", "read_region", "region_page", "sheet_files", "write_roads",
]
