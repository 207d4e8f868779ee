"""What others write, as models: benchmark files, tables of a road router, the problems of another solver.

- `read_solomon` and `read_li_lim` read the benchmarks of time windows and of pickups.
- `read_vrplib` reads files of VRPLIB with fractions.
- `read_osrm` reads the reply of OSRM's table service.
- `read_vroom` reads VROOM's JSON.

Each refuses what a model cannot say by its name and its place.
"""

from .benchmarks import read_li_lim, read_solomon
from .osrm import RoadTable, read_osrm
from .reading import BadFile
from .vroom import Read, read_vroom
from .vrplib import read_vrplib

__all__ = ["BadFile", "Read", "RoadTable", "read_li_lim", "read_osrm", "read_solomon", "read_vroom", "read_vrplib"]
