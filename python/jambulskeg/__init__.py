"""Vehicle routing by the proved program vr_cli.

- `jambulskeg.model` has the model file as dataclasses, solves it, and reads TSPLIB files.
- `jambulskeg.routing` has OR-Tools' calls.
- `jambulskeg.rescue` finds an answer when the construction finds none.
- `jambulskeg.complete` makes plans by hand.
- `jambulskeg.places` makes models of coordinates and spreadsheets; `jambulskeg.plan` goes from these to a plan.
- `jambulskeg.doubts` tells what looks wrong.
- `jambulskeg.view` draws a day; `jambulskeg.exports` writes it for other programs.
- `jambulskeg.portfolio` and `jambulskeg.batch` run many searches on many processors.
- `jambulskeg.region` plans thousands of visits.
"""

__version__ = "0.18.0"
