"""The planner's desk: a folder of days in a browser, served on this machine alone.

    python -m jambulskeg desk FOLDER

A day is planned, seen, and changed by hand. Each changed day is put to the program's proved check before it is shown,
and each step is kept in the day's journal. In reading order:

- `journal`, `folder`: what is kept; `states`, `changes`: what may be changed
- `asking`, `touched`: what a changed day costs; `words`: why it cannot be; `offers`: where a visit could go
- `days`: a day that is open
- `part`, `nearby`, `improving`, `searching`: better routes
- `opening`, `exporting`, `pages`: days from files, as files, and as the page shows them
- `guard`, `service`, `server`, `assets`, `command`: who may ask, and how
"""

from __future__ import annotations

from .asking import Asker, Verdict
from .changes import BadChange, change_of
from .days import Answer, OpenDay
from .folder import Folder, FolderInUse, NoSuchDay
from .journal import Journal, JournalFaulty
from .states import Edits, State

__all__ = [
    "Answer", "Asker", "BadChange", "Edits", "Folder", "FolderInUse", "Journal", "JournalFaulty", "NoSuchDay",
    "OpenDay", "State", "Verdict", "change_of",
]
