"""Many models at once: a portfolio of each, all searches in one run of an engine.

    found = batch({"monday": monday, "tuesday": tuesday}, Slurm(64))
"""

from __future__ import annotations

import os
from threading import Event
from typing import Dict, List, Mapping, Optional, Sequence, Tuple, Union

from .arguments import A_PATH, MODELS, PAIRS, asks, either, number
from .engines import Engine, OwnProcesses
from .errors import JambulskegError
from .model import Model, read_model
from .portfolio import LAMBDAS, Portfolio, Watcher, an_engine, collected, run_by, searches_of, task_of
from .program import ProgramLike

__all__ = ["Found", "batch", "read_folder"]

Found = Union[Portfolio, JambulskegError]


@asks(models=MODELS, engine=either(an_engine), tries=either(number(0)), lambdas=PAIRS)
def batch(
    models: Mapping[str, Model], engine: Optional[Engine] = None, program: ProgramLike = None, *,
    tries: Optional[int] = None, lambdas: Sequence[Tuple[int, int]] = LAMBDAS, keep_going: bool = False,
    stop: Optional[Event] = None, progress: Optional[Watcher] = None,
) -> Dict[str, Found]:
    """For each model what `portfolio` gives or raises; one that has no answer leaves the others alone. Once the event
    `stop` is set, running searches are ended. `progress` is told of each search that has ended, with the name of its
    model; if it is None, a terminal is.

    Raises `EngineFailed` if the engine itself fails.
    """
    used = engine or OwnProcesses(1, program)
    asked = {name: searches_of(model, used, tries, lambdas) for name, model in models.items()}
    tasks = [(name, task_of(models[name], search)) for name, searches in asked.items() for search in searches]
    answers = run_by(used, [task for _, task in tasks], stop, progress, [name for name, _ in tasks])
    found: Dict[str, Found] = {}
    begin = 0
    for name, searches in asked.items():
        own, begin = answers[begin:begin + len(searches)], begin + len(searches)
        try:
            found[name] = collected(models[name], searches, own, program, keep_going=keep_going)
        except JambulskegError as problem:
            found[name] = problem
    return found


@asks(folder=A_PATH)
def read_folder(folder: str) -> Tuple[Dict[str, Model], List[Tuple[str, str]]]:
    """The models of a folder's files `NAME.json`, by their names in order, and the files that are none, with why.

    Files `NAME.*.json`, such as solutions beside their models, are left out. Raises `OSError`.
    """
    models: Dict[str, Model] = {}
    faulty: List[Tuple[str, str]] = []
    for file in sorted(os.listdir(folder)):
        name, end = os.path.splitext(file)
        if end != ".json" or "." in name:
            continue
        try:
            models[name] = read_model(os.path.join(folder, file))
        except (JambulskegError, ValueError) as fault:
            faulty.append((name, str(fault)))
    return models, faulty
