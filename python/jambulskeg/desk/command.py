"""The words of `python -m jambulskeg desk`."""

from __future__ import annotations

import argparse
import contextlib
import os
import pathlib
import signal
import sys
import threading
import webbrowser
from typing import Any

from ..program import Program
from .folder import Folder
from .searching import Searches
from .server import DeskServer, serve
from .service import Service

__all__ = ["add_desk", "run_desk"]

MOST_JOBS = 64
OPENER = ".open-the-desk.html"


def add_desk(command: argparse.ArgumentParser) -> None:
    """Adds the words of `desk` to a command."""
    command.add_argument("folder", metavar="FOLDER", nargs="?", default="days",
                         help="the folder of days, made if it is missing; 'days' without one")
    command.add_argument("--port", type=port, default=0, metavar="P", help="the port of 127.0.0.1; else a free one")
    command.add_argument("--no-browser", action="store_true", help="only write the address of the page")
    command.add_argument("--jobs", type=jobs, default=1, metavar="N", help="searches at a time")
    command.set_defaults(run=run_desk)


def port(text: str) -> int:
    """The number of a port."""
    found = int(text)
    if not 0 <= found < 65536:
        raise argparse.ArgumentTypeError(f"{text} is no port")
    return found


def jobs(text: str) -> int:
    """How many searches may run at a time."""
    found = int(text)
    if not 1 <= found <= MOST_JOBS:
        raise argparse.ArgumentTypeError(f"{text} is not 1 to {MOST_JOBS}")
    return found


def run_desk(asked: argparse.Namespace) -> int:
    """Serves a folder of days until it is stopped from the keyboard."""
    folder = Folder(asked.folder)
    try:
        server = DeskServer(Service(folder, Program.found(), Searches(asked.jobs)), asked.port)
    except OSError as problem:
        folder.close()
        raise ValueError(f"the port {asked.port} of this machine cannot be had: {problem.strerror}") from None
    except BaseException:
        folder.close()
        raise
    signal.signal(signal.SIGTERM, stopped)
    opener = Opener(os.path.join(folder.path, OPENER))
    try:
        serve(server, tell, None if asked.no_browser else opener.browse)
    finally:
        opener.close()
    return 0


class Opener:
    """A file that nobody else may read, and which leads the browser to the page. So the token is not among the words
    that the browser is called with, which others on this machine may see."""

    def __init__(self, path: str) -> None:
        self.path = path

    def browse(self, address: str) -> None:
        """Opens the page in the browser, whose call may last as long as the browser does."""
        self.close()
        handle = os.open(self.path, os.O_WRONLY | os.O_CREAT | os.O_EXCL, 0o600)
        with open(handle, "w", encoding="ascii") as file:
            file.write(f'<!DOCTYPE html><meta http-equiv="refresh" content="0;url={address}"><title>The desk</title>'
                       f'<a href="{address}">The planner\'s desk</a>\n')
        address_of_file = pathlib.Path(self.path).as_uri()
        threading.Thread(target=webbrowser.open, args=(address_of_file,), daemon=True).start()

    def close(self) -> None:
        """Takes the file away."""
        with contextlib.suppress(FileNotFoundError):
            os.unlink(self.path)


def stopped(number: int, frame: Any) -> None:
    """Ends the desk as the keyboard does."""
    raise KeyboardInterrupt


def tell(address: str) -> None:
    """Writes the address of the page."""
    sys.stdout.write(f"The desk is at {address}\nControl and C closes it.\n")
    sys.stdout.flush()
