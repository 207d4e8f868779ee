"""What is kept of a run: a folder with its state, the answers of the round under way, and a journal.

Each file is written beside its place and then renamed, so a file is there as a whole or not at all, whenever the run is
ended. One run at a time has the folder.
"""

from __future__ import annotations

import json
import os
import shutil
from typing import IO, Any, Optional

from ..errors import JambulskegError

__all__ = ["FolderTaken", "Store"]


class FolderTaken(JambulskegError):
    """The folder of a run is another run's."""


class Store:
    """The folder of a run. Raises `FolderTaken` where a run that goes on has it, `OSError`."""

    def __init__(self, folder: str) -> None:
        self.folder = os.path.abspath(folder)
        for name in ("answers", "checked"):
            os.makedirs(self.path(name), exist_ok=True)
        self._lock = locked(self.path("lock"))
        for name in ("", "answers", "checked"):
            if os.path.isdir(self.path(name)):
                for file in os.listdir(self.path(name)):
                    if file.endswith(".part"):
                        os.unlink(self.path(name, file))

    def path(self, *names: str) -> str:
        """The path of a file in the folder."""
        return os.path.join(self.folder, *names)

    def close(self) -> None:
        """Lets another run have the folder."""
        self._lock.close()

    def write(self, name: str, text: str, *, lasting: bool = False) -> None:
        """Writes a file as a whole; `lasting` waits until the disk has it. Raises `OSError`; then the old file stays.
        """
        part = self.path(name + ".part")
        try:
            with open(part, "w", encoding="utf-8") as file:
                file.write(text)
                if lasting:
                    file.flush()
                    os.fsync(file.fileno())
            os.replace(part, self.path(name))
        except BaseException as problem:
            if os.path.exists(part):
                os.unlink(part)
            if isinstance(problem, OSError):
                raise OSError(problem.errno, problem.strerror, self.path(name)) from None
            raise

    def read(self, name: str) -> Optional[Any]:
        """The JSON value of a file, None where there is none, or where it is no JSON."""
        try:
            with open(self.path(name), encoding="utf-8") as file:
                return json.load(file)
        except (FileNotFoundError, ValueError):
            return None

    def take_away(self, name: str) -> None:
        """Takes away a file, where it is there."""
        if os.path.exists(self.path(name)):
            os.unlink(self.path(name))

    def forget(self, folder: str) -> None:
        """Takes away the files of one of its folders."""
        shutil.rmtree(self.path(folder), ignore_errors=True)
        os.makedirs(self.path(folder), exist_ok=True)


def locked(path: str) -> IO[str]:
    """A file that this process alone holds, for as long as it lives."""
    file = open(path, "w", encoding="ascii")
    try:
        import fcntl

        fcntl.flock(file, fcntl.LOCK_EX | fcntl.LOCK_NB)
    except ImportError:
        pass
    except OSError:
        file.close()
        raise FolderTaken(f"another run is at work in the folder {os.path.dirname(path)}") from None
    return file
