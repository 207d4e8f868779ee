"""Files that are written whole or not at all, and found to be writable before the work begins.

    with Output("plan.json") as out:
        out.write(hours_of_work())

Several files together take their places when all of them are written:

    with Outputs(["plan.csv", "day.html"]) as outputs:
        outputs.write("plan.csv", text)
        outputs.write("day.html", page)
"""

from __future__ import annotations

import errno
import os
import stat
import sys
from types import TracebackType
from typing import IO, Dict, List, Optional, Sequence, Type

__all__ = ["Output", "Outputs", "names_of_sheets"]


class Output:
    """Where an answer goes: a file, or standard output if there is no path.

    A regular file is written beside its place and then takes it. So a reader never sees a half, and an older file stays
    as it is until then. Devices and pipes are written to as they are. Raises `OSError` with the path, at the beginning
    if nothing can be written there, at the end if the disk is full.
    """

    def __init__(self, path: Optional[str]) -> None:
        self._name = "standard output" if path is None else path
        self._path = None if path is None or is_device(path) else os.path.realpath(path)
        self._beside = self._path and beside(self._path)
        self._file: Optional[IO[bytes]] = None
        if path is not None:
            self._file = self._opened(path)

    def _opened(self, path: str) -> IO[bytes]:
        """The file that is written. Raises `OSError` with the path that was asked for."""
        try:
            if self._path is None:
                return open(path, "wb", buffering=0)
            mode = mode_of(self._path)
            number = os.open(self._beside or path, os.O_WRONLY | os.O_CREAT | os.O_TRUNC, 0o666)
            if mode is not None:
                os.chmod(number, mode)
            return os.fdopen(number, "wb", buffering=0)
        except OSError as problem:
            raise OSError(problem.errno, problem.strerror, path) from None

    def write(self, text: str) -> None:
        """Writes the whole text and puts the file in its place. Raises `OSError` with the path."""
        self.fill(text)
        self.put()

    def put(self) -> None:
        """Puts the file that was filled in its place. Raises `OSError` with the path."""
        if self._file is None or self._path is None or not self._beside:
            return
        try:
            self._file.close()
            os.replace(self._beside, self._path)
            self._beside = None
        except OSError as problem:
            raise OSError(problem.errno, problem.strerror, self._name) from None

    def fill(self, text: str) -> None:
        """Writes the whole text, beside the place of a regular file. Raises `OSError` with the path."""
        try:
            if self._file is None:
                sys.stdout.write(text)
                sys.stdout.flush()
                return
            left = memoryview(text.encode("utf-8", "replace"))
            while left:
                left = left[self._file.write(left):]
            if self._beside:
                os.fsync(self._file.fileno())
        except OSError as problem:
            if self._file is None:
                quiet()
            raise OSError(problem.errno, problem.strerror, self._name) from None

    def __enter__(self) -> "Output":
        return self

    def __exit__(self, *_: object) -> None:
        if self._file is not None:
            self._file.close()
        if self._beside:
            os.unlink(self._beside)


class Outputs:
    """Some files to be written. A `with` opens them; if it ends without an exception, all are written, and then put in
    their places.

    Raises `ValueError` if two paths, or a path and one of `inputs`, are one file; `OSError` with the path.
    """

    def __init__(self, paths: Sequence[str], inputs: Sequence[str] = ()) -> None:
        used = [os.path.realpath(path) for path in inputs]
        for path in paths:
            if os.path.realpath(path) in used:
                raise ValueError(f"{path} is read too, or is to be written twice")
            used += [] if is_device(path) else [os.path.realpath(path)]
        self._paths = list(paths)
        self._open: Dict[str, Output] = {}
        self._texts: Dict[str, str] = {}

    def __enter__(self) -> "Outputs":
        try:
            for path in self._paths:
                self._open[path] = Output(path)
        except BaseException:
            self._leave()
            raise
        return self

    def write(self, path: str, text: str) -> None:
        """Keeps the text of a file until all are written; it replaces an earlier one."""
        if path not in self._open:
            raise KeyError(path)
        self._texts[path] = text

    def __exit__(
        self, kind: Optional[Type[BaseException]], value: Optional[BaseException], trace: Optional[TracebackType]
    ) -> None:
        try:
            if kind is None:
                for path, text in self._texts.items():
                    self._open[path].fill(text)
                for path in self._texts:
                    self._open[path].put()
        finally:
            self._leave()

    def _leave(self) -> None:
        """Closes all files, and takes away those that were not put in their places."""
        for output in self._open.values():
            output.__exit__()
        self._open = {}


def is_device(path: str) -> bool:
    """Whether there is something at a path that is no regular file."""
    return os.path.exists(path) and not os.path.isdir(path) and not stat.S_ISREG(os.stat(path).st_mode)


def beside(path: str) -> str:
    """A file beside another, which no other process takes."""
    folder, name = os.path.split(path)
    return os.path.join(folder, f".{name}.{os.getpid()}.part")


def mode_of(path: str) -> Optional[int]:
    """The permissions of a file, None if it is not there. Raises `OSError` if it may not be written."""
    if os.path.isdir(path):
        raise IsADirectoryError(errno.EISDIR, os.strerror(errno.EISDIR), path)
    if not os.path.exists(path):
        return None
    if not os.access(path, os.W_OK):
        raise PermissionError(errno.EACCES, os.strerror(errno.EACCES), path)
    return stat.S_IMODE(os.stat(path).st_mode)


def quiet() -> None:
    """Lets what is left in standard output go nowhere, so that the interpreter does not complain of it at its end."""
    try:
        os.dup2(os.open(os.devnull, os.O_WRONLY), sys.stdout.fileno())
    except (OSError, ValueError):
        pass


def names_of_sheets(names: Sequence[str], end: str) -> List[str]:
    """A file name for each of some names, in their order: its number, and its letters and digits."""
    width = max(2, len(str(len(names))))
    plain = ["-".join("".join(c if c.isalnum() else " " for c in name).split())[:40] for name in names]
    return [f"{number:0{width}}{'-' if word else ''}{word}{end}" for number, word in enumerate(plain, 1)]
