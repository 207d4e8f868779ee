"""The journal of a day: a file of lines, each a JSON object after its checksum. Lines are only ever appended.

A line is on the disk before `append` returns. When the power fails while a line is written, the file ends in a part of
it. `opened` cuts that off, so a day opens with its last whole step. What is cut off is kept beside the file.

    00c0ffee {"do":"step","number":3, ..}
"""

from __future__ import annotations

import json
import os
import zlib
from typing import Any, Dict, List, Mapping, Optional, Tuple

from ..errors import JambulskegError

__all__ = ["Entry", "Journal", "JournalFaulty", "line_of", "lines_read", "synced_folder", "write_whole"]

Entry = Dict[str, Any]


class JournalFaulty(JambulskegError):
    """A journal without a whole first line: it is none, or nothing of it was kept."""


def line_of(entry: Mapping[str, Any]) -> bytes:
    """The line of an entry, with its checksum and its line feed."""
    text = json.dumps(entry, separators=(",", ":"), sort_keys=True).encode("ascii")
    return b"%08x %s\n" % (zlib.crc32(text), text)


def entry_of(line: bytes) -> Optional[Entry]:
    """The entry of a line without its line feed; None if it is not as it was written."""
    mark, _, text = line.partition(b" ")
    if mark != b"%08x" % zlib.crc32(text):
        return None
    try:
        found = json.loads(text)
    except (ValueError, RecursionError):
        return None
    return found if isinstance(found, dict) else None


def lines_read(data: bytes) -> Tuple[List[Entry], int]:
    """The entries of the whole lines that a journal begins with, and how many bytes these take."""
    entries: List[Entry] = []
    place = 0
    while True:
        end = data.find(b"\n", place)
        entry = entry_of(data[place:end]) if end >= 0 else None
        if entry is None:
            return entries, place
        entries.append(entry)
        place = end + 1


def synced_folder(path: str) -> None:
    """Lets the names in a folder be on the disk."""
    handle = os.open(path, os.O_RDONLY)
    try:
        os.fsync(handle)
    except OSError:  # some file systems have no such call for folders
        pass
    finally:
        os.close(handle)


def write_whole(path: str, data: bytes) -> None:
    """Writes a file so that its name has either all of the data or what it had before."""
    part = f"{path}.part"
    with open(part, "wb") as file:
        file.write(data)
        file.flush()
        os.fsync(file.fileno())
    os.replace(part, path)
    synced_folder(os.path.dirname(os.path.abspath(path)))


class Journal:
    """An open journal: its entries so far, and the file that more are appended to."""

    def __init__(self, path: str, entries: List[Entry]) -> None:
        self.path, self.entries = path, entries
        self._file = open(path, "ab", buffering=0)
        self._length = self._file.seek(0, os.SEEK_END)

    @classmethod
    def created(cls, path: str, first: Mapping[str, Any]) -> "Journal":
        """A new journal whose first line is this entry."""
        write_whole(path, line_of(first))
        return cls.opened(path)

    @classmethod
    def opened(cls, path: str) -> "Journal":
        """The journal of a file, with all of its whole lines; a broken end is cut off and kept beside it.

        Raises `JournalFaulty` if not even the first line is whole, and `OSError`.
        """
        with open(path, "rb") as file:
            data = file.read()
        entries, length = lines_read(data)
        if not entries:
            raise JournalFaulty(f"{path} is no journal of a day, or nothing of it was kept")
        if length < len(data):
            write_whole(f"{path}.cut-{length}", data[length:])
            with open(path, "r+b") as file:
                file.truncate(length)
                os.fsync(file.fileno())
        return cls(path, entries)

    def append(self, entry: Mapping[str, Any]) -> None:
        """Adds a line, which is on the disk when this returns.

        Raises `OSError` if it cannot be written; the file is then as it was before, as far as that can be had.
        """
        line = line_of(entry)
        try:
            written = 0
            while written < len(line):
                written += self._file.write(line[written:]) or 0
            os.fsync(self._file.fileno())
        except OSError:
            os.truncate(self._file.fileno(), self._length)
            raise
        self._length += len(line)
        self.entries.append(dict(entry))

    def close(self) -> None:
        """Closes the file."""
        self._file.close()
