"""The journal of a day: what is on the disk after each write, and after a write that was cut."""

from __future__ import annotations

import os
import tempfile
import unittest
from typing import Any, Dict, List
from unittest import mock

from jambulskeg.desk import Journal, JournalFaulty
from jambulskeg.desk.journal import line_of, lines_read

ENTRIES: List[Dict[str, Any]] = [
    {"do": "open", "name": "Monday ☃"}, {"do": "step", "number": 1}, {"do": "at", "number": 0}
]


class JournalTests(unittest.TestCase):
    def setUp(self) -> None:
        folder = tempfile.TemporaryDirectory()
        self.addCleanup(folder.cleanup)
        self.path = os.path.join(folder.name, "journal")
        journal = Journal.created(self.path, ENTRIES[0])
        for entry in ENTRIES[1:]:
            journal.append(entry)
        journal.close()
        with open(self.path, "rb") as file:
            self.data = file.read()

    def write(self, data: bytes) -> None:
        """Writes the file of the journal."""
        with open(self.path, "wb") as file:
            file.write(data)

    def test_what_is_written_is_read(self) -> None:
        journal = Journal.opened(self.path)
        self.addCleanup(journal.close)
        self.assertEqual(journal.entries, ENTRIES)
        self.assertEqual(self.data, b"".join(map(line_of, ENTRIES)))

    def test_cut_at_each_byte(self) -> None:
        ends = [len(b"".join(map(line_of, ENTRIES[:count]))) for count in range(len(ENTRIES) + 1)]
        for length in range(len(self.data) + 1):
            self.write(self.data[:length])
            whole = sum(1 for end in ends[1:] if end <= length)
            if whole == 0:
                with self.assertRaises(JournalFaulty):
                    Journal.opened(self.path)
                continue
            journal = Journal.opened(self.path)
            self.assertEqual(journal.entries, ENTRIES[:whole])
            journal.append({"do": "name", "name": "again"})
            journal.close()
            with open(self.path, "rb") as file:
                self.assertEqual(lines_read(file.read())[0], [*ENTRIES[:whole], {"do": "name", "name": "again"}])
            if length not in ends:
                with open(f"{self.path}.cut-{ends[whole]}", "rb") as file:
                    self.assertEqual(file.read(), self.data[ends[whole]:length])

    def test_a_changed_byte_ends_it(self) -> None:
        first = len(line_of(ENTRIES[0]))
        for place in range(first, len(self.data), 3):
            self.write(self.data[:place] + bytes([self.data[place] ^ 1]) + self.data[place + 1:])
            journal = Journal.opened(self.path)
            journal.close()
            self.assertEqual(journal.entries, ENTRIES[:len(journal.entries)])
            self.assertLess(len(journal.entries), len(ENTRIES))

    def test_a_full_disk_leaves_whole_lines(self) -> None:
        journal = Journal.opened(self.path)
        self.addCleanup(journal.close)
        with mock.patch("jambulskeg.desk.journal.os.fsync", side_effect=OSError(28, "No space left on device")):
            with self.assertRaises(OSError):
                journal.append({"do": "name", "name": "lost"})
        self.assertEqual(journal.entries, ENTRIES)
        journal.append({"do": "name", "name": "kept"})
        with open(self.path, "rb") as file:
            self.assertEqual(lines_read(file.read())[0], [*ENTRIES, {"do": "name", "name": "kept"}])


if __name__ == "__main__":
    unittest.main()
