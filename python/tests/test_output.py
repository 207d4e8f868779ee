"""Files are written whole or not at all, and what cannot be written is told before the work."""

from __future__ import annotations

import os
import stat
import tempfile
import unittest
from typing import List, Tuple

from jambulskeg.output import Output, Outputs, names_of_sheets


def write_whole(path: str, text: str) -> None:
    """Writes one file."""
    with Output(path) as out:
        out.write(text)


class OutputTests(unittest.TestCase):
    def setUp(self) -> None:
        folder = tempfile.TemporaryDirectory()
        self.addCleanup(folder.cleanup)
        self.folder = folder.name

    def at(self, name: str) -> str:
        return os.path.join(self.folder, name)

    def read(self, name: str) -> str:
        with open(self.at(name), encoding="utf-8") as file:
            return file.read()

    def test_all_are_written(self) -> None:
        write_whole(self.at("a"), "old")
        os.chmod(self.at("a"), 0o640)
        os.symlink(self.at("a"), self.at("link"))
        with Outputs([self.at("link"), self.at("b"), self.at("unused")]) as outputs:
            outputs.write(self.at("link"), "ä")
            outputs.write(self.at("b"), "new")
            self.assertEqual(self.read("a"), "old")
            self.assertRaises(KeyError, outputs.write, self.at("c"), "")
        self.assertEqual((self.read("a"), self.read("b")), ("ä", "new"))
        self.assertTrue(os.path.islink(self.at("link")))
        self.assertEqual(stat.S_IMODE(os.stat(self.at("a")).st_mode), 0o640)
        self.assertEqual(sorted(os.listdir(self.folder)), ["a", "b", "link"])

    def test_one_file_is_filled_and_then_put_in_its_place(self) -> None:
        with Output(self.at("a")) as out:
            out.fill("text")
            self.assertFalse(os.path.exists(self.at("a")))
            out.put()
        self.assertEqual(self.read("a"), "text")

    def test_none_is_written_after_an_exception(self) -> None:
        for fault in (ValueError, KeyboardInterrupt):
            with self.assertRaises(fault), Outputs([self.at("a"), self.at("b")]) as outputs:
                outputs.write(self.at("a"), "half")
                raise fault
        self.assertEqual(os.listdir(self.folder), [])

    @unittest.skipUnless(os.path.exists("/dev/full"), "there is no device that is always full")
    def test_a_full_disk(self) -> None:
        write_whole(self.at("a"), "old")
        with self.assertRaises(OSError) as caught, Outputs([self.at("a"), "/dev/full"]) as outputs:
            outputs.write(self.at("a"), "new")
            outputs.write("/dev/full", "new")
        told = (caught.exception.filename, caught.exception.strerror)
        self.assertEqual(told, ("/dev/full", "No space left on device"))
        self.assertEqual((self.read("a"), os.listdir(self.folder)), ("old", ["a"]))
        self.assertTrue(stat.S_ISCHR(os.stat("/dev/full").st_mode))
        write_whole(os.devnull, "gone")

    def test_what_cannot_be_opened_is_told_at_once(self) -> None:
        for path in (self.at("none/a"), self.folder):
            with self.assertRaises(OSError) as caught, Outputs([self.at("b"), path]):
                self.fail("the work has begun")
            self.assertEqual(caught.exception.filename, path)
        self.assertEqual(os.listdir(self.folder), [])

    def test_one_file_is_not_written_twice_nor_over_what_is_read(self) -> None:
        write_whole(self.at("a"), "kept")
        os.symlink(self.at("a"), self.at("link"))
        cases: List[Tuple[List[str], List[str]]] = [
            ([self.at("b"), self.at("b")], []), ([self.at("link")], [self.at("a")]),
        ]
        for paths, inputs in cases:
            with self.assertRaises(ValueError):
                Outputs(paths, inputs)
        Outputs([os.devnull, os.devnull])
        self.assertEqual(self.read("a"), "kept")

    def test_names_of_sheets(self) -> None:
        self.assertEqual(names_of_sheets(["red", "../../etc", "Jörg & Söhne", "*"], ".html"),
                         ["01-red.html", "02-etc.html", "03-Jörg-Söhne.html", "04.html"])
        self.assertEqual(names_of_sheets(["a"] * 100, "")[99], "100-a")
        self.assertEqual(len(set(names_of_sheets(["x" * 300] * 3, ""))), 3)


if __name__ == "__main__":
    unittest.main()
