"""Bugs: each of those in `bugs/` can still be applied, and `tools/bugs.py` says why one cannot."""
import importlib.util
import tempfile
import unittest
from pathlib import Path
from unittest import mock

from support import TOP

SPEC = importlib.util.spec_from_file_location("bugs", TOP / "tools" / "bugs.py")
bugs = importlib.util.module_from_spec(SPEC)
SPEC.loader.exec_module(bugs)


class Bugs(unittest.TestCase):
    def test_each_can_be_applied(self):
        for crate in bugs.crates():
            for edit in bugs.edits(crate):
                with self.subTest(bug=f"{crate}/{edit.name}"):
                    self.assertIsNone(bugs.fault(crate, edit))

    def test_each_crate_has_some(self):
        for crate in bugs.crates():
            with self.subTest(crate=crate):
                self.assertTrue((TOP / "crates" / crate / "src").is_dir())
                self.assertTrue(bugs.edits(crate))


class Faults(unittest.TestCase):
    def fault(self, text):
        with tempfile.TemporaryDirectory() as folder:
            top, edit = Path(folder), Path(folder) / "it.edit"
            (top / "crates" / "one" / "src").mkdir(parents=True)
            (top / "crates" / "one" / "src" / "lib.rt").write_text("a\nb\nb\n", encoding="utf-8")
            edit.write_text(text, encoding="utf-8")
            with mock.patch.object(bugs, "TOP", top):
                return bugs.fault("one", edit)

    def test_what_stands_once_can_be_applied(self):
        self.assertIsNone(self.fault("file: src/lib.rt\nold: a\nnew: c\n"))

    def test_what_stands_twice_cannot(self):
        self.assertEqual(self.fault("file: src/lib.rt\nold: b\nnew: c\n"), "its text stands 2 times in crates/one/src/lib.rt, and not once")

    def test_what_is_not_there_cannot(self):
        self.assertEqual(self.fault("file: src/no.rt\nold: a\nnew: c\n"), "there is no file crates/one/src/no.rt")
        self.assertEqual(self.fault("file: src/lib.rt\nold: d\nnew: c\n"), "its text stands 0 times in crates/one/src/lib.rt, and not once")

    def test_what_has_no_change_cannot(self):
        self.assertEqual(self.fault("file: src/lib.rt\n"), "it changes nothing")
        self.assertEqual(self.fault("new: c\n"), "a line `new:` stands before its `file:` and its `old:`")


if __name__ == "__main__":
    unittest.main()
