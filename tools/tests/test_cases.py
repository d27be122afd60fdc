"""The cases of `crates/cases`: each is named, has the files of one kind, and those of the examples are copies."""
import re
import unittest

from support import EXAMPLES, TOP

CRATE = TOP / "crates" / "cases"
DATA = CRATE / "data"
# The endings of the files with which a case may be told, and those that must be there for each of the others.
NEEDS = {
    "schedule": set(),
    "network": {"words"},
    "words": set(),
    "frames": {"network"},
    "answers": {"network"},
    "end": set(),
    "text": set(),
    "has": set(),
    "count": {"has"},
    "last": {"schedule"},
}
# Endings of which a case has one at most, and those of which it has one at least.
APART = [{"schedule", "network"}, {"text", "has"}, {"last", "text"}, {"last", "has"}, {"last", "end"}, {"answers", "text"}, {"answers", "has"}]
SOURCES = {"schedule", "network", "words"}


def cases():
    """The endings of each case's files, by its name."""
    found = {}
    for file in DATA.rglob("*"):
        if file.is_file():
            name, _, ending = str(file.relative_to(DATA)).rpartition(".")
            found.setdefault(name, set()).add(ending)
    return found


class Cases(unittest.TestCase):
    def test_each_case_is_run(self):
        names = (CRATE / "stdin").read_text(encoding="utf-8").splitlines()
        self.assertEqual(names, sorted(cases()))
        self.assertEqual((CRATE / "stdout").read_text(encoding="utf-8"), "".join(f"{name} ok\n" for name in names))

    def test_each_case_has_the_files_of_one_kind(self):
        for name, endings in cases().items():
            with self.subTest(case=name):
                self.assertLessEqual(endings, set(NEEDS))
                self.assertTrue(endings & SOURCES)
                for ending in endings:
                    self.assertLessEqual(NEEDS[ending], endings)
                for kinds in APART:
                    self.assertLessEqual(len(kinds & endings), 1)

    def test_the_examples_are_among_them(self):
        examples = {re.sub(r"\.(script|tables)$", ".schedule", file.name): file.read_bytes() for file in EXAMPLES.iterdir()}
        # the words and the end of a case have no place in an example
        copies = {file.name: file.read_bytes() for file in (DATA / "examples").iterdir() if file.suffix not in (".words", ".end")}
        self.assertEqual(copies, examples)


if __name__ == "__main__":
    unittest.main()
