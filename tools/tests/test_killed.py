"""Nodes that are killed and started again: what counts as a broken promise, and a few runs of the program."""
import struct
import sys
import tempfile
import unittest
from pathlib import Path

from support import TOP, WithProgram

sys.path.insert(0, str(TOP / "tools"))
import restarts  # noqa: E402


def promise(ballot, named=None):
    rest = b"\0" if named is None else struct.pack(">BIH", 1, *named)
    return restarts.PROMISE, struct.pack(">HIIH", 2, 1, *ballot) + rest


def accepted(ballot):
    return restarts.ACCEPTED, struct.pack(">HIIH", 2, 1, *ballot)


class Promises(unittest.TestCase):
    def test_what_is_kept_and_what_is_broken(self):
        for answers, is_broken in (
            ([], False),
            ([promise((1, 2)), accepted((1, 2)), promise((2, 2), (1, 2))], False),
            ([promise((1, 2)), promise((1, 2))], True),
            ([promise((2, 2)), promise((1, 2))], True),
            ([promise((2, 2)), accepted((1, 2))], True),
            ([promise((1, 2)), accepted((1, 2)), accepted((1, 2))], True),
            ([promise((1, 2)), accepted((1, 2)), promise((2, 2))], True),
        ):
            self.assertEqual(restarts.broken(answers) is not None, is_broken, answers)


class Restarts(WithProgram):
    def tried(self, way, *words):
        with tempfile.TemporaryDirectory() as folder:
            return way(self.program.path, Path(folder) / "journal", *words)

    def test_no_promise_is_made_twice(self):
        for way, *words in ((restarts.after_answer, 3), (restarts.inside_write, 30), (restarts.inside_write, 60), (restarts.before_gate, 2, 0), (restarts.before_gate, 3, 1)):
            self.assertIsNone(self.tried(way, *words), (way.__name__, words))

    def test_a_node_that_forgets_is_found(self):
        def forgets(program, file):
            node = restarts.Node(program, file)
            answers = restarts.one_by_one(node, 3)
            node.kill()
            file.unlink()
            return restarts.goes_on(program, file, 1, answers)

        self.assertIsNotNone(self.tried(forgets))


if __name__ == "__main__":
    unittest.main()
