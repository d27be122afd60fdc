"""The command `faults`: a small part of its runs, of the program and of one that writes what it should not."""
import shutil
import subprocess
import unittest

from routing_tools.injection import KINDS, Injector, Subject, Way
from routing_tools.program import Program
from support import Scratch, WithProgram, command

# Copies its input by pieces of 8 bytes, and writes on where a write failed.
CARELESS = """
#include <unistd.h>
int main(void) {
    char piece[8];
    for (ssize_t size; (size = read(0, piece, sizeof piece)) > 0;)
        (void)!write(1, piece, size);
    return 0;
}
"""


def compiler():
    return shutil.which("gcc") or shutil.which("cc")


@unittest.skipUnless(compiler(), "no C compiler (Debian: gcc, libc6-dev)")
class Faults(WithProgram):
    def rows(self, *words):
        code, out, said = self.command("faults", *words)
        self.assertEqual((code, said), (0, ""), out)
        return [[cell.strip() for cell in row.split("|")[1:-1]] for row in out.splitlines()[2:]]

    def test_a_replay(self):
        rows = self.rows("--only", "epoch", "--most", "2")
        ends = {(what, status) for _, what, _, _, status, _, _ in rows}
        for end in (("nothing", "0"), ("each allocation", "3"), ("each read", "6"), ("each write", "7"), ("standard output", "7")):
            self.assertIn(end, ends)

    def test_a_node(self):
        rows = self.rows("--only", "node", "--most", "2")
        ends = {(what, status) for _, what, _, _, status, _, _ in rows}
        for end in (("nothing", "9"), ("each allocation", "3"), ("dialling", "8"), ("each send", "8"), ("each receive", "8"), ("its peer", "8")):
            self.assertIn(end, ends)


@unittest.skipUnless(compiler(), "no C compiler (Debian: gcc, libc6-dev)")
class Careless(Scratch):
    def setUp(self):
        super().setUp()
        source, self.path = self.write("careless.c", CARELESS), str(self.folder / "careless")
        subprocess.run([compiler(), "-o", self.path, source], check=True)

    def test_bytes_that_are_no_front_are_found(self):
        code, out, _ = command("faults", "--only", "epoch", "--most", "2", "--program", self.path)
        self.assertEqual(code, 1)
        self.assertRegex(out, r"each write \|.*other bytes !")

    def test_one_call_fails_at_its_place(self):
        made, subject = Injector(Program(self.path), self.folder), Subject("copy", [], b"0123456789abcdef")
        whole = made.run(subject, Way(kind="none"))
        self.assertEqual((whole.written, whole.calls["read"], whole.calls["write"]), (subject.source, 3, 2))
        self.assertEqual(set(whole.calls), set(KINDS))
        first, second = (made.run(subject, Way("write", place, "5")) for place in (1, 2))
        self.assertEqual((first.written, first.failed, second.written), (b"89abcdef", 1, b"01234567"))
        self.assertEqual(made.run(subject, Way("read", 2, "5")).written, b"01234567")
        self.assertEqual(made.run(subject, Way("write", 2, "short")).written, b"012345678")
        self.assertEqual(made.run(subject, Way("write", 2, "signal 15")).status, -15)


if __name__ == "__main__":
    unittest.main()
