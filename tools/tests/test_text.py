"""Schedules and texts of runs: every line of the examples is known, and a strange one is passed over."""
import csv
import io
import json
import unittest

from routing_tools import schedule
from routing_tools.text import record, records
from support import EXAMPLES, Scratch, command, examples


class Texts(Scratch):
    def test_every_line_of_the_examples_is_known(self):
        for path in examples():
            for line in path.with_suffix(".text").read_text().splitlines():
                self.assertNotEqual(record(line)["kind"], "other", f"{path.name}: {line}")

    def test_fields(self):
        self.assertEqual(record("rib 3 10.0.0.0/8: 3 2 1"), {"kind": "rib", "node": 3, "prefix": "10.0.0.0/8", "path": [3, 2, 1]})
        self.assertEqual(record("rib 3 10.0.0.0/8: none")["path"], [])
        entry = record("log 2 1: 1.1 10.0.0.0/8 recv 1/1/1 7-1 > 1/1/1 > 3/1/1")
        self.assertEqual([entry[name] for name in ("cause", "neighbour", "session", "seq", "path", "sent")], ["recv", 1, 1, 1, [7, 1], ["1/1/1", "3/1/1"]])
        self.assertEqual(record("log 1 3: 1.2 all prefer 2 150")["value"], 150)
        promise = record("ctl 5: 1>3 promise 1 2/1 1/3 S=1,2 I=1.2 x2")
        self.assertEqual([promise[name] for name in ("ballot", "accepted", "value", "times")], ["2/1", "1/3", "S=1,2 I=1.2", 2])
        self.assertEqual(record("closure 1: S=1,2 I=-")["incomplete"], [])
        self.assertEqual(record("recorded 2 1 1/1: 2 3 done")["numbers"], [2, 3])
        self.assertEqual(record("walk 1: 3@1 3@t stuck")["visits"], [[3, "1"], [3, "t"]])
        self.assertFalse(record("table 3 1: unpublished")["published"])
        self.assertEqual(record("probe 1 10.0.0.0/8: 1 2 1 stuck")["path"], [1, 2, 1])
        self.assertEqual(record("9: idle promised 2/1"), {"kind": "idle", "line": 9, "reason": "promised 2/1"})

    def test_a_strange_line_is_other(self):
        self.assertEqual(record("gossip 1: 2"), {"kind": "other", "text": "gossip 1: 2"})
        code, out, said = command("text", self.write("strange.text", "gossip 1: 2\nrib 1 10.0.0.0/8: 1\n"))
        self.assertEqual((code, [json.loads(line)["kind"] for line in out.splitlines()]), (0, ["other", "rib"]))
        self.assertIn("1 lines of no known kind", said)

    def test_what_is_shown_again_is_counted(self):
        self.assertEqual([it["shown"] for it in records(["rib 1 10.0.0.0/8: 1", "rib 2 10.0.0.0/8: none", "rib 1 10.0.0.0/8: none"])], [1, 1, 2])

    def test_csv_has_a_row_for_each_line(self):
        path = EXAMPLES / "epoch.text"
        code, out, _ = command("text", path, "--csv")
        rows = list(csv.DictReader(io.StringIO(out)))
        self.assertEqual((code, len(rows)), (0, len(path.read_text().splitlines())))
        self.assertEqual(rows[0]["responding"], "1 2 3")
        code, out, _ = command("text", path, "--csv", "--kind", "table")
        self.assertEqual([row["path"] for row in csv.DictReader(io.StringIO(out))], ["1", "2 1", "3 2 1"])

    def test_a_file_that_is_not_there(self):
        code, _, said = command("text", self.folder / "none.text")
        self.assertEqual(code, 3)
        self.assertIn("cannot read", said)


class Schedules(Scratch):
    def test_the_examples(self):
        for path in examples():
            read = schedule.read(str(path))
            self.assertTrue(read.network.nodes and read.lines, path.name)
            self.assertEqual([line.words for line in schedule.parse(read.text()).lines], [line.words for line in read.lines])
            for line in read.lines:
                self.assertEqual(path.read_text().splitlines()[line.number - 1].split("#")[0].split(), line.words)

    def test_an_unknown_line_is_passed_over_with_a_message(self):
        said = io.StringIO()
        read = schedule.parse("node 1\nprefix 10.0.0.0/8\nbegin\ngossip 1\n", "it", said)
        self.assertEqual([line.text() for line in read.lines], ["gossip 1"])
        self.assertIn("gossip", said.getvalue())

    def test_a_bad_line_has_its_number(self):
        code, _, said = command("network", self.write("bad.schedule", "node 1\nlink 1 x any\n"), "--to", "dot")
        self.assertEqual(code, 3)
        self.assertIn("line 2", said)


class Differences(Scratch):
    def test_no_difference(self):
        code, out, _ = command("diff", EXAMPLES / "epoch.text", EXAMPLES / "epoch.text")
        self.assertEqual((code, out), (0, "no difference\n"))

    def test_what_differs_is_named(self):
        one = self.write("one.text", "rib 3 10.0.0.0/8: 3 2 1\nrib 3 10.0.0.0/8: none\ntable 2 1 10.0.0.0/8: 2 1\nwalk 1: 3@1 2@1 stuck\n")
        two = self.write("two.text", "walk 1: 3@1 delivered\ntable 2 1: unpublished\nrib 3 10.0.0.0/8: 3 2 1\nrib 3 10.0.0.0/8: 3 4 1\n")
        code, out, _ = command("diff", one, two)
        self.assertEqual(code, 1)
        self.assertEqual(out.splitlines(), [
            "route of 3 to 10.0.0.0/8 (shown the 2nd time): none -> 3 4 1",
            "table of 2 for epoch 1 to 10.0.0.0/8: 2 1 -> not shown",
            "walk of packet 1: 3@1 2@1 stuck -> 3@1 delivered",
            "table of 2 for epoch 1: not shown -> unpublished",
        ])


class Words(unittest.TestCase):
    def test_help_and_wrong_words(self):
        from routing_tools.main import COMMANDS

        for name in [it.NAME for it in COMMANDS]:
            code, out, _ = command(name, "--help")
            self.assertEqual(code, 0)
            self.assertIn("Exit status", out)
        self.assertEqual(command("nonsense")[0], 2)
        self.assertEqual(command("network")[0], 2)
        self.assertEqual(command("fuzz", "x", "--program", "true")[0], 2)


if __name__ == "__main__":
    unittest.main()
