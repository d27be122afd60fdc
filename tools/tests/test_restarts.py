"""Restarts: one run of an epoch, with `crash N` and `restart N` put before each line behind `begin` in turn, for each node.

Nodes 2 and 3 have nothing that a restart takes away by then, so the text is that of the run without them. Node 1 is the
consolidator, and may lose its reports and its ballot: each of its lines is that of the run without them, or says that a table
is unpublished, or that a line did nothing for want of reports."""
import re
import unittest

from support import TOP, WithProgram

RUN = TOP / "crates" / "consensus_routing"
CASES = TOP / "crates" / "cases" / "data" / "restarts"
NODES = (1, 2, 3)
CONSOLIDATOR = 1
LOST = re.compile(r"table \d+ 1: unpublished|\d+: idle no report")


def schedule():
    return (RUN / "stdin").read_text(encoding="utf-8").splitlines()


def text():
    return (RUN / "stdout").read_text(encoding="utf-8").splitlines()


def restarted():
    """Each node, and the schedule with its crash and its return at each place."""
    lines = schedule()
    for node in NODES:
        for place in range(lines.index("begin") + 1, len(lines)):
            yield node, lines[:place] + [f"crash {node}", f"restart {node}"] + lines[place:]


class Rule(unittest.TestCase):
    def judge(self, node, told):
        """That a text is what a restart of the node may leave of the text of the run."""
        wanted = text()
        if node != CONSOLIDATOR:
            self.assertEqual(told, wanted)
            return
        self.assertEqual([line for line in told if line.startswith("log ")], [line for line in wanted if line.startswith("log ")])
        self.assertEqual(sum(line.startswith("table ") for line in told), len(NODES))
        for line in told:
            if line not in wanted:
                self.assertRegex(line, f"^({LOST.pattern})$")


class Cases(Rule):
    """The cases of the gate are these schedules, and their texts keep the rule."""

    def test_each_restart_is_a_case(self):
        kept = {tuple(path.read_text(encoding="utf-8").splitlines()) for path in CASES.glob("*.schedule")}
        self.assertEqual(kept, {tuple(lines) for _, lines in restarted()})

    def test_each_text_keeps_the_rule(self):
        for path in sorted(CASES.glob("*.text")):
            with self.subTest(case=path.stem):
                self.judge(int(path.stem.split("_")[1]), path.read_text(encoding="utf-8").splitlines())


class Runs(WithProgram, Rule):
    def test_each_restart_keeps_the_rule(self):
        for node, lines in restarted():
            with self.subTest(node=node, schedule=lines):
                self.judge(node, self.program.replay(lines).lines())


if __name__ == "__main__":
    unittest.main()
