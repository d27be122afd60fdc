"""Commands that run the program: view, inflight, fuzz, campaign, load."""
import csv
import re
import subprocess
import unittest
import xml.etree.ElementTree as xml
from dataclasses import dataclass, replace
from unittest import mock

from routing_tools import cases, fuzz, inflight, measure, random_schedules, schedule, view
from routing_tools.flight import Sent, on_way
from routing_tools.logs import Logs, before_drops, whole_logs
from routing_tools.network import tiered
from routing_tools.program import Program
from routing_tools.state import states
from routing_tools.text import record
from routing_tools.trouble import Trouble
from routing_tools.watch import watch
from support import EXAMPLES, TOP, WithProgram, command, examples

RING = EXAMPLES / "ring_without_rest.schedule"
DROPPED = EXAMPLES / "dropped_entries.schedule"


class Examples(WithProgram):
    def test_the_texts_are_as_kept(self):
        for path in examples():
            self.assertEqual(self.program.replay(path.read_text()).text, path.with_suffix(".text").read_text(), path.name)

    def ran(self, word, text):
        """The status, the output and the line on standard error of the program with this word, on this text."""
        ran = subprocess.run([self.program.path, word], input=text.encode(), stdout=subprocess.PIPE, stderr=subprocess.PIPE, check=False)
        return ran.returncode, ran.stdout.decode(), ran.stderr.decode()

    def test_the_script_has_its_text(self):
        script = EXAMPLES / "leader.script"
        self.assertEqual(self.ran("lead", script.read_text()), (0, script.with_suffix(".text").read_text(), ""))

    def test_live_routes_are_no_tables(self):
        told = self.ran("audit", (EXAMPLES / "live_routes.tables").read_text())
        self.assertEqual(told, (14, "", "inconsistent: line 3: does not continue\n"))

    def test_printed_tables_are_consistent(self):
        """What `replay` writes goes to `audit`, for the examples and all cases that show tables."""
        shown = [path for path in (TOP / "crates" / "cases" / "data").rglob("*.schedule") if "show tables" in path.read_text(errors="replace")]
        self.assertGreater(len(shown), 20)
        for path in shown:
            self.assertEqual(self.ran("audit", self.ran("replay", path.read_text())[1]), (0, "consistent\n", ""), path.name)

    def test_schedules_and_texts_do_not_differ(self):
        for path in examples():
            code, out, _ = self.command("diff", path, path.with_suffix(".text"))
            self.assertEqual((code, out), (0, "no difference\n"), path.name)

    def test_the_load_of_a_number_has_its_counts(self):
        code, out, _ = command("load", 7, "--counts")
        told = subprocess.run([self.program.path, "load", "7"], stdout=subprocess.PIPE, check=True).stdout.decode()
        self.assertEqual(code, 0)
        self.assertTrue(told.startswith(out), told)
        # all nodes responded each time, so most entries are dropped: those that were ever made are counted as they are watched
        logs = whole_logs(self.program, schedule.parse(command("load", 7)[1]))
        self.assertIn(f"entries {sum(map(len, logs.values()))}\n", told)


class States(WithProgram):
    def test_the_last_state_has_the_last_routes(self):
        for path in examples():
            found, steps, _ = states(self.program, schedule.read(str(path)))
            self.assertEqual(len(found), len(steps) + 1)
            shown = {}
            for line in path.with_suffix(".text").read_text().splitlines():
                told = record(line)
                if told["kind"] == "rib":
                    shown[f"r {told['node']} {told['prefix']}"] = " ".join(map(str, told["path"]))
            if schedule.read(str(path)).lines[-1].words == ["show", "rib"]:
                self.assertEqual({key: value for key, value in found[-1].items() if key.startswith("r ")}, shown, path.name)

    def test_lines_that_do_nothing_keep_their_numbers(self):
        _, steps, _ = states(self.program, schedule.read(str(EXAMPLES / "one_end_notices.schedule")))
        said = [line for step in steps for line in step.said if "idle" in line]
        self.assertEqual(said, ["15: idle wrong session"])

    def test_what_is_on_its_way(self):
        found, steps, _ = states(self.program, schedule.read(str(EXAMPLES / "epoch.schedule")))
        behind = {step.line.number: found[place + 1] for place, step in enumerate(steps)}
        # node 3 took its cut with nothing on its way; then 1 withdraws
        self.assertEqual(behind[10]["f 3 2"], "marker 1")
        self.assertEqual(behind[11]["f 1 2"], "update 2 10.0.0.0/8 (1.2)")
        # the marker came, and node 2 sent its own behind the withdrawal
        self.assertNotIn("f 3 2", behind[13])
        self.assertEqual(behind[13]["f 2 3"], "update 2 10.0.0.0/8 (1.2); marker 1")
        self.assertFalse([key for key in behind[14] if key.startswith("f ")])

    def test_a_link_that_is_down_carries_nothing(self):
        found, steps, _ = states(self.program, schedule.read(str(EXAMPLES / "one_end_notices.schedule")))
        behind = {step.line.number: found[place + 1] for place, step in enumerate(steps)}
        self.assertIn("d 1 2", behind[10])
        self.assertNotIn("d 1 2", behind[13])
        self.assertEqual(behind[14]["f 2 1"], "greeting")
        self.assertEqual(on_way({}, {}, {}, {}, []), {})

    def test_pages_and_pictures_of_all_examples(self):
        for path in examples():
            page, picture = self.folder / "page.html", self.folder / "picture.svg"
            code, _, _ = self.command("view", path, "-o", page, "--svg", picture, "--each-delivery")
            self.assertEqual(code, 0)
            self.assertNotIn("{{", page.read_text().replace("${{", ""))
            self.assertNotIn("http://www.w3.org/1999", page.read_text())
            root = xml.fromstring(picture.read_text())
            width = float(root.get("width"))
            for it in root.iter("{http://www.w3.org/2000/svg}text"):
                if it.get("text-anchor") != "middle":
                    self.assertLessEqual(float(it.get("x")) + 6.2 * len(it.text), width, it.text)

    def test_a_page_from_a_line_on(self):
        page = self.folder / "page.html"
        code, _, _ = self.command("view", EXAMPLES / "detour.schedule", "-o", page, "--from", "30")
        self.assertEqual(code, 0)
        text = page.read_text()
        self.assertIn('"behind":"behind line 29"', text)
        self.assertIn('"r 3 10.0.0.0/16":"3 4 2 1"', text)
        self.assertNotIn('"n":29', text)

    def test_a_page_that_would_be_too_large(self):
        with mock.patch.object(view, "MOST_TEXT", 10):
            code, _, said = self.command("view", EXAMPLES / "detour.schedule")
        self.assertEqual(code, 3)
        self.assertIn("--from", said)

    def test_bad_words_of_view(self):
        code, _, said = self.command("view", EXAMPLES / "epoch.schedule", "--svg", self.folder / "a.svg", "--prefix", "1.0.0.0/8")
        self.assertEqual(code, 3)
        self.assertIn("no prefix", said)
        self.assertEqual(self.command("view", self.write("empty.schedule", ""))[0], 3)


class InFlight(WithProgram):
    def test_rest_and_numbers(self):
        code, out, _ = self.command("inflight", RING)
        self.assertEqual(code, 0)
        self.assertIn("line 17: drain 100: ended by its number", out)
        self.assertIn("behind line 22: not at rest", out)
        code, out, _ = self.command("inflight", EXAMPLES / "announce_and_withdraw.schedule")
        self.assertEqual(out.splitlines()[1:], [
            "  2 to 1: update 1 10.0.0.0/8 (1.1); update 2 10.0.0.0/8 (1.2)", "  2 to 3: update 2 10.0.0.0/8 (1.2)", "  3 to 2: update 1 10.0.0.0/8 (1.1)",
        ])

    def test_what_cannot_come(self):
        _, out, _ = self.command("inflight", EXAMPLES / "crash_and_return.schedule", "--line", "12")
        self.assertIn("at rest, but something is on its way that cannot come", out)
        self.assertIn("2 to 3: update 2 10.0.0.0/8 (1.2) [crashed]", out)
        _, out, _ = self.command("inflight", EXAMPLES / "epoch.schedule", "--line", "10")
        self.assertIn("3 to 2: marker 1", out)

    def test_what_is_seen_on_a_way_is_what_can_be_delivered(self):
        for seed in range(1, 16):
            read = schedule.parse("\n".join(random_schedules.drawn(seed)) + "\n", said=None)
            if self.program.replay(read.text()).code:
                continue
            seen = inflight.seen_state(self.program, read, len(read.lines))
            for way in read.network.ways():
                told = seen.get(way, [])
                number, reason = inflight.deliverable(self.program, read, len(read.lines), way)
                if reason not in ("crashed", "wrong session"):
                    sure = [it for it in told if not it.endswith("?")]
                    self.assertTrue(len(sure) <= number <= len(told), f"seed {seed}, {way}: {told}, {number} came")

    def test_who_reached_a_limit(self):
        text = RING.read_text().split("drain 100")[0] + "drain 1000000\n"
        code, out, _ = self.command("inflight", self.write("ring.schedule", text))
        self.assertEqual(code, 0)
        self.assertIn("line 17: drain 1000000: limit: entries 2048, after ", out)
        self.assertIn(" has 2048 entries", out)


class Dropped(WithProgram):
    """A run whose logs begin late: nodes 1, 2 and 3 drop their first 2, 2 and 1 entries."""

    def behind(self, *lines):
        """The path of the example up to its first `show log`, with these lines behind it."""
        return self.write("late.schedule", DROPPED.read_text().split("show log")[0] + "".join(f"{line}\n" for line in lines))

    def test_inflight_knows_what_was_received(self):
        _, out, _ = self.command("inflight", DROPPED)
        self.assertIn("at rest, nothing is on its way", out)
        # update 1 of each way was sent and received by entries that are gone
        _, out, _ = self.command("inflight", self.behind("withdraw 1 10.0.0.0/8", "deliver 1 2"))
        self.assertEqual(out.splitlines()[-2:], ["  2 to 1: update 2 10.0.0.0/8 (1.2)", "  2 to 3: update 2 10.0.0.0/8 (1.2)"])
        read = schedule.read(self.behind("withdraw 1 10.0.0.0/8", "ctl all 100", "show log", "deliver 1 2", "snap 3"))
        found, steps, _ = states(self.program, read)
        ways_and_cuts = {key: value for key, value in found[-1].items() if key[0] in "fk"}
        self.assertEqual(ways_and_cuts, {
            "f 2 1": "update 2 10.0.0.0/8 (1.2)", "f 2 3": "update 2 10.0.0.0/8 (1.2)", "f 3 2": "marker 2",
            "k 1 1": "2", "k 2 1": "2", "k 3 1": "1", "k 3 2": "1",
        })
        # the same where all lines but the last are passed over
        passed = states(self.program, read, len(steps))[0][-1]
        self.assertEqual({key: value for key, value in passed.items() if key[0] in "fk"}, ways_and_cuts)

    def test_text_has_the_places(self):
        code, out, _ = self.command("text", DROPPED, "--csv", "--kind", "log")
        rows = list(csv.DictReader(out.splitlines()))
        self.assertEqual((code, [(row["node"], row["place"]) for row in rows]), (0, [("1", "3"), ("1", "4"), ("2", "3"), ("2", "4"), ("3", "2")]))
        one = self.behind("withdraw 1 10.0.0.0/8", "show log")
        other = self.write("early.schedule", DROPPED.read_text().split("propose 1 1")[0] + "withdraw 1 10.0.0.0/8\nshow log\n")
        code, out, _ = self.command("diff", one, other)
        self.assertEqual(code, 1)
        self.assertEqual([line.partition(":")[0] for line in out.splitlines()], [
            f"entry {place} of the log of {node}" for node, place in ((1, 1), (1, 2), (2, 1), (2, 2), (3, 1))
        ])

    def test_a_watched_run_keeps_what_is_dropped(self):
        read = schedule.read(str(DROPPED))
        logs = whole_logs(self.program, read)
        self.assertEqual([[entry["place"] for entry in logs[node]] for node in (1, 2, 3)], [[1, 2, 3, 4], [1, 2, 3, 4], [1, 2]])
        self.assertEqual(logs[2][0], record("log 2 1: 1.1 10.0.0.0/8 recv 1/1/1 1 > 1/1/1 > 3/1/1"))
        watched, firsts = Logs(read.network.nodes), {}
        for step in watch(self.program, read, lambda line: ["show log"])[0]:
            self.assertEqual(list(watched.see(step.shown)), [])
            firsts[step.line.number] = list(watched.first.values())
        self.assertEqual(watched.whole, logs)
        self.assertEqual([firsts[number] for number in (10, 16, 17)], [[1, 1, 1], [1, 1, 1], [3, 3, 2]])
        # the logs before the first and the last `ctl` are all that has to be seen
        self.assertEqual([read.lines[place - 1].number for place in before_drops(read.lines)], [14])

    def test_what_was_never_shown_is_no_whole_log(self):
        late = [record(line) for line in DROPPED.with_suffix(".text").read_text().splitlines()]
        self.assertRaises(Trouble, Sent().enter, late[:2])
        self.assertIn("missed: entry 1 of node 1", next(Logs([1, 2, 3]).see(late)))

    def test_who_has_most_counts_dropped_entries(self):
        counts = list(inflight.who(self.program, schedule.read(str(DROPPED)), "updates"))
        self.assertEqual(counts, ["node 2 has 4 updates", "node 1 has 2 updates", "node 3 has 2 updates"])

    def test_lies_about_logs_are_found(self):
        lines = schedule.read(str(DROPPED)).text().splitlines()
        self.assertIsNone(fuzz.first_failure(self.program, lines, False))
        for name, before, after in (
            ("sent", r"^(log 2 1: .*) > 3/1/1$", r"\1"),  # an entry that is dropped later
            ("places", r"^log 1 4:", "log 1 5:"),
            ("first", r"^log 1 3:", "log 1 2: 1.1 10.0.0.0/8 recv 2/1/1 2-1\nlog 1 3:"),
            ("missed", r"^log 3 1: .*\n", ""),
            ("changed", r"^(log 1 3: 1\.)2(.*\nlog 1 4)", r"\g<1>3\2"),
            ("dropped", r"^log 1 3: .*\n(log 1 4)", r"\1"),  # at a drain
            ("whole", r"\Alog 1 1: .*\n", ""),  # in the run that is asked without control messages
            ("kept", r"^(ctl .* decision .*)I=-", r"\1I=1.1"),
        ):
            found = fuzz.first_failure(Liar(self.program.path, before, after), lines, False)
            self.assertEqual(fuzz.name_of(found or ""), name, found)


    def test_lies_about_what_was_held_back_are_found(self):
        lines = schedule.read(str(EXAMPLES / "held_back.schedule")).text().splitlines()
        self.assertIsNone(fuzz.first_failure(self.program, lines, False))
        for name, before, after in (
            ("received", r"^(log 2 3: )1.2,(1.3 .*)$", r"\1\2"),  # the last trigger of the list alone
            ("sent", r"^(log 1 6: .*) > 2/1/2$", r"\1"),  # a flush that tells only what is new
            ("sent", r"^(log 1 4: .*)$", r"\1 > 2/1/2"),  # an update that goes past the hold
        ):
            found = fuzz.first_failure(Liar(self.program.path, before, after), lines, False)
            self.assertEqual(fuzz.name_of(found or ""), name, found)


class Fuzz(WithProgram):
    def test_nothing_is_found(self):
        code, out, _ = self.command("fuzz", "1..40", "--keep", self.folder)
        self.assertEqual((code, out), (0, "40 schedules, 0 failed\n"))

    def test_a_liar_is_found_and_the_schedule_shrinks(self):
        # each route over three nodes is none
        liar, lines = Liar(self.program.path, r"^(rib \d+ \S+): \d+ \d+ \d+$", r"\1: none"), random_schedules.drawn(6)
        found = fuzz.first_failure(liar, lines, False)
        self.assertEqual(fuzz.name_of(found), "route")
        least = schedule.parse("\n".join(fuzz.shrunk(liar, lines, "route", False)))
        self.assertEqual((len(least.network.nodes), len(least.network.links), len(least.lines)), (3, 2, 2))
        path = fuzz.keep(str(self.folder), 6, least.text().splitlines(), found)
        self.assertEqual(schedule.read(str(path)).lines[0].first(), "originate")


@dataclass(frozen=True)
class Liar(Program):
    """Its text has one thing in the place of another."""

    before: str
    after: str

    def replay(self, lines):
        ran = super().replay(lines)
        return replace(ran, text=re.sub(self.before, self.after, ran.text, flags=re.M))


class Campaign(WithProgram):
    def campaign(self, name, *words):
        code, out, _ = self.command("campaign", "tiers:8:1", "--rule", "multihomed", "--csv", self.folder / name, "--workers", "1", *words)
        self.assertEqual(code, 0, out)
        return self.rows(name)

    def rows(self, name):
        """All but the seconds."""
        lines = (self.folder / name).read_text().splitlines()
        return [{key: value for key, value in row.items() if key != "seconds"} for row in csv.DictReader(lines)]

    def test_a_stopped_campaign_goes_on(self):
        whole = self.campaign("whole.csv", "--plot", self.folder / "plots")
        self.assertTrue((self.folder / "plots" / "sizes.svg").is_file())
        first = self.campaign("parts.csv", "--most", "2")
        self.assertEqual(len(first), 2)
        # as if it had been stopped in the middle of a row
        with (self.folder / "parts.csv").open("a") as file:
            file.write("tiers:8:1,multi")
        again = self.campaign("parts.csv")
        self.assertEqual(sorted(map(str, again)), sorted(map(str, whole)))

    def test_rules_cover_what_they_say(self):
        net = tiered(12, 2)
        self.assertEqual(len(list(cases.subjects(net, "links"))), len(net.links))
        self.assertEqual(len(list(cases.subjects(net, "crashes"))), 11)
        self.assertEqual(len(list(cases.cases_of("it", net, "announce", 3))), 36)
        for subject, origin in cases.subjects(net, "multihomed"):
            self.assertIn(int(subject.split("-")[0]), net.providers()[origin])
            self.assertGreaterEqual(len(net.providers()[origin]), 2)

    def test_counts_of_a_case_by_hand(self):
        # 1 over 2 and 3, both over 4, which announces; 2-4 fails. Node 1 goes by 2 and has the path by 3 as well
        text = "node 1 consolidator\nnode 2\nnode 3\nnode 4\nlink 1 2 customer\nlink 1 3 customer\nlink 2 4 customer\nlink 3 4 customer\nprefix 10.0.0.0/8\n"
        net = schedule.parse(text).network
        row = measure.measure(self.program, net, cases.Case("it", "multihomed", "2-4", 4, 1), 64)
        self.assertEqual((row["nodes"], row["links"], row["rest"], row["apart"]), (4, 4, 1, 0))
        # at first 2 has no route, nor has 1 by it; 3 always has one
        self.assertEqual((row["loop"], row["worst"], row["touched"]), (0, 2, 2))
        self.assertGreaterEqual(row["none"], 2)
        # each packet finds 3: under deflection over 1, where the packet of 2 and that of 1 come by
        self.assertEqual(row["deflect_lost"], 0)
        self.assertEqual(row["packets"], 3 * row["moments"])

    def test_crashes_and_announcements_run(self):
        for rule in ("crashes", "announce", "links"):
            case = next(cases.cases_of("it", tiered(8, 3), rule, 1))
            row = measure.measure(self.program, tiered(8, 3), case, 4)
            self.assertEqual(row["rest"], 1)
            self.assertLessEqual(row["moments"], 4)

    def test_bad_words(self):
        self.assertEqual(self.command("campaign", "tiers:99:1", "--csv", self.folder / "a.csv")[0], 2)
        self.assertEqual(self.command("campaign", "tiers:8:1", "--csv", self.write("b.csv", "other,columns\n1,2\n"))[0], 3)

    def test_two_workers_of_a_scheduler(self):
        python = next((it for it in ("python3", "/usr/bin/python3") if has_distributed(it)), None)
        if python is None:
            self.skipTest("no dask.distributed (Debian: python3-distributed)")
        words = ["tiers:8:1", "--rule", "multihomed", "--csv", str(self.folder / "dask.csv"), "--program", self.program.path]
        words = [python, "-c", TWO_WORKERS, str(TOP / "tools" / "routing"), *words]
        try:
            ran = subprocess.run(words, cwd=str(self.folder), stdin=subprocess.DEVNULL, stdout=subprocess.PIPE, stderr=subprocess.PIPE, timeout=180, check=False)
        except subprocess.TimeoutExpired:
            self.skipTest("dask.distributed did not end in time")
        said = ran.stderr.decode(errors="replace")
        if ran.returncode == 77 or "Timeout" in said or "no scheduler" in said or "TimeoutError" in said:
            self.skipTest("dask.distributed does not start its workers here")
        self.assertEqual(ran.returncode, 0, said)
        self.assertEqual(sorted(map(str, self.rows("dask.csv"))), sorted(map(str, self.campaign("here.csv"))))


def has_distributed(python):
    try:
        return subprocess.run([python, "-c", "import distributed"], stdout=subprocess.DEVNULL, stderr=subprocess.DEVNULL, check=False).returncode == 0
    except OSError:
        return False


# two workers of one scheduler, at a port that is free, and a campaign over them
TWO_WORKERS = """
import subprocess, sys
try:
    from distributed import LocalCluster
    cluster = LocalCluster(n_workers=2, threads_per_worker=1, processes=False, protocol="tcp://", host="127.0.0.1", dashboard_address=None)
except Exception:
    sys.exit(77)
with cluster:
    code = subprocess.run([sys.executable, sys.argv[1], "campaign", *sys.argv[2:], "--scheduler", cluster.scheduler_address]).returncode
sys.exit(code)
"""


if __name__ == "__main__":
    unittest.main()
