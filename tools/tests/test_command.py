"""The command script, with a kit and sources that are made up: which program it builds, keeps and runs."""
import os
import shutil
import subprocess
import unittest

from support import TOP, Scratch

BUILT = """#!/bin/sh
echo "{kind} $*"
"""
NEAR = """#!/bin/sh
echo near >> "$CALLS"
[ -z "$NEAR_FAILS" ] || exit 1
[ -z "$NEAR_SLEEPS" ] || sleep "$NEAR_SLEEPS"
printf '#!/bin/sh\\necho "unproved $*"\\n[ "$1" != strange ] || { echo "usage: .." >&2; exit 2; }\\n' > "$1"
chmod +x "$1"
"""
RT = """#!/bin/sh
echo "rt $1" >> "$CALLS"
[ -z "$RT_FAILS" ] || { echo 'error: not proved' ; exit 1; }
case $1 in
    run) mkdir -p out; printf '#!/bin/sh\\necho "proved $*"\\n' > out/consensus_routing; chmod +x out/consensus_routing;;
    try) shift 2; echo "tried $*";;
esac
"""
OLD, NEW = 1_000_000_000, 4_000_000_000


class Command(Scratch):
    """Times of files are set by hand: sources are old, and become newer than any build."""

    def setUp(self):
        super().setUp()
        self.top = self.folder / "checkout"
        source = self.top / "crates" / "consensus_routing" / "src"
        source.mkdir(parents=True)
        (source / "main.rt").write_text("fn main\n")
        for name in ("crates.txt", "HANDLES"):
            (self.top / name).write_text("\n")
        shutil.copy(str(TOP / "consensus_routing"), str(self.top))
        self.tool("checkout/tools/near.py", NEAR)
        self.tool("bin/rt", RT)
        self.calls = self.folder / "calls"
        self.age(OLD)
        try:
            self.command("replay")
        except OSError:
            self.skipTest("scripts do not run in the folder for temporary files")
        shutil.rmtree(str(self.top / "out"))
        self.calls.write_text("")

    def tool(self, name, text):
        path = self.folder / name
        path.parent.mkdir(parents=True, exist_ok=True)
        path.write_text(text)
        path.chmod(0o755)

    def age(self, when):
        for folder, _, files in os.walk(str(self.top)):
            if "/out" not in folder:
                for name in [folder, *(os.path.join(folder, it) for it in files)]:
                    os.utime(name, (when, when))

    def command(self, *words, **more):
        kept = {key: value for key, value in os.environ.items() if key not in ("PROVED", "WHICH", "NEAR_FAILS", "RT_FAILS")}
        env = {**kept, "PATH": f"{self.folder / 'bin'}:{os.environ.get('PATH', '')}", "CALLS": str(self.calls), **more}
        streams = {"stdin": subprocess.DEVNULL, "stdout": subprocess.PIPE, "stderr": subprocess.PIPE}
        return subprocess.run([str(self.top / "consensus_routing"), *words], env=env, universal_newlines=True, check=False, **streams)

    def made(self):
        """What was built so far, in order."""
        return self.calls.read_text().split("\n")[:-1] if self.calls.exists() else []

    def test_the_first_call_builds_without_proofs_and_says_so_in_a_line(self):
        ran = self.command("replay")
        self.assertEqual((ran.returncode, ran.stdout), (0, "unproved replay\n"))
        self.assertEqual(len(ran.stderr.splitlines()), 1)
        self.assertIn("without proofs", ran.stderr)
        again = self.command("load", "5")
        self.assertEqual((again.stdout, again.stderr), ("unproved load 5\n", ""))
        self.assertEqual(self.made(), ["near"])

    def test_it_says_which_it_runs_where_asked(self):
        self.command("replay")
        self.assertIn("unproved program", self.command("replay", WHICH="1").stderr)
        self.command("replay", PROVED="1")
        told = self.command("replay", WHICH="1").stderr
        self.assertIn("proved program", told)
        self.assertNotIn("unproved", told)

    def test_the_proved_one_is_preferred_and_outlives_the_folder_of_the_kit(self):
        self.command("replay")
        self.assertEqual(self.command("replay", PROVED="1").stdout, "proved replay\n")
        shutil.rmtree(str(self.top / "crates" / "consensus_routing" / "out"))
        os.utime(str(self.top / "crates" / "consensus_routing"), (OLD, OLD))
        self.assertEqual(self.command("replay").stdout, "proved replay\n")
        self.assertEqual(self.made(), ["near", "rt run"])

    def test_no_old_build_is_run(self):
        self.command("replay")
        self.command("replay", PROVED="1")
        self.age(NEW)
        ran = self.command("replay")
        # sources of tomorrow are newer than any build: the kit runs them without one, and a line says so
        self.assertEqual(ran.stdout, "tried replay\n")
        self.assertIn("rt try", ran.stderr)

    def test_a_change_builds_anew(self):
        self.command("replay")
        os.utime(str(self.top / "out" / "unproved" / "consensus_routing"), (OLD - 1, OLD - 1))
        ran = self.command("replay")
        self.assertIn("without proofs", ran.stderr)
        self.assertEqual(self.made(), ["near", "near"])

    def test_where_the_build_cannot_be_made_the_kit_tries(self):
        ran = self.command("replay", NEAR_FAILS="1")
        self.assertEqual((ran.returncode, ran.stdout), (0, "tried replay\n"))
        self.assertIn("rt try", ran.stderr)
        # it is not tried again and again
        self.command("replay", NEAR_FAILS="1")
        self.assertEqual(self.made(), ["near", "rt try", "rt try"])
        self.assertEqual(self.command("node", "1", "127.0.0.1:7001").returncode, 1)

    def test_what_is_not_proved_is_not_run_as_proved(self):
        self.command("replay")
        ran = self.command("replay", PROVED="1", RT_FAILS="1")
        self.assertEqual((ran.returncode, ran.stdout), (1, ""))
        self.assertIn("error: not proved", ran.stderr)
        self.assertEqual(os.listdir(str(self.top / "out" / "proved")), ["build.log"])

    def test_all_words_go_to_the_program(self):
        self.command("replay")
        for words in ([], ["audit"], ["lead"], ["replay", "now"], ["a word", "", "*"]):
            ran = self.command(*words)
            self.assertEqual((ran.returncode, ran.stdout, ran.stderr), (0, " ".join(["unproved", *words]) + ("" if words else " ") + "\n", ""))

    def test_the_line_and_the_status_are_those_of_the_program(self):
        ran = self.command("strange")
        self.assertEqual((ran.returncode, ran.stdout, ran.stderr.splitlines()[-1]), (2, "unproved strange\n", "usage: .."))

    def test_two_calls_of_a_pipe_build_once(self):
        if not shutil.which("flock"):
            self.skipTest("no flock (Debian: util-linux)")
        path = f"{self.folder / 'bin'}:{os.environ.get('PATH', '')}"
        env = {**os.environ, "PATH": path, "CALLS": str(self.calls), "NEAR_SLEEPS": "1"}
        command = str(self.top / "consensus_routing")
        words = ["sh", "-c", f'"{command}" replay | "{command}" audit']
        ran = subprocess.run(words, env=env, stdin=subprocess.DEVNULL, stdout=subprocess.PIPE, stderr=subprocess.DEVNULL, check=False)
        self.assertEqual((ran.returncode, ran.stdout), (0, b"unproved audit\n"))
        self.assertEqual(self.made(), ["near"])


if __name__ == "__main__":
    unittest.main()
