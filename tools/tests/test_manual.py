"""The manual pages and the completion name all commands and options, and `man` finds nothing to warn of."""
import argparse
import os
import re
import shutil
import subprocess
import unittest

from routing_tools.main import COMMANDS, parser
from support import TOP

PAGES = [TOP / "docs" / "consensus_routing.1", TOP / "docs" / "routing.1"]
NOTES = TOP / "crates" / "routing_commands" / "src" / "notes.rt"
USAGE = re.search(r'"(usage: [^"]*)"', NOTES.read_text(encoding="utf-8")).group(1)
FORMS = [form.split()[0] for form in USAGE.partition("consensus_routing ")[2].split(" | ")]


def options():
    """The options of each command."""
    chosen = next(it for it in parser()._actions if isinstance(it, argparse._SubParsersAction))
    return {name: {word for action in below._actions for word in action.option_strings} - {"-h", "--help"} for name, below in chosen.choices.items()}


class Usage(unittest.TestCase):
    """Pages that tell the forms of the program's words tell those of its usage line."""

    def test_pages_and_cases_have_the_line(self):
        for name in ("SCHEDULES.md", "FRAMES.md"):
            page = (TOP / "docs" / name).read_text(encoding="utf-8")
            self.assertEqual({line.replace("\\|", "|") for line in re.findall(r"`(usage: [^`]*)`", page)}, {USAGE}, name)
        for path in (TOP / "crates" / "cases" / "data").rglob("*.end"):
            end = path.read_text(encoding="utf-8")
            if end.startswith("2"):
                self.assertEqual(end, f"2 {USAGE}\n", path.name)

    def test_the_manual_and_the_completion_have_the_forms(self):
        synopsis = re.findall(r"^\.B consensus_routing (\w+)$", PAGES[0].read_text(), re.M)
        self.assertEqual(synopsis, FORMS)
        self.assertIn(f'compgen -W "{" ".join(dict.fromkeys(FORMS))}"', (TOP / "tools" / "completion.bash").read_text())


class Manual(unittest.TestCase):
    def test_every_command_and_option_is_there(self):
        text = PAGES[1].read_text().replace("\\-", "-").replace("\\fR", " ")
        for name, words in options().items():
            self.assertIn(f".SS {name} ", text)
            for word in words:
                self.assertRegex(text, rf"(^|[\s\"]){re.escape(word)}\b")

    def test_man_has_no_warning(self):
        if not shutil.which("man"):
            self.skipTest("no man (Debian: man-db)")
        for page in PAGES:
            env = {**os.environ, "LC_ALL": "C.UTF-8", "MANROFFSEQ": "", "MANWIDTH": "80"}
            words = ["man", "--warnings", "-E", "UTF-8", "-l", "-Tutf8", "-Z", str(page)]
            ran = subprocess.run(words, env=env, stdin=subprocess.DEVNULL, stdout=subprocess.DEVNULL, stderr=subprocess.PIPE, check=False)
            # what man itself says of locales and caches of this machine is no matter of the page
            warnings = [line for line in ran.stderr.decode(errors="replace").splitlines() if "warning:" in line]
            self.assertEqual(warnings, [])


class Completion(unittest.TestCase):
    def test_every_command_and_option_is_there(self):
        text = (TOP / "tools" / "completion.bash").read_text()
        self.assertIn('"' + " ".join(it.NAME for it in COMMANDS) + " --help", text)
        for name, words in options().items():
            found = re.search(rf'^        {name}\) options="(.*)" ;;$', text, re.M).group(1)
            self.assertEqual(set(found.split()), words, name)

    def test_it_completes(self):
        bash = shutil.which("bash")
        if not bash:
            self.skipTest("no bash")
        script = f'. "{TOP}/tools/completion.bash"\n'
        for words, place in (("routing ca", 1), ("routing network --to d", 3)):
            script += f'COMP_WORDS=({words}); COMP_CWORD={place}; _routing; echo "${{COMPREPLY[*]}}"\n'
        ran = subprocess.run([bash, "--norc", "-c", script], stdin=subprocess.DEVNULL, stdout=subprocess.PIPE, stderr=subprocess.PIPE, check=False)
        if b"command not found" in ran.stderr:
            self.skipTest("this bash has no completion")
        self.assertEqual(ran.stdout.decode().split(), ["campaign", "dot"], ran.stderr)


if __name__ == "__main__":
    unittest.main()
