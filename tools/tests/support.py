"""What the tests share: the program, the examples, a run of a command."""
import atexit
import contextlib
import functools
import io
import os
import shutil
import subprocess
import tempfile
import unittest
from pathlib import Path

from routing_tools import program
from routing_tools.main import main

TOP = Path(__file__).resolve().parent.parent.parent
EXAMPLES = TOP / "examples"
BUILD_SECONDS = 1800


@functools.lru_cache(None)
def built():
    """The path of the program, or why there is none."""
    named = os.environ.get("CONSENSUS_ROUTING")
    if named:
        return (named, None) if shutil.which(named) else (None, f"CONSENSUS_ROUTING={named} is no program")
    for kind in ("proved", "unproved"):
        path = TOP / "out" / kind / "consensus_routing"
        if program.is_newest(path):
            return str(path), None
    if not shutil.which("rt"):
        return None, "no program: no kit (rt) to build it"
    return built_anew()


def built_anew():
    folder = tempfile.mkdtemp()
    atexit.register(shutil.rmtree, folder, True)
    path = Path(folder) / "consensus_routing"
    try:
        words = [str(TOP / "tools" / "near.py"), str(path)]
        streams = {"stdin": subprocess.DEVNULL, "stdout": subprocess.PIPE, "stderr": subprocess.STDOUT}
        made = subprocess.run(words, timeout=BUILD_SECONDS, check=False, **streams)
    except (OSError, subprocess.TimeoutExpired) as cause:
        return None, f"no program: tools/near.py: {type(cause).__name__}"
    if made.returncode or not path.is_file():
        return None, f"no program: tools/near.py ended with {made.returncode}: {made.stdout.decode(errors='replace').strip()[-200:]}"
    return str(path), None


class Scratch(unittest.TestCase):
    """A test with a folder of its own."""

    def setUp(self):
        folder = tempfile.TemporaryDirectory()
        self.addCleanup(folder.cleanup)
        self.folder = Path(folder.name)

    def write(self, name, text):
        path = self.folder / name
        path.write_text(text, encoding="utf-8")
        return str(path)


class WithProgram(Scratch):
    """A test that needs the program."""

    def setUp(self):
        super().setUp()
        path, cause = built()
        if path is None:
            self.skipTest(cause)
        self.program = program.find(path)

    def command(self, *words):
        return command(*words, "--program", self.program.path)


def command(*words):
    """The status, the output and the messages of `tools/routing` with these words."""
    out, said = io.StringIO(), io.StringIO()
    with contextlib.redirect_stdout(out), contextlib.redirect_stderr(said):
        try:
            code = main([str(word) for word in words])
        except SystemExit as end:
            code = end.code
    return code, out.getvalue(), said.getvalue()


def examples():
    return sorted(EXAMPLES.glob("*.schedule"))
