"""The program: where it is, and a run of it."""
import os
import shutil
import subprocess
from dataclasses import dataclass
from pathlib import Path

from .trouble import MISSING, Trouble

TOP = Path(__file__).resolve().parent.parent.parent
DONE, LIMIT = 0, 5


@dataclass(frozen=True)
class Run:
    """What a run wrote, its status, and the line that says why it ended."""

    text: str
    code: int
    note: str

    def lines(self):
        return self.text.splitlines()


@dataclass(frozen=True)
class Program:
    path: str

    def replay(self, schedule):
        """The run of a schedule: a text, or a list of lines. A limit ends it early; a schedule that is refused is trouble."""
        text = schedule if isinstance(schedule, str) else "\n".join(schedule) + "\n"
        try:
            ran = subprocess.run([self.path, "replay"], input=text.encode(), stdout=subprocess.PIPE, stderr=subprocess.PIPE, check=False)
        except OSError as cause:
            raise Trouble(f"cannot run {self.path}: {cause}", MISSING) from None
        note = ran.stderr.decode(errors="replace").strip()
        if ran.returncode not in (DONE, LIMIT):
            raise Trouble(f"{self.path} replay ended with {ran.returncode}: {note}")
        return Run(ran.stdout.decode(), ran.returncode, note)


def find(named=None):
    """The program that is named by a word or by CONSENSUS_ROUTING, else that of this repository, which is built where it is not."""
    named = named or os.environ.get("CONSENSUS_ROUTING")
    if named:
        found = shutil.which(named)
        if not found:
            raise Trouble(f"no program {named}", MISSING)
        return Program(str(Path(found).absolute()))
    command = TOP / "consensus_routing"
    try:
        # an empty schedule: builds the program where that is to be done, and says so
        made = subprocess.run([str(command), "replay"], stdin=subprocess.DEVNULL, stdout=subprocess.DEVNULL, check=False)
    except OSError as cause:
        raise Trouble(f"cannot run {command}: {cause}", MISSING) from None
    if made.returncode != 0:
        raise Trouble(f"{command} is not built; --program PATH or CONSENSUS_ROUTING=PATH names another one", MISSING)
    for kind in ("proved", "unproved"):
        if is_newest(TOP / "out" / kind / "consensus_routing"):
            return Program(str(TOP / "out" / kind / "consensus_routing"))
    return Program(str(command))


def is_newest(program):
    """Whether no source is newer, as the command asks it too."""
    if not program.is_file():
        return False
    made = program.stat().st_mtime_ns
    roots = [TOP / "crates.txt", TOP / "HANDLES"]
    roots += [folder for part in ("src", "specs", "proofs") for folder in (TOP / "crates").glob(f"*/{part}")]
    return not any(path.stat().st_mtime_ns > made for root in roots for path in _below(root))


def _below(root):
    yield root
    if root.is_dir():
        yield from root.rglob("*")


def add_argument(parser):
    parser.add_argument("--program", metavar="PATH", help="the program to run (default: CONSENSUS_ROUTING, else ./consensus_routing of this repository)")
