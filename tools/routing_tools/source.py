"""A run, from the text that `replay` wrote or from the schedule itself, which is run then."""
import sys
from pathlib import Path

from . import program, schedule
from .program import LIMIT
from .trouble import Trouble


def is_schedule(text):
    """Whether the first line with words begins a line of a schedule, and not one of a run. A schedule does not begin with a probe."""
    for raw in text.split("\n"):
        words = raw.split("#", 1)[0].split()
        if words:
            return words[0] in schedule.KNOWN - {"probe"}
    return False


def lines_of(path, named):
    """The lines of the run in a file, or of the run of the schedule in it; `-` is standard input."""
    try:
        text = sys.stdin.read() if path == "-" else Path(path).read_text(encoding="utf-8")
    except (OSError, UnicodeDecodeError) as cause:
        raise Trouble(f"cannot read {path}: {cause}") from None
    if not is_schedule(text):
        return text.splitlines()
    run = program.find(named).replay(text)
    if run.code == LIMIT:
        print(f"routing: {path}: {run.note}; the text up to there is used", file=sys.stderr)
    return run.lines()
