"""A run that is looked at behind each line: `show` lines are added, and what they write is told from what the schedule writes."""
from dataclasses import dataclass
from typing import List

from .schedule import Line
from .text import record

HIGHEST_PACKET = 4294967295


@dataclass
class Step:
    """A line of the schedule, what it wrote itself, and what the added lines wrote behind it."""

    line: Line
    said: List[str]
    shown: List[dict]


def watch(program, schedule, shows):
    """The steps of a run, and the run. `shows` tells for each line which `show` lines come behind it.

    A limit ends the list of steps with the last line that was done whole.
    """
    mark = f"show walk {_unused(schedule)}"
    lines, numbers = [line.text() for line in schedule.head], {}
    if lines[-1:] != ["begin"]:
        lines.append("begin")
    for line in schedule.lines:
        lines.append(line.text())
        numbers[len(lines)] = line.number
        lines += [mark, *shows(line), mark]
    run = program.replay(lines)
    parts = _parts(run.lines(), mark[len("show "):] + ": unknown")
    steps, known = [], {}
    for place, line in enumerate(schedule.lines):
        if 2 * place + 2 >= len(parts):
            break
        said = [_renumbered(it, numbers) for it in parts[2 * place]]
        # most lines are written again and again: each is read once
        shown = [known[it] if it in known else known.setdefault(it, record(it)) for it in parts[2 * place + 1]]
        steps.append(Step(line, said, shown))
    return steps, run


def _unused(schedule):
    """The highest number that no packet of the schedule has."""
    used = {line.words[1] for line in schedule.lines if line.first() in ("inject", "hop") and len(line.words) > 1}
    number = HIGHEST_PACKET
    while str(number) in used:
        number -= 1
    return number


def _parts(lines, mark):
    parts = [[]]
    for line in lines:
        if line == mark:
            parts.append([])
        else:
            parts[-1].append(line)
    return parts


def _renumbered(line, numbers):
    """A line that says that nothing was done has the number that its line has in the schedule."""
    head, found, rest = line.partition(": idle ")
    return f"{numbers[int(head)]}{found}{rest}" if found and int(head) in numbers else line
