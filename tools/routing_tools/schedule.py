"""Schedules: their lines, and the network that they declare. A line that this tool does not know is passed over with a message."""
import sys
from dataclasses import dataclass, field
from pathlib import Path
from typing import List

from .network import CONVERSE, Link, Network
from .trouble import Trouble

HEAD = {"node", "link", "pref", "hold", "prefix", "hops", "transient"}
WORDS_OF_EVENT = {
    "originate": 3, "withdraw": 3, "prefer": 4, "deliver": 3, "fail": 3, "restore": 3, "notice": 3, "open": 3,
    "flush": 3, "snap": 2, "crash": 2, "restart": 2, "propose": 3, "inject": 4,
}
CONTROL, PACKETS, QUIET = {"propose", "ctl"}, {"inject", "hop"}, {"show", "probe", "crash"}
KNOWN = HEAD | set(WORDS_OF_EVENT) | {"begin", "ctl", "hop", "drain", "show", "probe"}


@dataclass(frozen=True)
class Line:
    """A line with words: its number in the file, from 1, and its words without the comment."""

    number: int
    words: List[str]

    def text(self):
        return " ".join(self.words)

    def first(self):
        return self.words[0]

    def may_enter(self):
        """Whether the line may make entries of logs. One that is not known may."""
        return self.first() not in CONTROL | PACKETS | QUIET

    def repeats(self):
        """Whether the line stands for a number of events, of which none says that it did nothing."""
        return self.first() == "drain" or (self.first() in ("ctl", "hop") and len(self.words) == 3)


@dataclass
class Schedule:
    """The network, and the lines behind `begin`."""

    name: str
    network: Network = field(default_factory=Network)
    lines: List[Line] = field(default_factory=list)
    head: List[Line] = field(default_factory=list)

    def text(self):
        """The schedule, each line at its number, without comments."""
        return text_of(self.head + self.lines)

    def front(self, count):
        """The network, `begin` and the first lines behind it."""
        return [line.text() for line in self.head] + [line.text() for line in self.lines[:count]]

    def part(self, count, *more):
        """The schedule up to so many lines behind `begin`, and lines behind them."""
        return Schedule(self.name, self.network, self.lines[:count] + list(more), self.head)

    def place(self, number):
        """How many lines behind `begin` stand up to the line with this number."""
        return sum(line.number <= number for line in self.lines)


def text_of(lines):
    """The lines with words, each at its number."""
    text, at = [], 0
    for line in lines:
        text += [""] * (line.number - at - 1) + [line.text()]
        at = line.number
    return "\n".join(text) + "\n"


def read(path):
    """The schedule in a file, or on standard input for `-`."""
    try:
        text = sys.stdin.read() if path == "-" else Path(path).read_text(encoding="utf-8")
    except (OSError, UnicodeDecodeError) as cause:
        raise Trouble(f"cannot read the schedule {path}: {cause}") from None
    return parse(text, str(path))


def parse(text, name="schedule", said=sys.stderr):
    schedule, begun, unknown = Schedule(name), False, []
    for number, raw in enumerate(text.split("\n"), 1):
        words = raw.split("#", 1)[0].split()
        if not words:
            continue
        line = Line(number, words)
        if words[0] not in KNOWN:
            unknown.append(line)
        (schedule.lines if begun else schedule.head).append(line)
        begun = begun or words == ["begin"]
        if not begun and words[0] in HEAD:
            _declare(schedule.network, line, name)
    if unknown and said is not None:
        kinds = ", ".join(sorted({line.first() for line in unknown}))
        print(f"routing: {name}: lines that this tool does not know are left to the program: {kinds}", file=said)
    return schedule


def _declare(net, line, name):
    """Adds to a network what a line of the first part declares."""
    words = line.words
    try:
        if words[0] == "node":
            net.nodes.append(int(words[1]))
            net.consolidators += [int(words[1])] if words[2:] == ["consolidator"] else []
        elif words[0] == "link":
            if words[3] not in CONVERSE:
                raise ValueError(f"no relation {words[3]}")
            net.links.append(Link(int(words[1]), int(words[2]), words[3]))
        elif words[0] == "pref":
            net.prefs[int(words[1]), int(words[2])] = int(words[3])
        elif words[0] == "hold":
            net.holds.add((int(words[1]), int(words[2])))
        elif words[0] == "prefix":
            net.prefixes.append(words[1])
        elif words[0] == "hops":
            net.hops = int(words[1])
        else:
            net.transient = " ".join(words[1:])
    except (IndexError, ValueError) as cause:
        raise Trouble(f"{name}: line {line.number}: {line.text()}: {cause}") from None
