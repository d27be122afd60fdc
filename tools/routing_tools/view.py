"""Writes a schedule and its run as one HTML page, or one moment of it as a picture.

    routing view examples/detour.schedule -o detour.html
    routing view examples/detour.schedule --svg detour.svg --line 30 --packet 1

The page opens without a network. It has a slider over the lines of the schedule; at each line it shows links that are down,
crashed nodes, routes or tables, what is on its way, epochs and cuts, and the walk of a packet step by step. All of it is read
from the program's own text: `show` lines are added behind each line of the schedule. With --each-delivery a `drain` is shown
one delivery after the other.

A page remembers what is chosen in its address: detour.html#line=30&packet=1&hop=4 opens there."""
import json
import shutil
import subprocess
import sys
import tempfile
from dataclasses import dataclass
from pathlib import Path
from typing import Optional

from . import browser, picture, program, schedule
from .layout import layout
from .schedule import Line, Schedule
from .inflight import deliveries, front
from .state import MOST_EPOCHS, ROUTING, change, states
from .text import record
from .trouble import MISSING, Trouble

NAME = "view"
MOST_DELIVERIES = 300
MOST_TEXT = 5_000_000  # lines, which take a minute or two
TEMPLATE = Path(__file__).with_name("page.html")


def add_arguments(parser):
    parser.add_argument("file", help="a schedule; - is standard input")
    parser.add_argument("-o", "--output", metavar="FILE", help="write the page there (default: standard output)")
    parser.add_argument("--svg", metavar="FILE", help="write a picture of one moment, and no page unless -o is there")
    parser.add_argument("--png", metavar="FILE", help="the same as PNG, by rsvg-convert or Chromium, whichever is there")
    parser.add_argument("--line", type=int, metavar="L", help="the moment: behind line L (default: the last line)")
    parser.add_argument("--prefix", metavar="P", help="the routes to P (default: the first prefix)")
    parser.add_argument("--epoch", type=int, metavar="E", help="the tables of epoch E in place of live routes")
    parser.add_argument("--packet", type=int, metavar="K", help="the walk of packet K (default: the last one that was injected)")
    parser.add_argument("--from", dest="first", type=int, metavar="L", help="look at the lines from L on, in place of all")
    parser.add_argument("--each-delivery", action="store_true", help=f"show each delivery of a drain, up to {MOST_DELIVERIES} of one line")
    program.add_argument(parser)


@dataclass
class Chosen:
    """What a picture shows."""

    prefix: str
    epoch: Optional[int]
    packet: Optional[int]

    def route_key(self, node):
        return f"t {self.epoch} {node} {self.prefix}" if self.epoch else f"r {node} {self.prefix}"


@dataclass
class Seen:
    """A schedule, the words of its states, and where its nodes stand."""

    schedule: Schedule
    states: list
    steps: list
    note: str
    layout: object
    first: int  # so many lines behind `begin` are passed over


def run(words):
    seen = look(words)
    if words.svg or words.png:
        text = drawn(seen, words)
        if words.svg:
            write(words.svg, text)
        if words.png:
            to_png(text, words.png)
    if words.output or not (words.svg or words.png):
        write(words.output or "-", page(seen))
    return 0


def look(words):
    read, found = schedule.read(words.file), program.find(words.program)
    if not read.network.nodes:
        raise Trouble(f"{words.file} declares no node")
    is_moment = (words.svg or words.png) and not words.output
    if is_moment and words.line is not None:
        read.lines = read.lines[: read.place(words.line)]
    if words.each_delivery:
        read = expanded(found, read)
    first = len(read.lines) if is_moment else read.place(words.first - 1) if words.first else 0
    told = states_of(found, read, first)
    if told[2].note:
        print(f"routing view: {words.file}: {told[2].note}; shown up to the line before", file=sys.stderr)
    return Seen(read, told[0], told[1], told[2].note, layout(read.network), first)


def states_of(found, read, first):
    """The states, where they are not too many to be read."""
    logs = entries(found, read)
    routing = sum(line.first() in ROUTING for line in read.lines[first:])
    lines = routing * (len(read.network.nodes) * len(read.network.prefixes) + logs // 2)
    if lines > MOST_TEXT:
        size = f"a page of this schedule is made of some {lines // 1000000} million lines of text"
        raise Trouble(f"{size}; --from L looks at the lines from L on, --svg and --png at one moment")
    return states(found, read, first)


def entries(found, read):
    """How many entries all logs have had. A log that keeps none has had as many as the longest cut of its node has."""
    epochs = min(MOST_EPOCHS, sum(line.first() == "snap" for line in read.lines))
    shown = ["show log"] + [f"show cut {epoch}" for epoch in range(1, epochs + 1)]
    last = {}
    for told in map(record, found.replay(read.front(len(read.lines)) + (shown if read.lines else [])).lines()):
        count = told.get("place") if told["kind"] == "log" else told.get("length") if told["kind"] == "cut" else None
        if isinstance(count, int):
            last[told["node"]] = max(count, last.get(told["node"], 0))
    return sum(last.values())


def write(path, text):
    if path == "-":
        sys.stdout.write(text)
        return
    try:
        Path(path).write_text(text, encoding="utf-8")
    except OSError as cause:
        raise Trouble(f"cannot write {path}: {cause}") from None


# Each delivery by itself


def expanded(found, read):
    """The schedule with single deliveries in the place of each drain, as many as it makes."""
    lines = []
    for place, line in enumerate(read.lines):
        count = int(line.words[1]) if line.first() == "drain" and len(line.words) == 2 and line.words[1].isdigit() else 0
        if not count:
            lines.append(line)
            continue
        made = deliveries(found, read.network, front(read, place), min(count, MOST_DELIVERIES))
        # a drain that makes none, or that a limit stops, stays a line
        lines += [Line(line.number, ["drain", "1"]) for _ in range(max(1, made))]
        if count > MOST_DELIVERIES == made:
            lines.append(Line(line.number, ["drain", str(count - MOST_DELIVERIES)]))
    return Schedule(read.name, read.network, lines, read.head)


# The page


def page(seen):
    """One HTML page with all states of a run."""
    net, lay = seen.schedule.network, seen.layout
    data = {
        "nodes": net.nodes,
        "prefixes": net.prefixes,
        "curves": {f"{link.a} {link.b}": [[round(x, 1), round(y, 1)] for x, y in lay.curve(link.a, link.b)] for link in net.links},
        "start": seen.states[min(seen.first, len(seen.steps))],
        "behind": f"behind line {seen.steps[seen.first - 1].line.number}" if 0 < seen.first <= len(seen.steps) else "at the start",
        "lines": [line_of(place, seen) for place in range(seen.first, len(seen.steps))],
        "note": seen.note,
    }
    network = "\n".join(picture.base(net, lay)) + '<g id="over"></g>' + "\n".join(picture.nodes(net, lay))
    # a closing tag inside of the data would end the script
    told = json.dumps(data, separators=(",", ":")).replace("</", "<\\/")
    text = TEMPLATE.read_text(encoding="utf-8")
    filled = {
        "TITLE": picture.escape(Path(seen.schedule.name).name), "WIDTH": f"{lay.width:.0f}", "HEIGHT": f"{lay.height:.0f}",
        "NETWORK": network, "DATA": told,
        "COLOURS": json.dumps({name.lower(): getattr(picture, name) for name in ("ROUTE", "TABLE", "STABLE", "TRANSIENT", "FLIGHT", "DOWN")}),
    }
    for name, value in filled.items():
        text = text.replace("{{" + name + "}}", value)
    return text


def line_of(place, seen):
    step = seen.steps[place]
    put, gone = change(seen.states[place], seen.states[place + 1])
    found = {"n": step.line.number, "t": step.line.text(), "put": put}
    if gone:
        found["gone"] = gone
    if step.said:
        found["said"] = step.said
    return found


# One moment


def drawn(seen, words):
    net = seen.schedule.network
    place = len(seen.steps)
    if words.line is not None:
        place = sum(step.line.number <= words.line for step in seen.steps)
    packets = [step.line.words[1] for step in seen.steps[:place] if step.line.first() == "inject"]
    prefix = words.prefix or (net.prefixes[0] if net.prefixes else "")
    if words.prefix and words.prefix not in net.prefixes:
        raise Trouble(f"{words.file} declares no prefix {words.prefix}")
    packet = words.packet if words.packet is not None else int(packets[-1]) if packets else None
    chosen = Chosen(prefix, words.epoch, packet)
    where = f"behind line {seen.steps[place - 1].line.number}: {seen.steps[place - 1].line.text()}" if place else "at the start"
    return "\n".join(picture.svg(net, seen.layout, seen.states[place], chosen, f"{Path(seen.schedule.name).name}, {where}")) + "\n"


def to_png(text, path):
    width, height = text.split('viewBox="0 0 ', 1)[1].split('"', 1)[0].split()
    with tempfile.TemporaryDirectory() as folder:
        source, made = Path(folder) / "picture.svg", Path(folder) / "picture.png"
        source.write_text(text, encoding="utf-8")
        if shutil.which("rsvg-convert"):
            subprocess.run(["rsvg-convert", "-o", str(made), str(source)], stdin=subprocess.DEVNULL, check=False)
        elif browser.find():
            browser.picture(source, folder, f"{width},{height}", made)
        else:
            raise Trouble("--png needs rsvg-convert or Chromium (Debian: librsvg2-bin, chromium); --svg needs neither", MISSING)
        if not made.is_file():
            raise Trouble("rsvg-convert or Chromium made no picture; --svg needs neither", MISSING)
        shutil.copyfile(str(made), path)
