"""Writes the text of a run as JSON lines or CSV.

    ./consensus_routing replay < FILE | routing text -
    routing text FILE --csv > run.csv

FILE is the text of a run, or a schedule, which is run then. Each line becomes one record with the kind of the line (rib, log,
cut, recorded, closure, ctl, table, walk, idle) and its fields; `shown` counts how often the same thing was shown so far. A
line that is not known is a record of the kind `other`, and a message says so. In CSV, lists are joined by spaces."""
import csv
import json
import sys

from .program import add_argument
from .source import lines_of
from .text import records

NAME = "text"
COLUMNS = [
    "kind", "shown", "line", "reason", "node", "place", "epoch", "prefix", "path", "published", "triggers", "scope", "cause", "neighbour",
    "session", "seq", "value", "sent", "length", "numbers", "state", "responding", "incomplete", "number", "sender", "to", "message", "ballot",
    "accepted", "times", "packet", "visits", "text",
]


def add_arguments(parser):
    parser.add_argument("file", help="the text of a run or a schedule; - is standard input")
    parser.add_argument("--csv", action="store_true", help="CSV with one column for each field, in place of JSON lines")
    parser.add_argument("--kind", action="append", help="only lines of this kind, as rib; may be given more than once")
    add_argument(parser)


def run(words):
    writer = csv.DictWriter(sys.stdout, COLUMNS, lineterminator="\n") if words.csv else None
    if writer:
        writer.writeheader()
    unknown = 0
    for found in records(lines_of(words.file, words.program)):
        unknown += found["kind"] == "other"
        if words.kind and found["kind"] not in words.kind:
            continue
        if writer:
            writer.writerow({name: flat(value) for name, value in found.items()})
        else:
            print(json.dumps(found))
    if unknown:
        print(f"routing text: {unknown} lines of no known kind, written as kind other", file=sys.stderr)
    return 0


def flat(value):
    if isinstance(value, list):
        return " ".join("@".join(map(str, it)) if isinstance(it, list) else str(it) for it in value)
    return value
