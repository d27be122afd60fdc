"""Tells which route, table, walk or message differs between two runs.

    routing diff before.text after.text
    routing diff one.schedule other.schedule

Each file is the text of a run, or a schedule, which is run then. What is compared is not lines but what they are about: the
route of a node to a prefix each time it was shown, a table, a walk, an entry of a log by its place, also where one run has dropped
the entries before it. The status is 1 where anything differs."""
from .program import add_argument
from .source import lines_of
from .text import records
from .trouble import FOUND

NAME = "diff"
HIDDEN = {"kind", "shown"}


def add_arguments(parser):
    parser.add_argument("one", help="the text of a run or a schedule")
    parser.add_argument("other", help="the same")
    add_argument(parser)


def run(words):
    one, other = (by_subject(lines_of(path, words.program)) for path in (words.one, words.other))
    told = list(differences(one, other))
    print("\n".join(told) if told else "no difference")
    return FOUND if told else 0


def by_subject(lines):
    return {subject(found): value(found) for found in records(lines)}


def differences(one, other):
    for key in list(one) + [key for key in other if key not in one]:
        before, after = one.get(key, "not shown"), other.get(key, "not shown")
        if before != after:
            yield f"{key}: {before} -> {after}"


def subject(found):
    """What a record is about, in words."""
    again = f" (shown the {ordinal(found['shown'])} time)" if found["shown"] > 1 else ""
    return WORDS.get(found["kind"], lambda it: it["text"])(found) + again


def ordinal(number):
    ending = "th" if 10 <= number % 100 <= 20 else {1: "st", 2: "nd", 3: "rd"}.get(number % 10, "th")
    return f"{number}{ending}"


def nodes(path):
    return " ".join(map(str, path)) or "none"


def value(found):
    """What a record says of its subject."""
    kind = found["kind"]
    if kind in ("rib", "table"):
        return nodes(found["path"]) if found.get("published", True) else "unpublished"
    if kind == "probe":
        return f"{nodes(found['path'])} {found['state']}"
    if kind == "walk":
        return " ".join([*(f"{node}@{mode}" for node, mode in found["visits"]), found["state"]])
    if kind == "other":
        return "shown"
    keys = [name for name in found if name not in HIDDEN and name not in SHOWN_BY.get(kind, ())]
    return ", ".join(f"{name} {' '.join(map(str, found[name])) or '-'}" if isinstance(found[name], list) else f"{name} {found[name]}" for name in keys)


SHOWN_BY = {
    "idle": ("line",), "log": ("node", "place"), "cut": ("node", "epoch"), "recorded": ("node", "epoch", "neighbour", "session"),
    "closure": ("epoch",), "ctl": ("number",),
}
WORDS = {
    "idle": lambda it: f"line {it['line']}, which did nothing",
    "rib": lambda it: f"route of {it['node']} to {it['prefix']}",
    "log": lambda it: f"entry {it['place']} of the log of {it['node']}",
    "cut": lambda it: f"cut of {it['node']} for epoch {it['epoch']}",
    "recorded": lambda it: f"recording of {it['node']} for epoch {it['epoch']}, session {it['session']} with {it['neighbour']}",
    "closure": lambda it: f"value of epoch {it['epoch']}",
    "ctl": lambda it: f"control message {it['number']}",
    "table": lambda it: f"table of {it['node']} for epoch {it['epoch']}" + (f" to {it['prefix']}" if "prefix" in it else ""),
    "probe": lambda it: f"probe from {it['node']} to {it['prefix']}",
    "walk": lambda it: f"walk of packet {it['packet']}",
}
