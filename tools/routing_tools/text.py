"""The text of a run as records: one for each line, with the kind of the line and its fields."""
import re

PATTERNS = [
    ("idle", r"(?P<line>\d+): idle (?P<reason>.+)"),
    ("rib", r"rib (?P<node>\d+) (?P<prefix>\S+): (?P<path>.+)"),
    ("log", r"log (?P<node>\d+) (?P<place>\d+): (?P<triggers>\S+) (?P<scope>\S+) (?P<cause>\w+)(?P<told>[^>]*?)(?P<sent>( > \S+)*)"),
    ("cut", r"cut (?P<node>\d+) (?P<epoch>\d+): (?P<length>\d+|none)"),
    ("recorded", r"recorded (?P<node>\d+) (?P<epoch>\d+) (?P<neighbour>\d+)/(?P<session>\d+): (?P<numbers>.+) (?P<state>done|waiting)"),
    ("closure", r"closure (?P<epoch>\d+): S=(?P<responding>\S+) I=(?P<incomplete>\S+)"),
    ("ctl", r"ctl (?P<number>\d+): (?P<sender>\d+)>(?P<to>\d+) (?P<message>\w+) (?P<epoch>\d+)(?P<told>.*) x(?P<times>\d+)"),
    ("table", r"table (?P<node>\d+) (?P<epoch>\d+) (?P<prefix>\S+): (?P<path>.+)"),
    ("table", r"table (?P<node>\d+) (?P<epoch>\d+): (?P<path>unpublished)"),
    ("walk", r"walk (?P<packet>\d+): (?:(?P<visits>.+) )?(?P<state>moving|delivered|expired|stuck|unknown)"),
    ("probe", r"probe (?P<node>\d+) (?P<prefix>\S+): (?P<visits>[\d ]+) (?P<state>\w+)"),
]
BY_WORD = {}
for _kind, _pattern in PATTERNS:
    BY_WORD.setdefault(_kind, []).append((_kind, re.compile(_pattern + "$")))
NUMBERS = {"line", "node", "place", "epoch", "length", "neighbour", "session", "number", "sender", "to", "times", "packet"}
KEYS = {
    "idle": ("line",), "rib": ("node", "prefix"), "log": ("node", "place"), "cut": ("node", "epoch"),
    "recorded": ("node", "epoch", "neighbour", "session"), "closure": ("epoch",), "ctl": ("number",),
    "table": ("node", "epoch", "prefix"), "walk": ("packet",), "probe": ("node", "prefix"), "other": ("text",),
}


def record(line):
    """The record of one line. Of a line that is not known the kind is `other`, and the text is as it stands."""
    word = line.partition(" ")[0]
    for kind, pattern in BY_WORD.get("idle" if word[:-1].isdigit() else word, ()):
        match = pattern.match(line)
        if match:
            found = {"kind": kind}
            for name, value in match.groupdict().items():
                if value is not None:
                    found[name] = int(value) if name in NUMBERS and value.isdigit() else value
            return READERS.get(kind, lambda it: it)(found)
    return {"kind": "other", "text": line}


def records(lines):
    """The records of a text, each with how often its subject has been shown so far."""
    seen = {}
    for line in lines:
        found = record(line)
        key = key_of(found)
        seen[key] = found["shown"] = seen.get(key, 0) + 1
        yield found


def key_of(found):
    """What a record is about: its kind, and the fields that name the node, the prefix and so on."""
    return (found["kind"],) + tuple(found.get(name) for name in KEYS[found["kind"]])


def path_of(words):
    return [] if words in ("none", "unpublished") else [int(node) for node in re.split("[ -]", words)]


def listed(words):
    return [] if words == "-" else re.split("[, ]", words)


def _rib(found):
    found["path"] = path_of(found["path"])
    return found


def _table(found):
    found["published"] = found["path"] != "unpublished"
    found["path"] = path_of(found["path"])
    return found


def _log(found):
    told, cause = found.pop("told").split(), found["cause"]
    if cause in ("recv", "down", "up", "ready"):
        parts = [int(part) for part in told[0].split("/")]
        found["neighbour"], found["session"] = parts[:2]
        if cause == "recv":
            found["seq"] = parts[2]
            found["path"] = path_of(told[1])
    elif cause == "prefer":
        found["neighbour"], found["value"] = int(told[0]), int(told[1])
    elif cause == "flush":
        found["neighbour"] = int(told[0])
    found["triggers"] = listed(found["triggers"])
    found["sent"] = [item for item in found["sent"].split(" > ") if item]
    return found


def _recorded(found):
    found["numbers"] = [int(number) for number in listed(found["numbers"])]
    return found


def _closure(found):
    found["responding"] = [int(node) for node in listed(found["responding"])]
    found["incomplete"] = listed(found["incomplete"])
    return found


def _ctl(found):
    words = found.pop("told").split()
    if found["message"] not in ("report", "decision"):
        found["ballot"] = words.pop(0)
    if found["message"] == "promise" and words:
        found["accepted"] = words.pop(0)
    if words:
        found["value"] = " ".join(words)
    return found


def _walk(found):
    visits = found.get("visits", "").split()
    found["visits"] = [[int(visit.split("@")[0]), visit.split("@")[1]] for visit in visits]
    return found


def _probe(found):
    found["path"] = path_of(found.pop("visits"))
    return found


READERS = {"probe": _probe, "rib": _rib, "table": _table, "log": _log, "recorded": _recorded, "closure": _closure, "ctl": _ctl, "walk": _walk}
