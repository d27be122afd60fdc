"""The state of a run behind each line, as flat words: what a page shows, and what changed from line to line."""
from .flight import Links, Sent, on_way
from .logs import before_drops
from .schedule import CONTROL, PACKETS, QUIET
from .watch import watch

ROUTING = {"originate", "withdraw", "prefer", "deliver", "fail", "restore", "notice", "open", "flush", "drain", "snap", "restart"}
MOST_EPOCHS = 32


class Shows:
    """The `show` lines behind a line: those whose text it may change. Before place `first`, where all are shown, only logs that
    may be dropped next."""

    def __init__(self, schedule, first=0):
        self.first, self.place, self.taken, self.packets = first, 0, 0, []
        self.drops = before_drops(schedule.lines)

    def __call__(self, line):
        self.place += 1
        kind, known = line.first(), line.first() in ROUTING | CONTROL | PACKETS | QUIET
        if kind == "snap":
            self.taken = min(MOST_EPOCHS, self.taken + 1)
        if kind == "inject" and line.words[1] not in self.packets:
            self.packets.append(line.words[1])
        if self.place < self.first:
            return ["show log"] if self.place in self.drops else []
        whole = self.place == self.first or not known
        shown = self.routes() if whole or kind in ROUTING else []
        shown += self.values() if whole or kind in CONTROL else []
        walks = self.packets if whole else line.words[1:2] if kind in PACKETS else []
        return shown + [f"show walk {packet}" for packet in walks]

    def epochs(self):
        return range(1, self.taken + 1)

    def routes(self):
        return ["show rib", "show log"] + [f"show cut {epoch}" for epoch in self.epochs()]

    def values(self):
        return [f"show {view} {epoch}" for epoch in self.epochs() for view in ("tables", "closure")]


class State:
    """What holds behind a line. `flat` gives it as words by keys: r node prefix, t epoch node prefix, f from to, and so on."""

    def __init__(self, schedule):
        self.network = schedule.network
        self.links = Links(schedule.network)
        self.sent = {node: Sent() for node in schedule.network.nodes}
        self.cuts, self.recorded, self.crashed, self.other = {}, {}, set(), {}

    def after(self, step):
        words = step.line.words
        if not any(": idle " in it for it in step.said):
            if words[0] == "crash":
                self.crashed.add(int(words[1]))
            elif words[0] == "restart":
                self.crashed.discard(int(words[1]))
        self.links.after(step.line, step.said)
        for found in step.shown:
            self._learn(found)

    def _learn(self, found):
        kind = found["kind"]
        if kind == "log":
            self.sent[found["node"]].enter([found])
        elif kind == "cut":
            self.cuts[found["node"], found["epoch"]] = None if found["length"] == "none" else found["length"]
        elif kind == "recorded":
            self.recorded[found["node"], found["epoch"], found["neighbour"], found["session"]] = found["state"]
        elif kind == "rib":
            self.other[f"r {found['node']} {found['prefix']}"] = _words(found["path"])
        elif kind == "table" and found["published"]:
            self.other[f"t {found['epoch']} {found['node']} {found['prefix']}"] = _words(found["path"])
        elif kind == "closure":
            self.other[f"s {found['epoch']}"] = "all complete" if not found["incomplete"] else "incomplete: " + ", ".join(found["incomplete"])
        elif kind == "walk" and found["state"] != "unknown":
            self.other[f"w {found['packet']}"] = " ".join(f"{node}@{mode}" for node, mode in found["visits"]) + " " + found["state"]

    def flat(self):
        found = dict(self.other)
        found.update({f"d {a} {b}": "down" for a, b in self.links.down()})
        found.update({f"c {node}": "crashed" for node in self.crashed})
        for (node, epoch), length in self.cuts.items():
            if length is not None:
                found[f"k {node} {epoch}"] = str(length)
        for (a, b), items in on_way(self.sent, self.cuts, self.recorded, self.links.carried, self.network.ways()).items():
            found[f"f {a} {b}"] = "; ".join(items)
        return found


def _words(path):
    return " ".join(map(str, path))


def states(program, schedule, first=0):
    """The words of the state at the start and behind each line, and the steps and the run that they come of.

    Where `first` lines are passed over, the states before are as at the start.
    """
    steps, run = watch(program, schedule, Shows(schedule, first))
    state, found = State(schedule), [State(schedule).flat()]
    flat = found[0]
    for place, step in enumerate(steps, 1):
        state.after(step)
        # a line that is only looked at leaves all as it was
        if place == first or (place > first and step.line.first() != "show"):
            flat = state.flat()
        found.append(flat)
    return found, steps, run


def change(before, after):
    """What has to be set, and what has to go, to come from one state to the next."""
    put = {key: value for key, value in after.items() if before.get(key) != value}
    return put, [key for key in before if key not in after]
