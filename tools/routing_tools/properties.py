"""What has to hold of every run, tested on its text."""
from . import selection
from .logs import Logs
from .program import LIMIT
from .text import record
from .watch import watch

DEFAULT_HOPS = 128


def shows(schedule):
    """The lines that show all that the properties speak of."""
    epochs = range(1, min(32, sum(line.first() == "snap" for line in schedule.lines)) + 1)
    packets = sorted({int(line.words[1]) for line in schedule.lines if line.first() == "inject"})
    return ["show rib", "show log", "show ctl"] + [f"show {view} {epoch}" for epoch in epochs for view in ("cut", "tables", "closure")] + [
        f"show walk {packet}" for packet in packets
    ]


class End:
    """The last state of a run, by kind. `logs` has whole logs, and `first` the place of the first entry that each node keeps."""

    def __init__(self, shown, logs):
        """What shows the state, and the logs that were watched up to it."""
        self.ribs, self.cuts, self.tables, self.walks, self.ctl = {}, {}, {}, {}, []
        self.logs, self.first = logs.whole, logs.first
        for found in shown:
            self._add(found)

    def _add(self, found):
        kind = found["kind"]
        if kind == "rib":
            self.ribs[found["node"], found["prefix"]] = found["path"]
        elif kind == "cut" and found["length"] != "none":
            self.cuts[found["node"], found["epoch"]] = found["length"]
        elif kind == "table" and found["published"]:
            self.tables[found["epoch"], found["node"], found["prefix"]] = found["path"]
        elif kind == "walk":
            self.walks[found["packet"]] = found
        elif kind == "ctl":
            self.ctl.append(found)


def failures(program, schedule):
    """What does not hold of the run of a schedule: the name of the property, a colon, and where."""
    lines = [line.text() for line in schedule.head + schedule.lines]
    lines += [] if ["begin"] in [line.words for line in schedule.head] else ["begin"]
    own = program.replay(lines)
    ran = program.replay(lines + shows(schedule))
    steps, watched = watch(program, schedule, lambda line: ["show log"])
    if LIMIT in (own.code, ran.code, watched.code):
        return
    if ran.text[: len(own.text)] != own.text:
        yield "repeat: the same lines wrote another text"
    shown, logs = [record(line) for line in ran.lines()[len(own.lines()):]], Logs(schedule.network.nodes)
    wrong = [*growth(logs, steps), *logs.see(shown)]
    yield from wrong
    if wrong:
        return
    end = End(shown, logs)
    yield from whole(program, lines, end)
    yield from drops(schedule.network, end)
    yield from selection.complaints(schedule.network, end.logs, end.ribs)
    yield from decisions(end)
    yield from tables(schedule.network, end)
    yield from walks(schedule.network, end)


def growth(logs, steps):
    """Logs behind each line: they have the entries that they had, and go on; entries are dropped by `ctl`, and made by other lines."""
    for step in steps:
        first, length = dict(logs.first), {node: len(log) for node, log in logs.whole.items()}
        for complaint in logs.see(step.shown):
            yield f"{complaint}, behind line {step.line.number}"
        is_ctl = step.line.first() == "ctl"
        for node, log in logs.whole.items():
            if not is_ctl and logs.first[node] != first[node]:
                yield f"dropped: node {node} drops entries at line {step.line.number}, which is no ctl"
            if not step.line.may_enter() and len(log) != length[node]:
                yield f"entered: node {node} enters something at line {step.line.number}"


def whole(program, lines, end):
    """The logs that were watched are those of the same run in which no control message comes: nothing is published, and so none is dropped."""
    quiet = [line for line in lines if line.split()[0] not in ("propose", "ctl", "show")]
    logs = {node: [] for node in end.logs}
    for found in map(record, program.replay(quiet + ["show log"]).lines()):
        if found["kind"] == "log":
            logs[found["node"]].append(found)
    for node, log in end.logs.items():
        if log != logs[node]:
            yield f"whole: the log of node {node} has {len(log)} entries, without control messages {len(logs[node])} or others"


def drops(net, end):
    """What a node has dropped: of each cut that it published by a value of all nodes, the first entries that the value does not name."""
    too_long = [(node, epoch, length) for (node, epoch), length in end.cuts.items() if length > len(end.logs[node])]
    for node, epoch, length in too_long:
        yield f"cut: that of node {node} for epoch {epoch} has {length} entries, its log {len(end.logs[node])}"
    if too_long:
        return
    wanted = {node: 1 for node in end.logs}
    for node, epoch in sorted({(node, epoch) for epoch, node, _ in end.tables}):
        value, length = value_of(end, epoch), end.cuts.get((node, epoch), 0)
        if value and sorted(value["responding"]) == sorted(net.nodes):
            while wanted[node] <= length and is_complete(end.logs[node][wanted[node] - 1], value):
                wanted[node] += 1
    for node, first in wanted.items():
        if end.first[node] != first:
            yield f"kept: the log of node {node} begins with {end.first[node]}, by what it published with {first}"


def is_complete(entry, value):
    """Whether the entry lists no trigger that the value names."""
    return not set(entry["triggers"]) & set(value["incomplete"])


def decisions(end):
    """One decision an epoch, and one value of all that is accepted for one ballot."""
    decided, asked = {}, {}
    for found in end.ctl:
        if found["message"] == "decision" and decided.setdefault(found["epoch"], found["value"]) != found["value"]:
            yield f"decision: two of epoch {found['epoch']}: {decided[found['epoch']]} and {found['value']}"
        if found["message"] == "accept" and asked.setdefault((found["epoch"], found["ballot"]), found["value"]) != found["value"]:
            yield f"accept: two values of epoch {found['epoch']}, ballot {found['ballot']}"


def value_of(end, epoch):
    """The decision of an epoch: who responded, and which triggers are incomplete."""
    for found in end.ctl:
        if found["message"] == "decision" and found["epoch"] == epoch:
            return record(f"closure {epoch}: {found['value']}")
    return None


def tables(net, end):
    """Published paths continue, meet no node twice, and are those of the model over the complete entries of the cut."""
    for (epoch, node, prefix), path in end.tables.items():
        where = f"table of node {node}, epoch {epoch}, to {prefix}"
        if len(set(path)) < len(path):
            yield f"loop: {where} is {path}"
        following = end.tables.get((epoch, path[1], prefix)) if len(path) > 1 else None
        if following is not None and following != path[1:]:
            yield f"continues: {where} is {path}, that of {path[1]} is {following}"
        value, length = value_of(end, epoch), end.cuts.get((node, epoch))
        if value is None or length is None:
            yield f"published: {where} without a cut or a decision"
            continue
        complete = [entry for entry in end.logs[node] if entry["place"] <= length and is_complete(entry, value)]
        wanted = selection.table(net, node, complete, value["responding"], prefix)
        if path != wanted:
            yield f"table: {where} is {path}, the model says {wanted}"


def walks(net, end):
    """No node twice on the tables, and no more moves off them than the limit."""
    most = DEFAULT_HOPS if net.hops is None else net.hops
    for packet, walk in end.walks.items():
        on = [node for node, mode in walk["visits"] if mode != "t"]
        if len(set(on)) < len(on):
            yield f"loop: packet {packet} on the tables: {on}"
        moves = max(0, sum(mode == "t" for _, mode in walk["visits"]) - 1)
        if moves > most:
            yield f"moves: packet {packet} made {moves} off the tables, at most {most} are allowed"
        off = [node for node, mode in walk["visits"] if mode == "t"]
        whole = on + off[1:] if on else off
        if net.transient == "backup" and len(set(whole)) < len(whole):
            yield f"backup: packet {packet} came to a node twice: {whole}"
