"""What is on its way over each link, read from logs, cuts and the states of links."""
from .trouble import Trouble


class Links:
    """The session that each link carries, as the lines of a schedule and what they wrote tell it. None: the link is down."""

    def __init__(self, network):
        self.carried = {frozenset((link.a, link.b)): 1 for link in network.links}
        self.last = dict(self.carried)

    def after(self, line, said):
        """A line that wrote that it did nothing changed nothing."""
        words = line.words
        if words[0] not in ("fail", "restore") or any(": idle " in it for it in said):
            return
        ends = frozenset(int(word) for word in words[1:3])
        if words[0] == "fail":
            self.carried[ends] = None
        else:
            self.last[ends] += 1
            self.carried[ends] = self.last[ends]

    def down(self):
        return [sorted(ends) for ends, session in self.carried.items() if session is None]


def on_way(sent, cuts, recorded, carried, ways):
    """For each way on which something is, what it is, the oldest first.

    An update that was sent in the session that the link carries, and that its receiver has no entry of, is on its way; so is
    a greeting that was not heard. A marker stands behind the updates of its sender's cut and before the later ones. Where
    neither these nor a recording tell whether it came, it is written with a question mark. `sent` has what each node `Sent`.
    """
    found = {}
    for a, b in ways:
        session = carried[frozenset((a, b))]
        if session is not None:
            items = _items(a, b, session, sent, cuts, recorded)
            if items:
                found[a, b] = items
    return found


class Sent:
    """The log of a node, by neighbour and session. What was entered stays, though the node may drop it later."""

    def __init__(self):
        self.updates, self.received, self.opened, self.greeted, self.length = {}, {}, {}, set(), 0
        self.turns = {}  # of each neighbour: the place of each `up` and `down`, and the session held from there on

    def enter(self, log):
        """Takes the entries that are new, by their places."""
        for entry in log:
            if entry["place"] > self.length + 1:
                raise Trouble(f"entry {self.length + 1} of node {entry['node']} was dropped before it was shown")
            if entry["place"] > self.length:
                self._enter(entry)
                self.length += 1
        return self

    def _enter(self, entry):
        cause, place = entry["cause"], entry["place"]
        closed = None
        if cause not in ("prefer", "flush") and "neighbour" in entry:
            way = (entry["neighbour"], entry["session"])
            if cause == "recv":
                self.received[way] = self.received.get(way, 0) + 1
            elif cause == "ready":
                self.greeted.add(way)
            else:
                self.opened.update({way: place} if cause == "up" else {})
                closed = way if cause == "down" else None
                self.turns.setdefault(way[0], []).append((place, way[1] if cause == "up" else None))
        for item in entry["sent"]:
            to, session, seq = map(int, item.split("/"))
            if (to, session) != closed:  # a close goes over no link
                self.updates.setdefault((to, session), []).append((place, seq, entry))

    def held(self, neighbour, place):
        """The session that the node held behind the entry at this place."""
        session = 1
        for turn, then in self.turns.get(neighbour, []):
            if turn <= place:
                session = then
        return session


def _items(a, b, session, sent, cuts, recorded):
    sender, receiver = sent[a], sent[b]
    got = receiver.received.get((a, session), 0)
    greeting = (b, session) in sender.opened and (a, session) not in receiver.greeted
    updates = sender.updates.get((b, session), [])
    waiting = [(place, 1, _told(seq, entry)) for place, seq, entry in updates if seq > got]
    heard_to = max((place for place, seq, _ in updates if seq <= got), default=0)
    items = [(sender.opened[b, session], 0, "greeting")] if greeting else []
    first = items[0][0] if items else min((place for place, _, _ in waiting), default=None)
    for (node, epoch), length in cuts.items():
        if node == a and length is not None and sender.held(b, length) == session and length >= sender.opened.get((b, session), 0):
            state = _marker(length, heard_to, first, recorded.get((b, epoch, a, session)), _epoch(cuts, b), epoch)
            items += [(length, 2, f"marker {epoch}{state}")] if state is not None else []
    return [told for _, _, told in sorted(items + waiting)]


def _marker(length, heard_to, first, recording, epoch_there, epoch):
    """None where the marker came; else nothing, or a question mark."""
    if heard_to > length or recording == "done":
        return None
    if (first is not None and first <= length) or recording == "waiting" or epoch_there < epoch:
        return ""
    return "?"


def _epoch(cuts, node):
    return max((epoch for (other, epoch), length in cuts.items() if other == node and length is not None), default=0)


def _told(seq, entry):
    if entry["cause"] == "flush":
        return f"update {seq} (held back)"
    about = "" if entry["scope"] == "all" else f" {entry['scope']}"
    return f"update {seq}{about} ({', '.join(entry['triggers'])})"
