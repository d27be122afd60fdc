"""A plain model of how a node decides and what it tells, read from logs. It shares no code with the program.

A node's log is gone through once more, entry by entry: from the causes alone the model says which path the node has, what each
entry has to send, and which path a neighbour must have heard. `complaints` tells where the program's text says otherwise."""
from .network import Network

OWN = "own"


class Node:
    """What a node knows after the entries so far: sessions, paths that neighbours told, what it originates and prefers."""

    def __init__(self, net: Network, node):
        self.net, self.node = net, node
        self.relation = {b: relation for (a, b), relation in net.relations().items() if a == node}
        self.held = {other: 1 for other in self.relation}
        self.ready = {other: 1 for other in self.relation}
        self.told, self.origin, self.prefer, self.offered, self.count = {}, set(), {}, {}, {}
        self.waiting = {}  # of each neighbour from which the node holds back, and each prefix: the triggers that are held back

    def enter(self, entry):
        """Takes the cause of an entry."""
        cause, other, session = entry["cause"], entry.get("neighbour"), entry.get("session")
        if cause == "originate":
            self.origin.add(entry["scope"])
        elif cause == "withdraw":
            self.origin.discard(entry["scope"])
        elif cause == "recv":
            self.told[other, session, entry["scope"]] = entry["path"]
        elif cause == "down":
            self.held[other] = None
        elif cause == "up":
            self.held[other] = session
        elif cause == "ready":
            self.ready[other] = session
        elif cause == "prefer":
            self.prefer[other] = entry["value"]

    def candidates(self, prefix):
        """The paths that neighbours told in the session that is held, without those through the node itself, best first."""
        found = []
        for other in self.relation:
            path = self.told.get((other, self.held[other], prefix)) if self.held[other] else None
            if path and self.node not in path:
                preference = self.prefer.get(other, self.net.prefs.get((self.node, other), 100))
                found.append((-preference, len(path), other, [self.node] + path))
        return [(other, path) for _, _, other, path in sorted(found)]

    def best(self, prefix):
        """From whom the best path comes, and the path; an empty one where there is none."""
        if prefix in self.origin:
            return OWN, [self.node]
        return next(iter(self.candidates(prefix)), (None, []))

    def offer(self, prefix, to):
        """What is offered to a neighbour: the best path, where export allows it."""
        source, path = self.best(prefix)
        free = source == OWN or self.relation.get(source) in ("customer", "any") or self.relation[to] in ("customer", "any")
        return path if free else []

    def is_ready(self, other):
        return self.held[other] is not None and self.ready[other] == self.held[other]

    def sends(self, entry):
        """What an entry sends: the neighbour, the session, the number, and the prefix, the path and the triggers, None for a close."""
        closed = entry["cause"] == "down" and self.ready[entry["neighbour"]] == self.held[entry["neighbour"]]
        self.enter(entry)
        for other in sorted(self.relation):
            if entry["cause"] in ("down", "flush") and other == entry["neighbour"]:
                waiting = self._let_go(other)
                if closed:
                    yield self._next(other, entry["session"], None)
                for prefix, triggers in waiting if entry["cause"] == "flush" else ():
                    yield self._next(other, self.held[other], (prefix, self.offer(prefix, other), triggers))
            elif self.is_ready(other):
                yield from self._tell(other, entry)

    def _let_go(self, other):
        """What is held back from a neighbour, by prefix in the order of the file. Then nothing is."""
        return [(prefix, sorted_triggers(self.waiting.pop((other, prefix)))) for prefix in self.net.prefixes if (other, prefix) in self.waiting]

    def _tell(self, other, entry):
        """An update of each prefix whose offer the entry changes, or its triggers where the node holds back."""
        session, prefixes = self.held[other], {"all": self.net.prefixes, "-": []}.get(entry["scope"], [entry["scope"]])
        for prefix in prefixes:
            offer = self.offer(prefix, other)
            if offer == self.offered.get((other, session, prefix), []):
                continue
            self.offered[other, session, prefix] = offer
            if (self.node, other) in self.net.holds:
                self.waiting.setdefault((other, prefix), set()).update(entry["triggers"])
            else:
                yield self._next(other, session, (prefix, offer, entry["triggers"]))

    def _next(self, other, session, what):
        self.count[other, session] = self.count.get((other, session), 0) + 1
        return other, session, self.count[other, session], what


def sorted_triggers(triggers):
    """Triggers ascending, by node, then by counter."""
    return sorted(triggers, key=lambda trigger: tuple(map(int, trigger.split("."))))


def complaints(net, logs, ribs):
    """Where routes, sent items and received paths are not those of the model."""
    nodes, sent = {node: Node(net, node) for node in net.nodes}, {}
    for node, model in nodes.items():
        for entry in logs.get(node, []):
            items = list(model.sends(entry))
            wanted = [f"{other}/{session}/{number}" for other, session, number, _ in items]
            if wanted != entry["sent"]:
                yield f"sent: entry {entry['place']} of node {node} sends {entry['sent']}, the model says {wanted}"
            for other, session, number, what in items:
                sent[node, other, session, number] = what
    yield from _unheard(logs, sent)
    for (node, prefix), path in ribs.items():
        wanted = nodes[node].best(prefix)[1]
        if path != wanted:
            yield f"route: node {node} has {path} to {prefix}, the model says {wanted}"


def _unheard(logs, sent):
    """Received paths that were not sent so."""
    for node, log in logs.items():
        for entry in log:
            if entry["cause"] == "recv":
                key = (entry["neighbour"], node, entry["session"], entry["seq"])
                heard = (entry["scope"], entry["path"], entry["triggers"])
                if sent.get(key) != heard:
                    yield f"received: entry {entry['place']} of node {node} has {heard}, sent was {sent.get(key)}"


def table(net, node, entries, responding, prefix):
    """The path of a stable table: the best over these entries, where all its nodes responded; else none."""
    model = Node(net, node)
    for entry in entries:
        model.enter(entry)
    path = model.best(prefix)[1]
    return path if {node, *path} <= set(responding) else []
