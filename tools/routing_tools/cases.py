"""The cases of a campaign: which network, what fails, who announces, and in which order updates come."""
from dataclasses import dataclass

from .network import Network

RULES = {
    "links": "each link fails in turn; the end with fewer links announces",
    "multihomed": "each link from a node with two or more providers to one of them fails in turn; that node announces",
    "crashes": "each node crashes in turn, and its neighbours notice; the node with the fewest links announces",
    "announce": "nothing fails: the announcement itself spreads, from each node in turn",
}


@dataclass(frozen=True)
class Case:
    """One run. `subject` is what fails: a link as A-B, a node, or the node that announces."""

    network: str
    rule: str
    subject: str
    origin: int
    order: int

    def key(self):
        return self.network, self.rule, self.subject, str(self.origin), str(self.order)


def cases_of(name, net: Network, rule, orders):
    for subject, origin in subjects(net, rule):
        for order in range(1, orders + 1):
            yield Case(name, rule, subject, origin, order)


def subjects(net, rule):
    """What fails, and who announces."""
    others, providers = net.neighbours(), net.providers()
    if rule == "links":
        for link in net.links:
            yield f"{link.a}-{link.b}", min((len(others[node]), node) for node in (link.a, link.b))[1]
    elif rule == "multihomed":
        for node in net.nodes:
            if len(providers[node]) >= 2:
                for provider in sorted(providers[node]):
                    yield f"{provider}-{node}", node
    elif rule == "crashes":
        origin = min(net.nodes, key=lambda node: (len(others[node]), node))
        yield from ((str(node), origin) for node in net.nodes if node != origin)
    else:
        yield from ((str(node), node) for node in net.nodes)


def failure(net, case):
    """The lines of what fails, as all that it concerns notice it, and the links that are down then."""
    if case.rule == "announce":
        return [], set()
    if case.rule == "crashes":
        node = int(case.subject)
        others = net.neighbours()[node]
        lines = [f"crash {node}"] + [line for other in others for line in (f"fail {node} {other}", f"notice {other} {node}")]
        return lines, {frozenset((node, other)) for other in others}
    a, b = map(int, case.subject.split("-"))
    return [f"fail {a} {b}", f"notice {a} {b}", f"notice {b} {a}"], {frozenset((a, b))}


def crashed(case):
    return {int(case.subject)} if case.rule == "crashes" else set()
