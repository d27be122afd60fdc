"""A network as the lines of a schedule before `begin` declare it."""
from dataclasses import dataclass, field
from typing import Dict, List, Optional, Set, Tuple

CONVERSE = {"customer": "provider", "provider": "customer", "peer": "peer", "any": "any"}
MOST_NODES, MOST_LINKS, MOST_PREFIXES, MOST_CONSOLIDATORS = 64, 512, 256, 7
HIGHEST_NODE = 65535


@dataclass(frozen=True)
class Link:
    """A link between two nodes. The relation is what `b` is to `a`."""

    a: int
    b: int
    relation: str

    def line(self):
        return f"link {self.a} {self.b} {self.relation}"


@dataclass
class Network:
    nodes: List[int] = field(default_factory=list)
    consolidators: List[int] = field(default_factory=list)
    links: List[Link] = field(default_factory=list)
    prefs: Dict[Tuple[int, int], int] = field(default_factory=dict)
    holds: Set[Tuple[int, int]] = field(default_factory=set)
    prefixes: List[str] = field(default_factory=list)
    hops: Optional[int] = None
    transient: Optional[str] = None
    names: Dict[int, str] = field(default_factory=dict)

    def lines(self):
        """The lines of a schedule, up to `begin` and without it."""
        wide = max((len(str(node)) for node in self.nodes), default=1)
        for node in self.nodes:
            line = f"node {node}" + (" consolidator" if node in self.consolidators else "")
            yield f"{line:<{wide + 18}} # {self.names[node]}" if node in self.names else line
        yield from (link.line() for link in self.links)
        yield from (f"pref {a} {b} {value}" for (a, b), value in sorted(self.prefs.items()))
        yield from (f"hold {a} {b}" for a, b in sorted(self.holds))
        yield from (f"prefix {prefix}" for prefix in self.prefixes)
        if self.hops is not None:
            yield f"hops {self.hops}"
        if self.transient is not None:
            yield f"transient {self.transient}"

    def neighbours(self):
        """The neighbours of each node, ascending."""
        found = {node: [] for node in self.nodes}
        for link in self.links:
            found[link.a].append(link.b)
            found[link.b].append(link.a)
        return {node: sorted(others) for node, others in found.items()}

    def relations(self):
        """What the second node of each pair is to the first."""
        found = {}
        for link in self.links:
            found[link.a, link.b] = link.relation
            found[link.b, link.a] = CONVERSE[link.relation]
        return found

    def providers(self):
        """The providers of each node, in the order of the links."""
        found = {node: [] for node in self.nodes}
        for (node, other), relation in self.relations().items():
            if relation == "provider":
                found[node].append(other)
        return found

    def ways(self):
        """Both ways of each link, ascending."""
        return sorted(pair for link in self.links for pair in ((link.a, link.b), (link.b, link.a)))

    def most_linked(self):
        """The nodes, those with the most links first, of these the lowest number first."""
        others = self.neighbours()
        return sorted(self.nodes, key=lambda node: (-len(others[node]), node))


def tiered(count, seed):
    """A network of customers, providers and peers, drawn from a seed.

    Nodes 1, 2 and 3 are peers of each other and consolidators. Each later node has one or two providers among the nodes before
    it; a node with many links is drawn more often. Then a node in five gets a peer that is neither above nor below it.
    """
    import random

    rng = random.Random(f"tiered {count} {seed}")
    net = Network(nodes=list(range(1, count + 1)), consolidators=list(range(1, min(count, 3) + 1)), prefixes=["10.0.0.0/8"])
    net.links = [Link(a, b, "peer") for a in range(1, 4) for b in range(a + 1, 4) if b <= count]
    above = {node: set() for node in net.nodes}
    drawn = [1, 2, 3]
    for node in range(4, count + 1):
        wanted = 2 if rng.random() < 0.6 else 1
        providers = set()
        while len(providers) < wanted:
            providers.add(rng.choice(drawn))
        for provider in sorted(providers):
            net.links.append(Link(provider, node, "customer"))
            above[node] |= {provider} | above[provider]
            drawn.append(provider)
        drawn.append(node)
    _add_peers(net, above, rng)
    return net


def _add_peers(net, above, rng):
    joined = {frozenset((link.a, link.b)) for link in net.links}
    for _ in range(len(net.nodes) // 5):
        if len(net.nodes) < 6:
            return
        a, b = sorted(rng.sample(net.nodes[3:], 2))
        if frozenset((a, b)) not in joined and a not in above[b] and b not in above[a]:
            joined.add(frozenset((a, b)))
            net.links.append(Link(a, b, "peer"))
