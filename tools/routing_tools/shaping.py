"""From a graph of another tool to a network that fits: at most 64 nodes and 512 links, numbers from 1 to 65535.

**Which nodes stay.** First the one with the most links; then again and again, of the nodes that have a link to one that stays,
the one with the most links in the whole graph. Of equal ones the first in the file stays. So what stays is connected, and is
the dense middle of a large graph. **Which links stay** of more than 512: those by which the nodes were taken, then the others in
the order of the file. **Numbers.** A name that is a number from 1 to 65535 keeps it; each other name gets the lowest number that
is free, in the order of the file, and stands behind its `node` line as a comment."""
from .network import HIGHEST_NODE, MOST_CONSOLIDATORS, MOST_LINKS, Link, Network
from .trouble import Trouble

PREFERENCES = {"customer": 300, "any": 300, "peer": 200, "provider": 100}


def shaped(graph, most, consolidators):
    """The network, and what was left out of the graph, in words."""
    links, told = unique(graph.links)
    if not graph.names:
        raise Trouble("there is no node in the file")
    kept, by = chosen(graph.names, links, most)
    if len(kept) < len(graph.names):
        told.append(f"{len(kept)} of {len(graph.names)} nodes stay: the one with the most links, and around it those with the most links")
    number = numbers([name for name in graph.names if name in kept])
    inside = [link for link in links if link[0] in kept and link[1] in kept]
    if len(inside) > MOST_LINKS:
        told.append(f"{MOST_LINKS} of {len(inside)} links between them stay")
        first = [link for link in inside if frozenset(link[:2]) in by]
        rest = [link for link in inside if frozenset(link[:2]) not in by]
        inside = first + rest[: MOST_LINKS - len(first)]
    net = Network(nodes=sorted(number.values()), links=[Link(number[a], number[b], relation) for a, b, relation in inside])
    net.names = {number[name]: label(name, graph.labels[name]) for name in kept if label(name, graph.labels[name]) != str(number[name])}
    renamed = sum(name != str(number[name]) for name in kept)
    if renamed:
        told.append(f"{renamed} nodes have other numbers than in the file; the comments tell which")
    net.consolidators = sorted(net.most_linked()[: min(consolidators, MOST_CONSOLIDATORS)])
    return net, told


def label(name, more):
    return " ".join(f"{name} {more}".split()).replace("#", "") if more and more != name else name


def unique(links):
    """Without links of a node with itself and second links of the same two nodes."""
    seen, found = set(), []
    for a, b, relation in links:
        if a != b and frozenset((a, b)) not in seen:
            seen.add(frozenset((a, b)))
            found.append((a, b, relation))
    return found, [f"{len(links) - len(found)} links are left out: second ones, or of a node with itself"] if len(found) < len(links) else []


def chosen(names, links, most):
    """The names that stay, and the pairs by which they were taken."""
    others, place = {name: [] for name in names}, {name: at for at, name in enumerate(names)}
    for a, b, _ in links:
        others[a].append(b)
        others[b].append(a)

    def rank(name):
        return -len(others[name]), place[name]

    kept, by, near = set(), set(), {}
    while len(kept) < min(most, len(names)):
        # a part without a link to what stays comes when all of that is in
        found = min(near, key=rank) if near else min((name for name in names if name not in kept), key=rank)
        if found in near:
            by.add(frozenset((found, near.pop(found))))
        kept.add(found)
        for other in others[found]:
            if other not in kept:
                near.setdefault(other, found)
    return kept, by


def numbers(names):
    own = {name for name in names if name.isdigit() and str(int(name)) == name and 1 <= int(name) <= HIGHEST_NODE}
    taken, found, free = {int(name) for name in own}, {}, 1
    for name in names:
        if name in own:
            found[name] = int(name)
            continue
        while free in taken:
            free += 1
        taken.add(free)
        found[name] = free
    return found


def prefer(net):
    """Preferences by relation: customers over peers over providers."""
    for (node, other), relation in net.relations().items():
        net.prefs[node, other] = PREFERENCES[relation]


