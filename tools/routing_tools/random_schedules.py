"""Random schedules: small networks of every relation, and lines of every kind, those that do nothing among them."""
import random

from .network import Link, Network

RELATIONS = ["customer", "provider", "peer", "any"]


def drawn(seed):
    """The lines of the schedule of a seed."""
    rng = random.Random(f"schedule {seed}")
    net = network(rng)
    lines = []
    for _ in range(rng.randint(5, 60)):
        lines += some(rng, net, lines)
    return [*net.lines(), "begin", *lines]


def network(rng):
    count = rng.randint(2, 9)
    nodes = sorted(rng.sample(range(1, 30), count))
    net = Network(nodes=nodes, consolidators=sorted(rng.sample(nodes, rng.randint(1, min(count, 4)))))
    pairs = [(a, b) for a in nodes for b in nodes if a < b]
    joined = {(nodes[place - 1], nodes[place]) for place in range(1, count)} | set(rng.sample(pairs, rng.randint(0, len(pairs) // 2)))
    friendly = rng.random() < 0.3
    net.links = [Link(*rng.choice([(a, b), (b, a)]), "any" if friendly else rng.choice(RELATIONS)) for a, b in sorted(joined)]
    for a, b in net.ways():
        if rng.random() < 0.1:
            net.prefs[a, b] = rng.choice([0, 50, 150, 200])
    if rng.random() < 0.5:
        net.holds = {way for way in net.ways() if rng.random() < 0.4}
    net.prefixes = [f"10.{k}.0.0/16" for k in range(rng.randint(1, 3))]
    net.hops = rng.choice([None, 0, 1, 3, 20])
    net.transient = rng.choice([None, "deflect", "backup", f"detour {rng.choice(nodes)}"])
    return net


def some(rng, net, before):
    """One to a few lines that come together."""
    node, prefix = rng.choice(net.nodes), rng.choice(net.prefixes)
    a, b = rng.choice(net.ways()) if net.links else (node, node)
    packet, epoch = rng.randint(1, 6), rng.randint(1, 1 + sum(line.startswith("snap") for line in before) % 32)
    proposer = rng.choice(net.consolidators) if rng.random() < 0.9 else node
    linked = [
        [f"deliver {a} {b}"], [f"deliver {a} {b}", f"deliver {b} {a}"], [f"drain {rng.choice([1, 3, 10, 100])}"], [f"drain {rng.choice([2, 20])}"],
        [f"fail {a} {b}"], [f"fail {a} {b}", f"notice {a} {b}", f"notice {b} {a}"], [f"notice {a} {b}"], [f"restore {a} {b}"],
        [f"restore {a} {b}", f"notice {a} {b}", f"open {a} {b}", f"notice {b} {a}", f"open {b} {a}"], [f"open {a} {b}"],
        [f"prefer {a} {b} {rng.choice([0, 50, 100, 200, 1000000])}"],
    ]
    held = sorted(net.holds)
    if held:
        (c, d), (e, f) = rng.choice(held), rng.choice(held)
        linked += [[f"flush {a} {b}"], [f"flush {c} {d}"], [f"flush {c} {d}", f"deliver {c} {d}"], [f"flush {c} {d}", f"flush {e} {f}", "drain 10"]]
    alone = [
        [f"originate {node} {prefix}"], [f"originate {node} {prefix}", "drain 100"], [f"withdraw {node} {prefix}"],
        [f"snap {node}"], [f"snap {node}", "drain 100", "ctl all 300", f"propose {proposer} {epoch}", "ctl all 300"],
        [f"propose {proposer} {epoch}"], [f"ctl {rng.randint(1, 40)}"], [f"ctl all {rng.choice([1, 5, 300])}"],
        [f"crash {node}"], [f"crash {node}", "drain 5", f"restart {node}"], [f"restart {node}"],
        [f"inject {packet} {node} {prefix}"], [f"inject {packet} {node} {prefix}", f"hop {packet} {rng.choice([1, 100])}"],
        [f"hop {packet}"], [f"hop {packet} {rng.randint(1, 30)}"], [f"probe {node} {prefix}"],
        [rng.choice(["show rib", "show log", "show ctl", f"show cut {epoch}", f"show closure {epoch}", f"show tables {epoch}", f"show walk {packet}"])],
    ]
    return rng.choice(alone + linked if net.links else alone)
