"""Writes the schedule of `load NUMBER` as a file that `replay` reads.

    routing load 5 > load5.schedule
    routing load 5 --counts

It was written from the description of loads in docs/SCHEDULES.md and shares no code with the program, so that the two can be
compared: the program's `load NUMBER` counts the run of this schedule."""
from .network import Link, Network
from .trouble import USAGE, Trouble

NAME = "load"
BITS = 1 << 64
HIGHEST = 4294967295
NODES = 24


def add_arguments(parser):
    parser.add_argument("number", type=int, help="0 to 4294967295")
    parser.add_argument("--counts", action="store_true", help="write the counts of nodes and links in place of the schedule")


def run(words):
    if not 0 <= words.number <= HIGHEST:
        raise Trouble(f"wanted a number from 0 to {HIGHEST}", USAGE)
    net, lines = load(words.number)
    if words.counts:
        print(f"nodes {len(net.nodes)}\nlinks {len(net.links)}")
    else:
        print("\n".join([*net.lines(), "begin", *lines]))
    return 0


def draws(number):
    """The draws of a number: send a bound, get a number below it."""
    state, answer = number, None
    while True:
        bound = yield answer
        state = (state * 6364136223846793005 + 1442695040888963407) % BITS
        answer = (state // (1 << 33)) % bound


def load(number):
    """The network, and the lines behind `begin`."""
    chain = draws(number)
    next(chain)
    draw = chain.send
    links = [Link(1, 2, "peer"), Link(1, 3, "peer"), Link(2, 3, "peer")]
    first = {}
    for node in range(4, NODES + 1):
        a = 1 + draw(node - 1)
        links.append(Link(a, node, "customer"))
        first[node] = a
        b = 1 + draw(node - 1)
        if b != a:
            links.append(Link(b, node, "customer"))
    lines = [f"originate {1 + draw(NODES)} {prefix(k)}" for k in range(12)]
    lines += ["drain 1000000", "snap 1", "drain 1000000", "ctl all 16384", "propose 1 1", "ctl all 16384"]
    for epoch in range(2, 5):
        j = 4 + draw(21)
        p = first[j]
        lines += [f"fail {p} {j}", f"notice {p} {j}", f"notice {j} {p}", "drain 20", "snap 1", "drain 1000000"]
        lines += ["ctl all 16384", f"propose 2 {epoch}", "ctl all 16384"]
    for k in range(1, 13):
        lines += [f"inject {k} {1 + draw(NODES)} {prefix(k - 1)}", f"hop {k} 200"]
    net = Network(nodes=list(range(1, NODES + 1)), consolidators=[1, 2, 3], links=links, prefixes=[prefix(k) for k in range(12)])
    return net, lines


def prefix(k):
    return f"10.{k}.0.0/16"
