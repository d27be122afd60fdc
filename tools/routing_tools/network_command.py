"""Reads a network of another tool and writes it as the first part of a schedule, or as DOT or GraphML.

    routing network 20240101.as-rel.txt.bz2 --nodes 48 --pref --announce 3356 > caida.schedule
    routing network Abilene.graphml --announce 1 > abilene.schedule
    routing network examples/detour.schedule --to dot | dot -Tsvg > detour.svg
    routing network --generate 24 --seed 1 > tiers.schedule

It reads CAIDA's relationships (as-rel, packed or not), GraphML (Topology Zoo, networkx), networkx's node-link JSON, and schedules.

Of more than 64 nodes these stay: the one with the most links, then again and again, of the nodes that have a link to one that
stays, the one with the most links in the whole file. So what stays is connected. Of more than 512 links those by which nodes were
taken stay, then the first of the others. A name that is no number from 1 to 65535 gets the lowest number that is free; a comment
behind its `node` line tells the name. The nodes with the most links become consolidators. Without --pref all preferences are 100;
with it they are 300 for customers and `any` links, 200 for peers and 100 for providers."""
import sys

from . import schedule
from .formats import READERS, bytes_of, dot, graphml, kind_of
from .network import CONVERSE, MOST_CONSOLIDATORS, MOST_NODES, tiered
from .shaping import prefer, shaped
from .trouble import USAGE, Trouble

NAME = "network"


def add_arguments(parser):
    parser.add_argument("file", nargs="?", help="a network of another tool, or a schedule")
    parser.add_argument("--from", dest="source", choices=[*READERS, "schedule"], help="the format of the file (default: by its content)")
    parser.add_argument("--to", choices=["schedule", "dot", "graphml"], default="schedule", help="what to write (default: schedule)")
    parser.add_argument("--nodes", type=int, default=MOST_NODES, metavar="N", help=f"keep at most N nodes (1 to {MOST_NODES})")
    parser.add_argument("--consolidators", type=int, default=3, metavar="N", help=f"how many nodes become consolidators (default 3, at most {MOST_CONSOLIDATORS})")
    parser.add_argument(
        "--relation", choices=list(CONVERSE), default="any",
        help="of links of which the file tells no relation: what the second end is to the first (default: any)",
    )
    parser.add_argument("--pref", action="store_true", help="write preferences by relation")
    parser.add_argument(
        "--announce", type=int, action="append", default=[], metavar="NODE",
        help="let NODE, by its number in what is written, announce a prefix 10.K.0.0/16, and drain; may be given more than once",
    )
    parser.add_argument("--generate", type=int, metavar="N", help="in place of a file: draw a network of N nodes with customers, providers and peers")
    parser.add_argument("--seed", type=int, default=1, help="of --generate (default 1)")


def run(words):
    if (words.file is None) == (words.generate is None):
        raise Trouble("wanted one of FILE and --generate N", USAGE)
    if not 1 <= words.nodes <= MOST_NODES or not 1 <= words.consolidators <= MOST_CONSOLIDATORS:
        raise Trouble(f"--nodes is 1 to {MOST_NODES}, --consolidators 1 to {MOST_CONSOLIDATORS}", USAGE)
    net, told = read(words)
    for line in told:
        print(f"routing network: {line}", file=sys.stderr)
    if words.pref:
        prefer(net)
    sys.stdout.write("\n".join(written(net, words)) + "\n")
    return 0


def read(words):
    if words.generate is not None:
        if not 4 <= words.generate <= MOST_NODES:
            raise Trouble(f"--generate is 4 to {MOST_NODES}", USAGE)
        net = tiered(words.generate, words.seed)
        net.prefixes = []
        return net, []
    content = bytes_of(words.file)
    kind = words.source or kind_of(words.file, content)
    if kind == "schedule":
        net = schedule.parse(content.decode("utf-8", "replace"), words.file).network
        told = ["a schedule is taken as it is: --nodes and --consolidators change nothing"] if words.nodes < len(net.nodes) else []
        return net, told
    return shaped(READERS[kind](content, words.file, words.relation), words.nodes, words.consolidators)


def written(net, words):
    if words.to != "schedule":
        return dot(net) if words.to == "dot" else graphml(net)
    lines = []
    for place, node in enumerate(words.announce):
        if node not in net.nodes:
            raise Trouble(f"--announce {node}: no such node in what is written", USAGE)
        net.prefixes.append(f"10.{place}.0.0/16")
        lines.append(f"originate {node} 10.{place}.0.0/16")
    return [*net.lines()] + (["begin", *lines, "drain 1000000", "show rib"] if lines else [])
