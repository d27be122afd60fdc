#!/usr/bin/env python3
"""Measures how the cost of a run grows with nodes, prefixes and epochs. Not part of the gate.

    bench/growth.py [PROGRAM] [--callgrind] [--runs N] [--keep FOLDER]

PROGRAM is the built program, by default out/proved/consensus_routing (PROVED=1 ./consensus_routing builds it).
The networks are those of bench.py: nodes 1, 2 and 3 are peers and consolidators, each later node has two providers among the nodes
before it. All prefixes are announced at once and all updates are delivered. The first rows have 8 to 64 nodes and 16 to 256
prefixes. In the others 48 nodes with 48 prefixes make 1 to 32 epochs; before each epoch one of four links fails or comes back. In
half of these one node is down from the first epoch on, so that no node may drop entries. The table has the events, the bytes of
peak memory, the events a second, and with --callgrind the instructions, which do not change with what else the machine does.
"""
import argparse
import os
import random
import sys

sys.dont_write_bytecode = True
import bench  # noqa: E402  (nothing is left beside it)

NODES, PREFIXES, EPOCHS = [8, 16, 32, 64], [16, 64, 256], [1, 2, 4, 8, 16, 32]
MIDDLE = 48


def announced(nodes, prefixes):
    """All prefixes are announced, by nodes that are drawn evenly, and everything is delivered."""
    lines = bench.head(nodes, bench.tiers(nodes, 2, random.Random(nodes)), bench.ranges(prefixes))
    lines += [f"originate {1 + place * 7 % nodes} {prefix}" for place, prefix in enumerate(bench.ranges(prefixes))]
    return lines + ["drain 1000000"]


def epochs(count, is_down):
    """The same, and so many epochs, before each of which a link fails or comes back; a node that none of this concerns may be down."""
    lines = announced(MIDDLE, MIDDLE)
    links = [line.split()[1:3] for line in lines if line.startswith("link")]
    moved = random.Random(5).sample(links[3:], 4)
    providers, ends = {link[0] for link in links}, {end for link in moved for end in link}
    lines += [f"crash {max(set(map(str, range(4, MIDDLE + 1))) - providers - ends, key=int)}"] if is_down else []
    for epoch in range(1, count + 1):
        a, b = moved[(epoch - 1) // 2 % len(moved)]
        if epoch % 2:
            lines += [f"fail {a} {b}", f"notice {a} {b}", f"notice {b} {a}"]
        else:
            lines += [f"restore {a} {b}", f"open {a} {b}", f"open {b} {a}"]
        lines += ["drain 1000000", "snap 1", "drain 1000000", "ctl all 1000000", f"propose 1 {epoch}", "ctl all 1000000"]
    return lines


def row(asked, name, lines):
    text = bench.text_of(lines)
    if asked.keep:
        os.makedirs(asked.keep, exist_ok=True)
        with open(os.path.join(asked.keep, name.replace(" ", "_") + ".schedule"), "wb") as file:
            file.write(text)
    events = bench.events_of(asked.program, lines)
    runs = [bench.run(asked.program, text) for _ in range(asked.runs)]
    counted = bench.instructions(asked.program, text) if asked.callgrind else 0
    memory = int(max(it[1] for it in runs) * (1 << 20))
    cells = [name, f"{events}", f"{memory:,}", f"{events / min(it[0] for it in runs):,.0f}"]
    if counted:
        cells += [f"{counted / 1e6:.1f}", f"{counted / events:,.0f}"]
    print(f"| {' | '.join(cells)} |", flush=True)


def head(asked):
    cells = ["Run", "Events", "Bytes of memory", "Events a second"] + (["Instructions, millions", "Instructions an event"] if asked.callgrind else [])
    print(f"| {' | '.join(cells)} |\n|{'---|' * len(cells)}")


def main():
    asked = argparse.ArgumentParser(description=__doc__, formatter_class=argparse.RawDescriptionHelpFormatter)
    asked.add_argument("program", nargs="?", default=bench.BUILT)
    asked.add_argument("--callgrind", action="store_true", help="count instructions")
    asked.add_argument("--runs", type=int, default=3)
    asked.add_argument("--keep", help="write the schedules to this folder")
    asked = asked.parse_args()
    head(asked)
    for nodes in NODES:
        for prefixes in PREFIXES:
            row(asked, f"{nodes} nodes, {prefixes} prefixes", announced(nodes, prefixes))
    for is_down in (False, True):
        for count in EPOCHS:
            row(asked, f"{count} epoch{'s' if count > 1 else ''}" + (", a node is down" if is_down else ""), epochs(count, is_down))


if __name__ == "__main__":
    main()
