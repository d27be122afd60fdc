#!/usr/bin/env python3
"""Measures the memory of a consolidator that holds many large reports. Not part of the gate.

    bench/reports.py [PROGRAM] [--nodes N] [--epochs N] [--massif FILE]

PROGRAM is the built program, by default out/proved/consensus_routing (PROVED=1 ./consensus_routing builds it). It runs as a node over a
link, and gets a report of each of N nodes for each of N epochs (64 and 32), all of one shape:

    rows      2,048 rows with one trigger each and 16,384 items: the most of version 1
    lists     as many rows and items, which list 65,536 triggers: the most of version 2
    sessions  61,680 sessions that were closed, which is what fits a frame, and no rows

The table has the bytes of a frame, the peak memory of the process, by /usr/bin/time, and its bytes for each report. A run with no
report at all is subtracted. With --massif, valgrind writes its profile of the heap for the shape that --shape names.
"""
import argparse
import os
import socket
import subprocess
import tempfile
from struct import pack

HERE = os.path.dirname(os.path.abspath(__file__))
BUILT = os.path.join(HERE, "..", "out", "proved", "consensus_routing")
NODES, EPOCHS = 64, 32
ROWS, ITEMS, LISTED = 2048, 16384, 65536
REPORT, MOST_BYTES = 11, 1 << 20


def triggers(count):
    return b"".join(pack(">HI", 1, 1 + place) for place in range(count))


def rows():
    """The rows of version 1: each with its share of the items."""
    items = b"".join(pack(">HII", 2, 1, 1 + place) for place in range(ITEMS // ROWS))
    return pack(">HIHH", 1, 1, 0, ITEMS // ROWS) + items


def listed_rows():
    """The rows of version 2: each lists 8 triggers, and each item 3."""
    each = 3
    own = (LISTED - each * ITEMS) // ROWS
    items = b"".join(pack(">HIIH", 2, 1, 1 + place, each) + triggers(each) for place in range(ITEMS // ROWS))
    return pack(">H", own) + triggers(own) + pack(">HH", 0, ITEMS // ROWS) + items


def closed_sessions():
    most = (MOST_BYTES - 12) // 17
    return [pack(">HIIBHI", 1 + place // 1000, 1 + place % 1000, 1, 1, 1, 1) for place in range(most)]


# Each shape: the version, and the body behind the node and the epoch.
SHAPES = {
    "rows": (1, pack(">H", ROWS) + rows() * ROWS + pack(">H", 0)),
    "lists": (2, pack(">H", ROWS) + listed_rows() * ROWS + pack(">HH", 0, 0)),
    "sessions": (1, pack(">HH", 0, len(closed_sessions())) + b"".join(closed_sessions())),
}


def frame(shape, node, epoch):
    version, body = SHAPES[shape]
    body = pack(">HHI", node, node, epoch) + body
    assert len(body) <= MOST_BYTES, len(body)
    return pack(">BBI", version, REPORT, len(body)) + body


def frames(shape, nodes, epochs):
    return (frame(shape, node, epoch) for epoch in range(1, epochs + 1) for node in range(1, nodes + 1))


def topology():
    lines = ["node 1 consolidator"] + [f"node {n}" for n in range(2, NODES + 1)]
    return "\n".join(lines + ["link 1 2 any", "prefix 10.0.0.0/8"]) + "\n"


def peak(program, sent):
    """The peak KiB of a node that gets these frames."""
    with socket.create_server(("127.0.0.1", 0)) as server, tempfile.TemporaryFile() as file, tempfile.NamedTemporaryFile("r") as told:
        file.write(topology().encode())
        file.seek(0)
        words = ["/usr/bin/time", "-o", told.name, "-f", "%M"] + program + ["node", "1", "127.0.0.1:%d" % server.getsockname()[1]]
        node = subprocess.Popen(words, stdin=file, stderr=subprocess.PIPE)
        peer, _ = server.accept()
        with peer:
            for piece in sent:
                peer.sendall(piece)
            peer.shutdown(socket.SHUT_WR)
            while peer.recv(1 << 20):
                pass
        said = node.communicate()[1].decode()
        assert node.returncode == 0, said
        return int(told.read().split()[-1])


def main():
    asked = argparse.ArgumentParser(description=__doc__, formatter_class=argparse.RawDescriptionHelpFormatter)
    asked.add_argument("program", nargs="?", default=BUILT)
    asked.add_argument("--nodes", type=int, default=NODES)
    asked.add_argument("--epochs", type=int, default=EPOCHS)
    asked.add_argument("--shape", choices=list(SHAPES), action="append", help="this shape alone; may be given more than once")
    asked.add_argument("--massif", metavar="FILE", help="write a profile of the heap there")
    said = asked.parse_args()
    program = [os.path.abspath(said.program)]
    if said.massif:
        program = ["valgrind", "-q", "--tool=massif", f"--massif-out-file={said.massif}"] + program
    empty = peak(program, [])
    print("| Shape | Reports | Bytes of a frame | Peak MiB | Bytes of memory a report |")
    print("|---|---|---|---|---|")
    for shape in said.shape or SHAPES:
        count = said.nodes * said.epochs
        most = peak(program, frames(shape, said.nodes, said.epochs))
        print(f"| {shape} | {count} | {len(frame(shape, 1, 1))} | {most / 1024:.0f} | {(most - empty) * 1024 // count} |")


if __name__ == "__main__":
    main()
