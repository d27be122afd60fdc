#!/usr/bin/env python3
"""Measures the closure over the reports of 64 nodes with logs of many rows. Not part of the gate.

    bench/closure.py [PROGRAM] [--callgrind]

PROGRAM is the built program, by default out/proved/consensus_routing (PROVED=1 ./consensus_routing builds it). It runs as a node over a
link: it gets 64 reports, is asked to propose, and computes their value. In each report some rows of a trigger that
nothing blocks stand before links of one chain, which runs through all reports from the last link of a report to its
first: a closure in rounds would go over all rows once for each link. The table has, for so many rows and links in a
report, the seconds from the first frame to the end, without and with the request to propose; with --callgrind the
instructions, millions, of the same two runs. The difference is the closure. A value of more than 8192 triggers is
computed too, and then not proposed: the node ends with that limit. The last line has the same for fifty ballots over full reports.
"""
import argparse
import os
import re
import socket
import subprocess
import tempfile
import time
from struct import pack

HERE = os.path.dirname(os.path.abspath(__file__))
BUILT = os.path.join(HERE, "..", "out", "proved", "consensus_routing")
NODES = 64
SIZES = [(2048, 256), (2048, 128), (2048, 64), (2048, 1), (1024, 256), (1024, 64), (512, 64)]


def frame(kind, body):
    return pack(">BBI", 1, kind, len(body)) + body


def row(node, count, prefix, item=b""):
    return pack(">HIH", node, count, prefix) + (pack(">H", 1) + item if item else pack(">H", 0))


def reports(rows, links):
    frames = b""
    for node in range(1, NODES + 1):
        place = NODES + 1 - node
        body = [row(2, 1, 0)] * (rows - 2 * links)
        for link in range(links * place, links * (place - 1), -1):
            # what the first link sent, nobody received
            item = pack(">HII", 1, 1, 1) if link == 1 else b""
            prefix = (link - 1) % 256
            body += [row(1, link, prefix, item), row(1, link + 1, prefix)]
        frames += frame(11, pack(">HHIH", node, node, 1, len(body)) + b"".join(body) + pack(">H", 0))
    return frames


def proposal(number=1):
    ballot = pack(">IIH", 1, number, 1)
    return frame(7, pack(">I", 1)) + frame(12, pack(">H", 1) + ballot) + frame(13, pack(">H", 1) + ballot + b"\0")


def topology():
    lines = ["node 1 consolidator"] + [f"node {n}" for n in range(2, NODES + 1)]
    return "\n".join(lines + [f"prefix 10.{k}.0.0/16" for k in range(256)]) + "\n"


def answered(program, frames):
    """Seconds until the node has taken the frames and ended, and what it noted."""
    with socket.create_server(("127.0.0.1", 0)) as server, tempfile.TemporaryFile() as file:
        file.write(topology().encode())
        file.seek(0)
        words = program + ["node", "1", "127.0.0.1:%d" % server.getsockname()[1]]
        node = subprocess.Popen(words, stdin=file, stderr=subprocess.PIPE)
        peer, _ = server.accept()
        start = time.perf_counter()
        with peer:
            peer.sendall(frames)
            peer.shutdown(socket.SHUT_WR)
            while peer.recv(1 << 20):
                pass
        said = node.communicate()[1].decode()
        seconds = time.perf_counter() - start
        assert node.returncode == 0 or "limit: triggers 8192" in said, said
        return seconds, said


def cost(program, frames):
    """The seconds that the node takes for the frames; under callgrind its instructions, in millions."""
    seconds, told = answered(program, frames)
    counted = re.search(r"Collected : (\d+)", told)
    return "%.0f" % (int(counted[1]) / 1e6) if counted else "%.3f" % seconds


def main():
    asked = argparse.ArgumentParser(description=__doc__.split("\n")[0])
    asked.add_argument("program", nargs="?", default=BUILT)
    asked.add_argument("--callgrind", action="store_true")
    said = asked.parse_args()
    program = [os.path.abspath(said.program)]
    if said.callgrind:
        program = ["valgrind", "--tool=callgrind", "--callgrind-out-file=/dev/null"] + program
    print("| Rows a report | Links a report | Rounds that it would take | Reports alone | With the closure |")
    print("|---|---|---|---|---|")
    for rows, links in SIZES:
        frames = reports(rows, links)
        print(f"| {rows} | {links} | {NODES * links} | {cost(program, frames)} | {cost(program, frames + proposal())} |")
    ballots = b"".join(proposal(number) for number in range(1, 51))
    print(f"\n64 full reports and fifty ballots: {cost(program, reports(2048, 1) + ballots)}")


if __name__ == "__main__":
    main()
