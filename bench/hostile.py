#!/usr/bin/env python3
"""Measures schedules at the limits that ask for the same work again and again. Not part of the gate.

    bench/hostile.py [PROGRAM] [--keep FOLDER]

PROGRAM is the built program, by default out/proved/consensus_routing (PROVED=1 ./consensus_routing builds it). The schedules:

    ballots    64 nodes whose logs are nearly full, one cut of all, and 5,000 ballots for the value of their reports
    values     5,000 ballots for a value of 8,190 triggers
    closures   the logs of the first schedule, and `show closure` 1,000 times

In each ballot the one consolidator prepares, promises and proposes; its `Accept` never arrives, so no value is accepted, and each
ballot is again for the value of the reports. The table has the seconds of a processor and the peak memory, by /usr/bin/time.
"""
import argparse
import os
import subprocess
import sys
import tempfile

HERE = os.path.dirname(os.path.abspath(__file__))
BUILT = os.path.join(HERE, "..", "out", "proved", "consensus_routing")


def ballots(count, reports):
    """So many ballots, after so many reports were delivered: the messages of each are a Prepare, a Promise and an Accept."""
    lines, number = [], reports
    for _ in range(count):
        lines += ["propose 1 1", f"ctl {number + 1}", f"ctl {number + 2}"]
        number += 3
    return lines


def full_logs():
    """A tree of 64 nodes, in which a prefix comes and goes 500 times; then a cut of all."""
    lines = ["node 1 consolidator"] + [f"node {n}" for n in range(2, 65)]
    lines += [f"link {n // 2} {n} customer" for n in range(2, 65)] + ["prefix 10.0.0.0/8", "begin"]
    lines += ["originate 64 10.0.0.0/8", "drain 1000", "withdraw 64 10.0.0.0/8", "drain 1000"] * 500
    return lines + ["snap 1", "drain 5000", "ctl all 64"]


def large_value():
    """Five nodes hold back an update each, which lists 1,638 triggers; then a cut of all."""
    nodes = range(2, 7)
    lines = ["node 1 consolidator"] + [f"node {n}" for n in nodes] + [f"link 1 {n} customer" for n in nodes]
    lines += [f"prefix 10.{n}.0.0/16" for n in nodes] + [f"hold {n} 1" for n in nodes] + ["begin"]
    for n in nodes:
        lines += [f"originate {n} 10.{n}.0.0/16", f"withdraw {n} 10.{n}.0.0/16"] * 819
    return lines + ["snap 1", "drain 5000", "ctl all 64"]


SCHEDULES = {
    "ballots": lambda: full_logs() + ballots(5000, 64),
    "values": lambda: large_value() + ballots(5000, 6),
    "closures": lambda: full_logs() + ["show closure 1"] * 1000,
}


def used(program, text):
    """Seconds of a processor and peak KiB of a run."""
    with tempfile.TemporaryFile() as file, tempfile.NamedTemporaryFile("r") as times:
        file.write(text)
        file.seek(0)
        words = ["/usr/bin/time", "-o", times.name, "-f", "%U %S %M", program, "replay"]
        subprocess.run(words, stdin=file, stdout=subprocess.DEVNULL, check=True)
        user, system, most = times.read().split()
    return float(user) + float(system), int(most)


def main():
    asked = argparse.ArgumentParser(description=__doc__.split("\n")[0])
    asked.add_argument("program", nargs="?", default=BUILT)
    asked.add_argument("--keep", help="write the schedules to this folder")
    said = asked.parse_args()
    print("| Schedule | Seconds | MiB |\n|---|---|---|")
    for name, make in SCHEDULES.items():
        text = ("\n".join(make()) + "\n").encode()
        if said.keep:
            os.makedirs(said.keep, exist_ok=True)
            with open(os.path.join(said.keep, name + ".schedule"), "wb") as file:
                file.write(text)
        seconds, most = used(said.program, text)
        print(f"| {name} | {seconds:.2f} | {most / 1024:.1f} |")
    return 0


if __name__ == "__main__":
    sys.exit(main())
