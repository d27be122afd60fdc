#!/usr/bin/env python3
"""Measures the program on generated schedules. Not part of the gate.

    bench/bench.py [PROGRAM] [--runs N] [--callgrind] [--keep FOLDER]

PROGRAM is the built program, by default out/proved/consensus_routing (PROVED=1 ./consensus_routing builds it).
For each schedule it prints the events, the seconds of a processor of the fastest of N runs (with the start of the program, reading
the file and writing the text), the events a second and the peak memory, as /usr/bin/time tells it; with --callgrind also the
instructions, which do not change with what else the machine does (two schedules with millions of lines are left out there). The
schedules are made from fixed seeds, so that each run measures the same.
"""
import argparse
import datetime
import os
import platform
import random
import re
import resource
import subprocess
import sys
import tempfile

HERE = os.path.dirname(os.path.abspath(__file__))
BUILT = os.path.join(HERE, "..", "out", "proved", "consensus_routing")


def tiers(count, providers, rng):
    """Nodes 1, 2 and 3 are peers of each other; each later node has some earlier ones as providers."""
    links = [(1, 2, "peer"), (1, 3, "peer"), (2, 3, "peer")]
    for node in range(4, count + 1):
        for provider in sorted(rng.sample(range(1, node), min(providers, node - 1))):
            links.append((provider, node, "customer"))
    return links


def head(count, links, prefixes):
    lines = [f"node {n}" + (" consolidator" if n <= 3 else "") for n in range(1, count + 1)]
    lines += [f"link {a} {b} {relation}" for a, b, relation in links]
    lines += [f"prefix {p}" for p in prefixes]
    return lines + ["begin"]


def ranges(count):
    return [f"10.{k}.0.0/16" for k in range(count)]


def cold_start():
    """48 nodes, each with links to four earlier ones, announce 60 prefixes at once: all is delivered."""
    rng = random.Random(1)
    prefixes = ranges(60)
    links = [(a, b, "any") for a, b, _ in tiers(48, 4, rng)]
    lines = head(48, links, prefixes)
    lines += [f"originate {1 + k * 7 % 48} {p}" for k, p in enumerate(prefixes)]
    return lines + ["drain 1000000", "show rib"]


def flapping_links():
    """48 nodes with 20 prefixes; one link after the other fails, is noticed, and comes up again."""
    rng = random.Random(2)
    prefixes = ranges(20)
    links = tiers(48, 2, rng)
    lines = head(48, links, prefixes)
    lines += [f"originate {1 + k * 5 % 48} {p}" for k, p in enumerate(prefixes)]
    lines.append("drain 1000000")
    for _ in range(100):
        a, b, _ = rng.choice(links[3:])
        lines += [f"fail {a} {b}", f"notice {a} {b}", f"notice {b} {a}", "drain 30"]
        lines += [f"restore {a} {b}", f"open {a} {b}", f"open {b} {a}", "drain 1000000"]
    return lines + ["show rib"]


def long_drains():
    """A chain of 64 nodes, at one end of which a prefix comes and goes; each change goes all the way."""
    links = [(n, n + 1, "any") for n in range(1, 64)]
    prefixes = ranges(8)
    lines = head(64, links, prefixes)
    for turn in range(120):
        for prefix in prefixes:
            lines.append(f"{'originate' if turn % 2 == 0 else 'withdraw'} 1 {prefix}")
        lines.append("drain 1000000")
    return lines + ["show rib"]


def idle_lines():
    """A million deliveries by hand over a link with nothing on its way, each of which says so."""
    lines = head(2, [(1, 2, "any")], ranges(1))
    return lines + ["deliver 1 2"] * 999_999


def long_log():
    """The text of the logs of a cold start, fifty times."""
    return cold_start()[:-1] + ["show log"] * 50


def epoch_cuts():
    """A cold start, and a cut of each node: all reports are on their way to the three consolidators."""
    return cold_start()[:-1] + ["snap 1", "drain 1000000"]


def epoch_closure():
    """The same, and the reports put together once."""
    return epoch_cuts() + ["show closure 1"]


def epoch_tables():
    """The same without that, a ballot, and the tables of all nodes."""
    return epoch_cuts() + ["ctl all 1000000", "propose 1 1", "ctl all 1000000", "show tables 1"]


def thirty_two_epochs():
    """A cold start, and 32 epochs one after the other in which nothing else happens: cuts, a ballot and the tables of all nodes."""
    epoch = ["snap 1", "drain 1000000", "ctl all 1000000", "propose 1 {}", "ctl all 1000000"]
    return cold_start()[:-1] + [line.format(number) for number in range(1, 33) for line in epoch] + ["show tables 32"]


def packets():
    """The tables of an epoch; then twenty links fail, and 4,096 packets go to their ends, on the tables and off them."""
    lines = epoch_cuts() + ["ctl all 1000000", "propose 1 1", "ctl all 1000000"]
    links = [line.split()[1:3] for line in lines if line.startswith("link")]
    prefixes = ranges(60)
    lines += [f"fail {a} {b}" for a, b in random.Random(3).sample(links, 20)]
    for packet in range(1, 4097):
        lines += [f"inject {packet} {1 + packet * 11 % 48} {prefixes[packet % 60]}", f"hop {packet} 1000"]
    return lines + ["show walk 4096"]


def held_back():
    """48 nodes, which hold back from their providers; prefixes come and go, and after every ten changes all that is held back is sent."""
    rng = random.Random(4)
    prefixes = ranges(20)
    links = tiers(48, 2, rng)
    held = [(customer, provider) for provider, customer, relation in links if relation == "customer"]
    lines = head(48, links, prefixes)
    lines[-1:] = [f"hold {a} {b}" for a, b in held] + ["begin"]
    owned = set()
    for _ in range(24):
        for place in (rng.randrange(20) for _ in range(10)):
            lines.append(f"{'withdraw' if place in owned else 'originate'} {1 + place * 5 % 48} {prefixes[place]}")
            owned ^= {place}
        for a, b in sorted(held, reverse=True):
            lines += [f"flush {a} {b}"]
        lines.append("drain 1000000")
    return lines + ["show rib"]


SCHEDULES = [
    cold_start,
    flapping_links,
    long_drains,
    held_back,
    idle_lines,
    long_log,
    epoch_cuts,
    epoch_closure,
    epoch_tables,
    thirty_two_epochs,
    packets,
]
LONG = [idle_lines, long_log]


def used():
    """The seconds of a processor that ended runs have used."""
    usage = resource.getrusage(resource.RUSAGE_CHILDREN)
    return usage.ru_utime + usage.ru_stime


def run(program, text, wanted=False):
    """The seconds of a processor and the peak MiB of one run, and its output where it is wanted."""
    with tempfile.TemporaryFile() as source, tempfile.TemporaryFile() as sink, tempfile.NamedTemporaryFile("r") as peak:
        source.write(text)
        source.seek(0)
        # a small process starts the program: the system counts the memory of whoever starts it too
        words = ["/usr/bin/time", "-o", peak.name, "-f", "%M", program, "replay"]
        before = used()
        done = subprocess.run(words, stdin=source, stdout=sink, stderr=subprocess.PIPE, check=False)
        seconds = used() - before
        if done.returncode != 0:
            sys.exit(f"{program} ended with {done.returncode}: {done.stderr.decode().strip()}")
        sink.seek(0)
        return seconds, int(peak.read()) / 1024, sink.read() if wanted else b""


def instructions(program, text):
    """How many instructions a run takes."""
    with tempfile.TemporaryFile() as source:
        source.write(text)
        source.seek(0)
        words = ["valgrind", "--tool=callgrind", "--callgrind-out-file=/dev/null", program, "replay"]
        done = subprocess.run(words, stdin=source, stdout=subprocess.DEVNULL, stderr=subprocess.PIPE, check=True)
    return int(re.search(r"Collected : (\d+)", done.stderr.decode())[1])


def text_of(lines):
    return ("\n".join(lines) + "\n").encode()


def events_of(program, lines):
    """How many events the run has: one for each line that is one, one for each delivery of a drain, which
    is an entry that came of an update or a greeting, or one of the markers of a snapshot, and one for each
    delivery of a control message, and one for each visit and each end of a packet's walk."""
    words = [line.split()[0] for line in lines[lines.index("begin") + 1:]]
    by_hand = sum(word not in ("show", "drain", "ctl", "inject", "hop") for word in words)
    if "drain" not in words:
        return by_hand
    quiet = [line for line in lines if not line.startswith("show")]
    # where no control message comes nothing is published, so logs have the same entries and none is dropped
    unpublished = [line for line in quiet if line.split()[0] not in ("propose", "ctl")]
    log = run(program, text_of(unpublished + ["show log"]), wanted=True)[2]
    taken = sum(b" recv " in line or b" ready " in line for line in log.splitlines())
    markers = 2 * words.count("snap") * sum(line.startswith("link") for line in lines)
    control = run(program, text_of(quiet + ["show ctl"]), wanted=True)[2] if "ctl" in words else b""
    mailed = sum(int(line.rsplit(b" x", 1)[1]) for line in control.splitlines())
    walks = [f"show walk {packet}" for packet in range(1, words.count("inject") + 1)]
    told = run(program, text_of(quiet + walks), wanted=True)[2] if walks else b""
    passed = sum(line.count(b"@") + (not line.endswith(b"moving")) for line in told.splitlines())
    return by_hand + taken + markers + mailed + passed - words.count("deliver")


def main():
    asked = argparse.ArgumentParser(description=__doc__, formatter_class=argparse.RawDescriptionHelpFormatter)
    asked.add_argument("program", nargs="?", default=BUILT)
    asked.add_argument("--runs", type=int, default=5)
    asked.add_argument("--callgrind", action="store_true", help="count instructions")
    asked.add_argument("--keep", help="write the schedules to this folder")
    asked = asked.parse_args()
    cores = os.cpu_count()
    print(f"{datetime.date.today()}, {platform.machine()}, {cores} processors, best of {asked.runs} runs")
    print("| Schedule | KiB | Events | Seconds | Events a second | MiB |" + (" Instructions, millions |" if asked.callgrind else ""))
    print("|---|---|---|---|---|---|" + ("---|" if asked.callgrind else ""))
    for make in SCHEDULES:
        lines = make()
        text = text_of(lines)
        if asked.keep:
            os.makedirs(asked.keep, exist_ok=True)
            with open(os.path.join(asked.keep, make.__name__ + ".schedule"), "wb") as file:
                file.write(text)
        events = events_of(asked.program, lines)
        runs = [run(asked.program, text) for _ in range(asked.runs)]
        seconds = min(r[0] for r in runs)
        memory = max(r[1] for r in runs)
        counted = f" {'' if make in LONG else round(instructions(asked.program, text) / 1e6)} |" if asked.callgrind else ""
        name = make.__name__.replace("_", " ")
        print(f"| {name} | {len(text) // 1024} | {events} | {seconds:.3f} | {events / seconds:,.0f} | {memory:.1f} |{counted}", flush=True)


if __name__ == "__main__":
    main()
