"""One case of a campaign: what live routes and the three schemes make of packets, at moments between a failure and rest.

The origin announces one prefix; all is delivered; epoch 1 is published. Then the failure comes, and the updates that follow are
delivered one by one, in rounds: in each, every way gets one delivery, in an order drawn from the seed. A moment is the state
behind the failure or behind one of these deliveries.

By *live routes* a packet of a node goes at each node to the next one of its best path of that moment. It may come to the
origin, come to a node twice (loop), or to a node without a path or with a link that is down (none). By a *scheme* a packet
enters at that moment, is stamped with epoch 1, and goes to its end while no update moves."""
import hashlib
import os
import random
import stat
import tempfile
from dataclasses import dataclass, replace
from pathlib import Path
from typing import List

from .cases import Case, crashed, failure
from .network import Network
from .program import LIMIT, Program
from .trouble import Trouble

SCHEMES = ["deflect", "detour", "backup"]
TENTHS = 10
MOST_PACKETS = 4096
MOST_DELIVERIES = 20000
MOST_HOPS = 1000
FIELDS = ["network", "rule", "subject", "origin", "order", "sample", "nodes", "links", "deliveries", "rest", "moments", "packets"]
FIELDS += ["loop", "none", "worst", "touched", "apart"]
FIELDS += [f"{scheme}_{end}" for scheme in SCHEMES for end in ("lost", "expired", "stuck", "moves")]
FIELDS += ["loop_nodes", "none_nodes", "packets_by_tenth", "live_by_tenth"] + [f"{scheme}_by_tenth" for scheme in SCHEMES] + ["seconds"]


@dataclass
class Setting:
    """A case with all that its runs have in common."""

    case: Case
    net: Network
    detour: int
    failed: List[str]
    down: set

    def front(self, scheme):
        """The network, the announcement, and the tables of epoch 1; then the failure."""
        words = {"deflect": "deflect", "detour": f"detour {self.detour}", "backup": "backup"}[scheme]
        net = replace(self.net, transient=words, hops=MOST_HOPS, names={})
        told = [f"originate {self.case.origin} {net.prefixes[0]}", "drain 1000000"]
        first = net.consolidators[0]
        epoch = [f"snap {first}", "drain 1000000", "ctl all 16384", f"propose {first} 1", "ctl all 16384"]
        return [*net.lines(), "begin"] + (epoch + told[:1] if self.case.rule == "announce" else told + epoch) + self.failed

    def sources(self):
        """The nodes that send packets: all that are not the origin, have not crashed, and have a way to it over links that are up."""
        near, reached = self.net.neighbours(), {self.case.origin}
        todo = [self.case.origin]
        while todo:
            node = todo.pop()
            for other in near[node]:
                if frozenset((node, other)) not in self.down and other not in reached:
                    reached.add(other)
                    todo.append(other)
        alive = [node for node in self.net.nodes if node != self.case.origin and node not in crashed(self.case)]
        return [node for node in alive if node in reached], [node for node in alive if node not in reached]


def measure(program: Program, net: Network, case: Case, sample: int):
    """The row of a case. `sample` is how many moments packets are sent at, at most, evenly from first to last.

    Its seconds are those of a processor, those of the program among them."""
    begun = sum(os.times()[:4])
    plain = replace(net, prefixes=net.prefixes[:1] or ["10.0.0.0/8"], consolidators=net.consolidators or net.most_linked()[:1])
    setting = Setting(case, plain, plain.most_linked()[0], *failure(plain, case))
    order, rest = delivered(program, setting)
    sources, apart = setting.sources()
    moments = picked(len(order) + 1, sample)
    live = live_ends(program, setting, order, sources)
    row = dict(zip(FIELDS, (*case.key(), sample, len(net.nodes), len(net.links), len(order), int(rest), len(moments), len(moments) * len(sources))))
    ends = [live[moment] for moment in moments]
    lost = [sum(end != "ok" for end in moment) for moment in ends]
    row["loop"], row["none"] = (sum(moment.count(kind) for moment in ends) for kind in ("loop", "none"))
    row["worst"] = max((sum(end != "ok" for end in moment) for moment in live), default=0)
    row["touched"] = sum(any(moment[place] != "ok" for moment in live) for place in range(len(sources)))
    row["apart"] = len(apart)
    for kind in ("loop", "none"):
        row[f"{kind}_nodes"] = " ".join(str(source) for place, source in enumerate(sources) if any(moment[place] == kind for moment in live))
    row["packets_by_tenth"], row["live_by_tenth"] = by_tenth([len(sources)] * len(moments)), by_tenth(lost)
    for scheme in SCHEMES:
        row.update(scheme_counts(scheme, walks(program, setting, scheme, order, sources, moments)))
    row["seconds"] = f"{sum(os.times()[:4]) - begun:.2f}"
    return row


# The order of deliveries


def delivered(program, setting):
    """The deliveries from the failure to rest, in rounds; and whether rest came."""
    rng = random.Random(f"{setting.case.order} {setting.case.network} {setting.case.subject}")
    front, ways = setting.front("deflect"), setting.net.ways()
    rounds, count = [], 8
    while True:
        while len(rounds) < count:
            rounds.append(rng.sample(ways, len(ways)))
        tried = [way for turn in rounds for way in turn]
        idle = idle_of(program, front + [f"deliver {a} {b}" for a, b in tried], len(front))
        order = [way for place, way in enumerate(tried) if place not in idle]
        last = range(len(tried) - len(ways), len(tried))
        if all(place in idle for place in last):
            return order, True
        if len(order) > MOST_DELIVERIES:
            return order[:MOST_DELIVERIES], False
        count *= 2


def idle_of(program, lines, front):
    """Which of the lines behind the first ones did nothing, by place."""
    found = set()
    for line in checked(program, lines).lines():
        number, idle, _ = line.partition(": idle ")
        if idle:
            found.add(int(number) - front - 1)
    return found


def checked(program, lines):
    ran = program.replay(lines)
    if ran.code == LIMIT:
        raise Trouble(f"a run of {len(lines)} lines ended at a {ran.note}")
    return ran


def picked(count, most):
    """At most so many of the moments 0 to count - 1, evenly, the first and the last among them."""
    if count <= most:
        return list(range(count))
    return sorted({round(place * (count - 1) / (most - 1)) for place in range(most)}) if most > 1 else [0]


# What live routes make of packets


def live_ends(program, setting, order, sources):
    """For each moment, and each source, where its packet ends: ok, loop or none."""
    lines = setting.front("deflect") + ["show rib"]
    for a, b in order:
        lines += [f"deliver {a} {b}", "show rib"]
    found, shown = [], {}
    for line in checked(program, lines).lines():
        if line.startswith("rib "):
            head, _, path = line.partition(": ")
            words = path.split(" ", 2)
            shown[int(head.split(" ", 2)[1])] = int(words[1]) if len(words) > 1 else None
            if len(shown) == len(setting.net.nodes):
                found.append(followed(shown, setting, sources))
                shown = {}
    return found


def followed(nexts, setting, sources):
    known, dead = {setting.case.origin: "ok"}, crashed(setting.case)
    for source in sources:
        way, node = [], source
        while node not in known and node not in way:
            way.append(node)
            to = nexts[node]
            if to is None or to in dead or frozenset((node, to)) in setting.down:
                known[node] = "none"
            else:
                node = to
        # a walk that met itself loops
        end = known.get(node, "loop")
        known.update({met: end for met in way if met not in known})
    return [known[source] for source in sources]


# What the schemes make of them


def walks(program, setting, scheme, order, sources, moments):
    """For each of the moments the ends and moves of the packets that are sent then."""
    a_run = max(1, MOST_PACKETS // max(1, len(sources)))
    found = []
    for first in range(0, len(moments), a_run):
        found += walks_of_run(program, setting, scheme, order, sources, moments[first:first + a_run])
    return found


def walks_of_run(program, setting, scheme, order, sources, moments):
    lines, packet, at = setting.front(scheme), 0, set(moments)
    prefix = setting.net.prefixes[0]
    for moment in range(max(moments) + 1):
        lines += [f"deliver {order[moment - 1][0]} {order[moment - 1][1]}"] if moment else []
        for source in sources if moment in at else []:
            packet += 1
            lines += [f"inject {packet} {source} {prefix}", f"hop {packet} {2 * MOST_HOPS}", f"show walk {packet}"]
    told = [line for line in checked(program, lines).lines() if line.startswith("walk ")]
    ends = [(line.rpartition(" ")[2], moves_of(line)) for line in told]
    return [ends[place * len(sources):(place + 1) * len(sources)] for place in range(len(moments))]


def moves_of(line):
    """How many links a packet went over: its visits but the first, and but the one of the turn."""
    visits = line.count("@")
    turned = line.count("@t") not in (0, visits)
    return visits - 1 - int(turned)


def scheme_counts(scheme, moments):
    ends = [end for moment in moments for end in moment]
    lost = [sum(end != "delivered" for end, _ in moment) for moment in moments]
    return {
        f"{scheme}_lost": sum(lost),
        f"{scheme}_expired": sum(end == "expired" for end, _ in ends),
        f"{scheme}_stuck": sum(end == "stuck" for end, _ in ends),
        f"{scheme}_moves": sum(moves for end, moves in ends if end == "delivered"),
        f"{scheme}_by_tenth": by_tenth(lost),
    }


def by_tenth(counts):
    """The sums of ten parts of the time from the failure to rest."""
    parts = [0] * TENTHS
    for place, count in enumerate(counts):
        parts[place * TENTHS // len(counts)] += count
    return " ".join(map(str, parts))


# On other machines


def measured(content, net, case, sample):
    """The same, where the program is not there as a file: its bytes are written to one first."""
    return measure(Program(kept(content)), net, case, sample)


def kept(content):
    path = Path(tempfile.gettempdir()) / f"consensus_routing-{os.getuid()}-{hashlib.sha256(content).hexdigest()[:16]}"
    if not path.is_file() or path.read_bytes() != content:
        beside = path.with_name(f"{path.name}.{os.getpid()}.{random.getrandbits(32)}")
        beside.write_bytes(content)
        beside.chmod(stat.S_IRWXU)
        os.replace(str(beside), str(path))
    return str(path)
