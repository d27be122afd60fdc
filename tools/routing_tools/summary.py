"""What the rows of a campaign come to: a table by the size of the network, and two plots."""
from . import plot
from .measure import SCHEMES, TENTHS

COUNTED = ["deliveries", "moments", "packets", "loop", "none", "touched", "apart"]
COUNTED += [f"{scheme}_{end}" for scheme in SCHEMES for end in ("lost", "expired", "stuck", "moves")]
WORDS = {"deflect": "deflection", "detour": "detour", "backup": "backup"}
COLOURS = {"deflect": "#1b6ca8", "detour": "#5a9a52", "backup": "#7a5ab0"}
LOOP, NONE = "#b03a2e", "#e0a08a"


class Sums:
    """The sums of some rows."""

    def __init__(self, rows):
        self.rows = rows
        self.of = {name: sum(int(row[name]) for row in rows) for name in COUNTED}
        self.seconds = sum(float(row["seconds"]) for row in rows)
        self.restless = sum(row["rest"] == "0" for row in rows)

    def share(self, *names):
        """Of 100 packets, those that these counts have."""
        return 100 * sum(self.of[name] for name in names) / max(1, self.of["packets"])

    def moves(self, scheme):
        """Links that a delivered packet goes over, on average."""
        return self.of[f"{scheme}_moves"] / max(1, self.of["packets"] - self.of[f"{scheme}_lost"])

    def tenths(self, name):
        """Of 100 packets of each tenth, those that were lost."""
        parts = [[int(part) for part in row[f"{name}_by_tenth"].split()] for row in self.rows]
        sent = [[int(part) for part in row["packets_by_tenth"].split()] for row in self.rows]
        return [100 * sum(part[at] for part in parts) / max(1, sum(part[at] for part in sent)) for at in range(TENTHS)]

    def cases_without_loss(self, *names):
        """Of 100 cases, those in which no packet was lost so."""
        return 100 * sum(all(int(row[name]) == 0 for name in names) for row in self.rows) / max(1, len(self.rows))


def by_size(rows):
    sizes = sorted({int(row["nodes"]) for row in rows})
    return {size: Sums([row for row in rows if int(row["nodes"]) == size]) for size in sizes}


def table(rows):
    """A table in Markdown."""
    heads = ["Nodes", "Networks", "Cases", "Deliveries a case", "Packets", "Live: loop", "Live: no route"]
    yield "| " + " | ".join(heads + [f"{WORDS[scheme]} lost" for scheme in SCHEMES] + ["Minutes"]) + " |"
    yield "|---|---|---|---|---|---|---|---|---|---|---|"
    sizes = by_size(rows)
    for size, sums in [*sizes.items()] + ([("all", Sums(rows))] if len(sizes) > 1 else []):
        networks = len({row["network"] for row in sums.rows})
        cells = [size, networks, len(sums.rows), f"{sums.of['deliveries'] / len(sums.rows):.0f}", f"{sums.of['packets']:,}"]
        cells += [percent(sums.share("loop")), percent(sums.share("none"))]
        cells += [percent(sums.share(f"{scheme}_lost")) for scheme in SCHEMES]
        yield "| " + " | ".join(map(str, [*cells, f"{sums.seconds / 60:.1f}"])) + " |"


def percent(share):
    return "0" if share == 0 else f"{share:.2f} %"


def told(rows):
    """What the table leaves out, a line each."""
    sums = Sums(rows)
    yield f"links that a delivered packet goes over: {', '.join(f'{WORDS[it]} {sums.moves(it):.2f}' for it in SCHEMES)}"
    yield "lost under each scheme, expired and stuck: " + ", ".join(f"{WORDS[it]} {sums.of[it + '_expired']} and {sums.of[it + '_stuck']}" for it in SCHEMES)
    yield f"cases in which no packet is lost: live routes {sums.cases_without_loss('loop', 'none'):.1f} %, " + ", ".join(
        f"{WORDS[it]} {sums.cases_without_loss(it + '_lost'):.1f} %" for it in SCHEMES
    )
    looped = sum(int(row["loop"]) > 0 for row in rows)
    yield f"cases with a loop by live routes: {looped} of {len(rows)}; nodes without delivery at some moment: {sums.of['touched'] / len(rows):.1f} a case"
    if sums.restless:
        yield f"{sums.restless} cases never came to rest, and were cut off"
    if sums.of["apart"]:
        yield f"{sums.of['apart']} nodes were cut off from the origin by the failure, and send no packets"


def plots(rows):
    """Two plots, by name."""
    sizes = by_size(rows)
    shares = [("live: loop", LOOP, [it.share("loop") for it in sizes.values()]), ("live: no route", NONE, [it.share("none") for it in sizes.values()])]
    shares += [(WORDS[scheme], COLOURS[scheme], [it.share(f"{scheme}_lost") for it in sizes.values()]) for scheme in SCHEMES]
    yield "sizes", plot.bars("Packets that are lost, of 100", "", [f"{size} nodes" for size in sizes], shares)
    every = Sums(rows)
    times = [("live routes", LOOP, every.tenths("live"))] + [(WORDS[scheme], COLOURS[scheme], every.tenths(scheme)) for scheme in SCHEMES]
    yield "time", plot.lines("Packets that are lost, of 100, from the failure to rest", "", "tenth of the deliveries", [str(at + 1) for at in range(TENTHS)], times)
