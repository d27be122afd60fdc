"""Many runs from networks and a rule, over all processors or many machines, with the results in one CSV.

    routing campaign tiers:24:1 tiers:32:1 --rule multihomed --csv results.csv
    routing campaign caida.schedule --rule crashes --orders 3 --workers 2 --csv crashes.csv --plot pictures
    routing campaign tiers:64:1 --rule links --csv links.csv --scheduler 10.0.0.5:8786

A network is a schedule, whose lines before `begin` count, or `tiers:N:SEED`, which is drawn. The rules:

    links       each link fails in turn; the end with fewer links announces
    multihomed  each link from a node with two or more providers to one of them fails in turn; that node announces
    crashes     each node crashes in turn, and its neighbours notice; the node with the fewest links announces
    announce    nothing fails: the announcement itself spreads, from each node in turn

Each case is run with as many orders of deliveries as --orders says. Between the failure and rest, at each moment, each node
sends a packet: by the live routes, and under deflection, detour (by the node with the most links) and backup on the tables of
the epoch before. The columns of the CSV stand in docs/STUDY.md.

Rows come as they are done; the same command goes on where it was stopped. --scheduler takes the address of a scheduler of
dask.distributed (Debian: python3-distributed) and sends the tools and the program to its workers."""
import concurrent.futures
import csv
import os
import signal
import sys
import tempfile
import time
import zipfile
from pathlib import Path

from . import cases, measure, program, schedule, summary
from .network import MOST_NODES, tiered
from .shaping import prefer
from .trouble import MISSING, USAGE, Trouble

NAME = "campaign"
KEYS = ["network", "rule", "subject", "origin", "order"]


def add_arguments(parser):
    parser.add_argument("networks", nargs="+", metavar="NETWORK", help="a schedule, or tiers:N:SEED")
    parser.add_argument("--rule", choices=list(cases.RULES), default="links", help="what fails (default: links)")
    parser.add_argument("--orders", type=int, default=1, metavar="N", help="orders of deliveries of each case, by seeds 1 to N (default 1)")
    parser.add_argument(
        "--moments", type=int, default=64, metavar="N",
        help="moments at which packets are sent, at most, evenly from the failure to rest (default 64)",
    )
    parser.add_argument("--csv", required=True, metavar="FILE", help="the results; rows that are there already are not run again")
    parser.add_argument("--plot", metavar="FOLDER", help="write two plots there, as SVG")
    parser.add_argument(
        "--no-pref", action="store_true",
        help="leave preferences as the network has them; else customers are over peers over providers where it has none",
    )
    parser.add_argument("--most", type=int, metavar="N", help="stop behind N cases; the next call goes on")
    parser.add_argument("--workers", type=int, default=os.cpu_count(), metavar="N", help="processes (default: one for each processor)")
    parser.add_argument("--scheduler", metavar="ADDRESS", help="run on the workers of this scheduler of dask.distributed")
    program.add_argument(parser)


def run(words):
    if words.orders < 1 or words.moments < 1 or (words.workers or 1) < 1:
        raise Trouble("--orders, --moments and --workers are 1 or more", USAGE)
    nets = {name: network(name, words) for name in words.networks}
    found = program.find(words.program)
    table = Table(words.csv)
    wanted = [case for name, net in nets.items() for case in cases.cases_of(name, net, words.rule, words.orders)]
    todo = [case for case in wanted if case.key() not in table.done][: words.most]
    print(f"{len(wanted)} cases, {len(wanted) - len(todo)} of them not now" if len(todo) < len(wanted) else f"{len(wanted)} cases", file=sys.stderr)
    jobs = [(nets[case.network], case, words.moments) for case in todo]
    run_all(jobs, found, words, table)
    finish(table, wanted, words)
    return 0


def network(name, words):
    if name.startswith("tiers:"):
        parts = name.split(":")[1:]
        if len(parts) != 2 or not all(part.isdigit() for part in parts) or not 4 <= int(parts[0]) <= MOST_NODES:
            raise Trouble(f"{name}: wanted tiers:N:SEED, N from 4 to {MOST_NODES}", USAGE)
        net = tiered(*map(int, parts))
    else:
        net = schedule.read(name).network
    if not net.prefs and not words.no_pref:
        prefer(net)
    return net


class Table:
    """The CSV: its rows, and those that come."""

    def __init__(self, path):
        self.path, self.rows = Path(path), []
        try:
            if self.path.exists() and self.path.stat().st_size:
                self.rows = self._whole_rows()
                self.file = self.path.open("a", newline="", encoding="utf-8")
                self.writer = csv.DictWriter(self.file, measure.FIELDS, lineterminator="\n")
            else:
                self.file = self.path.open("w", newline="", encoding="utf-8")
                self.writer = csv.DictWriter(self.file, measure.FIELDS, lineterminator="\n")
                self.writer.writeheader()
        except OSError as cause:
            raise Trouble(f"cannot write {path}: {cause}") from None
        self.done = {tuple(row[key] for key in KEYS) for row in self.rows}

    def _whole_rows(self):
        """The rows; a last one that was cut off goes."""
        text = self.path.read_text(encoding="utf-8")
        whole = text[: text.rfind("\n") + 1]
        reader = csv.DictReader(whole.splitlines())
        if reader.fieldnames != measure.FIELDS:
            raise Trouble(f"{self.path} has other columns: it is no result of this version")
        if whole != text:
            self.path.write_text(whole, encoding="utf-8")
        return list(reader)

    def add(self, row):
        self.writer.writerow(row)
        self.file.flush()
        self.rows.append({name: str(value) for name, value in row.items()})


class Progress:
    """How much is done, and the time left, on standard error."""

    def __init__(self, count):
        self.count, self.begun, self.told, self.done = count, time.monotonic(), 0.0, 0
        self.is_terminal = sys.stderr.isatty()

    def step(self):
        self.done += 1
        now = time.monotonic()
        if now - self.told < (0.5 if self.is_terminal else 20) and self.done < self.count:
            return
        self.told = now
        gone = now - self.begun
        left = gone / self.done * (self.count - self.done)
        line = f"{self.done} of {self.count} cases, {clock(gone)} gone, about {clock(left)} left"
        print(f"\r{line}  " if self.is_terminal else line, end="" if self.is_terminal and self.done < self.count else "\n", file=sys.stderr, flush=True)


def clock(seconds):
    return f"{int(seconds) // 60}:{int(seconds) % 60:02}"


def run_all(jobs, found, words, table):
    if not jobs:
        return
    progress = Progress(len(jobs))
    rows = on_machines(jobs, found, words.scheduler) if words.scheduler else on_processors(jobs, found, words.workers)
    try:
        for row in rows:
            table.add(row)
            progress.step()
    except KeyboardInterrupt:
        raise Trouble(f"stopped with {progress.done} of {len(jobs)} cases done; the same command goes on there") from None


def on_processors(jobs, found, workers):
    # Ctrl-C is for this process alone: it lets the others end the case that they are at
    with concurrent.futures.ProcessPoolExecutor(workers, initializer=signal.signal, initargs=(signal.SIGINT, signal.SIG_IGN)) as pool:
        waiting = [pool.submit(measure.measure, found, *job) for job in jobs]
        try:
            for done in concurrent.futures.as_completed(waiting):
                yield done.result()
        finally:
            for job in waiting:
                job.cancel()


def on_machines(jobs, found, address):
    """The same on the workers of a scheduler, which get these tools and the program."""
    try:
        from distributed import Client, as_completed
    except ImportError:
        raise Trouble(f"--scheduler needs dask.distributed, which {sys.executable} has not (Debian: python3-distributed, for /usr/bin/python3)", MISSING) from None
    try:
        client = Client(address, timeout="20s")
    except (OSError, ValueError) as cause:
        raise Trouble(f"no scheduler at {address}: {cause}") from None
    with client, tempfile.TemporaryDirectory() as folder:
        if not client.scheduler_info()["workers"]:
            raise Trouble(f"the scheduler at {address} has no workers")
        client.upload_file(str(packed(folder)))
        content = client.scatter(Path(found.path).read_bytes(), broadcast=True)
        waiting = [client.submit(measure.measured, content, *job, pure=False) for job in jobs]
        for done in as_completed(waiting):
            yield done.result()
            done.release()


def packed(folder):
    """These tools as one file that Python can import from."""
    made = Path(folder) / "routing_tools.zip"
    with zipfile.ZipFile(str(made), "w") as archive:
        for file in sorted(Path(__file__).parent.iterdir()):
            if file.suffix in (".py", ".html"):
                archive.write(str(file), f"routing_tools/{file.name}")
    return made


def finish(table, wanted, words):
    keys = {case.key() for case in wanted}
    rows = [row for row in table.rows if tuple(row[key] for key in KEYS) in keys]
    if not rows:
        raise Trouble("no case of this rule in these networks")
    print("\n".join([*summary.table(rows), "", *summary.told(rows)]))
    if words.plot:
        Path(words.plot).mkdir(parents=True, exist_ok=True)
        for name, lines in summary.plots(rows):
            path = Path(words.plot) / f"{name}.svg"
            path.write_text("\n".join(lines) + "\n", encoding="utf-8")
            print(f"wrote {path}", file=sys.stderr)
