"""Makes the calls of a run fail, one after the other, and tells how the run ends each time.

    routing faults
    routing faults --only node --most 20

Two runs are made again and again: `replay` of one epoch, and `node`, which answers one frame and is cut off in the second. Each
time one call of the C library is different: each allocation, read, write, send and receive, the line on standard error, and each
step of dialling fails, by each error that its manual page names, or moves one byte, or comes behind a signal. Then a standard file,
the reader or the peer is closed. Last, memory is limited by `ulimit -v`, in steps; a third run is there for that, `replay` of 48 nodes.
A fourth run dials a host by its name, and the look-up of the name fails.

The table tells how many runs were made, and how they ended: the status, the line on standard error, and which part of the bytes of
the whole run was written. A run that goes on as if nothing had been is `as the whole run`. A run that ends otherwise than
docs/SCHEDULES.md and docs/FRAMES.md say is marked with !, and the status is 1 then.

It needs Linux with the GNU C library, gcc and a shell: faults.c is compiled and put before that library (LD_PRELOAD)."""
import errno
import itertools
import signal
import socket
from collections import Counter
from dataclasses import dataclass, replace
from typing import List, Tuple

from . import program as programs
from .injection import NO_END, Subject, Way, injector
from .network import tiered
from .program import TOP
from .trouble import FOUND, USAGE, Trouble

NAME = "faults"
COUNTING = Way(kind="none")
NO_MEMORY, READ_FAULT, WRITE_FAULT, LINK_FAULT = (3, "no memory"), (6, "read fault"), (7, "write fault"), (8, "link fault")

TRANSFER = ["EAGAIN", "EBADF", "EFAULT", "EINTR", "EINVAL"]
LINKED = ["EACCES", "EALREADY", "ECONNREFUSED", "ECONNRESET", "EHOSTUNREACH", "ENETDOWN", "ENETUNREACH", "ENOBUFS", "ENOMEM", "ENOTCONN", "ENOTSOCK", "ETIMEDOUT"]
WRITING = TRANSFER + ["EDESTADDRREQ", "EDQUOT", "EFBIG", "EIO", "ENOSPC", "EPERM", "EPIPE"]
ERRORS = {
    "read": TRANSFER + ["EIO", "EISDIR"],
    "write": WRITING,
    "note": WRITING,
    "socket": ["EACCES", "EAFNOSUPPORT", "EINVAL", "EMFILE", "ENFILE", "ENOBUFS", "ENOMEM", "EPROTONOSUPPORT"],
    "dial": ["EACCES", "EADDRINUSE", "EADDRNOTAVAIL", "EAFNOSUPPORT", "EAGAIN", "EALREADY", "EBADF", "ECONNREFUSED", "EFAULT", "EHOSTUNREACH",
             "EINTR", "EISCONN", "ENETUNREACH", "ENOTSOCK", "EPERM", "EPROTOTYPE", "ETIMEDOUT"],
    "send": TRANSFER + LINKED + ["EDESTADDRREQ", "EISCONN", "EMSGSIZE", "EOPNOTSUPP", "EPIPE"],
    "receive": TRANSFER + LINKED,
}
LOOKUPS = ["EAI_AGAIN", "EAI_FAIL", "EAI_FAMILY", "EAI_MEMORY", "EAI_NONAME", "EAI_SERVICE"]
ENDS = {
    "allocation": NO_MEMORY, "look-up's allocation": LINK_FAULT, "read": READ_FAULT, "write": WRITE_FAULT, "note": None,
    "look-up": LINK_FAULT, "socket": LINK_FAULT, "dial": LINK_FAULT, "send": LINK_FAULT, "receive": LINK_FAULT,
}
WORDS = {
    "allocation": "each allocation", "look-up's allocation": "each allocation of the look-up", "read": "each read", "write": "each write",
    "note": "the line on standard error", "look-up": "the look-up of a name", "socket": "making the socket", "dial": "dialling", "send": "each send", "receive": "each receive",
}
SHORT = ["read", "write", "note", "send", "receive"]
SIGNALS = ["SIGTERM", "SIGINT", "SIGHUP", "SIGPIPE"]
SIGNALLED = ["read", "write", "socket", "dial", "send", "receive"]
# What becomes of bytes, where they go to a file and where they go to a peer.
READERS = {False: {"is closed": WRITE_FAULT}, True: {"is away": LINK_FAULT, "resets the link": LINK_FAULT}}
# Limits of memory: KiB of a step, how many steps in a row have to be enough, and the ends of what the system could not start.
STEP, ENOUGH = 128, 8
SYSTEMS, NOT_STARTED = {126, 127, -signal.SIGKILL, -signal.SIGSEGV}, "not started"
WHOLE, LARGE, NAMED = "as the whole run", "large", "named"
# The C library's own look-up may end the process where it gets no memory.
LIBRARY_ENDS, BY_LIBRARY = {-signal.SIGSEGV, -signal.SIGABRT}, "ended by the C library"


@dataclass(frozen=True)
class Attempt:
    """What is different, in words for the table, and the ends that it may have besides that of the whole run."""

    what: str
    how: str
    way: Way
    wanted: List[Tuple[int, str]]


def add_arguments(parser):
    parser.add_argument("--only", choices=["epoch", "node", LARGE, NAMED], help="this run alone")
    parser.add_argument("--most", type=int, metavar="N", help="at most N places of each kind of call, evenly from the first to the last (default: all)")
    programs.add_argument(parser)


def run(words):
    if words.most is not None and words.most < 1:
        raise Trouble("--most is 1 or more", USAGE)
    made, folder = injector(programs.find(words.program))
    bad = 0
    with folder:
        print("| Run | What fails | How | Runs | Status | Line on standard error | Written |\n|---|---|---|---|---|---|---|")
        for subject in subjects():
            if words.only in (None, subject.name):
                bad += tell(made, subject, words.most)
    return FOUND if bad else 0


# What is run


def subjects():
    cases = TOP / "crates" / "cases" / "data" / "nodes" / "a_frame_is_cut_off"
    try:
        epoch = (TOP / "crates" / "consensus_routing" / "stdin").read_bytes()
        network, frames = (cases.with_suffix(ending).read_text(encoding="utf-8") for ending in (".network", ".frames"))
    except OSError as cause:
        raise Trouble(f"cannot read a run: {cause}") from None
    sent = bytes.fromhex(" ".join(line.split("#")[0] for line in frames.splitlines()))
    yield Subject("epoch", ["replay"], epoch)
    yield Subject("node", ["node", "2"], network.encode(), sent)
    yield Subject(LARGE, ["replay"], "\n".join(large()).encode())
    yield Subject(NAMED, ["node", "2"], network.encode(), sent, "localhost")


def large():
    """A run that needs some MiB, and writes all the time."""
    net = tiered(48, 1)
    net.prefixes = [f"10.{place}.0.0/16" for place in range(30)]
    yield from net.lines()
    yield "begin"
    for place, prefix in enumerate(net.prefixes):
        yield from (f"originate {1 + place * 7 % 48} {prefix}", "drain 1000000", "show rib")
    yield from ("snap 1", "drain 1000000", "ctl all 16384", "propose 1 1", "ctl all 16384", "show tables 1")


# What fails


def tell(made, subject, most):
    """Writes the rows of one run, and answers how many of its attempts ended as they should not."""
    whole = made.run(subject, COUNTING)
    if whole.status == NO_END:
        raise Trouble(f"{made.program.path}: {subject.name} does not end")
    print(row(subject, "nothing", "", 1, End.of(whole, whole)))
    found, bad = {}, 0
    for attempt in attempts(subject, whole, most):
        end = End.of(made.run(subject, attempt.way), whole)
        if attempt.way.kind == "look-up's allocation" and end.status in LIBRARY_ENDS:
            end = replace(end, status=BY_LIBRARY, note="")
        bad += not end.may_be(attempt.wanted)
        found.setdefault(attempt.what, {}).setdefault(attempt.how, Counter())[end.told(attempt.wanted)] += 1
    for what, hows in found.items():
        for names, ends in merged(hows):
            for end, count in ends.items():
                print(row(subject, what, told(names, hows), count * len(names), end))
    return bad + (tell_limits(made, subject, whole) if subject.name != NAMED else 0)


@dataclass(frozen=True)
class End:
    """How a run ended, beside the whole run."""

    status: object
    note: str
    written: str

    @staticmethod
    def of(outcome, whole):
        front = whole.written.startswith(outcome.written)
        written = "all" if outcome.written == whole.written else "a front" if front and outcome.written else "nothing" if front else "other bytes"
        if written == "all" and (outcome.status, outcome.note) == (whole.status, whole.note):
            written = WHOLE
        return End(outcome.status, outcome.note, written)

    def may_be(self, wanted):
        """Whether the run went on as the whole one, or ended as is wanted with a front written."""
        return self.written == WHOLE or (self.written != "other bytes" and (self.status, self.note) in wanted)

    def told(self, wanted):
        """The same for the table, where a signal that was sent is not named again."""
        if not self.may_be(wanted):
            return replace(self, written=f"{self.written} !")
        return replace(self, status="that signal") if isinstance(self.status, int) and self.status < 0 else self


def attempts(subject, whole, most):
    for kind, count in whole.calls.items():
        if subject.name != LARGE and kind.startswith("look-up") == (subject.name == NAMED):
            yield from failing(kind, places(count, most), whole)
    if subject.name not in (LARGE, NAMED):
        yield from signalled(whole, most)
        yield from closed(subject, whole)


def places(count, most):
    """The places from 1 to `count`, or so many of them, evenly."""
    if most is None or count <= most:
        return list(range(1, count + 1))
    return sorted({1 + place * (count - 1) // max(1, most - 1) for place in range(most)})


def failing(kind, chosen, whole):
    for name, how in hows_of(kind):
        for place in chosen:
            more = [(BY_LIBRARY, "")] if kind == "look-up's allocation" else []
            yield Attempt(WORDS[kind], name, Way(kind, place, how), [ENDS[kind] or (whole.status, ""), *more])


def hows_of(kind):
    """How a call of this kind may fail: the word for the table, and that for the library."""
    if kind.endswith("allocation"):
        return [("ENOMEM once", str(errno.ENOMEM)), ("ENOMEM from there on", f"all {errno.ENOMEM}")]
    if kind == "look-up":
        return [(name, str(int(getattr(socket, name)))) for name in LOOKUPS]
    return [(name, str(getattr(errno, name))) for name in ERRORS[kind]] + ([("one byte", "short")] if kind in SHORT else [])


def signalled(whole, most):
    for name in SIGNALS:
        number = int(getattr(signal, name))
        for kind, count in whole.calls.items():
            for place in places(count, most) if kind in SIGNALLED else []:
                # the link is read once more behind the line on standard error
                ends = [(-number, note) for note in ("", whole.note)]
                yield Attempt("a signal before each call", name, Way(kind, place, f"signal {number}"), ends)


def closed(subject, whole):
    yield Attempt("standard input", "is closed", Way(shell="exec <&-"), [READ_FAULT])
    yield Attempt("standard output", "is closed", Way(shell="exec >&-"), [WRITE_FAULT])
    yield Attempt("standard error", "is closed", Way(shell="exec 2>&-"), [(whole.status, "")])
    for reader, end in READERS[subject.is_linked()].items():
        yield Attempt("its peer" if subject.is_linked() else "its reader", reader, Way(reader=reader), [end])


def tell_limits(made, subject, whole):
    """Limits memory in steps, from none to what is enough; writes one row for the steps that end alike."""
    ends, size = [], 0
    while len(ends) < ENOUGH or any(end.written != WHOLE for _, end in ends[-ENOUGH:]):
        size += STEP
        end = End.of(made.run(subject, Way(shell=f"ulimit -v {size}")), whole)
        ends.append((size, replace(end, status=NOT_STARTED, note="") if end.status in SYSTEMS and end.written == "nothing" else end))
    bad = 0
    for end, steps in itertools.groupby(ends, key=lambda it: it[1]):
        sizes = [step for step, _ in steps]
        is_wanted = end.may_be([NO_MEMORY]) or end.status == NOT_STARTED
        bad += 0 if is_wanted else len(sizes)
        print(row(subject, f"`ulimit -v`, by {STEP} KiB", f"{sizes[0]} to {sizes[-1]}", len(sizes), end if is_wanted else end.told([NO_MEMORY])))
    return bad


# The table


def merged(hows):
    """Ways to fail that end alike: their names, and how often each end came for one of them."""
    found = []
    for name, ends in hows.items():
        same = next((it for it in found if it[1] == ends), None)
        if same:
            same[0].append(name)
        else:
            found.append(([name], ends))
    return found


def told(names, hows):
    """These names in short, of all that were tried."""
    errors = [name for name in hows if name.startswith("E")]
    mine, others = [name for name in errors if name in names], [name for name in names if name not in errors]
    if len(mine) > 4:
        rest = ", ".join(name for name in errors if name not in mine)
        mine = [f"each of {len(errors)} errors" + (f" but {rest}" if rest else "")]
    return ", ".join(mine + others)


def row(subject, what, how, count, end):
    status = signal.Signals(-end.status).name if isinstance(end.status, int) and end.status < 0 else end.status
    return f"| {subject.name} | {what} | {how} | {count} | {status} | {f'`{end.note}`' if end.note else ''} | {end.written} |"
