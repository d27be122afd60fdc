"""Runs random schedules and tests what has to hold of every run.

    routing fuzz 1 2 3
    routing fuzz 1..500 --keep failures

Of each seed a schedule is drawn, with lines of every kind. Its logs are watched behind each line, so that entries which a node drops
are known. Tested are: places of entries, which log goes on with which entries, and that none is lost; what is dropped, and when;
routes, what each entry sends and what is received, by a plain model that is read from the whole logs; one decision an epoch; tables
that are those of the model over the complete entries, that continue and have no loop; no node twice on the tables, and moves within
the limit; `audit`, where the program has it. Where one fails, lines are deleted while it still fails, and what is left is written to
fuzz-SEED.schedule. The status is 1 then."""
import subprocess
import sys
from pathlib import Path

from . import program as programs
from .properties import failures
from .random_schedules import drawn
from .schedule import parse
from .trouble import FOUND, USAGE, Trouble

NAME = "fuzz"


def add_arguments(parser):
    parser.add_argument("seeds", nargs="+", metavar="SEED", help="numbers, or ranges as 1..500")
    parser.add_argument("--keep", metavar="FOLDER", default=".", help="where to write what fails (default: here)")
    programs.add_argument(parser)


def run(words):
    program, failed = programs.find(words.program), 0
    has_audit = "audit" in usage(program)
    if not has_audit:
        print("routing fuzz: this program has no audit: that is not tested", file=sys.stderr)
    seeds = seeds_of(words.seeds)
    for seed in seeds:
        lines = drawn(seed)
        found = first_failure(program, lines, has_audit)
        if found:
            failed += 1
            least = shrunk(program, lines, name_of(found), has_audit)
            path = keep(words.keep, seed, least, first_failure(program, least, has_audit))
            print(f"seed {seed}: {found}\n  {len(least)} of {len(lines)} lines: {path}")
    print(f"{len(seeds)} schedules, {failed} failed")
    return FOUND if failed else 0


def seeds_of(words):
    found = []
    for word in words:
        first, _, last = word.partition("..")
        if not first.isdigit() or not (last or first).isdigit():
            raise Trouble(f"{word} is no seed: wanted a number, or a range as 1..500", USAGE)
        found += range(int(first), int(last or first) + 1)
    return found


def usage(program):
    """The line that the program writes for words of no form."""
    return subprocess.run([program.path, "usage"], stdin=subprocess.DEVNULL, stdout=subprocess.DEVNULL, stderr=subprocess.PIPE, check=False).stderr.decode()


def first_failure(program, lines, has_audit):
    schedule = parse("\n".join(lines) + "\n", said=None)
    found = next(failures(program, schedule), None)
    return found or (audited(program, lines) if has_audit else None)


def audited(program, lines):
    """What `audit` says of the tables of all epochs, where it is no yes."""
    epochs = min(32, sum(line.startswith("snap") for line in lines))
    text = program.replay([line for line in lines if not line.startswith("show")] + [f"show tables {epoch}" for epoch in range(1, epochs + 1)]).text
    ran = subprocess.run([program.path, "audit"], input=text.encode(), stdout=subprocess.PIPE, stderr=subprocess.PIPE, check=False)
    return None if ran.returncode == 0 else f"audit: {ran.stderr.decode().strip() or ran.returncode}"


def name_of(failure):
    return failure.partition(":")[0]


def shrunk(program, lines, name, has_audit):
    """The lines without all that can be left out so that the same property fails."""

    def fails(less):
        try:
            return name_of(first_failure(program, less, has_audit) or "") == name
        except Trouble:  # the program refuses what is left
            return False

    while True:
        less = one_pass(lines, fails)
        if less == lines:
            return lines
        # a line that others needed may go once they are gone
        lines = less


def one_pass(lines, fails):
    """Each part of the lines is left out where the rest still fails: halves first, single lines last."""
    size = len(lines) // 2
    while size:
        place = 0
        while place < len(lines):
            less = lines[:place] + lines[place + size:]
            if fails(less):
                lines = less
            else:
                place += size
        size //= 2
    return lines


def keep(folder, seed, lines, found):
    path = Path(folder) / f"fuzz-{seed}.schedule"
    try:
        Path(folder).mkdir(parents=True, exist_ok=True)
        path.write_text(f"# {found}\n" + "\n".join(lines) + "\n", encoding="utf-8")
    except OSError as cause:
        raise Trouble(f"cannot write {path}: {cause}") from None
    return path
