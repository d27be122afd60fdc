"""Tells what is on its way, whether a run is at rest, and how each drain ended.

    routing inflight FILE
    routing inflight FILE --line 12

It runs the schedule up to a line (default: the last) and asks of each way what is on it. Of each `drain` it tells whether it
ended at rest or at its number. Where a limit stops the run it tells at which line, and which node reached it.

A way is asked by further runs, each with deliveries over that way alone behind the line: so what is told is what the program
would deliver, markers included. Nothing of the schedule is changed by it. Logs are looked at before entries of them are dropped: what
those had sent and received counts."""
from . import program as programs
from . import schedule as schedules
from .flight import Links, Sent, on_way
from .logs import whole_logs
from .text import record
from .trouble import Trouble
from .watch import watch

NAME = "inflight"
IDLE = ": idle "


def add_arguments(parser):
    parser.add_argument("file", help="a schedule; - is standard input")
    parser.add_argument("--line", type=int, metavar="L", help="behind this line of the file, in place of the last one")
    programs.add_argument(parser)


def run(words):
    schedule = schedules.read(words.file)
    program = programs.find(words.program)
    count = len(schedule.lines) if words.line is None else schedule.place(words.line)
    if words.line is not None and count == 0:
        raise Trouble(f"line {words.line} stands before `begin` or at it: nothing has happened yet")
    done, note = whole_lines(program, schedule, count)
    if note:
        tell_limit(program, schedule, done, note)
        count = done
    for place, line in enumerate(schedule.lines[:count]):
        if line.first() == "drain":
            print(f"line {line.number}: {line.text()}: {'at rest' if at_rest(program, schedule, place + 1) else 'ended by its number'}")
    tell_ways(program, schedule, count)
    return 0


def front(schedule, count):
    """The first lines behind `begin`, without those that only write."""
    lines = [line.text() for line in schedule.head] + ([] if any(it.words == ["begin"] for it in schedule.head) else ["begin"])
    return lines + [line.text() for line in schedule.lines[:count] if line.first() not in ("show", "probe")]


def whole_lines(program, schedule, count):
    """How many of the first lines are done whole, and what stopped the next one."""
    steps, ran = watch(program, schedule.part(count), lambda line: [])
    return len(steps), ran.note


# At rest


def at_rest(program, schedule, count):
    """Whether no delivery would do anything behind the first lines."""
    return is_rest(program, schedule.network, front(schedule, count))


def is_rest(program, net, lines):
    """The same behind these lines: each delivery is tried, and none changes what the next one meets while all do nothing."""
    before = idle_lines(program.replay(lines))
    tried = [f"deliver {a} {b}" for a, b in net.ways()]
    return idle_lines(program.replay(lines + tried)) - before == len(tried)


def deliveries(program, net, lines, most):
    """How many deliveries a drain makes behind these lines, up to so many."""
    low, high = -1, most
    if not is_rest(program, net, lines + [f"drain {most}"]):
        return most
    while high - low > 1:
        middle = (low + high) // 2
        if is_rest(program, net, lines + ([f"drain {middle}"] if middle else [])):
            high = middle
        else:
            low = middle
    return high


def idle_lines(ran):
    return sum(IDLE in line for line in ran.lines())


# What is on its way


def tell_ways(program, schedule, count):
    where = f"behind line {schedule.lines[count - 1].number}" if count else "at the start"
    ways = list(waiting(program, schedule, count))
    if not any(number or state for _, number, state, _ in ways):
        print(f"{where}: at rest, nothing is on its way")
        return
    rest = at_rest(program, schedule, count)
    print(f"{where}: {'at rest, but something is on its way that cannot come' if rest else 'not at rest'}")
    for (a, b), number, state, told in ways:
        if number or state:
            print(f"  {a} to {b}: {'; '.join(told)}" + (f" [{state}]" if state else ""))


def waiting(program, schedule, count):
    """Each way with how much comes over it, why no more does, and what it is."""
    for way, told in sorted(seen_state(program, schedule, count).items()):
        number, reason = deliverable(program, schedule, count, way)
        if reason in ("crashed", "wrong session"):
            yield way, number, reason, told
        else:
            told = [it.rstrip("?") for it in told]
            # what deliveries say is what counts: logs do not always tell whether a marker came
            while len(told) > number:
                told.remove(next((it for it in told if it.startswith("marker")), told[-1]))
            yield way, number, "", told


def deliverable(program, schedule, count, way):
    """How many deliveries over a way do something, and why the next one does not."""
    lines, tried = front(schedule, count), 8
    while True:
        idle = [it for it in map(record, program.replay(lines + [f"deliver {way[0]} {way[1]}"] * tried).lines()) if it["kind"] == "idle" and it["line"] > len(lines)]
        if idle:
            return tried - len(idle), idle[0]["reason"]
        tried *= 4


def seen_state(program, schedule, count):
    """What is on each way as logs and cuts tell it."""
    part = schedule.part(count)
    links = Links(schedule.network)
    steps, _ = watch(program, part, lambda line: [])
    for step in steps:
        links.after(step.line, step.said)
    epochs = min(32, sum(line.first() == "snap" for line in part.lines))
    shown = [f"show cut {epoch}" for epoch in range(1, epochs + 1)]
    cuts, recorded = {}, {}
    for found in map(record, program.replay(front(schedule, count) + shown).lines()):
        if found["kind"] == "cut":
            cuts[found["node"], found["epoch"]] = None if found["length"] == "none" else found["length"]
        elif found["kind"] == "recorded":
            recorded[found["node"], found["epoch"], found["neighbour"], found["session"]] = found["state"]
    sent = {node: Sent().enter(log) for node, log in whole_logs(program, part).items()}
    return on_way(sent, cuts, recorded, links.carried, schedule.network.ways())


# Limits


def tell_limit(program, schedule, done, note):
    line = schedule.lines[done]
    kind = note.split()[1] if note.startswith("limit:") else ""
    part, made = schedule.part(done), ""
    if line.repeats():
        most = last_that_fits(program, front(schedule, done), line)
        part = schedule.part(done, *([schedules.Line(line.number, line.words[:-1] + [str(most)])] if most else []))
        made = f", after {most} events of it"
    print(f"line {line.number}: {line.text()}: {note}{made}")
    for told in who(program, part, kind):
        print(f"  {told}")


def last_that_fits(program, lines, line):
    """How many events the line may stand for before the limit stops it."""
    low, high = 0, int(line.words[-1])
    while high - low > 1:
        middle = (low + high) // 2
        if program.replay(lines + [" ".join(line.words[:-1] + [str(middle)])]).code == 0:
            low = middle
        else:
            high = middle
    return low


def who(program, schedule, kind):
    """Which nodes have the most of what is counted for each node, dropped entries counted as well."""
    counts = {}
    if kind not in ("entries", "updates", "triggers"):
        return
    for node, log in whole_logs(program, schedule).items():
        for entry in log:
            more = {"entries": 1, "updates": len(entry["sent"]), "triggers": int(entry["cause"] not in ("recv", "flush"))}[kind]
            counts[node] = counts.get(node, 0) + more
    for node, count in sorted(counts.items(), key=lambda it: (-it[1], it[0]))[:3]:
        yield f"node {node} has {count} {kind}"
    if kind == "triggers":
        yield f"all nodes together have {sum(counts.values())}"
