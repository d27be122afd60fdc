"""The whole logs of a run that is watched: a node may drop the first entries of its log, and what was seen of them stays.

Entries go by their places in the whole log, which `show log` writes. They are made by no `ctl`, and dropped where a decision
comes, by `ctl` alone. So nothing is missed where logs are looked at before each `ctl` that comes behind lines that may make entries."""
from .trouble import Trouble
from .watch import watch


def before_drops(lines):
    """Behind how many of the lines logs have to be looked at so that each entry is seen before it may be dropped."""
    found, is_new = set(), False
    for place, line in enumerate(lines, 1):
        is_new = is_new or line.may_enter()
        if is_new and place < len(lines) and lines[place].first() == "ctl":
            found.add(place)
            is_new = False
    return found


class Logs:
    """What was seen of each log: all its entries, from the first that was ever made, and the place of the first that is kept."""

    def __init__(self, nodes):
        self.whole, self.first = {node: [] for node in nodes}, {node: 1 for node in nodes}

    def see(self, shown):
        """Takes what one `show log` wrote of all nodes, and tells what cannot be a later state of these logs."""
        kept = {node: [] for node in self.whole}
        for found in shown:
            if found["kind"] == "log":
                kept[found["node"]].append(found)
        for node, entries in kept.items():
            yield from self._see(node, entries)

    def _see(self, node, entries):
        whole, places = self.whole[node], [entry["place"] for entry in entries]
        first = places[0] if places else len(whole) + 1
        if places != list(range(first, first + len(places))):
            yield f"places: those of node {node} are {places}"
            return
        if first < self.first[node]:
            yield f"first: the log of node {node} begins with {first} again, and had dropped the entries before {self.first[node]}"
        if first > len(whole) + 1:
            yield f"missed: entry {len(whole) + 1} of node {node} was never shown, entry {first} is"
            return
        if first + len(places) <= len(whole):
            yield f"last: the log of node {node} ends with {first + len(places) - 1}, and has had {len(whole)} entries"
        for entry in entries:
            if entry["place"] > len(whole):
                whole.append(entry)
            elif entry != whole[entry["place"] - 1]:
                yield f"changed: entry {entry['place']} of node {node} is {entry}, and was {whole[entry['place'] - 1]}"
        self.first[node] = first


def whole_logs(program, schedule):
    """The whole log of each node behind the lines that are done whole, the entries that were dropped among them."""
    looks, logs = before_drops(schedule.lines) | {len(schedule.lines)}, Logs(schedule.network.nodes)
    places = iter(range(1, len(schedule.lines) + 1))
    steps, _ = watch(program, schedule, lambda line: ["show log"] if next(places) in looks else [])
    for place, step in enumerate(steps, 1):
        for complaint in logs.see(step.shown) if place in looks else ():
            raise Trouble(f"behind line {step.line.number}: {complaint}")
    return logs.whole
