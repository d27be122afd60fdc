"""Where the nodes of a network stand in a picture: in tiers where links have customers and providers, else by forces.

All lengths are pixels. No two nodes touch, and a link that would run across a node bends around it."""
import math
from dataclasses import dataclass
from typing import Dict, List, Tuple

RADIUS = 15
BETWEEN = 56  # of two nodes of a row
ROW = 92  # between two rows
A_ROW = 16  # nodes at most
MARGIN = 48
ROUNDS = 250  # of the forces
CLEAR = RADIUS + 5  # what a link keeps from the middle of a node
BENDS = [0, 34, -34, 68, -68, 102, -102, 136, -136]


@dataclass
class Layout:
    width: float
    height: float
    places: Dict[int, Tuple[float, float]]
    bends: Dict[Tuple[int, int], Tuple[float, float]]  # of each link: the point that its curve leans to

    def curve(self, a, b):
        """From a to b: the two ends, and the point between that the curve leans to."""
        bend = self.bends[a, b] if (a, b) in self.bends else self.bends[b, a]
        return self.places[a], bend, self.places[b]


def layout(net):
    places = _tiers(net) if any(link.relation in ("customer", "provider") for link in net.links) else None
    places = places or _forces(net)
    bends = {}
    for link in net.links:
        bends[link.a, link.b] = _bend(link, places)
    return _framed(places, bends)


def point(curve, t):
    """The point of a curve at t, from 0 to 1."""
    (ax, ay), (cx, cy), (bx, by) = curve
    s = 1 - t
    return s * s * ax + 2 * s * t * cx + t * t * bx, s * s * ay + 2 * s * t * cy + t * t * by


def direction(curve, t):
    """Where a curve goes at t, as a step of length 1."""
    (x0, y0), (x1, y1) = point(curve, t - 0.01), point(curve, t + 0.01)
    length = math.hypot(x1 - x0, y1 - y0) or 1
    return (x1 - x0) / length, (y1 - y0) / length


def _framed(places, bends):
    """All moved so that nothing lies outside of the picture."""
    tops = [point((places[a], bend, places[b]), 0.5) for (a, b), bend in bends.items()]
    spots = list(places.values()) + tops or [(0, 0)]
    left, top = min(x for x, _ in spots) - MARGIN, min(y for _, y in spots) - MARGIN
    width, height = max(x for x, _ in spots) + MARGIN - left, max(y for _, y in spots) + MARGIN - top

    def moved(found):
        return {key: (x - left, y - top) for key, (x, y) in found.items()}

    return Layout(max(width, 240), max(height, 120), moved(places), moved(bends))


# Tiers: the nodes without a provider above, each other node below all its providers


def _tiers(net):
    rows = _rows(net)
    if rows is None:
        return None
    others = net.neighbours()
    wide = max(map(len, rows))
    at = {}
    for turn in range(6):
        for y, row in enumerate(rows):
            if turn:
                row.sort(key=lambda node: (_middle([at[other] for other in others[node] if other in at], at[node]), node))
            gap = wide / len(row)
            for place, node in enumerate(row):
                at[node] = (place + 0.5) * gap
                # rows do not stand in columns, so that fewer links run across nodes
                at[node] += 0.25 if y % 2 and len(row) == wide else 0
    return {node: (at[node] * BETWEEN, y * ROW) for y, row in enumerate(rows) for node in row}


def _middle(spots, own):
    return sum(spots) / len(spots) if spots else own


def _rows(net) -> List[List[int]]:
    """The tiers, a wide one in several rows. None where providers go round."""
    providers, tier = net.providers(), {}

    def depth(node, below):
        if node in below:
            return None
        if node not in tier:
            found = [depth(other, below | {node}) for other in providers[node]]
            if None in found:
                return None
            tier[node] = 1 + max(found) if found else 0
        return tier[node]

    if any(depth(node, frozenset()) is None for node in net.nodes):
        return None
    rows = []
    for level in range(max(tier.values()) + 1):
        members = [node for node in net.nodes if tier[node] == level]
        count = math.ceil(len(members) / A_ROW)
        rows += [members[place::count] for place in range(count)]
    return rows


# Forces: nodes push each other away, links pull


def _forces(net):
    count = max(len(net.nodes), 1)
    reach = max(BETWEEN * 1.5, BETWEEN * math.sqrt(count))
    spots = {}
    for place, node in enumerate(net.nodes):
        turn = 2 * math.pi * place / count
        spots[node] = [reach * math.cos(turn) * (1 + place % 3 / 9), reach * math.sin(turn) * (1 + place % 3 / 9)]
    wanted = BETWEEN * 1.5
    for turn in range(ROUNDS):
        heat = reach * 0.12 * (1 - turn / ROUNDS) + 1
        _push(net, spots, wanted, heat)
    for _ in range(60):
        if not _apart(spots):
            break
    return {node: (x, y) for node, (x, y) in spots.items()}


def _push(net, spots, wanted, heat):
    moves = {node: [0.0, 0.0] for node in spots}
    nodes = list(spots)
    for place, a in enumerate(nodes):
        for b in nodes[place + 1:]:
            dx, dy = spots[a][0] - spots[b][0], spots[a][1] - spots[b][1]
            square = max(dx * dx + dy * dy, 1)
            pull = wanted * wanted / square
            moves[a][0] += dx * pull
            moves[a][1] += dy * pull
            moves[b][0] -= dx * pull
            moves[b][1] -= dy * pull
    for link in net.links:
        a, b = link.a, link.b
        dx, dy = spots[a][0] - spots[b][0], spots[a][1] - spots[b][1]
        pull = math.hypot(dx, dy) / wanted
        moves[a][0] -= dx * pull
        moves[a][1] -= dy * pull
        moves[b][0] += dx * pull
        moves[b][1] += dy * pull
    for node, (dx, dy) in moves.items():
        # a little to the middle, so that parts without a link between them stay in sight
        dx, dy = dx - spots[node][0] * 0.05, dy - spots[node][1] * 0.05
        length = math.hypot(dx, dy) or 1
        spots[node][0] += dx / length * min(length, heat)
        spots[node][1] += dy / length * min(length, heat)


def _apart(spots):
    """Moves nodes that are too near to each other apart. Whether any were."""
    nodes, moved = list(spots), False
    for place, a in enumerate(nodes):
        for b in nodes[place + 1:]:
            dx, dy = spots[a][0] - spots[b][0], spots[a][1] - spots[b][1]
            length = math.hypot(dx, dy)
            if length < BETWEEN * 0.85:
                dx, dy = (dx / length, dy / length) if length > 0.01 else (1.0, 0.0)
                by = (BETWEEN * 0.85 - length) / 2 + 0.5
                spots[a][0] += dx * by
                spots[a][1] += dy * by
                spots[b][0] -= dx * by
                spots[b][1] -= dy * by
                moved = True
    return moved


# Links that bend around nodes


def _bend(link, places):
    """The point that the curve of a link leans to: the smallest bend that keeps clear of all other nodes, if one does."""
    (ax, ay), (bx, by) = places[link.a], places[link.b]
    length = math.hypot(bx - ax, by - ay) or 1
    across = (-(by - ay) / length, (bx - ax) / length)
    near = [spot for node, spot in places.items() if node not in (link.a, link.b) and _is_near(spot, places[link.a], places[link.b], length)]
    best = None
    for bend in BENDS:
        lean = ((ax + bx) / 2 + across[0] * bend * 2, (ay + by) / 2 + across[1] * bend * 2)
        met = _met((places[link.a], lean, places[link.b]), near)
        if best is None or met < best[0]:
            best = (met, lean)
        if not met:
            break
    return best[1]


def _is_near(spot, a, b, length):
    x, y = (a[0] + b[0]) / 2, (a[1] + b[1]) / 2
    return math.hypot(spot[0] - x, spot[1] - y) < length / 2 + 170


def _met(curve, near):
    steps = [point(curve, t / 20) for t in range(1, 20)]
    return sum(any(math.hypot(x - sx, y - sy) < CLEAR for x, y in steps) for sx, sy in near)
