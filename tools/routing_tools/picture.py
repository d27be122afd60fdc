"""A network, and what holds in it at one line of a schedule, as SVG."""
from xml.sax.saxutils import escape

from .layout import RADIUS, direction, point

COLOURS = {"customer": "#8a8a8a", "provider": "#8a8a8a", "peer": "#9db4c8", "any": "#b0b0b0"}
ROUTE, TABLE, STABLE, TRANSIENT, FLIGHT, DOWN = "#5a9a52", "#7a5ab0", "#1b6ca8", "#c8501e", "#d09000", "#c0392b"
LINE, LETTER = 18, 6.9  # of words below the picture: the height of a line, the width of a letter
DOTS = 4  # at most, of what is on its way on one way


def base(net, lay):
    """Links and nodes, which stay. Arrows point from provider to customer; a dotted link joins peers."""
    yield '<g class="links">'
    for link in net.links:
        yield f'<path id="l{link.a}_{link.b}" class="link" d="{curve_of(lay.curve(link.a, link.b))}" fill="none" {stroke(link)}><title>{told(link)}</title></path>'
        yield from tip(link, lay)
    yield "</g>"


def nodes(net, lay, crashed=()):
    yield '<g class="nodes">'
    for node in net.nodes:
        x, y = lay.places[node]
        fill = "#e8b0a8" if node in crashed else "white"
        width = 3.5 if node in net.consolidators else 1.2
        name = f"<title>{escape(net.names[node])}</title>" if node in net.names else ""
        yield f'<circle id="n{node}" cx="{x:.1f}" cy="{y:.1f}" r="{RADIUS}" fill="{fill}" stroke="black" stroke-width="{width}">{name}</circle>'
        size = 13 if node < 1000 else 10 if node < 10000 else 8.5
        yield f'<text x="{x:.1f}" y="{y + size * 0.36:.1f}" font-size="{size}" text-anchor="middle" font-weight="bold">{node}</text>'
    yield "</g>"


def told(link):
    return f"{link.b} is a {link.relation} of {link.a}" if link.relation != "any" else f"{link.a} and {link.b} export everything"


def stroke(link):
    dots = ' stroke-dasharray="2 4"' if link.relation == "peer" else ""
    return f'stroke="{COLOURS[link.relation]}" stroke-width="1.6"{dots}'


def tip(link, lay):
    """The small arrow from a provider to its customer."""
    if link.relation in ("customer", "provider"):
        ends = (link.a, link.b) if link.relation == "customer" else (link.b, link.a)
        yield arrow(lay.curve(*ends), 0.3, COLOURS["customer"], 4)


def curve_of(curve):
    (ax, ay), (cx, cy), (bx, by) = curve
    return f"M{ax:.1f} {ay:.1f} Q{cx:.1f} {cy:.1f} {bx:.1f} {by:.1f}"


def arrow(curve, t, colour, size):
    (x, y), (dx, dy) = point(curve, t), direction(curve, t)
    corners = ((x + dx * size, y + dy * size), (x - dx * size - dy * size, y - dy * size + dx * size), (x - dx * size + dy * size, y - dy * size - dx * size))
    return f'<path d="M{" L".join(f"{cx:.1f} {cy:.1f}" for cx, cy in corners)} z" fill="{colour}"/>'


def step(lay, a, b, colour, t=0.64, aside=0):
    """A coloured link with an arrow, from a to b."""
    curve = shifted(lay.curve(a, b), aside)
    return f'<path d="{curve_of(curve)}" fill="none" stroke="{colour}" stroke-width="3" stroke-opacity="0.75"/>' + arrow(curve, t, colour, 7)


def shifted(curve, aside):
    if not aside:
        return curve
    dx, dy = direction(curve, 0.5)
    return tuple((x - dy * aside, y + dx * aside) for x, y in curve)


def overlay(net, lay, flat, chosen):
    """What holds at a line: links that are down, routes or tables, what is on its way, a walk."""
    joined = {frozenset((link.a, link.b)) for link in net.links}
    for key in flat:
        if key.startswith("d "):
            a, b = map(int, key.split()[1:])
            yield f'<path d="{curve_of(lay.curve(a, b))}" fill="none" stroke="{DOWN}" stroke-width="2.5" stroke-dasharray="7 6"/>'
    for node in net.nodes:
        path = flat.get(chosen.route_key(node), "").split()
        if len(path) > 1 and frozenset((node, int(path[1]))) in joined:
            yield step(lay, node, int(path[1]), TABLE if chosen.epoch else ROUTE)
    for key, items in flat.items():
        if key.startswith("f "):
            a, b = map(int, key.split()[1:])
            yield from dots(lay.curve(a, b), items)
    yield from walk(lay, flat.get(f"w {chosen.packet}", ""))


def dots(curve, items):
    for place in range(min(DOTS, items.count(";") + 1)):
        t = 0.5 - 0.07 * place
        (x, y), (dx, dy) = point(curve, t), direction(curve, t)
        yield f'<circle cx="{x - dy * 7:.1f}" cy="{y + dx * 7:.1f}" r="4" fill="{FLIGHT}"><title>{escape(items)}</title></circle>'


def walk(lay, told_walk):
    visits = [visit.split("@") for visit in told_walk.split()[:-1]]
    for (a, _), (b, mode) in zip(visits, visits[1:]):
        if a != b:
            yield step(lay, int(a), int(b), TRANSIENT if mode == "t" else STABLE, aside=-6)


def below(net, flat, chosen, title):
    """What is drawn, in words."""
    yield "black", title
    yield "#555555", "small arrow: from provider to customer; dotted: peers; thick rim: consolidator"
    down = [key[2:].replace(" ", "-") for key in flat if key.startswith("d ")]
    crashed = [key[2:] for key in flat if key.startswith("c ")]
    if down or crashed:
        yield DOWN, "; ".join((["down: " + ", ".join(down)] if down else []) + (["crashed: " + ", ".join(crashed)] if crashed else []))
    routes = [(node, flat[chosen.route_key(node)]) for node in net.nodes if chosen.route_key(node) in flat]
    if routes:
        yield TABLE if chosen.epoch else ROUTE, f"tables of epoch {chosen.epoch} to {chosen.prefix}" if chosen.epoch else f"live routes to {chosen.prefix}"
        yield "black", "; ".join(whole(f"{node}: {path or 'none'}") for node, path in routes)
    flights = [f"{key[2:].replace(' ', ' to ')}: {items}" for key, items in flat.items() if key.startswith("f ")]
    if flights:
        yield FLIGHT, "on its way: " + "; ".join(map(whole, flights))
    if f"w {chosen.packet}" in flat:
        visits, _, state = flat[f"w {chosen.packet}"].rpartition(" ")
        moves = [visit.split("@") for visit in visits.split()]
        stamp = moves[0][1] if moves else "t"
        yield STABLE, f"packet {chosen.packet}" + (f" on the tables of epoch {stamp}: " + " ".join(n for n, mode in moves if mode != "t") if stamp != "t" else "")
        if any(mode == "t" for _, mode in moves):
            yield TRANSIENT, "off the tables: " + " ".join(n for n, mode in moves if mode == "t") + f", {state}"
        else:
            yield STABLE, state


def whole(words):
    """Words that stay in one line where they fit: no line is cut at a no-break space."""
    return words.replace(" ", "\u00a0") if len(words) < 40 else words


def wrapped(words, width):
    """Lines of at most so many letters, cut at spaces where there is one."""
    line = ""
    for word in words.split(" "):
        while len(word) > width:
            yield from ([line] if line else [])
            line, word = word[:width], word[width:]
        if line and len(line) + 1 + len(word) > width:
            yield line
            line = word
        else:
            line = f"{line} {word}" if line else word
    yield line


def svg(net, lay, flat, chosen, title):
    """The whole picture, with the words below it."""
    width = max(lay.width, 420)
    letters = int((width - 40) / LETTER)
    rows = [(colour, line) for colour, words in below(net, flat, chosen, title) for line in wrapped(words, letters)]
    height = lay.height + LINE * (len(rows) + 1)
    crashed = [int(key[2:]) for key in flat if key.startswith("c ")]
    size = f'width="{width:.0f}" height="{height:.0f}" viewBox="0 0 {width:.0f} {height:.0f}"'
    yield f'<svg xmlns="http://www.w3.org/2000/svg" {size} font-family="DejaVu Sans, Verdana, sans-serif">'
    yield f'<rect width="{width:.0f}" height="{height:.0f}" fill="white"/>'
    yield from base(net, lay)
    yield from overlay(net, lay, flat, chosen)
    yield from nodes(net, lay, crashed)
    for place, (colour, words) in enumerate(rows):
        yield f'<text x="20" y="{lay.height + LINE * (place + 0.7):.0f}" font-size="12" fill="{colour}">{escape(words)}</text>'
    yield "</svg>"
