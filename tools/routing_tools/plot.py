"""Plots as SVG, written without a library: bars by group, and lines. So they look the same on every machine."""
from xml.sax.saxutils import escape

WIDTH, HEIGHT = 720, 380
LEFT, RIGHT, TOP, BOTTOM = 64, 20, 64, 56


def bars(title, unit, groups, series):
    """One bar for each series in each group. `series` is a list of a name, a colour, and a value for each group."""
    top = nice(max((value for _, _, values in series for value in values), default=1))
    yield from frame(title, unit, top, series)
    wide = (WIDTH - LEFT - RIGHT) / max(1, len(groups))
    bar = min(40, wide * 0.8 / len(series))
    for at, group in enumerate(groups):
        middle = LEFT + wide * (at + 0.5)
        yield text(middle, HEIGHT - BOTTOM + 20, group, "middle")
        for rank, (_, colour, values) in enumerate(series):
            x, high = middle + (rank - len(series) / 2) * bar, (HEIGHT - TOP - BOTTOM) * values[at] / top
            place = f'x="{x:.1f}" y="{HEIGHT - BOTTOM - high:.1f}" width="{bar - 2:.1f}" height="{high:.1f}"'
            yield f'<rect {place} fill="{colour}"><title>{values[at]:.2f}</title></rect>'
    yield "</svg>"


def lines(title, unit, below, points, series):
    """One line for each series over the same points, which are words below the axis."""
    top = nice(max((value for _, _, values in series for value in values), default=1))
    yield from frame(title, unit, top, series)
    wide = (WIDTH - LEFT - RIGHT) / max(1, len(points))
    for at, word in enumerate(points):
        yield text(LEFT + wide * (at + 0.5), HEIGHT - BOTTOM + 18, word, "middle")
    yield text((LEFT + WIDTH - RIGHT) / 2, HEIGHT - 14, below, "middle")
    for _, colour, values in series:
        spots = [(LEFT + wide * (at + 0.5), HEIGHT - BOTTOM - (HEIGHT - TOP - BOTTOM) * value / top) for at, value in enumerate(values)]
        yield f'<polyline points="{" ".join(f"{x:.1f},{y:.1f}" for x, y in spots)}" fill="none" stroke="{colour}" stroke-width="2.5"/>'
        yield from (f'<circle cx="{x:.1f}" cy="{y:.1f}" r="3.5" fill="{colour}"/>' for x, y in spots)
    yield "</svg>"


def nice(most):
    """A round number that is no lower."""
    size = 1.0
    while size < most:
        size *= 10
    while size / 10 >= most > 0:
        size /= 10
    return next((size * part for part in (0.1, 0.2, 0.3, 0.4, 0.5, 0.6, 0.8, 1.0) if size * part >= most), 1.0)


def frame(title, unit, top, series):
    size = f'width="{WIDTH}" height="{HEIGHT}" viewBox="0 0 {WIDTH} {HEIGHT}"'
    yield f'<svg xmlns="http://www.w3.org/2000/svg" {size} font-family="DejaVu Sans, Verdana, sans-serif" font-size="12">'
    yield f'<rect width="{WIDTH}" height="{HEIGHT}" fill="white"/>'
    yield f'<text x="{LEFT}" y="20" font-size="14" font-weight="bold">{escape(title)}</text>'
    x = LEFT
    for name, colour, _ in series:
        yield f'<rect x="{x}" y="32" width="12" height="12" fill="{colour}"/>'
        yield text(x + 17, 43, name, "start")
        x += 30 + int(7.4 * len(name))
    for part in range(5):
        y = HEIGHT - BOTTOM - (HEIGHT - TOP - BOTTOM) * part / 4
        yield f'<line x1="{LEFT}" y1="{y:.1f}" x2="{WIDTH - RIGHT}" y2="{y:.1f}" stroke="#dddddd"/>'
        yield text(LEFT - 8, y + 4, f"{top * part / 4:.4g}{unit}", "end")


def text(x, y, words, anchor):
    return f'<text x="{x:.1f}" y="{y:.1f}" text-anchor="{anchor}">{escape(str(words))}</text>'
