"""Draws what was measured as an SVG of three panels, on white, so that it can be read on a dark page too."""

import math

from names import BARE, HAND, TREE

WIDTH, HEIGHT = 1080, 400
PANEL, TALL = 270, 250
LEFT, TOP, STEP = 70, 80, 350
SERIES = [
    (TREE, TREE, "#b3261e", "", "circle"),
    (HAND, "by hand, with its test of the state", "#1a5fb4", "7 3", "square"),
    (BARE, "by hand, without that test", "#3a7d2c", "2 3", "triangle"),
]
PANELS = [
    ("tags", "Outstanding tags", "outstanding tags", "time per event (ns)", [1, 8, 16, 24, 32], 1),
    ("capacity", "Capacity", "capacity (sectors)", "time per event (ns)", [1, 16, 32, 48, 64], 1),
    ("totals", "Number of events", "events (millions)", "time of the run (ms)", None, 1e6),
]


def steps(greatest):
    """Round numbers from 0 to above the greatest."""
    raw = greatest / 5
    power = 10 ** math.floor(math.log10(raw))
    step = next(size * power for size in (1, 2, 5, 10) if size * power >= raw)
    return [step * n for n in range(math.ceil(greatest * 1.02 / step) + 1)]


def number(value):
    return f"{value:g}"


def text(x, y, words, size=13, anchor="middle", turn="", weight="normal"):
    turned = f' transform="rotate({turn} {x} {y})"' if turn else ""
    return (f'<text x="{x}" y="{y}" font-size="{size}" text-anchor="{anchor}" '
            f'font-weight="{weight}"{turned}>{words}</text>')


def mark(shape, x, y, color):
    x, y = round(x, 1), round(y, 1)
    if shape == "circle":
        return f'<circle cx="{x}" cy="{y}" r="3" fill="{color}"/>'
    if shape == "square":
        return f'<rect x="{x - 2.7:.1f}" y="{y - 2.7:.1f}" width="5.4" height="5.4" fill="{color}"/>'
    return f'<path d="M{x} {y - 3.6:.1f} l3.4 6 h-6.8 z" fill="{color}"/>'


class Panel:
    def __init__(self, place, panel, measured):
        name, self.title, self.x_title, self.y_title, x_ticks, self.unit = panel
        self.points = measured[name]
        self.left = LEFT + place * STEP
        self.y_ticks = steps(max(point[key] for point in self.points for key, *_ in SERIES))
        last = self.points[-1]["at"] / self.unit
        self.x_ticks = x_ticks or steps(last)
        self.x_most = max(last, self.x_ticks[-1])

    def x(self, value):
        return self.left + value / self.x_most * PANEL

    def y(self, value):
        return TOP + TALL - value / self.y_ticks[-1] * TALL

    def axes(self):
        bottom, right = TOP + TALL, self.left + PANEL
        out = [text(self.left + PANEL / 2, TOP - 12, self.title, 14, weight="bold")]
        for tick in self.y_ticks:
            y = round(self.y(tick), 1)
            out.append(f'<path d="M{self.left} {y} H{right}" stroke="#dddddd"/>')
            out.append(text(self.left - 7, y + 4, number(tick), 12, "end"))
        for tick in self.x_ticks:
            x = round(self.x(tick), 1)
            out.append(f'<path d="M{x} {bottom} v5" stroke="#222222"/>')
            out.append(text(x, bottom + 19, number(tick), 12))
        out.append(f'<path d="M{self.left} {TOP} V{bottom} H{right}" fill="none" stroke="#222222"/>')
        out.append(text(self.left + PANEL / 2, bottom + 40, self.x_title))
        out.append(text(self.left - 50, TOP + TALL / 2, self.y_title, turn="-90"))
        return out

    def lines(self):
        out = []
        for key, _, color, dashes, shape in SERIES:
            places = [(self.x(point["at"] / self.unit), self.y(point[key])) for point in self.points]
            path = " ".join(f"{x:.1f},{y:.1f}" for x, y in places)
            out.append(f'<polyline points="{path}" fill="none" stroke="{color}" stroke-width="1.6" '
                       f'stroke-dasharray="{dashes or "none"}"/>')
            out += [mark(shape, x, y, color) for x, y in places]
        return out


def legend():
    out, x = [], LEFT
    for _, words, color, dashes, shape in SERIES:
        out.append(f'<path d="M{x} 30 h34" stroke="{color}" stroke-width="1.6" stroke-dasharray="{dashes or "none"}"/>')
        out.append(mark(shape, x + 17, 30, color))
        out.append(text(x + 42, 34, words, 13, "start"))
        x += 75 + 7.2 * len(words)
    return out


def drawn(measured):
    out = [f'<svg xmlns="http://www.w3.org/2000/svg" viewBox="0 0 {WIDTH} {HEIGHT}" width="{WIDTH}" height="{HEIGHT}" '
           'font-family="Helvetica, Arial, sans-serif" fill="#222222">',
           "<title>Time of the event program against outstanding tags, capacity and number of events</title>",
           f"<desc>{measured['said']}</desc>",
           f'<rect width="{WIDTH}" height="{HEIGHT}" fill="#ffffff"/>', *legend()]
    for place, panel in enumerate(PANELS):
        drawing = Panel(place, panel, measured)
        out += drawing.axes() + drawing.lines()
    return "\n".join(out + ["</svg>"]) + "\n"


def write(measured, path):
    with open(path, "w") as out:
        out.write(drawn(measured))
