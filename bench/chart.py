"""Charts of curves as SVG: axes with units and round ticks, a mark for each curve, the spread of runs, and the command
that made it."""
from __future__ import annotations

import math
from dataclasses import dataclass, field

from zygos_tools.showing.svg import Drawing

WIDTH, HEIGHT, LEFT, RIGHT, BELOW = 820, 430, 84, 276, 92
BLUE, ORANGE, GREEN, GOLD, GRAY, PURPLE = "#1f5fa8", "#c0501f", "#3a8a3a", "#b8860b", "#6f6f6f", "#7b3fa0"
# the marks of points, so that curves differ without colours: circle, square, two triangles, diamond, cross
MARKS = ("m-3 0a3 3 0 1 0 6 0a3 3 0 1 0-6 0z", "m-3-3h6v6h-6z", "m0-4l4 7h-8z", "m0-4l4 4l-4 4l-4-4z", "m0 4l4-7h-8z",
         "m-3-3l6 6m0-6l-6 6")
# how many points of a computed curve have marks, at most
MOST_MARKS = 8


@dataclass
class Axis:
    """What an axis shows, from `low` to `high`; a logarithmic one begins above 0."""

    label: str
    low: float
    high: float
    ticks: list
    is_log: bool = False

    def place(self, value):
        """Where a value is, as a part of the axis."""
        change = math.log if self.is_log else float
        value = min(max(value, self.low), self.high)
        return (change(value) - change(self.low)) / (change(self.high) - change(self.low))


@dataclass
class Curve:
    """A named curve of points (x, y) or (x, y, least, most), measured or computed."""

    name: str
    colour: str
    points: list
    is_computed: bool = False
    notes: list = field(default_factory=list)


def linear(label, top, most=6):
    """An axis from 0 to a round number."""
    size = 10 ** math.floor(math.log10(top / most))
    step = next(size * part for part in (1, 2, 2.5, 5, 10) if top / (size * part) <= most)
    count = math.ceil(top / step - 1e-9)
    return Axis(label, 0, count * step, [step * at for at in range(count + 1)])


def logarithmic(label, low, high):
    """An axis with ticks at 1, 2 and 5 of each power of ten."""
    every = [part * 10**power for power in range(-3, 13) for part in (1, 2, 5)]
    return Axis(label, low, high, [tick for tick in every if low <= tick <= high], True)


def doubling(label, values):
    """A logarithmic axis with ticks at these values."""
    return Axis(label, values[0], values[-1], list(values), True)


def number(value):
    return f"{value:,.0f}" if value == round(value) else f"{value:,g}"


class Chart(Drawing):
    """A chart: a title, lines below it, two axes, curves, bounds, and notes below."""

    def __init__(self, title, lines, x, y):
        super().__init__()
        self.x, self.y, self.curves = x, y, 0
        self.title, self.about = title, "; ".join([*lines, f"upwards: {y.label}; across: {x.label}"])
        self.top = 34 + 16 * len(lines) + 12
        self.text(14, 24, title, size=15)
        for at, line in enumerate(lines):
            self.text(14, 42 + 16 * at, line, colour="#333333")
        self.named = self.top + 10
        self.draw_axes()

    def at(self, x, y):
        """The place of a point."""
        return (LEFT + self.x.place(x) * (WIDTH - LEFT - RIGHT),
                HEIGHT - BELOW - self.y.place(y) * (HEIGHT - BELOW - self.top))

    def draw_axes(self):
        right, bottom = self.at(self.x.high, self.y.low)
        for tick in self.y.ticks:
            up = self.at(self.x.low, tick)[1]
            self.line(LEFT, up, right, up, "#e2e2e2")
            self.text(LEFT - 7, up + 4, number(tick), "end")
        for tick in self.x.ticks:
            across = self.at(tick, self.y.low)[0]
            self.line(across, bottom, across, bottom + 5)
            self.text(across, bottom + 19, number(tick), "middle")
        self.line(LEFT, self.top, LEFT, bottom)
        self.line(LEFT, bottom, right, bottom)
        self.text((LEFT + right) / 2, bottom + 38, self.x.label, "middle")
        middle = (self.top + bottom) / 2
        self.text(20, middle, self.y.label, "middle", more=f' transform="rotate(-90 20 {middle:.1f})"')

    def bound(self, value):
        """A dotted line across the chart."""
        left, up = self.at(self.x.low, value)
        self.line(left, up, self.at(self.x.high, value)[0], up, "black", ' stroke-dasharray="2 3"')

    def within(self, points):
        """The points up to the first one above the chart, in whose place comes the one where the curve leaves it."""
        above = next((at for at, point in enumerate(points) if point[1] > self.y.high), len(points))
        shown = list(points[:above])
        if 0 < above < len(points) and math.isfinite(points[above][1]):
            change, back = (math.log, math.exp) if self.y.is_log else (float, float)
            (x1, y1), (x2, y2) = points[above - 1][:2], points[above][:2]
            part = (change(self.y.high) - change(y1)) / (change(y2) - change(y1))
            shown.append((x1 + part * (x2 - x1), back(change(self.y.high))))
        return shown

    def curve(self, curve):
        """Draws a curve: solid with full marks where it was measured, dashed with empty ones where it is computed. It
        ends at the edge."""
        shown = self.within(curve.points)
        dashes = ' stroke-dasharray="7 4"' if curve.is_computed else ""
        self.polyline([self.at(*point[:2]) for point in shown], curve.colour, f' stroke-width="2"{dashes}')
        for point in self.marked(curve, shown):
            across, up = self.at(*point[:2])
            if len(point) == 4:
                low, high = self.at(point[0], point[2])[1], self.at(point[0], point[3])[1]
                ends = "".join(f"M{across - 4:.1f} {end:.1f}h8" for end in (low, high))
                self.path(f"M{across:.1f} {low:.1f}V{high:.1f}{ends}", curve.colour)
            self.mark(curve, across, up)
        self.name(curve, dashes)
        self.curves += 1

    @staticmethod
    def marked(curve, shown):
        """The points that have marks: all that were measured, and some of those that were computed."""
        whole = shown[: len(shown) - (shown != curve.points[: len(shown)])]
        return whole[:: math.ceil(len(whole) / MOST_MARKS) or 1] if curve.is_computed else whole

    def mark(self, curve, x, y):
        """The mark of the curve that is drawn."""
        fill = "white" if curve.is_computed else curve.colour
        self.path(f"M{x:.1f} {y:.1f}{MARKS[self.curves % len(MARKS)]}", curve.colour, fill)

    def name(self, curve, dashes):
        """The curve's line, name and notes at the right."""
        x = WIDTH - RIGHT + 18
        self.line(x, self.named - 4, x + 26, self.named - 4, curve.colour, f' stroke-width="2"{dashes}')
        self.mark(curve, x + 13, self.named - 4)
        self.text(x + 32, self.named, curve.name, colour=curve.colour)
        for note in curve.notes:
            self.named += 15
            self.text(x + 32, self.named, note, size=11, colour="#333333")
        self.named += 23

    def note(self, *texts):
        """Lines at the right, below the names of the curves."""
        for text in texts:
            self.text(WIDTH - RIGHT + 18, self.named + 4, text, size=11, colour="#333333")
            self.named += 15

    def svg(self, command):
        """The chart; the command that made it is its last line."""
        self.text(14, HEIGHT - 14, f"made by: {command}", size=11, colour="#333333")
        return self.document(WIDTH, HEIGHT, self.title, self.about) + "\n"
