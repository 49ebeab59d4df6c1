"""Draws how costs grow: an SVG of lines over logarithms, written without a library.

Both axes are over the first point of a line, so that lines of other units compare: to the right how many times its number a point is, upwards
how many times its cost. A slope of 1 is growth in proportion, which a dashed line shows. Beside the lines is a legend of the costs themselves.
"""

import math
from collections import namedtuple
from xml.sax.saxutils import escape

# A cost over numbers that grow: its points are (number, cost).
Line = namedtuple("Line", "name unit points")

WIDTH, HEIGHT = 900, 560
LEFT, TOP, RIGHT, BOTTOM = 74, 60, 560, 490
LEGEND, STEP = 590, 62
# The colour and the mark of each line, which also differ in lightness and in form.
STYLES = [("#0b5fa5", "circle"), ("#c2410c", "square"), ("#15803d", "rise"), ("#7e22ce", "fall"), ("#a16207", "diamond"), ("#be185d", "cross"), ("#374151", "plus")]
MARKS = {
    "circle": "M-5,0 a5,5 0 1,0 10,0 a5,5 0 1,0 -10,0 Z",
    "square": "M-4.5,-4.5 H4.5 V4.5 H-4.5 Z",
    "rise": "M0,-6 L5.5,4.5 H-5.5 Z",
    "fall": "M0,6 L5.5,-4.5 H-5.5 Z",
    "diamond": "M0,-6.5 L5.5,0 L0,6.5 L-5.5,0 Z",
    "cross": "M-5,-5 L5,5 M-5,5 L5,-5",
    "plus": "M-6,0 H6 M0,-6 V6",
}


def short(value):
    """A number of three digits, or more before its point."""
    return f"{value:,.{max(0, 2 - math.floor(math.log10(value)))}f}"


def text(x, y, words, more=""):
    return f'<text x="{x:.1f}" y="{y:.1f}" {more}>{escape(words)}</text>'


class Plane:
    """The plane of the lines: from the logarithms of these numbers to places of the picture."""

    def __init__(self, points):
        self.low = (0, min(0, *(math.log10(y) for _, y in points)) - 0.1)
        self.high = tuple(max(0.5, *(math.log10(it[axis]) for it in points)) + 0.1 for axis in (0, 1))

    def place(self, x, y):
        """Where a point is."""
        parts = [(math.log10(it) - low) / (high - low) for it, low, high in zip((x, y), self.low, self.high)]
        return LEFT + parts[0] * (RIGHT - LEFT), BOTTOM - parts[1] * (BOTTOM - TOP)

    def grid(self):
        """Lines and numbers at 1, 2 and 5 times each power of ten, of which only those of the power have numbers if there are many."""
        for axis in (0, 1):
            low, high = self.low[axis], self.high[axis]
            for power in range(math.floor(low), math.ceil(high)):
                for digit in (1, 2, 5) if high - low < 2.5 else (1,):
                    value = digit * 10.0**power
                    if low <= math.log10(value) <= high:
                        yield from self.grid_line(axis, value)

    def grid_line(self, axis, value):
        x, y = self.place(*((value, 1) if axis == 0 else (1, value)))
        where, more = ((x, BOTTOM + 18), 'text-anchor="middle"') if axis == 0 else ((LEFT - 8, y + 4), 'text-anchor="end"')
        across = f"M{x:.1f},{TOP} V{BOTTOM}" if axis == 0 else f"M{LEFT},{y:.1f} H{RIGHT}"
        yield f'<path d="{across}" stroke="{"#9ca3af" if value == 1 else "#e5e7eb"}"/>'
        yield text(*where, f"{value:,.0f}" if value >= 1 else f"{value:g}", more)

    def proportion(self):
        """The line of growth in proportion."""
        end = 10 ** min(self.high)
        (left, low), (right, high) = self.place(1, 1), self.place(end, end)
        yield f'<path d="M{left:.1f},{low:.1f} L{right:.1f},{high:.1f}" stroke="#6b7280" stroke-width="1.5" stroke-dasharray="6 5"/>'


def relative(line):
    """The points of a line over its first."""
    number, cost = line.points[0]
    return [(x / number, y / cost) for x, y in line.points]


def drawn(plane, line, style):
    """A line with a mark at each point, which says its number and its cost to who points at it."""
    colour, mark = style
    places = [plane.place(*it) for it in relative(line)]
    yield f'<path d="M{" L".join(f"{x:.1f},{y:.1f}" for x, y in places)}" stroke="{colour}" stroke-width="2.5" fill="none"/>'
    for (x, y), (number, cost) in zip(places, line.points):
        said = escape(f"{line.name}: {short(cost)} {line.unit} at {number:,}")
        yield f'<path d="{MARKS[mark]}" transform="translate({x:.1f},{y:.1f})" fill="{colour}" stroke="{colour}" stroke-width="2"><title>{said}</title></path>'


def legend(at, line, style):
    """The name of a line on two rows, and its first and last cost."""
    colour, mark = style
    y, (what, cost) = TOP + 14 + at * STEP, line.name.split(": ")
    (first, least), (last, most) = line.points[0], line.points[-1]
    yield f'<path d="{MARKS[mark]}" transform="translate({LEGEND},{y - 5})" fill="{colour}" stroke="{colour}" stroke-width="2"/>'
    yield text(LEGEND + 16, y, what, f'font-weight="bold" fill="{colour}"')
    yield text(LEGEND + 16, y + 17, cost)
    yield text(LEGEND + 16, y + 34, f"{short(least)} {line.unit} at {first:,}, {short(most)} {line.unit} at {last:,}", 'fill="#4b5563"')


def parts(title, lines):
    """The elements of the picture."""
    plane = Plane([point for line in lines for point in relative(line)])
    yield f'<rect width="{WIDTH}" height="{HEIGHT}" fill="#ffffff"/>'
    yield text(LEFT, 30, title, 'font-size="18" font-weight="bold"')
    yield text((LEFT + RIGHT) / 2, BOTTOM + 46, "how many times the first number", 'text-anchor="middle"')
    yield text(0, 0, "how many times the first cost", f'text-anchor="middle" transform="translate(20,{(TOP + BOTTOM) / 2}) rotate(-90)"')
    yield from plane.grid()
    yield from plane.proportion()
    for at, line in enumerate(lines):
        style = STYLES[at % len(STYLES)]
        yield from drawn(plane, line, style)
        yield from legend(at, line, style)
    yield text(LEGEND + 16, TOP + 14 + len(lines) * STEP, "dashed: growth in proportion", 'fill="#4b5563"')


def draw(path, title, lines):
    """Writes the picture of these lines."""
    head = f'<svg xmlns="http://www.w3.org/2000/svg" viewBox="0 0 {WIDTH} {HEIGHT}" width="{WIDTH}" height="{HEIGHT}" font-family="sans-serif" font-size="13" fill="#111827">'
    with open(path, "w", encoding="utf-8") as it:
        it.write("\n".join([head, f"<title>{escape(title)}</title>", *parts(title, lines), "</svg>\n"]))
