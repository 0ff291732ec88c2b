#!/usr/bin/env python3
"""Plots one attribute over another, a point for each row of a query's answer.

    sorachest-plot station.img 'SELECT minute, celsius FROM readings'              in the terminal
    sorachest-plot station.img 'SELECT at, celsius FROM readings' --svg --title Attic > readings.svg

The first name of the query is the horizontal axis, and the second the vertical one. Numbers that look like
milliseconds since 1970, from the year 2000 on, are written as dates of UTC; --numbers writes them as numbers.
"""
import argparse
import math
import sys
from xml.sax.saxutils import escape

from sorachest import tool
from sorachest.dbapi import connect
from sorachest.errors import Error
from sorachest.values import datetime_of

WIDTH, HEIGHT = 800, 480
LEFT, RIGHT, TOP, BOTTOM = 110, 50, 54, 60
ROWS = 20
# if there are more points, a line through them is clearer
MOST_DOTS = 400

SECOND = 1000
HOUR = 3600 * SECOND
DAY = 24 * HOUR
CLOCK_STEPS = (
    *(it * SECOND for it in (1, 5, 15, 60, 300, 900)), HOUR, 3 * HOUR, 6 * HOUR, 12 * HOUR,
    *(it * DAY for it in (1, 2, 7, 30, 90, 365)),
)
# 2000-01-01 and 2100-01-01
CLOCK = range(946684800000, 4102444800000)


class Unfit(Exception):
    """The answer does not have two columns of numbers."""


def read_points(wanted):
    """The names of both axes, and the points."""
    with connect(wanted.line, speed=wanted.speed, timeout=wanted.timeout) as station:
        cursor = station.cursor()
        cursor.execute(wanted.query)
        names = [it[0] for it in cursor.description or ()]
        points = cursor.fetchall() if names else []
    if len(names) != 2 or not all(isinstance(it, int) for point in points for it in point):
        raise Unfit(f"{wanted.query}: the answer does not have two columns of numbers")
    return names, points


class Axis:
    """An axis of numbers, or of times if all of them look like times."""

    def __init__(self, numbers, is_number=False):
        self.low, self.high = min(numbers, default=0), max(numbers, default=0)
        self._is_clock = not is_number and self.low in CLOCK and self.high in CLOCK

    def place(self, number, length):
        """The place of a number on the axis, from 0 to 1; the middle if all numbers are equal."""
        if self.low == self.high:
            return length / 2
        return (number - self.low) * length / (self.high - self.low)

    def ticks(self, most):
        """Round numbers from the first to the last."""
        least = (self.high - self.low) / most
        step = next((it for it in CLOCK_STEPS if it >= least), None) if self._is_clock else None
        if step is None:
            step = 1
            while self.high - self.low > most * step:
                step = step * 5 // 2 if str(step).startswith("2") else step * 2
        return range(-(-self.low // step) * step, self.high + 1, step)

    def text(self, number):
        """The label of a number on the axis: of a time, the part in which it differs from the others."""
        if not self._is_clock:
            return str(number)
        time, span = datetime_of(number), self.high - self.low
        if span > 12 * DAY:
            return f"{time:%Y-%m-%d}"
        return f"{time:%m-%d %H:%M}" if span > 2 * HOUR else f"{time:%H:%M:%S}"

    def end(self, number):
        """The whole label of the first or the last number."""
        return f"{datetime_of(number):%Y-%m-%d %H:%M}" if self._is_clock else str(number)


def axes(points, is_number):
    return Axis([x for x, _ in points], is_number), Axis([y for _, y in points], is_number)


def thinned(places):
    """The points of a line, without those that change nothing in the picture."""
    columns = {}
    for x, y in places:
        columns.setdefault(math.floor(x * 2), []).append((x, y))
    for column in columns.values():
        heights = [y for _, y in column]
        ends = {0, len(column) - 1, heights.index(min(heights)), heights.index(max(heights))}
        yield from (column[it] for it in sorted(ends))


def paths(places):
    """A path for all dots, unless there are many, and one for a line through them, if they go from left to right."""
    is_line = len(places) > 1 and all(one[0] <= other[0] for one, other in zip(places, places[1:]))
    if is_line:
        line = "L".join(f"{x:.1f} {y:.1f}" for x, y in thinned(places))
        yield f'<path class="line" d="M{line}" fill="none" stroke="steelblue" stroke-linejoin="round"/>'
    if places and not (is_line and len(places) > MOST_DOTS):
        dots = dict.fromkeys(f"M{x:.1f} {y:.1f}h0" for x, y in places)
        form = 'fill="none" stroke="steelblue" stroke-width="5" stroke-linecap="round"'
        yield f'<path class="dots" d="{"".join(dots)}" {form}/>'


def svg(names, points, title, is_number):
    """The points as the lines of an SVG."""
    right, up = axes(points, is_number)
    wide, high = WIDTH - LEFT - RIGHT, HEIGHT - TOP - BOTTOM
    bottom = HEIGHT - BOTTOM
    box = f'viewBox="0 0 {WIDTH} {HEIGHT}"'
    yield f'<svg xmlns="http://www.w3.org/2000/svg" {box} font-family="sans-serif" font-size="13">'
    yield f"<title>{escape(title)}</title>"
    yield f'<rect width="{WIDTH}" height="{HEIGHT}" fill="white"/>'
    yield f'<text x="{WIDTH / 2}" y="24" text-anchor="middle" font-size="16">{escape(title)}</text>'
    yield f'<path d="M{LEFT} {TOP}V{bottom}H{WIDTH - RIGHT}" fill="none" stroke="black"/>'
    for number in right.ticks(6):
        x = LEFT + right.place(number, wide)
        yield f'<path d="M{x:.1f} {bottom}v5" stroke="black"/>'
        yield f'<text x="{x:.1f}" y="{bottom + 20}" text-anchor="middle">{right.text(number)}</text>'
    for number in up.ticks(8):
        y = bottom - up.place(number, high)
        yield f'<path d="M{LEFT} {y:.1f}h-5" stroke="black"/>'
        yield f'<text x="{LEFT - 8}" y="{y + 4:.1f}" text-anchor="end">{up.text(number)}</text>'
    yield f'<text x="{LEFT + wide / 2}" y="{HEIGHT - 12}" text-anchor="middle">{escape(names[0])}</text>'
    yield f'<text x="{LEFT}" y="{TOP - 12}" text-anchor="middle">{escape(names[1])}</text>'
    yield from paths([(LEFT + right.place(x, wide), bottom - up.place(y, high)) for x, y in points])
    yield "</svg>"


def text(names, points, title, width, is_number):
    """The points as lines of text: `*` for one in a place, and `#` for more."""
    right, up = axes(points, is_number)
    margin = max(len(up.end(it)) for it in (up.low, up.high))
    columns = max(10, width - margin - 2)
    grid = [[" "] * columns for _ in range(ROWS)]
    for x, y in points:
        row, column = round(up.place(y, ROWS - 1)), round(right.place(x, columns - 1))
        grid[row][column] = "*" if grid[row][column] == " " else "#"
    yield f"{title}, {len(points)} rows"
    for row in reversed(range(ROWS)):
        number = {0: up.end(up.low), ROWS - 1: up.end(up.high)}.get(row, "")
        yield f"{number:>{margin}} |{''.join(grid[row])}".rstrip()
    yield f"{'':{margin}} +{'-' * columns}"
    first, last = right.end(right.low), right.end(right.high)
    yield f"{'':{margin}}  {first} {last:>{max(0, columns - len(first) - 1)}}"


def draw(wanted):
    """Draws the answer of the query."""
    names, points = read_points(wanted)
    title = "".join(it for it in wanted.title or f"{names[1]} over {names[0]}" if it.isprintable())
    if wanted.svg:
        print(*svg(names, points, title, wanted.numbers), sep="\n")
    else:
        print(*text(names, points, title, wanted.width, wanted.numbers), sep="\n")


def width(text):
    """The width of a line in characters."""
    if not text.isdecimal() or not 1 <= int(text) <= 1000:
        raise argparse.ArgumentTypeError(f"{text!r} is not from 1 to 1000")
    return int(text)


def main():
    parser = tool.parser(__doc__)
    tool.add_line(parser)
    parser.add_argument("query", help="a SELECT of two names, or a JOIN")
    parser.add_argument("--svg", action="store_true", help="write an SVG")
    parser.add_argument("--title", help="the title (the names of both)")
    parser.add_argument("--numbers", action="store_true", help="write times as numbers")
    parser.add_argument("--width", type=width, default=80, help="characters of a line in the terminal (80)")
    wanted = parser.parse_args()
    return tool.run(lambda: draw(wanted), Unfit, Error)


if __name__ == "__main__":
    sys.exit(main())
