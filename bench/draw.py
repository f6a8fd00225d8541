#!/usr/bin/env python3
"""Draws the times of a table of the benchmark over the size of the log, as an SVG picture.

usage: draw.py TABLE PICTURE

TABLE is a file that has the tables that run.py prints. The rows of the input `uniform` are drawn as lines, for imgcopy
and for the plain program, and below them those of each other input as bars: the time from start to end, and then that
of all processors.
"""

import math
import sys
from typing import NamedTuple

from run import MEGABYTE, log_size

WIDTH, HEIGHT = 720, 420
LEFT, RIGHT, TOP, BOTTOM = 80, 30, 60, 70
BARS_LEFT, BAR = 110, 12
MOST_STEPS = 8
GRAY, BLACK = "#d0d0d0", "#202020"
COLORS = {"imgcopy": "#1f6fb4", "plain": "#c8501e"}


class Line(NamedTuple):
    program: str
    color: str
    points: list  # of megabytes and milliseconds


class Axis(NamedTuple):
    """From the number 0 at `start` to the number `top` at `end`."""

    step: float
    top: float
    start: float
    end: float

    def place(self, number):
        return self.start + (self.end - self.start) * number / self.top

    def ticks(self):
        return [self.step * index for index in range(round(self.top / self.step) + 1)]


def axis_to(most, start, end):
    """An axis with room for this number, whose steps are 1, 2 or 5 times a power of ten."""
    steps = (factor * 10.0**power for power in range(-6, 9) for factor in (1, 2, 5))
    step = next(step for step in steps if most <= MOST_STEPS * step)
    return Axis(step, step * math.ceil(most / step), start, end)


def rows(page):
    """Each row of the tables of programs in this page, by the names of its columns."""
    names, found = [], []
    for line in page.splitlines():
        cells = [cell.strip() for cell in line.strip().strip("|").split("|")] if line.startswith("|") else []
        if "program" in cells:
            names = cells
        elif not cells:
            names = []
        elif len(cells) == len(names) and not cells[0].startswith("-"):
            found.append(dict(zip(names, cells)))
    return found


def line_of(table, program, color):
    """The times of a program for the input `uniform`."""
    points = []
    for row in table:
        if row["input"] == "uniform" and row["program"] == program:
            records = int(row["records"].replace(",", ""))
            points.append((log_size(records) / MEGABYTE, 1000 * float(row["seconds"])))
    if not points:
        sys.exit(f"draw.py: the table has no row of {program} for the input uniform")
    return Line(program, color, sorted(points))


def bars_of(table, column):
    """The times in this column of both programs for each other input, by its name."""
    bars = {}
    for row in table:
        if row["input"] != "uniform" and row["program"] in COLORS:
            bars.setdefault(row["input"], {})[row["program"]] = 1000 * float(row[column])
    return bars


def picture(lines, charts, pages):
    """The text of the picture, with a chart of bars for each title."""
    height = HEIGHT + sum(height_of(bars) for bars in charts.values())
    points = [point for line in lines for point in line.points]
    across = axis_to(max(x for x, _ in points), LEFT, WIDTH - RIGHT)
    up = axis_to(max(y for _, y in points), HEIGHT - BOTTOM, TOP)
    parts = [
        f'<svg xmlns="http://www.w3.org/2000/svg" viewBox="0 0 {WIDTH} {height}" width="{WIDTH}" height="{height}"'
        ' font-family="sans-serif" font-size="14">',
        f'<rect width="{WIDTH}" height="{height}" fill="white"/>',
        label(WIDTH / 2, 30, f"Time to rebuild a volume of {pages} pages", size=17),
        *grid(across, up),
    ]
    for index, line in enumerate(lines):
        parts += [*curve(line, across, up), *legend(line, LEFT + 24, TOP + 24 + 24 * index)]
    top = HEIGHT
    for title, bars in charts.items():
        parts += [label(WIDTH / 2, top + 30, title, size=17), *bar_chart(bars, top + TOP)]
        top += height_of(bars)
    return "\n".join([*parts, "</svg>", ""])


def height_of(bars):
    return TOP + 3 * BAR * len(bars) + BOTTOM


def bar_chart(bars, top):
    """A bar for each program and input, and a line of milliseconds below."""
    bottom = top + 3 * BAR * len(bars)
    across = axis_to(max(time for times in bars.values() for time in times.values()), BARS_LEFT, WIDTH - RIGHT)
    for tick in across.ticks():
        x = across.place(tick)
        yield stroke(x, bottom, x, top, GRAY)
        yield label(x, bottom + 22, f"{tick:g}")
    for index, (name, times) in enumerate(bars.items()):
        y = top + 3 * BAR * index + BAR / 2
        yield label(BARS_LEFT - 10, y + BAR + 5, name, anchor="end")
        for place, (program, color) in enumerate(COLORS.items()):
            width = across.place(times[program]) - BARS_LEFT
            yield (f'<rect x="{BARS_LEFT}" y="{y + place * BAR:.1f}" width="{width:.1f}" height="{BAR - 1}"'
                   f' fill="{color}"/>')
    yield stroke(BARS_LEFT, bottom, BARS_LEFT, top, BLACK)
    yield label((across.start + across.end) / 2, bottom + 50, "time, ms")
    for index, (program, color) in enumerate(COLORS.items()):
        yield from legend(Line(program, color, []), WIDTH - RIGHT - 250 + 130 * index, top - 10)


def grid(across, up):
    for tick in across.ticks():
        x = across.place(tick)
        yield stroke(x, up.start, x, up.end, GRAY)
        yield label(x, up.start + 22, f"{tick:g}")
    for tick in up.ticks():
        y = up.place(tick)
        yield stroke(across.start, y, across.end, y, GRAY)
        yield label(across.start - 10, y + 5, f"{tick:g}", anchor="end")
    yield stroke(across.start, up.start, across.end, up.start, BLACK)
    yield stroke(across.start, up.start, across.start, up.end, BLACK)
    yield label((across.start + across.end) / 2, HEIGHT - 20, "size of the log, MB")
    middle = (up.start + up.end) / 2
    yield label(24, middle, "time, ms", more=f' transform="rotate(-90 24 {middle:.1f})"')


def curve(line, across, up):
    places = [(across.place(x), up.place(y)) for x, y in line.points]
    path = " ".join(f"{x:.1f},{y:.1f}" for x, y in places)
    yield f'<polyline points="{path}" fill="none" stroke="{line.color}" stroke-width="2.5"/>'
    for x, y in places:
        yield mark(x, y, line.color)


def legend(line, x, y):
    yield stroke(x, y, x + 32, y, line.color, width=2.5)
    yield mark(x + 16, y, line.color)
    yield label(x + 42, y + 5, line.program, anchor="start")


def mark(x, y, color):
    return f'<circle cx="{x:.1f}" cy="{y:.1f}" r="4" fill="{color}"/>'


def stroke(x, y, to_x, to_y, color, width=1):
    return f'<line x1="{x:.1f}" y1="{y:.1f}" x2="{to_x:.1f}" y2="{to_y:.1f}" stroke="{color}" stroke-width="{width}"/>'


def label(x, y, content, anchor="middle", size=14, more=""):
    return (f'<text x="{x:.1f}" y="{y:.1f}" text-anchor="{anchor}" font-size="{size}" fill="{BLACK}"{more}>'
            f"{content}</text>")


def main(arguments):
    if len(arguments) != 2:
        sys.exit("usage: draw.py TABLE PICTURE")
    try:
        with open(arguments[0], encoding="utf-8") as file:
            table = rows(file.read())
        lines = [line_of(table, program, color) for program, color in COLORS.items()]
        pages = next(row["pages"] for row in table if row["input"] == "uniform")
        charts = {"Time of the other inputs": bars_of(table, "seconds"),
                  "Time of all processors": bars_of(table, "processor seconds")}
        with open(arguments[1], "w", encoding="utf-8") as file:
            file.write(picture(lines, charts, pages))
    except OSError as error:
        sys.exit(f"draw.py: {error}")


if __name__ == "__main__":
    main(sys.argv[1:])
