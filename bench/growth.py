#!/usr/bin/env python3
"""Measures how the time and the memory of imgcopy grow, beside the plain programs. Prints a table and draws a picture.

usage: growth.py --imgcopy PROGRAM --tools FOLDER [--rounds N] PICTURE

FOLDER holds the built programs of src/bin. One number of an input grows and all others stay: the records of a log, the
archives of a chain, the frames of a run, and the processors. README.md says more.
"""

import datetime
import math
import os
import sys
import tempfile
from pathlib import Path
from typing import NamedTuple

from draw import BLACK, COLORS, GRAY, Line, label, legend, mark, stroke
from run import LONGEST_SCRIPT, MEGABYTE, Failure, Files, Log, Script, find_folder, find_program, parse, run

TOOLS = ("generate", "generate_script", "generate_files", "plain_redo", "plain_run", "plain_restore",
         "plain_audit", "peak_memory")
WIDTH, HEIGHT, LEFT, RIGHT, TOP, BOTTOM = 460, 300, 70, 20, 50, 60
MOST_PAGES = 65_536


class Series(NamedTuple):
    """What grows, and the input that each of its numbers gives."""

    what: str
    numbers: tuple
    input_of: object
    command: str
    # the number is one of processors
    is_of_processors: bool = False


SERIES = (
    Series("records of redo", tuple(2**power for power in range(14, 21)),
           lambda count: Log("uniform", "uniform", count, MOST_PAGES), "redo"),
    Series("archives of restore", (1, 4, 16, 64, 256, 1024), lambda count: Files("restore", count, 256), "restore"),
    Series("archives of audit", (1, 4, 16, 64, 256, 1024), lambda count: Files("audit", count, 256, "audit"), "audit"),
    Series("frames of run", tuple(4**power for power in range(9)),
           lambda count: Script("scan", "scan", LONGEST_SCRIPT, MOST_PAGES, count), "run"),
    Series("processors of restore", (1, 2, 3, 4), lambda count: Files("restore", 3, MOST_PAGES), "restore", True),
)


class Measured(NamedTuple):
    seconds: float
    memory: int


def measure(series, number, imgcopy, tools, rounds):
    """What each program takes at this number."""
    mine = os.sched_getaffinity(0)
    with tempfile.TemporaryDirectory(dir=find_folder()) as folder:
        job = series.input_of(number).prepare(tools, Path(folder))
        programs = job.both(imgcopy)
        if series.is_of_processors:
            os.sched_setaffinity(0, sorted(mine)[:number])
        try:
            seconds = {name: [] for name in programs}
            for _ in range(rounds):
                for name, command in programs.items():
                    seconds[name].append(run(command, job.source, os.devnull, job.what)[0])
        finally:
            os.sched_setaffinity(0, mine)
        peaks = {name: int(run([tools["peak_memory"], *command], job.source, os.devnull, job.what)[1])
                 for name, command in programs.items()}
    return {name: Measured(min(seconds[name]), peaks[name]) for name in programs}


def table(results):
    yield ["what grows", "number", "seconds", "peak MB", "plain, seconds", "plain, peak MB"]
    yield ["---"] + ["---:"] * 5
    for series, found in results.items():
        for number, by_program in found.items():
            cells = [by_program.get(name) for name in ("imgcopy", "plain")]
            yield [series.what, f"{number:,}",
                   *(text for it in cells for text in ((f"{it.seconds:.4f}", f"{it.memory / MEGABYTE:.1f}")
                                                       if it else ("", "")))]


class Scale(NamedTuple):
    """A logarithmic axis from the number `low` at `start` to `high` at `end`."""

    low: float
    high: float
    start: float
    end: float

    def place(self, number):
        share = math.log(number / self.low) / math.log(self.high / self.low)
        return self.start + (self.end - self.start) * share


def panel(series, found, left, top):
    """The times over the number that grows, both as powers."""
    lines = [Line(name, color, [(number, 1000 * by_program[name].seconds) for number, by_program in found.items()
                                if name in by_program]) for name, color in COLORS.items()]
    times = [time for line in lines for _, time in line.points]
    across = Scale(min(found), max(found), left + LEFT, left + WIDTH - RIGHT)
    up = Scale(10 ** math.floor(math.log10(min(times))), 10 ** math.ceil(math.log10(max(times))),
               top + HEIGHT - BOTTOM, top + TOP)
    yield label(left + WIDTH / 2, top + 24, series.what, size=16)
    for power in range(round(math.log10(up.low)), round(math.log10(up.high)) + 1):
        y = up.place(10**power)
        yield stroke(across.start, y, across.end, y, GRAY)
        yield label(across.start - 8, y + 5, f"{10**power:g}", anchor="end")
    for number in found:
        x = across.place(number)
        yield stroke(x, up.start, x, up.start + 5, BLACK)
        yield label(x, up.start + 20, f"{number:,}", size=11)
    yield label((across.start + across.end) / 2, top + HEIGHT - 16, "time in ms, both axes by powers", size=12)
    for line in lines:
        places = [(across.place(x), up.place(y)) for x, y in line.points]
        path = " ".join(f"{x:.1f},{y:.1f}" for x, y in places)
        yield f'<polyline points="{path}" fill="none" stroke="{line.color}" stroke-width="2"/>'
        for x, y in places:
            yield mark(x, y, line.color)


def picture(results):
    rows = (len(results) + 1) // 2
    width, height = 2 * WIDTH, rows * HEIGHT + 40
    parts = [f'<svg xmlns="http://www.w3.org/2000/svg" viewBox="0 0 {width} {height}" width="{width}"'
             f' height="{height}" font-family="sans-serif" font-size="13">',
             f'<rect width="{width}" height="{height}" fill="white"/>']
    for place, (name, color) in enumerate(COLORS.items()):
        parts += legend(Line(name, color, []), LEFT + 160 * place, 20)
    for place, (series, found) in enumerate(results.items()):
        parts += panel(series, found, WIDTH * (place % 2), 40 + HEIGHT * (place // 2))
    return "\n".join([*parts, "</svg>", ""])


def main(arguments):
    try:
        if not arguments:
            raise Failure("usage: growth.py --imgcopy PROGRAM --tools FOLDER [--rounds N] PICTURE")
        options = parse(arguments[:-1])
        tools = {name: find_program(os.path.join(options.tools, name)) for name in TOOLS}
        imgcopy, most = find_program(options.imgcopy), len(os.sched_getaffinity(0))
        results = {}
        for series in SERIES:
            numbers = [number for number in series.numbers if not series.is_of_processors or number <= most]
            results[series] = {number: measure(series, number, imgcopy, tools, options.rounds) for number in numbers}
        print(f"{datetime.date.today()}, {os.cpu_count()} cores, best of {options.rounds}:\n")
        for cells in table(results):
            print(f"| {' | '.join(cells)} |")
        with open(arguments[-1], "w", encoding="utf-8") as file:
            file.write(picture(results))
    except (Failure, OSError) as failure:
        sys.exit(f"growth.py: {failure}")


if __name__ == "__main__":
    main(sys.argv[1:])
