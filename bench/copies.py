#!/usr/bin/env python3
"""Measures full copies of a shared engine by many workers, beside four sessions, and prints a Markdown table.

usage: copies.py PROGRAM ROUNDS PICTURE

PROGRAM is that of the crate bench_copies. For each count of workers, and for sessions alone, it is run ROUNDS times, in
turns; the run whose copy took the middle time is told. PICTURE is drawn of the table. README.md says more.
"""

import datetime
import os
import subprocess
import sys
from typing import NamedTuple

from draw import BLACK, GRAY, axis_to, label, stroke
from run import Failure, find_program

PAGES = 65_536
WORKERS = (0, 1, 2, 4)
# Four sessions, each of whose transactions has one change and six reads.
SESSIONS, CHANGES, READS = 4, 1, 6
COLUMNS = ["workers", "copy, seconds", "pages a second", "calls of the sessions a second"]
COLORS = {"pages a second": "#1f6fb4", "calls of the sessions a second": "#c8501e"}
WIDTH, LEFT, RIGHT, TOP, BOTTOM, BAR = 720, 110, 40, 90, 70, 16


class Run(NamedTuple):
    seconds: float
    calls: int

    def pages_a_second(self, workers):
        return PAGES / self.seconds if workers else 0

    def calls_a_second(self):
        return self.calls / self.seconds


def one_run(program, workers):
    done = subprocess.run([program, *map(str, (PAGES, workers, SESSIONS, CHANGES, READS))], capture_output=True, text=True)
    if done.returncode != 0:
        raise Failure(f"{workers} workers: status {done.returncode}, standard error {done.stderr[:80]!r}")
    nanoseconds, calls = map(int, done.stderr.split())
    return Run(nanoseconds / 1e9, calls)


def measure(program, rounds):
    """The run of the middle for each count of workers."""
    runs = {workers: [] for workers in WORKERS}
    for _ in range(rounds):
        for workers in WORKERS:
            runs[workers].append(one_run(program, workers))
    # Without a copy all runs take the same time.
    return {workers: sorted(given, key=lambda run: (run.seconds if workers else run.calls))[(rounds - 1) // 2]
            for workers, given in runs.items()}


def table(results):
    yield COLUMNS
    yield ["---:"] * len(COLUMNS)
    for workers, run in results.items():
        yield [str(workers) if workers else "no copy", f"{run.seconds:.3f}" if workers else "",
               f"{run.pages_a_second(workers):,.0f}" if workers else "", f"{run.calls_a_second():,.0f}"]


def picture(results):
    """The text of the picture: a bar for the pages and one for the calls, for each count of workers."""
    bottom = TOP + 3 * BAR * len(results)
    numbers = {workers: (run.pages_a_second(workers), run.calls_a_second()) for workers, run in results.items()}
    across = axis_to(max(number for pair in numbers.values() for number in pair) / 1e6, LEFT, WIDTH - RIGHT)
    parts = [
        f'<svg xmlns="http://www.w3.org/2000/svg" viewBox="0 0 {WIDTH} {bottom + BOTTOM}" width="{WIDTH}"'
        f' height="{bottom + BOTTOM}" font-family="sans-serif" font-size="14">',
        f'<rect width="{WIDTH}" height="{bottom + BOTTOM}" fill="white"/>',
        label(WIDTH / 2, 30, f"A copy of {PAGES:,} pages beside four sessions", size=17),
    ]
    for place, (what, color) in enumerate(COLORS.items()):
        x = LEFT + 220 * place
        parts += [f'<rect x="{x}" y="50" width="24" height="12" fill="{color}"/>',
                  label(x + 32, 61, what, anchor="start")]
    for tick in across.ticks():
        x = across.place(tick)
        parts += [stroke(x, bottom, x, TOP, GRAY), label(x, bottom + 22, f"{tick:g}")]
    for index, (workers, pair) in enumerate(numbers.items()):
        y = TOP + 3 * BAR * index + BAR / 2
        name = {0: "no copy", 1: "1 worker"}.get(workers, f"{workers} workers")
        parts.append(label(LEFT - 10, y + BAR + 5, name, anchor="end"))
        for place, (number, color) in enumerate(zip(pair, COLORS.values())):
            width = across.place(number / 1e6) - LEFT
            parts.append(f'<rect x="{LEFT}" y="{y + place * BAR:.1f}" width="{width:.1f}" height="{BAR - 1}"'
                         f' fill="{color}"/>')
    parts += [stroke(LEFT, bottom, LEFT, TOP, BLACK),
              label((across.start + across.end) / 2, bottom + 50, "millions a second")]
    return "\n".join([*parts, "</svg>", ""])


def main(arguments):
    try:
        if len(arguments) != 3 or not arguments[1].isdigit() or int(arguments[1]) == 0:
            raise Failure("usage: copies.py PROGRAM ROUNDS PICTURE")
        results = measure(find_program(arguments[0]), int(arguments[1]))
        print(f"{datetime.date.today()}, {os.cpu_count()} cores, the middle one of {arguments[1]}:\n")
        for cells in table(results):
            print(f"| {' | '.join(cells)} |")
        with open(arguments[2], "w", encoding="utf-8") as file:
            file.write(picture(results))
    except (Failure, OSError) as failure:
        sys.exit(f"copies.py: {failure}")


if __name__ == "__main__":
    main(sys.argv[1:])
