#!/usr/bin/env python3
"""Measures the calls of sessions of a shared engine, alone and beside a copy by four workers, and the same of a plain
engine behind a plain mutex. Prints a Markdown table.

usage: sessions.py PROGRAM PLAIN ROUNDS

PROGRAM is that of the crate bench_copies, and PLAIN that of src/bin/plain_sessions.rs. For each count of sessions both
are run ROUNDS times, in turns; the most calls a second are told. README.md says more.
"""

import datetime
import os
import subprocess
import sys

from run import Failure, find_program

PAGES, CHANGES, READS = 16_384, 3, 0
SESSIONS, WORKERS = (1, 2, 4, 8), (0, 4)
GOAL = 0.8


def calls_a_second(program, workers, sessions):
    words = [program, *map(str, (PAGES, workers, sessions, CHANGES, READS))]
    done = subprocess.run(words, capture_output=True, text=True)
    if done.returncode != 0:
        raise Failure(f"{sessions} sessions: status {done.returncode}, standard error {done.stderr[:80]!r}")
    nanoseconds, calls = map(int, done.stderr.split())
    return 1e9 * calls / nanoseconds


def rows(programs, rounds):
    yield ["sessions", "workers of a copy", "imgcopy, calls a second", "plain, calls a second", "ratio", "met"]
    yield ["---:"] * 5 + ["---"]
    for workers in WORKERS:
        for sessions in SESSIONS:
            best = [0.0] * len(programs)
            for _ in range(rounds):
                best = [max(most, calls_a_second(program, workers, sessions))
                        for most, program in zip(best, programs)]
            ratio = best[0] / best[1]
            yield [str(sessions), str(workers) if workers else "no copy", *(f"{most:,.0f}" for most in best),
                   f"{ratio:.2f}", "yes" if ratio >= GOAL else "no"]


def main(arguments):
    try:
        if len(arguments) != 3 or not arguments[2].isdigit() or int(arguments[2]) == 0:
            raise Failure("usage: sessions.py PROGRAM PLAIN ROUNDS")
        programs, rounds = [find_program(name) for name in arguments[:2]], int(arguments[2])
        print(f"{datetime.date.today()}, {os.cpu_count()} cores, best of {rounds}:\n")
        for cells in rows(programs, rounds):
            print(f"| {' | '.join(cells)} |")
    except (Failure, OSError) as failure:
        sys.exit(f"sessions.py: {failure}")


if __name__ == "__main__":
    main(sys.argv[1:])
