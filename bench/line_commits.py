#!/usr/bin/env python3
"""Measures commits that `imgcopy open` answers, beside those of SQLite, and prints a Markdown table.

usage: line_commits.py PROGRAM ROUNDS [FOLDER..]

PROGRAM is imgcopy. In each FOLDER (by default build, and /dev/shm where it is there) a new database answers the lines of
3,000 transactions of one change, and SQLite, by Python's module, makes as many changes of one row, each of which commits
by itself, in WAL mode with synchronous=FULL. Both have each commit on disk before they go on. They take turns, and the
best of ROUNDS runs is told. README.md says more.
"""

import datetime
import os
import sqlite3
import subprocess
import sys
import tempfile
import time
from pathlib import Path

from run import Failure, find_program

TRANSACTIONS = 3_000
PAGES, SLOTS = 64, 62
COLUMNS = ["folder", "imgcopy open, commits a second", "SQLite, commits a second", "ratio"]


def lines():
    """Each transaction changes another slot than the one before it."""
    for number in range(TRANSACTIONS):
        page, slot = number % PAGES, number // PAGES % SLOTS
        yield f"begin\nset {number + 1} {page} {slot} {number}\ncommit {number + 1}\n"


def by_imgcopy(program, inside):
    """Commits a second, the opening and the closing of the database among their time."""
    source, folder = inside / "lines", inside / "database"
    source.write_text("".join(lines()))
    folder.mkdir()
    with open(source, "rb") as given:
        begin = time.monotonic()
        done = subprocess.run([program, "open", folder, "--pages", str(PAGES)], stdin=given, capture_output=True)
        seconds = time.monotonic() - begin
    answered = sum(line.startswith(b"lsn ") for line in done.stdout.splitlines())
    if done.returncode != 0 or answered != 2 * TRANSACTIONS:
        raise Failure(f"imgcopy open: status {done.returncode}, {answered} answers, {done.stderr[:80]!r}")
    return TRANSACTIONS / seconds


def by_sqlite(inside):
    """Commits a second, the opening and the closing of the database among their time."""
    name = inside / "base"
    begin = time.monotonic()
    base = sqlite3.connect(name, isolation_level=None)
    base.execute("PRAGMA journal_mode=WAL")
    base.execute("PRAGMA synchronous=FULL")
    base.execute("CREATE TABLE t(a INTEGER PRIMARY KEY, b INTEGER)")
    base.execute("INSERT INTO t VALUES(0, 0)")
    for _ in range(TRANSACTIONS):
        base.execute("UPDATE t SET b = b + 1 WHERE a = 0")
    (count,) = base.execute("SELECT b FROM t").fetchone()
    base.close()
    seconds = time.monotonic() - begin
    if count != TRANSACTIONS:
        raise Failure(f"SQLite has {count} commits")
    return TRANSACTIONS / seconds


def measure(program, rounds, folder):
    """The best of the runs of both, which take turns."""
    ours, theirs = 0, 0
    for _ in range(rounds):
        for is_ours in (True, False):
            with tempfile.TemporaryDirectory(dir=folder) as inside:
                if is_ours:
                    ours = max(ours, by_imgcopy(program, Path(inside)))
                else:
                    theirs = max(theirs, by_sqlite(Path(inside)))
    return ours, theirs


def print_table(program, rounds, folders):
    print(f"{datetime.date.today()}, {os.cpu_count()} cores, best of {rounds}, SQLite {sqlite3.sqlite_version}:\n")
    rows = [COLUMNS, ["---", "---:", "---:", "---:"]]
    for folder in folders:
        ours, theirs = measure(program, rounds, folder)
        what = "in memory" if folder == "/dev/shm" else "on disk"
        rows.append([what, f"{ours:,.0f}", f"{theirs:,.0f}", f"{ours / theirs:.2f}"])
    for row in rows:
        print("| " + " | ".join(row) + " |")


def main():
    if len(sys.argv) < 3 or not sys.argv[2].isdigit() or int(sys.argv[2]) == 0:
        sys.exit(__doc__.split("\n\n")[1])
    folders = sys.argv[3:] or ["build"] + (["/dev/shm"] if os.path.isdir("/dev/shm") else [])
    print_table(find_program(sys.argv[1]), int(sys.argv[2]), folders)


if __name__ == "__main__":
    try:
        main()
    except (Failure, OSError, sqlite3.Error) as why:
        sys.exit(f"line_commits.py: {why}")
