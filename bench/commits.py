#!/usr/bin/env python3
"""Measures commits that are on disk when they are answered, beside those of SQLite, and prints a Markdown table.

usage: commits.py PROGRAM ROUNDS [FOLDER..]

PROGRAM is that of the crate bench_copies. In each FOLDER (by default build, and /dev/shm where it is there) one session
and eight make small transactions, in turns with as many processes of sqlite3, in WAL mode with synchronous=FULL, each of
which changes one row of a table of two integers. The best of ROUNDS runs is told. README.md says more.
"""

import datetime
import os
import shutil
import subprocess
import sys
import tempfile
import time

import line_commits
from run import Failure, find_program

SESSIONS = (1, 8)
# How many milliseconds the sessions are measured, and how many commits of SQLite in all: a sync takes some milliseconds
# on a disk, and next to nothing in memory.
ON_DISK, IN_MEMORY = (2_000, 800), (200, 16_000)
# A volume with a page for each session and no copy. A transaction of one change and no read has three calls.
PAGES, WORKERS, CHANGES, READS, CALLS = 64, 0, 1, 0, 3
# A run takes some ten seconds on a disk.
MOST_ROUNDS_BY_LINES = 3
COLUMNS = ["folder", "sessions", "imgcopy, commits a second", "SQLite, commits a second", "ratio"]
SETUP = "PRAGMA journal_mode=WAL; CREATE TABLE t(a INTEGER PRIMARY KEY, b INTEGER);"


def by_imgcopy(program, folder, sessions, milliseconds):
    """Commits a second."""
    numbers = PAGES, WORKERS, sessions, CHANGES, READS
    words = [program, *map(str, numbers), os.path.join(folder, "log"), str(milliseconds)]
    done = subprocess.run(words, capture_output=True, text=True)
    if done.returncode != 0:
        raise Failure(f"{sessions} sessions: status {done.returncode}, standard error {done.stderr[:80]!r}")
    nanoseconds, calls = map(int, done.stderr.split())
    return 1e9 * calls / CALLS / nanoseconds


def by_sqlite(folder, sessions, commits):
    """Commits a second. Each process reads its statements from a file, and waits for the others' locks."""
    base = os.path.join(folder, "base")
    for name in (base, base + "-wal", base + "-shm"):
        if os.path.exists(name):
            os.remove(name)
    rows = "".join(f"INSERT INTO t VALUES({row}, 0);" for row in range(sessions))
    subprocess.run(["sqlite3", base, SETUP + rows], check=True, stdout=subprocess.DEVNULL)
    scripts = []
    for row in range(sessions):
        name = os.path.join(folder, f"script-{row}")
        with open(name, "w", encoding="ascii") as script:
            script.write(".timeout 60000\nPRAGMA synchronous=FULL;\n")
            script.write(f"UPDATE t SET b = b + 1 WHERE a = {row};\n" * (commits // sessions))
        scripts.append(name)
    begin = time.monotonic()
    running = [subprocess.Popen(["sqlite3", base, f".read {name}"], stdout=subprocess.DEVNULL) for name in scripts]
    if any([process.wait() for process in running]):
        raise Failure("sqlite3 failed")
    seconds = time.monotonic() - begin
    told = subprocess.run(["sqlite3", base, "SELECT sum(b) FROM t;"], check=True, capture_output=True, text=True)
    if int(told.stdout) != commits // sessions * sessions:
        raise Failure(f"sqlite3 has {told.stdout.strip()} commits")
    return commits / seconds


def measure(program, rounds, folder):
    """For each count of sessions, the best of the runs of both, which take turns."""
    milliseconds, commits = IN_MEMORY if folder == "/dev/shm" else ON_DISK
    with tempfile.TemporaryDirectory(dir=folder) as inside:
        for sessions in SESSIONS:
            ours, theirs = 0, 0
            for _ in range(rounds):
                ours = max(ours, by_imgcopy(program, inside, sessions, milliseconds))
                theirs = max(theirs, by_sqlite(inside, sessions, commits))
            yield sessions, ours, theirs


def main():
    if len(sys.argv) < 3:
        sys.exit(__doc__.split("\n\n")[1])
    program, rounds = find_program(sys.argv[1]), int(sys.argv[2])
    folders = sys.argv[3:] or ["build"] + (["/dev/shm"] if os.path.isdir("/dev/shm") else [])
    if shutil.which("sqlite3") is None:
        print("The sessions are not measured: sqlite3 is missing.")
    else:
        print_table(program, rounds, folders)
    imgcopy = os.path.join(os.path.dirname(program), "imgcopy")
    if os.access(imgcopy, os.X_OK):
        print()
        line_commits.print_table(imgcopy, min(rounds, MOST_ROUNDS_BY_LINES), folders)


def print_table(program, rounds, folders):
    print(f"Measured on {datetime.date.today()}, {os.cpu_count()} processors.\n")
    rows = [COLUMNS, ["---", "---:", "---:", "---:", "---:"]]
    for folder in folders:
        for sessions, ours, theirs in measure(program, rounds, folder):
            what = "in memory" if folder == "/dev/shm" else "on disk"
            rows.append([what, str(sessions), f"{ours:,.0f}", f"{theirs:,.0f}", f"{ours / theirs:.2f}"])
    for row in rows:
        print("| " + " | ".join(row) + " |")


if __name__ == "__main__":
    try:
        main()
    except (Failure, OSError) as why:
        sys.exit(f"commits.py: {why}")
