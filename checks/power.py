"""Plays lives of databases in memory, and cuts the power of each: of engines whose log is on a disk, and of open
databases in folders.

usage: python3 -m checks.power CHECK_POWER [SEEDS [FIRST]]

CHECK_POWER is the program of that crate. It plays both databases of each seed, from FIRST on, 1 where none is told, and
compares what each cut leaves with the replies that were given. The seeds are shared out to as many processes as there
are processors. Where none are told there are SEEDS of them, and they have to make CUTS cuts of each kind at least, with
commits and copies among them. Then the same is played where syncs store nothing: those of the log, of other files, or of
the folder. In each of these a difference has to be found.
"""

import os
import re
import shutil
import subprocess
import sys
from concurrent.futures import ThreadPoolExecutor

SEEDS = 600
CUTS = 2000
SEEDS_OF_A_RUN = 100
IGNORED = ("log", "files", "names")
FOUND = re.compile(r"seed \d+: in a folder [^\n]+\n")
LINE = re.compile(r"cuts (\d+) lives (\d+) closed (\d+) commits (\d+) copies (\d+) strange (\d+) folders (\d+) refused (\d+)\n")


class Failure(Exception):
    """What differs, in one line."""


def play(program, seeds, first):
    """The eight counts of a run."""
    done = subprocess.run(
        [program, str(seeds), str(first)], stdin=subprocess.DEVNULL, capture_output=True, text=True
    )
    line = LINE.fullmatch(done.stdout)
    if done.returncode != 0 or line is None:
        raise Failure(f"status {done.returncode}: {(done.stdout or done.stderr).strip()[:200]}")
    return [int(count) for count in line.groups()]


def find_loss(program, sync):
    """Where these syncs store nothing a difference is found."""
    done = subprocess.run(
        [program, str(SEEDS), "1", sync], stdin=subprocess.DEVNULL, capture_output=True, text=True
    )
    if done.returncode != 1 or not FOUND.fullmatch(done.stdout):
        raise Failure(f"no loss is found where syncs of {sync} store nothing: status {done.returncode}, {done.stdout[:200]}")


def main(arguments):
    try:
        if not 1 <= len(arguments) <= 3 or not all(number.isdigit() for number in arguments[1:]):
            raise Failure("usage: python3 -m checks.power CHECK_POWER [SEEDS [FIRST]]")
        program = shutil.which(arguments[0])
        if program is None:
            raise Failure(f"there is no program {arguments[0]}")
        seeds, first = (int(arguments[index]) if index < len(arguments) else count for index, count in ((1, SEEDS), (2, 1)))
        runs = range(first, first + seeds, SEEDS_OF_A_RUN)
        with ThreadPoolExecutor(os.cpu_count()) as pool:
            counts = list(pool.map(lambda at: play(program, min(SEEDS_OF_A_RUN, first + seeds - at), at), runs))
        cuts, lives, closed, commits, copies, strange, folders, refused = map(sum, zip(*counts, [0] * 8))
        if len(arguments) == 1 and min(cuts, commits, copies, folders) < CUTS:
            raise Failure(f"there were only {cuts} cuts, {commits} commits, {copies} copies and {folders} folders")
        for sync in IGNORED:
            find_loss(program, sync)
    except (Failure, OSError) as failure:
        sys.exit(f"power.py: {failure}")
    print(f"ok power: {cuts} cuts of the power in {lives} lives, and {folders} folders that a cut or a kill left: {commits}"
          f" commits were kept, {copies} copies restored the same, in {strange} logs a torn write spelled another record,"
          f" and {refused} folders were refused for what was damaged; a loss is found where syncs of {', '.join(IGNORED)}"
          " store nothing")


if __name__ == "__main__":
    main(sys.argv[1:])
