"""Refuses each allocation of what the program does not call: `read_log`, the engine, media recovery, and an engine for
many threads.

usage: python3 -m checks.library_memory CHECK_LIBRARY LIBRARY

LIBRARY is refuse_memory.rs, built as a library for LD_PRELOAD, and CHECK_LIBRARY the program of that crate. With the
word `play` it plays a script call by call, does its last restore, and makes a call again that was refused for want of
memory; then it plays the script as a list. Each worked row goes to it, and each script of memory_scripts.py, without
its first allocation, without its second, and so on until none is left to refuse. Each call has to get the reply of the
row, or that which the model gives to the script, and so has the restore: a call that was refused has changed nothing,
and the same call made again does what it was to do.

Without a word the program reads a log by `read_log` and tells what came of it, and each example log goes to it as in
memory.py. With the word `share` it makes calls of a shared engine, and makes them again in the same way: a session,
checkpoints, a flush pass, a growth of the volume, a copy by three workers, and the end of the run, which gives all back
where it is refused. A begin that is refused may leave no record. With the word `workers` one of two workers of a copy
meets a fault of the store: where the other one is refused memory, the answer has to be that of the lesser worker. It
then reads an empty input, which needs no memory.
"""

import os
import sys
import tempfile
from collections import Counter
from concurrent.futures import ProcessPoolExecutor
from itertools import repeat
from pathlib import Path
from typing import NamedTuple

from model.growth_rows import GROWTH_ROWS
from model.log_format import HEADER_SIZE, RECORD_SIZE
from model.rows import ROWS
from model.savepoint_rows import SAVEPOINT_ROWS
from model.scripts import run
from checks.memory import EXAMPLES, OUT_OF_MEMORY, Case, Failure, check, refuse_each
from checks.memory_scripts import SAVEPOINTS, SCRIPTS

MOST_PAGES = 8
MOST_CALLS = 200
ONCE, AGAIN = b"each call was made once\n", b"a call was made again\n"
NOT_PLAYED = (2, b"", b"")  # no memory for the script or for the lines


class Play(NamedTuple):
    """A script, and the lines that it is answered with."""

    name: str
    pages: int
    frames: int
    script: bytes
    lines: bytes


def plays():
    """The worked rows that are short, and the scripts in which much depends on each call."""
    for row in [*ROWS, *SAVEPOINT_ROWS, *GROWTH_ROWS]:
        if row.pages <= MOST_PAGES and row.script().count(b"\n") <= MOST_CALLS:
            yield Play(row.name, row.pages, min(row.pages, row.frames), row.script(), row.output())
    for script in [*SCRIPTS, SAVEPOINTS]:
        lines = run(script.text(), script.pages).answer.output
        yield Play(script.name, script.pages, script.pages, script.text(), lines)


def sweep(player, library, play):
    """How often a refused call was made again, and how often the script or its lines had no memory."""
    told, counts = {(0, play.lines, ONCE): "once", (0, play.lines, AGAIN): "again", NOT_PLAYED: "not played"}, Counter()
    with tempfile.TemporaryDirectory() as folder:
        source = Path(folder, "script")
        source.write_bytes(play.script)
        case = Case(["play", str(play.pages), str(play.frames)], source, ())
        for number, answer, refused in refuse_each(player, library, case):
            if answer not in told or not refused and told[answer] != "once":
                wrong = answer[1].decode(errors="replace").splitlines(), play.lines.decode().splitlines()
                at = next((at for at, pair in enumerate(zip(*wrong)) if pair[0] != pair[1]), min(map(len, wrong)))
                raise Failure(f"{play.name}, without allocation {number}: status {answer[0]}, line {at + 1} is"
                              f" {wrong[0][at:at + 1]} in place of {wrong[1][at:at + 1]}, {answer[2]!r}")
            counts[told[answer]] += refused
    if not counts["again"] or not counts["not played"]:
        raise Failure(f"{play.name}: no call was made again, or the script had memory each time")
    return counts


def logs():
    """Each example log, with the count of its records or the line of its fault."""
    for log in sorted(EXAMPLES.glob("*.log")):
        if log.with_suffix(".volume").exists():
            answer = (0, b"", b"%d\n" % ((log.stat().st_size - HEADER_SIZE) // RECORD_SIZE))
        else:
            answer = (2, b"", log.with_suffix(".fault").read_bytes())
        yield Case([], log, answer)


def played(line):
    """The answer where this line tells what came of the calls."""
    return 2, b"", b"%s\nE30 BadHeader\n" % line


def count_refused(player, library):
    """How many allocations were refused while it read, shared an engine, and made a copy that is refused anyway."""
    reading = [check(player, library, case, OUT_OF_MEMORY) for case in logs()]
    counts = []
    for word in ("share", "workers"):
        once = Case([word], Path(os.devnull), played(b"each call was made once"))
        counts.append(check(player, library, once, played(b"a call was made again")))
    if 0 in reading or 0 in counts:
        raise Failure("no allocation was refused")
    return sum(reading), *counts


def main(arguments):
    try:
        if len(arguments) != 2 or not all(map(os.path.isfile, arguments)):
            raise Failure("two arguments are wanted, the program and the library that refuses")
        player, library = map(os.path.abspath, arguments)
        with ProcessPoolExecutor(os.cpu_count()) as pool:
            counts = [*pool.map(sweep, repeat(player), repeat(library), plays())]
        reading, sharing, copying = count_refused(player, library)
    except (Failure, OSError) as failure:
        sys.exit(f"library_memory.py: {failure}")
    again = sum(count["again"] for count in counts)
    print(f"ok library_memory: {again} refused calls of {len(counts)} scripts were made again, and answered as ever;"
          f" {reading} refused allocations of read_log are told, {sharing} of a shared engine, and {copying} of a copy"
          " that is refused")


if __name__ == "__main__":
    main(sys.argv[1:])
