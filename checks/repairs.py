"""Plays days of a shared engine on which a page is repaired meanwhile, and the volume grows.

usage: python3 -m checks.repairs CHECK_LIBRARY [COUNT]

CHECK_LIBRARY is the program of that crate, which plays a hundred days. It is run COUNT times, 10 where none is told. On
each day four sessions, a flusher, a repairer of the page that these change, one who adds four pages to the eight that
there are, and a copy by three workers are at work at once; the run has to be settled, and the copy has to restore what
plain redo of the log makes. No clock ends a run.
"""

import shutil
import subprocess
import sys

COUNT = 10
DAYS_OF_A_RUN = 100
ANSWER = (2, b"", b"each day was settled and restored\nE30 BadHeader\n")


class Failure(Exception):
    """What differs, in one line."""


def play(program, number):
    """One run. Then the program reads its empty input as a log."""
    done = subprocess.run([program, "repair"], stdin=subprocess.DEVNULL, capture_output=True)
    if (done.returncode, done.stdout, done.stderr) != ANSWER:
        raise Failure(f"run {number}: status {done.returncode}, standard error {done.stderr[:80]!r}")


def main(arguments):
    try:
        if not 1 <= len(arguments) <= 2 or not all(number.isdigit() for number in arguments[1:]):
            raise Failure("usage: python3 -m checks.repairs CHECK_LIBRARY [COUNT]")
        program = shutil.which(arguments[0])
        if program is None:
            raise Failure(f"there is no program {arguments[0]}")
        count = int(arguments[1]) if arguments[1:] else COUNT
        for number in range(1, count + 1):
            play(program, number)
    except (Failure, OSError) as failure:
        sys.exit(f"repairs.py: {failure}")
    days = count * DAYS_OF_A_RUN
    print(f"ok repairs: on each of {days} days a page was repaired in use, four were added, and the copies restore all")


if __name__ == "__main__":
    main(sys.argv[1:])
