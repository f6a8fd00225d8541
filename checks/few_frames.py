"""Has `imgcopy run` read more pages than it has frames, and looks at its answers and at the memory that this takes.

usage: python3 -m checks.few_frames PROGRAM

A script reads all pages in turn, again and again. Where there are few frames, each read gives a page up. Another script
changes a page for each frame but one, and then reads two other pages in turn: only one page can be given up each time.
Both are played once more with a frame for each page, where no page is ever given up. A run with few frames has to give
the same answers, and may take no more memory than that one, but for what a few pages take.
"""

import subprocess
import sys
import tempfile
from pathlib import Path

PAGES = 2048
READS = 600_000
FEW = 64
MANY = 1024
# What a run may take beyond the other one, in KiB: no more than single runs differ by.
SPARE = 2048
# The system counts what the starting process has in memory as the run's own, and that is far more here. So a small
# process starts the run, and says what the run took.
START = """
import resource, subprocess, sys
run = subprocess.run(sys.argv[1:])
print(run.returncode, resource.getrusage(resource.RUSAGE_CHILDREN).ru_maxrss, file=sys.stderr)
"""


class Failure(Exception):
    """What differs, in one line."""


def scan():
    """Reads all pages in turn."""
    return [f"read {number % PAGES} 0" for number in range(READS)], ["value 0"] * READS


def alternate():
    """Changes a page for each of many frames but one, and reads two other pages in turn."""
    changes = [f"set 1 {page} 0 1" for page in range(MANY - 1)]
    reads = [f"read {PAGES - 1 - number % 2} 0" for number in range(READS)]
    # The Begin stands at 64, and each change behind the one before it.
    replies = ["began 1 at 64", *(f"lsn {64 * (page + 2)}" for page in range(MANY - 1)), *["value 0"] * READS]
    return ["begin", *changes, *reads], replies


def play(program, script, frames, wanted):
    """How many KiB a run takes at most that gives these replies."""
    words = [program, "run", "--pages", str(PAGES), "--frames", str(frames)]
    with open(script, "rb") as source, tempfile.TemporaryFile() as target:
        start = [sys.executable, "-c", START, *words]
        said = subprocess.run(start, stdin=source, stdout=target, stderr=subprocess.PIPE, check=True).stderr
        status, used = (int(number) for number in said.split()[-2:])
        if status != 0:
            raise Failure(f"{script.name}: status {status} with {frames} frames")
        target.seek(0)
        for number, (line, reply) in enumerate(zip(target.read().decode().splitlines(), wanted, strict=True), 1):
            if line != reply:
                raise Failure(f"{script.name}, line {number}: {line!r} with {frames} frames, and not {reply!r}")
    return used


def main(program):
    cases = {"scan": (*scan(), FEW), "alternate": (*alternate(), MANY)}
    told = []
    with tempfile.TemporaryDirectory() as folder:
        for name, (events, replies, frames) in cases.items():
            script = Path(folder, name)
            script.write_text("".join(f"{event}\n" for event in events))
            few, all_of_them = (play(program, script, count, replies) for count in (frames, PAGES))
            if few > all_of_them + SPARE:
                raise Failure(f"{name}: {few} KiB with {frames} frames, and {all_of_them} KiB with a frame for each page")
            told.append(f"{name} {few} KiB of {all_of_them}")
    print(f"ok frames: {', '.join(told)}")


if __name__ == "__main__":
    if len(sys.argv) != 2:
        sys.exit(__doc__.split("\n\n")[1])
    try:
        main(sys.argv[1])
    except (Failure, OSError, subprocess.CalledProcessError) as fault:
        sys.exit(f"few_frames.py: {fault}")
    except ValueError as fault:
        sys.exit(f"few_frames.py: the run gave more or fewer lines than the script has: {fault}")
