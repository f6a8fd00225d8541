"""Refuses a bank on files one allocation, or the start of one thread, and looks at what it tells and leaves.

usage: python3 -m checks.bank_refusals bank_memory BANK IMGCOPY [POINTS] LIBRARY     LIBRARY is refuse_memory.rs, built
       python3 -m checks.bank_refusals bank_threads BANK IMGCOPY [POINTS] LIBRARY    LIBRARY is few_threads.rs, built

BANK is the program of that crate. The first allocation is refused, then the second one, and so on up to 24; then some
that are spread over the day, so that there are POINTS in all, 160 where none is told. Of the starts of threads each is
refused, and then a day is played as on a machine with one processor. No day may hang. A day that meets a refusal ends
with status 1 and a line on standard error, or goes on to its end. Where the words could not be taken it is status 2.
Each time the folder has to hold all that was told, as bank_files.py says.
"""

import os
import random
import shutil
import subprocess
import sys
import tempfile
from collections import Counter
from concurrent.futures import ProcessPoolExecutor
from pathlib import Path

from checks.bank_files import Failure, Judge, check_all, memory_place, program_of, read_folder, read_lines

POINTS, FIRST_POINTS = 160, 24
COUNTS = ((3, 2, 2, 60), (1, 1, 1, 30), (6, 3, 1, 20))
MOST_SECONDS = 60
VARIABLES = {"bank_memory": "REFUSED_ALLOCATION", "bank_threads": "REFUSED_THREAD"}


class Refuser:
    """Plays days with one refusal each, in a folder of its own."""

    def __init__(self, name, bank, imgcopy, library, place, index):
        self.variable, self.bank, self.library = VARIABLES[name], bank, library
        self.folder, self.counts = Path(place) / f"bank-{index}", COUNTS[index % len(COUNTS)]
        scratch = Path(place) / f"scratch-{index}"
        scratch.mkdir()
        self.judge, self.said = Judge(imgcopy, scratch), Counter()

    def play(self, number, **variables):
        """One day, in which this allocation or start is refused, and whether it was made."""
        shutil.rmtree(self.folder, ignore_errors=True)
        self.folder.mkdir()
        reader, writer = os.pipe()
        try:
            environment = os.environ | {"LD_PRELOAD": self.library, self.variable: str(number)}
            environment |= {"REFUSAL_REPORT": str(writer)} | variables
            words = [self.bank, "--files", str(self.folder), str(number + 1), *map(str, self.counts)]
            done = subprocess.run(words, env=environment, pass_fds=(writer,), capture_output=True, timeout=MOST_SECONDS)
            os.write(writer, b".")
            is_met = os.read(reader, 1) == b"!"
        except subprocess.TimeoutExpired as failure:
            raise Failure(f"{self.variable}={number} {self.counts}: the day does not end") from failure
        finally:
            os.close(reader)
            os.close(writer)
        self.check(f"{self.variable}={number} {self.counts}", done, is_met)
        return is_met

    def check(self, name, done, is_met):
        """It went on to its end, or told a line."""
        is_closed = read_lines(done.stdout).closed
        is_line = done.stderr.startswith(b"demo_bank: ") and done.stderr.count(b"\n") == 1
        if done.returncode == 0 and is_closed and not done.stderr:
            self.said["went on" if is_met else "met none"] += 1
        elif done.returncode == 1 and is_met and is_line and not is_closed:
            self.said["told"] += 1
        elif done.returncode == 2 and is_met and not any(self.folder.iterdir()):
            self.said["did not begin"] += 1
        else:
            raise Failure(f"{name}: status {done.returncode}, {done.stderr[:200]!r}, {done.stdout[-60:]!r}")
        check_all(self.judge, read_folder(self.folder), done.stdout)


def calls_of(refuser):
    """How many allocations a day makes, or so: where the last one is that a refusal meets."""
    low, high = 1, 2
    while refuser.play(high):
        low, high = high, 2 * high
    while high - low > 8:
        middle = (low + high) // 2
        low, high = (middle, high) if refuser.play(middle) else (low, middle)
    return high


def play(name, bank, imgcopy, library, place, index, points):
    """The share of one kind of days."""
    refuser, draw = Refuser(name, bank, imgcopy, library, place, index), random.Random(index)
    if name == "bank_threads":
        number = 1
        while refuser.play(number):
            number += 1
        refuser.play(0, PROCESSORS="1")
        return refuser.said
    calls = calls_of(refuser)
    first = range(1, 1 + min(FIRST_POINTS, points))
    for number in [*first, *(draw.randint(1, calls) for _ in range(points - len(first)))]:
        refuser.play(number)
    return refuser.said


def main(arguments):
    try:
        numbers = [int(word) for word in arguments[3:-1] if word.isdigit()]
        if len(arguments) != 4 + len(numbers) or len(numbers) > 1 or arguments[0] not in VARIABLES:
            raise Failure("usage: python3 -m checks.bank_refusals NAME BANK IMGCOPY [POINTS] LIBRARY")
        name, bank, imgcopy = arguments[0], program_of(arguments[1]), program_of(arguments[2])
        points = [*numbers, POINTS][0] // len(COUNTS)
        said = Counter()
        with tempfile.TemporaryDirectory(dir=memory_place()) as place, ProcessPoolExecutor(os.cpu_count()) as pool:
            for more in [pool.submit(play, name, bank, imgcopy, os.path.abspath(arguments[-1]), place, index, points)
                         for index in range(len(COUNTS))]:
                said += more.result()
    except (Failure, OSError) as failure:
        sys.exit(f"bank_refusals.py: {failure}")
    told = ", ".join(f"{count} {what}" for what, count in sorted(said.items()))
    print(f"ok {name}: all is there that was told; of the days {told}")


if __name__ == "__main__":
    main(sys.argv[1:])
