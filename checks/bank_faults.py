"""Has calls of a bank's files fail, and file systems fill up under it, and looks at what it tells and leaves.

usage: python3 -m checks.bank_faults BANK IMGCOPY [POINTS [FIRST]] LIBRARY

BANK is the program of that crate, and LIBRARY is file_calls.rs, built. Of each kind of call, of each file, one fails:
the first, the second, and then some that are spread over the day, some POINTS in all, 500 where none is told, with
seeds from FIRST on, 1 where none is told. There is no space left, the file system is read-only, or there is an error
of input or output; for this call alone, for it and all that change anything behind it, after the call was made all the
same, or after a part of a write. Then files that may not be longer than a limit, and, where the system lets us, file
systems of so many blocks, and of so many files.

A day that meets a fault ends with status 1 and one line on standard error that names it: E22, E23, E26, or the file
and why it failed. Where a page could not be written once, it may also go on to its end. A day that meets none ends as
ever. Each time the folder has to hold all that was told, as bank_files.py says; and so does what a disk holds after a
loss of power that follows, by the rules of bank_calls.py. Now and then a day that nothing stops is played in the same
folder behind it.
"""

import errno
import os
import random
import re
import resource
import shutil
import signal
import subprocess
import sys
import tempfile
from collections import Counter
from concurrent.futures import ProcessPoolExecutor
from pathlib import Path
from typing import NamedTuple

from checks.bank_calls import FOLDER, Disk, Recorder, Trace
from checks.bank_files import (Failure, Judge, OldDay, check_all, check_day, check_left, is_of, left_of, memory_place,
                               program_of, read_folder, read_lines)

POINTS, TASKS, FIRST_CALLS = 500, 12, 3
COUNTS = ((2, 2, 1, 60), (1, 1, 2, 120), (5, 1, 1, 25))
DRAWS_OF_A_LOSS = 3
FAULTS = (errno.ENOSPC, errno.EROFS, errno.EIO)
NAMED = re.compile(r"demo_bank: (?:E2[236] \w+(?: \d+)?|(?P<place>[^:]*): (?P<why>.*))\n")
LIMITS = (0, 63, 64, 1000, 4000, 6143, 6144, 6207, 6208, 10_000, 20_000, 30_000)
BLOCKS = (1, 2, 3, 4, 5, 6, 8, 10, 12, 15, 18, 22, 26, 30)
FILES = (1, 2, 3, 4, 5, 6, 8, 10)


class Point(NamedTuple):
    """Which call fails, and how."""

    word: str
    file: str
    number: int
    fault: int
    how: str

    def text(self):
        return " ".join(map(str, self))


def kind_of(trace, call):
    """The word for the file of a call, as the library has it."""
    name = call.names[-1] if call.names else "lines" if call.word == "tell" else \
        FOLDER if call.file == FOLDER else trace.names[call.file]
    return {FOLDER: "folder"}.get(name, name.split(".")[0].split("-")[0])


def calls_of(trace):
    """How many calls of each kind a day makes, by the words that the library has for the call and the file."""
    made = Counter((call.word, kind_of(trace, call)) for call in trace.calls)
    calls = {("write", file) if word == "tell" else (word, file): count for (word, file), count in made.items()}
    calls["change", "any"] = sum(count for (word, file), count in calls.items() if word != "sync" and file != "lines")
    calls["sync", "any"] = sum(count for (word, _), count in calls.items() if word == "sync")
    # How many there are is not known: at least some for each write.
    calls["read", "volume"] = calls["write", "volume"]
    return calls


def points_of(trace, index, points, draw):
    """A task's share of the points: of each kind of call the first three, and others that are spread over the day."""
    calls = calls_of(trace)
    share = max(1, round(points / len(calls) / TASKS))
    for (word, file), made in sorted(calls.items()):
        for at in range(index * share, (index + 1) * share):
            spread = (at - FIRST_CALLS + draw.random()) / max(1, TASKS * share - FIRST_CALLS)
            number = at + 1 if at < FIRST_CALLS else 1 + int((made - 1) * spread)
            hows = ["once", "on", "late"] + ["short"] * (word == "write" and file != "lines")
            yield Point(word, file, min(number, made), draw.choice(FAULTS), draw.choice(hows))


class Faults:
    """Days of one kind, in a folder of their own."""

    def __init__(self, bank, imgcopy, library, place, index, seed):
        self.recorder, self.draw = Recorder([bank], library), random.Random(seed)
        self.seed, self.index = seed, index
        self.folder, self.scratch = Path(place) / f"bank-{index}", Path(place) / f"scratch-{index}"
        self.scratch.mkdir()
        self.numbers = (seed, *COUNTS[index % len(COUNTS)])
        self.judge, self.counts = Judge(imgcopy, self.scratch), Counter()

    def fresh(self):
        shutil.rmtree(self.folder, ignore_errors=True)
        self.folder.mkdir()

    def noted(self):
        """A day that nothing stops, in the folder of another one, and what that left."""
        self.fresh()
        old = self.play_well("an older day", self.seed + 1000)
        trace = self.folder.with_suffix(".trace")
        before = {path.name: path.read_bytes() for path in sorted(self.folder.iterdir())}
        done, _ = self.recorder.run(self.folder, *self.numbers, trace=trace)
        self.check_end("a day that is noted", done, self.seed)
        noted = Trace(trace.read_bytes(), self.folder, before)
        trace.unlink()
        return noted, old

    def play_well(self, name, seed):
        """A day that nothing stops goes to its end."""
        done, _ = self.recorder.run(self.folder, seed, *self.numbers[1:])
        self.check_end(name, done, seed)
        return OldDay(read_folder(self.folder), done.stdout)

    def check_end(self, name, done, seed):
        if done.returncode != 0 or done.stderr:
            raise Failure(f"{name}, nothing fails: status {done.returncode}, {done.stderr[:200]!r},"
                          f" {done.stdout[-80:]!r}")
        check_day(done.stdout, seed, self.numbers[1], self.numbers[-1])
        check_all(self.judge, read_folder(self.folder), done.stdout)

    def check_told(self, name, done, fault=None):
        """It ends with status 1, and one line says why."""
        said = NAMED.fullmatch(done.stderr.decode(errors="replace"))
        if done.returncode != 1 or not said:
            raise Failure(f"{name}: status {done.returncode}, standard error {done.stderr[:300]!r}")
        if read_lines(done.stdout).closed:
            raise Failure(f"{name}: the day was closed, and has status 1")
        is_place = said["place"] and (said["place"].startswith(str(self.folder)) or said["place"] == "standard output")
        if said["why"] and (not is_place or fault and os.strerror(fault) not in said["why"]):
            raise Failure(f"{name}: standard error {done.stderr[:300]!r}")

    def check_point(self, point, old):
        """One call fails."""
        name = f"{point.text()}, seed {self.seed}, in {self.numbers[1:]}"
        trace = self.folder.with_suffix(".trace")
        before = {path.name: path.read_bytes() for path in sorted(self.folder.iterdir())}
        done, is_met = self.recorder.run(self.folder, *self.numbers, trace=trace, failed=point.text())
        noted = Trace(trace.read_bytes(), self.folder, before)
        trace.unlink()
        # A page that is not read is repaired, once there is a copy; one that is not written is written again.
        may_go_on = noted.fault in (("read", "volume"), ("write", "volume")) and point.how in ("once", "late")
        if not is_met:
            self.check_end(f"{name}, which is not met", done, self.seed)
        elif done.returncode == 0 and may_go_on:
            self.check_end(f"{name}, and the day goes on", done, self.seed)
        else:
            self.check_told(name, done, point.fault)
        left = read_folder(self.folder)
        if not is_of(old, left, done.stdout):
            check_all(self.judge, left, done.stdout)
        if is_met:
            self.check_losses(noted, old, DRAWS_OF_A_LOSS if point.word == "sync" else 1)
        self.counts["failed calls" if is_met else "calls that were not made"] += 1
        self.counts["days that went on"] += is_met and done.returncode == 0

    def check_losses(self, trace, old, count):
        """The power fails behind the call that failed, at the end or before."""
        failed = next((at for at, call in enumerate(trace.calls) if not call.is_done), 0)
        for _ in range(count):
            disk, end = Disk(trace), self.draw.choice((len(trace.calls), self.draw.randint(failed, len(trace.calls))))
            for call in trace.calls[:end]:
                disk.take(call)
            left, output = left_of(disk.files_after_loss(self.draw)), trace.output(end)
            if not is_of(old, left, output):
                check_left(left, read_lines(output))
        self.counts["losses of power"] += count

    def play_points(self, points):
        trace, old = self.noted()
        for point in points_of(trace, self.index, points, self.draw):
            self.fresh()
            if point.word == "remove" or self.draw.random() < 0.2:
                old = self.play_well("an older day", self.seed + 1000)
                self.check_point(point, old)
            else:
                self.check_point(point, None)
            if self.draw.random() < 0.1:
                self.play_well(f"behind {point.text()}", self.seed + 2000)

    def play_short(self):
        """Each write takes a part of what it is given, and no call fails."""
        self.fresh()
        done, _ = self.recorder.run(self.folder, *self.numbers, is_short=True)
        self.check_end("short writes", done, self.seed)

    def play_limits(self):
        """No file may be longer than a limit."""
        for limit in LIMITS:
            def before(limit=limit):
                signal.signal(signal.SIGXFSZ, signal.SIG_IGN)
                resource.setrlimit(resource.RLIMIT_FSIZE, (limit, limit))
            self.fresh()
            words = self.recorder.words(self.folder, *self.numbers[:-1], 10 * self.numbers[-1])
            done = subprocess.run(words, capture_output=True, timeout=60, preexec_fn=before)
            self.check_told(f"files of at most {limit} bytes", done, errno.EFBIG)
            check_all(self.judge, read_folder(self.folder), done.stdout)
            self.counts["limits"] += 1
        self.play_well("files of a limited length", self.seed)

    def play_mounted(self):
        """A file system that gets full at each of its blocks, one that has no place for another file, and one that is
        read-only."""
        sizes = [f"size={4096 * blocks}" for blocks in BLOCKS]
        for options in [*sizes, *(f"size=16m,nr_inodes={files}" for files in FILES), "ro"]:
            self.fresh()
            if not mount(self.folder, options):
                self.play_closed()
                break
            try:
                words = self.recorder.words(self.folder, *self.numbers[:-1], 10 * self.numbers[-1])
                done = subprocess.run(words, capture_output=True, timeout=60)
                if not (done.returncode == 0 and "nr_inodes" in options):
                    self.check_told(options, done, errno.EROFS if options == "ro" else errno.ENOSPC)
                check_all(self.judge, read_folder(self.folder), done.stdout)
                self.counts["file systems"] += 1
            finally:
                subprocess.run(["umount", str(self.folder)], check=True, capture_output=True)

    def play_closed(self):
        """A folder in which nothing may be made."""
        if os.geteuid() == 0:
            return
        self.folder.chmod(0o555)
        done = subprocess.run(self.recorder.words(self.folder, *self.numbers), capture_output=True, timeout=60)
        self.check_told("a folder that is read-only", done, errno.EACCES)
        self.folder.chmod(0o755)
        self.counts["folders that are read-only"] += 1


def mount(folder, options):
    """Mounts a file system in memory, and says whether the system let us."""
    done = subprocess.run(["mount", "-t", "tmpfs", "-o", options, "none", str(folder)], capture_output=True)
    return done.returncode == 0


def play(bank, imgcopy, library, place, index, seed, points):
    """One task: its share of the points; and in the first ones the limits and the file systems."""
    faults = Faults(bank, imgcopy, library, place, index, seed)
    faults.play_points(points)
    for at, more in enumerate((faults.play_short, faults.play_limits, faults.play_mounted)):
        if index == at:
            more()
    shutil.rmtree(faults.folder)
    return faults.counts, faults.judge.made


def main(arguments):
    try:
        numbers = [int(word) for word in arguments[2:-1] if word.isdigit()]
        if len(arguments) != 3 + len(numbers) or len(numbers) > 2:
            raise Failure("usage: python3 -m checks.bank_faults BANK IMGCOPY [POINTS [FIRST]] LIBRARY")
        bank, imgcopy, library = program_of(arguments[0]), program_of(arguments[1]), os.path.abspath(arguments[-1])
        points, first = [*numbers, *(POINTS, 1)[len(numbers):]]
        counts, made = Counter(), Counter()
        with tempfile.TemporaryDirectory(dir=memory_place()) as place, ProcessPoolExecutor(os.cpu_count()) as pool:
            tasks = [pool.submit(play, bank, imgcopy, library, place, index, first + index, points)
                     for index in range(TASKS)]
            for task in tasks:
                for sums, more in zip((counts, made), task.result()):
                    sums += more
    except (Failure, OSError, subprocess.SubprocessError) as failure:
        sys.exit(f"bank_faults.py: {failure}")
    told = ", ".join(f"{count} {name}" for name, count in sorted(counts.items()))
    print(f"bank_faults: seeds from {first}; {made['audit']} audits and {made['restore']} restores")
    print(f"ok bank_faults: all is there that was told, and each fault is named: {told}")


if __name__ == "__main__":
    main(sys.argv[1:])
