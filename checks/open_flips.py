"""Damages each file of a database in a folder, and looks at what openings leave of it.

usage: python3 -m checks.open_flips IMGCOPY [STEP [SEED]]

Two databases have a log of some 40 records, a master record, and a full and an incremental copy. One was killed with a
transaction open, the other was closed. In each byte, or in one of each STEP, a bit is flipped, which is drawn by SEED:
of the log, of the master record, of the copies and of what a closing noted (manifests.py flips those of the manifest).
The log is also cut off at each record and at places between, and each file is removed. Then the folder is opened:

- It is refused where the model says that something forced is missing, and then all files are as they were. Else it
  opens.
- The front of the log stands, and what stood behind it is in the log or in a file of its own, unless it was zeros or
  less than a record. Each copy has its name, or that of a refused one.
- A folder that was refused is opened by `--salvage`, and then without it.
- A folder that opened is opened again, and copies are made there until the ids of those that were refused are given
  again.
"""

import os
import random
import subprocess
import sys
import tempfile
from collections import Counter
from concurrent.futures import ProcessPoolExecutor
from pathlib import Path
from typing import NamedTuple

from checks.bank_files import Failure, memory_place, program_of
from checks.open_folders import Files, Program, check_refusal, is_left_out, is_unfinished
from checks.open_spoils import flipped_at
from model.lives import front_of, has_log, is_worth_keeping, reopen
from model.log_format import HEADER_SIZE, RECORD_SIZE

STEP, PAGES, GROUPS = 1, 2, 16
CHECKPOINT = ["ckpt", "gather", "gather", "gather", "gather", "gather", "endckpt"]
SCRIPT = [
    "begin", "set 1 0 0 500", "set 1 1 3 7", "add 1 0 61 1", "commit 1", "wbegin 0", "wend 0", *CHECKPOINT,
    "full", "take 1 0", "take 1 1", "seal 1",
    "begin", "add 2 0 0 5", "begin", "set 3 1 3 8", "commit 2", "abort 3", "undo 3", "undo 3",
    "begin", "set 4 0 0 600", "save 4", "set 4 1 0 2", "undoto 4 1152", "commit 4", "wbegin 0", "wend 0", *CHECKPOINT,
    "inc 1", "take 2 0", "take 2 1", "seal 2",
    "begin", "add 5 0 0 5", "commit 5", "begin", "set 6 1 1 9", "commit 6",
    "begin", "add 7 0 5 5", "set 7 1 1 10", "force"]
# A full copy by whatever id it gets.
COPIES = ["full", *(f"{word}" for number in range(1, 5) for word in
                    (*(f"take {number} {page}" for page in range(PAGES)), f"seal {number}"))]


class Case(NamedTuple):
    """A folder that is damaged."""

    name: str
    files: dict


class Maker(Program):
    """It makes databases of this module's script."""

    def killed_base(self):
        """The files of a life that is killed once all is answered."""
        self.put({})
        answers = self.killed("--pages", str(PAGES), lines=SCRIPT)
        refused = [(line, answer) for line, answer in zip(SCRIPT, answers[1:]) if answer.startswith("E") or not answer]
        if refused:
            raise Failure(f"the database is not made: {refused[:3]}")
        return self.files()

    def closed_base(self):
        self.put({})
        done = self.open("--pages", str(PAGES), lines=SCRIPT)
        if done.returncode != 0 or done.stderr:
            raise Failure(f"the database is not made: {done!r:.300}")
        return self.files()


def cases_of(way, files, step, draw):
    """A bit flipped in one byte of each so many, the log cut off, and each file removed."""
    for name, data in files.items():
        if name in ("volume", "manifest"):
            continue
        for at in range(draw.randrange(min(step, len(data))), len(data), step):
            bit = draw.randrange(8)
            other = flipped_at(data, at, bit)
            yield Case(f"{way}, bit {bit} of byte {at} of {name} flipped", files | {name: other})
        yield Case(f"{way}, without {name}", {one: bytes_ for one, bytes_ in files.items() if one != name})
    log = files["log"]
    for end in range(0, len(log) + 1, RECORD_SIZE):
        for place in {end, min(end + draw.choice([1, 8, 63]), len(log))}:
            yield Case(f"{way}, log cut off at {place}", files | {"log": log[:place]})
        if HEADER_SIZE < end < len(log):
            zeros = log[:end] + bytes(len(log) - end)
            yield Case(f"{way}, log with zeros from {end} on", files | {"log": zeros})
            moved = log[:end] + bytes(RECORD_SIZE) + log[end + RECORD_SIZE:]
            yield Case(f"{way}, log with a record of zeros at {end}", files | {"log": moved})


def check_kept(before, after):
    """An opening that went well has destroyed nothing."""
    log, new = before["log"], after["log"]
    end = front_of(log).end()
    if new[:end] != log[:end]:
        raise Failure(f"the front of the log, up to {end}, was changed")
    tail = log[end:]
    left = [data for name, data in after.items() if is_left_out(name) and name not in before]
    is_in_place = not is_worth_keeping(tail) or new[end:] == tail
    if not is_in_place and tail not in left or any(data != tail for data in left):
        raise Failure(f"the {len(tail)} bytes behind {end} are gone, or not whole: {len(left)} files have what was left"
                      " out")
    for name, data in before.items():
        if name.startswith("copy-") and not is_unfinished(name):
            names = [other for other in after if other == name or other.startswith(f"{name}.refused")]
            if data not in [after[other] for other in names]:
                raise Failure(f"{name} is gone: there are {names}")
        elif is_left_out(name) and after.get(name) != data:
            raise Failure(f"{name} is gone")


class Checker:
    """The openings of the folders of a group of cases."""

    def __init__(self, imgcopy, place, number):
        self.program = Program(imgcopy, Path(place) / f"flips-{number}")
        self.counts, self.failures = Counter(), []

    def check(self, case):
        self.program.put(case.files)
        files = Files(case.files)
        if files.log is None or not has_log(files.log):
            self.refused_without_a_log()
        elif files.losses():
            check_refusal([self.program.imgcopy, "open", self.program.folder], self.program.folder)
            self.counts["refused"] += 1
            self.opened("the opening by --salvage", "--salvage")
            self.opened("the opening behind --salvage", lines=COPIES)
        else:
            self.opened("the opening")
            self.opened("the second opening", lines=COPIES)
            self.opened("the third opening")

    def refused_without_a_log(self):
        before = self.program.files()
        done = self.program.open()
        after = self.program.files()
        if done.returncode != 2 or done.stdout or after != before:
            changed = [name for name in before | after if before.get(name) != after.get(name)]
            raise Failure(f"without a log it has status {done.returncode}, {done.stdout[:70]!r}, {done.stderr[:300]!r},"
                          f" and {changed} are not as they were")
        self.counts["refused without a log"] += 1

    def opened(self, what, *words, lines=()):
        """Opens the folder, and looks at it."""
        before = self.program.files()
        first = reopen(before["log"], Files(before).copies).line
        done = self.program.open(*words, lines=lines)
        after = self.program.files()
        if done.returncode != 0 or not done.stdout.startswith(f"{first}\n".encode()):
            raise Failure(f"{what} has status {done.returncode}, {done.stdout[:70]!r}, {done.stderr[:300]!r}, and"
                          f" {first!r} is wanted")
        try:
            check_kept(before, after)
        except Failure as failure:
            raise Failure(f"{what} went well, and {failure}; {done.stderr[:300]!r}") from failure
        for name in after:
            if name not in before and (is_left_out(name) or "refused" in name) and name.encode() not in done.stderr:
                raise Failure(f"{what} made {name}, and did not tell it: {done.stderr[:300]!r}")
        self.counts["opened by --salvage" if words else "opened"] += 1
        self.counts["put aside"] += any(is_left_out(name) and name not in before for name in after)


def check_all(imgcopy, place, number, cases):
    checker = Checker(imgcopy, place, number)
    for case in cases:
        try:
            checker.check(case)
        except (Failure, subprocess.TimeoutExpired) as failure:
            checker.failures.append(f"{case.name}: {failure}")
    return checker.counts, checker.failures


def main(arguments):
    try:
        if not 1 <= len(arguments) <= 3 or not all(number.isdigit() for number in arguments[1:]):
            raise Failure("usage: python3 -m checks.open_flips IMGCOPY [STEP [SEED]]")
        imgcopy = program_of(arguments[0])
        step, seed = [*map(int, arguments[1:]), *(STEP, 1)[len(arguments) - 1:]]
        draw, counts, failures = random.Random(seed), Counter(), []
        with tempfile.TemporaryDirectory(dir=memory_place()) as place, ProcessPoolExecutor(os.cpu_count()) as pool:
            maker = Maker(imgcopy, Path(place) / "base")
            bases = {"killed": maker.killed_base(), "closed": maker.closed_base()}
            cases = [case for way, files in bases.items() for case in cases_of(way, files, step, draw)]
            groups = [pool.submit(check_all, imgcopy, place, number, cases[number::GROUPS]) for number in range(GROUPS)]
            for group in groups:
                more, failed = group.result()
                counts += more
                failures += failed
        if failures:
            raise Failure("\n".join([f"{len(failures)} of {len(cases)} cases", *sorted(failures)]))
    except (Failure, OSError, subprocess.SubprocessError) as failure:
        sys.exit(f"open_flips.py: {failure}")
    print("open_flips: " + ", ".join(f"{count} {name}" for name, count in sorted(counts.items())))
    print(f"ok open_flips: {len(cases)} damaged folders are opened or refused as the model says, and nothing in them is"
          " destroyed")


if __name__ == "__main__":
    main(sys.argv[1:])
