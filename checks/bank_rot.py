"""Damages the volume under a bank on files, and opens a second bank in its folder.

usage: python3 -m checks.bank_rot BANK IMGCOPY [ROUNDS [FIRST]]

BANK is the program of that crate. In each of ROUNDS rounds, 24 where none is told, with seeds from FIRST on, 1 where
none is told, a bank is stopped once it has told a copy and stored the reserves, its volume is damaged, and it goes on.
In most rounds that is a byte of a reserve page, which nobody changes behind the opening: the bank has to tell that it
repaired that page, and the volume has it as it was. In others more is damaged: bytes of any pages, all pages, or the
file's length. Each bank has to go on to its end, and no line may be on standard error.

A bank may have ended before it was stopped, or have read that page for the last time. It tells no repair then, and
the page has to be just as the damage left it. Such a round is late. It is played again, each time with twice as many
transfers, and in the end it must not be late. A bank is held up too, so that this is rare: what it tells goes into a
pipe that has room for one page of memory, and so it is never far ahead of what is read.

In other rounds a second bank is opened in the folder of one that works. It ends with status 1 and one line that says
why, tells nothing, and leaves each file where it is; the first one goes on to its end.

Each folder has remains of an older day, and a file whose name only begins as a copy's. A bank clears its folder of
the first, and leaves the other; a second bank in a folder that is in use clears nothing.

In the end the folder has to hold all that was told, as bank_files.py says.
"""

import os
import random
import re
import select
import shutil
import signal
import subprocess
import sys
import tempfile
from collections import Counter
from concurrent.futures import ProcessPoolExecutor
from pathlib import Path

from checks.bank_files import (RESERVES, Failure, Judge, check_all, check_day, memory_place, program_of, read_folder,
                               read_lines)
from model.log_format import PAGE_SIZE, decode_page
from model.recovery import is_change

ROUNDS, TRANSFERS, MOST_TRIES = 24, 400, 4
PIPE_BYTES = 4096
MOST_TELLERS, MOST_WORKERS = 6, 4
MOST_SECONDS = 60
KINDS = ("reserve", "reserve", "reserve", "pages", "all", "length", "second")
OLD, FOREIGN = ("copy-77", "copy-78.unfinished-1"), "copy-of-a-letter"


def page_of(volume, page):
    return volume[PAGE_SIZE * page:PAGE_SIZE * (page + 1)]


class Round:
    """A bank that is stopped on its way."""

    def __init__(self, bank, folder, seed, transfers):
        self.draw, self.folder, self.transfers = random.Random(seed), folder, transfers
        self.kind = KINDS[seed % len(KINDS)]
        self.seconds = MOST_SECONDS * transfers // TRANSFERS
        self.seed, self.tellers = seed, self.draw.randint(1, MOST_TELLERS)
        workers = [self.draw.randint(1, MOST_WORKERS) for _ in range(2)]
        self.words = [bank, "--files", str(folder), *map(str, (seed, self.tellers, *workers, transfers))]
        for name in (*OLD, FOREIGN):
            (folder / name).write_text("old")
        self.child = subprocess.Popen(self.words, stdout=subprocess.PIPE, stderr=subprocess.PIPE, pipesize=PIPE_BYTES)
        # Of each page that was damaged, what the damage left of it.
        self.output, self.is_damaged, self.damaged = b"", False, {}

    def read(self):
        """Takes what it tells next, and says whether there was something."""
        if not select.select([self.child.stdout], [], [], self.seconds)[0]:
            raise Failure("it tells nothing more, and does not end")
        more = os.read(self.child.stdout.fileno(), 4096)
        self.output += more
        return bool(more)

    def wait_for(self, line):
        """Reads lines until one begins so."""
        while not any(told.startswith(line) for told in self.output.split(b"\n")):
            if not self.read():
                raise Failure(f"it ended before it told {line!r}: {self.child.communicate()[1][:200]!r}")

    def stop(self):
        """Stops it, and says whether it has not ended yet."""
        if self.child.poll() is not None:
            return False
        os.kill(self.child.pid, signal.SIGSTOP)
        _, status = os.waitpid(self.child.pid, os.WUNTRACED)
        if os.WIFSTOPPED(status):
            return True
        self.child.returncode = os.waitstatus_to_exitcode(status)
        return False

    def stop_stored(self):
        """Stops it once its reserves are stored, and says whether it has not ended before."""
        while self.stop():
            volume = (self.folder / "volume").read_bytes()
            if all(decode_page(page_of(volume, page))[1] for page in RESERVES):
                return True
            self.child.send_signal(signal.SIGCONT)
            if not self.read():
                return False
        return False

    def damage(self):
        path = self.folder / "volume"
        data, self.is_damaged = bytearray(path.read_bytes()), True
        if self.kind == "length":
            os.truncate(path, self.draw.randrange(len(data)))
            return
        count = len(data) // PAGE_SIZE
        pages = {"reserve": [self.draw.choice(RESERVES)], "pages": self.draw.sample(range(count), 4)}
        with open(path, "r+b") as volume:
            for page in pages.get(self.kind, range(count)):
                place = PAGE_SIZE * page + self.draw.randrange(PAGE_SIZE)
                data[place] ^= 1 << self.draw.randrange(8)
                volume.seek(place)
                volume.write(data[place:place + 1])
                self.damaged[page] = page_of(data, page)

    def open_second(self, bank):
        """Another bank in the same folder."""
        kept = ("log", "volume", "copy-79")
        (self.folder / kept[2]).write_text("of the first bank")
        before = {path.name: path.stat().st_ino for path in self.folder.iterdir() if path.name in kept}
        done = subprocess.run([bank, *self.words[1:]], capture_output=True, timeout=MOST_SECONDS)
        after = {path.name: path.stat().st_ino for path in self.folder.iterdir() if path.name in before}
        if done.returncode != 1 or done.stdout or not re.fullmatch(rb"demo_bank: [^\n]*another[^\n]*\n", done.stderr):
            raise Failure(f"a second bank: status {done.returncode}, {done.stdout[:80]!r}, {done.stderr[:200]!r}")
        if before != after:
            raise Failure("a second bank changed the files")
        (self.folder / kept[2]).unlink()

    def check_remains(self):
        """What an older day left is gone, and a file of another's is there."""
        left = [name for name in OLD if (self.folder / name).exists()]
        if left or (self.folder / FOREIGN).read_text() != "old":
            raise Failure(f"of an older day {left} is left, or {FOREIGN} is not as it was")

    def end(self):
        """It goes on to its end."""
        rest, said = self.child.communicate(timeout=self.seconds)
        self.output += rest
        if self.child.returncode != 0 or said:
            raise Failure(f"status {self.child.returncode}, {said[:200]!r}, the last line is"
                          f" {self.output.splitlines()[-1:]}")
        check_day(self.output, self.seed, self.tellers, self.transfers)

    def check_repairs(self, front):
        """What was repaired is so in the log. Gives the count of it, or None where the round was late."""
        repaired = read_lines(self.output).repaired
        for page, lsn in repaired:
            record = front.record_at(lsn)
            if record is None or not is_change(record) or record.change.page != page:
                raise Failure(f"repaired {page} {lsn} was told, and the record there does not change the page")
        if self.kind == "reserve" and self.is_damaged:
            is_late = self.is_unread(repaired, front)
        else:
            is_late = self.kind != "second" and not self.is_damaged
        return None if is_late else len(repaired)

    def is_unread(self, repaired, front):
        """Whether nobody read the damaged reserve. Else it was repaired, and is as the opening made it."""
        [(damaged, left)] = self.damaged.items()
        found = page_of((self.folder / "volume").read_bytes(), damaged)
        # Two who need a page at the same time may both repair it.
        told = dict(repaired)
        if not told and found == left:
            return True
        if set(told) != {damaged}:
            is_left = "is" if found == left else "is not"
            raise Failure(f"page {damaged} was damaged, and {is_left} as the damage left it, and told is {repaired}")
        if decode_page(found) != (damaged, told[damaged], front.slots[damaged]):
            raise Failure(f"page {damaged} was damaged, {repaired} is told, and the volume has {decode_page(found)}")
        return False


def play(bank, imgcopy, place, seed):
    """One round, until it was not late."""
    for late in range(MOST_TRIES):
        counts = play_once(bank, imgcopy, place, seed, TRANSFERS << late)
        if counts is not None:
            return counts + Counter(late=late)
    raise Failure(f"seed {seed}: nobody read what was damaged, however long the bank worked")


def play_once(bank, imgcopy, place, seed, transfers):
    """One round with so many transfers of each teller, or None where it was late."""
    folder, scratch = Path(place) / f"bank-{seed}", Path(place) / f"scratch-{seed}"
    folder.mkdir()
    scratch.mkdir()
    judge, one = Judge(imgcopy, scratch), Round(bank, folder, seed, transfers)
    try:
        one.wait_for(b"opened " if one.kind == "second" else b"copy 1 ")
        if one.kind == "second":
            one.open_second(bank)
        elif one.stop_stored():
            one.damage()
            one.child.send_signal(signal.SIGCONT)
        one.end()
        one.check_remains()
        front, _ = check_all(judge, read_folder(folder), one.output)
        repairs = one.check_repairs(front)
    except Failure as failure:
        raise Failure(f"{' '.join(one.words)} ({one.kind}): {failure}") from failure
    finally:
        one.child.kill()
        one.child.wait()
    shutil.rmtree(folder)
    shutil.rmtree(scratch)
    return None if repairs is None else Counter({"repairs": repairs, one.kind: 1})


def main(arguments):
    try:
        if not 2 <= len(arguments) <= 4 or not all(number.isdigit() for number in arguments[2:]):
            raise Failure("usage: python3 -m checks.bank_rot BANK IMGCOPY [ROUNDS [FIRST]]")
        bank, imgcopy = map(program_of, arguments[:2])
        rounds, first = [*map(int, arguments[2:]), *(ROUNDS, 1)[len(arguments) - 2:]]
        counts = Counter()
        with tempfile.TemporaryDirectory(dir=memory_place()) as place, ProcessPoolExecutor(os.cpu_count()) as pool:
            for more in [pool.submit(play, bank, imgcopy, place, seed) for seed in range(first, first + rounds)]:
                counts += more.result()
    except (Failure, OSError, subprocess.SubprocessError) as failure:
        sys.exit(f"bank_rot.py: {failure}")
    print(f"bank_rot: seeds from {first}")
    print(f"ok bank_rot: of {rounds} banks {counts['reserve']} had a reserve damaged, {counts['pages']} four pages,"
          f" {counts['all']} all, {counts['length']} the length; {counts['repairs']} pages were repaired;"
          f" {counts['second']} second banks were refused; {counts['late']} banks were late and played again")


if __name__ == "__main__":
    main(sys.argv[1:])
