"""Plays days of a bank on the engine for many threads, and compares what is restored with sums of its own.

usage: python3 -m checks.bank BANK [IMGCOPY] [COUNT [FIRST]]

BANK is the program of that crate. It is run COUNT times, 300 where none is told, with the seeds from FIRST on, 1 where
none is told, each time with other counts of threads. What a day moves is drawn here too, in plain numbers: so each sum
and each balance is known, whatever the schedule of the threads was. How many pages were changed behind each copy hangs
on the schedule: there the saved log has to have a later change of so many pages of the copy, and not every day may have
none. Where IMGCOPY is told, it audits and restores the files of each day, whose log loses what the crash takes.
Without COUNT a run that would begin after 50 seconds is left out, and the last line tells how many were made.
"""

import os
import re
import shutil
import subprocess
import sys
import tempfile
import time
from pathlib import Path

from model.log_format import HEADER_SIZE, KINDS, PAGE_SIZE, RECORD_SIZE, decode_page, decode_record

COUNT = 300
MOST_SECONDS = 50
SECONDS_OF_A_RUN = 60
PAGES, ACCOUNT_PAGES, ACCOUNTS_OF_PAGE = 12, 8, 8
ACCOUNTS = ACCOUNT_PAGES * ACCOUNTS_OF_PAGE
OPENING, TRANSFERS = 100_000, 200
CRASH_ROW = 2**32 - 1
MOST_TELLERS, MOST_WORKERS = 12, 8
COPIES = ("copy-1", "copy-2")
BEHIND = re.compile(r"changed behind copy ([12]): (\d+) pages?")


class Failure(Exception):
    """What differs, in one line."""


class Draws:
    """A row of numbers that look random, as the crate's README tells it."""

    def __init__(self, seed, row):
        self.state = (seed * 0x9E3779B97F4A7C15 + row) % 2**64

    def below(self, bound):
        self.state = (self.state * 6364136223846793005 + 1442695040888963407) % 2**64
        return (self.state >> 33) % bound

    def transfer(self):
        """From which account to which one, how much, and whether it is taken back."""
        source = self.below(ACCOUNTS)
        target = (source + 1 + self.below(ACCOUNTS - 1)) % ACCOUNTS
        return source, target, 1 + self.below(9), self.below(5) == 0


class Day:
    """What a day leaves, by its seed and its number of tellers."""

    def __init__(self, seed, tellers):
        rows = [Draws(seed, row) for row in range(tellers)]
        self.balances = balances_after(rows)
        changes = list(left_open(rows))
        self.lost = Draws(seed, CRASH_ROW).below(len(changes) + 1)
        total = ACCOUNTS * OPENING
        self.whole, self.redone, self.total = total + sum(changes), total + sum(changes[:len(changes) - self.lost]), total

    def lines(self):
        yield f"copy 1, full: {PAGES} of {PAGES} pages"
        yield f"copy 2, on copy 1: {ACCOUNT_PAGES} of {PAGES} pages"
        for copy in (1, 2):
            yield f"copy {copy} and the whole log: {self.whole}"
        yield f"the crash takes {self.lost} {'record' if self.lost == 1 else 'records'}"
        yield f"after redo: {self.redone}"
        yield f"after undo: {self.total}"
        for page in range(ACCOUNT_PAGES):
            numbers = self.balances[page * ACCOUNTS_OF_PAGE:(page + 1) * ACCOUNTS_OF_PAGE]
            yield f"page {page}: {' '.join(map(str, numbers))}"


def counts_of(seed):
    """How many tellers there are, and how many workers each copy has: the fewest and the most come first."""
    corners = [(1, 1, 1), (MOST_TELLERS, MOST_WORKERS, MOST_WORKERS), (5, 3, 2)]
    if seed <= len(corners):
        return corners[seed - 1]
    draws = Draws(seed, CRASH_ROW - 1)
    return 1 + draws.below(MOST_TELLERS), 1 + draws.below(MOST_WORKERS), 1 + draws.below(MOST_WORKERS)


def balances_after(rows):
    """The balances of all transfers that were committed, and of what the copier shares out."""
    balances = [OPENING] * ACCOUNTS
    for draws in rows:
        for _ in range(TRANSFERS):
            source, target, amount, is_taken_back = draws.transfer()
            if not is_taken_back:
                balances[source] -= amount
                balances[target] += amount
    for page in range(ACCOUNT_PAGES):
        balances[ACCOUNTS - 1] -= 1
        balances[page * ACCOUNTS_OF_PAGE] += 1
    return balances


def left_open(rows):
    """What each record makes of the sum that the tellers append last: a Begin, a withdrawal, and for every second
    one, from the first on, a deposit."""
    for number, draws in enumerate(rows):
        _, _, amount, _ = draws.transfer()
        yield from (0, -amount)
        if number % 2 == 0:
            yield amount


def pages_of(data):
    """The number, the LSN and the slots of each page."""
    return [decode_page(data[at:at + PAGE_SIZE]) for at in range(0, len(data), PAGE_SIZE)]


def last_changes(log):
    """The LSN of the last change of each page that a log has changed."""
    last = {}
    for at in range(HEADER_SIZE, len(log), RECORD_SIZE):
        record = decode_record(log[at:at + RECORD_SIZE])
        if record.kind in KINDS and KINDS[record.kind].has_change:
            last[record.change.page] = record.lsn
    return last


class Bank:
    def __init__(self, program, imgcopy, folder):
        self.program, self.imgcopy, self.folder = program, imgcopy, folder
        self.behind = 0

    def run(self, *words):
        return subprocess.run([self.program, *map(str, words)], capture_output=True, timeout=SECONDS_OF_A_RUN, text=True)

    def check(self, seed):
        """Plays one day, and compares its lines and its files."""
        counts = tellers, _, _ = counts_of(seed)
        day, name = Day(seed, tellers), f"{seed} {' '.join(map(str, counts))}"
        saved = self.folder / str(seed)
        saved.mkdir()
        done = self.run("--behind", "--save", saved, seed, *counts)
        if done.returncode != 0:
            raise Failure(f"{name}: status {done.returncode}, standard error {done.stderr[:80]!r}")
        lines = done.stdout.splitlines()
        behind = [int(found[2]) for found in map(BEHIND.fullmatch, lines) if found]
        for line, wanted in zip([*(line for line in lines if not BEHIND.fullmatch(line)), ""], [*day.lines(), ""]):
            if line != wanted:
                raise Failure(f"{name}: the line {line!r} in place of {wanted!r}")
        self.check_behind(name, saved, behind)
        if self.imgcopy:
            self.check_restore(name, saved, day)
        shutil.rmtree(saved)

    def check_behind(self, name, saved, behind):
        """So many pages of each copy have a later change in the log, at least."""
        last = last_changes((saved / "log").read_bytes())
        if len(behind) != len(COPIES):
            raise Failure(f"{name}: of {len(behind)} copies it is told how many pages were changed behind them")
        for copy, count in zip(COPIES, behind):
            pages = pages_of((saved / copy).read_bytes()[HEADER_SIZE:])
            changed = sum(last.get(number, 0) > lsn for number, lsn, _ in pages)
            if count > changed:
                raise Failure(f"{name}: {count} pages were changed behind {copy}, and the log has changed {changed} of it")
        self.behind += sum(behind)

    def check_restore(self, name, saved, day):
        """What the crash left of the log brings back each balance, by the program for files."""
        log, names = saved / "log", [saved / copy for copy in COPIES]
        os.truncate(log, log.stat().st_size - RECORD_SIZE * day.lost)
        audit = subprocess.run([self.imgcopy, "audit", log, *names], capture_output=True, timeout=SECONDS_OF_A_RUN)
        if (audit.returncode, audit.stdout, audit.stderr) != (0, b"sound\n", b""):
            raise Failure(f"{name}: audit has status {audit.returncode}, {audit.stdout!r}, {audit.stderr[:200]!r}")
        words = [self.imgcopy, "restore", "--no-manifest", log, saved / "master", *names]
        restored = subprocess.run(words, capture_output=True, timeout=SECONDS_OF_A_RUN)
        if restored.returncode != 0 or restored.stderr:
            raise Failure(f"{name}: restore has status {restored.returncode}, {restored.stderr[:200]!r}")
        pages = pages_of(restored.stdout)
        balances = [number for _, _, slots in pages[:ACCOUNT_PAGES] for number in slots[:ACCOUNTS_OF_PAGE]]
        if balances != day.balances or sum(balances) != day.total or len(pages) != PAGES:
            raise Failure(f"{name}: the restored accounts have {sum(balances)}, or another one has it")

    def check_words(self):
        """The words that are wrong, and a folder that is not there."""
        for words in ((), ("1",), ("--save",), ("--save", "1", "1", "1", "1"), ("--save", ".", "--behind", 1, 1, 1, 1),
                      (1, 33, 1, 1), (1, 0, 1, 1), (1, 1, 65, 1), ("x", 1, 1, 1)):
            done = self.run(*words)
            if done.returncode != 2 or done.stdout or not done.stderr.startswith("usage: demo_bank "):
                raise Failure(f"the words {words}: status {done.returncode}, standard error {done.stderr[:80]!r}")
        done = self.run("--save", self.folder / "nosuch", 1, 1, 1, 1)
        why = f"E29 WriteFault 0\ndemo_bank: {self.folder / 'nosuch'}: No such file or directory (os error 2)\n"
        if (done.returncode, done.stdout, done.stderr) != (1, "", why):
            raise Failure(f"a folder that is not there: status {done.returncode}, standard error {done.stderr[:200]!r}")
        done = self.run(1, 1, 1, 1)
        if done.stdout.splitlines() != list(Day(1, 1).lines()):
            raise Failure(f"without an option: {done.stdout!r}")

    def check_full(self):
        """A day that cannot be told has status 1."""
        with open("/dev/full", "w", encoding="ascii") as full:
            done = subprocess.run([self.program, "1", "1", "1", "1"], stdout=full, stderr=subprocess.PIPE,
                                  timeout=SECONDS_OF_A_RUN)
        if done.returncode != 1 or b"standard output" not in done.stderr:
            raise Failure(f"an output that is full: status {done.returncode}, standard error {done.stderr[:80]!r}")


def program_of(name):
    found = shutil.which(name)
    if found is None:
        raise Failure(f"there is no program {name}")
    return os.path.abspath(found)


def main(arguments):
    try:
        numbers = [word for word in arguments if word.isdigit()]
        programs = arguments[:len(arguments) - len(numbers)]
        if not 1 <= len(programs) <= 2 or len(numbers) > 2 or arguments != programs + numbers:
            raise Failure("usage: python3 -m checks.bank BANK [IMGCOPY] [COUNT [FIRST]]")
        programs = [*map(program_of, programs), None]
        count, first = [*map(int, numbers), *(COUNT, 1)[len(numbers):]]
        begin, made = time.monotonic(), 0
        with tempfile.TemporaryDirectory() as folder:
            bank = Bank(programs[0], programs[1], Path(folder))
            while made < count and (numbers or time.monotonic() - begin < MOST_SECONDS):
                bank.check(first + made)
                made += 1
            bank.check_words()
            bank.check_full()
        if made >= 10 and not bank.behind:
            raise Failure("on no day a page was changed behind a copy")
    except (Failure, OSError, subprocess.TimeoutExpired) as failure:
        sys.exit(f"bank.py: {failure}")
    print(f"ok bank: in each of {made} days no money was lost, and the copies restore every balance; {bank.behind} pages"
          " were changed behind a copy")


if __name__ == "__main__":
    main(sys.argv[1:])
