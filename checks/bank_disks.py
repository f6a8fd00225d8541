"""Plays a bank on file systems of its own, and has their disks lose power, and fill up.

usage: python3 -m checks.bank_disks BANK IMGCOPY [ROUNDS [FIRST]]
       python3 -m checks.bank_disks --can     says by its status whether this machine lets us

BANK is the program of that crate. In each of ROUNDS rounds, 16 where none is told, with seeds from FIRST on, 1 where
none is told, an ext4 file system is made in a file in memory and mounted: with a journal or without, with small blocks
or large ones. A bank works there. It is stopped at a random moment, and the file is copied as it is: what the system
had not written to it yet is missing there, as after a loss of power. The copy is mended and mounted, and its folder
has to hold all that was told, as bank_files.py says. In every fourth round the file system is so small that it gets
full; then the folder is looked at as it is.
"""

import os
import random
import re
import select
import shutil
import signal
import subprocess
import sys
import tempfile
import time
from collections import Counter
from contextlib import contextmanager
from pathlib import Path

from checks.bank_files import (Failure, Judge, check_all, check_unsure, memory_place, program_of, read_folder,
                               read_lines)

ROUNDS, MOST_TELLERS, MANY_TRANSFERS = 16, 8, 1_000_000
SECONDS_OF_A_LIFE, MOST_SECONDS = 1.0, 60
BYTES, FEW_BYTES = 8_388_608, (262_144, 524_288, 1_048_576)
KINDS = (("-b", "1024"), ("-b", "4096"), ("-b", "1024", "-O", "^has_journal"))
FULL = re.compile(rb"demo_bank: (E2[36] \w+( \d+)?|[^\n]*: No space left on device[^\n]*)\n")


def run(*words):
    subprocess.run(list(map(str, words)), check=True, capture_output=True, timeout=MOST_SECONDS)


@contextmanager
def mounted(image, folder):
    run("mount", "-o", "loop", image, folder)
    try:
        yield
    finally:
        run("umount", folder)


def make_disk(image, size, kind):
    image.write_bytes(b"")
    os.truncate(image, size)
    run("mkfs.ext4", "-q", "-F", *kind, image)


class Round:
    def __init__(self, bank, imgcopy, place, seed):
        self.draw, self.seed = random.Random(seed), seed
        self.image, self.copied = place / "image", place / "copied"
        self.folder, self.scratch = place / "folder", place / "scratch"
        self.tellers = self.draw.randint(1, MOST_TELLERS)
        self.words = [bank, "--files", self.folder, *map(str, (seed, self.tellers, 2, 2, MANY_TRANSFERS))]
        self.judge = Judge(imgcopy, self.scratch)

    def read_until(self, child, end):
        """What it tells until then."""
        output = b""
        while select.select([child.stdout], [], [], max(0, end - time.monotonic()))[0]:
            more = os.read(child.stdout.fileno(), 65536)
            if not more:
                raise Failure(f"it ended of itself: {child.communicate()[1][:200]!r}")
            output += more
        return output

    def lose_power(self):
        """Copies the image under a bank that is stopped, and gives what that has told."""
        make_disk(self.image, BYTES, self.draw.choice(KINDS))
        with mounted(self.image, self.folder):
            child = subprocess.Popen(self.words, stdout=subprocess.PIPE, stderr=subprocess.PIPE)
            try:
                output = self.read_until(child, time.monotonic() + self.draw.random() * SECONDS_OF_A_LIFE)
                child.send_signal(signal.SIGSTOP)
                os.waitpid(child.pid, os.WUNTRACED)
                output += self.read_until(child, 0)
                shutil.copy(self.image, self.copied)
            finally:
                child.kill()
                child.communicate()
        subprocess.run(["e2fsck", "-f", "-y", self.copied], capture_output=True, timeout=MOST_SECONDS)
        with mounted(self.copied, self.folder):
            front, _ = check_all(self.judge, read_folder(self.folder), output)
        told = read_lines(output)
        check_unsure(front, told, self.tellers)
        return len(told.committed)

    def fill_up(self):
        """Plays a bank until its file system is full."""
        make_disk(self.image, self.draw.choice(FEW_BYTES), KINDS[0])
        with mounted(self.image, self.folder):
            done = subprocess.run(self.words, capture_output=True, timeout=MOST_SECONDS)
            if done.returncode != 1 or not FULL.fullmatch(done.stderr):
                raise Failure(f"a full file system: status {done.returncode}, {done.stderr[:200]!r}")
            check_all(self.judge, read_folder(self.folder), done.stdout)
        return len(read_lines(done.stdout).committed)


def can_mount():
    """Whether a file system can be made in a file and mounted here."""
    with tempfile.TemporaryDirectory(dir=memory_place()) as place:
        try:
            make_disk(Path(place, "image"), BYTES, KINDS[0])
            Path(place, "folder").mkdir()
            with mounted(Path(place, "image"), Path(place, "folder")):
                return shutil.which("e2fsck") is not None
        except (OSError, subprocess.SubprocessError):
            return False


def main(arguments):
    if arguments == ["--can"]:
        sys.exit(0 if can_mount() else 1)
    try:
        if not 2 <= len(arguments) <= 4 or not all(number.isdigit() for number in arguments[2:]):
            raise Failure("usage: python3 -m checks.bank_disks BANK IMGCOPY [ROUNDS [FIRST]]")
        bank, imgcopy = map(program_of, arguments[:2])
        rounds, first = [*map(int, arguments[2:]), *(ROUNDS, 1)[len(arguments) - 2:]]
        counts = Counter()
        with tempfile.TemporaryDirectory(dir=memory_place()) as place:
            Path(place, "folder").mkdir()
            Path(place, "scratch").mkdir()
            for seed in range(first, first + rounds):
                one = Round(bank, imgcopy, Path(place), seed)
                is_full = seed % 4 == 0
                counts["told"] += one.fill_up() if is_full else one.lose_power()
                counts["full"] += is_full
    except (Failure, OSError, subprocess.SubprocessError) as failure:
        sys.exit(f"bank_disks.py: {failure}")
    print(f"ok bank_disks: on {rounds - counts['full']} file systems that lost power and {counts['full']} that got full"
          f" nothing is lost of {counts['told']} transfers that were told; seeds from {first}")


if __name__ == "__main__":
    main(sys.argv[1:])
