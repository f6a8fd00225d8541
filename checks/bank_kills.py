"""Kills a bank on files at random moments, and looks at what it leaves.

usage: python3 -m checks.bank_kills BANK IMGCOPY [KILLS [FIRST]]

BANK is the program of that crate. It is killed KILLS times, 200 where none is told, with the seeds from FIRST on, 1
where none is told, and each time with other counts of threads: at any moment of its first half second, within its
first moments, or soon behind a line of some kind. Up to four lives follow one another in a folder, so that a bank
begins in what a killed one left. Each time:

- The log has a front that is linked; what it commits leaves the sum of all accounts as it was opened. Behind it at
  most one record is torn, and the program for files names the place where the log has to be cut.
- Each commit that was told is in the front, and its transaction made just these two changes. So many tellers as there
  are, and no more, may have one more each, of which they were not told yet.
- The master record names a checkpoint of the front, at least as new as the last one that was told. Each copy is whole,
  its parent is there, and each that was told is there.
- The program for files audits each longest chain and restores each chain, and the log alone, to just the accounts that
  are committed. With no checkpoint yet it is given one, written behind the front.
- A life that was killed before it had put the older one's log away leaves that, and what it committed.

Before one life in five the log of the one before is lost, and its master record and copies stand there alone. A bank
begins anew there: as long as there is no newer log nothing else is newer, and no older copy is ever beside a newer log.
"""

import os
import random
import select
import shutil
import subprocess
import sys
import tempfile
import time
from collections import Counter
from concurrent.futures import ProcessPoolExecutor
from pathlib import Path

from checks.bank_files import (Failure, Judge, OldDay, check_all, check_unsure, is_of, memory_place, program_of,
                               read_folder, read_lines)

KILLS, LIVES, PART_OF_LOST_LOGS = 200, 4, 0.2
MOST_TELLERS, MOST_WORKERS = 12, 8
# So many transfers all tellers would make, which is more than they do in a life, and so many bytes of lines, at most,
# a life tells before it is killed.
TRANSFERS, MOST_BYTES = 48_000, 60_000
SECONDS_OF_A_LIFE, SECONDS_OF_A_BEGIN, SECONDS_BEHIND_A_LINE, MOST_SECONDS = 0.5, 0.03, 0.02, 60
WORDS = (b"opened", b"committed", b"checkpoint", b"copy 1 ", b"copy 2 ", b"copy 3 ", b"copy 6 ")


class Life:
    """A bank that is killed."""

    def __init__(self, bank, folder, seed):
        self.draw = random.Random(seed)
        self.tellers = self.draw.randint(1, MOST_TELLERS)
        workers = [self.draw.randint(1, MOST_WORKERS) for _ in range(2)]
        self.words = [bank, "--files", folder, *map(str, (seed, self.tellers, *workers, TRANSFERS // self.tellers))]
        self.output, self.most = b"", self.draw.randint(MOST_BYTES // 4, MOST_BYTES)

    def moment(self):
        """The line behind which it is killed, if there is one, and how many seconds behind that or behind its begin."""
        kind = self.draw.choice(("any", "any", "begin", "line", "line"))
        if kind == "line":
            return self.draw.choice(WORDS), self.draw.random() * SECONDS_BEHIND_A_LINE
        if kind == "begin":
            return None, self.draw.random() ** 3 * SECONDS_OF_A_BEGIN
        return None, self.draw.random() * SECONDS_OF_A_LIFE

    def read(self, pipe, seconds, word=None):
        """Takes what it tells, for so long, or until a line begins so. Says whether there may be more."""
        end = time.monotonic() + seconds
        while len(self.output) < self.most and (word is None or b"\n" + word not in b"\n" + self.output):
            ready, _, _ = select.select([pipe], [], [], max(0, end - time.monotonic()))
            if not ready:
                return True
            more = os.read(pipe, 65536)
            if not more:
                return False
            self.output += more
        return True

    def live(self):
        """One life, and what it told."""
        word, seconds = self.moment()
        child = subprocess.Popen(self.words, stdout=subprocess.PIPE, stderr=subprocess.PIPE)
        try:
            pipe = child.stdout.fileno()
            if self.read(pipe, MOST_SECONDS if word else seconds, word) and word:
                self.read(pipe, seconds)
            ended = child.poll()
        finally:
            child.kill()
        rest, said = child.communicate(timeout=MOST_SECONDS)
        self.output += rest
        if ended is not None or said:
            raise Failure(f"it ended of itself, with status {ended}, {said[:200]!r}")
        return word.decode().strip() if word else "moment"


def play(bank, imgcopy, place, seeds):
    """A folder's lives."""
    folder, scratch = Path(place) / f"bank-{seeds[0]}", Path(place) / f"scratch-{seeds[0]}"
    folder.mkdir()
    scratch.mkdir()
    judge, counts, old, draw = Judge(imgcopy, scratch), Counter(), None, random.Random(seeds[0])
    for seed in seeds:
        life = Life(bank, folder, seed)
        if old and old.left.log and draw.random() < PART_OF_LOST_LOGS:
            (folder / "log").unlink()
            old = old._replace(left=old.left._replace(log=None))
            counts["begun where the log was lost"] += 1
        try:
            counts[f"behind a {life.live()}"] += 1
            left = read_folder(folder)
            if is_of(old, left, life.output):
                counts["with what an older life left"] += 1
                continue
            front, chains = check_all(judge, left, life.output)
            check_unsure(front, read_lines(life.output), life.tellers)
            counts["without a checkpoint"] += left.master is None
            counts["with copies"] += bool(chains)
            counts["with a torn record"] += front.why is not None and left.log is not None and len(left.log) > 0
            counts["records"] += len(front.records)
            old = OldDay(left, life.output)
        except Failure as failure:
            kept = tempfile.mkdtemp(prefix="bank-kill-")
            shutil.copytree(folder, Path(kept) / "folder")
            (Path(kept) / "lines").write_bytes(life.output)
            raise Failure(f"{' '.join(map(str, life.words))}: {failure}; the files are in {kept}") from failure
    shutil.rmtree(folder)
    shutil.rmtree(scratch)
    return counts, judge.made


def main(arguments):
    try:
        if not 2 <= len(arguments) <= 4 or not all(number.isdigit() for number in arguments[2:]):
            raise Failure("usage: python3 -m checks.bank_kills BANK IMGCOPY [KILLS [FIRST]]")
        bank, imgcopy = map(program_of, arguments[:2])
        kills, first = [*map(int, arguments[2:]), *(KILLS, 1)[len(arguments) - 2:]]
        seeds = range(first, first + kills)
        folders = [seeds[at:at + LIVES] for at in range(0, kills, LIVES)]
        counts, made = Counter(), Counter()
        with tempfile.TemporaryDirectory(dir=memory_place()) as place, ProcessPoolExecutor(os.cpu_count()) as pool:
            for more in [pool.submit(play, bank, imgcopy, place, folder) for folder in folders]:
                for sums, result in zip((counts, made), more.result()):
                    sums += result
    except (Failure, OSError, subprocess.TimeoutExpired) as failure:
        sys.exit(f"bank_kills.py: {failure}")
    told = ", ".join(f"{count} {name}" for name, count in sorted(counts.items()))
    print(f"bank_kills: seeds from {first}; {told}; {made['audit']} audits and {made['restore']} restores")
    print(f"ok bank_kills: after each of {kills} kills all is there that was told, and each copy and the log alone"
          " restore it")


if __name__ == "__main__":
    main(sys.argv[1:])
