"""Has the power fail under `imgcopy open`, opens what a disk may hold then, and goes on with it.

usage: python3 -m checks.open_cuts IMGCOPY [CUTS [FIRST]] LIBRARY

LIBRARY is file_calls.rs, built. A folder has LIVES lives, one behind another, with the seeds from FIRST on, 1 where none
is told. The library notes what each asks of its files. Then these calls are played again, and the power fails behind
some of them, CUTS times in all, 1800 where none is told: what the files hold then is drawn by the rules of bank_calls.py,
and a long write may also be there in some of its pieces. Each such folder is opened, and never by `--salvage`. It has to
open, and:

- Its log is a beginning of the model's log, with all that was told before: commits, checkpoints, what was forced, and
  what an opening took back. So nothing comes back that an opening left out.
- Each copy whose `sealed` was told is in place, whole, and sound; the master record names the last checkpoint that was
  told, or a later one.
- What was left out of a log stands in a file of its own, or still behind the log.
- Each file that the manifest names is there as it is named, but for a master record beside a log that is longer.
- The volume is what the log makes of it.

A life begins in what the one before it left: at its end, where it was killed, or in what the power left of it. Now and
then bytes were written behind the log, or one in its middle is damaged; that one is opened by `--salvage`. There the
folder may be refused as long as nothing was told.

Then the same calls are played in wrong orders, as in bank_losses.py, and where CUTS is ENOUGH or more, losses have to be
found in each of these.
"""

import os
import random
import shutil
import subprocess
import sys
import tempfile
from collections import Counter
from concurrent.futures import ProcessPoolExecutor
from pathlib import Path

from checks.bank_calls import LOG, Trace
from checks.bank_files import Failure, memory_place, program_of
from checks.bank_losses import NEAR, WRONGS, Wrong, is_log
from checks.manifest_text import misnamed
from checks.open_folders import Files, Judge, Program, check_point, is_left_out
from checks.open_lives import Life, Owed, World, has_old_records
from checks.open_spoils import flipped, never_forced, old_records, torn
from model.engine import Engine
from model.lives import front_of, has_log, is_headless, line_of_new, reopen
from model.log_format import HEADER_SIZE
from model.recovery import encode_log, encode_pages, redo_all

CUTS, ENOUGH, LIVES, CUTS_OF_A_LIFE = 1800, 480, 5, 6
PART_OF_AUDITS, DRAWS = 0.1, 5


# What has to be there

def check_left(life, owed, files):
    """What the disk holds has what is owed. Says of it what a reader sees."""
    if files.log is None or is_headless(files.log):
        if owed.log:
            raise Failure(f"there is no log, and one of {len(owed.log)} bytes was told")
        return None
    if not has_log(files.log):
        raise Failure("the log has no header")
    again = reopen(files.log, files.copies)
    front = files.log[:again.front.end()]
    if not front.startswith(owed.log):
        raise Failure(f"the log goes to {len(front)} only, and to {len(owed.log)} it was told, or it is another one")
    if not life.whole.startswith(front):
        raise Failure(f"the log goes to {len(front)}, and has records there that this life never wrote: they came back")
    for number, data in owed.copies.items():
        if files.copies.get(number) != data or number in again.refused:
            raise Failure(f"copy {number} was told, and it is not there, or not sound")
    for number in again.refused:
        # A salvage that was cut short may have given it another name, which is not stored.
        older = [data for name, data in life.before.all.items()
                 if name == f"copy-{number}" or name.startswith(f"copy-{number}.refused")]
        if files.copies[number] not in older:
            raise Failure(f"copy {number} is in place, and is not sound: {again.refused[number]}")
    check_aside(owed, files)
    if owed.point:
        check_point(files.master, again.front.records, owed.point)
    if files.manifest is not None and not life.is_salvage and misnamed(files.all):
        raise Failure(f"the manifest names {misnamed(files.all)}, and other files stand there")
    return again


def check_aside(owed, files):
    """Nothing that was in the folder is gone: what was left out of a log, and copies that were refused."""
    for at, tail in owed.tails:
        is_behind = files.log is not None and files.log[at:at + len(tail)] == tail
        # Once the log was damaged before it, it is the end of a longer tail.
        if not is_behind and not any(tail in data for name, data in files.all.items() if is_left_out(name)):
            raise Failure(f"the {len(tail)} bytes that were left out at {at} are gone")
    for data in owed.refused:
        if data not in [other for name, other in files.all.items() if name.startswith("copy-")]:
            raise Failure(f"a copy of {len(data)} bytes that was refused is gone")


def check_opened(done, again, owed, files, pages):
    """What an opening leaves in which nothing was called."""
    if done.returncode != 0:
        raise Failure(f"it is refused: status {done.returncode}, {done.stdout[:100]!r}, {done.stderr[:400]!r}")
    first = again.line if again else line_of_new(pages)
    if done.stdout.decode() != first + "\n":
        raise Failure(f"{done.stdout[:200]!r}, and {first!r} is wanted")
    engine = again.engine if again else Engine(pages)
    log = encode_log(engine.log, engine.pages)
    # Where nothing was appended, what stood behind the front may still be there.
    was_appended = again and len(engine.log) > len(again.front.records)
    if not files.log.startswith(log) or (was_appended and len(files.log) > len(log)):
        raise Failure(f"the log has {len(files.log)} bytes, and not those of the model's log of {len(log)}")
    if files.all.get("volume") != encode_pages(redo_all(engine.log, engine.pages)):
        raise Failure("the volume is not what the log makes of it")
    for number, data in owed.copies.items():
        if files.copies.get(number) != data:
            raise Failure(f"copy {number} was told, and the opening has changed it")
    check_aside(owed, files)


class Folder(Program):
    """The lives of one folder."""

    def __init__(self, imgcopy, library, place, seed):
        super().__init__(imgcopy, Path(place) / f"cuts-{seed}")
        self.library, self.seed = library, seed
        self.draw = random.Random(seed)
        self.pages = self.draw.choice([1, 2, 2, 3, 5])
        scratch = Path(place) / f"audits-{seed}"
        scratch.mkdir()
        self.judge, self.counts, self.found, self.failures = Judge(imgcopy, scratch), Counter(), Counter(), []

    def live(self, life, world):
        """The life to its end: its calls, and the disk behind them."""
        before = world.files()
        self.put(before)
        trace = self.folder.with_suffix(".trace")
        trace.unlink(missing_ok=True)
        variables = {"LD_PRELOAD": self.library, "CALLS_FOLDER": str(self.folder), "CALLS_TRACE": str(trace)}
        done = self.run(*life.words, data=life.lines(), env=os.environ | variables)
        if (done.returncode, done.stdout) != (0, life.answers()):
            raise Failure(f"status {done.returncode}, {done.stdout[:300]!r}, {done.stderr[:300]!r}, and"
                          f" {life.answers()[:300]!r} is wanted")
        noted = world.noted(Trace(trace.read_bytes(), self.folder, before))
        trace.unlink()
        if world.after(noted.calls).files() != self.files():
            raise Failure("the calls that were noted do not make the files that are there")
        return noted

    def cut(self, life, world, calls, place):
        """The power fails behind so many calls: what is left then, and what is owed."""
        in_flight = [call for call in calls[place:place + 1] if call.word not in ("tell", "sync")]
        files = world.files_after_loss(self.draw, in_flight)
        told = b"".join(call.data for call in calls[:place] if call.word == "tell").count(b"\n")
        return Files(files), life.owed(told), told

    def check_cut(self, life, world, calls, place):
        files, owed, told = self.cut(life, world, calls, place)
        again = check_left(life, owed, files)
        self.put(files.all)
        words = [] if again else ["--pages", str(self.pages)]
        done = self.run(*words)
        after = Files.of(self.folder)
        if life.is_salvage and told == 0 and done.returncode == 2:
            self.counts["refused inside a salvage"] += 1
            if after.all != files.all:
                raise Failure("it is refused, and not as it was")
            return
        check_opened(done, again, owed, after, self.pages)
        self.counts["with a tail" if again and again.front.why else "whole" if again else "without a log"] += 1
        if self.draw.random() < PART_OF_AUDITS:
            self.judge.check(after)

    def check_cuts(self, life, world, noted, count):
        """The power fails so many times in this life, and in its calls in wrong orders."""
        calls, disk, made = noted.calls, world.fork(), 0
        for place in places(noted, count, self.draw):
            for call in calls[made:place]:
                disk.take(call)
            made = place
            try:
                self.check_cut(life, disk, calls, place)
            except Failure as failure:
                self.failures.append(f"seed {self.seed}, cut at call {place} of {len(calls)}: {failure}; the files are in"
                                     f" {self.keep()}")
        for wrong, more in self.wrongs(life, count):
            calls, disk, made = wrong.reorder(noted), world.fork(), 0
            choose = places_behind_cuts if wrong is NO_SYNC_OF_CUTS else places
            for place in choose(noted._replace(calls=calls), more, self.draw):
                for call in calls[made:place]:
                    disk.take(call)
                made = place
                files, owed, _ = self.cut(life, disk, calls, place)
                try:
                    check_left(life, owed, files)
                except Failure:
                    self.found[wrong.name] += 1

    @staticmethod
    def wrongs(life, count):
        """The wrong orders that may show in this life, and how often the power fails in each."""
        if life.is_salvage:
            return
        yield from ((wrong, count) for wrong in WRONGS[:-1])
        if any(event.startswith("seal") for event in life.play.events):
            yield WRONGS[-1], 4 * count
        if has_old_records(life.before.log or b""):
            yield NO_SYNC_OF_CUTS, 30 * count

    def keep(self):
        kept = Path(tempfile.mkdtemp(prefix="open-cut-"))
        shutil.copytree(self.folder, kept / "folder")
        return kept

    def play(self, count):
        """All lives, with so many losses of power in each."""
        world, owed, is_salvage = World({}), Owed(), False
        for number in range(LIVES):
            life = Life(self.seed * 100 + number, Files(world.files()), owed, self.pages, is_salvage)
            try:
                noted = self.live(life, world)
            except Failure as failure:
                self.failures.append(f"seed {self.seed}, life {number}: {failure}; the files are in {self.keep()}")
                break
            self.counts["lives"] += 1
            self.counts["lives in front of old records"] += has_old_records(life.before.log or b"")
            self.check_cuts(life, world, noted, count)
            world, owed, is_salvage = self.leave(life, world, noted)
        return self.counts, self.found, self.judge.made, self.failures

    def leave(self, life, world, noted):
        """How the life ended after all: what the next one finds."""
        way, calls = self.draw.choice(["end", "kill", "power", "power", "power"]), noted.calls
        place = len(calls) if way == "end" else places(noted, 1, self.draw)[0]
        writes = [at + 1 for at, call in enumerate(calls) if call.word == "write" and is_log(noted, call.file)]
        if way == "power" and writes and self.draw.random() < 0.5:
            place = self.draw.choice(writes)
        disk = world.after(calls[:place])
        # Old records behind the front are what the next life has to be rid of, so they are drawn more often.
        for _ in range(DRAWS):
            files, owed, told = self.cut(life, disk, calls, place)
            if way != "power" or has_old_records(files.log or b""):
                break
        self.counts[f"left by {way}"] += 1
        if way == "power":
            disk = World(files.all)
        if life.is_salvage and told == 0:
            return disk, owed, True
        return self.spoil(life, disk, owed)

    def spoil(self, life, disk, owed):
        """What may befall the log of a folder that is not open."""
        files = disk.files()
        log = files.get(LOG)
        if log is None or not has_log(log) or self.draw.random() < 0.6:
            return disk, owed, False
        front = front_of(log)
        if len(log) == front.end() and self.draw.random() < 0.6:
            longer = self.draw.choice([torn, old_records, never_forced])(self.draw, log, life.whole)
            self.counts["given a tail"] += longer != log
            return World(files | {LOG: longer}), owed, False
        if not front.records:
            return disk, owed, False
        self.counts["damaged"] += 1
        return World(files | {LOG: flipped(self.draw, log, HEADER_SIZE, front.end())}), owed, True


def places(noted, count, draw):
    """Behind which calls the power fails, in order: near a line, a changed name or a write of the log, in the opening,
    and anywhere."""
    calls, marks = noted.calls, {}
    for at, call in enumerate(calls):
        is_write = call.word == "write" and is_log(noted, call.file)
        if call.word in ("tell", "cut") or call.names or is_write:
            marks.setdefault((call.word, bool(call.names) and call.names[-1].startswith("copy-")), []).append(at)
    opening = next((at for at, call in enumerate(calls) if call.word == "tell"), len(calls))
    kinds, found = sorted(marks), []
    for _ in range(count):
        way = draw.choice(["near", "near", "opening", "any"])
        if way == "near":
            found.append(draw.choice(marks[draw.choice(kinds)]) + draw.randint(-NEAR, NEAR))
        else:
            found.append(draw.randrange((opening if way == "opening" else len(calls)) + 1))
    return sorted(min(len(calls), max(0, place)) for place in found)


def without_syncs_of_cuts(noted):
    """As if a sync of the log behind a cut of it did nothing."""
    calls, was_cut = [], False
    for call in noted.calls:
        if call.file in noted.names and is_log(noted, call.file):
            is_dropped, was_cut = call.word == "sync" and was_cut, call.word == "cut"
            if is_dropped:
                continue
        calls.append(call)
    return calls


def places_behind_cuts(noted, count, draw):
    """Behind which calls the power fails: the writes between the first cut of the log and the next sync of it."""
    words = [call.word if call.file in noted.names and is_log(noted, call.file) else "" for call in noted.calls]
    first = words.index("cut") if "cut" in words else len(words)
    last = words.index("sync", first) if "sync" in words[first:] else len(words)
    writes = [at + 1 for at in range(first, last) if words[at] == "write"]
    return sorted(draw.choice(writes) for _ in range(count)) if writes else []


NO_SYNC_OF_CUTS = Wrong("no sync of a cut", without_syncs_of_cuts)


def play(imgcopy, library, place, seed, count):
    return Folder(imgcopy, library, place, seed).play(count)


def main(arguments):
    try:
        numbers = [int(word) for word in arguments[1:-1] if word.isdigit()]
        if len(arguments) != 2 + len(numbers) or len(numbers) > 2:
            raise Failure("usage: python3 -m checks.open_cuts IMGCOPY [CUTS [FIRST]] LIBRARY")
        imgcopy, library = program_of(arguments[0]), os.path.abspath(arguments[-1])
        cuts, first = [*numbers, *(CUTS, 1)[len(numbers):]]
        folders = -(-cuts // (LIVES * CUTS_OF_A_LIFE))
        counts, found, made, failures = Counter(), Counter(), Counter(), []
        with tempfile.TemporaryDirectory(dir=memory_place()) as place, ProcessPoolExecutor(os.cpu_count()) as pool:
            plays = [pool.submit(play, imgcopy, library, place, first + number, CUTS_OF_A_LIFE)
                     for number in range(folders)]
            for done in plays:
                *sums, more = done.result()
                for total, part in zip((counts, found, made), sums):
                    total += part
                failures += more
        told = ", ".join(f"{count} {name}" for name, count in sorted(counts.items()))
        print(f"open_cuts: seeds from {first}; {told}; {made['audit']} audits and {made['restore']} restores")
        wrongs = ", ".join(f"{count} with {name}" for name, count in sorted(found.items()))
        print(f"open_cuts: losses with wrong orders: {wrongs}")
        if failures:
            raise Failure("\n".join([f"{len(failures)} losses", *failures[:20]]))
        missed = [wrong.name for wrong in (*WRONGS, NO_SYNC_OF_CUTS) if not found[wrong.name]]
        if missed and cuts >= ENOUGH:
            raise Failure(f"no loss was found with {', '.join(missed)}")
    except (Failure, OSError, subprocess.SubprocessError) as failure:
        sys.exit(f"open_cuts.py: {failure}")
    print(f"ok open_cuts: of {folders * LIVES * CUTS_OF_A_LIFE} losses of power none is refused, all is there that was"
          " told, and nothing comes back")


if __name__ == "__main__":
    main(sys.argv[1:])
