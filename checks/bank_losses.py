"""Has the power fail under a bank on files, and looks at what a disk may hold then.

usage: python3 -m checks.bank_losses BANK IMGCOPY [CUTS [FIRST]] LIBRARY

BANK is the program of that crate, and LIBRARY is file_calls.rs, built. A few days of the bank are played, with seeds
from FIRST on, 1 where none is told. One of them begins in the folder of an older day. The library notes what each asks
of its files. Then the calls are played again, up to CUTS of them in all, 1000 where none is told, and the power fails
there: what the files hold then is drawn by the rules of bank_calls.py. Half of the cuts lie behind any call, and half
behind one of the few calls before and behind a line that was told or a name that was changed: of each kind of these as
many, and of copies as of other files.

At each cut all that was told before it has to be in the front of the log and in the files: commits with just their
changes, checkpoints, master record, and copies, whole and with their parents. The sum of all accounts is what was
opened. The program for files is asked for the place where the log has to be cut, and audits the newest chain and
restores it, and in turn an older chain or the log alone; what was asked before of the same files is not asked again.
In some of what is left a short day is played, which goes to its end.

Then the same calls are played in wrong orders: as if a sync of the log did nothing, and as if one of the folder did
nothing; with each sync of the log behind the line that it was for; and with the sync of each copy behind its rename.
In each of these the same cuts have to find losses.
"""

import os
import random
import shutil
import subprocess
import sys
import tempfile
from collections import Counter
from concurrent.futures import ProcessPoolExecutor
from pathlib import Path
from typing import NamedTuple

from checks.bank_calls import FOLDER, LOG, Disk, Recorder, Trace
from checks.bank_files import (Failure, Judge, KnownLog, OldDay, check_all, check_day, check_left, check_restores,
                               is_of, left_of, program_of, read_folder, read_lines)

CUTS, DAYS = 1000, 5
NEAR = 4

# Tellers, workers of full copies and of incremental ones, and transfers of a teller.
COUNTS = ((3, 2, 2, 60), (1, 1, 1, 120), (8, 3, 1, 30), (4, 1, 3, 50), (2, 2, 2, 80))
NEXT_DAY, PART_OF_NEXT_DAYS = (2, 1, 1, 10), 0.03


class Wrong(NamedTuple):
    """A wrong order of calls, by its name."""

    name: str
    reorder: callable


def without_syncs(is_of):
    def reorder(trace):
        return [call for call in trace.calls if call.word != "sync" or not is_of(trace, call.file)]
    return reorder


def is_log(trace, file):
    return file != FOLDER and trace.names[file] == LOG


def syncs_behind_lines(trace):
    """Each sync of the log comes behind the next line."""
    calls, held = [], []
    for call in trace.calls:
        if call.word == "sync" and is_log(trace, call.file):
            held.append(call)
            continue
        calls.append(call)
        if call.word == "tell":
            calls, held = calls + held, []
    return calls


def syncs_behind_renames(trace):
    """The sync of each copy comes behind that of the folder, which is behind the rename."""
    calls, held, is_renamed = [], [], False
    for call in trace.calls:
        is_folder = call.word == "sync" and call.file == FOLDER
        if call.word == "sync" and not is_folder and trace.names[call.file].startswith("copy-"):
            held.append(call)
            continue
        calls.append(call)
        is_renamed |= call.word == "rename" and call.names[1].startswith("copy-")
        if is_folder and is_renamed:
            calls, held, is_renamed = calls + held, [], False
    return calls


RIGHT = Wrong("right", lambda trace: trace.calls)
WRONGS = (Wrong("no sync of the log", without_syncs(is_log)),
          Wrong("no sync of the folder", without_syncs(lambda _, file: file == FOLDER)),
          Wrong("syncs behind their lines", syncs_behind_lines),
          Wrong("renames before their syncs", syncs_behind_renames))


class Day:
    """A day that was noted."""

    def __init__(self, name, trace, old):
        self.name, self.trace, self.old = name, trace, old
        whole = Disk(trace)
        for call in trace.calls:
            whole.take(call)
        self.known = KnownLog(whole.files()[LOG])

    def places(self, calls, count, draw):
        """Behind which calls the power fails, in order."""
        marks = {}
        for at, call in enumerate(calls):
            if call.word == "tell" or call.names:
                is_copy = bool(call.names) and call.names[-1].startswith("copy-")
                marks.setdefault((call.word, is_copy), []).append(at)
        kinds = sorted(marks)
        near = [draw.choice(marks[draw.choice(kinds)]) + draw.randint(-NEAR, NEAR) for _ in range(count // 2)]
        places = near + [draw.randrange(len(calls) + 1) for _ in range(count - count // 2)]
        return sorted(min(len(calls), max(0, place)) for place in places)

    def losses(self, wrong, count, draw):
        """What the disk holds at each of so many cuts, and what was told before it."""
        calls = wrong.reorder(self.trace)
        disk, made, told = Disk(self.trace), 0, []
        for place in self.places(calls, count, draw):
            for call in calls[made:place]:
                disk.take(call)
                told += [call.data] if call.word == "tell" else []
            made = place
            in_flight = [call for call in calls[place:place + 1] if call.word not in ("tell", "sync")]
            yield f"{self.name}, cut at call {place}", disk.files_after_loss(draw, in_flight), b"".join(told)


def check_loss(day, judge, seen, files, output, draw):
    """One cut. Says what was left."""
    left = left_of(files)
    if is_of(day.old, left, output):
        return "of an older day"
    front, chains = check_left(left, read_lines(output), day.known.front(left.log or b""))
    if judge and front.records:
        check_restores(judge, left, front, chains, draw, seen)
    return f"{'cut' if front.why else 'whole'}, {'with' if chains else 'without'} copies"


def note_day(recorder, folder, number, counts, old):
    """Plays a day and notes its calls."""
    shutil.rmtree(folder, ignore_errors=True)
    folder.mkdir()
    older = None
    if old is not None:
        done, _ = recorder.run(folder, *old)
        older = OldDay(read_folder(folder), done.stdout)
    before = {path.name: path.read_bytes() for path in sorted(folder.iterdir())}
    trace = folder.with_suffix(".trace")
    done, _ = recorder.run(folder, number, *counts, trace=trace)
    if done.returncode != 0 or done.stderr:
        raise Failure(f"day {number}: status {done.returncode}, {done.stderr[:200]!r}")
    check_day(done.stdout, number, counts[0], counts[-1])
    noted = Trace(trace.read_bytes(), folder, before)
    trace.unlink()
    day = Day(f"day {number}", noted, older)
    # What the notes say is what is there.
    whole = Disk(noted)
    for call in noted.calls:
        whole.take(call)
    if whole.files() != {path.name: path.read_bytes() for path in folder.iterdir()} or noted.output() != done.stdout:
        raise Failure(f"day {number}: the calls that were noted do not make the files that are there")
    return day


def play(bank, imgcopy, library, place, index, first, cuts):
    """One day, with its share of the cuts: what was left at each, and in how many cuts of each wrong order a loss was
    found."""
    number, counts = first + index, COUNTS[index % len(COUNTS)]
    folder = Path(place) / f"day-{number}"
    old = (number + 1000, *COUNTS[(index + 1) % len(COUNTS)]) if index % len(COUNTS) == 1 else None
    day = note_day(Recorder([bank], library), folder, number, counts, old)
    scratch = Path(place) / f"scratch-{number}"
    scratch.mkdir()
    judge, seen, lefts, found = Judge(imgcopy, scratch), set(), Counter(), Counter()
    draw = random.Random(number)
    for name, files, output in day.losses(RIGHT, cuts, draw):
        try:
            lefts[check_loss(day, judge, seen, files, output, draw)] += 1
            if draw.random() < PART_OF_NEXT_DAYS:
                check_next_day(bank, judge, folder, files, draw.randrange(2**32))
                lefts["begun anew"] += 1
        except Failure as failure:
            kept = keep(day, files, output)
            raise Failure(f"{name}: {failure}; the files are in {kept}") from failure
    for wrong in WRONGS:
        for _, files, output in day.losses(wrong, cuts, draw):
            try:
                check_loss(day, judge if wrong is WRONGS[-1] else None, seen, files, output, draw)
            except Failure:
                found[wrong.name] += 1
    return lefts, found, judge.made, Counter(call.word for call in day.trace.calls)


def check_next_day(bank, judge, folder, files, seed):
    """A bank that is opened in what is left goes to its end."""
    shutil.rmtree(folder)
    folder.mkdir()
    for name, data in files.items():
        (folder / name).write_bytes(data)
    done = subprocess.run([bank, "--files", folder, str(seed), *map(str, NEXT_DAY)], capture_output=True, timeout=60)
    if done.returncode != 0 or done.stderr:
        raise Failure(f"the next day, in what is left: status {done.returncode}, {done.stderr[:200]!r}")
    check_day(done.stdout, seed, NEXT_DAY[0], NEXT_DAY[-1])
    check_all(judge, read_folder(folder), done.stdout)


def keep(day, files, output):
    """Where the files are put for a person."""
    kept = Path(tempfile.mkdtemp(prefix="bank-loss-"))
    for name, data in {**files, "lines": output}.items():
        (kept / name).write_bytes(data)
    return kept


def main(arguments):
    try:
        numbers = [int(word) for word in arguments[2:-1] if word.isdigit()]
        if len(arguments) != 3 + len(numbers) or len(numbers) > 2:
            raise Failure("usage: python3 -m checks.bank_losses BANK IMGCOPY [CUTS [FIRST]] LIBRARY")
        bank, imgcopy, library = program_of(arguments[0]), program_of(arguments[1]), os.path.abspath(arguments[-1])
        cuts, first = [*numbers, *(CUTS, 1)[len(numbers):]]
        shares = [cuts // DAYS + (index < cuts % DAYS) for index in range(DAYS)]
        lefts, found, made, calls = Counter(), Counter(), Counter(), Counter()
        with tempfile.TemporaryDirectory() as place, ProcessPoolExecutor(os.cpu_count()) as pool:
            days = [pool.submit(play, bank, imgcopy, library, place, index, first, share)
                    for index, share in enumerate(shares)]
            for day in days:
                for sums, more in zip((lefts, found, made, calls), day.result()):
                    sums += more
        missed = [wrong.name for wrong in WRONGS if not found[wrong.name]]
        if missed:
            raise Failure(f"no loss was found with {', '.join(missed)}")
    except (Failure, OSError, subprocess.TimeoutExpired) as failure:
        sys.exit(f"bank_losses.py: {failure}")
    told = ", ".join(f"{count} {name}" for name, count in sorted(lefts.items()))
    wrongs = ", ".join(f"{found[wrong.name]} with {wrong.name}" for wrong in WRONGS)
    print(f"bank_losses: seeds from {first}; {sum(calls.values())} calls; what was left: {told}; {made['audit']} audits"
          f" and {made['restore']} restores")
    print(f"ok bank_losses: at {cuts} cuts all is there that was told; of as many cuts each, losses are found in"
          f" {wrongs}")


if __name__ == "__main__":
    main(sys.argv[1:])
