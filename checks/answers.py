"""Compares what a program answers to random scripts, and to files that they save, with the model.

usage: python3 -m checks.answers PROGRAM [COUNT [FIRST]]
       python3 -m checks.answers --model [COUNT [FIRST]]     compares the model with the definitions alone

COUNT random scripts are made from the seeds FIRST and following, 1000 from seed 1 where none is told. Each is run, and
its files are redone and restored, right and spoiled. `random_scripts.py SEED` shows a script.
"""

import os
import shutil
import signal
import subprocess
import sys
import tempfile
from collections import Counter
from concurrent.futures import ProcessPoolExecutor
from functools import lru_cache
from itertools import repeat
from pathlib import Path

from checks.savepoints import DifferentWays, compare_ways
from model.engine import MOST_FRAMES
from model.log_format import lsn_of
from model.samples import Draw
from model.random_scripts import Script, bad_script, random_script
from model.faulty_engine import committed_numbers, numbers_of
from model.recovery import (Answer, answer_of, audit_files, encode_pages, fault_lines, redo_all, redo_file, restore_files,
                            undo_records)
from model.scripts import LONGEST_SCRIPT, run
from model.spoiled_files import Given, mislead, spoil

COUNT = 1000
SEEDS_IN_A_TASK = 20
SPOILED_IN_A_RUN = 4
MISLED_IN_A_RUN = 6
CUTS_IN_A_RUN = 3
MOST_PAGES_SPOILED = 1000
MOST_SECONDS = 300
MOST_SHOWN = 20  # of the differences
MEMORY = "/dev/shm"  # a folder in memory, where the system has one


class Failure(Exception):
    """What is missing, or wrong in the model, in one line."""


class Checker:
    """Runs a program in a folder of its own, and compares. Without a program it gives the model's own answers."""

    def __init__(self, program, folder):
        self.program, self.folder, self.saved = program, Path(folder), Path(folder) / "saved"
        self.counts = Counter()
        self.differences = []

    def answer(self, words, text=b""):
        source = self.folder / "input"
        source.write_bytes(text)
        with open(source, "rb") as standard_input:
            done = subprocess.run([self.program, *words], stdin=standard_input, capture_output=True, cwd=self.saved,
                                  timeout=MOST_SECONDS)
        return Answer(done.returncode, done.stdout, fault_lines(done.stderr))

    def empty_folder(self):
        shutil.rmtree(self.saved, ignore_errors=True)
        self.saved.mkdir()

    def write(self, files):
        for name, data in files.items():
            (self.saved / name).write_bytes(data)

    def check(self, what, wanted, words, text=b""):
        self.counts[words[0]] += 1
        if self.program is None:
            return
        given = self.answer(words, text)
        if given != wanted:
            self.differences.append(f"{what}: {difference(given, wanted, text)}")

    def check_run(self, what, script, wanted):
        """Runs the script, and leaves what it saves in the folder: just its files, and no other one."""
        self.empty_folder()
        self.check(what, wanted.answer, [*run_words(script), "--save", "."], script.text)
        if self.program is None:
            return
        given = {path.name: path.read_bytes() for path in self.saved.iterdir()}
        if given != wanted.files:
            self.differences.append(f"{what}: {difference_of_files(given, wanted.files)}")
            self.empty_folder()
            self.write(wanted.files)

    def save_again(self, what, script, wanted):
        """Runs the script once more, into the folder with what is there, which may be spoiled or of another script: each
        of its files is written again, and all others stay."""
        before = {path.name: path.read_bytes() for path in self.saved.iterdir()} if self.program else {}
        self.check(f"{what}, saved again", wanted.answer, [*run_words(script), "--save", "."], script.text)
        if self.program is None:
            return
        given = {path.name: path.read_bytes() for path in self.saved.iterdir()}
        if given != before | wanted.files:
            self.differences.append(f"{what}, saved again: {difference_of_files(given, before | wanted.files)}")

    def change(self, files):
        """Has the files in the folder changed to these, each in its place."""
        if self.program is not None:
            self.write({name: data for name, data in files.items() if (self.saved / name).read_bytes() != data})

    def check_files(self, what, given, files):
        """Restores and audits with changed files in the folder, and leaves it as it was, with these files."""
        changed = given.changed(files)
        self.write(changed)
        log, _, archives = given.contents()
        self.check(what, answer_of(restore_files, *given.contents()), ["restore", *given.words()])
        self.check(f"{what}, audited", audit_files(log, archives), ["audit", *given.audit_words()])
        for name in changed:
            (self.saved / name).unlink()
        self.write({name: files[name] for name in changed if name in files})


def run_script(script):
    return run(script.text, script.pages, frames=script.frames)


def run_words(script):
    """The frames stand before the pages, or are left out where the program has as many by itself."""
    frames = [] if script.frames == MOST_FRAMES else ["--frames", str(script.frames)]
    return ["run", *frames, "--pages", str(script.pages)]


def difference(given, wanted, text=b""):
    """What differs, in one line: the first reply and its event, where the text of a script is told."""
    if (given.status, given.error) != (wanted.status, wanted.error):
        return f"status {given.status} and {given.error!r} in place of {wanted.status} and {wanted.error!r}"
    if not text:
        at = first_difference(given.output, wanted.output)
        return f"the output differs at {at}, and has {len(given.output)} bytes in place of {len(wanted.output)}"
    replies, wanted_replies = given.output.splitlines(), wanted.output.splitlines()
    events = [line for line in text.splitlines() if line and not line.startswith(b"#")]
    at = first_difference(replies, wanted_replies)
    event = events[min(at, len(events) - 1)]
    return f"reply {at + 1}, to {event!r}: {replies[at:at + 1]} in place of {wanted_replies[at:at + 1]}"


def first_difference(one, other):
    shorter = min(len(one), len(other))
    return next((at for at in range(shorter) if one[at] != other[at]), shorter)


def difference_of_files(given, wanted):
    if sorted(given) != sorted(wanted):
        return f"the files {sorted(given)} in place of {sorted(wanted)}"
    name = next(name for name in sorted(wanted) if given[name] != wanted[name])
    return f"the file {name} differs at {first_difference(given[name], wanted[name])}, and has" \
           f" {len(given[name])} bytes in place of {len(wanted[name])}"


# Random scripts

def check_seed(checker, seed):
    script = random_script(seed)
    ran = run_script(script)
    name = f"script {seed} on {script.pages} pages with {script.frames} frames"
    checker.check_run(name, script, ran)
    wanted = answer_of(redo_file, ran.files["log"])
    if wanted.output != encode_pages(map(ran.engine.page, range(ran.engine.count))):
        raise Failure(f"{name}: the model's pages are not those that its log makes")
    checker.check(f"{name}, redo", wanted, ["redo"], ran.files["log"])
    check_copies(checker, name, ran)
    if ran.engine.complete_copies() and script.pages < MOST_PAGES_SPOILED:
        check_cut_logs(checker, name, ran, seed)
        check_spoiled(checker, name, ran, seed)
    if seed % 4 == 0:
        script = bad_script(seed)
        checker.check(f"bad script {seed}", run_script(script).answer, run_words(script), script.text)


def check_copies(checker, name, ran):
    """Restores each copy from its files. The log alone makes the same volume, by the headline of what is promised."""
    log, copies = ran.engine.log, ran.engine.complete_copies()
    volume = encode_pages(redo_all(log + undo_records(log), ran.engine.pages)) if copies else b""
    for copy in copies:
        given = Given(ran.files, ran.engine.chain(copy.number))
        wanted = answer_of(restore_files, *given.contents())
        if wanted.output != volume:
            raise Failure(f"{name}: the model restores copy {copy.number} to another volume than the log makes")
        checker.check(f"{name}, restore of copy {copy.number}", wanted, ["restore", *given.words()])
        log_data, _, archives = given.contents()
        audited = audit_files(log_data, archives)
        if audited.status:
            raise Failure(f"{name}: the model calls copy {copy.number} unsound: {audited.output!r}")
        checker.check(f"{name}, audit of copy {copy.number}", audited, ["audit", *given.audit_words()])


def check_cut_logs(checker, name, ran, seed):
    """Restores a copy with parts of the log that a crash may leave, which may end within a rollback, or within a way
    back to a savepoint. What is left is what was committed, as the log alone tells it."""
    draw, log, forced = Draw(seed), ran.engine.log, ran.engine.forced
    for _ in range(CUTS_IN_A_RUN):
        cut = forced + draw.below(len(log) - forced + 1)
        given = Given(ran.files, ran.engine.chain(draw.one_of(ran.engine.complete_copies()).number))
        given.put("log", ran.files["log"][:lsn_of(cut)])
        undone = redo_all(log[:cut] + undo_records(log[:cut]), ran.engine.pages)
        if numbers_of(undone) != committed_numbers(log[:cut]):
            raise Failure(f"{name}: after {cut} records the model's undo does not leave what was committed")
        if answer_of(restore_files, *given.contents()).output != encode_pages(undone):
            raise Failure(f"{name}: after {cut} records the model restores another volume than the log makes")
        checker.check_files(f"{name}, {cut} records kept", given, ran.files)


@lru_cache(maxsize=None)
def files_of_another(seed):
    return run_script(random_script(seed)).files


def check_spoiled(checker, name, ran, seed):
    draw, others = Draw(seed), files_of_another(1 + seed % 7)
    for turn in range(SPOILED_IN_A_RUN + MISLED_IN_A_RUN):
        given = Given(ran.files, ran.engine.chain(draw.one_of(ran.engine.complete_copies()).number))
        if turn < SPOILED_IN_A_RUN:
            spoil(draw, given, others)
        else:
            mislead(draw, given)
        checker.check_files(f"{name}, files {' '.join(given.words())} spoiled by {', '.join(given.done)}", given,
                            ran.files)


# What has a known answer without the model

def check_ways(_):
    """The ways of the model to find a savepoint."""
    try:
        compare_ways()
    except DifferentWays as different:
        raise Failure(f"the model, {different}") from None


def check_longest(checker):
    for size, wanted in ((LONGEST_SCRIPT, Answer(0)), (LONGEST_SCRIPT + 1, Answer(2, error=b"imgcopy: input\n"))):
        checker.check(f"a comment of {size} bytes", wanted, run_words(Script(1, b"")), b"#" * size)


def check_devices(checker):
    """A folder that is missing, an input that cannot be read, and an output that is full."""
    script = b"begin\nset 1 0 0 5\n"
    words = run_words(Script(1, script))
    checker.empty_folder()
    unsaved = Answer(2, b"began 1 at 64\nlsn 128\n", b"E29 WriteFault 0\n")
    for last in (b"", b"restore 1 all\n"):
        checker.check("files in a folder that is missing", unsaved, [*words, "--save", "missing"], script + last)
    if checker.program is None:
        return
    with open("/dev/full", "wb") as full, open(checker.folder / "input", "rb") as source:
        done = subprocess.run([checker.program, *words], stdin=source, stdout=full, stderr=subprocess.PIPE)
    if (done.returncode, fault_lines(done.stderr)) != (2, b"E29 WriteFault 0\n"):
        checker.differences.append(f"an output that is full: status {done.returncode} and {done.stderr!r}")
    folder = os.open(checker.saved, os.O_RDONLY)
    done = subprocess.run([checker.program, *words], stdin=folder, capture_output=True)
    os.close(folder)
    if (done.returncode, done.stdout, fault_lines(done.stderr)) != (2, b"", b"imgcopy: input\n"):
        checker.differences.append(f"an input that cannot be read: status {done.returncode} and {done.stderr!r}")


WRONG_WORDS = [
    "run", "run --pages", "run --pages 0", "run --pages 65537", "run --pages -1", "run --pages x", "run --pages 1 more",
    "run --pages 1 --pages 1", "run --frames 1", "run --pages 1 --frames", "run --pages 1 --frames 0",
    "run --frames 0 --pages 1", "run --pages 1 --frames 65537", "run --pages 1 --frames -1", "run --pages 1 --frames x",
    "run --pages 1 --frames 1 --frames 1", "run --save .", "run --pages 1 --save", "restore", "restore log", "restore --log log",
    "rerun", "help rerun", "help run", "run --help", "restore --help", "audit", "audit --log log", "audit --help",
    "help audit",
]


RIGHT_WORDS = [
    "run --pages 1", "run --pages 65536", "run --pages 2 --frames 1", "run --frames 1 --pages 2",
    "run --pages 1 --frames 65536", "run --frames=65536 --pages=65536", "run --save . --frames 2 --pages 1",
]


def check_words(checker):
    """Wrong words: nothing on standard output, something on standard error, and status 2. Right ones, with a script of
    no calls: nothing is said."""
    for words in RIGHT_WORDS:
        checker.counts["words"] += 1
        if checker.program is not None and checker.answer(words.split()) != Answer(0):
            checker.differences.append(f"the words '{words}': {checker.answer(words.split())}")
    for words in WRONG_WORDS:
        checker.counts["words"] += 1
        if checker.program is None:
            continue
        given = checker.answer(words.split())
        if given.status != 2 or given.output or not given.error:
            checker.differences.append(f"the words '{words}': {given}")


# All of it

CHECKS = {"ways": check_ways, "longest": check_longest, "devices": check_devices, "words": check_words}


def check_all(program, task):
    """The counts of answers and the differences of one task: the name of a check, or some seeds."""
    with tempfile.TemporaryDirectory(dir=MEMORY if os.access(MEMORY, os.W_OK) else None) as folder:
        checker = Checker(program, folder)
        checker.empty_folder()
        try:
            for part in [task] if isinstance(task, str) else task:
                CHECKS[part](checker) if isinstance(part, str) else check_seed(checker, part)
        except subprocess.TimeoutExpired:
            raise Failure(f"{part}: the program has not ended after {MOST_SECONDS} seconds") from None
        return checker.counts, checker.differences


def compare(program, count, first):
    seeds = range(first, first + count)
    tasks = [*CHECKS, *(seeds[at:at + SEEDS_IN_A_TASK] for at in range(0, count, SEEDS_IN_A_TASK))]
    counts, differences = Counter(), []
    with ProcessPoolExecutor(os.cpu_count()) as pool:
        for counted, different in pool.map(check_all, repeat(program), tasks):
            counts += counted
            differences += different
    return counts, differences


def main(arguments):
    try:
        signal.signal(signal.SIGTERM, lambda *_: sys.exit("answers.py: ended by a signal"))
        if not 1 <= len(arguments) <= 3 or not all(number.isdigit() for number in arguments[1:]):
            raise Failure("usage: python3 -m checks.answers PROGRAM [COUNT [FIRST]], with --model in place of a program")
        program = shutil.which(arguments[0])
        if program is None and arguments[0] != "--model":
            raise Failure(f"there is no program {arguments[0]}")
        count, first = [*map(int, arguments[1:]), *(COUNT, 1)[len(arguments) - 1:]]
        counts, differences = compare(program and os.path.abspath(program), count, first)
        if differences:
            print(*differences[:MOST_SHOWN], sep="\n")
            raise Failure(f"{len(differences)} of {counts.total()} answers are not as defined")
    except (Failure, OSError) as failure:
        sys.exit(f"answers.py: {failure}")
    parts = ", ".join(f"{counts[name]} of {name}" for name in ("run", "redo", "restore", "audit", "words"))
    print(f"ok model: {count} random scripts are as defined, by answers: {parts}")


if __name__ == "__main__":
    main(sys.argv[1:])
