"""Loses a database in a folder at chosen moments, and has it go on: each life against the model.

usage: python3 -m checks.open_losses IMGCOPY

Each row is a few lives of one folder. A life is sent its lines, and once all are answered it is killed; the volume is
deleted then. The next life restarts from what stands in the folder. Each first line and each reply is the model's, the
log's file is that of the model as far as it is forced, and each chain of copies audits and restores in the end. The
rows are losses inside a transaction, inside a rollback, before, between and behind the records of a checkpoint, inside
a copy and inside a page write; behind each comes work, an incremental copy on a chain from before the loss, and a
second loss. A last row goes on with the log that `restore --log-out` wrote.

Then a log is cut behind each of its records, and inside each, and each record is damaged, while one file alone knows how
far the log went: the note of a closing, the master record, a copy, or none. It is refused just where the log lacks what
that file knows, or where a forced record stands behind the damage; then nothing is touched.
"""

import subprocess
import sys
import tempfile
from pathlib import Path

from checks.bank_files import Failure, memory_place, program_of
from checks.open_folders import MOST_SECONDS, Files, Judge, Program, check_refusal
from model.engine import Engine
from model.lives import is_worth_keeping, line_of_new, reopen
from model.log_format import HEADER_SIZE, RECORD_SIZE, lsn_of
from model.recovery import encode_log
from model.scripts import read_event

PAGES = 3
CHECKPOINT = ["ckpt", "gather", "gather", "gather", "gather", "endckpt"]
# A committed change on each page, two pages stored, a checkpoint, and a full copy: transaction 1.
BASE = ["begin", "set 1 0 0 500", "set 1 1 0 300", "add 1 2 61 7", "commit 1", "wbegin 0", "wend 0", "wbegin 1", "wend 1",
        *CHECKPOINT, "full", "take 1 0", "take 1 1", "take 1 2", "seal 1"]
# What comes behind a loss: the numbers are read, transaction {0} changes two, and an incremental copy stands on copy 1.
READ = ["read 0 0", "read 1 0", "read 2 61"]


def later(txn, copy, pages=PAGES):
    return [*READ, "begin", f"add {txn} 0 0 10", f"set {txn} 2 61 9", f"commit {txn}", *READ, "wbegin 0", "wend 0",
            *CHECKPOINT, "inc 1", *(f"take {copy} {page}" for page in range(pages)), f"seal {copy}"]


# What is open as the first life is lost, what is sent first in the second one, the next transaction then, and the pages.
ROWS = {
    "nothing is open": ([], [], 2, PAGES),
    "inside a transaction": (["begin", "add 2 0 0 5", "set 2 1 0 1", "force"], [], 3, PAGES),
    "inside a transaction that is forced in part": (["begin", "add 2 0 0 5", "force", "set 2 1 0 1"], [], 3, PAGES),
    "inside a rollback": (["begin", "add 2 0 0 5", "set 2 1 0 1", "abort 2", "undo 2", "force"], [], 3, PAGES),
    "before the end of a rollback": (["begin", "add 2 0 0 5", "abort 2", "undo 2", "force"], [], 3, PAGES),
    "behind a savepoint": (["begin", "add 2 0 0 5", "save 2", "set 2 1 0 1", "undoto 2 640", "force"], [], 3, PAGES),
    "behind a checkpoint's begin": (["ckpt", "force"], ["ckpt", "endckpt"], 2, PAGES),
    "between the records of a checkpoint": (
        ["begin", "add 2 0 0 5", "ckpt", "gather", "force"], ["gather", "endckpt"], 3, PAGES),
    "behind the records of a checkpoint": (["begin", "add 2 0 0 5", *CHECKPOINT], [], 3, PAGES),
    "inside a copy": (["begin", "add 2 0 0 5", "force", "full", "take 2 0"], ["take 2 1", "seal 2"], 3, PAGES),
    "inside an incremental copy": (["inc 1", "take 2 0", "take 2 1"], ["seal 2", "drop 2"], 2, PAGES),
    "inside a page write": (["begin", "add 2 2 61 5", "commit 2", "wbegin 2"], ["wend 2"], 3, PAGES),
    "behind a growth": (["extend 5", "begin", "set 2 4 0 8", "force"], ["read 4 0"], 3, 5),
}

# A log whose records end at 704: a Commit at 256, a checkpoint from 320 to 448, and a copy that began at 320, whose
# page 0 has the change at 576. Two transactions are open.
WITNESSED = ["begin", "set 1 0 0 500", "set 1 1 0 300", "commit 1", "ckpt", "gather", "gather", "gather", "endckpt",
             "full", "begin", "add 2 0 0 5", "wbegin 0", "wend 0", "take 1 0", "take 1 1", "take 1 2", "seal 1", "begin"]
END, LAST_FORCED = 704, 448
# By the file that knows of the log's end: the least place where the front may end.
WITNESSES = {"closed": END, "manifest": END, "master": LAST_FORCED + RECORD_SIZE, "copy-1": 576 + RECORD_SIZE, None: HEADER_SIZE}


class Database(Program):
    """A database in a folder, and the model of it."""

    def __init__(self, imgcopy, folder):
        super().__init__(imgcopy, folder)
        folder.mkdir()

    def live(self, lines):
        """One life: it is sent these lines, answers all of them, and is killed."""
        before, words = Files.of(self.folder), []
        if before.log is None:
            words += ["--pages", str(PAGES)]
            engine, wanted = Engine(PAGES), [line_of_new(PAGES)]
        else:
            again = reopen(before.log, before.copies)
            if again.refused or before.losses() or before.closed is not None:
                raise Failure(f"the model refuses {again.refused} or {before.losses()}, or there is a note of a closing")
            engine, wanted = again.engine, [again.line]
        wanted += [read_event(line.split()).reply(engine) for line in lines]
        answers = self.killed(*words, lines=lines)
        if answers != wanted:
            differ = [pair for pair in zip(answers, wanted) if pair[0] != pair[1]]
            raise Failure(f"{differ[:1] or answers[-1:]} of {len(answers)} answers, and {len(wanted)} are wanted")
        log, whole = (self.folder / "log").read_bytes(), encode_log(engine.log, engine.pages)
        if not whole.startswith(log) or len(log) < lsn_of(engine.forced):
            raise Failure(f"the log has {len(log)} bytes, and {lsn_of(engine.forced)} are forced")
        return engine

    def lose(self):
        """The volume is gone."""
        (self.folder / "volume").unlink(missing_ok=True)


def play(imgcopy, place, number, row):
    """Three lives and two losses, and then what is left is audited and restored."""
    behind, first, txn, pages = row
    folder, scratch = Database(imgcopy, place / f"row-{number}"), place / f"scratch-{number}"
    scratch.mkdir()
    folder.live([*BASE, *behind])
    folder.lose()
    folder.live([*first, *later(txn, 2, pages)])
    folder.lose()
    folder.live(later(txn + 1, 3, pages))
    judge = Judge(imgcopy, scratch)
    judge.check(Files.of(folder.folder))
    if judge.made["restore"] < 2:
        raise Failure(f"{judge.made['restore']} chains are restored, and 2 are wanted")


def go_on_with_the_log_of_a_restore(imgcopy, place):
    """The log that belongs to a restored volume: what was open is taken back in it, and it grows from there."""
    folder = Database(imgcopy, place / "log-out")
    folder.live([*BASE, "begin", "add 2 0 0 5", "force"])
    names = [str(folder.folder / name) for name in ("log", "master", "copy-1")]
    new = folder.folder / "new-log"
    subprocess.run([imgcopy, "restore", "-o", str(place / "volume"), "--log-out", str(new), *names], check=True,
                   stdout=subprocess.DEVNULL, timeout=MOST_SECONDS)
    folder.lose()
    new.replace(folder.folder / "log")
    engine = folder.live([*READ, *later(3, 2)])
    if not engine.read(0, 0).endswith(" 510"):
        raise Failure(f"{engine.read(0, 0)}, and 510 is wanted")


def damage_each_record(imgcopy, place):
    """Says how often the opening was refused, and how often not."""
    program, counts = Program(imgcopy, place / "witnessed"), [0, 0]
    program.put({})
    program.open("--pages", str(PAGES), lines=WITNESSED).check_returncode()
    whole = program.files()
    if len(whole["log"]) != END:
        raise Failure(f"the log ends at {len(whole['log'])}")
    for witness, least in WITNESSES.items():
        files = {name: data for name, data in whole.items() if name in ("log", "volume", witness)}
        for end in range(HEADER_SIZE, END, RECORD_SIZE):
            log = whole["log"]
            for damaged, is_lost in ((log[:end], end < least), (log[:end + 63], end < least),
                                     (log[:end] + b"x" + log[end + 1:], end < max(least, LAST_FORCED))):
                what = f"{witness} knows, and {len(damaged)} bytes to {end} are right"
                open_damaged(program, Files(files | {"log": damaged}), is_lost, what)
                counts[is_lost] += 1
    return counts


def open_damaged(program, files, is_lost, what):
    """It is refused, or opened from its front, and what is cut off is put aside."""
    if bool(files.losses()) != is_lost:
        raise Failure(f"{what}: the model says {files.losses()}")
    files.put_in(program.folder)
    if is_lost:
        check_refusal([program.imgcopy, "open", program.folder], program.folder)
        return
    done, again = program.run(), reopen(files.log, files.copies)
    if (done.returncode, done.stdout) != (0, f"{again.line}\n".encode()):
        raise Failure(f"{what}: status {done.returncode}, {done.stdout[:200]!r} and {done.stderr[:200]!r}")
    behind = files.log[again.front.end():]
    if program.files().get("log.left-out-1") != (behind if is_worth_keeping(behind) else None):
        raise Failure(f"{what}: what stood behind the log is not put aside")


def main(arguments):
    try:
        if len(arguments) != 1:
            raise Failure("usage: python3 -m checks.open_losses IMGCOPY")
        imgcopy = program_of(arguments[0])
        with tempfile.TemporaryDirectory(dir=memory_place()) as place:
            for number, (name, row) in enumerate(ROWS.items()):
                try:
                    play(imgcopy, Path(place), number, row)
                except Failure as failure:
                    raise Failure(f"{name}: {failure}") from failure
            go_on_with_the_log_of_a_restore(imgcopy, Path(place))
            opened, refused = damage_each_record(imgcopy, Path(place))
    except (Failure, OSError, subprocess.SubprocessError) as failure:
        sys.exit(f"open_losses.py: {failure}")
    print(f"ok open_losses: {len(ROWS)} databases are lost twice, each life is the model's, one goes on with the log of a"
          f" restore; of {opened + refused} damaged logs {refused} are refused")


if __name__ == "__main__":
    main(sys.argv[1:])
