"""Types the worked rows at a program, as a user does.

usage: python3 -m checks.rows PROGRAM
       python3 -m checks.rows --model     compares the model with the rows alone

Each script is run with --save into an empty folder, where it has to leave the log, the master record and the complete
copies, and nothing else. Then `redo`, `restore` and `audit` are typed in that folder. Nothing is removed there: a row that
spoils a file writes over it where it stands, and what was there before is put back for the next row. Last, each file of a
chain is cut at each length. Where a command ends well, standard error has to be empty; where it does not, the line of the
fault has to come first. The model has to give the answers of the rows, too.
"""

import os
import shutil
import signal
import subprocess
import sys
import tempfile
from concurrent.futures import ProcessPoolExecutor
from functools import lru_cache
from itertools import repeat
from pathlib import Path

from checks.answers import (MEMORY, MOST_SECONDS, MOST_SHOWN, Failure, difference, difference_of_files, run_script,
                            run_words)
from model import audit_rows, file_rows, growth_rows, savepoint_rows
from model.frame_rows import FRAME_ROWS
from model.log_format import ADD, BEGIN, MOST_RECORDS, RECORD_SIZE, UPDATE, Change, Record, lsn_of
from model.random_scripts import Script
from model.recovery import (Answer, answer_of, audit_files, encode_pages, fault_lines, read_log, redo_all, redo_file,
                            restore_files, undo_records)
from model.rows import ROOM, ROWS, SIZES

ALL_ROWS = [*ROWS, *FRAME_ROWS, *savepoint_rows.SAVEPOINT_ROWS, savepoint_rows.many_comps(50),
            *growth_rows.GROWTH_ROWS, growth_rows.BY_ONE]
LONG_ROWS = [ROOM, savepoint_rows.MANY_COMPS, savepoint_rows.SAVEPOINT_ROOM]
FILE_ROWS = [*file_rows.FILE_ROWS, *savepoint_rows.SAVEPOINT_FILE_ROWS, *growth_rows.GROWTH_FILE_ROWS]
AUDIT_ROWS = [*audit_rows.AUDIT_ROWS, *growth_rows.GROWTH_AUDIT_ROWS]
NO_ROOM = "a log without room for undo"
ALL_SIZES = SIZES | savepoint_rows.SAVEPOINT_SIZES
LEAST_LOG = {"restore": 576, "audit": 448, "redo": 64}  # how many bytes a log has to keep of that of a chain
ARCHIVES = ("copy-1", "copy-2", "copy-3")
UNDONE = "after-undo"


class Typist:
    """Types commands in the folder into which the scripts are saved, which stands in a folder of the check. Without a
    program it counts the answers that it would look at."""

    def __init__(self, program, place):
        self.program, self.place, self.saved = program, Path(place), Path(place) / "saved"
        self.count, self.differences = 0, []

    def empty_folder(self):
        shutil.rmtree(self.saved, ignore_errors=True)
        self.saved.mkdir()

    def put(self, files):
        """Writes over what has other bytes, where it stands."""
        for name, data in files.items() if self.program else ():
            with open(self.saved / name, "r+b") as file:
                if file.read() != data:
                    file.seek(0)
                    file.write(data)
                    file.truncate()

    def wants(self, what, wanted, words, text=b""):
        self.count += 1
        if self.program is None:
            return
        done = subprocess.run([self.program, *words], input=text, capture_output=True, cwd=self.saved,
                              timeout=MOST_SECONDS)
        given = Answer(done.returncode, done.stdout, error_of(done.stderr, wanted))
        if given != wanted:
            self.differences.append(f"{what}: {difference(given, wanted, text)}")

    def wants_files(self, what, wanted):
        if self.program is None:
            return
        given = {path.name: path.read_bytes() for path in self.saved.iterdir()}
        if given != wanted:
            self.differences.append(f"{what}: {difference_of_files(given, wanted)}")


def error_of(told, wanted):
    """All that was told behind a good end; else the first line, where that is the fault's, or without those for a person
    where the fault's line is on standard output."""
    if wanted.status == 0:
        return told
    return told.partition(b"\n")[0] + b"\n" if wanted.error else fault_lines(told)


# Rows

def play(typist, row):
    """Runs the script of a row, and types what is asked of the files that it saves."""
    script, wanted = Script(row.pages, row.script(), row.frames), Answer(row.status, row.output())
    ran = run_script(script)
    if ran.answer != wanted:
        raise Failure(f"the model, {row.name}: {difference(ran.answer, wanted, script.text)}")
    look_at_bytes(row, ran.files)
    typist.empty_folder()
    typist.wants(row.name, wanted, [*run_words(script), "--save", "."], script.text)
    typist.wants_files(row.name, ran.files)
    for file_row in FILE_ROWS:
        if file_row.row == row.name:
            play_files(typist, file_row, ran.files)
    for audit_row in AUDIT_ROWS:
        if audit_row.row == row.name:
            play_audit(typist, audit_row, ran.files)


def look_at_bytes(row, files):
    for name, parts in row.wanted_files().items():
        for at, data in parts:
            if files[name][at:at + len(data)] != data:
                raise Failure(f"the model, {row.name}: the file {name} differs at {at}")
    for (of_row, name), size in ALL_SIZES.items():
        if of_row == row.name and len(files[name]) != size:
            raise Failure(f"the model, {row.name}: the file {name} has {len(files[name])} bytes in place of {size}")


def play_files(typist, row, saved):
    wanted = Answer(row.status, row.volume(), b"") if row.status == 0 else \
        Answer(row.status, error=f"{row.answer}\n".encode())
    files, names = row.files(saved), row.names.split()
    if row.names == "redo":
        given, words, text = answer_of(redo_file, files["log"]), ["redo"], files["log"]
    else:
        log, master, *archives = map(files.get, names)
        given, words, text = answer_of(restore_files, log, master, archives), ["restore", *names], b""
    if given != wanted:
        raise Failure(f"the model, {row.name}: {difference(given, wanted)}")
    typist.put(files)
    typist.wants(row.name, wanted, words, text)
    if row.undone:
        look_at_undo(typist, row, wanted, words, files["log"])
    typist.put(saved)


def look_at_undo(typist, row, wanted, words, log):
    """The records that undo puts behind the log are those of the row. The program writes them out of the folder."""
    pages, records = read_log(log)
    if file_rows.undo_of(undo_records(records)) != row.undone:
        raise Failure(f"the model, {row.name}: undo makes {file_rows.undo_of(undo_records(records))}")
    output = typist.place / UNDONE
    typist.wants(f"{row.name}, with its log", wanted, [*words, "--log-out", f"../{UNDONE}", "--force"])
    if typist.program and output.exists():
        undone = file_rows.undo_of(read_log(output.read_bytes())[1][len(records):])
        if undone != row.undone:
            typist.differences.append(f"{row.name}: undo makes {undone} in place of {row.undone}")


def play_audit(typist, row, saved):
    files, (log, *archives) = row.files(saved), row.names.split()
    wanted = Answer(row.status, f"{row.answer}\n".encode())
    given = audit_files(files.get(log), [files.get(name) for name in archives])
    if given != wanted:
        raise Failure(f"the model, {row.name}: {difference(given, wanted)}")
    typist.put(files)
    typist.wants(row.name, wanted, ["audit", log, *archives])
    typist.put(saved)


# What takes the model too long

def play_long(typist, row):
    typist.empty_folder()
    typist.wants(row.name, Answer(row.status, row.output()), run_words(row), row.script())


def play_full_log(typist):
    """The log of a row goes on with a transaction whose Adds leave no room for their undo."""
    row = next(row for row in ROWS if row.name == "an unforced tail is lost")
    typist.empty_folder()
    typist.wants(row.name, Answer(row.status, row.output()), [*run_words(row), "--save", "."], row.script())
    records = [Record(BEGIN, 1, lsn=lsn_of(2)).encode()]
    add = Change(0, 0, ADD, 0, 1)
    records += [Record(UPDATE, 1, lsn - RECORD_SIZE, add, lsn=lsn).encode()
                for lsn in range(lsn_of(3), lsn_of(MOST_RECORDS), RECORD_SIZE)]
    saved = run_script(Script(row.pages, row.script(), row.frames)).files
    typist.put({"log": saved["log"][:lsn_of(2)] + b"".join(records)})
    typist.wants(NO_ROOM, Answer(1, error=b"E8 LogFull\n"), ["restore", "log", "master", "copy-1"])


# A chain of which one file is cut

@lru_cache(maxsize=None)
def files_of_chain(is_first):
    """The chain's row, its files, and these in the format in which they are tried."""
    row = next(row for row in ROWS if row.name == file_rows.CHAIN)
    saved = run_script(Script(row.pages, row.script(), row.frames)).files
    first = {name: file_rows.of_first_format(saved[name]) for name in ["log", *ARCHIVES]}
    return row, saved, saved | first if is_first else saved


def cut(typist, name, is_first):
    """Cuts a file of the chain at each length, longest first: it is restored and audited, and the log redone."""
    row, saved, whole = files_of_chain(is_first)
    typist.empty_folder()
    typist.wants(row.name, Answer(row.status, row.output()), [*run_words(row), "--save", "."], row.script())
    typist.wants_files(row.name, saved)
    typist.put(whole)
    for size in range(len(whole[name]) - 1, -1, -1):
        typist.put({name: whole[name][:size]})
        for words, answer in answers_of_cut(whole, name, size).items():
            text = whole["log"][:size] if words == "redo" else b""
            typist.wants(f"{name} cut to {size} bytes", answer, words.split(), text)
            if is_first and answer != answers_of_cut(saved, name, size)[words]:
                raise Failure("the model does not answer files of the first format as it answers those of the second")


@lru_cache(maxsize=None)
def volume_of(log):
    pages, records = read_log(log)
    return encode_pages(redo_all(records + undo_records(records), pages))


def answers_of_cut(whole, name, size):
    """The answers where this file is cut. It is refused, but for a log that ends with a whole record: that one is
    redone, is sound where it has the last redo point, which is 384, and is restored where it has the checkpoint that the
    master record names, whose end stands at 512."""
    files = whole | {name: whole[name][:size]}
    log, chain = files["log"], [files[archive] for archive in ARCHIVES]
    restored = answer_of(restore_files, log, files["master"], chain)
    given = {" ".join(["restore", "log", "master", *ARCHIVES]): restored}
    if name != "master":
        given[" ".join(["audit", "log", *ARCHIVES])] = audit_files(log, chain)
    if name == "log":
        given["redo"] = answer_of(redo_file, log)
    for words, answer in given.items():
        if (answer.status == 0) != (name == "log" and size % RECORD_SIZE == 0 and size >= LEAST_LOG[words.split()[0]]):
            raise Failure(f"the model, {name} cut to {size} bytes: {words} gives {answer}")
    if restored.status == 0 and restored.output != volume_of(log):
        raise Failure(f"the model, a log cut to {size} bytes: it restores another volume than the log makes")
    return given


# All of it

def tasks():
    """Those that take long, the cuts of each file in each format, and then the other rows, a few at a time."""
    yield "full log", None
    for row in LONG_ROWS:
        yield "long", row
    for name in ("log", "master", *ARCHIVES):
        for is_first in (False, True):
            yield "cuts", (name, is_first)
    for first in range(0, len(ALL_ROWS), 8):
        yield "rows", ALL_ROWS[first:first + 8]


def do_task(program, task):
    kind, what = task
    with tempfile.TemporaryDirectory(dir=MEMORY if os.access(MEMORY, os.W_OK) else None) as place:
        typist = Typist(program, place)
        try:
            if kind == "full log":
                play_full_log(typist)
            elif kind == "long":
                play_long(typist, what)
            elif kind == "cuts":
                cut(typist, *what)
            else:
                for row in what:
                    play(typist, row)
        except subprocess.TimeoutExpired:
            raise Failure(f"the program has not ended after {MOST_SECONDS} seconds") from None
        return typist.count, typist.differences


def names():
    """The names of all rows."""
    return {NO_ROOM, *(row.name for row in [*ALL_ROWS, *LONG_ROWS, *FILE_ROWS, *AUDIT_ROWS])}


def look_at_names():
    """Each row on files is of a script that is there."""
    scripts = {row.name for row in ALL_ROWS}
    for row in [*FILE_ROWS, *AUDIT_ROWS]:
        if row.row not in scripts:
            raise Failure(f"the row '{row.name}' is of no script: '{row.row}'")


def main(arguments):
    try:
        signal.signal(signal.SIGTERM, lambda *_: sys.exit("rows.py: ended by a signal"))
        if len(arguments) != 1:
            raise Failure("usage: python3 -m checks.rows PROGRAM, with --model in place of a program")
        program = shutil.which(arguments[0])
        if program is None and arguments[0] != "--model":
            raise Failure(f"there is no program {arguments[0]}")
        look_at_names()
        count, differences = 0, []
        with ProcessPoolExecutor(os.cpu_count()) as pool:
            for counted, different in pool.map(do_task, repeat(program and os.path.abspath(program)), tasks()):
                count += counted
                differences += different
        if differences:
            print(*differences[:MOST_SHOWN], sep="\n")
            raise Failure(f"{len(differences)} of {count} answers are not as the rows have them")
    except (Failure, OSError) as failure:
        sys.exit(f"rows.py: {failure}")
    print(f"ok rows: {len(ALL_ROWS)} scripts and {len(FILE_ROWS) + len(AUDIT_ROWS)} rows on the files that they save are"
          f" answered as written, and a chain whose files are cut; {count} answers in all")


if __name__ == "__main__":
    main(sys.argv[1:])
