"""Refuses each allocation of a program in turn, and compares what it answers with what it must.

usage: python3 -m checks.memory PROGRAM LIBRARY

LIBRARY is refuse_memory.rs, built as a library for LD_PRELOAD. Each example log goes to `PROGRAM redo` with its first
allocation refused, then with its second, and so on until none is left to refuse. So do wrong words, an audit of the
files of the day, and a restore of them with its log. A run that is refused one has to say so, to write nothing and to end
with status 2; or it does without, and answers as ever. An audit says it on standard output, but for the memory of the
program's words, before it begins. A restore that cannot make the file of its log for want of memory, or put it in place
behind the volume, says so of that file.

Commands of folders are refused each of their allocations, too. One that ends well has answered as ever; else its status is
that of a fault, no file that was there is another one, each file that a manifest names is there as it is named, and no
renewed folder has its name.
"""

import os
import shutil
import subprocess
import sys
import tempfile
from itertools import count
from pathlib import Path
from typing import NamedTuple

from checks.answers import WRONG_WORDS
from checks.bank_files import memory_place
from checks.manifest_text import misnamed
from model.recovery import encode_log, encode_pages, fault_lines, read_log, restore_files, undo_records
from model.scripts import run as run_script

EXAMPLES = Path(__file__).resolve().parent.parent / "examples"
OUT_OF_MEMORY = (2, b"", b"E1 OutOfMemory\n")
AUDIT_OUT_OF_MEMORY = (2, b"E1 OutOfMemory\n", b"")
NOT_MADE = (2, b"", b"E29 WriteFault 0\n")
OLD_LOG = b"an older log"


class Failure(Exception):
    """What is missing or wrong, in one line."""


class Case(NamedTuple):
    words: list
    log: Path
    answer: tuple


def cases(program):
    for log in sorted(EXAMPLES.glob("*.log")):
        volume, fault = log.with_suffix(".volume"), log.with_suffix(".fault")
        answer = (0, volume.read_bytes(), b"") if volume.exists() else (2, b"", fault.read_bytes())
        yield Case(["redo"], log, answer)
    # The texts about wrong words are tested elsewhere, so these are compared with a run that has all of its memory.
    for words in ([], ["help"], ["redo", "extra"], *map(str.split, WRONG_WORDS)):
        case = Case(words, Path(os.devnull), ())
        answer, _ = run(program, case, {})
        yield case._replace(answer=answer)


def audit_case(folder, files):
    """An audit of the files that the script of the day saves, which are put into this folder."""
    for name, data in files.items():
        (folder / name).write_bytes(data)
    names = [str(folder / name) for name in ("log", "copy-1", "copy-2", "copy-3")]
    return Case(["audit", *names], Path(os.devnull), (0, b"sound\n", b""))


def check_restore(program, library, folder, files):
    """A restore of these files, which are in this folder. Its log takes the place of an older one, or that one stays."""
    archives = ["copy-1", "copy-2", "copy-3"]
    pages, records = read_log(files["log"])
    volume = encode_pages(restore_files(files["log"], files["master"], [files[name] for name in archives]))
    after, place = encode_log(records + undo_records(records), pages), folder / "after"
    words = ["restore", "--log-out", str(place), *(str(folder / name) for name in ("log", "master", *archives))]
    place.write_bytes(OLD_LOG)
    for number, answer, _ in refuse_each(program, library, Case(words, Path(os.devnull), ())):
        if answer not in ((0, volume, b""), OUT_OF_MEMORY, NOT_MADE, (2, volume, NOT_MADE[2])):
            raise Failure(f"a restore with its log: without allocation {number} the answer is {str(answer)[:80]}")
        if place.read_bytes() != (OLD_LOG if answer[0] else after) or list(folder.glob("after.*")):
            raise Failure(f"a restore with its log: without allocation {number} another log has its name, or one is left")
        place.write_bytes(OLD_LOG)
    if answer[0]:
        raise Failure("a restore with its log is refused that has all of its memory")
    return number - 1


class Folders:
    """A database that was backed up into a second folder, and went on; each run begins with these two."""

    def __init__(self, program, top):
        self.program, self.top = program, top
        self.base, self.older = top / "base", top / "older"
        self.shop, self.away, self.new = top / "shop", top / "away", top / "new"
        for folder in (self.base, self.older):
            folder.mkdir()
        for words, lines in ((["open", self.base, "--pages", "2"], b"begin\nset 1 0 0 5\ncommit 1\n"),
                             (["backup", self.base, "--into", self.older], b""),
                             (["open", self.base], b"begin\nset 2 1 0 6\ncommit 2\n")):
            subprocess.run([program, *words], input=lines, capture_output=True, check=True)
        self.lines = top / "lines"
        self.lines.write_bytes(b"begin\nset 3 1 0 7\ncommit 3\ncopy on 1\nbegin\nset 4 0 0 6\ncheckpoint\nstatus\nflush\n")

    def fill(self):
        for folder in (self.shop, self.away, self.new, self.top / "new.unfinished-1"):
            shutil.rmtree(folder, ignore_errors=True)
        shutil.copytree(self.base, self.shop)
        shutil.copytree(self.older, self.away)

    def check(self, what, answer, whole):
        """What is there behind a command that was refused memory, or was not."""
        status, output, _ = answer
        is_well = status == 0 and (what == "open" or output == whole[1])
        # A header that was not read for want of memory is one that is not there.
        is_refused = status == 2 or status == 1 and what == "restore" and not output
        if not is_well and not is_refused:
            raise Failure(f"{what}: the status is {status}, and {len(output)} bytes are written")
        before, after = files_of(self.base), files_of(self.shop)
        is_kept = after["log"].startswith(before["log"]) and after["copy-1"] == before["copy-1"]
        if not is_kept or misnamed(after) or misnamed(files_of(self.away)):
            raise Failure(f"{what}: status {status}, and the manifests name {misnamed(after)} and"
                          f" {misnamed(files_of(self.away))}, or a file is gone")
        if self.new.exists() != (what == "renew" and status == 0):
            raise Failure(f"{what}: status {status}, and the new folder is there, or not")


def files_of(folder):
    return {path.name: path.read_bytes() for path in folder.iterdir()}


def check_folders(program, library, top):
    """How many allocations of commands of folders were refused."""
    folders, total = Folders(program, top), 0
    shop = folders.shop
    for words in (["open", shop], ["backup", shop, "--into", folders.away], ["renew", shop, folders.new], ["verify", shop],
                  ["list", shop], ["restore", shop]):
        case = Case([str(word) for word in words], folders.lines if words[0] == "open" else Path(os.devnull), ())
        folders.fill()
        whole, _ = run(program, case, {})
        for number in count(1):
            folders.fill()
            answer, refused = run(program, case, {"LD_PRELOAD": library, "REFUSED_ALLOCATION": str(number)})
            try:
                folders.check(words[0], answer, whole)
            except Failure as failure:
                raise Failure(f"without allocation {number}: {failure}") from failure
            if not refused:
                break
        if answer != whole or whole[0]:
            raise Failure(f"{words[0]}: with all of its memory it answers {str(answer)[:80]}, and alone {str(whole)[:80]}")
        total += number - 1
    return total


def run(program, case, environment):
    """The answer, and whether an allocation was refused."""
    reading, writing = os.pipe()
    with open(reading, "rb") as report, open(case.log, "rb") as source:
        with open(writing, "wb"):
            done = subprocess.run([program, *case.words], stdin=source, capture_output=True, pass_fds=[writing],
                                  env={**os.environ, **environment, "REFUSAL_REPORT": str(writing)})
        refused = report.read() != b""
    return (done.returncode, done.stdout, fault_lines(done.stderr)), refused


def refuse_each(program, library, case):
    """The answer without the first allocation, without the second and so on, each with its number and whether it was
    refused. The last one had all of its memory."""
    for number in count(1):
        answer, refused = run(program, case, {"LD_PRELOAD": library, "REFUSED_ALLOCATION": str(number)})
        yield number, answer, refused
        if not refused:
            return


def check(program, library, case, *told):
    """How many allocations there were to refuse. The program may tell of one by any of these answers."""
    told = told or (OUT_OF_MEMORY,)
    for number, answer, refused in refuse_each(program, library, case):
        if answer != case.answer and not (refused and answer in told):
            status, output, error = answer
            raise Failure(f"{' '.join(case.words)} < {case.log.name}: without allocation {number} the status is"
                          f" {status}, {len(output)} bytes are written, and standard error is {error[:80]!r}")
    return number - 1


def program_and_library(arguments):
    """The paths of both."""
    if len(arguments) != 2:
        raise Failure("two arguments are wanted, the program to check and the library that refuses")
    program, library = shutil.which(arguments[0]), os.path.abspath(arguments[1])
    if program is None:
        raise Failure(f"there is no program {arguments[0]}")
    if not os.path.isfile(library):
        raise Failure(f"there is no file {arguments[1]}")
    return os.path.abspath(program), library


def main(arguments):
    try:
        program, library = program_and_library(arguments)
        total = sum(check(program, library, case) for case in cases(program))
        with tempfile.TemporaryDirectory() as folder:
            files = run_script((EXAMPLES / "day.script").read_bytes(), 3).files
            total += check(program, library, audit_case(Path(folder), files), OUT_OF_MEMORY, AUDIT_OUT_OF_MEMORY)
            total += check_restore(program, library, Path(folder), files)
        with tempfile.TemporaryDirectory(dir=memory_place()) as top:
            total += check_folders(program, library, Path(top))
        if total == 0:
            raise Failure("no allocation was refused")
    except (Failure, OSError) as failure:
        sys.exit(f"memory.py: {failure}")
    print(f"ok memory: {total} refused allocations are told, or done without")


if __name__ == "__main__":
    main(sys.argv[1:])
