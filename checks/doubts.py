"""Spoils what stands in a database's folder, and sees that nobody trusts it more than it deserves.

usage: python3 -m checks.doubts PROGRAM [CASE...]

Each case makes a folder, spoils it, and looks at what openings, restores and backups make of it. A copy that is not what
the log made of it is not restored, whether a manifest names it or not. No id is given anew that a copy may still have. The
note of a closing is heard by a restore too. A volume with changes is not written over beside a log that was emptied. All
cases are tried, and each one that fails is told.
"""

import os
import subprocess
import sys
import tempfile
from pathlib import Path

from checks.bank_files import Failure, program_of

MOST_SECONDS = 60
FIRST = ["begin", "set 1 0 0 500", "commit 1", "copy"]
SECOND = ["begin", "set 2 0 0 700", "commit 2"]
DATA = 80  # slot 0 of the first page of a copy


class Database:
    """A folder, and the program."""

    def __init__(self, program, folder):
        self.program, self.folder = program, folder
        folder.mkdir()

    def run(self, *words, lines=()):
        data = "".join(f"{line}\n" for line in lines).encode()
        return subprocess.run([self.program, *words], input=data, capture_output=True, timeout=MOST_SECONDS)

    def open(self, *lines, words=()):
        return self.run("open", self.folder, *words, lines=lines)

    def begun(self, *lines):
        done = self.open(*lines, words=("--pages", "1"))
        if done.returncode:
            raise Failure(f"a new database: status {done.returncode}, {done.stderr!r:.300}")
        return self

    def path(self, name):
        return self.folder / name

    def read(self, name):
        return self.path(name).read_bytes()

    def flip(self, name, at, bit=1):
        data = bytearray(self.read(name))
        data[at] ^= bit
        self.path(name).write_bytes(data)
        return self

    def cut(self, name, end):
        self.path(name).write_bytes(self.read(name)[:end])
        return self

    def names(self, name):
        """Whether the manifest has an entry of this file."""
        return f"  {name}\n".encode() in self.read("manifest")

    def number(self, *words):
        """What a restore of the folder gives slot 0 of page 0, or None where it is refused."""
        done = self.run("restore", *words, self.folder)
        return int.from_bytes(done.stdout[16:24], "little") if done.returncode == 0 else None


def wants(is_so, what):
    if not is_so:
        raise Failure(what)


def wants_number(there, want, what):
    number = there.number()
    wants(number in (None, want), f"{what}: a restore gives {number} in place of {want}")


def a_rotten_copy_of_a_manifest(there):
    """The opening sees that it is rotten, and so may not make it a copy that no manifest names."""
    there.begun(*FIRST, *SECOND, "copy").flip("copy-2", DATA)
    wants_number(there, 700, "before an opening")
    there.open()
    wants_number(there, 700, "behind an opening that found copy 2 unsound")


def a_copy_on_a_rotten_one(there):
    there.begun(*FIRST, *SECOND, "copy on 1", "copy on 2").flip("copy-2", DATA)
    there.open()
    wants_number(there, 700, "behind an opening that found the parent of copy 3 unsound")


def a_copy_that_could_not_be_read_once(there):
    there.begun(*FIRST)
    away = there.path("copy-1").rename(there.folder.with_suffix(".away"))
    there.path("copy-1").mkdir()
    there.open()
    there.path("copy-1").rmdir()
    away.rename(there.path("copy-1"))
    there.open()
    wants(there.names("copy-1"), "copy 1 can be read again, and the manifest does not name it")


def the_child_of_a_copy_that_cannot_be_read(there):
    there.begun(*FIRST, *SECOND, "copy on 1")
    child = there.read("copy-2")
    away = there.path("copy-1").rename(there.folder.with_suffix(".away"))
    there.path("copy-1").mkdir()
    there.run("backup", there.folder)
    there.path("copy-1").rmdir()
    away.rename(there.path("copy-1"))
    wants(there.read("copy-2") == child, "the number of a copy whose parent could not be read was given to another one")


def a_volume_beside_no_log(there):
    there.begun(*SECOND[:1], "set 1 0 0 700", "commit 1", "flush")
    for name in ("closed", "manifest"):
        there.path(name).unlink()
    there.cut("log", 0)
    volume = there.read("volume")
    there.open(words=("--pages", "1"))
    left = [path.read_bytes() for path in there.folder.iterdir()]
    wants(volume in left, "a log that was emptied: a new database replaces the volume, which has the change at 128")


def the_note_is_heard(there):
    """The manifest is gone, the log is cut behind the checkpoint, and only the note knows of the commit."""
    there.begun(*FIRST, *SECOND)
    there.path("manifest").unlink()
    there.cut("log", 448)
    wants(there.run("restore", there.folder).returncode, "a restore of the folder passes over `closed`")
    wants(there.run("list", there.folder).returncode, "`list` passes over `closed`")


def zeros_in_place_of_a_new_log(there):
    there.path("log").write_bytes(bytes(128))
    wants(there.open(words=("--pages", "1")).returncode == 0, "a log of 128 zeros, and nothing else, is refused")


def a_newer_master_record(there):
    """The log is read, then a checkpoint is made, and then the master record is read."""
    there.begun(*FIRST)
    pipe = there.folder.with_suffix(".pipe")
    os.mkfifo(pipe)
    master = there.read("master")
    log = there.read("log")
    audit = subprocess.Popen([there.program, "audit", "--master", there.path("master"), pipe, there.path("copy-1")],
                             stdout=subprocess.PIPE, stderr=subprocess.PIPE)
    with open(pipe, "wb") as writer:
        there.open(*SECOND, "checkpoint")
        writer.write(log)
    out, _ = audit.communicate(timeout=MOST_SECONDS)
    wants(there.read("master") != master, "there is no newer master record")
    wants(out == b"sound\n", f"a log that is read before a newer master record is put in place: {out!r:.60}")


CASES = (a_rotten_copy_of_a_manifest, a_copy_on_a_rotten_one, a_copy_that_could_not_be_read_once,
         the_child_of_a_copy_that_cannot_be_read, a_volume_beside_no_log, the_note_is_heard,
         zeros_in_place_of_a_new_log, a_newer_master_record)


def main(arguments):
    if not arguments:
        sys.exit("usage: python3 -m checks.doubts PROGRAM [CASE...]")
    failures = []
    cases = [case for case in CASES if case.__name__ in arguments[1:] or not arguments[1:]]
    with tempfile.TemporaryDirectory() as place:
        for case in cases:
            try:
                case(Database(program_of(arguments[0]), Path(place) / case.__name__))
            except (Failure, OSError, subprocess.SubprocessError) as failure:
                failures.append(f"doubts.py: {case.__name__}: {failure}")
    if failures or not cases:
        sys.exit("\n".join(failures) or "doubts.py: no case has this name")
    print(f"ok doubts: {len(cases)} spoiled folders are not trusted more than they deserve")


if __name__ == "__main__":
    main(sys.argv[1:])
