"""Copies and restores the largest volume, and looks at the memory that commands take.

usage: python3 -m checks.sizes PROGRAM LIBRARY

LIBRARY is most_memory.rs, built. A volume of 65,536 pages gets a full copy and an incremental one, of which every page is
decided. Their files are audited and restored, and a folder is opened that has such a volume: a body that gives up at many
pages would be found. Before that it is looked how much memory each command asks for at one time, whether it writes there
or not, and how much of it the process has:

- On a volume of one page: a body that makes room for the largest volume, or for the longest log, would be found. The
  commands that have an engine may make the room that DECISIONS.md tells of, and have no more of it in memory than they use.
- Where an archive of one page says that it has 65,536, or is of a volume of so many: no room is made for pages that do not
  come.
- Where a file of a folder has 256 MiB: no more of it is read than the longest log has twice.
- On a volume of 65,536 pages of which one has changed: those that read the log have the volume once in memory.
"""

import os
import shutil
import subprocess
import sys
import tempfile
from pathlib import Path
from typing import NamedTuple

from model.recovery import ARCHIVE, FULL, INCREMENTAL, encode_pages
from model.scripts import run as run_model

MOST_PAGES = 65_536
CHANGED = (0, 300, 40_000, MOST_PAGES - 1)
# How many KiB of its heap a command may have at one time that works on a volume of one page. It has buffers for its
# files, of 64 and of 256 KiB. Room for something of each of 65,536 pages takes 4 MiB where that has 64 bytes, their bytes
# take 32, and the longest log 64: each is more than this.
SMALL = 1_024
# What the store in memory and the pool of an engine make room for as it begins, in KiB: the bytes of each page, and 128
# more for its states, and for two entries of the map in which its frame is found.
MADE_AHEAD = 65_536 * (512 + 128) // 1_024
ENGINES = ("run", "open", "backup", "renew")
# How many KiB a process may have in memory. It has some 2,000 with its libraries.
IN_MEMORY = 8_192
# Of a file that is longer than any file of a database as many KiB are read as the longest log has twice.
LONG, READ_AT_MOST = 2**28, 2 * 65_536 + SMALL
# What is kept of each page while a log is read: its bytes, and 64 more.
ONE_VOLUME = 65_536 * (512 + 64) // 1_024 + SMALL


class Failure(Exception):
    """What differs, in one line."""


def text_of(lines):
    return "".join(f"{line}\n" for line in lines).encode()


def life(pages, changed):
    """A full copy of all pages, changes of some, which are written, and an incremental copy of all pages."""
    yield from ("ckpt", "gather", "gather", "endckpt", "full")
    yield from (f"take 1 {page}" for page in range(pages))
    yield from ("seal 1", "begin", *(f"set 1 {page} 0 {page + 7}" for page in changed), "commit 1")
    yield from (f"{word} {page}" for page in changed for word in ("wbegin", "wend"))
    yield from ("ckpt", "gather", "gather", "endckpt", "inc 1")
    yield from (f"take 2 {page}" for page in range(pages))
    yield "seal 2"


def answer(words, folder, given=b"", status=0):
    """What a command prints on standard output."""
    ran = subprocess.run(words, cwd=folder, input=given, stdout=subprocess.PIPE, stderr=subprocess.PIPE, check=False)
    if ran.returncode != status:
        raise Failure(f"{words[1:]}: status {ran.returncode}, and not {status}: {ran.stderr[:200]!r}")
    return ran.stdout


def same(what, found, wanted):
    if found != wanted:
        at = next((i for i, (a, b) in enumerate(zip(found, wanted)) if a != b), min(len(found), len(wanted)))
        raise Failure(f"{what}: {len(found)} bytes, and not the {len(wanted)} wanted, from byte {at} on")


def largest(program, folder):
    """The largest volume, in memory and in files."""
    script = text_of([*life(MOST_PAGES, CHANGED), "restore 2 all"])
    model = run_model(script, MOST_PAGES)
    saved = folder / "saved-all"
    saved.mkdir()
    said = answer([program, "run", "--pages", str(MOST_PAGES), "--save", "saved-all"], folder, script)
    same("the replies", said, model.answer.output)
    if f"sealed {MOST_PAGES}\n".encode() not in said or f"sealed {len(CHANGED)}\n".encode() not in said:
        raise Failure("the copies have not the pages that they should have")
    volume = encode_pages(model.engine.restore(2))
    for name, wanted in model.files.items():
        same(name, (saved / name).read_bytes(), wanted)
    same("the volume", answer([program, "restore", "log", "master", "copy-1", "copy-2"], saved), volume)
    same("the audit", answer([program, "audit", "log", "copy-1", "copy-2"], saved), b"sound\n")
    same("redo", answer([program, "redo"], saved, (saved / "log").read_bytes()), volume)
    lives = [*life(MOST_PAGES, CHANGED), f"read {MOST_PAGES - 1} 0"]
    (folder / "open").mkdir()
    said = answer([program, "open", "open", "--pages", str(MOST_PAGES)], folder, text_of(lives))
    if not said.endswith(f"sealed {len(CHANGED)}\nvalue {MOST_PAGES + 6}\n".encode()):
        raise Failure(f"open: it ends with {said[-80:]!r}")
    said = answer([program, "open", "open"], folder, f"read {CHANGED[1]} 0\ninc 2\n".encode())
    if not said.endswith(f"value {CHANGED[1] + 7}\ncopy 3\n".encode()):
        raise Failure(f"opened again: it ends with {said[-80:]!r}")
    same("the volume of an open database", (folder / "open" / "volume").read_bytes(), volume)


class Memory(NamedTuple):
    """How many KiB of its heap a command had at most at one time, how many the process had in memory, and how it ended."""

    asked: int
    there: int
    done: subprocess.CompletedProcess


class Meter:
    """Runs commands, and looks at the memory that they take."""

    def __init__(self, program, library, folder):
        self.program, self.library, self.folder, self.used = program, library, folder, {}

    def run(self, words, given=b""):
        told, telling = os.pipe()
        variables = os.environ | {"LD_PRELOAD": self.library, "MEMORY_REPORT": str(telling)}
        done = subprocess.run([self.program, *words], cwd=self.folder, input=given, capture_output=True, check=False,
                              env=variables, pass_fds=(telling,))
        os.close(telling)
        with open(told, "rb") as report:
            counts = report.read().split()
        if not counts:
            raise Failure(f"{words}: it tells no memory, status {done.returncode}: {done.stderr[:200]!r}")
        return Memory((int(counts[0]) + 1023) // 1024, int(counts[1]), done)

    def small(self, what, words, given=b"", status=0, wanted=b"", most=SMALL):
        """A command whose input is small. It ends with this status, and prints what is wanted."""
        used = self.run(words, given)
        if used.done.returncode != status or wanted not in used.done.stdout:
            raise Failure(f"{what}: status {used.done.returncode}: {used.done.stdout[-200:]!r} {used.done.stderr[:200]!r}")
        self.see(what, used, most + MADE_AHEAD * (words[0] in ENGINES), IN_MEMORY)

    def see(self, what, used, most, most_there):
        self.used[what] = used.asked
        if used.asked > most or used.there > most_there:
            raise Failure(f"{what}: it asks for {used.asked} KiB, and not at most {most}, and has {used.there} in memory, and"
                          f" not at most {most_there}")


def smallest(meter):
    """Each command, on a volume of one page."""
    for name in ("saved", "one", "away"):
        (meter.folder / name).mkdir()
    calls, files = text_of([*life(1, (0,)), "repair 1 0"]), [f"saved/{name}" for name in ("log", "master", "copy-1", "copy-2")]
    meter.small("run", ["run", "--pages", "1", "--save", "saved"], text_of([*life(1, (0,)), "repair 1 0", "restore 2 all"]),
                wanted=b"repaired")
    log = (meter.folder / "saved" / "log").read_bytes()
    meter.small("redo", ["redo"], log)
    meter.small("redo -o", ["redo", "-o", "redone"], log)
    meter.small("restore", ["restore", *files])
    meter.small("restore -o --log-out", ["restore", "-o", "restored", "--log-out", "after", *files])
    meter.small("restore --until", ["restore", "--until", "128", *files[:3]])
    meter.small("audit", ["audit", files[0], *files[2:]], wanted=b"sound")
    meter.small("audit --all --master", ["audit", "--all", "--master", files[1], files[0], *files[2:]], wanted=b"sound")
    for name in ("log", "master", "copy-1"):
        meter.small(f"show {name}", ["show", f"saved/{name}"])
    meter.small("list", ["list", "saved"], wanted=b"whole")
    meter.small("open", ["open", "one", "--pages", "1"], calls, wanted=b"repaired")
    meter.small("open again", ["open", "one"], b"copy on 2\n", wanted=b"copy 3")
    meter.small("open --frames", ["open", "one", "--frames", "1"], b"checkpoint\n", wanted=b"point")
    meter.small("restore of a folder", ["restore", "one", "-o", "restored"])
    meter.small("backup --into", ["backup", "one", "--into", "away"], wanted=b"copy 4")
    meter.small("backup --into again", ["backup", "one", "--into", "away"], wanted=b"copy 5")
    meter.small("verify", ["verify", "away"], wanted=b"copy 5 sound")
    meter.small("renew", ["renew", "one", "new"], wanted=b"copy 1")
    if not any(meter.used.values()):
        raise Failure("no memory was seen: the program has an allocator of its own")


def promising(meter):
    """An archive says that it has 65,536 pages, or that it took one of so many, and has one."""
    header = list(ARCHIVE.unpack((meter.folder / "saved" / "copy-1").read_bytes()[:ARCHIVE.size]))
    page = (meter.folder / "saved" / "copy-1").read_bytes()[ARCHIVE.size:]
    for what, number, kind, parent, taken in (("a full copy", 1, FULL, 0, MOST_PAGES),
                                              ("an incremental copy", 3, INCREMENTAL, 1, MOST_PAGES),
                                              ("an incremental copy of one page", 3, INCREMENTAL, 1, 1)):
        header[1:5], header[7] = (MOST_PAGES, number, kind, parent), taken
        (meter.folder / "saved" / f"copy-{number}").write_bytes(ARCHIVE.pack(*header) + page)
        chain = [f"saved/copy-{it}" for it in sorted({1, number})]
        meter.small(f"restore of {what}", ["restore", "saved/log", "saved/master", *chain], status=1)
        meter.small(f"audit of {what}", ["audit", "saved/log", *chain], status=1, wanted=b"E37")
        meter.small(f"show of {what}", ["show", chain[-1]], status=0 if taken == 1 else 2)
        meter.small(f"list of {what}", ["list", "saved"], status=2)
        meter.small(f"restore of {what} in a folder", ["restore", "saved", "-o", "restored"], status=1)
        shutil.copy(meter.folder / chain[-1], meter.folder / "one")
        meter.small(f"open beside {what}", ["open", "one"], wanted=b"restarted")
        shutil.copy(meter.folder / "away" / "copy-1", meter.folder / "saved")


def long_files(meter):
    """A file of a folder has 256 MiB, of which the disk has almost none."""
    for name in ("log", "master", "manifest", "closed", "copy-1", "volume"):
        for words in (["open", "big"], ["backup", "big"], ["renew", "big", "newer"], ["verify", "big"], ["list", "big"],
                      ["restore", "big", "-o", "restored"], ["show", f"big/{name}"],
                      ["audit", "--no-manifest", "big/log", "big/copy-1"],
                      ["restore", "--no-manifest", "-o", "restored", "big/log", "big/master", "big/copy-1"]):
            for folder in ("big", "newer"):
                shutil.rmtree(meter.folder / folder, ignore_errors=True)
            shutil.copytree(meter.folder / "new", meter.folder / "big")
            os.truncate(meter.folder / "big" / name, LONG)
            used = meter.run(words)
            engine = MADE_AHEAD * (words[0] in ENGINES)
            meter.see(f"{words[0]} where {name} has 256 MiB", used, READ_AT_MOST + engine, READ_AT_MOST // 2 + IN_MEMORY)


def one_volume(meter):
    """A volume of 65,536 pages, one of which has changed. Its log has few records."""
    (meter.folder / "large").mkdir()
    text = text_of(["begin", f"set 1 {MOST_PAGES - 1} 0 7", "commit 1", "checkpoint"])
    meter.run(["open", "large", "--pages", str(MOST_PAGES)], text)
    meter.run(["backup", "large"])
    log = (meter.folder / "large" / "log").read_bytes()
    for words, given in ((["redo"], log), (["show", "large/log"], b""), (["list", "large"], b""), (["verify", "large"], b""),
                         (["audit", "large/log", "large/copy-1"], b""), (["restore", "large", "-o", "restored"], b"")):
        used = meter.run(words, given)
        if used.done.returncode:
            raise Failure(f"{words}: status {used.done.returncode}: {used.done.stderr[:200]!r}")
        meter.see(f"{words[0]} of 65,536 pages", used, ONE_VOLUME, ONE_VOLUME + IN_MEMORY)


def main(program, library):
    program, library = str(Path(program).resolve()), str(Path(library).resolve())
    with tempfile.TemporaryDirectory() as name:
        folder = Path(name)
        meter = Meter(program, library, folder)
        smallest(meter)
        told = ", ".join(f"{name} {count}" for name, count in meter.used.items())
        promising(meter)
        one_volume(meter)
        long_files(meter)
        largest(program, folder)
    print(f"ok sizes: {MOST_PAGES} pages copied, restored and opened; KiB of {len(meter.used)} commands, on one page: {told}")


if __name__ == "__main__":
    if len(sys.argv) != 3:
        sys.exit(__doc__)
    try:
        main(*sys.argv[1:])
    except Failure as failure:
        sys.exit(str(failure))
