"""Backs up, verifies and renews databases in folders, and looks at what is left.

usage: python3 -m checks.folders PROGRAM

A backup makes a checkpoint and a copy, on the newest one if there is one, and fills a second folder, from which the
chain restores, and whose manifest is that of its files; there it replaces no file of another database, no newer log and
no other copy. It gives 1,024 numbers to copies, and no more. `verify` tells each copy, and each file that a manifest
names, and finds a flipped bit, with a manifest and without one. A renewed database has the committed numbers of the old
one, also where a transaction was open there, and where its pages are many; it has an empty log but for these, a copy and
a manifest; the old folder is not changed. One that was not closed, or whose log knows of less than what stands beside it,
is not renewed, nor is one whose numbers need more than half of a log. What is refused leaves nothing, and says why.
Streams that are full or closed harm no file. A log that loses its name while it is open has no commit answered for it.
"""

import fcntl
import hashlib
import os
import shutil
import struct
import subprocess
import sys
import tempfile
from pathlib import Path

from checks.bank_files import Failure, memory_place, program_of
from checks.manifest_text import head_of, is_manifest_of, misnamed
from model.log_format import BEGIN, COMMIT, Record, encode_header, lsn_of

MOST_SECONDS = 120
PAGES = 3
FIRST = ["begin", "set 1 0 0 5", "set 1 2 61 18446744073709551615", "commit 1"]
SECOND = ["begin", "add 2 0 0 7", "set 2 1 3 9", "commit 2", "begin", "set 3 1 4 1", "force"]
NUMBERS = {(0, 0): 12, (1, 3): 9, (2, 61): 18446744073709551615}
OTHER = "this is of another database, or newer: name another folder"
NOT_THERE = "No such file or directory (os error 2)"
# A log takes so many records. One with nine tenths of them is told to be nearly full; it has so many pages.
MOST_RECORDS, NEARLY_FULL, MANY_PAGES, SLOTS = 1_048_576, 943_719, 16_384, 62
MOST_COPIES = 1_024


class Folders:
    """The program, a place for folders, and how often a check went well."""

    def __init__(self, program, place):
        self.program, self.place, self.checks = program, place, 0

    def run(self, *words, lines=None):
        data = b"" if lines is None else "".join(f"{line}\n" for line in lines).encode()
        return subprocess.run([self.program, *words], input=data, capture_output=True, timeout=MOST_SECONDS)

    def made(self, name, *lives):
        """A folder with a database that had these lives."""
        folder = self.place / name
        folder.mkdir()
        for lines in lives:
            done = self.run("open", folder, "--pages", str(PAGES), lines=lines)
            self.wants("a life", done.returncode == 0, done)
        return folder

    def copied(self, folder, name):
        """A copy of a folder."""
        return Path(shutil.copytree(folder, self.place / name))

    def wants(self, what, is_so, done):
        if not is_so:
            raise Failure(f"{what}: status {done.returncode}, {done.stdout!r:.600}, {done.stderr!r:.400}")
        self.checks += 1

    def says(self, what, done, status, output, *lines):
        """How a command ended, and all that it said."""
        error = "".join(f"{line}\n" for line in lines)
        self.wants(what, (done.returncode, done.stdout.decode(), done.stderr.decode()) == (status, output, error), done)


def sums_of(folder):
    """What each file of a folder has; None stands for what is no file."""
    return {it.name: hashlib.sha256(it.read_bytes()).hexdigest() if it.is_file() else None for it in folder.iterdir()}


def files_of(folder):
    return {it.name: it.read_bytes() for it in folder.iterdir() if it.is_file()}


def numbers_in(folders, volume):
    """The slots of a volume that are not 0."""
    done = folders.run("show", volume)
    found = {}
    for line in done.stdout.decode().splitlines()[1:]:
        words = line.split()
        for word in words[4:]:
            slot, number = word.split("=")
            found[int(words[1]), int(slot)] = int(number)
    return found


def restored(folders, folder, *copies):
    """The numbers of the volume that a chain restores."""
    volume = folders.place / "restored"
    volume.unlink(missing_ok=True)
    done = folders.run("restore", "-o", volume, folder / "log", folder / "master", *(folder / it for it in copies))
    folders.wants("a restore", done.returncode == 0, done)
    return numbers_in(folders, volume)


def split_manifest(folder):
    """The manifest of a closed database, and the files that it is to name."""
    files = files_of(folder)
    return files["manifest"], {name: it for name, it in files.items() if name not in ("volume", "closed", "manifest")}


def backups(folders):
    folder = folders.made("shop", FIRST)
    done = folders.run("backup", folder)
    folders.says("a first backup", done, 0, "point 320 384 320\ncopy 1 pages 3 taken 3\n")
    folders.wants("its numbers", restored(folders, folder, "copy-1") == {(0, 0): 5, (2, 61): NUMBERS[2, 61]}, done)
    folders.run("open", folder, lines=SECOND)
    away = folders.place / "away"
    away.mkdir()
    done = folders.run("backup", folder, "--into", away)
    folders.wants("a second backup", done.returncode == 0 and done.stdout.endswith(b"copy 2 pages 3 taken 2\n"), done)
    folders.wants("the second folder", sorted(sums_of(away)) == ["copy-1", "copy-2", "log", "manifest", "master"], done)
    there, here = sums_of(folder), sums_of(away)
    folders.wants("its files", all(there[name] == it for name, it in here.items() if name != "manifest"), done)
    heads = {head_of((it / "manifest").read_bytes()) for it in (folder, away)}
    are_right = all(is_manifest_of(*split_manifest(it)) for it in (folder, away))
    folders.wants("both manifests", len(heads) == 1 and are_right, done)
    folders.wants("its numbers", restored(folders, away, "copy-1", "copy-2") == NUMBERS, done)
    done = folders.run("backup", folder, "--full")
    folders.wants("a full backup", done.returncode == 0 and restored(folders, folder, "copy-3") == NUMBERS, done)
    # What a backup that was killed left is removed.
    for name in ("log.unfinished-1", "copy-2.unfinished-3", "log.unfinished-x"):
        (away / name).write_bytes(b"a part of it")
    done = folders.run("backup", folder, "--on", "1", "--into", away)
    unfinished = [name for name in sums_of(away) if ".unfinished-" in name]
    folders.wants("unfinished files of an older backup", unfinished == ["log.unfinished-x"], done)
    (away / "log.unfinished-x").unlink()
    folders.wants("a backup on a copy", restored(folders, away, "copy-1", "copy-4") == NUMBERS, done)
    done = folders.run("verify", folder)
    wanted = [f"{name} sound" for name in ("copy-1", "copy-2", "copy-3", "copy-4", "log", "master")]
    copies = [f"copy {number} sound" for number in range(1, 5)]
    told = done.stdout.decode().splitlines()
    folders.wants("files and copies are verified",
                  done.returncode == 0 and sorted(told[:-4]) == wanted and told[-4:] == copies, done)
    return folder, away


def backups_refused(folders, folder):
    done = folders.run("backup", folder, "--full", "--on", "1")
    is_told = done.stderr.decode().splitlines()[0] == "error: the argument '--on <N>' cannot be used with '--full'"
    folders.wants("--full beside --on", done.returncode == 2 and is_told and not done.stdout, done)
    copies = sorted(sums_of(folder))
    done = folders.run("backup", folder, "--on", "9")
    is_refused = done.returncode == 2 and done.stdout.endswith(b"\nE17 NoCopy\n") and not done.stderr
    folders.wants("a copy that is not there", is_refused and sorted(sums_of(folder)) == copies, done)
    nowhere = folders.place / "nowhere"
    folders.says("no folder", folders.run("backup", nowhere), 2, "", "E33 ReadFault", f"imgcopy: {nowhere}: {NOT_THERE}")
    empty = folders.place / "empty"
    empty.mkdir()
    folders.wants("an empty folder", folders.run("backup", empty).returncode == 2 and not sums_of(empty), done)
    refused_streams(folders, folder)


def refused_streams(folders, folder):
    """An output that takes nothing, and streams that are closed: a file of the database must not get their numbers."""
    folder = folders.copied(folder, "streams")
    before, numbers = sorted(sums_of(folder)), numbers_in(folders, folder / "volume")
    with open("/dev/full", "wb") as full:
        done = subprocess.run([folders.program, "backup", folder], stdout=full, stderr=subprocess.PIPE, timeout=MOST_SECONDS)
    why = b"E29 WriteFault 0\nimgcopy: standard output: No space left on device (os error 28)\n"
    is_told = (done.returncode, done.stderr) == (2, why)
    folders.wants("an output that is full", is_told and sorted(sums_of(folder)) == before, done)
    for command, words in (("backup", [folder]), ("renew", [folder, folders.place / "without streams"])):
        words = " ".join(f'"{word}"' for word in words)
        done = subprocess.run(["sh", "-c", f'exec "{folders.program}" {command} {words} <&- >&- 2>&-'], timeout=MOST_SECONDS)
        folders.wants(f"{command} with closed streams", done.returncode == 2 and sorted(sums_of(folder)) == before, done)
        done = folders.run("open", folder)
        is_well = not done.stderr and numbers_in(folders, folder / "volume") == numbers
        folders.wants(f"{command} with closed streams, and then all is well", done.returncode == 0 and is_well, done)


def second_folders(folders, folder, away):
    """What stands in the second folder is of another database, or newer, or no file: it stays as it is. The copy that was
    made is in the first one, which was closed."""
    shop = folders.copied(folder, "shop that is backed up")
    other = folders.made("other", SECOND[:1] + ["set 1 0 0 1", "commit 1"])
    manifest = folders.place / "a manifest alone"
    manifest.mkdir()
    (manifest / "manifest").write_bytes((other / "manifest").read_bytes())
    fork, cut = folders.copied(away, "fork"), folders.copied(away, "manifest that is cut")
    folders.run("open", fork, lines=["begin", "set 4 0 0 1", "commit 4"])
    (cut / "manifest").write_bytes((cut / "manifest").read_bytes()[:-1])
    copy = folders.copied(away, "another copy")
    data = (copy / "copy-1").read_bytes()
    (copy / "copy-1").write_bytes(data[:-1] + bytes([data[-1] ^ 1]))
    no_log = folders.copied(away, "no log")
    (no_log / "log").unlink()
    (no_log / "log").mkdir()
    pipe, master = folders.copied(away, "a pipe"), folders.place / "a master record alone"
    (pipe / "log").unlink()
    os.mkfifo(pipe / "log")
    master.mkdir()
    shutil.copy(away / "master", master)
    nowhere, lines = folders.place / "nowhere", len(files_of(away)["manifest"].splitlines())
    for into, name, *told in ((other, "manifest", OTHER), (manifest, "manifest", OTHER), (fork, "log", OTHER),
                              (master, "master", OTHER), (pipe, "log", "E33 ReadFault", "this is no regular file"),
                              (copy, "copy-1", OTHER), (no_log, "log", "E33 ReadFault", "this is no regular file"),
                              (cut, "manifest", "E33 ReadFault", f"line {lines}: no sum and name: move it away, and open again;"
                               " the database gets a new name then"),
                              (nowhere, "", "E33 ReadFault", NOT_THERE),
                              (shop, "", "E29 WriteFault 0", "another one has this folder open")):
        before, copies = into.is_dir() and sums_of(into), len(list(shop.glob("copy-*")))
        done = folders.run("backup", shop, "--on", "1", "--into", into)
        place = f"{into}/{name}" if name else f"{into}"
        answers = done.stdout.decode()
        folders.says(f"a second folder: {place}", done, 2, answers, *told[:-1], f"imgcopy: {place}: {told[-1]}")
        is_left = into == shop or (into.is_dir() and sums_of(into)) == before
        is_made = f"copy {copies + 1} pages 3 taken " in answers and len(list(shop.glob("copy-*"))) == copies + 1
        is_closed = (shop / "closed").exists() and not misnamed(files_of(shop))
        folders.wants(f"a second folder stays: {place}", is_left and is_made and is_closed, done)
    newer_folders(folders, folder)
    open_logs(folders, folder)
    a_name_that_leads_elsewhere(folders)
    logs_that_lose_their_name(folders)


def open_logs(folders, folder):
    """The log in the second folder is open by another name, or is that of the first folder, by a link: it stays."""
    shop, away = folders.copied(folder, "shop of the links"), folders.place / "a disk of its own"
    away.mkdir()
    told = ("E29 WriteFault 0", f"imgcopy: {away}/log: another one has this log open")
    (shop / "log").rename(away / "log")
    (shop / "log").symlink_to(away / "log")
    before = sums_of(away)
    done = folders.run("backup", shop, "--full", "--into", away)
    folders.says("a log that two folders have", done, 2, done.stdout.decode(), *told)
    folders.wants("it stays", set(sums_of(away)) == set(before) and (shop / "log").is_symlink(), done)
    (shop / "log").unlink()
    shutil.copy(away / "log", shop / "log")
    before = sums_of(away)
    with open(away / "log", "rb") as held:
        fcntl.flock(held, fcntl.LOCK_EX)
        done = folders.run("backup", shop, "--full", "--into", away)
    folders.says("a log that another one has open", done, 2, done.stdout.decode(), *told)
    folders.wants("it stays, too", sums_of(away) == before, done)
    done = folders.run("backup", shop, "--full", "--into", away)
    folders.wants("a log that is closed", done.returncode == 0, done)


def a_name_that_leads_elsewhere(folders):
    """While a database is open, the name of its folder comes to mean another one: that one's files stay, the call is
    answered that its file is not in place, and the next opening has each commit."""
    here, there = folders.made("here", FIRST + ["copy"]), folders.made("there", SECOND[:1] + ["set 1 0 0 1", "commit 1", "copy"])
    name, before = folders.place / "a name", sums_of(there)
    name.symlink_to(here)
    life = subprocess.Popen([folders.program, "open", name], stdin=subprocess.PIPE, stdout=subprocess.PIPE,
                            stderr=subprocess.PIPE, text=True)
    life.stdout.readline()
    name.unlink()
    name.symlink_to(there)
    answers, errors = life.communicate("".join(f"{it}\n" for it in [*SECOND[:4], "copy on 1"]))
    told = "".join(f"imgcopy: {name}/{it}: not written: Stale file handle (os error 116)\n" for it in ("master", "manifest", "closed"))
    done = subprocess.CompletedProcess(life.args, life.returncode, answers.encode(), errors.encode())
    folders.wants("a name that leads elsewhere", (life.returncode, errors) == (2, told) and answers.endswith("E29 WriteFault 0\n"), done)
    done = folders.run("open", here, lines=[])
    folders.wants("the folder that has it", done.returncode == 0 and sums_of(there) == before, done)
    folders.wants("its commits", restored(folders, here, "copy-1") == {**NUMBERS}, done)


def logs_that_lose_their_name(folders):
    """While a database is open, its log is removed, replaced or given another name: no force of a file without a name is
    answered as done, and nothing is written that tells of a log which is not there."""
    stale = "Stale file handle (os error 116)"
    lost = ("E26 CommitUnsure 384\nE23 LogFault\n", ["log"] * 3)
    moved = ("lsn 384\nE29 WriteFault 0\n", [f"{it}: not written" for it in ("master", "manifest", "closed")])
    acts = {
        "removed": (lambda log: log.unlink(), lost),
        "replaced": (lambda log: os.replace(shutil.copy(log, log.with_name("x")), log), lost),
        "moved": (lambda log: log.rename(log.with_name("elsewhere")), moved),
    }
    for name, (act, (answer, lines)) in acts.items():
        folder = folders.place / f"a log that is {name}"
        folder.mkdir()
        life = subprocess.Popen([folders.program, "open", folder, "--pages", "1"], stdin=subprocess.PIPE, stdout=subprocess.PIPE,
                                stderr=subprocess.PIPE, text=True)
        life.stdout.readline()
        for line in ("begin", "set 1 0 0 5", "commit 1"):
            print(line, file=life.stdin, flush=True)
            life.stdout.readline()
        act(folder / "log")
        answers, errors = life.communicate("begin\nset 2 0 0 6\ncommit 2\ncopy\n")
        told = "".join(f"imgcopy: {folder}/{it}: {stale}\n" for it in lines)
        done = subprocess.CompletedProcess(life.args, life.returncode, answers.encode(), errors.encode())
        there = {it.name for it in folder.iterdir()} - {"log", "elsewhere", "volume"}
        folders.wants(f"a log that is {name}", answers.endswith(answer) and (life.returncode, errors) == (2, told) and not there, done)


def newer_folders(folders, folder):
    """A log in the second folder goes on where the first one ends."""
    older, newer = folders.copied(folder, "older"), folders.copied(folder, "newer")
    away = folders.place / "away of the newer"
    away.mkdir()
    for _ in range(2):
        done = folders.run("backup", newer, "--full", "--into", away)
        folders.wants("a backup of the newer one", done.returncode == 0, done)
    before = sums_of(away)
    done = folders.run("backup", older, "--full", "--into", away)
    is_beginning = (away / "log").read_bytes().startswith((older / "log").read_bytes())
    is_told = done.stderr.decode() == f"imgcopy: {away}/log: {OTHER}\n"
    folders.wants("a log that is newer", done.returncode == 2 and is_beginning and is_told and sums_of(away) == before, done)


def second_manifests(folders, folder, away):
    """The manifest in the second folder is gone, or a copy that it names is: it names what is there of this chain then."""
    shop, bare = folders.copied(folder, "shop of the manifests"), folders.copied(away, "without a manifest")
    head = head_of((bare / "manifest").read_bytes())
    (bare / "manifest").unlink()
    inode = (bare / "copy-1").stat().st_ino
    done = folders.run("backup", shop, "--on", "1", "--into", bare)
    manifest, files = split_manifest(bare)
    newest = f"copy-{len(list(shop.glob('copy-*')))}"
    named = {name: files[name] for name in ("log", "master", "copy-1", newest)}
    folders.wants("a manifest that was gone", done.returncode == 0 and is_manifest_of(manifest, named)
                  and head_of(manifest) == head and not done.stderr, done)
    folders.wants("a copy that is there stays", (bare / "copy-1").stat().st_ino == inode, done)
    lost = folders.copied(away, "without a copy")
    (lost / "copy-2").unlink()
    done = folders.run("backup", shop, "--full", "--into", lost)
    folders.wants("a copy that is gone", done.returncode == 0 and is_manifest_of(*split_manifest(lost)), done)
    told = f"imgcopy: {lost}/manifest: the line of `copy-2` is dropped\n"
    folders.wants("a copy that is gone, told", done.stderr.decode() == told, done)
    for it in (bare, lost):
        folders.wants("it goes on", folders.run("open", it, lines=["read 0 0"]).stdout.endswith(b"\nvalue 12\n"), done)


def many_copies(folders):
    """A chain of all copies: the last one has the last number, and stands on the one before it."""
    folder = folders.made("many", ["begin", "set 1 0 0 5", "commit 1"])
    lines = ["copy", *(f"copy on {number}" for number in range(1, MOST_COPIES - 1))]
    done = folders.run("open", folder, lines=lines)
    folders.wants("many copies", done.stdout.splitlines()[-1] == b"copy 1023 pages 3 taken 0", done)
    away = folders.place / "many away"
    away.mkdir()
    done = folders.run("backup", folder, "--into", away)
    header = (folder / "copy-1024").read_bytes()[:64]
    is_last = struct.unpack_from("<IIBxxxI", header, 8)[1:] == (1024, 2, 1023)
    is_told = done.stdout.endswith(b"copy 1024 pages 3 taken 0\n")
    folders.wants("the last copy", done.returncode == 0 and is_told and is_last, done)
    names = {f"copy-{number}" for number in range(1, MOST_COPIES + 1)}
    folders.wants("its chain", names < set(sums_of(away)) and not misnamed(files_of(away)), done)
    done = folders.run("backup", folder)
    is_refused = done.returncode == 2 and done.stdout.endswith(b"E25 TooManyCopies\n")
    folders.wants("one copy more", is_refused and (folder / "closed").exists(), done)


def spoiled(folders, folder):
    """A flipped bit, and a copy that lacks the one it stands on."""
    day = folders.place / "day"
    day.mkdir()
    script = [*FIRST, "ckpt", *["gather"] * 6, "endckpt", "full", "take 1 0", "take 1 1", "take 1 2", "seal 1"]
    done = folders.run("run", "--pages", str(PAGES), "--save", day, lines=script)
    folders.wants("a save", done.returncode == 0, done)
    folders.says("a save without a manifest", folders.run("verify", day), 0, "copy 1 sound\n",
                 f"imgcopy: {day}: there is no manifest: the files are not compared")
    done = folders.run("run", "--pages", str(PAGES), "--save", day, "--manifest", lines=script)
    folders.wants("a save with a manifest", done.returncode == 0, done)
    done = folders.run("verify", day)
    is_all = sorted(done.stdout.decode().splitlines()) == ["copy 1 sound", "copy-1 sound", "log sound", "master sound"]
    folders.wants("files are verified", done.returncode == 0 and is_all, done)
    for name in ("log", "master", "copy-1"):
        whole = (day / name).read_bytes()
        for at in (0, len(whole) // 2, len(whole) - 1):
            flipped = bytearray(whole)
            flipped[at] ^= 1
            (day / name).write_bytes(flipped)
            done = folders.run("verify", day)
            line = f"{name} is not the file that the manifest names".encode()
            folders.wants(f"a bit of {name}", done.returncode == 2 and line in done.stdout.splitlines(), done)
        (day / name).write_bytes(whole)
    bare(folders, day)
    cut_behind_closing(folders)
    (folder / "copy-1").rename(folder / "kept")
    done = folders.run("verify", folder)
    folders.wants("a copy that is gone", done.returncode == 2 and b"copy 2 lacks copy 1\n" in done.stdout, done)
    (folder / "kept").rename(folder / "copy-1")


def cut_behind_closing(folders):
    """The log of a closed database loses its last records, of which neither a manifest nor a copy tells."""
    folder = folders.made("noted", [*FIRST, "copy"], ["begin", "set 2 1 3 9", "commit 2"])
    log, noted = (folder / "log").read_bytes(), (folder / "closed").read_bytes()
    verify = ["verify", "--no-manifest", folder]
    whole = folders.run(*verify)
    is_closed = whole.returncode == 0 and not whole.stderr and noted == b"%d\n" % len(log)
    folders.wants("a closed database is verified", is_closed, whole)
    for count in (64, 128):
        (folder / "log").write_bytes(log[:-count])
        line = f"log ends at {len(log) - count}: `closed` says that it ended at {len(log)}\n"
        folders.says(f"{count} bytes less than `closed` says", folders.run(*verify), 2, line + whole.stdout.decode())
        line = f"imgcopy: {folder}/log: ends at {len(log) - count}: `closed` says that it ended at {len(log)}"
        done = folders.run("list", "--no-manifest", folder)
        folders.wants(f"a list of a log with {count} bytes less",
                      (done.returncode, done.stderr.decode().splitlines()) == (2, [line]) and b"copy 1 full" in done.stdout, done)
    (folder / "log").write_bytes(log)
    done = folders.run("list", "--no-manifest", folder)
    folders.wants("a list of a closed database", done.returncode == 0 and not done.stderr, done)
    listed = done.stdout.decode()
    name = f"imgcopy: {folder}/closed"
    for data in (b"", b"0\n", b"064\n", b"+64\n", b"64", b"64\n\n", b"six\n", b"\xff\n", b"18446744073709551616\n",
                 noted + b"\n" * 40):
        (folder / "closed").write_bytes(data)
        folders.says(f"a note {data[:20]!r}", folders.run(*verify), 0, whole.stdout.decode(),
                     f"{name}: this is no note of a closing")
        folders.says(f"a list beside a note {data[:20]!r}", folders.run("list", "--no-manifest", folder), 0, listed,
                     f"{name}: this is no note of a closing")
    (folder / "closed").write_bytes(b"18446744073709551615\n")
    line = f"log ends at {len(log)}: `closed` says that it ended at 18446744073709551615\n"
    folders.says("a note of a long log", folders.run(*verify), 2, line + whole.stdout.decode())
    (folder / "closed").write_bytes(b"64\n")
    folders.says("a note of a shorter log", folders.run(*verify), 0, whole.stdout.decode())
    (folder / "closed").unlink()
    folders.says("no note", folders.run(*verify), 0, whole.stdout.decode())
    for make in ((folder / "closed").mkdir, lambda: os.mkfifo(folder / "closed"),
                 lambda: (folder / "closed").symlink_to("nothing")):
        make()
        folders.says("a note that is no file", folders.run(*verify), 2, whole.stdout.decode(), "E33 ReadFault",
                     f"{name}: this is no regular file")
        folders.says("a list beside a note that is no file", folders.run("list", "--no-manifest", folder), 2, listed,
                     "E33 ReadFault", f"{name}: this is no regular file")
        (folder / "closed").rmdir() if (folder / "closed").is_dir() else (folder / "closed").unlink()
    (folder / "closed").write_bytes(noted)


def without_copies(folders):
    """Where a folder has no copy its log is read."""
    folder = folders.place / "nothing"
    folder.mkdir()
    none = f"imgcopy: {folder}: there is no manifest: the files are not compared"
    folders.says("an empty folder", folders.run("verify", folder), 2, "", none, "E33 ReadFault",
                 f"imgcopy: {folder}/log: {NOT_THERE}")
    (folder / "log").write_bytes(bytes(range(200)))
    folders.says("a log that is none", folders.run("verify", folder), 2, "", none, "E30 BadHeader",
                 f"imgcopy: {folder}/log: begins like no file of imgcopy")
    day = folders.made("no copies", FIRST)
    done = folders.run("verify", day)
    folders.wants("a database without copies", done.returncode == 0 and not done.stderr, done)
    log = bytearray((day / "log").read_bytes())
    log[64] = 99
    (day / "log").write_bytes(log)
    done = folders.run("verify", "--no-manifest", day)
    folders.wants("a record that is none", done.returncode == 2 and b"E31 BadRecord 64\n" in done.stderr, done)


def bare(folders, day):
    """Without a manifest the audit of a copy, its header and the master record count alone."""
    copy, master = (day / "copy-1").read_bytes(), (day / "master").read_bytes()
    verify = ["verify", "--no-manifest", day]
    folders.says("no manifest", folders.run(*verify), 0, "copy 1 sound\n")
    (day / "copy-1").write_bytes(copy[:-1] + bytes([copy[-1] ^ 1]))
    folders.says("another number, and no manifest", folders.run(*verify), 2, "copy 1: E41 Unsound 1 2\n")
    (day / "copy-1").write_bytes(b"x" + copy[1:])
    done = folders.run(*verify)
    folders.wants("no header, and no manifest", (done.returncode, done.stdout) == (2, b"") and b"copy-1" in done.stderr, done)
    (day / "copy-1").write_bytes(copy)
    (day / "master").write_bytes(bytes(64))
    done = folders.run(*verify)
    first, _, rest = done.stdout.partition(b"\n")
    is_told = first.startswith(b"master: E") and rest == b"copy 1 sound\n"
    folders.wants("no master record, and no manifest", done.returncode == 2 and is_told, done)
    (day / "master").unlink()
    (day / "master").mkdir()
    done = folders.run("verify", day)
    folders.wants("a folder as the master record",
                  done.returncode == 2 and b"master is not the file that the manifest names" in done.stdout.splitlines(), done)
    (day / "master").rmdir()
    os.mkfifo(day / "master")
    folders.says("a pipe as the master record", folders.run(*verify), 2, "master: E33 ReadFault\ncopy 1 sound\n")
    (day / "master").unlink()
    (day / "master").write_bytes(master)


def renewals(folders):
    old = folders.made("old", FIRST, SECOND)
    before = sums_of(old)
    new = folders.place / "new"
    done = folders.run("renew", old, new)
    folders.says("a renewal", done, 0, "point 384 448 384\ncopy 1 pages 3 taken 3\n")
    folders.wants("the old folder", sums_of(old) == before, done)
    folders.wants("its name", not (folders.place / "new.unfinished-1").exists(), done)
    folders.wants("its numbers", numbers_in(folders, new / "volume") == NUMBERS, done)
    folders.wants("its copy", restored(folders, new, "copy-1") == NUMBERS, done)
    files = files_of(new)
    folders.wants("its files", sorted(files) == ["closed", "copy-1", "log", "manifest", "master", "volume"]
                  and files["closed"] == b"512\n" and is_manifest_of(*split_manifest(new)), done)
    folders.wants("the name of its database", head_of(files["manifest"]) != head_of(files_of(old)["manifest"]), done)
    log = folders.run("list", new)
    folders.wants("no transaction is open", b" open" not in log.stdout or b"open 0" in log.stdout, log)
    done = folders.run("open", new, lines=["read 0 0", "read 1 4"])
    folders.wants("it goes on", done.stdout.splitlines()[1:] == [b"value 12", b"value 0"], done)
    names_that_are_taken(folders, old)
    many_pages(folders)
    renewals_refused(folders, old)


def names_that_are_taken(folders, old):
    """What has the new folder's name, or the one that it has until it is whole, stays, and nothing is made."""
    before = sums_of(old)
    (folders.place / "folder").mkdir()
    (folders.place / "file").write_bytes(b"of somebody else")
    (folders.place / "link").symlink_to("leads nowhere")
    (folders.place / "late.unfinished-1").mkdir()
    for taken in ("new", "folder", "file", "link", "late.unfinished-1"):
        names = sorted(it.name for it in folders.place.iterdir())
        done = folders.run("renew", old, folders.place / taken.removesuffix(".unfinished-1"))
        folders.says(f"a name that is taken: {taken}", done, 2, "", f"imgcopy: {folders.place}: `{taken}` is there: name a"
                     " folder that is not, or move this one away")
        folders.wants(f"nothing is made beside {taken}", names == sorted(it.name for it in folders.place.iterdir()), done)
    folders.wants("what stands there stays", not any((folders.place / "folder").iterdir())
                  and not any((folders.place / "late.unfinished-1").iterdir())
                  and (folders.place / "file").read_bytes() == b"of somebody else" and sums_of(old) == before, done)
    for name in ("", "/"):
        done = folders.run("renew", old, name)
        is_told = done.stderr.decode().endswith(f"imgcopy: {name}: this names no folder\n")
        folders.wants(f"{name!r} as a name", done.returncode == 2 and is_told and not done.stdout, done)
    nowhere = folders.place / "nowhere"
    folders.says("no folder for it", folders.run("renew", old, nowhere / "new"), 2, "", "E29 WriteFault 0",
                 f"imgcopy: {nowhere}: {NOT_THERE}")
    done = folders.run("renew", old, f"{folders.place}/slashes//")
    folders.wants("a name with slashes behind it", done.returncode == 0 and (folders.place / "slashes" / "log").exists(), done)


def many_pages(folders):
    """Pages 64 to 127 have no number, and one transaction fills no more than 64 pages; the volume has grown. Then one page
    without a number."""
    numbers = {(0, 0): 1, (63, 61): 2, (128, 0): 3, (129, 30): 18446744073709551615}
    sets = [f"set 1 {page} {slot} {number}" for (page, slot), number in numbers.items()]
    old = folders.made("old with many pages", ["extend 130", "begin", *sets, "commit 1"])
    new = folders.place / "new with many pages"
    folders.says("many pages", folders.run("renew", old, new), 0, "point 576 640 576\ncopy 1 pages 130 taken 130\n")
    done = folders.run("show", new / "log")
    folders.wants("the log of many pages", done.stdout.startswith(b"log format 2 pages 130 records 10\n"), done)
    folders.wants("the numbers of many pages", numbers_in(folders, new / "volume") == numbers, done)
    old, new = folders.place / "old with a page", folders.place / "new with a page"
    old.mkdir()
    folders.run("open", old, "--pages", "1")
    folders.says("one page", folders.run("renew", old, new), 0, "point 64 128 64\ncopy 1 pages 1 taken 1\n")


def renewals_refused(folders, old):
    """What was not closed, or lacks what was forced, is left as it is, and nothing is made."""
    files = files_of(old)
    log, end = files["log"], len(files["log"])
    unclosed = "it was not closed: open it once, and end its input"
    # The last byte of the number of the record at 128 is another one, and it is a record as before.
    changed = log[:128 + 47] + b"x" + log[128 + 48:]
    for what, other, told in (
            ("no note", {"closed": None}, [unclosed]), ("a note of less", {"closed": b"128\n"}, [unclosed]),
            ("bytes behind the log", {"log": log + b"x"}, [unclosed]),
            ("a record less", {"log": log[:-64]}, [f"`closed` says that the log ended at {end}",
                                                   f"`manifest` says that the log was forced to {end}"]),
            ("a record less, and a note of that", {"log": log[:-64], "closed": b"%d\n" % (end - 64)},
             [f"`manifest` says that the log was forced to {end}"]),
            ("another number", {"log": changed}, [f"`manifest` has another sum of the bytes of the log before {end}"]),
            ("no log", {"log": None}, ["E33 ReadFault", "closed: this is there, but no log"]),
            ("an empty folder", {name: None for name in files}, ["log: there is no log"]),
            ("a manifest that is cut", {"manifest": files["manifest"][:-1]}, ["E33 ReadFault", "manifest: line "])):
        folder, new = folders.place / f"with {what}", folders.place / "refused"
        folder.mkdir()
        for name, data in (files | other).items():
            if data is not None:
                (folder / name).write_bytes(data)
        before, names = sums_of(folder), sorted(it.name for it in folders.place.iterdir())
        done = folders.run("renew", folder, new)
        is_told = all(line in done.stderr.decode() for line in told)
        is_left = sums_of(folder) == before and names == sorted(it.name for it in folders.place.iterdir())
        folders.wants(f"a renewal: {what}", done.returncode == 2 and not done.stdout and is_told and is_left, done)
    nowhere = folders.place / "nowhere"
    folders.says("no folder", folders.run("renew", nowhere, new), 2, "", "E33 ReadFault", f"imgcopy: {nowhere}: {NOT_THERE}")
    closed = folders.made("one that is closed", FIRST)
    first = subprocess.Popen([folders.program, "open", old], stdin=subprocess.PIPE, stdout=subprocess.PIPE)
    first.stdout.readline()
    for words in (["renew", old, new], ["backup", old], ["renew", closed, old / "new"]):
        folders.says("one that is open", folders.run(*words), 2, "", "E29 WriteFault 0",
                     f"imgcopy: {old}: another one has this folder open")
    first.communicate(b"")
    folders.wants("nothing is put into it", not list(old.glob("new*")), done)
    (closed / "log").unlink()
    os.mkfifo(closed / "log")
    folders.says("a log that is a pipe", folders.run("renew", closed, new), 2, "", "E33 ReadFault",
                 f"imgcopy: {closed}/log: this is no regular file")


def a_log_that_is_nearly_full(folders):
    """Its numbers need more than half of a log. It is told once nine tenths of the records are there."""
    folder, log, count = folders.place / "nearly full", *log_of_adds(NEARLY_FULL - 1)
    folder.mkdir()
    (folder / "log").write_bytes(log)
    end = lsn_of(NEARLY_FULL - 1)
    done = folders.run("open", folder, lines=["read 0 0", f"extend {MANY_PAGES + 1}"])
    folders.says("a log with a little less", done, 0, f"restarted: log cut at {end}, 0 transactions taken back,"
                 f" {NEARLY_FULL - 1} records\nvalue 7\nlsn {end}\n")
    done = folders.run("open", folder)
    left = MOST_RECORDS - NEARLY_FULL
    folders.wants("a log that is nearly full", done.returncode == 0 and done.stderr.decode() ==
                  f"imgcopy: {folder}/log: nine tenths of it are used: it takes {left} more records\n", done)
    needed = count + 2 * -(-count // (SLOTS * 64))
    folders.says("numbers that need too much", folders.run("renew", folder, folders.place / "too full"), 2, "",
                 f"imgcopy: {folder}/volume: its numbers need {needed} records, and {MOST_RECORDS // 2} is half of a log")
    folders.wants("nothing is made", not list(folders.place.glob("too full*")), done)


def log_of_adds(count):
    """A log of so many records: transactions of 1,000 records and one of fewer, which add 7 to a slot each time, to none
    of them twice. And how many slots these are."""
    update, pieces, slots = struct.Struct("<I I Q Q I H H Q Q Q Q"), [encode_header(MANY_PAGES)], 0
    for txn, first in enumerate(range(0, count, 1000), start=1):
        last = min(first + 1000, count) - 1
        pieces.append(Record(BEGIN, txn, lsn=lsn_of(first)).encode())
        for index in range(first + 1, last):
            pieces.append(update.pack(2, txn, lsn_of(index - 1), 0, slots // SLOTS, slots % SLOTS, 2, 0, 7, 0, lsn_of(index)))
            slots += 1
        pieces.append(Record(COMMIT, txn, lsn_of(last - 1), lsn=lsn_of(last)).encode())
    return b"".join(pieces), slots


def main(arguments):
    try:
        if len(arguments) != 1:
            raise Failure("usage: python3 -m checks.folders PROGRAM")
        with tempfile.TemporaryDirectory(dir=memory_place()) as place:
            folders = Folders(program_of(arguments[0]), Path(place))
            folder, away = backups(folders)
            backups_refused(folders, folder)
            second_folders(folders, folder, away)
            second_manifests(folders, folder, away)
            many_copies(folders)
            spoiled(folders, folder)
            without_copies(folders)
            renewals(folders)
            a_log_that_is_nearly_full(folders)
    except (Failure, OSError, subprocess.SubprocessError) as failure:
        sys.exit(f"folders.py: {failure}")
    print(f"ok folders: {folders.checks} backups, verifications and renewals are as they should be")


if __name__ == "__main__":
    main(sys.argv[1:])
