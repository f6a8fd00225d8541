"""Has files changed beside a manifest, and compares manifests with the sums of Python's hashlib.

usage: python3 -m checks.manifests PROGRAM [STEP]

`run --save --manifest` saves two days, of one shape and with other numbers; without --manifest there is none. Each manifest
has to be the text that hashlib makes, and `sha256sum -c` has to accept it. Restores and audits of the unchanged files answer
as they do without a manifest. Then a bit is flipped in each byte of each file, a file of the other day takes the place of the
one of its name, the log is cut at each record, and it grows: nothing may give a volume but a log that has grown beside the
manifest of a database, and no audit may call another file sound. A manifest is cut, flipped, emptied, and taken from the other
day. A smaller folder, whose files and manifest the model makes, has each bit of each file flipped; its manifest stands beside
the files, or elsewhere, as that of a database, and is told by --manifest. With STEP, 1 where none is told, each STEP-th byte or
bit is flipped, and the manifest is cut at each STEP-th byte. Then `list` and `verify` are asked of changed files, and all four
commands are given --no-manifest, and both options at once.

`open` keeps a manifest: behind a clean closing it is that of hashlib but for the order of its lines, and `sha256sum -c`
accepts it; so it is once a line that put a file in place is answered, and the next one. Each bit of the log is flipped, or
each STEP-th one, and the log is cut at each record below the bytes that are named: it is not opened and nothing is touched,
but by --salvage, which keeps the name of the database. Above them it is opened. A manifest that is cut or empty is refused,
and one of another database is told as other bytes; so is one that is misspelled, or no file. Lines of copies that are gone
or not taken up are dropped before the first call. A manifest that names a header alone is taken over by a new database.
"""

import hashlib
import os
import re
import shutil
import subprocess
import sys
import tempfile
from collections import Counter
from concurrent.futures import ThreadPoolExecutor
from pathlib import Path

from checks.bank_files import memory_place
from checks.manifest_text import WrongManifest, head_of, is_manifest_of, manifest_of, without_manifest
from model.log_format import encode_header
from model.scripts import run

EXAMPLES = Path(__file__).resolve().parent.parent / "examples"
PAGES, RECORD = "3", 64
CHAIN = ("copy-1", "copy-2", "copy-3")
FILES = ("log", "master", *CHAIN)
OTHER = "is not the file that the manifest names"
UNNAMED = "the manifest beside it does not name it"
WAY_ON = "--no-manifest"
THERE = f"put the files' manifest there, or go on by {WAY_ON}"
BOTH = "error: the argument '--manifest <FILE>' cannot be used with '--no-manifest'\n"
NO_FOLDER = "error: --manifest needs the argument:\n  --save <FOLDER>\n"
MOST_SECONDS = 60
SMALL_CHAIN = ("copy-1", "copy-2")
SMALL = """ckpt; gather; gather; endckpt; full; take 1 0; seal 1; begin; set 1 0 0 5; commit 1; wbegin 0; wend 0
           ckpt; gather; gather; endckpt; inc 1; take 2 0; seal 2; begin; add 2 0 1 7"""
SMALL_HEAD = b"# imgcopy manifest 1 database 00112233445566778899aabbccddeeff\n"


class Failure(Exception):
    """What differs, in one line."""


def see(what, done, status, output, error):
    """How a command ended, and what it said."""
    given = (done.returncode, done.stdout, done.stderr.decode())
    if given != (status, output, error):
        raise Failure(f"{what}: {str(given)[:300]} in place of {str((status, output, error))[:300]}")


class Folder:
    """A folder with the files of a day."""

    def __init__(self, program, place):
        self.program, self.place, self.counts = program, place, Counter()

    def run(self, *words, data=b""):
        return subprocess.run([self.program, *words], input=data, capture_output=True, cwd=self.place, timeout=MOST_SECONDS)

    def fill(self, files):
        shutil.rmtree(self.place, ignore_errors=True)
        self.place.mkdir()
        for name, data in files.items():
            (self.place / name).write_bytes(data)

    def put(self, name, data):
        (self.place / name).write_bytes(data)

    def restore(self, *options):
        return self.run("restore", *options, *FILES)

    def audit(self, *options):
        return self.run("audit", *options, "--master", "master", "log", *CHAIN)

    def refused(self, what, *options, is_other=False):
        """No volume is written, and an audit calls nothing sound. Where the file is read to its end it is told, and what to
        do."""
        done, audited = self.restore(*options), self.audit(*options)
        if done.returncode not in (1, 2) or done.stdout or not done.stderr:
            raise Failure(f"{what}: a restore ends with status {done.returncode}, {done.stderr[:120]!r}")
        if audited.returncode not in (1, 2) or b"sound\n" == audited.stdout:
            raise Failure(f"{what}: an audit ends with status {audited.returncode}, {audited.stdout[:60]!r}")
        told = f": {OTHER}".encode() in done.stderr and WAY_ON.encode() in done.stderr
        if (is_other or b"E33 ReadFault" in done.stderr) and not told:
            raise Failure(f"{what}: the restore tells {done.stderr[:200]!r}")
        self.counts["told as another file" if told else "told as a fault in the file"] += 1

    def taken(self, what, volume, *options, told=""):
        see(f"{what}, a restore", self.restore(*options), 0, volume, told)
        audited = self.audit(*options)
        if (audited.returncode, audited.stdout) != (0, b"sound\n"):
            raise Failure(f"{what}: an audit ends with status {audited.returncode}, {audited.stderr[:200]!r}")
        self.counts["taken"] += 1


def day_of(folder, script):
    """The files of a day, and the volume that they restore without a manifest."""
    folder.fill({})
    done = folder.run("run", "--pages", PAGES, "--save", ".", data=script)
    see("run --save", done, 0, done.stdout, "")
    bare = all_of(folder)
    done = folder.run("run", "--pages", PAGES, "--save", ".", "--manifest", data=script)
    see("run --save --manifest", done, 0, done.stdout, "")
    files = all_of(folder)
    if set(bare) != set(FILES) or without_manifest(files) != bare:
        raise Failure(f"the saves leave {sorted(bare)} and {sorted(files)}")
    summed = subprocess.run(["sha256sum", "-c", "--strict", "manifest"], cwd=folder.place, capture_output=True, check=False)
    if summed.returncode or summed.stdout.decode().splitlines() != [f"{name}: OK" for name in FILES]:
        raise Failure(f"sha256sum -c: status {summed.returncode}, {summed.stdout!r}, {summed.stderr!r}")
    folder.fill(bare)
    done = folder.restore()
    see("a restore without a manifest", done, 0, done.stdout, "")
    see("the same by --no-manifest", folder.restore("--no-manifest"), 0, done.stdout, "")
    see("an audit without a manifest", folder.audit(), 0, b"sound\n", "")
    folder.fill(files)
    folder.taken("the files as they were saved", done.stdout)
    return files, done.stdout


def check_flips(folder, files, step):
    for name in FILES:
        for at in range(0, len(files[name]), step):
            changed = bytearray(files[name])
            changed[at] ^= 1 << at * 5 % 8
            folder.put(name, changed)
            folder.refused(f"a bit of byte {at} of {name} is flipped")
        folder.put(name, files[name])


def check_others(folder, files, others, *options):
    for name in FILES:
        if files[name] == others[name]:
            continue
        folder.put(name, others[name])
        folder.refused(f"{name} is of the other day", *options, is_other=True)
        folder.put(name, files[name])
    for name in FILES:
        folder.put(name, others[name])
    folder.refused("all files are of the other day", *options, is_other=True)
    for name in FILES:
        folder.put(name, files[name])


def check_logs(folder, files, volume):
    """The log is cut at each record, and at bytes between, and then it grows by what undo appends, as that of a database
    may."""
    for end in range(RECORD, len(files["log"]), RECORD):
        for cut in (end, end - 1):
            folder.put("log", files["log"][:cut])
            folder.refused(f"the log ends at {cut}")
    folder.put("log", files["log"])
    done = folder.run("restore", "-o", "volume", "--log-out", "grown", *FILES)
    grown = (folder.place / "grown").read_bytes()
    if done.returncode or not grown.startswith(files["log"]) or len(grown) == len(files["log"]):
        raise Failure(f"restore --log-out: status {done.returncode}, {done.stderr[:200]!r}")
    for end in range(len(files["log"]) + RECORD, len(grown) + 1, RECORD):
        folder.put("log", grown[:end])
        folder.refused(f"the log of saved files has grown to {end}", is_other=True)
    folder.put("manifest", of_database(files))
    for end in range(len(files["log"]), len(grown) + 1, RECORD):
        folder.put("log", grown[:end])
        folder.taken(f"the log of a database has grown to {end}", volume)
    changed = bytearray(grown)
    changed[200] ^= 1
    folder.put("log", changed)
    folder.refused("a log that has grown is changed")
    folder.fill(files)


def check_grown_master(folder, files):
    """A database that is opened puts another master record in place, behind new records of the log. Saved files that are
    opened are those of a database then, and have its manifest."""
    done = folder.run("open", ".", data=b"ckpt\n" + b"gather\n" * int(PAGES) + b"endckpt\n")
    after = all_of(folder)
    if after["master"] == files["master"] or not is_manifest_of(after["manifest"], named_in(after)):
        raise Failure(f"open: status {done.returncode}, and no master record, or another manifest, {done.stdout[-200:]!r}")
    folder.put("manifest", of_database(files))
    done = folder.restore()
    if done.returncode or done.stderr:
        raise Failure(f"behind an open database a restore ends with status {done.returncode}, {done.stderr[:200]!r}")
    folder.fill(files)


def of_database(files):
    """The manifest of these files, as that of a database, whose log grows."""
    return manifest_of(without_manifest(files), head_of(files["manifest"]), grows=True)


def check_manifests(folder, files, others, volume, step):
    manifest = files["manifest"]
    for text, line in ((b"", 1), (manifest[:-1], None), (manifest[:20], 1), (b"# imgcopy manifest 2" + manifest[20:], 1),
                       (manifest + b"\n", None), (manifest + b"".join(manifest.splitlines(True)[1:3]), None), (b"\xff" * 90, 1)):
        folder.put("manifest", text)
        line = line or text.count(b"\n") + (not text.endswith(b"\n"))
        for done in (folder.restore(), folder.audit()):
            wanted = f"E33 ReadFault\nimgcopy: ./manifest: line {line}: "
            told = done.stderr.decode()
            if done.returncode != 2 or done.stdout or not told.startswith(wanted) or WAY_ON not in told:
                raise Failure(f"a manifest {text[:40]!r}..: status {done.returncode}, {done.stderr[:200]!r}")
        folder.taken(f"a manifest {text[:40]!r} is left aside", volume, "--no-manifest")
    for cut in range(0, len(manifest), step):
        folder.put("manifest", manifest[:cut])
        done = folder.restore()
        if done.returncode == 0 and UNNAMED.encode() not in done.stderr or done.returncode and done.stdout:
            raise Failure(f"a manifest cut at {cut}: status {done.returncode}, {done.stderr[:200]!r}")
    names = len(head_of(manifest))
    for at in range(0, len(manifest), step):
        changed = bytearray(manifest)
        changed[at] ^= 1 << at % 3
        folder.put("manifest", changed)
        done = folder.restore()
        if done.returncode == 0 and at >= names and UNNAMED.encode() not in done.stderr:
            raise Failure(f"a bit of byte {at} of the manifest is flipped: status 0, {done.stderr[:200]!r}")
        if done.returncode and WAY_ON.encode() not in done.stderr:
            raise Failure(f"a bit of byte {at} of the manifest is flipped: {done.stderr[:200]!r}")
    folder.put("manifest", others["manifest"])
    folder.refused("the manifest is of the other day", is_other=True)
    folder.taken("the manifest of the other day is left aside", volume, "--no-manifest")
    (folder.place / "manifest").unlink()
    folder.taken("the manifest is moved away", volume)
    check_irregular(folder, files, volume)
    folder.fill(files)


def check_irregular(folder, files, volume):
    """What has the manifest's name is a link that leads nowhere, a folder or a pipe: no command passes it over. A link to a
    manifest counts."""
    path, told = folder.place / "manifest", f"E33 ReadFault\nimgcopy: ./manifest: this is no regular file: {THERE}"
    commands = (["restore", *FILES], ["restore", "."], ["restore", "--copy=1", "."], ["audit", "log", *CHAIN],
                ["verify", "."], ["list", "."])
    for what, make in (("a link that leads nowhere", lambda: path.symlink_to("not there")), ("a folder", path.mkdir),
                       ("a pipe", lambda: os.mkfifo(path))):
        folder.fill(without_manifest(files))
        make()
        for words in commands:
            done, aside = folder.run(*words), folder.run(*words, "--no-manifest")
            is_shown = words[0] in ("verify", "list")
            if done.returncode != 2 or done.stderr.decode() != f"{told}\n" or (done.stdout and not is_shown):
                raise Failure(f"{words}, {what} as the manifest: status {done.returncode}, {done.stderr[:200]!r}")
            if aside.returncode or (is_shown and aside.stdout != done.stdout):
                raise Failure(f"{words} --no-manifest, {what} as the manifest: status {aside.returncode},"
                              f" {aside.stderr[:200]!r}")
            folder.counts["irregular manifests"] += 1
        path.rmdir() if what == "a folder" else path.unlink()
    folder.fill(without_manifest(files))
    folder.place.with_name("kept manifest").write_bytes(files["manifest"])
    path.symlink_to("../kept manifest")
    folder.taken("a link to the manifest", volume)
    folder.put("log", files["log"][:-RECORD])
    folder.refused("a link to the manifest, and another log")


def check_told(folder, files, others, volume):
    """The manifest stands elsewhere, under any name, and is told. One that stands beside the files does not count then."""
    elsewhere = folder.place.with_name("sums of the day")
    elsewhere.write_bytes(files["manifest"])
    told = ("--manifest", str(elsewhere))
    for beside in (None, others["manifest"], b"", b"no manifest"):
        folder.fill(without_manifest(files))
        if beside is not None:
            folder.put("manifest", beside)
        folder.taken(f"a manifest is told, and {str(beside)[:20]} stands beside the files", volume, *told)
    check_others(folder, files, others, *told)
    folder.put("log", files["log"][:-RECORD])
    folder.refused("the log is shorter than the manifest that is told", *told)
    folder.put("log", files["log"])
    # The files stand in two folders, neither of which is that of the manifest.
    away = folder.place.with_name("away")
    away.mkdir()
    for name in CHAIN:
        (folder.place / name).rename(away / name)
    words = ("log", "master", *(str(away / name) for name in CHAIN))
    see("files in two folders", folder.run("restore", *told, *words), 0, volume, "")
    check_folder_told(folder, files, others, volume, told)
    folder.fill(without(files, "manifest", *CHAIN))
    (away / "copy-2").write_bytes(others["copy-2"])
    done = folder.run("restore", *told, *words)
    if done.returncode != 2 or done.stdout or f"{away}/copy-2 (image copy): {OTHER}".encode() not in done.stderr:
        raise Failure(f"another file in two folders: status {done.returncode}, {done.stderr[:200]!r}")
    # One of its names is left out, and it is none, and it is not there.
    folder.fill(files)
    lines = files["manifest"].splitlines(True)
    elsewhere.write_bytes(b"".join(lines[:-2]))
    folder.taken("a name is left out of the manifest that is told", volume, *told,
                 told=f"imgcopy: copy-3: {elsewhere} does not name it\n")
    elsewhere.write_bytes(files["manifest"][:-1])
    for command in (folder.restore, folder.audit):
        done = command(*told)
        if done.returncode != 2 or done.stdout or not done.stderr.startswith(f"E33 ReadFault\nimgcopy: {elsewhere}: line ".encode()):
            raise Failure(f"a told manifest that is cut: status {done.returncode}, {done.stderr[:200]!r}")
    elsewhere.unlink()
    for command in (folder.restore, folder.audit):
        see("a told manifest that is not there", command(*told), 2, b"",
            f"E33 ReadFault\nimgcopy: {elsewhere}: No such file or directory (os error 2)\n")
    # By --no-manifest another file is read as if no manifest stood there.
    for name in FILES:
        folder.put(name, others[name])
    see("files of the other day, and no manifest", folder.audit("--no-manifest"), 0, b"sound\n", "")
    folder.fill(files)
    for words in (["restore", *FILES], ["restore", "."], ["restore", "--copy=1", "."], ["audit", "log", *CHAIN], ["verify", "."],
                  ["list", "."]):
        done = folder.run(words[0], "--manifest", "manifest", "--no-manifest", *words[1:])
        if done.returncode != 2 or done.stdout or not done.stderr.decode().startswith(BOTH):
            raise Failure(f"{words[0]} with both: status {done.returncode}, {done.stderr[:200]!r}")


def check_folder_told(folder, files, others, volume, told):
    """A restore of a folder by the manifest that is told: that of the other day, which stands there, does not count."""
    folder.fill({**files, "manifest": others["manifest"]})
    line = "imgcopy: .: restored from copy 3, on copy 2, on copy 1\n"
    see("a folder, by a manifest that is told", folder.run("restore", *told, "."), 0, volume, line)
    see("a folder, by no manifest", folder.run("restore", "--no-manifest", "."), 0, volume, line)
    for options in ([], ["--manifest", "manifest"]):
        done = folder.run("restore", *options, ".")
        if done.returncode != 2 or done.stdout or f": {OTHER}".encode() not in done.stderr:
            raise Failure(f"a folder, by the manifest of the other day {options}: status {done.returncode}, {done.stderr[:200]!r}")


def line_of_length(place, what, has, named):
    return f"imgcopy: {place} ({what}): {OTHER}: it has {has} bytes, and {named} are named: put that file there, or go on by" \
        f" {WAY_ON}\n"


def check_lists(folder, files, others):
    """`list` compares how many bytes a copy has, and the log whole."""
    shown = folder.run("list", ".")
    see("a list", shown, 0, shown.stdout, "")
    for name, data in (("copy-1", files["copy-1"] + b"\0"), ("copy-3", files["copy-3"][:-1])):
        folder.put(name, data)
        done, aside = folder.run("list", "."), folder.run("list", "--no-manifest", ".")
        line = line_of_length(f"./{name}", "image copy", len(data), len(files[name]))
        if done.returncode != 2 or not done.stderr.decode().endswith(line) or OTHER.encode() in aside.stderr:
            raise Failure(f"list, another length of {name}: status {done.returncode}, {done.stderr!r}, {aside.stderr!r}")
        see(f"list, another length of {name}", aside, 2, done.stdout, done.stderr.decode().removesuffix(line))
        folder.put(name, files[name])
    cut = files["log"][:-RECORD]
    folder.put("log", cut)
    done = folder.run("list", ".")
    if done.returncode != 2 or line_of_length("./log", "log", len(cut), len(files["log"])).encode() not in done.stderr:
        raise Failure(f"list, a log that is cut: status {done.returncode}, {done.stderr[:200]!r}")
    folder.put("log", others["log"])
    done = folder.run("list", ".")
    line = f"imgcopy: ./log (log): {OTHER}, by {len(files['log'])} bytes of it: put that file there, or go on by {WAY_ON}\n"
    see("list, the log of the other day", done, 2, done.stdout, line)
    folder.put("log", files["log"])
    (folder.place / "manifest").rename(folder.place / "moved")
    see("list without a manifest", folder.run("list", "."), 0, shown.stdout, "")
    see("list by a manifest that is told", folder.run("list", ".", "--manifest", "moved"), 0, shown.stdout, "")
    folder.fill(files)
    folder.counts["lists"] += 8


def check_verify(folder, files, others):
    """`verify` prints a line for each file, in the order of the manifest, and one for each copy."""
    copies = "".join(f"copy {number} sound\n" for number in (1, 2, 3)).encode()
    sound = "".join(f"{name} sound\n" for name in FILES).encode() + copies
    see("verify", folder.run("verify", "."), 0, sound, "")
    see("verify --no-manifest", folder.run("verify", "--no-manifest", "."), 0, copies, "")
    for name in FILES:
        if files[name] == others[name]:
            continue
        folder.put(name, others[name])
        done = folder.run("verify", ".")
        lines = "".join(f"{each} {OTHER if each == name else 'sound'}\n" for each in FILES).encode()
        if done.returncode != 2 or not done.stdout.startswith(lines):
            raise Failure(f"verify, {name} of the other day: status {done.returncode}, {done.stdout[:200]!r}")
        folder.put(name, files[name])
    (folder.place / "manifest").rename(folder.place / "moved")
    see("verify without a manifest", folder.run("verify", "."), 0, copies, "imgcopy: .: there is no manifest: the files are not compared\n")
    see("verify by a manifest that is told", folder.run("verify", "--manifest", "moved", "."), 0, sound, "")
    (folder.place / "copy-3").unlink()
    done = folder.run("verify", "--manifest", "moved", ".")
    if done.returncode != 2 or f"copy-3 {OTHER}\n".encode() not in done.stdout or b"./copy-3: No such file" not in done.stderr:
        raise Failure(f"verify without a copy: status {done.returncode}, {done.stdout[:200]!r}, {done.stderr[:200]!r}")
    folder.fill(files)
    folder.counts["verifications"] += 10


def check_again(folder, files, others, script):
    """A save over another one renews the manifest that stands there, whether it is asked for one or not; and one of a
    database is renewed by --force alone."""
    kept = {**others, "manifest": of_database(others)}
    for options, before, is_done in (([], others, True), (["--manifest"], others, True), (["--force"], others, True),
                                     (["--force"], kept, True), ([], kept, False), (["--manifest"], kept, False)):
        folder.fill(before)
        done = folder.run("run", "--pages", PAGES, "--save", ".", *options, data=script)
        given, what = all_of(folder), f"a save {options} over another one"
        if not is_done:
            if done.returncode != 2 or done.stdout or given != before:
                raise Failure(f"{what}, in the folder of a database: status {done.returncode}, {done.stderr[:200]!r}")
            continue
        if done.returncode or given != {**files, "manifest": manifest_of(without_manifest(files), head_of(given["manifest"]))}:
            raise Failure(f"{what}: status {done.returncode}, {done.stderr[:200]!r}")
        if len({head_of(it["manifest"]) for it in (files, others, given)}) != 3:
            raise Failure("two runs have one name")
    folder.fill({})
    done = folder.run("run", "--pages", PAGES, "--manifest", data=script)
    if done.returncode != 2 or done.stdout or not done.stderr.decode().startswith(NO_FOLDER):
        raise Failure(f"run --manifest without --save: status {done.returncode}, {done.stderr[:200]!r}")
    folder.fill(files)


LIFE = b"begin\nset 1 0 0 500\ncommit 1\ncheckpoint\nfull\ntake 1 0\nseal 1\n"
COPY = ["full", "take 1 0", "seal 1"]
GROWTH = b"begin\nset 2 0 1 7\ncommit 2\nbegin\nset 3 0 2 9\ncommit 3\n"


def database(folder, lines):
    """The files of a database behind a clean closing."""
    folder.fill({})
    done = folder.run("open", "--pages", "1", ".", data=lines)
    if done.returncode or done.stderr:
        raise Failure(f"open: status {done.returncode}, {done.stderr[:200]!r}")
    return all_of(folder)


def all_of(folder):
    return {path.name: path.read_bytes() for path in folder.place.iterdir()}


def named_in(files):
    """The files of a database that its manifest names once it is closed."""
    return {name: data for name, data in files.items() if name not in ("manifest", "volume", "closed")}


def is_refused(folder, what, told):
    """Nothing is changed, nor is what an older life left unfinished removed."""
    folder.put("copy-7.unfinished-1", b"an older life")
    before = all_of(folder)
    done = folder.run("open", ".")
    if done.returncode != 2 or done.stdout or told.encode() not in done.stderr or all_of(folder) != before:
        raise Failure(f"{what}: open ends with status {done.returncode}, {done.stderr[:300]!r}")
    folder.counts["not opened"] += 1


def is_salvaged(folder, what, head):
    done = folder.run("open", ".", "--salvage")
    after = all_of(folder)
    if done.returncode or "manifest.refused" not in after or head_of(after["manifest"]) != head:
        raise Failure(f"{what}: --salvage ends with status {done.returncode}, {done.stderr[:300]!r}")
    folder.counts["salvaged"] += 1


def check_kept(folder):
    """What a closing leaves, and what a next life keeps of it."""
    files = database(folder, LIFE)
    head = head_of(files["manifest"])
    if not is_manifest_of(files["manifest"], named_in(files)):
        raise Failure(f"open leaves the manifest {files['manifest']!r}")
    summed = subprocess.run(["sha256sum", "-c", "--strict", "manifest"], cwd=folder.place, capture_output=True, check=False)
    if summed.returncode:
        raise Failure(f"sha256sum -c: status {summed.returncode}, {summed.stdout!r}, {summed.stderr!r}")
    inode = (folder.place / "manifest").stat().st_ino
    done = folder.run("open", ".", data=b"read 0 0\n")
    if done.returncode or done.stderr or all_of(folder) != files or (folder.place / "manifest").stat().st_ino != inode:
        raise Failure(f"a life that reads: status {done.returncode}, {done.stderr[:200]!r}, or it leaves other files")
    done = folder.run("open", ".", data=GROWTH)
    grown = all_of(folder)
    if done.returncode or done.stderr or head_of(grown["manifest"]) != head:
        raise Failure(f"a second life: status {done.returncode}, {done.stderr[:200]!r}, and another name")
    if not is_manifest_of(grown["manifest"], named_in(grown)):
        raise Failure(f"a second life leaves the manifest {grown['manifest']!r}")
    check_names(folder)
    return files, grown


def check_names(folder):
    """A life closes, or is killed once it has answered the line behind one that put a file in place: in both cases the
    manifest is that of the files."""
    for what, before, lines in (("a master record", None, ["checkpoint"]), ("a copy", b"checkpoint\n", COPY),
                                ("a copy and its checkpoint", None, ["begin", "commit 1", "copy"]),
                                ("two copies by one checkpoint", b"copy\n", ["copy", "copy on 1"])):
        for way in ("closed", "killed"):
            database(folder, before or b"")
            if way == "closed":
                done = folder.run("open", ".", data="".join(f"{line}\n" for line in lines).encode())
                folder.counts["manifests at a closing"] += 1
            else:
                done = killed(folder, [*lines, "read 0 0"])
                folder.counts["manifests behind a kill"] += 1
            after = all_of(folder)
            if not is_manifest_of(after["manifest"], named_in(after)):
                raise Failure(f"{what}, {way}: {done.stdout[-200:]!r}, and the manifest is {after['manifest']!r}")


def killed(folder, lines, *words):
    """A life that is killed once the last of its lines is answered; each has one answer."""
    child = subprocess.Popen([folder.program, "open", *words, "."], cwd=folder.place, stdin=subprocess.PIPE,
                             stdout=subprocess.PIPE, stderr=subprocess.PIPE)
    child.stdin.write("".join(f"{line}\n" for line in lines).encode())
    child.stdin.flush()
    answers = b"".join(child.stdout.readline() for _ in range(len(lines) + 1))
    child.kill()
    said = child.communicate(timeout=MOST_SECONDS)[1]
    return subprocess.CompletedProcess(child.args, child.returncode, answers, said)


def check_opened(folder, step):
    files, grown = check_kept(folder)
    head, log = head_of(files["manifest"]), files["log"]
    for bit in range(0, 8 * len(log), step):
        changed = bytearray(log)
        changed[bit // 8] ^= 1 << bit % 8
        folder.fill({**files, "log": changed})
        what = f"bit {bit} of the log is flipped"
        is_refused(folder, what, "imgcopy: ./log: " if bit < 8 * RECORD else "imgcopy: .: `manifest` ")
        if bit >= 8 * RECORD:
            is_salvaged(folder, what, head)
    longer = grown["log"]
    for end in range(2 * RECORD, len(longer) + 1, RECORD):
        folder.fill({name: data for name, data in files.items() if name not in ("closed", "master", "copy-1")})
        folder.put("log", longer[:end])
        if end < len(log):
            is_refused(folder, f"the log ends at {end}", f"`manifest` says that the log was forced to {len(log)}")
            continue
        done = folder.run("open", ".", data=b"begin\nforce\n")
        after = all_of(folder)
        if done.returncode or head_of(after["manifest"]) != head or not is_manifest_of(after["manifest"], named_in(after)):
            raise Failure(f"the log has grown to {end}: status {done.returncode}, {done.stderr[:300]!r}, {after['manifest']!r}")
        folder.counts["opened"] += 1
    check_other_manifests(folder, files)


def check_other_manifests(folder, files):
    manifest, bad = files["manifest"], "E33 ReadFault\nimgcopy: ./manifest: line "
    for cut in range(len(manifest)):
        lines = manifest[:cut].splitlines(True)
        if not lines or lines[-1][-1:] != b"\n" or lines[-1].startswith(b"# whole"):
            folder.fill({**files, "manifest": manifest[:cut]})
            is_refused(folder, f"the manifest is cut at {cut}", bad)
    for text, line in misspelled(manifest):
        folder.fill({**files, "manifest": text})
        is_refused(folder, f"the manifest {text[:200]!r}", f"{bad}{line}: ")
    other = database(folder, LIFE.replace(b"500", b"501"))
    folder.fill({**files, "manifest": other["manifest"]})
    is_refused(folder, "the manifest is of another database", "`manifest` has another sum of the bytes of the log before")
    folder.fill({"manifest": manifest})
    is_refused(folder, "there is a manifest, and no log", "imgcopy: ./manifest: this is there, but no log")
    folder.fill({name: data for name, data in files.items() if name != "manifest"})
    done = folder.run("open", ".")
    if done.returncode or head_of(all_of(folder)["manifest"]) == head_of(manifest):
        raise Failure(f"the manifest is moved away: status {done.returncode}, {done.stderr[:300]!r}")
    check_no_file(folder, files)
    check_dropped(folder)
    check_header_alone(folder)
    check_newer_master(folder)


def misspelled(manifest):
    """Texts that are no manifest, and the line of each that is wrong."""
    lines = manifest.splitlines(True)
    first = next(place for place, line in enumerate(lines) if line.startswith(b"# first"))
    whole = next(place for place, line in enumerate(lines) if line.startswith(b"# whole"))
    number, name = lines[whole].split()[2], lines[whole + 1].split()[1]

    def other(place, line):
        return b"".join([*lines[:place], line, *lines[place + 1:]]), place + 1

    yield manifest.replace(b"\n", b"\r\n"), 1
    yield other(0, lines[0].replace(b"manifest 1", b"manifest 01"))
    yield other(first, lines[first].replace(b"# first", b"#  first"))
    yield other(whole, b"# whole 0%s\n" % number)
    yield other(whole, b"# whole +%s\n" % number)
    yield other(whole, b"# whole 9223372036854775808\n")
    yield other(whole + 1, lines[whole + 1].replace(lines[whole + 1][:64], b"AB" * 32))
    yield other(whole + 1, lines[whole + 1].replace(b"  ", b" *"))
    yield other(whole + 1, lines[whole + 1].replace(name, b"a " + name))
    yield other(whole + 1, lines[whole + 1].replace(name, b"../" + name))
    yield other(whole + 1, lines[whole + 1][:66] + b"x" * 256 + b"\n")
    yield manifest + b"".join(lines[whole:whole + 2]), len(lines) + 2
    yield bytes(300_000), 1


def check_no_file(folder, files):
    """A folder, a pipe or a link that leads nowhere has the name of the manifest."""
    for what, make in (("a folder", os.mkdir), ("a pipe", os.mkfifo), ("a link", lambda path: path.symlink_to("nowhere"))):
        folder.fill(without(files, "manifest"))
        make(folder.place / "manifest")
        before = touched(folder)
        done = folder.run("open", ".")
        see(f"{what} as the manifest", done, 2, b"", "E33 ReadFault\nimgcopy: ./manifest: this is no regular file\n")
        if before != touched(folder):
            raise Failure(f"{what} as the manifest: the folder is another one")
        folder.counts["not opened"] += 1


def touched(folder):
    """When each file was written, and what it is."""
    there = [(path.name, path.lstat()) for path in sorted(folder.place.iterdir())]
    return [(name, stat.st_ino, stat.st_mode, stat.st_mtime_ns, stat.st_size) for name, stat in there]


def without(files, *names):
    return {name: data for name, data in files.items() if name not in names}


def check_dropped(folder):
    """The lines of files that are gone are dropped and told before the first call; that of a copy that is not sound stays."""
    files = database(folder, LIFE + b"copy\ncopy on 2\n")
    for what, other, told in (
            ("a copy is gone", {"copy-1": None}, []),
            ("two copies are gone", {"copy-2": None, "copy-3": None}, []),
            ("a copy is cut", {"copy-3": files["copy-3"][:-1]}, ["copy-3: no archive begins like this"]),
            ("the copy below is gone", {"copy-2": None}, ["copy-3: the copy that it stands on was not taken up"]),
            ("the master record is gone", {"master": None}, [])):
        gone = [name for name, data in other.items() if data is None]
        some = {name: other.get(name, data) for name, data in files.items() if other.get(name, data) is not None}
        folder.fill(without(some, "closed"))
        lines = [*told, *(f"manifest: the line of `{name}` is dropped" for name in gone)]
        done = killed(folder, [])
        after = all_of(folder)
        text = "".join(f"imgcopy: ./{line}\n" for line in lines)
        if sorted(done.stderr.decode().splitlines()) != sorted(text.splitlines()):
            raise Failure(f"{what}: {done.stderr[:300]!r}, and {text!r} is wanted")
        named = named_in(after) | {name: files[name] for name in other if name not in gone}
        if not is_manifest_of(after["manifest"], named):
            raise Failure(f"{what}: the manifest is {after['manifest']!r}")
        done = folder.run("open", ".")
        if done.returncode or b"dropped" in done.stderr:
            raise Failure(f"{what}, opened again: status {done.returncode}, {done.stderr[:300]!r}")
        folder.counts["lines dropped"] += len(lines) - len(told)


def check_header_alone(folder):
    """A log that has its header alone is gone, and with it all but the manifest. A new database has the name of the old one,
    and its log a header of its own, also where its first life is killed."""
    for pages, first in ((1, b"new: 1 page\n"), (2, b"new: 2 pages\n")):
        for way in ("closed", "killed"):
            what = f"a manifest that names a header alone, {pages} pages, {way}"
            folder.fill({"manifest": manifest_of({"log": encode_header(1)}, SMALL_HEAD, grows=True)})
            if way == "closed":
                see(what, folder.run("open", "--pages", str(pages), "."), 0, first, "")
            elif killed(folder, [], "--pages", str(pages)).stdout != first:
                raise Failure(f"{what}: it is not opened")
            see(f"{what}, and opened again", folder.run("open", "."), 0,
                b"restarted: log cut at 64, 0 transactions taken back, 0 records\n", "")
            after = all_of(folder)
            if head_of(after["manifest"]) != SMALL_HEAD or not is_manifest_of(after["manifest"], named_in(after)):
                raise Failure(f"{what}: it is {after['manifest']!r} then")
            folder.counts["opened"] += 2


def check_newer_master(folder):
    """A life was killed between its master record and the manifest. The record is that of the log: no command takes it for
    another file, be it then or behind a next life."""
    files = database(folder, LIFE)
    folder.run("open", ".", data=b"checkpoint\n")
    newer = all_of(folder)
    if newer["master"] == files["master"]:
        raise Failure("a checkpoint leaves the master record as it was")
    for what, lines in (("nothing", b""), ("a copy", b"copy\n"), ("a commit", b"begin\nset 2 0 0 1\ncommit 2\n")):
        folder.fill({**without(newer, "closed"), "manifest": files["manifest"]})
        for when in ("behind the kill", "behind a life", "behind one more"):
            for words in (["restore", "log", "master", "copy-1"], ["restore", "--copy", "1", "."],
                          ["audit", "--master", "master", "log", "copy-1"], ["verify", "."], ["list", "."]):
                done = folder.run(*words)
                if done.returncode or OTHER.encode() in done.stdout + done.stderr:
                    raise Failure(f"{words} {when} that made {what}: status {done.returncode}, {done.stdout[-200:]!r},"
                                  f" {done.stderr[:300]!r}")
                folder.counts["taken"] += 1
            done = folder.run("open", ".", data=lines)
            after = all_of(folder)
            if done.returncode or not is_manifest_of(after["manifest"], named_in(after)):
                raise Failure(f"{when} that made {what}, the manifest is {after['manifest']!r}")


# Each bit of a small folder

def refuses(program, place, options, name, data, at):
    """Whether a restore refuses the files, one of which has another bit; what it says where it does not."""
    changed = bytearray(data)
    changed[at // 8] ^= 1 << at % 8
    (place / name).write_bytes(changed)
    done = subprocess.run([program, "restore", *options, "log", "master", *SMALL_CHAIN], capture_output=True, cwd=place,
                          timeout=MOST_SECONDS, check=False)
    if done.returncode in (1, 2) and done.stderr and not done.stdout:
        return None
    return f"bit {at} of {name} is flipped: a restore ends with status {done.returncode}, {done.stderr[:200]!r}"


def flip_bits(program, place, files, options, step, worker):
    """Flips its share of the bits, and says how many it flipped."""
    place.mkdir()
    for name, data in files.items():
        (place / name).write_bytes(data)
    count = 0
    for name in ("log", "master", *SMALL_CHAIN):
        for at in range(step * worker, 8 * len(files[name]), step * (os.cpu_count() or 1)):
            why = refuses(program, place, options, name, files[name], at)
            if why:
                raise Failure(why)
            count += 1
        (place / name).write_bytes(files[name])
    return count


def check_bits(folder, program, step):
    """The model makes the files and their manifest, which stands beside them, or elsewhere."""
    text = re.sub(r"; *|\n *", "\n", SMALL).encode() + b"\n"
    files = run(text, 1).files
    if set(files) != {"log", "master", *SMALL_CHAIN}:
        raise Failure(f"the model saves {sorted(files)}")
    manifest = manifest_of(files, SMALL_HEAD)
    elsewhere = folder.place.with_name("small sums")
    elsewhere.write_bytes(manifest_of(files, SMALL_HEAD, grows=True))
    words = ("log", "master", *SMALL_CHAIN)
    for what, all_files, options, each in (("beside", files | {"manifest": manifest}, (), step),
                                           ("told", files, ("--manifest", str(elsewhere)), 8 * step + 1)):
        folder.fill(all_files)
        done = folder.run("restore", *options, *words)
        see(f"a small folder, the manifest {what}", done, 0, done.stdout, "")
        workers = os.cpu_count() or 1
        with ThreadPoolExecutor(workers) as pool:
            counts = pool.map(lambda worker: flip_bits(program, folder.place.with_name(f"{what}-{worker}"), all_files, options,
                                                       each, worker), range(workers))
            folder.counts[f"bits flipped, the manifest {what}"] += sum(counts)


def main(arguments):
    try:
        if not 1 <= len(arguments) <= 2 or not all(number.isdigit() for number in arguments[1:]):
            raise Failure("usage: python3 -m checks.manifests PROGRAM [STEP]")
        program = shutil.which(arguments[0])
        if program is None:
            raise Failure(f"there is no program {arguments[0]}")
        program, step = str(Path(program).resolve()), int(arguments[1]) if arguments[1:] else 1
        script = (EXAMPLES / "day.script").read_bytes().partition(b"\nrestore")[0] + b"\n"
        second = re.sub(rb"(?m)^((?:set|add) \d+ \d+ \d+ )(\d+)$", lambda it: it[1] + b"%d" % (int(it[2]) + 1), script)
        with tempfile.TemporaryDirectory(dir=memory_place()) as place:
            folder = Folder(program, Path(place) / "day")
            others, _ = day_of(folder, second)
            files, volume = day_of(folder, script)
            check_others(folder, files, others)
            check_logs(folder, files, volume)
            check_grown_master(folder, files)
            check_manifests(folder, files, others, volume, step)
            check_told(folder, files, others, volume)
            check_lists(folder, files, others)
            check_verify(folder, files, others)
            check_again(folder, files, others, script)
            check_flips(folder, files, step)
            check_opened(folder, step)
            check_bits(folder, program, step)
    except (Failure, WrongManifest, OSError, subprocess.SubprocessError) as failure:
        print(f"FAILED manifests: {failure}")
        return 1
    print("ok manifests: " + ", ".join(f"{count} {what}" for what, count in sorted(folder.counts.items())))
    return 0


if __name__ == "__main__":
    sys.exit(main(sys.argv[1:]))
