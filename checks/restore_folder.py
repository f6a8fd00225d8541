"""Restores from folders, and compares with the restores that name each file.

usage: python3 -m checks.restore_folder PROGRAM

A folder has four copies: a full one, two that stand on it in turn, and one more full one. Restores of it take the
newest copy, or that of `--copy`, with the options of a restore, and give the bytes of the long form. A copy that is cut,
spoiled, gone, no file, or not the one that a manifest names, is told and left out, with those that stand on it; if none is
left, the status is that of the first fault. A log that is cut is told, and no older copy is taken. What is refused
leaves no output.
"""

import hashlib
import os
import subprocess
import sys
import tempfile
from pathlib import Path

from checks.bank_files import Failure, program_of

MOST_SECONDS = 120
PAGES = 3
TAKEN = {4: "copy 4", 3: "copy 3, on copy 2, on copy 1", 2: "copy 2, on copy 1", 1: "copy 1"}
OTHER = "is not the file that the manifest names"


class Restorer:
    """The program, a place for folders, and how often a check went well."""

    def __init__(self, program, place):
        self.program, self.place, self.checks = program, place, 0
        self.folder = place / "shop"

    def run(self, *words, lines=None):
        data = b"" if lines is None else "".join(f"{line}\n" for line in lines).encode()
        return subprocess.run([self.program, *words], input=data, capture_output=True, timeout=MOST_SECONDS, cwd=self.place)

    def wants(self, what, is_so, done):
        if not is_so:
            raise Failure(f"{what}: status {done.returncode}, {len(done.stdout)} bytes, {done.stderr.decode()!r:.600}")
        self.checks += 1

    def long_form(self, copy, *options):
        """The bytes of a restore that names the files of a copy's chain."""
        names = [f"shop/copy-{word}" for word in reversed(TAKEN[copy].replace("copy ", "").split(", on "))]
        return self.run("restore", *options, "shop/log", "shop/master", *names)

    def takes(self, what, copy, *words, before=()):
        """The folder's restore takes this copy, behind lines that begin so."""
        wanted = self.long_form(copy)
        done = self.run("restore", *words, "shop")
        lines = done.stderr.decode().splitlines()
        is_told = lines[-1:] == [f"imgcopy: shop: restored from {TAKEN[copy]}"] and all(
            any(line.startswith(it) for line in lines[:-1]) for it in before) and bool(before) == bool(lines[:-1])
        self.wants(what, done.returncode == 0 and done.stdout == wanted.stdout and is_told, done)

    def refused(self, what, status, *words, told=()):
        """Nothing is restored, and no output is there."""
        for options in ((), ("-o", "v"), ("--log-out", "l"), ("-o", "v", "--log-out", "l")):
            done = self.run("restore", *options, *words)
            text = done.stderr.decode()
            is_left = not done.stdout and not any(self.place.glob("[vl]*")) and "restored from" not in text
            self.wants(f"{what} {options}", done.returncode == status and is_left and all(it in text for it in told), done)

    def spoiled(self, name, data):
        """Writes other bytes under a name, and answers how to put the old ones back."""
        old = (self.folder / name).read_bytes()
        (self.folder / name).write_bytes(data(old))
        return lambda: (self.folder / name).write_bytes(old)


def filled(restorer):
    restorer.folder.mkdir()
    lives = (["begin", "set 1 0 0 5", "commit 1"], ["begin", "set 2 1 3 9", "commit 2"],
             ["begin", "add 3 0 0 7", "commit 3", "begin", "set 4 2 1 1", "force"], ["begin", "set 5 2 2 8", "commit 5"])
    for place, lines in enumerate(lives):
        done = restorer.run("open", "shop", "--pages", str(PAGES), lines=lines)
        restorer.wants("a life", done.returncode == 0, done)
        done = restorer.run("backup", *(["--full"] if place == 3 else []), "shop")
        restorer.wants("a backup", done.returncode == 0, done)


def options(restorer):
    restorer.takes("the newest copy", 4)
    for copy in TAKEN:
        restorer.takes(f"copy {copy}", copy, "--copy", str(copy))
    for copy in TAKEN:
        wanted = restorer.long_form(copy, "-o", "wanted", "--log-out", "wanted-log")
        done = restorer.run("restore", f"--copy={copy}", "-o", "v", "--log-out", "l", "shop/")
        both = [(restorer.place / name).read_bytes() for name in ("v", "l", "wanted", "wanted-log")]
        restorer.wants("both outputs", (done.returncode, wanted.returncode) == (0, 0) and both[:2] == both[2:], done)
        done = restorer.run("restore", "shop", "-o", "l", "--copy", str(copy))
        restorer.wants("a log that stands", done.returncode == 2 and (restorer.place / "l").read_bytes() == both[1], done)
        done = restorer.run("restore", "shop", "-o", "l", "--force", "--copy", str(copy))
        restorer.wants("by force", done.returncode == 0 and (restorer.place / "l").read_bytes() == both[0], done)
        for name in ("v", "l", "wanted", "wanted-log"):
            (restorer.place / name).unlink()
    opened = subprocess.Popen([restorer.program, "open", "shop"], stdin=subprocess.PIPE, stdout=subprocess.PIPE,
                              cwd=restorer.place)
    opened.stdout.readline()
    restorer.takes("an open database", 4)
    opened.communicate(b"")


def until(restorer):
    commits = restorer.run("show", "--commits", "shop/log").stdout.decode().splitlines()[1:]
    last = commits[-1].split()[1]
    done, wanted = restorer.run("restore", "--until", last, "shop"), restorer.long_form(4, "--until", last)
    restorer.wants("until a commit", done.returncode == wanted.returncode and done.stdout == wanted.stdout, done)
    first = commits[0].split()[1]
    done = restorer.long_form(4, "--until", first)
    restorer.refused("until a commit before the copy", done.returncode, "--until", first, "shop",
                     told=[done.stderr.decode().splitlines()[0]])
    restorer.refused("until no record", 2, "--until", "7", "shop", told=["BadRecord 7"])


def broken(restorer):
    def cut(data):
        return data[:-1]

    def flipped(data):
        return bytes([data[0] ^ 1]) + data[1:]

    out = "imgcopy: shop: {} is left out"
    following = "imgcopy: shop: {} is tried next"
    back = restorer.spoiled("copy-4", cut)
    restorer.takes("a copy that is cut", 3, before=["E", "imgcopy: shop/copy-4 ", out.format(TAKEN[4]),
                                                    following.format(TAKEN[3])])
    restorer.refused("the copy that is cut", 2, "--copy", "4", "shop", told=["imgcopy: shop/copy-4 "])
    backs = [back, restorer.spoiled("copy-2", cut)]
    restorer.takes("two that are cut", 1, before=[out.format(TAKEN[4]), out.format(TAKEN[3]), following.format(TAKEN[1])])
    restorer.refused("one that stands on a cut one", 2, "--copy", "3", "shop", told=["imgcopy: shop/copy-2 "])
    backs.append(restorer.spoiled("copy-1", cut))
    first = restorer.run("restore", "shop").stderr.decode().splitlines()
    restorer.refused("all are cut", 2, "shop", told=[first[0], "copy 1 is left out"])
    for back in backs:
        back()
    back = restorer.spoiled("copy-4", flipped)
    restorer.takes("a header that is none", 3, before=["E", "imgcopy: shop/copy-4"])
    back()
    (restorer.folder / "copy-2").rename(restorer.place / "kept")
    restorer.takes("a parent that is gone, below a full copy", 4)
    restorer.refused("a parent that is gone", 1, "--copy", "3", "shop", told=["E37 ChainBroken 3", "copy 3 is not there, or lacks"])
    (restorer.folder / "copy-4").rename(restorer.place / "kept-4")
    restorer.takes("what is left is the full copy", 1)
    (restorer.folder / "copy-2").mkdir()
    restorer.takes("a folder has the name of a copy", 1, before=["E33 ReadFault", "imgcopy: shop/copy-2: "])
    (restorer.folder / "copy-2").rmdir()
    (restorer.place / "kept").rename(restorer.folder / "copy-2")
    (restorer.place / "kept-4").rename(restorer.folder / "copy-4")
    restorer.refused("a copy that is not there", 1, "--copy", "9", "shop", told=["E37 ChainBroken 9"])


def logs(restorer):
    """What is wrong with the log, or with both, is final."""
    back = restorer.spoiled("log", lambda data: data[:-1])
    restorer.refused("a torn log", 2, "--no-manifest", "shop", told=["Torn", "imgcopy: shop/log (log)"])
    restorer.refused("a torn log beside its manifest", 2, "shop", told=["imgcopy: shop/log (log): " + OTHER])
    back()
    end = len((restorer.folder / "log").read_bytes())
    back = restorer.spoiled("log", lambda data: data[:end // 128 * 64])
    restorer.refused("a log that was cut", 2, "--no-manifest", "shop",
                     told=[f"E35 BadChain {end // 128 * 64}", f"imgcopy: shop/log: ends at {end // 128 * 64}: `closed` says"])
    restorer.refused("a log that was cut beside its manifest", 2, "shop", told=["imgcopy: shop/log (log): " + OTHER])
    back()
    # Of a pipe an open may never end.
    for name in ("log", "master"):
        back = restorer.spoiled(name, lambda data: data)
        (restorer.folder / name).unlink()
        os.mkfifo(restorer.folder / name)
        told = ["E33 ReadFault", f"imgcopy: shop/{name}: this is no regular file"]
        restorer.refused(f"a pipe as the {name}", 2, "shop", told=told)
        restorer.refused(f"a pipe as the {name}, and a copy", 2, "--copy", "1", "shop", told=told)
        (restorer.folder / name).unlink()
        back()
    restorer.takes("the files are back", 4)


def named(restorer):
    """A manifest names the log and another newest copy."""
    kept = (restorer.folder / "manifest").read_bytes()
    names = ["log", "master", "copy-1", "copy-2", "copy-3", "copy-4"]
    text = f"# imgcopy manifest 1 database {'0' * 32}\n"
    for name in names:
        data = (restorer.folder / name).read_bytes()
        text += f"# {'first' if name == 'log' else 'whole'} {len(data)}"
        text += " " if name == "log" else "\n"
        text += f"{hashlib.sha256(data).hexdigest()}  {name}\n"
    (restorer.folder / "manifest").write_text(text)
    restorer.takes("a manifest names all", 4)
    back = restorer.spoiled("copy-4", lambda data: data[:-1] + bytes([data[-1] ^ 1]))
    restorer.takes("a manifest names another copy", 3, before=["E33 ReadFault", "imgcopy: shop/copy-4 (image copy): " + OTHER])
    restorer.refused("the other copy", 2, "--copy", "4", "shop", told=[OTHER])
    back()
    (restorer.folder / "manifest").write_bytes(kept)


def usage(restorer):
    (restorer.place / "bare").mkdir()
    redo = "imgcopy redo < bare/log makes the volume of the log alone"
    restorer.refused("no copies", 1, "bare", told=["E37 ChainBroken 0", f"imgcopy: bare: there is no copy: {redo}"])
    (restorer.place / "bare" / "copy-2").write_bytes((restorer.folder / "copy-2").read_bytes())
    restorer.refused("a copy alone that stands on another", 1, "bare",
                     told=["E37 ChainBroken 0", f"imgcopy: bare: no copy is whole: {redo}"])
    (restorer.place / "bare" / "copy-1").symlink_to("nowhere")
    restorer.refused("a link that leads nowhere below it", 1, "bare", told=["E33 ReadFault", "imgcopy: bare: no copy is whole"])
    missing = "error: the following required arguments were not provided:\n  <MASTER>\n"
    done = restorer.run("restore", "shop/log")
    restorer.wants("a file alone", done.returncode == 2 and done.stderr.decode().startswith(missing)
                   and done.stderr.decode().endswith("For more information, try '--help'.\n"), done)
    restorer.refused("no folder", 2, "nowhere", told=[missing, "imgcopy: nowhere: No such file or directory"])
    restorer.refused("no folder, and a copy", 2, "--copy=1", "nowhere", told=["E33 ReadFault", "imgcopy: nowhere: "])
    for copy in ("0", "x", "", "4294967296"):
        restorer.refused(f"copy {copy!r}", 2, f"--copy={copy}", "shop", told=["'--copy <N>'"])
    restorer.refused("--copy beside files", 2, "--copy=1", "shop/log", "shop/master", "shop/copy-1", told=["error: "])


def main(arguments):
    try:
        if len(arguments) != 1:
            raise Failure("usage: python3 -m checks.restore_folder PROGRAM")
        with tempfile.TemporaryDirectory() as place:
            restorer = Restorer(program_of(arguments[0]), Path(place))
            filled(restorer)
            for check in (options, until, broken, logs, named, usage):
                check(restorer)
    except (Failure, OSError, subprocess.SubprocessError) as failure:
        sys.exit(f"restore_folder.py: {failure}")
    print(f"ok restore_folder: {restorer.checks} restores of folders are as they should be")


if __name__ == "__main__":
    main(sys.argv[1:])
