"""Has `imgcopy run --save` fail and be killed as it saves its files, and looks at what is left.

usage: python3 -m checks.unsaved PROGRAM [KILLS]

A run saves its files over those of an older run: without a manifest, with one that is asked for, and with one since an
older one stands there. It does so on a file system that is full, on one that is read-only, where a file may not be longer
than so many bytes, where a folder is in the way, and where the program is killed as it writes, KILLS times, 60 where none
is told. Each time there is a file up to which all are new, and from which on all are old, byte for byte; the first line of
the answer has how many bytes of that file went out, the second one names it, and the third one names those that are new.
Then a run that nothing stops saves all, and names what a killed one left. A file system is mounted where the system lets
us, and else is left out.
"""

import os
import random
import resource
import shutil
import signal
import subprocess
import sys
import tempfile
import time
from collections import Counter
from pathlib import Path

from checks.manifest_text import NAME, WrongManifest, manifest_of, without_manifest
from model.scripts import run

KILLS = 60
PAGES, MANY_PAGES = 24, 1000
MOST_SECONDS = 60
UNFINISHED = ".unfinished-"
OLD_HEAD = b"# imgcopy manifest 1 database " + b"0" * 32 + b"\n"
NEW = b"the manifest of the new files"


class Failure(Exception):
    """What differs, in one line."""


def script_of(pages, number, copies):
    """Transactions that change every page, each page written behind them, a checkpoint, and a copy; and so on."""
    for copy in range(1, copies + 1):
        yield from ("begin", *(f"set {copy} {page} 0 {number + copy}" for page in range(pages)), f"commit {copy}")
        yield from (f"{word} {page}" for page in range(pages) for word in ("wbegin", "wend"))
        yield from ("ckpt", "gather", "gather", "gather", "endckpt", "full" if copy == 1 else f"inc {copy - 1}")
        yield from (f"take {copy} {page}" for page in range(pages))
        yield f"seal {copy}"


def text_of(lines):
    return "".join(f"{line}\n" for line in lines).encode()


class Saver:
    """A run that saves five files over those of an older one, which had only so many copies; and a manifest, if the older
    one has left one, or it is an option."""

    def __init__(self, program, pages, copies, *options, had_manifest=False):
        self.program, self.pages, self.options = program, pages, options
        self.has_manifest = had_manifest or "--manifest" in options
        self.text = text_of(script_of(pages, 5, 3))
        # The last record of the older run makes its master record another one, too.
        self.old = run(text_of([*script_of(pages, 1000, copies), "ckpt", "gather", "gather", "endckpt"]), pages).files
        self.ran = run(self.text, pages)
        if len(self.ran.files) != 5 or any(self.old.get(name) == data for name, data in self.ran.files.items()):
            raise Failure("the runs do not save five files, which all differ")
        if had_manifest:
            self.old[NAME] = manifest_of(self.old, OLD_HEAD)
        self.new = self.ran.files | ({NAME: NEW} if self.has_manifest else {})

    def state(self, count):
        """The files, if so many of them are new."""
        new = dict(list(self.new.items())[:count])
        return {name: data for name, data in (self.old | new).items()}

    def put_old(self, folder):
        """Leaves the old files in the folder, and nothing else."""
        for path in folder.iterdir():
            path.unlink()
        for name, data in self.old.items():
            (folder / name).write_bytes(data)

    def marked(self, files):
        """The files, with a mark in the place of the new manifest."""
        if not self.has_manifest:
            return files
        try:
            return files | {NAME: NEW} if without_manifest(self.ran.files | {NAME: files.get(NAME)}) else files
        except WrongManifest:
            return files

    def words(self, folder):
        return [self.program, "run", "--pages", str(self.pages), "--save", str(folder), *self.options]

    def play(self, folder, limit=None):
        def before():
            if limit is not None:
                signal.signal(signal.SIGXFSZ, signal.SIG_IGN)
                resource.setrlimit(resource.RLIMIT_FSIZE, (limit, limit))
        return subprocess.run(self.words(folder), input=self.text, capture_output=True, timeout=MOST_SECONDS,
                              preexec_fn=before)

    def first_old(self, folder, what):
        """How many of the files are new. Those behind are old, and no file is anything else."""
        given = self.marked({path.name: path.read_bytes() for path in folder.iterdir()
                             if path.is_file() and UNFINISHED not in path.name})
        for count in range(len(self.new) + 1):
            if given == {name: data for name, data in self.state(count).items() if not (folder / name).is_dir()}:
                return count
        raise Failure(f"{what}: a file is neither the old one nor the new one")

    def check_end(self, folder, what):
        """Nothing stops the program: all files are new."""
        done = self.play(folder)
        if (done.returncode, done.stdout) != (0, self.ran.answer.output):
            raise Failure(f"{what}, and then all is well: status {done.returncode}, {done.stderr[:80]!r}")
        left = sorted(path.name for path in folder.iterdir() if UNFINISHED in path.name)
        given = self.marked({path.name: path.read_bytes() for path in folder.iterdir() if path.name not in left})
        if given != self.state(len(self.new)):
            raise Failure(f"{what}, and then all is well: the files are not those of the run")
        told = [line for line in done.stderr.decode().splitlines() if "left by a command" in line]
        if sorted(line.split(": ")[1] for line in told) != [f"{folder}/{name}" for name in left]:
            raise Failure(f"{what}, and then all is well: {left} are left, and told is {told}")

    def check_fault(self, folder, what, wanted=None, done=None, reason=""):
        """The run has ended at a file, which it names, with so many bytes of it."""
        done = done or self.play(folder)
        first, second, third, *_ = [*done.stderr.decode(errors="replace").splitlines(), "", "", ""]
        names = list(self.new)
        stopped = next((name for name in names if second.startswith(f"imgcopy: {folder}/{name}: {reason}")), None)
        if done.returncode != 2 or done.stdout != self.ran.answer.output or stopped is None:
            raise Failure(f"{what}: status {done.returncode}, standard error {first!r}, {second!r}")
        if wanted is not None and (stopped, first) != wanted:
            raise Failure(f"{what}: {first!r} of {stopped} in place of {wanted}")
        if self.first_old(folder, what) != names.index(stopped) or self.unfinished(folder):
            raise Failure(f"{what}: {stopped} is named, but others are old, or an unfinished file is left")
        new = "".join(f" {name}" for name in names[:names.index(stopped)])
        if third != f"imgcopy: {folder}: " + (f"these have their new file already:{new}" if new else
                                              "no name has its new file"):
            raise Failure(f"{what}: the third line is {third!r}")

    @staticmethod
    def unfinished(folder):
        return [path for path in folder.iterdir() if UNFINISHED in path.name and path.is_file()]


def fresh(folder):
    shutil.rmtree(folder, ignore_errors=True)
    folder.mkdir()
    return folder


def check_limits(saver, folder):
    """No file may be longer than a limit, as the length of each file is and somewhat less."""
    lengths = sorted({len(data) for data in saver.ran.files.values()})
    limits = sorted({limit for length in lengths for limit in (0, 1, length // 2, length - 1) if limit < max(lengths)})
    for limit in limits:
        saver.put_old(fresh(folder))
        stopped = next(name for name, data in saver.ran.files.items() if len(data) > limit)
        what = f"files of at most {limit} bytes"
        saver.check_fault(folder, what, (stopped, f"E29 WriteFault {limit}"), saver.play(folder, limit),
                          "File too large")
    saver.check_end(folder, "files of a limited length")
    return len(limits)


def check_ways(saver, folder):
    """A folder stands where a file is to be, or the folder is a file."""
    for name in saver.new:
        saver.put_old(fresh(folder))
        (folder / name).unlink(missing_ok=True)
        (folder / name).mkdir()
        if name == NAME:
            check_refused(saver, folder)
        else:
            saver.check_fault(folder, f"a folder in the way of {name}", (name, "E29 WriteFault 0"),
                              reason="Is a directory")
        (folder / name).rmdir()
        if name == NAME and name in saver.old:
            (folder / name).write_bytes(saver.old[name])
        saver.check_end(folder, f"a folder in the way of {name}")
    shutil.rmtree(folder)
    folder.write_bytes(b"")
    done = saver.play(folder)
    if done.returncode != 2 or not done.stderr.startswith(b"E29 WriteFault 0\n") or folder.read_bytes() != b"":
        raise Failure(f"a file in the place of the folder: status {done.returncode}, {done.stderr[:80]!r}")
    folder.unlink()
    return len(saver.new) + 1


def check_refused(saver, folder):
    """What has the name of the manifest may be a database's: nothing is played, or it is in the way by --force."""
    done = saver.play(folder)
    told = f"imgcopy: {folder}/{NAME}: this may be the manifest of a database: name another folder, or add --force\n"
    if (done.returncode, done.stdout, done.stderr.decode()) != (2, b"", f"E29 WriteFault 0\n{told}"):
        raise Failure(f"a folder in the way of the manifest: status {done.returncode}, {done.stderr[:200]!r}")
    words, saver.options = saver.options, (*saver.options, "--force")
    saver.check_fault(folder, "a folder in the way of the manifest, by --force", (NAME, "E29 WriteFault 0"),
                      reason="Is a directory")
    saver.options = words


def mount(folder, options):
    """Mounts a file system in memory, and says whether the system let us."""
    done = subprocess.run(["mount", "-t", "tmpfs", "-o", options, "none", str(folder)], capture_output=True)
    return done.returncode == 0


def check_mounted(saver, folder):
    """A file system that gets full at each of its blocks, and one that is read-only."""
    made = 0
    for blocks in range(1, 64):
        fresh(folder)
        if not mount(folder, f"size={4096 * blocks}"):
            break
        try:
            try:
                saver.put_old(folder)
            except OSError:
                continue  # there is no room even for the old files
            done = saver.play(folder)
            if done.returncode == 0:
                break
            saver.check_fault(folder, f"a file system of {blocks} blocks", done=done, reason="No space left")
            made += 1
            subprocess.run(["mount", "-o", "remount,size=16m", str(folder)], check=True, capture_output=True)
            saver.check_end(folder, f"a file system of {blocks} blocks")
            saver.put_old(folder)
            subprocess.run(["mount", "-o", "remount,ro", str(folder)], check=True, capture_output=True)
            saver.check_fault(folder, "a file system that is read-only", ("log", "E29 WriteFault 0"),
                              reason="Read-only file system")
            made += 1
        finally:
            subprocess.run(["umount", str(folder)], check=True, capture_output=True)
    shutil.rmtree(folder, ignore_errors=True)
    if made == 0 and os.geteuid() != 0:
        saver.put_old(fresh(folder))
        folder.chmod(0o555)
        saver.check_fault(folder, "a folder that is read-only", ("log", "E29 WriteFault 0"), reason="Permission denied")
        folder.chmod(0o755)
        made = 1
    return made


def check_kills(saver, folder, kills):
    """The program is killed as it saves. Which of the files are new then, and how often."""
    draw, counts = random.Random(1), Counter()
    source = folder.with_name("script")
    source.write_bytes(saver.text)
    begin = time.monotonic()
    saver.check_end(fresh(folder), "no kill")
    most = 1.2 * (time.monotonic() - begin)
    for kill in range(kills):
        saver.put_old(fresh(folder))
        with open(source, "rb") as text:
            child = subprocess.Popen(saver.words(folder), stdin=text, stdout=subprocess.DEVNULL,
                                     stderr=subprocess.DEVNULL)
        # Half of them come once the first file is begun.
        wait_until = time.monotonic() + (MOST_SECONDS if kill % 2 else draw.random() * most)
        while time.monotonic() < wait_until and child.poll() is None and not saver.unfinished(folder):
            time.sleep(0.0002)
        if kill % 2:
            time.sleep(draw.random() * most / 4)
        child.kill()
        child.wait()
        counts[saver.first_old(folder, f"kill {kill + 1}")] += 1
        if kill % 10 == 0:
            saver.check_end(folder, f"kill {kill + 1}")
    return counts


def main(arguments):
    try:
        if not 1 <= len(arguments) <= 2 or not all(number.isdigit() for number in arguments[1:]):
            raise Failure("usage: python3 -m checks.unsaved PROGRAM [KILLS]")
        program = shutil.which(arguments[0])
        if program is None:
            raise Failure(f"there is no program {arguments[0]}")
        kills = int(arguments[1]) if arguments[1:] else KILLS
        program = os.path.abspath(program)
        small = [Saver(program, PAGES, 1), Saver(program, PAGES, 1, "--manifest"),
                 Saver(program, PAGES, 1, had_manifest=True)]
        large = [Saver(program, MANY_PAGES, 3), Saver(program, MANY_PAGES, 3, "--manifest", had_manifest=True)]
        limits, ways, mounted, counts = 0, 0, 0, Counter()
        with tempfile.TemporaryDirectory() as place:
            folder = Path(place, "saved")
            for saver in small:
                limits += check_limits(saver, folder)
                ways += check_ways(saver, folder)
                mounted += check_mounted(saver, folder)
            for saver in large:
                counts += check_kills(saver, folder, kills // 2)
    except (Failure, OSError, subprocess.SubprocessError) as failure:
        sys.exit(f"unsaved.py: {failure}")
    print(f"ok unsaved: each file is the old one or the new one, whole, after {limits} limits, {ways} things in the way,"
          f" {mounted} file systems that are full or read-only, and {kills} kills, at {len(counts)} places")


if __name__ == "__main__":
    main(sys.argv[1:])
