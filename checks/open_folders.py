"""A database in a folder: what stands there, what an opening of it says, and what its files have to be. For the scripts
that open such ones."""

import re
import shutil
import subprocess
from collections import Counter

from checks.bank_files import Failure, longest_chains
from checks.unsaved import text_of
from model.lives import closed_at, front_of, has_log, losses, reopen
from model.random_scripts import Play
from model.recovery import Refusal, answer_of, audit_files, read_master, restore_files

MOST_SECONDS = 300
PAGE_OF_A_COPY = re.compile(r"(.*: )page [0-9]+ of (`copy-[0-9]+`) has the change at [0-9]+")


class Files:
    """What stands in a folder, by name: the bytes of each file, and None for what is no file."""

    def __init__(self, files):
        self.all = files
        self.log, self.master, self.volume, self.closed, self.manifest = map(
            self.all.get, ("log", "master", "volume", "closed", "manifest"))
        self.copies = {int(name[5:]): data for name, data in self.all.items()
                       if name.startswith("copy-") and name[5:].isdigit()}

    @classmethod
    def of(cls, folder):
        return cls({path.name: path.read_bytes() if path.is_file() else None for path in sorted(folder.iterdir())})

    def losses(self):
        """What shows that the log lacks records that were forced."""
        return losses(self.log, self.closed, self.manifest, self.master, self.copies)

    def told_losses(self, folder):
        """The lines that tell this on standard error, without their beginning."""
        lost, front = self.losses(), front_of(self.log)
        why = f": {front.why}" if front.why else ""
        return [f"{folder}/log: the log ends at {front.end()}{why}", *(f"{folder}: {loss.text}" for loss in lost)] \
            if lost else []

    def told_note(self, folder):
        """The same of a note that is none."""
        is_wrong = self.closed is not None and closed_at(self.closed) is None
        return [f"{folder}/closed: this is no note of a closing"] if is_wrong else []

    def aside(self, name):
        """The name that what has this one gets, if it is refused and something else needs its name."""
        return self.free(f"{name}.refused", f"{name}.refused-", 2)

    def left_out(self):
        """The name that bytes behind the log get, if they are cut off."""
        return self.free("log.left-out-1", "log.left-out-", 2)

    def free(self, first, other, number):
        name = first
        while name in self.all:
            name, number = f"{other}{number}", number + 1
        return name

    def put_in(self, folder):
        """The folder has just these files then."""
        shutil.rmtree(folder, ignore_errors=True)
        folder.mkdir()
        for name, data in self.all.items():
            (folder / name).mkdir() if data is None else (folder / name).write_bytes(data)


def is_unfinished(name):
    """Whether a life that is killed may leave a file of this name, which the next one removes."""
    return ".unfinished-" in name


def is_left_out(name):
    """Whether bytes that stood behind a log are kept in a file of this name."""
    return name.startswith("log.left-out-") and name.removeprefix("log.left-out-").isdigit()


def with_first_pages(lines):
    """The lines on standard error, without those on a page of a copy behind one on another page of this copy: how many
    pages are told is not compared."""
    kept, copies = [], set()
    for line in lines:
        copy = PAGE_OF_A_COPY.fullmatch(line)
        if copy is None or copy.groups() not in copies:
            kept.append(line)
        copies |= {copy.groups()} if copy else set()
    return kept


def touched(folder):
    """What stands in a folder, and when each file was written."""
    names = [(path.name, path.stat()) for path in folder.iterdir()]
    return {(name, stat.st_ino, stat.st_mtime_ns, stat.st_size) for name, stat in names} | {*Files.of(folder).all.items()}


def check_refusal(words, folder):
    """It is not opened, since the log lacks records that were forced, and nothing is touched."""
    files, before = Files.of(folder), touched(folder)
    done = subprocess.run(words, input=b"begin\n", capture_output=True, timeout=MOST_SECONDS)
    last = f"{folder}: records that were forced are missing, and nothing was changed: keep a copy of the folder;" \
        " --salvage opens what is left"
    wanted = [*(f"imgcopy: {line}" for line in files.told_note(folder)), front_of(files.log).fault(),
              *(f"imgcopy: {line}" for line in [*files.told_losses(folder), last])]
    said = with_first_pages(done.stderr.decode().splitlines())
    if (done.returncode, done.stdout, said) != (2, b"", wanted):
        raise Failure(f"status {done.returncode}, {done.stdout[:100]!r} and {said}, and a refusal is wanted: {wanted}")
    if touched(folder) != before:
        raise Failure(f"it was refused, and {touched(folder) ^ before} differs")


def check_point(master, records, point):
    """The master record names the checkpoint of this log that ends there, or a later one."""
    try:
        _, end = read_master(master, records)
    except Refusal as refusal:
        raise Failure(f"the master record: {refusal.line()}") from refusal
    if end < point:
        raise Failure(f"the master record names the checkpoint at {end}, and one at {point} was told")


class Program:
    """The program, and the folder that it opens."""

    def __init__(self, imgcopy, folder):
        self.imgcopy, self.folder = imgcopy, folder

    def put(self, files):
        Files(files).put_in(self.folder)

    def files(self):
        return Files.of(self.folder).all

    def run(self, *words, data=b"", **options):
        return subprocess.run([self.imgcopy, "open", self.folder, *words], input=data, capture_output=True,
                              timeout=MOST_SECONDS, **options)

    def open(self, *words, lines=()):
        return self.run(*words, data=text_of(lines))

    def killed(self, *words, lines=()):
        """A life that is killed once each of its lines is answered: its answers."""
        child = subprocess.Popen([self.imgcopy, "open", self.folder, *words], stdin=subprocess.PIPE,
                                 stdout=subprocess.PIPE, stderr=subprocess.DEVNULL)
        try:
            child.stdin.write(text_of(lines))
            child.stdin.flush()
            return [child.stdout.readline().decode().removesuffix("\n") for _ in range(len(lines) + 1)]
        finally:
            child.kill()
            child.communicate(timeout=MOST_SECONDS)


class Told(Play):
    """A play that keeps what was answered, and how much was forced behind each reply."""

    def __init__(self, seed, engine):
        super().__init__(seed, engine)
        self.replies, self.forced = [], []

    def say(self, event):
        reply = super().say(event)
        self.replies.append(reply)
        self.forced.append(self.engine.forced)
        return reply


class Judge:
    """Has the program audit and restore what is left."""

    def __init__(self, imgcopy, scratch):
        self.imgcopy, self.scratch, self.made = imgcopy, scratch, Counter()

    def compare(self, wanted, *words):
        done = subprocess.run([self.imgcopy, *words], cwd=self.scratch, capture_output=True, timeout=MOST_SECONDS)
        if (done.returncode, done.stdout) != (wanted.status, wanted.output):
            raise Failure(f"{' '.join(words)}: status {done.returncode}, {done.stderr[:200]!r}, and {wanted!r:.200} is"
                          " wanted")
        self.made[words[0]] += 1

    def check(self, files):
        """Each longest chain of sound copies is audited and restored; the model audits and restores it by its own."""
        if files.log is None or not has_log(files.log) or not files.master:
            return
        front = front_of(files.log)
        log = files.log[:front.end()]
        sound = reopen(log, files.copies)
        chains = {number: [copy.number for copy in sound.engine.chain(number)]
                  for number in files.copies if number not in sound.refused}
        data = {"log": log, "master": files.master} | {f"copy-{number}": copy for number, copy in files.copies.items()}
        for name, bytes_ in data.items():
            (self.scratch / name).write_bytes(bytes_ or b"")
        for chain in longest_chains(chains):
            names, archives = [f"copy-{number}" for number in chain], [files.copies[number] for number in chain]
            self.compare(audit_files(log, archives), "audit", "log", *names)
            self.compare(answer_of(restore_files, log, files.master, archives), "restore", "log", "master", *names)
