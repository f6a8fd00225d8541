"""Has imgcopy write files where logs, copies and other files stand, and where another one has the folder open.

usage: python3 -m checks.outputs PROGRAM

No output takes the place of a log, a master record, a copy or an input of its command unless `--force` says so: `redo -o`,
`restore -o` and `restore --log-out` are refused there, name the file and what it is, and change nothing, be it there before
the command or put there meanwhile. With `--force` they replace it, but no file that another one has locked. `run --save`
writes its files over those of another run, and is refused in the folder of a database, before it plays its script.
Where another one has the folder, as an open database has, they are refused; many of them in one folder do not stand in each
other's way. What a killed one left is told by the next one, and stays; what a living one writes is not told, nor is an
input of such a name. No output gets the name of an unfinished file. Then audits read pipes, and names with escape sequences
are told.
"""

import fcntl
import os
import shutil
import signal
import subprocess
import sys
import tempfile
import time
from contextlib import contextmanager
from pathlib import Path

from checks.manifest_text import NAME, manifest_of, without_manifest

EXAMPLES = Path(__file__).resolve().parent.parent / "examples"
FILES = ("log", "master", "copy-1", "copy-2", "copy-3")
MOST_SECONDS = 60
AT_ONCE = 24
VOLUME = b"\0\0\0\0\1\0\0\0" + bytes(504)
OPEN = "another one has this folder open"
HEAD = b"# imgcopy manifest 1 database 00112233445566778899aabbccddeeff\n"
OF_DATABASE = "this is a database's folder: name another one, or add --force"
MAY_BE = "this may be the manifest of a database: name another folder, or add --force"


class Failure(Exception):
    """What differs, in one line."""


def content(folder):
    """The files of a folder and of those in it."""
    return {str(path.relative_to(folder)): path.read_bytes() for path in folder.rglob("*") if path.is_file()}


@contextmanager
def locked(path):
    handle = os.open(path, os.O_RDONLY)
    try:
        fcntl.flock(handle, fcntl.LOCK_EX)
        yield
    finally:
        os.close(handle)


class Writer:
    """Runs commands in a folder that has the files of a day."""

    def __init__(self, program, place):
        self.program, self.folder, self.day, self.checks = program, place / "top", place / "day", 0
        self.script = (EXAMPLES / "day.script").read_bytes()
        self.day.mkdir()
        subprocess.run([program, "run", "--pages", "3", "--save", str(self.day)], input=self.script, check=True,
                       capture_output=True, timeout=MOST_SECONDS)
        self.files = {name: (self.day / name).read_bytes() for name in FILES}
        self.log = self.files["log"]
        self.manifest = manifest_of(self.files, HEAD)
        self.fill()
        self.commands = {"redo -o": (["redo", "-o"], [], self.log, self.run("redo", data=self.log).stdout),
                         "restore -o": (["restore", "-o"], FILES, b"", self.run("restore", *FILES).stdout),
                         "restore --log-out": (["restore", "--log-out"], FILES, b"", None)}
        self.run("restore", "-o", "new-volume", "--log-out", "new-log", *FILES)
        first, files, data, _ = self.commands["restore --log-out"]
        self.commands["restore --log-out"] = (first, files, data, (self.folder / "new-log").read_bytes())

    def fill(self):
        shutil.rmtree(self.folder, ignore_errors=True)
        shutil.copytree(self.day, self.folder)
        (self.folder / "out").mkdir()

    def start(self, *words, stdin=subprocess.PIPE):
        return subprocess.Popen([self.program, *map(str, words)], stdin=stdin, stdout=subprocess.PIPE,
                                stderr=subprocess.PIPE, cwd=self.folder)

    def run(self, *words, data=b""):
        return subprocess.run([self.program, *map(str, words)], input=data, capture_output=True, timeout=MOST_SECONDS,
                              cwd=self.folder)

    def write(self, name, path, *options):
        """One of the commands, to this path."""
        first, files, data, _ = self.commands[name]
        return self.run(*first, path, *options, *files, data=data)

    def see(self, what, done, status, told, before=None):
        """How it ended, what it told, and that it changed nothing."""
        said = done.stderr.decode(errors="replace") if isinstance(done.stderr, bytes) else done.stderr
        if done.returncode != status or said != told:
            raise Failure(f"{what}: status {done.returncode}, standard error {said[:300]!r} in place of {told[:200]!r}")
        if before is not None and content(self.folder) != before:
            raise Failure(f"{what}: the files are other ones")
        self.checks += 1

    def see_kept(self, what, done, path, why, before):
        self.see(what, done, 2, f"E29 WriteFault 0\nimgcopy: {path}: {why}: --force replaces it\n", before)


# What stands in the place of an output: its name, its bytes, and what it is

def standing(writer):
    archive, master = (writer.day / "copy-1").read_bytes(), (writer.day / "master").read_bytes()
    yield from (("v", writer.log, "this is a log"), ("v", writer.log[:7] + b"1" + writer.log[8:], "this is a log"),
                ("v", b"AIMGLOG9", "this is a log"), ("log", writer.log[:64], "this is a log"),
                ("copy-1", writer.log, "this is a log"), ("v", master, "this is a master record"),
                ("v", archive, "this is an image copy"), ("log", archive[:100], "this is an image copy"),
                ("v", writer.manifest, "this is a manifest"),
                ("manifest", b"# imgcopy manifest 9", "this is a manifest"))
    for data in (b"", b"old", b"AIMGLO", bytes(8192)):
        yield from (("closed", data, "this may be the note of a closing, by its name"),
                    ("log.left-out-1", data, "this may have been put aside by an opening, by its name"),
                    ("copy-1.refused-2", data, "this may have been put aside by an opening, by its name"))
    for data in (b"", b"AIMGLO", bytes(8192)):
        yield from (("log", data, "this may be a log, by its name"),
                    ("master", data, "this may be a master record, by its name"),
                    ("copy-1024", data, "this may be an image copy, by its name"))


def replaceable():
    yield from (("v", None), ("v", b""), ("v", b"old"), ("v", b"# imgcopy manifest"), ("log", VOLUME), ("v", VOLUME), ("copy-01", b"old"),
                ("copy-", b"old"), ("log.old", b"old"))


def check_kept(writer):
    for name in writer.commands:
        made = writer.commands[name][3]
        for target, data, why in standing(writer):
            writer.fill()
            path = writer.folder / "out" / target
            path.write_bytes(data)
            what, before = f"{name} out/{target} of {data[:8]!r}", content(writer.folder)
            writer.see_kept(what, writer.write(name, f"out/{target}"), f"out/{target}", why, before)
            writer.see(f"{what} --force", writer.write(name, f"out/{target}", "--force"), 0, "",
                       before | {f"out/{target}": made})
        for target, data in replaceable():
            writer.fill()
            if data is not None:
                (writer.folder / "out" / target).write_bytes(data)
            writer.see(f"{name} out/{target} of {data!r}", writer.write(name, f"out/{target}"), 0, "",
                       content(writer.folder) | {f"out/{target}": made})
    if os.geteuid():
        writer.fill()
        path = writer.folder / "out" / "v"
        path.write_bytes(b"old")
        path.chmod(0)
        done = writer.write("redo -o", "out/v")
        writer.see("redo -o of a file that cannot be read", done, 2, "E29 WriteFault 0\nimgcopy: out/v: this cannot be read,"
                   " and may be a log: --force replaces it\n")


def check_inputs(writer):
    """An input has other names, too: links, and standard input has none."""
    writer.fill()
    for name, target in (("input", None), ("hard", "input"), ("soft", "input")):
        path = writer.folder / name
        if name == "hard":
            path.hardlink_to(writer.folder / target)
        elif name == "soft":
            path.symlink_to(target)
        else:
            path.write_bytes(b"no log")
    before, why = content(writer.folder), "this is an input of the same command"
    for path in ("input", "hard", "./input", "../top/input"):
        with open(writer.folder / "input", "rb") as source:
            done = subprocess.run([writer.program, "redo", "-o", path], stdin=source, capture_output=True,
                                  cwd=writer.folder, timeout=MOST_SECONDS)
        writer.see_kept(f"redo -o {path} < input", done, path, why, before)
        for names in (["input", "master", "copy-1"], ["log", "soft", "copy-1"], ["log", "master", "copy-1", "hard"]):
            for option in ("-o", "--log-out"):
                done = writer.run("restore", option, path, *names)
                writer.see_kept(f"restore {option} {path} {names}", done, path, why, before)
    done = writer.run("restore", "--force", "-o", "log", *FILES)
    writer.see("restore --force -o of its input", done, 0, "", before | {"log": writer.commands["restore -o"][3]})


# Saves

def save(writer, *options):
    return writer.run("run", "--pages", 3, "--save", "out", *options, data=writer.script)


def see_saved(writer, what, done, told, others, with_manifest):
    """The files of the day are there, a manifest of them where one is to be, and these others as they were."""
    writer.see(what, done, 0, told)
    given = {path.name: path.read_bytes() for path in (writer.folder / "out").iterdir() if path.is_file()}
    if (NAME in given) != with_manifest:
        raise Failure(f"{what}: {sorted(given)}")
    if with_manifest:
        text = given.pop(NAME)
        without_manifest({**writer.files, NAME: text})
        if text.startswith(HEAD):
            raise Failure(f"{what}: the manifest has the older name")
    if given != others | writer.files:
        raise Failure(f"{what}: {sorted(given)}, or other bytes")


def check_saves(writer):
    """What stands there is no database's: the files are written, and what is of another run is told."""
    for name, data in ((None, b""), *writer.files.items(), ("log", b""), ("log", b"a text"), ("master", b"x"), ("copy-3", VOLUME),
                       ("copy-1024", b"x"), ("copy-9", writer.log), ("copy-0", b"x"), ("copy-1025", b"x"), ("log.old", writer.log),
                       ("manifest", writer.manifest), ("manifest", b"")):
        for options in ([], ["--manifest"], ["--force"], ["--manifest", "--force"]):
            writer.fill()
            if name is not None:
                (writer.folder / "out" / name).write_bytes(data)
            told = f"imgcopy: out: not of this run: {name}\n" if name in ("copy-9", "copy-1024") else ""
            see_saved(writer, f"run --save {options} beside {name}", save(writer, *options), told,
                      {name: data} if name not in (None, NAME) else {}, "--manifest" in options or name == NAME)
    # An older run that had more: its master record and its copies stay, and are told.
    writer.fill()
    writer.run("run", "--pages", 3, "--save", "out", "--manifest", data=writer.script)
    done = writer.run("run", "--pages", 2, "--save", "out", data=b"begin\n")
    writer.see("a smaller run behind another one", done, 0, "imgcopy: out: not of this run: master copy-1 copy-2 copy-3\n")
    done = writer.run("restore", "out/log", "out/master", "out/copy-1")
    writer.see("a restore of its files", done, 2, "E35 BadChain 1024\nimgcopy: out/master (master record): the log has no complete"
               " checkpoint from 1024 to 1088\n")


def databases(writer):
    """What says that a folder is a database's, how it is made there, and why a save is refused then."""
    grows = manifest_of(writer.files, HEAD, grows=True)
    yield from (("volume", lambda path: path.write_bytes(VOLUME), OF_DATABASE),
                ("volume", lambda path: path.symlink_to("nowhere"), OF_DATABASE),
                ("closed", lambda path: path.write_bytes(b"640\n"), OF_DATABASE),
                ("manifest", lambda path: path.write_bytes(grows), OF_DATABASE),
                ("manifest", lambda path: path.write_bytes(HEAD), OF_DATABASE),
                ("manifest", lambda path: path.write_bytes(b"x"), MAY_BE),
                ("manifest", lambda path: path.write_bytes(writer.manifest[:-1]), MAY_BE),
                ("manifest", lambda path: path.symlink_to("nowhere"), MAY_BE))


def check_databases(writer):
    for name, make, why in databases(writer):
        for options in ([], ["--manifest"]):
            writer.fill()
            make(writer.folder / "out" / name)
            before, done = content(writer.folder), save(writer, *options)
            writer.see(f"run --save {options} beside {name}", done, 2, f"E29 WriteFault 0\nimgcopy: out/{name}: {why}\n", before)
            if done.stdout:
                raise Failure(f"run --save beside {name}: the script is played")
            others = {name: data for name, data in ((path.name, path.read_bytes()) for path in (writer.folder / "out").iterdir()
                                                    if path.is_file()) if name != NAME}
            see_saved(writer, f"run --save --force {options} beside {name}", save(writer, "--force", *options), "", others,
                      name == NAME or "--manifest" in options)
    for make in (os.mkdir, os.mkfifo):
        writer.fill()
        make(writer.folder / "out" / "manifest")
        done = save(writer)
        writer.see("run --save beside no regular manifest", done, 2, f"E29 WriteFault 0\nimgcopy: out/manifest: {MAY_BE}\n",
                   content(writer.folder))


def check_meanwhile(writer):
    """A log is put there while the script is played, or while the volume is made; or a database."""
    for name, make, why in ((None, lambda path: None, None), *databases(writer)):
        writer.fill()
        child = writer.start("run", "--pages", 3, "--save", "out")
        child.stdin.write(writer.script[:100])
        child.stdin.flush()
        time.sleep(0.2)
        (writer.folder / "out" / "copy-2").write_bytes(writer.log)
        make(writer.folder / "out" / (name or "none"))
        before = content(writer.folder)
        _, child.stderr = child.communicate(writer.script[100:], timeout=MOST_SECONDS)
        if name is None:
            see_saved(writer, "a copy comes while a run plays", child, "", {}, False)
        else:
            writer.see(f"{name} comes while a run plays", child, 2, f"E29 WriteFault 0\nimgcopy: out/{name}: {why}\n", before)
    writer.fill()
    child = writer.start("redo", "-o", "out/v")
    child.stdin.write(writer.log[:100])
    child.stdin.flush()
    wait_for(writer.folder / "out" / "v.unfinished-1")
    (writer.folder / "out" / "v").write_bytes(writer.log)
    _, child.stderr = child.communicate(writer.log[100:], timeout=MOST_SECONDS)
    writer.see_kept("a log comes while a volume is made", child, "out/v", "this is a log",
                    content(writer.day) | {"out/v": writer.log})


def wait_for(path):
    end = time.monotonic() + MOST_SECONDS
    while not path.exists():
        if time.monotonic() > end:
            raise Failure(f"{path.name} does not come")
        time.sleep(0.001)


# Locks

def refused_everywhere(writer, what, folder, why):
    """No command writes a file into this folder, whatever it is told."""
    told = f"E29 WriteFault 0\nimgcopy: {folder}: {why}\n"
    before = content(writer.folder)
    for options in ([], ["--force"]):
        for name in writer.commands:
            writer.see(f"{name}, {what}", writer.write(name, f"{folder}/x", *options), 2, told, before)
        done = writer.run("restore", "-o", "elsewhere", "--log-out", f"{folder}/x", *options, *FILES)
        writer.see(f"restore -o --log-out, {what}", done, 2, told, before)
        done = writer.run("run", "--pages", 3, "--save", folder, *options, data=writer.script)
        if done.stdout:
            raise Failure(f"run --save, {what}: the script is played")
        writer.see(f"run --save, {what}", done, 2, told, before)


def check_locks(writer):
    writer.fill()
    with locked(writer.folder / "out"):
        refused_everywhere(writer, "a folder that is locked", "out", OPEN)
    database = writer.start("open", "out", "--pages", 3)
    database.stdin.write(b"begin\nset 1 0 0 7\n")
    database.stdin.flush()
    wait_for(writer.folder / "out" / "log")
    while b"lsn" not in database.stdout.readline():
        pass
    refused_everywhere(writer, "beside an open database", "out", OPEN)
    done = writer.run("restore", "--log-out", "out/log", "--force", *FILES)
    writer.see("restore --log-out over the log of an open database", done, 2,
               f"E29 WriteFault 0\nimgcopy: out: {OPEN}\n")
    said = database.communicate(b"commit 1\n", timeout=MOST_SECONDS)[0]
    if database.returncode or b"lsn" not in said:
        raise Failure(f"the open database: status {database.returncode}, {said!r}")
    before = content(writer.folder)
    for name in writer.commands:
        writer.see_kept(f"{name} over the log of a closed database", writer.write(name, "out/log"), "out/log",
                        "this is a log", before)
    writer.see("run --save over a closed database", save(writer), 2, f"E29 WriteFault 0\nimgcopy: out/volume: {OF_DATABASE}\n", before)
    check_links(writer)


def check_links(writer):
    """A log that is open by another name is not replaced, though its folder is free."""
    writer.fill()
    elsewhere = writer.folder / "elsewhere"
    elsewhere.write_bytes(writer.log)
    (writer.folder / "out" / "log").hardlink_to(elsewhere)
    before = content(writer.folder)
    with locked(elsewhere):
        for name in writer.commands:
            writer.see(f"{name} over a log that is open", writer.write(name, "out/log", "--force"), 2,
                       "E29 WriteFault 0\nimgcopy: out/log: another one has this log open\n", before)
        for name in ("log", "another name of it"):
            (writer.folder / "out" / "log").unlink()
            if name == "log":
                (writer.folder / "out" / "log").hardlink_to(elsewhere)
            else:
                (writer.folder / "out" / "log").symlink_to(elsewhere)
            for options in ([], ["--force"]):
                done = save(writer, *options)
                writer.see(f"run --save {options} over {name} that is open", done, 2,
                           "E29 WriteFault 0\nimgcopy: out/log: another one has this log open\n", before)
                if done.stdout:
                    raise Failure(f"run --save over {name} that is open: the script is played")
        (writer.folder / "out" / "log").unlink()
        (writer.folder / "out" / "log").hardlink_to(elsewhere)
    writer.see("restore -o over a log that was open", writer.write("restore -o", "out/log", "--force"), 0, "")


def check_at_once(writer):
    """Many outputs go into one folder, and two of one command."""
    writer.fill()
    children = []
    for number in range(AT_ONCE):
        with open(writer.day / "log", "rb") as source:
            children.append(writer.start("redo", "-o", f"out/v{number}", stdin=source))
    for number, child in enumerate(children):
        _, child.stderr = child.communicate(timeout=MOST_SECONDS)
        writer.see(f"output {number} of {AT_ONCE} at once", child, 0, "")
    volume = writer.commands["redo -o"][3]
    if content(writer.folder / "out") != {f"v{number}": volume for number in range(AT_ONCE)}:
        raise Failure(f"{AT_ONCE} outputs at once: another file is there, or one is missing")
    restored, log = writer.commands["restore -o"][3], writer.commands["restore --log-out"][3]
    (writer.folder / "other").mkdir()
    for volume_path, log_path in (("out/v", "out/l"), ("out/v2", "other/l"), ("v3", "out/../l3"), ("out/v", "out/../out/m")):
        done = writer.run("restore", "-o", volume_path, "--log-out", log_path, *FILES)
        writer.see(f"restore -o {volume_path} --log-out {log_path}", done, 0, "")
        if (writer.folder / volume_path).read_bytes() != restored or (writer.folder / log_path).read_bytes() != log:
            raise Failure(f"restore -o {volume_path} --log-out {log_path}: another volume or log")
    # One of two is refused: neither is put in place.
    before = content(writer.folder)
    writer.see_kept("restore -o --log-out, and the log stands", writer.run("restore", "-o", "new", "--log-out", "out/l", *FILES),
                    "out/l", "this is a log", before)
    writer.see_kept("restore -o --log-out over a log", writer.run("restore", "-o", "out/l", "--log-out", "new", *FILES),
                    "out/l", "this is a log", before)


# What killed commands leave

def left(name):
    return f"imgcopy: {name}: left by a command that was cut off; it may be deleted\n"


def see_left(writer, what, done, names, before):
    """It went well, told these names in any order, and removed nothing."""
    done.stderr = "".join(sorted(done.stderr.decode().splitlines(keepends=True)))
    writer.see(what, done, 0, "".join(sorted(map(left, names))), before)


def check_leftovers(writer):
    for name in writer.commands:
        writer.fill()
        out, made = writer.folder / "out", writer.commands[name][3]
        for other in ("w.unfinished-1", "v.unfinished-x", "v.unfinished-", "av.unfinished-1", "v.unfinished-1.old"):
            (out / other).write_bytes(b"left")
        (out / "v.unfinished-5").symlink_to("nothing")
        (out / "v.unfinished-6").mkdir()
        for number in (1, 3, 12):
            (out / f"v.unfinished-{number}").write_bytes(b"left")
        before = content(writer.folder)
        with locked(out / "v.unfinished-3"):
            see_left(writer, f"{name} beside what is left", writer.write(name, "out/v"),
                     ("out/v.unfinished-1", "out/v.unfinished-12"), before | {"out/v": made})
        if not (out / "v.unfinished-5").is_symlink():
            raise Failure(f"{name}: a link is removed")
    writer.fill()
    child = writer.start("redo", "-o", "out/v")
    child.stdin.write(writer.log[:64])
    child.stdin.flush()
    wait_for(writer.folder / "out" / "v.unfinished-1")
    time.sleep(0.2)
    writer.see("redo -o beside one that lives", writer.write("redo -o", "out/v"), 0, "")
    done = writer.run("run", "--pages", 3, "--save", "out", data=writer.script)
    writer.see("run --save beside one that lives", done, 0, "")
    child.send_signal(signal.SIGKILL)
    child.communicate(timeout=MOST_SECONDS)
    done = writer.run("run", "--pages", 3, "--save", "out", data=writer.script)
    writer.see("run --save behind one that was killed", done, 0, left("out/v.unfinished-1"))
    writer.see("redo -o behind one that was killed", writer.write("redo -o", "out/v"), 0, left("out/v.unfinished-1"))
    if sorted(content(writer.folder / "out")) != sorted([*FILES, "v", "v.unfinished-1"]):
        raise Failure(f"what is left: {sorted(content(writer.folder / 'out'))}")


def check_left_inputs(writer):
    """Inputs have names of unfinished files of the output: they stay, and are not told."""
    restored = writer.commands["restore -o"][3]
    for option, made in (("-o", restored), ("--log-out", writer.commands["restore --log-out"][3])):
        writer.fill()
        for name, number in (("log", 1), ("copy-1", 2), ("master", 4)):
            (writer.folder / name).rename(writer.folder / f"db.unfinished-{number}")
        (writer.folder / "away").mkdir()
        (writer.folder / "db.unfinished-5").write_bytes(b"left")
        (writer.folder / "db.unfinished-1").rename(writer.folder / "away" / "log")
        (writer.folder / "db.unfinished-1").hardlink_to(writer.folder / "away" / "log")
        before = content(writer.folder)
        done = writer.run("restore", option, "db", "away/log", "db.unfinished-4", "db.unfinished-2", "copy-2", "copy-3")
        see_left(writer, f"restore {option} beside its inputs", done, ("./db.unfinished-5",), before | {"db": made})
    for force in ([], ["--force"]):
        writer.fill()
        (writer.folder / "db.unfinished-1").write_bytes(writer.log)
        before = content(writer.folder)
        with open(writer.folder / "db.unfinished-1", "rb") as source:
            done = subprocess.run([writer.program, "redo", "-o", "db", *force], stdin=source, capture_output=True,
                                  cwd=writer.folder, timeout=MOST_SECONDS)
        see_left(writer, f"redo {force} beside its input", done, (), before | {"db": writer.commands["redo -o"][3]})


def check_unfinished_names(writer):
    """Such a name is refused, with --force, too, and other ones that look like it are not."""
    told = "E29 WriteFault 0\nimgcopy: {}: this is the name of an unfinished file: name another one\n"
    for name in writer.commands:
        writer.fill()
        before = content(writer.folder)
        for options in ([], ["--force"]):
            for path in ("out/v.unfinished-1", "v.unfinished-007", ".unfinished-1", "./log.unfinished-1.unfinished-12"):
                writer.see(f"{name} {path} {options}", writer.write(name, path, *options), 2, told.format(path), before)
        for path in ("v.unfinished-", "v.unfinished-1x", "v.unfinished-1.old", "v.unfinished--1", "v-unfinished-1"):
            writer.see(f"{name} {path}", writer.write(name, path), 0, "", before | {path: writer.commands[name][3]})
            (writer.folder / path).unlink()
    writer.fill()
    before = content(writer.folder)
    for volume, log in (("v.unfinished-1", "l"), ("v", "v.unfinished-1")):
        done = writer.run("restore", "-o", volume, "--log-out", log, *FILES)
        writer.see(f"restore -o {volume} --log-out {log}", done, 2, told.format("v.unfinished-1"), before)


# Audits and names

def check_audits(writer):
    writer.fill()
    told = "imgcopy: no image copy is named: name those of a chain, the full one first\n"
    writer.see("audit without a copy", writer.run("audit", "log"), 1, told)
    writer.see("restore without a copy", writer.run("restore", "log", "master"), 1, f"E37 ChainBroken 0\n{told}")
    sound, copies = "sound\n", "copy-1 copy-2 copy-3"
    for words in (f"--master master <(cat log) {copies}", f"--all <(cat log) {copies}",
                  f"--master <(cat master) --all <(cat log) {copies}", "--all --master <(cat master) log <(cat copy-1)",
                  f"--all log <(cat copy-1) copy-2 <(cat copy-3)"):
        done = subprocess.run(["bash", "-c", f"{writer.program} audit {words}"], capture_output=True, cwd=writer.folder,
                              timeout=MOST_SECONDS)
        if (done.returncode, done.stdout.decode(), done.stderr) != (0, sound, b""):
            raise Failure(f"audit {words}: status {done.returncode}, {done.stdout!r}, {done.stderr[:200]!r}")
        writer.checks += 1
    copy = bytearray((writer.folder / "copy-1").read_bytes())
    for page in range(3):
        copy[64 + 512 * page + 16] ^= 1
    (writer.folder / "bad").write_bytes(copy)
    done = subprocess.run(["bash", "-c", f"{writer.program} audit --all <(cat log) <(cat bad)"], capture_output=True,
                          cwd=writer.folder, timeout=MOST_SECONDS)
    if (done.returncode, done.stdout) != (1, b"E41 Unsound 1 0\nE41 Unsound 1 1\nE41 Unsound 1 2\n"):
        raise Failure(f"audit --all of pipes: status {done.returncode}, {done.stdout!r}")


def check_names(writer):
    writer.fill()
    name, shown = "a\x1b[2J\n\u202eb\\'", "a\\u{1b}[2J\\n\\u{202e}b\\'"
    folder = writer.folder / name
    folder.mkdir()
    (folder / "log").write_bytes(writer.log)
    (folder / "closed").write_bytes(b"640\n")
    missing = "No such file or directory (os error 2)"
    for words, wanted in ((["redo", "-o", f"{name}/log"], f"{shown}/log: this is a log: --force replaces it"),
                          (["redo", "-o", f"no{name}/log"], f"no{shown}: {missing}"),
                          (["restore", f"no{name}", "master", "copy-1"], f"no{shown} (log): {missing}"),
                          (["audit", "log", f"no{name}"], f"no{shown} (image copy): {missing}"),
                          (["show", f"no{name}"], f"no{shown}: {missing}"), (["list", f"no{name}"], f"no{shown}: {missing}"),
                          (["run", "--pages", 1, "--save", name], f"{shown}/closed: {OF_DATABASE}"),
                          (["run", "--pages", 1, "--save", f"no{name}"], f"no{shown}: {missing}")):
        said = writer.run(*words).stderr.decode()
        if f"imgcopy: {wanted}\n" not in said or "\x1b" in said:
            raise Failure(f"{words}: standard error {said[:200]!r}")
        writer.checks += 1
    for words in (["\x1b[2Jredo"], ["redo", "\x1b[2J"], ["help", "\x1b[2J"], ["run", "--pages", "\x1b[2J"]):
        if "\x1b" in writer.run(*words).stderr.decode():
            raise Failure(f"{words}: an escape sequence is told")
        writer.checks += 1
    for copy in ("copy-1\x1b", "copy-\u0661"):
        (folder / copy).write_bytes(b"")
    if "\x1b" in writer.run("list", name).stderr.decode():
        raise Failure("list: an escape sequence is told")


CHECKS = (check_kept, check_inputs, check_saves, check_databases, check_meanwhile, check_locks, check_at_once, check_leftovers,
          check_left_inputs, check_unfinished_names, check_audits, check_names)


def main(arguments):
    try:
        if not arguments:
            raise Failure("usage: python3 -m checks.outputs PROGRAM [NAME]..")
        path = shutil.which(arguments[0])
        if path is None:
            raise Failure(f"there is no program {arguments[0]}")
        failed = []
        with tempfile.TemporaryDirectory() as place:
            writer = Writer(os.path.abspath(path), Path(place))
            for check in CHECKS:
                if arguments[1:] and check.__name__.removeprefix("check_") not in arguments[1:]:
                    continue
                try:
                    check(writer)
                except Failure as failure:
                    failed.append(f"{check.__name__.removeprefix('check_')}: {failure}")
        if failed:
            raise Failure("\n".join(failed))
    except (Failure, OSError, subprocess.SubprocessError) as failure:
        sys.exit(f"outputs.py: {failure}")
    print(f"ok outputs: what is kept stands, what is locked is let be, and what was left is told and stays, {writer.checks} times")


if __name__ == "__main__":
    main(sys.argv[1:])
