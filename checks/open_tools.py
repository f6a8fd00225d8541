"""Opens databases in folders where something stands in the way, and where calls of their files fail.

usage: python3 -m checks.open_tools IMGCOPY LIBRARY

LIBRARY is file_calls.rs, built. A log has two names; a volume is a link; copies cannot be read, or few files may be open;
a file system is full; lines are bad, or have no end; a database is closed. And each call of the files is failed in turn
as a folder is opened, as a copy, a master record and a manifest are put in place, and in a backup and a renewal. Nothing
that was there may be gone then, no answer may be told that is not so, and without the fault all goes well.
"""

import os
import resource
import shutil
import signal
import subprocess
import sys
import tempfile
from pathlib import Path

from checks.bank_files import Failure, memory_place, program_of
from checks.manifest_text import is_manifest_of, misnamed
from checks.open_flips import CHECKPOINT, COPIES, PAGES, Maker, check_kept
from checks.open_folders import MOST_SECONDS, Files, Program, touched
from checks.unsaved import mount, text_of
from model.lives import closed_note, reopen
from model.log_format import RECORD_SIZE
from model.recovery import encode_pages

MOST_CALLS, NOBODY = 200, 65534
NO_SPACE, BROKEN = 28, 5
SEALED = ["full", "take 3 0", "take 3 1", "seal 3", "seal 3"]


class Tools(Maker):
    """The program, and how often a check went well."""

    def __init__(self, imgcopy, library, place):
        super().__init__(imgcopy, place / "folder")
        self.library, self.place, self.checks = library, place, 0
        self.base = self.killed_base()

    def failing(self, failed, lines=(), command=None, folder=None):
        """A life, or this command, in which a call of a file fails, and whether that call was made."""
        words = command or ["open", self.folder]
        reader, writer = os.pipe()
        with os.fdopen(reader, "rb") as report:
            environment = os.environ | {"LD_PRELOAD": self.library, "CALLS_FOLDER": str(folder or self.folder),
                                        "FAILED_CALL": failed, "FAILURE_REPORT": str(writer)}
            done = subprocess.run([self.imgcopy, *words], input=text_of(lines), capture_output=True, env=environment,
                                  pass_fds=(writer,), timeout=MOST_SECONDS)
            os.close(writer)
            return done, report.read(1) == b"!"

    def wants(self, what, is_so, done, folder=None):
        if not is_so:
            names = sorted(path.name for path in (folder or self.folder).iterdir())
            raise Failure(f"{what}: status {done.returncode}, {done.stdout[-300:]!r}, {done.stderr[:400]!r}, in the"
                          f" folder {names}")
        self.checks += 1

    def goes_well(self, what, lines=()):
        """Now nothing stands in the way."""
        before = self.files()
        done = self.open(lines=lines)
        self.wants(f"{what}, and then all is well", done.returncode == 0, done)
        check_kept(before, self.files())
        return done


def answers_of(done):
    return done.stdout.decode().splitlines()


def two_names_of_a_log(tools):
    """The folder is copied, with the link that its log is; or the log has two names in two folders."""
    for way in ("a link", "a second name"):
        one, other, disk = (tools.place / f"{name}-{way[-4:]}" for name in ("one", "other", "disk"))
        for folder in (one, disk):
            folder.mkdir()
        for name, data in tools.base.items():
            ((disk if name == "log" else one) / name).write_bytes(data)
        (one / "log").symlink_to(disk / "log") if way == "a link" else os.link(disk / "log", one / "log")
        shutil.copytree(one, other, symlinks=True)
        if way != "a link":
            (other / "log").unlink()
            os.link(disk / "log", other / "log")
        first = subprocess.Popen([tools.imgcopy, "open", one], stdin=subprocess.PIPE, stdout=subprocess.PIPE)
        first.stdout.readline()
        second = Program(tools.imgcopy, other)
        before, done, after = second.files(), second.run(), second.files()
        said = b"another one has this log open" in done.stderr
        tools.wants(f"a log that another one has open, by {way}", done.returncode == 2 and said and after == before, done,
                    other)
        first.stdin.close()
        first.wait(MOST_SECONDS)
        first.stdout.close()
        done = second.run()
        tools.wants(f"a log that nobody has open any more, by {way}", done.returncode == 0, done, other)


def a_volume_that_is_a_link(tools):
    """What the link leads to is no volume of this database, and stays; where it leads nowhere, nothing is made there."""
    target = tools.place / "precious"
    for data in (b"a letter\n" * 99, None):
        if data is not None:
            target.write_bytes(data)
        else:
            target.unlink()
        tools.put(tools.base)
        (tools.folder / "volume").unlink()
        (tools.folder / "volume").symlink_to(target)
        done = tools.open()
        left = target.read_bytes() if target.exists() else None
        tools.wants("a volume that is a link", left == data and done.returncode in (0, 2), done)
        tools.wants("a volume that is a link, told", done.returncode == 0 or b"volume" in done.stderr, done)
    tools.put(tools.base | {"volume": b"a letter\n" * 99})
    done = tools.open()
    is_left = tools.files()["volume"] == b"a letter\n" * 99
    tools.wants("a volume that is another file", is_left and done.returncode == 2, done)


def check_unread(tools, what, done, is_told):
    """Copies that could not be read have their names and their bytes, and no new copy has their ids."""
    after = {path.name for path in tools.folder.iterdir()}
    moved = [name for name in after if ".refused" in name]
    ids = [line for line in answers_of(done) if line in ("copy 1", "copy 2")]
    tools.wants(what, not moved and not ids and {"copy-1", "copy-2"} <= after, done)
    if is_told:
        tools.wants(f"{what}, told", b"copy-1" in done.stderr, done)


def copies_that_cannot_be_read(tools):
    """They may not be read, or are folders."""
    tools.put(tools.base)
    as_user = {"user": NOBODY, "group": NOBODY, "extra_groups": []} if os.geteuid() == 0 else {}
    if as_user:
        tools.place.chmod(0o755)
        for path in (tools.folder, *tools.folder.iterdir()):
            os.chown(path, NOBODY, NOBODY)
    for name in ("copy-1", "copy-2"):
        (tools.folder / name).chmod(0)
    done = tools.run(data=text_of(COPIES), **as_user)
    check_unread(tools, "copies that may not be read", done, is_told=True)
    tools.wants("copies that may not be read, told why", b"Permission denied" in done.stderr, done)
    for name in ("copy-1", "copy-2"):
        (tools.folder / name).chmod(0o644)
    done = tools.run(data=b"inc 2\n", **as_user)
    tools.wants("copies that may be read again", done.returncode == 0 and answers_of(done)[-1].startswith("copy "), done)
    tools.put(tools.base)
    (tools.folder / "copy-2").unlink()
    (tools.folder / "copy-2").mkdir()
    done = tools.open(lines=COPIES)
    is_left = (tools.folder / "copy-2").is_dir() and (tools.folder / "copy-1").read_bytes() == tools.base["copy-1"]
    tools.wants("a folder as a copy", is_left and "copy 2" not in answers_of(done) and b"copy-2" in done.stderr, done)


def few_open_files(tools):
    """At most so many files may be open at once."""
    for most in range(4, 15):
        tools.put(tools.base)
        done = tools.run(data=text_of(COPIES),
                         preexec_fn=lambda: resource.setrlimit(resource.RLIMIT_NOFILE, (most, most)))
        check_unread(tools, f"{most} open files", done, is_told=False)
        tools.goes_well(f"{most} open files", ["inc 2"])


def short_files(tools):
    """No file may be longer than so many bytes: a log has no room to grow."""
    for most in (0, 600, len(tools.base["log"]), len(tools.base["log"]) + 100):
        tools.put(tools.base)

        def limited():
            signal.signal(signal.SIGXFSZ, signal.SIG_DFL)
            resource.setrlimit(resource.RLIMIT_FSIZE, (most, most))

        done = tools.run(data=text_of([*COPIES, "begin", "set 8 0 0 1", "commit 8"]), preexec_fn=limited)
        check_kept(tools.base, tools.files())
        tools.wants(f"files of {most} bytes", done.returncode >= 0, done)
        tools.goes_well(f"files of {most} bytes")


def a_full_disk(tools):
    """A copy, and bytes behind the log, have no room. Without root a fault stands for the full disk."""
    folder = tools.folder
    shutil.rmtree(folder, ignore_errors=True)
    folder.mkdir()
    if not mount(folder, "size=65536"):
        return
    try:
        for name, data in tools.base.items():
            (folder / name).write_bytes(data)
        tail = b"x" * 8192
        (folder / "log").write_bytes(tools.base["log"] + tail)
        filler = folder / "filler"
        with open(filler, "wb", buffering=0) as file:
            try:
                while True:
                    file.write(bytes(4096))
            except OSError:
                pass
        done = tools.open()
        log = (folder / "log").read_bytes()
        tools.wants("a full disk", done.returncode == 2 and log == tools.base["log"] + tail, done)
        filler.unlink()
        before = tools.files()
        done = tools.open()
        check_kept(before, tools.files())
        tools.wants("a disk with room again", done.returncode == 0, done)
    finally:
        subprocess.run(["umount", str(folder)], check=True, capture_output=True)


def each_call_of_an_opening(tools):
    """Bytes stand behind the log, a copy is wrong, and a new one is made by its id."""
    tail = bytes(range(1, 250)) * 2
    files = tools.base | {"log": tools.base["log"] + tail, "copy-2": tools.base["copy-2"][:-1] + b"x"}
    for failed in (f"change any {{}} {NO_SPACE} once", f"change any {{}} {BROKEN} late", f"sync any {{}} {BROKEN} once",
                   f"sync any {{}} {BROKEN} on", f"write any {{}} {NO_SPACE} short"):
        for call in range(1, MOST_CALLS):
            tools.put(files)
            done, was_met = tools.failing(failed.format(call), COPIES)
            what = f"{failed.format(call)} in an opening"
            if not was_met:
                break
            after = tools.files()
            try:
                if done.returncode == 2 and not done.stdout:
                    check_untold(files, after)
                else:
                    check_kept(files, after)
                tools.goes_well(what)
                check_kept(files, tools.files())
            except Failure as failure:
                raise Failure(f"{what}: status {done.returncode}, {done.stdout[:200]!r}, {done.stderr[:400]!r}:"
                              f" {failure}") from failure
            tools.checks += 1
        else:
            raise Failure(f"{failed}: it has no end")


def check_untold(before, after):
    """An opening that did not come to its end may have put the tail aside, and have cut it off, but no more."""
    check_kept(before, after)
    for name in ("master", "copy-1", "copy-2"):
        if after.get(name) != before[name]:
            raise Failure(f"{name} is not as it was")


def each_call_of_a_seal(tools):
    """A copy that cannot be put in place is not told, and is asked for again."""
    for call, file in (("make", "copy"), ("write", "copy"), ("sync", "copy"), ("rename", "copy"), ("sync", "folder")):
        for number in range(1, 9):
            tools.put(tools.base)
            done, was_met = tools.failing(f"{call} {file} {number} {NO_SPACE} once", SEALED)
            if not was_met:
                break
            what, replies = f"{call} {number} of {file} at a seal", answers_of(done)
            if not replies or replies[1:2] != ["copy 3"]:
                tools.wants(f"{what}, at the opening", done.returncode == 2, done)
                tools.goes_well(what)
                continue
            first, second = replies[4:6]
            is_told = first == "E29 WriteFault 0" and second.startswith("sealed")
            is_well = first.startswith("sealed") and second == "E18 CopyNotOpen"
            tools.wants(what, is_told or is_well, done)
            again = reopen(tools.files()["log"], {3: tools.files().get("copy-3", b"")})
            tools.wants(f"{what}, in place", not again.refused, done)


def each_call_of_a_point(tools):
    """The same of a master record."""
    for call, file in (("make", "master"), ("write", "master"), ("sync", "master"), ("rename", "master"),
                       ("sync", "folder")):
        for number in range(1, 9):
            tools.put(tools.base)
            done, was_met = tools.failing(f"{call} {file} {number} {NO_SPACE} once", [*CHECKPOINT, "endckpt"])
            if not was_met:
                break
            what, replies = f"{call} {number} of {file} at a checkpoint", answers_of(done)
            if len(replies) < 2:
                tools.wants(f"{what}, at the opening", done.returncode == 2, done)
                tools.goes_well(what)
                continue
            first, second = replies[-2:]
            is_told = first == "E29 WriteFault 0" and second.startswith("point")
            is_well = first.startswith("point") and second == "E14 NoCkpt"
            tools.wants(what, is_told or is_well, done)
            end = int((second if is_told else first).split()[2])
            named = int.from_bytes(tools.files()["master"][16:24], "little")
            tools.wants(f"{what}, in place", named == end, done)


def a_copy_behind_a_point_that_waits(tools):
    """The master record is not in place, so a copy makes a checkpoint of its own, whose record is."""
    tools.put(tools.base)
    done, was_met = tools.failing(f"rename master 1 {NO_SPACE} once", [*CHECKPOINT, "copy"])
    answers, files = answers_of(done), tools.files()
    is_made = answers[-2:] == ["E29 WriteFault 0", f"copy 3 pages {PAGES} taken {PAGES}"]
    is_last = int.from_bytes(files["master"][16:24], "little") == len(files["log"]) - RECORD_SIZE
    tools.wants("a copy behind a point that waits", was_met and done.returncode == 2 and is_made and is_last, done)
    tools.wants("a copy behind a point that waits, the manifest", not misnamed(files), done)


def each_call_of_a_manifest(tools):
    """Answers and files are as they would be, the fault is told, and the next manifest has all lines."""
    copy = [*CHECKPOINT, *SEALED[:4]]
    for call in ("make", "write", "sync", "rename"):
        for number in range(1, 9):
            tools.put(tools.base)
            done, was_met = tools.failing(f"{call} manifest {number} {NO_SPACE} once", copy)
            if not was_met:
                break
            what, after = f"{call} {number} of the manifest", tools.files()
            is_told = f"imgcopy: {tools.folder}/manifest: not written: ".encode() in done.stderr
            is_answered = answers_of(done)[-1].startswith("sealed") and "closed" in after
            tools.wants(what, done.returncode == 2 and is_told and is_answered, done)
            names = [name for name in after if name in ("log", "master") or name.startswith("copy-")]
            tools.wants(f"{what}, its lines", is_manifest_of(after["manifest"], {name: after[name] for name in names}), done)
        tools.wants(f"{call} of the manifest, how often", number == 3, done)


def each_call_of_a_backup(tools):
    """No file that was there is gone, each is what the manifest names, and no backup with a fault ends well. The second
    folder takes the next backup."""
    away = tools.place / "away"
    for folder, whose in ((tools.folder, "the database"), (away, "the second folder")):
        for failed in (f"change any {{}} {NO_SPACE} once", f"change any {{}} {BROKEN} late", f"sync any {{}} {BROKEN} once"):
            for call in range(1, MOST_CALLS):
                tools.put(tools.base)
                shutil.rmtree(away, ignore_errors=True)
                away.mkdir()
                for name in ("log", "master", "copy-1", "copy-2", "manifest"):
                    (away / name).write_bytes(tools.base[name])
                command = ["backup", tools.folder, "--into", away]
                done, was_met = tools.failing(failed.format(call), command=command, folder=folder)
                if not was_met:
                    break
                what = f"{failed.format(call)} of {whose}"
                check_backed_up(tools, what, done, away)
                again = subprocess.run([tools.imgcopy, *command], capture_output=True, timeout=MOST_SECONDS)
                tools.wants(f"{what}, and then all is well", again.returncode == 0, again)
                check_backed_up(tools, f"{what}, and then", again, away, status=0)
            else:
                raise Failure(f"{failed}: it has no end")


def check_backed_up(tools, what, done, away, status=2):
    tools.wants(what, done.returncode == status, done)
    check_kept(tools.base, tools.files())
    for files in (tools.files(), Files.of(away).all):
        tools.wants(f"{what}, its manifest", not misnamed(files), done)


def each_call_of_a_renewal(tools):
    """The new folder is there, and whole, or it is not; the old one is as it was."""
    top = tools.place / "top"
    base = tools.closed_base()
    before = touched(tools.folder)
    for failed in (f"change any {{}} {NO_SPACE} once", f"change any {{}} {BROKEN} late", f"sync any {{}} {BROKEN} once"):
        for call in range(1, MOST_CALLS):
            shutil.rmtree(top, ignore_errors=True)
            top.mkdir()
            done, was_met = tools.failing(failed.format(call), command=["renew", tools.folder, top / "new"], folder=top)
            if not was_met:
                break
            what = f"{failed.format(call)} of a renewal"
            tools.wants(what, done.returncode == 2 and touched(tools.folder) == before, done, top)
            if (top / "new").exists():
                sums = subprocess.run([tools.imgcopy, "verify", top / "new"], capture_output=True, timeout=MOST_SECONDS)
                tools.wants(f"{what}, the new folder", sums.returncode == 0 and (top / "new" / "closed").exists(), sums, top)
        else:
            raise Failure(f"{failed}: it has no end")
    tools.wants("a renewal without a fault", done.returncode == 0 and tools.files() == base, done)


def lines(tools):
    """Each line that says something has a reply; one that has no end is none."""
    tools.put({})
    sent = b"begin\nset 1 0 0\n\n# a line\nfoo\nset 1 0 0 5\n" + b"x" * 2000 + b"\n\xff\nrestore 1 all\ncommit 1\nbegin"
    done = tools.run("--pages", "2", data=sent)
    replies = answers_of(done)
    bad = [reply.split(":")[0] for reply in replies if reply.startswith("bad line ")]
    tools.wants("bad lines", bad[:5] == [f"bad line {number}" for number in (2, 5, 7, 8, 9)], done)
    well = [reply for reply in replies if not reply.startswith("bad line ")]
    tools.wants("a line without an end", well == ["new: 2 pages", "began 1 at 64", "lsn 128", "lsn 192"], done)
    tools.put({})
    tools.run("--pages", "2", data=b"begin\nset 1 0 0 5\ncommit 1")
    done = tools.open(lines=["read 0 0"])
    tools.wants("a commit without an end", answers_of(done)[-1] == "value 0", done)


def closings(tools):
    """A closing stores all pages, and notes where the log ends. The next life removes the note before it stores."""
    files = tools.closed_base()
    done = tools.open()
    closed = tools.files()
    engine = reopen(closed["log"], {}).engine
    tools.wants("a closing", closed["closed"] == closed_note(len(closed["log"])), done)
    tools.put({})
    done = tools.open("--pages", str(PAGES), lines=["begin", "set 1 1 0 7", "commit 1", "begin", "add 2 0 0 1"])
    stored = tools.files()
    pages = encode_pages([engine.page(number) for number in range(PAGES)])
    tools.wants("the volume of a database that was opened and closed", closed["volume"] == pages, done)
    tools.wants("the note of a closing", stored["closed"] == closed_note(len(stored["log"])), done)
    tools.wants("a closing with a transaction open", stored["volume"][512 + 16] == 7 and stored["volume"][16] == 1, done)
    tools.put(files)
    child = subprocess.Popen([tools.imgcopy, "open", tools.folder], stdin=subprocess.PIPE, stdout=subprocess.PIPE)
    child.stdout.readline()
    child.kill()
    child.communicate()
    tools.wants("a note behind a kill", "closed" not in tools.files(), done)
    short = files["log"][:-RECORD_SIZE]
    tools.put(files | {"log": short})
    done = tools.open()
    tools.wants("a log that is shorter than the note says", done.returncode == 2 and b"closed" in done.stderr and
                done.stderr.startswith(b"E") and tools.files() == files | {"log": short}, done)


CHECKS = (two_names_of_a_log, a_volume_that_is_a_link, copies_that_cannot_be_read, few_open_files, short_files,
          a_full_disk, lines, closings, each_call_of_a_seal, each_call_of_a_point,
          a_copy_behind_a_point_that_waits, each_call_of_a_manifest, each_call_of_a_backup, each_call_of_a_renewal,
          each_call_of_an_opening)


def main(arguments):
    try:
        if len(arguments) != 2:
            raise Failure("usage: python3 -m checks.open_tools IMGCOPY LIBRARY")
        imgcopy, library, failures = program_of(arguments[0]), os.path.abspath(arguments[1]), []
        with tempfile.TemporaryDirectory(dir=memory_place()) as place:
            tools = Tools(imgcopy, library, Path(place))
            for check in CHECKS:
                try:
                    check(tools)
                except (Failure, OSError, KeyError) as failure:
                    failures.append(f"{check.__name__}: {failure!s:.1500}")
        if failures:
            raise Failure("\n".join([f"{len(failures)} of {len(CHECKS)}", *failures]))
    except (Failure, OSError, subprocess.SubprocessError) as failure:
        sys.exit(f"open_tools.py: {failure}")
    print(f"ok open_tools: nothing is lost, and nothing told that is not so, in {tools.checks} lives with something in"
          " the way")


if __name__ == "__main__":
    main(sys.argv[1:])
