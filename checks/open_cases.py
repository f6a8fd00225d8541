"""Tries `imgcopy open` on folders that hold something of each kind, and with lines of each kind.

usage: python3 -m checks.open_cases PROGRAM

What is refused is left as it is: a log with no header, or of the first format, or of another page count; a folder without
a log, but with what only a log leaves; a folder that another one has open, or that is not there; one where no page count
was told. A log that was cut off before it had its header is made anew. Of copies: each reason why one is not taken up,
and that a file whose name would be given again gets another name. A log of more than LONG_LOG bytes counts to its end. Of
lines: bad ones, long ones, a last one without a line feed, and those that are answered while more of them come. Then
streams that fail, and such that do not wait.
"""

import os
import subprocess
import sys
import tempfile
import time
from pathlib import Path
from threading import Thread

from checks.bank_files import Failure, program_of
from model.log_format import ADD, BEGIN, COMMIT, RECORD_SIZE, UPDATE, Change, Record, encode_header, lsn_of
from model.recovery import ARCHIVE, ARCHIVE_MAGIC, FULL, INCREMENTAL, Page

MOST_SECONDS, LONG_LOG = 60, 2**24
CHECKPOINT = b"ckpt\ngather\ngather\ngather\nendckpt\n"
FULL_COPY = b"full\ntake 1 0\ntake 1 1\nseal 1\n"
NOT_THERE = "No such file or directory (os error 2)"


class Program:
    def __init__(self, path, place):
        self.path, self.place, self.checks, self.folders = path, place, 0, 0

    def folder(self, **files):
        """A new folder with these files."""
        self.folders += 1
        folder = self.place / f"f{self.folders}"
        folder.mkdir()
        for name, data in files.items():
            (folder / name.replace("_", "-")).write_bytes(data)
        return folder

    def run(self, folder, *words, data=b"", **streams):
        source = {} if "stdin" in streams else {"input": data}
        return subprocess.run([self.path, "open", folder, *words], **source, timeout=MOST_SECONDS,
                              **{"stdout": subprocess.PIPE, "stderr": subprocess.PIPE} | streams)

    def check(self, what, done, status, out, *lines):
        said = done.stderr.decode(errors="replace")
        wanted = status, None if out is None else out.encode(), "".join(f"{line}\n" for line in lines)
        if (done.returncode, done.stdout, said) != wanted:
            raise Failure(f"{what}: status {done.returncode}, {done.stdout!r:.300}, standard error {said!r:.500}")
        self.checks += 1

    def refuse(self, what, folder, words, *lines):
        """The folder is refused, with these lines, and nothing in it is touched."""
        before = contents(folder)
        self.check(what, self.run(folder, *words), 2, "", *lines)
        if contents(folder) != before:
            raise Failure(f"{what}: the folder was {sorted(before)}, and is {sorted(contents(folder))}")


def contents(folder):
    return {path.name: path.read_bytes() for path in folder.iterdir() if path.is_file()} if folder.is_dir() else {}


def check_new(program):
    folder = program.folder(**{"closed.unfinished_1": b"1"})
    program.refuse("a new database without a count", folder, [],
                   f"imgcopy: {folder}: there is no log: name the page count of a new database by --pages")
    program.check("a new database", program.run(folder, "--pages", "4"), 0, "new: 4 pages\n")
    program.check("again", program.run(folder), 0, "restarted: log cut at 64, 0 transactions taken back, 0 records\n")
    program.refuse("another count", folder, ["--pages", "5"],
                   f"imgcopy: {folder}/log: its volume has 4 pages, and --pages says 5")
    program.check("the same count", program.run(folder, "--pages", "4"), 0,
                  "restarted: log cut at 64, 0 transactions taken back, 0 records\n")
    program.check("a growth", program.run(folder, data=b"extend 6\n"), 0,
                  "restarted: log cut at 64, 0 transactions taken back, 0 records\nlsn 64\n")
    program.refuse("the count before a growth", folder, ["--pages", "4"],
                   f"imgcopy: {folder}/log: its volume has 6 pages, and --pages says 4")
    program.check("the present count", program.run(folder, "--pages", "6"), 0,
                  "restarted: log cut at 128, 0 transactions taken back, 1 record\n")
    for data in (b"", b"AIMGLOG2", bytes(63), bytes(64), bytes(65), bytes(128), bytes(4_096)):
        folder = program.folder(log=data)
        program.check(f"a log of {len(data)} bytes", program.run(folder, "--pages", "1"), 0, "new: 1 page\n")
        if contents(folder)["log"] != encode_header(1):
            raise Failure(f"a log of {len(data)} bytes was not made anew")
    check_old_volume(program)
    folder = program.folder()
    (folder / "lost+found").mkdir()
    program.check("the top of a file system", program.run(folder, "--pages", "1"), 0, "new: 1 page\n")
    missing = program.place / "missing"
    program.refuse("a folder that is not there", missing, ["--pages", "1"], "E33 ReadFault",
                   f"imgcopy: {missing}: {NOT_THERE}")


def check_old_volume(program):
    """A volume with a change beside a log that was emptied: the log had the change once."""
    fresh = b"".join(page.to_bytes(4, "little") + b"\1\0\0\0" + bytes(504) for page in range(2))
    for data in (b"", bytes(64), bytes(640)):
        folder = program.folder(log=data, volume=fresh)
        program.check("a volume with no change", program.run(folder, "--pages", "2"), 0, "new: 2 pages\n")
        for place in (8, 16, 511, 512 + 8, 1_023):
            changed = fresh[:place] + b"\x40" + fresh[place + 1:]
            folder = program.folder(log=data, volume=changed)
            program.refuse("a volume with a change and no header", folder, ["--pages", "2"], "E33 ReadFault",
                           f"imgcopy: {folder}/volume: this is there, but no log")
            program.check("and with --salvage", program.run(folder, "--pages", "2", "--salvage"), 0, "new: 2 pages\n",
                          f"imgcopy: {folder}/volume: what stood there is now volume.left-out-1 too")
            if contents(folder)["volume.left-out-1"] != changed:
                raise Failure("the volume that stood there is not kept")


def check_refusals(program):
    for what, data in (("other bytes", b"x" * 64), ("a text", b"a text of another program\n" * 9),
                       ("an archive", ARCHIVE_MAGIC + bytes(56)), ("no pages", encode_header(0)),
                       ("a log of the first format", encode_header(2, b"AIMGLOG1")),
                       ("zeros and then another byte", bytes(127) + b"x")):
        folder = program.folder(log=data)
        program.refuse(f"{what} as the log", folder, ["--pages", "2"], "E30 BadHeader",
                       f"imgcopy: {folder}/log: it has no header of a log of format 2")
    for files, name in (({"copy_3": b"", "copy_12": b""}, "copy-3"), ({"master": b"", "master.unfinished_1": b"x"}, "master"),
                        ({"volume": b""}, "volume"), ({"closed": b"64\n"}, "closed"),
                        ({"log": b"", "copy_1": b"x"}, "copy-1"), ({"log": bytes(64), "master": b"x"}, "master")):
        folder = program.folder(**files)
        program.refuse(f"{sorted(files)} and no log", folder, ["--pages", "2"], "E33 ReadFault",
                       f"imgcopy: {folder}/{name}: this is there, but no log")
    folder = program.folder()
    (folder / "log").mkdir()
    program.refuse("a folder as the log", folder, ["--pages", "2"], "E33 ReadFault",
                   f"imgcopy: {folder}/log: this is no regular file")
    folder = program.folder()
    os.mkfifo(folder / "log")
    program.refuse("a pipe as the log", folder, ["--pages", "2"], "E33 ReadFault",
                   f"imgcopy: {folder}/log: this is no regular file")
    folder = program.folder()
    (folder / "log").symlink_to("nowhere")
    program.refuse("a link that leads nowhere as the log", folder, ["--pages", "2"], "E33 ReadFault",
                   f"imgcopy: {folder}/log: this is a link that leads nowhere")
    folder = program.folder(notes=b"of somebody else", **{"copy_1.unfinished_1": b"x"})
    program.refuse("a folder with other things", folder, ["--pages", "2"],
                   f"imgcopy: {folder}: there is no log, but `notes`: name an empty folder, or one with a database")
    for log in (b"", encode_header(2)):
        check_volumes(program, log)


def check_volumes(program, log):
    """What has the volume's name is neither followed nor replaced, if it is no volume."""
    no_file = "E33 ReadFault", "this is no regular file"
    for what, make, (fault, why) in (
            ("a folder", lambda path: path.mkdir(), no_file), ("a pipe", os.mkfifo, no_file),
            ("a link", lambda path: path.symlink_to("other"), no_file),
            ("a text", lambda path: path.write_bytes(b"some text\n"),
             ("E22 StoreFault", "this is no volume, and would be replaced: move it away"))):
        folder = program.folder(log=log)
        make(folder / "volume")
        program.refuse(f"{what} as the volume", folder, ["--pages", "2"], fault, f"imgcopy: {folder}/volume: {why}")
    for data in (b"", bytes(3), bytes(1024), Page(0).encode()[:100], Page(0).encode() * 3):
        folder = program.folder(log=log, volume=data)
        done = program.run(folder, "--pages", "2")
        if done.returncode != 0 or contents(folder)["volume"] != Page(0).encode() + Page(1).encode():
            raise Failure(f"a volume of {len(data)} bytes is not made anew")
        program.checks += 1


def check_claim(program):
    folder = program.folder()
    words = [program.path, "open", folder, "--pages", "2"]
    first = subprocess.Popen(words, stdin=subprocess.PIPE, stdout=subprocess.PIPE)
    if first.stdout.readline() != b"new: 2 pages\n":
        raise Failure("the first one is not open")
    program.refuse("a folder that is open", folder, [], "E29 WriteFault 0",
                   f"imgcopy: {folder}: another one has this folder open")
    for line, reply in ((b"begin\n", b"began 1 at 64\n"), (b"se", b""),
                        (b"t 1 0 0 5\nread 0 0\n", b"lsn 128\nvalue 5\n")):
        first.stdin.write(line)
        first.stdin.flush()
        given = b"".join(first.stdout.readline() for _ in range(reply.count(b"\n")))
        if given != reply:
            raise Failure(f"{line!r} is answered by {given!r}")
    first.kill()
    first.communicate()
    program.check("a folder whose owner was killed", program.run(folder, data=b"read 0 0\n"), 0,
                  "restarted: log cut at 64, 0 transactions taken back, 0 records\nvalue 0\n")


def archive(pages=2, number=1, parent=0, begin=64, redo=64, taken=None, bodies=None):
    bodies = [Page(page).encode() for page in range(pages)] if bodies is None else bodies
    header = ARCHIVE.pack(ARCHIVE_MAGIC, pages, number, INCREMENTAL if parent else FULL, parent, begin, redo,
                          len(bodies) if taken is None else taken)
    return header + b"".join(bodies)


def check_copies(program):
    base = program.folder()
    script = b"begin\nset 1 0 0 5\ncommit 1\nwbegin 0\nwend 0\n" + CHECKPOINT + FULL_COPY
    done = program.run(base, "--pages", "2", data=script)
    files = contents(base)
    if done.returncode != 0 or done.stderr or sorted(files) != ["closed", "copy-1", "log", "manifest", "master", "volume"]:
        raise Failure(f"a database with a copy: {done!r:.300}")
    log, copy, begin = files["log"], files["copy-1"], 256
    other = bytearray(copy)
    other[64 + 16] ^= 1
    reasons = [
        (b"", "no archive begins like this"), (copy[:-1], "no page of the archive stands at 576"),
        (copy[:576], "it has not as many pages as its header says"),
        (copy + b"x", "it has not as many pages as its header says"),
        (archive(number=2), "it is copy 2"),
        (archive(pages=3), "it did not begin in this log"), (bytes(other), "page 0 is not what the log made of it"),
        (archive(begin=begin, redo=begin), "page 0 is not what the log made of it"),
    ]
    line = "restarted: log cut at 384, 0 transactions taken back, 5 records\n"
    for data, why in reasons:
        folder = program.folder(log=log, copy_1=data)
        program.check(f"a copy: {why}", program.run(folder), 0, line, f"imgcopy: {folder}/copy-1: {why}")
        if (folder / "copy-1").read_bytes() != data or (folder / "copy-1.refused").exists():
            raise Failure(f"a copy: {why}: it has another name, though its id was not given")
        program.check(f"the id of a copy: {why}", program.run(folder, data=FULL_COPY), 0,
                      line + "copy 1\ntaken 128\ntaken 0\nsealed 2\n", f"imgcopy: {folder}/copy-1: {why}",
                      f"imgcopy: {folder}/copy-1: what stood there is now copy-1.refused")
        if (folder / "copy-1").read_bytes() == data or (folder / "copy-1.refused").read_bytes() != data:
            raise Failure(f"a copy: {why}: it has not its other name")
    folder = program.folder(log=log, copy_1=copy, copy_2=archive(number=2, parent=1, bodies=[]),
                            copy_4=archive(number=4, parent=3, bodies=[]), copy_2000=copy)
    (folder / "copy-4.refused").touch()
    program.check("a chain", program.run(folder, data=b"inc 2\ninc 2\ntake 4 0\ntake 4 1\nseal 4\n"), 0,
                  line + "copy 3\ncopy 4\ntaken 128\nkept\nsealed 1\n",
                  f"imgcopy: {folder}/copy-4: the copy that it stands on was not taken up",
                  f"imgcopy: {folder}/copy-2000: it is copy 1",
                  f"imgcopy: {folder}/copy-4: what stood there is now copy-4.refused-2")
    folder = program.folder(log=log, copy_1=b"spoiled", copy_3=archive(number=3, begin=begin, redo=64))
    program.check("a spoiled copy below a sound one", program.run(folder, data=b"full\n"), 0, line + "copy 4\n",
                  f"imgcopy: {folder}/copy-1: no archive begins like this")
    if (folder / "copy-1").read_bytes() != b"spoiled":
        raise Failure("a spoiled copy whose id is not given again has another name")
    folder = program.folder(log=log)
    os.mkfifo(folder / "copy-1")
    (folder / "copy-2").mkdir()
    (folder / "copy-3").symlink_to("nowhere")
    told = (f"imgcopy: {folder}/copy-1: this is no regular file", f"imgcopy: {folder}/copy-2: this is no regular file",
            f"imgcopy: {folder}/copy-3: {NOT_THERE}")
    program.check("copies that are no files", program.run(folder), 0, line, *told)
    program.check("the ids of copies that cannot be read", program.run(folder, data=b"full\nfull\n"), 0,
                  line + "copy 4\ncopy 5\n", *told)
    if not all(os.path.lexists(folder / f"copy-{number}") for number in (1, 2, 3)):
        raise Failure("a copy that cannot be read has another name")
    for make in (os.mkdir, os.mkfifo):
        folder = program.folder(log=log)
        make(folder / "closed")
        program.refuse("a note of a closing that is no file", folder, [], "E33 ReadFault",
                       f"imgcopy: {folder}/closed: this is no regular file")
    folder = program.folder(log=log, copy_1=copy)
    for name in ("copy-2.unfinished-1", "master.unfinished-7", "closed.unfinished-1", "manifest.unfinished-1",
                 "log.left-out-2.unfinished-1", "copy-1.unfinished", "log.unfinished-1"):
        (folder / name).touch()
    program.check("unfinished files", program.run(folder), 0, line)
    left = ["closed", "copy-1", "copy-1.unfinished", "log", "log.unfinished-1", "manifest", "master", "volume"]
    if sorted(contents(folder)) != left:
        raise Failure(f"unfinished files: {sorted(contents(folder))}")
    # A renewal that was cut off may leave a folder of such a name, which is no file of this database.
    folder = program.folder(log=log, copy_1=copy)
    (folder / "copy-9.unfinished-1" / "deep").mkdir(parents=True)
    (folder / "master.unfinished-2").touch()
    program.check("an unfinished folder", program.run(folder), 0, line)
    if not (folder / "copy-9.unfinished-1" / "deep").is_dir() or (folder / "master.unfinished-2").exists():
        raise Failure("an unfinished folder: it has to stay, and an unfinished file to go")
    check_unwritten(program, log, copy)


def check_unwritten(program, log, copy):
    """A folder as the master record gets another name, and so does one that is misspelt."""
    folder = program.folder(log=log)
    (folder / "master").mkdir()
    (folder / "master" / "x").touch()
    moved = f"imgcopy: {folder}/master: what stood there is now master.refused"
    line = "restarted: log cut at 384, 0 transactions taken back, 5 records\n"
    program.check("a folder as the master record", program.run(folder), 0, line, moved)
    master = (folder / "master").read_bytes()
    if not (folder / "master.refused" / "x").exists() or master[:8] != b"AIMGMST1":
        raise Failure("a folder as the master record has not its other name")
    (folder / "master").write_bytes(b"x" + master[1:])
    program.check("a master record that is misspelt", program.run(folder), 0, line, moved + "-2")
    if (folder / "master.refused-2").read_bytes() != b"x" + master[1:] or (folder / "master").read_bytes() != master:
        raise Failure("a master record that is misspelt has not its other name")
    program.check("a master record that is right", program.run(folder), 0, line)


def check_long_log(program):
    """One transaction adds 1 to a slot many times, and its Commit is the last record of the log."""
    count = LONG_LOG // RECORD_SIZE
    add = Change(page=0, slot=0, kind=ADD, before=0, number=1)
    records = [Record(BEGIN, 1, lsn=lsn_of(0)),
               *(Record(UPDATE, 1, lsn_of(index - 1), add, lsn=lsn_of(index)) for index in range(1, count + 1)),
               Record(COMMIT, 1, lsn_of(count), lsn=lsn_of(count + 1))]
    folder = program.folder(log=encode_header(1) + b"".join(record.encode() for record in records))
    program.check("a long log", program.run(folder, data=b"read 0 0\n"), 0,
                  f"restarted: log cut at {lsn_of(count + 2)}, 0 transactions taken back, {count + 2} records\n"
                  f"value {count}\n")


def check_lines(program):
    folder = program.folder()
    long = b"#" * 1024
    lines = [b"begin", b"", b"# a line", b"  set  1 0 0 5  ", b"\r", b"begin 1", long, long + b"#", b"x" * 100_000,
             b"commit 1\r", b"\xff", b"restore 1 all", b"  ", b"\x1b[2J", b"read 0 0"]
    errors = ["line 6: `begin` takes 0 numbers, and 1 stands here", "line 8: over 1024 bytes", "line 9: over 1024 bytes",
              "line 11: not UTF-8", "line 12: an open database has no `restore`", "line 13: it has spaces alone",
              "line 14: unknown call `\\u{1b}[2J`"]
    before, behind = [f"bad {error}\n" for error in errors[:3]], [f"bad {error}\n" for error in errors[3:]]
    program.check("lines of each kind", program.run(folder, "--pages", "1", data=b"\n".join(lines) + b"\n"), 0,
                  "new: 1 page\nbegan 1 at 64\nlsn 128\n" + "".join(before) + "lsn 192\n" + "".join(behind) + "value 5\n",
                  *(f"imgcopy: {error}" for error in errors))
    unended = "line 3: it has no line feed, and was not made"
    restarted = "restarted: log cut at 256, 0 transactions taken back, 3 records\n"
    program.check("a last line without a line feed", program.run(folder, data=b"read 0 0\n\nbegin"), 0,
                  restarted + f"value 5\nbad {unended}\n", f"imgcopy: {unended}")
    program.check("a last line that says nothing", program.run(folder, data=b"read 0 0\n# the end"), 0,
                  restarted + "value 5\n")
    for data, tally in ((b"read 0 62\nread 0 0\n", "1 of 2 calls was refused, the first at line 1"),
                        (b"read 0 0\n\nx\nread 0 62\n", "2 of 3 calls were refused, the first at line 3")):
        done = program.run(folder, "--strict", data=data)
        if done.returncode != 1 or not done.stderr.decode().endswith(f"imgcopy: {tally}\n"):
            raise Failure(f"a strict call: status {done.returncode}, {done.stderr!r:.300}")
        program.checks += 1
    program.check("a strict call without a refusal", program.run(folder, "--strict", data=b"read 0 0\n"), 0,
                  restarted + "value 5\n")
    many = b"read 0 0\n" * 2_000
    program.check("many lines", program.run(folder, data=many), 0,
                  "restarted: log cut at 256, 0 transactions taken back, 3 records\n" + "value 5\n" * 2_000)
    done = program.run(folder, "--frames", "1", data=b"begin\nset 2 0 0 6\nread 0 0\n")
    program.check("a change", done, 0,
                  "restarted: log cut at 256, 0 transactions taken back, 3 records\nbegan 2 at 256\nlsn 320\nvalue 6\n")


def check_streams(program):
    folder = program.folder()
    with open("/dev/full", "wb") as full:
        program.check("an output that is full", program.run(folder, "--pages", "1", stdout=full), 2, None,
                      "E29 WriteFault 0", "imgcopy: standard output: No space left on device (os error 28)")
    source = os.open(folder, os.O_RDONLY)
    program.check("an input that cannot be read", program.run(folder, stdin=source), 2,
                  "restarted: log cut at 64, 0 transactions taken back, 0 records\n", "imgcopy: input",
                  "imgcopy: standard input: Is a directory (os error 21)")
    os.close(source)
    done = subprocess.run(["sh", "-c", f'exec "{program.path}" open "{folder}" <&- >&- 2>&-'], timeout=MOST_SECONDS)
    if done.returncode != 2 or contents(folder)["log"] != encode_header(1):
        raise Failure(f"closed streams: status {done.returncode}, and a log of {len(contents(folder)['log'])} bytes")
    program.checks += 1


def check_patience(program):
    """Streams that another one has made such that a call does not wait: they are waited for."""
    many = b"read 0 0\n" * 20_000
    for words, first in ((["open", program.folder(), "--pages", "1"], b"new: 1 page\n"), (["run", "--pages", "1"], b"")):
        source, lines = os.pipe()
        replies, target = os.pipe()
        for end in (source, target):
            os.set_blocking(end, False)
        child = subprocess.Popen([program.path, *words], stdin=source, stdout=target, stderr=subprocess.PIPE)
        os.close(source)
        os.close(target)
        time.sleep(0.3)
        sender = Thread(target=send, args=(lines, many))
        sender.start()
        # More replies wait than a pipe takes.
        time.sleep(0.5)
        with open(replies, "rb") as file:
            output = file.read()
        sender.join()
        said = child.communicate(timeout=MOST_SECONDS)[1]
        if (child.returncode, said, output) != (0, b"", first + b"value 0\n" * 20_000):
            raise Failure(f"{words[0]} with streams that do not wait: status {child.returncode}, {len(output)} bytes, {said!r:.200}")
        program.checks += 1


def send(end, data):
    with open(end, "wb") as file:
        file.write(data)


def main(arguments):
    try:
        if len(arguments) != 1:
            raise Failure("usage: python3 -m checks.open_cases PROGRAM")
        with tempfile.TemporaryDirectory() as place:
            program = Program(program_of(arguments[0]), Path(place))
            for check in (check_new, check_refusals, check_claim, check_copies, check_long_log, check_lines, check_streams,
                          check_patience):
                check(program)
    except (Failure, OSError, subprocess.SubprocessError) as failure:
        sys.exit(f"open_cases.py: {failure}")
    print(f"ok open_cases: {program.checks} folders and inputs of each kind are answered as they should be")


if __name__ == "__main__":
    main(sys.argv[1:])
