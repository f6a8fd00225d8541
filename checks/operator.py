"""Tries the options of imgcopy's commands, and looks at the lines for a person behind its faults.

usage: python3 -m checks.operator PROGRAM

It plays the day of examples/day.script and saves its files. Then: `run --strict`; `redo -o` and `restore -o`, also where
something is in the way, and at a fault, which leaves what had the name; a standard output that is a terminal; `audit`
with a master record, and with more unsound pages than one; and for each kind of fault the line that says why.
"""

import os
import pty
import shutil
import subprocess
import sys
import tempfile
import tty
from pathlib import Path

EXAMPLES = Path(__file__).resolve().parent.parent / "examples"
MOST_SECONDS = 60
PAGE, HEADER = 512, 64


class Failure(Exception):
    """What differs, in one line."""


class Program:
    def __init__(self, path, folder):
        self.path, self.folder, self.checks = path, folder, 0

    def run(self, *words, data=b"", stdin=None):
        source = {"stdin": stdin} if stdin else {"input": data}
        return subprocess.run([self.path, *map(str, words)], **source, capture_output=True, timeout=MOST_SECONDS,
                              cwd=self.folder)

    def check(self, done, what, status, out=None, err=None, second=None):
        said = done.stderr.decode(errors="replace")
        lines = [*said.splitlines(), "", ""]
        if done.returncode != status or out is not None and done.stdout != out:
            raise Failure(f"{what}: status {done.returncode}, output {done.stdout[:60]!r}, standard error {said[:200]!r}")
        if err is not None and said != err or second is not None and lines[1] != f"imgcopy: {second}":
            raise Failure(f"{what}: standard error {said[:300]!r}")
        self.checks += 1


def check_strict(program, day):
    text = b"# a day\n\nbegin\nset 1 0 0 5\r\nread 9 0\nset 2 0 0 5\ncommit 1\n"
    replies = b"began 1 at 64\nlsn 128\nE3 PageOut\nE2 NoTxn\nlsn 192\n"
    program.check(program.run("run", "--pages", 1, data=text), "run", 0, replies, "")
    program.check(program.run("run", "--pages", 1, "--strict", data=text), "run --strict", 1, replies,
                  "imgcopy: 2 of 5 calls were refused, the first at line 5: E3 PageOut\n")
    program.check(program.run("run", "--pages", 1, "--strict", "--save", "nosuch", data=text), "run --strict --save", 2, replies,
                  "E29 WriteFault 0\nimgcopy: nosuch: No such file or directory (os error 2)\n"
                  "imgcopy: 2 of 5 calls were refused, the first at line 5: E3 PageOut\n")
    program.check(program.run("run", "--strict", "--pages", 3, data=day), "run --strict of a day", 0,
                  (EXAMPLES / "day.replies").read_bytes(), "")
    for text, why in ((b"sett 1", "unknown call `sett`"), (b"commit", "`commit` takes 1 number, and 0 stand here"),
                      (b"\x1b[2Jset 1", r"unknown call `\u{1b}[2Jset`"), (b"begin\t", r"unknown call `begin\t`"),
                      ("\u009b1m\u202e\0".encode(), r"unknown call `\u{9b}1m\u{202e}\0`"),
                      (b"it's\\a", r"unknown call `it's\\a`"), ("gr\u00f6\u00dfe".encode(), "unknown call `größe`"),
                      (b"x" * 40 + b" 1", f"unknown call `{'x' * 40}`"),
                      ("ö".encode() * 41, f"unknown call `{'ö' * 40}...`"), (b"x" * 60000, f"unknown call `{'x' * 40}...`"),
                      (b"set 1 0 5", "`set` takes 4 numbers, and 3 stand here"),
                      (b"extend", "`extend` takes 1 number, and 0 stand here"),
                      (b"force\nbegin 1", "`begin` takes 0 numbers, and 1 stands here"),
                      (b"restore 1", "`restore` takes 2 words, and 1 stands here"),
                      (b"commit x", "a number is misspelled or too large"), (b"  ", "it has spaces alone")):
        line = 1 + text.count(b"\n")
        program.check(program.run("run", "--pages", 1, data=text), repr(text[:40]), 2, b"",
                      f"imgcopy: line {line}\nimgcopy: line {line}: {why}\n")
    whole, cut = "`commit` takes 1 number, and 3 stand here", "after this call's name stand 1 words"
    for length in range(65500, 65560, 3):
        done = program.run("run", "--pages", 1, data=b"#" * length + b"\ncommit 1 2 3")
        if done.stderr.decode() not in [f"imgcopy: line 2\nimgcopy: line 2: {why}\n" for why in (whole, cut)]:
            raise Failure(f"a bad line behind {length} bytes: {done.stderr!r}")
        program.check(done, "a bad line behind many bytes", 2, b"")
    (program.folder / "left").mkdir()
    (program.folder / "left" / "log.unfinished-\x1b[2J").touch()
    program.check(program.run("run", "--pages", 1, "--save", "left"), "a name with an escape", 0, b"",
                  "imgcopy: left/log.unfinished-\\u{1b}[2J: left by a command that was cut off; it may be deleted\n")


def check_output(program, names):
    """The file takes its name when it is whole, and nothing is put in place at a fault."""
    log, folder = (program.folder / "log").read_bytes(), program.folder / "out"
    redone = program.run("redo", data=log).stdout
    restored = program.run("restore", *names).stdout
    folder.mkdir()
    for words, data, volume in ((("redo",), log, redone), (("restore",), b"", restored)):
        files = names if words == ("restore",) else ()
        for option in (["-o", "out/v"], ["--output=out/v"], ["-oout/v"]):
            for old in (None, b"old"):
                (folder / "v").unlink(missing_ok=True)
                if old is not None:
                    (folder / "v").write_bytes(old)
                what = f"{words[0]} {' '.join(option)}"
                program.check(program.run(*words, *option, *files, data=data), what, 0, b"", "")
                if [path.name for path in folder.iterdir()] != ["v"] or (folder / "v").read_bytes() != volume:
                    raise Failure(f"{what}: {sorted(folder.iterdir())}, or another volume")
    (folder / "v").write_bytes(b"old")
    bad = log[:-1]
    (program.folder / "bad").write_bytes(bad)
    at = len(bad) // 64 * 64
    program.check(program.run("redo", "-o", "out/v", data=bad), "redo -o of a torn log", 2, b"", f"E32 Torn {at}\n")
    program.check(program.run("restore", "-o", "out/v", "bad", *names[1:]), "restore -o of a torn log", 2, b"",
                  f"E32 Torn {at}\nimgcopy: bad (log): 63 of the 64 bytes there are left\n")
    if [(path.name, path.read_bytes()) for path in folder.iterdir()] != [("v", b"old")]:
        raise Failure("at a fault something was put in place")
    (folder / "v").unlink()
    (folder / "d").mkdir()
    (folder / "l").symlink_to("x")
    for name, why in (("out/d", "this is no regular file"), ("out/l", "this is no regular file"),
                      ("/dev/null", "this is no regular file"), ("out/", "this names no file"), ("", "this names no file")):
        program.check(program.run("redo", "-o", name, data=log), f"redo -o {name}", 2, b"",
                      f"E29 WriteFault 0\nimgcopy: {name}: {why}\n")
    program.check(program.run("redo", "-o", "nosuch/v", data=log), "redo -o nosuch/v", 2, b"",
                  "E29 WriteFault 0\nimgcopy: nosuch: No such file or directory (os error 2)\n")
    if sorted(path.name for path in folder.iterdir()) != ["d", "l"]:
        raise Failure("an output that is refused leaves a file")


def check_terminal(program, names):
    """A terminal gets a volume where the words say it, and none else. In a pipe these words change nothing."""
    log = (program.folder / "log").read_bytes()
    for words, data in ((["redo"], log), (["redo", "--until=64"], log), (["restore", *names], b""),
                        (["restore", "."], b""), (["restore", "--log-out=restored", *names], b"")):
        told = program.run(*words, data=data)
        (program.folder / "restored").unlink(missing_ok=True)
        done, shown = at_terminal(program, words, data)
        program.check(done, f"{words} to a terminal", 2, None,
                      "E29 WriteFault 0\nimgcopy: standard output is a terminal: name a file by -o, redirect it, or add -o -\n")
        if shown or (program.folder / "restored").exists():
            raise Failure(f"{words} to a terminal: {shown[:60]!r}, or a log")
        for option in (["-o", "-"], ["-o-"], ["--output=-"], ["-o", "-", "--force"]):
            done, shown = at_terminal(program, [*words, *option], data)
            if (done.returncode, shown, done.stderr) != (0, told.stdout, told.stderr):
                raise Failure(f"{words} {option} to a terminal: status {done.returncode}, {shown[:60]!r}, {done.stderr[:200]!r}")
            (program.folder / "restored").unlink(missing_ok=True)
            program.check(program.run(*words, *option, data=data), f"{words} {option}", 0, told.stdout, told.stderr.decode())
            (program.folder / "restored").unlink(missing_ok=True)
            program.checks += 1
    if (program.folder / "-").exists():
        raise Failure("a file has the name of standard output")
    program.check(program.run("redo", "-o", "./-", data=log), "redo -o ./-", 0, b"", "")
    (program.folder / "-").unlink()


def at_terminal(program, words, data):
    """How a command ends whose standard output is a terminal, and what that shows."""
    ours, theirs = pty.openpty()
    tty.setraw(theirs)
    done = subprocess.run([program.path, *words], input=data, stdout=theirs, stderr=subprocess.PIPE, timeout=MOST_SECONDS,
                          cwd=program.folder)
    os.set_blocking(ours, False)
    try:
        shown = os.read(ours, 65_536)
    except BlockingIOError:
        shown = b""
    os.close(theirs)
    os.close(ours)
    return done, shown


def check_audits(program):
    archives = ["copy-1", "copy-2", "copy-3"]
    copy = bytearray((program.folder / "copy-1").read_bytes())
    program.check(program.run("audit", "--master", "master", "log", *archives), "audit --master", 0, b"sound\n", "")
    program.check(program.run("audit", "--master", "log", "log", *archives), "a log as the master record", 2,
                  b"E30 BadHeader\n", "imgcopy: log (master record): is a log\n")
    (program.folder / "late").write_bytes(b"AIMGMST1" + (64).to_bytes(8, "little") + (128).to_bytes(8, "little")
                                          + bytes(40))
    program.check(program.run("audit", "--master", "late", "log", *archives), "a master record of another log", 2,
                  b"E35 BadChain 64\n",
                  "imgcopy: late (master record): the log has no complete checkpoint from 64 to 128\n")
    for page in (0, 1, 2):
        copy[HEADER + PAGE * page + 16] ^= 1
    (program.folder / "bad-1").write_bytes(copy)
    redo = int.from_bytes(copy[32:40], "little")
    why = f"imgcopy: bad-1 (image copy 1): page 0 is not what the log made of it, or lacks a change below LSN {redo}\n"
    program.check(program.run("audit", "log", "bad-1"), "an unsound copy", 1, b"E41 Unsound 1 0\n", why)
    program.check(program.run("audit", "--all", "log", "bad-1"), "audit --all", 1,
                  b"E41 Unsound 1 0\nE41 Unsound 1 1\nE41 Unsound 1 2\n", why)
    program.check(program.run("audit", "--all", "log", *archives), "audit --all of sound copies", 0, b"sound\n", "")


def check_many_pages(program):
    """Of more unsound pages than 1,000 so many are shown."""
    pages = 1003
    text = "\n".join(["ckpt", "gather", "gather", "endckpt", "full", *(f"take 1 {page}" for page in range(pages)), "seal 1",
                      ""]).encode()
    folder = program.folder / "many"
    folder.mkdir()
    program.check(program.run("run", "--strict", "--pages", pages, "--save", "many", data=text), "many pages", 0)
    copy = bytearray((folder / "copy-1").read_bytes())
    for page in range(pages):
        copy[HEADER + PAGE * page + 16] ^= 1
    (folder / "copy-1").write_bytes(copy)
    done = program.run("audit", "--all", "many/log", "many/copy-1")
    wanted = b"".join(f"E41 Unsound 1 {page}\n".encode() for page in range(1000))
    program.check(done, "audit --all of many pages", 1, wanted)
    if not done.stderr.endswith(b"imgcopy: more pages than these are unsound\n"):
        raise Failure(f"audit --all of many pages: {done.stderr[-100:]!r}")


def check_reasons(program):
    """The second line of a fault says why."""
    log = bytearray((program.folder / "log").read_bytes())
    end = len(log)

    def spoiled(name, at, data):
        copy = bytearray(log)
        copy[at:at + len(data)] = data
        (program.folder / name).write_bytes(copy)
        return name

    files = {"kind": spoiled("kind", 64, b"\x11"), "lsn": spoiled("lsn", 128 + 56, b"\x40"),
             "pages": spoiled("pages", 8, b"\0\0"), "prev": spoiled("prev", 128 + 8, bytes(8)),
             "first": spoiled("first", 7, b"1"), "later": spoiled("later", 7, b"3")}
    (program.folder / "short").write_bytes(b"AIMGLOG2")
    (program.folder / "long").write_bytes((program.folder / "master").read_bytes() + b"\0")
    (program.folder / "more-1").write_bytes((program.folder / "copy-1").read_bytes() + b"\0\0")
    taken = int.from_bytes((program.folder / "copy-1").read_bytes()[40:44], "little")
    for words, status, line, why in (
            ([files["kind"], "master"], 2, "E31 BadRecord 64", "kind (log): kind 17 is that of no record"),
            ([files["lsn"], "master"], 2, "E31 BadRecord 128", "lsn (log): the record there has LSN 64 in itself"),
            ([files["pages"], "master"], 2, "E30 BadHeader", "pages (log): its header has a number that none may have"),
            (["short", "master"], 2, "E30 BadHeader", "short (log): has 8 bytes, and a header has 64"),
            (["master", "log"], 2, "E30 BadHeader", "master (log): is a master record"),
            (["log", "copy-1"], 2, "E30 BadHeader", "copy-1 (master record): is an image copy"),
            (["log", "long"], 2, "E30 BadHeader", "long (master record): has 65 bytes, and a master record has 64"),
            (["log", "master", "more-1"], 2, "E38 CountDiffers",
             f"more-1 (image copy): bytes follow the last of its {taken} pages: 2"),
            (["log", "master", "log"], 2, "E36 BadArchive 0", "log (image copy): is a log"),
            (["log", "master", files["first"]], 2, "E36 BadArchive 0", "first (image copy): is a log"),
            ([files["later"], "master"], 2, "E30 BadHeader", "later (log): begins like no file of imgcopy"),
            (["log", "master", "copy-2"], 1, "E37 ChainBroken 2",
             "copy-2 (image copy): is an increment of copy 1, but stands first"),
            (["log", "master", "copy-1", "copy-3"], 1, "E37 ChainBroken 3",
             "copy-3 (image copy): parent is copy 2, but copy 1 stands before it"),
            (["log", "master", "copy-1", "copy-1"], 1, "E37 ChainBroken 1",
             "copy-1 (image copy): is a full copy, but others stand before it")):
        program.check(program.run("restore", *words), f"restore {' '.join(words)}", status, b"", f"{line}\nimgcopy: {why}\n")
    program.check(program.run("audit", "log", "master", "copy-1"), "a master record as an archive", 2,
                  b"E36 BadArchive 0\n", "imgcopy: master (image copy): is a master record\n")
    copy = bytearray((program.folder / "copy-1").read_bytes())
    copy[24:32] = copy[32:40] = end.to_bytes(8, "little")
    (program.folder / "late-1").write_bytes(copy)
    program.check(program.run("audit", "log", "late-1"), "a redo point past the log", 1, b"E39 RedoBeyondLog\n",
                  f"imgcopy: late-1 (image copy 1): its redo point {end} is not below the log's end {end}\n")
    # Where a pipe ends, no one can look once more.
    log = (program.folder / "log").read_bytes()
    program.check(program.run("audit", "/dev/stdin", "late-1", data=log), "a redo point past the end of a pipe", 1,
                  b"E39 RedoBeyondLog\n", "")
    with open(EXAMPLES / "bad_chain.log", "rb") as source:
        done = program.run("redo", stdin=source)
    program.check(done, "redo of bad_chain.log", 2, b"", second="standard input: its PrevLSN 128 is not the last record"
                  " of transaction 1, which is 192")
    done = program.run("redo", data=(EXAMPLES / "bad_chain.log").read_bytes())
    program.check(done, "redo of a pipe", 2, b"", (EXAMPLES / "bad_chain.fault").read_text())


def check_growth(program):
    """The same of a log that ends with a growth, and of a copy with another page count than it has."""
    log = (program.folder / "log").read_bytes()
    pages, end = int.from_bytes(log[8:12], "little"), len(log)

    def grown(name, count, format=b"2"):
        extend = b"\x0b" + bytes(23) + count.to_bytes(4, "little") + bytes(28) + end.to_bytes(8, "little")
        (program.folder / name).write_bytes(log[:7] + format + log[8:] + extend)
        return name

    copy = bytearray((program.folder / "copy-1").read_bytes())
    copy[8:12] = copy[40:44] = (pages + 1).to_bytes(4, "little")
    (program.folder / "wide").write_bytes(copy)
    copy[24:32] = (end + 64).to_bytes(8, "little")
    (program.folder / "behind").write_bytes(copy)
    for words, status, line, why in (
            ([grown("grown", pages + 1), "copy-1"], 0, "sound", ""),
            ([grown("same", pages), "copy-1"], 2, f"E35 BadChain {end}",
             f"same (log): it gives the volume {pages} pages, but there are {pages} already"),
            ([grown("old", pages + 1, b"1"), "copy-1"], 2, f"E31 BadRecord {end}",
             "old (log): kind 11 is that of no record"),
            (["grown", "wide"], 1, "E37 ChainBroken 1",
             f"wide (image copy): has {pages + 1} pages, but the log has {pages} before its checkpoint"),
            (["--until", str(end - 64), "grown", "behind"], 1, "E37 ChainBroken 1",
             f"behind (image copy): has {pages + 1} pages, but the log has {pages} before its checkpoint")):
        program.check(program.run("audit", *words), f"audit {' '.join(words)}", status, f"{line}\n".encode(),
                      why and f"imgcopy: {why}\n")


def main(arguments):
    try:
        if len(arguments) != 1:
            raise Failure("usage: python3 -m checks.operator PROGRAM")
        path = shutil.which(arguments[0])
        if path is None:
            raise Failure(f"there is no program {arguments[0]}")
        with tempfile.TemporaryDirectory() as place:
            program = Program(os.path.abspath(path), Path(place))
            day = (EXAMPLES / "day.script").read_bytes()
            program.check(program.run("run", "--pages", 3, "--save", ".", data=day), "a day", 0)
            names = ["log", "master", "copy-1", "copy-2", "copy-3"]
            check_strict(program, day)
            check_output(program, names)
            check_terminal(program, names)
            check_audits(program)
            check_many_pages(program)
            check_reasons(program)
            check_growth(program)
    except (Failure, OSError, subprocess.SubprocessError) as failure:
        sys.exit(f"operator.py: {failure}")
    print(f"ok operator: the options and the lines for a person are as expected, {program.checks} times")


if __name__ == "__main__":
    main(sys.argv[1:])
