"""Types the words of an operator at an open database, and looks at what they answer and leave.

usage: python3 -m checks.open_words PROGRAM

A flush answers how many writes have ended. A checkpoint writes the dirty pages first, so that its redo point is its own
begin, and its master record is there once it is answered; where one is open, it goes on with that one. A copy is
made by one word, of which the files alone restore the volume; it makes a checkpoint unless the last one is new, it is
refused as the call that was refused, and a page that cannot be read is repaired from the newest copy. A line with more
behind a word is a bad line, `quit` ends the input as its end does, `status` tells what there is, and `help` has a line
for each word and call.
With `--strict` a word that is refused counts as a call does. At a terminal, and only there, a prompt stands before each
line.
"""

import os
import pty
import subprocess
import sys
import tempfile
from pathlib import Path

from checks.bank_files import Failure, program_of

MOST_SECONDS = 60
BEGUN = "new: 2 pages"
MADE = ["begin", "set 1 0 0 5", "set 1 1 0 6", "commit 1"]
ANSWERS = ["began 1 at 64", "lsn 128", "lsn 192", "lsn 256"]
CALLS = ["begin", "set", "add", "read", "save", "undoto", "commit", "abort", "undo", "force", "extend", "wbegin", "wend",
         "ckpt", "gather", "endckpt", "full", "inc", "take", "seal", "drop", "repair"]
WORDS = ["checkpoint", "copy", "copy", "flush", "status", "help", "quit"]


class Words:
    """The program, and how often a check went well."""

    def __init__(self, program, place):
        self.program, self.place, self.checks, self.folders = program, place, 0, 0

    def open(self, lines, *words, folder=None):
        """A life with these lines, in a new folder or in this one."""
        if folder is None:
            self.folders += 1
            folder = self.place / f"folder-{self.folders}"
            folder.mkdir()
            words = ("--pages", "2", *words)
        data = "".join(f"{line}\n" for line in lines).encode()
        done = subprocess.run([self.program, "open", folder, *words], input=data, capture_output=True,
                              timeout=MOST_SECONDS)
        return folder, done, done.stdout.decode().splitlines()

    def wants(self, what, is_so, done):
        if not is_so:
            raise Failure(f"{what}: status {done.returncode}, {done.stdout!r:.600}, {done.stderr!r:.400}")
        self.checks += 1


def pages_that_are_written(words):
    _, done, answers = words.open([*MADE, "flush", "flush"])
    words.wants("a flush", answers == [BEGUN, *ANSWERS, "flushed 2", "flushed 0"] and done.returncode == 0, done)
    lines = [*MADE, "wbegin 0", "begin", "set 2 0 1 7", "commit 2", "flush"]
    _, done, answers = words.open(lines)
    words.wants("a flush behind a write in progress", answers[-1] == "flushed 3", done)


def checkpoints(words):
    folder, done, answers = words.open([*MADE, "checkpoint"])
    words.wants("a checkpoint", answers == [BEGUN, *ANSWERS, "point 320 384 320"] and done.returncode == 0, done)
    words.wants("its master record", (folder / "master").stat().st_size == 64, done)
    _, done, answers = words.open(["checkpoint"], folder=folder)
    words.wants("a checkpoint of a later life", answers[-1] == "point 448 512 448", done)
    _, done, answers = words.open([*MADE, "ckpt", "checkpoint", "gather"])
    words.wants("a checkpoint while one is open", answers[-2:] == ["point 320 384 320", "E14 NoCkpt"], done)
    folder, _, _ = words.open([*MADE, "ckpt", "force"])
    _, done, answers = words.open(["checkpoint", "copy"], folder=folder)
    is_ended = answers[-2:] == ["point 320 384 320", "copy 1 pages 2 taken 2"]
    words.wants("a checkpoint of a life that ended within one", is_ended and done.returncode == 0, done)
    _, done, answers = words.open(["begin", "checkpoint"])
    words.wants("a checkpoint beside a transaction", answers[-1] == "point 128 256 128", done)
    _, done, answers = words.open([*["begin"] * 64, "checkpoint"])
    words.wants("a checkpoint beside all transactions", answers[-1] == "point 4160 8320 4160", done)


def copies(words):
    folder, done, answers = words.open([*MADE, "copy", "copy", "begin", "set 2 1 0 7", "commit 2", "copy on 1", "status"])
    wanted = [BEGUN, *ANSWERS, "copy 1 pages 2 taken 2", "copy 2 pages 2 taken 2", "began 2 at 448", "lsn 512", "lsn 576",
              "copy 3 pages 2 taken 1"]
    words.wants("copies", answers[:len(wanted)] == wanted and done.returncode == 0, done)
    told = ["status point 640 704 640", "status copy 1 full pages 2 taken 2", "status copy 2 full pages 2 taken 2",
            "status copy 3 on 1 pages 2 taken 1", "status end"]
    words.wants("the checkpoints of copies", answers[-len(told):] == told, done)
    (folder / "volume").unlink()
    done = subprocess.run([words.program, "restore", "-o", words.place / "restored", folder / "log", folder / "master",
                           folder / "copy-1", folder / "copy-3"], capture_output=True, timeout=MOST_SECONDS)
    words.wants("a restore of its files", done.returncode == 0, done)
    done = subprocess.run([words.program, "show", words.place / "restored"], capture_output=True, timeout=MOST_SECONDS)
    numbers = [line.split()[4:] for line in done.stdout.decode().splitlines()[1:]]
    words.wants("its numbers", numbers == [["0=5"], ["0=7"]], done)
    audit = [words.program, "audit", "--master", folder / "master", folder / "log", folder / "copy-1", folder / "copy-3"]
    done = subprocess.run(audit, capture_output=True, timeout=MOST_SECONDS)
    words.wants("an audit of its files", done.stdout == b"sound\n" and done.returncode == 0, done)


def points_of_copies(words):
    """A copy makes a checkpoint of its own, unless the last one is the log's end, and begins redo at its own begin."""
    _, done, answers = words.open([*MADE, "copy", "begin", "copy", "status"])
    words.wants("a copy behind a transaction that begins", "status point 512 640 512" in answers and done.returncode == 0, done)
    fuzzy = [*MADE, "ckpt", "gather", "gather", "gather", "endckpt"]
    for lines in (["copy", "status"], ["flush", "copy", "status"]):
        _, done, answers = words.open([*fuzzy, *lines])
        is_older = answers[9] == "point 320 448 128"
        words.wants("a copy behind a checkpoint of dirty pages", is_older and "status point 512 576 512" in answers, done)
    folder, done, _ = words.open([*MADE, "checkpoint"])
    _, done, answers = words.open(["copy", "status"], folder=folder)
    words.wants("a copy of a later life", "status point 320 384 320" in answers and done.returncode == 0, done)


def copies_refused(words):
    folder, done, answers = words.open([*MADE, "checkpoint", "copy on 9", "copy", "copy on 2", "status"])
    refused = ["point 320 384 320", "E17 NoCopy", "copy 1 pages 2 taken 2", "E17 NoCopy"]
    words.wants("a copy on none", answers[5:9] == refused and done.returncode == 0, done)
    is_alone = [path.name for path in folder.glob("copy-*")] == ["copy-1"]
    words.wants("a copy that is refused leaves nothing", is_alone, done)
    _, done, answers = words.open([*MADE, "ckpt", "copy", "full"])
    words.wants("a copy while a checkpoint is open", answers[-2:] == ["copy 1 pages 2 taken 2", "copy 2"], done)
    lines = ["copy now", "copy on", "copy on x", "copy 3", "copy on -1", "copy  on 1", "copy on 4294967296", "copy on 1 ",
             f"copy on {9:021}", f"copy on {9:020}", " copy on 001 ", "copy on 4294967295"]
    _, done, answers = words.open(lines)
    bad = [f"bad line {number}: this word is `copy` or `copy on N`, of a copy N" for number in (1, 2, 3, 4, 5, 6, 7, 9)]
    refused = "E17 NoCopy"
    words.wants("lines that are no copies", answers == [BEGUN, *bad[:7], refused, bad[7], *[refused] * 3], done)


def a_page_that_cannot_be_read(words):
    """Its bytes in the volume's file are other ones, while the database is open."""
    folder, done, _ = words.open([])
    words.wants("a new database", done.returncode == 0, done)
    said, told = typed_around(words, folder, [*MADE, "copy", "copy on 1"], ["copy", "read 1 0"])
    repaired = f"imgcopy: {folder}/volume: page 1 could not be read, and was repaired from `copy-2`\n"
    words.wants("a page is repaired", said == ["copy 3 pages 2 taken 2", "value 6"] and told.stderr.decode() == repaired, told)
    folder, done, _ = words.open([])
    said, told = typed_around(words, folder, [*MADE, "checkpoint"], ["copy", "drop 1", "copy"])
    words.wants("nothing to repair it from", said[:2] == ["E22 StoreFault", "E17 NoCopy"] and len(said) == 3, told)
    words.wants("no copy is left", not list(folder.glob("copy-*")), told)


def typed_around(words, folder, before, behind):
    """What is answered behind a change of page 1 in the volume's file."""
    child = subprocess.Popen([words.program, "open", folder], stdin=subprocess.PIPE, stdout=subprocess.PIPE,
                             stderr=subprocess.PIPE)
    child.stdout.readline()
    for line in before:
        child.stdin.write(f"{line}\n".encode())
        child.stdin.flush()
        child.stdout.readline()
    volume = folder / "volume"
    with volume.open("r+b") as file:
        file.seek(volume.stat().st_size * 3 // 4)
        file.write(b"no page")
    out, err = child.communicate("".join(f"{line}\n" for line in behind).encode(), timeout=MOST_SECONDS)
    return out.decode().splitlines(), subprocess.CompletedProcess(child.args, child.returncode, out, err)


def lines_that_are_no_words(words):
    lines = ["checkpoint now", "flush 1", " flush ", "Flush", "help me", "quit now"]
    _, done, answers = words.open(lines)
    alone = "this word stands alone"
    wanted = [BEGUN, f"bad line 1: {alone}", f"bad line 2: {alone}", "flushed 0", "bad line 4: unknown call `Flush`",
              f"bad line 5: {alone}", f"bad line 6: {alone}"]
    words.wants("lines that are no words", answers == wanted and done.returncode == 0, done)
    _, done, answers = words.open(["force", "copy on 9", "flush"], "--strict")
    told = b"imgcopy: 1 of 3 calls was refused, the first at line 2\n"
    words.wants("a word that is refused", done.returncode == 1 and done.stderr == told, done)


def the_end(words):
    folder, done, answers = words.open([*MADE, "quit", "begin", "nothing"])
    is_closed = (folder / "closed").read_bytes() == b"320\n"
    words.wants("quit", answers == [BEGUN, *ANSWERS] and done.returncode == 0 and is_closed, done)


def status_lines(words):
    _, done, answers = words.open(["status"])
    none = ["status pages 2", "status records 0 left 1048576", "status dirty 0", "status end"]
    words.wants("the status of a new database", answers == [BEGUN, *none] and done.returncode == 0, done)
    lines = [*MADE, "checkpoint", "full", "take 1 0", "take 1 1", "seal 1", "inc 1", "take 2 0", "take 2 1", "seal 2",
             "begin", "set 2 0 0 1", "begin", "status"]
    _, done, answers = words.open(lines)
    some = ["status pages 2", "status records 9 left 1048567", "status dirty 1", "status open 2", "status open 3",
            "status point 320 384 320", "status copy 1 full pages 2 taken 2", "status copy 2 on 1 pages 2 taken 0",
            "status end"]
    words.wants("a status", answers[-len(some):] == some, done)


def dirty_pages(words):
    """So many pages are dirty, as one after another is changed."""
    lines = [line for page in range(9) for line in (f"set 1 {page} 0 1", "status")]
    _, done, answers = words.open(["extend 9", "begin", *lines])
    told = [answer for answer in answers if answer.startswith("status dirty")]
    words.wants("dirty pages", told == [f"status dirty {count}" for count in range(1, 10)] and done.returncode == 0, done)


def help_lines(words):
    _, done, answers = words.open(["help", "flush"])
    names = [answer.split(":")[0].split()[0] for answer in answers[1:-1]]
    is_all = sorted(names) == sorted([*CALLS, *WORDS]) and all(": " in answer for answer in answers[1:-1])
    words.wants("help", is_all and answers[-1] == "flushed 0" and done.returncode == 0, done)


def a_terminal(words):
    folder = words.place / "at-a-terminal"
    folder.mkdir()
    leader, follower = pty.openpty()
    child = subprocess.Popen([words.program, "open", folder, "--pages", "2"], stdin=follower, stdout=subprocess.PIPE,
                             stderr=subprocess.PIPE)
    os.close(follower)
    os.write(leader, b"flush\n# nothing\nquit\n")
    out, said = child.communicate(timeout=MOST_SECONDS)
    os.close(leader)
    done = subprocess.CompletedProcess(child.args, child.returncode, out, said)
    prompt = "imgcopy> "
    wanted = f"{BEGUN}\n{prompt}flushed 0\n{prompt}{prompt}"
    words.wants("a terminal", out.decode() == wanted and not said and done.returncode == 0, done)


def main(arguments):
    try:
        if len(arguments) != 1:
            raise Failure("usage: python3 -m checks.open_words PROGRAM")
        with tempfile.TemporaryDirectory() as place:
            words = Words(program_of(arguments[0]), Path(place))
            for look in (pages_that_are_written, checkpoints, copies, points_of_copies, copies_refused,
                         a_page_that_cannot_be_read, lines_that_are_no_words, the_end, status_lines, dirty_pages, help_lines,
                         a_terminal):
                look(words)
    except (Failure, OSError, subprocess.SubprocessError) as failure:
        sys.exit(f"open_words.py: {failure}")
    print(f"ok open_words: {words.checks} answers to the words of an operator are as they should be")


if __name__ == "__main__":
    main(sys.argv[1:])
