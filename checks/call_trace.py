"""Notes each call of the system that a program makes of its files, as strace sees it: for call_order.py.

A preloaded library sees what goes through the C library. strace sees what reaches the system: locks, and calls that no
library wraps, too. It fails a call where it is told to (`inject`).
"""

import os
import re
import subprocess
from pathlib import Path
from typing import NamedTuple

MOST_SECONDS = 120
CALLS = ("open,openat,creat,close,dup,dup2,dup3,read,pread64,write,pwrite64,writev,pwritev,pwritev2,fsync,fdatasync,"
         "sync,syncfs,sync_file_range,ftruncate,truncate,fallocate,rename,renameat,renameat2,unlink,unlinkat,rmdir,mkdir,"
         "mkdirat,link,linkat,symlink,symlinkat,flock,exit_group")
OUTPUT, ERRORS = 1, 2

# A call, as `12 pwrite64(5, "\x41", 1, 64) = 1`, or its parts where another thread's came between.
LINE = re.compile(r"(\d+) +(\w+)\((.*)\) += (-?\d+|\?)(.*)")
BEGUN = re.compile(r"(\d+) +(.*) <unfinished \.\.\.>")
RESUMED = re.compile(r"(\d+) +<\.\.\. \w+ resumed>(.*)")
TEXT = re.compile(r'"((?:\\x[0-9a-f]{2})*)"(\.\.\.)?')
NOT_TOLD = re.compile(r"\d+ +(\+\+\+|---)")


class Failure(Exception):
    """What differs, in one line."""


class Call(NamedTuple):
    """What was asked of which file, and whether the system answered that it is done."""

    word: str  # open, make, close, read, write, cut, sync, rename, remove, mkdir, lock, unlock, tell, end
    file: int = -1  # its descriptor
    names: tuple = ()  # paths below the top
    at: int = -1  # an offset; -1 goes on behind the last one. Of a cut the new length
    data: bytes = b""
    is_done: bool = True
    is_written: bool = False  # of an opening: for writing

    def __str__(self):
        what = " ".join(self.names) or f"descriptor {self.file}"
        return f"{self.word} {what}" + (f" at {self.at}" if self.at >= 0 else "") + ("" if self.is_done else ", which failed")


class Run(NamedTuple):
    status: int
    output: bytes
    error: bytes
    calls: list
    counts: dict  # of each call of the system how often it was made


def run(words, top, data=b"", inject=None, trace=None):
    """Runs a program, and answers what it said and asked. `inject` is an expression of strace, as `fsync:error=EIO:when=2`."""
    trace = trace or Path(top) / ".." / "strace"
    trace.unlink(missing_ok=True)
    command = ["strace", "-f", "-qq", "-xx", "-s", "1000000000", "-e", "signal=none", "-e", f"trace={CALLS}", "-o", trace]
    command += ["-e", f"inject={inject}"] if inject else []
    done = subprocess.run([*command, *map(str, words)], input=data, capture_output=True, timeout=MOST_SECONDS)
    if not trace.exists():
        raise Failure(f"strace made no trace: {done.stderr[:300]!r}")
    text = trace.read_text()
    return Run(done.returncode, done.stdout, done.stderr, list(calls_of(text, os.path.realpath(top))), counted(text))


def whole_lines(text):
    """The lines of a trace. A call that was interrupted by another thread's stands where it has ended."""
    begun = {}
    for line in text.splitlines():
        if found := BEGUN.fullmatch(line):
            begun[found[1]] = found[0].removesuffix(" <unfinished ...>")
        elif found := RESUMED.fullmatch(line):
            yield begun.pop(found[1]) + found[2]
        elif not NOT_TOLD.match(line):
            yield line


def counted(text):
    counts = {}
    for line in whole_lines(text):
        name = line.split("(")[0].split()[-1]
        counts[name] = counts.get(name, 0) + 1
    return counts


def calls_of(text, top):
    for line in whole_lines(text):
        found = LINE.fullmatch(line)
        if not found:
            if "exit_group" in line:
                yield Call("end")
                continue
            raise Failure(f"strace told what is not understood: {line[:200]}")
        yield from call_of(found[2], found[3], found[4], top)
    yield Call("end")


def call_of(name, arguments, answer, top):
    """The call that a line tells of, if it is one that counts."""
    texts = [bytes.fromhex(text[1].replace("\\x", "")) for text in TEXT.finditer(arguments)]
    if any(text[2] for text in TEXT.finditer(arguments)):
        raise Failure("strace has cut a text off")
    numbers = [part.strip() for part in TEXT.sub("", arguments).split(",")]
    result = int(answer) if answer != "?" else -1
    is_done = result >= 0
    is_of_names = name.startswith(("open", "creat", "rename", "unlink", "rmdir", "mkdir"))
    paths = tuple(os.path.relpath(os.fsdecode(text), top) for text in texts) if is_of_names else ()
    if name in ("open", "openat", "creat"):
        is_made = "O_EXCL" in arguments and "O_CREAT" in arguments
        if name == "creat" or "O_TRUNC" in arguments or "O_CREAT" in arguments and not is_made:
            raise Failure(f"{paths[0]} is opened so that an older file may be lost: {arguments[-80:]}")
        if is_done or is_made:
            is_written = "O_WRONLY" in arguments or "O_RDWR" in arguments
            yield Call("make" if is_made else "open", result, paths, is_done=is_done, is_written=is_written)
    elif name in ("write", "writev"):
        file, data = int(numbers[0].strip("[")), b"".join(texts)[:max(result, 0)]
        yield Call("tell" if file in (OUTPUT, ERRORS) else "write", file, data=data, is_done=is_done)
    elif name == "pwrite64":
        yield Call("write", int(numbers[0]), at=int(numbers[-1]), data=texts[0][:max(result, 0)], is_done=is_done)
    elif name in ("read", "pread64"):
        yield Call("read", int(numbers[0]), is_done=is_done)
    elif name in ("fsync", "fdatasync"):
        yield Call("sync", int(numbers[0]), is_done=is_done)
    elif name == "ftruncate":
        yield Call("cut", int(numbers[0]), at=int(numbers[1]), is_done=is_done)
    elif name in ("rename", "renameat", "renameat2"):
        yield Call("rename", names=paths, is_done=is_done)
    elif name in ("unlink", "unlinkat", "rmdir"):
        yield Call("remove", names=paths, is_done=is_done)
    elif name in ("mkdir", "mkdirat"):
        yield Call("mkdir", names=paths, is_done=is_done)
    elif name == "flock":
        yield Call("unlock" if "LOCK_UN" in arguments else "lock", int(numbers[0]), is_done=is_done)
    elif name == "close":
        yield Call("close", int(numbers[0]))
    elif name != "exit_group":
        raise Failure(f"a call that no rule knows: {name}({TEXT.sub('..', arguments)})")
