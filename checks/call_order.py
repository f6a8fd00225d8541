"""Has strace note the calls of the system that commands make, and holds their order against rules.

usage: python3 -m checks.call_order PROGRAM
       python3 -m checks.call_order --can       ends with status 0 if strace is there, and may trace a program

The commands are those that change files: `open` of a new folder, of one that was closed, killed, or lacks what was forced;
`backup`, also into a second folder; `renew`; `run --save`; and `redo` and `restore` with `-o` and `--log-out`. Those that
only read change nothing.

Of each command:

- Each call may be made when it is made, by the rules of call_rules.py. They say of a run what the contracts of the crates
  below say of their traits: which locks are held, what is synced before a name is given, before a page is written and before
  a line is told.
- A sync, a lock, a name that is given or a removal is left out of what was noted, or comes later: a rule is broken. So
  no rule holds of any order, each rule is broken by some of these, and no call of these kinds is made in vain.
- Each call fails in turn, as strace has it fail: the rules hold of what is asked and told behind that, too. Above all, once
  a sync of a folder failed, nothing is told that rests on a name there which was not stored, until that file is put
  in place anew and the folder is synced; and once a sync of a log failed, nothing more is asked of it.
- Where the folder is locked by another one, nothing is changed.
"""

import os
import shutil
import subprocess
import sys
import tempfile
from collections import Counter
from concurrent.futures import ThreadPoolExecutor
from pathlib import Path
from typing import NamedTuple

from checks.bank_files import memory_place
from checks.call_rules import RULES
from checks.call_seen import CHANGES, Seen
from checks.call_trace import MOST_SECONDS, Call, Failure, run
from checks.unsaved import script_of, text_of

PAGES = 3
MADE = ("begin", "set 1 0 0 5", "set 1 1 0 6", "commit 1")
BY_CALLS = ("ckpt", "gather", "gather", "gather", "endckpt", "endckpt", "full", "take 1 0", "take 1 1", "take 1 2", "seal 1",
            "seal 1")
LATER = ("begin", "add {} 1 1 9", "commit {}")
FAILED = ("fsync", "fdatasync", "rename", "pwrite64", "write", "ftruncate", "unlink", "mkdir", "flock")
# Where one of these fails, the command does not end well.
TOLD = ("fsync", "fdatasync", "rename", "ftruncate", "mkdir")
ERROR = {"flock": "EINTR"}


class Case(NamedTuple):
    """A command: what it is run with, what stands below the top before, and which paths it may change."""

    what: str
    words: tuple
    files: dict  # by path: bytes, or None for a folder
    may_change: tuple = ()
    lines: tuple = ()
    data: bytes = b""
    second: str = ""
    is_pair: bool = False
    is_save: bool = False


class Checker:
    def __init__(self, program, place):
        self.program, self.place, self.counts, self.broken = program, place, Counter(), Counter()

    def top(self, case):
        """A folder with the files of a case, and nothing else."""
        top = Path(tempfile.mkdtemp(dir=self.place)).resolve()
        for path, data in case.files.items():
            if data is None:
                (top / path).mkdir(parents=True, exist_ok=True)
            else:
                (top / path).parent.mkdir(parents=True, exist_ok=True)
                (top / path).write_bytes(data)
        return top

    def run(self, case, inject=None):
        top = self.top(case)
        words = [self.program, *(str(word).replace("TOP", str(top)) for word in case.words)]
        data = case.data or text_of(case.lines)
        done = run(words, top, data, inject, self.place / f"{top.name}.trace")
        shutil.rmtree(top)
        return done

    # What the cases begin with

    def folder(self, *lives, killed=()):
        """The files of a database that has had these lives, and then one that was killed behind its answers."""
        top = Path(tempfile.mkdtemp(dir=self.place))
        for lines in lives:
            done = subprocess.run([self.program, "open", top, "--pages", str(PAGES)], input=text_of(lines),
                                  capture_output=True, timeout=MOST_SECONDS)
            if done.returncode:
                raise Failure(f"a database that is made: status {done.returncode}, {done.stderr[:300]!r}")
        if killed:
            with subprocess.Popen([self.program, "open", top, "--pages", str(PAGES)], stdin=subprocess.PIPE,
                                  stdout=subprocess.PIPE) as child:
                child.stdin.write(text_of(killed))
                child.stdin.flush()
                for _ in range(len(killed) + 1):
                    child.stdout.readline()
                child.kill()
        files = {path.name: path.read_bytes() for path in top.iterdir()}
        shutil.rmtree(top)
        return files


def under(folder, files):
    return {folder: None} | {f"{folder}/{name}": data for name, data in files.items()}


def later(number):
    return tuple(line.format(number) for line in LATER)


def cases(checker):
    closed = checker.folder([*MADE, "checkpoint", "copy"], [*later(2), "copy on 1"])
    killed = checker.folder([*MADE, "checkpoint", "copy"], killed=[*later(2), "begin", "set 3 2 0 7", "force"])
    torn = killed | {"log": killed["log"] + killed["log"][64:128] + b"torn" * 20}
    shorter = closed | {"log": closed["log"][:-64]}
    yield from lives(closed, torn, shorter)
    yield from backups(checker, closed)
    yield from outputs(checker, killed)
    yield from readers(closed)


def lives(closed, torn, shorter):
    words, may = ("open", "TOP/db", "--pages", PAGES), ("db",)
    whole = (*MADE, "checkpoint", "copy", *later(2), "extend 4", "wbegin 0", "wend 0", "flush", "force", "copy on 1", "status")
    yield Case("a new database", words, {"db": None}, may, whole)
    yield Case("a new database, by calls", words, {"db": None}, may, (*MADE, *BY_CALLS, *later(2)))
    for what, log in (("an empty log", b""), ("zeros for a header", bytes(64))):
        yield Case(f"a new database on {what}", words, under("db", {"log": log, "master.unfinished-1": b"x"}), may, MADE)
    again = (*later(3), "checkpoint", "copy", "begin", "set 4 0 3 8")
    yield Case("a database that was closed", words, under("db", closed), may, again)
    yield Case("one that was closed, and nothing is asked", words, under("db", closed), may)
    yield Case("one that was killed, with a torn tail", words, under("db", torn), may, ("checkpoint", "copy"))
    left = {"copy-2.unfinished-1": b"x", "manifest.unfinished-1": b"y", "log.left-out-1": b"older"}
    yield Case("a torn tail beside what is unfinished", words, under("db", torn | left), may, later(4))
    yield Case("zeros behind a log", words, under("db", closed | {"log": closed["log"] + bytes(200)}), may, later(3))
    unnamed = closed | {"master": bytes(64), "copy-3": b"no copy"}
    yield Case("a wrong master record and a wrong copy", words, under("db", unnamed), ("db",), ("checkpoint", "copy", "copy"))
    yield Case("less than was forced, and --salvage", (*words, "--salvage"), under("db", shorter), may, ("checkpoint", "copy"))


def backups(checker, closed):
    database = under("db", closed)
    away = {name: closed[name] for name in ("log", "master", "copy-1", "copy-2", "manifest")}
    yield Case("backup", ("backup", "TOP/db"), database, ("db",))
    yield Case("backup --into", ("backup", "TOP/db", "--into", "TOP/away"), database | {"away": None}, ("db", "away"),
               second="away")
    older = under("away", away) | {"away/copy-2.unfinished-1": b"x"}
    yield Case("backup --into an older one", ("backup", "TOP/db", "--into", "TOP/away"), database | older, ("db", "away"),
               second="away")
    yield Case("renew", ("renew", "TOP/db", "TOP/new"), database, ("new", r"new\.unfinished-1"))


def outputs(checker, killed):
    script, old = text_of(script_of(PAGES, 5, 3)), {f"out/{name}": b"older" for name in ("log", "master", "copy-1", "copy-2")}
    save = ("run", "--pages", PAGES, "--save", "TOP/out")
    yield Case("run --save", save, {"out": None}, ("out",), data=script, is_save=True)
    yield Case("run --save --manifest", (*save, "--manifest"), {"out": None}, ("out",), data=script, is_save=True)
    yield Case("run --save over older files", save, {"out": None} | old, ("out",), data=script, is_save=True)
    inputs = under("in", {name: killed[name] for name in ("log", "master", "copy-1")})
    files = ("TOP/in/log", "TOP/in/master", "TOP/in/copy-1")
    there = {"a": None, "b": None, "a/v": b"an older volume"}
    yield Case("redo -o", ("redo", "-o", "TOP/a/v"), there, ("a",), data=killed["log"])
    yield Case("restore -o", ("restore", "-o", "TOP/a/v", *files), inputs | there, ("a",))
    yield Case("restore --log-out", ("restore", "--log-out", "TOP/a/l", *files), inputs | there, ("a",))
    both = ("restore", "-o", "TOP/a/v", "--log-out")
    yield Case("restore -o --log-out", (*both, "TOP/a/l", *files), inputs | there, ("a",), is_pair=True)
    yield Case("restore -o --log-out into two folders", (*both, "TOP/b/l", *files), inputs | there, ("a", "b"), is_pair=True)
    forced = there | {"a/l": killed["log"]}
    yield Case("restore --force over an older log", (*both, "TOP/a/l", "--force", *files), inputs | forced, ("a",),
               is_pair=True)


def readers(closed):
    files = ("TOP/db/log", "TOP/db/master", "TOP/db/copy-1", "TOP/db/copy-2")
    for words in (("list", "TOP/db"), ("verify", "TOP/db"), ("restore", "TOP/db"), ("restore", *files),
                  ("show", files[0]), ("audit", files[0], *files[2:])):
        yield Case(" ".join(words).replace("TOP/", ""), words, under("db", closed))
    yield Case("redo", ("redo",), {}, data=closed["log"])


# The rules of what was noted

def broken(case, calls, is_failing=False):
    """Each rule that a call does not keep, and what is wrong."""
    seen, found = Seen(case, is_failing), []
    for call in calls:
        if call.is_done and not seen.can(call):
            return [("can", f"{call} cannot be done")]
        for sentence, check in RULES:
            if why := check(seen, call):
                found.append((check.__name__, f"{why}, at {call}: {sentence}"))
        seen.take(call)
    return found


def check_order(checker, case):
    done = checker.run(case)
    if done.status:
        raise Failure(f"{case.what}: status {done.status}, {done.error[:300]!r}")
    if found := broken(case, done.calls):
        raise Failure(f"{case.what}: {found[0][1]}")
    checker.counts["calls"] += len(done.calls)
    checker.counts["commands"] += 1
    check_spoiled(checker, case, done.calls)
    return done


def check_spoiled(checker, case, calls):
    for what, spoiled in spoils(case, calls):
        found = broken(case, spoiled)
        checker.broken.update({name for name, _ in found})
        if not found and not what.startswith("maybe "):
            raise Failure(f"{case.what}, {what}: no rule is broken")
        checker.counts["orders"] += bool(found)


def spoils(case, calls):
    """Other orders of the same calls, which a rule has to refuse; or may, where other calls do what is needed."""
    for place, call in enumerate(calls):
        rest = [*calls[:place], *calls[place + 1:]]
        is_below = is_seen(case, calls, place)
        if call.word in ("sync", "rename", "remove", "mkdir", "lock") and is_below:
            maybe = "maybe " * is_look(calls, place)
            yield f"{maybe}without {call}, call {place}", rest
            yield f"maybe late {call}", [*rest[:-1], call, rest[-1]]
        if call.word in ("cut", "remove", "rename"):
            yield f"maybe early {call}", [call, *rest]
        if call.word == "make":
            name = call.names[0].split(".unfinished-")[0]
            for other in (name, f"stray.unfinished-{place}"):
                yield f"maybe {call} as {other}", [*calls[:place], call._replace(names=(other,)), *calls[place + 1:]]
        if call.word == "remove":
            yield f"maybe {call} of another file", [*calls[:place], call._replace(names=("db/copy-1",)), *calls[place + 1:]]
        if call.word == "write":
            named = next((at for at in range(place, len(calls)) if calls[at].word == "rename"), place)
            yield f"maybe late {call}", [*calls[:named + 1], call, *calls[named + 1:]]
        if call.word == "sync":
            yield f"maybe failed {call}", [*calls[:place], call._replace(is_done=False), *calls[place + 1:]]
        if call.word == "tell":
            sync = max((at for at in range(place) if calls[at].word == "sync"), default=None)
            if sync is not None:
                yield f"maybe early {call}", [*calls[:sync], call, *calls[sync:place], *calls[place + 1:]]


def is_look(calls, place):
    """Whether a call is a lock under which nothing is changed: it only looks whether another one has it."""
    call, behind = calls[place], calls[place + 1:]
    end = next((at for at, it in enumerate(behind) if it.word == "close" and it.file == call.file), len(behind))
    return call.word == "lock" and not (call.is_done and any(it.word in CHANGES for it in behind[:end]))


def is_seen(case, calls, place):
    """Whether a call is made of a file below the top."""
    call, seen = calls[place], Seen(case)
    if call.names:
        return True
    for before in calls[:place]:
        seen.take(before)
    return seen.node(call) is not None


def check_failures(checker, case, counts):
    """Each call fails in turn."""
    runs = [(name, number) for name in FAILED for number in range(1, counts.get(name, 0) + 1)]
    with ThreadPoolExecutor(os.cpu_count()) as pool:
        for answer in pool.map(lambda it: check_failure(checker, case, *it), runs):
            checker.counts[answer] += 1


def check_failure(checker, case, name, number):
    done = checker.run(case, f"{name}:error={ERROR.get(name, 'EIO')}:when={number}")
    what = f"{case.what}, where {name} fails at call {number}"
    if found := broken(case, done.calls, is_failing=True):
        raise Failure(f"{what}: {found[0][1]}")
    if name in TOLD and done.status == 0:
        raise Failure(f"{what}: it ends well, {done.error[:300]!r}")
    return "failures"


def check_locked(checker, case):
    """Another one has each lock."""
    done = checker.run(case, "flock:error=EAGAIN:when=1+")
    seen = Seen(case, is_failing=True)
    for call in done.calls:
        seen.take(call)
    if seen.changes or done.status == 0:
        raise Failure(f"{case.what}, where another one has the lock: status {done.status}, {seen.changes} changes")
    checker.counts["locked"] += 1


def can_trace():
    try:
        return subprocess.run(["strace", "-o", os.devnull, "true"], capture_output=True).returncode == 0
    except OSError:
        return False


def main(arguments):
    if arguments == ["--can"]:
        sys.exit(0 if can_trace() else 1)
    try:
        if len(arguments) != 1:
            raise Failure("usage: python3 -m checks.call_order PROGRAM")
        path = shutil.which(arguments[0])
        if path is None:
            raise Failure(f"there is no program {arguments[0]}")
        with tempfile.TemporaryDirectory(dir=memory_place()) as place:
            checker = Checker(os.path.abspath(path), Path(place).resolve())
            for case in cases(checker):
                done = check_order(checker, case)
                check_failures(checker, case, done.counts)
                if case.may_change:
                    check_locked(checker, case)
        unbroken = [check.__name__ for _, check in RULES if not checker.broken[check.__name__]]
        if unbroken:
            raise Failure(f"no other order breaks these rules: {', '.join(unbroken)}")
    except (Failure, OSError, subprocess.SubprocessError) as failure:
        sys.exit(f"call_order.py: {failure}")
    counts = checker.counts
    print(f"ok call_order: {counts['calls']} calls of {counts['commands']} commands keep {len(RULES)} rules, {counts['orders']}"
          f" other orders break one, and of {counts['failures']} calls that failed nothing was told that is not stored")


if __name__ == "__main__":
    main(sys.argv[1:])
