"""Notes what commands ask of the system as they put files in place, and has each of these calls fail.

usage: python3 -m checks.output_calls PROGRAM LIBRARY

LIBRARY is file_calls.rs, built. `run --save`, `redo -o`, `restore -o` and `restore --log-out` put files in the places of
older ones, also a volume and its log into one folder or into two. Of the calls that the library notes:

- Each file is made beside its name and written there, synced behind its last byte, and then renamed, once. Nothing is
  written under a name of an older file, and nothing is cut or removed.
- Behind the last rename in a folder the folder is synced. Of a volume and its log both are synced before one is renamed;
  then the log is renamed, its folder is synced, and the volume is renamed.
- No file and no folder is synced once more, but the folder of a save, before its manifest is made.

Then the power fails behind each call, by the rules of bank_calls.py: each name has its old file or its new one, whole; no
new volume is there beside an old log; and once the command has ended all are new. Then each call fails, before or after it
did what it was asked for: the status is 2, the lines name what failed and which names are new, and just those are.

`backup --into` puts the log, its copy, the master record and the manifest in place, one after another, each synced and
named for certain before the next one is renamed: where the power fails, the manifest names what is there. `renew` gives the
new folder its name behind the last sync of its files, and has that last. `list` opens the manifest before the log, which
may grow beside it.
"""

import os
import random
import shutil
import subprocess
import sys
import tempfile
from collections import Counter
from pathlib import Path
from typing import NamedTuple

from checks.bank_calls import Disk, Trace
from checks.manifest_text import NAME, WrongManifest, manifest_of, misnamed, without_manifest
from checks.unsaved import script_of, text_of

PAGES, DRAWS = 24, 6
MOST_SECONDS = 60
UNFINISHED = ".unfinished-"
ERROR, WHY = 5, "Input/output error (os error 5)"
SAVED = ("log", "master", "copy-1", "copy-2", "copy-3")
OLD_HEAD = b"# imgcopy manifest 1 database 00112233445566778899aabbccddeeff\n"
NEW_MANIFEST = b"the manifest of the saved files"


class Failure(Exception):
    """What differs, in one line."""


class Event(NamedTuple):
    """What was asked of which file or folder. A file has the number of its turn, and a folder its path below the top."""

    word: str  # make, write, sync, rename, remove, cut
    file: object
    name: str = ""
    count: int = 0


def events_of(data, top, folders):
    """The calls of a run that change something, in order, and of each file that it made the names one after another."""
    opened, names, events, at = {}, [], [], 0
    here = {}
    while at < len(data):
        end = data.index(b"\n", at)
        word, descriptor, offset, count, result = data[at:end].decode().split(" ")
        at, text = end + 1 + int(count), data[end + 1:end + 1 + int(count)]
        descriptor = int(descriptor)
        if word in ("open", "rename", "remove"):
            paths = [os.path.relpath(os.fsdecode(path), top) for path in text.split(b"\0")]
        if word == "open":
            opened[descriptor] = paths[0] if paths[0] in folders else here.get(paths[0], f"older {paths[0]}")
            if int(offset) & os.O_CREAT:
                here[paths[0]] = opened[descriptor] = len(names)
                names.append([paths[0]])
                events.append(Event("make", opened[descriptor], paths[0]))
        elif word == "close":
            opened.pop(descriptor, None)
        elif word == "rename":
            file = here.pop(paths[0], f"older {paths[0]}")
            here[paths[1]] = file
            events.append(Event("rename", file, paths[1]))
            if isinstance(file, int):
                names[file].append(paths[1])
        elif word == "remove":
            events.append(Event("remove", here.pop(paths[0], f"older {paths[0]}"), paths[0]))
        elif descriptor in opened:
            events.append(Event(word, opened[descriptor], count=int(count)))
    return events, names


class Case(NamedTuple):
    """A command that puts files in place: its words, what it reads, the paths of the files in the order in which they come
    to their names, whether one is in place only with those before it, and how it names a path or a folder that failed."""

    what: str
    words: list
    data: bytes
    paths: list
    is_pair: bool
    label: object


class Checker:
    def __init__(self, program, library, place):
        self.program, self.library, self.counts = program, os.path.abspath(library), Counter()
        self.top, self.trace, self.day = place / "top", place / "trace", place / "day"
        self.script = text_of(script_of(PAGES, 5, 3))
        self.day.mkdir()
        self.plain("run", "--pages", PAGES, "--save", self.day, data=self.script)
        log = (self.day / "log").read_bytes()
        files = [str(self.day / name) for name in SAVED]
        self.new = {name: (self.day / name).read_bytes() for name in SAVED} | {NAME: NEW_MANIFEST}
        self.new["v"] = self.plain("restore", *files)
        self.new["r"] = self.plain("redo", data=log)
        self.plain("restore", "-o", place / "volume", "--log-out", place / "after", *files)
        self.new["l"] = (place / "after").read_bytes()
        self.cases = [
            Case("run --save", ["run", "--pages", PAGES, "--save", self.top], self.script, [*SAVED], False, self.saved),
            Case("run --save --manifest", ["run", "--pages", PAGES, "--manifest", "--save", self.top], self.script,
                 [*SAVED, NAME], False, self.saved),
            Case("redo -o", ["redo", "-o", self.top / "r"], log, ["r"], False, self.named("r")),
            Case("restore -o", ["restore", "-o", self.top / "v", *files], b"", ["v"], False, self.named("v")),
            Case("restore --log-out", ["restore", "--log-out", self.top / "l", *files], b"", ["l"], False, self.named("l")),
            Case("restore -o --log-out", ["restore", "-o", self.top / "v", "--log-out", self.top / "l", *files], b"",
                 ["l", "v"], True, None),
            Case("restore -o --log-out into two folders",
                 ["restore", "-o", self.top / "a/v", "--log-out", self.top / "b/l", *files], b"", ["b/l", "a/v"], True, None)]

    def saved(self, path):
        return f"{self.top}/{path}" if path != "." else f"{self.top}"

    def named(self, only):
        return lambda path: f"{self.top}/{only}"

    def plain(self, *words, data=b""):
        done = subprocess.run([self.program, *map(str, words)], input=data, capture_output=True, timeout=MOST_SECONDS)
        if done.returncode:
            raise Failure(f"{words[0]}: status {done.returncode}, {done.stderr[:200]!r}")
        return done.stdout

    def run(self, case, **variables):
        """One run in a folder that has older files. Returns it, and the calls."""
        shutil.rmtree(self.top, ignore_errors=True)
        self.trace.unlink(missing_ok=True)
        for path in case.paths:
            (self.top / path).parent.mkdir(parents=True, exist_ok=True)
            (self.top / path).write_bytes(self.old(path))
        environment = os.environ | {"LD_PRELOAD": self.library, "CALLS_FOLDER": str(self.top)} | variables
        done = subprocess.run([self.program, *map(str, case.words)], input=case.data, capture_output=True,
                              timeout=MOST_SECONDS, env=environment | {"CALLS_TRACE": str(self.trace)})
        return done, self.trace.read_bytes()

    @staticmethod
    def old(path):
        """An older manifest is one of saved files."""
        data = f"an older {path}".encode()
        return manifest_of({"log": data}, OLD_HEAD) if path == NAME else data

    def wanted(self, path):
        return self.new[os.path.basename(path)]

    def files(self):
        return self.marked({str(path.relative_to(self.top)): path.read_bytes() for path in self.top.rglob("*")
                            if path.is_file()})

    def marked(self, files):
        """The files, with a mark in the place of a manifest of the new ones."""
        try:
            without_manifest({name: self.new[name] for name in SAVED} | {NAME: files.get(NAME)})
        except WrongManifest:
            return files
        return files | {NAME: NEW_MANIFEST}

    def folders(self, case):
        return {os.path.dirname(path) or "." for path in case.paths} | {"."}


def see(what, given, wanted):
    if given != wanted:
        raise Failure(f"{what}: {str(given)[:300]} in place of {str(wanted)[:300]}")


# The calls of a command that nothing stops

def check_calls(checker, case):
    done, data = checker.run(case)
    see(f"{case.what}, its status and lines", (done.returncode, done.stderr), (0, b""))
    see(f"{case.what}, its files", checker.files(), {path: checker.wanted(path) for path in case.paths})
    events, names = events_of(data, checker.top, checker.folders(case))
    see(f"{case.what}, the names of its files", sorted(last[-1] for last in names), sorted(case.paths))
    for each in names:
        if len(each) != 2 or not each[0].startswith(each[1] + UNFINISHED):
            raise Failure(f"{case.what}: a file is made as {each[0]}, and its names are {each[1:]}")
    for event in events:
        if event.word in ("cut", "remove") or isinstance(event.file, str) and event.word in ("write", "rename"):
            raise Failure(f"{case.what}: {event.word} of {event.file}")
    order = {path: number for number, (_, path) in enumerate(names)}
    for path in case.paths:
        check_file(case, events, order[path])
    check_folders(case, events, order)
    check_losses(checker, case, data)
    checker.counts["commands"] += 1
    return events, names


def places(events, word, file):
    return [place for place, event in enumerate(events) if (event.word, event.file) == (word, file)]


def check_file(case, events, file):
    """It is synced behind its last byte, once, and then renamed."""
    writes, syncs, renames = (places(events, word, file) for word in ("write", "sync", "rename"))
    if not writes or len(syncs) != 1 or len(renames) != 1 or not writes[-1] < syncs[0] < renames[0]:
        raise Failure(f"{case.what}: file {file} is written {writes[-1:]}, synced {syncs} and renamed {renames}")


def check_folders(case, events, order):
    """Each folder is synced behind the last rename in it, and once."""
    renamed = {}
    for path in case.paths:
        folder = os.path.dirname(path) or "."
        renamed.setdefault(folder, []).append(places(events, "rename", order[path])[0])
    if case.is_pair:
        (log, volume) = (order[path] for path in case.paths)
        first, second = (places(events, "rename", file)[0] for file in (log, volume))
        synced = [places(events, "sync", file)[0] for file in (log, volume)]
        between = places(events, "sync", os.path.dirname(case.paths[0]) or ".")
        if not max(synced) < first < second or not any(first < place < second for place in between):
            raise Failure(f"{case.what}: synced {synced}, renamed {first} and {second}, and the log's folder {between}")
    for folder, at in renamed.items():
        syncs = places(events, "sync", folder)
        if not syncs or syncs[-1] < max(at):
            raise Failure(f"{case.what}: folder {folder} is synced {syncs}, and its names change {at}")
        wanted = len(at) if case.is_pair else 2 if NAME in case.paths else 1
        see(f"{case.what}, syncs of folder {folder}", len(syncs), wanted)


def check_losses(checker, case, data):
    """The power fails behind each call. The rules know one folder."""
    if any("/" in path for path in case.paths):
        return
    before = {path: checker.old(path) for path in case.paths}
    trace, draw = Trace(data, checker.top, before), random.Random(1)
    for cut in range(len(trace.calls) + 1):
        disk = Disk(trace)
        for call in trace.calls[:cut]:
            disk.take(call)
        for _ in range(DRAWS):
            files = checker.marked(disk.files_after_loss(draw))
            is_new = [files.get(path) == checker.wanted(path) for path in case.paths]
            for path, new in zip(case.paths, is_new):
                if not new and files.get(path) != before[path]:
                    raise Failure(f"{case.what}, a loss of power at call {cut}: {path} is neither the old one nor the new one")
            if case.is_pair and is_new == [False, True]:
                raise Failure(f"{case.what}, a loss of power at call {cut}: the new volume is there, and the old log")
            if cut == len(trace.calls) and not all(is_new):
                raise Failure(f"{case.what}, a loss of power at its end: an old file is there")
            checker.counts["losses"] += 1


# Each call fails

def check_failures(checker, case, events, names):
    turns = Counter()
    for place, event in enumerate(events):
        turns[event.word] += 1
        for how in ("once", "late"):
            call = f"{event.word} any {turns[event.word]} {ERROR} {how}"
            done, _ = checker.run(case, FAILED_CALL=call)
            check_failure(checker, case, events, names, place, how, done)
            checker.counts["failures"] += 1


def check_failure(checker, case, events, names, place, how, done):
    event, what = events[place], f"{case.what}, {events[place].word} {place} fails, {how}"
    done_by = events[:place + 1] if how == "late" else events[:place]
    new = [path for path in case.paths if any((each.word, each.name) == ("rename", path) for each in done_by)]
    wanted = {path: checker.wanted(path) if path in new else checker.old(path) for path in case.paths}
    files = checker.files()
    if event.word == "make" and how == "late":
        # The program does not know of this one.
        files = {path: data for path, data in files.items() if path != event.name or path in case.paths}
        wanted = {path: data for path, data in wanted.items() if path != event.name or path in files}
    see(f"{what}, the files", sorted(files), sorted(wanted))
    for path in wanted:
        if files[path] != wanted[path]:
            raise Failure(f"{what}: {path} is {'old' if path in new else 'new'}, or no such file")
    gone = sum(each.count for each in events[:place] if (each.word, each.file) == ("write", event.file))
    lines = done.stderr.decode().splitlines()
    see(f"{what}, status and first line", (done.returncode, lines[:1]),
        (2, [f"E29 WriteFault {gone if event.word == 'write' else 0}"]))
    see(f"{what}, second line", lines[1:2], [f"imgcopy: {label_of(checker, case, events, names, place)}: {WHY}"])
    # What was renamed is known to be new where that was answered.
    told = [path for path in case.paths if any((each.word, each.name) == ("rename", path) for each in events[:place])]
    see(f"{what}, further lines", lines[2:], lines_of_new(checker, case, told))


def label_of(checker, case, events, names, place):
    """The path that is told: of a folder's sync that of the file which was renamed before it."""
    event = events[place]
    if isinstance(event.file, int):
        return f"{checker.top}/{names[event.file][1]}"
    if case.label:
        return case.label(event.file)
    last = [each for each in events[:place] if each.word == "rename"][-1]
    return f"{checker.top}/{last.name}"


def lines_of_new(checker, case, new):
    if not case.what.startswith("run --save"):
        return [f"imgcopy: {checker.top}/{path}: this has its new file already" for path in new]
    return [f"imgcopy: {checker.top}: " + ("these have their new file already: " + " ".join(new) if new
                                           else "no name has its new file")]


# A second folder, and a new one

def noted(checker, *words):
    """What a command asks of the files below the top."""
    checker.trace.unlink(missing_ok=True)
    environment = os.environ | {"LD_PRELOAD": checker.library, "CALLS_FOLDER": str(checker.top),
                                "CALLS_TRACE": str(checker.trace)}
    done = subprocess.run([checker.program, *map(str, words)], capture_output=True, timeout=MOST_SECONDS, env=environment)
    see(f"{words[0]}, its status and lines", (done.returncode, done.stderr), (0, b""))
    return checker.trace.read_bytes()


def database(checker):
    """A database whose first backup is in the top folder, and that went on."""
    folder = checker.top.with_name("database")
    for each in (folder, checker.top):
        shutil.rmtree(each, ignore_errors=True)
        each.mkdir()
    checker.plain("open", folder, "--pages", 2, data=text_of(["begin", "set 1 0 0 5", "commit 1"]))
    checker.plain("backup", folder, "--into", checker.top)
    checker.plain("open", folder, data=text_of(["begin", "set 2 1 0 6", "commit 2"]))
    return folder


def check_backup(checker):
    folder = database(checker)
    before = checker.files()
    data = noted(checker, "backup", folder, "--into", checker.top)
    events, names = events_of(data, checker.top, {"."})
    wanted = ["log", "copy-2", "master", NAME]
    see("backup --into, its files in their order", [each[-1] for each in names], wanted)
    places_of_renames = []
    for file in range(len(names)):
        check_file(Case("backup --into", [], b"", wanted, False, None), events, file)
        places_of_renames += places(events, "rename", file)
    syncs = places(events, "sync", ".")
    for first, last in zip(places_of_renames, [*places_of_renames[1:], len(events)]):
        if not any(first < place < last for place in syncs):
            raise Failure(f"backup --into: the folder is synced {syncs}, and its names change {places_of_renames}")
    check_second(checker, data, before)
    checker.counts["commands"] += 1


def check_second(checker, data, before):
    """The power fails behind each call of a backup: in the second folder the manifest names what is there."""
    new, trace, draw = checker.files(), Trace(data, checker.top, before), random.Random(1)
    for cut in range(len(trace.calls) + 1):
        disk = Disk(trace)
        for call in trace.calls[:cut]:
            disk.take(call)
        for _ in range(DRAWS):
            files = disk.files_after_loss(draw)
            whole = {name: it for name, it in files.items() if UNFINISHED not in name}
            if any(it not in (before.get(name), new.get(name)) for name, it in whole.items()) or before.keys() - whole.keys():
                raise Failure(f"backup --into, a loss of power at call {cut}: a file is neither the old one nor the new one")
            if misnamed(whole):
                raise Failure(f"backup --into, a loss of power at call {cut}: the manifest names another {misnamed(whole)}")
            checker.counts["losses"] += 1


def check_list(checker):
    """A list reads the manifest before the log, which has at least what is named then."""
    folder = database(checker)
    checker.plain("backup", folder, "--into", checker.top)
    data, opened, at = noted(checker, "list", checker.top), [], 0
    while at < len(data):
        end = data.index(b"\n", at)
        count = int(data[at:end].split(b" ")[3])
        if data.startswith(b"open ", at):
            opened.append(os.path.basename(data[end + 1:end + 1 + count].decode()))
        at = end + 1 + count
    see("list, the files that it opens", {"copy-1", "copy-2", "log", NAME} - set(opened), set())
    if opened.index(NAME) > opened.index("log"):
        raise Failure(f"list: it opens {opened} in this order")
    checker.counts["commands"] += 1


def check_renewal(checker):
    folder = database(checker)
    made = f"new{UNFINISHED}1"
    events, names = events_of(noted(checker, "renew", folder, checker.top / "new"), checker.top, {".", made})
    named = [place for place, event in enumerate(events) if (event.word, event.name) == ("rename", "new")]
    see("renew, its last calls", [(event.word, event.file) for event in events[-2:]], [("rename", f"older {made}"), ("sync", ".")])
    files = {os.path.basename(each[-1]): file for file, each in enumerate(names)}
    see("renew, its files", sorted(files), ["closed", "copy-1", "log", "manifest", "master", "volume"])
    last_rename = max(place for place, event in enumerate(events[:named[0]]) if event.word == "rename")
    if not any(last_rename < place for place in places(events, "sync", made)):
        raise Failure(f"renew: the new folder is not synced behind its last name: {events}")
    for name, file in files.items():
        writes, syncs = places(events, "write", file), places(events, "sync", file)
        if name != "volume" and not (writes and syncs and writes[-1] < syncs[-1] < named[0]):
            raise Failure(f"renew: {name} is written {writes[-1:]} and synced {syncs}, and the folder named {named}")
    checker.counts["commands"] += 1


def main(arguments):
    try:
        if len(arguments) != 2:
            raise Failure("usage: python3 -m checks.output_calls PROGRAM LIBRARY")
        path = shutil.which(arguments[0])
        if path is None:
            raise Failure(f"there is no program {arguments[0]}")
        with tempfile.TemporaryDirectory() as place:
            checker = Checker(os.path.abspath(path), arguments[1], Path(place).resolve())
            for case in checker.cases:
                events, names = check_calls(checker, case)
                check_failures(checker, case, events, names)
            check_backup(checker)
            check_list(checker)
            check_renewal(checker)
    except (Failure, OSError, subprocess.SubprocessError) as failure:
        sys.exit(f"output_calls.py: {failure}")
    counts = checker.counts
    print(f"ok output_calls: {counts['commands']} commands sync and rename in their order, {counts['losses']} losses of power"
          f" left old or new files, and of {counts['failures']} calls that failed each was told")


if __name__ == "__main__":
    main(sys.argv[1:])
