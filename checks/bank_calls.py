"""Notes what a bank asks of its files, and plays these calls again up to a loss of power: for the other scripts.

The library file_calls.rs notes each call of a file in the bank's folder, and each line that it tells. What a disk may
hold after a loss of power is drawn here by these rules, which promise a program no more than the system does:

- A sync of a file that was answered leaves all that was written to it before, and its length.
- Of each write and each cut behind that, alone, any may be there or not; a write may be there up to any byte, with the
  old bytes behind it, or zero bytes where the file had none.
- A name that was made, renamed or removed lasts once the folder is synced. Before that each of these, alone, may have
  been done or not. A rename is done as a whole.
- At a sync that failed the system may drop what was written before it, for good.
"""

import os
import subprocess
from typing import NamedTuple

from model.log_format import HEADER_SIZE, MAGIC

LOG, FOLDER = "log", ""
OUTPUT = 1
# The kinds of files, as the library counts them.
KINDS = ("unseen", "log", "volume", "master", "copy", "manifest", "folder", "lines", "other")
CREATE, TRUNCATE = os.O_CREAT, os.O_TRUNC
SECONDS_OF_A_RUN = 60


class Call(NamedTuple):
    """What was asked, of which file: its number from 0 on in the order in which they were first met, or its names."""

    word: str  # write, cut, sync, make, rename, remove, tell
    file: int = -1
    at: int = 0
    data: bytes = b""
    names: tuple = ()
    is_done: bool = True


class Trace:
    """The calls of one run, in order. Files are numbered as they are made or first opened; those that the folder had
    before the run are the first ones."""

    def __init__(self, data, folder, before):
        self.before = before  # the bytes of each file that was there, by name
        self.entries = {name: number for number, name in enumerate(before)}
        self.names = {number: name for name, number in self.entries.items()}  # of each file the last one it was given
        self.calls, self.opened, self.places = [], {}, {}
        self.fault = None  # the word of the call that was the first to fail as it was told to, and its file
        at = 0
        while at < len(data):
            end = data.index(b"\n", at)
            word, file, offset, count, result = data[at:end].decode().split(" ")
            at = end + 1 + int(count)
            self.note(word, int(file), int(offset), data[end + 1:at], int(result), os.fsencode(folder))

    def note(self, word, descriptor, at, data, result, folder):
        if word == "fault":
            self.fault = data.decode(), KINDS[at]
        elif word in ("open", "rename", "remove"):
            names = tuple(os.fsdecode(path[len(folder):].lstrip(b"/")) for path in data.split(b"\0"))
            if word == "open":
                self.note_open(descriptor, at, names[0])
            else:
                self.calls.append(Call(word, self.entries.get(names[0], -1), names=names))
                self.move(names)
        elif descriptor == OUTPUT:
            self.calls += [Call("tell", data=data)] if word == "write" else []
        elif word == "close":
            self.opened.pop(descriptor, None)
        else:
            file = self.opened[descriptor]
            at = self.place(descriptor, at, len(data)) if word == "write" else at
            self.calls.append(Call(word, file, at, data, is_done=result >= 0))

    def note_open(self, descriptor, flags, name):
        if name == FOLDER:
            self.opened[descriptor] = FOLDER
            return
        if name not in self.entries:
            self.entries[name] = len(self.names)
            self.names[self.entries[name]] = name
            self.calls.append(Call("make", self.entries[name], names=(name,)))
        elif flags & TRUNCATE:
            self.calls.append(Call("cut", self.entries[name]))
        self.opened[descriptor] = self.entries[name]
        self.places[descriptor] = 0

    def place(self, descriptor, at, count):
        """Where bytes are written: a write that names no place goes on behind the one before it."""
        if at >= 0:
            return at
        self.places[descriptor] += count
        return self.places[descriptor] - count

    def move(self, names):
        file = self.entries.pop(names[0], None)
        if len(names) == 2:
            self.entries[names[1]] = file
            self.names[file] = names[1]

    def output(self, end=None):
        """What was told by the calls before this one."""
        return b"".join(call.data for call in self.calls[:end] if call.word == "tell")


def changed(data, call, count=None, fills=False):
    """The bytes of a file after a write, or so many bytes of it, or after a cut."""
    if call.word == "cut":
        return data[:call.at] + bytes(max(0, call.at - len(data)))
    count = len(call.data) if count is None else count
    end = call.at + (len(call.data) if fills else count)
    data = data + bytes(max(0, end - len(data)))
    return data[:call.at] + call.data[:count] + data[call.at + count:]


class Disk:
    """What is asked of a disk, and what of it lasts."""

    def __init__(self, trace):
        self.lasting = {number: data for number, data in enumerate(trace.before.values())}
        self.entries = {name: number for number, name in enumerate(trace.before)}
        self.waiting = {}  # by file: the writes and cuts that no sync has made lasting
        self.names = []  # the calls of names that no sync of the folder has

    def take(self, call):
        if call.word in ("write", "cut"):
            self.waiting.setdefault(call.file, []).append(call)
        elif call.word in ("make", "rename", "remove"):
            self.names.append(call)
        elif call.word == "sync" and call.is_done and call.file == FOLDER:
            self.entries, self.names = entries_after(self.entries, self.names), []
        elif call.word == "sync" and call.file != FOLDER:
            for change in self.waiting.pop(call.file, []):
                if call.is_done:
                    self.lasting[call.file] = changed(self.lasting.get(call.file, b""), change)

    def files(self):
        """The files by their names, as the system gives them as long as it runs."""
        files = {}
        for name, file in entries_after(self.entries, self.names).items():
            files[name] = self.lasting.get(file, b"")
            for call in self.waiting.get(file, []):
                files[name] = changed(files[name], call)
        return files

    def files_after_loss(self, draw, in_flight=()):
        """The files by their names, after a loss of power. These calls were made, and not answered yet."""
        names = [*self.names, *(call for call in in_flight if call.names)]
        entries = entries_after(self.entries, kept(names, draw))
        return {name: self.after_loss(file, draw, in_flight) for name, file in sorted(entries.items())}

    def after_loss(self, file, draw, in_flight):
        data = self.lasting.get(file, b"")
        waiting = [*self.waiting.get(file, []), *(call for call in in_flight if call.file == file and not call.names)]
        for call in kept(waiting, draw):
            is_torn = call.word == "write" and draw.random() < 0.3
            count = draw.randrange(len(call.data) + 1) if is_torn else None
            fills = is_torn and draw.random() < 0.5
            # A log's header is in one sector, which a disk writes as a whole or not at all.
            data = changed(data, call) if is_header(call) else changed(data, call, count, fills)
        return data


def is_header(call):
    return call.word == "write" and call.at == 0 and len(call.data) == HEADER_SIZE and call.data.startswith(MAGIC)


def kept(calls, draw):
    """None of the calls, all of them, or some."""
    much = draw.choice(("none", "some", "all"))
    return [call for call in calls if much == "all" or much == "some" and draw.random() < 0.5]


def entries_after(entries, calls):
    entries = dict(entries)
    for call in calls:
        if call.word == "make":
            entries[call.names[0]] = call.file
        else:
            entries.pop(call.names[0], None)
        if call.word == "rename":
            entries[call.names[1]] = call.file
    return entries


class Recorder:
    """Runs a bank with the library before all others."""

    def __init__(self, bank, library):
        self.bank, self.library = bank, os.path.abspath(library)

    def words(self, folder, *numbers):
        return [*self.bank, "--files", str(folder), *map(str, numbers)]

    def environment(self, folder, **variables):
        return os.environ | {"LD_PRELOAD": self.library, "CALLS_FOLDER": str(folder)} | variables

    def run(self, folder, *numbers, trace=None, failed=None, is_short=False):
        """One run, and whether the call that is to fail was met."""
        variables = {"CALLS_TRACE": str(trace)} if trace else {}
        variables |= {"FAILED_CALL": failed} if failed else {}
        variables |= {"SHORT_WRITES": "1"} if is_short else {}
        reader, writer = os.pipe()
        try:
            environment = self.environment(folder, FAILURE_REPORT=str(writer), **variables)
            done = subprocess.run(self.words(folder, *numbers), env=environment, pass_fds=(writer,),
                                  capture_output=True, timeout=SECONDS_OF_A_RUN)
            os.close(writer)
            writer = None
            return done, os.read(reader, 1) == b"!"
        finally:
            os.close(reader)
            if writer is not None:
                os.close(writer)
