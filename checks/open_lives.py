"""Lives of a database in a folder, whose calls are noted: for open_cuts.py.

A life opens what stands in the folder and plays a script. The model says what is owed once so many of its lines were
told. The disk goes on over the lives, so that what was not synced in one may be lost in a later one.
"""

import copy
import random
from types import SimpleNamespace
from typing import NamedTuple

from checks.bank_calls import FOLDER, Disk, entries_after
from checks.open_folders import Told
from checks.unsaved import text_of
from model.engine import Engine
from model.lives import front_of, has_log, is_headless, is_worth_keeping, line_of_new, reopen
from model.log_format import RECORD_SIZE, lsn_of
from model.random_scripts import take_turns
from model.recovery import encode_log

PIECE = 64


class Owed(NamedTuple):
    """What has to be in a folder, since it was told, or since nothing may remove it."""

    log: bytes = b""  # a beginning of the log
    copies: dict = {}  # the files of copies, by their ids
    refused: tuple = ()  # the files of copies that were not taken up: each is there, by some name
    point: int = 0  # where the last checkpoint ends that was told
    tails: tuple = ()  # what was left out of the log: where it stood, and its bytes


class World(Disk):
    """A disk over several lives. Behind a kill it goes on; behind a loss of power there is a new one, of what was
    left."""

    def __init__(self, files):
        super().__init__(SimpleNamespace(before=files))
        self.made = len(files)

    def fork(self):
        other = copy.copy(self)
        other.lasting, other.entries, other.names = dict(self.lasting), dict(self.entries), [*self.names]
        other.waiting = {file: [*calls] for file, calls in self.waiting.items()}
        return other

    def after(self, calls):
        other = self.fork()
        for call in calls:
            other.take(call)
        return other

    def noted(self, trace):
        """The calls of a life that begins in these files, and the name of each file, with this disk's numbers of
        files."""
        now = entries_after(self.entries, self.names)
        numbers = {-1: -1, FOLDER: FOLDER} | {number: now[name] for number, name in enumerate(trace.before)}
        for call in trace.calls:
            if call.file not in numbers:
                numbers[call.file] = self.made
                self.made += 1
        names = {numbers[number]: name for number, name in trace.names.items() if number in numbers}
        return Noted([call._replace(file=numbers[call.file]) for call in trace.calls], names)

    def after_loss(self, file, draw, in_flight):
        """As of any disk, but a long write may be there in some of its pieces."""
        if draw.random() < 0.5:
            return super().after_loss(file, draw, in_flight)
        other = self.fork()
        other.waiting[file] = [piece for call in self.waiting.get(file, []) for piece in pieces(call)]
        flying = [piece for call in in_flight if call.file == file and not call.names for piece in pieces(call)]
        return super(World, other).after_loss(file, draw, flying)


class Noted(NamedTuple):
    calls: list
    names: dict  # the last name of each file


def pieces(call):
    if call.word != "write" or len(call.data) > 64 * PIECE:
        return [call]
    return [call._replace(at=call.at + at, data=call.data[at:at + PIECE]) for at in range(0, len(call.data), PIECE)]


# What a life does

def few_changes(draw, play):
    """Some records that go out together. Those of another life have the same LSNs and numbers."""
    play.say("begin")
    number = play.engine.transactions.begun
    for _ in range(draw.randint(0, 4)):
        play.say(draw.choice(["begin", f"set {number} 0 0 {draw.randint(1, 2)}", f"add {number} 0 1 1"]))
    play.say(draw.choice(["force", "force", f"commit {number}"]))


def turns(draw, play):
    take_turns(play)


def commits(draw, play):
    for _ in range(draw.randint(1, 6)):
        few_changes(draw, play)


def copies(draw, play):
    """A checkpoint and a copy of it, full or incremental."""
    few_changes(draw, play)
    for page, _ in play.engine.dirty()[:draw.randint(0, 3)]:
        play.say(f"wbegin {page}")
        play.say(f"wend {page}")
    play.say("ckpt")
    while play.say("gather") == "more":
        pass
    play.say("endckpt")
    complete = [copy.number for copy in play.engine.complete_copies()]
    reply = play.say(f"inc {draw.choice(complete)}" if complete and draw.random() < 0.7 else "full")
    if reply.startswith("copy"):
        number = reply.split()[1]
        for page in range(play.engine.copies[-1].pages):
            play.say(f"take {number} {page}")
        play.say(f"seal {number}")
    few_changes(draw, play)


def nothing(draw, play):
    """It only opens, and ends."""


SCRIPTS = (few_changes, few_changes, few_changes, commits, copies, copies, copies, copies, turns, nothing)


class Life:
    """One life, and what the model says of it."""

    def __init__(self, seed, before, owed, pages, is_salvage):
        self.draw = draw = random.Random(seed)
        self.before, self.is_salvage, self.words = before, is_salvage, ["--salvage"] if is_salvage else []
        if before.log is None or is_headless(before.log):
            self.engine = Engine(pages)
            self.first = line_of_new(pages)
            self.words += ["--pages", str(pages)]
        else:
            owed = self.reopen(owed)
        self.owed_before, self.forced_before = owed, self.engine.forced
        self.play = Told(seed, self.engine)
        script = few_changes if has_old_records(before.log or b"") and draw.random() < 0.7 else draw.choice(SCRIPTS)
        script(draw, self.play)
        self.whole = encode_log(self.engine.log, self.engine.pages)

    def reopen(self, owed):
        """What is owed once the opening takes up what is there. What is left out is kept, and so are refused copies."""
        again = reopen(self.before.log, self.before.copies)
        self.engine, self.first = again.engine, again.line
        end, tails = again.front.end(), owed.tails
        tail = self.before.log[end:]
        if is_worth_keeping(tail):
            tails += ((end, tail),)
        if not self.is_salvage:
            return owed._replace(tails=tails)
        # A salvage gives another name to a copy that knows of more than the log has, be it sound once undo is redone.
        lost = set(again.refused)
        refused = tuple(data for number, data in self.before.copies.items() if number in lost)
        copies_left = {number: data for number, data in owed.copies.items() if number not in lost}
        return Owed(self.before.log[:end], copies_left, owed.refused + refused, 0, tails)

    def owed(self, told):
        """What is owed once so many lines were told."""
        owed = self.owed_before
        if told == 0:
            return owed
        log = self.whole[:lsn_of([self.forced_before, *self.play.forced][told - 1])]
        log = max(log, owed.log, key=len)
        files, point = dict(owed.copies), owed.point
        for event, reply in zip(self.play.events[:told - 1], self.play.replies):
            if reply.startswith("sealed"):
                number = int(event.split()[1])
                files[number] = self.engine.copies[number - 1].encode()
            elif reply.startswith("point"):
                point = int(reply.split()[2])
        return owed._replace(log=log, copies=files, point=point)

    def lines(self):
        return text_of(self.play.events)

    def answers(self):
        return text_of([self.first, *self.play.replies])


def has_old_records(log):
    """Whether records stand behind the front that have their own LSN: they may follow by chance on new ones."""
    end = front_of(log).end() if has_log(log) else len(log)
    return any(int.from_bytes(log[behind - 8:behind], "little") == behind - RECORD_SIZE
               for behind in range(end + RECORD_SIZE, len(log) + 1, RECORD_SIZE))
