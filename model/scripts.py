"""What `imgcopy run` must answer to a script, and which files it must save: for the other scripts."""

import re
from typing import NamedTuple

from model.engine import MOST_FRAMES, Engine
from model.recovery import Answer, Refusal

LONGEST_SCRIPT = 16_777_216
NUMBER = re.compile("[0-9]{1,20}")
U16, U32, U64 = 2**16, 2**32, 2**64
OUT_OF_MEMORY = "E1 OutOfMemory"

# The bounds of the numbers by what they name: transaction, page or page count, copy, slot, value, and count of records or LSN.
BOUNDS = {"T": U32, "P": U32, "C": U32, "S": U16, "V": U64, "K": U64}

CALLS = {
    "begin": ("", Engine.begin),
    "set": ("TPSV", Engine.set),
    "add": ("TPSV", Engine.add),
    "read": ("PS", Engine.read),
    "commit": ("T", Engine.commit),
    "abort": ("T", Engine.abort),
    "undo": ("T", Engine.undo),
    "save": ("T", Engine.savepoint),
    "undoto": ("TK", Engine.undo_to),
    "extend": ("P", Engine.extend),
    "force": ("", Engine.force),
    "ckpt": ("", Engine.checkpoint_begin),
    "gather": ("", Engine.gather),
    "endckpt": ("", Engine.checkpoint_end),
    "wbegin": ("P", Engine.write_begin),
    "wend": ("P", Engine.write_end),
    "full": ("", Engine.copy_full),
    "inc": ("C", Engine.copy_incremental),
    "take": ("CP", Engine.take),
    "seal": ("C", Engine.seal),
    "drop": ("C", Engine.drop),
    "repair": ("CP", Engine.repair),
}


class BadScript(Exception):
    """The words that follow the name of the program on standard error."""


class Event(NamedTuple):
    word: str
    numbers: tuple

    def reply(self, engine):
        """What the engine answers to this event."""
        try:
            return getattr(engine, CALLS[self.word][1].__name__)(*self.numbers)
        except Refusal as refusal:
            return refusal.line()


def read_script(data):
    """The events of a script."""
    if len(data) > LONGEST_SCRIPT:
        raise BadScript("input")
    try:
        lines = data.decode("utf-8").split("\n")
    except UnicodeDecodeError:
        raise BadScript("input") from None
    events = []
    for number, line in enumerate(lines, start=1):
        line = line.removesuffix("\r")
        if line == "" or line.startswith("#"):
            continue
        event = read_event([word for word in line.split(" ") if word])
        if event is None or (events and events[-1].word == "restore"):
            raise BadScript(f"line {number}")
        events.append(event)
    return events


def read_event(words):
    """The event that these words name, or None."""
    if not words:
        return None
    word, *numbers = words
    if word == "restore":
        kinds = "C" if numbers[1:] == ["all"] else "CK"
        numbers = numbers[:1] if numbers[1:] == ["all"] else numbers
    elif word in CALLS:
        kinds = CALLS[word][0]
    else:
        return None
    if len(numbers) != len(kinds) or not all(map(is_number, numbers, kinds)):
        return None
    return Event(word, tuple(map(int, numbers)))


def is_number(word, kind):
    return NUMBER.fullmatch(word) is not None and int(word) < BOUNDS[kind]


class Ran(NamedTuple):
    """What a script gives: the answer of the program, the engine and what it saves. A bad one has no engine."""

    answer: Answer
    engine: object = None
    files: dict = {}


def run(data, pages, refused=None, frames=MOST_FRAMES):
    """What the script gives, where the call of the number `refused`, from 0, finds no memory: it changes nothing."""
    try:
        events = read_script(data)
    except BadScript as bad:
        return Ran(Answer(2, error=f"imgcopy: {bad}\n".encode()))
    engine, lines, status = Engine(pages, frames), [], 0
    last = events.pop() if events and events[-1].word == "restore" else None
    for number, event in enumerate(events):
        lines.append(OUT_OF_MEMORY if number == refused else event.reply(engine))
    files = engine.files()
    if last is not None:
        try:
            lines += [page.line() for page in engine.restore(*last.numbers)]
        except Refusal as refusal:
            lines.append(refusal.line())
            status = refusal.status()
    return Ran(Answer(status, "".join(f"{line}\n" for line in lines).encode()), engine, files)
