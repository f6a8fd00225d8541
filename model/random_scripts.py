"""Random scripts in which much happens at once: for answers.py.

usage: python3 -m model.random_scripts SEED     writes the script of this seed, and says for how many pages and frames

A script comes of some actors that take turns: transactions on few slots, checkpoints, writers, copies, and one that
asks for what must be refused. Some scripts have few frames, so that pages leave memory. In the scripts of odd seeds
transactions also go back to savepoints, and to what is none any more. In some scripts the volume grows. Each actor is a generator. It gives an event and
is sent the reply of the model. The same seed gives the same script.
"""

import sys
from typing import NamedTuple

from model.engine import MOST_FRAMES, Engine
from model.log_format import SLOTS
from model.samples import Draw
from model.scripts import read_event

MOST_COPIES_READ = 6
MOST_PAGES_FEW, MOST_FEW_FRAMES = 12, 8  # of the scripts that are played with few frames
BIG = 2**64 - 1
SKIPPED = ["\n", "\r\n", "#\n", "# set 1 0 0 5\n", "#restore 1 all\n", "# \u00e9\u4e2d \u2603\r\n"]


class Script(NamedTuple):
    pages: int
    text: bytes
    frames: int = MOST_FRAMES


class Play:
    """An engine that is played as its script is made: a new one, or one that is given."""

    def __init__(self, seed, engine=None):
        self.draw = draw = Draw(seed)
        self.way_back = [0.05, 0.2, 0.5][seed // 2 % 3] if seed % 2 else 0
        self.pages = draw.one_of([1, 1, 2, 2, 3, 4, 5, 7, 9, 13, 40]) if seed % 200 else 3000
        few = seed % 3 == 0 and self.pages <= MOST_PAGES_FEW
        self.frames = 1 + seed // 3 % min(MOST_FEW_FRAMES, self.pages) if few else MOST_FRAMES
        if engine is not None:
            self.pages, self.frames = engine.count, engine.frames
        self.engine = engine or Engine(self.pages, self.frames)
        self.events = []
        slots = draw.one_of([1, 1, 2, 3, 8])
        self.places = [(self.page(), draw.one_of([0, 1, 3, 61, draw.below(SLOTS)])) for _ in range(slots)]
        self.patience = draw.one_of([1, 2, 8, 30])  # of one who has something open
        self.mistakes = draw.one_of([0, 0, 0.02, 0.3])
        self.grows = seed % 5 in (1, 3) and self.pages < 100

    def page(self):
        return self.draw.below(self.engine.count)

    def chance(self, share):
        return self.draw.below(1000) < share * 1000

    def place(self):
        return self.draw.one_of(self.places) if self.chance(0.9) else (self.page(), self.draw.below(SLOTS))

    def value(self):
        return self.draw.one_of([0, 1, BIG, self.draw.below(10), self.draw.below(2**40)])

    def say(self, event):
        """Plays an event, and gives its reply."""
        self.events.append(event)
        return read_event(event.split()).reply(self.engine)

    def waits(self):
        """Lets others play for a while."""
        for _ in range(self.draw.below(self.patience)):
            yield None


def transactions(play):
    """One transaction after another, each of which commits, is taken back in part or whole, or is left alone."""
    while True:
        reply = yield "begin"
        if not reply.startswith("began"):
            yield None
            continue
        number, lsns = reply.split()[1], [reply.split()[3]]
        for _ in range(play.draw.below(play.draw.one_of([2, 6, 20]))):
            page, slot = play.place()
            if play.chance(0.1):
                yield f"read {page} {slot}"
            else:
                reply = yield f"{play.draw.one_of(['set', 'add', 'add'])} {number} {page} {slot} {play.value()}"
                lsns += reply.split()[1:] if reply.startswith("lsn") else []
            yield from play.waits()
            if play.way_back and play.chance(play.way_back):
                yield from ways_back(play, number, lsns)
        if play.chance(0.5):
            yield f"commit {number}"
        elif play.chance(0.8):
            yield f"abort {number}"
            for _ in range(play.draw.one_of([0, 1, 2, 100])):
                yield from play.waits()
                reply = yield f"undo {number}"
                if not reply.startswith("undid"):
                    break


def ways_back(play, number, lsns):
    """A savepoint, or steps back to one of the transaction's records: often to the end, sometimes only on the way. The
    LSNs are those of its records, also of those that were taken back."""
    draw = play.draw
    if play.chance(0.2):
        yield f"save {number}"
    last = min(len(lsns), draw.one_of([2, 6, 1000, 1000]))
    to = lsns[-1 - draw.below(last)]
    for _ in range(draw.one_of([1, 2, 100, 100])):
        reply = yield f"undoto {number} {to}"
        if not reply.startswith("undid"):
            break
        lsns.append(reply.split()[1])
        yield from play.waits()


def checkpoints(play):
    """Checkpoints that are gathered to their end, most of the time."""
    while True:
        yield from play.waits()
        yield "ckpt"
        reply = "more"
        while reply == "more":
            yield from play.waits()
            if play.chance(play.mistakes):
                yield "endckpt"
            reply = yield "gather"
        if play.chance(0.1):
            yield "gather"
        yield from play.waits()
        yield "endckpt"


def writers(play):
    """Writes of dirty pages."""
    while True:
        dirty = [page for page, _ in play.engine.dirty()]
        if not dirty:
            yield None
            continue
        page = play.draw.one_of(dirty)
        yield f"wbegin {page}"
        yield from play.waits()
        yield f"wend {page}"


def copies(play):
    """Copies, full ones and those of a parent, each read in an order of its own."""
    while True:
        yield from play.waits()
        complete = [copy.number for copy in play.engine.complete_copies()]
        if complete and play.chance(0.7):
            parent = complete[-1] if play.chance(0.6) else play.draw.one_of(complete)
            reply = yield f"inc {parent}"
        else:
            reply = yield "full"
        if not reply.startswith("copy"):
            yield from (None for _ in range(20))
            continue
        number = reply.split()[1]
        left = list(range(play.engine.copies[-1].pages))
        while left and not play.chance(0.02 / play.pages):
            if play.chance(play.mistakes):
                yield f"seal {number}"
            page = left.pop(play.draw.below(len(left)) if play.chance(0.7) else 0)
            yield f"take {number} {page}"
            if play.pages < 100:
                yield from play.waits()
        yield f"drop {number}" if play.chance(0.05) else f"seal {number}"


def forcing(play):
    while True:
        yield from play.waits()
        yield "force"


def growth(play):
    """The volume grows now and then by some pages, or is asked to grow to no more than it has."""
    draw = play.draw
    while True:
        for _ in range(1 + draw.below(4)):
            yield from play.waits()
        count = play.engine.count
        yield f"extend {draw.one_of([count + 1, count + 1, count + 1 + draw.below(5), count, draw.below(count + 1)])}"


def repairs(play):
    """Repairs of pages from any complete copy."""
    while True:
        yield from play.waits()
        complete = [copy.number for copy in play.engine.complete_copies()]
        if complete:
            yield f"repair {play.draw.one_of(complete)} {play.page()}"
        else:
            yield None


def mistakes(play):
    """Events with any numbers, of which most are refused."""
    draw = play.draw
    while True:
        transaction = draw.one_of([0, 1, draw.below(20), play.engine.transactions.begun, 2**32 - 1])
        page = draw.one_of([play.page(), play.page(), play.pages, 2**32 - 1, draw.below(play.pages + 2)])
        slot = draw.one_of([0, 61, 62, 65535, draw.below(70)])
        copy = draw.one_of([0, 1, len(play.engine.copies), len(play.engine.copies) + 1, draw.below(9), 2**32 - 1])
        events = [
            f"set {transaction} {page} {slot} {play.value()}", f"add {transaction} {page} {slot} {play.value()}",
            f"read {page} {slot}", f"commit {transaction}", f"abort {transaction}", f"undo {transaction}", "gather",
            "endckpt", "ckpt", f"wbegin {page}", f"wend {page}", "full", f"inc {copy}", f"take {copy} {page}",
            f"seal {copy}", f"drop {copy}", f"undo {transaction}", f"take {copy} {page}", f"repair {copy} {page}"]
        if play.way_back:
            lsn = draw.one_of([0, 64, 64 * draw.below(len(play.engine.log) + 2), draw.below(500), BIG])
            events += [f"save {transaction}", f"undoto {transaction} {lsn}"]
        yield draw.one_of(events)
        yield from play.waits()


def actors(play):
    """Some actors, each with the weight by which it is chosen."""
    draw = play.draw
    chosen = [transactions(play) for _ in range(draw.one_of([1, 2, 3, 8, 8, 70]))]
    chosen += [writers(play) for _ in range(draw.one_of([0, 1, 1, 3]))]
    chosen += [copies(play) for _ in range(1 + draw.below(draw.one_of([1, 2, MOST_COPIES_READ])))]
    chosen += [forcing(play)] * draw.below(2)
    chosen += [repairs(play)] * draw.below(2)
    chosen += [mistakes(play)] if play.mistakes else []
    chosen += [growth(play)] if play.grows else []
    most = max(1, len(chosen) // 2)
    return [[checkpoints(play), None, draw.one_of([1, 3, 9, 9 * most])],
            *([actor, None, draw.one_of([1, 3, 9])] for actor in chosen)]


def take_turns(play):
    """Has the actors of a play take turns, until there are as many events as are drawn."""
    draw, turns = play.draw, []
    entries = actors(play)
    for entry in entries:
        turns += [entry] * entry[2]
    wanted = draw.one_of([5, 40, 120, 200, 300, 500]) + (3 * play.pages if play.pages > 100 else 0)
    for _ in range(6 * wanted):
        if len(play.events) >= wanted:
            break
        entry = draw.one_of(turns)
        event = entry[0].send(entry[1])
        entry[1] = play.say(event) if event else None


def random_script(seed):
    play = Play(seed)
    draw = play.draw
    take_turns(play)
    end_checkpoint(play)
    finish_copies(play)
    last = restore_line(play)
    lines = [*play.events, *([last] if last else [])]
    return Script(play.pages, spelt(draw, lines), play.frames)


def end_checkpoint(play):
    """Where there is no complete checkpoint yet, so that copies come about in most scripts."""
    if play.engine.master is None and play.chance(0.7):
        if play.engine.checkpoint is None:
            play.say("ckpt")
        while play.say("gather") == "more":
            pass
        play.say("endckpt")
        play.say("full")


def finish_copies(play):
    for copy in play.engine.copies:
        if not copy.is_complete and not copy.is_dropped and play.chance(0.6):
            for page in copy.undecided():
                play.say(f"take {copy.number} {page}")
            play.say(f"seal {copy.number}")


def restore_line(play):
    draw, engine = play.draw, play.engine
    if play.chance(0.2):
        return None
    complete = [copy.number for copy in engine.complete_copies()]
    if complete and play.chance(0.85):
        number = draw.one_of(complete)
    else:
        number = draw.one_of([0, 1, len(engine.copies), len(engine.copies) + 1, 2**32 - 1])
    forced, count = engine.forced, len(engine.log)
    between = forced + draw.below(count - forced + 1)
    cut = draw.one_of(["all", "all", between, between, between, forced, forced - 1, forced - 1,
                       forced - draw.below(3), draw.one_of([0, count, count + 1, BIG])])
    return f"restore {number} {cut if cut == 'all' else max(cut, 0)}"


def spelt(draw, lines):
    """The lines as text, in some scripts with comments, empty lines, more spaces, zeros in front and other ends."""
    if draw.below(4):
        return "".join(f"{line}\n" for line in lines).encode()
    text = ""
    for line in lines:
        if draw.below(9) == 0:
            text += draw.one_of(SKIPPED)
        words = line.split()
        if draw.below(5) == 0:
            words = [f"{word:0>{len(word) + draw.below(21 - len(word))}}" if word.isdigit() else word for word in words]
        text += draw.one_of([" ", " ", "   "]).join(words) + draw.one_of(["\n", "\n", "\r\n", "  \n", " \r\n"])
    if draw.below(3) == 0:
        text = text.removesuffix("\n").removesuffix("\r")
    return text.encode()


BAD_LINES = [
    "begin 1", "Begin", "BEGIN", "set 1 0 0", "set 1 0 0 5 5", "set 1 0 0 -5", "set 1 0 0 +5", "set 1 0 0 5x",
    "set 1 0 0 18446744073709551616", "set 4294967296 0 0 5", "set 1 4294967296 0 5", "set 1 0 65536 5",
    "set 1 0 0 000000000000000000005", "add 1 0 0 99999999999999999999", "read 0", "read 0 0 0", "commit", "abort 1 1",
    "undo", "undo 1 1", "force 1", "ckpt 0", "gather 1", "endckpt 1", "wbegin", "wend x", "full 1", "inc", "inc 1 1",
    "take 1", "take 1 0 0", "seal", "drop", "repair", "repair 1", "repair 1 0 0", "repair 1 4294967296", "extend", "extend 1 2", "extend 4294967296", "extend -1",
    "restore", "restore 1", "save", "save 1 1", "save 4294967296", "save -1", "undoto", "undoto 1", "undoto 1 64 64",
    "undoto 4294967296 64", "undoto 1 18446744073709551616", "undoto 1 all", "Save 1", "undo to 1 64",
    "restore 1 all all", "restore all", "restore all 1", "restore 1 All", "restore 1 18446744073709551616",
    "restore 4294967296 all", "restore 1 -1", "begin\tnow", "set\t1 0 0 5", "begin,", "begin # now", "hello", " ",
    "   \r", " # begin", "begin\r ", "restore 1 all\nbegin", "restore 1 all\nrestore 1 all", "restore 1 all\n#\n ",
    "restore 1 all\n\nhello", "0", "set 1 0 0 0x5", "set 1 0 0 \u0665", "set 1 0 0 5.0", "begin\r", "\ufeffbegin",
    "\u00e9", ";",
]


def bad_script(seed):
    """A script with a line, or some bytes, that no script may have."""
    play = Play(seed)
    draw = play.draw
    lines = [draw.one_of(["begin", "force", "ckpt", "gather", "", "# bad", "read 0 0", "full"])
             for _ in range(draw.below(12))]
    at = draw.below(len(lines) + 1)
    if draw.below(5) == 0:
        bad = draw.one_of([b"\xff", b"\xc0\x80", b"\xed\xa0\x80", b"\xe2\x98", b"\xf4\x90\x80\x80", b"# \x80"])
    else:
        bad = draw.one_of(BAD_LINES).encode()
    encoded = [line.encode() for line in lines]
    text = b"\n".join([*encoded[:at], bad, *encoded[at:]])
    return Script(play.pages, text + b"\n" * draw.below(2), play.frames)


def main(arguments):
    if len(arguments) != 1 or not arguments[0].isdigit():
        sys.exit("usage: python3 -m model.random_scripts SEED")
    script = random_script(int(arguments[0]))
    sys.stdout.buffer.write(script.text)
    print(f"for --pages {script.pages} --frames {script.frames}", file=sys.stderr)


if __name__ == "__main__":
    main(sys.argv[1:])
