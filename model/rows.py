"""Worked rows: scripts with the reply to each event, and the bytes that they save. checks/rows.py plays them.

A row has a name, a count of pages, and lines `event -> reply`; the lines of a restore are parted by ` | `. A line that
is a name in capitals stands for the lines of that name.
"""

from typing import NamedTuple

from model.engine import MOST_FRAMES
from model.worked_rows import worked_rows

PARTS = worked_rows()


class Row(NamedTuple):
    """`files` has some bytes of the files that are saved, by their offsets, in hexadecimal digits. A row is played with
    as many frames as the program has by itself, where it tells no other number."""

    name: str
    pages: int
    lines: str
    status: int = 0
    files: dict = {}
    frames: int = MOST_FRAMES

    def pairs(self):
        return pairs_of(self.lines)

    def script(self):
        return "".join(f"{event}\n" for event, _ in self.pairs()).encode()

    def output(self):
        return "".join(f"{line}\n" for _, reply in self.pairs() for line in reply.split(" | ")).encode()

    def wanted_files(self):
        return {name: tuple((at, bytes.fromhex(digits)) for at, digits in parts.items())
                for name, parts in self.files.items()}


def pairs_of(lines):
    pairs = []
    for line in filter(None, map(str.strip, lines.splitlines())):
        pairs += pairs_of(PARTS[line]) if line in PARTS else [tuple(line.split(" -> "))]
    return pairs


def repeated(count, make):
    return "\n".join(make(index) for index in range(1, count + 1))


ROWS = [
    Row("four records", 1, """
        begin -> began 1 at 64
        set 1 0 3 7 -> lsn 128
        add 1 0 3 5 -> lsn 192
        commit 1 -> lsn 256
        """, files={"log": {
            0: "41494d474c4f4732 0100000000000000",
            64: "0100000001000000 0000000000000000 0000000000000000 0000000000000000"
                "0000000000000000 0000000000000000 0000000000000000 4000000000000000",
            128: "0200000001000000 4000000000000000 0000000000000000 0000000003000100"
                 "0000000000000000 0700000000000000 0000000000000000 8000000000000000",
            192: "0200000001000000 8000000000000000 0000000000000000 0000000003000200"
                 "0000000000000000 0500000000000000 0000000000000000 c000000000000000",
            256: "0400000001000000 c000000000000000 0000000000000000 0000000000000000"
                 "0000000000000000 0000000000000000 0000000000000000 0001000000000000"}}),
    Row("an Add wraps", 1, """
        SUM_WRAPS
        """),
    Row("a change after the copy", 2, """
        CHANGED_AFTER_A_COPY
        restore 1 all -> page 0 lsn 0 | page 1 lsn 256 0=9
        """),
    Row("a page that is dirty all the time", 1, """
        COPIED_WHEN_DIRTY
        restore 1 all -> page 0 lsn 128 0=5
        """, files={
            "log": {
                192: "07000000", 196: "00" * 52, 248: "c000000000000000",
                256: "08000000 00000000 c000000000000000 01000000 00000000 8000000000000000", 312: "0001000000000000",
                320: "09000000 00000000 c000000000000000 00000000 01000000 01000000 8000000000000000 8000000000000000",
                376: "4001000000000000",
                384: "0a000000 00000000 c000000000000000 0000000000000000 8000000000000000", 440: "8001000000000000"},
            "master": {0: "41494d474d535431 c000000000000000 8001000000000000" + "00" * 40},
            "copy-1": {0: "41494d4741524332 01000000 01000000 01000000 00000000 c000000000000000 8000000000000000"
                          "01000000" + "00" * 20 + "0000000001000000" + "00" * 504}}),
    Row("a change behind the cursor", 1, """
        COPIED_BEHIND_THE_CURSOR
        restore 1 all -> page 0 lsn 192 0=5
        """, files={"log": {256: "09000000"}}),
    Row("a change during a write", 1, """
        COPIED_AFTER_A_CHANGED_WRITE
        restore 1 all -> page 0 lsn 192 0=6
        """, files={"log": {320: "08000000 00000000 0001000000000000 01000000 00000000 c000000000000000",
                               384: "09000000"}}),
    Row("a stored page just at the redo point of the parent", 1, """
        TAKEN_AT_THE_REDO_POINT
        restore 2 all -> page 0 lsn 128 0=5
        """),
    Row("no Add is made twice", 1, """
        ADDED_BEFORE_A_COPY
        restore 1 all -> page 0 lsn 128 0=5
        """),
    Row("claims of two kinds, all records kept", 1, """
        ADDED_AND_SET
        restore 1 all -> page 0 lsn 640 0=3
        """),
    Row("claims of two kinds, the Set lost", 1, """
        ADDED_AND_SET
        restore 1 7 -> page 0 lsn 512 0=3
        """),
    Row("claims of two kinds, a forced record lost", 1, """
        ADDED_AND_SET
        restore 1 6 -> E27 CutTooShort 7
        """, status=1),
    Row("the Comps of claims of two kinds", 1, """
        ADDED_AND_SET
        abort 1 -> lsn 576
        undo 1 -> undid 640
        read 0 0 -> value 8
        undo 1 -> undid 704
        read 0 0 -> value 3
        undo 1 -> ended 768
        """),
    Row("a Set waits for all others, and an Add for a Set", 1, """
        SLOT_HELD
        """),
    Row("an unforced tail is kept and undone", 1, """
        IDLE
        FULL
        begin -> began 1 at 192
        set 1 0 0 5 -> lsn 256
        restore 1 4 -> page 0 lsn 320
        """),
    Row("an unforced tail is lost", 1, """
        IDLE
        FULL
        begin -> began 1 at 192
        set 1 0 0 5 -> lsn 256
        restore 1 2 -> page 0 lsn 0
        """),
    Row("a checkpoint that was forced is lost", 1, """
        IDLE
        FULL
        begin -> began 1 at 192
        restore 1 1 -> E27 CutTooShort 2
        """, status=1),
    Row("a write forces the log", 1, """
        IDLE
        begin -> began 1 at 192
        set 1 0 0 5 -> lsn 256
        wbegin 0 -> writing 256
        wend 0 -> written 256
        full -> copy 1
        take 1 0 -> taken 256
        seal 1 -> sealed 1
        restore 1 3 -> E27 CutTooShort 4
        """, status=1),
    Row("a copy that is not complete", 2, """
        DROPPED_WHILE_READ
        """),
    Row("restore of a copy that is still read", 2, """
        IDLE
        full -> copy 1
        restore 1 all -> E19 CopyNotComplete
        """, status=1),
    Row("restore of a dropped copy", 2, """
        IDLE
        full -> copy 1
        drop 1 -> dropped
        restore 1 all -> E17 NoCopy
        """, status=1),
    Row("a copy while a checkpoint is open", 1, """
        WHILE_A_CHECKPOINT_IS_OPEN
        restore 1 all -> page 0 lsn 256 0=5
        """, files={"log": {384: "08000000"}, "copy-1": {24: "4000000000000000 4000000000000000"}}),
    Row("a chain, and a rollback that was begun", 1, """
        CHAIN
        restore 3 all -> page 0 lsn 704
        """, files={
            "log": {448: "09000000"},
            "copy-3": {0: "41494d4741524332 01000000 03000000 02000000 02000000 8001000000000000 8001000000000000"
                          "00000000" + "00" * 20}}),
    Row("numbers past the volume and past the page", 65536, """
        begin -> began 1 at 64
        set 1 65535 61 1 -> lsn 128
        set 1 65536 0 1 -> E3 PageOut
        set 1 0 62 1 -> E4 SlotOut
        """),
    Row("as many transactions as may be open", 1,
        repeated(64, lambda number: f"begin -> began {number} at {64 * number}") + "\nbegin -> E9 TooManyTxns"),
    Row("a rollback step by step", 1, """
        begin -> began 1 at 64
        set 1 0 0 5 -> lsn 128
        add 1 0 0 3 -> lsn 192
        undo 1 -> E7 NotRolling
        abort 1 -> lsn 256
        add 1 0 0 1 -> E6 TxnRolling
        undo 1 -> undid 320
        read 0 0 -> value 5
        undo 1 -> undid 384
        undo 1 -> ended 448
        undo 1 -> E2 NoTxn
        read 0 0 -> value 0
        """, files={"log": {336: "8000000000000000", 400: "4000000000000000"}}),
    Row("a write in two steps", 1, """
        wbegin 0 -> E10 NotDirty
        wend 0 -> E12 NoWrite
        begin -> began 1 at 64
        set 1 0 0 5 -> lsn 128
        wbegin 0 -> writing 128
        force -> forced 192
        wbegin 0 -> E11 WriteBegun
        wend 0 -> written 128
        wbegin 0 -> E10 NotDirty
        wbegin 1 -> E3 PageOut
        """),
    Row("four dirty pages in two records", 4, """
        FOUR_PAGES
        """, files={"log": {
            448: "08000000 00000000 8001000000000000 03000000 00000000 8000000000000000 01000000 c000000000000000"
                 "02000000 0001000000000000 c001000000000000",
            512: "08000000 00000000 8001000000000000 01000000 03000000 4001000000000000",
            596: "01000000 01000000 4001000000000000 4001000000000000"}}),
    Row("a page that is written behind the first gather", 4, """
        WRITTEN_BEFORE_ITS_TURN
        """, files={"log": {448: "08000000", 512: "09000000"}}),
    Row("a gather without a checkpoint", 4, "gather -> E14 NoCkpt"),
    Row("as many copies as there may be", 1,
        "IDLE\n" + repeated(1024, lambda number: f"full -> copy {number}\ndrop {number} -> dropped")
        + "\nfull -> E25 TooManyCopies"),
    Row("two copies at once", 1, """
        TWO_COPIES_AT_ONCE
        """),
    Row("two incremental copies of one parent", 2, """
        TWO_COPIES_OF_ONE_PARENT
        restore 3 all -> page 0 lsn 0 | page 1 lsn 256 0=9
        """, files={"copy-2": {8: "02000000 02000000 02000000 01000000 8001000000000000 8001000000000000 01000000"}}),
    Row("a page repaired", 2, """
        IDLE
        full -> copy 1
        take 1 0 -> taken 0
        take 1 1 -> taken 0
        seal 1 -> sealed 2
        begin -> began 1 at 192
        set 1 0 0 5 -> lsn 256
        wbegin 0 -> writing 256
        repair 1 0 -> E11 WriteBegun
        wend 0 -> written 256
        full -> copy 2
        repair 2 0 -> E19 CopyNotComplete
        repair 1 0 -> repaired 256
        take 2 0 -> taken 256
        set 1 0 0 6 -> lsn 320
        repair 1 0 -> repaired 320
        wbegin 0 -> E10 NotDirty
        repair 3 0 -> E17 NoCopy
        repair 3 2 -> E17 NoCopy
        repair 1 2 -> E3 PageOut
        repair 1 1 -> repaired 0
        commit 1 -> lsn 384
        restore 1 all -> page 0 lsn 320 0=6 | page 1 lsn 0
        """),
    Row("a dirty page repaired beside a gather", 1, """
        IDLE
        FULL
        begin -> began 1 at 192
        set 1 0 0 5 -> lsn 256
        ckpt -> lsn 320
        repair 1 0 -> repaired 256
        set 1 0 0 6 -> lsn 384
        gather -> more
        gather -> more
        gather -> more
        gather -> done
        endckpt -> point 320 576 320
        inc 1 -> copy 2
        take 2 0 -> taken 256
        seal 2 -> sealed 1
        repair 2 0 -> repaired 384
        restore 2 all -> page 0 lsn 704
        """),
    Row("the order of undo", 1, """
        THREE_LOSERS
        restore 1 all -> page 0 lsn 832
        """),
    Row("a log without records", 2, "", files={"log": {0: "41494d474c4f4732 0200000000000000" + "00" * 48}}),
]

# It takes the model some seconds.
ROOM = Row("no room for more than what is owed", 1,
           "begin -> began 1 at 64\n"
           + repeated(524286, lambda number: f"add 1 0 0 1 -> lsn {64 + 64 * number}")
           + """
        add 1 0 0 1 -> E8 LogFull
        begin -> E8 LogFull
        commit 1 -> lsn 33554432
        begin -> began 2 at 33554496
        """)

SIZES = {
    ("a chain, and a rollback that was begun", "log"): 704,
    ("a chain, and a rollback that was begun", "copy-3"): 64,
    ("a page that is dirty all the time", "copy-1"): 576,
    ("a log without records", "log"): 64,
    ("four records", "log"): 320,
    ("two incremental copies of one parent", "copy-2"): 576,
    ("a change after the copy", "copy-1"): 1088,
}
