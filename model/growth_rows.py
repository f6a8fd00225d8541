"""Worked rows of a volume that grows, beside those of rows.py, and rows on the files that they save."""

from model.file_rows import FIRST, FileRow
from model.log_format import MOST_PAGES
from model.rows import Row, repeated

GROWN = """
    IDLE
    FULL
    extend 1 -> E43 NotLarger 1
    extend 3 -> lsn 192
    """

# The Extend at 192, in full.
EXTEND = {0: "41494d474c4f4732 0100000000000000",
          192: "0b00000000000000 0000000000000000 0000000000000000 0300000000000000"
               "0000000000000000 0000000000000000 0000000000000000 c000000000000000"}

INCREMENTAL = "an incremental copy of more pages than its parent"

GROWTH_ROWS = [
    Row("a volume that grew behind what is kept of the log", 1, GROWN + "restore 1 2 -> page 0 lsn 0",
        files={"log": EXTEND}),
    Row("a volume that grew", 1, GROWN + "restore 1 all -> page 0 lsn 0 | page 1 lsn 0 | page 2 lsn 0",
        files={"log": EXTEND, "copy-1": {0: "41494d4741524332 01000000 01000000"}}),
    Row(INCREMENTAL, 1, GROWN + """
        begin -> began 1 at 256
        set 1 2 0 4 -> lsn 320
        commit 1 -> lsn 384
        full -> copy 2
        take 2 2 -> E3 PageOut
        drop 2 -> dropped
        ckpt -> lsn 448
        gather -> more
        gather -> more
        gather -> done
        endckpt -> point 448 576 320
        inc 1 -> copy 3
        take 3 0 -> kept
        take 3 1 -> kept
        take 3 2 -> kept
        seal 3 -> sealed 0
        restore 3 all -> page 0 lsn 0 | page 1 lsn 0 | page 2 lsn 320 0=4
        """, files={"log": {512: "08000000 00000000 c001000000000000 01000000 02000000 4001000000000000"},
                    "copy-3": {0: "41494d4741524332 03000000 03000000 02000000 01000000"}}),
    Row("page counts that are not larger", 65_535, """
        extend 0 -> E43 NotLarger 65535
        extend 65535 -> E43 NotLarger 65535
        extend 65537 -> E43 NotLarger 65535
        extend 4294967295 -> E43 NotLarger 65535
        extend 65536 -> lsn 64
        extend 65536 -> E43 NotLarger 65536
        read 65535 61 -> value 0
        read 65536 0 -> E3 PageOut
        """),
    Row("a checkpoint that began before the volume grew", 1, """
        ckpt -> lsn 64
        gather -> more
        extend 2 -> lsn 128
        gather -> done
        endckpt -> point 64 192 64
        full -> copy 1
        take 1 1 -> E3 PageOut
        take 1 0 -> taken 0
        seal 1 -> sealed 1
        begin -> began 1 at 256
        set 1 1 0 7 -> lsn 320
        commit 1 -> lsn 384
        restore 1 all -> page 0 lsn 0 | page 1 lsn 320 0=7
        """),
]

BY_ONE = Row("a volume that grows page by page", 1,
             repeated(MOST_PAGES - 1, lambda number: f"extend {number + 1} -> lsn {64 * number}")
             + f"\nextend {MOST_PAGES} -> E43 NotLarger {MOST_PAGES}")

PAGES = ["0000000001000000" + "00" * 504, "0100000001000000" + "00" * 504, "0200000001000000 4001000000000000 04"]
VOLUME = "".join(PAGES)
CHAIN = "log master copy-1 copy-3"

GROWTH_FILE_ROWS = [
    FileRow("redo of a volume that grew", INCREMENTAL, "redo", VOLUME, status=0),
    FileRow("a chain whose second copy has more pages", INCREMENTAL, CHAIN, VOLUME, status=0),
    FileRow("a copy from before the volume grew", INCREMENTAL, "log master copy-1", VOLUME, status=0),
    FileRow("its archives in the first format", INCREMENTAL, CHAIN, VOLUME,
            (("copy-1", 7, FIRST), ("copy-3", 7, FIRST)), status=0),
    FileRow("redo of a log of the first format with an Extend", INCREMENTAL, "redo", "E31 BadRecord 192",
            (("log", 7, FIRST),)),
    FileRow("a log of the first format with an Extend", INCREMENTAL, CHAIN, "E31 BadRecord 192", (("log", 7, FIRST),)),
    FileRow("an Extend to no page", INCREMENTAL, "redo", "E31 BadRecord 192", (("log", 216, "00"),)),
    FileRow("an Extend to too many pages", INCREMENTAL, "redo", "E31 BadRecord 192", (("log", 216, "010001"),)),
    FileRow("an Extend with a transaction", INCREMENTAL, "redo", "E31 BadRecord 192", (("log", 196, "01"),)),
    FileRow("an Extend to the count that was there", INCREMENTAL, "redo", "E35 BadChain 192", (("log", 216, "01"),)),
    FileRow("a volume that had the pages before", INCREMENTAL, "redo", "E35 BadChain 192", (("log", 8, "03"),)),
    FileRow("a change past the pages of its place", INCREMENTAL, "redo", "E31 BadRecord 320", (("log", 216, "02"),)),
    FileRow("a volume that was larger when the first copy began", INCREMENTAL, CHAIN, "E37 ChainBroken 1",
            (("log", 8, "02"),), status=1),
    FileRow("a volume that is larger than its last copy", INCREMENTAL, CHAIN, "E37 ChainBroken 3",
            (("log", 216, "04"),), status=1),
    FileRow("a first copy that began behind the Extend", INCREMENTAL, CHAIN, "E37 ChainBroken 1",
            (("copy-1", 24, "0001"),), status=1),
    FileRow("a second copy that began at the Extend", INCREMENTAL, CHAIN, "E37 ChainBroken 3",
            (("copy-3", 24, "c000"), ("copy-3", 32, "c000")), status=1),
    FileRow("a second copy that began right behind the Extend", INCREMENTAL, CHAIN, VOLUME,
            (("copy-3", 24, "0001"), ("copy-3", 32, "0001")), status=0),
]

GROWTH_AUDIT_ROWS = [
    FileRow("a sound chain of a volume that grew", INCREMENTAL, "log copy-1 copy-3", "sound", status=0),
    FileRow("a sound copy from before the volume grew", INCREMENTAL, "log copy-1", "sound", status=0),
    FileRow("an added page that lacks a change", INCREMENTAL, "log copy-1 copy-3", "E41 Unsound 3 2",
            (("copy-3", 32, "8001"),), status=1),
    FileRow("an audit of a log of the first format with an Extend", INCREMENTAL, "log copy-1 copy-3",
            "E31 BadRecord 192", (("log", 7, FIRST),)),
    FileRow("an audit of a volume that is larger than its last copy", INCREMENTAL, "log copy-1 copy-3",
            "E37 ChainBroken 3", (("log", 216, "04"),), status=1),
]
