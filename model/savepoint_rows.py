"""Worked rows of savepoints, beside those of rows.py, and rows on the files that they save."""

from model.file_rows import FileRow
from model.rows import PARTS, Row, repeated

GONE_ON = PARTS["WENT_BACK"]
BACK = GONE_ON.partition("undoto 1 256 -> reached")[0]

# The Comp at 384, in full: PrevLSN 320, UndoNxtLSN 256, and an Add that takes the 7 away.
COMP = {384: "0300000001000000 4001000000000000 0001000000000000 0000000000000200"
             "0000000000000000 f9ffffffffffffff 0000000000000000 8001000000000000"}

OPEN = "the last step taken back, left open"
COMMITTED = "the last step taken back, committed"
BESIDE = "a checkpoint between a savepoint and the way back to it"
BEHIND = "a checkpoint whose entry names a Comp"
ROLLING = "a checkpoint in a rollback behind a step that was taken back"

SAVEPOINT_ROWS = [
    Row(OPEN, 1, GONE_ON + "restore 1 all -> page 0 lsn 576", files={"log": COMP}),
    Row(COMMITTED, 1, GONE_ON + """
        commit 1 -> lsn 512
        restore 1 all -> page 0 lsn 448 0=5 1=9
        """, files={"log": COMP}),
    Row("the Comp and all behind it lost", 1, GONE_ON + "restore 1 5 -> page 0 lsn 448"),
    Row("all behind the Comp lost", 1, GONE_ON + "restore 1 6 -> page 0 lsn 448"),
    Row(BESIDE, 1, PARTS["WENT_BACK_BESIDE_A_CHECKPOINT"] + "restore 1 all -> page 0 lsn 960", files={
            "master": {8: "0002000000000000 c002000000000000"},
            "log": {640: "09000000 00000000 0002000000000000 00000000 01000000 01000000"
                         "c001000000000000 4001000000000000",
                    768: "0300000001000000 c001000000000000 0001000000000000 0000000000000200"
                         "0000000000000000 f9ffffffffffffff"}}),
    Row(BEHIND, 1, BACK + """
        ckpt -> lsn 448
        gather -> more
        gather -> more
        gather -> more
        gather -> done
        endckpt -> point 448 640 256
        restore 1 all -> page 0 lsn 704
        """, files={
            "log": {576: "09000000 00000000 c001000000000000 00000000 01000000 01000000"
                         "8001000000000000 0001000000000000"}}),
    Row(ROLLING, 1, """
        IDLE
        FULL
        begin -> began 1 at 192
        add 1 0 0 5 -> lsn 256
        add 1 0 1 7 -> lsn 320
        undoto 1 256 -> undid 384
        add 1 0 2 9 -> lsn 448
        abort 1 -> lsn 512
        undo 1 -> undid 576
        ckpt -> lsn 640
        gather -> more
        gather -> more
        gather -> more
        gather -> done
        endckpt -> point 640 832 256
        restore 1 all -> page 0 lsn 896
        """, files={
            "log": {384: "0300000001000000 4001000000000000 0001000000000000",
                    576: "0300000001000000 0002000000000000 8001000000000000",
                    768: "09000000 00000000 8002000000000000 00000000 01000000 02000000"
                         "4002000000000000 0001000000000000"}}),
    Row("two open transactions, one of which went back", 1, """
        IDLE
        FULL
        begin -> began 1 at 192
        begin -> began 2 at 256
        add 1 0 0 1 -> lsn 320
        add 2 0 1 2 -> lsn 384
        add 1 0 2 3 -> lsn 448
        undoto 1 320 -> undid 512
        add 2 0 3 4 -> lsn 576
        restore 1 all -> page 0 lsn 832
        """),
    Row("savepoints in savepoints", 1, """
        begin -> began 1 at 64
        save 1 -> saved 64
        set 1 0 0 1 -> lsn 128
        save 1 -> saved 128
        set 1 0 0 2 -> lsn 192
        save 1 -> saved 192
        undoto 1 128 -> undid 256
        save 1 -> saved 256
        set 1 0 1 3 -> lsn 320
        undoto 1 192 -> E42 NoSavepoint
        undoto 1 256 -> undid 384
        undoto 1 256 -> reached
        undoto 1 128 -> reached
        undoto 1 384 -> reached
        undoto 1 64 -> undid 448
        undoto 1 128 -> E42 NoSavepoint
        undoto 1 256 -> E42 NoSavepoint
        undoto 1 384 -> E42 NoSavepoint
        undoto 1 448 -> reached
        undoto 1 64 -> reached
        read 0 0 -> value 0
        read 0 1 -> value 0
        save 1 -> saved 448
        commit 1 -> lsn 512
        """, files={"log": {272: "8000000000000000", 400: "0001000000000000", 464: "4000000000000000"}}),
    Row("a Comp goes on being a savepoint where nothing before it is taken back", 1, """
        begin -> began 1 at 64
        add 1 0 0 1 -> lsn 128
        add 1 0 0 2 -> lsn 192
        undoto 1 128 -> undid 256
        add 1 0 0 4 -> lsn 320
        undoto 1 256 -> undid 384
        add 1 0 0 8 -> lsn 448
        add 1 0 0 16 -> lsn 512
        undoto 1 320 -> E42 NoSavepoint
        undoto 1 384 -> undid 576
        undoto 1 512 -> E42 NoSavepoint
        undoto 1 448 -> reached
        undoto 1 256 -> undid 640
        undoto 1 384 -> reached
        undoto 1 576 -> E42 NoSavepoint
        read 0 0 -> value 1
        """),
    Row("what goes back to no savepoint", 1, """
        save 1 -> E2 NoTxn
        undoto 1 64 -> E2 NoTxn
        begin -> began 1 at 64
        begin -> began 2 at 128
        add 1 0 0 5 -> lsn 192
        add 2 0 0 3 -> lsn 256
        undoto 1 128 -> E42 NoSavepoint
        undoto 1 256 -> E42 NoSavepoint
        undoto 1 0 -> E42 NoSavepoint
        undoto 1 1 -> E42 NoSavepoint
        undoto 1 191 -> E42 NoSavepoint
        undoto 1 193 -> E42 NoSavepoint
        undoto 1 320 -> E42 NoSavepoint
        undoto 1 18446744073709551615 -> E42 NoSavepoint
        undoto 1 4294967488 -> E42 NoSavepoint
        undoto 1 192 -> reached
        ckpt -> lsn 320
        undoto 1 320 -> E42 NoSavepoint
        abort 1 -> lsn 384
        save 1 -> E6 TxnRolling
        undoto 1 192 -> E6 TxnRolling
        undoto 1 5 -> E6 TxnRolling
        undo 1 -> undid 448
        undoto 1 64 -> E6 TxnRolling
        undo 1 -> ended 512
        save 1 -> E2 NoTxn
        undoto 1 64 -> E2 NoTxn
        commit 2 -> lsn 576
        undoto 2 128 -> E2 NoTxn
        """),
    Row("a transaction that went back is no rolling one", 1, """
        begin -> began 1 at 64
        add 1 0 0 5 -> lsn 128
        undo 1 -> E7 NotRolling
        undoto 1 64 -> undid 192
        undo 1 -> E7 NotRolling
        undoto 1 64 -> reached
        undo 1 -> E7 NotRolling
        add 1 0 0 6 -> lsn 256
        abort 1 -> lsn 320
        undo 1 -> undid 384
        undo 1 -> ended 448
        read 0 0 -> value 0
        """),
    Row("a change that was taken back holds no slot", 1, """
        begin -> began 1 at 64
        begin -> began 2 at 128
        set 1 0 0 5 -> lsn 192
        set 2 0 0 9 -> E5 SlotBusy 1
        undoto 1 64 -> undid 256
        set 2 0 0 9 -> lsn 320
        set 1 0 0 6 -> E5 SlotBusy 2
        undoto 2 128 -> undid 384
        set 1 0 0 6 -> lsn 448
        read 0 0 -> value 6
        """),
    Row("one frame, and a way back to a page that has left it", 2, """
        begin -> began 1 at 64
        set 1 0 0 5 -> lsn 128
        wbegin 0 -> writing 128
        wend 0 -> written 128
        begin -> began 2 at 192
        set 2 1 0 7 -> lsn 256
        undoto 1 128 -> reached
        undoto 1 192 -> E42 NoSavepoint
        undoto 1 64 -> E24 PoolFull
        wbegin 1 -> writing 256
        wend 1 -> written 256
        undoto 1 64 -> undid 320
        undoto 1 64 -> reached
        read 0 0 -> value 0
        read 1 0 -> E24 PoolFull
        commit 1 -> lsn 384
        """, frames=1),
]

# Volumes of one page, by their first bytes. The log of the last row ends with the EndChkpt.
SAVEPOINT_FILE_ROWS = [
    FileRow("the last step taken back, from its files", OPEN, "log master copy-1",
            "0000000001000000 4002000000000000", status=0,
            undone=("Comp 512 of 1, UndoNxtLSN 384", "Comp 576 of 1, UndoNxtLSN 192", "End 640 of 1")),
    FileRow("the last step taken back and committed, from its files", COMMITTED, "log master copy-1",
            "0000000001000000 c001000000000000 0500000000000000 09", status=0),
    FileRow("redo of a step that was taken back", OPEN, "redo",
            "0000000001000000 c001000000000000 0500000000000000 09", status=0),
    FileRow("a log that ends with the Comp, from its files", OPEN, "log master copy-1",
            "0000000001000000 c001000000000000", (("log", 448, ""),), status=0),
    FileRow("a log that ends before the Comp, from its files", OPEN, "log master copy-1",
            "0000000001000000 c001000000000000", (("log", 384, ""),), status=0),
    FileRow("an active entry behind a Comp, from its files", BESIDE, "log master copy-1",
            "0000000001000000 c003000000000000", status=0),
    FileRow("an active entry whose last record is a Comp, from its files", BEHIND, "log master copy-1",
            "0000000001000000 c002000000000000", status=0),
    FileRow("a rolling entry behind a step that was taken back, from its files", ROLLING, "log master copy-1",
            "0000000001000000 8003000000000000", status=0),
    FileRow("an entry that calls an active transaction rolling for its Comp", BEHIND, "redo", "E35 BadChain 576",
            (("log", 600, "02"),)),
    FileRow("an entry that calls a rolling transaction active", ROLLING, "redo", "E35 BadChain 768",
            (("log", 792, "01"),)),
    FileRow("a Comp whose UndoNxtLSN is its PrevLSN", OPEN, "redo", "E35 BadChain 384", (("log", 400, "4001"),)),
    FileRow("a Comp whose UndoNxtLSN is that of the change before", OPEN, "redo", "E35 BadChain 384",
            (("log", 400, "c000"),)),
    FileRow("a change behind a Comp whose PrevLSN passes the Comp over", OPEN, "redo", "E35 BadChain 448",
            (("log", 456, "0001"),)),
]

# The model takes too long for these, but for few Comps.
def many_comps(count):
    """A Comp behind each change, and then as many ways back to one Comp or another. To go from Comp to Comp to find it
    would take quadratic time."""
    steps = repeated(count, lambda number: f"add 1 0 0 1 -> lsn {128 * number}\n"
                                           f"undoto 1 {128 * number - 64} -> undid {128 * number + 64}")
    ways = repeated(count, lambda number: f"undoto 1 {128 * (1 + number * 7919 % count) + 64} -> reached")
    return Row(f"{count} ways back to as many Comps", 1, f"begin -> began 1 at 64\n{steps}\n{ways}\n" + """
        undoto 1 64 -> reached
        undoto 1 128 -> E42 NoSavepoint
        """)


MANY_COMPS = many_comps(100_000)

SAVEPOINT_ROOM = Row("a way back needs no room", 1,
                     "begin -> began 1 at 64\n"
                     + repeated(524286, lambda number: f"add 1 0 0 1 -> lsn {64 + 64 * number}")
                     + """
        add 1 0 0 1 -> E8 LogFull
        save 1 -> saved 33554368
        undoto 1 33554304 -> undid 33554432
        undoto 1 33554304 -> reached
        add 1 0 0 1 -> E8 LogFull
        undoto 1 64 -> undid 33554496
        commit 1 -> lsn 33554560
        """)

SAVEPOINT_SIZES = {(OPEN, "log"): 512, (COMMITTED, "log"): 576}
