"""Worked rows of runs with few frames, beside those of rows.py."""

from model.rows import ROWS, Row

# Copies that restore the same with one frame.
COPIED = ("a change after the copy", "a page that is dirty all the time", "a change behind the cursor",
          "a change during a write", "a stored page just at the redo point of the parent", "no Add is made twice")

FRAME_ROWS = [
    *(row._replace(name=f"{row.name}, with one frame", frames=1) for row in ROWS if row.name in COPIED),
    Row("one frame, whose page has to be written before another is read", 2, """
        begin -> began 1 at 64
        set 1 0 0 5 -> lsn 128
        read 1 0 -> E24 PoolFull
        wbegin 0 -> writing 128
        wend 0 -> written 128
        read 1 0 -> value 0
        read 0 0 -> value 5
        """, frames=1),
    Row("one frame, and an undo of a page that has left it", 2, """
        begin -> began 1 at 64
        set 1 0 0 5 -> lsn 128
        wbegin 0 -> writing 128
        wend 0 -> written 128
        begin -> began 2 at 192
        set 2 1 0 7 -> lsn 256
        abort 1 -> lsn 320
        undo 1 -> E24 PoolFull
        wbegin 1 -> writing 256
        wend 1 -> written 256
        undo 1 -> undid 384
        undo 1 -> ended 448
        read 0 0 -> value 0
        """, frames=1),
    Row("two frames for two pages", 2, """
        begin -> began 1 at 64
        set 1 0 0 5 -> lsn 128
        read 1 0 -> value 0
        """, frames=2),
]
