"""Short scripts in which much depends on each call: for run_memory.py.

Much is asked for twice, so that a copy is completed where the first call was refused for want of memory. Else the
second one is refused. Each script ends with records that are not forced.
"""

from typing import NamedTuple


class Script(NamedTuple):
    """Calls, parted by semicolons, and a last restore."""

    name: str
    pages: int
    calls: str
    restore: str = ""

    def text(self):
        lines = [*self.calls.replace("\n", ";").split(";"), self.restore]
        return "".join(f"{line.strip()}\n" for line in lines if line.strip()).encode()


def joined(*parts):
    return "; ".join(parts)


def takes(copy, *pages):
    return joined(*(f"take {copy} {page}" for page in pages + pages), f"seal {copy}")


GATHERS = joined(*["gather"] * 6)
CHECKPOINT = f"ckpt; ckpt; {GATHERS}; endckpt; endckpt"

ROLLBACK = Script("a rollback beside a copy", 2, f"""
    begin; set 1 0 0 5; add 1 0 0 3; add 1 1 61 7; wbegin 0; wend 0; {CHECKPOINT}
    full; full; drop 2; take 1 1; abort 1; undo 1; {takes(1, 0, 1)}
    begin; set 2 1 61 9; wbegin 1; wend 1; undo 1; set 2 0 0 1; add 2 0 1 1; undo 1; begin; add 3 0 0 1
    abort 2; undo 1; undo 2; undo 2; set 3 1 0 4; undo 2
    """, "restore 1 all")

ONE_SLOT = Script("transactions on one slot", 1, f"""
    {CHECKPOINT}; full; full; {takes(1, 0)}; {takes(2, 0)}
    begin; begin; begin; add 1 0 0 5; add 2 0 0 3; set 3 0 0 1; add 3 0 0 2; commit 2
    abort 3; undo 3; set 1 0 0 10; undo 3; read 0 0; force
    begin; add 4 0 1 1; set 1 0 0 11; set 4 0 1 2; add 1 0 0 1; abort 1; undo 1; add 4 0 0 1; undo 1; add 4 0 0 2
    """, "restore 1 20")

OPEN_CHECKPOINT = Script("a checkpoint that is left open", 5, f"""
    begin; add 1 0 0 1; add 1 1 0 1; add 1 2 0 1; add 1 3 0 1; {CHECKPOINT}; wbegin 2; wend 2; begin; set 2 4 3 7
    ckpt; gather; full; take 1 4; wbegin 3; gather; add 1 3 0 1; wend 3; {takes(1, 2, 3, 4, 0, 1)}
    gather; full; inc 1; {takes(3, 1, 3, 0, 2, 4)}; {takes(2, 3, 1, 4, 2, 0)}
    commit 2; begin; add 3 4 4 4; abort 1; gather; undo 1; set 3 0 1 6; undo 1; gather
    """)

CHAIN = Script("a chain beside writes", 3, f"""
    begin; set 1 0 0 500; set 1 1 0 300; commit 1; {CHECKPOINT}
    full; take 1 0; begin; add 2 0 0 50; wbegin 0; add 2 1 0 50; take 1 1; wend 0; {takes(1, 0, 1, 2)}
    wbegin 1; add 2 1 1 1; wend 1; {CHECKPOINT}
    inc 1; take 2 0; wbegin 1; take 2 1; wend 1; {takes(2, 2, 1, 0)}
    commit 2; begin; add 3 1 0 25; wbegin 1; ckpt; {GATHERS}; wend 1; gather; endckpt; endckpt
    inc 2; {takes(3, 0, 1, 2)}; add 3 2 0 7; repair 3 2; repair 1 1; repair 2 0; begin; set 4 2 1 9; abort 3; undo 3; set 4 1 0 1; wend 1; undo 3; undo 3
    """, "restore 3 all")

MANY = Script("many transactions, half of them taken back", 7, f"""
    {joined(*(f"begin; add {number} {number % 7} 0 {number}" for number in range(1, 13)))}
    {CHECKPOINT}; {GATHERS}; {GATHERS}; endckpt; endckpt; full; full; {takes(1, *range(7))}
    {joined(*(f"set 1 1 {slot} 9" for slot in range(1, 20)))}; wbegin 1; wend 1; commit 3
    {joined(*(f"abort {number}; undo {number}; undo {number}" for number in range(2, 9, 2)))}
    """, "restore 1 1000000")


# The savepoints are the Begin of each transaction, its first change, and Comps, which the table has to keep.
SAVEPOINTS = Script("ways back to savepoints", 2, f"""
    {CHECKPOINT}; full; full; {takes(1, 0, 1)}; begin; save 1; add 1 0 0 5; save 1; add 1 1 0 7; add 1 0 1 8
    {joined(*["undoto 1 256"] * 3)}; {joined(*["add 1 0 0 1; undoto 1 256"] * 9)}; save 1; undoto 1 448
    begin; add 2 1 1 2; undoto 2 999; ckpt; {GATHERS}; undoto 1 192; undoto 1 192; endckpt
    set 1 0 2 3; undoto 2 1728; undoto 2 1728; commit 2; abort 1; undo 1; undoto 1 192; begin; add 3 0 0 1
    undoto 3 2368
    """, "restore 1 all")


def behind(records):
    """Each call that appends a record, behind so many more records. So each comes where the log has to grow. The last
    restore keeps a record too few, but where a call was refused."""
    return Script(f"each record behind {records} more", 2, f"""
        {joined("begin", *["add 1 0 0 1"] * records)}; extend 3
        begin; set 2 1 0 5; add 2 1 1 7; abort 2; abort 2; undo 2; undo 2; undo 2; undo 2
        {CHECKPOINT}; full; full; {takes(1, 2, 1, 0)}
        begin; add 3 1 0 1; commit 3; begin; add 4 1 0 1; abort 1; undo 1; add 4 1 1 1; undo 1; add 4 0 0 1
        """, f"restore 1 {records + 15}")


SCRIPTS = [ROLLBACK, ONE_SLOT, OPEN_CHECKPOINT, CHAIN, MANY, *map(behind, range(8))]

# Each with the fault line that it has to give.
BAD_SCRIPTS = {b"begin\nset 1 0 0 5\nhello\n": b"imgcopy: line 3\n", b"begin\n\xff\n": b"imgcopy: input\n"}
