"""Savepoints: the records to which a transaction may go back, and go on from there.

The stack of a transaction at one of its records is its pending changes as of that record: an Update puts one on, and a
Comp takes the last one off. The LSN of the record is a savepoint while that stack, by the LSNs of its changes, is the
bottom of the stack now. What was taken back in between leaves no trace in the stacks, and may have been much.

`savepoint` decides this as it is said here, and the engine of the model uses it. `Marks` decides it in logarithmic
time, by what an open transaction keeps, and `stack_from` finds a stack from its record back. checks/savepoints.py
compares the three.
"""

from bisect import bisect_left

from model.log_format import BEGIN, COMP, UPDATE


def stacks(log, number):
    """By LSN: the stack of this transaction at each of its records, as the LSNs of its changes."""
    stack, at = [], {}
    for record in log:
        if record.kind in (BEGIN, UPDATE, COMP) and record.transaction == number:
            if record.kind == UPDATE:
                stack = [*stack, record.lsn]
            elif record.kind == COMP:
                stack = stack[:-1]
            at[record.lsn] = stack
    return at


def savepoint(log, number, lsn):
    """How many changes of this active transaction were pending at the savepoint, or None where the LSN is none."""
    at = stacks(log, number)
    now, then = at[max(at)], at.get(lsn)
    return None if then is None or now[:len(then)] != then else len(then)


def stack_from(record_at, lsn):
    """The Begin, and the pending changes as of the record at this LSN: an Update leads back by its PrevLSN, and a Comp
    by its UndoNxtLSN, so that what was taken back is passed over."""
    record, stack = record_at(lsn), []
    while record.kind != BEGIN:
        if record.kind == UPDATE:
            stack.append(record)
        record = record_at(record.undo_next if record.kind == COMP else record.previous)
    return record, stack[::-1]


class Marks:
    """What an active transaction keeps so that a savepoint is found: the LSNs of its pending changes, and its Comps,
    each with how many changes were pending behind it. Both rise, and all of them are savepoints."""

    def __init__(self, begin):
        self.begin = begin
        self.pending = []
        self.comps = []

    def note(self, record):
        if record.kind == UPDATE:
            self.pending.append(record.lsn)
        elif record.kind == COMP:
            update = self.pending.pop()
            # The change was pending at each Comp behind its Update, and so those are no savepoints any more.
            while self.comps and self.comps[-1][0] > update:
                self.comps.pop()
            self.comps.append((record.lsn, len(self.pending)))

    def savepoint(self, lsn):
        """How many changes were pending at the savepoint, or None where the LSN is none."""
        if lsn == self.begin:
            return 0
        place = bisect_left(self.pending, lsn)
        if self.pending[place:place + 1] == [lsn]:
            return place + 1
        place = bisect_left(self.comps, (lsn, 0))
        return self.comps[place][1] if place < len(self.comps) and self.comps[place][0] == lsn else None
