"""Compares the model's ways to find a savepoint, for answers.py."""

from model.log_format import ADD, BEGIN, RECORD_SIZE, UPDATE, Change, Record, lsn_of
from model.recovery import Transactions, compensation
from model.samples import Draw
from model.savepoints import Marks, savepoint, stack_from, stacks

HISTORIES = 2000
MOST_STEPS = 45
MOST_OPEN = 3


class DifferentWays(Exception):
    """Where two ways differ, in one line."""


def compare_ways(histories=HISTORIES):
    """Draws transactions that go forth and back, and asks after each of their records for each LSN. Gives how often an
    LSN was a savepoint, and how often it was none."""
    found = [0, 0]
    for seed in range(1, histories + 1):
        draw, log, table, marks = Draw(seed), [], Transactions(), {}
        for _ in range(draw.one_of([3, 10, MOST_STEPS])):
            record = drawn_record(draw, table, lsn_of(len(log)))
            log.append(record)
            table.note(record)
            if record.kind == BEGIN:
                marks[record.transaction] = Marks(record.lsn)
            marks[record.transaction].note(record)
            for is_found in compare_at(seed, log, table.open[record.transaction], marks[record.transaction]):
                found[is_found] += 1
    if min(found) < histories:
        raise DifferentWays(f"{found[True]} of the LSNs are savepoints, and {found[False]} are none: too few")
    return found[True], found[False]


def drawn_record(draw, table, lsn):
    """Any record by which a transaction that is active may go on."""
    if not table.open or len(table.open) < MOST_OPEN and draw.below(12) == 0:
        return Record(BEGIN, table.begun + 1, lsn=lsn)
    transaction = draw.one_of(list(table.open.values()))
    if transaction.pending and draw.below(5) < 2:
        return compensation(transaction, lsn)
    return Record(UPDATE, transaction.number, transaction.last, Change(0, 0, ADD, 0, 1), lsn=lsn)


def compare_at(seed, log, transaction, marks):
    """Asks for each LSN in two ways, and gives whether it is a savepoint. The third way leads back from the last
    record."""
    at = stacks(log, transaction.number)
    pending = at[transaction.last]
    for lsn in (*range(0, lsn_of(len(log)) + RECORD_SIZE, RECORD_SIZE), transaction.last - 1, transaction.last + 1):
        stack = at.get(lsn)
        wanted = None if stack is None or pending[:len(stack)] != stack else len(stack)
        if marks.savepoint(lsn) != wanted:
            found = marks.savepoint(lsn)
            raise DifferentWays(f"history {seed}, {len(log)} records: {lsn} is found at {found}, and not {wanted}")
        yield wanted is not None
    begin, updates = stack_from(lambda lsn: log[lsn // RECORD_SIZE - 1], transaction.last)
    if begin.transaction != transaction.number or [update.lsn for update in updates] != pending:
        raise DifferentWays(f"history {seed}: PrevLSN and UndoNxtLSN lead from {transaction.last} to another stack")
    if savepoint(log, transaction.number, transaction.last) != len(pending):
        raise DifferentWays(f"history {seed}: the last record at {transaction.last} is no savepoint")
