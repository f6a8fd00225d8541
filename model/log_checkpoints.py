"""The records of checkpoints, and which of them may come next, as docs/FORMATS.md has them: for log_format.py."""

import struct
from typing import NamedTuple

BEGIN_CHKPT, CHKPT_PAGES, CHKPT_TXNS, END_CHKPT = 7, 8, 9, 10
ACTIVE, ROLLING = 1, 2
NAMES = {BEGIN_CHKPT: "begin checkpoint", CHKPT_PAGES: "dirty pages", CHKPT_TXNS: "open transaction",
         END_CHKPT: "end checkpoint"}
STATES = {ACTIVE: "active", ROLLING: "rolling back"}

MOST_ENTRIES = 3
FRAME = struct.Struct("<B 7x Q 40s Q")
COUNT = struct.Struct("<I")
ENTRY = struct.Struct("<I Q")
TRANSACTION = struct.Struct("<4x I I Q Q 12x")
REDO_POINT = struct.Struct("<8x Q 24x")


class CheckpointRecord(NamedTuple):
    """A record of a checkpoint. `begin` is the LSN of its BeginChkpt, and each entry a page and its RecLSN."""

    kind: int
    begin: int = 0
    entries: tuple = ()
    transaction: int = 0
    state: int = 0
    last: int = 0
    undo_next: int = 0
    redo_point: int = 0
    lsn: int = 0
    data: bytes = b""  # the bytes that it was read from

    def encode(self):
        body = b""
        if self.kind == CHKPT_PAGES:
            body = COUNT.pack(len(self.entries)) + b"".join(ENTRY.pack(*entry) for entry in self.entries)
        elif self.kind == CHKPT_TXNS:
            body = TRANSACTION.pack(self.transaction, self.state, self.last, self.undo_next)
        elif self.kind == END_CHKPT:
            body = REDO_POINT.pack(self.redo_point)
        return FRAME.pack(self.kind, self.begin, body, self.lsn)


def decode(data):
    """The record of a checkpoint in these bytes. Where they are misspelt, they are not those of the record."""
    kind, begin, body, lsn = FRAME.unpack(data)
    record = CheckpointRecord(kind, begin, lsn=lsn, data=data)
    if kind == CHKPT_PAGES:
        count = min(COUNT.unpack_from(body)[0], MOST_ENTRIES)
        return record._replace(entries=tuple(ENTRY.unpack_from(body, 4 + 12 * index) for index in range(count)))
    if kind == CHKPT_TXNS:
        transaction, state, last, undo_next = TRANSACTION.unpack(body)
        return record._replace(transaction=transaction, state=state, last=last, undo_next=undo_next)
    if kind == END_CHKPT:
        return record._replace(redo_point=REDO_POINT.unpack(body)[0])
    return record


def fault_of_spelling(record, at, pages):
    """What is wrong with a record of a checkpoint that stands at this offset, in words, or None."""
    if record.data and record.encode() != record.data:
        return "the record has a count or a byte that it may not have"
    if record.lsn != at:
        return f"the record's own LSN is {record.lsn}"
    return fault_of_lsns(record) or fault_of_entries(record, pages) or fault_of_transaction(record)


def fault_of_lsns(record):
    if record.kind == BEGIN_CHKPT:
        return None if record.begin == 0 else f"the LSN {record.begin} stands where a BeginChkpt has 0"
    lsns = {CHKPT_PAGES: [rec_lsn for _, rec_lsn in record.entries], CHKPT_TXNS: [record.last, record.undo_next],
            END_CHKPT: [record.redo_point]}
    for lsn in (record.begin, *lsns[record.kind]):
        if lsn not in range(64, record.lsn, 64):
            return f"the LSN {lsn} is that of no record before this one"
    return None


def fault_of_entries(record, pages):
    if record.kind != CHKPT_PAGES:
        return None
    numbers = [page for page, _ in record.entries]
    if not numbers:
        return "there is no dirty page"
    if numbers != sorted(set(numbers)):
        return "the pages do not rise"
    if numbers[-1] >= pages:
        return f"page {numbers[-1]} is out of range: the page count is {pages}"
    return None


def fault_of_transaction(record):
    if record.kind != CHKPT_TXNS:
        return None
    if record.transaction == 0:
        return "the transaction is 0"
    return None if record.state in STATES else f"the state {record.state} is unknown"


class Checkpoints:
    """The open checkpoint of a log, if there is one, and the pages that the records change."""

    def __init__(self):
        self.changed = {}  # by LSN: the page that the record changes
        self.begin = None  # the LSN of the BeginChkpt of the open checkpoint
        self.entries = []
        self.transactions = []

    def fault(self, record, transactions):
        """Why this record may not come next, in words, or None. The open transactions are given by their numbers."""
        if record.kind == BEGIN_CHKPT:
            return None if self.begin is None else f"the checkpoint that began at {self.begin} is open"
        if self.begin is None:
            return "no checkpoint is open"
        if record.begin != self.begin:
            return f"it names {record.begin}, and the open checkpoint began at {self.begin}"
        if record.kind == CHKPT_PAGES:
            return self.fault_of_pages(record)
        if record.kind == CHKPT_TXNS:
            return self.fault_of_transaction(record, transactions.get(record.transaction))
        return self.fault_of_end(record, transactions)

    def fault_of_pages(self, record):
        if self.transactions:
            return "dirty pages come before transactions"
        if self.entries and record.entries[0][0] <= self.entries[-1][0]:
            return f"page {record.entries[0][0]} comes behind page {self.entries[-1][0]}"
        for page, rec_lsn in record.entries:
            if self.changed.get(rec_lsn) != page:
                return f"the RecLSN {rec_lsn} is that of no change of page {page}"
        return None

    def fault_of_transaction(self, record, transaction):
        number = record.transaction
        if self.transactions and number <= self.transactions[-1]:
            return f"transaction {number} comes behind transaction {self.transactions[-1]}"
        if transaction is None:
            return f"transaction {number} is not open"
        if (record.state == ROLLING) != transaction.is_rolling:
            return f"transaction {number} is not {STATES[record.state]}"
        if record.last != transaction.last_lsn:
            return f"transaction {number} has its last record at {transaction.last_lsn}"
        undo_next = transaction.pending[-1].lsn if transaction.pending else transaction.first_lsn
        if record.undo_next != undo_next:
            return f"the UndoNxtLSN is {record.undo_next}, and that of transaction {number} is {undo_next}"
        return None

    def fault_of_end(self, record, transactions):
        redo_point = min([self.begin, *(rec_lsn for _, rec_lsn in self.entries)])
        if record.redo_point != redo_point:
            return f"the redo point is {record.redo_point}, and the least is {redo_point}"
        for number, transaction in transactions.items():
            if transaction.first_lsn < self.begin and number not in self.transactions:
                return f"transaction {number} was open throughout, and has no entry"
        return None

    def take(self, record):
        """Adds the next record of a checkpoint, which has no fault."""
        if record.kind == BEGIN_CHKPT:
            self.begin, self.entries, self.transactions = record.lsn, [], []
        elif record.kind == CHKPT_PAGES:
            self.entries += record.entries
        elif record.kind == CHKPT_TXNS:
            self.transactions.append(record.transaction)
        else:
            self.begin = None
