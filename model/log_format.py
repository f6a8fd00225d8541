"""The format of logs, pages and volumes, as docs/FORMATS.md has it: for the other scripts.

A log is a header of 64 bytes and then records of 64 bytes, each named by its LSN, the offset at which it begins.
A volume is its pages of 512 bytes one after the other. All numbers are little-endian.
"""

import struct
from collections import Counter, defaultdict
from typing import NamedTuple

from model import log_checkpoints
from model.log_checkpoints import Checkpoints

# What a log begins with that is written, and one of the first format, which is read too.
MAGIC = b"AIMGLOG2"
FIRST_MAGIC = b"AIMGLOG1"
HEADER_SIZE = 64
RECORD_SIZE = 64
MOST_RECORDS = 2**20
MOST_OPEN = 64
LONGEST_LOG = HEADER_SIZE + RECORD_SIZE * MOST_RECORDS

PAGE_SIZE = 512
PAGE_FORMAT = 1
MOST_PAGES = 2**16
SLOTS = 62

BEGIN, UPDATE, COMP, COMMIT, ABORT, END = 1, 2, 3, 4, 5, 6
EXTEND = 11
SET, ADD = 1, 2

HEADER = struct.Struct("<8s I 52s")
RECORD = struct.Struct("<B 3s I Q Q I H B 1s Q Q 8s Q")
EXTENT = struct.Struct("<B 23x I 28x Q")
PAGE = struct.Struct(f"<I I Q {SLOTS}Q")

# The offsets of the bytes that no field has, and that are 0.
SPARE_OF_HEADER = range(12, HEADER_SIZE)
SPARE_OF_RECORD = (1, 2, 3, 31, *range(48, 56))
NO_SPARE = bytes(len(SPARE_OF_RECORD))


class Kind(NamedTuple):
    """A kind of record, and what it has. The fields of what it does not have are 0."""

    name: str
    has_previous: bool = True
    has_undo_next: bool = False
    has_change: bool = False
    has_before: bool = False


KINDS = {
    BEGIN: Kind("begin", has_previous=False),
    UPDATE: Kind("update", has_change=True, has_before=True),
    COMP: Kind("comp", has_undo_next=True, has_change=True),
    COMMIT: Kind("commit"),
    ABORT: Kind("abort"),
    END: Kind("end"),
}


class Change(NamedTuple):
    """A Set puts `number` into the slot in place of `before`. An Add adds `number` to it, and has no `before`."""

    page: int
    slot: int
    kind: int
    before: int
    number: int

    def changed(self, number):
        """The slot's number after this change."""
        return self.number if self.kind == SET else (number + self.number) % 2**64

    def undo(self):
        """The change of the Comp that takes this one back."""
        number = self.before if self.kind == SET else -self.number % 2**64
        return Change(self.page, self.slot, self.kind, 0, number)


NO_CHANGE = Change(page=0, slot=0, kind=0, before=0, number=0)


class Record(NamedTuple):
    kind: int
    transaction: int
    previous: int = 0
    change: Change = NO_CHANGE
    undo_next: int = 0
    lsn: int = 0
    spare: bytes = NO_SPARE

    def encode(self):
        page, slot, kind, before, number = self.change
        return RECORD.pack(self.kind, self.spare[:3], self.transaction, self.previous, self.undo_next,
                           page, slot, kind, self.spare[3:4], before, number, self.spare[4:], self.lsn)


class Extend(NamedTuple):
    """The record that the volume has so many pages from there on. `data` are the bytes that it was read from."""

    pages: int
    lsn: int = 0
    data: bytes = b""
    kind: int = EXTEND

    def encode(self):
        return EXTENT.pack(EXTEND, self.pages, self.lsn)


class Volume:
    """The pages that the records of a log leave, each as its LSN and its slots."""

    def __init__(self, pages):
        self.lsns, self.slots = [], []
        self.grow(pages)

    def grow(self, pages):
        added = pages - len(self.lsns)
        self.lsns += [0] * added
        self.slots += [[0] * SLOTS for _ in range(added)]

    def redo(self, record):
        if record.kind == EXTEND:
            self.grow(record.pages)
        elif record.kind in KINDS and KINDS[record.kind].has_change:
            slots, slot = self.slots[record.change.page], record.change.slot
            slots[slot] = record.change.changed(slots[slot])
            self.lsns[record.change.page] = record.lsn

    def encode(self):
        pages = zip(self.lsns, self.slots)
        return b"".join(PAGE.pack(number, PAGE_FORMAT, lsn, *slots) for number, (lsn, slots) in enumerate(pages))


class Transaction:
    """An open transaction. Its pending changes are a stack: an Update puts one on, and a Comp takes the last one off.
    It rolls back from its Abort on. A Comp alone leaves it active."""

    def __init__(self, first_lsn):
        self.first_lsn = self.last_lsn = first_lsn
        self.is_rolling = False
        self.pending = []


class History:
    """The records of a log so far, and which record may come next."""

    def __init__(self, pages):
        self.pages = pages
        self.end = HEADER_SIZE  # the LSN of the next record
        self.begun = 0  # how many transactions began
        self.open = {}  # each open transaction by its number
        self.claims = defaultdict(Counter)  # by slot: of which transactions and kinds changes are pending there
        self.volume = Volume(pages)
        self.checkpoints = Checkpoints()

    def fault(self, record):
        """Why this record, which is spelt right, may not come next, in words, or None."""
        if record.kind == EXTEND:
            return None if record.pages > self.pages else f"the page count is {record.pages}, and it was {self.pages}"
        if record.kind in log_checkpoints.NAMES:
            return self.checkpoints.fault(record, self.open)
        if record.kind == BEGIN:
            return self.fault_of_begin(record)
        number, transaction = record.transaction, self.open.get(record.transaction)
        if transaction is None:
            return f"transaction {number} is not open"
        if record.previous != transaction.last_lsn:
            return f"the PrevLSN is {record.previous}, and transaction {number} has its last record at" \
                   f" {transaction.last_lsn}"
        if record.kind in (UPDATE, COMMIT, ABORT) and transaction.is_rolling:
            return f"transaction {number} is rolling back"
        if record.kind == UPDATE:
            return self.fault_of_update(record)
        if record.kind == COMP:
            return self.fault_of_comp(record, transaction)
        if record.kind == END and transaction.pending:
            return f"transaction {number} ends, and its change at {transaction.pending[-1].lsn} is pending"
        return None

    def fault_of_begin(self, record):
        if record.transaction != self.begun + 1:
            return f"transaction {record.transaction} begins, and the next one is {self.begun + 1}"
        if len(self.open) >= MOST_OPEN:
            return f"{MOST_OPEN} transactions are open"
        return None

    def fault_of_update(self, record):
        change = record.change
        for other, kind in self.claims_of(record):
            if other != record.transaction and SET in (kind, change.kind):
                return f"transaction {other} holds the slot"
        number = self.volume.slots[change.page][change.slot]
        if change.kind == SET and change.before != number:
            return f"the number before is {change.before}, and the slot has {number}"
        return None

    def fault_of_comp(self, record, transaction):
        if not transaction.pending:
            return f"transaction {record.transaction} has no pending change"
        update = transaction.pending[-1]
        if record.change != update.change.undo():
            return f"the change does not take back the one at {update.lsn}"
        if record.undo_next != update.previous:
            return f"the UndoNxtLSN is {record.undo_next}, and the change at {update.lsn} has PrevLSN {update.previous}"
        return None

    def take(self, record):
        """Adds the next record, which has no fault."""
        self.end += RECORD_SIZE
        if record.kind == EXTEND:
            self.pages = record.pages
            self.volume.redo(record)
            return
        if record.kind in log_checkpoints.NAMES:
            self.checkpoints.take(record)
            return
        if record.kind == BEGIN:
            self.begun += 1
            self.open[record.transaction] = Transaction(record.lsn)
        transaction = self.open[record.transaction]
        transaction.last_lsn = record.lsn
        if record.kind == UPDATE:
            transaction.pending.append(record)
            self.claims_of(record)[record.transaction, record.change.kind] += 1
        elif record.kind == COMP:
            self.release(transaction.pending.pop())
        elif record.kind in (COMMIT, END):
            for update in self.open.pop(record.transaction).pending:
                self.release(update)
        transaction.is_rolling |= record.kind == ABORT
        self.volume.redo(record)
        if KINDS[record.kind].has_change:
            self.checkpoints.changed[record.lsn] = record.change.page

    def claims_of(self, update):
        return self.claims[update.change.page, update.change.slot]

    def release(self, update):
        claims, claim = self.claims_of(update), (update.transaction, update.change.kind)
        claims[claim] -= 1
        if claims[claim] == 0:
            del claims[claim]


def encode_header(pages, magic=MAGIC):
    return HEADER.pack(magic, pages, bytes(len(SPARE_OF_HEADER)))


def lsn_of(index):
    """The LSN of the record at this index, counted from 0."""
    return HEADER_SIZE + RECORD_SIZE * index


def page_count(header):
    _, pages, _ = HEADER.unpack(header)
    return pages


def is_first_format(header):
    return header.startswith(FIRST_MAGIC)


def decode_record(data):
    if data[0] == EXTEND:
        _, pages, lsn = EXTENT.unpack(data)
        return Extend(pages, lsn, data)
    if data[0] in log_checkpoints.NAMES:
        return log_checkpoints.decode(data)
    (kind, spare, transaction, previous, undo_next, page, slot, change, more_spare, before, number, most_spare,
     lsn) = RECORD.unpack(data)
    return Record(kind, transaction, previous, Change(page, slot, change, before, number), undo_next, lsn,
                  spare + more_spare + most_spare)


def decode_page(data):
    """The number, the LSN and the slots of a page."""
    number, _, lsn, *slots = PAGE.unpack(data)
    return number, lsn, slots


def fault_of_header(data):
    """What is wrong with these bytes in front of a log, in words, or None. There may be fewer than a header has."""
    if len(data) < HEADER_SIZE:
        return f"the header is misspelt: it has {len(data)} bytes"
    magic, pages, spare = HEADER.unpack(data)
    if magic not in (MAGIC, FIRST_MAGIC):
        return f"the header is misspelt: it begins with neither {FIRST_MAGIC.decode()} nor {MAGIC.decode()}"
    if not 1 <= pages <= MOST_PAGES:
        return f"the header is misspelt: its page count is {pages}"
    if any(spare):
        return f"the header is misspelt: its spare byte {first_spoiled(spare, SPARE_OF_HEADER)} is not 0"
    return None


def fault_of_record(record, at, pages, is_first=False):
    """What is wrong with a record that stands at this offset of a log, in words, or None. So many pages has the volume
    there. A log of the first format has no Extend."""
    if record.kind == EXTEND and not is_first:
        return fault_of_extend(record, at)
    if record.kind in log_checkpoints.NAMES:
        return log_checkpoints.fault_of_spelling(record, at, pages)
    if record.kind not in KINDS:
        return f"the kind {record.kind} is unknown"
    if record.spare != NO_SPARE:
        return f"the spare byte {first_spoiled(record.spare, SPARE_OF_RECORD)} of the record is not 0"
    if record.lsn != at:
        return f"the record's own LSN is {record.lsn}"
    if record.transaction == 0:
        return "the transaction is 0"
    return fault_of_chain(record) or fault_of_change(record, pages)


def fault_of_extend(record, at):
    if record.data and record.encode() != record.data:
        return "the record has a byte that it may not have"
    if record.lsn != at:
        return f"the record's own LSN is {record.lsn}"
    return None if 1 <= record.pages <= MOST_PAGES else f"the page count is {record.pages}"


def first_spoiled(spare, offsets):
    return next(at for at, byte in zip(offsets, spare) if byte != 0)


def fault_of_chain(record):
    kind = KINDS[record.kind]
    chain = (("PrevLSN", kind.has_previous, record.previous), ("UndoNxtLSN", kind.has_undo_next, record.undo_next))
    for name, is_there, lsn in chain:
        if is_there and lsn not in range(HEADER_SIZE, record.lsn, RECORD_SIZE):
            return f"the {name} {lsn} is that of no record before this one"
        if not is_there and lsn != 0:
            return f"the {name} is {lsn}, and the kind {kind.name} has none"
    return None


def fault_of_change(record, pages):
    kind, change = KINDS[record.kind], record.change
    if not kind.has_change:
        return None if change == NO_CHANGE else f"a field of a change is not 0, and the kind {kind.name} has none"
    if change.page >= pages:
        return f"page {change.page} is out of range: the page count is {pages}"
    if change.slot >= SLOTS:
        return f"slot {change.slot} is out of range: a page has {SLOTS} slots"
    if change.kind not in (SET, ADD):
        return f"the kind {change.kind} of the change is unknown"
    if change.before != 0 and not (kind.has_before and change.kind == SET):
        return f"the number before is {change.before}, and only the Set of an update has one"
    return None
