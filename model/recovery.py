"""Pages, open transactions, restore and its files, by their definitions and from the log's beginning.

This is for the other scripts. It is written from the formats and the rules alone, and nothing in it is made to be
fast. Records, and which of them may follow which, are those of log_format.py.
"""

import re
import struct
from functools import lru_cache
from typing import NamedTuple

from model.log_format import (ABORT, BEGIN, COMMIT, COMP, END, HEADER_SIZE, KINDS, MOST_PAGES, MOST_RECORDS, PAGE,
                              PAGE_FORMAT, PAGE_SIZE, RECORD_SIZE, SLOTS, UPDATE, EXTEND, History, Record, decode_record,
                              encode_header, fault_of_header, fault_of_record, is_first_format, lsn_of, page_count)
from model.log_checkpoints import BEGIN_CHKPT, CHKPT_TXNS, END_CHKPT
from model.savepoints import stack_from

NAMES = {
    2: "NoTxn", 3: "PageOut", 4: "SlotOut", 5: "SlotBusy", 6: "TxnRolling", 7: "NotRolling", 8: "LogFull",
    9: "TooManyTxns", 10: "NotDirty", 11: "WriteBegun", 12: "NoWrite", 13: "CkptOpen", 14: "NoCkpt", 15: "GatherLeft",
    16: "NoMaster", 17: "NoCopy", 18: "CopyNotOpen", 19: "CopyNotComplete", 20: "PageDecided", 21: "PagesLeft",
    22: "StoreFault", 23: "LogFault", 24: "PoolFull", 25: "TooManyCopies", 26: "CommitUnsure", 27: "CutTooShort", 29: "WriteFault",
    30: "BadHeader", 31: "BadRecord", 32: "Torn", 33: "ReadFault", 34: "TooLong", 35: "BadChain", 36: "BadArchive",
    37: "ChainBroken", 38: "CountDiffers", 39: "RedoBeyondLog", 40: "PageBeyondLog", 41: "Unsound", 42: "NoSavepoint",
    43: "NotLarger",
}
STATUS_1 = {8, 17, 19, 27, 37, 39, 40, 41}

MOST_COPIES = 1024
MASTER_MAGIC = b"AIMGMST1"
# The same of an archive.
ARCHIVE_MAGIC = b"AIMGARC2"
FIRST_ARCHIVE_MAGIC = b"AIMGARC1"
FULL, INCREMENTAL = 1, 2
MASTER = struct.Struct("<8s Q Q 40x")
ARCHIVE = struct.Struct("<8s I I B 3x I Q Q I 20x")


class Refusal(Exception):
    """A call or an input that is refused, with the numbers that its line has."""

    def __init__(self, number, *values):
        super().__init__(number, *values)
        self.number, self.values = number, values

    def line(self):
        return " ".join([f"E{self.number}", NAMES[self.number], *map(str, self.values)])

    def status(self):
        return 1 if self.number in STATUS_1 else 2


class Page(NamedTuple):
    """Made of its number alone, it is the formatted page."""

    number: int
    lsn: int = 0
    slots: tuple = (0,) * SLOTS

    def put(self, record):
        slots, slot = list(self.slots), record.change.slot
        slots[slot] = record.change.changed(slots[slot])
        return Page(self.number, record.lsn, tuple(slots))

    def encode(self):
        return PAGE.pack(self.number, PAGE_FORMAT, self.lsn, *self.slots)

    def line(self):
        slots = "".join(f" {slot}={number}" for slot, number in enumerate(self.slots) if number)
        return f"page {self.number} lsn {self.lsn}{slots}"


def is_change(record):
    return record.kind in (UPDATE, COMP)


def count_behind(log, pages):
    """How many pages a volume has behind these records, which had so many before them."""
    return max([pages, *(record.pages for record in log if record.kind == EXTEND)])


def count_below(log, pages, lsn):
    """And behind those below an LSN."""
    return count_behind(log[:max(lsn - 1, 0) // RECORD_SIZE], pages)


def redo_all(log, pages):
    """The images of all pages of a volume that had so many before the log: each change of the log is put on a formatted
    page, and no LSN is compared."""
    volume = {number: Page(number) for number in range(count_behind(log, pages))}
    for record in log:
        if is_change(record):
            volume[record.change.page] = volume[record.change.page].put(record)
    return list(volume.values())


class Transaction:
    """An open transaction. Its pending changes are a stack in log order: an Update puts one on, and a Comp takes the
    last one off. It rolls back from its Abort on."""

    def __init__(self, begin):
        self.number = begin.transaction
        self.first = self.last = begin.lsn
        self.is_rolling = False
        self.pending = []

    def undo_next(self):
        return self.pending[-1].lsn if self.pending else self.first

    def owed(self):
        """How many records it may still need."""
        return len(self.pending) + (1 if self.is_rolling else 2)


class Transactions:
    """The open transactions of a log by their numbers, and how many began."""

    def __init__(self, log=()):
        self.begun = 0
        self.open = {}
        for record in log:
            self.note(record)

    def note(self, record):
        if record.kind == BEGIN:
            self.begun += 1
            self.open[record.transaction] = Transaction(record)
        elif record.kind in (COMMIT, END):
            del self.open[record.transaction]
        elif record.kind in (UPDATE, COMP, ABORT):
            transaction = self.open[record.transaction]
            transaction.last = record.lsn
            transaction.is_rolling |= record.kind == ABORT
            if record.kind == UPDATE:
                transaction.pending.append(record)
            elif record.kind == COMP:
                transaction.pending.pop()

    def owed(self):
        return sum(map(Transaction.owed, self.open.values()))


def losers(log, begin):
    """The open transactions by their numbers, found from the complete checkpoint on that begins at this LSN. What a
    transaction did before it is found from its last record back, and no record is looked at that was taken back."""
    last = open_by_tail(log[begin // RECORD_SIZE - 1:])
    return {number: traced(lambda lsn: log[lsn // RECORD_SIZE - 1], lsn) for number, lsn in last.items()}


def open_by_tail(tail):
    """The LSN of the last record of each open transaction, by the records from a BeginChkpt on. An entry of a
    checkpoint is heard where it stands."""
    last = {}
    for record in tail:
        if record.kind == CHKPT_TXNS:
            last[record.transaction] = record.last
        elif record.kind in (COMMIT, END):
            last.pop(record.transaction, None)
        elif record.kind in KINDS:
            last[record.transaction] = record.lsn
    return last


def traced(record_at, lsn):
    """The open transaction whose last record has this LSN."""
    begin, pending = stack_from(record_at, lsn)
    transaction = Transaction(begin)
    transaction.last, transaction.pending = lsn, pending
    # Behind an Abort stand Comps alone.
    record = record_at(lsn)
    while record.kind == COMP:
        record = record_at(record.previous)
    transaction.is_rolling = record.kind == ABORT
    return transaction


def compensation(transaction, lsn):
    """The Comp of its last pending change."""
    update = transaction.pending[-1]
    return Record(COMP, transaction.number, transaction.last, update.change.undo(), update.previous, lsn)


def ending(transaction, lsn):
    return Record(END, transaction.number, transaction.last, lsn=lsn)


def undo_records(log):
    """What undo appends to a log: an End for each open transaction that has nothing pending, by number, and then a Comp
    for each pending change of all transactions, the last change first, and after it the transaction's End where
    nothing of it is left."""
    transactions, added = Transactions(log), []

    def append(make, transaction):
        added.append(make(transaction, lsn_of(len(log) + len(added))))
        transactions.note(added[-1])

    for _, transaction in sorted(transactions.open.items()):
        if not transaction.pending:
            append(ending, transaction)
    while transactions.open:
        last = max(transactions.open.values(), key=Transaction.undo_next)
        append(compensation, last)
        if not last.pending:
            append(ending, last)
    return added


class Copy:
    """An image copy. An incremental one has a parent, and that of a full one is 0."""

    def __init__(self, number, parent, pages, begin, redo):
        self.number, self.parent, self.pages, self.begin, self.redo = number, parent, pages, begin, redo
        self.taken = {}  # pages by their numbers
        self.kept = set()
        self.is_complete = self.is_dropped = False

    def undecided(self):
        return [number for number in range(self.pages) if number not in self.taken and number not in self.kept]

    def encode(self):
        header = ARCHIVE.pack(ARCHIVE_MAGIC, self.pages, self.number, INCREMENTAL if self.parent else FULL,
                              self.parent, self.begin, self.redo, len(self.taken))
        return header + b"".join(page.encode() for _, page in sorted(self.taken.items()))


def content(chain, count):
    """Each of so many pages as the last copy of the chain that took it has it; formatted where none took it."""
    pages = {number: Page(number) for number in range(count)}
    for copy in chain:
        pages.update(copy.taken)
    return [pages[number] for number in range(count)]


def resume(pages, log, redo):
    """The pages with each change whose LSN is at least the redo point and above the page's own LSN."""
    pages = {page.number: page for page in pages}
    for record in log:
        if is_change(record) and record.lsn >= redo and record.lsn > pages[record.change.page].lsn:
            pages[record.change.page] = pages[record.change.page].put(record)
    return list(pages.values())


def restore(chain, log, pages):
    """The pages of a chain, redone from the last copy's redo point and undone, each as it then is. The volume had so many
    pages before the log."""
    if len(log) + Transactions(log).owed() > MOST_RECORDS:
        raise Refusal(8)
    volume = {page.number: page for page in resume(content(chain, count_behind(log, pages)), log, chain[-1].redo)}
    for record in undo_records(log):
        if is_change(record):
            volume[record.change.page] = volume[record.change.page].put(record)
    return list(volume.values())


def encode_log(log, pages):
    return encode_header(pages) + b"".join(record.encode() for record in log)


def encode_master(begin, end):
    return MASTER.pack(MASTER_MAGIC, begin, end)


def encode_pages(pages):
    return b"".join(page.encode() for page in pages)


@lru_cache(maxsize=4)
def read_log(data):
    """The page count of a log's header, and its records. No bytes at all, as None, are a file that cannot be read."""
    if data is None:
        raise Refusal(33)
    if fault_of_header(data[:HEADER_SIZE]):
        raise Refusal(30)
    history, records = History(page_count(data[:HEADER_SIZE])), []
    for at in range(HEADER_SIZE, len(data), RECORD_SIZE):
        if len(records) == MOST_RECORDS:
            raise Refusal(34)
        if len(data) - at < RECORD_SIZE:
            raise Refusal(32, at)
        record = decode_record(data[at:at + RECORD_SIZE])
        if fault_of_record(record, at, history.pages, is_first_format(data)):
            raise Refusal(31, at)
        if history.fault(record):
            raise Refusal(35, at)
        history.take(record)
        records.append(record)
    return page_count(data[:HEADER_SIZE]), records


def read_master(data, log):
    """The begin and end of the checkpoint of this log that the master record names."""
    if data is None:
        raise Refusal(33)
    if len(data) != MASTER.size:
        raise Refusal(30)
    magic, begin, end = MASTER.unpack(data)
    is_spelt = data == encode_master(begin, end) and begin % 64 == 0 and end % 64 == 0 and 64 <= begin < end
    if not is_spelt:
        raise Refusal(30)
    by_lsn = {record.lsn: record for record in log if record.lsn in (begin, end)}
    is_named = begin in by_lsn and by_lsn[begin].kind == BEGIN_CHKPT and \
        end in by_lsn and by_lsn[end].kind == END_CHKPT and by_lsn[end].begin == begin
    if not is_named:
        raise Refusal(35, begin)
    return begin, end


def read_chain(archives, log, pages):
    """The copies of a chain, for a log of a volume that had so many pages before it. All headers come first. Then each
    archive's first page is read, in order; a further page is read once the chain has given the one before it."""
    end = lsn_of(len(log))
    if not archives:
        raise Refusal(37, 0)
    chain, readings = [], []
    for data in archives:
        if data is None:
            raise Refusal(33)
        copy, taken = read_archive_header(data[:ARCHIVE.size])
        if copy.pages != count_below(log, pages, copy.begin) or copy.parent != (chain[-1].number if chain else 0):
            raise Refusal(37, copy.number)
        chain.append(copy)
        readings.append(page_numbers(copy, taken, data, end))
    if any(copy.redo >= end for copy in chain):
        raise Refusal(39)
    at_hand = [next(reading, None) for reading in readings]
    for given in range(count_behind(log, pages)):
        at_hand = [next(reading, None) if number == given else number for reading, number in zip(readings, at_hand)]
    return chain


def page_numbers(copy, taken, data, end):
    """Puts the pages into the copy one by one, and gives the number of each. What follows the last one is looked at
    before that is given."""
    at, last = ARCHIVE.size, -1
    for left in reversed(range(taken)):
        if at == len(data):
            raise Refusal(38)
        page = read_page(data[at:at + PAGE_SIZE])
        if page is None or not last < page.number < copy.pages:
            raise Refusal(36, at)
        if page.lsn >= end:
            raise Refusal(40, page.number)
        copy.taken[page.number] = page
        at, last = at + PAGE_SIZE, page.number
        if left == 0 and at != len(data):
            raise Refusal(38)
        yield last
    if taken == 0 and at != len(data):
        raise Refusal(38)


def read_archive_header(data):
    if len(data) < ARCHIVE.size:
        raise Refusal(36, 0)
    magic, pages, number, kind, parent, begin, redo, taken = fields = ARCHIVE.unpack(data)
    is_full = kind == FULL and parent == 0 and taken == pages
    is_incremental = kind == INCREMENTAL and 1 <= parent < number and taken <= pages
    is_spelt = magic in (ARCHIVE_MAGIC, FIRST_ARCHIVE_MAGIC) and data == ARCHIVE.pack(*fields) and \
        1 <= pages <= MOST_PAGES and 1 <= number <= MOST_COPIES and (is_full or is_incremental) and \
        begin % 64 == 0 and redo % 64 == 0 and 64 <= redo <= begin
    if not is_spelt:
        raise Refusal(36, 0)
    return Copy(number, parent, pages, begin, redo), taken


def read_page(data):
    """The page that these bytes spell, or None."""
    if len(data) < PAGE_SIZE:
        return None
    number, spelling, lsn, *slots = PAGE.unpack(data)
    is_spelt = number < MOST_PAGES and spelling == PAGE_FORMAT and lsn % 64 == 0
    return Page(number, lsn, tuple(slots)) if is_spelt else None


def restore_files(log, master, archives):
    """The pages that these files give. A file that cannot be read is None."""
    pages, records = read_log(log)
    begin, _ = read_master(master, records)
    compare_losers(records, begin)
    return restore(read_chain(archives, records, pages), records, pages)


def compare_losers(log, begin):
    """Sees that the open transactions are the same from the checkpoint at this LSN on as from the log's start on."""
    found, wanted = losers(log, begin), Transactions(log).open
    if found.keys() != wanted.keys() or any(vars(found[number]) != vars(wanted[number]) for number in wanted):
        raise AssertionError(f"from the checkpoint at {begin} on other transactions are open than from the start on")


def images(log, pages):
    """Of each page all that the log made of it, one after another, from the formatted page on."""
    made = [[Page(number)] for number in range(count_behind(log, pages))]
    for record in log:
        if is_change(record):
            of_page = made[record.change.page]
            of_page.append(of_page[-1].put(record))
    return made


def audit(chain, log, pages):
    """Sees that each page of the chain up to each member is an image of the log's past, and lacks no change below the
    redo point of that member."""
    made = images(log, pages)
    for at, copy in enumerate(chain):
        for page in content(chain[:at + 1], len(made)):
            of_page = made[page.number]
            if page not in of_page or any(page.lsn < image.lsn < copy.redo for image in of_page):
                raise Refusal(41, copy.number, page.number)


def audit_files(log, archives):
    """What the program must answer to an audit of these files. One that cannot be read is None."""
    try:
        pages, records = read_log(log)
        audit(read_chain(archives, records, pages), records, pages)
    except Refusal as refusal:
        return Answer(refusal.status(), f"{refusal.line()}\n".encode())
    return Answer(0, b"sound\n")


def redo_file(log):
    pages, records = read_log(log)
    return redo_all(records, pages)


# The line of a bad script, which begins as a line for a person does.
SCRIPT_FAULT = re.compile(rb"imgcopy: (line [0-9]+|input)\n")


def fault_lines(error):
    """Standard error without the lines for a person, which begin with the program's name."""
    return b"".join(line for line in re.findall(rb"[^\n]*\n|[^\n]+", error)
                    if SCRIPT_FAULT.fullmatch(line) or not line.startswith(b"imgcopy: "))


class Answer(NamedTuple):
    """What a program gives back."""

    status: int
    output: bytes = b""
    error: bytes = b""


def answer_of(give_pages, *files):
    """What the program must answer that writes the pages of these files."""
    try:
        return Answer(0, encode_pages(give_pages(*files)))
    except Refusal as refusal:
        return Answer(refusal.status(), error=f"{refusal.line()}\n".encode())
