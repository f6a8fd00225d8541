"""The engine by its rules: what each call answers, and what it leaves. For the other scripts.

Each call is a method that gives its reply, or raises the Refusal that is its reply. The store and the device never
fail, and memory is ample.
"""

from bisect import bisect_right
from collections import defaultdict

from model.log_checkpoints import (ACTIVE, BEGIN_CHKPT, CHKPT_PAGES, CHKPT_TXNS, END_CHKPT, MOST_ENTRIES, ROLLING,
                                   CheckpointRecord)
from model.log_format import (ABORT, ADD, BEGIN, COMMIT, MOST_OPEN, MOST_PAGES, MOST_RECORDS, SET, SLOTS, UPDATE, Change,
                              Extend, Record, lsn_of)
from model.recovery import (MOST_COPIES, Copy, Page, Refusal, Transactions, compensation, content, encode_log,
                            encode_master, ending, is_change, restore, resume)
from model.savepoints import savepoint


MOST_FRAMES = 65_536


class Checkpoint:
    """An open checkpoint: what it has recorded, and what it gathers now."""

    def __init__(self, begin, pages):
        self.begin = begin
        self.pages = pages  # how many the volume has at its begin
        self.rec_lsns = []
        self.gathers = "pages"  # then "transactions", and at last "nothing"
        self.cursor = 0  # of pages, and then the last transaction

    def redo_point(self):
        return min([self.begin, *self.rec_lsns])


class Engine:
    def __init__(self, pages, frames=MOST_FRAMES):
        self.pages = pages  # before the log
        self.count = pages  # and now
        self.frames = frames
        self.resident = {}  # the pages in memory, in the order in which they were fetched
        self.log = []
        self.forced = 0  # how many records are forced
        self.transactions = Transactions()
        self.current = {}  # the pages that were changed; all others are formatted
        self.stored = {}  # the pages that were written; all others are formatted
        self.written = {}  # by page: the LSN in the last answer to the end of a write, or to a repair
        self.changes = defaultdict(list)  # by page: the LSNs of its changes
        self.images = {}  # of the writes in progress, by page
        self.checkpoint = None
        self.master = None  # the begin, the end and the redo point of the last complete checkpoint, and its page count
        self.copies = []

    # Transactions

    def begin(self):
        if len(self.transactions.open) >= MOST_OPEN:
            raise Refusal(9)
        self.need_room(records=1, owed=2)
        number = self.transactions.begun + 1
        lsn = self.append(Record(BEGIN, number, lsn=self.end()))
        return f"began {number} at {lsn}"

    def set(self, number, page, slot, value):
        return self.change(SET, number, page, slot, value)

    def add(self, number, page, slot, value):
        return self.change(ADD, number, page, slot, value)

    def change(self, kind, number, page, slot, value):
        transaction = self.active(number)
        self.need_slot(page, slot)
        holders = [other for other in self.transactions.open if other != number and self.holds(other, page, slot, kind)]
        if holders:
            raise Refusal(5, min(holders))
        self.need_room(records=1, owed=1)
        self.bring_in(page)
        before = self.page(page).slots[slot] if kind == SET else 0
        change = Change(page, slot, kind, before, value)
        return f"lsn {self.append(Record(UPDATE, number, transaction.last, change, lsn=self.end()))}"

    def holds(self, number, page, slot, kind):
        """Whether a pending change of this transaction keeps out a change of this kind by others."""
        changes = [update.change for update in self.transactions.open[number].pending]
        return any(change.page == page and change.slot == slot and SET in (kind, change.kind) for change in changes)

    def read(self, page, slot):
        self.need_slot(page, slot)
        self.bring_in(page)
        return f"value {self.page(page).slots[slot]}"

    def commit(self, number):
        lsn = self.append(Record(COMMIT, number, self.active(number).last, lsn=self.end()))
        self.force_to(lsn)
        return f"lsn {lsn}"

    def abort(self, number):
        return f"lsn {self.append(Record(ABORT, number, self.active(number).last, lsn=self.end()))}"

    def undo(self, number):
        transaction = self.transaction(number)
        if not transaction.is_rolling:
            raise Refusal(7)
        if transaction.pending:
            self.bring_in(transaction.pending[-1].change.page)
            return f"undid {self.append(compensation(transaction, self.end()))}"
        return f"ended {self.append(ending(transaction, self.end()))}"

    def savepoint(self, number):
        return f"saved {self.active(number).last}"

    def undo_to(self, number, lsn):
        """Takes back the last change, where more of them are pending than were at this record of the transaction."""
        transaction = self.active(number)
        left = savepoint(self.log, number, lsn)
        if left is None:
            raise Refusal(42)
        if left == len(transaction.pending):
            return "reached"
        self.bring_in(transaction.pending[-1].change.page)
        return f"undid {self.append(compensation(transaction, self.end()))}"

    # The volume

    def extend(self, count):
        """The volume grows: the store first, and then the log tells it."""
        if not self.count < count <= MOST_PAGES:
            raise Refusal(43, self.count)
        self.need_room(records=1)
        self.grow_stored(count)
        lsn = self.append(Extend(count, self.end()))
        self.count = count
        return f"lsn {lsn}"

    def force(self):
        self.forced = len(self.log)
        return f"forced {lsn_of(self.forced)}"

    def bring_in(self, page):
        """Fetches a page that is not in memory: into a free frame, or that of the clean page that was fetched earliest."""
        if page in self.resident:
            return
        is_full = len(self.resident) >= self.frames
        clean = next((other for other in self.resident if self.rec_lsn(other) is None), None)
        if is_full and clean is None:
            raise Refusal(24)
        self.read_stored(page)
        if is_full:
            del self.resident[clean]
        self.resident[page] = None

    # Writes of pages

    def write_begin(self, page):
        self.need_page(page)
        if page in self.images:
            raise Refusal(11)
        if self.rec_lsn(page) is None:
            raise Refusal(10)
        image = self.page(page)
        self.force_to(image.lsn)
        self.images[page] = image
        return f"writing {image.lsn}"

    def write_end(self, page):
        self.need_page(page)
        if page not in self.images:
            raise Refusal(12)
        self.write_stored(page, self.images[page])
        self.written[page] = self.images.pop(page).lsn
        return f"written {self.written[page]}"

    def rec_lsn(self, page):
        """The LSN of the first change that no write has ended with, or None where there is none."""
        lsns = self.changes[page]
        index = bisect_right(lsns, self.written.get(page, 0))
        return lsns[index] if index < len(lsns) else None

    def dirty(self):
        """Each dirty page with its RecLSN, by page."""
        return [(page, self.rec_lsn(page)) for page in sorted(self.changes) if self.rec_lsn(page) is not None]

    # Checkpoints

    def checkpoint_begin(self):
        if self.checkpoint is not None:
            raise Refusal(13)
        self.need_room(records=1)
        self.checkpoint = Checkpoint(self.append(CheckpointRecord(BEGIN_CHKPT, lsn=self.end())), self.count)
        return f"lsn {self.checkpoint.begin}"

    def gather(self):
        checkpoint = self.open_checkpoint()
        if checkpoint.gathers == "pages":
            return self.gather_pages(checkpoint)
        past = sorted(number for number in self.transactions.open if number > checkpoint.cursor)
        if checkpoint.gathers == "nothing" or not past:
            checkpoint.gathers = "nothing"
            return "done"
        self.need_room(records=1)
        transaction = self.transactions.open[past[0]]
        self.append(CheckpointRecord(CHKPT_TXNS, checkpoint.begin, transaction=transaction.number,
                                     state=ROLLING if transaction.is_rolling else ACTIVE, last=transaction.last,
                                     undo_next=transaction.undo_next(), lsn=self.end()))
        checkpoint.cursor = transaction.number
        return "more"

    def gather_pages(self, checkpoint):
        entries = [entry for entry in self.dirty() if entry[0] >= checkpoint.cursor][:MOST_ENTRIES]
        if not entries:
            checkpoint.gathers, checkpoint.cursor = "transactions", 0
            return "more"
        self.need_room(records=1)
        self.append(CheckpointRecord(CHKPT_PAGES, checkpoint.begin, tuple(entries), lsn=self.end()))
        checkpoint.cursor = entries[-1][0] + 1
        checkpoint.rec_lsns += [rec_lsn for _, rec_lsn in entries]
        return "more"

    def checkpoint_end(self):
        checkpoint = self.open_checkpoint()
        if checkpoint.gathers != "nothing":
            raise Refusal(15)
        self.need_room(records=1)
        begin, redo = checkpoint.begin, checkpoint.redo_point()
        end = self.append(CheckpointRecord(END_CHKPT, begin, redo_point=redo, lsn=self.end()))
        self.force_to(end)
        self.checkpoint, self.master = None, (begin, end, redo, checkpoint.pages)
        return f"point {begin} {end} {redo}"

    def open_checkpoint(self):
        if self.checkpoint is None:
            raise Refusal(14)
        return self.checkpoint

    # Image copies

    def copy_full(self):
        if self.master is None:
            raise Refusal(16)
        return self.new_copy(parent=0)

    def copy_incremental(self, parent):
        return self.new_copy(self.complete_copy(parent).number)

    def new_copy(self, parent):
        if len(self.copies) >= MOST_COPIES:
            raise Refusal(25)
        begin, _, redo, pages = self.master
        self.copies.append(Copy(len(self.copies) + 1, parent, pages, begin, redo))
        return f"copy {len(self.copies)}"

    def take(self, number, page):
        copy = self.open_copy(number)
        if page >= copy.pages:
            raise Refusal(3)
        if page in copy.taken or page in copy.kept:
            raise Refusal(20)
        stored = self.read_stored(page)
        if copy.parent and stored.lsn < self.copies[copy.parent - 1].redo:
            copy.kept.add(page)
            return "kept"
        copy.taken[page] = stored
        return f"taken {stored.lsn}"

    def seal(self, number):
        copy = self.open_copy(number)
        if copy.undecided():
            raise Refusal(21, copy.undecided()[0])
        copy.is_complete = True
        return f"sealed {len(copy.taken)}"

    def drop(self, number):
        self.open_copy(number).is_dropped = True
        return "dropped"

    def repair(self, number, page):
        """Stores the page as the copies up to this one and the log give it."""
        chain = self.chain(number)
        self.need_page(page)
        if page in self.images:
            raise Refusal(11)
        changes = [record for record in self.log if is_change(record) and record.change.page == page]
        rebuilt = resume([content(chain, self.count)[page]], changes, chain[-1].redo)[0]
        if rebuilt != self.page(page):
            raise AssertionError(f"copy {number} does not give page {page}")
        self.force_to(rebuilt.lsn)
        self.write_stored(page, rebuilt)
        self.written[page] = rebuilt.lsn
        return f"repaired {rebuilt.lsn}"

    def copy(self, number):
        if not 1 <= number <= len(self.copies) or self.copies[number - 1].is_dropped:
            raise Refusal(17)
        return self.copies[number - 1]

    def open_copy(self, number):
        copy = self.copy(number)
        if copy.is_complete:
            raise Refusal(18)
        return copy

    def complete_copy(self, number):
        copy = self.copy(number)
        if not copy.is_complete:
            raise Refusal(19)
        return copy

    def complete_copies(self):
        return [copy for copy in self.copies if copy.is_complete]

    def chain(self, number):
        """The copies from the full one to this one, each the parent of the next."""
        chain = [self.complete_copy(number)]
        while chain[-1].parent:
            chain.append(self.copies[chain[-1].parent - 1])
        return chain[::-1]

    # The end

    def restore(self, number, cut=None):
        """The pages that this copy and the first `cut` records give, all of them where none is told."""
        chain = self.chain(number)
        log = self.log if cut is None else self.log[:cut]
        if len(log) < self.forced:
            raise Refusal(27, self.forced)
        return restore(chain, log, self.pages)

    def files(self):
        """What is saved, by the names of the files."""
        files = {"log": encode_log(self.log, self.pages)}
        if self.master is not None:
            files["master"] = encode_master(*self.master[:2])
        return files | {f"copy-{copy.number}": copy.encode() for copy in self.complete_copies()}

    # For the calls

    def end(self):
        return lsn_of(len(self.log))

    def append(self, record):
        self.log.append(record)
        self.transactions.note(record)
        if is_change(record):
            page = record.change.page
            self.current[page] = self.page(page).put(record)
            self.changes[page].append(record.lsn)
        return record.lsn

    def force_to(self, lsn):
        """Forces the records up to and with this one."""
        self.forced = max(self.forced, lsn // 64)

    def page(self, number):
        return self.current.get(number) or Page(number)

    # The store and the device, which fail in another engine

    def read_stored(self, number):
        return self.stored.get(number) or Page(number)

    def write_stored(self, number, page):
        self.stored[number] = page

    def grow_stored(self, count):
        """Pages that are not stored are formatted, so there is nothing to keep."""

    def transaction(self, number):
        if number not in self.transactions.open:
            raise Refusal(2)
        return self.transactions.open[number]

    def active(self, number):
        transaction = self.transaction(number)
        if transaction.is_rolling:
            raise Refusal(6)
        return transaction

    def need_page(self, page):
        if page >= self.count:
            raise Refusal(3)

    def need_slot(self, page, slot):
        self.need_page(page)
        if slot >= SLOTS:
            raise Refusal(4)

    def need_room(self, records, owed=0):
        """Asks for place for so many records more, with all that is then owed."""
        if len(self.log) + records + self.transactions.owed() + owed > MOST_RECORDS:
            raise Refusal(8)
