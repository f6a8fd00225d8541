"""The engine by its rules, on a store and a device of which one call fails: for fault_sweeps.py."""

from typing import NamedTuple

from model.engine import Engine
from model.log_format import COMMIT, Record
from model.recovery import Refusal, Transactions, redo_all, undo_records

MOST_CALLS = 2**64 - 1


class Fault(NamedTuple):
    """The call that fails, counted from 1, and whether it fails late: after what it writes was stored."""

    call: int = 0
    is_late: bool = False

    def word(self):
        return f"{self.call}l" if self.is_late else f"{self.call}"


class Damage(NamedTuple):
    """The page that cannot be read once so many calls of the store were made, until a write of it after them."""

    page: int
    calls: int

    def word(self):
        return f"{self.page}@{self.calls}"


class FaultyEngine(Engine):
    def __init__(self, pages, frames, store=Fault(), device=Fault(), damage=None):
        super().__init__(pages, frames)
        self.store_fault, self.device_fault, self.damage = store, device, damage
        self.store_calls = 0
        self.device_calls = 1  # the header
        if device.call == 1:
            raise Refusal(23)

    def store_fails(self):
        self.store_calls += 1
        return self.store_calls == self.store_fault.call

    def is_damaged(self, number):
        return self.damage is not None and self.damage.page == number and self.damage.calls <= self.store_calls

    def read_stored(self, number):
        is_damaged = self.is_damaged(number)
        if self.store_fails() or is_damaged:
            raise Refusal(22)
        return super().read_stored(number)

    def write_stored(self, number, page):
        is_damaged = self.is_damaged(number)
        fails = self.store_fails()
        if not fails or self.store_fault.is_late:
            super().write_stored(number, page)
        if fails:
            raise Refusal(22)
        if is_damaged:
            self.damage = None

    def grow_stored(self, count):
        if self.store_fails():
            raise Refusal(22)

    def force_to(self, lsn):
        """Each record is stored by one call. Those before a call that fails are forced."""
        while self.forced < lsn // 64:
            self.device_calls += 1
            if self.device_calls == self.device_fault.call:
                raise Refusal(23)
            self.forced += 1

    def force(self):
        self.force_to(64 * len(self.log))
        return super().force()

    def commit(self, number):
        lsn = self.append(Record(COMMIT, number, self.active(number).last, lsn=self.end()))
        try:
            self.force_to(lsn)
        except Refusal:
            raise Refusal(26, lsn) from None
        return f"lsn {lsn}"

    def checkpoint_end(self):
        try:
            return super().checkpoint_end()
        except Refusal as refusal:
            if refusal.number == 23:
                self.checkpoint = None
            raise

    def restores(self):
        """For each complete copy and each part of the log that a crash may leave, the lines of the pages that a restore
        has to give. They come from the log alone: all of it is redone on formatted pages, and then undone."""
        cuts = [self.lines_of_cut(cut) for cut in range(self.forced, len(self.log) + 1)]
        for copy in self.complete_copies():
            for cut, lines in enumerate(cuts, start=self.forced):
                yield f"restore {copy.number} {cut}"
                yield from lines

    def lines_of_cut(self, cut):
        log = self.log[:cut]
        undone = redo_all(log + undo_records(log), self.pages)
        if committed_numbers(log) != numbers_of(undone):
            raise AssertionError("the model's undo does not leave the committed numbers")
        return [*(f"redone {page.line()}" for page in redo_all(log, self.pages)),
                *(f"undone {page.line()}" for page in undone)]


def committed_numbers(log):
    """What the committed transactions leave, by page and slot: at each Commit the changes that are pending then."""
    numbers, transactions = {}, Transactions()
    for record in log:
        if record.kind == COMMIT:
            for update in transactions.open[record.transaction].pending:
                place = update.change.page, update.change.slot
                numbers[place] = update.change.changed(numbers.get(place, 0))
        transactions.note(record)
    return {place: number for place, number in numbers.items() if number}


def numbers_of(pages):
    return {(page.number, slot): number for page in pages for slot, number in enumerate(page.slots) if number}
