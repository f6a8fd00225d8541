"""Logs of volumes that grow, for faults.py: right ones, and the same spoiled.

Each function gives pairs of words that say what is done, and the bytes of a log.
"""

from model.log_checkpoints import BEGIN_CHKPT, CHKPT_PAGES, END_CHKPT, CheckpointRecord
from model.log_format import (ADD, BEGIN, COMMIT, EXTEND, HEADER_SIZE, MOST_PAGES, SET, UPDATE, Change, Extend, Record,
                              encode_header, lsn_of)
from model.samples import Log, growth
from model.spoiled_logs import in_first_format, log_of, turned

TURNS = (0x01, 0x02, 0x03, 0x08, 0x40, 0x80)


def growth_logs():
    """All logs of this file."""
    for make in (spoiled_growth, counts, pages_at_their_place, moved_extends, long_growth):
        yield from make()


def spoiled_growth():
    """The example of a volume that grows: its bytes turned, cut short, and in the first format, which has no Extend."""
    log = growth().encode()
    yield "growth", log
    yield "growth, in the first format", in_first_format(log)
    for at in range(len(log)):
        for turn in TURNS:
            yield f"growth: byte {at} turned by {turn}", turned(log, at, turn)
        yield f"growth: cut to {at}", log[:at]
    extend = growth().records[2].lsn
    for at in range(extend, extend + 64):
        yield f"growth: byte {at} turned, in the first format", in_first_format(turned(log, at, 0x01))


def counts():
    """An Extend to each of these counts, alone and behind another; and in logs that begin with the most pages."""
    for count in (0, 1, 2, 3, 4, 255, 256, MOST_PAGES - 1, MOST_PAGES, MOST_PAGES + 1, 2**24, 2**31, 2**32 - 1):
        for pages in (1, 2, 3, MOST_PAGES - 1, MOST_PAGES):
            yield f"{pages} pages, then {count}", log_of([Extend(count)], pages)
        for before in (2, 3, MOST_PAGES):
            yield f"1 page, then {before}, then {count}", log_of([Extend(before), Extend(count)], 1)
            yield f"1 page, then {count}, then {before}", log_of([Extend(count), Extend(before)], 1)


def pages_at_their_place():
    """A change of each of these pages before and behind an Extend, and an entry of a checkpoint with it."""
    for page in range(6):
        change = Change(page, 0, SET, before=0, number=7)
        begin, update = Record(BEGIN, 1), Record(UPDATE, 1, 64, change)
        yield f"page {page} before the volume grows", log_of([begin, update, Extend(4)], 2)
        yield f"page {page} behind it", log_of([begin, Extend(4), update], 2)
        yield f"page {page} between two growths", log_of([begin, Extend(3), update, Extend(5)], 2)
        yield f"page {page} in the first format", in_first_format(log_of([begin, update], 2))
        update = Record(UPDATE, 1, 128, change)
        unopened = Record(UPDATE, 2, 64, change)
        yield f"page {page} of a transaction that is not open", log_of([begin, Extend(4), unopened], 2)
        yield f"page {page} with the Extend as PrevLSN", log_of([begin, Extend(4), update], 2)
        for rec_lsn in (64, 128, 192):
            checkpoint = [CheckpointRecord(BEGIN_CHKPT), CheckpointRecord(CHKPT_PAGES, 256, ((page, rec_lsn),)),
                          CheckpointRecord(END_CHKPT, 256, redo_point=rec_lsn)]
            grown = [begin, Extend(4), Record(UPDATE, 1, 64, change)]
            yield f"an entry of page {page} from {rec_lsn} behind growth", log_of([*grown, *checkpoint], 2)
            yield (f"an entry of page {page} from {rec_lsn} before growth",
                   log_of([*grown[::2], Record(COMMIT, 1, 128), *checkpoint, Extend(4)], 2))


def moved_extends():
    """An Extend at each place of a log with transactions and checkpoints, which go on over it; and two of them."""
    for name, records, pages in (("growth", growth().records, 1), ("transactions", beside_transactions(), 2)):
        others = [record for record in records if record.kind != EXTEND]
        for at in range(len(others) + 1):
            for count in (pages, pages + 1, pages + 2):
                moved = [*others[:at], Extend(count), *others[at:]]
                yield f"{name}: an Extend to {count} at {lsn_of(at)}", log_of(relinked(moved), pages)
        for to in range(len(others) + 1):
            moved = [*others[:to], Extend(pages + 1), *others[to:], Extend(pages + 1 + to % 2)]
            yield f"{name}: an Extend at {lsn_of(to)} and at the end", log_of(relinked(moved), pages)


def beside_transactions():
    """Two transactions, one of which is taken back in part, and a checkpoint that is still open."""
    log = Log(pages=2)
    log.begin(1)
    log.update(1, Change(page=1, slot=61, kind=ADD, before=0, number=5))
    log.begin(2)
    log.update(2, Change(page=0, slot=0, kind=SET, before=0, number=7))
    log.checkpoint(CheckpointRecord(BEGIN_CHKPT))
    log.compensate(2)
    log.abort(2)
    log.update(1, Change(page=0, slot=0, kind=SET, before=0, number=9))
    log.end(2)
    log.checkpoint(CheckpointRecord(CHKPT_PAGES, entries=((0, 256), (1, 128))))
    log.commit(1)
    return log.records


def relinked(records):
    """The records with LSNs that are right again, also those that they name."""
    lsns = {record.lsn: lsn_of(index) for index, record in enumerate(records) if record.kind != EXTEND}
    return [relinked_record(record, lambda lsn: lsns.get(lsn, lsn)) for record in records]


def relinked_record(record, moved):
    if record.kind == EXTEND:
        return record
    if isinstance(record, Record):
        return record._replace(previous=moved(record.previous), undo_next=moved(record.undo_next))
    entries = tuple((page, moved(rec_lsn)) for page, rec_lsn in record.entries)
    return record._replace(begin=moved(record.begin), entries=entries, redo_point=moved(record.redo_point))


def long_growth():
    """A volume that grows page by page to the most that there may be, and by one more; and one that does so at once."""
    extends = [Extend(count, lsn_of(count - 2)).encode() for count in range(2, MOST_PAGES + 1)]
    log = encode_header(1) + b"".join(extends)
    yield "page by page", log
    yield "page by page, and once more", log + Extend(MOST_PAGES, len(log)).encode()
    yield "page by page, and one too many", log + Extend(MOST_PAGES + 1, len(log)).encode()
    yield "all at once", encode_header(1) + Extend(MOST_PAGES, HEADER_SIZE).encode()
