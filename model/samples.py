"""Makes the example logs and what `imgcopy redo` must answer to each, from the definitions of the formats alone.

usage: python3 -m model.samples [FOLDER]     FOLDER is the folder to write to, by default examples/

NAME.log is a log. NAME.volume is the volume that it must give, or NAME.fault the fault line that it must give. The log
of interleaved is of the first format, since logs of that are read, too. The others are of the second one.
"""

import random
import sys
from pathlib import Path

from model.log_checkpoints import (ACTIVE, BEGIN_CHKPT, CHKPT_PAGES, CHKPT_TXNS, END_CHKPT, ROLLING,
                                   CheckpointRecord)
from model.log_format import (ABORT, ADD, BEGIN, COMMIT, COMP, END, FIRST_MAGIC, MAGIC, NO_CHANGE, RECORD_SIZE, SET,
                              SLOTS, UPDATE, Change, Extend, Record, Volume, encode_header, lsn_of)


class Log:
    """A log that is written record by record, each chained to its transaction's last one."""

    def __init__(self, pages):
        self.pages = pages
        self.records = []
        self.open = {}  # each open transaction's number, and its records so far

    def begin(self, transaction):
        self.open[transaction] = []
        self.append(BEGIN, transaction)

    def update(self, transaction, change):
        self.append(UPDATE, transaction, change)

    def commit(self, transaction):
        self.append(COMMIT, transaction)
        del self.open[transaction]

    def abort(self, transaction):
        self.append(ABORT, transaction)

    def compensate(self, transaction):
        """Takes back the transaction's last change that is not taken back yet."""
        update = self.pending(transaction)[-1]
        self.append(COMP, transaction, update.change.undo(), undo_next=update.previous)

    def end(self, transaction):
        self.append(END, transaction)
        del self.open[transaction]

    def pending(self, transaction):
        updates = []
        for record in self.open[transaction]:
            if record.kind == UPDATE:
                updates.append(record)
            elif record.kind == COMP:
                updates.pop()
        return updates

    def append(self, kind, transaction, change=NO_CHANGE, undo_next=0):
        earlier = self.open[transaction]
        previous = earlier[-1].lsn if earlier else 0
        record = Record(kind, transaction, previous, change, undo_next, lsn_of(len(self.records)))
        self.records.append(record)
        earlier.append(record)

    def checkpoint(self, record):
        """Appends a record of a checkpoint with its own LSN, and that of the last BeginChkpt."""
        lsn = lsn_of(len(self.records))
        begins = [earlier.lsn for earlier in self.records if earlier.kind == BEGIN_CHKPT]
        begin = 0 if record.kind == BEGIN_CHKPT else begins[-1]
        self.records.append(record._replace(begin=begin, lsn=lsn))

    def extend(self, pages):
        """The volume has so many pages from there on. The count of the header stays."""
        self.records.append(Extend(pages, lsn_of(len(self.records))))

    def encode(self, magic=MAGIC):
        return encode_header(self.pages, magic) + b"".join(record.encode() for record in self.records)


def volume_of(log):
    volume = Volume(log.pages)
    for record in log.records:
        volume.redo(record)
    return volume.encode()


def four_records():
    log = Log(pages=1)
    log.begin(1)
    log.update(1, Change(page=0, slot=3, kind=SET, before=0, number=7))
    log.update(1, Change(page=0, slot=3, kind=ADD, before=0, number=5))
    log.commit(1)
    return log


class Draw:
    """Draws numbers by random(), the one method whose numbers stay the same in each version of Python."""

    def __init__(self, seed):
        self.random = random.Random(seed)

    def below(self, bound):
        return int(self.random.random() * bound)

    def one_of(self, choices):
        return choices[self.below(len(choices))]


def interleaved(records=5000, pages=200, most_open=40, left_open=4):
    """Many transactions at a time. All but the last few commit, and half of the changes fall on the first ten pages."""
    log, volume, draw = Log(pages), Volume(pages), Draw(seed=1)
    started = 0
    while len(log.records) < records:
        if len(log.open) < most_open and draw.below(2) == 0:
            started += 1
            log.begin(started)
        elif log.open:
            transaction = draw.one_of(list(log.open))
            change = draw_change(draw, volume)
            if draw.below(8) == 0:
                log.commit(transaction)
            elif not conflicts(log, transaction, change):
                log.update(transaction, change)
                volume.redo(log.records[-1])
    for transaction in list(log.open)[left_open:]:
        log.commit(transaction)
    return log


def draw_change(draw, volume):
    page = draw.below(draw.one_of([10, len(volume.lsns)]))
    slot = draw.below(SLOTS)
    if draw.below(2) == 0:
        return Change(page, slot, SET, before=volume.slots[page][slot], number=draw.below(1000000))
    return Change(page, slot, ADD, before=0, number=(draw.below(2000) - 1000) % 2**64)


def conflicts(log, transaction, change):
    """Open transactions may share a slot only where each of them adds to it."""
    claims = [record.change for other, records in log.open.items() if other != transaction
              for record in records if record.kind == UPDATE]
    return any((claim.page, claim.slot) == (change.page, change.slot) and SET in (claim.kind, change.kind)
               for claim in claims)


def rollback():
    """Transaction 1 takes back all that it did. Transaction 2 takes back one of three changes, and stays open."""
    log = Log(pages=2)
    log.begin(1)
    log.begin(2)
    log.update(1, Change(page=0, slot=3, kind=SET, before=0, number=7))
    log.update(2, Change(page=1, slot=61, kind=ADD, before=0, number=100))
    log.update(1, Change(page=1, slot=61, kind=ADD, before=0, number=2**64 - 30))
    log.update(1, Change(page=0, slot=3, kind=SET, before=7, number=9))
    log.abort(1)
    log.compensate(1)
    log.compensate(1)
    log.compensate(1)
    log.end(1)
    log.update(2, Change(page=0, slot=3, kind=SET, before=0, number=8))
    log.update(2, Change(page=0, slot=3, kind=ADD, before=0, number=1))
    log.compensate(2)
    return log


def checkpoint():
    """A checkpoint with four dirty pages, one without any, and one that is open, beside transactions."""
    log = Log(pages=4)
    log.begin(1)
    for page in range(4):
        log.update(1, Change(page, slot=0, kind=SET, before=0, number=1))
    log.begin(2)
    log.checkpoint(CheckpointRecord(BEGIN_CHKPT))
    log.checkpoint(CheckpointRecord(CHKPT_PAGES, entries=((0, 128), (1, 192), (2, 256))))
    log.update(2, Change(page=3, slot=1, kind=ADD, before=0, number=5))
    log.abort(1)
    log.checkpoint(CheckpointRecord(CHKPT_PAGES, entries=((3, 320),)))
    log.begin(3)
    log.compensate(1)
    log.checkpoint(CheckpointRecord(CHKPT_TXNS, transaction=1, state=ROLLING, last=832, undo_next=256))
    log.checkpoint(CheckpointRecord(CHKPT_TXNS, transaction=2, state=ACTIVE, last=576, undo_next=576))
    log.checkpoint(CheckpointRecord(END_CHKPT, redo_point=128))
    log.checkpoint(CheckpointRecord(BEGIN_CHKPT))
    log.commit(2)
    log.checkpoint(CheckpointRecord(CHKPT_TXNS, transaction=1, state=ROLLING, last=832, undo_next=256))
    log.checkpoint(CheckpointRecord(CHKPT_TXNS, transaction=3, state=ACTIVE, last=768, undo_next=768))
    log.checkpoint(CheckpointRecord(END_CHKPT, redo_point=1088))
    log.checkpoint(CheckpointRecord(BEGIN_CHKPT))
    log.commit(3)
    return log


def growth():
    """A volume of one page that grows to three behind a checkpoint, and a checkpoint whose entry is on an added page."""
    log = Log(pages=1)
    log.checkpoint(CheckpointRecord(BEGIN_CHKPT))
    log.checkpoint(CheckpointRecord(END_CHKPT, redo_point=64))
    log.extend(3)
    log.begin(1)
    log.update(1, Change(page=2, slot=0, kind=SET, before=0, number=4))
    log.commit(1)
    log.checkpoint(CheckpointRecord(BEGIN_CHKPT))
    log.checkpoint(CheckpointRecord(CHKPT_PAGES, entries=((2, 320),)))
    log.checkpoint(CheckpointRecord(END_CHKPT, redo_point=320))
    return log


def bad_chain():
    """The log of four records whose last one names another record of its transaction, and its fault line."""
    log = four_records()
    log.records[-1] = log.records[-1]._replace(previous=128)
    return log.encode(), f"E35 BadChain {log.records[-1].lsn}\n"


def torn():
    """The log of four records cut inside its last one, and the fault line that names the offset of that record."""
    length = 266
    return four_records().encode()[:length], f"E32 Torn {length - length % RECORD_SIZE}\n"


def main(folder):
    for name, log, magic in [("four_records", four_records(), MAGIC), ("interleaved", interleaved(), FIRST_MAGIC),
                             ("rollback", rollback(), MAGIC), ("checkpoint", checkpoint(), MAGIC),
                             ("growth", growth(), MAGIC)]:
        (folder / f"{name}.log").write_bytes(log.encode(magic))
        (folder / f"{name}.volume").write_bytes(volume_of(log))
    for name, (log, fault) in [("torn", torn()), ("bad_chain", bad_chain())]:
        (folder / f"{name}.log").write_bytes(log)
        (folder / f"{name}.fault").write_text(fault)


if __name__ == "__main__":
    try:
        main(Path(sys.argv[1]) if len(sys.argv) > 1 else Path(__file__).resolve().parent.parent / "examples")
    except OSError as error:
        sys.exit(f"samples.py: the examples cannot be written: {error}")
