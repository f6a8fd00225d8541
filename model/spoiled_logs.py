"""The logs of faults.py: right ones, and the same spoiled in thousands of ways.

Each function gives pairs of words that say what is done, and the bytes of a log.
"""

import re
from collections import Counter, defaultdict

from model import log_checkpoints
from model.log_checkpoints import CheckpointRecord
from model.log_format import (ABORT, ADD, BEGIN, COMMIT, COMP, END, FIRST_MAGIC, HEADER_SIZE, KINDS, LONGEST_LOG, MAGIC,
                              MOST_OPEN, MOST_PAGES, MOST_RECORDS, NO_CHANGE, RECORD_SIZE, SET, UPDATE, Change, History,
                              Record, encode_header, lsn_of)
from model.samples import Draw, Log, checkpoint, rollback

PAGES = 2
SLOTS_OF_STEPS = {"a": (0, 0), "b": (0, 61), "c": (1, 0)}
ENDS = {"commit": COMMIT, "abort": ABORT, "end": END}

# What a Comp takes back where there is nothing to take back.
NO_UPDATE = Record(UPDATE, 0, HEADER_SIZE, Change(page=0, slot=0, kind=SET, before=0, number=1))


class Steps:
    """The records of steps, each with the LSNs and numbers that it should have, whether or not it may come there.

    A step such as `set12a` has its word, the number of its transaction and, for `set` and `add`, a slot.
    """

    def __init__(self, steps=""):
        self.records = []
        self.last = {}  # the LSN of each transaction's last record
        self.pending = defaultdict(list)
        self.numbers = Counter()  # in the slots
        for step in steps.split():
            self.append(self.record_of(step))

    def record_of(self, step):
        word, transaction, slot = re.fullmatch(r"([a-z]+?)(\d+)([abc]?)", step).groups()
        lsn, transaction = lsn_of(len(self.records)), int(transaction)
        if word == "begin":
            return Record(BEGIN, transaction, lsn=lsn)
        previous = self.last.get(transaction, HEADER_SIZE)
        if word == "comp":
            undone = self.pending[transaction][-1] if self.pending[transaction] else NO_UPDATE
            return Record(COMP, transaction, previous, undone.change.undo(), undone.previous, lsn)
        if word in ENDS:
            return Record(ENDS[word], transaction, previous, lsn=lsn)
        page, slot = SLOTS_OF_STEPS[slot]
        kind, before = (ADD, 0) if word == "add" else (SET, self.numbers[page, slot])
        return Record(UPDATE, transaction, previous, Change(page, slot, kind, before, number=lsn), lsn=lsn)

    def append(self, record):
        pending, place = self.pending[record.transaction], record.change[:2]
        if record.kind == UPDATE:
            pending.append(record)
        elif record.kind == COMP and pending:
            pending.pop()
        if KINDS[record.kind].has_change:
            self.numbers[place] = record.change.changed(self.numbers[place])
        self.last[record.transaction] = record.lsn
        self.records.append(record)


def begins(count):
    return " ".join(f"begin{number}" for number in range(1, count + 1))


# The first Update of these records is the one whose fields are set to bounds.
RECORDS = [
    Record(BEGIN, 1, lsn=64),
    Record(BEGIN, 2, lsn=128),
    Record(UPDATE, 1, previous=64, lsn=192, change=Change(page=1, slot=3, kind=SET, before=0, number=7)),
    Record(UPDATE, 2, previous=128, lsn=256, change=Change(page=0, slot=61, kind=ADD, before=0, number=2**64 - 5)),
    Record(COMMIT, 1, previous=192, lsn=320),
    Record(UPDATE, 2, previous=256, lsn=384, change=Change(page=1, slot=3, kind=SET, before=7, number=9)),
    Record(COMMIT, 2, previous=384, lsn=448),
]
SPOILED = 2

# Transaction 1 goes back twice and goes on each time, and transaction 2 aborts behind a step that it took back.
PARTIAL = Steps("begin1 begin2 set1a add1b add2c comp1 set1b comp1 add1b add2c comp2 set1a abort2 comp1 comp2"
                " end2").records

BASES = {
    "two transactions": RECORDS,
    "rollback": rollback().records,
    "partial rollbacks": PARTIAL,
    "shared slot": Steps("begin1 begin2 add1a add2a add1a comp1 add2a comp1 end1 set2a commit2").records,
    "crowded": Steps(f"{begins(MOST_OPEN)} commit7 begin65 end2 begin66").records,
}
SMALL = {name: records for name, records in BASES.items() if name != "crowded"}

# Each line is a log. The steps before ! are right, and the one behind it may not come there.
SCENARIOS = """
    begin1 begin2 begin3
    !begin2
    begin1 !begin1
    begin1 !begin3
    begin1 commit1 begin2 commit2
    begin1 commit1 !begin1
    begin1 end1 !begin1
    begin1 begin2 commit1 !begin2
    begin1 begin2 commit2 !begin4
    begin1 !set2a
    begin1 !add2a
    begin1 !comp2
    begin1 !commit2
    begin1 !abort2
    begin1 !end2
    begin1 commit1 !set1a
    begin1 commit1 !commit1
    begin1 commit1 !abort1
    begin1 commit1 !end1
    begin1 set1a commit1 !comp1
    begin1 end1 !add1a
    begin1 end1 !commit1
    begin1 end1 !abort1
    begin1 end1 !end1
    begin1 end1 !comp1
    begin1 abort1 end1 !end1
    begin1 end1
    begin1 abort1 end1
    begin1 set1a comp1 end1
    begin1 set1a abort1 comp1 end1
    begin1 set1a add1a set1a set1b abort1 comp1 comp1 comp1 comp1 end1
    begin1 set1a add1a set1a set1b comp1 comp1 comp1 comp1 end1
    begin1 abort1 !set1a
    begin1 abort1 !add1a
    begin1 abort1 !commit1
    begin1 abort1 !abort1
    begin1 abort1 !comp1
    begin1 set1a abort1 !set1a
    begin1 set1a abort1 !commit1
    begin1 set1a abort1 !abort1
    begin1 set1a abort1 comp1 !commit1
    begin1 set1a abort1 comp1 !abort1
    begin1 set1a comp1 set1a
    begin1 set1a comp1 add1b commit1
    begin1 set1a comp1 commit1
    begin1 set1a comp1 abort1 end1
    begin1 set1a comp1 abort1 !abort1
    begin1 set1a comp1 abort1 !set1a
    begin1 set1a comp1 abort1 !commit1
    begin1 set1a comp1 abort1 !comp1
    begin1 set1a comp1 !comp1
    begin1 set1a comp1 set1a comp1 !comp1
    begin1 set1a add1b comp1 set1b comp1 comp1 !comp1
    begin1 set1a add1b comp1 set1b comp1 add1c abort1 comp1 comp1 end1
    begin1 set1a add1b comp1 set1b abort1 comp1 comp1 !comp1
    begin1 set1a add1b comp1 set1b abort1 comp1 !set1a
    begin1 set1a add1b comp1 set1b abort1 comp1 !end1
    begin1 set1a add1b comp1 set1b !end1
    begin1 begin2 set1a set1b comp1 set2b commit1 set2a commit2
    begin1 begin2 set1a set1b comp1 !set2a
    begin1 begin2 set1a comp1 set2a !set1a
    begin1 begin2 set1a comp1 set2a comp2 set1a commit1 end2
    begin1 !comp1
    begin1 set1a !end1
    begin1 add1a abort1 !end1
    begin1 set1a add1b comp1 !end1
    begin1 set1a add1a abort1 comp1 comp1 !comp1
    begin1 begin2 set1a set2b !set1b
    begin1 begin2 set1a set2b set2c add1a set2b commit1 set2a commit2
    begin1 begin2 set1a !set2a
    begin1 begin2 set1a !add2a
    begin1 begin2 add1a !set2a
    begin1 begin2 add1a add2a add1a add2a commit1 commit2
    begin1 begin2 add1a add2a !set1a
    begin1 begin2 add1a add2a !set2a
    begin1 begin2 add1a add2a comp2 set1a
    begin1 begin2 add1a set1a !add2a
    begin1 begin2 set1a add1a !add2a
    begin1 begin2 set2a !set1a
    begin1 begin2 set1a commit1 set2a
    begin1 begin2 set1a commit1 add2a
    begin1 begin2 add1a commit1 set2a
    begin1 begin2 add1a add1a commit1 set2a
    begin1 begin2 set1a comp1 set2a
    begin1 begin2 set1a comp1 add2a
    begin1 begin2 add1a comp1 set2a
    begin1 begin2 set1a abort1 comp1 end1 set2a comp2 end2
    begin1 begin2 set1a abort1 !set2a
    begin1 begin2 set1a abort1 !add2a
    begin1 begin2 add1a abort1 !set2a
    begin1 begin2 add1a abort1 add2a comp1 end1 set2a
    begin1 begin2 set1a set1a comp1 !set2a
    begin1 begin2 set1a set1a comp1 !add2a
    begin1 begin2 set1a set1a comp1 comp1 set2a
    begin1 begin2 add1a add1a comp1 !set2a
    begin1 begin2 add1a add1a comp1 comp1 set2a
    begin1 begin2 set1a add1a comp1 !add2a
    begin1 begin2 add1a set1a comp1 add2a
    begin1 begin2 add1a set1a comp1 !set2a
    begin1 begin2 add1a add2a add1a comp1 !set2a
    begin1 begin2 add1a add2a add2a comp2 !set1a
    begin1 begin2 add1a add2a add1a comp1 comp1 set2a
    begin1 begin2 add1a add2a add1a commit1 set2a
    begin1 begin2 begin3 add1a add2a add2a comp2 commit1 !set3a
    begin1 begin2 begin3 add1a add2a commit1 !set3a
    begin1 begin2 begin3 add1a add2a commit2 !set3a
    begin1 begin2 begin3 add1a add2a commit2 commit1 set3a
    begin1 begin2 begin3 add1a add2a comp1 !set3a
    begin1 begin2 begin3 add1a add2a comp1 comp2 set3a
    begin1 begin2 begin3 add1a add2a add3a comp2 !set1a
    begin1 begin2 begin3 set1a commit1 set2a !set3a
    begin1 begin2 begin3 set1a comp1 add2a add3a end1 commit3 set2a
    begin1 begin2 add1a add2a comp1 end1 set2a comp2 comp2 end2 begin3 set3a
"""


def log_of(records, pages=PAGES):
    return encode_header(pages) + b"".join(record._replace(lsn=lsn_of(index)).encode()
                                           for index, record in enumerate(records))


def with_fields(records, index, **fields):
    """The log with these fields in the record at this index."""
    return log_of([*records[:index], records[index]._replace(**fields), *records[index + 1:]])


def with_change(records, index, **fields):
    return with_fields(records, index, change=records[index].change._replace(**fields))


def changed_bytes():
    log = log_of(RECORDS)
    for at in range(len(log)):
        for turn in (0x01, 0x02, 0x40, 0x80):
            yield f"byte {at} turned by {turn}", turned(log, at, turn)
    for name in ("rollback", "shared slot", "crowded"):
        log = log_of(BASES[name])
        for at in range(len(log)):
            is_lsn = at % RECORD_SIZE in range(8, 24)
            yield f"{name}: byte {at} turned", turned(log, at, 0x40 if is_lsn else 0x01)


def turned(log, at, turn):
    return log[:at] + bytes([log[at] ^ turn]) + log[at + 1:]


def cut_logs():
    log = log_of(RECORDS)
    spoiled = turned(log, 200, 0x41)
    for length in range(len(log)):
        yield f"cut to {length}", log[:length]
        yield f"spoiled at 200 and cut to {length}", spoiled[:length]


def formats():
    """Right logs of the first format, one of them cut and turned, and one with each character in the place of 2."""
    for name, records in BASES.items():
        yield f"{name}, in the first format", in_first_format(log_of(records))
    yield "checkpoint, in the first format", in_first_format(checkpoint().encode())
    log = in_first_format(log_of(RECORDS))
    for length in range(len(log)):
        yield f"cut to {length}, in the first format", log[:length]
    for at in range(len(log)):
        yield f"byte {at} turned, in the first format", turned(log, at, 0x40)
    for character in range(256):
        yield f"{character} names the format", log[:FORMAT_AT] + bytes([character]) + log[FORMAT_AT + 1:]


FORMAT_AT = len(MAGIC) - 1


def in_first_format(log):
    """The same log with the beginning of one of the first format."""
    return FIRST_MAGIC + log[len(FIRST_MAGIC):]


def fields_at_bounds():
    for pages in (0, 1, 2, MOST_PAGES, MOST_PAGES + 1, 2**32 - 1):
        yield f"{pages} pages", log_of(RECORDS, pages)
    for kind in range(256):
        yield f"kind {kind}", with_fields(RECORDS, SPOILED, kind=kind)
        yield f"kind {kind} with no change", with_fields(RECORDS, SPOILED, kind=kind, change=NO_CHANGE)
    for lsn in (0, 1, 32, 63, 64, 65, 128, 191, 192, 256, 2**32 + 64, 2**63, 2**64 - 64):
        for kind in (BEGIN, UPDATE, COMP, COMMIT, ABORT, END):
            change = RECORDS[SPOILED].change._replace(before=0) if KINDS[kind].has_change else NO_CHANGE
            fields = {"kind": kind, "change": change}
            yield f"kind {kind} after {lsn}", with_fields(RECORDS, SPOILED, previous=lsn, **fields)
            yield f"kind {kind}, then {lsn}", with_fields(RECORDS, SPOILED, undo_next=lsn, **fields)
    for slot in (0, 60, 61, 62, 63, 255, 256, 2**16 - 1):
        yield f"slot {slot}", with_change(RECORDS, SPOILED, slot=slot)
    for page in (0, 1, 2, 255, 2**16, 2**32 - 1):
        yield f"page {page}", with_change(RECORDS, SPOILED, page=page)
    for kind in (0, 1, 2, 3, 255):
        for before in (0, 1, 2**64 - 1):
            yield (f"change {kind} before {before}",
                   with_change(RECORDS, SPOILED, kind=kind, before=before, number=2**64 - 1))
    for transaction in (0, 1, 2**32 - 1):
        yield f"transaction {transaction}", with_fields(RECORDS, SPOILED, transaction=transaction)


def chained_fields():
    """Each field of a chain, and each of a change, set to what other records have."""
    for name, records in SMALL.items():
        for index, record in enumerate(records):
            place = f"{name}: record {index} with"
            for lsn in (lsn_of(before) for before in range(index)):
                yield f"{place} PrevLSN {lsn}", with_fields(records, index, previous=lsn)
                if record.kind == COMP:
                    yield f"{place} UndoNxtLSN {lsn}", with_fields(records, index, undo_next=lsn)
            for transaction in range(1, 5):
                yield f"{place} transaction {transaction}", with_fields(records, index, transaction=transaction)
            for kind in KINDS:
                yield f"{place} kind {kind}", with_fields(records, index, kind=kind)
            if KINDS[record.kind].has_change:
                for fields in other_changes(record.change):
                    yield f"{place} {fields}", with_change(records, index, **fields)


def other_changes(change):
    yield {"page": 1 - change.page}
    yield {"slot": (change.slot + 1) % 62}
    yield {"kind": SET + ADD - change.kind}
    for number in (0, (change.number + 1) % 2**64, change.number ^ 1 << 63, -change.number % 2**64):
        yield {"number": number}
    for before in ((change.before + 1) % 2**64, change.number, change.before ^ 1 << 63):
        yield {"before": before}


def moved_records():
    """Each record left out, written twice, and after the next one; and the end left out, which is right."""
    for name, records in SMALL.items():
        for index in range(len(records)):
            front, here, behind = records[:index], records[index:index + 1], records[index + 1:]
            moves = {"left out": front + behind, "twice": front + here + here + behind,
                     "after the next": front + behind[:1] + here + behind[1:], "the last": front + here}
            for move, moved in moves.items():
                yield f"{name}: record {index} {move}", log_of(moved)
                yield f"{name}: record {index} {move}, and chained", log_of(chained(moved))


def chained(records):
    """The records with the LSNs that they have now."""
    last, lsns, result = {}, {}, []
    for index, record in enumerate(records):
        previous = 0 if record.kind == BEGIN else last.get(record.transaction, HEADER_SIZE)
        undo_next = lsns.get(record.undo_next, record.undo_next)
        last[record.transaction] = lsns[record.lsn] = lsn_of(index)
        result.append(record._replace(previous=previous, undo_next=undo_next))
    return result


def compensations():
    """A Comp of the last of three changes, right and with other fields; and Comps of Adds."""
    records = Steps("begin1 set1a set1a add1c comp1").records
    _, first, second, third, comp = records
    for fields in (
        {},
        {"change": first.change.undo(), "undo_next": first.previous},
        {"change": second.change.undo(), "undo_next": second.previous},
        {"change": second.change.undo()},
        {"change": third.change},
        {"undo_next": comp.previous},
        {"undo_next": first.previous},
    ):
        yield f"a Comp with {fields}", with_fields(records, 4, **fields)
    yield from comps_behind_comps()
    for amount in (0, 1, 2**63, 2**63 + 1, 2**64 - 1):
        for number in (-amount % 2**64, amount, -amount % 2**64 ^ 1):
            yield f"add {amount} taken back by {number}", log_of([
                records[0], third._replace(previous=64, change=third.change._replace(number=amount)),
                comp._replace(previous=128, undo_next=64, change=comp.change._replace(number=number))])


def comps_behind_comps():
    """A last Comp behind changes that were taken back already: right, and with the fields of each change before it."""
    records = Steps("begin1 set1a set1a add1c comp1 add1b comp1 comp1").records
    last = len(records) - 1
    yield "a Comp behind two others", log_of(records)
    for update in records[1:last]:
        if update.kind == UPDATE:
            change = update.change.undo()
            yield (f"the change at {update.lsn} taken back by the last Comp",
                   with_fields(records, last, change=change, undo_next=update.previous))
            yield f"the last Comp with the change at {update.lsn}", with_fields(records, last, change=change)
    for before in range(last):
        yield f"the last Comp with UndoNxtLSN {lsn_of(before)}", with_fields(records, last, undo_next=lsn_of(before))


def two_faults():
    """A fault of a chain at each record: with a misspelt record in the same log, at each place, and in a torn log."""
    records = BASES["rollback"]
    for chain in range(len(records)):
        unchained = with_fields(records, chain, transaction=9)
        yield f"no chain at record {chain}, and torn", unchained[:-1]
        for spelling in range(len(records)):
            yield (f"no chain at record {chain}, record {spelling} misspelt",
                   turned(unchained, lsn_of(spelling) + 48, 1))


def drawn_logs(count=700, steps=40):
    """Logs of steps that are drawn. The last step may not come where it stands."""
    draw = Draw(seed=2)
    for index in range(count):
        log, history = Steps(), History(PAGES)
        for _ in range(steps):
            record = log.record_of(drawn_step(draw, history.begun))
            fault = history.fault(record)
            if fault is None:
                log.append(record)
                history.take(record)
            elif draw.below(20) == 0:
                log.append(record)
                break
        yield f"drawn log {index}", log_of(log.records)


def drawn_step(draw, begun):
    if begun == 0 or draw.below(8) == 0:
        return f"begin{begun + 1 + draw.below(20) // 19}"
    transaction = max(1, begun - draw.below(4))
    word = draw.one_of(["set", "add", "add", "comp", "comp", "commit", "abort", "end"])
    return f"{word}{transaction}{draw.one_of('aaabc') if word in ('set', 'add') else ''}"


def checkpoints():
    """A log with checkpoints: its bytes turned, its fields set to what other records have, and its records moved. The
    fields and the places also of a log with partial rollbacks."""
    made = checkpoint()
    log = made.encode()
    for at in range(HEADER_SIZE, len(log)):
        for turn in (0x01, 0x02, 0x03, 0x40, 0x80, 0xc0):
            yield f"checkpoint: byte {at} turned by {turn}", turned(log, at, turn)
    yield from with_other_checkpoints("checkpoint", made)
    yield from with_other_checkpoints("checkpoint beside partial rollbacks", partial_checkpoint())


def partial_checkpoint():
    """A checkpoint that meets transactions with Comps: 1 and 2 are active, 3 rolls back, and 4 has nothing pending."""
    log = Log(pages=2)
    for number in (1, 2, 3, 4):
        log.begin(number)
    for slot, number in enumerate((1, 1, 2, 2, 3, 3, 4)):
        log.update(number, Change(page=slot % 2, slot=slot, kind=ADD, before=0, number=slot))
    log.compensate(1)
    log.compensate(2)
    log.update(2, Change(page=1, slot=9, kind=SET, before=0, number=9))
    log.checkpoint(CheckpointRecord(log_checkpoints.BEGIN_CHKPT))
    log.compensate(3)
    log.abort(3)
    log.compensate(4)
    for number in (1, 2, 3, 4):
        last, pending = log.open[number][-1], log.pending(number)
        log.checkpoint(CheckpointRecord(
            log_checkpoints.CHKPT_TXNS, transaction=number, last=last.lsn,
            state=log_checkpoints.ROLLING if number == 3 else log_checkpoints.ACTIVE,
            undo_next=pending[-1].lsn if pending else log.open[number][0].lsn))
        log.compensate(1) if number == 1 else None
    begin = next(record.lsn for record in log.records if record.kind == log_checkpoints.BEGIN_CHKPT)
    log.checkpoint(CheckpointRecord(log_checkpoints.END_CHKPT, redo_point=begin))
    log.update(1, Change(page=0, slot=0, kind=ADD, before=0, number=1))
    log.commit(2)
    return log


def with_other_checkpoints(name, made):
    records, pages = made.records, made.pages
    yield name, made.encode()
    for index, record in enumerate(records):
        if record.kind in log_checkpoints.NAMES:
            for fields in other_fields(record):
                yield (f"{name}: record {index} with {fields}",
                       log_of([*records[:index], record._replace(**fields), *records[index + 1:]], pages))
        front, here, behind = records[:index], records[index:index + 1], records[index + 1:]
        moves = {"left out": front + behind, "twice": front + here + here + behind,
                 "after the next": front + behind[:1] + here + behind[1:], "the last": front + here}
        for move, moved in moves.items():
            yield f"{name}: record {index} {move}", log_of(moved, pages)


def other_fields(record):
    for field in ("begin", "last", "undo_next", "redo_point"):
        for lsn in range(0, record.lsn + 1, RECORD_SIZE):
            yield {field: lsn}
    for transaction in range(5):
        yield {"transaction": transaction}
    for state in range(4):
        yield {"state": state}
    for rec_lsn in range(0, record.lsn + 1, RECORD_SIZE):
        for index, (page, _) in enumerate(record.entries):
            yield {"entries": (*record.entries[:index], (page, rec_lsn), *record.entries[index + 1:])}
    for entries in (((3, 320),), ((0, 128), (3, 320)), ((3, 320), (0, 128)), ((0, 128), (0, 128)), ((4, 320),)):
        yield {"entries": entries}


def scenarios():
    """The logs of SCENARIOS and others with many transactions, each with the offset of its marked record, or None."""
    everyone = begins(MOST_OPEN)
    crowds = [everyone, f"{everyone} !begin65", f"{everyone} commit9 begin65 !begin66", f"{everyone} end64 begin65",
              f"{everyone} abort3 !begin65", f"{everyone} set3a comp3 !begin65", f"{everyone} set3a comp3 end3 begin65",
              f"{everyone} commit1 !begin1", f"{everyone} commit1 !begin66",
              f"{everyone} {' '.join(f'add{number}a' for number in range(1, 65))} !set64a"]
    for line in [*SCENARIOS.strip().splitlines(), *crowds]:
        steps = line.split()
        marked = [lsn_of(index) for index, step in enumerate(steps) if step.startswith("!")]
        yield line.strip(), log_of(Steps(line.replace("!", "")).records), marked[0] if marked else None


def longest_pairs():
    """As many records as a log may have: transactions that begin and commit."""
    for begin in range(HEADER_SIZE, LONGEST_LOG, 2 * RECORD_SIZE):
        transaction = 1 + begin // (2 * RECORD_SIZE)
        yield Record(BEGIN, transaction, lsn=begin)
        yield Record(COMMIT, transaction, begin, lsn=begin + RECORD_SIZE)


def longest_rollback():
    """As many records as a log may have: one transaction, half of whose records take back the other half."""
    yield Record(BEGIN, 1, lsn=HEADER_SIZE)
    number, updates = 0, []
    for index in range(1, MOST_RECORDS // 2):
        lsn = lsn_of(index)
        change = Change(0, 0, ADD, 0, lsn) if index % 2 else Change(0, 0, SET, number, lsn)
        number = change.changed(number)
        updates.append(Record(UPDATE, 1, lsn - RECORD_SIZE, change, lsn=lsn))
        yield updates[-1]
    for index in range(MOST_RECORDS // 2, MOST_RECORDS - 1):
        update, lsn = updates.pop(), lsn_of(index)
        yield Record(COMP, 1, lsn - RECORD_SIZE, update.change.undo(), update.previous, lsn)
    yield Record(END, 1, LONGEST_LOG - 2 * RECORD_SIZE, lsn=LONGEST_LOG - RECORD_SIZE)
