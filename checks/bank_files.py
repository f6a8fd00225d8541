"""What the folder of a bank on files has to hold, however the bank was ended: for the other scripts.

A folder has what the bank left of `log`, `master` and `copy-N`, and the bank has told lines on standard output. A log
is read up to the first record that is torn, misspelt, or may not follow: its front. Everything that a line told has to
be in the front and in the files. What the accounts then have is known by the model from the front alone; the audits
and restores of the program for files have to agree with it, from each copy, and from the log alone.
"""

import os
import shutil
import subprocess
from bisect import bisect_left
from collections import Counter
from typing import NamedTuple

from checks.bank import Draws
from model.log_checkpoints import ACTIVE, BEGIN_CHKPT, CHKPT_TXNS, END_CHKPT, ROLLING, CheckpointRecord
from model.log_format import (ADD, BEGIN, COMMIT, HEADER_SIZE, PAGE_SIZE, RECORD_SIZE, SET, UPDATE, History,
                              decode_page, decode_record, fault_of_header, fault_of_record, is_first_format, lsn_of,
                              page_count)
from model.recovery import (ARCHIVE, ARCHIVE_MAGIC, FULL, Page, Refusal, count_below, encode_master,
                            read_archive_header, read_master, read_page)

SECONDS_OF_A_RUN = 60
PAGES, ACCOUNT_PAGES, ACCOUNTS_OF_PAGE = 12, 8, 8
ACCOUNTS = ACCOUNT_PAGES * ACCOUNTS_OF_PAGE
OPENING = 100_000
RESERVES = range(ACCOUNT_PAGES, PAGES)
BAD_HEADER, BAD_RECORD, TORN, BAD_CHAIN = "E30 BadHeader", "E31 BadRecord", "E32 Torn", "E35 BadChain"


class Failure(Exception):
    """What differs, in one line."""


def place_of(account):
    return account // ACCOUNTS_OF_PAGE, account % ACCOUNTS_OF_PAGE


class Front(NamedTuple):
    """The longest beginning of some bytes that is a linked log: its records, where they end, and what they leave."""

    pages: int  # before the first record
    records: list
    end: int
    slots: list  # of each page, once the open transactions are taken back
    open: dict  # of each open transaction whether it rolls back, its last record, and its UndoNxtLSN
    checkpoint: tuple | None  # of an open one the begin, the redo point so far, and the last transaction that it has
    why: str | None = None  # why no more follow: None where the bytes are all read

    def fault(self):
        """The line that a reader of all the bytes has to answer, or None."""
        return f"{self.why} {self.end}" if self.why and self.end else self.why

    def record_at(self, lsn):
        """The record that has this LSN, or None."""
        is_place = lsn % RECORD_SIZE == 0 and HEADER_SIZE <= lsn < self.end
        return self.records[lsn // RECORD_SIZE - 1] if is_place else None

    def balances(self):
        return [self.slots[page][slot] for page, slot in map(place_of, range(ACCOUNTS))]

    def first_checkpoint(self):
        """The begin and the end of the first complete checkpoint, or None."""
        return next(((record.begin, record.lsn) for record in self.records if record.kind == END_CHKPT), None)


NO_LOG = Front(0, [], 0, [], {}, None, BAD_HEADER)


def read_front(data):
    if fault_of_header(data[:HEADER_SIZE]):
        return NO_LOG
    history, records, why = History(page_count(data[:HEADER_SIZE])), [], None
    for at in range(HEADER_SIZE, len(data), RECORD_SIZE):
        record, why = next_record(history, data, at)
        if why:
            break
        history.take(record)
        records.append(record)
    return front_of(page_count(data[:HEADER_SIZE]), history, records, why)


def next_record(history, data, at):
    """The record that stands there, or why none does that may follow."""
    if len(data) - at < RECORD_SIZE:
        return None, TORN
    record = decode_record(data[at:at + RECORD_SIZE])
    if fault_of_record(record, at, history.pages, is_first_format(data)):
        return None, BAD_RECORD
    return record, BAD_CHAIN if history.fault(record) else None


def front_of(pages, history, records, why=None):
    open_ones = {number: (open_one.is_rolling, open_one.last_lsn, undo_next(open_one))
                 for number, open_one in history.open.items()}
    return Front(pages, records, history.end, committed(history), open_ones, open_checkpoint(history.checkpoints), why)


def open_checkpoint(checkpoints):
    if checkpoints.begin is None:
        return None
    redo = min([checkpoints.begin, *(rec_lsn for _, rec_lsn in checkpoints.entries)])
    return checkpoints.begin, redo, max([0, *checkpoints.transactions])


class KnownLog:
    """A log that was read once, with what each of its beginnings leaves. So the fronts of many are found soon."""

    def __init__(self, data):
        pages, self.records = page_count(data[:HEADER_SIZE]), []
        history = History(pages)
        self.data, self.fronts = data, [front_of(pages, history, [])]
        for at in range(HEADER_SIZE, len(data), RECORD_SIZE):
            record, why = next_record(history, data, at)
            if why:
                raise Failure(f"the log of a whole day: {why} {at}")
            history.take(record)
            self.records.append(record)
            self.fronts.append(front_of(pages, history, []))

    def front(self, data):
        """The front of other bytes, most of which begin as the known ones do."""
        count = bisect_left(range(len(self.fronts)), True, key=lambda count: not self.has(data, count + 1))
        if not self.has(data, count):
            return read_front(data)
        front = self.fronts[count]._replace(records=self.records[:count])
        rest = data[front.end:front.end + RECORD_SIZE]
        if len(rest) < RECORD_SIZE:
            return front._replace(why=TORN if rest else None)
        pages = count_below(front.records, front.pages, front.end)
        if fault_of_record(decode_record(rest), front.end, pages, is_first_format(data)):
            return front._replace(why=BAD_RECORD)
        return read_front(data)

    def has(self, data, count):
        """Whether the bytes begin with so many of the known records."""
        end = lsn_of(count)
        return count < len(self.fronts) and len(data) >= end and data[:end] == self.data[:end]


def undo_next(open_one):
    return open_one.pending[-1].lsn if open_one.pending else open_one.first_lsn


def committed(history):
    """The slots of each page once the open transactions are taken back, the last change first."""
    slots = [list(numbers) for numbers in history.volume.slots]
    pending = [update for open_one in history.open.values() for update in open_one.pending]
    for update in sorted(pending, key=lambda update: update.lsn, reverse=True):
        change = update.change.undo()
        slots[change.page][change.slot] = change.changed(slots[change.page][change.slot])
    return slots


class Told(NamedTuple):
    """The lines of standard output that are whole, by what they tell."""

    opened: list
    committed: list
    checkpoints: list
    copies: dict  # by the number of a copy: its parent, and 0 where it is full
    repaired: list
    closed: bool


def read_lines(output):
    """A line that has no end yet is none."""
    told = Told([], [], [], {}, [], False)
    for line in output.decode(errors="replace").split("\n")[:-1]:
        word, *rest = line.split(" ")
        numbers = [int(number) for number in rest if number.isdigit()]
        if told.closed:
            raise Failure(f"the line {line!r} comes behind the end")
        if (word, len(numbers), len(rest)) == ("opened", 1, 1) and not told.opened:
            told.opened.append(numbers[0])
        elif (word, len(numbers), len(rest)) == ("committed", 4, 4) and told.opened:
            told.committed.append(numbers)
        elif (word, len(numbers), len(rest)) == ("checkpoint", 3, 3):
            told.checkpoints.append(numbers)
        elif word == "copy" and (rest[1:] == ["full"] or rest[1:2] == ["on"]) and len(numbers) == len(rest) - 1:
            told.copies[numbers[0]] = ([*numbers[1:], 0])[0]
        elif (word, len(numbers), len(rest)) == ("repaired", 2, 2):
            told.repaired.append(numbers)
        elif line == "closed":
            told = told._replace(closed=True)
        else:
            raise Failure(f"the line {line!r} is none that a bank tells, or comes too early")
    return told


def check_told(front, told):
    """Every commit that was told is in the front, and made just these changes; so is every checkpoint."""
    for lsn in told.opened:
        wanted = {(place_of(account), SET, OPENING): 1 for account in range(ACCOUNTS)}
        wanted |= {((page, 0), SET, OPENING): 1 for page in RESERVES}
        check_commit(front, f"opened {lsn}", lsn, wanted)
    for lsn, source, target, amount in told.committed:
        wanted = Counter([(place_of(source), ADD, -amount % 2**64), (place_of(target), ADD, amount)])
        check_commit(front, f"committed {lsn} {source} {target} {amount}", lsn, wanted)
    lsns = [*told.opened, *(lsn for lsn, *_ in told.committed)]
    if len(set(lsns)) < len(lsns):
        raise Failure("an LSN was told twice")
    for begin, end, redo in told.checkpoints:
        record = front.record_at(end)
        if record is None or (record.kind, record.begin, record.redo_point) != (END_CHKPT, begin, redo):
            raise Failure(f"checkpoint {begin} {end} {redo} was told, and the front of {front.end} bytes has it not")


def check_commit(front, line, lsn, wanted):
    record = front.record_at(lsn)
    if record is None or record.kind != COMMIT:
        raise Failure(f"{line} was told, and the front of {front.end} bytes has no such commit")
    made, transaction = Counter(), record.transaction
    record = front.record_at(record.previous)
    while record.kind == UPDATE and record.transaction == transaction:
        made[(record.change.page, record.change.slot), record.change.kind, record.change.number] += 1
        record = front.record_at(record.previous)
    if record.kind != BEGIN or made != wanted:
        raise Failure(f"{line} was told, and the transaction that is committed there made other changes")


def check_day(output, seed, tellers, transfers):
    """A day that was closed has told each transfer that was drawn, and was not taken back, once; and none else."""
    told = read_lines(output)
    rows = [Draws(seed, row) for row in range(tellers)]
    drawn = [draws.transfer() for draws in rows for _ in range(transfers)]
    wanted = Counter((source, target, amount) for source, target, amount, is_taken_back in drawn if not is_taken_back)
    if not told.closed or not told.opened or Counter(map(tuple, (rest for _, *rest in told.committed))) != wanted:
        raise Failure(f"seed {seed}: a day was closed, and the transfers that were told are not those that were drawn")


def check_unsure(front, told, tellers):
    """Each teller may have made one commit of which it was not told yet."""
    commits = {record.lsn for record in front.records if record.kind == COMMIT}
    unsure = commits - {*told.opened, *(lsn for lsn, *_ in told.committed)}
    if len(unsure) > max(1, tellers):
        raise Failure(f"{len(unsure)} commits are in the log and were not told, with {tellers} tellers")


def check_sum(front):
    """No money was made or lost: the accounts have nothing, or what was opened."""
    total = sum(front.balances()) if front.slots else 0
    if total not in (0, ACCOUNTS * OPENING):
        raise Failure(f"the committed accounts of the front have {total}")
    if total and any(front.slots[page][0] != OPENING for page in RESERVES):
        raise Failure("a reserve was changed")


def check_master(front, master, told):
    """The master record, if there is one, names a checkpoint of the front, and none older than one that was told."""
    if master is None:
        if told.checkpoints:
            raise Failure("a checkpoint was told, and there is no master record")
        return
    try:
        _, end = read_master(master, front.records)
    except Refusal as refusal:
        raise Failure(f"the master record: {refusal.line()}") from refusal
    newest = max([0, *(end for _, end, _ in told.checkpoints)])
    if end < newest:
        raise Failure(f"the master record names the checkpoint at {end}, and one at {newest} was told")


def chains_of(front, copies, told):
    """Of the files of copies, by their numbers, the chain up to each of them. All are whole."""
    checkpoints = {(record.begin, record.redo_point) for record in front.records if record.kind == END_CHKPT}
    parents = {}
    for number, data in sorted(copies.items()):
        try:
            copy, taken = read_archive_header(data[:ARCHIVE.size])
        except Refusal as refusal:
            raise Failure(f"copy-{number} has no header: {refusal.line()}") from refusal
        pages = [data[at:at + PAGE_SIZE] for at in range(ARCHIVE.size, len(data), PAGE_SIZE)]
        if copy.number != number or len(pages) != taken or None in map(read_page, pages):
            raise Failure(f"copy-{number} is not whole: of {taken} pages it has {len(data)} bytes")
        if (copy.begin, copy.redo) not in checkpoints:
            raise Failure(f"copy-{number} noted a checkpoint at {copy.begin} with redo point {copy.redo}, and the front"
                          " has no such one")
        if copy.pages != count_below(front.records, front.pages, copy.begin):
            raise Failure(f"copy-{number} has {copy.pages} pages")
        parents[number] = copy.parent
    for number, parent in told.copies.items():
        if parents.get(number, -1) != parent:
            raise Failure(f"copy {number} was told, and there is no such file")
    chains = {}
    for number, parent in sorted(parents.items()):
        if parent and parent not in chains:
            raise Failure(f"copy-{number} is there without copy-{parent}, on which it was made")
        chains[number] = [*chains.get(parent, []), number]
    return chains


def longest_chains(chains):
    """Those that are not the beginning of another one, the newest last."""
    inner = {number for chain in chains.values() for number in chain[:-1]}
    return [chain for number, chain in sorted(chains.items()) if number not in inner]


def with_checkpoint(front, log):
    """The front's bytes, and the begin and the end of a checkpoint in it: its first one, or else one that is added, or
    the open one, which is ended."""
    checkpoint = front.first_checkpoint()
    if checkpoint:
        return log, checkpoint
    begin, redo, last_one = front.checkpoint or (front.end, front.end, 0)
    records = [] if front.checkpoint else [CheckpointRecord(BEGIN_CHKPT)]
    records += [CheckpointRecord(CHKPT_TXNS, begin, transaction=number, state=ROLLING if is_rolling else ACTIVE,
                                 last=last, undo_next=next_one)
                for number, (is_rolling, last, next_one) in sorted(front.open.items()) if number > last_one]
    records.append(CheckpointRecord(END_CHKPT, begin, redo_point=redo))
    added = [record._replace(lsn=front.end + RECORD_SIZE * index) for index, record in enumerate(records)]
    return log + b"".join(record.encode() for record in added), (begin, added[-1].lsn)


def formatted_copy(front, begin):
    """The archive of a full copy that took every page as it was before the log, and so needs all of it."""
    pages = count_below(front.records, front.pages, begin)
    header = ARCHIVE.pack(ARCHIVE_MAGIC, pages, 1, FULL, 0, begin, lsn_of(0), pages)
    return header + b"".join(Page(number).encode() for number in range(pages))


class Judge:
    """Has the program for files audit and restore what was left. It counts what it did."""

    def __init__(self, imgcopy, scratch):
        self.imgcopy, self.scratch = imgcopy, scratch
        self.made = Counter()

    def put(self, files):
        for name, data in files.items():
            (self.scratch / name).write_bytes(data)

    def run(self, *words):
        self.made[words[0]] += 1
        return subprocess.run([self.imgcopy, *words], cwd=self.scratch, capture_output=True, timeout=SECONDS_OF_A_RUN)

    def audit(self, chain):
        """The chain is sound for the log in the scratch folder."""
        done = self.run("audit", "log", *chain)
        if (done.returncode, done.stdout, done.stderr) != (0, b"sound\n", b""):
            raise Failure(f"audit log {' '.join(chain)}: status {done.returncode}, {done.stdout[:80]!r},"
                          f" {done.stderr[:200]!r}")

    def restore(self, chain, slots):
        """The chain and the log give these slots, and no others."""
        done, name = self.run("restore", "--no-manifest", "log", "master", *chain), f"restore log master {' '.join(chain)}"
        if done.returncode != 0 or done.stderr:
            raise Failure(f"{name}: status {done.returncode}, {done.stderr[:200]!r}")
        pages = [decode_page(done.stdout[at:at + PAGE_SIZE]) for at in range(0, len(done.stdout), PAGE_SIZE)]
        if [number for number, _, _ in pages] != list(range(len(slots))):
            raise Failure(f"{name}: it gives {len(done.stdout)} bytes")
        for number, _, given in pages:
            if given != slots[number]:
                raise Failure(f"{name}: page {number} has other numbers than the log committed")

    def check_cut(self, data, front):
        """A reader of the log as it was left names the place where it has to be cut."""
        self.put({"log": data})
        done = self.run("audit", "log")
        if (done.returncode, done.stdout.decode()) != (2, f"{front.fault()}\n"):
            raise Failure(f"the log as it was left: {front.fault()} is wanted, and audit says {done.stdout[:80]!r}")

    def check_log_alone(self, log, front):
        """Every page is made from the log."""
        whole, checkpoint = with_checkpoint(front, log)
        copy = formatted_copy(front, checkpoint[0])
        self.put({"log": whole, "master": encode_master(*checkpoint), "formatted": copy})
        self.audit(["formatted"])
        self.restore(["formatted"], front.slots)


class Left(NamedTuple):
    """What is left of a bank's folder, as bytes, and None for what is not there."""

    log: bytes
    master: bytes
    copies: dict


def read_folder(folder):
    def data_of(name):
        path = folder / name
        return path.read_bytes() if path.exists() else None
    copies = {int(path.name[5:]): path.read_bytes() for path in folder.glob("copy-*") if path.name[5:].isdigit()}
    return Left(data_of("log"), data_of("master"), copies)


def left_of(files):
    """The same of files that are given by their names."""
    copies = {int(name[5:]): data for name, data in files.items() if name.startswith("copy-") and name[5:].isdigit()}
    return Left(files.get("log"), files.get("master"), copies)


def check_left(left, told, front=None):
    """Looks at the files without the program for files, and gives the front and the chain up to each copy."""
    front = front or read_front(left.log or b"")
    check_told(front, told)
    check_sum(front)
    check_master(front, left.master, told)
    return front, chains_of(front, left.copies, told)


class OldDay(NamedTuple):
    """What an older day left in the folder, and told."""

    left: Left
    output: bytes


def is_of(old, left, output):
    """Whether the log that is left is still that of an older day, or still lost, and the newer day has told nothing. As
    long as that is so, nothing else is of the newer one, and what the older one committed is in its log; its copies are
    removed first."""
    if old is None or left.log != old.left.log or b"\n" in output:
        return False
    is_newer = any(old.left.copies.get(number) != data for number, data in left.copies.items())
    if is_newer or left.master not in (None, old.left.master):
        raise Failure("a newer file is there without a log of a newer day")
    if left.log:
        check_left(Left(left.log, None, {}), read_lines(old.output)._replace(copies={}, checkpoints=[]))
    return True


def own_master(left, front):
    """The master record, or one that names the first checkpoint of the front where none was put in its place yet."""
    checkpoint = front.first_checkpoint()
    return left.master or checkpoint and encode_master(*checkpoint)


def check_restores(judge, left, front, chains, draw, seen):
    """Has the newest chain audited and restored, and one of the older ones, or the log alone; but nothing twice."""
    def is_new(*key):
        is_seen = key in seen
        seen.add(key)
        return not is_seen
    log = left.log[:front.end]
    if front.why and is_new(left.log):
        judge.check_cut(left.log, front)
    names = {number: [f"copy-{other}" for other in chain] for number, chain in chains.items()}
    master = own_master(left, front)
    judge.put({"log": log, "master": master or b""} | {f"copy-{number}": data for number, data in left.copies.items()})
    if chains:
        newest, older = max(chains), draw.choice(sorted(chains))
        if is_new(log, master, newest):
            judge.audit(names[newest])
            judge.restore(names[newest], front.slots)
        if is_new(log, master, older):
            judge.audit(names[older])
            judge.restore(names[older], front.slots)
    if (not chains or draw.random() < 0.25) and is_new(log):
        judge.check_log_alone(log, front)


def check_all(judge, left, output):
    """All that can be asked of a folder: each longest chain is sound, each chain restores, and the log alone does."""
    front, chains = check_left(left, read_lines(output))
    log, master = (left.log or b"")[:front.end], own_master(left, front)
    if front.end < len(left.log or b""):
        judge.check_cut(left.log, front)
    if front.records:
        judge.check_log_alone(log, front)
    judge.put({"log": log, "master": master or b""} | {f"copy-{number}": data for number, data in left.copies.items()})
    for chain in longest_chains(chains):
        judge.audit([f"copy-{number}" for number in chain])
    for chain in chains.values():
        judge.restore([f"copy-{number}" for number in chain], front.slots)
    return front, chains


def memory_place():
    """A folder in memory, where there is one: there a sync takes no time, and a bank does more."""
    return "/dev/shm" if os.access("/dev/shm", os.W_OK) else None


def program_of(name):
    found = shutil.which(name)
    if found is None:
        raise Failure(f"there is no program {name}")
    return os.path.abspath(found)
