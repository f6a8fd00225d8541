"""A database that is opened again: whether it is, what of its log counts, which copies are taken up, and the engine
that goes on.

What a crash leaves of the log's file is read up to the first record that is torn, misspelt, or may not follow. If
something shows that the log was forced beyond that, the file is damaged, and the database is not opened. Else what is
open there is taken back by records behind it. Then the engine goes on as if every page had just been stored.
"""

import hashlib
import re
from typing import NamedTuple

from model.engine import MOST_FRAMES, Checkpoint, Engine
from model.log_checkpoints import BEGIN_CHKPT, CHKPT_PAGES, END_CHKPT
from model.log_format import (COMMIT, HEADER_SIZE, MOST_PAGES, MOST_RECORDS, PAGE_SIZE, RECORD_SIZE, History,
                              decode_record, fault_of_header, fault_of_record, is_first_format, lsn_of, page_count)
from model.recovery import (ARCHIVE, MASTER, MOST_COPIES, Copy, Refusal, Transactions, content, count_behind,
                            count_below, encode_master, images, is_change, read_archive_header, read_page, redo_all,
                            undo_records)

TORN = "they are less than a record"
BAD_RECORD = "no record begins there"
BAD_CHAIN = "the record there may not follow those before it"
TOO_LONG = "a log has no more records"
NO_FILE = "this is no regular file"
FAULTS = {TORN: "E32 Torn {}", BAD_RECORD: "E31 BadRecord {}", TOO_LONG: "E34 TooLong", BAD_CHAIN: "E35 BadChain {}",
          None: "E35 BadChain {}"}
LONGEST_LSN = 2**64 - 1


class Loss(NamedTuple):
    """What shows that a log lacks records that were forced."""

    file: str | None  # the file that knows of more, if its name is to be given to another one
    text: str


class Front(NamedTuple):
    """The longest beginning of a log's file that is a log, and why the rest is left out, or None."""

    pages: int
    records: list
    why: str | None

    def end(self):
        return lsn_of(len(self.records))

    def fault(self):
        """The line of the fault that the end is, where more was forced."""
        return FAULTS[self.why].format(self.end())


def front_of(data):
    """The front of these bytes, which begin with a header of the second format."""
    pages = page_count(data[:HEADER_SIZE])
    history, records = History(pages), []
    for at in range(HEADER_SIZE, len(data), RECORD_SIZE):
        if len(records) == MOST_RECORDS:
            return Front(pages, records, TOO_LONG)
        if len(data) - at < RECORD_SIZE:
            return Front(pages, records, TORN)
        record = decode_record(data[at:at + RECORD_SIZE])
        if fault_of_record(record, at, history.pages, is_first_format(data)):
            return Front(pages, records, BAD_RECORD)
        if history.fault(record):
            return Front(pages, records, BAD_CHAIN)
        history.take(record)
        records.append(record)
    return Front(pages, records, None)


def has_log(data):
    """Whether an engine goes on with a file of these bytes."""
    return fault_of_header(data[:HEADER_SIZE]) is None and not is_first_format(data)


def is_headless(data):
    """Whether a log's file was cut off before it had its header: no byte of it is missed."""
    return len(data) < HEADER_SIZE or not any(data)


def closed_at(note):
    """Where a log ended when its database was closed, by the note of that, or None where these bytes are no note."""
    digits = note[:-1]
    if note[-1:] != b"\n" or not digits.isdigit() or digits.startswith(b"0") or int(digits) > LONGEST_LSN:
        return None
    return int(digits)


def closed_note(end):
    return b"%d\n" % end


def master_in(data):
    """The begin and end that a master record spells, whatever log it is of, or None."""
    if len(data) != MASTER.size:
        return None
    _, begin, end = MASTER.unpack(data)
    is_spelt = data == encode_master(begin, end) and begin % 64 == 0 and end % 64 == 0 and 64 <= begin < end
    return (begin, end) if is_spelt else None


def is_master_of(data, records):
    """Whether the bytes of a master record name a complete checkpoint of this log."""
    named = master_in(data)
    if named is None or named[1] > lsn_of(len(records) - 1):
        return False
    record = records[named[1] // RECORD_SIZE - 1]
    return record.kind == END_CHKPT and record.begin == named[0]


def forced_behind(data, end):
    """The LSN of the first Commit or EndChkpt that spells itself in these bytes from the end of the front on, if one
    more record spells itself behind it: an engine forces these before it appends the next record. Else None."""
    first = None
    for at in range(end, len(data) - RECORD_SIZE + 1, RECORD_SIZE):
        record = decode_record(data[at:at + RECORD_SIZE])
        if fault_of_record(record, at, MOST_PAGES):
            continue
        if first is not None:
            return first
        if record.kind in (COMMIT, END_CHKPT):
            first = at
    return None


def log_line(manifest):
    """How many of a log's first bytes a manifest names, and their sum, or None where it names none."""
    found = re.search(rb"(?m)^# first ([0-9]+) ([0-9a-f]{64})  log$", manifest)
    return (int(found[1]), found[2].decode()) if found else None


def lines_of(manifest):
    """The name, the count of bytes and the sum of each line of a manifest."""
    found = re.findall(rb"(?m)^# (?:whole|first) ([0-9]+)[ \n]([0-9a-f]{64})  (.*)$", manifest)
    return [(name.decode(), int(count), digest.decode()) for count, digest, name in found]


def losses(data, closed, manifest, master, copies):
    """What shows that the front of a log lacks records that were forced, or has other bytes: nothing where none shows
    it. The note, the manifest and the master record may be None, as may each copy that is no file."""
    end, found = front_of(data).end(), []
    note = closed_at(closed) if closed is not None else None
    if note is not None and end < note:
        found.append(Loss(None, f"`closed` says that the log ended at {note}"))
    line = log_line(manifest) if manifest is not None else None
    if line is not None and end < line[0]:
        found.append(Loss("manifest", f"`manifest` says that the log was forced to {line[0]}"))
    elif line is not None and hashlib.sha256(data[:line[0]]).hexdigest() != line[1]:
        found.append(Loss("manifest", f"`manifest` has another sum of the bytes of the log before {line[0]}"))
    named = master_in(master) if master is not None else None
    if named is not None and end <= named[1]:
        found.append(Loss("master", f"`master` names the end of a checkpoint at {named[1]}"))
    for number, archive in sorted(copies.items()):
        found += [Loss(f"copy-{number}", text) for text in losses_by(f"`copy-{number}`", archive, end)]
    forced = forced_behind(data, end)
    if forced is not None:
        found.append(Loss(None, f"a record that was forced stands at {forced}"))
    return found


def losses_by(name, archive, end):
    """What the file of a copy knows of a log beyond its end: where the copy began, and the first page that has more."""
    try:
        copy = read_copy(archive)
    except NotTaken:
        return []
    beyond = [page for _, page in sorted(copy.taken.items()) if end <= page.lsn]
    return [f"{name} began at {copy.begin}" for _ in range(end <= copy.begin)] + \
        [f"page {page.number} of {name} has the change at {page.lsn}" for page in beyond[:1]]


def is_worth_keeping(behind):
    """Whether the bytes behind a front are put aside before they are cut off."""
    return len(behind) >= RECORD_SIZE and any(behind)


class NotTaken(Exception):
    """Why a copy is not taken up, in words."""


def read_copy(data):
    """The copy that these bytes spell. None stands for what is no file."""
    if data is None:
        raise NotTaken(NO_FILE)
    try:
        copy, taken = read_archive_header(data[:ARCHIVE.size])
    except Refusal:
        raise NotTaken("no archive begins like this") from None
    at, last = ARCHIVE.size, -1
    while at < len(data):
        if len(copy.taken) == taken:
            raise NotTaken("it has not as many pages as its header says")
        page = read_page(data[at:at + PAGE_SIZE])
        if page is None or not last < page.number < copy.pages:
            raise NotTaken(f"no page of the archive stands at {at}")
        copy.taken[page.number] = page
        at, last = at + PAGE_SIZE, page.number
    if len(copy.taken) < taken:
        raise NotTaken("it has not as many pages as its header says")
    copy.kept = {number for number in range(copy.pages) if number not in copy.taken}
    copy.is_complete = True
    return copy


class Reopened(NamedTuple):
    """What a database is that was opened again."""

    engine: Engine
    front: Front
    line: str  # the first one
    refused: dict  # by the id of a copy why it is not taken up


class NextLife(Engine):
    """An engine that does not give the ids of copies that cannot be read. Each is passed over as one that was dropped."""

    unread = frozenset()

    def new_copy(self, parent):
        while len(self.copies) + 1 in self.unread and len(self.copies) < MOST_COPIES:
            super().new_copy(parent)
            self.copies[-1].is_dropped = True
        return super().new_copy(parent)


def reopen(data, copies, frames=MOST_FRAMES):
    """What comes of this log's file and these files of copies, by their ids: None for what has a copy's name, and is no
    file."""
    front = front_of(data)
    log = [*front.records]
    open_ones = len(Transactions(log).open)
    log += undo_records(log)
    engine = resumed(front.pages, log, frames)
    refused = {}
    for number, archive in sorted(copies.items()):
        try:
            if losses_by("", archive, front.end()):
                raise NotTaken("it knows of more than the log, and is not used")
            add_copy(engine, number, archive)
        except NotTaken as why:
            refused[number] = str(why)
    unread = {number for number, archive in copies.items() if archive is None}
    # A copy behind one of these may stand on it.
    engine.unread = {number for number in copies if unread and number >= min(unread)}
    line = f"restarted: log cut at {front.end()}, {counted(open_ones, 'transaction')} taken back," \
           f" {counted(len(log), 'record')}"
    return Reopened(engine, front, line, refused)


def line_of_new(pages):
    """The first line of a database that is new."""
    return f"new: {counted(pages, 'page')}"


def counted(count, noun):
    return f"{count} {noun}" if count == 1 else f"{count} {noun}s"


def resumed(pages, log, frames):
    """An engine of a log in which no transaction is open. All of it is forced, each page is stored as the log makes it,
    and none is in memory."""
    engine = NextLife(pages, frames)
    engine.log, engine.count = log, count_behind(log, pages)
    engine.forced = len(log)
    engine.transactions = Transactions(log)
    engine.current = {page.number: page for page in redo_all(log, pages) if page.lsn}
    engine.stored = dict(engine.current)
    for record in log:
        if is_change(record):
            engine.changes[record.change.page].append(record.lsn)
            engine.written[record.change.page] = record.lsn
        elif record.kind == BEGIN_CHKPT:
            engine.checkpoint = Checkpoint(record.lsn, count_below(log, pages, record.lsn))
            # No page is dirty and no transaction open, so there is nothing more to gather.
            engine.checkpoint.gathers = "nothing"
        elif record.kind == CHKPT_PAGES:
            engine.checkpoint.rec_lsns += [rec_lsn for _, rec_lsn in record.entries]
        elif record.kind == END_CHKPT:
            engine.master = (record.begin, record.lsn, record.redo_point, engine.checkpoint.pages)
            engine.checkpoint = None
    return engine


def add_copy(engine, number, data):
    """Takes up the copy of this id, or raises why not. Ids that are passed over count as dropped."""
    copy = read_copy(data)
    if copy.number != number:
        raise NotTaken(f"it is copy {copy.number}")
    if engine.master is None or copy.begin >= engine.end() or \
            copy.pages != count_below(engine.log, engine.pages, copy.begin):
        raise NotTaken("it did not begin in this log")
    chain = [copy]
    if copy.parent:
        try:
            chain = [*engine.chain(copy.parent), copy]
        except Refusal:
            raise NotTaken("the copy that it stands on was not taken up") from None
    made = images(engine.log, engine.pages)
    for page in content(chain, len(made)):
        of_page = made[page.number]
        if page not in of_page or any(page.lsn < image.lsn < copy.redo for image in of_page):
            raise NotTaken(f"page {page.number} is not what the log made of it")
    while len(engine.copies) < number - 1:
        dropped = Copy(len(engine.copies) + 1, 0, 0, 0, 0)
        dropped.is_dropped = True
        engine.copies.append(dropped)
    engine.copies.append(copy)
