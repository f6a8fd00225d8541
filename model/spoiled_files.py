"""The files that a restore is given, spoiled: for answers.py.

A `Given` has the names of the log, of the master and of the archives in their order, and the bytes of each name. Each
function below spoils one. What a spoiled one must answer is for the model to tell; some still restore.
"""

from model.log_checkpoints import MOST_ENTRIES
from model.log_format import (ADD, HEADER_SIZE, PAGE_SIZE, RECORD_SIZE, SET, decode_record, lsn_of)
from model.recovery import ARCHIVE, encode_master

BYTES = [0, 1, 2, 3, 4, 7, 8, 10, 61, 62, 64, 128, 192, 255]


class Given:
    def __init__(self, files, chain):
        self.files = dict(files)
        self.log, self.master = "log", "master"
        self.archives = [f"copy-{copy.number}" for copy in chain]
        self.done = []  # the names of the functions that spoiled it

    def words(self):
        return [self.log, self.master, *self.archives]

    def audit_words(self):
        return [self.log, *self.archives]

    def contents(self):
        """The bytes of the log, of the master and of the archives. None is a file that cannot be read."""
        log, master, *archives = (self.files.get(name) for name in self.words())
        return log, master, archives

    def data(self, name):
        return self.files.get(name, b"")

    def put(self, name, data):
        """Other bytes of a file that is there."""
        if name in self.files:
            self.files[name] = data

    def changed(self, files):
        """The files whose bytes are not those of these files."""
        return {name: data for name, data in self.files.items() if files.get(name) != data}


def below(draw, bound):
    return draw.below(max(bound, 1))


def any_name(draw, given):
    return draw.one_of([*given.words(), given.log, *given.archives])


def any_archive(draw, given):
    return draw.one_of(given.archives) if given.archives else given.master


def place_in(draw, data):
    """An offset, one of three times in the first 64 bytes and one in the last 64."""
    near = draw.one_of([0, max(len(data) - 64, 0), below(draw, len(data))])
    return min(near + draw.below(64), len(data) - 1)


def one_byte(draw, given):
    name = any_name(draw, given)
    data = bytearray(given.data(name))
    if data:
        at = place_in(draw, data)
        data[at] = draw.one_of([*BYTES, data[at] ^ 1 << draw.below(8)])
        given.put(name, bytes(data))


def cut(draw, given):
    name = any_name(draw, given)
    data = given.data(name)
    step = draw.one_of([1, 64, 512])
    start = 64 if step == 512 else 0
    given.put(name, data[:start + below(draw, len(data)) // step * step])


def lost_tail(draw, given):
    """The log, shorter by whole records."""
    data = given.data(given.log)
    given.put(given.log, data[:len(data) - RECORD_SIZE * draw.below(1 + len(data) // RECORD_SIZE)])


def more(draw, given):
    name = any_name(draw, given)
    data = given.data(name)
    given.put(name, data + draw.one_of([b"\0", b"\1", data[-64:], data[-512:], bytes(64), bytes(512), data]))


def other_order(draw, given):
    archives = given.archives
    at = below(draw, len(archives))
    copies = [name for name in given.files if name.startswith("copy-")] or archives
    given.archives = draw.one_of([
        archives[::-1], archives[1:], archives[:at] + archives[at + 1:], archives[:at + 1] + archives[at:],
        archives[at:] + archives[:at], archives + archives[:1], archives + [draw.one_of([*copies, given.master])],
        archives[:at] + [draw.one_of([*copies, given.log])] + archives[at + 1:], []])


def no_file(draw, given):
    which = draw.below(2 + len(given.archives))
    name = draw.one_of(["missing", "missing/log", "."])
    if which == 0:
        given.log = name
    elif which == 1:
        given.master = name
    else:
        given.archives[which - 2] = name


def empty(draw, given):
    given.put(any_name(draw, given), b"")


def with_field(draw, data, at, size, values):
    """The bytes with one of these values as the number at this offset, one of 32 times with any bit changed."""
    if at + size > len(data):
        return data
    old = int.from_bytes(data[at:at + size], "little")
    value = draw.one_of([*values, old + 1, old - 1]) if draw.below(32) else old ^ 1 << draw.below(8 * size)
    return data[:at] + (value % 2**(8 * size)).to_bytes(size, "little") + data[at + size:]


def archive_header(draw, given):
    name = any_archive(draw, given)
    data = given.data(name)
    end = len(given.data(given.log))
    lsns = [0, 64, 96, 128, 64 * (1 + below(draw, end // 64)), end, end + 64, *(64 * draw.below(30) for _ in range(3))]
    at, size, values = draw.one_of([
        (8, 4, [0, 1, 2, 65536, 65537]), (12, 4, [0, 1, 2, 3, 1024, 1025]), (16, 1, [0, 1, 2, 3]),
        (20, 4, [0, 1, 2, 3, 1023]), (24, 8, lsns), (24, 8, lsns), (32, 8, lsns), (32, 8, lsns), (32, 8, lsns),
        (32, 8, lsns), (40, 4, [0, 1, 2, 3])])
    given.put(name, with_field(draw, data, at, size, values))


def archive_page(draw, given):
    name = any_archive(draw, given)
    data = given.data(name)
    pages = (len(data) - ARCHIVE.size) // PAGE_SIZE
    start = ARCHIVE.size + PAGE_SIZE * below(draw, pages)
    end = len(given.data(given.log))
    lsns = [0, 1, 32, 64, end, end + 64, *(64 * below(draw, end // 64) for _ in range(6))]
    slot = 16 + 8 * draw.one_of([0, 0, 1, 3, 61, draw.below(62)])
    at, size, values = draw.one_of([
        (0, 4, [0, 1, 2, 65535, 65536]), (4, 4, [0, 1, 2]), (8, 8, lsns), (8, 8, lsns), (8, 8, lsns), (8, 8, lsns),
        (slot, 8, [0, 1, 2**64 - 1, draw.below(100)]), (slot, 8, [5, 6])])
    given.put(name, with_field(draw, data, start + at, size, values))


def other_format(draw, given):
    """The log or an archive that says it is of the first format, which it then is, or of one that there is not."""
    name = draw.one_of([given.log, *given.archives])
    given.put(name, with_field(draw, given.data(name), 7, 1, [*b"1110123"]))


def master_field(draw, given):
    """Another begin and end, most of the time those of records of the log."""
    data = given.data(given.master)
    end = len(given.data(given.log))
    lsns = [0, 32, 64, 128, end, *(64 * below(draw, end // 64) for _ in range(5))]
    given.put(given.master, with_field(draw, data, draw.one_of([8, 16]), 8, lsns))


def other_master(draw, given):
    """That of a checkpoint of this log, or of two records that are none."""
    data = given.data(given.log)
    lsns = range(HEADER_SIZE, len(data), RECORD_SIZE)
    begins = [lsn for lsn in lsns if data[lsn] == 7] or [64]
    ends = [lsn for lsn in lsns if data[lsn] == 10] or [128]
    begin = draw.one_of(begins)
    later = [end for end in ends if end > begin] or [begin + 64]
    end = later[0] if draw.below(2) else draw.one_of(later + ends)
    given.put(given.master, encode_master(begin, end))


def record_field(draw, given):
    """A record of the log with another field, which is spelt all the same most of the time."""
    data = given.data(given.log)
    count = len(data) // RECORD_SIZE - 1
    if count < 1:
        return
    index = draw.below(count)
    at = lsn_of(index)
    lsns = [64, at, at + 64, *(64 * (1 + draw.below(count)) for _ in range(5))]
    transaction = draw.one_of([0, 1, 2, draw.below(9)])
    offset, size, values = draw.one_of([
        (0, 1, range(12)), (4, 4, [transaction]), (8, 8, lsns), (16, 8, lsns), (24, 4, [0, 1, 2, 65535]),
        (28, 2, [0, 1, 61, 62]), (30, 1, [SET, ADD, 0, 3]), (32, 8, [0, 1, 5]), (40, 8, [0, 1, 5]), (56, 8, lsns),
        (16, 4, range(1 + MOST_ENTRIES)), (20, 4, [0, 1, 2]), (24, 8, lsns), (28, 8, lsns), (36, 8, lsns)])
    given.put(given.log, with_field(draw, data, at + offset, size, list(values)))


def moved_record(draw, given):
    """A record of the log left out, doubled, or moved, with LSNs of its own that are right again."""
    data = given.data(given.log)
    records = [data[at:at + RECORD_SIZE] for at in range(HEADER_SIZE, len(data) - RECORD_SIZE + 1, RECORD_SIZE)]
    if not records:
        return
    at, to = draw.below(len(records)), draw.below(len(records))
    record = records.pop(at)
    records[to:to] = draw.one_of([[], [record], [record, record]])
    renumbered = [decode_record(record)._replace(lsn=lsn_of(index)) for index, record in enumerate(records)]
    given.put(given.log, data[:HEADER_SIZE] + b"".join(record.encode() for record in renumbered))


def of_another_run(draw, given, others):
    name = any_name(draw, given)
    given.put(name, others.get(name) or others[draw.one_of(sorted(others))])


WAYS = [one_byte, one_byte, cut, lost_tail, lost_tail, more, other_order, other_order, no_file, empty, archive_header,
        archive_header, archive_header, archive_page, archive_page, archive_page, other_format,
        master_field, other_master, other_master, record_field, record_field, moved_record]


def spoil(draw, given, others):
    """Spoils what is given in one way, or in two or three."""
    for _ in range(draw.one_of([1, 1, 1, 2, 3])):
        if draw.below(12) == 0:
            of_another_run(draw, given, others)
            given.done.append("of_another_run")
        else:
            way = draw.one_of(WAYS)
            way(draw, given)
            given.done.append(way.__name__)


def mislead(draw, given):
    """Changes one number of an archive so that everything still spells: a redo point, the LSN of a page, or a slot."""
    name = any_archive(draw, given)
    data = bytearray(given.data(name))
    end = len(given.data(given.log))
    pages = (len(data) - ARCHIVE.size) // PAGE_SIZE
    which = draw.below(4 if pages else 2)
    start = ARCHIVE.size + PAGE_SIZE * below(draw, pages)
    lsn = 64 * (1 + below(draw, end // 64 - 1))
    if which == 0:
        begin = int.from_bytes(data[24:32], "little")
        data[32:40] = min(lsn, begin).to_bytes(8, "little")
    elif which == 1:
        data[24:40] = 2 * lsn.to_bytes(8, "little")
    elif which == 2:
        data[start + 8:start + 16] = draw.one_of([0, lsn, lsn]).to_bytes(8, "little")
    else:
        slot = start + 16 + 8 * draw.one_of([0, 0, 1, draw.below(62)])
        number = int.from_bytes(data[slot:slot + 8], "little")
        data[slot:slot + 8] = draw.one_of([number ^ 1, 0, 5, 2**64 - 1]).to_bytes(8, "little")
    given.put(name, bytes(data))
    given.done.append("mislead")
