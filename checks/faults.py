"""Spoils logs in some 29,000 ways, and compares what a program answers to each with the definitions.

usage: python3 -m checks.faults PROGRAM

spoiled_logs.py and growth_logs.py have the logs: bytes changed, logs cut, fields at their bounds, records that may not
follow those before them, and logs made one byte and one record too long. `Reader` says what each must give.
"""

import copy
import gc
import os
import shutil
import signal
import sys
import tempfile
from concurrent.futures import ProcessPoolExecutor
from functools import lru_cache
from itertools import repeat

from model import spoiled_logs
from model.growth_logs import growth_logs
from model.log_format import (ABORT, HEADER_SIZE, LONGEST_LOG, MOST_RECORDS, RECORD_SIZE, History, decode_record,
                              encode_header, fault_of_header, fault_of_record, is_first_format, page_count)
from model.recovery import fault_lines


class Fault(Exception):
    """The line that a log must give."""


class Failure(Exception):
    """What is missing or wrong, in one line."""


class Reader:
    """Reads logs by the rules. A log that begins like the one before it is read on from where that one was right."""

    def __init__(self, history=None, right=b""):
        self.history, self.right = history, right  # of the last log, as far as it is right

    def answer(self, log):
        """The status, the output and the standard error that this log must give."""
        try:
            self.read(log)
        except Fault as fault:
            return 2, b"", f"{fault}\n".encode()
        return 0, self.history.volume.encode(), b""

    def read(self, log):
        is_begun = self.history is not None and log.startswith(self.right)
        if not is_begun:
            self.history = History(read_header(log))
        is_first = is_first_format(log)
        try:
            for at in range(self.history.end, len(log), RECORD_SIZE):
                self.history.take(read_record(log[at:at + RECORD_SIZE], at, self.history, is_first))
        finally:
            if len(self.right) != self.history.end or not is_begun:
                self.right = log[:self.history.end]


def read_header(log):
    if fault_of_header(log[:HEADER_SIZE]):
        raise Fault("E30 BadHeader")
    return page_count(log[:HEADER_SIZE])


def read_record(data, at, history, is_first):
    if at >= LONGEST_LOG:
        raise Fault("E34 TooLong")
    if len(data) < RECORD_SIZE:
        raise Fault(f"E32 Torn {at}")
    return right_record(decode_record(data), at, history, is_first)


def right_record(record, at, history, is_first=False):
    if fault_of_record(record, at, history.pages, is_first):
        raise Fault(f"E31 BadRecord {at}")
    if history.fault(record):
        raise Fault(f"E35 BadChain {at}")
    return record


class Program:
    """Runs a program. What it reads and what it writes are three files, which are used again for each run."""

    def __init__(self, path):
        self.path = path
        self.files = [tempfile.TemporaryFile(buffering=0) for _ in range(3)]
        self.actions = [(os.POSIX_SPAWN_DUP2, file.fileno(), to) for to, file in enumerate(self.files)]
        self.environment = dict(os.environb)

    def answer(self, log):
        """The status, the output and the standard error that this log gives."""
        for file in self.files:
            file.seek(0)
            file.truncate()
        source, *written = self.files
        source.write(log)
        source.seek(0)
        process = os.posix_spawn(self.path, [self.path, "redo"], self.environment, file_actions=self.actions)
        _, status = os.waitpid(process, 0)
        for file in written:
            file.seek(0)
        output, error = (file.read() for file in written)
        return os.waitstatus_to_exitcode(status), output, fault_lines(error)


# Of each process that checks.
program_at = lru_cache(Program)
reader = Reader()


def check(program, name, log, wanted=None):
    """Fails unless the program answers as it must."""
    given, wanted = program_at(program).answer(log), wanted or reader.answer(log)
    if given != wanted:
        raise Failure(f"{name}: {describe(given)} in place of {describe(wanted)}")


def describe(one_answer):
    status, output, error = one_answer
    return f"status {status}, {len(output)} bytes of output and {error.decode(errors='replace').strip()!r}"


def small_logs():
    """Each small log with its name."""
    for logs in (spoiled_logs.changed_bytes, spoiled_logs.cut_logs, spoiled_logs.formats,
                 spoiled_logs.fields_at_bounds, spoiled_logs.chained_fields, spoiled_logs.moved_records,
                 spoiled_logs.compensations, spoiled_logs.two_faults, spoiled_logs.drawn_logs, spoiled_logs.checkpoints,
                 growth_logs):
        yield from logs()
    for name, log, marked in spoiled_logs.scenarios():
        wanted = reader.answer(log)
        if wanted[2].decode() != (f"E35 BadChain {marked}\n" if marked else ""):
            raise Failure(f"{name}: the rules do not find the marked fault, but {describe(wanted)}")
        yield name, log


LONGEST = {"pairs": spoiled_logs.longest_pairs, "rollback": spoiled_logs.longest_rollback}


def longest_front(name):
    """All but the last record of one of the longest logs, their history, and the last record."""
    front, history = [encode_header(1)], History(pages=1)
    for record in LONGEST[name]():
        if record.lsn == LONGEST_LOG - RECORD_SIZE:
            return b"".join(front), history, record
        history.take(right_record(record, history.end, history))
        front.append(record.encode())


def copy_of(history):
    """What deepcopy gives, which takes a second for a million LSNs."""
    changed = history.checkpoints.changed
    return copy.deepcopy(history, {id(changed): changed.copy()})


def check_longest(program, name):
    """Checks one of the longest logs with other ends, and gives their count. All but the end is read only once."""
    front, history, record = longest_front(name)
    last = record.encode()
    unchained = record._replace(transaction=MOST_RECORDS).encode()
    ends = {
        "": last,
        " and one byte": last + b"\0",
        " and one record": last + last,
        " without its last byte": last[:-1],
        " with a misspelt last record, and one byte": last[:-1] + b"\1\0",
        " with an unchained last record, and one byte": unchained + b"\0",
        " with a misspelt and unchained last record": unchained[:-1] + b"\1",
        " with an Abort at its end": record._replace(kind=ABORT).encode(),
    }
    for words, end in ends.items():
        log = front + end
        check(program, f"the longest log of {name}{words}", log, Reader(copy_of(history), front).answer(log))
    return len(ends)


def compare(program):
    """How many answers were compared."""
    names, logs = zip(*small_logs())
    with ProcessPoolExecutor(os.cpu_count()) as pool:
        longest = [pool.submit(check_longest, program, name) for name in LONGEST]
        for _ in pool.map(check, repeat(program), names, logs, chunksize=50):
            pass
        return len(logs) + sum(one.result() for one in longest)


def main(arguments):
    gc.disable()  # it would look through a million records time and again, and there are few cycles
    try:
        if len(arguments) != 1:
            raise Failure("one argument is wanted, the program to check")
        signal.signal(signal.SIGTERM, lambda *_: sys.exit("faults.py: ended by a signal"))
        program = shutil.which(arguments[0])
        if program is None:
            raise Failure(f"there is no program {arguments[0]}")
        count = compare(os.path.abspath(program))
    except (Failure, OSError) as failure:
        sys.exit(f"faults.py: {failure}")
    print(f"ok faults: {count} answers are as defined")


if __name__ == "__main__":
    main(sys.argv[1:])
