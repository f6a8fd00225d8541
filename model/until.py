"""What the program must answer of a log that counts up to the record at some LSN, that one included.

It is what the program must answer of the bytes of the log up to the end of that record. Their last complete checkpoint
stands for the master record.
"""

from model.log_checkpoints import END_CHKPT
from model.log_format import HEADER_SIZE, LONGEST_LOG, RECORD_SIZE
from model.recovery import Answer, Refusal, audit_files, encode_master, read_log, redo_file, restore_files


def front_until(log, until):
    """The bytes of the log up to the end of the record at this LSN, which has to be one of its records."""
    if until % RECORD_SIZE or not HEADER_SIZE <= until < LONGEST_LOG:
        raise Refusal(31, until)
    front = None if log is None else log[:until + RECORD_SIZE]
    _, records = read_log(front)
    if len(records) * RECORD_SIZE != until:
        raise Refusal(31, until)
    return front


def master_until(front):
    """The master record that names the last complete checkpoint of a log."""
    _, records = read_log(front)
    ends = [record for record in records if record.kind == END_CHKPT]
    if not ends:
        raise Refusal(16)
    return encode_master(ends[-1].begin, ends[-1].lsn)


def redo_until(log, until):
    return redo_file(front_until(log, until))


def restore_until(log, archives, until):
    front = front_until(log, until)
    return restore_files(front, master_until(front), archives)


def audit_until(log, archives, until):
    try:
        front = front_until(log, until)
        master_until(front)
    except Refusal as refusal:
        return Answer(refusal.status(), f"{refusal.line()}\n".encode())
    return audit_files(front, archives)
