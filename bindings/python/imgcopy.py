"""Checks logs of imgcopy, redoes them, finds where a crash has left one, recovers a database, and audits image copies.

    import imgcopy
    log = open("day/log", "rb").read()
    volume = imgcopy.redo(log)
    imgcopy.audit(log, [open("day/copy-1", "rb").read()])

The calls are proved, and made by libimgcopy.so.0; include/imgcopy.h says what each of them answers. The library is that
of the variable IMGCOPY_LIBRARY, or else libimgcopy.so.0 where the system looks. A call that does not do what it is for
raises a Fault, whose text is the line that imgcopy prints. This module needs no other than those of Python, from 3.8 on.
"""

import ctypes
import os
from typing import NamedTuple, Optional

ABI = 1
PAGE_BYTES = 512
MAX_PAGES = 65_536
TOO_SHORT, LENGTHS_DIFFER = 1000, 1001

# The name of each fault, and how many numbers follow it.
NAMES = {1: ("OutOfMemory", 0), 8: ("LogFull", 0), 30: ("BadHeader", 0), 31: ("BadRecord", 1), 32: ("Torn", 1), 33: ("ReadFault", 0),
         34: ("TooLong", 0), 35: ("BadChain", 1), 36: ("BadArchive", 1), 37: ("ChainBroken", 1), 38: ("CountDiffers", 0),
         39: ("RedoBeyondLog", 0), 40: ("PageBeyondLog", 1), 41: ("Unsound", 2)}


class Fault(Exception):
    """Why a call does not do what it is for: `code` is its number, and `numbers` are those behind it."""

    def __init__(self, code, *numbers):
        name, count = NAMES.get(code, ("", 2))
        self.code, self.numbers = code, numbers[:count]
        super().__init__(" ".join(filter(None, [f"E{code}", name, *map(str, self.numbers)])))



class LogCounts(NamedTuple):
    """The pages of a log's volume, its records, and the LSN behind the last one, which is its length in bytes."""

    pages: int
    records: int
    end: int


class LogPrefix(NamedTuple):
    """The longest front of some bytes that is a log.

    `end` is the offset at which it ends, `fault` what check_log says of the bytes behind it, or None if there are none.
    `forced_behind` is the LSN of the first record behind it that was forced, or None. If there is one, records are lost
    that no crash takes: such a log is not to be cut.
    """

    end: int
    fault: Optional[Fault]
    forced_behind: Optional[int]


class Recovered(NamedTuple):
    """What a recovery makes of a log.

    Each slot of `volume` has what was committed. Behind the log `tail` makes a log in which no transaction is open.
    """

    volume: bytes
    tail: bytes


class _Outcome(ctypes.Structure):
    _fields_ = [("code", ctypes.c_uint32), ("first", ctypes.c_uint64), ("second", ctypes.c_uint64),
                ("third", ctypes.c_uint64)]


def _load(path):
    library = ctypes.CDLL(path)
    library.imgcopy_abi.restype = ctypes.c_uint32
    if library.imgcopy_abi() != ABI:
        raise ImportError(f"{path} has version {library.imgcopy_abi()} of the calls, and this module is for {ABI}")
    data, size, room, sizes = ctypes.c_char_p, ctypes.c_size_t, ctypes.c_void_p, ctypes.POINTER(ctypes.c_size_t)
    for call, types in ((library.imgcopy_check_log, [data, size]), (library.imgcopy_log_prefix, [data, size]),
                        (library.imgcopy_redo, [data, size, room, size]),
                        (library.imgcopy_recover, [data, size, room, size, room, size]),
                        (library.imgcopy_audit, [data, size, data, size, sizes, size])):
        call.argtypes, call.restype = types, _Outcome
    return library


_library = _load(os.environ.get("IMGCOPY_LIBRARY", "libimgcopy.so.0"))


def _told(outcome):
    if outcome.code:
        raise Fault(outcome.code, outcome.first, outcome.second)
    return outcome


def check_log(log):
    """Checks whether the bytes are a whole log."""
    told = _told(_library.imgcopy_check_log(log, len(log)))
    return LogCounts(told.first, told.second, told.third)


def redo(log):
    """The volume of a log: the bytes of its pages, in the order of their numbers."""
    pages = int.from_bytes(log[8:12], "little")
    needed = PAGE_BYTES * (pages if pages <= MAX_PAGES else 0)
    while True:
        room = ctypes.create_string_buffer(max(needed, 1))
        told = _library.imgcopy_redo(log, len(log), room, needed)
        if told.code != TOO_SHORT:
            return room.raw[:_told(told).first]
        needed = told.first


def log_prefix(log):
    """Finds where the bytes of a log are to be cut that a crash has left."""
    told = _told(_library.imgcopy_log_prefix(log, len(log)))
    fault = Fault(told.second, told.first) if told.second else None
    return LogPrefix(told.first, fault, told.third or None)


def recover(log):
    """Recovers a database from its whole log, as a restart does. First cut the log where log_prefix says."""
    of_volume, of_tail = 0, 0
    while True:
        volume, tail = (ctypes.create_string_buffer(max(length, 1)) for length in (of_volume, of_tail))
        told = _library.imgcopy_recover(log, len(log), volume, of_volume, tail, of_tail)
        if told.code != TOO_SHORT:
            _told(told)
            return Recovered(volume.raw[:told.first], tail.raw[:told.second])
        of_volume, of_tail = told.first, told.second


def audit(log, archives):
    """Audits the archives of a chain of image copies, the full copy first, against a log."""
    lengths = (ctypes.c_size_t * max(len(archives), 1))(*map(len, archives))
    joined = b"".join(archives)
    _told(_library.imgcopy_audit(log, len(log), joined, len(joined), lengths, len(archives)))
