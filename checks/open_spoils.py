"""What may befall the folder of a database while nothing has it open: for the scripts that spoil such ones."""

from checks.open_folders import Files
from model.lives import has_log
from model.log_format import HEADER_SIZE, PAGE_FORMAT, RECORD_SIZE

FIRST_OF_A_VOLUME = bytes(4) + PAGE_FORMAT.to_bytes(4, "little")


def spoil(draw, folder, unforced, counts):
    """What may befall a folder that is not open. The log with all records, also those that were never forced, has these
    bytes."""
    files = Files.of(folder)
    if files.volume is not None and draw.random() < 0.5:
        counts["volumes spoiled"] += 1
        spoil_volume(draw, folder / "volume")
    if files.copies and draw.random() < 0.35:
        number = draw.choice(sorted(files.copies))
        spoil_copy(draw, folder / f"copy-{number}", files.copies)
        counts["copies spoiled"] += 1
    if files.master is not None and draw.random() < 0.2:
        (folder / "master").write_bytes(draw.choice([b"", bytes(64), files.master[:-1], flipped(draw, files.master)]))
        counts["master records spoiled"] += 1
    if files.closed is not None and draw.random() < 0.2:
        spoil_closed(draw, folder / "closed", files.closed)
        counts["notes spoiled"] += 1
    if files.log is not None and has_log(files.log) and draw.random() < 0.6:
        way = draw.choice([torn, zeros, old_records, never_forced, never_forced, with_a_hole, spelled_behind, damaged,
                           cut_off])
        log = way(draw, files.log, unforced)
        (folder / "log").write_bytes(log)
        counts["logs spoiled"] += log != files.log


def flipped(draw, data, first=0, end=None):
    """The bytes with one bit flipped, between two places."""
    places = range(len(data))[first:end]
    return flipped_at(data, draw.choice(places), draw.randrange(8)) if places else data


def flipped_at(data, at, bit):
    return data[:at] + bytes([data[at] ^ 1 << bit]) + data[at + 1:]


def spoil_volume(draw, path):
    if draw.random() < 0.7:
        path.unlink()
    else:
        path.write_bytes(draw.choice([b"", bytes(700), FIRST_OF_A_VOLUME + draw.randbytes(draw.randint(0, 3000))]))


def spoil_closed(draw, path, note):
    way = draw.choice([None, b"", b"64", b"0\n", b"064\n", b"-64\n", b"64\n", note + b"\n", b"1" * 30 + b"\n",
                       b"%d\n" % (int(note or b"0") + 64) if note.strip().isdigit() else b"x\n"])
    if way is None:
        path.unlink()
    else:
        path.write_bytes(way)


def spoil_copy(draw, path, copies):
    data = copies[int(path.name[5:])]
    way = draw.choice(["flip", "flip", "cut", "delete", "swap", "empty", "folder"])
    if path.is_dir():
        path.rmdir()
        way = draw.choice(["delete", "swap", "empty"])
    if way == "delete":
        path.unlink(missing_ok=True)
    elif way == "folder":
        path.unlink()
        path.mkdir()
    else:
        other = copies[draw.choice(sorted(copies))] or b""
        path.write_bytes({"flip": lambda: flipped(draw, data), "cut": lambda: data[:draw.randrange(len(data) + 1)],
                          "swap": lambda: other, "empty": lambda: b""}[way]())


# The log, with what is put behind it, and with what is lost of it


def torn(draw, log, unforced):
    return log + draw.randbytes(draw.choice([1, 63, 64, 65, 200]))


def zeros(draw, log, unforced):
    return log + bytes(draw.choice([1, 63, 64, 65, 4096]))


def records_of(log):
    return [log[at:at + RECORD_SIZE] for at in range(HEADER_SIZE, len(log) - RECORD_SIZE + 1, RECORD_SIZE)]


def old_records(draw, log, unforced):
    """Records of the log itself, with LSNs that are not right there, or right ones with other bytes."""
    records = records_of(log)
    if not records:
        return log
    last = bytearray(draw.choice(records))
    if draw.random() < 0.5:
        last[-8:] = (len(log) // RECORD_SIZE * RECORD_SIZE).to_bytes(8, "little")
    return log + bytes(last) + b"".join(draw.sample(records, min(3, len(records))))


def spelled_behind(draw, log, unforced):
    """Old records, each with the LSN that is right where it stands, behind one that is none."""
    records = records_of(log)
    log = log[:len(log) // RECORD_SIZE * RECORD_SIZE] + draw.randbytes(RECORD_SIZE)
    for record in draw.sample(records, min(draw.randint(1, 6), len(records))):
        log += record[:-8] + len(log).to_bytes(8, "little")
    return log


def never_forced(draw, log, unforced):
    """Records that the engine had not forced when it was killed, and a part of the next one. They may all be stored."""
    rest = unforced[len(log):] if unforced.startswith(log) else b""
    return log + rest[:draw.randint(0, len(rest))]


def with_a_hole(draw, log, unforced):
    """The same, and one of them is lost."""
    more = bytearray(never_forced(draw, log, unforced))
    places = range(len(log), len(more) - RECORD_SIZE + 1, RECORD_SIZE)
    if places:
        at = draw.choice(places)
        more[at:at + RECORD_SIZE] = bytes(RECORD_SIZE)
    return bytes(more)


def damaged(draw, log, unforced):
    """A bit is flipped, or some bytes are zeros now: often near the end."""
    first = HEADER_SIZE if draw.random() < 0.5 else max(HEADER_SIZE, len(log) - 500)
    if len(log) <= first:
        return log
    if draw.random() < 0.5:
        return flipped(draw, log, first)
    at = draw.randrange(first, len(log))
    end = min(len(log), at + draw.choice([1, RECORD_SIZE, 512]))
    return log[:at] + bytes(end - at) + log[end:]


def cut_off(draw, log, unforced):
    """The end is lost."""
    first = HEADER_SIZE if draw.random() < 0.3 else max(HEADER_SIZE, len(log) - 200)
    return log[:draw.randint(first, len(log))]
