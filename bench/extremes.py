#!/usr/bin/env python3
"""Measures imgcopy on inputs of legal size that are chosen to cost much, and prints a Markdown table.

usage: extremes.py --imgcopy PROGRAM --tools FOLDER [--rounds N]

FOLDER holds the built programs of src/bin. README.md says what each input is.
"""

import datetime
import os
import struct
import sys
import tempfile
from itertools import count, cycle
from pathlib import Path
from typing import NamedTuple

from run import LONGEST_SCRIPT, MEGABYTE, Failure, find_folder, find_program, parse, run

MOST_RECORDS, MOST_PAGES, MOST_COPIES = 1_048_576, 65_536, 1_024
CHECKPOINT = ["ckpt", "gather", "gather", "gather", "endckpt"]
RECORD = struct.Struct("<B3xIQQIHBxQQ8xQ")
CHECKPOINT_END = struct.Struct("<B7xQQQ24xQ")


class Extreme(NamedTuple):
    """An input, with what makes its files in a folder and answers the words of the command and its standard input."""

    name: str
    prepare: object


def script(folder, lines, pages, *options):
    """A script of as many of these lines as may be read."""
    size = 0
    with open(folder / "script", "w") as file:
        for line in lines:
            size += len(line) + 1
            if size > LONGEST_SCRIPT:
                break
            file.write(line + "\n")
    return ["run", "--pages", str(pages), *options], folder / "script"


def repairs_of_one_page(folder, tools):
    """A page is changed by the first half of the script, and repaired by the other."""
    def lines():
        yield from ["begin", *CHECKPOINT, "full", "take 1 0", "take 1 1", "seal 1"]
        yield from ("add 1 0 0 1" for _ in range(524_000))
        yield from cycle(["repair 1 0"])
    return script(folder, lines(), 2)


def repairs_of_each_page(folder, tools):
    """Each page of a large volume is changed, and then they are repaired in turn, with one frame."""
    def lines():
        yield from ["begin", *CHECKPOINT, "full"]
        yield from (f"take 1 {page}" for page in range(MOST_PAGES))
        yield "seal 1"
        yield "begin"
        for number in range(8 * MOST_PAGES):
            yield f"add 2 {number * 40_503 % MOST_PAGES} 0 1"
        yield from (f"repair 1 {number * 12_289 % MOST_PAGES}" for number in count())
    return script(folder, lines(), MOST_PAGES)


def open_copies(folder, tools):
    """As many copies are begun as may be, and none takes a page."""
    def lines():
        yield from CHECKPOINT
        yield from ("full" for _ in range(MOST_COPIES))
    return script(folder, lines(), MOST_PAGES)


def pending_by_turns(folder, tools):
    """64 transactions have changed by turns until the log had room for their undo alone."""
    said = folder / "names"
    run([tools["generate_files"], str(MOST_PAGES), "turns", "1", str(folder)], os.devnull, said, "pending by turns")
    return ["restore", *(str(folder / name) for name in said.read_text().split())], os.devnull


def log_of_adds(pages, adds):
    """A log with a checkpoint and one transaction that adds to the pages in turn; and the last page of each state."""
    begin, end = 64, 128
    records = [struct.pack("<8sI52x", b"AIMGLOG2", pages), CHECKPOINT_END.pack(7, 0, 0, 0, begin),
               CHECKPOINT_END.pack(10, begin, 0, begin, end), RECORD.pack(1, 1, 0, 0, 0, 0, 0, 0, 0, 192)]
    last = 192
    for number in range(adds):
        lsn = 64 * len(records)
        records.append(RECORD.pack(2, 1, last, 0, number % pages, 0, 2, 0, 1, lsn))
        last = lsn
    records.append(RECORD.pack(4, 1, last, 0, 0, 0, 0, 0, 0, 64 * len(records)))
    return b"".join(records), last


def page_bytes(number, lsn, first_slot):
    return struct.pack("<IIQQ488x", number, 1, lsn, first_slot)


def chain(folder, pages, log, pages_of):
    """The files of a chain of as many copies as may be, where `pages_of` gives the pages of each."""
    (folder / "log").write_bytes(log)
    archives = []
    for copy in range(1, MOST_COPIES + 1):
        taken = pages_of(copy)
        header = struct.pack("<8sIIB3xIQQI20x", b"AIMGARC2", pages, copy, 1 if copy == 1 else 2, copy - 1, 64, 64,
                             len(taken))
        archives.append(folder / f"copy_{copy}")
        archives[-1].write_bytes(header + b"".join(taken))
    return ["audit", str(folder / "log"), *map(str, archives)], os.devnull


def old_and_new_copies(folder, tools):
    """One page is changed by a whole log, and each second copy of a chain has it as it was formatted."""
    adds = MOST_RECORDS - 4
    log, last = log_of_adds(1, adds)
    return chain(folder, 1, log, lambda copy: [page_bytes(0, last, adds) if copy % 2 else page_bytes(0, 0, 0)])


def empty_copies(folder, tools):
    """A full copy of a large volume, and 1,023 copies of no page on it."""
    log, last = log_of_adds(MOST_PAGES, 1)
    full = [page_bytes(0, last, 1), *(page_bytes(number, 0, 0) for number in range(1, MOST_PAGES))]
    return chain(folder, MOST_PAGES, log, lambda copy: full if copy == 1 else [])


EXTREMES = [
    Extreme("repairs of one page", repairs_of_one_page),
    Extreme("repairs of each page", repairs_of_each_page),
    Extreme("open copies", open_copies),
    Extreme("pending by turns", pending_by_turns),
    Extreme("old and new copies", old_and_new_copies),
    Extreme("empty copies", empty_copies),
]


def measure(extreme, imgcopy, tools, rounds):
    with tempfile.TemporaryDirectory(dir=find_folder()) as folder:
        words, source = extreme.prepare(Path(folder), tools)
        command = [imgcopy, *words]
        seconds = min(run(command, source, os.devnull, extreme.name)[0] for _ in range(rounds))
        memory = int(run([tools["peak_memory"], *command], source, os.devnull, extreme.name)[1])
    return seconds, memory


def main(arguments):
    try:
        options = parse(arguments)
        tools = {name: find_program(os.path.join(options.tools, name)) for name in ("generate_files", "peak_memory")}
        imgcopy = find_program(options.imgcopy)
        print(f"{datetime.date.today()}, {os.cpu_count()} cores, best of {options.rounds}:\n")
        print("| input | seconds | peak MB |\n| --- | ---: | ---: |")
        for extreme in EXTREMES:
            seconds, memory = measure(extreme, imgcopy, tools, options.rounds)
            print(f"| {extreme.name} | {seconds:.3f} | {memory / MEGABYTE:.1f} |", flush=True)
    except (Failure, OSError) as failure:
        sys.exit(f"extremes.py: {failure}")


if __name__ == "__main__":
    main(sys.argv[1:])
