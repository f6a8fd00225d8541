"""Has `imgcopy show` and `imgcopy list` refuse the headers that a restore refuses, and tell how much of an output went out.

usage: python3 -m checks.views PROGRAM

Each bit of the header of a full copy is turned, and each number of it and of that of an increment is made another one. A
restore says whether that is a header: `show` and `list` have to say the same, and where it is one they have to print its
numbers. Then archives have a page more than their header says, and volumes have a right page at the place of another
one. Last, outputs may be no longer than so many bytes: just these went out, and the fault tells how many.
"""

import os
import resource
import shutil
import signal
import struct
import subprocess
import sys
import tempfile
from collections import Counter
from pathlib import Path

from checks.show import PAGE, Failure, Viewer, header_of, u32, words_of
from checks.unsaved import script_of, text_of

PAGES, MANY = 3, 6000
MOST_SECONDS = 60
REFUSED = b"E36 BadArchive 0\n"
# The numbers of a header: where they stand, and in how many bytes.
NUMBERS = ((8, 4), (12, 4), (16, 4), (20, 4), (24, 8), (32, 8), (40, 4))


def spoiled(data, has_bits):
    """Headers that differ in one bit, or in one number."""
    for at in range(64 if has_bits else 0):
        for bit in range(8):
            yield f"bit {bit} of byte {at}", data[:at] + bytes([data[at] ^ 1 << bit]) + data[at + 1:]
    for at, count in NUMBERS:
        number = int.from_bytes(data[at:at + count], "little")
        for other in {0, 1, 2, 3, 64, 128, 1024, 1025, 65536, 65537, *(number + by for by in (-64, -1, 1, 32, 64)),
                      (1 << 8 * count) - 1, (1 << 8 * count) - 64} - {number}:
            if 0 <= other < 1 << 8 * count:
                yield f"{other} at {at}", data[:at] + other.to_bytes(count, "little") + data[at + count:]
    redo, begin = struct.unpack_from("<QQ", data, 24)[::-1]
    for pair in ((begin + 64, begin), (redo + 64, redo + 64), (0, begin), (64, 64), (begin, redo)):
        yield f"redo {pair[0]} and begin {pair[1]}", data[:24] + struct.pack("<QQ", pair[1], pair[0]) + data[40:]


def check_headers(viewer, name, before, has_bits):
    """What is said of the archive of this name, behind those before it in its chain."""
    path = viewer.folder / "day" / name
    whole, number = path.read_bytes(), int(name[5:])
    for what, data in spoiled(whole, has_bits):
        path.write_bytes(data)
        what = f"{name}, {what}"
        chain = [f"day/{each}" for each in ("log", "master", *before, name)]
        is_header = not viewer.run("restore", *chain).stderr.startswith(REFUSED)
        shown, listed = viewer.run("show", f"day/{name}"), viewer.run("list", "day")
        header = {"file": "archive", "format": int(data[7:8]), **header_of(data)} if is_header else {}
        # What does not begin like an archive is none of any kind to show.
        refusal = REFUSED if data.startswith(b"AIMGARC") else b"E30 BadHeader\n"
        if shown.stderr.startswith(refusal) == is_header or bool(shown.stdout) != is_header:
            raise Failure(f"{what}: show says {shown.stderr[:80]!r}, and a restore {'takes' if is_header else 'refuses'} it")
        if is_header and shown.stdout.decode().splitlines()[0] != words_of(header):
            raise Failure(f"{what}: show prints {shown.stdout[:120]!r}, and {words_of(header)!r} is wanted")
        check_listed(what, data, number, is_header, listed)
        viewer.counts["headers"] += 1
        viewer.counts["refused"] += not is_header
    path.write_bytes(whole)


def check_listed(what, data, number, is_header, listed):
    said = listed.stderr.decode()
    rows = [line for line in listed.stdout.decode().splitlines() if line.startswith("copy ")]
    if (REFUSED.decode() in said) == is_header:
        raise Failure(f"{what}: list says {said[:120]!r}, and a restore {'takes' if is_header else 'refuses'} the header")
    header = header_of(data)
    row = words_of({"file": "archive", **header, "lacks": None}).removesuffix("whole")
    is_listed = is_header and header["id"] == number
    if any(line.startswith(row) for line in rows) != is_listed or len(rows) != 2 + is_listed:
        raise Failure(f"{what}: list has {rows}, and {'a' if is_listed else 'no'} row {row!r} is wanted")
    if is_header and not is_listed and f"is copy {header['id']}\n" not in said:
        raise Failure(f"{what}: list says {said[:120]!r} of copy {header['id']}")


def page_with(number):
    return struct.pack("<IIQ", number, 1, 64) + bytes(PAGE - 16)


def check_pages(viewer):
    """Right pages that stand where none may, or another one."""
    copies = [(viewer.folder / "day" / f"copy-{number}").read_bytes() for number in (1, 2, 3)]
    for number, data in enumerate(copies, 1):
        for pages in ([PAGES - 1], [PAGES], [0, 1], list(range(PAGES))):
            viewer.show(f"copy {number} with pages {pages} behind it", data + b"".join(map(page_with, pages)))
    # An increment that took no page, with pages that it could have taken.
    none = copies[1][:40] + bytes(4) + copies[1][44:64]
    viewer.show("a copy of no page", none)
    for pages in ([0], [0, 1, 2]):
        viewer.show(f"a copy of no page with pages {pages}", none + b"".join(map(page_with, pages)))
    volume = viewer.run("redo", input=(viewer.folder / "day" / "log").read_bytes()).stdout
    for place in range(PAGES):
        for number in (*range(PAGES), PAGES, 65535):
            at = PAGE * place
            viewer.show(f"a volume with page {number} at place {place}",
                        volume[:at] + struct.pack("<I", number) + volume[at + 4:])
    viewer.show("a volume with its pages turned round", b"".join(volume[at:at + PAGE] for at in (0, 1024, 512)))


# Outputs that end early

def check_lengths(viewer, what, words):
    whole = viewer.run(*words).stdout
    place = viewer.folder / "output"

    def before():
        signal.signal(signal.SIGXFSZ, signal.SIG_IGN)
        resource.setrlimit(resource.RLIMIT_FSIZE, (limit, limit))
    for limit in sorted({0, 1, len(whole) // 2, len(whole) - 1, *(at + by for at in range(0, len(whole), 65536)
                                                                  for by in (-1, 1, 100))}):
        if not 0 <= limit < len(whole):
            continue
        with open(place, "wb") as output:
            done = subprocess.run([viewer.program, *words], stdout=output, stderr=subprocess.PIPE, cwd=viewer.folder,
                                  timeout=MOST_SECONDS, preexec_fn=before)
        lines = done.stderr.decode().splitlines()
        if done.returncode != 2 or f"E29 WriteFault {limit}" not in lines or place.read_bytes() != whole[:limit]:
            raise Failure(f"{what}, at most {limit} bytes: status {done.returncode}, {lines[:2]}, and"
                          f" {place.stat().st_size} bytes are there")
        viewer.counts["limits"] += 1
    return len(whole)


def check_outputs(viewer):
    folder = viewer.folder / "many"
    folder.mkdir()
    done = viewer.run("run", "--pages", MANY, "--save", "many", input=text_of(script_of(MANY, 5, 1)))
    if done.returncode:
        raise Failure(f"a run of many pages: {done.stderr[:200]!r}")
    (folder / "volume").write_bytes(viewer.run("redo", input=(folder / "log").read_bytes()).stdout)
    for name in ("log", "copy-1", "volume"):
        for form in ([], ["--json"]):
            if check_lengths(viewer, f"show {name} {form}", ["show", f"many/{name}", *form]) < 100_000:
                raise Failure(f"show {name} {form}: its output is too short to go out in pieces")
    check_lengths(viewer, "list", ["list", "many"])


def main(arguments):
    try:
        if len(arguments) != 1:
            raise Failure("usage: python3 -m checks.views PROGRAM")
        path = shutil.which(arguments[0])
        if path is None:
            raise Failure(f"there is no program {arguments[0]}")
        with tempfile.TemporaryDirectory() as place:
            viewer = Viewer(os.path.abspath(path), place)
            viewer.counts = Counter()
            (Path(place) / "day").mkdir()
            done = viewer.run("run", "--pages", PAGES, "--save", "day", input=text_of(script_of(PAGES, 5, 3)))
            if done.returncode:
                raise Failure(f"a run: {done.stderr[:200]!r}")
            check_headers(viewer, "copy-1", [], True)
            check_headers(viewer, "copy-2", ["copy-1"], False)
            check_pages(viewer)
            check_outputs(viewer)
    except (Failure, OSError, subprocess.SubprocessError) as failure:
        sys.exit(f"views.py: {failure}")
    counts = viewer.counts
    print(f"ok views: show and list say of {counts['headers']} headers what a restore says, {counts['refused']} are refused;"
          f" {counts['files']} files with pages in wrong places are shown up to these, and {counts['limits']} outputs end"
          " early as they tell")


if __name__ == "__main__":
    main(sys.argv[1:])
