"""Has several runs of `imgcopy run --save` save into one folder at once, and puts links in their way.

usage: python3 -m checks.saves_at_once PROGRAM [ROUNDS]

In each of ROUNDS rounds, 100 where none is told, two or four runs that differ in every file begin at once: all with a
manifest, every other one, or none. Each of them ends with status 0, or is refused with a line that says why, and has saved
nothing then. All files are those of one run that ended with status 0, whole; there is a manifest of them where one of
those that ended so has been asked for one, and else none. A run whose folder is locked is refused before it plays its
script, and one whose folder is free again soon is not. Then links stand where a save makes its files and where it puts
them: what they lead to stays as it is.
"""

import fcntl
import os
import shutil
import subprocess
import sys
import tempfile
import time
from collections import Counter
from pathlib import Path

from model.scripts import run
from checks.manifest_text import NAME, WrongManifest, without_manifest
from checks.unsaved import Failure, fresh, script_of, text_of

ROUNDS = 100
PAGES = 48
MOST_SECONDS = 60


class Runs:
    """Runs that save five files each, all of which differ."""

    def __init__(self, program, place, count):
        self.program, self.texts, self.files = program, [], []
        for number in range(count):
            text = text_of(script_of(PAGES, 1000 * (number + 1), 3))
            self.files.append(run(text, PAGES).files)
            self.texts.append(place / f"script-{number}")
            self.texts[-1].write_bytes(text)

    def start(self, number, folder, *options):
        with open(self.texts[number], "rb") as text:
            return subprocess.Popen([self.program, "run", "--pages", str(PAGES), "--save", str(folder), *options],
                                    stdin=text, stdout=subprocess.PIPE, stderr=subprocess.PIPE)


def check_round(runs, folder, count, every, counts):
    """Of so many runs each `every`-th one is to leave a manifest, or none is, where that is 0."""
    fresh(folder)
    with_manifest = [bool(every) and number % every == 0 for number in range(count)]
    children = [runs.start(number, folder, *["--manifest"] * wanted) for number, wanted in enumerate(with_manifest)]
    said = [child.communicate(timeout=MOST_SECONDS)[1] for child in children]
    done = [child.returncode == 0 for child in children]
    refusal = f"E29 WriteFault 0\nimgcopy: {folder}: another one has this folder open\n".encode()
    for child, text in zip(children, said):
        if child.returncode == 0 and text == b"" or child.returncode == 2 and text == refusal:
            continue
        raise Failure(f"{count} saves at once: status {child.returncode}, {text[:200]!r}")
    given = {path.name: path.read_bytes() for path in folder.iterdir()}
    if (NAME in given) != any(is_done and wanted for is_done, wanted in zip(done, with_manifest)):
        raise Failure(f"{count} saves at once, each {every}-th with a manifest: {sorted(given)}")
    given = without_manifest(given) if NAME in given else given
    if given not in [runs.files[number] for number in range(count) if done[number]]:
        raise Failure(f"{count} saves at once: the files are of no run that ended with status 0")
    counts["refused"] += count - sum(done)
    counts["ended behind another one"] += sum(done) - 1


def check_lock(runs, folder):
    """Another one has the folder, for ever or for a while."""
    fresh(folder)
    handle = os.open(folder, os.O_RDONLY)
    fcntl.flock(handle, fcntl.LOCK_EX)
    child = runs.start(0, folder, "--force")
    output, said = child.communicate(timeout=MOST_SECONDS)
    wanted = f"E29 WriteFault 0\nimgcopy: {folder}: another one has this folder open\n".encode()
    if (child.returncode, output, said) != (2, b"", wanted) or list(folder.iterdir()):
        raise Failure(f"a folder that is locked: status {child.returncode}, {output[:60]!r}, {said[:200]!r}")
    child = runs.start(0, folder)
    time.sleep(0.1)
    os.close(handle)
    said = child.communicate(timeout=MOST_SECONDS)[1]
    if (child.returncode, said) != (0, b""):
        raise Failure(f"a folder that is free again: status {child.returncode}, {said[:200]!r}")


def check_links(runs, folder):
    """Links stand where an unfinished file would be made, and where a file is to be."""
    outside = folder.with_name("outside")
    for name in ("log", "master", "copy-1", "manifest", "log.unfinished-1", "copy-3.unfinished-1"):
        for target in (outside, folder / "nothing"):
            fresh(folder)
            outside.write_bytes(b"outside")
            (folder / name).symlink_to(target)
            child = runs.start(0, folder, "--force", "--manifest")
            said = child.communicate(timeout=MOST_SECONDS)[1].decode()
            files = {path.name: path.read_bytes() for path in folder.iterdir() if not path.is_symlink()}
            given = without_manifest(files)
            if child.returncode != 0 or given != runs.files[0] or outside.read_bytes() != b"outside":
                raise Failure(f"a link in the place of {name}: status {child.returncode}, {sorted(given)}")
            if ("unfinished" in name) != (f"imgcopy: {folder}/{name}: left by" in said):
                raise Failure(f"a link in the place of {name}: {said!r}")


def main(arguments):
    try:
        if not 1 <= len(arguments) <= 2 or not all(number.isdigit() for number in arguments[1:]):
            raise Failure("usage: python3 -m checks.saves_at_once PROGRAM [ROUNDS]")
        program = shutil.which(arguments[0])
        if program is None:
            raise Failure(f"there is no program {arguments[0]}")
        rounds, counts = int(arguments[1]) if arguments[1:] else ROUNDS, Counter()
        with tempfile.TemporaryDirectory() as place:
            folder = Path(place, "saved")
            runs = Runs(os.path.abspath(program), Path(place), 4)
            for number in range(rounds):
                check_round(runs, folder, (2, 4)[number % 2], number // 2 % 3, counts)
            check_lock(runs, folder)
            check_links(runs, folder)
        if rounds >= ROUNDS and not counts["ended behind another one"]:
            raise Failure("no save met another one")
    except (Failure, WrongManifest, OSError, subprocess.SubprocessError) as failure:
        sys.exit(f"saves_at_once.py: {failure}")
    print(f"ok saves_at_once: {rounds} rounds, the files are those of one run each time, {counts['refused']} saves were refused,"
          f" {counts['ended behind another one']} ended behind another one, and no link was followed")


if __name__ == "__main__":
    main(sys.argv[1:])
