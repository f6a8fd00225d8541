#!/usr/bin/env python3
"""Makes a root for a program that is built on the engine outside of this repository.

usage: new_root.py FOLDER NAME

FOLDER, which must not be there yet, nor stand in this repository, gets what `rt` needs: HANDLES; crates.txt, with a line
for each crate that `imgcopy_engine` stands on and one for the program NAME, which names `imgcopy_engine`; and these
crates, without their wrong bodies. The sources of the program go to crates/NAME/src, which is empty.
"""

import re
import shutil
import sys
from pathlib import Path

from repository import ROOT, lines_of_crates

FRONT = "imgcopy_engine"


def libraries():
    """The lines of crates.txt of the front crate and of those that it stands on, in their order."""
    lines, wanted = lines_of_crates(), [FRONT]
    for crate in wanted:
        wanted += [other for other in lines[crate].partition(":")[2].split() if other in lines and other not in wanted]
    return {crate: line for crate, line in lines.items() if crate in wanted}


def make_root(folder, name):
    (folder / "crates" / name / "src").mkdir(parents=True)
    shutil.copy(ROOT / "HANDLES", folder)
    lines = libraries()
    for crate in lines:
        shutil.copytree(ROOT / "crates" / crate, folder / "crates" / crate,
                        ignore=shutil.ignore_patterns("out", "must-fail"))
    text = "".join(f"{line}\n" for line in [*lines.values(), f"{name}: {FRONT}"])
    (folder / "crates.txt").write_text(text, encoding="utf-8")
    return len(lines)


def main(arguments):
    if len(arguments) != 2 or not re.fullmatch(r"[a-z][a-z0-9_]*", arguments[1]):
        sys.exit("usage: new_root.py FOLDER NAME, of small letters, digits and _")
    folder, name = Path(arguments[0]), arguments[1]
    if name in lines_of_crates():
        sys.exit(f"new_root.py: {name} is a crate of this repository")
    if folder.exists() or ROOT in folder.resolve().parents:
        sys.exit(f"new_root.py: {folder} is there, or stands in this repository")
    try:
        count = make_root(folder, name)
    except OSError as error:
        sys.exit(f"new_root.py: {error}")
    print(f"{folder} has {count} crates: put the sources of {name} into {folder / 'crates' / name / 'src'}, "
          "and call 'rt ci' there")


if __name__ == "__main__":
    main(sys.argv[1:])
