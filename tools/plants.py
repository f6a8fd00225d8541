#!/usr/bin/env python3
"""Tries wrong bodies on a copy of the crates: the proof has to refuse each one.

usage: plants.py [--sample N] [--left-out] [CRATE..]
       plants.py --over-check CRATE
       plants.py --look

The first tries the wrong bodies of these crates, or of all, as the gate does, by `rt ci`: so it proves no crate again
that the gate has proved on this machine, but for one proof of each crate with wrong bodies, with which their tries
begin. `--left-out` takes only those that the gate leaves out. `--sample N` takes N of them, of as few crates as it can:
the sum of the commit's hash and a wrong body's path says which crate comes first, and which of its wrong bodies. It
takes none of a crate whose proof alone would take longer than all else of a sample (DEAR). The
second tries those of one crate over what `rt check` kept in this checkout, by `rt must-fail`. The third tries none, and
looks whether each can be applied: whether what it changes stands in its file once, and is code. A change of a contract, a
definition or a proof shows nothing of any body, so of `specs` only the number of a constant may be changed. Its last line
begins with 'ok wrong_bodies' then.

The copy is a folder of its own outside of the checkout. What rt says goes to build/plants.log. The last line is
'N passed, M failed': a wrong body that is refused has passed, and one that is not refused, not tried, or cannot be
applied has failed. The status is 0 if none has.
"""

import argparse
import hashlib
import os
import re
import shutil
import signal
import subprocess
import sys
import tempfile
from pathlib import Path

from repository import ROOT, lines_of_crates

LOG = ROOT / "build" / "plants.log"
# Its second proof takes longer than all else of a sample.
DEAR = ("database_session",)
RESULT = re.compile(r"must-fail (\w+/[\w.-]+\.edit): (refused|NOT REFUSED|NOT TRIED|BAD EDIT)")
CONSTANT = re.compile(r"\s*(\w+) = [0-9_]+")
CLAUSE = re.compile(r"\b(ensures|requires)\b")
SHOWN = re.compile(r"trying its must-fail edits|tried by an earlier run|: waiting for "
                   r"|NOT PROVED|NOT REFUSED|NOT TRIED|BAD EDIT")


def uses_of_crates():
    """The line of crates.txt of each crate, and the crates that it names."""
    by_name = lines_of_crates()

    def uses(line):
        return [name for name in line.partition(":")[2].split() if name in by_name]

    return {name: (line, uses(line)) for name, line in by_name.items()}


def wrong_bodies(crates, left_out):
    """The wrong bodies of these crates, or of all: the crate of each, and its path."""
    folders = [(folder.name, folder) for folder in (ROOT / "tools" / "plants").iterdir()]
    if not left_out:
        folders += [(folder.parent.name, folder) for folder in (ROOT / "crates").glob("*/must-fail")]
    chosen = [(crate, folder) for crate, folder in folders if not crates or crate in crates]
    return sorted((crate, edit) for crate, folder in chosen for edit in folder.glob("*.edit"))


def commit():
    """The hash of the checkout's commit, or nothing where there is none."""
    words = ["git", "rev-parse", "HEAD"]
    return subprocess.run(words, cwd=ROOT, capture_output=True, text=True, check=False).stdout.strip()


def sample(edits, count):
    """So many of them, crate by crate, and none of a crate that is dear to prove."""
    of_commit = commit()

    def place(it):
        return hashlib.sha256(f"{of_commit} {it[1].relative_to(ROOT)}".encode()).hexdigest()

    ordered = sorted((it for it in edits if it[0] not in DEAR), key=place)
    crates = list(dict.fromkeys(crate for crate, _ in ordered))
    return [it for crate in crates for it in ordered if it[0] == crate][:count]


def fault_of(crate, edit):
    """Why a wrong body cannot be applied, or None."""
    texts, file, old = {}, None, None
    for line in edit.read_text(encoding="utf-8").splitlines():
        word, _, rest = line.partition(": ")
        if word == "file":
            file = ROOT / "crates" / crate / rest.strip()
            if not file.is_file():
                return f"there is no {rest}"
            texts.setdefault(file, file.read_text(encoding="utf-8"))
        elif word == "old":
            old = rest
        elif line.startswith("new:"):
            if not file or not old:
                return "a line new: has no file: or old: before it"
            if texts[file].count(old) != 1:
                return f"its file has {old.strip()[:60]!r} {texts[file].count(old)} times"
            if not is_code(file.relative_to(ROOT / "crates" / crate).parts[0], old, rest):
                return f"it changes a contract, a definition or a proof, and no body: {old.strip()[:60]!r}"
            texts[file], old = texts[file].replace(old, rest), None
    if all(text == file.read_text(encoding="utf-8") for file, text in texts.items()):
        return "it changes nothing"
    return None


def is_code(folder, old, new):
    """Whether a wrong body changes code, or the number of a constant that a definition has."""
    if folder == "specs":
        before, after = CONSTANT.fullmatch(old), CONSTANT.fullmatch(new)
        return bool(before and after and before[1] == after[1])
    return folder == "src" and not CLAUSE.search(old)


def look(edits):
    found = [(edit.relative_to(ROOT), fault_of(crate, edit)) for crate, edit in edits]
    for edit, fault in found:
        if fault:
            print(f"{edit}: {fault}")
    if any(fault for _, fault in found):
        return 1
    print(f"ok wrong_bodies: each of {len(found)} can be applied")
    return 0


def link_or_copy(one, other):
    try:
        os.link(one, other)
    except OSError:
        shutil.copy2(one, other)


def copy_tree(root, edits, with_work):
    """Makes a root of its own, with the crates of these wrong bodies, those that they stand on, and no other wrong
    bodies. Returns the label that rt gives each wrong body."""
    uses, names = uses_of_crates(), list(dict.fromkeys(crate for crate, _ in edits))
    tried = set(names)
    for name in names:
        names += [other for other in uses[name][1] if other not in names]
    for name in names:
        crate, to = ROOT / "crates" / name, root / "crates" / name
        shutil.copytree(crate, to, ignore=shutil.ignore_patterns("out", "must-fail"))
        # A check replaces these files, and changes none.
        work = crate / "out" / ("incremental" if name in tried else "rlib")
        if with_work and work.is_dir():
            shutil.copytree(work, to / "out" / work.name, copy_function=link_or_copy)
    (root / "crates.txt").write_text("".join(f"{uses[name][0]}\n" for name in names), encoding="utf-8")
    shutil.copy(ROOT / "HANDLES", root)
    labels = []
    for crate, edit in edits:
        to = root / "crates" / crate / "must-fail"
        to.mkdir(exist_ok=True)
        # One of tools/plants may have the name of one of the gate.
        name = edit.name if not (to / edit.name).exists() else f"other_{edit.name}"
        shutil.copy(edit, to / name)
        labels.append(f"{crate}/{name}")
    return labels


def lanes():
    words = ["bash", "-c", ". tools/lanes.sh; lanes"]
    return subprocess.run(words, cwd=ROOT, capture_output=True, text=True, check=True).stdout.strip()


def run(words, root):
    """Runs rt in this root, and returns what it said of each wrong body. It is ended where this is."""
    env = {**os.environ, "RT_JOBS": lanes(), "PYTHONUNBUFFERED": "1"}
    child = subprocess.Popen(words, cwd=root, env=env, text=True, errors="replace",
                             stdin=subprocess.DEVNULL, stdout=subprocess.PIPE,
                             stderr=subprocess.STDOUT, start_new_session=True)
    said = {}
    try:
        with LOG.open("w", encoding="utf-8") as log:
            for line in child.stdout:
                log.write(line)
                log.flush()
                if SHOWN.search(line):
                    print(line, end="", flush=True)
                for label, word in RESULT.findall(line):
                    said[label] = word
        child.wait()
    finally:
        if child.poll() is None:
            os.killpg(child.pid, signal.SIGTERM)
            child.wait()
    return said


def try_them(edits, over_check):
    """Tries these, over what rt check kept or as the gate does, and returns the status."""
    crates = list(dict.fromkeys(crate for crate, _ in edits))
    of_crates = " ".join(crates) or "no crate"
    print(f"wrong bodies that are tried: {len(edits)}, of {of_crates}", flush=True)
    LOG.parent.mkdir(exist_ok=True)
    said, labels = {}, []
    if edits:
        with tempfile.TemporaryDirectory(prefix="wrong-bodies-") as root:
            labels = copy_tree(Path(root), edits, over_check)
            words = ["rt", "must-fail", *crates] if over_check else ["rt", "ci"]
            said = run(words, root)
    failed = [label for label in labels if said.get(label) != "refused"]
    for label in failed:
        untold = "nothing was said of it, as where its crate is not proved"
        print(f"FAILED {label}: {said.get(label, untold)}")
    if failed:
        print(f"what rt said is in {LOG.relative_to(ROOT)}")
    print(f"{len(labels) - len(failed)} passed, {len(failed)} failed")
    return 1 if failed else 0


def main():
    options = argparse.ArgumentParser(usage=__doc__.partition("usage: ")[2].partition("\n\n")[0])
    options.add_argument("--sample", type=int)
    options.add_argument("--left-out", action="store_true")
    options.add_argument("--over-check", action="store_true")
    options.add_argument("--look", action="store_true")
    options.add_argument("crates", nargs="*")
    given = options.parse_args()
    for crate in given.crates:
        if crate not in uses_of_crates():
            options.error(f"crates.txt has no crate {crate}")
    if given.over_check and len(given.crates) != 1 or given.sample is not None and given.sample < 1:
        options.error("--over-check takes one crate, and --sample one wrong body or more")
    edits = wrong_bodies(given.crates, given.left_out)
    if given.look:
        return look(edits)
    return try_them(sample(edits, given.sample) if given.sample else edits, given.over_check)


if __name__ == "__main__":
    for number in (signal.SIGTERM, signal.SIGHUP):
        signal.signal(number, lambda which, _: sys.exit(128 + which))
    try:
        sys.exit(main())
    except KeyboardInterrupt:
        sys.exit(130)
