"""Refuses each allocation of `run` and of `restore` in turn, and compares what comes of it with the model.

usage: python3 -m checks.run_memory PROGRAM LIBRARY

LIBRARY is refuse_memory.rs, built as a library for LD_PRELOAD. Each script of memory_scripts.py is run without its
first allocation, then without its second, and so on until none is left to refuse; every other script with --manifest.
`ends` has all that may come of it: nothing is played; or one call is refused, and everything behind it is as if that call
had not been made; or not all is saved; or the last restore is refused. Where all is saved, each copy is restored with each
part of the log that a crash may leave. The allocations of a `restore` are refused in turn too, and those of runs whose
script is bad.
"""

import os
import subprocess
import sys
import tempfile
from collections import Counter
from concurrent.futures import ProcessPoolExecutor
from itertools import repeat
from pathlib import Path

from model.log_format import lsn_of
from checks.manifest_text import NAME, WrongManifest, without_manifest
from checks.memory import Case, Failure, check, program_and_library, refuse_each
from checks.memory_scripts import BAD_SCRIPTS, CHAIN, SAVEPOINTS, SCRIPTS
from checks.answers import difference, difference_of_files
from model.recovery import Answer, encode_pages, fault_lines, redo_all, undo_records
from model.scripts import CALLS, OUT_OF_MEMORY, Ran, read_script, run

TOLD = f"{OUT_OF_MEMORY}\n".encode()
RIGHT = b"the manifest of the other files"
NEED_NO_MEMORY = {"read", "force", "wend", "seal", "drop", "save"}
NEED_MEMORY = CALLS.keys() - NEED_NO_MEMORY
AS_EVER, NOT_PLAYED = "a run goes on as ever", "a run plays nothing"
NOT_SAVED, REFUSED_RESTORE = "a run does not save all", "a run refuses its last restore"
RESTORE, BAD_SCRIPT = "a restore is refused", "a bad script is refused"
# Each has to come of some allocation, and each call that needs memory has to be refused.
WANTED = [RESTORE, BAD_SCRIPT, NOT_PLAYED, NOT_SAVED, REFUSED_RESTORE]


def ends(script):
    """What may come of a run that lacks one allocation, each with its name, or with that of the call that is refused:
    the answer and the files, and the engine of the model where the files are all there."""
    ran = run(script.text(), script.pages)
    yield AS_EVER, ran
    yield NOT_PLAYED, Ran(Answer(2, error=TOLD))
    calls = script._replace(restore="").text()
    replies = run(calls, script.pages).answer.output
    # Want of memory comes behind all other refusals, and where a savepoint is reached none is needed.
    for number, (event, reply) in enumerate(zip(read_script(calls), replies.splitlines())):
        if event.word in NEED_MEMORY and not reply.startswith(b"E") and reply != b"reached":
            yield event.word, run(script.text(), script.pages, number)
    for files in parts(ran.files):
        yield NOT_SAVED, Ran(Answer(2, replies, TOLD), files=files)
    if script.restore and ran.answer.status == 0:
        yield REFUSED_RESTORE, Ran(Answer(2, replies + TOLD), ran.engine, ran.files)
    if script.restore:
        yield REFUSED_RESTORE, Ran(Answer(2, replies, TOLD), ran.engine, ran.files)


def parts(files):
    """The files before one that is not there, or is empty. The last one may be their manifest."""
    saved = {}
    for name in files:
        yield dict(saved)
        yield saved | {name: b""}
        saved[name] = files[name]
    yield saved


def refuse_run(program, library, script, options):
    """How often each end came, and what the runs left whose files are all there, each thing once."""
    allowed, counts, left = list(ends(script)), Counter(), {}
    with tempfile.TemporaryDirectory() as folder:
        source, into = Path(folder, "script"), Path(folder, "into")
        source.write_bytes(script.text())
        into.mkdir()
        case = Case(["run", "--pages", str(script.pages), "--save", str(into), *options], source, ())
        for number, answer, refused in refuse_each(program, library, case):
            given = Answer(*answer), marked(take_files(into), options)
            end = next((end for end in allowed if (end[1].answer, all_files(end[1], options)) == given), None)
            if end is None or not refused and end[0] != AS_EVER:
                raise Failure(f"{script.name}, without allocation {number}: {describe(script, *given)}")
            name, ran = end
            counts[name] += refused
            if ran.engine is not None:
                left[ran.engine.forced, *ran.files.values()] = ran
    return counts, list(left.values())


def all_files(ran, options):
    """The files of a run. Where all are there, so is their manifest, if it was asked for."""
    return ran.files | {NAME: RIGHT} if ran.engine is not None and options else ran.files


def marked(files, options):
    """The files, with a mark in the place of a manifest that is that of the others."""
    try:
        return without_manifest(files) | {NAME: RIGHT} if options else files
    except WrongManifest:
        return files


def take_files(folder):
    """The bytes of all files by their names. The folder is empty then."""
    files = {path.name: path.read_bytes() for path in folder.iterdir()}
    for name in files:
        (folder / name).unlink()
    return files


def describe(script, answer, files):
    """How it differs from what the model gives where the first call is refused that the program refuses."""
    lines = answer.output.decode(errors="replace").splitlines()
    wanted = run(script.text(), script.pages, lines.index(OUT_OF_MEMORY) if OUT_OF_MEMORY in lines else None)
    if answer != wanted.answer:
        return difference(answer, wanted.answer, script.text())
    return "this call may not be refused" if files == wanted.files else difference_of_files(files, wanted.files)


def restore_words(ran, copy):
    return ["restore", "log", "master", *(f"copy-{member.number}" for member in ran.engine.chain(copy.number))]


def volume(log, pages):
    """What a restore has to write: what the log says after undo. It takes nothing from the copies."""
    return encode_pages(redo_all(log + undo_records(log), pages))


def check_restores(program, ran):
    """Restores each copy with each part of the log that a crash may leave. How many restores there were."""
    engine, copies = ran.engine, ran.engine.complete_copies()
    cuts = range(engine.forced, len(engine.log) + 1)
    with tempfile.TemporaryDirectory() as folder:
        write_files(folder, ran.files)
        for cut in cuts:
            Path(folder, "log").write_bytes(ran.files["log"][:lsn_of(cut)])
            wanted = Answer(0, volume(engine.log[:cut], engine.pages))
            for copy in copies:
                words = restore_words(ran, copy)
                done = subprocess.run([program, *words], capture_output=True, cwd=folder)
                given = Answer(done.returncode, done.stdout, fault_lines(done.stderr))
                if given != wanted:
                    raise Failure(f"{' '.join(words)} with {cut} records of {ran.answer.output[-80:]!r}:"
                                  f" {difference(given, wanted)}")
    return len(cuts) * len(copies)


def write_files(folder, files):
    for name, data in files.items():
        Path(folder, name).write_bytes(data)


def refuse_restore(program, library):
    """How many allocations of a restore were refused."""
    ran = run(CHAIN.text(), CHAIN.pages)
    with tempfile.TemporaryDirectory() as folder:
        write_files(folder, ran.files)
        first, *names = restore_words(ran, ran.engine.copies[-1])
        case = Case([first, *(os.path.join(folder, name) for name in names)], Path(os.devnull),
                    (0, volume(ran.engine.log, CHAIN.pages), b""))
        return check(program, library, case)


def refuse_bad_script(program, library, text, error):
    """How many allocations of a run were refused that plays nothing."""
    with tempfile.TemporaryDirectory() as folder:
        source = Path(folder, "script")
        source.write_bytes(text)
        return check(program, library, Case(["run", "--pages", "1"], source, (2, b"", error)))


def compare(program, library, scripts):
    """How often each end came, and how many restores there were."""
    counts, restores = Counter({RESTORE: refuse_restore(program, library)}), 0
    for text, error in BAD_SCRIPTS.items():
        counts[BAD_SCRIPT] += refuse_bad_script(program, library, text, error)
    with ProcessPoolExecutor(os.cpu_count()) as pool:
        options = [("--manifest",) * (number % 2) for number in range(len(scripts))]
        for counted, left in pool.map(refuse_run, repeat(program), repeat(library), scripts, options):
            counts += counted
            restores += sum(pool.map(check_restores, repeat(program), left))
    return counts, restores


def main(arguments):
    try:
        program, library = program_and_library(arguments)
        counts, restores = compare(program, library, [*SCRIPTS, SAVEPOINTS])
        missing = [name for name in [*WANTED, *sorted(NEED_MEMORY)] if not counts[name]]
        if missing:
            raise Failure(f"this came of no refused allocation: {', '.join(missing)}")
    except (Failure, OSError) as failure:
        sys.exit(f"run_memory.py: {failure}")
    told = ", ".join(f"{name} ({counts[name]})" for name in [*WANTED, AS_EVER])
    calls = sum(counts[name] for name in NEED_MEMORY)
    print(f"ok run_memory: for want of memory {told}, or refuses a call of {len(NEED_MEMORY)} kinds ({calls});"
          f" {restores} restores of what was left are as defined")


if __name__ == "__main__":
    main(sys.argv[1:])
