"""Compares the logs that `imgcopy restore --log-out` writes with the model, and has its outputs fail.

usage: python3 -m checks.log_out PROGRAM [COUNT [FIRST]]

COUNT random scripts are made from the seeds FIRST and following, 60 from seed 1 where none is told. Each copy of each is
restored with its log, whole, cut and of the first format, and with files that are spoiled. The log that is written has to
be that of the model after undo; redo of it alone has to make the restored volume, an audit has to find the copies sound for
it, and a restore from it has to write the same volume and the same log again. A restore that is refused leaves what had the
names of the outputs. Then no output may be longer than so many bytes, one stands in the way, both have one name, and the
program is killed: there is the old log with the old volume, or the new log with one of them.
"""

import os
import pty
import random
import resource
import shutil
import signal
import subprocess
import sys
import tempfile
import time
from collections import Counter
from pathlib import Path

from model.file_rows import of_first_format
from model.log_format import EXTEND, lsn_of
from model.random_scripts import random_script
from model.recovery import (Answer, answer_of, audit_files, encode_log, encode_pages, fault_lines, read_log, redo_all,
                            restore_files, undo_records)
from model.samples import Draw
from model.scripts import run
from model.spoiled_files import Given, mislead, spoil

COUNT = 60
CUTS, SPOILED, KILLS = 2, 4, 40
MOST_PAGES = 1000
MOST_SECONDS = 60
OLD = {"v": b"an older volume", "l": b"an older log"}
UNFINISHED = ".unfinished-"


class Failure(Exception):
    """What differs, in one line."""


def log_after_undo(log):
    pages, records = read_log(log)
    return encode_log(records + undo_records(records), pages)


class Restorer:
    """Runs restores in a folder that has the files of a run, and the outputs of an older restore."""

    def __init__(self, program, folder):
        self.program, self.folder = program, Path(folder)
        self.counts = Counter()

    def fill(self, files):
        shutil.rmtree(self.folder, ignore_errors=True)
        self.folder.mkdir()
        for name, data in {**files, **OLD}.items():
            (self.folder / name).write_bytes(data)

    def run(self, *words, data=b"", limit=None, output=subprocess.PIPE):
        def before():
            if limit is not None:
                signal.signal(signal.SIGXFSZ, signal.SIG_IGN)
                resource.setrlimit(resource.RLIMIT_FSIZE, (limit, limit))
        return subprocess.run([self.program, *words], input=data, stdout=output, stderr=subprocess.PIPE,
                              cwd=self.folder, timeout=MOST_SECONDS, preexec_fn=before)

    def answer(self, *words, **more):
        done = self.run(*words, **more)
        return Answer(done.returncode, done.stdout or b"", fault_lines(done.stderr))

    def outputs(self):
        """What has the names of the outputs; nothing unfinished is left."""
        if any(UNFINISHED in path.name for path in self.folder.iterdir()):
            raise Failure("an unfinished file is left")
        return {name: (self.folder / name).read_bytes() for name in OLD}

    def see(self, what, given, wanted):
        if given != wanted:
            raise Failure(f"{what}: {str(given)[:200]} in place of {str(wanted)[:200]}")
        self.counts["answers"] += 1


def check_files(restorer, what, given, is_sound):
    """Restores these files with their log, into files and with the volume on standard output."""
    wanted = answer_of(restore_files, *given.contents())
    log, _, archives = given.contents()
    restorer.fill({name: data for name, data in given.files.items() if data is not None})
    if wanted.status:
        for words in (["-o", "v", "--log-out", "l"], ["--log-out=l"]):
            restorer.see(f"{what}, refused", restorer.answer("restore", *words, *given.words()), wanted)
            restorer.see(f"{what}, refused, its outputs", restorer.outputs(), OLD)
        restorer.counts["refused"] += 1
        return
    volume, after = wanted.output, log_after_undo(log)
    restorer.see(what, restorer.answer("restore", "--log-out", "l", "-o", "v", *given.words()), Answer(0))
    restorer.see(f"{what}, its outputs", restorer.outputs(), {"v": volume, "l": after})
    restorer.fill({name: data for name, data in given.files.items() if data is not None})
    restorer.see(f"{what}, the volume on standard output", restorer.answer("restore", "--log-out=l", *given.words()),
                 Answer(0, volume))
    restorer.see(f"{what}, its log", restorer.outputs(), {**OLD, "l": after})
    restorer.counts["logs"] += 1
    restorer.counts["longer"] += len(after) > len(log)
    if is_sound:
        restorer.see(f"{what}, redo of its log", restorer.answer("redo", data=after), Answer(0, volume))
        restorer.see(f"{what}, its log audited", restorer.answer("audit", "l", *given.archives), Answer(0, b"sound\n"))
        restorer.see(f"{what}, the model's audit", audit_files(after, archives), Answer(0, b"sound\n"))
        # The log is put into its own place.
        words = ["restore", "--force", "-o", "v", "--log-out", "l", "l", given.master, *given.archives]
        restorer.see(f"{what}, restored from its log", restorer.answer(*words), Answer(0))
        restorer.see(f"{what}, the outputs of that", restorer.outputs(), {"v": volume, "l": after})


def check_seed(restorer, seed):
    script = random_script(seed)
    ran = run(script.text, script.pages, frames=script.frames)
    copies, log = ran.engine.complete_copies(), ran.engine.log
    if script.pages >= MOST_PAGES:
        return
    for copy in copies:
        given = Given(ran.files, ran.engine.chain(copy.number))
        what = f"script {seed}, copy {copy.number}"
        check_files(restorer, what, given, True)
        if encode_pages(redo_all(log + undo_records(log), ran.engine.pages)) != (restorer.folder / "v").read_bytes():
            raise Failure(f"{what}: not the volume that the model's log makes")
        if not any(record.kind == EXTEND for record in log):
            given.put("log", of_first_format(ran.files["log"]))
            check_files(restorer, f"{what}, a log of the first format", given, True)
    draw = Draw(seed)
    for _ in range(CUTS if copies else 0):
        cut = ran.engine.forced + draw.below(len(log) - ran.engine.forced + 1)
        given = Given(ran.files, ran.engine.chain(draw.one_of(copies).number))
        given.put("log", ran.files["log"][:lsn_of(cut)])
        check_files(restorer, f"script {seed}, {cut} records", given, True)
    for turn in range(SPOILED if copies else 0):
        given = Given(ran.files, ran.engine.chain(draw.one_of(copies).number))
        if turn % 2:
            mislead(draw, given)
        else:
            spoil(draw, given, ran.files)
        check_files(restorer, f"script {seed}, spoiled by {', '.join(given.done)}", given, False)


# One run whose outputs fail

def script_of(pages):
    """A copy, and behind it a change of every page that never commits."""
    yield from ("ckpt", "gather", "gather", "gather", "endckpt", "full", *(f"take 1 {page}" for page in range(pages)))
    yield from ("seal 1", "begin", *(f"set 1 {page} 0 {page + 1}" for page in range(pages)))


def opened(pages):
    ran = run("".join(f"{line}\n" for line in script_of(pages)).encode(), pages)
    return Given(ran.files, ran.engine.chain(1))


def check_limits(restorer, given):
    """No file may be longer than so many bytes: the log is written first, and then the volume."""
    volume = answer_of(restore_files, *given.contents()).output
    after = log_after_undo(given.files["log"])
    both = ["restore", "-o", "v", "--log-out", "l", *given.words()]
    for limit in sorted({at for data in (volume, after) for at in (0, 1, 63, 64, len(data) // 2, len(data) - 1)}):
        stopped = "l" if limit < len(after) else "v" if limit < len(volume) else None
        restorer.fill(given.files)
        done = restorer.run(*both, limit=limit)
        if stopped is None:
            restorer.see(f"files of at most {limit} bytes", restorer.outputs(), {"v": volume, "l": after})
            continue
        line = f"E29 WriteFault {limit}\nimgcopy: {stopped}: File too large (os error 27)\n"
        restorer.see(f"files of at most {limit} bytes", (done.returncode, done.stdout, done.stderr.decode()), (2, b"", line))
        restorer.see(f"files of at most {limit} bytes, the outputs", restorer.outputs(), OLD)
        if stopped == "l":
            done = restorer.run("restore", "--log-out", "l", *given.words(), limit=limit)
            restorer.see(f"a log of at most {limit} bytes", (done.returncode, done.stdout, done.stderr.decode()),
                         (2, b"", line))
            restorer.see(f"a log of at most {limit} bytes, the outputs", restorer.outputs(), OLD)
    restorer.fill(given.files)
    with open("/dev/full", "wb") as full:
        given_answer = restorer.answer("restore", "--log-out", "l", *given.words(), output=full)
    restorer.see("standard output that is full", given_answer, Answer(2, b"", b"E29 WriteFault 0\n"))
    restorer.see("standard output that is full, the outputs", restorer.outputs(), OLD)


def check_ways(restorer, given):
    """What stands in the way of the log, and both outputs under one name."""
    restorer.fill(given.files)
    (restorer.folder / "d").mkdir()
    (restorer.folder / "s").symlink_to("l")
    (restorer.folder / "f").symlink_to(".")
    for name, why in (("d", "this is no regular file"), ("s", "this is no regular file"), ("", "this names no file"),
                      ("/dev/null", "this is no regular file"), ("d/", "this names no file")):
        for words in (["--log-out", name], ["-o", "v", "--log-out", name]):
            done = restorer.run("restore", *words, *given.words())
            restorer.see(f"a log into {name!r}", (done.returncode, done.stdout, done.stderr.decode()),
                         (2, b"", f"E29 WriteFault 0\nimgcopy: {name}: {why}\n"))
    done = restorer.run("restore", "-o", "d", "--log-out", "l", *given.words())
    restorer.see("a folder for the volume", done.stderr.decode(), "E29 WriteFault 0\nimgcopy: d: this is no regular file\n")
    done = restorer.run("restore", "--log-out", "none/l", *given.words())
    restorer.see("no folder", done.stderr.decode(), "E29 WriteFault 0\nimgcopy: none: No such file or directory (os error 2)\n")
    for one, other in (("v", "v"), ("v", "./v"), ("d/v", "d/../d/v"), ("f/v", "v"), (str(restorer.folder / "v"), "v")):
        done = restorer.run("restore", "-o", one, "--log-out", other, *given.words())
        restorer.see(f"both into {other}", (done.returncode, done.stdout, done.stderr.decode()),
                     (2, b"", f"E29 WriteFault 0\nimgcopy: {other}: the volume is to be written there, too\n"))
    restorer.see("what stood in the way, the outputs", restorer.outputs(), OLD)
    restorer.see("one name in two folders", restorer.answer("restore", "-o", "d/v", "--log-out", "v", *given.words()), Answer(0))
    ours, theirs = pty.openpty()
    done = restorer.run("restore", "--log-out", "l", *given.words(), output=theirs)
    os.close(theirs)
    os.close(ours)
    restorer.see("a terminal", (done.returncode, done.stderr.decode()), (
        2, "E29 WriteFault 0\nimgcopy: standard output is a terminal: name a file by -o, redirect it, or add -o -\n"))


def check_kills(restorer, given):
    """The program is killed: the log is put in place first. The same command can be run again, and once the new log is in
    place it needs --force, since it would replace a log."""
    new = {"v": answer_of(restore_files, *given.contents()).output, "l": log_after_undo(given.files["log"])}
    states = [OLD, {**OLD, "l": new["l"]}, new]
    words = ["restore", "-o", "v", "--log-out", "l", *given.words()]
    draw, counts = random.Random(1), Counter()
    restorer.fill(given.files)
    begin = time.monotonic()
    restorer.run(*words)
    most = 1.2 * (time.monotonic() - begin)
    for kill in range(KILLS):
        restorer.fill(given.files)
        child = subprocess.Popen([restorer.program, *words], cwd=restorer.folder, stdin=subprocess.DEVNULL,
                                 stdout=subprocess.DEVNULL, stderr=subprocess.DEVNULL)
        time.sleep(draw.random() * most)
        child.kill()
        child.wait()
        left = {name: (restorer.folder / name).read_bytes() for name in OLD}
        if left not in states:
            raise Failure(f"kill {kill + 1}: an output is neither the old one nor the new one, or the volume came first")
        counts[states.index(left)] += 1
        again = words
        if left["l"] == new["l"]:
            restorer.see(f"kill {kill + 1}, over the new log", restorer.answer(*words),
                         Answer(2, b"", b"E29 WriteFault 0\n"))
            restorer.see(f"kill {kill + 1}, over the new log, the outputs",
                         {name: (restorer.folder / name).read_bytes() for name in OLD}, left)
            again = ["restore", "--force", *words[1:]]
        restorer.see(f"kill {kill + 1}, and then all is well", restorer.answer(*again), Answer(0))
        left = {name: (restorer.folder / name).read_bytes() for name in OLD}
        restorer.see(f"kill {kill + 1}, and then all is well, the outputs", left, new)
    return counts


def main(arguments):
    try:
        if not 1 <= len(arguments) <= 3 or not all(number.isdigit() for number in arguments[1:]):
            raise Failure("usage: python3 -m checks.log_out PROGRAM [COUNT [FIRST]]")
        program = shutil.which(arguments[0])
        if program is None:
            raise Failure(f"there is no program {arguments[0]}")
        count, first = [*map(int, arguments[1:]), *[COUNT, 1][len(arguments) - 1:]]
        with tempfile.TemporaryDirectory() as place:
            restorer = Restorer(os.path.abspath(program), Path(place, "files"))
            for seed in range(first, first + count):
                check_seed(restorer, seed)
            for pages in (1, 40):
                check_limits(restorer, opened(pages))
            check_ways(restorer, opened(3))
            kills = check_kills(restorer, opened(3000))
    except (Failure, OSError, subprocess.SubprocessError) as failure:
        sys.exit(f"log_out.py: {failure}")
    counts = restorer.counts
    print(f"ok log_out: {counts['logs']} logs are those of the model, {counts['longer']} of them longer than the log that was"
          f" given, {counts['refused']} restores are refused, and of {sum(kills.values())} kills {kills[0]} left the old"
          f" files, {kills[1]} the new log alone, and {kills[2]} both new")


if __name__ == "__main__":
    main(sys.argv[1:])
