"""Compares what `redo`, `restore` and `audit` answer with `--until`, and `show --commits`, with the model.

usage: python3 -m checks.until PROGRAM [COUNT [FIRST]]

COUNT random scripts are made from the seeds FIRST and following, 40 from seed 1 where none is told. Of the log that each
leaves, the model finds the commits, and `show --commits` has to print them and no others, in words and as JSON. The log is
then cut at each commit, at records that are drawn, and where none begins: at its header, between records, at its end and
behind it. Each time redo, audit and restore have to answer with `--until` what the model answers of the bytes up to the end
of that record, with the last complete checkpoint of them: a volume, the log that goes on from there, or the fault. The
program has to answer the same of a file that ends there. What follows the record is spoiled then, the master record is
removed, and the log comes through a pipe: the answers stay.
"""

import json
import os
import shutil
import subprocess
import sys
import tempfile
from pathlib import Path

from checks.log_out import OLD, Restorer, Failure, log_after_undo
from model.log_format import COMMIT, RECORD_SIZE
from model.random_scripts import random_script
from model.recovery import Answer, answer_of
from model.samples import Draw
from model.scripts import run
from model.spoiled_files import Given
from model.until import audit_until, front_until, master_until, redo_until, restore_until

COUNT, DRAWN = 40, 6
MOST_PAGES = 1000


def commits_of(log):
    return [record for record in log if record.kind == COMMIT]


def check_commits(restorer, what, log):
    """The lines of the commits, and no others."""
    commits = commits_of(log)
    lines = restorer.answer("show", "--commits", "log").output.decode().splitlines()[1:]
    restorer.see(f"{what}, its commits", lines, [
        f"lsn {record.lsn} commit txn {record.transaction} prev {record.previous}" for record in commits])
    rows = restorer.answer("show", "--json", "--commits", "log").output.decode().splitlines()[1:]
    restorer.see(f"{what}, its commits as JSON", [json.loads(row) for row in rows], [
        {"lsn": record.lsn, "kind": "commit", "txn": record.transaction, "prev": record.previous} for record in commits])
    if len(commits) > 1:
        middle = commits[len(commits) // 2]
        lines = restorer.answer("show", "--commits", f"--from={middle.lsn}", "log").output.decode().splitlines()[1:]
        restorer.see(f"{what}, its later commits", len(lines), len([it for it in commits if it.lsn >= middle.lsn]))
    restorer.counts["commits"] += len(commits)


def check_place(restorer, what, given, until):
    """The log counts up to this LSN."""
    log, _, archives = given.contents()
    redone, restored = answer_of(redo_until, log, until), answer_of(restore_until, log, archives, until)
    option = f"--until={until}"
    restorer.fill(given.files)
    restorer.see(f"{what}, redo", restorer.answer("redo", option, data=log), redone)
    restorer.see(f"{what}, audit", restorer.answer("audit", option, *given.audit_words()),
                 audit_until(log, archives, until))
    restorer.see(f"{what}, restore", restorer.answer("restore", option, *given.words()), restored)
    if restored.status:
        restorer.see(f"{what}, restore into files", restorer.answer(
            "restore", "-o", "v", "--log-out", "l", option, *given.words()), restored)
        restorer.see(f"{what}, the outputs", restorer.outputs(), OLD)
        restorer.counts["refused"] += 1
        return
    front = front_until(log, until)
    both = {"v": restored.output, "l": log_after_undo(front)}
    restorer.see(f"{what}, restore into files", restorer.answer(
        "restore", "-o", "v", "--log-out", "l", option, *given.words()), Answer(0))
    restorer.see(f"{what}, the outputs", restorer.outputs(), both)
    restorer.see(f"{what}, redo into a file", restorer.answer("redo", "-o", "w", option, data=log), Answer(0))
    restorer.see(f"{what}, the file", (restorer.folder / "w").read_bytes(), redone.output)
    # A file that ends there, with a master record of its own.
    restorer.fill({**given.files, "log": front, "master": master_until(front)})
    restorer.see(f"{what}, a log that ends there", restorer.answer("restore", *given.words()), restored)
    restorer.counts["restored"] += 1


def check_behind(restorer, what, given, until):
    """What follows the record, and the master record, are not looked at; and a log may come through a pipe."""
    log, _, archives = given.contents()
    restored = answer_of(restore_until, log, archives, until)
    option, end = f"--until={until}", until + RECORD_SIZE
    spoiled = log[:end] + bytes(255 - byte for byte in log[end:]) + b"torn"
    restorer.fill({name: data for name, data in {**given.files, "log": spoiled}.items() if name != "master"})
    restorer.see(f"{what}, spoiled behind it", restorer.answer("restore", option, *given.words()), restored)
    restorer.see(f"{what}, spoiled behind it, redo", restorer.answer("redo", option, data=spoiled),
                 answer_of(redo_until, log, until))
    restorer.see(f"{what}, spoiled behind it, audit", restorer.answer("audit", option, "--all", *given.audit_words()),
                 audit_until(log, archives, until))
    words = ["/dev/stdin", "master", *given.archives]
    restorer.see(f"{what}, through a pipe", restorer.answer("restore", option, *words, data=log), restored)


def check_seed(restorer, seed):
    script = random_script(seed)
    ran = run(script.text, script.pages, frames=script.frames)
    copies, log = ran.engine.complete_copies(), ran.engine.log
    if script.pages >= MOST_PAGES:
        return
    restorer.fill(ran.files)
    check_commits(restorer, f"script {seed}", log)
    draw, end = Draw(seed), len(ran.files["log"])
    given = Given(ran.files, ran.engine.chain(draw.one_of(copies).number) if copies else [])
    places = {record.lsn for record in commits_of(log)} | {record.lsn for record in log[-1:]}
    places |= {log[draw.below(len(log))].lsn for _ in range(DRAWN if log else 0)}
    none = {0, 1, 32, 63, 65, 100, end - 1, end, end + RECORD_SIZE, 67108864, 67108928}
    for until in sorted(places | none):
        check_place(restorer, f"script {seed}, until {until}", given, until)
    good = [until for until in sorted(places) if not answer_of(restore_until, *given.contents()[::2], until).status]
    for until in good[:1] + good[-1:]:
        check_behind(restorer, f"script {seed}, until {until}", given, until)


def check_words(restorer, given):
    """Numbers that are no LSN of a log, and the lines for a person."""
    restorer.fill(given.files)
    for number in ("67108929", "-1", "x", ""):
        for words in (["redo"], ["restore", *given.words()], ["audit", *given.audit_words()]):
            done = restorer.run(*words, f"--until={number}")
            restorer.see(f"{words[0]} until {number!r}", (done.returncode, done.stdout), (2, b""))
    last = len(given.files["log"]) - RECORD_SIZE
    rows = [(100, "E31 BadRecord 100", f"no record begins there: one does at each 64th byte, from 64 to {last}"),
            (64, "E16 NoMaster", "no checkpoint is complete by then")]
    for until, line, reason in rows:
        done = restorer.run("restore", f"--until={until}", *given.words())
        restorer.see(f"restore until {until}, its lines", done.stderr.decode(), f"{line}\nimgcopy: log (log): {reason}\n")
        done = restorer.run("audit", f"--until={until}", *given.audit_words())
        restorer.see(f"audit until {until}, its lines", (done.stdout.decode(), done.stderr.decode()),
                     (f"{line}\n", f"imgcopy: log (log): {reason}\n"))


def day():
    """A day with a copy in the middle: a log that ends before the copy's redo point is refused by it."""
    lines = ["begin", "set 1 0 0 5", "commit 1", "ckpt", "gather", "gather", "gather", "endckpt", "full", "take 1 0", "seal 1",
             "begin", "set 2 0 0 6", "commit 2", "begin", "set 3 0 1 7"]
    ran = run("".join(f"{line}\n" for line in lines).encode(), 1)
    return Given(ran.files, ran.engine.chain(1))


def main(arguments):
    try:
        if not 1 <= len(arguments) <= 3 or not all(number.isdigit() for number in arguments[1:]):
            raise Failure("usage: python3 -m checks.until PROGRAM [COUNT [FIRST]]")
        program = shutil.which(arguments[0])
        if program is None:
            raise Failure(f"there is no program {arguments[0]}")
        count, first = [*map(int, arguments[1:]), *[COUNT, 1][len(arguments) - 1:]]
        with tempfile.TemporaryDirectory() as place:
            restorer = Restorer(os.path.abspath(program), Path(place, "files"))
            check_words(restorer, day())
            for seed in range(first, first + count):
                check_seed(restorer, seed)
    except (Failure, OSError, subprocess.SubprocessError) as failure:
        sys.exit(f"until.py: {failure}")
    counts = restorer.counts
    print(f"ok until: {counts['commits']} commits are shown, {counts['restored']} logs are restored up to one of their records"
          f" as the model restores them, and {counts['refused']} are refused as by the model")


if __name__ == "__main__":
    main(sys.argv[1:])
