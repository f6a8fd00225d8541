"""Gives the library more and fewer processors, and refuses each start of a thread in turn.

usage: python3 -m checks.few_threads CHECK_LIBRARY LIBRARY [COUNT [FIRST]]

LIBRARY is few_threads.rs, built as a library for LD_PRELOAD, and CHECK_LIBRARY the program of that crate. COUNT random
scripts with a checkpoint, from the seed FIRST on, 300 from seed 1 where none is told, are played, and their logs are
redone page by page by one, two and eight threads. Each time what is open at the end of the log, found from its last
checkpoint on, is what a reader from its first record finds, and the pages are those that plain redo makes. If a thread
cannot be started, redo does without it. A copy of a shared engine is refused then, and is made by the next call.
"""

import os
import shutil
import subprocess
import sys
from concurrent.futures import ProcessPoolExecutor
from itertools import count, repeat

from model.random_scripts import random_script
from model.recovery import Transactions, redo_all
from model.scripts import read_script, run

COUNT = 300
PAGES = 64
PROCESSORS = (1, 2, 8)
SEEDS_IN_A_TASK = 10
MOST_SECONDS = 60
MADE_ONCE, MADE_AGAIN = b"each call was made once\n", b"a call was made again\n"
NO_LOG = b"E30 BadHeader\n"


class Failure(Exception):
    """What differs, in one line."""


def played(program, library, word, text, processors, thread):
    """Status, output and standard error, and whether this start of a thread was refused."""
    reading, writing = os.pipe()
    environment = {"LD_PRELOAD": library, "PROCESSORS": str(processors), "REFUSED_THREAD": str(thread),
                   "REFUSAL_REPORT": str(writing)}
    with open(reading, "rb") as report:
        with open(writing, "wb"):
            done = subprocess.run([program, word], input=text, capture_output=True, pass_fds=[writing],
                                  timeout=MOST_SECONDS, env={**os.environ, **environment})
        refused = report.read() != b""
    return (done.returncode, done.stdout, done.stderr), refused


def script_of(seed):
    """The first random script from this seed on whose log has a checkpoint, and the engine that has played it."""
    # In the scripts of odd seeds transactions go back to savepoints.
    for number in count(1000 * seed + 1):
        events = [event for event in read_script(random_script(number).text) if event.word != "restore"]
        text = "".join(" ".join([event.word, *map(str, event.numbers)]) + "\n" for event in events).encode()
        engine = run(text, PAGES).engine
        if engine.master is not None:
            return text, engine


def wanted_of(engine):
    """The lines of what is open and of the pages, read from the first record on."""
    for number, transaction in sorted(Transactions(engine.log).open.items()):
        pending = "".join(f" {record.lsn}" for record in transaction.pending)
        yield f"open {number} last {transaction.last}{pending}"
    yield from (page.line() for page in redo_all(engine.log, PAGES) if page.lsn)


def check_script(program, library, seed):
    """Redoes the log of one script, and counts the threads that it was refused."""
    text, engine = script_of(seed)
    wanted = 0, "".join(f"{line}\n" for line in wanted_of(engine)).encode(), b""
    for processors in PROCESSORS:
        # One start of a thread more than there are is refused to none.
        for thread in [0] if seed % SEEDS_IN_A_TASK else range(processors + 1):
            answer, refused = played(program, library, "recover", text, processors, thread)
            if answer != wanted:
                raise Failure(f"script {seed}, {processors} processors, without thread {thread}: {answer}")
            if refused != (0 < thread < processors):
                raise Failure(f"script {seed}: {processors} processors, and thread {thread} is not as wanted")
    return sum(processors - 1 for processors in PROCESSORS) if seed % SEEDS_IN_A_TASK == 0 else 0


def check_scripts(program, library, seeds):
    return sum(check_script(program, library, seed) for seed in seeds)


def check_copies(program, library):
    """Refuses each start of a thread of a run with a copy by three workers, and counts them."""
    for thread in count(1):
        answer, refused = played(program, library, "share", b"", 2, thread)
        if answer != (2, b"", (MADE_AGAIN if refused else MADE_ONCE) + NO_LOG):
            raise Failure(f"a shared engine without thread {thread}: {answer}")
        if not refused:
            return thread - 1


def main(arguments):
    try:
        if not 2 <= len(arguments) <= 4 or not all(number.isdigit() for number in arguments[2:]):
            raise Failure("usage: python3 -m checks.few_threads CHECK_LIBRARY LIBRARY [COUNT [FIRST]]")
        program = shutil.which(arguments[0])
        if program is None:
            raise Failure(f"there is no program {arguments[0]}")
        program, library = map(os.path.abspath, (program, arguments[1]))
        scripts, first = [*map(int, arguments[2:]), *(COUNT, 1)[len(arguments) - 2:]]
        workers = check_copies(program, library)
        if workers != 3:
            raise Failure(f"a copy by three workers starts {workers} threads")
        tasks = [range(at, min(at + SEEDS_IN_A_TASK, first + scripts))
                 for at in range(first, first + scripts, SEEDS_IN_A_TASK)]
        with ProcessPoolExecutor(os.cpu_count()) as pool:
            refused = sum(pool.map(check_scripts, repeat(program), repeat(library), tasks))
    except (Failure, OSError, subprocess.TimeoutExpired) as failure:
        sys.exit(f"few_threads.py: {failure}")
    print(f"ok few_threads: {scripts} logs are redone by 1, 2 and 8 threads, {refused} threads that redo cannot start"
          f" change nothing, and a copy is refused without one of its {workers}")


if __name__ == "__main__":
    main(sys.argv[1:])
