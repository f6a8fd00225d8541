#!/usr/bin/env python3
"""Measures imgcopy beside plain Rust programs and a bare copy, and prints a Markdown table.

usage: run.py --imgcopy PROGRAM --tools FOLDER [--rounds N]

FOLDER holds the built programs of src/bin. README.md says what is measured and how.
"""

import argparse
import datetime
import filecmp
import os
import shutil
import signal
import subprocess
import sys
import tempfile
import time
from pathlib import Path
from typing import NamedTuple

sys.path.insert(0, str(Path(__file__).resolve().parent.parent))

from model.log_format import PAGE_SIZE, RECORD_SIZE, lsn_of

MEGABYTE = 1e6
# How many times as long as the plain program each command may take.
ALLOWED_RATIOS = {"redo": 1.3, "run": 1.5, "restore": 1.3, "audit": 1.3}


def log_size(records):
    """The size of a log is the offset at which its next record would begin."""
    return lsn_of(records)


class Log(NamedTuple):
    """A log that is redone."""

    name: str
    shape: str
    count: int
    pages: int

    def __str__(self):
        return f"{self.name} of {self.count:,} records"

    def prepare(self, tools, folder):
        options = {"records": self.count, "pages": self.pages, "shape": self.shape, "seed": 1}
        arguments = [word for name, value in options.items() for word in (f"--{name}", str(value))]
        run([tools["generate"], *arguments], os.devnull, folder / "log", self)
        return Job(self, folder / "log", self.count, log_size(self.count), ["redo"], tools["plain_redo"],
                   2 * log_size(self.count) + PAGE_SIZE * self.pages, PAGE_SIZE * self.pages)


class Script(NamedTuple):
    """A script that is run."""

    name: str
    shape: str
    size: int
    pages: int
    frames: int = 65536

    def __str__(self):
        return f"the script {self.name}"

    def prepare(self, tools, folder):
        options = {"pages": self.pages, "frames": self.frames, "bytes": self.size, "shape": self.shape, "seed": 1}
        words = [word for name, value in options.items() for word in (f"--{name}", str(value))]
        run([tools["generate_script"], *words], os.devnull, folder / "script", self)
        text = (folder / "script").read_bytes()
        frames = ["--frames", str(self.frames)] if self.frames < self.pages else []
        return Job(self, folder / "script", text.count(b"\n"), len(text),
                   ["run", "--pages", str(self.pages), *frames], tools["plain_run"])


class Files(NamedTuple):
    """A log with a full copy and incremental ones, of which the last one is restored, or all are audited."""

    name: str
    copies: int
    pages: int
    command: str = "restore"

    def __str__(self):
        return f"the files of {self.copies} copies"

    def prepare(self, tools, folder):
        said = folder / "names"
        run([tools["generate_files"], str(self.pages), str(self.copies), "1", str(folder)], os.devnull, said, self)
        paths = [folder / name for name in said.read_text().split()]
        if self.command == "audit":
            paths = [path for path in paths if path.name != "master"]
        sizes = [path.stat().st_size for path in paths]
        known = {"restore": (sum(sizes) + 2 * PAGE_SIZE * self.pages, PAGE_SIZE * self.pages)}
        return Job(self, Path(os.devnull), sizes[0] // RECORD_SIZE - 1, sum(sizes), [self.command, *map(str, paths)],
                   tools[f"plain_{self.command}"], *known.get(self.command, ()))


class Job(NamedTuple):
    """An input that was made: the file on standard input, how many records or events it has, how many bytes are read,
    the words for imgcopy and for the plain program, and where they are known the memory that is allowed and the size
    of the output."""

    what: NamedTuple
    source: Path
    count: int
    size: int
    words: list
    plain: str
    allowed: int = None
    output_size: int = None

    def both(self, imgcopy):
        return {"imgcopy": [imgcopy, *self.words], "plain": [self.plain, *self.words]}

    def programs(self, imgcopy, tools):
        return self.both(imgcopy) | ({"copy": [tools["bare_copy"]]} if self.words == ["redo"] else {})


LONGEST_SCRIPT = 2**24
INPUTS = {
    "redo": [
        *(Log("uniform", "uniform", records, 65536) for records in (65536, 131072, 262144, 524288, 1048576)),
        Log("hot", "hot", 1048576, 1024),
        Log("short", "short", 1048576, 65536),
        Log("interleaved", "interleaved", 1048576, 65536),
        Log("rollback", "rollback", 1048576, 65536),
        Log("checkpoints", "checkpoints", 1048576, 65536),
        Log("mixed", "mixed", 1048576, 65536),
        Log("small", "uniform", 65536, 1024),
    ],
    "run": [
        Script("script", "accepted", LONGEST_SCRIPT, 65536),
        Script("refused", "refused", LONGEST_SCRIPT, 65536),
        Script("scan", "scan", LONGEST_SCRIPT, 65536, 64),
        Script("alternate", "alternate", LONGEST_SCRIPT, 65536, 65535),
        Script("tenth", "accepted", LONGEST_SCRIPT, 65536, 6553),
    ],
    "restore": [Files("restore", 3, 65536)],
    "audit": [Files("audit", 3, 65536, "audit")],
}

TOOLS = ["generate", "generate_script", "generate_files", "plain_redo", "plain_run", "plain_restore", "plain_audit",
         "bare_copy", "peak_memory"]
# More than the files of any input, with the volumes of two programs.
NEEDED_ROOM = 512 * 2**20


class Result(NamedTuple):
    """The best of some runs: the time from start to end, the time of all processors, and how many pieces of memory were
    touched for the first time; and the most memory of one more run."""

    seconds: float
    processor: float
    touches: int
    memory: int


class Failure(Exception):
    """What is missing or wrong, in one line."""


def run(command, source, target, an_input):
    """Runs the command once from one file to another. Gives its seconds, what it wrote to standard error, the seconds of
    all its threads, the system's among them, and how many pieces of memory were touched for the first time.

    Fails unless it ends with status 0.
    """
    with open(source, "rb") as standard_input, open(target, "wb") as standard_output, \
            tempfile.TemporaryFile() as standard_error:
        actions = [(os.POSIX_SPAWN_DUP2, file.fileno(), number)
                   for number, file in enumerate((standard_input, standard_output, standard_error))]
        started = time.perf_counter()
        process = os.posix_spawn(command[0], command, os.environ, file_actions=actions)
        status, used = wait(process)
        seconds = time.perf_counter() - started
        standard_error.seek(0)
        said = standard_error.read(1000).decode(errors="replace").strip()
    if status != 0:
        raise Failure(f"{an_input}: {Path(command[0]).name} ended with status {os.waitstatus_to_exitcode(status)}"
                      f" and said {said!r}")
    return seconds, said, used.ru_utime + used.ru_stime, used.ru_minflt


def wait(process):
    try:
        _, status, used = os.wait4(process, 0)
    except BaseException:
        os.kill(process, signal.SIGKILL)
        raise
    return status, used


def measure(job, programs, tools, rounds, folder):
    """The best of each program, whose runs take turns, and its memory in a run of its own."""
    check_same_output(job, programs, folder)
    runs = {name: [] for name in programs}
    for _ in range(rounds):
        for name, command in programs.items():
            seconds, _, processor, touches = run(command, job.source, os.devnull, job.what)
            runs[name].append((seconds, processor, touches))
    memory = {name: int(run([tools["peak_memory"], *command], job.source, os.devnull, job.what)[1])
              for name, command in programs.items()}
    return {name: Result(*map(min, zip(*runs[name])), memory[name]) for name in programs}


def check_same_output(job, programs, folder):
    outputs = {name: folder / f"{name}.output" for name in ("imgcopy", "plain")}
    for name, output in outputs.items():
        run(programs[name], job.source, output, job.what)
    if job.output_size not in (None, outputs["plain"].stat().st_size):
        raise Failure(f"{job.what}: the output has not {job.output_size} bytes")
    if not filecmp.cmp(*outputs.values(), shallow=False):
        raise Failure(f"{job.what}: imgcopy and the plain program give different outputs")
    for output in outputs.values():
        output.unlink()


def table(results):
    columns = ["input", "records", "pages", "program", "seconds", "MB/s", "ratio to plain", "processor seconds",
               "processor ratio", "first touches", "peak MB", "allowed MB", "met"]
    yield columns
    yield ["---" if name in ("input", "program", "met") else "---:" for name in columns]
    for job, by_program in results:
        plain = by_program["plain"]
        for name, result in by_program.items():
            speed = job.size / result.seconds / MEGABYTE
            ratio = result.seconds / plain.seconds
            yield [job.what.name, f"{job.count:,}", f"{job.what.pages:,}", name, f"{result.seconds:.4f}",
                   f"{speed:,.0f}", f"{ratio:.2f}", f"{result.processor:.4f}",
                   f"{result.processor / plain.processor:.2f}", f"{result.touches:,}", f"{result.memory / MEGABYTE:.1f}",
                   *goals(name, ratio, result.memory, job)]


def goals(name, ratio, memory, job):
    if name != "imgcopy":
        return ["", ""]
    is_met = ratio <= ALLOWED_RATIOS[job.words[0]] and (job.allowed is None or memory <= job.allowed)
    return ["" if job.allowed is None else f"{job.allowed / MEGABYTE:.1f}", "yes" if is_met else "no"]


def find_program(path):
    found = shutil.which(path)
    if found is None:
        raise Failure(f"there is no program {path}")
    return os.path.abspath(found)


def find_folder():
    """A folder in memory, where the system has one, so that no disk is measured."""
    in_memory = "/dev/shm"
    if os.access(in_memory, os.W_OK) and shutil.disk_usage(in_memory).free > NEEDED_ROOM:
        return in_memory
    return None


def benchmark(options):
    tools = {name: find_program(os.path.join(options.tools, name)) for name in TOOLS}
    imgcopy = find_program(options.imgcopy)
    results = []
    for inputs in INPUTS.values():
        for an_input in inputs:
            with tempfile.TemporaryDirectory(dir=find_folder()) as folder:
                job = an_input.prepare(tools, Path(folder))
                programs = job.programs(imgcopy, tools)
                results.append((job, measure(job, programs, tools, options.rounds, Path(folder))))
    print(f"{datetime.date.today()}, {os.cpu_count()} cores, best of {options.rounds}:\n")
    for cells in table(results):
        print(f"| {' | '.join(cells)} |")


class Parser(argparse.ArgumentParser):
    def error(self, message):
        raise Failure(message)


def parse(arguments):
    parser = Parser(description="Measures imgcopy beside a plain Rust program and a bare copy.")
    parser.add_argument("--imgcopy", metavar="PROGRAM", required=True)
    parser.add_argument("--tools", metavar="FOLDER", required=True)
    parser.add_argument("--rounds", metavar="N", type=int, default=5)
    options = parser.parse_args(arguments)
    if not 1 <= options.rounds <= 1000:
        raise Failure(f"--rounds is {options.rounds}: a number from 1 to 1000 is wanted")
    return options


def main(arguments):
    # A signal must end the run as an exception does, so that the temporary folder is removed.
    signal.signal(signal.SIGTERM, lambda *_: sys.exit("run.py: ended by a signal"))
    try:
        benchmark(parse(arguments))
    except (Failure, OSError) as failure:
        sys.exit(f"run.py: {failure}")
    except KeyboardInterrupt:
        sys.exit("run.py: interrupted")


if __name__ == "__main__":
    main(sys.argv[1:])
