"""Builds the key-value store of `examples/kv` outside of the repository, kills it, and runs it again in what it left.

usage: python3 -m checks.kv PROGRAM [KILLS] LIBRARY
       python3 -m checks.kv --can     says by its status whether the crates are proved on this machine

`tools/new_root.py` makes a root with the crates that the store stands on, as docs/USING.md says, and `rt ci` proves the
store there. What it has proved of these crates on this machine it does not prove again; where it has not, it would prove them for an hour, so
`--can` gives them five minutes. The store is killed KILLS times, 10 where none is told. Each time:

- Each key that it tells when it is run again has the number that was told last, or that of one more put a writer, of
  which it was not told.
- Key 0 has the count of all puts, with those of which it was not told. So no put is there by half.

In the end it runs to its end and settles, and the program for files says that the copy there restores the log. Where the
log is then lost beside its copy, or a part of one, the store is refused, and the copy stays. LIBRARY is file_calls.rs,
built: it notes the calls of a new store, and by the rules of bank_calls.py the names of its files last before it tells
anything.
"""

import os
import random
import shutil
import signal
import subprocess
import sys
import tempfile
import time
from pathlib import Path

from checks.bank_calls import Disk, Trace
from checks.bank_files import Failure, program_of

ROOT = Path(__file__).resolve().parent.parent
EXAMPLE = ROOT / "examples" / "kv"
KILLS, WRITERS, MOST_PUTS, LAST_PUTS = 10, 2, 100_000, 300
SECONDS_OF_A_LOOK, SECONDS_OF_A_BUILD, MOST_SECONDS = 300, 3600, 120


def prove(root, names, seconds):
    """Has the crates of these names proved, and those that they stand on; or all, whose programs are left in out/."""
    child = subprocess.Popen(["rt", "ci", *names], cwd=root, stdin=subprocess.DEVNULL, stdout=subprocess.PIPE,
                             stderr=subprocess.STDOUT, text=True, start_new_session=True)
    try:
        said, _ = child.communicate(timeout=seconds)
    except subprocess.TimeoutExpired:
        os.killpg(child.pid, signal.SIGTERM)
        child.communicate()
        raise
    if child.returncode != 0 or " passed, 0 failed" not in said.splitlines()[-1]:
        raise Failure(f"rt ci: status {child.returncode}, {said[-900:]!r}")


def make_root(place):
    """A root of its own, with the crates that the store stands on, and the store."""
    root = place / "root"
    made = subprocess.run([sys.executable, ROOT / "tools" / "new_root.py", root, "kv"], capture_output=True, text=True)
    if made.returncode != 0:
        raise Failure(f"new_root.py: status {made.returncode}, {made.stderr[-300:]!r}")
    for source in EXAMPLE.glob("*.rt.txt"):
        shutil.copy(source, root / "crates" / "kv" / "src" / source.stem)
    # The gate runs it without words.
    (root / "crates" / "kv" / "status").write_text("2\n", encoding="utf-8")
    return root


def build(place):
    """The program, proved and built."""
    root = make_root(place)
    prove(root, [], SECONDS_OF_A_BUILD)
    return root / "crates" / "kv" / "out" / "kv"


def is_kept():
    """Whether `rt` has kept the proofs of the crates on this machine."""
    with tempfile.TemporaryDirectory() as name:
        try:
            prove(make_root(Path(name)), ["imgcopy_engine"], SECONDS_OF_A_LOOK)
            return True
        except (Failure, OSError, subprocess.TimeoutExpired):
            return False


def numbers(lines, word):
    """What lines of a kind tell: a number for each key, the last one."""
    return {int(key): int(number) for key, number in (line.split()[1:] for line in lines if line.startswith(word))}


class Store:
    """A store's folder, and what its lives have told so far."""

    def __init__(self, program, folder):
        self.program, self.folder, self.told, self.count = program, folder, {}, 0

    def live(self, puts, seconds=None):
        """One life: it is killed so many seconds behind its opening, or comes to its end."""
        child = subprocess.Popen([self.program, self.folder, str(puts)], stdout=subprocess.PIPE, stderr=subprocess.PIPE)
        lines = []
        try:
            while not lines or lines[-1] != "opened":
                line = child.stdout.readline().decode()
                if not line:
                    raise Failure(f"it did not open: {child.communicate()[1][-300:]!r}")
                lines.append(line.rstrip("\n"))
            if seconds is not None:
                time.sleep(seconds)
                child.kill()
            rest, said = child.communicate(timeout=MOST_SECONDS)
        finally:
            child.kill()
        if seconds is None and (child.returncode != 0 or not rest.endswith(b"closed\n")):
            raise Failure(f"it ended with status {child.returncode}, {said[-300:]!r}")
        # A line that was cut off is none.
        whole = rest.decode().rpartition("\n")[0].splitlines()
        self.compare(numbers(lines, "got "))
        puts_told = [line for line in whole if line.startswith("put ")]
        self.told.update(numbers(puts_told, "put "))
        self.count += len(puts_told)
        return len(puts_told)

    def compare(self, found):
        """Compares what is there with what was told. What is there is told from then on."""
        untold = found.pop(0, 0) - self.count
        others = [key for key in found.keys() | self.told.keys() if found.get(key) != self.told.get(key)]
        if not 0 <= untold <= WRITERS or len(others) > untold:
            raise Failure(f"{self.count} puts were told, {untold} more are counted, and these keys differ: {others}")
        self.told, self.count = found, self.count + untold


def check_lost_log(program, folder):
    """The log of a store that ran is lost, and then also the name of its copy."""
    (folder / "log").unlink()
    for name in ("copy", "copy.new"):
        before = {path.name: path.read_bytes() for path in folder.iterdir()}
        done = subprocess.run([program, folder, "1"], capture_output=True, text=True, timeout=MOST_SECONDS)
        after = {path.name: path.read_bytes() for path in folder.iterdir()}
        if done.returncode == 0 or "no log" not in done.stderr or after != before:
            raise Failure(f"a store with {name} and no log: status {done.returncode}, {done.stdout[:100]!r},"
                          f" {done.stderr!r}, {sorted(after)}")
        if name == "copy":
            (folder / name).rename(folder / "copy.new")


def check_names(program, folder, library):
    """What a new store has made, as it tells its first line, has names that last."""
    folder.mkdir()
    noted = folder.with_suffix(".trace")
    environment = os.environ | {"LD_PRELOAD": library, "CALLS_FOLDER": str(folder), "CALLS_TRACE": str(noted)}
    done = subprocess.run([program, folder, "1"], env=environment, capture_output=True, text=True, timeout=MOST_SECONDS)
    trace = Trace(noted.read_bytes(), folder, {})
    disk, first = Disk(trace), [call.word for call in trace.calls].index("tell")
    for call in trace.calls[:first]:
        disk.take(call)
    if done.returncode != 0 or "log" not in disk.entries or disk.names:
        raise Failure(f"a new store: status {done.returncode}, {done.stderr!r}; as it tells its first line these names"
                      f" last: {sorted(disk.entries)}")


def main(arguments):
    if arguments == ["--can"]:
        sys.exit(0 if is_kept() else 1)
    try:
        if not 2 <= len(arguments) <= 3 or not all(number.isdigit() for number in arguments[1:-1]):
            raise Failure("usage: python3 -m checks.kv PROGRAM [KILLS] LIBRARY")
        imgcopy, library = program_of(arguments[0]), os.path.abspath(arguments[-1])
        kills = int((arguments[1:-1] or [KILLS])[0])
        draw = random.Random(1)
        with tempfile.TemporaryDirectory() as name:
            program, folder = build(Path(name)), Path(name) / "store"
            folder.mkdir()
            store = Store(program, folder)
            puts = sum(store.live(MOST_PUTS, draw.random()) for _ in range(kills))
            puts += store.live(LAST_PUTS)
            store.live(0)
            audit = subprocess.run([imgcopy, "audit", folder / "log", folder / "copy"], capture_output=True, text=True,
                                   timeout=MOST_SECONDS)
            if audit.stdout != "sound\n":
                raise Failure(f"the copy: {audit.stdout!r}, {audit.stderr!r}")
            check_lost_log(program, folder)
            check_names(program, Path(name) / "new", library)
    except (Failure, OSError, subprocess.SubprocessError) as failure:
        sys.exit(f"kv.py: {failure}")
    print(f"ok kv: after each of {kills} kills each of {puts} puts is there that was told, and none is there by half")


if __name__ == "__main__":
    main(sys.argv[1:])
