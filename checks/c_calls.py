"""Calls the library for C from C, Rust and Python, and compares what it answers with the model and with a program.

usage: python3 -m checks.c_calls PROGRAM FOLDER

FOLDER has libimgcopy.a, and libimgcopy.so.0 if a C compiler was there. A language of which there is no compiler is left
out, and the last line says so.

- The symbols of the library are its exports and what it takes of the C library.
- From C, with the sanitizers where they are there: the logs of examples/, the day's copies, and the program of
  docs/USING.md; some thousand logs with drawn changes, of which all calls have to agree; and each allocation refused.
  C++ reads the header, too.
- From Rust: the tests of bindings/rust, and the day's copies.
- From Python: each of the spoiled logs of faults.py but the longest ones, and chains of random scripts whose files are
  spoiled, each against the model, which the program is compared with elsewhere.
"""

import os
import re
import shutil
import subprocess
import sys
import tempfile
from concurrent.futures import ProcessPoolExecutor
from itertools import repeat
from pathlib import Path

from checks import faults
from checks.answers import run_script
from model.recovery import audit_files, encode_pages, read_log, redo_all, undo_records
from model.random_scripts import random_script
from model.samples import Draw
from model.spoiled_files import Given, spoil

ROOT = Path(__file__).resolve().parent.parent
EXAMPLES, BINDINGS = ROOT / "examples", ROOT / "bindings"
SEEDS, SPOILED, DRAWN, MOST_SECONDS = 60, 20, 1500, 900
COPIES = ["copy-1", "copy-2", "copy-3"]
STRICT = ["-std=c11", "-Wall", "-Wextra", "-pedantic", "-Werror"]
# What the library may take of C, and the part of the kit that makes these calls.
TAKEN = {"malloc", "realloc", "free", "memcpy", "memmove", "memset"}
ALLOCATOR = {"rattle_alloc", "rattle_realloc", "rattle_dealloc"}


class Failure(Exception):
    """What differs, in one line."""


def run(words, **options):
    """What a command writes, which has to end well."""
    done = subprocess.run([str(word) for word in words], capture_output=True, timeout=MOST_SECONDS, **options)
    if done.returncode != 0:
        said = (done.stderr or done.stdout)[-600:].decode(errors="replace")
        raise Failure(f"{words[0]}: status {done.returncode}, {said}")
    return done.stdout.decode()


def same(what, given, wanted):
    if given != wanted:
        raise Failure(f"{what}: {given!r:.300} in place of {wanted!r:.300}")


# ---- symbols

def exports():
    """The names that the header declares."""
    text = re.sub(r"/\*.*?\*/", "", (ROOT / "include" / "imgcopy.h").read_text(encoding="utf-8"), flags=re.DOTALL)
    return set(re.findall(r"^\w+ (imgcopy_\w+)\(", text, re.MULTILINE))


def symbols(words):
    """The names that are defined for others, and those that are wanted of them."""
    found = re.findall(r"^(?:[0-9a-f]+)? +([A-Za-z]) (\w+)", run(["nm", *words]), re.MULTILINE)
    return ({name for kind, name in found if kind.isupper() and kind not in "UA"},
            {name for kind, name in found if kind == "U"})


def check_symbols(folder):
    defined, wanted = symbols(["-g", folder / "libimgcopy.a"])
    same("what libimgcopy.a defines", defined, exports() | ALLOCATOR)
    same("what libimgcopy.a takes", wanted - defined, TAKEN)
    if (folder / "libimgcopy.so.0").exists():
        defined, wanted = symbols(["-D", folder / "libimgcopy.so.0"])
        same("what libimgcopy.so.0 defines", defined, exports())
        same("what libimgcopy.so.0 takes", wanted, TAKEN)


# ---- the files of a day

def save_day(program, place):
    """The day of the demo, with a log and three copies."""
    place.mkdir()
    with open(EXAMPLES / "day.script", "rb") as script:
        run([program, "run", "--pages", "3", "--save", place], stdin=script)


def spoiled_day(place):
    """A copy whose last page has another number."""
    data = (place / "copy-1").read_bytes()
    (place / "changed").write_bytes(data[:-1] + bytes([data[-1] ^ 1]))


def audited(program, day, copies):
    """The line of the program's audit of these copies."""
    done = subprocess.run([program, "audit", "log", *copies], cwd=day, capture_output=True, timeout=MOST_SECONDS)
    return done.stdout.decode().strip()


def redone(program, log):
    """The volume that the program makes of a log."""
    with open(log, "rb") as source:
        return subprocess.run([program, "redo"], stdin=source, capture_output=True, timeout=MOST_SECONDS).stdout


def numbers_of(line):
    """The code of a line and its numbers."""
    if not line.startswith("E"):
        return [0, 0, 0, 0]
    code, _, *numbers = line.split()
    return ([int(code[1:]), *map(int, numbers)] + [0, 0, 0])[:4]


# ---- C

def compiler(name, default):
    return shutil.which(os.environ.get(name, default))


def compiled(cc, folder, source, to, flags):
    return run([cc, *STRICT, *flags, f"-I{ROOT / 'include'}", source, folder / "libimgcopy.a", "-o", to])


def sanitizers(cc, place):
    """The flags of the sanitizers that this compiler has, as far as a program with them runs."""
    (place / "empty.c").write_text("int main(void) { return 0; }\n", encoding="utf-8")
    for flags in (["-fsanitize=address,undefined", "-fno-sanitize-recover=all", "-g"], []):
        try:
            run([cc, *flags, place / "empty.c", "-o", place / "empty"])
            run([place / "empty"])
            return flags
        except Failure:
            continue
    raise Failure(f"{cc} compiles no program")


def check_c(cc, program, folder, place, day):
    flags, caller = sanitizers(cc, place), place / "c_calls"
    compiled(cc, folder, ROOT / "checks" / "c_calls.c", caller, ["-O1", *flags, "-Wl,--wrap=malloc,--wrap=realloc"])
    logs = sorted(EXAMPLES.glob("*.log"))
    for log in logs:
        said = run([caller, log, place / "made"]).splitlines()
        check_example(log, said, (place / "made").read_bytes())
    for copies in (COPIES, COPIES[:1], COPIES[1:], [], ["changed"]):
        said = run([caller, day / "log", place / "made", *(day / copy for copy in copies)]).splitlines()
        line = audited(program, day, copies)
        same(f"C, an audit of {copies}", said[3], " ".join(["audit", *map(str, numbers_of(line))]))
        same("C, the day's volume", (place / "made").read_bytes(), redone(program, day / "log"))
    run([caller, "--refuse", day / "log", *(day / copy for copy in COPIES)])
    run([caller, "--draw", DRAWN, os.getpid(), *(log for log in logs if log.stat().st_size < 10_000)])
    check_page(cc, folder, place)
    cxx = compiler("CXX", "c++")
    if cxx:
        run([cxx, "-std=c++11", "-Wall", "-Werror", "-fsyntax-only", "-x", "c++", ROOT / "include" / "imgcopy.h"])
    return "C with sanitizers" if flags else "C"


def check_example(log, said, volume):
    """A log of examples/, of which either the volume or the fault stands beside it."""
    wanted = log.with_suffix(".volume")
    if wanted.exists():
        same(f"C, the volume of {log.name}", volume, wanted.read_bytes())
        data = log.read_bytes()
        same(f"C, {log.name}", said[:3], [f"check 0 {len(volume) // 512} {len(data) // 64 - 1} {len(data)}",
                                         f"redo 0 {len(volume)} 0 0", f"prefix 0 {len(data)} 0 0"])
    else:
        code, at, *_ = numbers_of(log.with_suffix(".fault").read_text(encoding="utf-8"))
        same(f"C, {log.name}", said[:3], [f"check {code} {at} 0 0", f"redo {code} {at} 0 0", f"prefix 0 {at} {code} 0"])


def check_page(cc, folder, place):
    """The program that docs/USING.md shows."""
    page = (ROOT / "docs" / "USING.md").read_text(encoding="utf-8")
    source = re.search(r"^```c\n(.*?)^```", page, re.DOTALL | re.MULTILINE)
    (place / "using.c").write_text(source[1], encoding="utf-8")
    compiled(cc, folder, place / "using.c", place / "using", [])
    words = [place / "using", EXAMPLES / "growth.log"]
    same("the program of USING", run([*words, EXAMPLES / "growth.volume"]), "the volume is what its log says\n")
    done = subprocess.run([*words, EXAMPLES / "rollback.volume"], capture_output=True)
    same("the program of USING", (done.returncode, done.stdout), (1, b"the volume is not what its log says\n"))


# ---- Rust

def check_rust(program, folder, day):
    words = ["--offline", "--quiet", "--locked", "--manifest-path", BINDINGS / "rust" / "Cargo.toml", "--target-dir",
             ROOT / "build" / "bindings"]
    environment = {**os.environ, "IMGCOPY_LIB_DIR": str(folder)}
    run(["cargo", "test", *words], env=environment)
    for copies in (COPIES, ["changed"]):
        said = run(["cargo", "run", *words, "--example", "files", "--", day / "log", *(day / copy for copy in copies)],
                   env=environment).splitlines()
        same(f"Rust, an audit of {copies}", said[-1], audited(program, day, copies))


# ---- Python

def library():
    """The module over the library that IMGCOPY_LIBRARY names."""
    sys.path.append(str(BINDINGS / "python"))
    import imgcopy  # pylint: disable=import-outside-toplevel  # it loads the library
    return imgcopy


def line_of(call, *arguments):
    """What a call gives, and the line of its fault."""
    try:
        return call(*arguments), ""
    except library().Fault as fault:
        return None, str(fault)


def check_log(name, log):
    """A spoiled log against the rules of the model."""
    imgcopy, (_, wanted, error) = library(), faults.reader.answer(log)
    line = error.decode().strip()
    volume, said = line_of(imgcopy.redo, log)
    same(f"Python, redo of {name}", (volume or b"", said), (wanted, line))
    same(f"Python, a check of {name}", line_of(imgcopy.check_log, log)[1], line)
    prefix, said = line_of(imgcopy.log_prefix, log)
    if line.startswith("E30"):
        same(f"Python, the front of {name}", said, line)
        return
    same(f"Python, the front of {name}", (prefix.end, str(prefix.fault or "")), (len(faults.reader.right), line))
    check_recovery(name, log[:prefix.end])


def check_recovery(name, log):
    """A log that was cut where its front ends, recovered as the model does."""
    imgcopy, (pages, records) = library(), read_log(log)
    undone = undo_records(records)
    found, said = line_of(imgcopy.recover, log)
    wanted = (encode_pages(redo_all(records + undone, pages)), b"".join(record.encode() for record in undone))
    same(f"Python, a recovery of {name}", (found, said), (wanted, ""))


def check_seed(seed):
    """The chains of a random script, right and spoiled, against the model; how many audits were compared."""
    imgcopy, ran, draw, count = library(), run_script(random_script(seed)), Draw(seed), 0
    others = run_script(random_script(1 + seed % 7)).files
    for copy in ran.engine.complete_copies():
        for turn in range(SPOILED):
            given = Given(ran.files, ran.engine.chain(copy.number))
            if turn:
                spoil(draw, given, others)
            log, _, archives = given.contents()
            if log is None or None in archives:
                continue
            wanted = audit_files(log, archives).output.decode().strip()
            said = line_of(imgcopy.audit, log, archives)[1] or "sound"
            same(f"Python, script {seed}, copy {copy.number} spoiled by {', '.join(given.done)}", said, wanted)
            count += 1
    return count


def check_python(folder):
    os.environ["IMGCOPY_LIBRARY"] = str((folder / "libimgcopy.so.0").resolve())
    names, logs = zip(*faults.small_logs())
    with ProcessPoolExecutor(os.cpu_count()) as pool:
        seeds = pool.map(check_seed, range(1, SEEDS + 1))
        for _ in pool.map(check_log, names, logs, chunksize=50):
            pass
        return len(logs), sum(seeds)


def main(arguments):
    try:
        if len(arguments) != 2:
            raise Failure("two arguments are wanted, the program and the folder of the library")
        program, folder = os.path.abspath(arguments[0]), Path(arguments[1]).resolve()
        cc, callers, left_out = compiler("CC", "cc"), [], []
        with tempfile.TemporaryDirectory() as name:
            place, day = Path(name), Path(name) / "day"
            save_day(program, day)
            spoiled_day(day)
            if shutil.which("nm"):
                check_symbols(folder)
            if cc:
                callers.append(check_c(cc, program, folder, place, day))
            if shutil.which("cargo"):
                check_rust(program, folder, day)
                callers.append("Rust")
            if (folder / "libimgcopy.so.0").exists():
                callers.append("Python")
                logs, audits = check_python(folder)
            left_out = [name for name in ("C", "Rust", "Python") if not any(it.startswith(name) for it in callers)]
    except (Failure, faults.Failure, OSError, subprocess.TimeoutExpired) as failure:
        sys.exit(f"c_calls.py: {failure}")
    compared = f"; {logs} logs and {audits} audits are as the model has them" if "Python" in callers else ""
    lacking = f"; left out, since there is no compiler: {', '.join(left_out)}" if left_out else ""
    print(f"ok c_calls: called from {', '.join(callers)}{compared}{lacking}")


if __name__ == "__main__":
    main(sys.argv[1:])
