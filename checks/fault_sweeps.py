"""Fails each call of the page store and of the log's device in turn, and compares what comes of it with the model.

usage: python3 -m checks.fault_sweeps CHECK_FAULTS [COUNT [FIRST]]
       python3 -m checks.fault_sweeps --model [COUNT [FIRST]]     sweeps the model alone

CHECK_FAULTS is the program of that crate. For each worked row, and for COUNT short random scripts from the seed FIRST
on, 100 from seed 1 where none is told, the first call of the store fails, then the second, and so on until none is left;
so do those of the device. Each call fails plainly, and then late, after what it writes was stored. Each time the replies
are those of the model, each complete copy is restored with each part of the log that a crash may leave, and the pages
are those that the log alone makes, before and after undo. Then the call that was refused is made again behind its
refusal. At a fault of the store, and at one of the log as a write begins, the replies of a row are then as ever.

Then each page of each row with a complete copy is damaged, at once, after the first call of the store, and so on. At the
end it is repaired from each complete copy in turn, and a checkpoint and a full copy follow, which restores too.

A player that has no call `save` is given rows and scripts without it and `undoto`.
"""

import os
import shutil
import subprocess
import sys
from collections import Counter
from concurrent.futures import ProcessPoolExecutor
from itertools import repeat

from model import rows as model_rows
from model.faulty_engine import Damage, Fault, FaultyEngine
from model.growth_rows import GROWTH_ROWS
from model.random_scripts import Script, random_script
from model.recovery import Refusal
from model.savepoint_rows import SAVEPOINT_ROWS
from model.scripts import BadScript, read_script

COUNT = 100
SEEDS_IN_A_TASK = 4
MOST_EVENTS = 150
MOST_PAGES = 12
MOST_SCRIPT_FRAMES = 8
MOST_ROW_PAGES = 8
MOST_SECONDS = 60
ROWS = {"rows": model_rows.ROWS, "savepoint rows": SAVEPOINT_ROWS, "growth rows": GROWTH_ROWS}
REFUSALS = ("E22 ", "E23 ", "E26 ")
AS_EVER = {"E22": None, "E23": {"wbegin"}}  # after which refusals, of which calls, a call made again goes as ever


class Failure(Exception):
    """What differs, in one line."""


def played(script, frames, store=Fault(), device=Fault(), damage=None):
    """The engine of the model after these events, and its replies."""
    engine = FaultyEngine(script.pages, frames, store, device, damage)
    return engine, [event.reply(engine) for event in events_of(script)]


def events_of(script):
    return [event for event in read_script(script.text) if event.word != "restore"]


def faults(calls):
    for call in range(1, calls + 1):
        yield Fault(call)
        yield Fault(call, is_late=True)


def cases(script, frames):
    """Which call fails: of the store, or of the device."""
    engine, _ = played(script, frames)
    yield {}
    yield from ({"store": fault} for fault in faults(engine.store_calls))
    yield from ({"device": fault} for fault in faults(engine.device_calls))


def wanted_of(script, frames, faults):
    """What the player has to print, and the replies."""
    try:
        engine, replies = played(script, frames, **faults)
    except Refusal as refusal:
        return f"{refusal.line()}\n", []
    return "".join(f"{line}\n" for line in [*replies, *engine.restores()]), replies


def check(player, name, script, frames, faults):
    """Compares one case, and gives the replies."""
    wanted, replies = wanted_of(script, frames, faults)
    if player is None:
        return replies
    store, device = faults.get("store", Fault()), faults.get("device", Fault())
    damage = faults["damage"].word() if "damage" in faults else "none"
    words = [player, str(script.pages), str(frames), store.word(), device.word(), damage]
    done = subprocess.run(words, input=script.text, capture_output=True, timeout=MOST_SECONDS)
    if (done.returncode, done.stdout.decode()) != (0, wanted):
        given = done.stdout.decode().splitlines()
        at = next((at for at, pair in enumerate(zip(given, wanted.splitlines())) if pair[0] != pair[1]),
                  min(len(given), wanted.count("\n")))
        raise Failure(f"{name}, {frames} frames, {faults}: status {done.returncode}, line {at + 1}: {given[at:at + 1]} in place of"
                      f" {wanted.splitlines()[at:at + 1]}")
    return replies


def sweep(player, name, script, frames):
    """Fails each call in turn, and makes a call again that was refused for it."""
    counts, as_ever = Counter(), played(script, frames)[1]
    for faults in cases(script, frames):
        replies = check(player, name, script, frames, faults)
        counts[next(iter(faults), "none")] += 1
        at = next((at for at, reply in enumerate(replies) if reply.startswith(REFUSALS)), None)
        if at is None:
            continue
        events = events_of(script)
        lines = [" ".join([event.word, *map(str, event.numbers)]) for event in events]
        again = Script(script.pages, "".join(f"{line}\n" for line in [*lines[:at + 1], *lines[at:]]).encode())
        replies = check(player, f"{name}, call {at + 1} made again", again, frames, faults)
        counts["again"] += 1
        words = AS_EVER.get(replies[at].split()[0], set())
        if (words is None or events[at].word in words) and replies[:at] + replies[at + 1:] != as_ever:
            raise Failure(f"{name}, {faults}: the call made again does not go on as ever")
    return counts


def mended(script, frames, damage):
    """The script without its restore; then repairs of the damaged page from each complete copy, and a copy of all pages.
    Also how many pages these are."""
    engine, _ = played(script, frames, damage=damage)
    lines = [" ".join([event.word, *map(str, event.numbers)]) for event in events_of(script)]
    lines += [f"wend {damage.page}"] if damage.page in engine.images else []
    lines += [f"repair {copy.number} {damage.page}" for copy in engine.complete_copies()]
    lines += ["ckpt", *["gather"] * (len(engine.dirty()) + len(engine.transactions.open) + 3), "endckpt", "full"]
    number = len(engine.copies) + 1
    lines += [*(f"take {number} {page}" for page in range(engine.count)), f"seal {number}"]
    return Script(script.pages, "".join(f"{line}\n" for line in lines).encode()), engine.count


def damage_sweep(player, name, script, frames):
    """Damages each page that a new volume has once so many calls of the store were made, and repairs it."""
    counts, engine = Counter(), played(script, frames)[0]
    for calls in range(engine.store_calls + 1):
        for page in range(script.pages):
            damage = Damage(page, calls)
            again, count = mended(script, frames, damage)
            complete = played(script, frames, damage=damage)[0].complete_copies()
            if not complete:
                continue
            replies = check(player, name, again, frames, {"damage": damage})
            if f"sealed {count}" != replies[-1] or sum(reply.startswith("repaired") for reply in replies) < len(complete):
                raise Failure(f"{name}, page {page} damaged from call {calls} on: it is not repaired")
            counts["damage"] += 1
    return counts


def scripts_of(task):
    """The rows, with a frame for each page where they want no other count, or short random scripts of these seeds, with
    few frames."""
    if task in ROWS:
        for row in ROWS[task]:
            if row.pages <= MOST_ROW_PAGES:
                yield row.name, Script(row.pages, row.script()), min(row.pages, row.frames)
        return
    for seed in task:
        frames = seed % MOST_SCRIPT_FRAMES + 1
        yield f"script {seed}", short_script(seed, frames), frames


def short_script(seed, frames):
    """The first random script from this seed on that is short, and in which a copy becomes complete."""
    for number in range(1000 * seed, 1000 * seed + 1000):
        script = random_script(number)
        if script.pages <= MOST_PAGES and script.text.count(b"\n") <= MOST_EVENTS:
            if played(script, frames)[0].complete_copies():
                return script
    raise Failure(f"no short script from seed {seed} on")


def sweep_all(player, task):
    counts = Counter()
    for name, script, frames in scripts_of(task):
        counts += sweep(player, name, script, frames)
        if task in ROWS:
            counts += damage_sweep(player, name, script, frames)
    return counts


def main(arguments):
    try:
        if not 1 <= len(arguments) <= 3 or not all(number.isdigit() for number in arguments[1:]):
            raise Failure("usage: python3 -m checks.fault_sweeps CHECK_FAULTS [COUNT [FIRST]]")
        player = shutil.which(arguments[0])
        if player is None and arguments[0] != "--model":
            raise Failure(f"there is no program {arguments[0]}")
        count, first = [*map(int, arguments[1:]), *(COUNT, 1)[len(arguments) - 1:]]
        seeds, player = range(first, first + count), player and os.path.abspath(player)
        tasks = [*ROWS, *(seeds[at:at + SEEDS_IN_A_TASK] for at in range(0, count, SEEDS_IN_A_TASK))]
        with ProcessPoolExecutor(os.cpu_count()) as pool:
            counts = sum(pool.map(sweep_all, repeat(player), tasks), Counter())
    except (Failure, BadScript, OSError, subprocess.TimeoutExpired) as failure:
        sys.exit(f"fault_sweeps.py: {failure}")
    print(f"ok fault_sweeps: all rows and {count} random scripts, with {counts['store']} calls of the store that fail,"
          f" {counts['device']} of the device, {counts['again']} refused calls made again, and {counts['damage']} damaged"
          " pages repaired")


if __name__ == "__main__":
    main(sys.argv[1:])
