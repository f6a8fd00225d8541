"""Kills a database in a folder at random moments, spoils what it leaves, and opens it again.

usage: python3 -m checks.open_kills IMGCOPY [KILLS [FIRST]]

Each folder has up to LIVES lives, one behind another, KILLS in all, 200 where none is told, with the seeds from FIRST
on. A life opens what the one before it left: `imgcopy open` is sent random calls and lines that are none, and is killed
while it opens, behind a reply, among calls that it was sent, or while it closes, or it comes to its end. Between two
lives open_spoils.py may spoil the volume, a copy, the master record, the note of a clean end, and the log. The model is
given what stands in the folder, and then:

- Where something shows that the log lacks records that were forced, the opening is refused with the model's words, and
  nothing in the folder is touched; then `--salvage` opens it, and gives what knows of more another name. A kill alone
  leaves no such folder.
- The first line is the model's, and so is each reply, and each line on standard error of a life that ends.
- The log's file is a beginning of the model's log, and has all that was forced behind the last reply that was read: so
  each commit that was told is there in the next life, and what was open is taken back.
- All bytes that the log's file had still stand: in it, or in a file of bytes that were left out.
- Each copy whose `sealed` was told is there, whole. No other file of a copy is changed or gone, but that one whose name
  a sealed copy needs has another name. So has a master record of no checkpoint of the log.
- The master record names a checkpoint that is at least as new as the last one that was told.
- `closed` is there behind a clean end alone, and says where the log ends; then the volume has each page as the engine
  has it.
- `imgcopy audit` and `imgcopy restore` take the log, the master record, and each chain of copies, also those that were
  made before a loss.
"""

import hashlib
import os
import random
import re
import shutil
import subprocess
import sys
import tempfile
import time
from collections import Counter
from concurrent.futures import ProcessPoolExecutor
from pathlib import Path
from threading import Thread, Timer
from typing import NamedTuple

from checks.bank_files import Failure, memory_place, program_of
from checks.open_folders import (MOST_SECONDS, Files, Judge, Told, check_point, check_refusal, is_unfinished,
                                 with_first_pages)
from checks.open_spoils import spoil
from model.engine import MOST_FRAMES, Engine
from model.lives import closed_note, has_log, is_headless, is_master_of, is_worth_keeping, line_of_new, lines_of, reopen
from model.log_format import HEADER_SIZE, encode_header, lsn_of
from model.random_scripts import take_turns
from model.recovery import encode_log, encode_pages

KILLS, LIVES, LONGEST_LIFE = 200, 6, 300
UNENDED = "it has no line feed, and was not made"
# Lines that are no calls, and what is told of each; nothing of some.
NOISE = [(b"", None), (b"# a line", None), (b"\r", None), (b"foo", "unknown call `foo`"), (b"  ", "it has spaces alone"),
         (b"set 1 0 0", "`set` takes 4 numbers, and 3 stand here"), (b"commit x", "a number is misspelled or too large"),
         (b"restore 1 all", "an open database has no `restore`"), (b"\xff", "not UTF-8"),
         (b"#" * 1025, "over 1024 bytes"), (b"#" * 1024, None)]
# The same of last lines without a line feed.
LAST = [(b"", None), (b"", None), (b"# a line", None), (b"\r", None), (b"begin", UNENDED), (b"force", UNENDED),
        (b"foo", UNENDED), (b"\xff", UNENDED), (b"x" * 1025, "over 1024 bytes")]
AT_ITS_END, WHILE_IT_CLOSES = "at its end", "while it closes"


class Line(NamedTuple):
    """A line that is sent."""

    text: bytes
    event: str | None  # None where it is no call
    reply: str | None  # None where it has none
    forced: int  # how many records are forced behind it


class Life:
    """One life of a database, from what stands in its folder on."""

    def __init__(self, imgcopy, folder, seed, pages):
        self.draw = random.Random(seed)
        self.imgcopy, self.folder = imgcopy, folder
        self.before = Files.of(folder)
        frames = self.draw.choice([1, 2, 3, MOST_FRAMES, MOST_FRAMES])
        self.is_strict = self.draw.random() < 0.3
        self.words = [imgcopy, "open", folder, "--frames", str(frames), *(["--strict"] if self.is_strict else [])]
        self.refused, self.losses, self.said = {}, [], []
        self.front, self.left_out, self.master_aside, self.moved = None, None, None, {}
        if self.before.log is None or is_headless(self.before.log):
            self.words += ["--pages", str(pages)]
            self.engine = Engine(pages, frames)
            self.first, self.floor = line_of_new(pages), -1
        else:
            self.reopen(frames)
        self.had_master = self.engine.master
        if self.master_aside and self.had_master and not self.moved.get("master"):
            self.tell_moved("master", self.master_aside)
        forced = self.engine.forced
        self.play = Told(seed, self.engine)
        take_turns(self.play)
        self.copies_aside = {}
        self.lines, self.last = self.script(forced)
        self.answers = [Line(b"", None, self.first, forced), *(line for line in self.lines if line.reply is not None)]

    def reopen(self, frames):
        before = self.before
        again = reopen(before.log, before.copies, frames)
        self.engine, self.first, self.floor = again.engine, again.line, len(again.front.records)
        self.front, self.refused = again.front, again.refused
        end = again.front.end()
        if self.draw.random() < 0.25:
            self.words += ["--pages", str(again.engine.count)]
        self.losses = before.told_losses(self.folder)
        self.said += [*before.told_note(self.folder), *self.losses]
        self.moved = {loss.file: before.aside(loss.file) for loss in before.losses() if loss.file}
        for name, aside in self.moved.items():
            self.tell_moved(name, aside)
        if again.front.why:
            count = len(before.log) - end
            some = "1 byte behind {} was" if count == 1 else f"{count} bytes behind {{}} were"
            self.said.append(f"{self.folder}/log: {some.format(end)} left out: {again.front.why}")
            if is_worth_keeping(before.log[end:]):
                self.left_out = before.left_out()
                self.said.append(f"{self.folder}/log: they are now {self.left_out}")
        self.said += [f"{self.folder}/copy-{number}: {why}" for number, why in again.refused.items()]
        self.said += [f"{self.folder}/manifest: the line of `{name}` is dropped"
                      for name, _, _ in lines_of(before.manifest or b"")
                      if "manifest" not in self.moved and (name not in before.all or name in self.moved)]
        if before.master is not None and not is_master_of(before.master, again.front.records):
            self.master_aside = before.aside("master")

    def tell_moved(self, name, aside):
        self.said.append(f"{self.folder}/{name}: what stood there is now {aside}")

    def script(self, forced):
        """The lines of the life, and a last one, which has no line feed."""
        lines, has_master = [], bool(self.had_master) or "master" in self.moved
        for event, reply, more in zip(self.play.events, self.play.replies, self.play.forced):
            while self.draw.random() < 0.05:
                lines.append(self.no_call(len(lines) + 1, forced, NOISE))
            forced = more
            lines.append(Line(event.encode(), event, reply, forced))
            name = "-".join(["copy", *event.split()[1:]])
            if event.startswith("seal") and reply.startswith("sealed") and name in self.before.all and \
                    name not in self.moved:
                self.copies_aside[name] = self.before.aside(name)
                self.tell_moved(name, self.copies_aside[name])
            if reply.startswith("point") and not has_master:
                has_master = True
                if self.master_aside:
                    self.tell_moved("master", self.master_aside)
        # It is told in a life that comes to its end alone.
        return lines, self.no_call(len(lines) + 1, forced, LAST)

    def no_call(self, number, forced, some):
        text, why = self.draw.choice(some)
        if why is not None:
            self.said.append(f"line {number}: {why}")
        return Line(text, None, None if why is None else f"bad line {number}: {why}", forced)

    # A life

    def live(self):
        """The life: what it answered, how it ended, its status, and what it said on standard error."""
        child = subprocess.Popen(self.words, stdin=subprocess.PIPE, stdout=subprocess.PIPE, stderr=subprocess.PIPE)
        said = []
        drain, late = Thread(target=lambda: said.append(child.stderr.read())), Timer(LONGEST_LIFE, child.kill)
        drain.start()
        late.start()
        try:
            output, kind = self.ways()(child)
        finally:
            is_late = not late.is_alive()
            late.cancel()
            child.kill()
        output += child.stdout.read()
        if is_late:
            raise Failure(f"after {LONGEST_LIFE} seconds it has answered {output[-200:]!r}")
        child.stdin.close()
        child.stdout.close()
        drain.join(MOST_SECONDS)
        child.wait(MOST_SECONDS)
        return output, kind, child.returncode, said[0].decode()

    def ways(self):
        return self.draw.choice([self.begin, self.behind, self.among, self.among, self.close, self.end, self.end])

    def begin(self, child):
        """Killed within its first moments."""
        time.sleep(self.draw.random() ** 2 * 1.5 * OPENING)
        return b"", "while it opened"

    def behind(self, child):
        """Killed soon behind a reply, with all lines sent."""
        self.send(child, self.lines)
        output = self.read(child, self.draw.randint(1, len(self.answers)))
        time.sleep(self.draw.random() ** 3 * 0.002)
        return output, "behind a reply"

    def among(self, child):
        """Killed while it has some more lines."""
        at = self.draw.randint(0, len(self.lines))
        self.send(child, self.lines[:at])
        output = self.read(child, 1 + sum(line.reply is not None for line in self.lines[:at]))
        self.send(child, self.lines[at:at + self.draw.choice([1, 5, 50, 500])])
        time.sleep(self.draw.random() ** 3 * 0.005)
        return output, "among calls"

    def close(self, child):
        """Killed soon behind its last reply, with nothing more to come."""
        self.send_all(child)
        output = self.read(child, len(self.answers))
        time.sleep(self.draw.random() ** 2 * 0.01)
        return output, WHILE_IT_CLOSES

    def end(self, child):
        """It comes to its end."""
        self.send_all(child)
        output = child.stdout.read()
        child.wait(MOST_SECONDS)
        return output, AT_ITS_END

    def send_all(self, child):
        self.send(child, self.lines, self.last.text)
        child.stdin.close()
        self.answers += [self.last] if self.last.reply else []

    def send(self, child, lines, last=b""):
        try:
            child.stdin.write(b"".join(line.text + b"\n" for line in lines) + last)
            child.stdin.flush()
        except BrokenPipeError:
            raise Failure(f"it ended of itself: {child.wait(MOST_SECONDS)}") from None

    @staticmethod
    def read(child, count):
        """So many lines that it answers."""
        return b"".join(child.stdout.readline() for _ in range(count))

    # What has to be there then

    def check(self, output, kind, status, said):
        answers = output.decode().split("\n")[:-1]
        for place, (answer, line) in enumerate(zip(answers, self.answers)):
            if answer != line.reply:
                raise Failure(f"line {place + 1} is {answer!r}, and {line.reply!r} is wanted")
        if len(answers) > len(self.answers):
            raise Failure(f"{len(answers)} lines, and {len(self.answers)} are wanted")
        if kind == AT_ITS_END:
            self.check_end(answers, status, said)
        after, told = Files.of(self.folder), self.answers[:len(answers)]
        self.check_log(after, told)
        self.check_names(after, told)
        self.check_copies(after, told)
        self.check_master(after, told)
        self.check_closed(after, told, kind)
        self.check_manifest(after, told, kind)
        return after, told

    def check_end(self, answers, status, said):
        tally = self.tally() if self.is_strict else []
        if status != len(tally) or len(answers) != len(self.answers):
            raise Failure(f"status {status}, {len(answers)} of {len(self.answers)} lines, and {said[:300]!r}")
        errors = with_first_pages([line.removeprefix("imgcopy: ") for line in said.splitlines()])
        wanted = [*self.said, *tally]
        if errors != wanted:
            differ = [pair for pair in zip(errors, wanted) if pair[0] != pair[1]]
            raise Failure(f"standard error has {len(errors)} lines, {len(wanted)} are wanted, and {differ[:1]} differs")

    def tally(self):
        """The line that counts the lines that were refused, if there are such."""
        replies = {number: line.reply for number, line in enumerate([*self.lines, self.last], start=1) if line.reply}
        refused = [number for number, reply in replies.items() if re.match("E[0-9]|bad line", reply)]
        were = "was" if len(refused) == 1 else "were"
        return [f"{len(refused)} of {len(replies)} calls {were} refused, the first at line {number}"
                for number in refused[:1]]

    def check_log(self, after, told):
        """A beginning of the model's log, with all that was forced behind the last reply. What was cut off stands in a
        file of its own."""
        if not told and after.log == self.before.log:
            return
        if not told and self.floor < 0 and is_headless(after.log or b""):
            return
        whole, forced = encode_log(self.engine.log, self.engine.pages), told[-1].forced if told else max(self.floor, 0)
        if after.log is None or not has_log(after.log) or encode_header(self.engine.pages) != after.log[:HEADER_SIZE]:
            raise Failure("there is no log")
        if not whole.startswith(after.log) or len(after.log) < lsn_of(forced):
            raise Failure(f"the log has {len(after.log)} bytes of another log than the model's, or fewer than"
                          f" {lsn_of(forced)}")
        if self.left_out and after.all.get(self.left_out) != self.before.log[self.front.end():]:
            raise Failure(f"what stood behind the log is not in {self.left_out}")

    def check_names(self, after, told):
        """What was put aside before is there as it was, and no file is there that no one needs."""
        put = {"log", "volume", "master", "closed", "manifest", self.left_out, self.master_aside, *self.copies_aside.values(),
               *self.moved.values(), *(f"copy-{number}" for number in self.sealed([*self.answers]))}
        for name in after.all.keys() - self.before.all.keys() - put:
            if not is_unfinished(name):
                raise Failure(f"{name} is there")
        own = {"log", "volume", "master", "closed", "manifest", *(f"copy-{number}" for number in self.before.copies)}
        for name in self.before.all.keys() - own:
            if not is_unfinished(name) and after.all.get(name, b"") != self.before.all[name]:
                raise Failure(f"{name} is another one, or gone")
        if self.left_out in after.all and after.all[self.left_out] != self.before.log[self.front.end():]:
            raise Failure(f"{self.left_out} has other bytes than were left out")

    def sealed(self, answers):
        """The copies that are complete behind these answers."""
        return {int(line.event.split()[1]) for line in answers
                if line.event and line.event.startswith("seal") and line.reply.startswith("sealed")}

    def check_copies(self, after, told):
        sealed, placed = self.sealed(self.answers), self.sealed(told)
        made = {number: self.engine.copies[number - 1].encode() for number in sealed}
        for number in placed:
            if after.copies.get(number) != made[number]:
                raise Failure(f"copy {number} was told, and copy-{number} has it not")
        for number, data in after.copies.items():
            if self.before.copies.get(number, b"") != data and data != made.get(number):
                raise Failure(f"copy-{number} is another one")
        for number, data in self.before.copies.items():
            name = f"copy-{number}"
            stays = number not in placed and number in after.copies and after.copies[number] == data
            stays = stays and not (told and name in self.moved)
            aside = self.moved.get(name) or self.copies_aside.get(name)
            is_aside = aside in after.all and after.all[aside] == data
            if not stays and not is_aside:
                raise Failure(f"what {name} had is gone")

    def check_master(self, after, told):
        must_move = told and "master" in self.moved
        if self.master_aside and (must_move or after.master != self.before.master) and \
                after.all.get(self.master_aside) != self.before.master:
            raise Failure(f"the master record of another log is gone, and {self.master_aside} has it not")
        ends = [int(line.reply.split()[2]) for line in told if line.event and line.reply.startswith("point")]
        if told and self.had_master:
            ends.append(self.had_master[1])
        if ends:
            check_point(after.master, self.engine.log, max(ends))

    def check_manifest(self, after, told, kind):
        """Each line is that of a file of this life, but for the master record where the log has grown since, for a copy that
        was not taken up, and for all lines as long as nothing was told. Behind the end of a life all of the log is named. The database keeps its name,
        but for one that is drawn."""
        if after.manifest is None:
            if self.before.manifest is not None and "manifest" not in self.moved:
                raise Failure("the manifest is gone")
            return
        heads = [data.splitlines()[0] for data in (self.before.manifest, after.manifest) if data]
        if len({*heads}) != 1:
            raise Failure(f"the manifest begins with {heads}")
        lines, refused = lines_of(after.manifest), {f"copy-{number}" for number in self.refused}
        older = [line for line in lines_of(self.before.manifest or b"") if not told or line[0] in refused]
        named = [count for name, count, _ in lines if name == "log"]
        if kind == AT_ITS_END and named != [len(after.log)]:
            raise Failure(f"the manifest names {named} bytes of the log, and it has {len(after.log)}")
        for name, count, digest in lines:
            data = after.all.get(name)
            is_right = data is not None and len(data[:count]) == count and \
                hashlib.sha256(data[:count]).hexdigest() == digest
            is_behind = name == "master" and max(named, default=0) < len(after.log)
            if not is_right and not is_behind and (name, count, digest) not in older:
                raise Failure(f"the manifest says {(name, count, digest)}")

    def check_closed(self, after, told, kind):
        """The note, and the volume as it is then."""
        if kind in (AT_ITS_END, WHILE_IT_CLOSES):
            if after.closed is None and kind == WHILE_IT_CLOSES:
                return
            end = lsn_of(len(self.engine.log))
            if after.closed != closed_note(end) or len(after.log) != end:
                raise Failure(f"the note is {after.closed}, the log has {len(after.log)} bytes, and {end} are wanted")
            if after.volume != encode_pages([self.engine.page(number) for number in range(self.engine.count)]):
                raise Failure("the volume has not each page as the engine has it")
        elif told and after.closed is not None:
            raise Failure("the note of the last closing is there, and it is open")
        elif after.closed is not None:
            before = self.before
            if [after.closed, after.log, after.volume] != [before.closed, before.log, before.volume]:
                raise Failure("the note of the last closing is there, and something is stored")


def born(imgcopy, folder, seed, pages, counts):
    """The next life of a folder that was spoiled. Where the log lacks something, the opening is refused first."""
    life = Life(imgcopy, folder, seed, pages)
    if life.losses:
        check_refusal(life.words, folder)
        counts["refused"] += 1
    # Where nothing is lost, it changes nothing.
    if life.losses or life.draw.random() < 0.1:
        life.words.append("--salvage")
    return life


def play(imgcopy, place, seeds):
    """The lives of a folder."""
    folder, scratch = Path(place) / f"open-{seeds[0]}", Path(place) / f"scratch-{seeds[0]}"
    folder.mkdir()
    scratch.mkdir()
    judge, counts, life = Judge(imgcopy, scratch), Counter(), None
    pages = random.Random(seeds[0]).choice([1, 1, 2, 3, 4, 7])
    for seed in seeds:
        kept = Files.of(folder)
        try:
            life = born(imgcopy, folder, seed, pages, counts)
            output, kind, status, said = life.live()
            counts[f"killed {kind}" if kind != AT_ITS_END else "came to an end"] += 1
            after, told = life.check(output, kind, status, said)
            if (told or not life.losses) and after.log is not None and has_log(after.log) and \
                    after.losses():
                raise Failure("what it left is refused, and nothing was spoiled")
            counts["commits told"] += sum(bool(line.event) and line.event.startswith("commit") and
                                          line.reply.startswith("lsn") for line in told)
            counts["copies refused"] += len(life.refused) if told else 0
            counts["restarted"] += bool(told and life.floor >= 0)
            counts["logs put aside"] += bool(told and life.left_out)
            counts["files moved aside"] += sum(".refused" in name for name in after.all.keys() - life.before.all.keys())
            counts["closed"] += after.closed is not None
            judge.check(after)
            spoil(life.draw, folder, encode_log(life.engine.log, life.engine.pages), counts)
        except (Failure, subprocess.TimeoutExpired) as failure:
            left = Path(tempfile.mkdtemp(prefix="open-kill-"))
            shutil.copytree(folder, left / "folder")
            kept.put_in(left / "before")
            (left / "lines").write_bytes(b"".join(line.text + b"\n" for line in life.lines) if life else b"")
            words = " ".join(map(str, life.words)) if life else "no life"
            raise Failure(f"seed {seed}, {words}: {failure}; the files are in {left}") from failure
    shutil.rmtree(folder)
    shutil.rmtree(scratch)
    return counts, judge.made


def seconds_of_an_opening(imgcopy):
    """How long it takes to open a new folder, and to close it."""
    with tempfile.TemporaryDirectory(dir=memory_place()) as folder:
        began = time.monotonic()
        subprocess.run([imgcopy, "open", folder, "--pages", "1"], stdin=subprocess.DEVNULL, check=True,
                       stdout=subprocess.DEVNULL, timeout=MOST_SECONDS)
        return time.monotonic() - began


OPENING = 0.01


def measure(imgcopy):
    global OPENING
    OPENING = seconds_of_an_opening(imgcopy)


def main(arguments):
    try:
        if not 1 <= len(arguments) <= 3 or not all(number.isdigit() for number in arguments[1:]):
            raise Failure("usage: python3 -m checks.open_kills IMGCOPY [KILLS [FIRST]]")
        imgcopy = program_of(arguments[0])
        kills, first = [*map(int, arguments[1:]), *(KILLS, 1)[len(arguments) - 1:]]
        seeds = range(first, first + kills)
        folders = [seeds[at:at + LIVES] for at in range(0, kills, LIVES)]
        counts, made = Counter(), Counter()
        with tempfile.TemporaryDirectory(dir=memory_place()) as place, \
                ProcessPoolExecutor(os.cpu_count(), initializer=measure, initargs=(imgcopy,)) as pool:
            for more in [pool.submit(play, imgcopy, place, folder) for folder in folders]:
                for sums, result in zip((counts, made), more.result()):
                    sums += result
    except (Failure, OSError, subprocess.SubprocessError) as failure:
        sys.exit(f"open_kills.py: {failure}")
    told = ", ".join(f"{count} {name}" for name, count in sorted(counts.items()))
    print(f"open_kills: seeds from {first}; {told}; {made['audit']} audits and {made['restore']} restores")
    print(f"ok open_kills: after each of {kills} lives all is there that was told, and the next one goes on with it")


if __name__ == "__main__":
    main(sys.argv[1:])
