"""Compares what `imgcopy show` and `imgcopy list` print with what is decoded here of the same files.

usage: python3 -m checks.show PROGRAM [COUNT [FIRST]]

COUNT random scripts are played and saved by the program, from the seeds FIRST and following, 12 from seed 1 where none is
told. Of what each leaves the log, the master record, two copies and the volume, and the logs of `examples/`, are shown
whole, in words and as JSON, narrowed by each option, cut, longer, and with a byte that is another one. What is right before
the fault has to be there, line by line, and then the line of the fault with its status. Each folder is listed, also without
a copy of a chain, with a copy under the name of another one, with one that is cut or too long, with a log that ends below
a copy's checkpoint, with a torn log, without a log, and with pipes in the place of a log and of a copy. The bytes are
decoded by this file alone; the model says where a log has its first fault.
"""

import json
import os
import shutil
import struct
import subprocess
import sys
import tempfile
from collections import Counter
from pathlib import Path

from model.file_rows import of_first_format
from model.random_scripts import random_script
from model.recovery import Refusal, fault_lines, read_log
from model.samples import Draw

ROOT = Path(__file__).resolve().parent.parent
COUNT, SPOILED, COPIES = 12, 3, 2
MOST_PAGES, MOST_SECONDS = 100, 60
RECORD, PAGE, SLOTS = 64, 512, 62
KINDS = ["begin", "update", "comp", "commit", "abort", "end", "begin_chkpt", "chkpt_pages", "chkpt_txns", "end_chkpt",
         "extend"]
OPTIONS = ("--from", "--to", "--txn", "--page")


class Failure(Exception):
    """What differs, in one line."""


# What files have

def u16(data, at):
    return struct.unpack_from("<H", data, at)[0]


def u32(data, at):
    return struct.unpack_from("<I", data, at)[0]


def u64(data, at):
    return struct.unpack_from("<Q", data, at)[0]


def change_of(data, is_undo):
    if data[30] == 2:
        return {"change": "add", "amount": u64(data, 40)}
    return {"change": "set", **({} if is_undo else {"before": u64(data, 32)}), "after": u64(data, 40)}


def record_of(data):
    """The fields of a record, in the order in which they are shown."""
    kind = KINDS[data[0] - 1]
    fields = {"lsn": u64(data, 56), "kind": kind}
    if kind == "extend":
        return {**fields, "pages": u32(data, 24)}
    if kind in KINDS[7:10]:
        fields["begin"] = u64(data, 8)
    if kind == "chkpt_pages":
        fields["dirty"] = [{"page": u32(data, at), "rec_lsn": u64(data, at + 4)}
                           for at in range(20, 20 + 12 * u32(data, 16), 12)]
    if kind == "chkpt_txns":
        fields |= {"txn": u32(data, 20), "state": ["active", "rolling"][u32(data, 24) - 1], "last": u64(data, 28),
                   "undo_next": u64(data, 36)}
    if kind == "end_chkpt":
        fields["redo"] = u64(data, 24)
    if kind in KINDS[:6]:
        fields["txn"] = u32(data, 4)
    if kind in KINDS[1:6]:
        fields["prev"] = u64(data, 8)
    if kind == "comp":
        fields["undo_next"] = u64(data, 16)
    if kind in ("update", "comp"):
        fields |= {"page": u32(data, 24), "slot": u16(data, 28), **change_of(data, kind == "comp")}
    return fields


def page_of(data):
    slots = [{"slot": slot, "number": number} for slot in range(SLOTS) if (number := u64(data, 16 + 8 * slot))]
    return {"page": u32(data, 0), "lsn": u64(data, 8), "slots": slots}


def header_of(data):
    parent = u32(data, 20)
    return {"id": u32(data, 12), "kind": "inc" if parent else "full", "parent": parent or None, "pages": u32(data, 8),
            "begin": u64(data, 24), "redo": u64(data, 32), "taken": u32(data, 40)}


def is_archive_header(data):
    if len(data) < 64 or data[:8] not in (b"AIMGARC1", b"AIMGARC2") or any(data[44:64]) or any(data[17:20]):
        return False
    header, kind = header_of(data), data[16]
    is_full = kind == 1 and header["parent"] is None and header["taken"] == header["pages"]
    is_inc = kind == 2 and header["parent"] and header["parent"] < header["id"] and header["taken"] <= header["pages"]
    return bool((is_full or is_inc) and 1 <= header["pages"] <= 65536 and 1 <= header["id"] <= 1024 and
                header["begin"] % 64 == 0 and header["redo"] % 64 == 0 and 64 <= header["redo"] <= header["begin"])


def is_page(data):
    return len(data) == PAGE and u32(data, 0) < 65536 and u32(data, 4) == 1 and u64(data, 8) % 64 == 0


# What is shown of files: the fields of each line, and the line of the fault

def show_log(data):
    fault, end = None, len(data)
    try:
        read_log(data)
    except Refusal as refusal:
        if refusal.number == 30:
            return [], refusal.line()
        fault, end = refusal.line(), refusal.values[0] if refusal.values else 64 + RECORD * 2**20
    records = [record_of(data[at:at + RECORD]) for at in range(64, end, RECORD)]
    # The volume has as many pages as the last growth gave it.
    pages = [u32(data, 8), *(it["pages"] for it in records if it["kind"] == "extend")][-1]
    head = {"file": "log", "format": int(data[7:8]), "pages": pages, "records": (len(data) - 64) // RECORD}
    return [head, *records], fault


def show_master(data):
    begin, end = (u64(data, 8), u64(data, 16)) if len(data) == 64 else (0, 0)
    if data != struct.pack("<8s Q Q 40x", b"AIMGMST1", begin, end) or begin % 64 or end % 64 or not 64 <= begin < end:
        return [], "E30 BadHeader"
    return [{"file": "master", "begin": begin, "end": end}], None


def show_archive(data):
    if not is_archive_header(data):
        return [], "E36 BadArchive 0"
    header = header_of(data)
    lines, last = [{"file": "archive", "format": int(data[7:8]), **header}], -1
    for at in range(64, 64 + PAGE * header["taken"], PAGE):
        if at == len(data):
            return lines, "E38 CountDiffers"
        page = data[at:at + PAGE]
        if not is_page(page) or not last < u32(page, 0) < header["pages"]:
            return lines, f"E36 BadArchive {at}"
        lines.append(page_of(page))
        last = u32(page, 0)
    return lines, "E38 CountDiffers" if len(data) > 64 + PAGE * header["taken"] else None


def show_volume(data):
    lines = [{"file": "volume", "pages": len(data) // PAGE}]
    for at in range(0, len(data), PAGE):
        page = data[at:at + PAGE]
        if not is_page(page) or u32(page, 0) != at // PAGE:
            return lines, f"E36 BadArchive {at}"
        if any(page[8:]):
            lines.append(page_of(page))
    return lines, None


def show(data):
    for first, shown in ((b"AIMGLOG", show_log), (b"AIMGMST", show_master), (b"AIMGARC", show_archive),
                         (bytes([0, 0, 0, 0, 1, 0, 0, 0]), show_volume)):
        if len(data) >= 8 and data.startswith(first):
            return shown(data)
    return [], "E30 BadHeader"


def is_wanted(fields, options):
    """Whether a line is shown: the first one is, a record by all options, and a page by its number."""
    if "file" in fields:
        return True
    page, txn = options.get("--page"), options.get("--txn")
    if "kind" not in fields:
        return page is None or fields["page"] == page
    pages = [it["page"] for it in fields.get("dirty", [fields]) if "page" in it]
    return (options.get("--from", 0) <= fields["lsn"] <= options.get("--to", 2**64) and
            (txn is None or fields.get("txn") == txn) and (page is None or page in pages))


# The same lines in words

def words_of(fields):
    if "kind" in fields and "lsn" in fields:
        return record_words(fields)
    if "slots" in fields:
        slots = "".join(f" {it['slot']}={it['number']}" for it in fields["slots"])
        return f"page {fields['page']} lsn {fields['lsn']}{slots}"
    if fields.get("file") == "archive":
        text = f"copy {fields['id']} {'full' if fields['parent'] is None else 'inc %d' % fields['parent']} " + \
            " ".join(f"{key} {fields[key]}" for key in ("pages", "begin", "redo", "taken"))
        if "lacks" in fields:
            whole = "whole" if fields["lacks"] is None else f"lacks {fields['lacks']}"
            return f"{text} {fields.get('fault', whole)}"
        return f"archive format {fields['format']} {text}"
    if "point" in fields:
        point = fields["point"]
        return "point " + (" ".join(map(str, point.values())) if point else "none")
    if "fault" in fields:
        return f"restore {fields['restore']} {fields['fault']}"
    return " ".join(value if key == "file" else f"{key} {value}" for key, value in fields.items())


def record_words(fields):
    parts = []
    for key, value in fields.items():
        if key in ("kind", "state"):
            parts.append(value)
        elif key == "change":
            parts.append(f"add {fields['amount']}" if value == "add" else f"set {fields['after']}" +
                         (f" before {fields['before']}" if "before" in fields else ""))
        elif key == "dirty":
            parts += [f"page {it['page']} rec_lsn {it['rec_lsn']}" for it in value]
        elif key not in ("amount", "before", "after"):
            parts.append(f"{key} {value}")
    return " ".join(parts)


class Viewer:
    """Has the program show files and list folders."""

    def __init__(self, program, folder):
        self.program, self.folder = program, Path(folder)
        self.counts = Counter()

    def run(self, *words, **more):
        return subprocess.run([self.program, *map(str, words)], capture_output=True, cwd=self.folder, timeout=MOST_SECONDS,
                              **more)

    def see(self, what, words, lines, faults):
        """The lines in words and as JSON; each has its keys in one order, and no line has two of one name."""
        for form in ([], ["--json"]):
            done = self.run(*words, *form)
            text = done.stdout.decode()
            if form:
                given = [json.loads(line, object_pairs_hook=list) for line in text.splitlines()]
                wanted = [json.loads(json.dumps(it), object_pairs_hook=list) for it in lines]
            else:
                given, wanted = text.splitlines(), [words_of(it) for it in lines]
            for one, other in zip(given, wanted):
                if one != other:
                    raise Failure(f"{what}: {one} in place of {other}")
            if len(given) != len(wanted):
                raise Failure(f"{what}: {len(given)} lines in place of {len(wanted)}")
            answer = (done.returncode, fault_lines(done.stderr).decode().splitlines())
            if answer != (2 if faults else 0, [it for it in faults if it]):
                raise Failure(f"{what}: ends as {answer} in place of {faults}")
            self.counts["lines"] += len(given)
        self.counts["faults"] += len(faults)

    def show(self, what, data, options=None):
        options = options or {}
        (self.folder / "shown").write_bytes(data)
        lines, fault = show(data)
        words = [word for option in options.items() for word in option]
        self.see(what, ["show", "shown", *words], [it for it in lines if is_wanted(it, options)], [fault] if fault else [])
        self.counts["files"] += 1


# A folder

def facts_of(log, rows):
    """The lines of a log, and of what restores would do."""
    lines, _ = show_log(log)
    head, records = lines[0], lines[1:]
    ends = [it for it in records if it["kind"] == "end_chkpt"]
    points = [{"begin": it["begin"], "end": it["lsn"], "redo": it["redo"]} for it in ends]
    pending, is_open = Counter(), set()
    for it in records:
        if it["kind"] == "begin":
            is_open.add(it["txn"])
        elif it["kind"] in ("commit", "end"):
            is_open.discard(it["txn"])
            pending.pop(it["txn"], None)
        elif it["kind"] in ("update", "comp"):
            pending[it["txn"]] += 1 if it["kind"] == "update" else -1
    undo = sum(pending.values())
    found = [{**head, "records": len(records)},
             {"first": 64 if records else 0, "last": RECORD * len(records)},
             {"point": points[-1] if points else None},
             {"open": len(is_open), "pending": undo}]
    for row in rows:
        if row["lacks"] is None and row.get("fault") in (None, "E39 RedoBeyondLog"):
            redo = sum(it["lsn"] >= row["redo"] for it in records)
            found.append({"restore": row["id"], **({"redo": redo, "undo": undo} if redo else {"fault": "E39 RedoBeyondLog"})})
    return found


def flaw_of(header, length, log):
    """What is wrong with a copy: its length, its page count, or a log that ends below it."""
    if length != 64 + PAGE * header["taken"]:
        return "E38 CountDiffers"
    if log is None:
        return None
    lines = show_log(log)[0]
    grown = [it["pages"] for it in lines[1:] if it["kind"] == "extend" and it["lsn"] < header["begin"]]
    if header["pages"] != max(u32(log, 8), *grown, 0):
        return "E37 ChainBroken"
    end = RECORD * len(lines)
    if header["redo"] >= end:
        return "E39 RedoBeyondLog"
    return "begins past the log" if header["begin"] >= end else None


def list_folder(viewer, what, folder, faults=()):
    files = {path.name: path.read_bytes() for path in folder.iterdir() if path.is_file()}
    found = sorted((int(name[5:]), data) for name, data in files.items() if name.startswith("copy-"))
    rows, lacks = [], {}
    for number, data in found:
        if is_archive_header(data) and header_of(data)["id"] == number:
            header = header_of(data)
            parent, flaw = header["parent"], flaw_of(header, len(data), files.get("log"))
            missing = None if parent is None else lacks.get(parent, parent)
            rows.append({"file": "archive", **header, "lacks": missing, **({"fault": flaw} if flaw else {})})
            lacks[number] = number if flaw else missing
    lines = [*rows, *(facts_of(files["log"], rows) if "log" in files else [])]
    faults = list(faults) or [""] * any("fault" in row for row in rows)
    viewer.see(what, ["list", folder.name], lines, faults)
    viewer.counts["folders"] += 1
    viewer.counts["flaws"] += sum("fault" in row for row in rows)


def check_pipe(viewer, what, path):
    """A pipe stands there, of which no one would ever write: it is not opened."""
    whole = path.read_bytes()
    path.unlink()
    os.mkfifo(path)
    list_folder(viewer, what, path.parent, ["E33 ReadFault"])
    told = viewer.run("list", path.parent.name).stderr.decode()
    if f"imgcopy: {path.parent.name}/{path.name}: this is no regular file\n" not in told:
        raise Failure(f"{what}: {told!r}")
    path.unlink()
    path.write_bytes(whole)


def with_a_page_more(data):
    """The bytes of a copy of a volume that has one page more. A full copy takes that page, too."""
    header = header_of(data)
    more = data[:8] + (header["pages"] + 1).to_bytes(4, "little") + data[12:]
    if header["parent"]:
        return more
    return more[:40] + (header["taken"] + 1).to_bytes(4, "little") + more[44:] + bytes(PAGE)


def check_flaws(viewer, what, path, log):
    """A copy that is cut, longer, or of one page more; and logs that end below its checkpoint and its redo point."""
    data, whole = path.read_bytes(), log.read_bytes()
    for length in {64, len(data) - 1, len(data) + 1} - {63, len(data)}:
        path.write_bytes(data[:length] + bytes(max(0, length - len(data))))
        list_folder(viewer, f"{what}, {length} bytes of {path.name}", path.parent)
    path.write_bytes(with_a_page_more(data))
    list_folder(viewer, f"{what}, a page more in {path.name}", path.parent)
    path.write_bytes(data)
    header = header_of(data)
    for end in {header["begin"], header["redo"]}:
        log.write_bytes(whole[:end])
        list_folder(viewer, f"{what}, a log that ends at {end} beside {path.name}", path.parent)
    log.write_bytes(whole)


def check_folder(viewer, what, folder, draw):
    list_folder(viewer, what, folder)
    check_pipe(viewer, f"{what}, a pipe", folder / "log")
    copies = sorted(path for path in folder.iterdir() if path.name.startswith("copy-"))
    if copies:
        lost = draw.one_of(copies)
        check_flaws(viewer, what, lost, folder / "log")
        check_pipe(viewer, f"{what}, a pipe", lost)
        data = lost.read_bytes()
        lost.unlink()
        list_folder(viewer, f"{what}, without {lost.name}", folder)
        lost.with_name("copy-1024").write_bytes(data)
        list_folder(viewer, f"{what}, {lost.name} under another name", folder, [""])
        lost.with_name("copy-1024").write_bytes(data[:17] + b"\x01" + data[18:])
        list_folder(viewer, f"{what}, with a header that is none", folder, ["E36 BadArchive 0"])
        lost.with_name("copy-1024").unlink()
        lost.write_bytes(data)
    log = folder / "log"
    whole = log.read_bytes()
    if len(whole) > 64:
        log.write_bytes(whole[:64 + draw.below(len(whole) - 64) // RECORD * RECORD + 1 + draw.below(RECORD - 1)])
        cut = log.read_bytes()
        list_folder(viewer, f"{what}, a torn log", folder, [f"E32 Torn {len(cut) // RECORD * RECORD}"])
    log.unlink()
    list_folder(viewer, f"{what}, no log", folder, ["E33 ReadFault"])
    log.write_bytes(whole)


# Files

def narrowed(draw, lines):
    """Options that narrow the lines of a file down, each drawn of what the file has."""
    records = [it for it in lines if "kind" in it and "lsn" in it and "file" not in it]
    pages = [it["page"] for it in lines if "slots" in it]
    if records:
        lsns, txns = [it["lsn"] for it in records], [it["txn"] for it in records if "txn" in it]
        pages = [it["page"] for record in records for it in record.get("dirty", [record]) if "page" in it]
        yield {"--from": draw.one_of(lsns)}
        yield {"--to": draw.one_of(lsns) + draw.below(64)}
        yield {"--from": draw.one_of(lsns) - draw.below(64), "--to": draw.one_of(lsns)}
        if txns:
            yield {"--txn": draw.one_of(txns)}
            yield {"--txn": draw.one_of(txns), "--from": draw.one_of(lsns)}
    if pages:
        yield {"--page": draw.one_of(pages)}
    yield {"--page": 65535}


def check_file(viewer, what, data, draw):
    viewer.show(what, data)
    for options in narrowed(draw, show(data)[0]):
        viewer.show(f"{what}, {options}", data, options)
    for _ in range(SPOILED):
        at = draw.below(len(data))
        viewer.show(f"{what}, cut at {at}", data[:at])
        spoiled = bytes([*data[:at], data[at] ^ (1 << draw.below(8)), *data[at + 1:]])
        viewer.show(f"{what}, another byte at {at}", spoiled)
    viewer.show(f"{what}, longer", data + bytes(1 + draw.below(RECORD)))


def check_seed(viewer, seed):
    script, draw = random_script(seed), Draw(seed)
    if script.pages > MOST_PAGES:
        return
    folder = viewer.folder / "saved"
    shutil.rmtree(folder, ignore_errors=True)
    folder.mkdir()
    viewer.run("run", "--pages", script.pages, "--frames", script.frames, "--save", "saved", input=script.text)
    names = sorted(path.name for path in folder.iterdir())
    copies = [name for name in names if name.startswith("copy-")]
    for name in [name for name in names if name not in copies] + [draw.one_of(copies) for _ in copies[:COPIES]]:
        check_file(viewer, f"script {seed}, {name}", (folder / name).read_bytes(), draw)
    log = (folder / "log").read_bytes()
    volume = viewer.run("redo", input=log).stdout
    check_file(viewer, f"script {seed}, its volume", volume, draw)
    if not any(log[at] == 11 for at in range(64, len(log), RECORD)):
        viewer.show(f"script {seed}, its log in the first format", of_first_format(log))
    check_folder(viewer, f"script {seed}, its folder", folder, draw)


def check_examples(viewer):
    for path in sorted((ROOT / "examples").iterdir()):
        if path.suffix in (".log", ".volume"):
            viewer.show(path.name, path.read_bytes())
    viewer.show("an empty file", b"")
    viewer.show("another file", b"AIMGNONE" + bytes(56))
    viewer.show("a log of another format", b"AIMGLOG3" + bytes(56))
    longest = 64 + RECORD * 2**20
    with open(viewer.folder / "long", "wb") as file:
        file.write((ROOT / "examples" / "four_records.log").read_bytes())
        file.truncate(longest + 1)
    done = viewer.run("show", "long")
    if (done.returncode, fault_lines(done.stderr)) != (2, b"E31 BadRecord 320\n") or done.stdout.count(b"\n") != 5:
        raise Failure(f"a file that is too long: {done.stderr[:200]!r}")


def check_words(viewer):
    """Words that are wrong, files that are not there, and outputs that are full."""
    (viewer.folder / "shown").write_bytes((ROOT / "examples" / "four_records.log").read_bytes())
    for words in (["show"], ["show", "shown", "shown"], ["list"], ["list", ".", "."], ["show", "shown", "--slot", "1"],
                  *(["show", "shown", option, value] for option in OPTIONS for value in ("x", "-1", "", "99999999999")),
                  ["show", "shown", "--page", "65536"], ["show", "shown", "--txn", "0"],
                  ["show", "shown", "--to", "67108929"], ["show", "shown", "--json=1"], ["list", ".", "--page", "0"]):
        done = viewer.run(*words)
        if done.returncode != 2 or done.stdout or not done.stderr.startswith(b"error: "):
            raise Failure(f"{words}: {done.returncode} {done.stdout[:80]!r} {done.stderr[:200]!r}")
    for words in (["show", "--help"], ["help", "show"], ["list", "-h"], ["help", "list"]):
        done = viewer.run(*words)
        if done.returncode != 2 or b"imgcopy " + words[words[0] == "help"].encode() not in done.stderr:
            raise Failure(f"{words}: {done.returncode} {done.stderr[:200]!r}")
    for words, lines in ((["show", "none"], ["E33 ReadFault", "imgcopy: none: No such file or directory (os error 2)"]),
                         (["show", "."], ["E33 ReadFault", "imgcopy: .: Is a directory (os error 21)"]),
                         (["list", "none"], ["imgcopy: none: No such file or directory (os error 2)", "E33 ReadFault"])):
        done = viewer.run(*words)
        if (done.returncode, done.stdout, sorted(done.stderr.decode().splitlines())) != (2, b"", sorted(lines)):
            raise Failure(f"{words}: {done.returncode} {done.stderr!r}")
    (viewer.folder / "listed").mkdir()
    (viewer.folder / "listed" / "log").write_bytes((viewer.folder / "shown").read_bytes())
    with open("/dev/full", "wb") as full:
        for words in (["show", "shown"], ["list", "listed"]):
            done = subprocess.run([viewer.program, *words], stdout=full, stderr=subprocess.PIPE, cwd=viewer.folder)
            if done.returncode != 2 or not done.stderr.startswith(b"E29 WriteFault 0\n"):
                raise Failure(f"{words} onto a full device: {done.returncode} {done.stderr!r}")


def main(arguments):
    program, count, first = os.path.abspath(arguments[0]), COUNT, 1
    if len(arguments) > 1:
        count = int(arguments[1])
    if len(arguments) > 2:
        first = int(arguments[2])
    with tempfile.TemporaryDirectory() as folder:
        viewer = Viewer(program, folder)
        try:
            check_words(viewer)
            check_examples(viewer)
            for seed in range(first, first + count):
                check_seed(viewer, seed)
        except Failure as failure:
            sys.exit(f"show: {failure}")
    counts = viewer.counts
    print(f"ok show: {counts['files']} files and {counts['folders']} folders, {counts['lines']} lines, "
          f"{counts['faults']} faults")


if __name__ == "__main__":
    main(sys.argv[1:])
