"""In which order a command may make its calls of the system: rules, one sentence each. For call_order.py.

`Seen`, of call_seen.py, plays the calls of a run one after another, and knows before each one what each file has, what of
it is stored for certain, and who has which lock. A rule is asked before each call whether it may be made then.
"""

import hashlib
import os
import re

from checks.call_seen import CHANGES, NAMINGS, UNFINISHED
from checks.call_trace import ERRORS, OUTPUT
from checks.manifest_text import ENTRY
from model.lives import closed_at, is_headless, is_worth_keeping, losses, master_in
from model.log_format import COMMIT, PAGE_SIZE, RECORD_SIZE, decode_record
from model.recovery import ARCHIVE, Refusal, read_archive_header, read_page

POINT = re.compile(r"point ([0-9]+) ([0-9]+) [0-9]+")
COPY = re.compile(r"copy ([0-9]+) pages [0-9]+ taken [0-9]+")
MOVED = re.compile(r".*: they are now (\S+)")
RULES = []


def changed(seen, call):
    """The paths whose bytes or names a call changes."""
    if call.word in NAMINGS:
        return call.names
    node = seen.node(call)
    return [node.path] if node and call.word in CHANGES else []


def rule(sentence):
    """A rule says what is wrong with a call, if something is."""
    def noted(check):
        RULES.append((sentence, check))
        return check
    return noted


@rule("A name is changed only in a folder that is locked; a file is written or given up only in one, or if it is locked"
      " itself.")
def locks_before_changes(seen, call):
    for path in changed(seen, call):
        folder, node = seen.folder_of(path), seen.nodes.get(path)
        is_held = seen.has_locked(folder) or call.word in ("write", "cut", "remove") and node and seen.has_locked(node)
        # A new database's folder is made and named where none is open: it was locked once.
        is_of_new = folder in seen.was_locked and (call.word == "mkdir" or call.word == "rename" and
                                                   seen.nodes[call.names[0]].is_folder)
        if not is_held and not is_of_new:
            return f"{path} is changed while its folder is not locked"
    return None


@rule("`open`, `backup` and `renew` lock a log before they read, write or cut it, and before that its folder, unless they"
      " have made that.")
def locks_the_log(seen, call):
    node = seen.node(call)
    is_log = node and node.kind == "log" and not node.is_unfinished and seen.case.words[0] in ("open", "backup", "renew")
    if call.word in ("read", "write", "cut") and is_log:
        folder = seen.folder_of(node.path)
        if not seen.has_locked(node) or folder.was_there and not seen.has_locked(folder):
            return "the log is used before it and its folder are locked"
    return None


@rule("Where a second folder has a log, that is locked before anything there is made, renamed or removed.")
def locks_the_second_log(seen, call):
    for path in changed(seen, call) if call.word in NAMINGS else ():
        log = seen.at(os.path.dirname(path) or ".", "log")
        is_of_database = seen.live_log() is not None and log is not None and not log.is_live and log.was_there
        if is_of_database and log not in seen.was_locked:
            return f"{path} is changed beside a log that is not locked"
    return None


@rule("`run`, `redo` and `restore` lock the log, the master record or the copy that they replace, which another one may have open.")
def locks_what_is_replaced(seen, call):
    older = seen.nodes.get(call.names[1]) if call.word == "rename" and seen.case.words[0] in ("run", "redo", "restore") else None
    if older and older.was_there and (older.data.startswith(b"AIMG") or re.match("log|master|copy-", older.kind)):
        if not seen.has_locked(older):
            return f"{call.names[1]} is replaced, and is not locked"
    return None


@rule("A file is made under a name that nothing has, and beside its own, but for the log and the volume of a database.")
def makes_beside(seen, call):
    if call.word == "make" and call.is_done and not UNFINISHED.fullmatch(os.path.basename(call.names[0])):
        if os.path.basename(call.names[0]) not in ("log", "volume"):
            return f"{call.names[0]} is made under its own name"
    if call.word == "open" and call.is_written and call.names[0] in seen.nodes:
        if os.path.basename(call.names[0]) not in ("log", "volume"):
            return f"{call.names[0]} is opened to be written"
    return None


@rule("A file that was made beside its name is synced behind its last byte, and only then gets the name.")
def synced_before_named(seen, call):
    if call.word == "rename":
        node = seen.nodes.get(call.names[0])
        if node and not node.is_folder and not node.was_there and not node.is_synced:
            return f"{call.names[1]} gets its name before it is synced"
    return None


@rule("Once it has its name it is not written any more.")
def named_for_good(seen, call):
    node = seen.node(call)
    if call.word in ("write", "cut") and node and not node.is_live and not node.is_unfinished:
        return f"{node.path} is written under its name"
    return None


@rule("A file that is there is replaced or moved as a whole, and removed only if it is unfinished or the note of a closing.")
def removes_little(seen, call):
    if call.word == "remove" and not UNFINISHED.fullmatch(call.names[0]) and os.path.basename(call.names[0]) != "closed":
        return f"{call.names[0]} is removed"
    return None


@rule("In the folder of a database no copy of an older life is replaced, nor what stands as the master record and is none.")
def replaces_little(seen, call):
    log = seen.live_log()
    if call.word != "rename" or not log or os.path.dirname(log.path) != os.path.dirname(call.names[1]):
        return None
    node, name = seen.nodes.get(call.names[1]), os.path.basename(call.names[1])
    if node and node.was_there and (name.startswith("copy-") or name == "master" and not master_in(bytes(node.data))):
        return f"{call.names[1]} is replaced"
    return None


@rule("Where no call fails, each name that was given is stored before a line is told on standard output, and before the end.")
def names_before_lines(seen, call):
    if seen.is_failing or call.word not in ("tell", "end") or call.word == "tell" and call.file == ERRORS:
        return None
    for node in seen.nodes.values():
        if not node.was_there and not node.is_unfinished and not node.is_named:
            return f"the name of {node.path} is not stored"
    return None


@rule("In the folder of a database one name is given after another: each is stored before the next one is given, and before"
      " the note of an older closing is removed.")
def one_name_after_another(seen, call):
    log = seen.live_log()
    is_of_note = call.word == "remove" and os.path.basename(call.names[0]) == "closed"
    if seen.is_failing or not log or call.word != "rename" and not is_of_note:
        return None
    folder = seen.folder_of(log.path)
    for node in seen.nodes.values():
        if seen.folder_of(call.names[-1]) is folder is seen.folder_of(node.path) and not node.is_unfinished | node.is_named:
            return f"the name of {node.path} is not stored"
    return None


@rule("Where no call fails, no unfinished file is left in the end in a folder that the command changes.")
def leaves_nothing_unfinished(seen, call):
    if seen.is_failing or call.word != "end":
        return None
    left = [path for path, node in seen.nodes.items() if node.is_unfinished and may_change(seen, path)]
    return f"{left[0]} is left" if left else None


@rule("The name of a new log lasts before there is a volume, and both names before the log has its header.")
def names_before_header(seen, call):
    if call.word == "make" and call.is_done and os.path.basename(call.names[0]) == "volume":
        log = seen.at(os.path.dirname(call.names[0]), "log")
        if log and not log.is_named:
            return "the volume is made before the name of the log lasts"
    node = seen.node(call)
    if call.word == "write" and node and node.is_live and node.kind == "log" and not node.data:
        volume = seen.at(os.path.dirname(node.path), "volume")
        if not node.is_named or not volume or not volume.is_named:
            return "the log gets its header before the names of the log and the volume last"
    return None


@rule("The log of an older life is synced, as it was read, before anything in its folder is changed.")
def synced_as_read(seen, call):
    log = seen.live_log()
    if not log or not log.was_there or is_headless(bytes(log.data)) or log.was_synced:
        return None
    if any(os.path.dirname(path) == os.path.dirname(log.path) for path in changed(seen, call)):
        return "a change comes before the log is synced"
    return None


@rule("The log is written only right behind what of it is stored; what is stored is written again only as it is.")
def appends_to_the_log(seen, call):
    node = seen.node(call)
    if call.word != "write" or not node or not node.is_live or node.kind != "log":
        return None
    there = bytes(node.lasting[call.at:call.at + len(call.data)])
    if call.at > len(node.lasting) or not call.data.startswith(there):
        return f"the log is written at {call.at}, and stored up to {len(node.lasting)}"
    return None


@rule("The note of an older closing is gone, and that is stored, before the log of that folder is written or cut, before a"
      " line is told, and before anything else is changed once it was removed.")
def no_note_beside_changes(seen, call):
    log = seen.live_log()
    folder = os.path.dirname(log.path) if log else None
    if folder not in seen.noted:
        return None
    is_change = call.word in ("write", "cut") and seen.node(call) is log or call.word == "tell" and call.file == OUTPUT
    is_removed = seen.at(folder, "closed") is None
    if is_change or is_removed and any(os.path.dirname(path) == folder for path in changed(seen, call)):
        return "a note of a closing may still be stored there"
    return None


@rule("Where the log is written, no file beside it tells of more than it has: with --salvage that gets another name before.")
def no_claims_beside_changes(seen, call):
    log = seen.live_log()
    if call.word not in ("write", "cut") or seen.node(call) is not log or not log or is_headless(bytes(log.data)):
        return None
    files = {node.kind: bytes(node.data) for node in seen.nodes.values() if not node.is_unfinished
             and os.path.dirname(node.path) == os.path.dirname(log.path)}
    copies = {int(name[5:]): data for name, data in files.items() if name.startswith("copy-") and name[5:].isdigit()}
    lost = losses(bytes(log.data), None, files.get("manifest"), files.get("master"), copies)
    return lost[0].text if lost else None


@rule("What of a log is cut off has a file of its own, which is whole, synced and named for certain; zeros and less than"
      " a record have none.")
def kept_before_cut(seen, call):
    node = seen.node(call)
    if call.word != "cut" or not node or not node.is_live or node.kind != "log":
        return None
    behind = bytes(node.data[call.at:])
    kept = [it for it in seen.nodes.values() if it.kind.startswith("log.left-out-") and not it.is_unfinished]
    is_kept = any(it.lasting == behind and it.is_named for it in kept)
    if is_worth_keeping(behind) and not is_kept:
        return f"{len(behind)} bytes are cut off that no file keeps"
    return None


@rule("What is cut off of what was stored of a log is gone for certain, by a sync, before the log is written again.")
def gone_before_written(seen, call):
    node = seen.node(call)
    return "the log is written before the cut is stored" if call.word == "write" and node and node.is_cut else None


@rule("After a sync of a log failed, that log is neither written, cut nor synced any more.")
def given_up_log(seen, call):
    node = seen.node(call)
    if call.word in ("write", "cut", "sync") and node and node.kind == "log" and node.is_live and node.has_failed:
        return f"{call.word} of a log whose sync has failed"
    return None


@rule("No page is written to the volume before the log is stored up to the last record that changed it.")
def log_before_pages(seen, call):
    node = seen.node(call)
    if call.word != "write" or not node or node.kind != "volume" or not node.is_live or node.is_unfinished:
        return None
    log = seen.at(os.path.dirname(node.path), "log")
    for at in range(0, len(call.data) - PAGE_SIZE + 1, PAGE_SIZE):
        page = read_page(call.data[at:at + PAGE_SIZE])
        if page and page.lsn and page.lsn + RECORD_SIZE > stored(log):
            return f"page {page.number} has LSN {page.lsn}, and the log is stored up to {stored(log)}"
    return None


@rule("A commit is answered only once its Commit, and all before it, is stored in the log.")
def log_before_commits(seen, call):
    if call.word != "tell":
        return None
    for answer, asked in seen.told(call):
        if asked.startswith("commit ") and answer.startswith("lsn "):
            lsn, log = int(answer.split()[1]), seen.live_log()
            lasting = log.lasting if log else b""
            record = decode_record(lasting[lsn:lsn + RECORD_SIZE]) if len(lasting) >= lsn + RECORD_SIZE else None
            if not record or record.kind != COMMIT:
                return f"the Commit at {lsn} is answered, and the log is stored up to {len(lasting)}"
    return None


@rule("A checkpoint is answered only once its master record is in place and its name is stored.")
def master_before_points(seen, call):
    if call.word != "tell" or not seen.live_log():
        return None
    for answer, _ in seen.told(call):
        if found := POINT.fullmatch(answer):
            master = seen.at(os.path.dirname(seen.live_log().path), "master")
            if not master or not master.is_named or master_in(master.lasting) != (int(found[1]), int(found[2])):
                return f"{answer!r} is told, and no such master record is stored"
    return None


@rule("A copy is told to be complete only once its archive is in place, whole, and its name is stored.")
def archive_before_copies(seen, call):
    if call.word != "tell" or not seen.live_log():
        return None
    for answer, asked in seen.told(call):
        found = COPY.fullmatch(answer)
        number = found[1] if found else asked.split()[1] if answer.startswith("sealed ") else None
        if number is None:
            continue
        copy = seen.at(os.path.dirname(seen.live_log().path), f"copy-{number}")
        if not copy or not copy.is_named or not is_archive(copy.lasting, int(number)):
            return f"{answer!r} is told, and no such archive is stored"
    return None


@rule("What bytes behind the log are told to be now, they are: that file is stored.")
def left_out_before_told(seen, call):
    if call.word != "tell" or call.file != ERRORS:
        return None
    for line in call.data.decode().splitlines():
        found = MOVED.fullmatch(line)
        if found and not any(it.kind == found[1] and it.is_named for it in seen.nodes.values()):
            return f"{found[1]} is told, and is not stored"
    return None


@rule("A master record gets its name only once the log beside it is stored through the end of its checkpoint.")
def log_before_master(seen, call):
    node, log = named_beside(seen, call, "master")
    if node and (not master_in(node.data) or log and master_in(node.data)[1] + RECORD_SIZE > stored(log)):
        return "the master record names what is not stored of the log"
    return None


@rule("An archive gets its name only once the log beside it is stored through the LSN of each of its pages.")
def log_before_archive(seen, call):
    node, log = named_beside(seen, call, "copy-")
    if not node or not log or node.was_there:
        return None
    pages = (read_page(node.data[at:at + PAGE_SIZE]) for at in range(ARCHIVE.size, len(node.data), PAGE_SIZE))
    last = max((page.lsn for page in pages if page), default=0)
    if last and last + RECORD_SIZE > stored(log):
        return f"a page of {call.names[1]} has LSN {last}, and the log is stored up to {stored(log)}"
    return None


@rule("A manifest gets its name only once each file that it names is stored there under its name, with these bytes.")
def files_before_manifest(seen, call):
    node, _ = named_beside(seen, call, "manifest")
    if not node:
        return None
    for how, count, digest, name in ENTRY.findall(bytes(node.data)):
        file = seen.at(os.path.dirname(call.names[1]), name.decode())
        data = bytes(file.lasting if not file.was_there or file.is_live else file.data) if file else b""
        data = data[:int(count)] if how == b"first" else data
        if not file or not file.is_named or len(data) != int(count) or hashlib.sha256(data).hexdigest() != digest.decode():
            return f"the manifest names {name.decode()}, which is not stored so"
    return None


@rule("The note of a closing gets its name only once the log is stored up to the end that it tells, and, where no call"
      " fails, the name of the manifest; behind it nothing is changed.")
def closed_last(seen, call):
    node, log = named_beside(seen, call, "closed")
    if node:
        manifest = seen.at(os.path.dirname(call.names[1]), "manifest")
        if not log or closed_at(bytes(node.data)) != stored(log) or len(log.data) != stored(log):
            return f"the note tells {bytes(node.data)!r}, and the log is stored up to {stored(log)}"
        if not seen.is_failing and (not manifest or not manifest.is_named):
            return "the note of a closing comes before the manifest"
    for path in changed(seen, call):
        note = seen.at(os.path.dirname(path) or ".", "closed")
        if note and not note.was_there and note.path not in call.names:
            return f"{path} is changed behind the note of a closing"
    return None


@rule("Of a volume and its log, put in place together, both are synced before one has its name; the log's name is stored"
      " before the volume has its own.")
def log_before_volume(seen, call):
    if call.word != "rename" or not seen.case.is_pair:
        return None
    log = [it for it in seen.nodes.values() if it.kind == "l" and not it.was_there]
    volume = [it for it in seen.nodes.values() if it.kind == "v" and not it.was_there]
    if not log or not volume or not log[0].is_synced or not volume[0].is_synced:
        return f"{call.names[1]} gets its name before both are synced"
    if call.names[1].endswith("v") and (log[0].is_unfinished or not log[0].is_named):
        return "the volume gets its name before that of the log is stored"
    return None


@rule("A save puts its files in place in this order: the log, the master record, the copies by their ids, the manifest.")
def order_of_a_save(seen, call):
    if call.word != "rename" or not seen.case.is_save:
        return None
    ranks = {"log": 0, "master": 1, "manifest": 9_999}
    rank = lambda path: ranks.get(os.path.basename(path), 2 + int((re.findall("[0-9]+", path) or ["0"])[-1]))
    there = [it.path for it in seen.nodes.values() if not it.was_there and not it.is_folder and not it.is_unfinished]
    if any(rank(path) > rank(call.names[1]) for path in there):
        return f"{call.names[1]} gets its name behind {there}"
    return None


@rule("A second folder gets the log, then copies, then the master record, then the manifest, each with its name stored"
      " before the next one gets its own.")
def order_of_a_backup(seen, call):
    if call.word != "rename" or not seen.is_second(call.names[1]):
        return None
    ranks = {"log": 0, "master": 2, "manifest": 3}
    rank = lambda path: ranks.get(os.path.basename(path), 1)
    new = [it for it in seen.nodes.values() if seen.is_second(it.path) and not it.is_folder and not it.was_there
           and not it.is_unfinished]
    if any(not it.is_named or rank(it.path) > rank(call.names[1]) for it in new):
        return f"{call.names[1]} gets its name behind {[(it.path, it.is_named) for it in new]}"
    return None


@rule("A new database's folder gets its name only once it is closed, and all names in it are stored.")
def whole_before_renewed(seen, call):
    node = seen.nodes.get(call.names[0]) if call.word == "rename" else None
    if node and node.is_folder:
        inside = [it for it in seen.nodes.values() if seen.folder_of(it.path) is node]
        names = {it.kind for it in inside}
        if not {"log", "master", "copy-1", "manifest", "closed"} <= names or not all(it.is_named for it in inside):
            return f"{call.names[1]} gets its name with {sorted(names)}"
    return None


@rule("Nothing is changed but what the command may change.")
def leaves_the_rest(seen, call):
    wrong = [path for path in changed(seen, call) if not may_change(seen, path)]
    return f"{wrong[0]} is changed" if wrong else None


def may_change(seen, path):
    return any(re.fullmatch(f"{allowed}(/[^/]*)?", path) for allowed in seen.case.may_change)


def stored(log):
    """Up to where a log is stored for certain."""
    return len(log.lasting) if log else 0


def named_beside(seen, call, name):
    """The file that gets such a name by a call, and the log beside it."""
    if call.word != "rename" or not os.path.basename(call.names[1]).startswith(name):
        return None, None
    if "." in os.path.basename(call.names[1]):
        return None, None
    return seen.nodes.get(call.names[0]), seen.at(os.path.dirname(call.names[1]), "log")


def is_archive(data, number):
    try:
        copy, taken = read_archive_header(bytes(data[:ARCHIVE.size]))
    except Refusal:
        return False
    return copy.number == number and len(data) == ARCHIVE.size + taken * PAGE_SIZE
