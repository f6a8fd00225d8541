"""What the calls of a command have made of its files, one call after another. For call_rules.py.

What was read of a log is not believed to be stored, as a sync of an older life may have failed: it is once it was synced,
if the note of a closing tells where it ends, and else once it was written again and synced. Once a sync of a folder failed,
a name that was not stored there is not believed to be either, until the file gets it anew and the folder is synced.
"""

import os
import re

from checks.call_trace import OUTPUT
from model.lives import closed_at, front_of, is_headless

UNFINISHED = re.compile(r"(.+)\.unfinished-[0-9]+")
CHANGES = ("make", "write", "cut", "rename", "remove", "mkdir")
NAMINGS = ("make", "rename", "remove", "mkdir")


class Node:
    """A file or a folder, whatever name it has at a moment."""

    def __init__(self, path, data=None, was_there=True):
        self.path, self.was_there = path, was_there
        self.is_folder = data is None
        self.data = bytearray(data or b"")
        # What of it is stored for certain: nothing is known of an older file before it is synced.
        self.lasting, self.synced_count, self.is_believed = b"", 0, True
        self.is_synced, self.was_synced, self.has_failed = False, False, False
        # What was stored of it is cut off, which is not synced yet.
        self.is_cut = False
        # It is written under its own name: the log and the volume of a database.
        self.is_live = False
        # The name that it got last is stored, which is not known of a log that has no header.
        self.is_named = was_there and (self.kind != "log" or data is None or not is_headless(data))
        self.name_has_failed = False

    @property
    def kind(self):
        """The last part of its name, without what marks an unfinished file."""
        name = os.path.basename(self.path)
        found = UNFINISHED.fullmatch(name)
        return found[1] if found else name

    @property
    def is_unfinished(self):
        return bool(UNFINISHED.fullmatch(os.path.basename(self.path)))


class Seen:
    """What the calls so far have made of the files below the top, where a command of `call_order.py` is run."""

    def __init__(self, case, is_failing=False):
        self.case, self.is_failing = case, is_failing
        self.nodes = {path: Node(path, data) for path, data in case.files.items()}
        self.nodes.setdefault(".", Node("."))
        # Folders in which a note of a closing may be stored.
        self.noted = {os.path.dirname(path) or "." for path in case.files if os.path.basename(path) == "closed"}
        self.opened, self.places, self.locks = {}, {}, {}
        self.answered, self.rest = -1, b""
        self.was_locked, self.changes = set(), 0

    def node(self, call):
        """The file that a call is made of, if it stands below the top."""
        return self.opened.get(call.file)

    def folder_of(self, path):
        return self.nodes.get(os.path.dirname(path) or ".")

    def at(self, folder, name):
        """The file of this name in the folder where another one stands."""
        return self.nodes.get(os.path.normpath(os.path.join(folder, name)))

    def live_log(self):
        """The log of the database that is open, if one is."""
        return next((node for node in self.nodes.values() if node.is_live and node.kind == "log"), None)

    def has_locked(self, node):
        return any(it is node for it in self.locks.values())

    def told(self, call):
        """The whole lines that a write to the standard output ends, each with the line that asked for it."""
        if call.file != OUTPUT:
            return []
        told, asked = (self.rest + call.data).split(b"\n")[:-1], self.case.lines
        return [(line.decode(), asked[number] if 0 <= number < len(asked) else "")
                for number, line in enumerate(told, self.answered)]

    def is_second(self, path):
        """Whether it stands in the second folder of a backup."""
        return bool(self.case.second) and os.path.dirname(path) == self.case.second

    def can(self, call):
        """Whether the system can do this: what is renamed is there, what is made is not, and each name has its folder."""
        if call.word == "rename" and call.names[0] not in self.nodes:
            return False
        if call.word in ("make", "mkdir") and call.names[0] in self.nodes:
            return False
        return call.word not in NAMINGS or all(self.folder_of(path) for path in call.names)

    def take(self, call):
        """Plays a call."""
        self.changes += call.word in CHANGES and call.is_done
        if call.word == "tell":
            self.take_told(call)
        elif not call.is_done:
            if call.word == "sync" and (node := self.node(call)):
                self.fail_sync(node)
        else:
            getattr(self, f"take_{call.word}", lambda _: None)(call)

    def take_told(self, call):
        if call.file == OUTPUT:
            *lines, self.rest = (self.rest + call.data).split(b"\n")
            self.answered += len(lines)

    def take_open(self, call):
        node = self.nodes.get(call.names[0])
        self.opened.pop(call.file, None)
        if node:
            self.opened[call.file], self.places[call.file] = node, 0
            node.is_live |= call.is_written
            if call.is_written and node.kind == "log":
                note = self.at(os.path.dirname(node.path), "closed")
                node.is_believed = note is not None and closed_at(bytes(note.data)) == front_of(bytes(node.data)).end()

    def take_make(self, call):
        node = self.nodes[call.names[0]] = Node(call.names[0], b"", was_there=False)
        node.is_live = not node.is_unfinished
        self.opened[call.file], self.places[call.file] = node, 0
        self.change_names(call.names[0])

    def take_mkdir(self, call):
        self.nodes[call.names[0]] = Node(call.names[0], was_there=False)
        self.change_names(call.names[0])

    def take_close(self, call):
        self.opened.pop(call.file, None)
        self.locks.pop(call.file, None)

    def take_lock(self, call):
        if node := self.node(call):
            self.locks[call.file] = node
            self.was_locked.add(node)

    def take_unlock(self, call):
        self.locks.pop(call.file, None)

    def take_write(self, call):
        if node := self.node(call):
            at = call.at if call.at >= 0 else self.places[call.file]
            self.places[call.file] = at + len(call.data)
            node.data.extend(bytes(max(0, at - len(node.data))))
            node.data[at:at + len(call.data)] = call.data
            node.is_synced = False
            node.is_believed |= at == 0

    def take_cut(self, call):
        if node := self.node(call):
            node.is_cut |= call.at < node.synced_count
            node.data = node.data[:call.at] + bytes(max(0, call.at - len(node.data)))
            node.lasting, node.is_synced = node.lasting[:call.at], False

    def take_sync(self, call):
        if node := self.node(call):
            node.is_synced, node.was_synced, node.is_cut, node.synced_count = True, True, False, len(node.data)
            node.lasting = bytes(node.data) if node.is_believed else b""
            if node.is_folder:
                if not self.at(node.path, "closed"):
                    self.noted.discard(node.path)
                for it in self.nodes.values():
                    if self.folder_of(it.path) is node and not it.name_has_failed:
                        it.is_named = True

    def fail_sync(self, node):
        """Nothing of it is believed to be stored from then on. A file of that folder is once it is named anew."""
        node.has_failed, node.is_synced = True, False
        for it in self.nodes.values():
            if node.is_folder and self.folder_of(it.path) is node and not it.is_named:
                it.name_has_failed = True

    def take_rename(self, call):
        old, new = call.names
        node = self.nodes.pop(old)
        for path in [path for path in self.nodes if path.startswith(f"{old}/")]:
            inside = self.nodes.pop(path)
            inside.path = new + path[len(old):]
            self.nodes[inside.path] = inside
        self.nodes[new], node.path = node, new
        self.change_names(old)
        self.change_names(new)
        node.name_has_failed = False

    def take_remove(self, call):
        self.nodes.pop(call.names[0], None)
        self.change_names(call.names[0])

    def change_names(self, path):
        if path in self.nodes:
            self.nodes[path].is_named = False
