"""The manifest of saved files, and that of a database, as Python's hashlib makes them. For the checks that look at what
a command leaves."""

import hashlib
import re

NAME = "manifest"
HEAD = re.compile(rb"# imgcopy manifest 1 database [0-9a-f]{32}\n")
ENTRY = re.compile(rb"(?m)^# (whole|first) ([0-9]+)[ \n]([0-9a-f]{64})  (.*)$")


class WrongManifest(Exception):
    """What is wrong with it, in one line."""


def head_of(text):
    found = HEAD.match(text)
    if not found:
        raise WrongManifest(f"a manifest begins with {text[:70]!r}")
    return found.group()


def names_of(files):
    """The names in the order in which a save puts its files in place."""
    copies = sorted(int(name[5:]) for name in files if name.startswith("copy-"))
    return [name for name in ("log", "master") if name in files] + [f"copy-{number}" for number in copies]


def manifest_of(files, head, grows=False):
    """The manifest of these files behind this head: of a database, whose log grows, its first bytes are summed, and of
    saved files all of each."""
    text = head
    for name in names_of(files):
        data, digest = files[name], hashlib.sha256(files[name]).hexdigest()
        text += (f"# first {len(data)} " if name == "log" and grows else f"# whole {len(data)}\n").encode()
        text += f"{digest}  {name}\n".encode()
    return text


def is_manifest_of(text, files):
    """Whether the manifest of a database has an entry of each of these files and no other one, in any order."""
    return sorted(text.splitlines()) == sorted(manifest_of(files, head_of(text), grows=True).splitlines())


def misnamed(files):
    """The names in the manifest of a folder under which other files stand there, or none. Once the log is longer than it
    is named, the master record may be a newer one."""
    head_of(files[NAME])
    named = {name.decode(): (kind == b"first", int(count), digest.decode())
             for kind, count, digest, name in ENTRY.findall(files[NAME])}
    has_grown = "log" in named and named["log"][0] and len(files.get("log", b"")) > named["log"][1]
    return [name for name, (is_first, count, digest) in named.items()
            if not is_named(files.get(name), is_first, count, digest) and not (name == "master" and has_grown)]


def is_named(data, is_first, count, digest):
    part = data[:count] if is_first and data else data
    return part is not None and len(part) == count and hashlib.sha256(part).hexdigest() == digest


def without_manifest(files):
    """The files that a save with a manifest has left but for that, which has to be theirs."""
    rest = {name: data for name, data in files.items() if name != NAME}
    text = files.get(NAME)
    if text is None:
        raise WrongManifest("a save leaves no manifest")
    if text != manifest_of(rest, head_of(text)):
        raise WrongManifest("a save leaves a manifest of other files")
    return rest
