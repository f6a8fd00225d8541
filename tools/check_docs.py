#!/usr/bin/env python3
"""Looks up what the documents name in backticks, also the pages that `make contracts` writes, which have the
documentation of each public item, and fails where the repository does not have it. It fails, too, where

- a link of a document leads to no file, or to no heading of one,
- a crate's README does not name a file of its `src`,
- crates/README.md does not draw the layers and the crates of crates.txt in the same order, or a crate stands there
  above one that it stands on,
- a contract of docs/CONTRACTS.md is not in the file that its row links, or lacks a clause that the row names,
- docs/WRONG_BODIES.md does not name a crate's wrong bodies of the gate, or the manual page the latest version,
- its table "In short" names what is no wrong body, or, behind "tests", what is no test, or the worked rows of
  docs/CONTRIBUTING.md name a row that checks/rows.py does not play, or a test that is not there.

usage: check_docs.py

A path has to be there, also seen from a crate's folder, from docs/ or from the document's own, and a file's name in any
folder. A name has to be a word of the sources, which are the code, the definitions, the scripts and the Makefile, or to
be the name of a file. Of `A::b` a file that names A has to have b. Of several words the first has to be a name, or
`make`, `imgcopy` or `rt` before a target or a command.
"""

import fnmatch
import re
import sys
from pathlib import Path

import contracts
from repository import ROOT, crates, lines_of_crates

sys.path.append(str(ROOT))

from checks import rows  # noqa: E402  # it stands at the top of the repository

SUFFIXES = (".rt", ".antt", ".md", ".py", ".rs", ".sh", ".c", ".h", ".edit", ".log", ".volume", ".fault", ".svg", ".txt")
# The files whose words count, and what counts for nothing in them.
COMMENTS = {".rt": r"//[^\n]*", ".rs": r"//[^\n]*", ".antt": r"--[^\n]*", ".h": r"(?s:/\*.*?\*/)", ".c": r"(?s:/\*.*?\*/)"}
SCRIPTS = (".py", ".sh", ".txt", "Makefile")
RT_COMMANDS = "ci must-fail doc version help new check verdict lib run test try fmt tidy plant all expand lemma"

# Words of clap, folders that are made, and what stands for any name.
ALLOWED_NAMES = {"takes"}
MADE = ("build/", "out/")
ANY = re.compile(r"\b(NAME|CRATE)\b")

SPAN = re.compile(r"`((?:[^`\n]|\n(?!\n))+)`")
FENCE = re.compile(r"^```.*?^```", re.DOTALL | re.MULTILINE)
NAME = re.compile(r"([A-Za-z_]\w*(?:::\w+)*)(?:\(.*\))?")
LINK = re.compile(r"\]\(([^)\s#]*)(?:#([^)\s]*))?\)")
# A layer or a crate in the picture of crates/README.md, and a contract in a row of docs/CONTRACTS.md.
DRAWN = re.compile(r"^(?:(\S.*)|  (\w+) +\S.*)$", re.MULTILINE)
CARRIER = re.compile(r"^\| .* \| \[`(\w+)::([\w:]+)`\]\((\S+)\) \| (.*) \|$")


class Sources:
    """The words of each file of the sources, without those of comments."""

    def __init__(self):
        self.files = {path: set(re.findall(r"\w+", code_of(path))) for path in all_files()}
        self.names = {path.name for path in self.files}
        self.words = set(crates()).union({path.stem for path in self.files}, *self.files.values())
        self.targets = set(re.findall(r"^([\w-]+):", (ROOT / "Makefile").read_text(encoding="utf-8"), re.MULTILINE))
        program = ROOT / "crates" / "command_words" / "src"
        self.commands = set(re.findall(r'"([\w-]+)"', "".join(path.read_text() for path in program.rglob("*.rt"))))

    def lacks(self, name):
        """What is wrong with a name, as `b`, `A::b` or `A::b::c`, or None."""
        parts = name.split("::")
        for part in parts:
            if part not in self.words and part not in ALLOWED_NAMES:
                return f"the sources have no {part}"
        for owner, part in zip(parts, parts[1:]):
            if not any({owner, part} <= words for words in self.files.values()):
                return f"no file that names {owner} has {part}"
        return None


def all_files():
    yield from (path for path in ROOT.iterdir() if path.is_file())
    for folder in ("crates", "docs", "examples", "model", "checks", "bench", "tools", "include", "bindings"):
        for path in (ROOT / folder).rglob("*"):
            if path.is_file() and not {"out", "__pycache__"} & set(path.parts):
                yield path


def code_of(path):
    """The text of a file whose words count, and else nothing. Those of this file do not."""
    kind = path.suffix or path.name
    if kind in COMMENTS:
        return re.sub(COMMENTS[kind], "", path.read_text(encoding="utf-8"))
    is_script = kind in SCRIPTS and path != Path(__file__).resolve()
    return path.read_text(encoding="utf-8") if is_script else ""


def documents():
    yield ROOT / "README.md"
    yield ROOT / "CHANGELOG.md"
    for folder in ("docs", "bench", "model", "checks", "examples/*", "crates", "crates/*"):
        yield from sorted(ROOT.glob(f"{folder}/*.md"))


def texts():
    """Each document and each page of contracts, and its text without blocks of code."""
    blank = lambda found: re.sub(r"[^\n]", "", found.group())
    written = {path: path.read_text(encoding="utf-8") for path in documents()}
    for path, text in {**written, **contracts.documents(list(contracts.shown_crates()))}.items():
        yield path, FENCE.sub(blank, text)


def spans(shown):
    """What stands in backticks, each with the number of its line."""
    for found in SPAN.finditer(shown):
        yield shown.count("\n", 0, found.start()) + 1, " ".join(found[1].split())


def lost_links(path, shown, places):
    """The links of a document that lead to no file, or to no heading of a document."""
    for found in LINK.finditer(re.sub(r"`[^`\n]*`", "", shown)):
        file, place = found.groups()
        if file.startswith(("http:", "https:")):
            continue
        target = (path.parent / file).resolve() if file else path
        if not target.exists() and target not in places or place and place not in places.get(target, ()):
            line = re.sub(r"`[^`\n]*`", "", shown).count("\n", 0, found.start()) + 1
            yield f"{path.relative_to(ROOT)}:{line}: its link to {found[0][2:-1]} leads nowhere"


def fault_of(span, folder, sources):
    """What is wrong with what stands in backticks, or None."""
    first, _, rest = span.partition(" ")
    if rest:
        return fault_of_words(first, rest.split(), sources)
    if "/" in span or span.endswith(SUFFIXES):
        return fault_of_path(span, folder, sources)
    name = NAME.fullmatch(span)
    return sources.lacks(name[1]) if name else None


def fault_of_words(first, rest, sources):
    known = {"make": sources.targets, "imgcopy": sources.commands, "rt": RT_COMMANDS.split()}
    if first in known:
        wanted = [word for word in rest if re.fullmatch(r"[a-z][\w-]*", word)][:1]
        return next((f"{first} has no {word}" for word in wanted if word not in known[first]), None)
    return sources.lacks(first) if NAME.fullmatch(first) else None


def fault_of_path(span, folder, sources):
    if span.startswith(("/", *MADE)):
        return None
    pattern = ANY.sub("*", span).rstrip("/")
    places = [ROOT, folder, ROOT / "docs", *(ROOT / "crates" / crate for crate in crates())]
    is_there = any(path for place in places for path in place.glob(pattern))
    return None if is_there or fnmatch.filter(sources.names, pattern) else "there is no such file"


def unnamed_files():
    """The files of code that the README of their crate does not name, but for its root."""
    for crate in crates():
        folder = ROOT / "crates" / crate
        told = (folder / "README.md").read_text(encoding="utf-8")
        for path in sorted((folder / "src").rglob("*.rt")):
            if path.name not in ("lib.rt", "main.rt") and not re.search(rf"\b{re.escape(path.name)}`", told):
                yield f"crates/{crate}/README.md: it does not name {path.relative_to(folder)}"


def other_wrong_bodies():
    """Where docs/WRONG_BODIES.md has other wrong bodies of a crate than the gate tries, or one that is not there of a
    crate of which the gate tries none. It need not have each crate."""
    told = (ROOT / "docs" / "WRONG_BODIES.md").read_text(encoding="utf-8")
    named = set(re.findall(r"^\| `(\w+)` \| `(\w+)` \|", told, re.MULTILINE))
    for crate in sorted({crate for crate, _ in named}):
        there = {(crate, edit.stem) for edit in (ROOT / "crates" / crate / "must-fail").glob("*.edit")}
        of_crate = {(owner, name) for owner, name in named if owner == crate}
        if not there:
            left_out = ROOT / "tools" / "plants" / crate
            there = {it for it in of_crate if (left_out / f"{it[1]}.edit").is_file()}
        for _, body in sorted(there ^ of_crate):
            kind = "does not name" if (crate, body) in there else "names what the gate does not try:"
            yield f"docs/WRONG_BODIES.md: it {kind} {crate}/{body}"


def table_of(page, heading):
    """The rows of the table under a heading of a document in docs/, each as its cells."""
    text = (ROOT / "docs" / page).read_text(encoding="utf-8").partition(f"\n## {heading}\n")[2].partition("\n## ")[0]
    lines = [line for line in text.splitlines() if line.startswith("| ")][1:]
    return [[cell.strip() for cell in line.strip("|").split("|")] for line in lines]


def tests():
    """The names of the tests in all crates."""
    sources = (path.read_text(encoding="utf-8") for path in (ROOT / "crates").glob("*/src/**/*.rt"))
    return {name for text in sources for name in re.findall(r"#\[test\]\s+fn (\w+)", text)}


def lacking_carriers():
    """What the tables of wrong bodies and of worked rows name as one and is none."""
    known, bodies = tests(), {path.stem for path in all_files() if path.suffix == ".edit"}
    for first, *_, carriers in table_of("WRONG_BODIES.md", "In short"):
        edits, _, tried = carriers.partition("tests: ")
        named = {name for name in re.findall(r"`(\w+)`", edits) if name not in crates() and name != "claim"}
        for name in sorted(named - bodies | set(re.findall(r"`(\w+)`", tried)) - known):
            yield f"docs/WRONG_BODIES.md: '{first}': {name} is no wrong body, or no test"
    for first, typed, tried in table_of("CONTRIBUTING.md", "Worked rows"):
        named = set(re.findall(r'"([^"]+)"', typed))
        for name in sorted(named - rows.names() | set(re.findall(r"`(\w+)`", tried)) - known):
            yield f"docs/CONTRIBUTING.md: the worked row '{first}': {name} is not there"
        if not named and "`" not in tried:
            yield f"docs/CONTRIBUTING.md: the worked row '{first}': nothing tries it"


def other_layers():
    """Where crates/README.md draws other layers or crates than crates.txt, or this has one above what it stands on."""
    lines = (ROOT / "crates.txt").read_text(encoding="utf-8").partition("\n\n")[2].splitlines()
    listed = [line.removeprefix("# ").partition(":")[0].removesuffix(" staticlib") for line in lines if line]
    picture = FENCE.search((ROOT / "crates" / "README.md").read_text(encoding="utf-8"))[0].partition("\n")[2]
    drawn = [layer or crate for layer, crate in DRAWN.findall(picture.rpartition("\n")[0])]
    for here, there in zip(drawn + [None] * len(listed), listed + [None] * len(drawn)):
        if here != there:
            yield f"crates/README.md: it draws {here!r} where crates.txt has {there!r}"
            break
    above = set()
    for crate, line in lines_of_crates().items():
        lower = [other for other in line.partition(":")[2].split() if other in crates() and other not in above]
        yield from (f"crates.txt: {crate} stands above {other}, which it stands on" for other in lower)
        above.add(crate)


def lacking_contracts():
    """The contracts of docs/CONTRACTS.md that are not in the file that their row links, or lack a clause."""
    for line in (ROOT / "docs" / "CONTRACTS.md").read_text(encoding="utf-8").splitlines():
        found = CARRIER.match(line)
        if found:
            row = f"docs/CONTRACTS.md: {found[1]}::{found[2]}"
            yield from (f"{row}: {fault}" for fault in faults_of_row(*found.groups()))
        elif line.startswith("| ") and not line.startswith("| What "):
            yield f"docs/CONTRACTS.md: no contract can be read in the row {line[:60]!r}"


def faults_of_row(crate, name, link, clauses):
    path = (ROOT / "docs" / link).resolve()
    if ROOT / "crates" / crate / "src" not in path.parents or not path.exists():
        yield f"{link} is no file of this crate"
        return
    items = contracts.items_of(path.read_text(encoding="utf-8"))
    heads = [item.text for item in items if item.kind == "fn"
             and name == (f"{contracts.subject_of(item)}::{item.name}" if item.owner else item.name)]
    if not heads:
        yield f"{path.name} has no such function"
    # A law that is named as a whole, and a contract of one clause, need just have clauses.
    for clause in re.findall(r"`(\w+)`", clauses) or [r"\w*"]:
        if heads and not any(re.search(rf"\bensures {clause} ?\{{", head) for head in heads):
            yield f"it has no clause {clause}"


def fault_of_version():
    """What is wrong with the version that the manual page tells, or None."""
    latest = re.search(r"^## (\S+),", (ROOT / "CHANGELOG.md").read_text(encoding="utf-8"), re.MULTILINE)[1]
    told = re.search(r'^\.TH .*"imgcopy (\S+)"', (ROOT / "docs" / "imgcopy.1").read_text(encoding="utf-8"))
    if not told or told[1] != latest:
        return f"docs/imgcopy.1: its first line does not tell version {latest} of CHANGELOG.md"
    return None


def main():
    sources, count = Sources(), 0
    faults = [*unnamed_files(), *other_layers(), *lacking_contracts(), *other_wrong_bodies(),
              *lacking_carriers()]
    faults += filter(None, [fault_of_version()])
    shown = dict(texts())
    places = {path: set(contracts.anchors_of(contracts.HEADING.findall(text))) for path, text in shown.items()}
    for path, text in shown.items():
        faults += lost_links(path, text, places)
        for line, span in spans(text):
            fault = fault_of(span, path.parent, sources)
            count += 1
            if fault:
                faults.append(f"{path.relative_to(ROOT)}:{line}: `{span}`: {fault}")
    if faults:
        sys.exit("\n".join(faults))
    print(f"ok documents: what they name in {count} places is there")


if __name__ == "__main__":
    main()
