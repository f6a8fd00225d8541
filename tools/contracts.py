#!/usr/bin/env python3
"""Makes build/contracts/README.md, the index of the public items of each crate, and build/contracts/CRATE.md for each
crate: its items with their signatures and the full text of their clauses, and the crate's wrong bodies.

usage: contracts.py            writes them
       contracts.py --check    writes nothing, and fails if they cannot be made, if the page of a crate lacks a function
                               that users can name, or if a link of theirs leads nowhere
       contracts.py --count    writes nothing, and prints for each crate how many functions have a clause `ensures`, of
                               their own or of a trait of these crates, and how many lines these functions have; the
                               others are proved safe, and to end, and no more

It reads the sources by their layout, which is that of `rt fmt`: the items of a module begin at the start of a line, and
those of an `impl` or a `trait` behind four spaces.
"""

import re
import sys
from collections import Counter
from itertools import groupby
from pathlib import Path
from textwrap import dedent
from typing import NamedTuple, Optional

from repository import ROOT, crates

PAGES = ROOT / "build" / "contracts"
INDEX = PAGES / "README.md"

INTRODUCTION = """\
# All contracts

The public items of each crate of `crates.txt` that can be named from outside the crate, or all of them where the crate
is a program, with the first sentence of what the source says of each. An item leads to its place on the page of its
crate, which has its signature and its clauses in full, and behind the items the wrong bodies of the crate, which the
check has to refuse.

`make contracts` makes this file and those pages from the sources.
"""

PAGE = """\
# Contracts of {crate}

The public items of `crates/{crate}`, file by file, with what the source says of each, its signature, and its clauses.
`requires` is what a caller has to show, and `ensures` what it may count on. Where an item is of an `impl` with
parameters, a comment names that. The lines `ghost use` of a file say in which crate, and in which file of its `specs`,
the words of its clauses are defined. [The index](README.md) has the other crates.
"""

WRONG_BODIES = """\
## Wrong bodies

The check has to refuse each of these (`crates/*/must-fail/`, and `tools/plants/` for those that the gate leaves out),
behind the places that they change.
"""

# Comments, texts and characters: no item begins in them.
HIDDEN = re.compile(r'//[^\n]*|"(?:\\.|[^"\\])*"|\'(?:\\.|[^\\\'\n])\'', re.DOTALL)
TEST_MODULE = re.compile(r"^#\[cfg\(test\)\]\n(?:pub )?mod \w+(?:;| \{.*?^\})", re.DOTALL | re.MULTILINE)
ITEM = re.compile(r"^(    |)(pub |)(?:pub\(.*?\) |const (?=fn)|unsafe |extern ... (?=fn))*"
                  r"(fn|struct|enum|trait|const|static|type|impl|ghost(?! use))\b(.*)", re.MULTILINE)
MODULE = re.compile(r"^(pub |)mod (\w+);", re.MULTILINE)
EXPORT = re.compile(r"^pub use (.*?);", re.DOTALL | re.MULTILINE)
WORDS = re.compile(r"^( *)ghost use .*?;", re.DOTALL | re.MULTILINE)
CLAUSE = re.compile(r"\b(?:requires|ensures)\b")
# The head of an `impl`, and a public function, by a look at their lines alone.
PLAIN = re.compile(r"^(?:unsafe )?(impl\b[^{]*)|^( {4}|)pub (?:const |unsafe )*fn (\w+)", re.MULTILINE)
HEADING = re.compile(r"^#+ (.*)$", re.MULTILINE)
LINK = re.compile(r"\]\(([\w.]+\.md)(?:#([\w-]+))?\)")
ENSURES = re.compile(r"\bensures\b")
# A line of a struct that has a private field.
FIELD = re.compile(r"^    (?!pub |///|#\[)\S.*\n", re.MULTILINE)


class Item(NamedTuple):
    """An item of a module, or of the `impl` or `trait` whose head is `owner`. That of a module has the owner ''.

    `text` is what users see of it: no body of a function, and of an `impl` or a `trait` the head alone. `within` is the
    head of the `impl` that it stands in, as the source has it.
    """

    kind: str
    name: str
    is_public: bool
    owner: str
    start: int
    doc: list
    text: str
    within: str
    words: str


class Module(NamedTuple):
    """A file of a crate. `path` is what users write before its items, or None where they cannot name the module.

    `words` are its lines `ghost use`.
    """

    file: Path
    path: Optional[str]
    items: list
    words: str


class Row(NamedTuple):
    item: str
    doc: list
    text: str


def hide(text):
    """The text with spaces in place of all in which no item begins."""
    blank = lambda found: re.sub(r"[^\n]", " ", found.group())
    return TEST_MODULE.sub(blank, HIDDEN.sub(blank, text))


def items_of(text):
    """The items of a module, in their order."""
    shown, items, owner, within = hide(text), [], "", ""
    for found in ITEM.finditer(shown):
        indent, public, kind, rest = found.groups()
        if indent and not owner:
            continue  # within the body of a function
        name = head_of_impl(rest) if kind == "impl" else re.match(r"\W*(\w*)", rest)[1]
        start = found.start()
        items.append(Item(kind, name, bool(public), owner if indent else "", start, documentation(text[:start]),
                          derived(text[:start]) + seen_of(kind, text[start:], shown[start:]), within if indent else "",
                          words_within(text[start:], shown[start:]) if kind in ("impl", "trait") else ""))
        if not indent:
            owner = f"{kind} {name}" if kind in ("impl", "trait") else ""
            within = items[-1].text
    return items


def head_of_impl(rest):
    """`Type`, or `Trait for Type`, of what stands behind the word `impl`."""
    depth, end = 0, 0
    for end, letter in enumerate(rest):
        depth += {"<": 1, ">": -1}.get(letter, 0)
        if depth == 0:
            break
    generics = end + 1 if rest.startswith("<") else 0
    return rest[generics:].rstrip(" {").strip()


def seen_of(kind, text, shown):
    """What users see of the item with which this text begins."""
    if kind in ("fn", "impl", "trait"):
        return dedent(text[:len(head_of_function(shown))].rstrip())
    item = dedent(text[:end_of_item(shown)])
    if kind != "struct" or not item.endswith("}"):
        return item
    fields = FIELD.sub("", item)
    if fields == item:
        return item
    return without_lone_comments(fields)[:-1] + "    // and private fields\n}"


def without_lone_comments(fields):
    """The fields of a struct without the comments of those that were left out."""
    kept, comments = [], []
    for line in fields.splitlines(keepends=True):
        if line.startswith("    ///"):
            comments.append(line)
        else:
            kept += comments + [line] if line.startswith("    pub ") else [line]
            comments = []
    return "".join(kept)


def head_of_function(text):
    """The text up to the function's body, or up to the semicolon that a trait has in its place."""
    depth, is_clause = 0, False
    for token in re.finditer(r"\b(?:requires|ensures)\b|[{}()\[\];]", text):
        word = token.group()
        if depth == 0 and (word == ";" or word == "{" and not is_clause):
            return text[:token.start()]
        if word in "{([":
            depth += 1
        elif word in "})]":
            depth -= 1
            is_clause = is_clause and depth > 0
        elif word != ";":
            is_clause = True
    return text


def end_of_item(text):
    """Where the item ends: behind its semicolon, or behind the brace that closes it."""
    depth = 0
    for token in re.finditer(r"[{}()\[\];]", text):
        word = token.group()
        depth += 1 if word in "{([" else -1 if word in "})]" else 0
        if depth == 0 and word in ";}" and not text[token.end():].startswith(";"):
            return token.end()
    return len(text)


def words_within(text, shown):
    """The lines `ghost use` of the `impl` or `trait` with which this text begins."""
    end = end_of_item(shown)
    return "\n".join(found.group() for found in WORDS.finditer(text[:end]))


def derived(before):
    """The attribute `derive` with which this text ends, if it does."""
    found = re.search(r"\n(#\[derive\([^\]]*\)\]\n)(?:#\[.*\]\n)*$", before)
    return found[1] if found else ""


def documentation(before):
    """The lines of the documentation with which this text ends."""
    lines = []
    for line in reversed(before.rstrip().split("\n")):
        if line.strip().startswith("///"):
            lines.insert(0, line.strip().removeprefix("///").strip())
        elif not line.strip().startswith("#["):
            break
    return lines


def first_sentence(lines):
    paragraph = " ".join(lines[:lines.index("")] if "" in lines else lines)
    return re.match(r".*?[.!?](?= |$)|.*", paragraph).group()


def modules(file, folder, path):
    """The module of this file and those below it, but no tests. The files of those below stand in the folder."""
    text = file.read_text(encoding="utf-8")
    words = "\n".join(found.group() for found in WORDS.finditer(text) if not found[1])
    yield Module(file, path, items_of(text), words)
    for public, name in MODULE.findall(hide(text)):
        below = f"{path}{name}::" if public and path is not None else None
        yield from modules(folder / f"{name}.rt", folder / name, below)


def modules_of(crate):
    """The modules of a crate, and the names that it exports from modules that users cannot name."""
    folder = ROOT / "crates" / crate / "src"
    program, library = folder / "main.rt", folder / "lib.rt"
    if program.exists():
        found = [module._replace(path="") for module in modules(program, folder, "")]
        return found, set()
    exports = EXPORT.findall(hide(library.read_text(encoding="utf-8")))
    return list(modules(library, folder, "")), set(re.findall(r"\w+", " ".join(exports)))


def rows_of(module, exports):
    """The rows of what users can name of a module, and of what an `impl` of a trait says of it."""
    for item in module.items:
        if is_shown(item) and (module.path is not None or subject_of(item) in exports):
            row = row_of(item, module)
            if item.kind != "impl" or row.text.endswith("}"):
                yield row


def is_shown(item):
    if item.owner:
        return item.kind == "fn" and (item.is_public or item.owner.startswith("trait "))
    return item.is_public or item.kind == "impl" and " for " in item.name


def row_of(item, module):
    path = module.path or ""
    name = f"{path}{subject_of(item)}::{item.name}" if item.owner else f"{item.kind} {path}{item.name}"
    return Row(name, item.doc, seen_with_its_place(item, module))


def seen_with_its_place(item, module):
    """What users see of an item: of an `impl` or a `trait` with its ghosts, and of an `impl` with its clauses too."""
    if item.kind in ("impl", "trait"):
        kinds = ("ghost",) if item.kind == "trait" else ("ghost", "fn")
        within = [other for other in module.items if other.owner == f"{item.kind} {item.name}"
                  and other.kind in kinds and (other.kind == "ghost" or CLAUSE.search(hide(other.text)))
                  and other.start > item.start]
        parts = [part_of(other) for other in within]
        if parts and item.words:
            parts.insert(0, item.words)
        return f"{item.text} {{\n{chr(10).join(parts)}\n}}" if parts else item.text
    if item.within.startswith("impl<"):
        return f"// {' '.join(item.within.split())}\n{item.text}"
    return item.text


def part_of(item):
    text = item.text if item.text.endswith(";") else f"{item.text};"
    text = "".join(f"/// {line}".rstrip() + "\n" for line in item.doc) + text
    return "\n".join(f"    {line}" if line else "" for line in text.split("\n"))


def subject_of(item):
    """The type or the trait that a method belongs to or that an `impl` is for. Of other items, the item itself."""
    head = item.owner or item.name
    return re.match(r"(?:impl |trait )?(?:.* for )?&?(?:mut )?(?:\w+::)*(\w+)", head)[1]


def wrong_bodies(crate, found):
    """The crate's edits that the check has to refuse, each behind the place that it changes."""
    by_file = {module.file: module.items for module in found}
    edits = []
    folders = (ROOT / "crates" / crate / "must-fail", ROOT / "tools" / "plants" / crate)
    for edit in (edit for folder in folders for edit in folder.glob("*.edit")):
        lines = edit.read_text(encoding="utf-8").splitlines()
        name, old = (next(line[len(word):] for line in lines if line.startswith(word)) for word in ("file: ", "old: "))
        file = ROOT / "crates" / crate / name
        at = file.read_text(encoding="utf-8").find(old)
        before = [item for item in by_file.get(file, []) if item.start <= at]
        edits.append((name, at if not before else before[-1].start, place_of(before), edit.stem))
    for (name, _, place), group in groupby(sorted(edits), key=lambda edit: edit[:3]):
        yield f"- `{name}`, {place}: {', '.join(f'`{edit[-1]}`' for edit in group)}"


def place_of(before):
    """The last of the items that begin before a place in a file."""
    if not before:
        return "-"
    last = before[-1]
    return f"`{subject_of(last)}::{last.name}`" if last.owner else f"`{last.name}`"


class Crate(NamedTuple):
    """A crate: its modules, the names that it exports of those that users cannot name, of each file what users can
    name, and the items of other crates that it passes on.
    """

    name: str
    modules: list
    exports: set
    rows: list
    passed: list

    def shown(self):
        return [row for rows in self.rows for row in rows]


def shown_crates():
    for name in crates():
        found, exports = modules_of(name)
        crate = Crate(name, found, exports, [list(rows_of(module, exports)) for module in found], list(passed_on(name)))
        if crate.shown() or crate.passed:
            yield crate


def passed_on(crate):
    """The crate, the name there and the name here of each item that a library passes on of another crate."""
    library = ROOT / "crates" / crate / "src" / "lib.rt"
    if not library.exists():
        return
    for export in EXPORT.findall(hide(library.read_text(encoding="utf-8"))):
        other, _, names = export.partition("::")
        for name in re.findall(r"\w+(?: as \w+)?", names) if other in crates() else []:
            there, _, here = name.partition(" as ")
            yield other, there, here or there


def place_of_item(by_name, crate, name):
    """Where the item stands that a crate has or passes on under this name: a page and an anchor there."""
    for row, anchor in zip(by_name[crate].shown(), anchors(by_name[crate])):
        if row.item.split(" ")[1:] == [name]:
            return f"{crate}.md#{anchor}"
    return next((place_of_item(by_name, other, there) for other, there, here in by_name[crate].passed if here == name),
                f"{crate}.md")


def anchors(crate):
    """The anchor of each heading of an item on the page of a crate, in their order."""
    titles = []
    for module, rows in zip(crate.modules, crate.rows):
        if rows:
            titles += [str(module.file.relative_to(ROOT / "crates" / crate.name)), *rows]
    names = (title if isinstance(title, str) else title.item for title in titles)
    yield from (anchor for title, anchor in zip(titles, anchors_of(names)) if not isinstance(title, str))


def anchors_of(headings):
    """The anchors of headings that follow one another on a page."""
    seen = Counter()
    for heading in headings:
        anchor = re.sub(r"[^\w -]", "", heading.lower()).replace(" ", "-")
        yield f"{anchor}-{seen[anchor]}" if seen[anchor] else anchor
        seen[anchor] += 1


def section(crate):
    """The items of a crate in the index."""
    yield f"## {crate.name}\n"
    if crate.passed:
        yield f"It also [passes on items of other crates]({crate.name}.md#passed-on-of-other-crates).\n"
    if not crate.shown():
        return
    yield "| Item | What it is |"
    yield "|---|---|"
    for row, anchor in zip(crate.shown(), anchors(crate)):
        cells = [f"[`{row.item}`]({crate.name}.md#{anchor})", first_sentence(row.doc)]
        yield f"| {' | '.join(cell.replace('|', chr(92) + '|') for cell in cells)} |"
    yield ""


def passed_lines(crate, by_name):
    """The items of other crates that a crate passes on, a line for each of these crates."""
    for other, items in groupby(crate.passed, key=lambda item: item[0]):
        links = (f"[`{here}`]({place_of_item(by_name, other, there)})" for _, there, here in items)
        yield f"- of `{other}`: {', '.join(links)}"


def page(crate, by_name):
    yield PAGE.format(crate=crate.name)
    if crate.passed:
        yield from ["## Passed on of other crates\n", *passed_lines(crate, by_name), ""]
    for module, rows in zip(crate.modules, crate.rows):
        if rows:
            yield f"## `{module.file.relative_to(ROOT / 'crates' / crate.name)}`\n"
            yield from block(module.words)
        for row in rows:
            yield f"### `{row.item}`\n"
            yield from [*row.doc, ""] if row.doc else []
            yield from block(row.text)
    yield WRONG_BODIES
    yield from list(wrong_bodies(crate.name, crate.modules)) or ["none"]
    yield ""


def block(text):
    return ["```rust", text, "```", ""] if text else []


def documents(found):
    """The text of each file that this script makes of these crates."""
    by_name = {crate.name: crate for crate in found}
    made = {PAGES / f"{crate.name}.md": "\n".join(page(crate, by_name)) for crate in found}
    return {INDEX: "\n".join([INTRODUCTION, *(line for crate in found for line in section(crate))]), **made}


def write(made):
    PAGES.mkdir(parents=True, exist_ok=True)
    for path in set(PAGES.glob("*.md")) - set(made):
        path.unlink()
    for path, text in made.items():
        path.write_text(text, encoding="utf-8")


def faults(found, made):
    """What is wrong with the files that were made."""
    for crate in found:
        for module, rows in zip(crate.modules, crate.rows):
            told = "".join(f" {row.item} " for row in rows)
            for name in plain_functions(module, crate.exports):
                if not re.search(rf"[ :]{name} ", told):
                    yield f"the page of {crate.name} lacks {name}"
    places = {path.name: set(anchors_of(HEADING.findall(text))) for path, text in made.items()}
    for path, text in made.items():
        for file, place in LINK.findall(text):
            if file not in places or place and place not in places[file]:
                yield f"{path.name}: a link to {file}#{place} leads nowhere"


def plain_functions(module, exports):
    """The functions of a module that users can name, by a plain look at its lines, to compare with `items_of`."""
    owner = ""
    for head, indent, name in PLAIN.findall(module.file.read_text(encoding="utf-8")):
        if head:
            owner = head.replace("->", "").partition("\nwhere")[0]
            for _ in range(owner.count("<")):
                owner = re.sub(r"<[^<>]*>", "", owner)
            owner = owner.split()[-1]
        elif module.path is not None or (owner if indent else name) in exports:
            yield f"{owner}::{name}" if indent else name


def functions_of(crate):
    """Each function of a crate but those of tests, whether its own head has a clause, and how many lines it has."""
    for module in modules_of(crate)[0]:
        shown = hide(module.file.read_text(encoding="utf-8"))
        for item in (item for item in module.items if item.kind == "fn"):
            head = head_of_function(shown[item.start:])
            body = shown[item.start + len(head):]
            yield item, bool(ENSURES.search(head)), f"{head}{body[:end_of_item(body)]}".count("\n") + 1


def trait_function(item):
    """The trait and the name of a function of an `impl` of a trait, or None."""
    found = re.match(r"impl (?:\w+::)*(\w+)(?:<.*>)? for ", item.owner)
    return (found[1], item.name) if found else None


def counted():
    """The lines that `--count` prints: a line for each crate, and one for those that stand above the tests."""
    functions = {crate: list(functions_of(crate)) for crate in crates()}
    names = list(functions)
    above = names[:next(at for at, name in enumerate(names) if name.startswith("test_"))]
    of_traits = {(subject_of(item), item.name) for found in functions.values()
                 for item, has_clause, _ in found if has_clause and item.owner.startswith("trait ")}

    def line(name, found):
        stated = [lines for item, has_clause, lines in found if has_clause or trait_function(item) in of_traits]
        numbers = len(found), len(stated), sum(lines for _, _, lines in found), sum(stated)
        shares = [100 * part // whole for whole, part in (numbers[:2], numbers[2:])]
        row = name, *numbers[:2], shares[0], *numbers[2:], shares[1]
        return "{:20}{:>10,}{:>10,}{:>5} %{:>9,}{:>10,}{:>5} %".format(*row)

    yield "crate                functions    with a clause    lines    with a clause"
    yield from (line(name, found) for name, found in functions.items() if found)
    yield line("engine and program", [it for name in above for it in functions[name]])


def main(arguments):
    if arguments not in ([], ["--check"], ["--count"]):
        sys.exit("usage: contracts.py [--check|--count]")
    try:
        if arguments == ["--count"]:
            print(*counted(), sep="\n")
            return
        found = list(shown_crates())
        made = documents(found)
        wrong = list(faults(found, made))
        if wrong:
            sys.exit("\n".join(f"contracts.py: {fault}" for fault in wrong))
        if not arguments:
            write(made)
            print(f"{INDEX.relative_to(ROOT)} leads to the contracts of {len(found)} crates")
        else:
            count = sum(len(crate.shown()) for crate in found)
            print(f"ok contracts: the pages of {len(found)} crates can be made, with {count} public items")
    except OSError as error:
        sys.exit(f"contracts.py: {error}")


if __name__ == "__main__":
    main(sys.argv[1:])
