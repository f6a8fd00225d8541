#!/usr/bin/env python3
"""Writes include/imgcopy.h, the header of the library for C, from the sources of its exports.

usage: header.py            writes it
       header.py --check    fails if include/imgcopy.h is not what the sources say

The functions, and what the header says in front, are those of crates/imgcopy_c/src/lib.rt; the outcome and its codes
those of crates/embed_calls/src; the names of the faults those of crates/page_core/src/fault_name.rt. A
parameter of a type that is not in the table below is refused.
"""

import re
import sys
import textwrap

from repository import ROOT

EXPORTS = ROOT / "crates" / "imgcopy_c" / "src" / "lib.rt"
OUTCOME = ROOT / "crates" / "embed_calls" / "src" / "outcome.rt"
NAMES = ROOT / "crates" / "page_core" / "src" / "fault_name.rt"
HEADER = ROOT / "include" / "imgcopy.h"
WIDTH = 100

# A slice is a pointer and a length, and the allocator takes no bytes.
PARAMETERS = {
    "Global": (),
    "&[u8]": ("const uint8_t *{name}", "size_t {name}_length"),
    "&mut [u8]": ("uint8_t *{name}", "size_t {name}_length"),
    "&[usize]": ("const size_t *{name}", "size_t {name}_count"),
}
RESULTS = {"u32": "uint32_t", "Outcome": "imgcopy_outcome"}
FIELDS = {"u32": (4, "uint32_t"), "u64": (8, "uint64_t")}

EXPORT = re.compile(r"((?:^///.*\n)+)#\[unsafe\(no_mangle\)\]\npub extern \"C\" fn (\w+)\(([^)]*)\) -> (\w+)\n", re.M)
CONSTANT = re.compile(r"((?:^///.*\n)+)pub const (\w+): u32 = (\d+);", re.M)
FIELD = re.compile(r"((?:^    ///.*\n)+)    pub (\w+): (\w+),", re.M)
FAULT = re.compile(r"\"E(\d+) (\w+)\"")
CODE = re.compile(r"numbered(?:_twice)?\((\d+),")


def text_of(doc):
    return re.sub(r"^ *//[/!] ?", "", doc, flags=re.M).strip()


def comment(text, indent=""):
    """The text as a comment of C, whose lines are as wide as the header's."""
    lines = []
    for part in text.split("\n\n"):
        lines += ["", *textwrap.wrap(" ".join(part.split()), WIDTH - 3 - len(indent), break_on_hyphens=False)]
    lines = lines[1:]
    body = [f"{indent}/* {lines[0]}"] + [f"{indent} * {line}".rstrip() for line in lines[1:]]
    return "\n".join(body) + " */"


def upper(name):
    return re.sub(r"(?<!^)(?=[A-Z])", "_", name).upper()


def codes():
    """The codes: 0, the faults that a call may answer, and those that are of the calls alone."""
    source = OUTCOME.read_text(encoding="utf-8")
    names = {int(number): name for number, name in FAULT.findall(NAMES.read_text(encoding="utf-8"))}
    calls = "".join(path.read_text(encoding="utf-8") for path in OUTCOME.parent.glob("*.rt"))
    used = sorted({int(number) for number in CODE.findall(calls)})
    lines = ["    IMGCOPY_OK = 0,"] + [f"    IMGCOPY_{upper(names[number])} = {number}," for number in used]
    for doc, name, number in CONSTANT.findall(source):
        if name != "ABI":
            lines += [comment(text_of(doc), "    "), f"    IMGCOPY_{name} = {number},"]
    lines[-1] = lines[-1].rstrip(",")
    return "\n".join(["enum {", *lines, "};"])


def outcome():
    """The struct of an outcome, and the assertions of its layout."""
    source = OUTCOME.read_text(encoding="utf-8")
    doc = re.search(r"((?:^///.*\n)+)#\[repr\(C\)\]", source, re.M).group(1)
    body = source[source.index("pub struct Outcome {"):]
    fields = FIELD.findall(body[:body.index("\n}")])
    lines, asserts, at = [comment(text_of(doc)), "typedef struct imgcopy_outcome {"], [], 0
    for field_doc, name, kind in fields:
        size, of_c = FIELDS[kind]
        at = -(-at // size) * size
        lines += [comment(text_of(field_doc), "    "), f"    {of_c} {name};"]
        asserts.append(f"IMGCOPY_ASSERT(offsetof(imgcopy_outcome, {name}) == {at});")
        at += size
    asserts += [f"IMGCOPY_ASSERT(sizeof(imgcopy_outcome) == {-(-at // 8) * 8});", "IMGCOPY_ASSERT(sizeof(size_t) == 8);"]
    return "\n".join([*lines, "} imgcopy_outcome;"]), "\n".join(asserts)


def functions():
    for doc, name, parameters, result in EXPORT.findall(EXPORTS.read_text(encoding="utf-8")):
        words = []
        for one in filter(None, (it.strip() for it in parameters.split(","))):
            parameter, _, kind = one.partition(": ")
            words += [it.format(name=parameter) for it in PARAMETERS[kind]]
        head = f"{RESULTS[result]} {name}("
        line = f"{head}{', '.join(words) or 'void'});"
        if len(line) > WIDTH:
            # A parameter stays on one line: its spaces are no places to break.
            text = ", ".join(word.replace(" ", "\0") for word in words)
            text = textwrap.fill(text, WIDTH - 5, initial_indent="    ", subsequent_indent="    ")
            line = head + "\n" + text.replace("\0", " ") + ");"
        yield f"{comment(text_of(doc))}\n{line}"


def header():
    source = EXPORTS.read_text(encoding="utf-8")
    front = text_of(re.match(r"(?:^//!.*\n)+", source, re.M).group(0))
    version = re.search(r"pub const ABI: u32 = (\d+);", OUTCOME.read_text(encoding="utf-8")).group(1)
    exports = list(functions())
    if len(exports) != source.count('extern "C"'):
        raise SystemExit(f"header.py: {EXPORTS.name} has an export that is not read")
    struct, asserts = outcome()
    return f"""{comment(front)}
/* tools/header.py made this file of crates/imgcopy_c/src/lib.rt. */
#ifndef IMGCOPY_H
#define IMGCOPY_H

#include <stddef.h>
#include <stdint.h>

#define IMGCOPY_ABI {version}

#ifdef __cplusplus
#define IMGCOPY_ASSERT(holds) static_assert(holds, #holds)
extern "C" {{
#elif defined(__STDC_VERSION__) && __STDC_VERSION__ >= 201112L
#define IMGCOPY_ASSERT(holds) _Static_assert(holds, #holds)
#else
#define IMGCOPY_ASSERT(holds) struct imgcopy_assertion
#endif

/* The codes of an outcome. Those from 1 to 41 are the faults that imgcopy prints by these numbers. */
{codes()}

{struct}

{asserts}

{(chr(10) * 2).join(exports)}

#ifdef __cplusplus
}}
#endif
#undef IMGCOPY_ASSERT

#endif
"""


def main(words):
    if words not in ([], ["--check"]):
        print(__doc__, file=sys.stderr)
        return 2
    made = header()
    if not words:
        HEADER.parent.mkdir(exist_ok=True)
        HEADER.write_text(made, encoding="utf-8")
        print(f"wrote {HEADER.relative_to(ROOT)}")
        return 0
    if not HEADER.is_file() or HEADER.read_text(encoding="utf-8") != made:
        print("header.py: include/imgcopy.h is not what the sources say: run tools/header.py")
        return 1
    print("ok header: include/imgcopy.h is what the exports say")
    return 0


if __name__ == "__main__":
    sys.exit(main(sys.argv[1:]))
