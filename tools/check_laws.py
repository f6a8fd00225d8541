#!/usr/bin/env python3
"""Fails where a proof cites a lemma of another crate that this crate does not list in its `proofs/Public.antt`, or where
a list has a lemma that no other crate cites.

usage: check_laws.py
"""

import re
import sys
from pathlib import Path

from repository import ROOT, crates

CITED = re.compile(r"^(?:pub |ghost )*use Rattle\.(\w+)\.proofs\.([\w.]+?)(?:\.\{([^}]*)\}| as \w+)?;?$", re.MULTILINE)
LISTED = re.compile(r"^pub use Rattle\.\w+\.proofs\.\w+\.\{([^}]*)\}$", re.MULTILINE)


def names_in(braces):
    return {name.split(" as ")[0].strip() for name in braces.split(",")}


def citations(known):
    """Each citation of another crate's proofs: the file, the crate, the module, and the names."""
    for crate in known:
        for path in sorted((ROOT / "crates" / crate).rglob("*")):
            if path.suffix not in (".antt", ".rt") or not {"proofs", "src", "specs"} & set(path.parts):
                continue
            for other, module, braces in CITED.findall(path.read_text(encoding="utf-8")):
                if other in known and other != crate:
                    yield path.relative_to(ROOT), other, module, names_in(braces or "")


def complaints(known):
    used = {crate: set() for crate in known}
    for path, other, module, names in citations(known):
        used[other] |= names
        if module != "Public":
            yield f"{path}: it cites {other}.proofs.{module}, which is not the list of that crate's laws"
    for crate in known:
        path = Path("crates") / crate / "proofs" / "Public.antt"
        listed = set()
        if (ROOT / path).exists():
            listed = set().union(*map(names_in, LISTED.findall((ROOT / path).read_text(encoding="utf-8"))))
        for name in sorted(listed - used[crate]):
            yield f"{path}: no other crate cites {name}"


def main():
    found = list(complaints(crates()))
    for line in found:
        print(line)
    if not found:
        print("ok laws: proofs cite of other crates what these list")
    return 1 if found else 0


if __name__ == "__main__":
    sys.exit(main())
