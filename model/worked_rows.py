"""The worked rows of the engine, as `crates/test_engine/src/rows.rt` has them: the lines of each constant by its name.

So each of these rows stands once, and both the tests of the engine and the model are compared with it.
"""

import re
from pathlib import Path

SOURCE = Path(__file__).resolve().parent.parent / "crates" / "test_engine" / "src" / "rows.rt"
TEXT = re.compile(r'const (\w+): &str = "(.*?)";', re.DOTALL)
ROW = re.compile(r"const (\w+): Row = Row \{\s*pages: ([\d_]+),\s*parts: &\[(.*?)\],\s*\};", re.DOTALL)
PART = re.compile(r'"(.*?)"|(\w+)', re.DOTALL)


def worked_rows():
    """The lines of each constant that is a text, and of each that is a row of such texts."""
    source = SOURCE.read_text(encoding="utf-8")
    rows = {name: text for name, text in TEXT.findall(source)}
    for name, _, parts in ROW.findall(source):
        rows[name] = "\n".join(text or rows[part] for text, part in PART.findall(parts))
    return rows
