"""The repository, for the other scripts of this folder."""

from pathlib import Path

ROOT = Path(__file__).resolve().parent.parent


def lines_of_crates():
    """The line of crates.txt of each crate, in the order there."""
    lines = [line.partition("#")[0].strip() for line in (ROOT / "crates.txt").read_text(encoding="utf-8").splitlines()]
    return {line.partition(":")[0].split()[0]: line for line in lines if ":" in line}


def crates():
    """The names of the crates, in the order of crates.txt."""
    return list(lines_of_crates())
