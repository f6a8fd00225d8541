#!/usr/bin/env python3
"""usage: longest.py COMMAND..

Runs a command that has rt prove crates, and prints behind its output the three that took longest, with the memory that
each took. It looks at the processes of the prover every two seconds. The status is that of the command, and its output is
passed on as it comes.
"""
import os
import subprocess
import sys
import threading
import time
from dataclasses import dataclass
from pathlib import Path

SECONDS_BETWEEN_LOOKS = 2
MOST_NAMED = 3
TICKS = os.sysconf("SC_CLK_TCK")


@dataclass
class Proof:
    """What was seen of the proof of a crate: seconds of a processor by process, and the most memory in kilobytes."""

    processor: dict[int, float]
    began: float
    ended: float
    memory: int = 0

    def wall(self) -> float:
        return self.ended - self.began


def crate_of(words: list[bytes]) -> str | None:
    """The crate that a process proves, by its words."""
    if len(words) < 2 or not words[0].endswith(b"/rattle") or words[1] not in (b"check", b"build"):
        return None
    for word, name in zip(words, words[1:]):
        if word == b"--crate-name":
            return name.decode()
    return None


def look(proofs: dict[str, Proof]) -> None:
    now = time.monotonic()
    for place in Path("/proc").glob("[0-9]*"):
        try:
            crate = crate_of((place / "cmdline").read_bytes().split(b"\0"))
            if crate is None:
                continue
            fields = (place / "stat").read_text().rsplit(")", 1)[1].split()
            status = (place / "status").read_text()
        except OSError:
            continue
        proof = proofs.setdefault(crate, Proof({}, now, now))
        proof.processor[int(place.name)] = (int(fields[11]) + int(fields[12])) / TICKS
        proof.ended = now
        for line in status.splitlines():
            if line.startswith("VmHWM:"):
                proof.memory = max(proof.memory, int(line.split()[1]))


def watch(proofs: dict[str, Proof], done: threading.Event) -> None:
    while not done.wait(SECONDS_BETWEEN_LOOKS):
        look(proofs)


def main() -> None:
    if len(sys.argv) < 2:
        sys.exit(__doc__.split("\n", 1)[0])
    proofs: dict[str, Proof] = {}
    done = threading.Event()
    watcher = threading.Thread(target=watch, args=(proofs, done))
    watcher.start()
    try:
        status = subprocess.run(sys.argv[1:], check=False).returncode
    finally:
        done.set()
        watcher.join()
    by_time = sorted(proofs.items(), key=lambda item: sum(item[1].processor.values()), reverse=True)
    for crate, proof in by_time[:MOST_NAMED]:
        minutes = sum(proof.processor.values()) / 60
        print(f"longest: {crate}, {minutes:.1f} minutes of a processor, {proof.memory / 1e6:.1f} GB")
    sys.exit(status)


if __name__ == "__main__":
    main()
