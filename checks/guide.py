"""Types what docs/GUIDE.md, docs/FORMATS.md and README.md show, and compares what is printed with what they show.

usage: python3 -m checks.guide PROGRAM

Of each block of code whose lines begin with `$ ` the commands are run one after another, and what each prints has to
stand below it, standard output and standard error together; a line `...` stands for any lines. A command that is
followed by lines with a prompt is run at a terminal, and what stands behind the prompts is typed there. A block that
begins with one of the words in TYPED is run as it is, and has to end with status 0. Other blocks show bytes, and parts
of outputs; the guide has none of them. The blocks of a document are run in their order. Those of the guide are run in a
folder that is empty at first, and those of the others at the top of the sources, with the program in build, and in
build/day the files of `make demo`. Of what the README shows, other lines may stand in between, as it says.

Of the text of the guide each command in backticks that names a file of this folder is run, too, in a copy of the folder
as it is in the end, and has to end with status 0. Then the program is installed as the README says.
"""

import os
import pty
import re
import shutil
import subprocess
import sys
import tempfile
from pathlib import Path

ROOT = Path(__file__).resolve().parent.parent
GUIDE, FORMATS, README = "docs/GUIDE.md", "docs/FORMATS.md", "README.md"
MOST_SECONDS = 120
OF_MAKE = ("MAKEFLAGS", "MFLAGS", "MAKELEVEL", "IMGCOPY")
PROMPT, LEFT_OUT, ANY_LINES = "imgcopy> ", "...", "(?:.*\n)*?"
TYPED = ("cp ", "imgcopy ", "mkdir ", "printf ")
BLOCK = re.compile(r"^```\n(.*?)^```$", re.DOTALL | re.MULTILINE)
SPAN = re.compile(r"`(imgcopy [^`]*)`")
INSTALL = "make install IMGCOPY=build/imgcopy PREFIX=$PWD/build/local > /dev/null && build/local/bin/imgcopy --version"


class Failure(Exception):
    """What differs, in one line."""


class Place:
    """A folder in which commands are typed, and where the program is found."""

    def __init__(self, folder, path):
        # What a `make` that runs this check was told is not for one that the README shows.
        kept = {name: it for name, it in os.environ.items() if name not in OF_MAKE}
        self.folder, self.path = folder, path
        self.environment = {**kept, "PATH": f"{path}:{os.environ['PATH']}"}

    def run(self, script, *options, typed=None):
        """The status of a script, and what it prints. It may be run at a terminal, where these lines are typed."""
        leader, follower = pty.openpty() if typed else (None, None)
        child = subprocess.Popen(["bash", *options, "-c", script], cwd=self.folder, env=self.environment, text=True,
                                 stdin=follower or subprocess.DEVNULL, stdout=subprocess.PIPE, stderr=subprocess.STDOUT)
        try:
            if typed:
                os.close(follower)
                os.write(leader, "".join(f"{line}\n" for line in typed).encode())
            printed = child.communicate(timeout=MOST_SECONDS)[0]
        finally:
            child.kill()
            if typed:
                os.close(leader)
        return child.returncode, printed


def commands_of(block):
    """Each command of a block, with what is shown below it. A line that begins with `> ` goes on with a command."""
    found = []
    for line in block.splitlines():
        if line.startswith("$ "):
            found.append([line[2:], []])
        elif line.startswith("> ") and found and not found[-1][1]:
            found[-1][0] += "\n" + line[2:]
        else:
            found[-1][1].append(line)
    return found


def pattern_of(shown, is_part):
    """What has to be printed where these lines are shown. The line feed behind a prompt is that of what is typed."""
    pattern = ANY_LINES if is_part else ""
    for line in shown:
        if line == LEFT_OUT:
            pattern += ANY_LINES
        elif line.startswith(PROMPT):
            pattern += re.escape(PROMPT)
        else:
            pattern += re.escape(line) + "\n" + (ANY_LINES if is_part else "")
    return pattern


def check_block(place, document, line, block):
    """Types the commands of a block, and says how many."""
    commands = commands_of(block)
    for command, shown in commands:
        typed = [line[len(PROMPT):] for line in shown if line.startswith(PROMPT)]
        _, printed = place.run(command, typed=typed)
        if not re.fullmatch(pattern_of(shown, document == README), printed):
            raise Failure(f"{document}:{line}: {command!r} prints {printed[:400]!r}")
    return len(commands)


def check_document(place, document):
    """Types what a document shows, and says how many commands and blocks it has."""
    text, count = (ROOT / document).read_text(encoding="utf-8"), 0
    for found in BLOCK.finditer(text):
        block, line = found[1], text.count("\n", 0, found.start()) + 1
        if block.startswith("$ "):
            count += check_block(place, document, line, block)
        elif block.startswith(TYPED):
            status, printed = place.run(block, "-e", "-o", "pipefail")
            if status != 0:
                raise Failure(f"{document}:{line}: status {status}, {printed[-400:]!r}")
            count += 1
        elif document == GUIDE:
            raise Failure(f"{document}:{line}: a block that is not typed: {block[:60]!r}")
    return count


def check_text(place, document):
    """Runs the commands in the text of a document, each in a copy of the folder, and says how many there are."""
    text = BLOCK.sub("", (ROOT / document).read_text(encoding="utf-8"))
    commands = sorted({" ".join(span.split()) for span in SPAN.findall(text)})
    files = [it for it in commands if ".." not in it and any((place.folder / word).exists() for word in it.split()[2:])]
    for command in files:
        with tempfile.TemporaryDirectory() as copy:
            shutil.copytree(place.folder, copy, symlinks=True, dirs_exist_ok=True)
            status, printed = Place(copy, place.path).run(command)
        if status != 0:
            raise Failure(f"{document}: {command!r} ends with status {status}, {printed[-400:]!r}")
    return len(files)


def check_installed(top):
    status, printed = top.run(INSTALL)
    if status != 0 or not printed.startswith("imgcopy "):
        raise Failure(f"{README}: an installation ends with status {status}, {printed[-400:]!r}")
    return 1


def top_of_sources(folder, program):
    """The sources, with this program and nothing else in build."""
    (folder / "build").mkdir(parents=True)
    (folder / "build" / "imgcopy").symlink_to(program)
    for entry in ROOT.iterdir():
        if entry.name not in ("build", ".git"):
            (folder / entry.name).symlink_to(entry)
    return folder


def main(arguments):
    try:
        if len(arguments) != 1:
            raise Failure("usage: python3 -m checks.guide PROGRAM")
        program = shutil.which(arguments[0])
        if program is None:
            raise Failure(f"there is no program {arguments[0]}")
        with tempfile.TemporaryDirectory() as temporary:
            path, own = Path(temporary, "path"), Path(temporary, "own")
            path.mkdir()
            own.mkdir()
            (path / "imgcopy").symlink_to(os.path.abspath(program))
            top = Place(top_of_sources(Path(temporary, "top"), os.path.abspath(program)), path)
            guide = Place(own, path)
            count = check_document(guide, GUIDE) + check_text(guide, GUIDE)
            status, printed = top.run("checks/day.sh imgcopy build/day")
            if status != 0:
                raise Failure(f"day.sh: {printed[-300:]!r}")
            count += check_document(top, FORMATS) + check_document(top, README) + check_installed(top)
    except (Failure, OSError, subprocess.SubprocessError) as failure:
        sys.exit(f"guide.py: {failure}")
    print(f"ok guide: what the guide, the formats and the README show is what is printed, {count} times")


if __name__ == "__main__":
    main(sys.argv[1:])
