#!/usr/bin/env bash
# usage: day.sh PROGRAM FOLDER
# Plays a day of a small database, with a full and two incremental copies beside writers, and saves its files into
# FOLDER. Then the volume is lost: it is restored from the files, and compared with what the whole log says.
# Ends with status 0, and with a last line that begins with 'ok day', where all of it is as expected.
set -u

fail() {
    echo "day.sh: $1" >&2
    exit 1
}

[ $# -eq 2 ] || fail "two arguments are wanted, the program and a folder"
program=$(command -v "$1") || fail "there is no program $1"
# It is run in another folder, too.
program=$(realpath "$program")
folder=$2
root=$(cd "$(dirname "$0")/.." && pwd)
examples=$root/examples
rm -rf "$folder"
mkdir -p "$folder" || fail "$folder cannot be made"

# Prints each page of a volume as a line.
show() {
    "$program" show "$1" > shown || fail "$1 is not shown"
    grep '^page ' shown
}

echo "\$ imgcopy run --pages 3 --save $folder < examples/day.script"
"$program" run --pages 3 --save "$folder" < "$examples/day.script" > "$folder/replies" || fail "run ended with status $?"
cmp "$folder/replies" "$examples/day.replies" || fail "the replies are not the expected ones"
echo "$(wc -l < "$folder/replies") replies. Saved: $(cd "$folder" && echo log master copy-*)"
echo
echo "The volume is lost. It is restored from the copies and the log:"
cd "$folder" || fail "there is no folder $folder"
echo "\$ imgcopy restore log master copy-1 copy-2 copy-3 > volume"
"$program" restore log master copy-1 copy-2 copy-3 > volume || fail "restore ended with status $?"
show volume | tee pages
cmp pages "$examples/day.pages" || fail "the pages are not the expected ones"
echo
echo "What the whole log says, with what transaction 4 did and did not commit:"
echo "\$ imgcopy redo < log > volume.redone"
"$program" redo < log > volume.redone || fail "redo ended with status $?"
show volume.redone
echo
echo "ok day: the committed numbers are there, and what transaction 4 did is taken back"
