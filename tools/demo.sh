#!/usr/bin/env bash
# usage: demo.sh [--given | --unproved] PROGRAM FOLDER
# Plays the day of checks/day.sh. Where PROGRAM is not built yet, rt plays it from the sources, unproved, in one run
# whose script ends with a restore, since each run by rt compiles the sources anew; so it does with --unproved. A PROGRAM
# that is given has to be there.
# Ends with status 0, and with a last line that begins with 'ok day', where all of it is as expected.
set -u
cd "$(dirname "$0")/.." || exit 1

fail() {
    echo "demo.sh: $1" >&2
    exit 1
}

given=false unproved=false
case "${1-}" in
    --given) given=true; shift ;;
    --unproved) unproved=true; shift ;;
esac
[ $# -eq 2 ] || fail "two arguments are wanted, the program and a folder"
! "$given" || command -v "$1" > /dev/null || fail "there is no program $1"
"$unproved" || ! command -v "$1" > /dev/null || exec checks/day.sh "$1" "$2"
command -v rt > /dev/null || fail "the program 'rt' is missing: the kit that proves and builds imgcopy"
folder=$2
rm -rf "$folder"
mkdir -p "$folder" || fail "$folder cannot be made"
saved=$(realpath "$folder")

why="$1 is not built: "
! "$unproved" || why=
echo "${why}rt runs the sources unproved, in about a minute and a half on a busy machine, less on a quiet one."
echo "'make' proves and builds the program."
echo "\$ imgcopy run --pages 3 --save $folder < examples/day.script    (and then 'restore 3 all')"
{ cat examples/day.script; echo "restore 3 all"; } > "$folder/script"
(cd crates/imgcopy && rt try -- run --pages 3 --save "$saved" < "$saved/script") \
    > "$folder/lines" 2> "$folder/try.log" || { tail -n 5 "$folder/try.log" >&2; fail "rt try failed"; }
count=$(wc -l < examples/day.replies)
head -n "$count" "$folder/lines" > "$folder/replies"
tail -n "+$((count + 1))" "$folder/lines" > "$folder/pages"
cmp "$folder/replies" examples/day.replies || fail "the replies are not the expected ones"
echo "$count replies. Saved: $(cd "$folder" && echo log master copy-*)"
echo
echo "The volume is lost. It is restored from the copies and the log:"
cat "$folder/pages"
cmp "$folder/pages" examples/day.pages || fail "the pages are not the expected ones"
echo
echo "ok day: the committed numbers are there, and what transaction 4 did is taken back"
