#!/usr/bin/env bash
# usage: bank.sh BANK IMGCOPY FOLDER
# Plays a day of a bank on the engine for many threads, if its program BANK is built, says what each of its lines is, and
# compares what it restores with sums that are made without it. Its files are saved into FOLDER. Where IMGCOPY is built,
# that audits and restores them; then the bank works on files in FOLDER/killed, is killed, and is restored, too. Ends with
# status 0 where all of it is as expected, or the program BANK is not built.
set -u
cd "$(dirname "$0")/.." || exit 1

fail() {
    echo "bank.sh: $1" >&2
    exit 1
}

[ $# -eq 3 ] || fail "three arguments are wanted, two programs and a folder"
# The pages of accounts of a volume, and what they have together.
accounts_of() {
    "$imgcopy" show "$1" | grep '^page [0-7] '
}

sum_of() {
    sed 's/page .* lsn [0-9]* //' "$1" | tr ' ' '\n' | awk -F= '{ sum += $2 } END { print sum }'
}

# The bank on files is killed once a second copy is in place, and restored. A record that the kill left torn is cut off.
play_killed() {
    local there=$folder/killed torn commit
    mkdir "$there" || fail "$there cannot be made"
    echo "The same bank on files, with no end to its transfers. It is killed as soon as two copies are in place:"
    echo "\$ demo_bank --files $there 7 5 3 2 1000000"
    "$bank" --files "$there" 7 5 3 2 1000000 > "$folder/told" &
    for ((look = 0; look < 600; look++)); do
        ! grep -q '^copy 2 on 1$' "$folder/told" || break
        sleep 0.1
    done
    kill -9 $!
    wait $! 2> /dev/null
    commit=$(sed -n 's/^committed \([0-9]*\) .*/\1/p' "$folder/told" | sort -n | tail -n 1)
    echo "It has acknowledged $(grep -c '^committed' "$folder/told") transfers, the last one with the Commit at $commit."
    cd "$there" || fail "there is no folder $there"
    torn=$("$imgcopy" audit log copy-1 copy-2 2> /dev/null | sed -n 's/^E3[12] [A-Za-z]* \([0-9]*\)$/\1/p')
    [ -z "$torn" ] || truncate -s "$torn" log || fail "the log cannot be cut"
    [ "$commit" -lt "$(wc -c < log)" ] || fail "a commit that was acknowledged is not in the log"
    echo "\$ cd $there; imgcopy audit log copy-1 copy-2"
    "$imgcopy" audit log copy-1 copy-2 || fail "audit ended with status $?"
    echo "\$ imgcopy restore -o restored log master copy-1 copy-2"
    "$imgcopy" restore -o restored log master copy-1 copy-2 || fail "restore ended with status $?"
    cd "$OLDPWD" || exit 1
    accounts_of "$there/restored" > "$folder/pages"
    echo "All accounts of the restored volume: $(sum_of "$folder/pages")"
    [ "$(sum_of "$folder/pages")" = "$sum" ] || fail "the restored accounts have another sum"
}

folder=$3 sum=6400000
echo
if ! command -v "$1" > /dev/null; then
    echo "The bank with many threads is left out: 'make bank' proves and builds its program."
    exit 0
fi
bank=$1
imgcopy=$(command -v "$2") && imgcopy=$(realpath "$imgcopy")
rm -rf "$folder"
mkdir -p "$folder" || fail "$folder cannot be made"
cat << END
A bank has 64 accounts with 100000 each, $sum in all, on 8 of 12 pages. At the same time five tellers move money from
one account to another, a flusher writes pages, a checkpointer takes checkpoints, and three workers make a full copy,
then two an incremental one. At the end five transfers are left open, and a crash takes the last of their records. The
lines are the same each time, but for those of the pages that tellers changed behind a copy: these hang on the schedule.
\$ demo_bank --behind --save $folder 7 5 3 2
END
"$bank" --behind --save "$folder" 7 5 3 2 > "$folder/lines" || fail "the bank ended with status $?"
sed -e '/^copy 1, full/ s/$/   (made beside the tellers)/' \
    -e '/^copy 2, on/ s/$/   (the others are older than copy 1)/' \
    -e '/^changed behind/ s/$/   (by tellers, after it had taken them and before it was sealed: their changes are in the log)/' \
    -e '/and the whole log/ s/$/   (redo of the whole log over that copy: all accounts, with the open transfers)/' \
    -e '/^the crash takes/ s/$/   (not forced yet: a deposit of an open transfer)/' \
    -e '/^after redo/ s/$/   (money of open transfers is out of one account, and not in another)/' \
    -e "/^after undo/ s/\$/   (all of the $sum is back)/" \
    -e 's/^page \([0-9]*\):/accounts of page \1:/' "$folder/lines"
lost=$(sed -n 's/^the crash takes \([0-9]*\) records\{0,1\}$/\1/p' "$folder/lines")
echo
if [ -n "$imgcopy" ]; then
    echo "The same from its files, by imgcopy: $(cd "$folder" && echo log master copy-*). First their log loses what the crash took:"
    cd "$folder" || fail "there is no folder $folder"
    echo "\$ cd $folder; truncate -s -$((64 * lost)) log"
    truncate -s "-$((64 * lost))" log || fail "the log cannot be cut"
    echo "\$ imgcopy audit log copy-1 copy-2"
    "$imgcopy" audit log copy-1 copy-2 || fail "audit ended with status $?"
    echo "\$ imgcopy restore log master copy-1 copy-2 > volume"
    "$imgcopy" restore log master copy-1 copy-2 > volume || fail "restore ended with status $?"
    cd "$OLDPWD" || exit 1
    accounts_of "$folder/volume" > "$folder/pages"
    sed 's/ [0-9]*=/ /g; s/ lsn [0-9]*/:/' "$folder/pages" | diff - <(grep '^page ' "$folder/lines") \
        || fail "the volume has other balances"
    cat "$folder/pages"
    echo "All accounts of the restored volume: $(sum_of "$folder/pages")"
    [ "$(sum_of "$folder/pages")" = "$sum" ] || fail "the restored accounts have another sum"
    echo
    play_killed
    echo
fi
exec python3 -m checks.bank "$bank" ${imgcopy:+"$imgcopy"} 1 7
