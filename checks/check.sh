#!/usr/bin/env bash
# usage: check.sh PROGRAM
# Runs `PROGRAM redo` on each example log and compares its output, its status and its fault line with the expected
# ones. Then it gives the program wrong words, whose texts it looks at, words of each command, an input that cannot be
# read and an output that is full. Before that, it sees that the examples are those that samples.py makes. Ends with
# status 0 if all is as expected.
set -u

fail() {
    echo "check.sh: $1" >&2
    exit 1
}

[ $# -eq 1 ] || fail "one argument is wanted, the program to check"
program=$(command -v "$1") || fail "there is no program $1"
[[ $program == /* ]] || program=$PWD/$program
command -v python3 > /dev/null || fail "python3 is missing"
root=$(cd "$(dirname "$0")/.." && pwd)
examples=$root/examples
work=$(mktemp -d) || fail "no temporary folder can be made"
trap 'rm -rf "$work"' EXIT

check_examples() {
    mkdir "$work/made"
    (cd "$root" && python3 -m model.samples "$work/made") || fail "samples.py failed"
    for made in "$work"/made/*; do
        cmp -s "$made" "$examples/${made##*/}" || fail "${made##*/} is not what samples.py makes"
    done
}

# Puts what is expected of the log into the files wanted.out and wanted.err and the variable wanted_status.
expect() {
    : > "$work/wanted.out"
    : > "$work/wanted.err"
    if [ -e "$1.fault" ]; then
        cp "$1.fault" "$work/wanted.err"
        wanted_status=2
    elif [ -e "$1.volume" ]; then
        cp "$1.volume" "$work/wanted.out"
        wanted_status=0
    else
        fail "${1##*/}.log has no expected answer"
    fi
}

check_log() {
    expect "$1"
    "$program" redo < "$1.log" > "$work/out" 2> "$work/err"
    status=$?
    name=${1##*/}.log
    [ "$status" -eq "$wanted_status" ] ||
        fail "$name: status $status, expected $wanted_status, standard error $(head -n 1 "$work/err")"
    # The line of a fault may be followed by one for a person, which says why.
    head -n 1 "$work/err" | cmp -s - "$work/wanted.err" ||
        fail "$name: standard error '$(head -n 1 "$work/err")', expected '$(cat "$work/wanted.err")'"
    difference=$(cmp "$work/out" "$work/wanted.out" 2>&1) ||
        fail "$name: the output is not the expected one: ${difference//"$work/"/}"
}

# The words give no command: nothing on standard output, something on standard error, status 2.
check_words() {
    "$program" "$@" < "$examples/four_records.log" > "$work/out" 2> "$work/err"
    status=$?
    [ "$status" -eq 2 ] || fail "the words '$*': status $status, expected 2"
    [ ! -s "$work/out" ] || fail "the words '$*': something on standard output"
    [ -s "$work/err" ] || fail "the words '$*': nothing on standard error"
}

# check_told LINE: the words that were just checked gave this first line.
check_told() {
    [ "$(head -n 1 "$work/err")" = "$1" ] || fail "standard error '$(head -n 1 "$work/err")', expected '$1'"
}

# check_refused START WHY USAGE WORDS..: the text that refuses these words starts so, and names these two.
check_refused() {
    local start=$1 why=$2 usage=$3 text
    shift 3
    check_words "$@"
    text=$(cat "$work/err")
    [[ $text == "$start"* ]] || fail "the words '$*': the text does not start with '$start': $(head -n 1 "$work/err")"
    [[ $text == *"$why"* ]] || fail "the words '$*': the text does not name $why"
    [[ $text == *"$usage"* ]] || fail "the words '$*': the text has no '$usage'"
}

# Words that give a command: what they say is done.
check_commands() {
    mkdir "$work/day"
    "$program" run --save="$work/day" --pages=1 < /dev/null > "$work/out" || fail "run --save --pages=1: status $?"
    [ -s "$work/day/log" ] || fail "run --save: there is no log"
    "$program" run --pages 65536 < /dev/null > "$work/out" || fail "run --pages 65536: status $?"
    "$program" run --frames 65536 --pages 1 < /dev/null > "$work/out" || fail "run --frames 65536: status $?"
    check_frames --pages 2 --frames 1
    check_frames --frames=1 --pages=2
    # A file whose name begins like an option: it is opened, and is no log of 64 bytes.
    : > "$work/-log"
    (cd "$work" && "$program" restore -- -log master > out 2> err < /dev/null)
    status=$?
    check_fault "E30 BadHeader" "restore -- -log master" "imgcopy: -log (log): has 0 bytes, and a header has 64"
    # A folder without a name is none, and not the current one.
    (cd "$work" && "$program" run --save= --pages=1 > out 2> err < /dev/null)
    status=$?
    check_fault "E29 WriteFault 0" "run --save=" "imgcopy: --save names no folder"
    [ ! -e "$work/log" ] || fail "run --save=: there is a log"
    # The folder is not there, and neither is the master record.
    (cd "$work" && "$program" run --save none --pages=1 > out 2> err < /dev/null)
    status=$?
    check_fault "E29 WriteFault 0" "run --save none" "imgcopy: none: No such file or directory*"
    (cd "$work" && "$program" restore day/log none day/copy-1 > out 2> err < /dev/null)
    status=$?
    check_fault "E33 ReadFault" "restore day/log none" "imgcopy: none (master record): No such file or directory*"
    # Files of another run are named, and the run goes well.
    : > "$work/day/copy-7"
    "$program" run --save="$work/day" --pages=1 < /dev/null > "$work/out" 2> "$work/err" ||
        fail "run --save into a folder of another run: status $?"
    [ "$(cat "$work/err")" = "imgcopy: $work/day: not of this run: copy-7" ] ||
        fail "run --save beside copy-7: standard error '$(cat "$work/err")'"
}

# check_audit STATUS LINE BEHIND WORDS..: with these words an audit prints this line, and behind it on standard error
# what this pattern says, or nothing.
check_audit() {
    local wanted=$1 line=$2 behind=$3
    shift 3
    (cd "$work/day" && "$program" audit "$@" > ../out 2> ../err < /dev/null)
    status=$?
    [ "$status" -eq "$wanted" ] || fail "audit $*: status $status, expected $wanted"
    [ "$(cat "$work/out")" = "$line" ] || fail "audit $*: '$(cat "$work/out")', expected '$line'"
    # shellcheck disable=SC2053  # it is a pattern
    [[ $(cat "$work/err") == $behind ]] || fail "audit $*: standard error '$(cat "$work/err")', expected '$behind'"
}

# The day of the example, whose copies are sound; then with files left out, cut, or changed.
check_audits() {
    "$program" run --save="$work/day" --pages=3 < "$examples/day.script" > "$work/out" 2> "$work/err" ||
        fail "run of the day: $?"
    [ ! -e "$work/day/manifest" ] || fail "run of the day: there is a manifest"
    check_audit 0 sound "" log copy-1 copy-2 copy-3
    check_audit 0 sound "" log copy-1
    check_audit 1 "E37 ChainBroken 0" "imgcopy: no image copy is named: *" log
    check_audit 1 "E37 ChainBroken 3" "imgcopy: copy-3 (image copy): parent is copy 2, but copy 1 stands before it" \
        log copy-1 copy-3
    check_audit 2 "E33 ReadFault" "imgcopy: none (log): No such file or directory*" none copy-1
    check_audit 2 "E33 ReadFault" "imgcopy: none (image copy): No such file or directory*" log copy-1 none
    head -c 100 "$work/day/copy-1" > "$work/day/short"
    check_audit 2 "E36 BadArchive 64" "imgcopy: short (image copy)" log short
    # The last page of the copy has another number in slot 61: it is none that the log made.
    { head -c $((64 + 3 * 512 - 1)) "$work/day/copy-1"; printf ''; } > "$work/day/changed"
    check_audit 1 "E41 Unsound 1 2" "imgcopy: changed (image copy 1): page 2 is not what the log made of it*" log changed
    (cd "$work/day" && "$program" audit log copy-1 > /dev/full 2> ../err)
    status=$?
    : > "$work/out"
    check_fault "E29 WriteFault 0" "an answer that cannot be written" "imgcopy: standard output: No space left*"
}

# check_frames WORDS..: with these words there is one frame for two pages, so one has to be written before the other is
# read. Without `--frames` there is a frame for each.
check_frames() {
    local calls=(begin "set 1 0 0 5" "read 1 0" "wbegin 0" "wend 0" "read 1 0" "read 0 0")
    printf '%s\n' "${calls[@]}" | "$program" run "$@" > "$work/out" || fail "run $*: status $?"
    printf '%s\n' "began 1 at 64" "lsn 128" "E24 PoolFull" "writing 128" "written 128" "value 0" "value 5" |
        cmp -s - "$work/out" || fail "run $*: the replies are '$(tr '\n' ';' < "$work/out")'"
    printf '%s\n' "${calls[@]}" | "$program" run --pages 2 > "$work/out" || fail "run --pages 2: status $?"
    [ "$(sed -n 3p "$work/out")" = "value 0" ] || fail "run --pages 2: page 1 is not read beside page 0"
}

# check_fault LINE NAME [BEHIND]: the run that has just ended gave this line, and behind it what this pattern says, or
# nothing; status 2, and no output.
check_fault() {
    [ "$status" -eq 2 ] || fail "$2: status $status, expected 2"
    [ ! -s "$work/out" ] || fail "$2: something on standard output"
    [ "$(head -n 1 "$work/err")" = "$1" ] || fail "$2: standard error '$(head -n 1 "$work/err")', expected '$1'"
    local behind
    behind=$(tail -n +2 "$work/err")
    # shellcheck disable=SC2053  # the third word is a pattern
    [[ $behind == ${3-} ]] || fail "$2: behind the fault's line stands '$behind', expected '${3-}'"
}

check_devices() {
    "$program" redo < "$examples" > "$work/out" 2> "$work/err"
    status=$?
    check_fault "E33 ReadFault" "an input that cannot be read" "imgcopy: standard input: Is a directory*"
    : > "$work/out"
    "$program" redo < "$examples/four_records.log" > /dev/full 2> "$work/err"
    status=$?
    check_fault "E29 WriteFault 0" "an output that is full" "imgcopy: standard output: No space left on device*"
    : > "$work/out"
    "$program" run --pages=1 < "$examples" 2> "$work/err"
    status=$?
    check_fault "imgcopy: input" "a script that cannot be read" "imgcopy: standard input: Is a directory*"
    "$program" run --pages=1 < "$examples/day.script" > /dev/full 2> "$work/err"
    status=$?
    check_fault "E29 WriteFault 0" "replies that cannot be written" "imgcopy: standard output: No space left*"
}

# check_line TEXT WHY: a script of this one line is bad for this reason.
check_line() {
    printf '%s\n' "$1" | "$program" run --pages=1 > "$work/out" 2> "$work/err"
    status=$?
    check_fault "imgcopy: line 1" "the line '$1'" "imgcopy: line 1: $2"
}

check_lines() {
    check_line "   " "it has spaces alone"
    check_line "bgin" "unknown call \`bgin\`"
    check_line $'\e[2J' "unknown call \`\\\\u{1b}\\[2J\`"
    check_line "begin 1" "\`begin\` takes 0 numbers, and 1 stands here"
    check_line "read 0" "\`read\` takes 2 numbers, and 1 stands here"
    check_line "restore 1 all more" "\`restore\` takes 2 words, and 3 stand here"
    check_line "set 1 0 0 18446744073709551616" "a number is misspelled or too large"
    check_line "take 1 -1" "a number is misspelled or too large"
    check_line "restore 1 most" "a number is misspelled or too large"
    printf 'begin\nrestore 1 all\n# the end\nbegin\n' | "$program" run --pages=1 > "$work/out" 2> "$work/err"
    status=$?
    check_fault "imgcopy: line 4" "a line behind a restore" "imgcopy: line 4: nothing may follow a restore"
    printf 'begin\n\xff\n' | "$program" run --pages=1 > "$work/out" 2> "$work/err"
    status=$?
    check_fault "imgcopy: input" "a script that is not UTF-8" "imgcopy: standard input: not UTF-8, or over*"
}

check_examples
count=0
for log in "$examples"/*.log; do
    check_log "${log%.log}"
    count=$((count + 1))
done
check_words
check_told "error: no command was given"
grep -qx "This is imgcopy 0.2.0." "$work/err" || fail "the list of commands: it shows no version"
check_words rerun
check_told "error: unrecognized command 'rerun'"
for word in help --help -h; do
    check_words "$word"
    check_told "Usage: imgcopy <COMMAND>"
done
call='Usage: imgcopy <COMMAND>'
check_refused "error: no command" redo "$call"
for word in help --help -h; do
    check_refused "Usage: " restore "$call" "$word"
done
check_refused "error: unrecognized" "'inspect'" "$call" inspect
! grep -q "a similar command" "$work/err" || fail "the words 'inspect': a similar command is named"
for pair in ru/run rerun/run resotre/restore reed/redo audt/audit hlep/help opne/open bakcup/backup verfy/verify renw/renew; do
    check_refused "error: unrecognized" "'${pair%/*}'" "a similar command exists: '${pair#*/}'" "${pair%/*}"
    check_refused "error: unrecognized" "'${pair%/*}'" "a similar command exists: '${pair#*/}'" help "${pair%/*}"
done
for command in redo run open backup restore audit verify show list renew; do
    check_words "$command" --help
    cp "$work/err" "$work/wanted.err"
    for rest in "" extra; do
        check_words help "$command" $rest
        cmp -s "$work/err" "$work/wanted.err" || fail "help $command $rest: not the text of $command --help"
    done
done
check_refused "Usage: " restore "$call" help help
redo='Usage: imgcopy redo'
check_refused "error: " "'extra'" "$redo" redo extra
check_refused "error: " "'--pages'" "$redo" redo --pages
check_refused Write "Print help" "$redo" redo -h
check_refused Write "Print help" "$redo" redo --help
run='Usage: imgcopy run'
check_refused "error: " "--pages <N>" "$run" run
for pages in --pages=0 --pages=65537 --pages=x --pages=; do
    check_refused "error: " "--pages <N>" --help run "$pages"
done
for frames in --frames=0 --frames=65537 --frames=x --frames=; do
    check_refused "error: " "--frames <B>" --help run --pages=1 "$frames"
done
check_refused "error: " "--frames <B>" --help run --pages=1 --frames
check_refused "error: " "--pages <N>" "$run" run --frames=1
check_refused "error: " "'--sync'" "$run" run --pages=1 --sync=1
check_refused Play "65536 if not given" "$run" run --help
check_refused Play --save "$run" run --help
check_refused Play --manifest "$run" run --help
check_refused "error: " "--save <FOLDER>" "$run" run --pages=1 --manifest
check_refused "error: " "'--manifest'" --help run --pages=1 --save=. --manifest=x
check_refused "error: " "--output <FILE>" "$redo" redo --force
for words in "run --help" "redo --help" "restore --help"; do
    # shellcheck disable=SC2086  # the words are apart
    check_refused "" --force Usage: $words
done
check_version() {
    "$program" "$@" > "$work/out" 2> "$work/err" < /dev/null || fail "the words '$*': status $?"
    [ "$(cat "$work/out")" = "imgcopy 0.2.0" ] || fail "the words '$*': '$(cat "$work/out")'"
    [ ! -s "$work/err" ] || fail "the words '$*': there is an error"
}
check_version --version
check_version -V
open='Usage: imgcopy open'
check_refused Open --salvage "$open" open --help
check_refused Open --strict "$open" open --help
check_refused "error: " "<FOLDER>" "$open" open
for pages in --pages=0 --pages=65537 --pages=x --pages=; do
    check_refused "error: " "--pages <N>" --help open folder "$pages"
done
check_refused "error: " "--frames <B>" --help open folder --frames=0
check_refused "error: " "'extra'" "$open" open folder extra
check_refused Open FOLDER "$open" open -h
restore='Usage: imgcopy restore'
check_refused "error: " "<MASTER>" "$restore" restore log
check_refused Write ARCHIVE "$restore" restore -h
check_refused Write "--copy" "<FOLDER>" restore --help
check_refused "error: " "--copy <N>" --help restore folder --copy=0
check_refused "error: " "--copy <N>" --help restore folder --copy
check_refused "error: " "<FOLDER>" "$restore" restore --copy=1
check_refused "error: " "'master'" "$restore" restore log master --copy=1
audit='Usage: imgcopy audit'
check_refused "error: " "<LOG>" "$audit" audit
check_refused "error: " "'--log'" "$audit" audit --log=log
check_refused Check ARCHIVE "$audit" audit -h
backup='Usage: imgcopy backup'
for word in --on --full --into; do
    check_refused Make "$word" "$backup" backup --help
done
check_refused "error: " "<FOLDER>" "$backup" backup
for copy in --on=0 --on=4294967296 --on=x --on=; do
    check_refused "error: " "--on <N>" --help backup folder "$copy"
done
check_refused "error: " "'extra'" "$backup" backup folder extra
check_refused "error: " "--into <DIR>" --help backup folder --into
verify='Usage: imgcopy verify'
check_refused Check FOLDER "$verify" verify -h
check_refused "error: " "<FOLDER>" "$verify" verify
check_refused "error: " "'extra'" "$verify" verify folder extra
check_refused "error: " "'--json'" "$verify" verify folder --json
renew='Usage: imgcopy renew'
check_refused Make NEW "$renew" renew -h
check_refused "error: " "<OLD>" "$renew" renew
check_refused "error: " "<NEW>" "$renew" renew old
check_refused "error: " "'extra'" "$renew" renew old new extra
check_commands
check_audits
check_lines
# Words that are not UTF-8: the first of them is shown as far as it can be.
check_words $'redo\xff'
check_told "error: argument 1 is not UTF-8: 'redo�'"
check_words restore log $'ma\xffster' $'\xfe'
check_told "error: argument 3 is not UTF-8: 'ma�ster'"
check_devices
echo "ok examples: $count examples, the wrong words and the broken devices are as expected"
