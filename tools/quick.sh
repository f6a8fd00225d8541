#!/usr/bin/env bash
# usage: quick.sh [SECONDS]
# A first look: runs the tests of all crates from the sources, unproved, side by side, and plays the day of demo.sh. A
# test has so many seconds, 10 if none are told. One that needs more is left out and named: a few that read or fill the
# longest logs, and more on a busy machine. Nothing is proved, and no wrong body is tried. What rt says goes to
# build/quick/NAME.log. The last line is 'N passed, M failed', and the status is 0 if nothing failed.
set -u
cd "$(dirname "$0")/.." || exit 1
. tools/lanes.sh
export seconds=${1:-10}
passed=0 failed=0

# The program compiled with checks gives the answer. The interpreter that rt try asks first gets a single step: it would
# take most of the time.
look() {
    if [ "$1" = day ]; then
        tools/demo.sh --unproved build/imgcopy build/quick/files > build/quick/day.log 2>&1
    else
        (cd "crates/$1" && rt try --test --steps 1 --seconds "$seconds") > "build/quick/$1.log" 2>&1
    fi
    echo "done: $1, in $SECONDS seconds"
}
export -f look

# The names of tests that were left out, or failed, behind this word.
tests_that() {
    awk -v wanted="$1" '
        /^test .* \.\.\. FAILED$/ { name = $2; next }
        name != "" {
            word = /no-answer: the program did not end within the time limit/ ? "late" : "failed"
            if (word == wanted) print name
            name = ""
        }' "build/quick/$2.log"
}

command -v rt > /dev/null || { echo "quick.sh: the program 'rt' is missing" >&2; exit 1; }
rm -rf build/quick
mkdir -p build/quick || exit 1
# Those with most tests come first.
mapfile -t crates < <(grep -rc '#\[test\]' crates/*/src --include='*.rt' | awk -F '[/:]' '
    $NF { count[$2] += $NF }
    END { for (crate in count) print count[crate], crate }' | sort -rn | cut -d ' ' -f 2)
printf '%s\n' "${crates[@]:0:2}" day "${crates[@]:2}" | xargs -P "$(lanes)" -I NAME bash -c 'look NAME'
for crate in "${crates[@]}"; do
    mapfile -t late < <(tests_that late "$crate")
    mapfile -t wrong < <(tests_that failed "$crate")
    passed=$((passed + $(grep -c '^test .* \.\.\. ok$' "build/quick/$crate.log")))
    failed=$((failed + ${#wrong[@]}))
    [ ${#late[@]} -eq 0 ] || echo "left out of $crate, ${#late[@]} over $seconds seconds: ${late[*]}"
    [ ${#wrong[@]} -eq 0 ] || printf "FAILED $crate: %s\n" "${wrong[@]}"
    if ! grep -q '^test result: ' "build/quick/$crate.log"; then
        tail -n 10 "build/quick/$crate.log"
        echo "FAILED $crate: its tests did not run"
        failed=$((failed + 1))
    fi
done
if [[ $(tail -n 1 build/quick/day.log) == "ok day:"* ]]; then
    passed=$((passed + 1))
else
    tail -n 10 build/quick/day.log
    echo "FAILED day"
    failed=$((failed + 1))
fi
echo "$passed passed, $failed failed"
[ "$failed" -eq 0 ]
