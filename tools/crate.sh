#!/usr/bin/env bash
# usage: crate.sh CRATE
# The lane of a change to one crate: proves it, and its tests if it has some, over what earlier checks kept, tries all of
# its wrong bodies, and then, if build/imgcopy is there, runs the checks that need no rt on that program. It does not
# build it anew, and says so where the sources are newer. The crates above are left to the gate. The last line is
# 'N passed, M failed', and the status is 0 if nothing failed.
set -u
cd "$(dirname "$0")/.." || exit 1
crate=${1-} passed=0 failed=0 counts='^([0-9]+) passed, ([0-9]+) failed'

if [ $# -ne 1 ] || ! grep -q "^$crate *\(staticlib\)\? *:" crates.txt; then
    echo "usage: crate.sh CRATE, which crates.txt names" >&2
    exit 1
fi

# step NAME COMMAND..: counts one step, which has passed if its status is 0.
step() {
    local label=$1
    shift
    if "$@"; then
        echo "ok $label"
        passed=$((passed + 1))
    else
        echo "FAILED $label"
        failed=$((failed + 1))
        return 1
    fi
}

# counted LOG COMMAND..: adds the counts of its last line.
counted() {
    local log=$1
    shift
    "$@" 2>&1 | tee "$log"
    if [[ $(tail -n 1 "$log") =~ $counts ]]; then
        passed=$((passed + BASH_REMATCH[1])) failed=$((failed + BASH_REMATCH[2]))
    else
        echo "FAILED $1: it ended without its counts"
        failed=$((failed + 1))
    fi
}

in_crate() {
    (cd "crates/$crate" && "$@")
}

mkdir -p build
if step "proof of $crate" in_crate rt check; then
    ! grep -rqs '#\[test\]' "crates/$crate/src" || step "tests of $crate" in_crate rt test
    counted build/crate.log python3 tools/plants.py --over-check "$crate"
fi
if [ -x build/imgcopy ]; then
    newer=$(find crates -path '*/out' -prune -o -name '*.rt' -newer build/imgcopy -print -quit)
    [ -z "$newer" ] || echo "note: build/imgcopy is older than $newer: 'make' proves and builds it anew"
    counted build/crate.log tools/run_tests.sh --given build/imgcopy
fi
echo "$passed passed, $failed failed"
[ "$failed" -eq 0 ]
