#!/usr/bin/env bash
# usage: run_tests.sh --gate             runs the gate, then each check on the program that it has built, and then tries
#                                        a sample of the wrong bodies that the gate leaves out
#        run_tests.sh PROGRAM            runs each check on this program
#        run_tests.sh --given PROGRAM    runs each check on this program that needs no rt
# The last line is 'N passed, M failed', and ', K skipped' where a tool is missing; the lines before it say how long
# each phase took. A check passes if it ends with status 0 and its last line begins with 'ok' and its name. The status is
# 0 if nothing failed.
set -u
cd "$(dirname "$0")/.." || exit 1
. tools/lanes.sh
passed=0 failed=0 skipped=0 phases=() sampled=8 are_kept= counts_of_rt='^([0-9]+) passed, ([0-9]+) failed$'

# phase NAME COMMAND..: runs it, and notes how long it took.
phase() {
    local label=$1 began=$SECONDS took
    shift
    "$@"
    took=$((SECONDS - began))
    if [ "$took" -lt 60 ]; then
        phases+=("phase $label: $took s")
    else
        phases+=("phase $label: $(((took + 30) / 60)) min")
    fi
}

# The gate leaves each program in out/. An older one is removed first, so that none but the gate's own is checked. Told
# how many checks to make, rt gives each one processor; what it does with more costs a third more of their time.
run_gate() {
    program=crates/imgcopy/out/imgcopy
    check_library=crates/check_library/out/check_library
    check_faults=crates/check_faults/out/check_faults
    check_power=crates/check_power/out/check_power
    bank=crates/demo_bank/out/demo_bank
    rm -f "$program" "$check_library" "$check_faults" "$check_power" "$bank"
    RT_JOBS=$(lanes) PYTHONUNBUFFERED=1 tools/longest.py rt ci 2>&1 | tee build/gate.log
    local status=${PIPESTATUS[0]}
    if [[ $(grep -v '^longest: ' build/gate.log | tail -n 1) =~ $counts_of_rt ]]; then
        passed=${BASH_REMATCH[1]} failed=${BASH_REMATCH[2]}
    else
        echo "FAILED gate: it ended with status $status, and without its counts"
        failed=1
    fi
    [ "$status" -eq 0 ] || [ "$failed" -gt 0 ] || failed=1
}

# check NAME TOOL.. -- COMMAND..: counts one check, and skips it where a tool is missing.
check() {
    local name=$1 said
    shift
    while [ "$1" != -- ]; do
        command -v "$1" > /dev/null || { skip "$name" "$1 is missing"; return; }
        shift
    done
    shift
    if said=$("$@" 2>&1) && [[ ${said##*$'\n'} == "ok $name:"* ]]; then
        echo "$said"
        passed=$((passed + 1))
    else
        echo "$said"
        echo "FAILED $name"
        failed=$((failed + 1))
    fi
}

skip() {
    echo "skipped $1: $2"
    skipped=$((skipped + 1))
}

# Makes this library for LD_PRELOAD, if it is not there.
preload_library() {
    local library=build/$1.so source=checks/$1.rs
    [ "$library" -nt "$source" ] || rustc --edition 2024 --crate-type cdylib -O -o "$library" "$source"
}

# preload NAME COMMAND..: runs a script whose last argument is this library.
preload() {
    local library=build/$1.so
    preload_library "$1" || return
    shift
    python3 -m "$@" "$library"
}

# Runs a script whose last argument is the library that refuses allocations.
refuse_memory() {
    preload refuse_memory "$@"
}

# The gate has built this program. Else it is built here.
library_memory() {
    "$is_gate" || tools/build.sh check_library || return
    refuse_memory checks.library_memory "$check_library"
}

few_threads() {
    "$is_gate" || tools/build.sh check_library || return
    preload few_threads checks.few_threads "$check_library"
}

repairs() {
    "$is_gate" || tools/build.sh check_library || return
    python3 -m checks.repairs "$check_library"
}

fault_sweeps() {
    "$is_gate" || tools/build.sh check_faults || return
    python3 -m checks.fault_sweeps "$check_faults"
}

power() {
    "$is_gate" || tools/build.sh check_power || return
    python3 -m checks.power "$check_power"
}

bank() {
    "$is_gate" || tools/build.sh demo_bank || return
    python3 -m checks.bank "$bank" "$program"
}

bank_kills() {
    "$is_gate" || tools/build.sh demo_bank || return
    python3 -m checks.bank_kills "$bank" "$program"
}

bank_losses() {
    "$is_gate" || tools/build.sh demo_bank || return
    preload file_calls checks.bank_losses "$bank" "$program"
}

bank_faults() {
    "$is_gate" || tools/build.sh demo_bank || return
    preload file_calls checks.bank_faults "$bank" "$program"
}

bank_memory() {
    "$is_gate" || tools/build.sh demo_bank || return
    preload refuse_memory checks.bank_refusals bank_memory "$bank" "$program"
}

bank_threads() {
    "$is_gate" || tools/build.sh demo_bank || return
    preload few_threads checks.bank_refusals bank_threads "$bank" "$program"
}

bank_rot() {
    "$is_gate" || tools/build.sh demo_bank || return
    python3 -m checks.bank_rot "$bank" "$program"
}

# The gate has proved the library, and left no archive of it.
c_calls() {
    if "$is_gate"; then tools/library.sh "$PWD" imgcopy_c; else tools/build.sh imgcopy_c; fi || return
    python3 -m checks.c_calls "$program" build
}

# The store is proved and built in a root of its own.
kv() {
    preload file_calls checks.kv "$program"
}

# A file system in a file is made and mounted there, which needs root.
bank_disks() {
    "$is_gate" || tools/build.sh demo_bank || return
    python3 -m checks.bank_disks "$bank" "$program"
}

# Whether rt has kept what the gate has proved, as some of its versions do: a root of its own shows it.
are_proofs_kept() {
    [ -n "$are_kept" ] || { python3 -m checks.kv --can && are_kept=yes || are_kept=no; }
    [ "$are_kept" = yes ]
}

# Where rt keeps what the gate has proved, these are tried in minutes; elsewhere they would take as long as the gate.
# Which ones they are hangs on the commit's hash, so that over time each is tried.
run_sample() {
    local why=
    command -v python3 > /dev/null || why="python3 is missing"
    ! grep -aEq '^rt: note: .*(so nothing is|came after is not|what this run proved.* is not) kept' build/gate.log ||
        why="rt has not kept the gate's proofs"
    [ -n "$why" ] || are_proofs_kept || why="rt has not kept the gate's proofs"
    [ "$failed" -eq 0 ] || why="something failed before"
    [ -z "$why" ] || { skip sample "$why"; return; }
    python3 tools/plants.py --sample "$sampled" --left-out 2>&1 | tee build/sample.log
    if [[ $(tail -n 1 build/sample.log) =~ $counts_of_rt ]]; then
        passed=$((passed + BASH_REMATCH[1])) failed=$((failed + BASH_REMATCH[2]))
    else
        echo "FAILED sample: it ended without its counts"
        failed=$((failed + 1))
    fi
}

# A folder in memory, where there is one with room: what asks nothing of a disk need not wait for the syncs of one.
memory_place() {
    local free
    free=$(df --output=avail -k /dev/shm 2> /dev/null | tail -n 1)
    if [ -w /dev/shm ] && [ "${free:-0}" -gt 2000000 ]; then echo /dev/shm; else echo "${TMPDIR:-/tmp}"; fi
}

# The checks that need no program but the one that is tried.
run_own_checks() {
    local -x TMPDIR
    TMPDIR=$(memory_place)
    check contracts python3 -- python3 tools/contracts.py --check
    check documents python3 -- python3 tools/check_docs.py
    check header python3 -- python3 tools/header.py --check
    check laws python3 -- python3 tools/check_laws.py
    check wrong_bodies python3 -- python3 tools/plants.py --look
    check examples "$program" python3 -- checks/check.sh "$program"
    check rows "$program" python3 -- python3 -m checks.rows "$program"
    check day "$program" python3 -- checks/day.sh "$program" build/day
    check memory "$program" python3 rustc -- refuse_memory checks.memory "$program"
    check run_memory "$program" python3 rustc -- refuse_memory checks.run_memory "$program"
    check unsaved "$program" python3 -- python3 -m checks.unsaved "$program"
    check operator "$program" python3 -- python3 -m checks.operator "$program"
    check outputs "$program" python3 -- python3 -m checks.outputs "$program"
    check output_calls "$program" python3 rustc -- preload file_calls checks.output_calls "$program"
    if python3 -m checks.call_order --can; then
        check call_order "$program" python3 strace -- python3 -m checks.call_order "$program"
    else
        skip call_order "strace is missing, or may trace no program here"
    fi
    check manifests "$program" python3 -- python3 -m checks.manifests "$program"
    check log_out "$program" python3 -- python3 -m checks.log_out "$program"
    check until "$program" python3 -- python3 -m checks.until "$program"
    check show "$program" python3 -- python3 -m checks.show "$program"
    check views "$program" python3 -- python3 -m checks.views "$program"
    check guide "$program" python3 -- python3 -m checks.guide "$program"
    check open_cases "$program" python3 -- python3 -m checks.open_cases "$program"
    check open_words "$program" python3 -- python3 -m checks.open_words "$program"
    check folders "$program" python3 -- python3 -m checks.folders "$program"
    check restore_folder "$program" python3 -- python3 -m checks.restore_folder "$program"
    check doubts "$program" python3 -- python3 -m checks.doubts "$program"
    check open_losses "$program" python3 -- python3 -m checks.open_losses "$program"
    check open_kills "$program" python3 -- python3 -m checks.open_kills "$program"
    check open_flips "$program" python3 -- python3 -m checks.open_flips "$program"
    check open_cuts "$program" python3 rustc -- preload file_calls checks.open_cuts "$program"
    check open_tools "$program" python3 rustc -- preload file_calls checks.open_tools "$program"
    check saves_at_once "$program" python3 -- python3 -m checks.saves_at_once "$program"
    check frames "$program" python3 -- python3 -m checks.few_frames "$program"
    check sizes "$program" python3 rustc -- preload most_memory checks.sizes "$program"
    check faults "$program" python3 -- python3 -m checks.faults "$program"
    check model "$program" python3 -- python3 -m checks.answers "$program"
}

# Those of the programs that rt proves for them.
run_other_checks() {
    if "$uses_rt"; then
        check library_memory "$program" rt python3 rustc -- library_memory
        check few_threads "$program" rt python3 rustc -- few_threads
        check repairs "$program" rt python3 -- repairs
        check fault_sweeps "$program" rt python3 -- fault_sweeps
        check power "$program" rt python3 -- power
        check bank "$program" rt python3 -- bank
        check bank_kills "$program" rt python3 -- bank_kills
        check bank_losses "$program" rt python3 rustc -- bank_losses
        check bank_faults "$program" rt python3 rustc -- bank_faults
        check bank_memory "$program" rt python3 rustc -- bank_memory
        check bank_threads "$program" rt python3 rustc -- bank_threads
        check bank_rot "$program" rt python3 -- bank_rot
        check c_calls "$program" rt python3 -- c_calls
        if are_proofs_kept; then
            check kv "$program" rt python3 rustc -- kv
        else
            skip kv "rt has not kept the proofs of the crates on this machine"
        fi
        if python3 -m checks.bank_disks --can; then
            check bank_disks "$program" rt python3 -- bank_disks
        else
            skip bank_disks "no file system can be made and mounted here"
        fi
    else
        for name in library_memory few_threads repairs fault_sweeps power bank bank_kills bank_losses bank_faults bank_memory \
            bank_threads bank_rot c_calls kv bank_disks; do
            skip "$name" "it has rt prove another program"
        done
    fi
}

# The libraries for LD_PRELOAD are there before both kinds run side by side: what the second kind says comes behind the
# first, and its counts are added.
run_checks() {
    local side=build/other_checks.log library other
    if command -v rustc > /dev/null; then
        for library in refuse_memory few_threads file_calls most_memory; do
            preload_library "$library"
        done
    fi
    (
        passed=0 failed=0 skipped=0
        run_other_checks
        echo "$passed $failed $skipped"
    ) > "$side" 2>&1 &
    other=$!
    run_own_checks
    wait "$other"
    sed '$d' "$side"
    if [[ $(tail -n 1 "$side") =~ ^([0-9]+)\ ([0-9]+)\ ([0-9]+)$ ]]; then
        passed=$((passed + BASH_REMATCH[1])) failed=$((failed + BASH_REMATCH[2])) skipped=$((skipped + BASH_REMATCH[3]))
    else
        echo "FAILED other_checks: they ended without their counts"
        failed=$((failed + 1))
    fi
}

uses_rt=true
if [ "${1-}" = --given ]; then
    uses_rt=false
    shift
fi
if [ $# -ne 1 ]; then
    echo "usage: run_tests.sh --gate, or [--given] PROGRAM" >&2
    exit 1
fi
mkdir -p build
if [ "$1" = --gate ]; then
    is_gate=true
    phase gate run_gate
else
    is_gate=false
    program=$1 check_library=build/check_library check_faults=build/check_faults
    check_power=build/check_power bank=build/demo_bank
fi
phase checks run_checks
! "$is_gate" || phase "sample of wrong bodies" run_sample
# What the gate refused is told again here, where the reader of a long output looks first.
"$is_gate" && grep -a 'FAILED: \|NOT PROVED' build/gate.log
printf '%s\n' "${phases[@]}"
echo "processors: $(nproc), with $(lanes) checks of crates side by side"
counts="$passed passed, $failed failed"
[ "$skipped" -eq 0 ] || counts+=", $skipped skipped"
echo "$counts"
[ "$failed" -eq 0 ]
