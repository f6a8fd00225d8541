#!/usr/bin/env bash
# usage: build.sh [NAME..]
# Proves each program or static library of these names, imgcopy if none is named, and the crates that they stand on, as
# crates.txt has them, and puts it into build/. No other crate is proved, and no wrong body is tried: `rt ci` does it in a
# root of its own, outside of this checkout. A crate that nothing runs beside gets all processors, and what rt keeps there
# spares the gate that work. What rt says goes to build/prove.log, whose end is shown where rt fails. The sum of the
# sources that were proved is kept in build/NAME.proved: while they and the kit stay as they are, nothing is proved or
# built again. The library imgcopy_c is put there by tools/library.sh, which says under which names.
set -u
cd "$(dirname "$0")/.." || exit 1
top=$PWD log=build/prove.log root=
trap '[ -z "$root" ] || rm -rf "$root"' EXIT

fail() {
    echo "$1. The end of $log:" >&2
    tail -n 40 "$log" >&2
    echo "$1: the whole of what rt said is in $log" >&2
    exit 1
}

# The lines of crates.txt of these crates and of all that they stand on.
lines_of() {
    sed 's/ *#.*//' crates.txt | awk -F ' *: *' -v wanted="$*" '
        NF { name = $1; sub(/ .*/, "", name); line[name] = $0; uses[name] = $2 }
        END {
            count = split(wanted, list, " ")
            for (i = 1; i <= count; i++) {
                if (!(list[i] in line) || list[i] in seen) continue
                seen[list[i]]
                print line[list[i]]
                for (j = split(uses[list[i]], names, " "); j > 0; j--) list[++count] = names[j]
            }
        }' | sort
}

# What the kit, the handles and the sources of a program and of what it stands on add up to. Wrong bodies are no part.
sum_of_sources() {
    local lines folders
    lines=$(lines_of "$1")
    mapfile -t folders < <(names_of "$1" | sed 's|^|crates/|')
    {
        rt version
        echo "$lines"
        cat HANDLES
        find "${folders[@]}" \( -name out -o -name must-fail \) -prune -o -type f -print0 | sort -z | xargs -0 sha256sum
    } | sha256sum
}

# A root with these crates and those that they stand on, without what a check left there and their wrong bodies.
make_root() {
    local name
    root=$(mktemp -d) || return
    lines_of "$@" > "$root/crates.txt"
    cp HANDLES "$root"
    while read -r name; do
        mkdir -p "$root/crates/$name"
        tar -C "crates/$name" --exclude=./out --exclude=./must-fail -cf - . | tar -C "$root/crates/$name" -xf - || return
    done < <(names_of "$@")
}

names_of() {
    lines_of "$@" | sed 's/[ :].*//'
}

is_library() {
    grep -q "^$1 *staticlib" crates.txt
}

# Whether it stands in build/, made of the sources as they are.
is_current() {
    [ -e "build/$1.proved" ] && [ "$(sum_of_sources "$1")" = "$(cat "build/$1.proved")" ] || return
    if is_library "$1"; then [ -e "build/lib${1%_c}.a" ]; else [ -x "build/$1" ]; fi
}

# Puts it into build/.
take() {
    if is_library "$1"; then tools/library.sh "$root" "$1"; else cp -f "$root/crates/$1/out/$1" "build/$1"; fi
}

# rt leaves each program that it has proved in out/. It says "rt: NAME proved" once a crate is done, or that it is kept.
# A place in a source is told as it is here.
prove() {
    local count
    count=$(lines_of "$@" | wc -l)
    (cd "$root" && PYTHONUNBUFFERED=1 "$top/tools/longest.py" rt ci 2>&1) | sed -u "s|$root/||g" | tee -a "$log" | show_progress "$count"
    return "${PIPESTATUS[0]}"
}

show_progress() {
    local mark crate rest done=0
    while read -r mark crate rest; do
        if [ "$mark" = rt: ] && [[ $rest == proved || $rest == "is kept: "* ]]; then
            done=$((done + 1))
            echo "done: $crate ($done of $1 crates, $(($1 - done)) left)"
        elif [ "$mark" = longest: ]; then
            echo "longest: $crate $rest"
        fi
    done
}

mkdir -p build
[ $# -gt 0 ] || set -- imgcopy
stale=() sums=()
for name in "$@"; do
    [ -n "$(lines_of "$name")" ] || { echo "build.sh: crates.txt has no crate $name" >&2; exit 1; }
    is_current "$name" || stale+=("$name")
done
[ ${#stale[@]} -gt 0 ] || exit 0
: > "$log"
for name in "${stale[@]}"; do
    rm -f "build/$name.proved"
    sums+=("$(sum_of_sources "$name")")
done
make_root "${stale[@]}" || fail "there is no room for a copy of the crates"
prove "${stale[@]}" || fail "${stale[*]}, or a crate that they stand on, is not proved"
for at in "${!stale[@]}"; do
    name=${stale[at]}
    take "$name" || fail "$name is proved, and not built"
    echo "${sums[at]}" > "build/$name.proved"
    echo "built $name into build/"
done
