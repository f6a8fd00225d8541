#!/usr/bin/env bash
# usage: library.sh ROOT NAME
# Puts the library NAME for C into build/: libimgcopy.a, and where there is a C compiler libimgcopy.so.0, by which a
# program finds it when it runs, with libimgcopy.so, by which it is linked. ROOT is a root in which `rt ci` has proved the
# crate and those that it stands on: it leaves no archive of a static library, so that is compiled here, over the libraries
# that it has left. Beside its object the archive has that of the kit's calls of malloc, realloc and free. Of the shared
# one only the names that tools/imgcopy.map lists can be seen.
set -u
cd "$(dirname "$0")/.." || exit 1
top=$PWD root=$1 name=$2
kit=$(dirname "$(dirname "$(readlink -f "$(command -v rt)")")")
work=$(mktemp -d) || exit 1
trap 'rm -rf "$work"' EXIT

# The libraries that the crate names, each under its own name, and the folders of all that stand there.
words=(--extern "std=$kit/rlibs/std.rlib" -L "dependency=$kit/rlibs")
for used in $(sed -n "s/^$name staticlib: *//p" crates.txt); do
    words+=(--extern "$used=$root/crates/$used/out/rlib/$used.rlib")
done
for folder in "$root"/crates/*/out/rlib; do
    words+=(-L "dependency=$folder")
done
cd "$root/crates/$name" || exit 1
"$kit/bin/rattle" build --crate-name "$name" src/lib.rt "${words[@]}" --links "$name=" --crate-type staticlib \
    --antt-project "$kit/rattle/logic/antt-project.json" --logic-built "$kit/logic_built" --toolchain "$kit/toolchain" \
    --backend llvm -o "$work/proved.a" > "$work/said" 2>&1 || { tail -n 20 "$work/said" >&2; exit 1; }

cd "$work" || exit 1
ar="$kit/toolchain/bin/llvm-ar"
"$ar" x proved.a && "$ar" x "$kit/c/liblibc_c.a" && "$ar" rcs libimgcopy.a ./*.o && cp -f libimgcopy.a "$top/build" || exit 1
rm -f "$top/build/libimgcopy.so" "$top/build/libimgcopy.so.0"
if command -v "${CC:-cc}" > /dev/null; then
    "${CC:-cc}" -shared -o libimgcopy.so.0 ./*.o -Wl,-soname,libimgcopy.so.0 -Wl,-z,relro,-z,now,-z,defs \
        "-Wl,--version-script=$top/tools/imgcopy.map" || exit 1
    cp -f libimgcopy.so.0 "$top/build" && ln -s libimgcopy.so.0 "$top/build/libimgcopy.so"
else
    echo "there is no C compiler, so the shared library is not made"
fi
