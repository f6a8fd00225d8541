#!/usr/bin/env bash
# usage: install_library.sh DESTDIR PREFIX
# Installs the library for C below DESTDIR and PREFIX, if it stands in build/: imgcopy.h, libimgcopy.a, libimgcopy.so.0
# with the name by which it is linked, and imgcopy.pc, by which pkg-config finds them.
set -eu
cd "$(dirname "$0")/.."
to=$1$2 prefix=$2

if [ ! -e build/libimgcopy.a ]; then
    echo "the library for C is not installed, since it is not built: 'make library' builds it"
    exit 0
fi
version=$(sed -n 's/^version = "\(.*\)"/\1/p' bindings/rust/Cargo.toml)
install -d "$to/include" "$to/lib/pkgconfig"
install -m 644 include/imgcopy.h "$to/include"
install -m 644 build/libimgcopy.a "$to/lib"
if [ -e build/libimgcopy.so.0 ]; then
    install -m 755 build/libimgcopy.so.0 "$to/lib"
    ln -sf libimgcopy.so.0 "$to/lib/libimgcopy.so"
fi
cat > "$to/lib/pkgconfig/imgcopy.pc" << END
prefix=$prefix
libdir=\${prefix}/lib
includedir=\${prefix}/include

Name: imgcopy
Description: Checks, redo and audits of imgcopy's logs and image copies
Version: $version
Libs: -L\${libdir} -limgcopy
Cflags: -I\${includedir}
END
