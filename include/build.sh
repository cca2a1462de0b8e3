#!/bin/sh
# Proves crates/ix_c and puts the library into build/: libix.a, libix.so, include/ix.h and ix.pc (by `make lib`).
#
#     include/build.sh [PREFIX]     PREFIX is what ix.pc tells; without it, the folder build/ itself
set -eu
cd "$(dirname "$0")/.."
top=$(pwd)
prefix=${1:-$top/build}
kit=$(dirname "$(rt doc)")/c
cc=${CC:-gcc}

(cd crates/ix_c && rt lib) > build/lib.log 2>&1 || { cat build/lib.log >&2; exit 1; }

# The archive wants one object of the toolchain's, which calls malloc, realloc and free.
work=$(mktemp -d)
trap 'rm -rf "$work"' EXIT
cp crates/ix_c/out/libix_c.a "$work/libix.a"
(cd "$work" && ar x "$kit/liblibc_c.a" heap.pic.o && ar rs libix.a heap.pic.o 2> ar.log && rm heap.pic.o)

# Of its names only those that begin with ix_ are shown.
printf '{ global: ix_*; local: *; };\n' > "$work/ix.map"
"$cc" -shared -o "$work/libix.so" -Wl,-soname,libix.so -Wl,-z,defs -Wl,-z,text -Wl,--version-script="$work/ix.map" \
    -Wl,--whole-archive "$work/libix.a" -Wl,--no-whole-archive

mkdir -p build/include build/lib/pkgconfig
cp "$work/libix.a" "$work/libix.so" build/
cp include/ix.h build/include/ix.h
if [ "$prefix" = "$top/build" ]; then libdir=$prefix; else libdir=$prefix/lib; fi
cat > build/lib/pkgconfig/ix.pc << END
prefix=$prefix
libdir=$libdir
includedir=$prefix/include

Name: ix
Description: exact search in collections of named texts, proved
Version: 1
Cflags: -I\${includedir}
Libs: -L\${libdir} -lix
END
