#!/usr/bin/env bash
# Builds the shared library of crates/riichi_c, as the toolchain proves and compiles it, with its header and its pkg-config file.
#
# usage: build.sh [FOLDER]      puts lib/libriichi_table.so, include/riichi_table.h and lib/pkgconfig/riichi_table.pc there, without FOLDER into out/ beside
#                               this file, where tools/test-outside.sh looks for the library
set -e
here=$(cd "$(dirname "$0")" && pwd)
if [ $# -gt 1 ]; then
    echo "usage: build.sh [FOLDER]" >&2
    exit 2
fi
folder=${1:-$here/out}
mkdir -p "$folder/lib/pkgconfig" "$folder/include"
folder=$(cd "$folder" && pwd)
kit=$(dirname "$(rt doc | head -n 1)")
(cd "$here/../../crates/riichi_c" && rt lib)
# (of the toolchain's own C, what a heap needs alone is taken: the library opens no file and no socket; its C library is linked by name, since
# it is there without the files that a compiler looks for)
libraries=$kit/toolchain/lib
"$kit/toolchain/bin/clang" -shared -fPIC -nostdlib -fuse-ld=lld -o "$folder/lib/libriichi_table.so" \
    "$libraries/crti.o" "$libraries/crtbeginS.o" \
    -Wl,--whole-archive "$here/../../crates/riichi_c/out/libriichi_c.a" -Wl,--no-whole-archive \
    "$kit/c/liblibc_c.a" "$kit/c/libos_c.a" -Wl,--exclude-libs,liblibc_c.a:libos_c.a \
    "$libraries/libc.so.6" "$libraries/libgcc.a" "$libraries/crtendS.o" "$libraries/crtn.o"
cp "$here/riichi_table.h" "$folder/include/"
sed "s|@prefix@|$folder|" "$here/riichi_table.pc.in" > "$folder/lib/pkgconfig/riichi_table.pc"
echo "$folder/lib/libriichi_table.so"
