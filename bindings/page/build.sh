#!/usr/bin/env bash
# Builds crates/riichi_page for a browser: the same source, proved again for 64-bit WebAssembly, as riichi_page.wasm.
#
# usage: build.sh [FILE.wasm]      without FILE.wasm the one beside this file, which viewer/build.py puts into the viewer
#
# The list of crates has it as a static library of this machine, since that is what the merge gate proves; here it stands in a list of
# its own. Libraries that are built already are taken over.
set -e
root=$(cd "$(dirname "$0")/../.." && pwd)
if [ $# -gt 1 ]; then
    echo "usage: build.sh [FILE.wasm]" >&2
    exit 2
fi
to=$(realpath -m "${1:-$(dirname "$0")/riichi_page.wasm}")
room=$(mktemp -d)
trap 'rm -rf "$room"' EXIT
git init -q "$room"
mkdir "$room/crates"
needed="riichi_page"
for _ in 1 2 3 4 5 6 7 8; do
    needed=$(for crate in $needed; do
        echo "$crate"
        sed -n "s/^$crate\( [^:]*\)\?:\(.*\)/\2/p" "$root/crates.txt" | tr ' ' '\n'
    done | sort -u | while read -r crate; do if [ -d "$root/crates/$crate" ]; then echo "$crate"; fi; done)
done
for crate in $needed; do
    cp -r "$root/crates/$crate" "$room/crates/"
    grep "^$crate[ :]" "$root/crates.txt" | sed 's/^riichi_page staticlib/riichi_page wasm64 memory=1310720/' >> "$room/crates.txt"
done
(cd "$room/crates/riichi_page" && rt lib --jobs 1)
cp "$room/crates/riichi_page/out/riichi_page.wasm" "$to"
