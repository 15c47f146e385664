#!/usr/bin/env bash
# Makes a release that needs no toolchain: a Debian package, and a tar archive of the same files, with the program, its manual
# page, the example players, the bridge, the league and the viewer. Made again from the same commit and program, both are the
# same byte for byte.
#
# usage: release.sh [PROGRAM [FOLDER]]
#
# PROGRAM is the built riichi_table, without it the proved one of this repository. The files are made in FOLDER, without it
# in out/. Each release says its commit, the logic that README.md names, and the SHA-256 of the program.
set -eu
umask 022
export LC_ALL=C TZ=UTC
cd "$(dirname "$0")/.."
program=$(realpath -m "${1:-crates/riichi_table/out/riichi_table}")
folder=$(realpath -m "${2:-out}")

fail() {
    echo "release.sh: $*" >&2
    exit 1
}

[ -f "$program" ] && [ -x "$program" ] || fail "$program is no program that can be run"
for tool in git dpkg-deb tar gzip; do
    command -v "$tool" > /dev/null || fail "$tool is wanted"
done

commit=$(git rev-parse HEAD)
changed=$(git status --porcelain -- README.md docs examples league viewer)
SOURCE_DATE_EPOCH=$(git log -1 --format=%ct)
export SOURCE_DATE_EPOCH
version=0.$(date -d "@$SOURCE_DATE_EPOCH" +%Y%m%d)+git${commit:0:10}${changed:+.changed}
logic=$(sed -n 's/.*the logic `\([0-9a-f]\{16\}\)`.*/\1/p' README.md | head -n 1)
[ -n "$logic" ] || fail "README.md names no logic"
sum=$(sha256sum "$program" | cut -d ' ' -f 1)
architecture=$(dpkg --print-architecture)
name=riichi-table

work=$(mktemp -d)
trap 'rm -rf "$work"' EXIT
root=$work/root
usr=$root/usr
share=$usr/share/$name
doc=$usr/share/doc/$name
mkdir -p "$root/DEBIAN" "$usr/bin" "$share" "$doc" "$usr/share/man/man1" "$folder"

# The program, the scripts with their commands, the pages to read.
install -m 755 "$program" "$usr/bin/riichi_table"
git ls-files -z examples league viewer | grep -zv '/tests/' | tar -cf - --null -T - | tar -xf - -C "$share"
for script in examples/play.sh examples/bridge.py league/league.py league/export.py league/split.py viewer/page.py viewer/live.py; do
    base=${script##*/}
    ln -s "../share/$name/$script" "$usr/bin/$name-${base%.*}"
done
install -m 644 README.md docs/PLAYING.md docs/RULES.md "$doc"
gzip -9n < docs/riichi_table.1 > "$usr/share/man/man1/riichi_table.1.gz"
printf 'version %s\ncommit %s%s\nlogic %s\nprogram sha256 %s\n' \
    "$version" "$commit" "${changed:+, with changes}" "$logic" "$sum" > "$doc/RELEASE"

# One state of all files, whoever makes the release: their modes, times and order.
chmod -R u=rwX,go=rX "$root"
find "$root" -exec touch -h -d "@$SOURCE_DATE_EPOCH" {} +
(cd "$root" && find usr -type f -print0 | sort -z | xargs -0 md5sum) > "$root/DEBIAN/md5sums"
cat > "$root/DEBIAN/control" << END
Package: $name
Version: $version
Architecture: $architecture
Maintainer: riichi_table <riichi_table@localhost>
Installed-Size: $(find "$usr" -type f -printf '%s\n' | awk '{ n += int(($1 + 1023) / 1024) } END { print n }')
Depends: libc6 (>= 2.34), python3 (>= 3.9)
Suggests: xdg-utils
Section: games
Priority: optional
Description: table and referee for riichi mahjong between programs over mjai
 It referees whole games of four-player riichi mahjong between four connected
 programs, and keeps a record that anyone can check again. The command
 riichi-table-play plays a game of example players and shows it.
 .
 Commit $commit${changed:+, with changes}
 Logic $logic
 SHA-256 of the program $sum
END
# What Python keeps of the scripts goes with them.
cat > "$root/DEBIAN/prerm" << 'END'
#!/bin/sh
set -e
rm -rf "${DPKG_ROOT:-}"/usr/share/riichi-table/*/__pycache__
END
chmod 755 "$root/DEBIAN/prerm"
touch -d "@$SOURCE_DATE_EPOCH" "$root/DEBIAN" "$root"/DEBIAN/*

package=$folder/${name}_${version}_$architecture.deb
archive=$folder/$name-$version-$architecture.tar.gz
dpkg-deb --root-owner-group -Zgzip --build "$root" "$package" > /dev/null
tar --format=gnu --sort=name --owner=0 --group=0 --numeric-owner --mtime="@$SOURCE_DATE_EPOCH" \
    --transform="flags=r;s,^usr,$name-$version," -C "$root" -cf - usr | gzip -9n > "$archive"
cat "$doc/RELEASE"
cd "$folder" && sha256sum "${package##*/}" "${archive##*/}"
