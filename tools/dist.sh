#!/usr/bin/env bash
# Makes fts4box-VERSION.tar.gz: header, static library, pkg-config file, two pages, four examples, and SHA256SUMS over all of it.
#
#     bash tools/dist.sh [--built] [FOLDER]    --built: the static library is built already; FOLDER: target/dist if none is named
#
# The same files give the same bytes. The archive gets its name only when it is whole.
set -euo pipefail
export LC_ALL=C

built=no
if [ "${1:-}" = --built ]; then
    built=yes
    shift
fi
case "$#,${1:-}" in
    0, | 1,[!-]*) ;;
    *) echo "usage: bash tools/dist.sh [--built] [FOLDER]" >&2; exit 2 ;;
esac

root=$(cd "$(dirname "$0")/.." && pwd)
out=$(realpath -m -- "${1:-$root/target/dist}")
cd "$root"

work=$(mktemp -d)
part=
trap 'rm -rf "$work" "$part"' EXIT

library=target/staticlib/libfts4box.a
[ "$built" = yes ] || bash tools/build.sh fts4box
[ -f "$library" ] || { echo "there is no $library: run without --built" >&2; exit 1; }
version=$(sed -n 's/^#define FTS4BOX_VERSION "\([0-9.]*\)"$/\1/p' include/fts4box.h)
[ -n "$version" ] || { echo "include/fts4box.h has no version" >&2; exit 1; }

name=fts4box-$version
tree=$work/$name
mkdir -p "$tree/include" "$tree/lib/pkgconfig" "$tree/docs" "$tree/examples"
cp include/fts4box.h "$tree/include/"
cp "$library" "$tree/lib/"
cp docs/REFERENCE.md docs/GUARANTEES.md "$tree/docs/"
cp examples/search.c examples/folder.c examples/verdict.c examples/merge.c "$tree/examples/"
# the paths follow from where the file stands, so that the tree can be moved
cat > "$tree/lib/pkgconfig/fts4box.pc" << END
prefix=\${pcfiledir}/../..

Name: fts4box
Description: Counting rows from raw FTS4 segment leaves, by proof
Version: $version
Cflags: -I\${prefix}/include
Libs: -L\${prefix}/lib -lfts4box
END
(cd "$tree" && find . -type f -printf '%P\n' | sort | xargs sha256sum) > "$work/sums"
mv "$work/sums" "$tree/SHA256SUMS"

mkdir -p "$out"
part=$(mktemp "$out/.$name.XXXXXX")
same=(--format=ustar --sort=name --owner=0 --group=0 --numeric-owner --mtime=@0 "--mode=u=rwX,go=rX")
tar --create --directory "$work" "${same[@]}" "$name" | gzip -9 -n > "$part"
chmod 644 "$part"
mv -f "$part" "$out/$name.tar.gz"
echo "$out/$name.tar.gz"
