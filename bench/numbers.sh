#!/usr/bin/env bash
# Measures what the short way of reading numbers is worth (document 02, section 2): on one leaf of about 60,000 bytes that real SQLite
# wrote, the reading of all its numbers (crate timing) and the whole check (the product's own library), with the reader as it is and
# with one that goes the long way alone. Both are built and proved here, from the same crates: all of them twice, which takes long.
#
#     bash bench/numbers.sh
set -euo pipefail
cd "$(dirname "$0")/.."

if [ $# -gt 0 ]; then
    echo "usage: bash bench/numbers.sh" >&2
    exit 2
fi

work=$(mktemp -d)
trap 'rm -rf "$work"' EXIT

python3 bench/make_leaf.py "$work"
mkdir "$work/long"
python3 bench/long_way.py "$work/long"
libraries=()
mkdir "$work/long/tools"
cp tools/build.sh "$work/long/tools"
for way in . "$work/long"; do
    bash "$way/tools/build.sh" fts4box timing || exit 2
    for library in fts4box timing; do
        libraries+=("$work/${#libraries[@]}.so")
        cc -shared -o "${libraries[-1]}" -Wl,--whole-archive "$way/target/staticlib/lib$library.a" -Wl,--no-whole-archive
    done
done
cc -O2 -Wall -Wextra -Werror -o "$work/numbers" bench/numbers.c -ldl
"$work/numbers" "${libraries[@]}" "$work/leaf.bin" "$work/places.bin"
