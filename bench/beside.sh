#!/usr/bin/env bash
# Measures searches and the check, over 3,200 probe rows in 8 leaves of real SQLite, beside another build of the static library that
# has the same calls, or those of version 1.4.
#
#     bash bench/beside.sh [--built] [--other-1.4] OTHER.a    --built: the static library is built already; --other-1.4: OTHER.a is of version 1.4
set -euo pipefail
cd "$(dirname "$0")/.."

built=
if [ "${1:-}" = --built ]; then
    built=yes
    shift
fi
version=()
if [ "${1:-}" = --other-1.4 ]; then
    version=("$1")
    shift
fi
if [ $# -ne 1 ]; then
    echo "usage: bash bench/beside.sh [--built] [--other-1.4] OTHER.a" >&2
    exit 2
fi

work=$(mktemp -d)
trap 'rm -rf "$work"' EXIT

[ -n "$built" ] || bash tools/build.sh fts4box
libraries=()
for archive in target/staticlib/libfts4box.a "$1"; do
    cc -shared -o "$work/${#libraries[@]}.so" -Wl,--whole-archive "$archive" -Wl,--no-whole-archive
    libraries+=("$work/${#libraries[@]}.so")
done
python3 bench/make_index.py "$work" > "$work/index.log"
cc -O2 -Wall -Wextra -Werror -I include -o "$work/beside" bench/beside.c -ldl
"$work/beside" "${version[@]}" "${libraries[@]}" "$work/3200"
