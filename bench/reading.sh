#!/usr/bin/env bash
# Measures how long queries take to be read, and beside them, in the same run, with another build of the static library.
#
#     bash bench/reading.sh [--built] [--other-1.4] [OTHER.a]    --built: the static library is built already; --other-1.4: OTHER.a is of version 1.4
set -euo pipefail
cd "$(dirname "$0")/.."

built=
if [ "${1:-}" = --built ]; then
    built=yes
    shift
fi
version=()
if [ "${1:-}" = --other-1.4 ]; then
    version=("$1")
    shift
fi
if [ $# -gt 1 ]; then
    echo "usage: bash bench/reading.sh [--built] [--other-1.4] [OTHER.a]" >&2
    exit 2
fi

work=$(mktemp -d)
trap 'rm -rf "$work"' EXIT

[ -n "$built" ] || bash tools/build.sh fts4box
libraries=()
for archive in target/staticlib/libfts4box.a "$@"; do
    cc -shared -o "$work/${#libraries[@]}.so" -Wl,--whole-archive "$archive" -Wl,--no-whole-archive
    libraries+=("$work/${#libraries[@]}.so")
done
cc -O2 -Wall -Wextra -Werror -I include -o "$work/reading" bench/reading.c -ldl
"$work/reading" "${version[@]}" "${libraries[@]}"
