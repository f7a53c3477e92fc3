#!/usr/bin/env bash
# Measures the stack that each call takes, and fails if the search takes more than 256 KiB, a merge more than 16 KiB, or the verdict sheet more than the search and 1 KiB.
#
#     bash bench/stack.sh [--built]    --built: the static library is built already
set -euo pipefail
cd "$(dirname "$0")/.."

case "$#,${1:-}" in
    0, | 1,--built) ;;
    *) echo "usage: bash bench/stack.sh [--built]" >&2; exit 2 ;;
esac

work=$(mktemp -d)
trap 'rm -rf "$work"' EXIT

[ "${1:-}" = --built ] || bash tools/build.sh fts4box
# symbols are bound at the start, so that the first call of memcpy does not count
cc -O1 -Wall -Wextra -Werror -pthread -Wl,-z,now -I include -o "$work/stack" bench/stack.c target/staticlib/libfts4box.a
"$work/stack" fts4_search 262144 fts4_merge 16384 fts4_merge_keeping 16384
