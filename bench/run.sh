#!/usr/bin/env bash
# Measures the box beside SQLite and a plain C checker, searches, sheets and merges, in one run, and prints the tables. bench/RESULTS.md keeps the last ones.
#
#     bash bench/run.sh [--built]    --built: the static library is built already
#
# Exit status: 0 if all bounds are met, 1 if some are not, 2 if something could not be measured.
set -euo pipefail
cd "$(dirname "$0")/.."

case "$#,${1:-}" in
    0, | 1,--built) ;;
    *) echo "usage: bash bench/run.sh [--built]" >&2; exit 2 ;;
esac

work=$(mktemp -d)
trap 'rm -rf "$work"' EXIT
trap 'exit 2' ERR

if ! cc -E -include sqlite3.h -x c /dev/null > "$work/header" 2>&1; then
    echo "bench/run.sh: there is no sqlite3.h; install SQLite's C library with its header (Debian: apt-get install libsqlite3-dev)" >&2
    exit 2
fi

if [ "${1:-}" = --built ]; then
    machine="a library built before"
else
    bash tools/build.sh fts4box
    machine=$(rt version)
fi
python3 bench/make_index.py "$work" > "$work/index.log"
python3 bench/make_worst.py "$work"

# the plain checker by each compiler at hand: the faster one is the baseline
warnings="-Wall -Wextra -Werror"
made=()
for compiler in gcc clang; do
    if command -v $compiler > "$work/where"; then
        $compiler -O3 $warnings -DPLAIN_CHECK=plain_check_$compiler -c -o "$work/$compiler.o" bench/checker.c
        made+=("-DWITH_${compiler^^}" "$work/$compiler.o")
        machine="$machine; $($compiler --version | head -n 1)"
    else
        machine="$machine; no $compiler"
    fi
done
if [ ${#made[@]} = 0 ]; then
    echo "bench/run.sh: neither gcc nor clang is installed, so there is no plain checker to compare with" >&2
    exit 2
fi
cc -O2 $warnings -I include -o "$work/bench" bench/bench.c "${made[@]}" target/staticlib/libfts4box.a -lsqlite3

echo "$machine; SQLite $(python3 -c 'import sqlite3; print(sqlite3.sqlite_version)'); $(sed -n 's/^model name[^:]*: //p' /proc/cpuinfo | sort -u), $(nproc) cores"
echo
trap - ERR
"$work/bench" "$work"
