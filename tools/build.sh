#!/usr/bin/env bash
# Proves and builds crates: a static library becomes target/staticlib/libNAME.a, a program target/bin/NAME.
#
#     bash tools/build.sh [NAME..]    fts4box and fts4search if none is named
#
# What is proved already is not proved again. It says nothing unless it fails. A file is there whole or not at all; after a failure the
# one from before stays. To be built a program is also run, on the crate's file stdin where it has one, and must end with status 0.
set -euo pipefail
cd "$(dirname "$0")/.."

[ $# -gt 0 ] || set -- fts4box fts4search
for name in "$@"; do
    case "$name" in
        "" | *[!a-z0-9_]*) found=no ;;
        *) [ -f "crates/$name/src/lib.rt" ] || [ -f "crates/$name/src/main.rt" ] && found=yes || found=no ;;
    esac
    [ $found = yes ] || { echo "usage: bash tools/build.sh [NAME..]; there is no crate '$name'" >&2; exit 2; }
done

log=$(mktemp)
part=
trap 'rm -f "$log" "$part"' EXIT

# what rt makes of a crate
made_by_rt() {
    local name=$1 made=$2
    if [ -f "crates/$name/src/main.rt" ]; then
        local input=/dev/null
        [ ! -f "crates/$name/stdin" ] || input=stdin
        (cd "crates/$name" && rt run < "$input") > "$log" 2>&1
    else
        rm -f "$made"
        # for every x86-64, as docs/REFERENCE.md promises: the default asks for more of the processor, and a library does not test that
        (cd "crates/$name" && rt lib --cpu x86-64) > "$log" 2>&1
    fi && [ -f "$made" ]
}

for name in "$@"; do
    made=crates/$name/out/lib$name.a to=target/staticlib/lib$name.a mode=644
    [ ! -f "crates/$name/src/main.rt" ] || { made=crates/$name/out/$name to=target/bin/$name mode=755; }
    if ! made_by_rt "$name" "$made"; then
        cat "$log" >&2
        echo "tools/build.sh: crate $name gave no $made, and $to is as it was; what rt said, if anything, stands above" >&2
        exit 1
    fi
    mkdir -p "$(dirname "$to")"
    part=$(mktemp "$to.XXXXXX")
    cp "$made" "$part"
    chmod $mode "$part"
    mv -f "$part" "$to"
    part=
done
