#!/usr/bin/env python3
"""Makes one leaf of about 60,000 bytes with real SQLite, and the list of places where numbers are stored in it.

    python3 bench/make_leaf.py FOLDER

FOLDER gets `leaf.bin` and `places.bin` (32 bits each, in this machine's order).
"""
import array
import contextlib
import os
import sqlite3
import sys

import make_index

ROWS = 3072
SIZES = range(59000, 61001)


def one_leaf():
    with contextlib.closing(sqlite3.connect(":memory:")) as base:
        make_index.fill(base, ROWS)
        base.execute("insert into t(t) values ('optimize')")
        (root,), = base.execute("select root from t_segdir")
    assert root[:1] == b"\x00" and len(root) in SIZES, "SQLite made no single leaf of about 60,000 bytes"
    return root


def number(leaf, at):
    """The number at a place, and the place after it."""
    value, shift = 0, 0
    while leaf[at] & 0x80:
        value, shift, at = value | (leaf[at] & 0x7F) << shift, shift + 7, at + 1
    return value | leaf[at] << shift, at + 1


def places_of(leaf):
    """The height; for each word its prefix (but of the first), its size and that of its list, and the numbers of the list."""
    places, at = [], 0

    def take():
        nonlocal at
        places.append(at)
        value, at = number(leaf, at)
        return value

    take()
    while at < len(leaf):
        if len(places) > 1:
            take()
        at += take()
        size = take()
        end = at + size
        while at < end:
            take()
    return places


def main(folder):
    leaf = one_leaf()
    with open(os.path.join(folder, "leaf.bin"), "wb") as f:
        f.write(leaf)
    with open(os.path.join(folder, "places.bin"), "wb") as f:
        array.array("I", places_of(leaf)).tofile(f)


if __name__ == "__main__":
    main(sys.argv[1])
