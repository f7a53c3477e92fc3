#!/usr/bin/env python3
"""Makes the bench indexes with real SQLite: probe rows in an FTS4 table, in 8 segments of one leaf each, and their leaves.

    python3 bench/make_index.py FOLDER

FOLDER gets a folder for each number of rows, with `index.db` and the leaves, newest first: `leaf0.bin`, `leaf1.bin` and so on.
"""
import contextlib
import os
import sqlite3
import sys

ROWS = (400, 800, 1600, 3200)
SEGMENTS, NODES = 8, 48


def outcome(number):
    """Four in five probes are answered in time; the others are late or lost in turn, spread by a multiplicative hash."""
    place = (number * 2654435761 >> 7) % 100
    return "reply" if place < 80 else "reply late" if place < 90 else "no reply, timeout"


def fill(base, rows):
    base.execute("pragma page_size=65536")
    base.execute("create virtual table t using fts4(node, sent, outcome)")
    for segment in range(SEGMENTS):
        with base:
            for number in range(segment * rows // SEGMENTS + 1, (segment + 1) * rows // SEGMENTS + 1):
                row = (number, "n%d" % (number % NODES), "t%d" % number, outcome(number))
                base.execute("insert into t(docid, node, sent, outcome) values (?, ?, ?, ?)", row)


def leaves_of(base):
    """The table's leaves, newest first: the lower level first, then the higher index."""
    leaves = [root for (root,) in base.execute("select root from t_segdir order by level, idx desc")]
    assert len(leaves) == SEGMENTS, "the index has %d segments" % len(leaves)
    assert all(leaf[:1] == b"\x00" for leaf in leaves), "a segment is more than one leaf"
    return leaves


def main(folder):
    for rows in ROWS:
        place = os.path.join(folder, str(rows))
        os.makedirs(place)
        with contextlib.closing(sqlite3.connect(os.path.join(place, "index.db"))) as base:
            fill(base, rows)
            leaves = leaves_of(base)
        for i, leaf in enumerate(leaves):
            with open(os.path.join(place, "leaf%d.bin" % i), "wb") as f:
                f.write(leaf)
        print("%d rows: %d leaves, %d bytes" % (rows, len(leaves), sum(map(len, leaves))))


if __name__ == "__main__":
    main(sys.argv[1])
