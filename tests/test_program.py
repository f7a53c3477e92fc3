#!/usr/bin/env python3
"""The one-search program on each of its answers, alone and two faults at once."""
import os
import subprocess
import sys
import tempfile

import reference
from generated import EDGES
from leaf_cases import P12, leaf_of_size
from paths import PROGRAM
from tally import Tally

# What stands in place of the file leaf0.bin, beside bytes.
MISSING, FOLDER, UNREADABLE = "missing", "folder", "unreadable"
# A query that can't be read: standard input is a folder, or closed.
NO_INPUT, CLOSED = "folder as input", "closed input"


def put_leaf(path, leaf):
    if leaf == FOLDER:
        os.mkdir(path)
    elif leaf == UNREADABLE:
        os.symlink("/proc/self/mem", path)  # opens, and fails at the first read
    elif leaf != MISSING:
        with open(path, "wb") as f:
            f.write(leaf)


def ran(query, leaf):
    """What the program writes, or its status where it ends badly."""
    with tempfile.TemporaryDirectory() as place:
        put_leaf(os.path.join(place, "leaf0.bin"), leaf)
        command = ["sh", "-c", 'exec "$0" <&-', PROGRAM] if query == CLOSED else [PROGRAM]
        how = {"input": query}
        if query in (NO_INPUT, CLOSED):
            how = {"stdin": os.open(place, os.O_RDONLY)}
        done = subprocess.run(command, cwd=place, stdout=subprocess.PIPE, stderr=subprocess.STDOUT, timeout=60, **how)
        if "stdin" in how:
            os.close(how["stdin"])
        return done.stdout if done.returncode == 0 else done.returncode


def many(count):
    """A leaf with so many rows that have the word reply."""
    return reference.encode_leaf([(b"reply", [(d, [(2, [0])]) for d in range(1, count + 1)])])


def listing(docids):
    return "".join("%s\n" % line for line in ["docs %d" % len(docids), *docids]).encode()


NO_LEAF, TOO_LARGE, BAD_QUERY, BAD_LEAF = b"no leaf\n", b"refused 1 0\n", b"refused 2 0\n", b"refused 3 0\n"
LONG = b"reply" + b" " * 508
OVER = leaf_of_size(65537)[0]
SIGNS = reference.encode_leaf([(b"reply", [(docid, [(0, [0])]) for docid in (*EDGES[:2], -300, -10, -9, *EDGES[2:])])])

# query, leaf, what the program writes
CASES = [
    (b"reply", P12, b"docs 1\n7\n"),
    (b"reply\n", P12, b"docs 1\n7\n"),
    (b"outcome:REPLY node:n12", P12, b"docs 1\n7\n"),
    (b"reply" + b" " * 507, P12, b"docs 1\n7\n"),
    (b"reply", SIGNS, listing([*EDGES[:2], -300, -10, -9, *EDGES[2:]])),
    (b"reply", reference.encode_leaf([(b"reply", [(-1, [(0, [0])])])]), b"docs 1\n-1\n"),
    (b"reply", reference.encode_leaf([(b"reply", [(-2**63, [(0, [0])])])]), b"docs 1\n-9223372036854775808\n"),
    (b"reply", many(4096), listing(range(1, 4097))),
    (b"absent", P12, b"docs 0\n"),
    (b"node:reply", P12, b"docs 0\n"),
    (b"w*", leaf_of_size(65536)[0], b"docs 0\n"),
    (b"", P12, BAD_QUERY),
    (b"reply AND", P12, BAD_QUERY),
    (b"nonesuch:reply", P12, BAD_QUERY),
    (LONG, P12, BAD_QUERY),
    (b"a" * 100000, P12, BAD_QUERY),
    (NO_INPUT, P12, BAD_QUERY),
    (CLOSED, P12, BAD_QUERY),
    (b"reply", P12[:-1], BAD_LEAF),
    (b"reply", b"", BAD_LEAF),
    (b"reply", b"\x00\x05reply\x0c" + b"\xff" * 9 + b"\x02\x02\x00", BAD_LEAF),
    (b"reply", many(4097), b"refused 4 4097\n"),
    (b"reply", many(9000), b"refused 4 9000\n"),
    (b"reply", MISSING, NO_LEAF),
    (b"reply", FOLDER, NO_LEAF),
    (b"reply", UNREADABLE, NO_LEAF),
    (b"reply", OVER, TOO_LARGE),
    (b"reply", bytes(200000), TOO_LARGE),
    # two faults at once: the earlier check answers
    (b"reply AND", MISSING, NO_LEAF),
    (LONG, MISSING, NO_LEAF),
    (LONG, FOLDER, NO_LEAF),
    (CLOSED, MISSING, NO_LEAF),
    (NO_INPUT, UNREADABLE, NO_LEAF),
    (b"reply AND", OVER, TOO_LARGE),
    (LONG, OVER, TOO_LARGE),
    (NO_INPUT, OVER, TOO_LARGE),
    (b"reply", OVER + b"\x00", TOO_LARGE),
    (LONG, P12[:-1], BAD_QUERY),
    (LONG, many(4097), BAD_QUERY),
    (b"", b"", BAD_QUERY),
    (b"reply AND", P12[:-1], BAD_QUERY),
    (b"reply AND", many(4097), BAD_QUERY),
    (NO_INPUT, b"", BAD_QUERY),
    (b"reply", many(4097)[:-1], BAD_LEAF),
]


def main():
    tally = Tally()
    for query, leaf, expected in CASES:
        what = "query %.40r, leaf %.40r" % (query, leaf)
        read_query = None if query in (NO_INPUT, CLOSED) else query
        read_leaf = None if leaf in (MISSING, FOLDER, UNREADABLE) else leaf
        tally.check(what + ", second program", reference.one_search(read_query, read_leaf).encode(), expected)
        tally.check(what, ran(query, leaf), expected)
    return tally.finish()


if __name__ == "__main__":
    sys.exit(main())
