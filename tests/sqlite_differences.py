"""Where the box and SQLite's own MATCH are known to differ; everything else is compared exactly.

1. SQLite accepts more (`ONLY_SQLITE`). The box refuses these, exactly where document 01 says so; that is compared with the
   second program.
2. SQLite refuses an expression tree more than 12 deep (`ONLY_BOX`); long chains of AND or OR it makes flat first.
3. A NEAR without a number is 3 here and 10 in SQLite (`BARE_NEAR`): SQLite is asked with the distance written.
4. `^` before a word is the box's refusal and SQLite's mark for the first word of a column: generated queries have none.
"""
import re

import reference

# Queries that SQLite accepts, on a table with the columns node, sent and outcome, and the box refuses by number 2.
ONLY_SQLITE = [
    b"x NEAR (y)", b"(x) NEAR y",  # parentheses beside NEAR
    b"x*y", b"*x", b"x**", b"x * y",  # a star that is not at a word's end
    b"nonesuch:x", b":x", b"node:x:y",  # what is no column is taken as a word
    b"node: x", b"node:", b'node:"x y"',  # a column before white space, nothing or a quote
    b"x-y", b"x.y", b"x_y", b"x\x00y",  # bytes that separate words, outside quotes
    b"x NEAR/12345 y", b"x NEAR/ y", b"x NEAR/z y",  # other distances
    b"", b"()", b'""', b'x "-"',  # no word
    b" ".join([b"x"] * 17), b"(" * 9 + b"x" + b")" * 9, b"w" * 65, b"x" + b" " * 512,  # over a bound of the box
    b"^x",
]

# Queries that the box accepts and SQLite refuses.
ONLY_BOX = [b" NOT ".join([b"x"] * 13), b" NEAR ".join([b"x", b"y"] * 7)]

# A text, and queries that SQLite finds in it and the box does not, until their distance is written.
BARE_NEAR = (b"x a b c d y", [b"x NEAR y", b"y NEAR x", b'"x a" NEAR "d y" NEAR/4 x NEAR y', b'(x NEAR"y")'])

SQLITE_DEPTH = 12

PIECE = re.compile(rb'"[^"]*"|[^()"%s]+' % reference.WHITE_SPACE)


def height(tree):
    if tree[0] == "phrase":
        return 1
    return len(tree[1]) if tree[0] == "near" else 1 + max(height(tree[1]), height(tree[2]))


def may_be_too_deep(tree):
    """Whether SQLite may refuse a query."""
    return height(tree) > SQLITE_DEPTH


def written_out(query):
    """The query with the distance of each NEAR written."""
    near = b"NEAR/%d" % reference.DEFAULT_DISTANCE
    return PIECE.sub(lambda piece: near if piece[0] == b"NEAR" else piece[0], query)
