#!/usr/bin/env python3
"""Makes the dearest inputs known: leaves of at most 65,536 bytes together and queries of at most 16 words that keep the box busy, and leaves that are dear
to merge.

    python3 bench/make_worst.py FOLDER

FOLDER gets a folder of leaves for each, and worst.txt with a line for each: the folder's name and the query.
"""
import os
import sys

ROOT = os.path.dirname(os.path.dirname(os.path.abspath(__file__)))
sys.path.insert(0, os.path.join(ROOT, "tests"))
import reference  # noqa: E402

MAX_BYTES, MAX_LEAVES, MAX_WORDS, MAX_QUERY = 65536, 8, 16, 512


def term(word, rows):
    """A word with these rows: (docid, positions in column 0)."""
    return word, [(docid, [(0, positions)]) for docid, positions in rows]


def numbered(count, width=2):
    """So many words of letters, rising."""
    digits = "abcdefghijklmnopqrstuvwxyz"
    words = []
    for i in range(count):
        word = ""
        for _ in range(width):
            word = digits[i % 26] + word
            i //= 26
        words.append(word.encode())
    return words


def chain(operands, distance):
    return (" NEAR/%d " % distance).join(operands)


def alike(operand, joint):
    """The operand as often as a query may have it."""
    count = MAX_WORDS
    while len(joint.join([operand] * count)) > MAX_QUERY:
        count -= 1
    return joint.join([operand] * count)


def fitted(make):
    """The largest input of its kind that fits: the number of bytes grows with `make`'s argument."""
    low, high = 1, MAX_BYTES
    while low + 1 < high:
        middle = (low + high) // 2
        if len(reference.encode_leaf(make(middle))) <= MAX_BYTES:
            low = middle
        else:
            high = middle
    return reference.encode_leaf(make(low))


def spread(count):
    """Words over all leaves: each leaf has every eighth word."""
    words = [b"a" + w for w in numbered(count, 3)]
    return [reference.encode_leaf([term(w, [(i + 1, [0])]) for i, w in enumerate(words) if i % MAX_LEAVES == k]) for k in range(MAX_LEAVES)]


def in_turn(count):
    """One word in all leaves, with a row of each in turn."""
    return [reference.encode_leaf([term(b"a", [(d + 1, [0]) for d in range(count) if d % MAX_LEAVES == k])]) for k in range(MAX_LEAVES)]


def all_alike(count):
    """The same words in all leaves, each with a row of its own in each."""
    return [reference.encode_leaf([term(b"a" + w, [(k + 1, [0])]) for w in numbered(count, 3)]) for k in range(MAX_LEAVES)]


def most(make, count, step):
    """The largest leaves of their kind that fit together."""
    while sum(map(len, make(count))) > MAX_BYTES:
        count -= step
    return make(count)


def many_hits(count):
    """In one row, words with one position each, and after them one with as many positions as there are words left."""
    words = numbered(count, 3)
    rows = [term(b"a" + w, [(1, [4 * i])]) for i, w in enumerate(words)]
    return rows + [term(b"b", [(1, list(range(3 * count)))])]


def woven(words, count):
    """In one row, so many words in turn, `count` positions in all."""
    return [term(b"a" + w, [(1, list(range(k, max(count, words), words)))]) for k, w in enumerate(numbered(words))]


def inputs():
    one = fitted(lambda n: [term(b"a", [(1, list(range(n)))])])
    yield "one-word", one, '"' + " ".join(["a"] * MAX_WORDS) + '"'
    yield "one-word-near", one, chain(["a"] * MAX_WORDS, 0)
    apart = fitted(lambda n: [term(b"a", [(1, list(range(n)))]), term(b"b", [(1, list(range(n + 9000, 2 * n + 9000)))])])
    yield "two-words-apart", apart, chain(["a", "b"] * (MAX_WORDS // 2), 9999)
    yield "two-words-far", apart, chain(["b", "a"] * (MAX_WORDS // 2), 0)
    for words in (2, 120):
        turns = fitted(lambda n: woven(words, n))
        yield "%d-words-in-turn" % words, turns, chain(["a*"] * MAX_WORDS, 0)
        yield "%d-words-in-turn-phrase" % words, turns, '"' + " ".join(["a*"] * MAX_WORDS) + '"'
    hits = fitted(many_hits)
    yield "many-hits", hits, chain(["a*", "b"] * (MAX_WORDS // 2), 0)
    yield "many-hits-phrase", hits, '"b ' + " ".join(["a*"] * (MAX_WORDS - 1)) + '"'
    yield "many-hits-alike", hits, chain(["a*"] * MAX_WORDS, 9999)
    rows = fitted(lambda n: [term(b"a", [(d + 1, [0]) for d in range(n)])])
    yield "many-rows", rows, alike("a", " OR ")
    words = fitted(lambda n: [term(b"a" + w, [(i + 1, [0])]) for i, w in enumerate(numbered(n, 3))])
    yield "many-words", words, alike("a*", " OR ")
    one_row = fitted(lambda n: [term(b"a" + w, [(1, [i])]) for i, w in enumerate(numbered(n, 3))])
    yield "many-words-one-row", one_row, alike("a*", " AND ")
    long = fitted(lambda n: [term(b"w" * 61 + w, [(i + 1, [0])]) for i, w in enumerate(numbered(n, 3))])
    yield "long-words", long, alike("w" * 27 + "*", " OR ")
    yield "spread-words", most(spread, 9000, 50), alike("a*", " OR ")
    yield "rows-in-turn", most(in_turn, 22000, 50), alike("a", " OR ")
    yield "words-in-all", most(all_alike, 1100, 5), alike("a*", " OR ")


def main(folder):
    with open(os.path.join(folder, "worst.txt"), "w", encoding="ascii") as lines:
        for name, leaves, query in inputs():
            place = os.path.join(folder, name)
            os.makedirs(place)
            for i, leaf in enumerate(leaves if isinstance(leaves, list) else [leaves]):
                with open(os.path.join(place, "leaf%d.bin" % i), "wb") as f:
                    f.write(leaf)
            lines.write("%s %s\n" % (name, query))


main(sys.argv[1])
