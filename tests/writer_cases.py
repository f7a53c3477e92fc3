"""Compared cases of the writer: the leaf for one document."""
import random

import reference
from case_writer import DOCUMENT, joined
from generated import EDGES, any_docid

SEED = 20263


def ask(cases, docid, texts, ends, room):
    """The room's size is handed in; the program fills it with other bytes beforehand."""
    cases.ask(DOCUMENT, room, docid % 2**64, first=texts, first_ends=ends)
    number, beside, after = reference.write_leaf(docid, texts, ends, room)
    held = len(after.rstrip(b"\x00"))
    cases.expect(number, beside, after[:beside] if number == 0 else b"", held)


def need(docid, parts):
    return reference.write_leaf(docid, *joined(parts), 0)[1]


def ask_parts(cases, docid, parts):
    size = need(docid, parts)
    for room in {0, max(size - 1, 0), size, size + 5}:
        ask(cases, docid, *joined(parts), room)


def shapes(cases):
    plain = [b"n12", b"probe", b"reply reply"]
    ask_parts(cases, 7, plain)
    for docid in EDGES:
        ask_parts(cases, docid, plain)
        ask_parts(cases, docid, [b"", b"a" * 64])
        ask(cases, docid, *joined([b"", b" ."]), 3)
        ask(cases, docid, *joined([b"a", b"b" * 65]), 64)
        ask(cases, docid, *joined([]), 64)
    for count in (0, 1, 16, 17):
        ask(cases, 7, *joined([b"a b"] * count), 400)
    texts, ends = joined(plain)
    for broken in ([], [3, 8], [3, 8, 18], [3, 8, 20], [3, 2, 19], [8, 3, 19], [3, 8, 19, 19], [0, 0, 19], [19, 19, 2**32 - 1], [2**32 - 1]):
        ask(cases, 7, texts, broken, 64)
    ask(cases, 7, b"", [], 8)
    ask(cases, 7, b"", [0], 8)
    ask(cases, 7, b"", [0] * 16, 8)
    for total in (4096, 4097):
        ask(cases, 7, *joined([b"a " * (total // 2) + b"a" * (total % 2)]), 8192)
        ask(cases, 7, *joined([b"", b"." * total]), 16)


def words(cases):
    for parts in ([b""], [b"", b" .-_", b"\x00\x7f"], [b"_"], [b"\x80\xff a"], [b"Reply rEPLY reply"], [b"a", b"", b"a"], [b"b a b a", b"a b"], [b"ab abc a abd b"]):
        ask_parts(cases, 7, parts)
    for size in (63, 64, 65):
        ask(cases, 7, *joined([b"x", b"y " + b"w" * size, b"z"]), 300)
        ask(cases, 7, *joined([b"v" * size, b"y " + b"w" * 65]), 300)
        ask(cases, 7, *joined([b"v" * 64 + b"." + b"v" * size]), 4)
    for b in range(256):
        ask(cases, 300, *joined([b"a" + bytes([b]) + b"Z", bytes([b])]), 80)


def generated(cases, rng):
    for _ in range(400):
        count = rng.choice((1, 2, 3, 16))
        parts = [bytes(rng.choice(b"aAbBz09 . -\x80\xff") for _ in range(rng.randrange(20))) for _ in range(count)]
        ask_parts(cases, rng.choice((0, 7, 128, -1, any_docid(rng))), parts)


def long_documents(cases):
    pairs = [bytes([a, b]) for a in b"abcdefghijklmnopqrstuvwxyz0123456789" for b in b"zyxwvutsrqponmlkjihgfedcba9876543210"]
    ask(cases, 7, *joined([b" ".join(pairs[:1365])]), 16384)
    ask(cases, 7, *joined([b" ".join(reversed(pairs[:1365]))]), 16384)
    ask(cases, 7, *joined([b"a " * 1024, b"b a " * 512]), 16384)
    for size in range(114, 120):  # a list's length of one byte and of two: ten bytes are its docid's
        ask_parts(cases, -1, [b"a " * size])
    ask(cases, -1, *joined([b" ".join(pairs[:1365])]), 20000)


def make(cases):
    rng = random.Random(SEED)
    shapes(cases)
    words(cases)
    generated(cases, rng)
    long_documents(cases)
