"""Checks of the reference implementation: python3 tests/test_reference.py

The marked examples and bounds of document 01, round trips on a fixed seed, a
comparison with an exhaustive search, and a comparison with SQLite's FTS4.
"""

import sys

sys.dont_write_bytecode = True

import collections
import itertools
import random
import sqlite3
import time

import reference as ref
import sqlite_differences as differences
from generated import LEAST_DOCID, TOP_DOCID, any_docid
from leaf_format import MAX_U32
from lending import grown_leaves, telling_leaves, told

SEED = 20240607
NAMES = [b"node", b"sent", b"outcome"]
NAME_BYTES = b"nodesentoutcome"
NAME_ENDS = [4, 8, 15]
P12 = bytes.fromhex(
    "00 03 6E 31 32 03 07 02 00"
    "00 05 70 72 6F 62 65 05 07 01 01 02 00"
    "00 05 72 65 70 6C 79 06 07 01 02 02 03 00"
)

passed = 0
failed = 0


def check(name, got, expected):
    """Count one comparison; print it when it fails."""
    global passed, failed
    if got == expected:
        passed += 1
    else:
        failed += 1
        if failed <= 20:
            print("FAILED %s\n  got      %.300r\n  expected %.300r" % (name, got, expected))


def ends_of(parts):
    """The ends that cut the joined parts."""
    return list(itertools.accumulate(len(part) for part in parts))


def search(leaves, query, room_len=100, pairs=None):
    """A search over the three columns of P12; without pairs the leaves come newest first."""
    if pairs is None:
        pairs = [(place, 0) for place in range(len(leaves))]
    levels, indexes = [level for level, _ in pairs], [index for _, index in pairs]
    return ref.search(NAME_BYTES, NAME_ENDS, b"".join(leaves), ends_of(leaves), levels, indexes, query, room_len)


def found(leaves, query, pairs=None):
    """The docids that an accepted search lists."""
    number, count, room = search(leaves, query, 1000, pairs)
    return room[:count] if number == 0 else (number, count)


def leaf_of(docid, *texts):
    """The leaf that the writer gives for one document."""
    number, length, room = ref.write_leaf(docid, b"".join(texts), ends_of(texts), 65536)
    assert number == 0
    return room[:length]


def canon(query):
    """The printed tree of a query over the columns of P12."""
    return ref.canonical(ref.read_query(query, NAMES))


# Document 01, "Marked examples"


def test_marked_examples():
    """P1 to P15; P6 as document 02, section 9, has it."""
    h = bytes.fromhex
    check("P1", ref.encode_varint(43), h("2B"))
    check("P1", ref.read_varint(h("2B"), 0), (43, 1))
    check("P2", ref.encode_varint(128), h("80 01"))
    check("P2", ref.read_varint(h("80 01"), 0), (128, 2))
    check("P3", ref.encode_varint(200815), h("EF A0 0C"))
    check("P3", ref.read_varint(h("EF A0 0C"), 0), (200815, 3))
    check("P4", ref.read_varint(h("80 00"), 0), None)
    check("P5", ref.encode_varint(2**63 - 1), b"\xff" * 8 + b"\x7f")
    check("P5", ref.read_varint(b"\xff" * 8 + b"\x7f", 0), (2**63 - 1, 9))
    for last in range(256):
        check("P6", ref.read_varint(b"\xff" * 9 + bytes([last]), 0), (2**64 - 1, 10) if last == 1 else None)
        check("P6", ref.read_varint(b"\x80" * 9 + bytes([last]), 0), (2**63, 10) if last == 1 else None)
    check("P6", ref.encode_doclist([(-1, [])]), b"\xff" * 9 + h("01 00"))
    check("P6", ref.parse_doclist(b"\xff" * 9 + h("01 00"), 3), [(-1, [])])
    check("P7", ref.parse_doclist(h("07 02 00"), 3), [(7, [(0, [0])])])
    check("P8", ref.parse_doclist(h("07 00"), 3), [(7, [])])
    check("P9", ref.parse_doclist(h("07 02 02 00"), 3), None)
    check("P10", ref.parse_doclist(h("07 02 00 00 02 00"), 3), None)
    check("P11", ref.parse_doclist(h("07 01 00 02 00"), 3), None)
    texts = [b"n12", b"probe", b"reply reply"]
    check("P12", len(P12), 36)
    check("P12", ref.write_leaf(7, b"".join(texts), ends_of(texts), 36), (0, 36, P12))
    check("P12", ref.check_leaf(P12, 3), (0, 0))
    check("P13", [w for _, _, w in ref.words(b"Right now, they're very frustrated")],
          [b"right", b"now", b"they", b"re", b"very", b"frustrated"])
    check("P14", canon(b"sqlite fantastic OR impressive"),
          canon(b"(sqlite AND fantastic) OR impressive"))
    check("P14", canon(b"sqlite fantastic OR impressive"),
          "(OR (AND [65535 73716c697465] [65535 66616e746173746963])"
          " [65535 696d7072657373697665])")
    leaf = leaf_of(1, b"a x b", b"", b"")
    check("P15", found([leaf], b"a NEAR/0 b"), [])
    check("P15", found([leaf], b"b NEAR/1 a"), [1])


def test_dropped_bytes():
    """P12 with any one byte dropped is refused with 3 0, wherever a leaf goes."""
    for at in range(len(P12)):
        dropped = P12[:at] + P12[at + 1:]
        check("dropped %d" % at, ref.check_leaf(dropped, 3), (3, 0))
        check("dropped %d" % at, ref.lookup(dropped, 3, b"reply"), (3, 0, 0, 0))
        check("dropped %d" % at, search([dropped], b"reply", 2), (3, 0, [0, 0]))
        check("dropped %d" % at, search([P12, dropped], b"reply", 2), (3, 1, [0, 0]))
        check("dropped %d" % at, ref.one_search(b"reply", dropped), "refused 3 0\n")


# Lent slices, stored numbers, words


def test_lent():
    """Document 01, "How things are lent"."""
    check("cut", ref.cut(b"abc", [1, 1, 3]), [b"a", b"", b"bc"])
    check("cut", ref.cut(b"", []), [])
    check("cut", ref.cut(b"", [0, 0]), [b"", b""])
    for s, ends in [(b"a", []), (b"abc", [2]), (b"abc", [2, 1, 3]), (b"abc", [4]),
                    (b"abc", [3, 4]), (b"abc", [4, 3]), (b"", [1]), (b"a", [2**32 - 1])]:
        check("cut", ref.cut(s, ends), None)
    good = [[b"a"], [b"_"], [b"x" * 32], [b"a", b"b", b"aB_9"], [b"c%d" % i for i in range(16)]]
    bad = [[], [b""], [b"x" * 33], [b"a", b"A"], [b"a-b"], [b"\xc3"], [b"a", b""],
           [b"c%d" % i for i in range(17)], [b"ab", b"x", b"Ab"]]
    for names in good:
        check("names", ref.names_ok(b"".join(names), ends_of(names)), True)
    for names in bad:
        check("names", ref.names_ok(b"".join(names), ends_of(names)), False)
    check("names", ref.names_ok(b"ab", [1]), False)
    check("column_of", ref.column_of(NAMES, b"SENT"), 1)
    check("column_of", ref.column_of(NAMES, b"sen"), None)
    check("column_of", ref.column_of([b"a", b"B", b"b"], b"b"), 1)


def test_varints(rng):
    """Document 01, "Stored numbers"."""
    for size in range(1, 11):
        for v in (min(128 ** size, 2**64) - 1, 128 ** (size - 1) if size > 1 else 0):
            check("size", ref.varint_size(v), size)
            check("round", ref.read_varint(b"x" + ref.encode_varint(v) + b"y", 1), (v, size + 1))
    for _ in range(2000):
        v = rng.randrange(2 ** rng.randrange(1, 65))
        encoded = ref.encode_varint(v)
        check("round", ref.read_varint(encoded, 0), (v, len(encoded)))
        check("short", ref.read_varint(encoded[:-1], 0), None)
    for pair in itertools.product(range(256), repeat=2):
        read = ref.read_varint(bytes(pair), 0)
        if pair[0] < 128:
            check("two bytes", read, (pair[0], 1))
        elif 0 < pair[1] < 128:
            check("two bytes", read, (pair[0] - 128 + 128 * pair[1], 2))
        else:
            check("two bytes", read, None)
    for v in (2**64, 2**70 - 1, 2**70, 2**77 - 1):
        check("more than 64 bits", ref.read_varint(ref.encode_varint(v), 0), None)
    check("at the end", ref.read_varint(b"a", 1), None)
    check("past the end", ref.read_varint(b"a", 5), None)
    check("write", ref.write_varint(b"abc", 128), ("bytes", 2, b"\x80\x01c"))
    check("write", ref.write_varint(b"a", 128), ("noroom", 2, b"a"))
    check("write", ref.write_varint(b"", 0), ("noroom", 1, b""))
    check("write", ref.write_varint(b"abc", 2**63), ("noroom", 10, b"abc"))
    check("write", ref.write_varint(b"x" * 9, 2**64 - 1), ("noroom", 10, b"x" * 9))
    check("write", ref.write_varint(b"x" * 11, 2**64 - 1), ("bytes", 10, b"\xff" * 9 + b"\x01x"))


def test_words():
    """Document 01, "Words"."""
    for byte in range(256):
        text = bytes([byte])
        letter = text.isalpha() or text.isdigit() or byte >= 128
        check("byte", ref.words(text), [(0, 1, text.lower())] if letter else [])
    check("words", ref.words(b" a_B\xc3\x89 "), [(1, 2, b"a"), (3, 6, b"b\xc3\x89")])
    check("words", ref.words(b""), [])
    check("next", ref.next_word(b" abc d", 0), ("found", 1, 4))
    check("next", ref.next_word(b" abc d", 2), ("found", 2, 4))
    check("next", ref.next_word(b" abc d", 4), ("found", 5, 6))
    check("next", ref.next_word(b" abc d", 6), None)
    check("next", ref.next_word(b"", 3), None)
    check("next", ref.next_word(b"." + b"a" * 64, 0), ("found", 1, 65))
    check("next", ref.next_word(b"." + b"a" * 65 + b".", 0), ("overlong", 1, 66))
    check("next", ref.next_word(b"." + b"a" * 65 + b".", 2), ("found", 2, 66))


# Posting lists and leaves


def random_entries(rng, columns, small):
    """Sound entries, with docids and positions of all sizes unless small."""
    top_position = 10 if small else 2 ** rng.randrange(4, 32)
    docids = sorted({rng.randrange(-6, 6) if small else any_docid(rng) for _ in range(rng.randrange(1, 5))})
    entries = []
    for docid in docids:
        some = sorted(rng.sample(range(columns), rng.randrange(0, min(columns, 3) + 1)))
        entries.append((docid, [
            (column, sorted({rng.randrange(top_position) for _ in range(rng.randrange(1, 5))}))
            for column in some
        ]))
    return entries


def random_leaf(rng, columns, small=False):
    """Sound (term, entries) in order."""
    alphabet = b"ab" if small else bytes([0, 97, 98, 200, 255])
    top = 3 if small else 64
    terms = {bytes(rng.choices(alphabet, k=rng.randrange(1, top + 1)))
             for _ in range(rng.randrange(1, 8))}
    return [(term, random_entries(rng, columns, small)) for term in sorted(terms)]


def test_round_trips(rng):
    """What is encoded is read back; what is accepted has no other form."""
    for _ in range(250):
        columns = rng.randrange(1, 17)
        entries = random_entries(rng, columns, False)
        doclist = ref.encode_doclist(entries)
        check("doclist", ref.parse_doclist(doclist, columns), entries)
        terms = random_leaf(rng, columns)
        leaf = ref.encode_leaf(terms)
        parsed = ref.parse_leaf(leaf, columns)
        check("leaf", [(term, found) for term, found, _, _ in parsed], terms)
        check("leaf", ref.check_leaf(leaf, columns), (0, 0))
        for place, (term, found_entries, start, end) in enumerate(parsed):
            check("list", leaf[start:end], ref.encode_doclist(found_entries))
            check("lookup", ref.lookup(leaf, columns, term), (0, end - start, start, 3 * (place + 1)))
    accepted = 0
    for _ in range(2000):
        columns = rng.randrange(1, 4)
        leaf = bytearray(ref.encode_leaf(random_leaf(rng, columns, True)))
        for _ in range(rng.randrange(1, 3)):
            change = rng.randrange(3)
            at = rng.randrange(len(leaf))
            if change == 0:
                leaf[at] = rng.randrange(256)
            elif change == 1:
                leaf.insert(at, rng.randrange(4))
            elif len(leaf) > 1:
                del leaf[at]
        parsed = ref.parse_leaf(bytes(leaf), columns)
        check("answered", ref.check_leaf(bytes(leaf), columns), (0 if parsed else 3, 0))
        if parsed is not None:
            accepted += 1
            again = ref.encode_leaf([(term, entries) for term, entries, _, _ in parsed])
            check("one form", again, bytes(leaf))
    check("some changed leaves are sound", accepted > 50, True)
    for _ in range(3000):
        junk = bytes(rng.choices(range(4), k=rng.randrange(0, 9)))
        entries = ref.parse_doclist(junk, 3)
        if entries is not None:
            check("one form", ref.encode_doclist(entries), junk)


# Numbers of ten bytes, as docids -1 and the least one.
MINUS_1 = "FF FF FF FF FF FF FF FF FF 01"
LEAST = "80 80 80 80 80 80 80 80 80 01"


def test_rules():
    """Single rules of a posting list and of a leaf."""
    h = bytes.fromhex
    lists = [
        ("", 3, False), ("07", 3, False), ("07 02", 3, False), ("07 01 01 02 00", 3, True),
        ("07 01 01 02 00", 2, True), ("07 01 01 02 00", 1, False), ("07 01 01 00", 3, False),
        ("07 01 02 02 01 01 02 00", 3, False), ("07 01 01 02 01 01 02 00", 3, False),
        ("07 02 01 01 02 01 02 02 00", 3, True), ("07 02 03 00 01 02 00", 3, True),
        ("00 00", 3, True), ("00 00 00 00", 3, False), ("07 00 01 00", 3, True),
        ("07 02 02 00", 3, False), ("07 01 01 02 02 00", 3, False), ("07 02 03 03 00", 3, True),
        ("07 02 00 05", 3, False), ("07 01 01 01 02 02 00", 3, False), ("07 80 00", 3, False),
        ("FF FF FF FF FF FF FF FF 7F 00", 3, True),
        ("FF FF FF FF FF FF FF FF 7F 00 01 00", 3, False),
        ("FE FF FF FF FF FF FF FF 7F 00 01 00", 3, True),
        # document 02, section 9: from -1, from the least docid and from 7 on, to the largest and past it, and to a docid not greater
        (MINUS_1 + "00", 3, True), (MINUS_1 + "00 01 00", 3, True), (MINUS_1 + "02 00 01 02 00", 3, True),
        (MINUS_1 + "00 80 80 80 80 80 80 80 80 80 01 00", 3, True), (MINUS_1 + "00 81 80 80 80 80 80 80 80 80 01 00", 3, False),
        (MINUS_1 + "00 00 00", 3, False), (MINUS_1 + "00" + MINUS_1 + "00", 3, False),
        (LEAST + "00" + MINUS_1 + "00", 3, True), (LEAST + "00" + MINUS_1 + "00 01 00", 3, False), ("07 00" + MINUS_1 + "00", 3, False),
        ("00 00 FF FF FF FF FF FF FF FF 7F 00", 3, True), ("01 00 FF FF FF FF FF FF FF FF 7F 00", 3, False),
        *(("80 80 80 80 80 80 80 80 80" + last + "00", 3, last == "01") for last in ("00", "01", "02", "7F", "80", "FF", "81 01", "80 01")),
        # ten bytes of a number that is no docid: a position, the first and a later one, and a column
        ("07" + MINUS_1 + "00", 3, False), ("07 09" + MINUS_1 + "00", 3, False), ("07 01" + MINUS_1 + "02 00", 3, False), ("07 01 01" + MINUS_1 + "00", 3, False),
        ("07 81 80 80 80 08 00", 3, True), ("07 82 80 80 80 08 00", 3, False),
        ("07 80 80 80 80 08 03 00", 3, True), ("07 80 80 80 80 08 04 00", 3, False),
    ]
    for text, columns, sound in lists:
        check("list " + text, ref.parse_doclist(h(text), columns) is not None, sound)
        leaf = b"\x00\x01a" + ref.encode_varint(len(h(text))) + h(text)
        check("in a leaf " + text, ref.check_leaf(leaf, columns), (0 if sound else 3, 0))
    check("top position", ref.parse_doclist(h("07 81 80 80 80 08 00"), 1),
          [(7, [(0, [2**31 - 1])])])
    check("sums start anew", ref.parse_doclist(h("07 05 01 01 05 00"), 2),
          [(7, [(0, [3]), (1, [3])])])
    leaves = [
        ("", False), ("00", False), ("01 01 61 02 07 00", False), ("80 00 01 61 02 07 00", False),
        ("00 01 61 02 07 00", True), ("00 01 61 02 07 00 00", False), ("00 00 02 07 00", False),
        ("00 01 61 00", False), ("00 01 61 03 07 00", False), ("00 02 61", False),
        ("00 01 61 02 07 00 00 01 62 02 07 00", True),
        ("00 01 62 02 07 00 00 01 61 02 07 00", False),
        ("00 01 61 02 07 00 00 01 61 02 07 00", False),
        ("00 01 61 02 07 00 01 01 61 02 07 00", True),
        ("00 01 61 02 07 00 00 02 61 61 02 07 00", False),
        ("00 01 61 02 07 00 01 00 02 07 00", False),
        ("00 01 61 02 07 00 02 01 61 02 07 00", False),
        ("00 02 61 61 02 07 00 01 01 62 02 07 00", True),
        ("00 02 61 61 02 07 00 00 02 61 62 02 07 00", False),
        ("00 02 61 62 02 07 00 01 01 61 02 07 00", False),
        # ten bytes of the height, a word's length, a list's length, a prefix and a suffix
        (MINUS_1 + "01 61 02 07 00", False), ("00" + MINUS_1 + "61 02 07 00", False), ("00 01 61" + MINUS_1 + "07 00", False),
        ("00 01 61 02 07 00" + MINUS_1 + "01 62 02 07 00", False), ("00 01 61 02 07 00 00" + MINUS_1 + "62 02 07 00", False),
    ]
    for text, sound in leaves:
        check("leaf " + text, ref.check_leaf(h(text), 3), (0 if sound else 3, 0))
    for length, number in [(1, 0), (64, 0), (65, 3)]:
        leaf = b"\x00" + ref.encode_varint(length) + b"a" * length + b"\x02\x07\x00"
        check("word %d" % length, ref.check_leaf(leaf, 3), (number, 0))
        leaf = b"\x00\x01a\x02\x07\x00\x01" + bytes([length]) + b"b" * length + b"\x02\x07\x00"
        check("suffix %d" % length, ref.check_leaf(leaf, 3), (3 if length > 63 else 0, 0))
    for columns in (-1, 0, 17, 2**32):
        check("columns", ref.check_leaf(P12, columns), (1, 0))
    check("columns", ref.check_leaf(P12, 2), (3, 0))
    check("columns", ref.check_leaf(P12, 16), (0, 0))
    check("bytes", ref.check_leaf(bytes(65536), 3), (3, 0))
    check("bytes", ref.check_leaf(bytes(65537), 3), (1, 0))


def test_lookups():
    """Document 01, "Lookups"."""
    # its words are n12, probe and reply; the last number is document 02's, section 10
    check("lookup", ref.lookup(P12, 3, b"reply"), (0, 6, 30, 9))
    check("lookup", ref.lookup(P12, 3, b"n12"), (0, 3, 6, 3))
    check("lookup", ref.lookup(P12, 3, b"Reply"), (0, 0, 0, 3))
    check("lookup", ref.lookup(P12, 3, b"repl"), (0, 0, 0, 9))
    check("lookup", ref.lookup(P12, 3, b"a" * 64), (0, 0, 0, 3))
    check("lookup", ref.lookup(P12, 3, b"o"), (0, 0, 0, 6))
    check("lookup", ref.lookup(P12, 3, b"z"), (0, 0, 0, 9))
    for columns, word in [(3, b""), (3, b"a" * 65), (0, b"a"), (17, b"a")]:
        check("lookup", ref.lookup(P12, columns, word), (1, 0, 0, 0))
        check("lookup", ref.lookup(b"", columns, word), (1, 0, 0, 0))
        check("deciding", ref.deciding(P12, P12, columns, word, 7), (1, 0, 0, 0))
    check("lookup", ref.lookup(b"", 3, b"a"), (3, 0, 0, 0))
    newer = ref.encode_leaf([(b"a", [(5, []), (9, [(1, [4])])])])
    older = ref.encode_leaf([(b"a", [(5, [(0, [1])]), (6, [(0, [2])]), (300, [])]),
                             (b"b", [(9, [(0, [0])])])])
    answers = [(b"a", 5, (0, 2, 0, 4)), (b"a", 9, (0, 5, 0, 6)), (b"a", 6, (0, 3, 1, 7)),
               (b"a", 300, (0, 3, 1, 10)), (b"b", 9, (0, 3, 1, 17)), (b"a", 7, (0, 0, 0, 0)),
               (b"c", 5, (0, 0, 0, 0)), (b"a", TOP_DOCID, (0, 0, 0, 0)), (b"a", -1, (0, 0, 0, 0)),
               (b"a", LEAST_DOCID, (0, 0, 0, 0))]
    for word, docid, answer in answers:
        check("deciding", ref.deciding(newer, older, 2, word, docid), answer)
    below = ref.encode_leaf([(b"a", [(LEAST_DOCID, []), (-1, [(0, [0])]), (5, []), (TOP_DOCID, [])])])
    answers = [(LEAST_DOCID, (0, 11, 0, 4)), (-1, (0, 11, 0, 15)), (5, (0, 2, 0, 26)), (TOP_DOCID, (0, 10, 0, 28)),
               (9, (0, 5, 1, 6)), (-2, (0, 0, 0, 0)), (0, (0, 0, 0, 0)), (LEAST_DOCID + 1, (0, 0, 0, 0))]
    for docid, answer in answers:
        check("deciding below 0", ref.deciding(below, newer, 2, b"a", docid), answer)
    check("deciding below 0", below[4:15], bytes.fromhex(LEAST + "00"))
    check("deciding below 0", below[15:26], b"\xff" * 8 + bytes.fromhex("7F 02 00"))
    check("deciding", newer[6:11], bytes.fromhex("04 01 01 06 00"))
    check("deciding", older[10:13], bytes.fromhex("A6 02 00"))
    check("deciding", ref.deciding(b"", b"", 2, b"a", 5), (3, 0, 0, 0))
    check("deciding", ref.deciding(newer, b"", 2, b"a", 5), (3, 1, 0, 0))
    check("deciding", ref.deciding(b"", older, 2, b"a", 5), (3, 0, 0, 0))
    check("deciding", ref.deciding(newer, bytes(65536 - len(newer)), 2, b"a", 5), (3, 1, 0, 0))
    check("deciding", ref.deciding(newer, bytes(65537 - len(newer)), 2, b"a", 5), (1, 0, 0, 0))


def test_writer(rng):
    """The writer: number 1, then 5, then 4."""
    check("no words", ref.write_leaf(7, b" ,_", [1, 3], 4), (0, 0, bytes(4)))
    check("no words", ref.write_leaf(7, b"", [0], 0), (0, 0, b""))
    check("no columns", ref.write_leaf(7, b"", [], 2), (1, 0, bytes(2)))
    check("columns", ref.write_leaf(7, b"", [0] * 16, 2), (0, 0, bytes(2)))
    check("columns", ref.write_leaf(7, b"", [0] * 17, 2), (1, 0, bytes(2)))
    check("ends", ref.write_leaf(7, b"ab", [1], 9), (1, 0, bytes(9)))
    for docid, number in [(-1, MINUS_1), (LEAST_DOCID, LEAST), (0, "00"), (TOP_DOCID, "FF FF FF FF FF FF FF FF 7F")]:
        list_bytes = bytes.fromhex(number + "02 00")
        leaf = b"\x00\x02ab" + bytes([len(list_bytes)]) + list_bytes
        check("docid", ref.write_leaf(docid, b"ab", [2], 17), (0, len(leaf), leaf + bytes(17 - len(leaf))))
    check("docid", ref.write_leaf(-1, b"ab", [2], 16), (4, 17, bytes(16)))
    check("bytes", ref.write_leaf(7, b" " * 4096, [4096], 0), (0, 0, b""))
    check("bytes", ref.write_leaf(7, b" " * 4097, [4097], 0), (1, 0, b""))
    long_word = b"a" * 65
    check("64", ref.write_leaf(7, b"a" * 64, [64], 70)[:2], (0, 70))
    check("65", ref.write_leaf(7, long_word, [65], 0), (5, 0, b""))
    check("65", ref.write_leaf(7, b"b " + long_word * 2, [2, 2, 67, 132], 3), (5, 2, bytes(3)))
    for room in range(40):
        expected = (0, 36, P12 + bytes(room - 36)) if room >= 36 else (4, 36, bytes(room))
        check("room", ref.write_leaf(7, b"n12probereply reply", [3, 8, 19], room), expected)
    for _ in range(200):
        texts = [bytes(rng.choices(b"abAB .\xc3", k=rng.randrange(30))) for _ in range(3)]
        docid = any_docid(rng)
        number, length, room = ref.write_leaf(docid, b"".join(texts), ends_of(texts), 300)
        check("written", number, 0)
        check("rest", room[length:], bytes(300 - length))
        if length:
            check("sound", ref.check_leaf(room[:length], 3), (0, 0))
            grid = {}
            for term, entries, _, _ in ref.parse_leaf(room[:length], 3):
                check("docid", [docid], [e[0] for e in entries])
                for column, positions in entries[0][1]:
                    grid.update({(column, position): term for position in positions})
            expected = {(c, p): w[2] for c, t in enumerate(texts)
                        for p, w in enumerate(ref.words(t))}
            check("places", grid, expected)


# Queries


def test_queries():
    """Document 01, "The query language"."""
    a, b, c, d = ("[65535 %02x]" % byte for byte in b"abcd")
    trees = [
        (b"a", a), (b" \t\n\x0b\x0c\ra\n", a), (b"A", a), (b"a*", "[65535 61*]"),
        (b"a b", "(AND %s %s)" % (a, b)), (b"a AND b", "(AND %s %s)" % (a, b)),
        (b"a b c", "(AND (AND %s %s) %s)" % (a, b, c)),
        (b"a OR b OR c", "(OR (OR %s %s) %s)" % (a, b, c)),
        (b"a NOT b NOT c", "(NOT (NOT %s %s) %s)" % (a, b, c)),
        (b"a NOT b c", "(AND (NOT %s %s) %s)" % (a, b, c)),
        (b"a b NOT c", "(AND %s (NOT %s %s))" % (a, b, c)),
        (b"a OR b c", "(OR %s (AND %s %s))" % (a, b, c)),
        (b"a OR b NOT c AND d", "(OR %s (AND (NOT %s %s) %s))" % (a, b, c, d)),
        (b"a NOT b NEAR c", "(NOT %s (NEAR %s ~ %s))" % (a, b, c)),
        (b"a NEAR b NEAR/3 c", "(NEAR %s ~ %s ~3 %s)" % (a, b, c)),
        (b"a NEAR/10 b", "(NEAR %s ~10 %s)" % (a, b)),
        (b"a NEAR/0012 b", "(NEAR %s ~12 %s)" % (a, b)),
        (b"a NEAR/9999 b", "(NEAR %s ~9999 %s)" % (a, b)),
        (b"a NEAR/0 b c", "(AND (NEAR %s ~0 %s) %s)" % (a, b, c)),
        (b'a NEAR/2"b c"', "(NEAR %s ~2 [65535 62 63])" % a),
        (b"(a)", a), (b"a(b)", "(AND %s %s)" % (a, b)), (b"(a)(b)", "(AND %s %s)" % (a, b)),
        (b"a AND(b)", "(AND %s %s)" % (a, b)),
        (b"a (b OR c) d", "(AND (AND %s (OR %s %s)) %s)" % (a, b, c, d)),
        (b"a NOT (b c)", "(NOT %s (AND %s %s))" % (a, b, c)),
        (b'a"b c"d', "(AND (AND %s [65535 62 63]) %s)" % (a, d)),
        (b'"a*b"', "[65535 61* 62]"), (b'"a *b"', "[65535 61 62]"),
        (b'"*a**b*"', "[65535 61* 62*]"), (b'"A_b(c)"', "[65535 61 62 63]"),
        (b'"a AND b:c"', "[65535 61 616e64 62 63]"), (b'"a\x00b"', "[65535 61 62]"),
        (b"node:a", "[1 61]"), (b"SENT:a*", "[2 61*]"), (b"Outcome:A", "[4 61]"),
        (b'node:b"c"', "(AND [1 62] %s)" % c), (b"node:AND", "[1 616e64]"),
        (b"node:a NEAR node:b", "(NEAR [1 61] ~ [1 62])"),
        (b"AND*", "[65535 616e64*]"), (b"near", "[65535 6e656172]"), (b"Or", "[65535 6f72]"),
        (b"NEARx", "[65535 6e65617278]"), (b"\xc3\x89a", "[65535 c38961]"),
        (b"a" * 64, "[65535 " + "61" * 64 + "]"), (b"node:" + b"a" * 64 + b"*",
                                                 "[1 " + "61" * 64 + "*]"),
    ]
    for query, tree in trees:
        check("query %r" % query[:40], canon(query), tree)
    refused = [
        b"", b" ", b"()", b"(())", b"a ()", b"(", b")", b"(a", b"a)", b"a)(b", b'"', b'""', b'"a',
        b'a"', b'"*"', b'" _"', b"AND", b"a AND", b"AND a", b"a AND AND b", b"a AND NOT b",
        b"NOT a", b"a OR", b"a OR OR b", b"a NOT", b"a NEAR", b"NEAR a", b"NEAR/3 a",
        b"a NEAR NEAR b", b"a NEAR AND b", b"(a) NEAR b", b"a NEAR (b)", b"a NEAR b NEAR (c)",
        b"a NEAR/ b", b"a NEAR/12345 b", b"a NEAR/x b", b"a NEAR/-1 b", b"a NEAR/1a b",
        b"a near/1 b", b"node:", b"node:*", b"*", b"a**", b"*a", b"a*b", b"node:a:b", b"nod:a",
        b":a", b"node: a", b'node:"a"', b"node:(a)", b"a-b", b"-a", b"a_b", b"^a", b"a'b", b"a\x00",
        b"a\x1fb", b"a\x0eb", b"a\x08", b"node:\xff:", b"a" * 65, b'"' + b"a" * 65 + b'"',
        b"node :a", b"a:b",
    ]
    for query in refused:
        check("query %r" % query[:40], canon(query), "refused")
    check("16 words", canon(b"a " * 16) != "refused", True)
    check("17 words", canon(b"a " * 17), "refused")
    check("16 words", canon(b'"' + b"a " * 15 + b'" a') != "refused", True)
    check("17 words", canon(b'"' + b"a " * 16 + b'" a'), "refused")
    check("8 deep", canon(b"(" * 8 + b"a" + b")" * 8), a)
    check("9 deep", canon(b"(" * 9 + b"a" + b")" * 9), "refused")
    check("8 deep twice", canon((b"(" * 8 + b"a" + b")" * 8) * 2), "(AND %s %s)" % (a, a))
    check("512 bytes", canon(b"a" + b" " * 511), a)
    check("513 bytes", canon(b"a" + b" " * 512), "refused")
    check("513 bytes", canon(b" " * 512 + b"a"), "refused")


# Search


def grid_of(leaves, columns):
    """The live rows as {docid: {(column, position): terms}}, newest leaf first."""
    parsed = [ref.parse_leaf(leaf, columns) for leaf in leaves]
    pairs = {(t, e[0]) for leaf in parsed for t, entries, _, _ in leaf for e in entries}
    grid = {}
    for term, docid in pairs:
        entries = [e for leaf in parsed for t, es, _, _ in leaf for e in es
                   if t == term and e[0] == docid]
        for column, positions in entries[0][1]:
            for position in positions:
                row = grid.setdefault(docid, {})
                row.setdefault((column, position), set()).add(term)
    return grid


def stands_at(terms, word, star):
    """Whether one of the terms at a place is the query word."""
    return any(term.startswith(word) if star else term == word for term in terms)


def occurrences(row, phrase):
    """All (column, first, last) of a phrase in one row, by trying every place."""
    _, column_set, phrase_words = phrase
    out = []
    for column, first in row:
        if column_set >> column & 1 and all(
            stands_at(row.get((column, first + i), ()), word, star)
            for i, (word, star) in enumerate(phrase_words)
        ):
            out.append((column, first, first + len(phrase_words) - 1))
    return out


def near(one, other, distance):
    """Whether two occurrences are near, by counting the places between them; they end apart."""
    between = [p for p in range(20)
               if one[2] < p < other[1] or other[2] < p < one[1]]
    return one[0] == other[0] and one[2] != other[2] and len(between) <= distance


def holds(row, tree):
    """Whether one row satisfies a tree, by trying every choice."""
    if tree[0] == "phrase":
        return bool(occurrences(row, tree))
    if tree[0] == "near":
        distances = [3 if n is None else n for n in tree[2]]
        for choice in itertools.product(*[occurrences(row, phrase) for phrase in tree[1]]):
            if all(near(x, y, n) for x, y, n in zip(choice, choice[1:], distances)):
                return True
        return False
    left, right = holds(row, tree[1]), holds(row, tree[2])
    return {"and": left and right, "or": left or right, "not": left and not right}[tree[0]]


def random_phrase(rng, vocabulary, names):
    """A random word or phrase in the syntax."""
    if rng.random() < 0.3:
        chosen = [rng.choice(vocabulary) for _ in range(rng.randrange(1, 3))]
        marked = [w + rng.choice([b"", b"", b"*"]) for w in chosen]
        return b'"' + b" ".join(marked) + b'"'
    column = rng.choice(names) + b":" if rng.random() < 0.2 else b""
    return column + rng.choice(vocabulary) + rng.choice([b"", b"", b"*"])


def random_chain(rng, vocabulary, names):
    """A random NEAR chain."""
    out = random_phrase(rng, vocabulary, names)
    for _ in range(rng.randrange(1, 3)):
        link = rng.choice([b" NEAR ", b" NEAR/%d " % rng.randrange(4)])
        out += link + random_phrase(rng, vocabulary, names)
    return out


def random_query(rng, vocabulary, names, depth=2):
    """A random query in the language, 16 words at most for the depths used."""
    parts = []
    for _ in range(rng.choice([1, 1, 2, 3])):
        kind = rng.random()
        if kind < 0.2 and depth:
            inner = random_query(rng, vocabulary, names, depth - 1)
            parts.append(b"(" + inner + b")")
        elif kind < 0.5:
            parts.append(random_chain(rng, vocabulary, names))
        else:
            parts.append(random_phrase(rng, vocabulary, names))
    out = parts[0]
    for part in parts[1:]:
        out += rng.choice([b" ", b" AND ", b" OR ", b" NOT "]) + part
    return out


def test_search_exhaustive(rng):
    """Random searches against an exhaustive one over the live rows."""
    compared = listed = 0
    for _ in range(100):
        leaves = [ref.encode_leaf(random_leaf(rng, 3, True)) for _ in range(rng.randrange(0, 5))]
        grid = grid_of(leaves, 3)
        for _ in range(12):
            query = random_query(rng, [b"a", b"b", b"ab", b"ba"], NAMES)
            tree = ref.read_query(query, NAMES)
            if tree is None:
                continue
            expected = sorted(docid for docid, row in grid.items() if holds(row, tree))
            check("search %r" % query, found(leaves, query), expected)
            compared += 1
            listed += bool(expected)
    check("searches compared", compared > 1000 and listed > 300, True)


def test_search():
    """The order of the checks, the room, and errors met before."""
    check("P12", search([P12], b"reply", 2), (0, 1, [7, 0]))
    check("no leaves", search([], b"reply", 2), (0, 0, [0, 0]))
    check("no leaves", search([], b"reply", 0), (0, 0, []))
    check("room", search([P12], b"reply", 1), (0, 1, [7]))
    check("room", search([P12], b"reply", 0), (4, 1, []))
    two = ref.encode_leaf([(b"a", [(3, [(0, [0])]), (9, [(0, [0])]), (TOP_DOCID, [(0, [0])])])])
    check("room", search([two], b"a", 2), (4, 3, [0, 0]))
    check("room", search([two], b"a", 3), (0, 3, [3, 9, TOP_DOCID]))
    signs = ref.encode_leaf([(b"a", [(d, [(0, [0])]) for d in (LEAST_DOCID, -300, -1, 0, 1, TOP_DOCID)])])
    check("signed order", search([signs], b"a", 6), (0, 6, [LEAST_DOCID, -300, -1, 0, 1, TOP_DOCID]))
    check("signed order", search([signs], b"a", 5), (4, 6, [0] * 5))
    check("signed order", found([leaf_of(1, b"a", b"", b""), leaf_of(-1, b"a", b"", b""), leaf_of(-2, b"a", b"", b"")], b"a"), [-2, -1, 1])
    check("8 leaves", search([P12] * 8, b"reply", 2), (0, 1, [7, 0]))
    check("9 leaves", search([P12] * 9, b"reply", 2), (1, 0, [0, 0]))
    check("8 leaves", search([P12] * 7 + [b""], b"reply", 2), (3, 7, [0, 0]))
    check("9 leaves", search([P12] * 8 + [b""], b"reply", 2), (1, 0, [0, 0]))
    check("65536", search([bytes(65536)], b"reply", 2), (3, 0, [0, 0]))
    check("65537", search([bytes(65537)], b"reply", 2), (1, 0, [0, 0]))
    check("1 before 2", search([bytes(65537)], b"", 2), (1, 0, [0, 0]))
    check("2 before 3", search([b""], b"", 2), (2, 0, [0, 0]))
    check("3 before 4", search([two, b""], b"a", 0), (3, 1, []))
    check("names", ref.search(b"aA", [1, 2], b"", [], [], [], b"", 1), (1, 0, [0]))
    check("names", ref.search(b"", [], b"", [], [], [], b"", 1), (1, 0, [0]))
    check("names", ref.search(b"ab", [1], b"", [], [], [], b"", 1), (1, 0, [0]))
    check("ends", ref.search(b"a", [1], b"a", [], [], [], b"a", 1), (1, 0, [0]))
    check("column count", ref.search(b"a", [1], P12, [36], [0], [0], b"a", 1), (3, 0, [0]))

    place = [(0, [0])]
    old = ref.encode_leaf([(b"a", [(1, place)]), (b"b", [(1, [(0, [1])])])])
    gone = ref.encode_leaf([(b"a", [(1, [])])])
    check("deletion", found([gone, old], b"a"), [])
    check("deletion", found([old, gone], b"a"), [1])
    check("deletion of one word", found([gone, old], b"b"), [1])
    check("deletion of one word", found([gone, old], b"b NOT a"), [1])
    check("star", found([gone, old], b"a*"), [])
    moved = ref.encode_leaf([(b"a", [(1, [(2, [5])])])])
    check("newest decides", found([moved, old], b"node:a"), [])
    check("newest decides", found([moved, old], b"outcome:a"), [1])
    row = leaf_of(4, b"x a", b"b y", b"a b")
    check("two columns", found([row], b"node:a NEAR sent:b"), [])
    check("two columns", found([row], b'"x a b"'), [])
    check("one column", found([row], b'"a b"'), [4])
    check("sums", found([leaf_of(4, b"x x a a", b"a", b"")], b'"x x a" NEAR/0 a'), [4])
    check("or looser than and", found([leaf_of(4, b"impressive", b"", b"")],
                                      b"sqlite fantastic OR impressive"), [4])
    twice = leaf_of(1, b"a a b a b", b"", b"")
    for query, docids in [
        (b"a NEAR/0 a", [1]), (b"a NEAR a NEAR a", [1]), (b"b NEAR/0 b", []), (b"b NEAR/1 b", [1]),
        (b'"a b" NEAR/1 b', [1]), (b'"a b" NEAR/0 "a b"', [1]), (b'"a a b" NEAR/0 b', []), (b'"a a b" NEAR/1 b', [1]),
        (b'"a a b" NEAR/0 "b a"', [1]), (b"a* NEAR/0 a", [1]),
    ]:
        check("near %r" % query, found([twice], query), docids)
    line = leaf_of(1, b"a x y b c", b"", b"")
    for query, docids in [
        (b"a NEAR/2 b", [1]), (b"a NEAR/1 b", []), (b"c NEAR/0 b NEAR/2 a", [1]),
        (b"a NEAR/0 a", []), (b"b NEAR b NEAR/0 b", []), (b"a NEAR/2 b NEAR/2 a", [1]),
        (b'"b c" NEAR c', []), (b'c NEAR "b c"', []), (b'"x y" NEAR/0 x', [1]), (b'"a x y" NEAR/0 "x y"', []),
        (b'"x y" NEAR/0 "y b"', [1]), (b'"a x" NEAR/0 "b c"', []), (b'"a x" NEAR/1 "b c"', [1]),
        (b'"a x y b c" NEAR/0 y', [1]), (b'"a* x* y*"', [1]), (b'"a y"', []), (b"c NEAR a", [1]),
        (b"c NEAR/1 x NEAR/0 a", []), (b"c NEAR/2 x NEAR/0 a", [1]),
    ]:
        check("near %r" % query, found([line], query), docids)
    three = leaf_of(1, b"a 1 2 3 b", b"", b"")
    four = leaf_of(1, b"a 1 2 3 4 b", b"", b"")
    eleven = leaf_of(1, b"a 1 2 3 4 5 6 7 8 9 10 11 b", b"", b"")
    check("bare NEAR", found([three], b"b NEAR a"), [1])
    check("bare NEAR", found([four], b"b NEAR a"), [])
    check("NEAR/3", found([four], b"b NEAR/3 a"), [])
    check("NEAR/4", found([four], b"b NEAR/4 a"), [1])
    check("NEAR/10", found([eleven], b"b NEAR/10 a"), [])
    check("NEAR/11", found([eleven], b"b NEAR/11 a"), [1])


# ages of four leaves, each newest first: on one level, on four, on two, and at the ends of what a pair can be
AGES = [
    [(0, 3), (0, 2), (0, 1), (0, 0)], [(0, 0), (1, 0), (2, 0), (3, 0)], [(4, 9), (4, 2), (7, 300), (7, 0)],
    [(0, MAX_U32), (0, 0), (MAX_U32, MAX_U32), (MAX_U32, 0)], [(2**31 - 1, 5), (2**31, 2**31), (2**31, 2**31 - 1), (2**31 + 1, 6)],
]


def test_ages():
    """Document 02, section 11: age comes from the pairs, in whatever order the leaves are lent."""
    for count in (2, 3, 4):
        leaves, rows = telling_leaves(count), told(range(count))
        for ages in AGES:
            # each leaf is once the newest, the second, and so on; then all orders of lending, of four leaves some
            for by_age in itertools.permutations(range(count)):
                pairs = [ages[by_age.index(place)] for place in range(count)]
                orders = itertools.permutations(range(count)) if count < 4 else [by_age, by_age[::-1], (2, 0, 3, 1)]
                for order in orders:
                    lent, dated = [leaves[place] for place in order], [pairs[place] for place in order]
                    newer = told(by_age)
                    check("ages %s lent %s" % (pairs, order), found(lent, b"node:w", dated), newer)
                    check("ages %s lent %s" % (pairs, order), found(lent, b"d", dated), [row for row in rows if row not in newer])


def test_pairs():
    """Document 02, section 11: each leaf has a pair of its own, else number 1; number 3 counts in the order lent."""
    shape, many = (1, 0, [0, 0]), telling_leaves(8)
    for count in range(2, 9):
        for one, other in itertools.combinations(range(count), 2):
            pairs = [(place % 3, place) for place in range(count)]
            check("pairs", search(many[:count], b"w", 0, pairs)[0], 4)
            pairs[other] = pairs[one]
            check("the same pair", search(many[:count], b"w", 2, pairs), shape)
            check("1 before 2", search(many[:count], b"", 2, pairs), shape)
            check("1 before 3", search([b""] * count, b"w", 2, pairs), shape)
    for pairs in ([(0, 1), (1, 0)], [(3, 4), (3, 5)], [(3, 4), (4, 4)]):
        check("other pairs", search([P12, P12], b"reply", 2, pairs), (0, 1, [7, 0]))
    for count in (0, 1, 3, 8):
        lent = b"".join(many[:count]), ends_of(many[:count])
        for levels, indexes in itertools.product({0, 1, max(count - 1, 0), count, count + 1, 300}, repeat=2):
            answer = ref.search(NAME_BYTES, NAME_ENDS, *lent, list(range(levels)), list(range(indexes)), b"absent", 2)
            check("lengths %d %d %d" % (count, levels, indexes), answer, (0, 0, [0, 0]) if levels == indexes == count else shape)
    for count in range(1, 9):
        for bad in range(count):
            lent = [b"" if place == bad or place == count - 1 else P12 for place in range(count)]
            for pairs in ([(place, 0) for place in range(count)], [(count - place, 0) for place in range(count)], [(7, place * 5 % 8) for place in range(count)]):
                check("broken at %d of %d" % (bad, count), search(lent, b"reply", 2, pairs), (3, bad, [0, 0]))
                check("2 before 3", search(lent, b"reply AND", 2, pairs), (2, 0, [0, 0]))
    check("3 before 4", search([P12, b""], b"reply", 0, [(1, 0), (0, 0)]), (3, 1, []))


# The verdict sheet (document 02, section 13)

PASS, FAIL, SILENT = b"outcome:reply NOT outcome:late NOT outcome:timeout", b"outcome:late", b"outcome:timeout"
NO_COUNTS = 0, 0, 0, 0


def verdict(run, leaves, queries, room_lens=(100, 100, 100), pairs=None, names=NAMES):
    """A sheet over the three columns of P12; without pairs the leaves come newest first."""
    if pairs is None:
        pairs = [(place, 0) for place in range(len(leaves))]
    levels, indexes = [level for level, _ in pairs], [index for _, index in pairs]
    return ref.verdict(*run, b"".join(names), ends_of(names), b"".join(leaves), ends_of(leaves), levels, indexes, *queries, *room_lens)


def not_given(number, beside, room_lens=(100, 100, 100)):
    """A refused sheet: zeros everywhere but in its two numbers."""
    return number, beside, NO_COUNTS, [[0] * room_len for room_len in room_lens]


def sheet_of(run, lists, room_lens=(100, 100, 100)):
    """The sheet of three lists that all fit, by going through the rows of the run one by one."""
    first, last = run
    counts = [0, 0, 0, 0]
    for docid in range(first, last + 1):
        said = [place for place, listed in enumerate(lists) if docid in listed]
        if len(said) > 1:
            return not_given(7, docid, room_lens)
        counts[said[0] if said else 3] += 1
    return 0, last - first + 1, tuple(counts), [listed + [0] * (room_len - len(listed)) for listed, room_len in zip(lists, room_lens)]


def words_leaf(lists):
    """A leaf in which each word stands in these rows, at the first place of the first column."""
    return ref.encode_leaf([(word, [(docid, [(0, [0])]) for docid in sorted(docids)]) for word, docids in sorted(lists.items()) if docids])


def test_verdict():
    """The certificate, the run, and what is counted."""
    silent = [7 * n for n in range(1, 41)]
    rows = [leaf_of(docid, b"n1", b"t", b"no reply, timeout" if docid in silent else b"reply") for docid in range(1, 313)]
    lists = collections.defaultdict(list)
    for row in rows:
        for word, entries, _, _ in ref.parse_leaf(row, 3):
            lists[word] += entries
    leaf = ref.encode_leaf(sorted(lists.items()))
    rooms = 312, 0, 40
    passes = [docid for docid in range(1, 313) if docid not in silent]
    check("certificate", verdict((1, 312), [leaf], (PASS, FAIL, SILENT), rooms), (0, 312, (272, 0, 40, 0), [passes + [0] * 40, [], silent]))
    check("certificate", verdict((1, 400), [leaf], (PASS, FAIL, SILENT), rooms)[:3], (0, 400, (272, 0, 40, 88)))
    check("certificate", verdict((1, 312), [leaf[:-1]], (PASS, FAIL, SILENT), rooms), not_given(3, 0, rooms))
    check("a pass query that takes silence too", verdict((1, 312), [leaf], (b"outcome:reply", FAIL, SILENT), rooms), not_given(7, 7, rooms))
    check("no leaf", verdict((5, 9), [], (b"a", b"b", b"c"), (2, 0, 1)), (0, 5, (0, 0, 0, 5), [[0, 0], [], [0]]))

    row = words_leaf({b"a": [3], b"b": [4], b"c": [LEAST_DOCID, TOP_DOCID]})
    abc = b"a", b"b", b"c"
    rooms = [[3] + [0] * 99, [4] + [0] * 99, [LEAST_DOCID, TOP_DOCID] + [0] * 98]
    for run, counts in (
        ((3, 3), (1, 0, 0, 0)), ((4, 4), (0, 1, 0, 0)), ((5, 5), (0, 0, 0, 1)), ((3, 4), (1, 1, 0, 0)), ((2, 5), (1, 1, 0, 2)), ((-4091, 4), (1, 1, 0, 4094)),
        ((LEAST_DOCID, LEAST_DOCID), (0, 0, 1, 0)), ((LEAST_DOCID, LEAST_DOCID + 4095), (0, 0, 1, 4095)), ((LEAST_DOCID + 1, LEAST_DOCID + 2), (0, 0, 0, 2)),
        ((TOP_DOCID, TOP_DOCID), (0, 0, 1, 0)), ((TOP_DOCID - 4095, TOP_DOCID), (0, 0, 1, 4095)), ((TOP_DOCID - 2, TOP_DOCID - 1), (0, 0, 0, 2)),
    ):
        check("run %s" % (run,), verdict(run, [row], abc), (0, sum(counts), counts, rooms))
    for run in (
        (4, 3), (0, -1), (TOP_DOCID, LEAST_DOCID), (0, LEAST_DOCID), (1, 4097), (-4092, 4), (LEAST_DOCID, LEAST_DOCID + 4096), (TOP_DOCID - 4096, TOP_DOCID),
        (LEAST_DOCID, TOP_DOCID), (LEAST_DOCID, -1), (LEAST_DOCID, 0), (0, TOP_DOCID), (-1, TOP_DOCID),
    ):
        check("no run %s" % (run,), verdict(run, [row], abc, (3, 0, 1)), not_given(1, 0, (3, 0, 1)))


def test_two_verdicts():
    """7: each pair of lists and all three, at the first row, at the last, inside, and not outside; beside it the smallest."""
    words = b"a", b"b", b"c"
    for size in (2, 3):
        for chosen in itertools.combinations(words, size):
            for docid in range(-5, 6):
                lists = {word: [docid] if word in chosen else [word[0]] for word in words}
                got = verdict((-2, 3), [words_leaf(lists)], words)
                check("%s at %d" % (chosen, docid), got, sheet_of((-2, 3), [sorted(lists[word]) for word in words]))
                check("%s at %d" % (chosen, docid), got[0], 7 if -2 <= docid <= 3 else 0)
    for lists, docid in (
        ({b"a": [-2, 1], b"b": [1, 2], b"c": [-2, 2]}, -2), ({b"a": [0, 1], b"b": [1], b"c": [0]}, 0), ({b"a": [3], b"b": [-1, 3], b"c": [-1]}, -1),
        ({b"a": [-9, 2], b"b": [-9, 2], b"c": [-9]}, 2), ({b"a": [1, 3], b"b": [3, 9], b"c": [9]}, 3), ({b"a": [-1, 1], b"b": [-1, 1], b"c": []}, -1),
    ):
        check("the smallest", verdict((-2, 3), [words_leaf(lists)], words), not_given(7, docid))
    for docid in (LEAST_DOCID, TOP_DOCID):
        run = max(docid - 9, LEAST_DOCID), min(docid + 9, TOP_DOCID)
        check("at an end", verdict(run, [words_leaf({b"a": [docid], b"c": [docid]})], words), not_given(7, docid))


def faults():
    """Each fault in the order in which it is judged: its name, what it changes of a sound sheet, and the two numbers that it earns by itself."""
    # of these rows too one is in two lists
    yield "run", {"run": (1, 4097)}, (1, 0)
    yield "names", {"names": [b"a", b"A", b"outcome"]}, (1, 0)
    for place, word in enumerate((b"a", b"b", b"c")):
        yield "query %d" % place, {"query %d" % place: word + b" AND"}, (2, 0)
        if place == 0:
            yield "leaf", {"leaf": True}, (3, 1)
        yield "room %d" % place, {"room %d" % place: 0}, (4, 1 if place else 2)
    yield "two", {"run": (1, 9)}, (7, 5)


def with_faults(changes):
    """A sheet that is sound but for these changes. Row 5 is in two lists; it is outside the sound run."""
    lists = {b"a": [1, 5], b"b": [5], b"c": [2]}
    leaves = [words_leaf(lists), b"" if changes.get("leaf") else P12]
    queries = [changes.get("query %d" % place, word) for place, word in enumerate((b"a", b"b", b"c"))]
    room_lens = [changes.get("room %d" % place, 3) for place in range(3)]
    return verdict(changes.get("run", (1, 4)), leaves, queries, room_lens, names=changes.get("names", NAMES)), room_lens


def test_verdict_order():
    """Each fault alone, and the first of each two: the run, then all of the pass search, of the fail search, of the silent search, then 7."""
    check("no fault", with_faults({})[0], (0, 4, (1, 0, 1, 2), [[1, 5, 0], [5, 0, 0], [2, 0, 0]]))
    listed = list(faults())
    for place, (what, change, numbers) in enumerate(listed):
        got, room_lens = with_faults(change)
        check(what, got, not_given(*numbers, room_lens))
        for other, more, _ in listed[place + 1:]:
            got, room_lens = with_faults({**more, **change})
            check("%s before %s" % (what, other), got, not_given(*numbers, room_lens))


def test_verdict_exhaustive(rng):
    """Random sheets against the rows of the run, each asked by trying every place."""
    answers = collections.Counter()
    for _ in range(120):
        leaves = [ref.encode_leaf(random_leaf(rng, 3, True)) for _ in range(rng.randrange(0, 5))]
        grid = grid_of(leaves, 3)
        for _ in range(12):
            queries = sheet_queries(rng, [b"a", b"b", b"ab", b"ba"])
            trees = [ref.read_query(query, NAMES) for query in queries]
            if any(tree is None for tree in trees):
                continue
            run = sheet_run(rng)
            lists = [sorted(docid for docid, row in grid.items() if holds(row, tree)) for tree in trees]
            expected = sheet_of(run, lists)
            check("verdict %s %s" % (run, queries), verdict(run, leaves, queries), expected)
            counted(answers, run, lists, expected)
    enough("sheets by rows", answers)


def sheet_queries(rng, vocabulary):
    """Three queries, mostly of words that many rows have: in two of three cases such that no row satisfies two of them."""
    words = [word + b"*" for word in rng.sample(vocabulary, 4)]
    kinds = [random_query(rng, vocabulary, NAMES, 0), *words, b"node:%s OR outcome:%s" % (words[0], words[1]), b"outcome:%s OR sent:%s" % (words[2], words[3])]
    one, other, third = rng.sample(kinds, 3)
    if rng.randrange(3) == 0:
        return one, other, third
    parts = [b"(%s) NOT (%s)" % (one, other), b"(%s) NOT (%s)" % (other, one), b"(%s) AND (%s)" % (one, other)]
    return rng.sample(parts, 3)


def sheet_run(rng):
    """A run of which most rows of a small table are, or one of few rows."""
    first = rng.randrange(-8, 0) if rng.randrange(4) else rng.randrange(0, 6)
    return first, first + rng.choice((0, 3, 9, 12, 12, 4095))


def counted(answers, run, lists, expected):
    number, beside, counts, _ = expected
    answers["compared"] += 1
    answers[number] += 1
    answers["all four counts"] += number == 0 and min(counts) > 0
    answers["docids outside"] += number == 0 and any(not run[0] <= docid <= run[1] for listed in lists for docid in listed)
    answers["7 below 0"] += number == 7 and beside < 0


def enough(what, answers):
    """A twentieth of the sheets at least of each kind."""
    few = [kind for kind in (0, 7, "all four counts", "docids outside", "7 below 0") if answers[kind] * 20 < answers["compared"]]
    check("%s: %s" % (what, dict(answers)), (few, answers["compared"] > 500), ([], True))


# The merge (document 02, sections 4 and 11; section 6 for `keep`)


def merge(leaves, room_len=65536, pairs=None, columns=3, keep=False):
    """A merge; without pairs the leaves come newest first."""
    if pairs is None:
        pairs = [(place, 0) for place in range(len(leaves))]
    levels, indexes = [level for level, _ in pairs], [index for _, index in pairs]
    return ref.merge(columns, b"".join(leaves), ends_of(leaves), levels, indexes, room_len, keep)


def merged(leaves, pairs=None, keep=False):
    """What an accepted merge writes, and its pair."""
    number, beside, level, index, room = merge(leaves, 65536, pairs, keep=keep)
    return (room[:beside], (level, index)) if number == 0 else (number, beside)


def not_merged(number, beside, room_len):
    """A refused merge: zeros everywhere but in its two numbers."""
    return number, beside, 0, 0, bytes(room_len)


def lists_leaf(lists):
    """A leaf with these lists of entries."""
    return ref.encode_leaf(sorted(lists.items()))


PLACE = [(0, [0])]


def test_merge():
    """What is kept and what is dropped, by hand."""
    check("P12 alone", merged([P12]), (P12, (0, 0)))
    check("P12 alone", merged([P12], [(3, 9)], keep=True), (P12, (3, 9)))
    old = {b"late": [(9, PLACE)], b"reply": [(7, [(2, [0, 1])]), (9, [(0, [3])])]}
    gone = {b"reply": [(7, [])], b"timeout": [(9, [(2, [0])])]}
    lent = [lists_leaf(gone), lists_leaf(old)]
    check("a deletion", merged(lent)[0], lists_leaf({**old, **gone, b"reply": [(9, [(0, [3])])]}))
    check("a deletion that is kept", merged(lent, keep=True)[0], lists_leaf({**old, **gone, b"reply": [(7, []), (9, [(0, [3])])]}))
    check("a deletion that is older", merged(lent[::-1])[0], lists_leaf({**gone, **old}))
    only = lists_leaf({b"a": [(7, [])], b"b": [(7, PLACE)], b"c": [(-1, []), (7, [])]})
    check("words with only deletions", merged([only])[0], lists_leaf({b"b": [(7, PLACE)]}))
    check("words with only deletions", merged([only], keep=True)[0], only)
    away = lists_leaf({b"b": [(7, [])]})
    check("all deleted", merge([away, only], 2, [(4, 5), (4, 4)]), (0, 0, 0, 0, bytes(2)))
    check("all deleted, no room", merge([away, only], 0), (0, 0, 0, 0, b""))
    check("only deletions", merge([away], 0, [(4, 5)]), (0, 0, 0, 0, b""))
    sides = [lists_leaf({b"w": [(docid, PLACE) for docid in docids]}) for docids in ((0, TOP_DOCID), (LEAST_DOCID, -1), (LEAST_DOCID, -1, 0, TOP_DOCID))]
    check("docids on both sides of 0", [merged(sides[:2])[0], merged(sides[1::-1])[0]], [sides[2]] * 2)
    for order in itertools.permutations(zip((*lent, only), ((0, 5), (0, 4), (2, 9)))):
        check("any order", merged(*zip(*order)), (merged([*lent, only])[0], (0, 5)))


def test_merge_shapes():
    """Number 1, number 3 in the order lent, rooms, and the newest pair."""
    for columns in (-1, 0, 17, 2**32 - 1):
        check("columns", merge([P12], 3, columns=columns), not_merged(1, 0, 3))
    check("columns", merge([P12], 3, columns=2), not_merged(3, 0, 3))
    check("columns", merge([P12], columns=16)[:4], (0, 36, 0, 0))
    check("no leaf", merge([], 3), not_merged(1, 0, 3))
    for ends in ([35], [37], [36, 35], [35, 37], []):
        check("ends %s" % ends, ref.merge(3, P12, ends, [0] * len(ends), list(range(len(ends))), 3), not_merged(1, 0, 3))
    check("8 leaves", merged([P12] * 8), (P12, (0, 0)))
    check("9 leaves", merge([P12] * 9, 3), not_merged(1, 0, 3))
    check("65,536 bytes", merge([P12, bytes(65500)], 3), not_merged(3, 1, 3))
    check("65,537 bytes", merge([P12, bytes(65501)], 3), not_merged(1, 0, 3))
    for levels, indexes in (([], []), ([0], [0]), ([0, 1], [0]), ([0], [0, 1]), ([0, 1, 2], [0, 1]), ([0, 1, 2], [0, 1, 2]), ([3, 3], [4, 4])):
        check("pairs", ref.merge(3, P12 * 2, [36, 72], levels, indexes, 3), not_merged(1, 0, 3))
    for pair in itertools.product((0, MAX_U32), repeat=2):
        check("one pair", merged([P12], [pair]), (P12, pair))
    check("the newest pair", merged([P12] * 4, [(1, 9), (1, 8), (MAX_U32, MAX_U32), (2, 0)])[1], (1, 9))
    for count in range(1, 9):
        for bad in range(count):
            lent = [P12[1:] if place in (bad, count - 1) else P12 for place in range(count)]
            for pairs in ([(place, 0) for place in range(count)], [(count - place, 0) for place in range(count)]):
                check("broken at %d of %d" % (bad, count), merge(lent, 3, pairs), not_merged(3, bad, 3))
    for room_len in (0, 35, 36, 40):
        expected = (0, 36, 2, 3, P12 + bytes(room_len - 36)) if room_len >= 36 else not_merged(4, 36, room_len)
        check("room %d" % room_len, merge([P12], room_len, [(2, 3)]), expected)


def test_merge_needs():
    """A merge may have more bytes than its leaves: up to 65,536 they are its need, above it is refused by 1 whatever the room."""
    full, over = grown_leaves(65536), grown_leaves(65537)
    check("all is lent", max(len(b"".join(leaves)) for leaves in (full, over)) < 60000, True)
    check("need 65,536", merge(full)[:4], (0, 65536, 0, 0))
    check("need 65,536", found([merge(full)[4]], b"1234"), [LEAST_DOCID, 1])
    check("need 65,536", merge(full, 65535), not_merged(4, 65536, 65535))
    for room_len in (0, 65536, 65537, 70000):
        check("need above 65,536", merge(over, room_len), not_merged(1, 0, room_len))
        check("3 before it", merge([over[0], over[1][:-1]], room_len), not_merged(3, 1, room_len))


def positions_of(leaves):
    """How many live positions there are for each word, docid and column, newest leaf first, by trying every place."""
    rows = grid_of(leaves, 3).items()
    return collections.Counter((word, docid, column) for docid, row in rows for (column, _), words in row.items() for word in words)


def deletions_of(leaves):
    """A leaf that deletes all that stands in leaves of small docids."""
    words = sorted({word for leaf in leaves for word, _, _, _ in ref.parse_leaf(leaf, 3)})
    return ref.encode_leaf([(word, [(docid, []) for docid in range(-6, 6)]) for word in words])


def test_merge_exhaustive(rng):
    """Random merges: the live positions are the same, all entries are live, and every query lists the same."""
    counts = collections.Counter()
    for _ in range(300):
        leaves = [ref.encode_leaf(random_leaf(rng, 3, True)) for _ in range(rng.randrange(1, 6))]
        if rng.randrange(6) == 0:
            leaves.insert(0, deletions_of(leaves))
        leaf, _ = merged(leaves)
        one = [leaf] if leaf else []
        check("positions", positions_of(one), positions_of(leaves))
        parsed = ref.parse_leaf(leaf, 3) if leaf else []
        check("live entries only", parsed is not None and all(columns for _, entries, _, _ in parsed for _, columns in entries), True)
        for _ in range(4):
            query = random_query(rng, [b"a", b"b", b"ab", b"ba"], NAMES)
            listed = found(leaves, query)
            check("the same list", found(one, query), listed)
            counts["lists"] += bool(listed)
        counts["nothing left"] += not leaf
        counts["several"] += len(leaves) > 1 and bool(leaf)
    check("merges of each kind: %s" % dict(counts), min(counts[kind] for kind in ("lists", "nothing left", "several")) > 20, True)


def some_ages(rng, count):
    """So many pairs, newest first."""
    pairs = rng.sample([(level, index) for level in range(3) for index in range(8)], count)
    return sorted(pairs, key=lambda pair: (pair[0], -pair[1]))


def merged_all(dated, keep=False):
    """The merge of leaves with their pairs; that of none is nothing."""
    return merged(*zip(*dated), keep) if dated else (b"", (0, 0))


def test_merge_groups(rng):
    """The oldest merged first, then with the newer ones, are the merge of all; so is a merge after any keeping merges of neighbours, after which the live positions and
    every query's list are as before."""
    counts = collections.Counter()
    for _ in range(300):
        pairs = some_ages(rng, rng.randrange(1, 9))
        dated = [(ref.encode_leaf(random_leaf(rng, 3, True)), pair) for pair in pairs]
        whole, kept = merged_all(dated), merged_all(dated, True)
        old = dated[rng.randrange(len(dated)):]
        oldest = merged_all(old)
        check("the oldest first", merged_all(dated[:-len(old)] + [oldest] * (oldest[0] != b"")), whole)
        check("by itself", [merged_all([one]) for one in (whole, oldest) if one[0]], [one for one in (whole, oldest) if one[0]])
        check("one leaf alone", [merged_all([one], True) for one in (*dated, kept)], [*dated, kept])
        joined = list(dated)
        while len(joined) > 1 and rng.randrange(8):
            at, size = rng.randrange(len(joined) - 1), rng.choice((1, 2, 2, 3))
            joined[at:at + size] = [merged_all(joined[at:at + size], True)]
        check("positions after keeping merges", positions_of([leaf for leaf, _ in joined]), positions_of([leaf for leaf, _ in dated]))
        rng.shuffle(joined)
        check("after keeping merges", merged_all(joined), whole)
        check("keeping merges", merged_all(joined, True), kept)
        query = random_query(rng, [b"a", b"b", b"ab", b"ba"], NAMES)
        listed = [found([leaf for leaf, _ in index], query, [pair for _, pair in index]) for index in (dated, joined)]
        check("the same list after keeping merges", listed[1], listed[0])
        counts["joined"] += len(joined) < len(dated)
        counts["deletions"] += kept != whole
        counts["deletions among the oldest"] += 1 < len(old) and oldest[0] != merged_all(old, True)[0]
        counts["lists"] += bool(listed[0])
    check("groups of each kind: %s" % dict(counts), len(counts) == 4 and min(counts.values()) > 60, True)


def test_merge_not_neighbours():
    """Joined over a leaf between them, the newest pair goes to an entry of the oldest, which the leaf between them had deleted."""
    newest, between, oldest = (lists_leaf({word: [(7, places)]}) for word, places in ((b"late", PLACE), (b"reply", []), (b"reply", PLACE)))
    dated = [(newest, (0, 2)), (between, (0, 1)), (oldest, (0, 0))]
    check("before", found([newest, between, oldest], b"reply"), [])
    for chosen, listed in (((0, 1), []), ((1, 2), []), ((0, 2), [7])):
        one = merged_all([dated[place] for place in chosen], True)
        other, = (dated[place] for place in range(3) if place not in chosen)
        check("joined %s" % (chosen,), found([one[0], other[0]], b"reply", [one[1], other[1]]), listed)


# The program


def test_program():
    """The program's output."""
    check("program", ref.one_search(b"reply", P12), "docs 1\n7\n")
    check("program", ref.one_search(b"reply\n", P12), "docs 1\n7\n")
    check("program", ref.one_search(b"nothing", P12), "docs 0\n")
    check("program", ref.one_search(b"sent:reply", P12), "docs 0\n")
    signs = ref.encode_leaf([(b"a", [(d, [(0, [0])]) for d in (LEAST_DOCID, -1, 0, TOP_DOCID)])])
    check("program", ref.one_search(b"a", signs), "docs 4\n-9223372036854775808\n-1\n0\n9223372036854775807\n")
    check("program", ref.one_search(b"", P12), "refused 2 0\n")
    check("program", ref.one_search(b"reply", b""), "refused 3 0\n")
    check("program", ref.one_search(b"reply", None), "no leaf\n")
    check("program", ref.one_search(b"x" * 513, None), "no leaf\n")
    check("program", ref.one_search(None, P12), "refused 2 0\n")
    check("program", ref.one_search(b"x" * 513, bytes(65537)), "refused 1 0\n")
    check("program", ref.one_search(b"reply", bytes(65537)), "refused 1 0\n")
    check("program", ref.one_search(b"reply", bytes(65536)), "refused 3 0\n")
    check("program", ref.one_search(b"reply" + b" " * 507, P12), "docs 1\n7\n")
    check("program", ref.one_search(b"reply" + b" " * 507 + b"\n", P12), "refused 2 0\n")
    many = ref.encode_leaf([(b"a", [(d, [(0, [0])]) for d in range(4096)])])
    lines = ["docs 4096"] + [str(d) for d in range(4096)]
    check("program", ref.one_search(b"a", many), "\n".join(lines) + "\n")
    many = ref.encode_leaf([(b"a", [(d, [(0, [0])]) for d in range(4097)])])
    check("program", ref.one_search(b"a", many), "refused 4 4097\n")


def test_any_input(rng):
    """Junk of every kind gets an answer."""
    for _ in range(3000):
        junk = bytes(rng.choices(b' ()"*:/abANDORNEAR\x00\xff129', k=rng.randrange(0, 30)))
        ends = [rng.randrange(2**32) if rng.random() < 0.1 else rng.randrange(31)
                for _ in range(rng.randrange(0, 4))]
        tree = ref.read_query(junk, NAMES)
        check("junk", found([P12], junk) == (2, 0), tree is None)
        check("junk", ref.search(junk, ends, junk, ends, ends, ends[::-1], junk, 1)[0] in range(5), True)
        check("junk", verdict((6, 8), [P12], (junk, junk[1:], junk[2:]))[0] in (0, 2, 7), True)
        check("junk", ref.write_leaf(1, junk, ends, 9)[0] in (0, 1, 4), True)
        check("junk", ref.lookup(junk, 3, junk)[0] in (0, 1, 3), True)
        check("junk", ref.merge(3, junk, ends, ends, ends[::-1], 9)[0] in (0, 1, 3, 4), True)


def test_time():
    """A search over 65,536 bytes of leaves ends within a few seconds."""
    docids = range(1, 21800)
    one_row = ref.encode_leaf([(b"a", [(1, [(0, list(range(65528)))])])])
    rows = ref.encode_leaf([(b"a", [(docid, [(0, [0])]) for docid in docids])])
    triples = ["a" + x + y + z for x, y, z in itertools.product("abcdefghijklmnopqrst", repeat=3)]
    many = ref.encode_leaf([(t.encode(), [(1, [(0, [i])])]) for i, t in enumerate(triples)])
    worst = 0
    chain = b"a* NEAR " * 15 + b"a*"
    mixed = b'"' + b"a* " * 8 + b'" OR ' + b"a " * 8
    for leaf, query, count in ((one_row, chain, 1), (rows, mixed, len(docids)), (many, chain, 1)):
        check("leaf size", 60000 < len(leaf) <= 65536, True)
        started = time.process_time()
        answer = ref.search(b"c", [1], leaf, [len(leaf)], [0], [0], query, 65536)[:2]
        worst = max(worst, time.process_time() - started)
        check("large search", answer, (0, count))
    print("slowest large search: %.2f s of processor time" % worst)


# SQLite


def sqlite_has_enhanced_syntax():
    """Whether this SQLite has FTS4 with the enhanced query syntax."""
    with_option = "select sqlite_compileoption_used('ENABLE_FTS3_PARENTHESIS')"
    connection = sqlite3.connect(":memory:")
    try:
        connection.execute("create virtual table t using fts4(a)")
        return connection.execute(with_option).fetchone()[0] == 1
    except sqlite3.Error:
        return False
    finally:
        connection.close()


def new_table():
    """A table with the columns of P12 and pages large enough for one leaf."""
    connection = sqlite3.connect(":memory:", isolation_level=None)
    connection.execute("pragma page_size=65536")
    connection.execute("create virtual table t using fts4(node, sent, outcome, tokenize=simple)")
    return connection


def only_leaf(connection, start, end, root):
    """The one leaf of a segment, or None when it has more: the root, or all that stands below a root without words, as `merge=` leaves it."""
    if " -" in str(end):
        return None  # partly merged
    if root == b"\x01" + ref.encode_varint(start):
        (root,), = connection.execute("select block from t_segments where blockid = ?", [start])
    return root if root[:1] == b"\x00" else None


def table_leaves(connection):
    """The table's leaves as (level, index, leaf), in no set order, or None when the box can't take them."""
    rows = connection.execute("select level, idx, start_block, end_block, root from t_segdir").fetchall()
    leaves = [(level, index, only_leaf(connection, *rest)) for level, index, *rest in rows]
    if len(leaves) > 8 or any(leaf is None for _, _, leaf in leaves) or sum(len(leaf) for _, _, leaf in leaves) > 65536:
        return None
    return leaves


def random_text(rng, vocabulary):
    """A text for one column, as a str."""
    chosen = [rng.choice(vocabulary).decode() for _ in range(rng.randrange(0, 7))]
    return rng.choice([" ", ", ", "_"]).join(w.upper() if rng.random() < 0.2 else w for w in chosen)


def change_table(rng, connection, vocabulary, transactions, commands=("optimize",), chance=0.05):
    """Random inserts, updates and deletions, one leaf to a transaction; now and then a command."""
    docids = {docid for docid, in connection.execute("select docid from t")}
    for _ in range(transactions):
        connection.execute("begin")
        for _ in range(rng.randrange(1, 6)):
            docid = rng.choice([rng.randrange(-6, 6), rng.randrange(-6, 6), any_docid(rng)])
            texts = [random_text(rng, vocabulary) for _ in NAMES]
            if docid not in docids:
                connection.execute("insert into t(docid, node, sent, outcome) values(?,?,?,?)",
                                   [docid] + texts)
                docids.add(docid)
            elif rng.random() < 0.5:
                connection.execute("update t set node=?, sent=?, outcome=? where docid=?",
                                   texts + [docid])
            else:
                connection.execute("delete from t where docid=?", [docid])
                docids.discard(docid)
        connection.execute("commit")
        if rng.random() < chance:
            connection.execute("insert into t(t) values(?)", [rng.choice(commands)])


def sqlite_docids(connection, query):
    """The docids that SQLite gives for a query, rising, or None for an error."""
    try:
        rows = connection.execute("select docid from t where t match ?", [query.decode()])
        return sorted(docid for docid, in rows)
    except sqlite3.Error:
        return None


def soup(rng, vocabulary):
    """A random row of tokens, often not in the language."""
    pieces = [b"(", b")", b"AND", b"OR", b"NOT", b"NEAR", b"NEAR/1", b'"', b"*", b"node:",
              b"near", b"OUTCOME:"] + vocabulary * 2
    out = b""
    for _ in range(rng.randrange(1, 9)):
        out += rng.choice(pieces) + rng.choice([b" ", b" ", b" ", b""])
    return out


def test_sqlite_writer(rng, vocabulary):
    """The leaf that SQLite stores for one document is the writer's, byte by byte."""
    for _ in range(60):
        connection = new_table()
        docid = any_docid(rng)
        texts = [random_text(rng, vocabulary) for _ in NAMES]
        connection.execute("insert into t(docid, node, sent, outcome) values(?,?,?,?)",
                           [docid] + texts)
        encoded = [text.encode() for text in texts]
        number, length, room = ref.write_leaf(docid, b"".join(encoded), ends_of(encoded), 4096)
        stored = table_leaves(connection)
        check("sqlite writer", [(0, 0, room[:length])] if length else [], stored)
        connection.close()


def lent_in_some_order(rng, leaves):
    """The table's leaves in some order, and the pair of each."""
    order = rng.sample(leaves, len(leaves))
    return [leaf for _, _, leaf in order], [(level, index) for level, index, _ in order]


def test_sqlite_search(rng, vocabulary):
    """SQLite's leaves are sound, and both list the same docids."""
    compared = listed = below = only_here = only_there = several = 0
    for round_number in range(24):
        connection = new_table()
        transactions = rng.randrange(16, 22) if round_number % 3 == 0 else rng.randrange(1, 9)
        change_table(rng, connection, vocabulary, transactions)
        leaves = table_leaves(connection)
        if leaves is None:
            connection.close()
            continue
        several += len(leaves) > 1
        for _, _, leaf in leaves:
            parsed = ref.parse_leaf(leaf, 3)
            check("sqlite leaf", parsed is not None, True)
            if parsed is not None:
                again = ref.encode_leaf([(term, entries) for term, entries, _, _ in parsed])
                check("sqlite leaf", again, leaf)
        for number in range(130):
            if number % 3 == 0:
                query = soup(rng, vocabulary)
            else:
                query = random_query(rng, vocabulary, NAMES)
            tree = ref.read_query(query, NAMES)
            theirs = sqlite_docids(connection, differences.written_out(query))
            if tree is None or theirs is None:
                only_here += tree is not None
                only_there += theirs is not None
            else:
                lent, pairs = lent_in_some_order(rng, leaves)
                check("sqlite %r" % query, found(lent, query, pairs), theirs)
                compared += 1
                listed += bool(theirs)
                below += bool(theirs) and theirs[0] < 0
        connection.close()
    check("sqlite queries compared", compared > 500 and listed > 200 and below > 200 and several > 5, True)
    check("accepted here, an error in SQLite", only_here, 0)
    print("SQLite %s: %d queries compared, %d with docids, %d with docids below 0, %d in SQLite's language only"
          % (sqlite3.sqlite_version, compared, listed, below, only_there))


# SQLite merges 16 segments of a level into one of the next, so that there are three levels after 17 times 16; `merge=` does it earlier
MANY = range(17 * 16 + 1, 20 * 16)
MERGES = ("merge=500,2", "merge=500,3", "merge=1,4")


def table_of_levels(rng, vocabulary, merged):
    """A table in which SQLite left several levels, by its own count of segments or by `merge=`; changed on until the box takes its leaves."""
    connection = new_table()
    if merged:
        change_table(rng, connection, vocabulary, rng.randrange(10, 40), MERGES, 0.3)
    else:
        change_table(rng, connection, vocabulary, rng.choice(MANY), chance=0)
    for _ in range(100):
        if table_leaves(connection) is not None:
            return connection
        change_table(rng, connection, vocabulary, 1, MERGES, 0.5 if merged else 0)
    raise AssertionError("SQLite never comes to a few leaves")


def test_sqlite_levels(rng, vocabulary):
    """Where SQLite left several levels: its leaves in some order, each with its pair of the directory, list what MATCH lists."""
    compared = other = 0
    levels_of = []
    for round_number in range(24):
        connection = table_of_levels(rng, vocabulary, round_number % 4 > 0)
        leaves = table_leaves(connection)
        levels_of.append(len({level for level, _, _ in leaves}))
        for _ in range(25):
            query = random_query(rng, vocabulary, NAMES)
            if ref.read_query(query, NAMES) is None:
                continue
            theirs = sqlite_docids(connection, differences.written_out(query))
            lent, pairs = lent_in_some_order(rng, leaves)
            check("sqlite levels %r, %s" % (query, pairs), found(lent, query, pairs), theirs)
            compared += 1
            # would other ages be noticed: the level read the wrong way round, and the index
            turned = [[(9 - level, index) for level, index in pairs], [(level, 99 - index) for level, index in pairs]]
            other += any(found(lent, query, wrong) != theirs for wrong in turned)
        connection.close()
    check("sqlite queries over several levels", compared > 500 and other * 4 > compared, True)
    check("sqlite tables of several levels", sum(n > 1 for n in levels_of) > 18 and sum(n > 2 for n in levels_of) > 6, True)
    print("SQLite %s: %d queries compared in %d tables, %d of two levels and %d of more; wrong ages would change %d lists"
          % (sqlite3.sqlite_version, compared, len(levels_of), levels_of.count(2), sum(n > 2 for n in levels_of), other))


def some_run(rng, lists):
    """A run that begins or ends at a docid of the lists, wherever it is."""
    docid, rows = rng.choice([docid for listed in lists for docid in listed] or [0]), rng.choice((1, 2, 4096))
    return (max(docid - rows + 1, LEAST_DOCID), docid) if rng.randrange(2) else (docid, min(docid + rows - 1, TOP_DOCID))


def counted_by_sqlite(connection, query, run):
    """How many rows of the run SQLite finds."""
    rows = connection.execute("select count(*) from t where t match ? and docid between ? and ?", [query.decode(), *run])
    return rows.fetchone()[0]


def test_sqlite_verdict(rng, vocabulary):
    """Three MATCH queries and their rows in the run counted by SQLite give the same sheet."""
    answers = collections.Counter()
    for _ in range(30):
        connection = new_table()
        change_table(rng, connection, vocabulary, rng.randrange(4, 12), chance=0.3)
        leaves = table_leaves(connection)
        for _ in range(40 if leaves is not None else 0):
            queries = sheet_queries(rng, vocabulary)
            asked = [differences.written_out(query) for query in queries]
            lists = [sqlite_docids(connection, query) for query in asked]
            if any(ref.read_query(query, NAMES) is None for query in queries) or any(listed is None for listed in lists):
                continue
            run = sheet_run(rng) if rng.randrange(8) else some_run(rng, lists)
            rows = run[1] - run[0] + 1
            counts = [counted_by_sqlite(connection, query, run) for query in asked]
            shared = [docid for docid, times in collections.Counter(itertools.chain(*lists)).items() if times > 1 and run[0] <= docid <= run[1]]
            expected = not_given(7, min(shared)) if shared else (0, rows, (*counts, rows - sum(counts)), [listed + [0] * (100 - len(listed)) for listed in lists])
            lent, pairs = lent_in_some_order(rng, leaves)
            check("sqlite verdict %s %s" % (run, queries), verdict(run, lent, queries, pairs=pairs), expected)
            counted(answers, run, lists, expected)
        connection.close()
    enough("sheets by SQLite", answers)
    print("SQLite %s: %d sheets compared, %d accepted, %d with all four counts, %d with docids outside the run, %d refused for a row in two lists"
          % (sqlite3.sqlite_version, answers["compared"], answers[0], answers["all four counts"], answers["docids outside"], answers[7]))


def with_wordless_row(rng, connection, vocabulary):
    """A table with a row that has no word: where all others are deleted, it keeps SQLite from clearing the index."""
    connection.execute("insert into t(docid, node) values(100, '.')")
    change_table(rng, connection, vocabulary, rng.randrange(1, 4), chance=0)
    if rng.randrange(2):
        connection.execute("delete from t where docid <> 100")


def merged_table(rng, vocabulary, number):
    """A table to be merged: of a few transactions, of several levels, or with a row without words."""
    if number % 4 == 0:
        return table_of_levels(rng, vocabulary, True)
    connection = new_table()
    if number % 4 == 1:
        with_wordless_row(rng, connection, vocabulary)
    else:
        change_table(rng, connection, vocabulary, rng.randrange(1, 9), chance=0.02)
    return connection


def after(connection, command):
    """The leaves once SQLite has done this: at most one is expected."""
    connection.execute("insert into t(t) values(?)", [command])
    return [leaf for _, _, leaf in table_leaves(connection)]


def test_sqlite_merge(rng, vocabulary):
    """The merge of all segments is, byte for byte, what `optimize` makes of them, and what `rebuild` makes of the rows; MATCH lists the same before and after.

    `optimize` leaves a segment that is alone as it is, deletions too."""
    counts = collections.Counter()
    for number in range(160):
        connection = merged_table(rng, vocabulary, number)
        leaves = table_leaves(connection)
        if not leaves:
            connection.close()
            continue
        lent, pairs = lent_in_some_order(rng, leaves)
        leaf, pair = merged(lent, pairs)
        queries = [query for query in (random_query(rng, vocabulary, NAMES) for _ in range(6)) if ref.read_query(query, NAMES) is not None]
        before = [sqlite_docids(connection, differences.written_out(query)) for query in queries]
        theirs = after(connection, "optimize")
        check("the newest pair", pair, min(pairs, key=lambda pair: (pair[0], -pair[1])) if leaf else (0, 0))
        check("optimize", [leaf] if leaf and len(leaves) > 1 else lent if len(leaves) == 1 else [], theirs)
        for query, listed in zip(queries, before):
            check("merged %r" % query, found([leaf] if leaf else [], query), listed)
            check("optimized %r" % query, sqlite_docids(connection, differences.written_out(query)), listed)
        check("rebuild", [leaf] if leaf else [], after(connection, "rebuild"))
        counts["tables"] += 1
        counts["of several segments"] += len(leaves) > 1
        counts["of several levels"] += len({level for level, _, _ in leaves}) > 1
        counts["with deletions"] += len(leaf) < len(merged(lent, pairs, keep=True)[0])
        counts["with nothing left"] += not leaf
        counts["queries that list docids"] += sum(bool(listed) for listed in before)
        connection.close()
    few = [what for what, n in counts.items() if n * 10 < counts["tables"]]
    check("tables to merge of each kind: %s" % dict(counts), (few, len(counts)), ([], 6))
    print("SQLite %s, optimize and rebuild: %s" % (sqlite3.sqlite_version, ", ".join("%d %s" % (n, what) for what, n in counts.items())))


# SQLite merges the segments of a level when it has so many and one more comes
FULL = 16


def level_of(connection, level):
    """The leaves of a level with their pairs, newest first."""
    rows = connection.execute("select root, level, idx from t_segdir where level = ? order by idx desc", [level])
    return [(root, (level, index)) for root, level, index in rows]


def by_eights(sixteen, keep):
    """The leaf of 16 neighbours, newest first: two keeping merges of 8 and one merge of the two results."""
    return merged_all([merged_all(sixteen[:8], True), merged_all(sixteen[8:], True)], keep)[0]


def automatic_merges(connection, counts):
    """What SQLite will put on which level when one more segment comes: it keeps deletions unless the level is higher than all before it."""
    (highest,), = connection.execute("select max(level) from t_segdir")
    expected = []
    for level in itertools.count():
        sixteen = level_of(connection, level)
        if len(sixteen) < FULL:
            return expected
        keep = level < highest
        leaf = by_eights(sixteen, keep)
        expected.append((level + 1, leaf))
        kind = "keeping" if keep else "full"
        counts[kind] += 1
        counts[kind + " with deletions"] += leaf != by_eights(sixteen, not keep)
        counts[kind + " of level 1"] += level == 1


def one_segment(rng, connection, vocabulary):
    """A transaction that leaves one segment, since its docids rise and a row has a word."""
    connection.execute("begin")
    for docid in sorted({rng.choice([rng.randrange(-9, 9), rng.randrange(-9, 9), any_docid(rng)]) for _ in range(rng.randrange(1, 5))}):
        (there,), = connection.execute("select count(*) from t where docid = ?", [docid])
        if there:
            connection.execute("delete from t where docid = ?", [docid])
        if not there or rng.randrange(2):
            texts = ["n", random_text(rng, vocabulary), random_text(rng, vocabulary)]
            connection.execute("insert into t(docid, node, sent, outcome) values(?,?,?,?)", [docid] + texts)
    connection.execute("commit")


def test_sqlite_automatic(rng, vocabulary):
    """What SQLite makes by itself of the 16 segments of a level, when a 17th comes, is byte for byte what merges of neighbours make of them."""
    counts = collections.Counter()
    for transactions in [4 * FULL + 1] * 6 + [2 * FULL * FULL + FULL + 1] * 2:
        connection = new_table()
        # where the last row goes SQLite clears the index
        connection.execute("insert into t(docid, node) values(100, 'stays')")
        for _ in range(transactions):
            expected = automatic_merges(connection, counts)
            one_segment(rng, connection, vocabulary)
            for level, leaf in expected:
                check("automatic merge to level %d" % level, level_of(connection, level)[0][0], leaf)
        connection.close()
    check("automatic merges of each kind: %s" % dict(counts), (len(counts), min(counts.values()) > 1), (6, True))
    print("SQLite %s, automatic merges of 16 segments: %s" % (sqlite3.sqlite_version, ", ".join("%d %s" % (n, what) for what, n in counts.items())))


def test_sqlite(rng):
    """Comparisons with SQLite, which must have the enhanced syntax."""
    enhanced = sqlite_has_enhanced_syntax()
    check("SQLite has FTS4 with the enhanced syntax", enhanced, True)
    if not enhanced:
        return
    vocabulary = [w.encode() for w in ("a", "ab", "abc", "b", "ba", "bac", "c", "ca", "é", "éa")]
    test_sqlite_writer(rng, vocabulary)
    test_sqlite_search(rng, vocabulary)
    test_sqlite_levels(rng, vocabulary)
    test_sqlite_verdict(rng, vocabulary)
    test_sqlite_merge(random.Random(SEED), vocabulary)
    test_sqlite_automatic(random.Random(SEED), vocabulary)


def main():
    """Run everything, print the counts, and give the exit status."""
    started = time.process_time()
    test_marked_examples()
    test_dropped_bytes()
    test_lent()
    test_varints(random.Random(SEED))
    test_words()
    test_round_trips(random.Random(SEED))
    test_rules()
    test_lookups()
    test_writer(random.Random(SEED))
    test_queries()
    test_search()
    test_ages()
    test_pairs()
    test_search_exhaustive(random.Random(SEED))
    test_verdict()
    test_two_verdicts()
    test_verdict_order()
    test_verdict_exhaustive(random.Random(SEED))
    test_merge()
    test_merge_shapes()
    test_merge_needs()
    test_merge_exhaustive(random.Random(SEED))
    test_merge_groups(random.Random(SEED))
    test_merge_not_neighbours()
    test_program()
    test_any_input(random.Random(SEED))
    test_time()
    test_sqlite(random.Random(SEED))
    print("processor time: %.1f s" % (time.process_time() - started))
    print("%d passed, %d failed" % (passed, failed))
    return 1 if failed else 0


if __name__ == "__main__":
    sys.exit(main())
