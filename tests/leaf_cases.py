"""Compared cases of posting lists, leaves and lookups."""
import random

import reference
from case_writer import CHECK, DECIDING, LOOKUP
from generated import EDGES, LEAST_DOCID, TOP_DOCID, some_docid

SEED = 20262

# Document 01's example P12.
P12 = bytes.fromhex(
    "00036e3132030702000005" "70726f6265050701010200" "0005" "7265706c79" "06" "070102020300"
)
TOP_POSITION = 2**31 - 1
MINUS_1 = bytes([255] * 9 + [1])


def ask_check(cases, leaf, columns):
    cases.ask(CHECK, columns, first=leaf)
    cases.expect(*reference.check_leaf(leaf, columns))


def ask_lookup(cases, leaf, columns, word):
    cases.ask(LOOKUP, columns, first=leaf, short=word)
    number, size, start, read = reference.lookup(leaf, columns, word)
    cases.expect(number, size, start, read, leaf[start:start + size] if number == 0 else b"")


def ask_deciding(cases, newer, older, columns, word, docid):
    cases.ask(DECIDING, columns, docid % 2**64, first=newer, second=older, short=word)
    number, beside, which, start = reference.deciding(newer, older, columns, word, docid)
    holder = older if which else newer
    part = holder[start:start + beside] if number == 0 else b""
    cases.expect(number, beside, which if number == 0 else 0, start, part)


def varints(*numbers):
    """Numbers in shortest form, one after the other; a bytes object stands for itself."""
    return b"".join(n if isinstance(n, bytes) else reference.encode_varint(n) for n in numbers)


def leaf_of_list(doclist, word=b"w"):
    """A leaf with one word and this posting list, sound or not."""
    return varints(0, len(word), word, len(doclist), doclist)


def lists(cases):
    """Each rule of a posting list at its bound, over it, and broken."""
    sound = [
        (7, 2, 0), (7, 0), (7, 2, 0, 1, 0), (7, 2, 3, 0), (7, 1, 2, 2, 0), (7, 2, 1, 1, 2, 1, 2, 2, 0),
        (TOP_DOCID, 2, 0), (TOP_DOCID - 1, 0, 1, 0), (0, 0), (0, 2, 0, TOP_DOCID, 2, 0),
        (7, TOP_POSITION + 2, 0), (7, 2, TOP_POSITION + 2, 0), (7, 1, 15, 2, 0),
        (7, 5, 1, 1, 2, 0), (7, 5, 3, 1, 1, 2, 0, 3, 0), (MINUS_1, 2, 0), (MINUS_1, 0, 1, 2, 0),
    ]
    broken = [
        (), (7,), (7, 2), (7, 1), (7, 1, 1), (7, 1, 1, 0), (7, 1, 0, 2, 0), (7, 1, 2, 0), (7, 1, 2, 2, 1, 1, 2, 0),
        (7, 1, 2, 2, 1, 2, 2, 0), (7, 1, 16, 2, 0), (7, 1, TOP_DOCID, 2, 0), (7, 2, 2, 0), (7, 2, 0, 0, 2, 0),
        (TOP_DOCID, 0, 1, 0), (1, 0, TOP_DOCID, 0), (7, TOP_POSITION + 3, 0), (7, 3, TOP_POSITION + 2, 0),
        (7, 2, 0, 1), (7, 2, 0, 1, 2), (7, 2, 1, 0), (7, 1, 1, 1, 2, 2, 0), (7, 1, 1, 2, 2, 0),
        (bytes([0x87, 0x00]), 2, 0), (7, bytes([0x82, 0x00]), 0), (7, 2, bytes([0x80])),
    ]
    for numbers in sound + broken:
        for columns in (1, 2, 3, 16):
            ask_check(cases, leaf_of_list(varints(*numbers)), columns)


def leaves(cases):
    """Each rule of a leaf at its bound, over it, and broken."""
    doclist = varints(7, 2, 0)
    term = varints(len(doclist), doclist)
    first = varints(0, 2, b"bb") + term
    later = [
        varints(0, 1, b"c"), varints(2, 1, b"b"), varints(1, 1, b"c"), varints(1, 1, b"b"), varints(1, 1, b"a"),
        varints(0, 2, b"bc"), varints(0, 1, b"b"), varints(2, 0), varints(3, 1, b"b"), varints(0, 1, b"a"),
        varints(1, 62, b"c" * 62), varints(1, 63, b"c" * 63), varints(1, 64, b"c" * 64), varints(2, 62, b"c" * 62),
        varints(2, 63, b"c" * 63), varints(0, 64, b"c" * 64), varints(0, 65, b"c" * 65), varints(64, 1, b"c"),
        varints(2**40, 1, b"c"), varints(0, 2**40, b"c"), bytes([0x80, 0x00, 1]) + b"c",
    ]
    for head in later:
        ask_check(cases, first + head + term, 3)
        ask_check(cases, first + head + term + varints(0, 1, b"z") + term, 3)
    for length in (0, 2, 4, 2**20, 2**62):
        ask_check(cases, varints(0, 2, b"bb", length, doclist), 3)
    for leaf in (b"", b"\x00", b"\x01", bytes([0x80, 0x00]), first, first[1:], b"\x01" + first[1:], first + b"\x00", first + b"\x80"):
        ask_check(cases, leaf, 3)
    for size in (0, 1, 64, 65):
        ask_check(cases, leaf_of_list(doclist, b"\x00" * size), 3)
    for b in range(256):
        ask_check(cases, varints(0, 1, bytes([b])) + term + varints(0, 1, b"\x80") + term, 3)
    for columns in (0, 1, 2, 3, 16, 17, 2**32 - 1):
        ask_check(cases, P12, columns)
    for at in range(len(P12)):
        ask_check(cases, P12[:at] + P12[at + 1:], 3)
        ask_check(cases, P12[:at], 3)
        for bit in range(8):
            ask_check(cases, P12[:at] + bytes([P12[at] ^ 1 << bit]) + P12[at + 1:], 3)


def docids(cases):
    """One, two and three of the edges in any order, by their differences modulo 2^64; and from each edge as far as the largest docid, and farther."""
    for first in EDGES:
        for entry in ((0,), (2, 0), (1, 1, 2, 0)):
            ask_check(cases, leaf_of_list(varints(first % 2**64, *entry)), 2)
        for second in EDGES:
            ask_check(cases, leaf_of_list(varints(first % 2**64, 2, 0, (second - first) % 2**64, 0)), 1)
            for third in EDGES:
                numbers = first % 2**64, 0, (second - first) % 2**64, 2, 0, (third - second) % 2**64, 0
                ask_check(cases, leaf_of_list(varints(*numbers)), 1)
        for step in (0, 1, 2**62, 2**63 - 1, 2**63, 2**63 + 1, 2**64 - 2, 2**64 - 1):
            ask_check(cases, leaf_of_list(varints(first % 2**64, 0, step, 0)), 1)
        left = TOP_DOCID - first
        for step in (left - 1, left, left + 1):
            if 0 <= step < 2**64:
                ask_check(cases, leaf_of_list(varints(first % 2**64, 0, step, 2, 0)), 1)


def ten_bytes(cases):
    """Numbers of nine bytes without a last, of ten and of more: of a first docid, of a later one, and where no docid stands."""
    for front in (bytes([255] * 9), bytes([128] * 9)):
        for last in (b"", b"\x00", b"\x01", b"\x02", b"\x7f", b"\x80", b"\xff", b"\x81\x00", b"\x81\x01", b"\x80\x01", b"\xff\x7f"):
            number = front + last
            for numbers in ((number, 0), (number, 2, 0, 1, 0), (LEAST_DOCID % 2**64, 0, number, 0), (MINUS_1, 0, number, 2, 0), (7, 0, number, 0)):
                ask_check(cases, leaf_of_list(varints(*numbers)), 1)
    doclist = varints(7, 2, 0)
    term = varints(len(doclist), doclist)
    for number in (MINUS_1, bytes([128] * 9 + [1]), bytes([255] * 8 + [127]), bytes([130] + [128] * 8 + [1])):
        # after position 7 a step of 2^64 - 3 would lead to 4
        for numbers in (
            (7, number, 0), (7, 2, number, 0), (7, 9, number, 0), (7, TOP_POSITION + 2, number, 0), (7, 1, number, 2, 0), (7, 1, 1, number, 0), (7, 1, 1, 9, number, 0),
            (7, 1, 1, 2, 1, number, 2, 0), (7, 2, number), (7, 2, 0, 1, number, 0),
        ):
            ask_check(cases, leaf_of_list(varints(*numbers)), 3)
        for leaf in (
            varints(number, 1, b"a") + term, varints(0, number, b"a") + term, varints(0, 1, b"a", number, doclist),
            varints(0, 1, b"a") + term + varints(number, 1, b"b") + term, varints(0, 1, b"a") + term + varints(0, number, b"b") + term,
            varints(0, 1, b"a") + term + varints(0, 1, b"b", number, doclist), number, varints(0, number), varints(0, 1, b"a", number),
        ):
            ask_check(cases, leaf, 3)
            ask_lookup(cases, leaf, 3, b"a")
            ask_deciding(cases, P12, leaf, 3, b"a", -1)


def leaf_of_size(total):
    """A sound leaf of so many bytes, all deletions of one word, and that word."""
    doclist = reference.encode_doclist([(d, []) for d in range(1, (total - 8) // 2 + 1)])
    word = b"w"
    while len(leaf_of_list(doclist, word)) < total:
        word += b"w"
    return leaf_of_list(doclist, word), word


def sizes(cases):
    """65,536 bytes and one more."""
    for total in (65536, 65537):
        leaf, word = leaf_of_size(total)
        ask_check(cases, leaf, 1)
        ask_lookup(cases, leaf, 1, word)


def random_entries(rng, columns):
    entries = []
    for docid in sorted({some_docid(rng, 4) for _ in range(rng.randrange(1, 5))}):
        found = []
        for column in range(columns):
            if rng.randrange(3) == 0:
                found.append((column, sorted(rng.sample(range(8), rng.randrange(1, 4)))))
        entries.append((docid, found))
    return entries


def random_leaf(rng, columns):
    words = set()
    for _ in range(rng.randrange(1, 7)):
        words.add(bytes(rng.choice(b"\x00\x01abz \xff") for _ in range(rng.choice((1, 1, 2, 3, 6)))))
    return reference.encode_leaf([(word, random_entries(rng, columns)) for word in sorted(words)])


def damaged(rng, leaf):
    data = bytearray(leaf)
    at = rng.randrange(len(data))
    kind = rng.randrange(5)
    if kind == 0:
        del data[at]
    elif kind == 1:
        data[at] = rng.randrange(256)
    elif kind == 2:
        data.insert(at, rng.choice((0, 1, 2, 128, rng.randrange(256))))
    elif kind == 3:
        del data[at:]
    else:
        data[at:at + 1] = MINUS_1
    return bytes(data)


def probes(leaf, columns):
    """Words and docids that a leaf has, and some that it has not."""
    terms = reference.parse_leaf(leaf, columns) or []
    words = [term for term, _, _, _ in terms]
    docids = [docid for _, entries, _, _ in terms for docid, _ in entries]
    return words + [b"a", b"\x00", b"zz", b"\xff\xff"], docids + [0, -2, 5]


def lookups(cases, rng):
    for _ in range(150):
        columns = rng.choice((1, 2, 3, 16))
        newer, older = random_leaf(rng, columns), random_leaf(rng, columns)
        if rng.randrange(3) == 0:
            newer = damaged(rng, newer)
        if rng.randrange(3) == 0:
            older = damaged(rng, older)
        words, docids = probes(newer, columns)
        more_words, more_docids = probes(older, columns)
        ask_check(cases, newer, columns)
        for word in rng.sample(words + more_words, 3):
            ask_lookup(cases, newer, columns, word)
            for docid in rng.sample(docids + more_docids, 2):
                ask_deciding(cases, newer, older, columns, word, docid)


def numbers_read(cases):
    """Words before, at, between and after those of a leaf: one word, words apart, words that share prefixes."""
    for words in ((b"m",), (b"b", b"d", b"f", b"h"), (b"ab", b"abc", b"abcd", b"abd", b"b"), tuple(b"w%03d" % n for n in range(200))):
        leaf = reference.encode_leaf([(word, [(7, [(0, [n])])]) for n, word in enumerate(words)])
        for word in words:
            for sought in (word, word + b"\x00", word[:-1] + bytes([word[-1] - 1]), word[:-1] + bytes([word[-1] + 1]), word[:1]):
                ask_lookup(cases, leaf, 1, sought)
        for sought in (b"\x00", b"\xff" * 64):
            ask_lookup(cases, leaf, 1, sought)


def refusals(cases):
    """Each refusal of the lookups, alone and two at once."""
    bad = P12[:-1]
    for columns in (0, 3, 17):
        for leaf in (P12, bad, b""):
            for word in (b"", b"reply", b"r" * 64, b"r" * 65):
                ask_lookup(cases, leaf, columns, word)
                for older in (P12, bad):
                    for docid in (7, -1, -2**63, TOP_DOCID):
                        ask_deciding(cases, leaf, older, columns, word, docid)
    half = leaf_of_list(reference.encode_doclist([(d, []) for d in range(1, 16380)]))
    ask_deciding(cases, half, half, 3, b"w", 9)
    ask_deciding(cases, half + P12, half, 3, b"w", 9)


def deletions(cases):
    """A deletion in the newer leaf decides; so does an entry there. Then the same at each edge of what a docid can be."""
    live = reference.encode_leaf([(b"reply", [(7, [(2, [0, 1])]), (9, [(0, [3])])])])
    gone = reference.encode_leaf([(b"reply", [(7, [])]), (b"timeout", [(9, [(2, [0])])])])
    for newer, older in ((gone, live), (live, gone)):
        for word in (b"reply", b"timeout", b"repl", b"replyy"):
            for docid in (6, 7, 8, 9, 10):
                ask_deciding(cases, newer, older, 3, word, docid)
    live = reference.encode_leaf([(b"reply", [(docid, [(0, [n])]) for n, docid in enumerate(EDGES)])])
    for deleted in (EDGES[::2], EDGES[1::2], EDGES[:1], EDGES[-1:]):
        gone = reference.encode_leaf([(b"reply", [(docid, []) for docid in deleted])])
        for newer, older in ((gone, live), (live, gone), (gone, gone)):
            for docid in (*EDGES, LEAST_DOCID + 2, -2, 2, TOP_DOCID - 2):
                ask_deciding(cases, newer, older, 3, b"reply", docid)


def make(cases):
    rng = random.Random(SEED)
    lists(cases)
    docids(cases)
    ten_bytes(cases)
    leaves(cases)
    sizes(cases)
    lookups(cases, rng)
    numbers_read(cases)
    refusals(cases)
    deletions(cases)
