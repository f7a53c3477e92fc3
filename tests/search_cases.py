"""Compared cases of the search."""
import itertools
import random

import lending
import reference
from case_writer import SEARCH, joined
from generated import EDGES, LEAST_DOCID, TOP_DOCID, some_docid
from leaf_format import MAX_U32

SEED = 20265
NAMES = [b"node", b"sent", b"outcome"]
VERDICT = b"outcome:reply NOT outcome:timeout"
SILENCE_ROOM = 400
QUERIES = [
    b"reply", VERDICT, b"n1 OR n2 OR n3", b"n1 reply", b'"no reply"', b"no NEAR/0 timeout", b"no NEAR/1 timeout", b"timeout NEAR/1 no",
    b"n* timeout", b"t1* reply", b"reply NOT late", b"outcome:re*", b"node:reply", b"absent", b"a*", b'"reply la*"', b"late NEAR reply",
    b"(n1 OR n2) NOT (late OR timeout)", b"sent:t1* NOT n1*", b"no NEAR reply NEAR timeout", b"reply NEAR/0 reply", b'"no reply" NEAR/0 timeout',
]


def ask(cases, query, leaves, room, names=NAMES, name_ends=None, leaf_ends=None):
    """Leaves come newest first; their order of lending and their pairs follow from the case's number."""
    data, ends, levels, indexes = lending.lent(random.Random(len(cases.lines)), leaves)
    ask_lent(cases, query, (data, ends if leaf_ends is None else leaf_ends, levels, indexes), room, names, name_ends)


def ask_lent(cases, query, lent, room, names=NAMES, name_ends=None):
    """Leaves as they are lent. The room's size is handed in; the program fills it with other numbers beforehand."""
    names_data, ends = joined(names)
    name_ends = ends if name_ends is None else name_ends
    leaves, leaf_ends, *pairs = lent
    cases.ask(SEARCH, room, first=names_data, first_ends=name_ends, second=leaves, second_ends=leaf_ends, pairs=pairs, short=query)
    expect(cases, *reference.search(names_data, name_ends, *lent, query, room))


def expect(cases, number, beside, after):
    """The two numbers, the docids listed, each as its 64 bits, and how many numbers after them are not 0."""
    listed = after[:beside] if number == 0 else []
    cases.expect(number, beside, *(docid % 2**64 for docid in listed), sum(1 for d in after[len(listed):] if d != 0))


def count_of(query, lent):
    """How many docids an accepted search lists."""
    return reference.search(*joined(NAMES), *lent, query, 0)[1]


def ask_rooms(cases, query, leaves):
    count = count_of(query, lending.in_order(leaves))
    for room in {0, max(count - 1, 0), count, count + 3}:
        ask(cases, query, leaves, room)


def leaf_of(rows, deleted=()):
    """The leaf for rows (docid, texts), with a deletion of (word, docid) for each of `deleted`."""
    lists = {}
    for docid, texts in rows:
        for word, entries in reference.document_terms(docid, texts):
            lists.setdefault(word, {})[docid] = entries[0][1]
    for word, docid in deleted:
        lists.setdefault(word, {})[docid] = []
    return reference.encode_leaf([(word, sorted(lists[word].items())) for word in sorted(lists)])


def probe(rng, docid):
    outcome = rng.choice((b"reply", b"reply late", b"no reply, timeout", b"reply reply", b"late reply no timeout"))
    return docid, [b"n%d" % rng.randrange(1, 5), b"t%d" % (docid * 7 % 40), outcome]


def changes(cases, rng):
    """Rows inserted, updated and deleted over several leaves, on both sides of 0."""
    for _ in range(40):
        rows, leaves = {}, []
        for _ in range(rng.randrange(1, 9)):
            fresh, gone = [], []
            for _ in range(rng.randrange(1, 5)):
                docid = some_docid(rng, 6)
                if docid in rows:
                    for word, _ in reference.document_terms(docid, rows[docid]):
                        gone.append((word, docid))
                    del rows[docid]
                if rng.randrange(3):
                    row = probe(rng, docid)
                    rows[docid] = row[1]
                    fresh = [r for r in fresh if r[0] != docid] + [row]
            leaves.insert(0, leaf_with(fresh, gone))
        for query in rng.sample(QUERIES, 6):
            ask_rooms(cases, query, [leaf for leaf in leaves if leaf])


def leaf_with(fresh, gone):
    live = {(word, docid) for docid, texts in fresh for word, _ in reference.document_terms(docid, texts)}
    return leaf_of(fresh, [pair for pair in gone if pair not in live])


def shapes(cases):
    one = leaf_of([probe(random.Random(1), d) for d in range(1, 4)])
    for count in (0, 1, 8, 9):
        ask(cases, b"reply", [one] * count, 9)
    big = reference.encode_leaf([(b"reply", [(d, []) for d in range(1, 32700)])])
    for size in (65536, 65537):
        leaf = big
        pad = size - len(leaf)
        entries = [(1, [(0, list(range(0, pad - 9)))])]
        leaves = [leaf, reference.encode_leaf([(b"w", entries)])]
        short = size - sum(map(len, leaves))
        leaves[1] = reference.encode_leaf([(b"w" * (1 + short), entries)])
        ask(cases, b"reply OR w*", leaves, 5)
    names = [b"c%d" % i for i in range(17)]
    ask(cases, b"c1:reply", [one], 9, names[:16])
    ask(cases, b"reply", [one], 9, names)
    ask(cases, b"reply", [one], 9, [])
    ask(cases, b"reply", [one], 9, [b"a", b"A"])
    ask(cases, b"reply", [one], 9, name_ends=[4, 3, 15])
    ask(cases, b"reply", [one], 9, leaf_ends=[len(one) + 1])
    ask(cases, b"reply", [one], 9, leaf_ends=[])
    ask(cases, b"reply", [b"", one], 9)


def faults(cases):
    """Each refusal, and each pair of two at once."""
    good = leaf_of([(d, [b"n1", b"t", b"reply"]) for d in range(1, 6)])
    bad = good[:-1]
    for names in (NAMES, [b"a", b"A", b"b"]):
        for query in (b"reply", b"reply AND", b"nonesuch:reply"):
            for leaves in ([good], [bad], [good, bad], [bad, good], [good, good, bad, bad]):
                for room in (0, 4, 5, 6):
                    ask(cases, query, leaves, room, names)


def certificate_leaf():
    """312 rows, 40 of them silence."""
    return leaf_of([(d, [b"", b"", b"no reply, timeout" if d % 7 == 0 and d < 281 else b"reply"]) for d in range(1, 313)])


def with_damaged_timeout(leaf):
    """The leaf with the list of "timeout" damaged at each place, and with its length lowered."""
    start, end = [(a, e) for term, _, a, e in reference.parse_leaf(leaf, 3) if term == b"timeout"][0]
    for at in range(start, end):
        yield leaf[:at] + leaf[at + 1:]
        yield leaf[:at]
    size = end - start
    stored = len(reference.encode_varint(size))
    for lower in range(size):
        yield leaf[:start - stored] + reference.encode_varint(lower) + leaf[start:]


def silence(cases):
    """The certificate; then with each damage to its silence."""
    leaf = certificate_leaf()
    assert reference.search(*joined(NAMES), *lending.in_order([leaf]), VERDICT, SILENCE_ROOM)[:2] == (0, 272)
    ask(cases, VERDICT, [leaf], SILENCE_ROOM)
    for damaged in with_damaged_timeout(leaf):
        ask(cases, VERDICT, [damaged], SILENCE_ROOM)


def positions(cases):
    """NEAR at its exact distance in both orders, phrases, columns."""
    rows = [
        (1, [b"a x b", b"", b""]), (2, [b"b x a", b"", b""]), (3, [b"a", b"b", b""]), (4, [b"a b", b"", b""]), (5, [b"a x x b", b"a b", b""]),
        (6, [b"a a a", b"", b"b"]), (7, [b"a " + b"x " * 10 + b"b", b"", b""]), (8, [b"a " + b"x " * 11 + b"b", b"", b""]), (9, [b"b a b", b"", b"ab abc"]),
        (10, [b"a x x x b", b"", b""]), (11, [b"b x x x x a", b"", b""]),
    ]
    leaf = leaf_of(rows)
    for query in (
        b"a NEAR/0 b", b"b NEAR/1 a", b"b NEAR/0 a", b"a NEAR b", b"b NEAR a", b"a NEAR/2 b", b"a NEAR/3 b", b"a NEAR/4 b", b"a NEAR/10 b", b"a NEAR/11 b", b'"a b"', b'"a x b"', b'"b a"', b"a NEAR/0 a",
        b"a NEAR b NEAR a", b"b NEAR/0 a NEAR/0 b", b'"a x" NEAR/0 b', b'b NEAR/0 "a b"', b'"a b" NEAR/0 b', b"node:a NEAR sent:b", b"node:a sent:b", b"sent:a NEAR sent:b",
        b"ab*", b"a*", b'"ab ab*"', b"a* NEAR/0 b*", b"x NEAR/0 x", b"a NOT b", b"b NOT a", b"outcome:a*", b'"a* b"', b"a NEAR/1 x NEAR/1 b",
    ):
        ask_rooms(cases, query, [leaf])


def ends(cases):
    """Neighbours of a NEAR that end at one position are not near; overlapping ones that end apart are (document 02, section 3)."""
    texts = [
        b"a", b"a a", b"a b", b"a b b", b"b a b", b"a b x b", b"a b c", b"a b c b", b"c b a b", b"a b c x b c", b"ab", b"a ab", b"ab ab", b"a x x a", b"b c b c",
        b"a b " + b"x " * 10 + b"b", b"a b " + b"x " * 11 + b"b", b"a a a", b"a b a b",
    ]
    leaf = leaf_of([(docid, [text, b"", b"a" if docid == 1 else b""]) for docid, text in enumerate(texts, 1)])
    operands = [b"a", b"b", b"ab", b"a*", b'"a b"', b'"b c"', b'"c b"', b'"a b c"', b'"a* b"']
    for first in operands:
        for second in operands:
            for near in (b" NEAR ", b" NEAR/0 ", b" NEAR/2 "):
                ask_rooms(cases, first + near + second, [leaf])
    for count in range(2, 17):
        ask_rooms(cases, b" NEAR ".join([b"a"] * count), [leaf])
        ask_rooms(cases, b" NEAR/0 ".join([b"a"] * count), [leaf])
    for query in (b"a NEAR b NEAR a", b"a NEAR/0 b NEAR/0 a", b'"a b" NEAR b NEAR "a b"', b"a NEAR a NEAR b", b"node:a NEAR outcome:a", b"outcome:a NEAR outcome:a"):
        ask_rooms(cases, query, [leaf])


# document 02, section 9
SIGNED = [
    b"a", b"b", b"a b", b"a OR b", b"a NOT b", b"b NOT a", b"a NEAR b", b"a NEAR/0 b", b'"a b"', b"a*", b"a* NOT b", b"node:a sent:b", b"(a OR c) NOT (b NEAR c)",
    b"absent OR c", b"a NOT absent", b"absent NOT a", b"b NEAR/1 a NEAR/0 c", b"a* OR b* OR c*",
]


def signs(cases):
    """Rows below and above 0, the least and the largest: in one leaf, each in its own, by turns in two; each changed or deleted in a newer leaf."""
    texts = [[b"a b", b"", b"c"], [b"a", b"b", b""], [b"b a c", b"", b""], [b"c", b"a b", b""], [b"a x b", b"c", b"ab"], [b"b", b"", b"a"], [b"a b c", b"b", b""]]
    rows = list(zip(EDGES, texts))
    other = [(docid, texts[-1 - n]) for n, docid in enumerate(EDGES)]
    alone = [leaf_of([row]) for row in rows]
    several = [
        [leaf_of(rows)], alone, alone[::-1], [leaf_of(rows[::2]), leaf_of(rows[1::2])], [leaf_of(rows[3:]), leaf_of(rows[:4])], [leaf_of(other), leaf_of(rows)],
        [leaf_of(other[:3]), leaf_of(other[-2:]), leaf_of(rows)], [leaf_of(rows[:3])], [leaf_of(rows[-3:]), leaf_of(other)],
    ]
    for leaves in several:
        for query in SIGNED:
            ask_rooms(cases, query, leaves)
    for docid, text in rows:
        words = [word for word, _ in reference.document_terms(docid, text)]
        gone, some = leaf_of([], [(word, docid) for word in words]), leaf_of([(docid, [b"c", b"", b""])], [(b"a", docid)])
        for leaves in ([gone, leaf_of(rows)], [some, leaf_of(rows)], [leaf_of(rows), gone], [gone, some, leaf_of(rows)], [some, gone, leaf_of(other)]):
            for query in (b"a", b"a b", b"a NOT b", b"b NOT a", b"c OR a NEAR b"):
                ask_rooms(cases, query, leaves)


def last_docid(cases):
    """The largest docid: the only row, deleted, live again, and after lists of newer leaves that have come to their end."""
    row = [b"a b", b"", b"c"]
    only, early, empty = leaf_of([(TOP_DOCID, row)]), leaf_of([(-5, row), (3, row)]), leaf_of([], [(word, -5) for word in (b"a", b"b", b"c")])
    gone, later = leaf_of([], [(word, TOP_DOCID) for word in (b"a", b"b")]), leaf_of([(3, row), (TOP_DOCID, [b"", b"a", b"b"])], [(b"c", TOP_DOCID)])
    for leaves in (
        [only], [only] * 8, [early, only], [only, early], [early, early, only], [empty, early, only], [empty, only], [early] * 7 + [only],
        [gone, only], [only, gone], [gone], [early, gone, only], [gone, early, only], [only, gone, early, only],
        [later], [later, only], [early, later, only], [gone, later], [early, gone, early, later, empty, only],
    ):
        for query in SIGNED:
            ask_rooms(cases, query, leaves)


def many_lists(cases, rng):
    """Many lists at once, of 40 words in up to 4 leaves: some end before the largest docid, some at it, by a deletion or not."""
    words = [b"w%02d" % n for n in range(40)]
    for _ in range(12):
        leaves = []
        for _ in range(rng.randrange(1, 5)):
            lists = []
            for word in words:
                docids = sorted({rng.choice(EDGES) for _ in range(rng.randrange(4))})
                entries = [(docid, [(rng.randrange(3), [rng.randrange(4)])] if rng.randrange(3) else []) for docid in docids]
                lists += [(word, entries)] if entries else []
            leaves.append(reference.encode_leaf(lists))
        for query in (b"w*", b"w0* w1* w2* w3*", b"w0* NOT w1*", b"w1* NEAR/1 w3*", b"w15 OR w39", b"w05 w06", b"w00 NOT w39", b'"w* w2*"', b"w3* NOT (w0* OR w1*)"):
            count = count_of(query, lending.in_order(leaves))
            for room in {max(count - 1, 0), count}:
                ask(cases, query, leaves, room)


def broken_docids(cases):
    """Docids that do not rise as signed numbers, and numbers that are none, in one leaf among others."""
    good = leaf_of([(LEAST_DOCID, [b"a", b"", b""]), (-1, [b"a", b"", b""]), (TOP_DOCID, [b"a", b"", b""])])
    encode = reference.encode_varint
    for doclist in (
        encode(2**64 - 1) + b"\x02\x00" + encode(2**63 + 1) + b"\x02\x00", encode(2**63) + b"\x02\x00\x00\x02\x00",
        encode(7) + b"\x02\x00" + encode(2**64 - 1) + b"\x02\x00",
        b"\xff" * 9 + b"\x00\x02\x00", b"\xff" * 9 + b"\x02\x02\x00", b"\xff" * 9 + b"\x7f\x02\x00", b"\xff" * 10 + b"\x02\x00", b"\xff" * 10 + b"\x01\x02\x00",
        b"\x07" + encode(2**64 - 1) + b"\x00", b"\x07\x01" + encode(2**64 - 1) + b"\x02\x00",
    ):
        bad = b"\x00\x01a" + encode(len(doclist)) + doclist
        for leaves in ([bad], [good, bad], [bad, good], [good, good, bad, bad]):
            for room in (0, 3):
                ask(cases, b"a", leaves, room)


# document 02, section 11: the pairs of eight leaves, each list newest first
ONE_LEVEL = [(0, index) for index in reversed(range(8))]
OWN_LEVELS = [(level, level) for level in range(8)]
MIXED = [(0, 1), (0, 0), (1, 3), (2, 15), (2, 2), (2, 0), (1023, 9), (1023, 8)]
EXTREMES = [(0, MAX_U32), (0, 0), (MAX_U32, MAX_U32), (MAX_U32, 0)]
# on both sides of what a signed number of 32 bits can be
HALVES = [(2**31 - 1, 0), (2**31, 2**31), (2**31, 2**31 - 1), (2**31 + 1, 0)]
# over leaves that tell their order
TELLING = [b"node:w", b"d", b"w NOT d", b"w"]


def ask_order(cases, leaves, pairs, order):
    """The leaves with their pairs, lent in this order, with room enough and one too little."""
    lent = lending.as_lent([leaves[place] for place in order], [pairs[place] for place in order])
    for query in TELLING:
        count = count_of(query, lent)
        for room in {max(count - 1, 0), count}:
            ask_lent(cases, query, lent, room)


def orders(cases, rng):
    """All orders of lending three and four leaves; eight leaves in some orders. Which leaf has which pair is drawn for each list of pairs."""
    for count in (3, 4):
        for pairs in (ONE_LEVEL, OWN_LEVELS, MIXED, EXTREMES, HALVES):
            dated = rng.sample(pairs[:count], count)
            for order in itertools.permutations(range(count)):
                ask_order(cases, lending.telling_leaves(count), dated, order)
    eight = range(8)
    for pairs in (ONE_LEVEL, OWN_LEVELS, MIXED):
        dated = rng.sample(pairs, 8)
        for order in (eight, eight[::-1], *(rng.sample(eight, 8) for _ in range(6))):
            ask_order(cases, lending.telling_leaves(8), dated, order)


def equal_pairs(cases):
    """Two leaves with the same pair, side by side and apart; with the same level alone, and the same index alone. First among other faults."""
    for count in (2, 3, 8):
        leaves = lending.telling_leaves(count)
        for one, other in itertools.combinations(range(count), 2):
            for level, index in ((one, 0), (one, 1), (count, 0)):
                pairs = [(place, 0) for place in range(count)]
                pairs[other] = level, index
                for room in (0, 30):
                    ask_lent(cases, b"w", lending.as_lent(leaves, pairs), room)
    for pair in ((0, 0), (0, MAX_U32), (MAX_U32, 0), (MAX_U32, MAX_U32)):
        for count in (2, 8):
            ask_lent(cases, b"w", lending.as_lent(lending.telling_leaves(count), [pair] * count), 5)
    for query in (b"w", b"w AND"):
        for leaves in (lending.telling_leaves(2), [b"", b""]):
            for names in (NAMES, [b"a", b"A", b"b"]):
                for pairs in ([(3, 3), (3, 3)], [(3, 3), (3, 4)]):
                    ask_lent(cases, query, lending.as_lent(leaves, pairs), 0, names)


def lengths(cases):
    """Lists of levels and indexes that are too short, too long, empty: one of them, both, by the same and by other lengths."""
    many = lending.telling_leaves(8)
    for count in (0, 1, 3, 8):
        for levels, indexes in itertools.product(sorted({0, 1, max(count - 1, 0), count, count + 1, 32}), repeat=2):
            ask_lent(cases, b"w", (*joined(many[:count]), list(range(levels)), list(range(indexes))), 30)


def broken_places(cases):
    """A broken leaf at each place of the lending, and another at the last: whichever is newer, the first lent is told."""
    good = leaf_of([(d, [b"n1", b"t", b"reply"]) for d in range(1, 6)])
    for count in range(1, 9):
        for bad in range(count):
            leaves = [good[:-1] if place in (bad, count - 1) else good for place in range(count)]
            for pairs in (ONE_LEVEL, ONE_LEVEL[::-1], OWN_LEVELS, MIXED[1::2] + MIXED[::2]):
                for room in (0, 5):
                    ask_lent(cases, b"reply", lending.as_lent(leaves, pairs[:count]), room)


def make(cases):
    rng = random.Random(SEED)
    positions(cases)
    ends(cases)
    signs(cases)
    last_docid(cases)
    many_lists(cases, rng)
    broken_docids(cases)
    changes(cases, rng)
    shapes(cases)
    faults(cases)
    orders(cases, random.Random(SEED))
    equal_pairs(cases)
    lengths(cases)
    broken_places(cases)
    silence(cases)
