"""Compared cases of the verdict sheet (document 02, section 13)."""
import itertools
import random

import lending
import reference
import search_cases
from case_writer import VERDICT, joined
from generated import LEAST_DOCID, TOP_DOCID, any_docid
from search_cases import NAMES, leaf_with

SEED = 20269
MOST = reference.MAX_RUN_ROWS
# what crate `cases` has for each room
MAX_ROOM = 1024
PASS, FAIL, SILENT = search_cases.VERDICT, b"outcome:late", b"outcome:timeout"
SHEET = PASS, FAIL, SILENT
# over leaves in which each of these words has rows of its own
WORDS = b"a", b"b", b"c"
EMPTY = b"absent"
# of the damaged leaves of the certificate one in so many: the search has cases of all
DAMAGE_STEP = 5


def ask(cases, run, queries, leaves, rooms):
    """Leaves come newest first; their order of lending and their pairs follow from the case's number."""
    ask_lent(cases, run, queries, lending.lent(random.Random(len(cases.lines)), leaves), rooms)


def ask_lent(cases, run, queries, lent, rooms, names=NAMES):
    """Leaves as they are lent. The rooms' sizes are handed in; the program fills them with other numbers beforehand."""
    first, last = run
    names_data, name_ends = joined(names)
    leaves, leaf_ends, *pairs = lent
    cases.ask(VERDICT, first % 2**64, last % 2**64, first=names_data, first_ends=name_ends, second=leaves, second_ends=leaf_ends, pairs=pairs,
              short=queries[0], shorts=queries[1:], rooms=rooms)
    expect(cases, *reference.verdict(first, last, names_data, name_ends, *lent, *queries, *rooms))


def expect(cases, number, beside, counts, rooms):
    """The number; the four counts where rows were counted, else the second number as its 64 bits; then all numbers of the rooms, each as its 64 bits."""
    cases.expect(number, *(counts if number == 0 else [beside % 2**64]), *(docid % 2**64 for room in rooms for docid in room))


def count_of(query, lent):
    """How many docids an accepted search lists."""
    return reference.search(*joined(NAMES), *lent, query, 0)[1]


def needs(queries, leaves):
    """The rooms that are just enough."""
    return [count_of(query, lending.in_order(leaves)) for query in queries]


def words_leaf(*lists):
    """A leaf in which the words of the queries stand in these rows."""
    rows = [(word, [(docid, [(0, [0])]) for docid in sorted(docids)]) for word, docids in zip(WORDS, lists) if docids]
    return reference.encode_leaf(rows)


def certificate(cases):
    """312 rows, 40 of them silence: all of them, more, fewer; with queries that take a row twice; with the list of "timeout" damaged."""
    leaf = search_cases.certificate_leaf()
    exact = needs(SHEET, [leaf])
    assert exact == [272, 0, 40]
    for run in ((1, 312), (1, 313), (0, 312), (1, 400), (1, 280), (1, 279), (281, 312), (7, 7), (8, 8), (313, 400), (-3000, 312), (1, MOST), (0, MOST)):
        ask(cases, run, SHEET, [leaf], exact)
        ask(cases, run, SHEET, [leaf], [n + 3 for n in exact])
    for queries in ((b"outcome:reply", FAIL, SILENT), (PASS, b"outcome:no", SILENT), (PASS, b"outcome:reply", EMPTY), (PASS, SILENT, FAIL), (SILENT, FAIL, PASS)):
        for run in ((1, 312), (8, 13), (8, 14), (281, 312)):
            ask(cases, run, queries, [leaf], needs(queries, [leaf]))
    for damaged in itertools.islice(search_cases.with_damaged_timeout(leaf), 0, None, DAMAGE_STEP):
        ask(cases, (1, 312), SHEET, [damaged], exact)


def run_bounds(cases):
    """Runs of one row, of 4,096 and of 4,097, of none and fewer, across 0, and at both ends of what a docid can be, up to the whole of it."""
    lists = [LEAST_DOCID, -2, 0, 5], [-1, 3, TOP_DOCID], [LEAST_DOCID + 1, 1, 4, TOP_DOCID - 1]
    leaf, rooms = words_leaf(*lists), [4, 3, 4]
    firsts = sorted({LEAST_DOCID, LEAST_DOCID + 1, LEAST_DOCID + 2, -MOST, 1 - MOST, *range(-3, 7), TOP_DOCID - MOST, TOP_DOCID - MOST + 1, *range(TOP_DOCID - 2, TOP_DOCID + 1)})
    for first in firsts:
        for rows in (-MOST, -1, 0, 1, 2, 4, MOST - 1, MOST, MOST + 1, 2 * MOST, 2**32 + 1, 2**63, 2**64 - 1):
            last = first + rows - 1
            if LEAST_DOCID <= last <= TOP_DOCID:
                ask(cases, (first, last), WORDS, [leaf], rooms)
    for run in (
        (LEAST_DOCID, TOP_DOCID), (TOP_DOCID, LEAST_DOCID), (LEAST_DOCID, -1), (LEAST_DOCID, 0), (-1, TOP_DOCID), (0, TOP_DOCID), (0, LEAST_DOCID), (TOP_DOCID, 0),
        (TOP_DOCID, -1), (LEAST_DOCID + 1, TOP_DOCID), (LEAST_DOCID, TOP_DOCID - 1), (2**62, -2**62), (-2**62, 2**62),
    ):
        ask(cases, run, WORDS, [leaf], rooms)


def full_run(cases):
    """4,096 rows across 0, a quarter in each list and a quarter in none; and without the first row and the last."""
    rows = range(1 - MOST // 2, MOST // 2 + 1)
    leaf = words_leaf(rows[0::4], rows[1::4], rows[2::4])
    for run in ((rows[0], rows[-1]), (rows[1], rows[-2])):
        ask(cases, run, WORDS, [leaf], [MAX_ROOM] * 3)


def overlaps(cases):
    """A row in each two lists and in all three: before the run, at its first row, inside, at its last and after it."""
    run = -2, 3
    for size in (2, 3):
        for chosen in itertools.combinations(range(3), size):
            for docid in range(-4, 6):
                lists = [[docid, 10 + place] if place in chosen else [20 + place] for place in range(3)]
                ask(cases, run, WORDS, [words_leaf(*lists)], [2] * 3)
                # a leaf for each list: the same row, in three posting lists of three leaves
                ask(cases, run, WORDS, [words_leaf(*(listed if place == word else [] for word, listed in enumerate(lists))) for place in range(3)], [2] * 3)
    for docid in (LEAST_DOCID, LEAST_DOCID + 1, -1, 0, TOP_DOCID - 1, TOP_DOCID):
        for chosen in itertools.combinations(range(3), 2):
            leaf = words_leaf(*([docid] if place in chosen else [] for place in range(3)))
            for run in ((docid, docid), (max(docid - 5, LEAST_DOCID), docid), (docid, min(docid + 5, TOP_DOCID))):
                ask(cases, run, WORDS, [leaf], [1] * 3)


def smallest(cases, rng):
    """Several rows in two lists, some of them outside the run: each pair's own smallest is the first, the second or the last."""
    for lists in itertools.permutations(([-3, 0, 2, 7], [-3, 1, 2], [0, 1, 7])):
        for run in ((-3, 7), (-2, 7), (0, 7), (1, 7), (2, 7), (3, 7), (7, 7), (3, 6), (-9, -4), (-9, -3), (8, 20)):
            ask(cases, run, WORDS, [words_leaf(*lists)], [4] * 3)
    for _ in range(250):
        lists = [{rng.randrange(-12, 12) for _ in range(rng.randrange(7))} for _ in range(3)]
        first = rng.randrange(-14, 12)
        ask(cases, (first, first + rng.choice((0, 3, 9, 30))), WORDS, [leaf for leaf in [words_leaf(*lists)] if leaf], [len(listed) for listed in lists])


def rooms(cases):
    """Each room one too small, just enough and larger, with rows outside the run too; and no room."""
    leaf = words_leaf([1, 2, 30], [3, -30], [4, 5, 6, 31])
    exact = needs(WORDS, [leaf])
    for run in ((1, 6), (1, 40), (7, 9), (9, 1)):
        for more in itertools.product((-1, 0, 2), repeat=3):
            ask(cases, run, WORDS, [leaf], [n + m for n, m in zip(exact, more)])
        for none in itertools.product((0, 4), repeat=3):
            ask(cases, run, WORDS, [leaf], none)


def wrong_queries(cases):
    """Each query wrong in turn, and each two, in each way that a query can be wrong."""
    leaf = words_leaf([1], [2], [3])
    for wrong in (b"", b" ", b"a AND", b"nonesuch:a", b'"a', b"(a", b"NOT a", b"a" * 65, b" ".join([b"a"] * 17), b"(" * 9 + b"a" + b")" * 9, b"a" + b" " * 512):
        for places in (*itertools.combinations(range(3), 1), *itertools.combinations(range(3), 2), range(3)):
            queries = [wrong if place in places else word for place, word in enumerate(WORDS)]
            ask(cases, (1, 4), queries, [leaf], [1] * 3)
    # a query of 512 bytes at each place is none of them
    for place in range(3):
        ask(cases, (1, 4), [word + b" " * 511 if word == WORDS[place] else word for word in WORDS], [leaf], [1] * 3)


def shapes(cases):
    """Each way in which what is lent has no shape, with a sound run and without; and a shape that is right at its bound."""
    leaf = words_leaf([1], [2], [3])
    data, ends, levels, indexes = lending.in_order([leaf])
    numbered = [b"c%d" % i for i in range(17)]
    lent = [
        (data, [], levels, indexes), (data, [len(data) + 1], levels, indexes), (data, [len(data) - 1], levels, indexes), (data, [5, 4, len(data)], [0] * 3, [0, 1, 2]),
        (data, ends, [], indexes), (data, ends, levels, []), (data, ends, [0, 1], [0, 1]), lending.as_lent([leaf] * 2, [(3, 4)] * 2), lending.in_order([leaf] * 9),
        lending.in_order([leaf] * 8), lending.in_order([bytes(65537)]), (b"", [], [0], [0]),
    ]
    for run in ((1, 4), (4, 1)):
        for what in lent:
            ask_lent(cases, run, WORDS, what, [1] * 3)
        for names in ([], [b"a", b"A", b"b"], [b""], [b"a b"], [b"c" * 33], numbered[:16], numbered):
            ask_lent(cases, run, WORDS, lending.in_order([leaf]), [1] * 3, names)


PARTS = "pass", "fail", "silent"
# What can be wrong with a sheet, in the order in which it is judged.
FAULTS = "run", "names", "pass query", "leaf", "pass room", "fail query", "fail room", "silent query", "silent room", "two lists"


def ask_faults(cases, faults):
    """A sheet that is sound but for these faults: its lists have 3, 3 and 4 docids. A run that is too long has the row in two lists too."""
    silent = [7, 8, 2] if "two lists" in faults else [7, 8, 9]
    leaves = [words_leaf([1, 2], [5, 6], silent), words_leaf([11], [12], [13])[:-1 if "leaf" in faults else None]]
    names = [b"a", b"A", b"b"] if "names" in faults else NAMES
    queries = [word + b" AND" if part + " query" in faults else word for word, part in zip(WORDS, PARTS)]
    sizes = [2 if part + " room" in faults else 4 for part in PARTS]
    ask_lent(cases, (1, MOST + 1) if "run" in faults else (1, 9), queries, lending.in_order(leaves), sizes, names)


def faults(cases):
    """No fault, each alone, and each two and three at once."""
    for count in range(4):
        for chosen in itertools.combinations(FAULTS, count):
            ask_faults(cases, chosen)


def no_leaf(cases):
    for run in ((1, 1), (-5, 5), (1, MOST), (1, MOST + 1), (LEAST_DOCID, LEAST_DOCID + MOST - 1), (2, 1)):
        for sizes in ((0, 0, 0), (0, 2, 0), (3, 1, 2)):
            ask(cases, run, WORDS, [], sizes)
            ask(cases, run, (b"a", b"a", b"a"), [], sizes)
    ask(cases, (1, 9), (b"a", b"b AND", b"c"), [], (1, 1, 1))


def orders(cases):
    """Leaves that tell their order, in all orders of lending: a row is a pass or a failure by which of two leaves is the newer."""
    queries = b"node:w", b"d", EMPTY
    for count in (3, 4):
        leaves = lending.telling_leaves(count)
        for pairs in (search_cases.ONE_LEVEL, search_cases.OWN_LEVELS, search_cases.MIXED, search_cases.EXTREMES):
            for order in itertools.permutations(range(count)):
                lent = lending.as_lent([leaves[place] for place in order], [pairs[place] for place in order])
                ask_lent(cases, (1, 30), queries, lent, [6] * 3)


def broken_places(cases):
    """A broken leaf at each place of the lending, and one at the last."""
    leaf = words_leaf([1], [2], [3])
    for count in range(1, 9):
        for bad in range(count):
            leaves = [leaf[:-1] if place in (bad, count - 1) else leaf for place in range(count)]
            for pairs in (search_cases.ONE_LEVEL, search_cases.OWN_LEVELS):
                ask_lent(cases, (1, 4), WORDS, lending.as_lent(leaves, pairs[:count]), [1] * 3)


def some_outcome(rng):
    return rng.choice((b"reply", b"reply", b"reply late", b"late", b"no reply, timeout", b"timeout", b"lost"))


def changes(cases, rng):
    """Probes over several leaves, changed and withdrawn in later ones; runs about them, and queries that may take a row twice."""
    sheets = [
        (b"outcome:reply NOT outcome:timeout NOT outcome:late", FAIL, SILENT), SHEET, (b"reply", b"late", b"timeout"), (b"reply NOT late", b"late NOT timeout", b"timeout NOT reply"),
        (b"reply NOT (late OR timeout)", b"late OR lost", b"time*"), (b"node:n1 reply", b"node:n2 reply", b"node:n3"), (b'"no reply"', b"lost", b"late"),
    ]
    for _ in range(60):
        base = rng.choice((0, -4, -9, any_docid(rng)))
        base = min(max(base, LEAST_DOCID), TOP_DOCID - 9)
        rows, leaves = {}, []
        for _ in range(rng.randrange(1, 6)):
            fresh, gone = {}, []
            for docid in {base + rng.randrange(9) for _ in range(rng.randrange(1, 9))}:
                gone += [(word, docid) for word, _ in reference.document_terms(docid, rows.pop(docid, []))]
                if rng.randrange(5):
                    rows[docid] = fresh[docid] = [b"n%d" % rng.randrange(1, 4), b"t", some_outcome(rng)]
            leaves.insert(0, leaf_with(sorted(fresh.items()), gone))
        leaves = [leaf for leaf in leaves if leaf]
        for queries in rng.sample(sheets, 4):
            first = max(base - rng.randrange(3), LEAST_DOCID)
            run = first, min(first + rng.choice((0, 2, 5, 9, MOST - 1)), TOP_DOCID)
            ask(cases, run, queries, leaves, [n + rng.choice((0, 0, 0, 2)) for n in needs(queries, leaves)])


def make(cases):
    certificate(cases)
    run_bounds(cases)
    full_run(cases)
    overlaps(cases)
    smallest(cases, random.Random(SEED))
    rooms(cases)
    wrong_queries(cases)
    shapes(cases)
    faults(cases)
    no_leaf(cases)
    orders(cases)
    broken_places(cases)
    changes(cases, random.Random(SEED))
