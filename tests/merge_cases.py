"""Compared cases of the full merge and of the keeping one (document 02, sections 4, 6 and 11)."""
import itertools
import random

import lending
import reference
from case_writer import MERGE, MERGE_KEEPING
from generated import EDGES, LEAST_DOCID, TOP_DOCID, any_docid
from leaf_cases import P12, damaged, leaf_of_list, leaf_of_size, random_leaf, varints
from leaf_format import MAX_U32
from search_cases import EXTREMES, HALVES, MIXED, ONE_LEVEL, OWN_LEVELS, leaf_of, leaf_with, probe

SEED = 20270
# what crate `cases` has for the room
MAX_ROOM = 65600
MOST = reference.MAX_LEAF_BYTES
PLACE = [(0, [0])]
# of the damaged bytes of a small leaf, each made these
OTHER_BYTES = 0, 1, 2, 127, 128, 255


class Merges:
    """The cases of the full merge or of the keeping one."""

    def __init__(self, cases, keep):
        self.cases = cases
        self.keep = keep

    def ask(self, leaves, room, columns=3):
        """Leaves come newest first; their order of lending and their pairs follow from the case's number."""
        self.ask_lent(lending.lent(random.Random(len(self.cases.lines)), leaves), room, columns)

    def ask_lent(self, lent, room, columns=3):
        """Leaves as they are lent. The room's size is handed in; the program fills it with other bytes beforehand."""
        assert room <= MAX_ROOM
        leaves, leaf_ends, *pairs = lent
        self.cases.ask(MERGE_KEEPING if self.keep else MERGE, columns, room, second=leaves, second_ends=leaf_ends, pairs=pairs)
        self.expect(*reference.merge(columns, *lent, room, self.keep))

    def expect(self, number, beside, level, index, after):
        """The two numbers, the pair, the leaf, and how far from the start the room has a byte that is not 0."""
        self.cases.expect(number, beside, level, index, after[:beside] if number == 0 else b"", len(after.rstrip(b"\x00")))

    def need(self, leaves, columns=3):
        """The bytes of an accepted merge of leaves that come newest first."""
        return reference.merge(columns, *lending.in_order(leaves), 0, self.keep)[1]

    def ask_rooms(self, leaves, columns=3):
        size = self.need(leaves, columns)
        for room in sorted({0, max(size - 1, 0), size, size + 5}):
            self.ask(leaves, room, columns)

    def ask_order(self, leaves, pairs, order, room):
        self.ask_lent(lending.as_lent([leaves[place] for place in order], [pairs[place] for place in order]), room)


def words_leaf(lists):
    """A leaf with these lists of entries."""
    return reference.encode_leaf(sorted(lists.items()))


def live(*docids):
    return [(docid, PLACE) for docid in sorted(docids)]


def gone(*docids):
    return [(docid, []) for docid in sorted(docids)]


def deletions(merges):
    """A deletion in a newer leaf, in an older one and in both; of a word, of a row, of a whole word, of everything; by all orders of age."""
    row, other = (7, [b"n12", b"probe", b"reply reply"]), (8, [b"n13", b"probe", b"no reply, timeout"])
    words = [word for word, _ in reference.document_terms(*row)]
    changed = leaf_with([(7, [b"n12", b"probe", b"late"])], [(word, 7) for word in words])
    groups = [
        [leaf_of([row, other]), changed, leaf_of([], [(word, 7) for word in words])],
        [leaf_of([row]), leaf_of([], [(b"reply", 7)]), leaf_of([other], [(b"probe", 7)])],
        [words_leaf({b"a": live(1, 2), b"b": live(2)}), words_leaf({b"a": gone(1)}), words_leaf({b"a": gone(2), b"b": live(1)})],
        [words_leaf({b"a": live(1), b"b": gone(1)}), words_leaf({b"a": gone(1), b"b": live(1)}), words_leaf({b"b": gone(1, 2), b"c": gone(1)})],
        [words_leaf({b"a": gone(1)}), words_leaf({b"a": gone(-1), b"b": gone(0)}), words_leaf({b"b": gone(0), b"bb": gone(5)})],
        [words_leaf({b"a": live(1), b"ab": live(1), b"b": live(1)}), words_leaf({b"a": gone(1), b"b": gone(1)}), words_leaf({b"ab": gone(1)})],
        # the prefix of a word that stays is another once the word before it is dropped
        [words_leaf({b"abc": live(3), b"abd": live(3), b"ac": live(3)}), words_leaf({b"abd": gone(3)}), words_leaf({b"abc": gone(3), b"abde": live(4)})],
    ]
    for leaves in groups:
        for count in (1, 2, 3):
            for chosen in itertools.permutations(leaves, count):
                merges.ask_rooms(list(chosen))


def entries_side_by_side(merges):
    """A word in one leaf, in each, in turns; the same docid with other columns and positions; columns that begin anew."""
    one = words_leaf({b"w": [(7, [(0, [0, 3]), (2, [1])]), (9, [(1, [5])])]})
    other = words_leaf({b"w": [(7, [(1, [2])]), (8, [(2, [2**31 - 1])])], b"x": [(7, [(0, [0])])]})
    third = words_leaf({b"v": live(7), b"w": [(6, [(0, [1])]), (8, []), (9, [(0, [0]), (1, [0]), (2, [0])])]})
    for count in (2, 3):
        for chosen in itertools.permutations((one, other, third), count):
            merges.ask_rooms(list(chosen))
    # a list whose length takes one byte in each leaf and two when merged, and the bytes about it
    for size in range(38, 46):
        merges.ask_rooms([words_leaf({b"w": live(*range(0, 2 * size, 2))}), words_leaf({b"w": live(*range(1, 7, 2))})], 1)


def words_in_turn(merges):
    """Words that rise by turns over leaves, share prefixes over leaves, and are prefixes of each other."""
    words = sorted({b"a", b"ab", b"abc", b"abcd", b"abd", b"b", b"ba", b"\x00", b"\x00\x00", b"\xff", b"\xff\xff", b"w" * 63, b"w" * 64, b"w" * 62 + b"x"})
    for parts in (1, 2, 3, 8):
        merges.ask_rooms([words_leaf({word: live(place) for place, word in enumerate(words) if place % parts == part}) for part in range(parts)])
    for b in range(0, 256, 5):
        merges.ask([words_leaf({bytes([b]): live(1)}), words_leaf({b"a": live(1), b"a" + bytes([b]): live(2)})], 40)


def counts_of_leaves(merges):
    """P12 alone and again and again; one leaf to eight, each with a row of its own, and with the same row."""
    merges.ask_rooms([P12])
    for count in range(1, 9):
        merges.ask_rooms([P12] * count)
        merges.ask_rooms([leaf_of([probe(random.Random(count), docid)]) for docid in range(count)])
        merges.ask_rooms([leaf_of([probe(random.Random(docid), 5)]) for docid in range(count)])


def orders(merges, rng):
    """Leaves that tell their order: all orders of lending three and four, some of eight. Which leaf has which pair is drawn for each list of pairs."""
    for count in (3, 4):
        for pairs in (ONE_LEVEL, OWN_LEVELS, MIXED, EXTREMES, HALVES):
            dated, leaves = rng.sample(pairs[:count], count), lending.telling_leaves(count)
            for order in itertools.permutations(range(count)):
                merges.ask_order(leaves, dated, order, 200)
    eight = range(8)
    for pairs in (ONE_LEVEL, OWN_LEVELS, MIXED):
        dated = rng.sample(pairs, 8)
        for order in (eight, eight[::-1], *(rng.sample(eight, 8) for _ in range(6))):
            merges.ask_order(lending.telling_leaves(8), dated, order, 400)


def pairs_answered(merges):
    """The newest pair at each place, both numbers at 0, 1, 2^31 and 2^32 - 1; with something written, with nothing, with a room too small."""
    numbers = 0, 1, 2**31 - 1, 2**31, MAX_U32
    for level, index in itertools.product(numbers, repeat=2):
        for leaf in (P12, words_leaf({b"a": gone(1)})):
            for room in (36, 35):
                merges.ask_lent(lending.as_lent([leaf], [(level, index)]), room)
        for other in ((MAX_U32, 0), (0, MAX_U32), (2**31, 2**31)):
            if other != (level, index):
                merges.ask_lent(lending.as_lent([P12, P12], [(level, index), other]), 36)
                merges.ask_lent(lending.as_lent([P12, P12], [other, (level, index)]), 36)


def equal_pairs(merges):
    """Two leaves with the same pair, side by side and apart; with the same level alone, and the same index alone."""
    for count in (2, 3, 8):
        for one, other in itertools.combinations(range(count), 2):
            for level, index in ((one, 0), (one, 1), (count, 0)):
                pairs = [(place, 0) for place in range(count)]
                pairs[other] = level, index
                merges.ask_lent(lending.as_lent([P12] * count, pairs), 36)
    for pair in itertools.product((0, MAX_U32), repeat=2):
        for count in (2, 8):
            merges.ask_lent(lending.as_lent([P12] * count, [pair] * count), 36)


def lengths(merges):
    """Lists of levels and indexes that are too short, too long, empty; no leaf, with and without pairs."""
    for count in (0, 1, 3, 8):
        for levels, indexes in itertools.product(sorted({0, 1, max(count - 1, 0), count, count + 1, 32}), repeat=2):
            merges.ask_lent((P12 * count, [36 * n for n in range(1, count + 1)], list(range(levels)), list(range(indexes))), 36)


def shapes(merges):
    """Each way in which what is lent has no shape, and what is just right."""
    numbers = list(range(32))
    for ends in ([], [35], [36], [37], [36, 36], [0, 36], [36, 35], [35, 36], [0, 0, 36], [12, 11, 36], [37, 36], [MAX_U32], [36, MAX_U32]):
        merges.ask_lent((P12, ends, numbers[:len(ends)], numbers[:len(ends)]), 36)
    for ends in ([], [0], [0] * 8, [0] * 9, [1]):
        merges.ask_lent((b"", ends, numbers[:len(ends)], numbers[:len(ends)]), 3)
    for count in (8, 9, 32):
        merges.ask([P12] * count, 36)
    for total in (MOST, MOST + 1):
        merges.ask([leaf_of_size(total)[0]], 3, 1)


def columns(merges):
    """Column counts that are none, and a leaf with a column at the bound and over it."""
    for count in (0, 1, 2, 3, 15, 16, 17, 255, 256, 2**31, MAX_U32):
        for column in (0, 1, 2, 14, 15, 16):
            merges.ask([words_leaf({b"w": [(7, [(column, [0])])]})], 20, count)
        merges.ask([P12, words_leaf({b"w": [(7, [(15, [0])])]}), words_leaf({b"w": gone(7)})], 60, count)


def docids(merges):
    """Each two and each three docids of the edges, over leaves: differences of one byte and of ten, on both sides of 0."""
    for one, other in itertools.permutations(EDGES, 2):
        merges.ask_rooms([words_leaf({b"w": live(one)}), words_leaf({b"w": live(other)})], 1)
        merges.ask([words_leaf({b"w": live(one) if one < other else live(other)}), words_leaf({b"w": sorted(live(one) + gone(other))})], 40, 1)
    for chosen in itertools.combinations(EDGES, 3):
        merges.ask([words_leaf({b"w": live(docid)}) for docid in chosen], 60, 1)
    for middle in EDGES:
        merges.ask_rooms([words_leaf({b"w": gone(middle)}), words_leaf({b"w": live(*EDGES)})], 1)
        merges.ask_rooms([words_leaf({b"w": gone(*(docid for docid in EDGES if docid != middle))}), words_leaf({b"w": live(*EDGES)})], 1)
    merges.ask_rooms([words_leaf({b"w": gone(*EDGES)}), words_leaf({b"w": live(*EDGES)})], 1)
    merges.ask_rooms([words_leaf({b"w": live(*EDGES[::2])}), words_leaf({b"w": live(*EDGES[1::2])})], 1)
    archive = [words_leaf({b"w": live(*range(first, first + 4))}) for first in (-12, -8, -4, 0)]
    merges.ask_rooms(archive, 1)
    merges.ask_rooms(archive[::-1], 1)


def needs(merges):
    """A merge that has more bytes than its leaves: just 65,536, and one more, with no room, with that of the most bytes and with that of the need. Other rooms
    are in tests/test_box.py: each of these cases has some 50,000 bytes."""
    merges.ask(lending.grown_leaves(MOST), MOST)
    for room in (0, MOST, MOST + 1):
        merges.ask(lending.grown_leaves(MOST + 1), room)


def broken_places(merges):
    """A broken leaf at each place of the lending, and another at the last: whichever is newer, the first lent is told."""
    for count in range(1, 9):
        for bad in range(count):
            leaves = [P12[:-1] if place in (bad, count - 1) else P12 for place in range(count)]
            for pairs in (ONE_LEVEL, ONE_LEVEL[::-1], MIXED[1::2] + MIXED[::2]):
                merges.ask_lent(lending.as_lent(leaves, pairs[:count]), 36)


def damage(merges):
    """Each byte of small leaves dropped, changed, doubled; alone and beside a sound one."""
    small = words_leaf({b"a": [(-1, [(1, [0, 2])]), (7, [])], b"ab": live(7)})
    for leaf in (P12, small):
        for at in range(len(leaf)):
            changed = [leaf[:at] + bytes([byte]) + leaf[at + 1:] for byte in OTHER_BYTES if byte != leaf[at]]
            changed += [leaf[:at] + bytes([leaf[at] ^ 1]) + leaf[at + 1:], leaf[:at] + leaf[at + 1:], leaf[:at], leaf[:at] + leaf[at:at + 1] + leaf[at:]]
            for place, other in enumerate(changed):
                merges.ask([[other], [other, leaf], [leaf, other]][place % 3], 50)


def broken_lists(merges):
    """Docids that do not rise as signed numbers, positions, columns and numbers that are none, beside a sound list of the word."""
    sound = words_leaf({b"w": live(LEAST_DOCID, -1, TOP_DOCID)})
    for numbers in (
        (), (7,), (7, 2), (7, 1, 0, 2, 0), (7, 2, 2, 0), (7, 2, 0, 0, 2, 0), (7, 1, 3, 2, 0), (7, 2**31 + 2, 0), (7, 0, 2**64 - 1, 0), (2**64 - 1, 0, 2**63 + 1, 0),
        (bytes([255] * 9 + [2]), 0), (bytes([255] * 9 + [0]), 0), (bytes([255] * 10), 1, 0), (7, 2, bytes([128])), (7, bytes([130, 0]), 0),
    ):
        bad = leaf_of_list(varints(*numbers))
        for leaves in ([bad], [sound, bad], [bad, sound]):
            merges.ask(leaves, 60)


# What can be wrong with a merge, in the order in which it is judged.
FAULTS = "columns", "ends", "leaves", "pairs", "equal pairs", "leaf", "room"


def ask_faults(merges, faults):
    """A merge that is sound but for these faults."""
    leaves = [P12, words_leaf({b"late": live(9)}), P12[:-1] if "leaf" in faults else P12] + [P12] * (6 if "leaves" in faults else 0)
    data, ends, levels, indexes = lending.in_order(leaves)
    if "ends" in faults:
        ends[-1] += 1
    if "equal pairs" in faults:
        indexes[1] = indexes[0]
    if "pairs" in faults:
        del levels[-1]
    merges.ask_lent((data, ends, levels, indexes), 3 if "room" in faults else 60, 17 if "columns" in faults else 3)


def faults(merges):
    """No fault, each alone, and each two and three at once; then a newest leaf that deletes everything, so that the full merge needs no room."""
    for count in range(4):
        for chosen in itertools.combinations(FAULTS, count):
            ask_faults(merges, chosen)
    everything = words_leaf({word: gone(7) for word in (b"n12", b"probe", b"reply")})
    for room in (0, 1, 40):
        merges.ask([everything, P12], room)
        merges.ask([everything, P12, P12[:-1]], room)
        merges.ask([everything, P12], room, 2)


def changes(merges, rng):
    """Rows inserted, updated and deleted over several leaves, on both sides of 0 and at the edges."""
    for _ in range(120):
        rows, leaves = {}, []
        for _ in range(rng.randrange(1, 9)):
            fresh, lost = {}, []
            for docid in {rng.choice((rng.randrange(-5, 5), rng.randrange(-5, 5), rng.choice(EDGES), any_docid(rng))) for _ in range(rng.randrange(1, 5))}:
                lost += [(word, docid) for word, _ in reference.document_terms(docid, rows.pop(docid, []))]
                if rng.randrange(3):
                    rows[docid] = fresh[docid] = probe(rng, docid)[1]
            leaves.insert(0, leaf_with(sorted(fresh.items()), lost))
        leaves = [leaf for leaf in leaves if leaf]
        if leaves:
            size = merges.need(leaves)
            merges.ask(leaves, size + rng.choice((0, 0, 3)))
            merges.ask(leaves, max(size - rng.choice((1, 1, 20)), 0))


def generated(merges, rng):
    """Leaves that have nothing to do with each other, some of them damaged."""
    for _ in range(150):
        count = rng.choice((1, 2, 3, 16))
        leaves = [random_leaf(rng, count) for _ in range(rng.choice((1, 2, 2, 3, 5)))]
        if rng.randrange(4) == 0:
            place = rng.randrange(len(leaves))
            leaves[place] = damaged(rng, leaves[place])
        merges.ask(leaves, max(merges.need(leaves, count) - rng.choice((0, 0, 0, 1)), 0), count)


def kept_needs(merges):
    """A deletion of six bytes takes the merge to just 65,536 bytes, and over them, where the full one is smaller."""
    deletion = words_leaf({b"zz": gone(1)})
    merges.ask([deletion, *lending.grown_leaves(MOST - 6)], MOST)
    for room in (0, MOST + 6):
        merges.ask([deletion, *lending.grown_leaves(MOST)], room)


def groupings(merges, rng):
    """Leaves joined step by step until one is left, merges of merges among them: mostly neighbours, now and then two with others between them."""
    for _ in range(60):
        rows = [rng.sample(range(-4, 4), rng.randrange(1, 5)) for _ in range(rng.randrange(2, 9))]
        leaves = [words_leaf({rng.choice((b"a", b"ab", b"b")): rng.choice((live, live, gone))(*docids) for _ in range(2)}) for docids in rows]
        dated = list(zip(leaves, lending.some_pairs(rng, len(leaves))))
        while len(dated) > 1:
            at, size = rng.randrange(len(dated) - 1), rng.choice((2, 2, 3))
            places = range(at, min(at + size, len(dated))) if rng.randrange(6) else sorted(rng.sample(range(len(dated)), 2))
            lent = lending.mixed(rng, *zip(*(dated[place] for place in places)))
            merges.ask_lent(lent, 200)
            _, beside, level, index, after = reference.merge(3, *lent, 200, merges.keep)
            dated[places[0]] = after[:beside], (level, index)
            dated = [one for place, one in enumerate(dated) if place == places[0] or place not in places]


def both_merges(merges):
    """What is asked of the full merge and of the keeping one."""
    deletions(merges)
    entries_side_by_side(merges)
    words_in_turn(merges)
    counts_of_leaves(merges)
    orders(merges, random.Random(SEED))
    pairs_answered(merges)
    equal_pairs(merges)
    lengths(merges)
    shapes(merges)
    columns(merges)
    docids(merges)
    needs(merges)
    broken_places(merges)
    damage(merges)
    broken_lists(merges)
    faults(merges)
    changes(merges, random.Random(SEED))
    generated(merges, random.Random(SEED))


def make(cases):
    both_merges(Merges(cases, keep=False))
    keeping = Merges(cases, keep=True)
    both_merges(keeping)
    kept_needs(keeping)
    groupings(keeping, random.Random(SEED))
