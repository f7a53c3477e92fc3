"""How leaves are lent: in some order, each with the level and the index that say its age (document 02, section 11)."""
import itertools

import reference
from fts4box import joined
from generated import LEAST_DOCID
from leaf_format import MAX_COLUMNS, MAX_U32, age

U32_EDGES = (0, 1, 2**31 - 1, 2**31, MAX_U32 - 1, MAX_U32)
# what SQLite has on a level before it merges
FEW = 16


def some_number(rng):
    """A level or an index: mostly a small one, so that one comes again."""
    kind = rng.randrange(8)
    if kind == 0:
        return rng.randrange(MAX_U32 + 1)
    return rng.choice(U32_EDGES) if kind == 1 else rng.randrange(FEW)


def some_pairs(rng, count):
    """So many pairs of level and index, no two the same, newest first: on one level, on a few, or on as many as there are pairs."""
    levels = [some_number(rng) for _ in range(rng.choice((1, 2, 3, count + 1)))]
    pairs = set()
    while len(pairs) < count:
        pairs.add((rng.choice(levels), some_number(rng)))
    return sorted(pairs, key=lambda pair: age(*pair))


def as_lent(leaves, pairs):
    """Leaves in the order lent, each with its pair, as a search takes them: bytes, ends, levels, indexes."""
    return *joined(leaves), [level for level, _ in pairs], [index for _, index in pairs]


def in_order(leaves):
    """Leaves that come newest first, lent in this order."""
    return as_lent(leaves, [(0, index) for index in reversed(range(len(leaves)))])


def mixed(rng, leaves, pairs):
    """Leaves with their pairs, lent in some order."""
    order = rng.sample(range(len(leaves)), len(leaves))
    return as_lent([leaves[place] for place in order], [pairs[place] for place in order])


def lent(rng, leaves):
    """Leaves that come newest first, lent in some order with pairs of that age."""
    return mixed(rng, leaves, some_pairs(rng, len(leaves)))


# Leaves that tell their order


def row_of(one, other):
    return 10 * one + other


def telling_leaves(count):
    """So many leaves, two or more. For each two of them there is a row of which both speak: if the first is newer, the word w stands in column node
    and d is deleted; else w stands in column sent, and d is live."""
    told_of_w, told_of_d = [[[] for _ in range(count)] for _ in range(2)]
    for one, other in itertools.combinations(range(count), 2):
        row = row_of(one, other)
        told_of_w[one].append((row, [(0, [0])]))
        told_of_w[other].append((row, [(1, [0])]))
        told_of_d[one].append((row, []))
        told_of_d[other].append((row, [(2, [0])]))
    return [reference.encode_leaf([(b"d", sorted(d)), (b"w", sorted(w))]) for d, w in zip(told_of_d, told_of_w)]


def told(by_age):
    """The rows that `node:w` lists over such leaves, whose numbers come newest first; `d` lists all others."""
    pairs = itertools.combinations(range(len(by_age)), 2)
    return [row_of(one, other) for one, other in pairs if by_age.index(one) < by_age.index(other)]


# Leaves whose merge has more bytes than they have


def grown(words, places):
    """Two leaves, newest first: after the least docid, docid 1 takes ten bytes, where it took one. The word z has so many positions."""
    older = [(word, [(LEAST_DOCID, [(0, [0])])]) for word in words]
    newer = [(word, [(1, [(0, [0])])]) for word in words] + [(b"z", [(1, [(0, list(range(places)))])])]
    return [reference.encode_leaf(newer), reference.encode_leaf(older)]


def merged_size(leaves, keep=False):
    """The bytes of the merge of leaves that come newest first, however many."""
    parsed = [reference.parse_leaf(leaf, MAX_COLUMNS) for leaf in leaves]
    return len(reference.encode_leaf(reference.merged_terms(parsed, keep)))


def grown_leaves(need):
    """Such leaves whose merge has just so many bytes, a few thousand or more."""
    words = [b"%04d" % number for number in range(need // 29)]
    more = need - merged_size(grown(words, 1))
    # the length of the list of z takes one byte or two
    for places in (1 + more, more):
        leaves = grown(words, places)
        if merged_size(leaves) == need:
            return leaves
    raise AssertionError("no leaves are merged to %d bytes" % need)
