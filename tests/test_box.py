#!/usr/bin/env python3
"""The eight calls of the static library against the second program, on sound, damaged and random input.

    python3 tests/test_box.py [CALLS [SEED]]

Inputs, rooms and numbers lie against guard pages. Leaves are lent in some order, with pairs of level and index that say their age. The report
counts by call and answer; each answer that a call can give must be at least 1 % of its cases, and so must answers on docids below 0, lists and leaves that would
be others if age were the order lent, sheets with all four counts and with docids outside the run, and merges that drop deletions, that leave nothing and that keep
deletions; those on the least and the largest docid at least 0.1 %. By the box alone the merges are held against each other and against the searches: merges in any
grouping of neighbours, and a full merge after them.
"""
import collections
import faulthandler
import itertools
import random
import sys

import generated
import lending
import query_cases
import reference
import search_cases
from box import Box
from fts4box import MERGE_ROOM, joined
from generated import EDGES, LEAST_DOCID, TOP_DOCID
from leaf_cases import MINUS_1, damaged, leaf_of_size, random_leaf
from search_cases import NAMES, leaf_of, leaf_with
from tally import Tally
from verdict_cases import WORDS, words_leaf

CALLS, SEED = 60000, 20266
MOST_ROWS = reference.MAX_RUN_ROWS
# more docids than a generated index has
ENOUGH = 64
DOCIDS = sorted({*range(-15, 15), -2**20, -129, -128, 127, 128, 2**20, *EDGES})


def junk(rng, most=24):
    return bytes(rng.choice((0, 1, 2, 3, 97, 98, 128, rng.randrange(256))) for _ in range(rng.randrange(most)))


def some_columns(rng):
    """A column count, now and then one that is none."""
    return rng.choice((1, 2, 3, 3, 16)) if rng.randrange(12) else rng.choice((0, 17, 2**31, 2**32 - 1))


def docid_number(rng):
    """The number of a docid, or of a difference, of any size; now and then ten bytes or more that are none."""
    if rng.randrange(8) == 0:
        return bytes([rng.choice((128, 255))] * 9) + rng.choice((b"\x00", b"\x01", b"\x02", b"\x7f", b"\xff", b"\x81\x01"))
    return reference.encode_varint(rng.choice((1, 2**63 - 1, 2**63, 2**64 - 1, generated.any_docid(rng) % 2**64, generated.any_docid(rng) % 2**64)))


def docids_leaf(rng):
    """A leaf of one word whose docids may rise, fall or come again; seldom a position's number is one of ten bytes."""
    bodies = [b"\x00", b"\x02\x00", b"\x03\x03\x00"] * 4 + [b"\x09" + MINUS_1 + b"\x00"]
    doclist = b"".join(docid_number(rng) + rng.choice(bodies) for _ in range(rng.randrange(1, 4)))
    return b"\x00\x01a" + reference.encode_varint(len(doclist)) + doclist


def some_leaf(rng, columns):
    kind = rng.randrange(24)
    if kind == 0:
        return junk(rng)
    if kind == 1:
        return b"\x00" + junk(rng)
    if kind < 5:
        return docids_leaf(rng)
    leaf = random_leaf(rng, min(max(columns, 1), 16))
    return damaged(rng, leaf) if kind < 10 else leaf


def content(leaf):
    """Each word of a leaf with its docids."""
    return [(term, [docid for docid, _ in entries]) for term, entries, _, _ in reference.parse_leaf(leaf, 16) or []]


def some_word(rng, terms):
    """A word of a leaf mostly, with a docid of its list, as often the first or the last; else one of another length or with other bytes."""
    kind = rng.randrange(16)
    if kind == 0:
        return b"w" * rng.choice((0, 64, 65, 200)), 1
    if terms and kind < 13:
        word, docids = rng.choice(terms)
        return word, rng.choice((docids[0], docids[-1], rng.choice(docids)))
    return bytes(rng.choice(b"\x00abz\xff") for _ in range(rng.randrange(1, 4))), 1


def check(rng):
    columns = some_columns(rng)
    return some_leaf(rng, columns), columns


def lookup(rng):
    columns = some_columns(rng)
    leaf = some_leaf(rng, columns)
    return leaf, columns, some_word(rng, content(leaf))[0]


def deciding(rng):
    columns = some_columns(rng)
    newer, older = some_leaf(rng, columns), some_leaf(rng, columns)
    word, docid = some_word(rng, content(newer) + content(older))
    kind = rng.randrange(16)
    if kind < 4:
        docid = min(docid + 1, TOP_DOCID) if kind else rng.choice(EDGES)
    return newer, older, columns, word, docid


def other_pairs(rng, levels, indexes):
    """Lists of another length than there are leaves, or two leaves with the same pair; where there is one leaf or none, always the first."""
    lists = [list(levels), list(indexes)]
    if len(levels) > 1 and rng.randrange(2):
        one, other = rng.sample(range(len(levels)), 2)
        for numbers in lists:
            numbers[other] = numbers[one]
        return lists
    for numbers in rng.choice((lists[:1], lists[1:], lists)):
        if numbers and rng.randrange(2):
            del numbers[rng.randrange(len(numbers)):]
        else:
            numbers += [lending.some_number(rng)] * rng.choice((1, 9, 300))
    return lists


def other_ends(rng, data, ends):
    """Ends that are broken mostly, or that cut empty parts off at the end."""
    ends = list(ends)
    kind = rng.randrange(5)
    if kind == 0 or not ends:
        return ends + [rng.randrange(len(data) + 2)]
    if kind == 1:
        return ends[:-1]
    if kind == 2:
        return ends + [len(data)] * rng.choice((1, 9, 300))
    ends[rng.randrange(len(ends))] = rng.choice((0, len(data) + 1, 2**32 - 1))
    return ends


def some_ends(rng, data, ends):
    """Sound ends mostly."""
    return ends if rng.randrange(24) else other_ends(rng, data, ends)


def some_texts(rng):
    kind = rng.randrange(100)
    if kind == 0:
        return [b"a " * rng.choice((2047, 2048, 2049))]
    if kind == 1:
        return [bytes(rng.randrange(256) for _ in range(rng.randrange(600)))]
    count = rng.choice((1, 2, 3, 3, 16)) if rng.randrange(20) else rng.choice((0, 17))
    texts = [bytes(rng.choice(b"aAbBz09 . -\x80\xff") for _ in range(rng.randrange(16))) for _ in range(count)]
    if texts and rng.randrange(10) == 0:
        texts[rng.randrange(count)] += b" " + b"w" * rng.choice((64, 65, 90))
    return texts


def write(rng):
    texts, ends = joined(some_texts(rng))
    ends = some_ends(rng, texts, ends)
    docid = rng.choice((0, 7, 128, rng.choice(EDGES), generated.any_docid(rng)))
    if rng.randrange(2):
        return docid, texts, ends, rng.randrange(400)
    need = reference.write_leaf(docid, texts, ends, 0)[1]
    return docid, texts, ends, rng.choice((need, need, need + 4, max(need - 1, 0)))


def some_index(rng):
    """Leaves, newest first: rows inserted, updated and deleted, or leaves that have nothing to do with each other."""
    if rng.randrange(12) == 0:
        return [random_leaf(rng, 3) for _ in range(rng.randrange(9))]
    rows, leaves = {}, []
    for _ in range(rng.choice((0, 1, 1, 2, 3, 4, 8))):
        fresh, gone = {}, []
        for docid in {rng.choice(DOCIDS) for _ in range(rng.randrange(1, 12))}:
            gone += [(word, docid) for word, _ in reference.document_terms(docid, rows.pop(docid, []))]
            if rng.randrange(4):
                rows[docid] = fresh[docid] = generated.some_row(rng)
        leaves.insert(0, leaf_with(sorted(fresh.items()), gone))
    return [leaf for leaf in leaves if leaf]


def some_leaves(rng, pool):
    """The leaves of an index; now and then damaged, too many, or one of another kind among them."""
    leaves = list(rng.choice(pool))
    kind = rng.randrange(24)
    if kind < 4 and leaves:
        i = rng.randrange(len(leaves))
        leaves[i] = damaged(rng, leaves[i])
    elif kind == 4:
        leaves.insert(rng.randrange(len(leaves) + 1), junk(rng))
    elif kind == 5 and leaves and rng.randrange(2):
        leaves = leaves * 9
    return leaves


def some_query(rng):
    query = generated.some_query(rng) if rng.randrange(8) else query_cases.random_query(rng)
    kind = rng.randrange(16)
    if kind == 0:
        return junk(rng)
    return query_cases.damaged(rng, query) if kind < 3 else query


def some_names(rng):
    if rng.randrange(24):
        return NAMES
    numbered = [b"c%d" % i for i in range(17)]
    return rng.choice(([], [junk(rng), junk(rng)], [b"a"], [b"a", b"A", b"b"], [b"a b"], [b"c" * 33], numbered[:16], numbered))


def lent_leaves(rng, leaves):
    """Leaves that come newest first and their pairs, as a call takes them; now and then with no shape."""
    data, ends, *pairs = lending.lent(rng, leaves)
    if rng.randrange(24) == 0:
        pairs = other_pairs(rng, *pairs)
    return data, some_ends(rng, data, ends), *pairs


def some_lent(rng, pool):
    """Names, leaves and their pairs, as a search takes them; now and then with no shape."""
    names, name_ends = joined(some_names(rng))
    return names, some_ends(rng, names, name_ends), *lent_leaves(rng, some_leaves(rng, pool))


def search(rng, pool):
    asked = *some_lent(rng, pool), some_query(rng)
    if rng.randrange(3):
        return *asked, rng.choice((0, 1, 2, 4, 16, 40))
    need = reference.search(*asked, 0)[1]
    return *asked, rng.choice((need, need, need + 2, max(need - 1, 0)))


def some_run(rng):
    """A run among the docids of the rows mostly, or at one of the edges; now and then none."""
    if rng.randrange(16) == 0:
        first = rng.choice(DOCIDS)
        last = rng.choice((first - 1, first + MOST_ROWS, -first, LEAST_DOCID, TOP_DOCID))
        return first, min(max(last, LEAST_DOCID), TOP_DOCID)
    rows = rng.choice((1, 3, 10, 31, 31, MOST_ROWS))
    if rng.randrange(3):
        first = rng.randrange(-20, 15)
        return first, first + rows - 1
    docid = rng.choice(EDGES)
    return (max(docid - rows + 1, LEAST_DOCID), docid) if rng.randrange(2) else (docid, min(docid + rows - 1, TOP_DOCID))


def sheet_queries(rng):
    """Three queries, of which now and then one is wrong."""
    queries = generated.some_sheet(rng)
    if rng.randrange(5) == 0:
        queries[rng.randrange(3)] = some_query(rng)
    return queries


def verdict(rng, pool):
    lent, queries = some_lent(rng, pool), sheet_queries(rng)
    rooms = [ENOUGH] * 3
    if rng.randrange(4) == 0:
        rooms = [reference.search(*lent, query, 0)[1] + rng.choice((0, 0, 2)) for query in queries]
    if rng.randrange(6) == 0:
        rooms[rng.randrange(3)] = rng.randrange(3)
    return *some_run(rng), *lent, *queries, *rooms


def deleting(leaves):
    """A leaf that deletes all that the sound ones among these have, or no leaf."""
    entries = {}
    for word, docids in itertools.chain(*map(content, leaves)):
        entries.setdefault(word, set()).update(docids)
    leaf = reference.encode_leaf([(word, [(docid, []) for docid in sorted(docids)]) for word, docids in sorted(entries.items())])
    return [leaf] if leaf else []


def some_merged(rng, pool):
    """Leaves to be merged, newest first; now and then the newest deletes all that the others have."""
    leaves = some_leaves(rng, pool)
    return deleting(leaves) + leaves if rng.randrange(12) == 0 else leaves


def asked_merge(rng, pool, second):
    """What a merge is asked, with rooms about the need that the second program gives."""
    columns = rng.choice((3, 3, 3, 16)) if rng.randrange(6) else some_columns(rng)
    asked = columns, *lent_leaves(rng, some_merged(rng, pool))
    need = second(*asked, 0)[1]
    return *asked, rng.choice((need, need, need + 4, max(need - 1, 0), rng.randrange(400)))


def merge(rng, pool):
    return asked_merge(rng, pool, reference.merge)


def merge_keeping(rng, pool):
    return asked_merge(rng, pool, keeping)


def keeping(*asked):
    """The second program's keeping merge."""
    return reference.merge(*asked, keep=True)


def pools(rng):
    """Indexes to choose from, made once for many searches."""
    return [some_index(rng) for _ in range(300)]


def large(tally, box):
    """The bounds of 65,536 bytes, and a leaf that fills them."""
    row = [b"n1", b"t1", b"no reply, timeout"]
    full = leaf_of([(d, row) for d in range(1, 2300)])
    names = joined(NAMES)
    for total in (65535, 65536, 65537):
        leaf, word = leaf_of_size(total)
        half = leaf_of_size(total - len(full))[0]
        for at_end in (True, False):
            box.at_end = at_end
            tally.check("check of %d bytes" % total, box.check(leaf, 1), reference.check_leaf(leaf, 1))
            tally.check("lookup in %d bytes" % total, box.lookup(leaf, 1, word), reference.lookup(leaf, 1, word))
            asked = half, full, 3, b"timeout", 2299
            tally.check("deciding in %d bytes" % total, box.deciding(*asked), reference.deciding(*asked))
            for query in (b"no NEAR/1 timeout", b"w* OR n1"):
                for room in (2298, 2299, 4096):
                    asked = *names, *lending.in_order([half, full]), query, room
                    tally.check("search in %d bytes" % total, box.search(*asked), reference.search(*asked))
            for rooms in ((0, 0, 2299), (0, 0, 2298)):
                asked = 1, 2300, *names, *lending.in_order([half, full]), b"n1 NOT timeout", b"w*", b"no NEAR/1 timeout", *rooms
                tally.check("verdict in %d bytes" % total, box.verdict(*asked), reference.verdict(*asked))


def many_lists(tally, box):
    """A leaf full of short lists that begin or end at the least docid, at -1 and at the largest."""
    entries = [(LEAST_DOCID, [(1, [3])]), (-1, []), (TOP_DOCID, [(0, [0])])]
    wide = reference.encode_leaf([(b"w%04d" % n, entries[n % 3:]) for n in range(2300)])
    tally.check("bytes of the leaf with many lists", 60000 < len(wide) <= 65536, True)
    for query in (b"w*", b"w0* NOT absent", b"w0* NEAR/3 w1*", b"node:w2*", b"w2298 NOT w2297", b"w2297 w2298", b"w2298 w2299"):
        for room in (1, 2):
            asked = *joined(NAMES), *lending.in_order([wide]), query, room
            tally.check("search in many lists", box.search(*asked), reference.search(*asked))
    for n in (0, 1, 2, 2299):
        for docid in (LEAST_DOCID, -1, 0, TOP_DOCID):
            asked = wide, b"\x00\x01a\x02\x00\x00", 3, b"w%04d" % n, docid
            tally.check("deciding in many lists", box.deciding(*asked), reference.deciding(*asked))


def full_runs(tally, box):
    """Runs of 4,096 rows and one more, all in one list, a quarter in each and a quarter in none, the last or the first in two; lists longer than the run."""
    rooms = MOST_ROWS, MOST_ROWS, MOST_ROWS
    for first in (LEAST_DOCID, -MOST_ROWS // 2, TOP_DOCID - MOST_ROWS):
        rows = range(first, first + MOST_ROWS)
        for lists in ((rows, [], []), (rows[0::4], rows[1::4], rows[2::4]), (rows, [], rows[-1:]), (rows[:1], rows, []), ([], rows[1:], rows[:2])):
            lent = *joined(NAMES), *lending.in_order([words_leaf(*lists)])
            for last in (rows[-1] - 1, rows[-1], rows[-1] + 1):
                asked = first, last, *lent, *WORDS, *rooms
                tally.check("sheet of a full run", box.verdict(*asked), reference.verdict(*asked))
    many = range(-10000, 11800)
    lent = *joined(NAMES), *lending.in_order([words_leaf(many)])
    for first in (-10000, -2048, 11800 - MOST_ROWS, 11800):
        for rooms in ((len(many), 0, 0), (len(many) - 1, 0, 0)):
            asked = first, first + MOST_ROWS - 1, *lent, *WORDS, *rooms
            tally.check("sheet over a long list", box.verdict(*asked), reference.verdict(*asked))


def long_leaf(rng):
    """A few rows with thousands of positions, up to the largest, of index words that begin alike."""
    words = sorted(rng.sample([b"a", b"aa", b"ab", b"b", b"ba"] + [b"a%d" % i for i in range(10, 60)], rng.choice((2, 4, 40))))
    first = rng.choice((0, 0, 2**31 - 20000))
    lists = {word: [] for word in words}
    for docid in sorted(rng.sample(DOCIDS, rng.randrange(1, 4))):
        for word in words:
            places = sorted(rng.sample(range(first, first + 20000, rng.choice((1, 1, 3))), rng.randrange(1, 9000 // len(words))))
            at = len(places) // rng.choice((1, 2))
            lists[word].append((docid, [(column, part) for column, part in enumerate((places[:at], places[at:])) if part]))
    leaf = reference.encode_leaf(sorted(lists.items()))
    return leaf if len(leaf) <= 32768 else long_leaf(rng)


def long_query(rng):
    """Chains and phrases of up to 16 words, near and far."""
    words = [rng.choice((b"a", b"b", b"a*", b"a*", b"b*", b"aa", b"a1*", b"node:a*")) for _ in range(rng.randrange(2, 17))]
    if rng.randrange(3) == 0:
        return b'"' + b" ".join(word.split(b":")[-1] for word in words[:rng.randrange(2, 5)]) + b'"'
    return words[0] + b"".join(rng.choice((b" NEAR/0 ", b" NEAR/1 ", b" NEAR/40 ", b" NEAR/9999 ", b" ")) + word for word in words[1:])


def long_rows(tally, box, rng):
    """Rows in which a word has more positions than are held at a time, in one leaf and in two."""
    found = 0
    for _ in range(200):
        leaves = [long_leaf(rng) for _ in range(rng.randrange(1, 3))]
        asked = *joined(NAMES), *lending.lent(rng, leaves), long_query(rng), rng.choice((0, 1, 8))
        answer = box.search(*asked)
        found += answer[1]
        tally.check("search in long rows", answer, reference.search(*asked))
    tally.check("long rows found", found > 50, True)


def large_merges(tally, box):
    """The bounds of 65,536 bytes, of what is lent and of what is needed; rooms about them; many rows of one word, many words, over 8 leaves by turns."""
    turns = [range(place, 21800, 8) for place in range(8)]
    lists = [reference.encode_leaf([(b"w", [(docid, [(0, [0])]) for docid in docids])]) for docids in turns]
    words = [reference.encode_leaf([(b"%05d" % word, [(-1, [(1, [3])])]) for word in words[:440]]) for words in turns]
    groups = [[leaf_of_size(total)[0]] for total in (65535, 65536, 65537)] + [lists, words, deleting(words[:2]) + words[:4]]
    groups += [lending.grown_leaves(need) for need in (65535, 65536, 65537, 70000)]
    over = groups[-1]
    # a broken leaf comes before the need; a deletion makes it smaller
    groups += [[over[0], over[1][:-1]], [over[0][1:], over[1]], [*over, b""], [reference.encode_leaf([(b"z", [(1, [])])]), *lending.grown_leaves(65537)]]
    # with its deletion just 65,536 bytes, and six more
    groups += [[reference.encode_leaf([(b"zz", [(1, [])])]), *lending.grown_leaves(need)] for need in (65530, 65536)]
    for leaves, (name, keep) in itertools.product(groups, (("merge", False), ("merge_keeping", True))):
        need = lending.merged_size(leaves, keep) if all(map(content, leaves)) else 0
        for pairs in (search_cases.ONE_LEVEL[:len(leaves)], [(7, 7)] * len(leaves)):
            for room in {0, max(need - 1, 0), need, need + 1, MERGE_ROOM, 100000}:
                asked = 3, *lending.as_lent(leaves, pairs), room
                tally.check("%s of %d leaves, need %d, room %d" % (name, len(leaves), need, room), getattr(box, name)(*asked), SECOND[name](*asked))


def merged_leaf(tally, call, lent):
    """What a merge of sound leaves writes, as it is lent: with its pair, and no leaf where it is empty."""
    number, size, level, index, room = call(len(NAMES), *lent, MERGE_ROOM)
    tally.check("a merge of sound leaves", number, 0)
    return lending.as_lent([room[:size]] if size else [], [(level, index)] if size else [])


def merges_alike(tally, box, rng, pool):
    """By the box alone: a merged leaf is sound and is its own merge; every query lists the same before and after; where the oldest leaves are merged first, and
    their merge with the newer ones, the leaf and its pair are the same."""
    counts = collections.Counter()
    for leaves in pool:
        if not leaves:
            continue
        pairs = lending.some_pairs(rng, len(leaves))
        lent = lending.mixed(rng, leaves, pairs)
        one = merged_leaf(tally, box.merge, lent)
        counts["merged"] += 1
        counts["left"] += bool(one[0])
        if one[0]:
            tally.check("check of a merged leaf", box.check(one[0], len(NAMES)), (0, 0))
            tally.check("its own merge", merged_leaf(tally, box.merge, one), one)
        at = rng.randrange(len(leaves))
        oldest, _, *pair = merged_leaf(tally, box.merge, lending.as_lent(leaves[at:], pairs[at:]))
        parts, dated = leaves[:at] + [oldest] * bool(oldest), pairs[:at] + list(zip(*pair))
        tally.check("the oldest merged first", merged_leaf(tally, box.merge, lending.mixed(rng, parts, dated)) if parts else lending.as_lent([], []), one)
        for query in (generated.some_query(rng) for _ in range(12)):
            before, after = (box.search(*joined(NAMES), *index, query, ENOUGH) for index in (lent, one))
            tally.check("%r before and after" % query, after, before)
            counts["lists"] += before[0] == 0 and before[1] > 0
    tally.check("merges and lists: %s" % dict(counts), counts["left"] * 2 > counts["merged"] > 100 and counts["lists"] > counts["merged"], True)


def joined_leaf(tally, box, rng, dated):
    """The keeping merge of leaves with their pairs, lent in some order: the leaf and its pair."""
    leaf, _, (level,), (index,) = merged_leaf(tally, box.merge_keeping, lending.mixed(rng, *zip(*dated)))
    return leaf, (level, index)


def grouped(tally, box, rng, dated, count):
    """The index after keeping merges of neighbours, step by step, until it has so many leaves."""
    dated = list(dated)
    while len(dated) > count:
        size = min(rng.choice((2, 2, 3, 8)), len(dated) - count + 1)
        at = rng.randrange(len(dated) - size + 1)
        dated[at:at + size] = [joined_leaf(tally, box, rng, dated[at:at + size])]
    return dated


def groupings_alike(tally, box, rng, pool):
    """By the box alone: keeping merges of neighbours, in any grouping, give the same leaf and pair as that of all leaves at once; one leaf alone comes back; every query
    lists the same before and after; a full merge after them is the full merge of all."""
    counts = collections.Counter()
    for leaves in pool:
        if len(leaves) < 2:
            continue
        dated = list(zip(leaves, lending.some_pairs(rng, len(leaves))))
        lent = lending.mixed(rng, *zip(*dated))
        whole, full = joined_leaf(tally, box, rng, dated), merged_leaf(tally, box.merge, lent)
        tally.check("check of a kept leaf", box.check(whole[0], len(NAMES)), (0, 0))
        for one in (*dated, whole):
            tally.check("one leaf alone", joined_leaf(tally, box, rng, [one]), one)
        for _ in range(3):
            part = grouped(tally, box, rng, dated, rng.randrange(1, len(dated)))
            index = lending.mixed(rng, *zip(*part))
            tally.check("any grouping", grouped(tally, box, rng, part, 1), [whole])
            tally.check("a full merge after it", merged_leaf(tally, box.merge, index), full)
            for query in (generated.some_query(rng) for _ in range(4)):
                before, after = (box.search(*joined(NAMES), *lent_index, query, ENOUGH) for lent_index in (lent, index))
                tally.check("%r before and after keeping merges" % query, after, before)
                counts["lists"] += before[0] == 0 and before[1] > 0
            counts["groupings of several leaves left"] += len(part) > 1
        counts["indexes"] += 1
        counts["of 8 leaves"] += len(dated) == 8
        counts["with deletions"] += whole[0] != full[0]
    enough = counts["indexes"] > 100 and min(counts["of 8 leaves"], counts["with deletions"]) * 8 > counts["indexes"]
    tally.check("groupings: %s" % dict(counts), enough and min(counts["lists"], counts["groupings of several leaves left"]) > counts["indexes"], True)


def not_neighbours(tally, box):
    """Why only neighbours are joined: the merge of the newest and the oldest leaf takes the newest pair, so that the oldest leaf's entry comes before the deletion
    that hid it."""
    oldest, middle, newest = (reference.encode_leaf([(word, [(7, places)])]) for word, places in ((b"reply", [(2, [0])]), (b"reply", []), (b"late", [(2, [0])])))
    dated = [(newest, (0, 2)), (middle, (0, 1)), (oldest, (0, 0))]
    for chosen, listed in (([], []), ([0, 1], []), ([1, 2], []), ([0, 1, 2], []), ([0, 2], [7])):
        one = [joined_leaf(tally, box, random.Random(0), [dated[place] for place in chosen])] if chosen else []
        index = lending.as_lent(*zip(*one, *(leaf for place, leaf in enumerate(dated) if place not in chosen)))
        tally.check("reply after joining %s" % chosen, box.search(*joined(NAMES), *index, b"reply", 1), (0, len(listed), (listed + [0])[:1]))


def refused_on_the_way(tally, box):
    """One grouping is refused for its size and another is not: the newest leaf deletes what makes the merge of the other two too large."""
    deletion = reference.encode_leaf([(b"z", [(1, [])])])
    dated = list(zip((deletion, *lending.grown_leaves(65537)), ((0, 2), (0, 1), (0, 0))))
    tally.check("the older two", box.merge_keeping(len(NAMES), *lending.as_lent(*zip(*dated[1:])), MERGE_ROOM)[:4], (1, 0, 0, 0))
    newer = joined_leaf(tally, box, random.Random(0), dated[:2])
    tally.check("the newer two first", *(joined_leaf(tally, box, random.Random(0), leaves) for leaves in ([newer, dated[2]], dated)))


MADE = {"check": check, "lookup": lookup, "deciding": deciding, "write": write, "search": search, "verdict": verdict, "merge": merge, "merge_keeping": merge_keeping}
SECOND = {
    "check": reference.check_leaf, "lookup": reference.lookup, "deciding": reference.deciding, "write": reference.write_leaf,
    "search": reference.search, "verdict": reference.verdict, "merge": reference.merge, "merge_keeping": keeping,
}
POSSIBLE = {
    "check": (0, 1, 3), "lookup": (0, 1, 3), "deciding": (0, 1, 3), "write": (0, 1, 4, 5), "search": (0, 1, 2, 3, 4), "verdict": (0, 1, 2, 3, 4, 7),
    "merge": (0, 1, 3, 4), "merge_keeping": (0, 1, 3, 4),
}
# where the levels stand among the arguments of a call that takes an index
LEVELS_AT = {"search": 4, "verdict": 6, "merge": 3, "merge_keeping": 3}
# A check has nothing beside its answer; of the other calls' accepted cases some must find, write or list something.
NOT_EMPTY = "0 and not empty"
# What is found, written or listed has a docid below 0; the least one; the largest one.
BELOW, LEAST, LARGEST = "0 and below 0", "0 and the least docid", "0 and the largest docid"
MERGES = "merge", "merge_keeping"
WITH_DOCIDS = "deciding", "write", "search", "verdict", *MERGES
# The rooms are not those of the leaves as they are lent, were these newest first.
BY_AGE = "0 and by age"
# Rows in each list and rows in none; listed docids that are not of the run; a docid below 0 in two lists.
ALL_COUNTS, OUTSIDE, TWO_BELOW = "0 and all four counts", "0 and docids outside", "7 and below 0"
# A merge of several leaves; one that drops deletions, or keeps them; one of which nothing is left.
SEVERAL, DELETIONS, NOTHING = "0 and several leaves", "0 and deletions", "0 and nothing left"
# what else must come among the cases of a call
KINDS = {"verdict": (ALL_COUNTS, OUTSIDE, TWO_BELOW), "merge": (SEVERAL, DELETIONS, NOTHING), "merge_keeping": (SEVERAL, DELETIONS)}


def in_run(asked, docids):
    first, last, *_ = asked
    return [docid for docid in docids if first <= docid <= last]


def docids_of(name, asked, got):
    """The docids of what a call found, wrote, listed or counted. The counted docids of a room come before its zeros."""
    if name == "verdict":
        return [docid for room, count in zip(got[3], got[2]) for docid in in_run(asked, room)[:count]]
    if got[0] != 0 or got[1] == 0:
        return []
    if name in MERGES:
        return [docid for _, docids in content(got[4][:got[1]]) for docid in docids]
    return got[2][:got[1]] if name == "search" else [asked[0] if name == "write" else asked[4]]


def by_age(name, asked, got):
    """Whether the pairs decide what is answered."""
    at = LEVELS_AT[name]
    count = len(asked[at])
    return got[0] == 0 and SECOND[name](*asked[:at], list(range(count)), [0] * count, *asked[at + 2:])[-1] != got[-1]


def counted(counts, name, asked, got):
    counts[got[0]] += 1
    counts[NOT_EMPTY] += got[0] == 0 and (sum(got[2][:3]) if name == "verdict" else got[1]) > 0
    if name in WITH_DOCIDS:
        docids = docids_of(name, asked, got)
        counts[BELOW] += any(docid < 0 for docid in docids)
        counts[LEAST] += LEAST_DOCID in docids
        counts[LARGEST] += TOP_DOCID in docids
    if name in LEVELS_AT:
        counts[BY_AGE] += by_age(name, asked, got)
    if name == "verdict":
        counts[ALL_COUNTS] += min(got[2]) > 0
        listed = [docid for room in got[3] for docid in room if docid != 0]
        counts[OUTSIDE] += len(in_run(asked, listed)) < len(listed)
        counts[TWO_BELOW] += got[0] == reference.TWO_VERDICTS and got[1] < 0
    if name in MERGES and got[0] == 0:
        counts[SEVERAL] += len(asked[3]) > 1
        other = keeping if name == "merge" else reference.merge
        counts[DELETIONS] += other(*asked)[1] != got[1]
        counts[NOTHING] += got[1] == 0


def kinds_of(name):
    if name == "check":
        return POSSIBLE[name]
    kinds = *POSSIBLE[name], NOT_EMPTY, *((BELOW, LEAST, LARGEST) if name in WITH_DOCIDS else ()), *((BY_AGE,) if name in LEVELS_AT else ())
    return *kinds, *KINDS.get(name, ())


def report(tally, counts):
    for name, numbers in POSSIBLE.items():
        kinds = kinds_of(name)
        total = sum(counts[name][n] for n in numbers)
        print("%s: %d calls; answer %s" % (name, total, ", ".join("%s: %d" % (kind, counts[name][kind]) for kind in kinds)))
        for kind in kinds:
            if counts[name][kind] == 0 or counts[name][kind] * (1000 if kind in (LEAST, LARGEST) else 100) < total:
                tally.fail("too few cases of %s answered %s" % (name, kind))
        if {kind for kind in counts[name] if isinstance(kind, int)} - {*numbers}:
            tally.fail("%s has another answer" % name)


def main(words):
    faulthandler.enable()
    calls = int(words[0]) if words else CALLS
    seed = int(words[1]) if len(words) > 1 else SEED
    rng = random.Random(seed)
    box, tally = Box(), Tally()
    counts = {name: collections.Counter() for name in MADE}
    large(tally, box)
    many_lists(tally, box)
    full_runs(tally, box)
    long_rows(tally, box, random.Random(seed))
    large_merges(tally, box)
    merges_alike(tally, box, random.Random(seed), pools(random.Random(seed)))
    groupings_alike(tally, box, random.Random(seed), pools(random.Random(seed)))
    not_neighbours(tally, box)
    refused_on_the_way(tally, box)
    for i in range(calls):
        if i % 20000 == 0:
            pool = pools(rng)
        name = rng.choice(tuple(MADE))
        asked = MADE[name](rng, pool) if name in LEVELS_AT else MADE[name](rng)
        box.at_end, box.null = rng.randrange(4) != 0, rng.randrange(2) == 0
        got = getattr(box, name)(*asked)
        counted(counts[name], name, asked, got)
        if not tally.check((i, name, asked), got, SECOND[name](*asked)) and tally.failed > 10:
            break
    report(tally, counts)
    return tally.finish()


if __name__ == "__main__":
    sys.exit(main(sys.argv[1:]))
