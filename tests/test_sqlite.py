#!/usr/bin/env python3
"""The box against real SQLite's own MATCH, on tables filled, updated and deleted from over several transactions.

    python3 tests/test_sqlite.py [TABLES [SEED]]

The leaves come from tools/export_leaves.py, each with its level and index, and are lent in another order for each query. What both accept is
compared exactly; what is left out stands in tests/sqlite_differences.py. A verdict sheet is held against three MATCH queries and SQLite's own counts. The merge
of a table's leaves is held, byte for byte, against what SQLite's `optimize` makes of its segments and `rebuild` of its rows, and searched. Keeping merges of neighbours
are held, byte for byte, against what SQLite makes by itself of the 16 segments of a level when a 17th comes.
"""
import collections
import itertools
import os
import random
import sqlite3
import sys
import tempfile

import paths  # noqa: F401
import export_leaves
import generated
import leaf_format
import lending
import reference
import sqlite_differences as differences
from box import Box
from fts4box import MERGE_ROOM, joined
from tally import Tally

TABLES, QUERIES, SHEETS, MERGED, SEED = 100, 100, 20, 10, 20267
ROOM = 1024
# SQLite merges the segments of a level when it has so many and one more comes
FULL = 16


def new_table(path):
    base = sqlite3.connect(path, isolation_level=None)
    base.execute("pragma page_size=65536")
    base.execute("pragma journal_mode=memory")
    base.execute("create virtual table t using fts4(node, sent, outcome)")
    return base


def filled(rng, base):
    """One segment to a transaction, since its docids rise; from the 17th on SQLite has merged 16 into a higher level.

    The docids are below 0, from 0 on, or both; now and then one is far away. Where those of a transaction fall, SQLite writes a segment for
    each row; where the last row is deleted it begins anew. If there are too many segments in the end, they are made one."""
    most = rng.choice((10, 10, 40, 300))
    lowest = rng.choice((0, -most, -most // 2))
    falling = rng.randrange(8) == 0
    for _ in range(rng.choice((rng.randrange(1, 9), rng.randrange(17, 24)))):
        docids = {rng.randrange(lowest, lowest + most) if rng.randrange(20) else generated.any_docid(rng) for _ in range(rng.randrange(1, 12))}
        base.execute("begin")
        for docid in sorted(docids, reverse=falling):
            change(rng, base, docid)
        base.execute("commit")
    too_many = base.execute("select count(*) from t_segdir").fetchone()[0] > leaf_format.MAX_LEAVES
    if too_many or rng.randrange(12) == 0:
        base.execute("insert into t(t) values ('optimize')")


def change(rng, base, docid):
    row = [text.decode() for text in generated.some_row(rng)]
    if base.execute("select 1 from t where docid = ?", (docid,)).fetchone() is None:
        base.execute("insert into t(docid, node, sent, outcome) values (?, ?, ?, ?)", (docid, *row))
    elif rng.randrange(2):
        base.execute("update t set node = ?, sent = ?, outcome = ? where docid = ?", (*row, docid))
    elif rng.randrange(2):
        base.execute("update t set outcome = ? where docid = ?", (row[2], docid))
    else:
        base.execute("delete from t where docid = ?", (docid,))


def match(base, query):
    """The docids that SQLite lists, rising, or None where it refuses the query."""
    try:
        return [row[0] for row in base.execute("select docid from t where t match ? order by docid", (query.decode(),))]
    except sqlite3.Error:
        return None


def dated(leaves):
    """Leaves of an export, each with its pair, newest first."""
    return [(leaf.data, (leaf.level, leaf.index)) for leaf in sorted(leaves, key=lambda leaf: leaf_format.age(leaf.level, leaf.index))]


def in_some_order(rng, leaves):
    """Leaves of an export as they are lent, in some order."""
    return lending.mixed(rng, [leaf.data for leaf in leaves], [(leaf.level, leaf.index) for leaf in leaves])


def compare(rng, tally, counts, box, base, names, leaves):
    for number in range(QUERIES):
        alike = number % 4 == 0
        query = generated.some_alike(rng) if alike else generated.some_query(rng)
        tree = reference.read_query(query, names)
        if tree is None:
            counts["left out"] += 1
            continue
        theirs = match(base, differences.written_out(query))
        if theirs is None and differences.may_be_too_deep(tree):
            counts["too deep for SQLite"] += 1
            continue
        listed = theirs or []
        answer = box.search(*joined(names), *in_some_order(rng, leaves), query, ROOM)
        tally.check(query, answer, (0, len(listed), listed + [0] * (ROOM - len(listed))))
        if theirs is None:
            tally.fail("SQLite refuses %r" % query)
        counts["compared"] += 1
        counts["list docids"] += bool(listed)
        counts["list docids below 0"] += bool(listed) and listed[0] < 0
        counts["list docids below 0 and above"] += bool(listed) and listed[0] < 0 < listed[-1]
        counts["list the least or the largest docid"] += bool(listed) and (listed[0] == generated.LEAST_DOCID or listed[-1] == generated.TOP_DOCID)
        counts["have NEAR"] += b"NEAR" in query
        counts["have NEAR between operands alike"] += alike
        counts["of these list docids"] += alike and bool(listed)


def some_run(rng, base):
    """A run that begins at a row or a little before it."""
    docids = [docid for (docid,) in base.execute("select docid from t")]
    first = max(rng.choice(docids or [0]) - rng.choice((0, 0, 4, 20)), generated.LEAST_DOCID)
    return first, min(first + rng.choice((0, 5, 40, reference.MAX_RUN_ROWS - 1)), generated.TOP_DOCID)


def sheet_by_sqlite(base, queries, run):
    """The sheet's answer by three MATCH queries, their rows in the run counted by SQLite; None where it refuses a query."""
    lists = [match(base, query) for query in queries]
    if None in lists:
        return None
    first, last = run
    shared = {docid for one, other in itertools.combinations(lists, 2) for docid in one if docid in other and first <= docid <= last}
    if shared:
        return reference.TWO_VERDICTS, min(shared), (0, 0, 0, 0), [[0] * ROOM] * 3
    counts = [
        base.execute("select count(*) from t where t match ? and docid between ? and ?", (query.decode(), first, last)).fetchone()[0] for query in queries
    ]
    rows = last - first + 1
    return 0, rows, (*counts, rows - sum(counts)), [listed + [0] * (ROOM - len(listed)) for listed in lists]


def compare_sheets(rng, tally, counts, box, base, names, leaves):
    for _ in range(SHEETS):
        queries, run = generated.some_sheet(rng), some_run(rng, base)
        trees = [reference.read_query(query, names) for query in queries]
        theirs = sheet_by_sqlite(base, [differences.written_out(query) for query in queries], run)
        if None in trees or theirs is None and any(map(differences.may_be_too_deep, trees)):
            counts["sheets left out"] += 1
            continue
        answer = box.verdict(*run, *joined(names), *in_some_order(rng, leaves), *queries, ROOM, ROOM, ROOM)
        tally.check("sheet %s %s" % (run, queries), answer, theirs)
        counts["sheets"] += 1
        counts["sheets with all four counts"] += min(answer[2]) > 0
        counts["sheets with a row in two lists"] += answer[0] == reference.TWO_VERDICTS


def merged(rng, tally, call, by_age):
    """What a merge makes of these, which come newest first with their pairs: a leaf or no bytes, and its pair, which is the newest one's."""
    number, size, *pair, room = call(3, *lending.mixed(rng, *zip(*by_age)), MERGE_ROOM)
    tally.check("merge of %d leaves" % len(by_age), (number, tuple(pair)), (0, by_age[0][1] if size else (0, 0)))
    tally.check("zeros after the leaf", room[size:].strip(b"\0"), b"")
    return room[:size], tuple(pair)


def roots(base, command):
    """All segments once SQLite has done this."""
    base.execute("insert into t(t) values (?)", (command,))
    return [root for (root,) in base.execute("select root from t_segdir")]


def compare_merge(rng, tally, counts, box, base, names, leaves):
    """The index is changed by it. SQLite's `optimize` leaves a segment that is alone as it is, with its deletions; `rebuild` does not."""
    if not leaves:
        return
    leaf, _ = merged(rng, tally, box.merge, dated(leaves))
    left = [leaf] if leaf else []
    counts["merges"] += 1
    counts["merges of several leaves"] += len(leaves) > 1
    counts["merges of two levels"] += len({leaf.level for leaf in leaves}) > 1
    counts["merges with deletions"] += len(leaf) != reference.merge(3, *in_some_order(rng, leaves), MERGE_ROOM, keep=True)[1]
    counts["merges of which nothing is left"] += not leaf
    if len(leaves) > 1:
        tally.check("optimize", left, roots(base, "optimize"))
    tally.check("rebuild", left, roots(base, "rebuild"))
    for query in (generated.some_query(rng) for _ in range(MERGED)):
        theirs = match(base, differences.written_out(query))
        if reference.read_query(query, names) is not None and theirs is not None:
            answer = box.search(*joined(names), *lending.in_order(left), query, ROOM)
            tally.check("merged, %r" % query, answer, (0, len(theirs), theirs + [0] * (ROOM - len(theirs))))


def emptied(rng, tally, counts, box):
    """Tables of which nothing is left but a row without words: it keeps SQLite from clearing the index by itself."""
    for _ in range(10):
        base = new_table(":memory:")
        base.execute("insert into t(docid, outcome) values (500, '.')")
        docids = rng.sample(range(-9, 9), rng.randrange(1, 5))
        for docid in docids:
            base.execute("insert into t(docid, node, sent, outcome) values (?, ?, ?, ?)", (docid, *(text.decode() for text in generated.some_row(rng))))
        base.execute("delete from t where docid <> 500")
        compare_merge(rng, tally, counts, box, base, [b"node", b"sent", b"outcome"], export_leaves.segments(base, "t"))
        base.close()


def of_level(base, level):
    """The leaves of a level with their pairs, newest first."""
    rows = base.execute("select root, level, idx from t_segdir where level = ? order by idx desc", (level,))
    return [(root, (level, index)) for root, level, index in rows]


def by_eights(rng, tally, box, sixteen, keep):
    """The leaf of 16 neighbours, newest first: two keeping merges of 8 and one merge of the two results."""
    halves = [merged(rng, tally, box.merge_keeping, half) for half in (sixteen[:8], sixteen[8:])]
    return merged(rng, tally, box.merge_keeping if keep else box.merge, halves)[0]


def one_segment(rng, base):
    """A transaction whose docids rise, so that SQLite writes one segment, or none where no row had or has a word."""
    base.execute("begin")
    for docid in sorted({rng.randrange(-9, 9) if rng.randrange(8) else generated.any_docid(rng) for _ in range(rng.randrange(1, 5))}):
        change(rng, base, docid)
    base.execute("commit")


def automatic(rng, tally, counts, box):
    """Tables in which levels fill and SQLite merges them. It drops deletions where it opens a new highest level: there the last step is a full merge."""
    for transactions in [4 * FULL + 2] * 6 + [2 * FULL * FULL + FULL + 2] * 2:
        base = new_table(":memory:")
        # SQLite clears the index when the last row goes
        base.execute("insert into t(docid, outcome) values (500, 'stays')")
        for _ in range(transactions):
            before = [of_level(base, level) for level in range(2)]
            (highest,) = base.execute("select max(level) from t_segdir").fetchone()
            one_segment(rng, base)
            for level, sixteen in enumerate(before):
                if len(sixteen) < FULL or len(of_level(base, level)) == FULL:
                    continue
                keep = level < highest
                leaf = by_eights(rng, tally, box, sixteen, keep)
                tally.check("automatic merge of level %d" % level, leaf, of_level(base, level + 1)[0][0])
                kind = "automatic merges, keeping" if keep else "automatic merges, full"
                counts[kind] += 1
                counts[kind + " with deletions"] += leaf != by_eights(rng, tally, box, sixteen, not keep)
                counts[kind + " of level 1"] += level == 1
        base.close()


def known(rng, tally, box, base):
    """Each known difference is one: it leaves the list once it is none."""
    for docid, text in ((1, "x"), (2, "y x")):
        base.execute("insert into t(docid, outcome) values (?, ?)", (docid, text))
    asked = *joined([b"node", b"sent", b"outcome"]), *in_some_order(rng, export_leaves.segments(base, "t"))
    for query in differences.ONLY_SQLITE:
        tally.check("SQLite accepts %r" % query, match(base, query) is not None, True)
        tally.check("the box refuses %r" % query, box.search(*asked, query, 4), (2, 0, [0] * 4))
    for query in differences.ONLY_BOX:
        tally.check("SQLite refuses %r" % query, match(base, query), None)
        tally.check("the box accepts %r" % query, box.search(*asked, query, 4)[0], 0)
    text, queries = differences.BARE_NEAR
    base.execute("delete from t")
    base.execute("insert into t(docid, outcome) values (1, ?)", (text.decode(),))
    asked = *joined([b"node", b"sent", b"outcome"]), *in_some_order(rng, export_leaves.segments(base, "t"))
    for query in queries:
        tally.check("SQLite lists %r" % query, match(base, query), [1])
        tally.check("the box does not list %r" % query, box.search(*asked, query, 4), (0, 0, [0] * 4))
        tally.check("SQLite does not list %r with its distance" % query, match(base, differences.written_out(query)), [])


def main(words):
    tables = int(words[0]) if words else TABLES
    seed = int(words[1]) if len(words) > 1 else SEED
    rng = random.Random(seed)
    box, tally, counts = Box(), Tally(), collections.Counter()
    known(rng, tally, box, new_table(":memory:"))
    emptied(rng, tally, counts, box)
    automatic(random.Random(seed), tally, counts, box)
    with tempfile.TemporaryDirectory() as folder:
        for i in range(tables):
            path = os.path.join(folder, "t%d.db" % i)
            base = new_table(path)
            filled(rng, base)
            export = export_leaves.export(path, "t")
            counts["tables"] += 1
            counts["with several segments"] += len(export.leaves) > 1
            counts["with two levels"] += base.execute("select count(distinct level) from t_segdir").fetchone()[0] > 1
            names = [name.encode() for name in export.names]
            compare(rng, tally, counts, box, base, names, export.leaves)
            compare_sheets(rng, tally, counts, box, base, names, export.leaves)
            compare_merge(rng, tally, counts, box, base, names, export.leaves)
            base.close()
            os.remove(path)
    print("SQLite %s: " % sqlite3.sqlite_version + ", ".join("%d %s" % (n, what) for what, n in counts.items()))
    for what, least in (
        ("list docids", 4), ("list docids below 0", 8), ("list docids below 0 and above", 16), ("list the least or the largest docid", 200), ("have NEAR", 4),
        ("have NEAR between operands alike", 8), ("of these list docids", 16),
    ):
        if counts[what] == 0 or counts[what] * least < counts["compared"]:
            tally.fail("too few queries " + what)
    for what in ("sheets with all four counts", "sheets with a row in two lists"):
        if counts[what] == 0 or counts[what] * 16 < counts["sheets"]:
            tally.fail("too few " + what)
    for what in ("merges of several leaves", "merges of two levels", "merges with deletions", "merges of which nothing is left"):
        if counts[what] == 0 or counts[what] * 16 < counts["merges"]:
            tally.fail("too few " + what)
    for what, least in (
        ("automatic merges, keeping with deletions", 50), ("automatic merges, keeping of level 1", 2), ("automatic merges, full with deletions", 5),
        ("automatic merges, full of level 1", 2),
    ):
        if counts[what] < least:
            tally.fail("too few " + what)
    for what in ("with several segments", "with two levels"):
        if counts[what] == 0 or counts[what] * 4 < tables:
            tally.fail("too few tables " + what)
    return tally.finish()


if __name__ == "__main__":
    sys.exit(main(sys.argv[1:]))
