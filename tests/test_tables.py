#!/usr/bin/env python3
"""Generated FTS4 tables, from the text that creates them to the rows that the box lists.

    python3 tests/test_tables.py [TABLES [SEED]]

Each table has options in one of the spellings that SQLite takes, comments, rows that are inserted, updated and deleted over
several transactions, merges of each kind, a journal and a page size. Its export, plain and prepared, is refused with a reason or
gives SQLite's own lists; a table with an option that the box does not know is never exported.
"""
import collections
import os
import random
import sqlite3
import sys
import tempfile

import paths  # noqa: F401
import export_folder
import export_leaves
import fts4box
import generated
import reference
import sqlite_differences as differences
from tally import Tally

TABLES, SEED, QUERIES = 24, 20272, 12
# options that the box can stand, each in several spellings, and options that it can't
SOUND = [
    "tokenize=simple", "tokenize simple", "tokenize=[simple]", "tokenize 'simple'", "TOKENIZE=\"simple\"", "tokenize/simple", "tokenize(simple)", "tokenize:simple",
    "order=asc", "order='asc'", "order=[ASC]", "matchinfo=fts3", "matchinfo=\"FTS3\"", "notindexed=sent", "notindexed=[sent]",
]
UNSOUND = [
    "tokenize=porter", "tokenize porter", "tokenize[porter]", "tokenize(porter)", "tokenize:porter", "tokenize\"porter\"", "tokenize/porter", "tokenize=`porter`",
    "tokenize=unicode61", "tokenize=simple x '.r'", "order=desc", "order='desc'", "order=[desc]", "order=`DESC`", "ORDER=desc", "prefix='1,2'", "prefix=[3]", "languageid=lid",
    "languageid='lid'", "content=''",
]
COMMENTS = ["", "", "-- plain\n", "-- it's (one\n", "/* order=desc */", "/* ' */", "/* ) */", "/*, prefix=\"3\" */", "-- tokenize=porter\n", "/* -- */", "\n\t "]
PAGE_SIZES = [512, 1024, 4096, 16384, 65536, 65536, 65536]


def definition(rng):
    """The text of a table t, and whether an option of it is unsound."""
    unsound = rng.randrange(3) == 0
    options = [rng.choice(UNSOUND)] if unsound else [rng.choice(SOUND)] if rng.randrange(2) else []
    arguments = ["node", "sent text" if rng.randrange(2) else "[sent]", '"outcome"'] + options
    if options and rng.randrange(2):
        arguments.insert(rng.randrange(4), arguments.pop())
    text = ",".join(rng.choice(COMMENTS) + argument + rng.choice(COMMENTS) for argument in arguments)
    module = rng.choice(["fts4", "FTS4", '"fts4"', "[fts4]"])
    return "create virtual table %s using %s(%s)%s" % (rng.choice(["t", '"t"', "[t]", "`t`"]), module, text, rng.choice(["", ";", " -- fts3(x)"])), unsound


def changed(rng, base, docid, text):
    row = [text.decode() for text in generated.some_row(rng)]
    if "content=''" in text:
        base.execute("insert into t(docid, node, sent, outcome) values (?, ?, ?, ?)", (docid, *row))
    elif base.execute("select 1 from t where docid = ?", (docid,)).fetchone() is None:
        base.execute("insert into t(docid, node, sent, outcome) values (?, ?, ?, ?)", (docid, *row))
    elif rng.randrange(3):
        base.execute("update t set outcome = ? where docid = ?", (row[2], docid))
    else:
        base.execute("delete from t where docid = ?", (docid,))


def commanded(rng, base):
    """SQLite's own merges, finished or not."""
    kind = rng.randrange(8)
    if kind == 0:
        base.execute("insert into t(t) values ('optimize')")
    elif kind == 1:
        base.execute("insert into t(t) values ('merge=%d,%d')" % (rng.randrange(1, 6), rng.randrange(2, 5)))
    elif kind == 2:
        base.execute("insert into t(t) values ('automerge=%d')" % rng.randrange(2, 8))


def filled(rng, path, text):
    base = sqlite3.connect(path, isolation_level=None)
    base.execute("pragma page_size=%d" % rng.choice(PAGE_SIZES))
    base.execute("pragma journal_mode=%s" % rng.choice(["delete", "delete", "wal"]))
    base.execute("pragma encoding='%s'" % rng.choice(["UTF-8", "UTF-8", "UTF-16le"]))
    base.execute(text)
    # contentless tables take each docid once
    docids = iter(range(10**6)) if "content=''" in text else None
    most = rng.choice((10, 60, 400))
    lowest = rng.choice((0, -most, -most // 2))
    for _ in range(rng.choice((0, 1, 3, 7, 12, 20))):
        base.execute("begin")
        for _ in range(rng.choice((1, 4, 12, 60))):
            docid = rng.randrange(lowest, lowest + most) if rng.randrange(40) else generated.any_docid(rng)
            changed(rng, base, next(docids) if docids else docid, text)
        base.execute("commit")
        if "content=''" not in text:
            commanded(rng, base)
    return base


def listed(base, query):
    try:
        return [row[0] for row in base.execute("select docid from t where t match ? order by docid", (query.decode(),))]
    except sqlite3.Error:
        return None


def compare(rng, tally, counts, library, base, export):
    """Through a folder, as every user of an export has it."""
    with tempfile.TemporaryDirectory() as place:
        export_folder.write(os.path.join(place, "out"), export)
        tally.check("an export is what was read", export_folder.read(os.path.join(place, "out")), export)
    for _ in range(QUERIES):
        query = generated.some_query(rng)
        names, leaves, levels, indexes = export_folder.lent(export._replace(leaves=rng.sample(export.leaves, len(export.leaves))))
        tree = reference.read_query(query, names)
        if tree is None or differences.may_be_too_deep(tree):
            continue
        theirs = listed(base, differences.written_out(query))
        tally.check("rows for %r" % query, fts4box.search(library, names, leaves, levels, indexes, query), (0, len(theirs), theirs))
        counts["queries"] += 1
        counts["queries that list docids"] += bool(theirs)
        counts["queries that list docids below 0"] += bool(theirs) and theirs[0] < 0


def tried(path, prepared):
    try:
        return export_leaves.export(path, "t", prepared), None
    except export_leaves.Refused as refused:
        return None, str(refused)


def one_table(rng, tally, counts, library, path):
    text, unsound = definition(rng)
    base = filled(rng, path, text)
    if rng.randrange(3) == 0:
        os.chmod(path, 0o400)
    for prepared in (False, True):
        export, reason = tried(path, prepared)
        kind = "prepared" if prepared else "plain"
        counts["%s %s" % (kind, "exported" if export else "refused")] += 1
        tally.check("%s has a reason" % text, export is not None or bool(reason), True)
        if unsound:
            tally.check("%s is refused" % text, export, None)
        if export:
            compare(rng, tally, counts, library, base, export)
        elif not unsound:
            counts["refused: " + cause(reason)] += 1
    base.close()


def cause(reason):
    for part in ("interior nodes", "partly merged", "segments:", "even when it is prepared"):
        if part in reason:
            return part
    return reason


def main(words):
    tables = int(words[0]) if words else TABLES
    rng = random.Random(int(words[1]) if len(words) > 1 else SEED)
    library, tally, counts = fts4box.load(), Tally(), collections.Counter()
    with tempfile.TemporaryDirectory() as folder:
        for i in range(tables):
            one_table(rng, tally, counts, library, os.path.join(folder, "t%d.db" % i))
    print("SQLite %s, %d tables: " % (sqlite3.sqlite_version, tables) + ", ".join("%d %s" % (n, what) for what, n in sorted(counts.items())))
    for what, part in (("plain exported", 8), ("prepared exported", 4), ("prepared refused", 8)):
        if counts[what] * part < tables:
            tally.fail("too few tables " + what)
    for what, part in (("queries that list docids", 4), ("queries that list docids below 0", 8)):
        if counts[what] * part < counts["queries"]:
            tally.fail("too few " + what)
    return tally.finish()


if __name__ == "__main__":
    sys.exit(main(sys.argv[1:]))
