#!/usr/bin/env python3
"""tools/export_leaves.py: each of its refusals, sound tables, what it writes, and that folders which are not as they say are noticed."""
import itertools
import os
import shutil
import sqlite3
import stat
import subprocess
import sys
import tempfile

import paths
import export_folder
import export_leaves
import fts4_schema
import leaf_format
import reference
from generated import EDGES
from leaf_cases import leaf_of_list, varints
from tally import Tally

TOOL = os.path.join(paths.TOOLS, "export_leaves.py")
ROW = "insert into t(docid, node, sent, outcome) values (?, ?, ?, ?)"
EXPORTED, REFUSED, FAILED = 0, 2, 3


def connect(path):
    return sqlite3.connect(path, isolation_level=None)


def database(folder, create, fill=None, page_size=65536):
    path = os.path.join(folder, "table.db")
    base = connect(path)
    base.execute("pragma page_size=%d" % page_size)
    base.execute(create)
    if fill:
        fill(base)
    base.close()
    return path


def exported(path, table, out, *flags):
    done = subprocess.run([sys.executable, TOOL, *flags, path, table, out], capture_output=True, text=True, timeout=120)
    return done.returncode, done.stderr


def rows(docids, outcome="no reply, timeout"):
    return [(d, "n%d" % (d % 48), "t%d" % d, outcome) for d in docids]


def one_transaction(count):
    def fill(base):
        base.execute("begin")
        base.executemany(ROW, rows(range(1, count + 1)))
        base.execute("commit")
    return fill


def transactions(count, each=1):
    """So many transactions with so many rows each, each with a word of its own."""
    def fill(base):
        for i in range(count):
            base.execute("begin")
            base.executemany(ROW, rows(range(i * each + 1, (i + 1) * each + 1), "late w%d" % i))
            base.execute("commit")
    return fill


def row(docid, outcome):
    return lambda base: base.execute(ROW, (docid, "n1", "t1", outcome))


def all_of(*fills):
    def fill(base):
        for each in fills:
            each(base)
    return fill


def run(statement, *values):
    return lambda base: base.execute(statement, values)


def stored(*numbers):
    """Puts a leaf with one word and the list of these numbers in the place of each segment's."""
    return run("update t_segdir set root = ?", leaf_of_list(varints(*numbers)))


def same_pairs(base):
    """A directory without SQLite's own key, in which all segments have the same level and index."""
    base.execute("alter table t_segdir rename to segdir")
    base.execute("create table t_segdir as select * from segdir")
    base.execute("update t_segdir set level = 1, idx = 2")


PLAIN = "create virtual table t using fts4(node, sent, outcome)"


def fts4(arguments):
    return "create virtual table t using fts4(node, sent, outcome, %s)" % arguments


# how the table is made, what fills it, the page size, what the message must say
BY_TOKENIZER = [
    fts4("tokenize=porter"), fts4('tokenize=unicode61 "remove_diacritics=0"'), "create virtual table t using fts4(tokenize porter, node)",
    fts4("tokenize/porter"), fts4("tokenize(porter)"), fts4("tokenize:porter"), fts4('tokenize"porter"'), fts4("tokenize[porter]"),
    fts4("tokenize'porter'"), fts4("tokenize\tporter"), fts4("TOKENIZE = porter"), fts4("-- simple\n tokenize=porter"),
    fts4("tokenize=/* simple */porter"), fts4("tokenize=/* porter */simple"), fts4("tokenize=simple x '.'"), fts4("/* it's (\n */ tokenize=`porter`"),
]
BY_ORDER = [
    fts4("order=desc"), fts4("ORDER=DESC"), fts4("order=[desc]"), fts4("order=`desc`"), fts4("order='desc'"), fts4('order="desc" really'),
    fts4("/* newest first */ order=desc"), fts4("-- the node's name\n order=desc"), fts4("-- a ( in a comment\n order=desc"), fts4("/* ) */order=desc"),
    "create virtual table t using fts4(node, -- the node's name\n sent, outcome, order=desc)", fts4("/* -- */order=desc"), fts4("order=asc, order=desc"),
]
REFUSALS = [
    *((create, None, 65536, ("tokenizer", "tokenize=simple")) for create in BY_TOKENIZER),
    *((create, None, 65536, ("without `order=desc`",)) for create in BY_ORDER),
    (fts4('prefix="2,4"'), None, 65536, ("without `prefix=`",)),
    (fts4("-- short ones\nprefix=\"3\""), None, 65536, ("without `prefix=`",)),
    (fts4("languageid=lid"), None, 65536, ("without `languageid=`",)),
    (fts4("/* it's */languageid=lid"), None, 65536, ("without `languageid=`",)),
    (fts4("content=''"), None, 65536, ("without `content=`",)),
    (fts4("compress=hex, uncompress=unhex"), None, 65536, ("without `compress=`",)),
    ("create virtual table t using fts4(node, a$b)", None, 65536, ("'$'", "not understood")),
    (PLAIN, one_transaction(400), 1024, ("interior nodes", "too many rows in one transaction", "--prepare", "page_size=65536")),
    (PLAIN, one_transaction(9000), 65536, ("interior nodes", "too many rows in one transaction")),
    (PLAIN, all_of(transactions(10, 60), run("insert into t(t) values ('merge=1,2')")), 512, ("partly merged", "--prepare")),
    (PLAIN, transactions(9), 65536, ("9 segments", "takes 8", "--prepare", "insert into \"t\"(\"t\") values ('optimize')")),
    (PLAIN, transactions(4, 800), 65536, ("bytes together", "65536", "--prepare", "3,200 rows")),
    (PLAIN, row(5, "w" * 65), 65536, ("65 bytes", "w" * 65, "may have 64")),
    # a docid again, one that falls past the largest, a number of 70 bits, ten bytes where no docid stands
    (PLAIN, all_of(row(-5, "reply"), stored(2**64 - 1, 2, 0, 0, 2, 0)), 65536, ("word `w`", "docid -1", "do not rise", "damaged")),
    (PLAIN, all_of(row(-5, "reply"), stored(7, 0, 2**63 - 7, 0)), 65536, ("word `w`", "docid 7", "do not rise", "damaged")),
    (PLAIN, all_of(row(-5, "reply"), stored(2**70 - 1, 0)), 65536, ("word `w`", "more than 64 bits", "damaged")),
    (PLAIN, all_of(row(-5, "reply"), stored(2**64 - 1, 2**64 - 1, 0)), 65536, ("word `w`", "docid -1", "more than 9 bytes", "damaged")),
    (PLAIN, all_of(one_transaction(3), run("update t_segdir set root = x'00'")), 65536, ("no word", "damaged")),
    (PLAIN, all_of(one_transaction(3), run("update t_segdir set root = substr(root, 1, length(root) - 1)")), 65536, ("word `timeout`", "past the leaf's end")),
    (PLAIN, all_of(one_transaction(3), run("update t_segdir set root = null")), 65536, ("damaged",)),
    (PLAIN, all_of(one_transaction(3), run("update t_segdir set level = 1024")), 65536, ("level 1024", "another language")),
    (PLAIN, all_of(one_transaction(3), run("update t_segdir set level = -1")), 65536, ("damaged",)),
    # what is no level or index of the box's 32 bits; and which of two is newer can't be told
    (PLAIN, all_of(one_transaction(3), run("update t_segdir set level = 4294967296")), 65536, ("level 4294967296", "another language")),
    (PLAIN, all_of(one_transaction(3), run("update t_segdir set idx = -1")), 65536, ("damaged",)),
    (PLAIN, all_of(one_transaction(3), run("update t_segdir set idx = 'x'")), 65536, ("damaged",)),
    (PLAIN, all_of(transactions(3), run("update t_segdir set idx = 4294967296 where idx = 2")), 65536, ("index 4294967296", "up to 4294967295", "--prepare", "'rebuild'")),
    (PLAIN, all_of(transactions(3), same_pairs), 65536, ('3 rows of "t_segdir"', "level 1, index 2", "damaged")),
    (PLAIN, all_of(one_transaction(3), run("delete from t_segdir")), 65536, ("the word", "rows")),
    (PLAIN, all_of(one_transaction(3), run("update t_content set c2outcome = 'late' where docid = 2")), 65536, ("the word `late`", "'rebuild'")),
    (PLAIN, all_of(one_transaction(3), run("delete from t_content where docid = 2")), 65536, ("the word", "rows")),
    ("create virtual table u using fts4(node)", None, 65536, ('no table "t"',)),
    ("create table t(node, sent, outcome)", None, 65536, ("no FTS4 table", "using fts4")),
    ("create table t(node /* virtual table t using fts4(node) */)", None, 65536, ("no FTS4 table",)),
    ("create virtual table t using fts3(node)", None, 65536, ("no FTS4 table", "using fts4")),
    ("create virtual table t using fts3(node -- using fts4(x)\n)", None, 65536, ("no FTS4 table",)),
    ("create virtual table t using fts3(x /* using fts4(x) */)", None, 65536, ("no FTS4 table",)),
    ("create view t as select 1 as node", None, 65536, ('no table "t"',)),
    ("create virtual table t using fts4(%s)" % ", ".join("c%d" % i for i in range(17)), None, 65536, ("17 columns", "1 to 16")),
    ('create virtual table t using fts4("a b")', None, 65536, ('"a b"', "rename")),
    ("create virtual table t using fts4(%s)" % ("c" * 33), None, 65536, ("c" * 33, "rename")),
    ("create virtual table t using fts4(knöten)", None, 65536, ("knöten", "rename")),
]

ACCEPTED = [
    PLAIN,
    fts4("tokenize=simple"), fts4("tokenize=[simple]"), fts4("tokenize 'simple'"), fts4('tokenize "simple"'), fts4("tokenize:simple"), fts4("tokenize(simple)"),
    'CREATE VIRTUAL TABLE IF NOT EXISTS "t" USING FTS4 (node TEXT, sent INTEGER, outcome, tokenize="simple", order=asc)',
    'create virtual table t using "fts4"(node, sent, outcome)', "create virtual table [t] using [FTS4](node, sent, outcome);",
    fts4("matchinfo=fts3"), "create virtual table t using fts4(node, sent, [outcome], notindexed=sent)", fts4("order=`asc`"),
    "create virtual table t using fts4(node varchar(10, 2), sent /* order=desc\n */, outcome -- tokenize=porter\n)",
    "create virtual table t using fts4(node, -- the node's name\n sent, /* when (it was sent */ outcome)",
    "create virtual table t using fts4(,node, sent,, outcome,)",
    "create virtual table t using fts4(node, sent, outcome, -- order=desc\n /* prefix=\"3\" */ tokenize=simple /* porter */)",
]


def refusals(tally):
    for create, fill, page_size, said in REFUSALS:
        with tempfile.TemporaryDirectory() as folder:
            out = os.path.join(folder, "out")
            status, message = exported(database(folder, create, fill, page_size), "t", out)
            tally.check("status of %s: %s" % (create, message), status, REFUSED)
            tally.check("message of %s: %s" % (create, message), [part for part in said if part not in message], [])
            tally.check("nothing written for %s" % create, sorted(os.listdir(folder)), ["table.db"])


def unreadable(tally):
    with tempfile.TemporaryDirectory() as folder:
        out, text = os.path.join(folder, "out"), os.path.join(folder, "text")
        with open(text, "w", encoding="ascii") as f:
            f.write("no database\n" * 100)
        for path in (os.path.join(folder, "missing.db"), text):
            for flags in ((), ("--prepare",)):
                status, message = exported(path, "t", out, *flags)
                tally.check("status of %s" % path, (status, "can't be read" in message), (REFUSED, True))
                tally.check("nothing is made", sorted(os.listdir(folder)), ["text"])
        path = database(folder, PLAIN, one_transaction(5))
        tally.check("no such place", exported(path, "t", os.path.join(folder, "none", "out"))[0], FAILED)
        tally.check("too few words", subprocess.run([sys.executable, TOOL, path], capture_output=True).returncode, FAILED)
        tally.check("an unknown flag", subprocess.run([sys.executable, TOOL, "--force", path, "t", out], capture_output=True).returncode, FAILED)


def accepted(tally):
    for create in ACCEPTED:
        with tempfile.TemporaryDirectory() as folder:
            out = os.path.join(folder, "out")
            tally.check(create, exported(database(folder, create, one_transaction(5)), "t", out), (EXPORTED, ""))
            export = export_folder.read(out)
            tally.check("columns of %s" % create, export.names, ["node", "sent", "outcome"])
            tally.check("leaf of %s" % create, [reference.check_leaf(leaf.data, 3) for leaf in export.leaves], [(0, 0)])
            tally.check("files of %s" % create, sorted(os.listdir(out)), ["leaf0.bin", "manifest.txt"])


# names that SQLite takes: as they stand in `create`, and as they are
NAMES = [
    ("[x using fts4(]", "x using fts4("), ('"a ""b"" c"', 'a "b" c'), ("`t;-- x`", "t;-- x"), ("'it''s'", "it's"), ("ünode", "ünode"), ('"line\nbreak"', "line\nbreak"),
    ("[50%]", "50%"),
]


def names_of_tables(tally):
    for written, name in NAMES:
        with tempfile.TemporaryDirectory() as folder:
            out = os.path.join(folder, "out")
            path = database(folder, "create virtual table %s using fts4(tokenize, rowid)" % written, None)
            base = connect(path)
            base.execute("insert into %s(docid, tokenize, rowid) values (7, 'n12 reply', 'late')" % export_leaves.name_of(name))
            base.close()
            tally.check("a table named %r" % name, exported(path, name, out), (EXPORTED, ""))
            export = export_folder.read(out)
            tally.check("its manifest", (export.table, export.names), (name, ["tokenize", "rowid"]))


# what a row may hold beside plain text
NO_TEXT = b"x\xff\xfe y"
VALUES = ["zero\0after", 17, 1.5, None, "", "Ä ö ñandú", "A_b-C", "w" * 64]


def values(tally):
    """Whatever a row holds is exported as FTS4 indexed it, in each encoding."""
    for encoding in ("UTF-8", "UTF-16le", "UTF-16be"):
        with tempfile.TemporaryDirectory() as folder:
            path, out = os.path.join(folder, "table.db"), os.path.join(folder, "out")
            base = connect(path)
            base.execute("pragma encoding = '%s'" % encoding)
            base.execute(PLAIN)
            for docid, value in enumerate(VALUES):
                base.execute(ROW, (docid, "n1", value, value))
            tally.check("values in %s" % encoding, exported(path, "t", out, "--prepare"), (EXPORTED, ""))
            base.execute(ROW, (len(VALUES), "n1", NO_TEXT, "late"))
            base.close()
            # SQLite itself can't ask for such a word where its text is UTF-16
            wanted = EXPORTED if encoding == "UTF-8" else REFUSED
            tally.check("bytes that are no text in %s" % encoding, exported(path, "t", out, "--prepare", "--replace")[0], wanted)


def words(leaf):
    """Which of the words w0, w1 and so on stand in a leaf."""
    return sorted(int(term[1:]) for term, _, _, _ in leaf_format.read_leaf(leaf.data, 3) if term[:1] == b"w")


def ages(tally):
    """Each leaf has the level and the index of its segment: 0 for those of single transactions, 1 for those merged from 16."""
    with tempfile.TemporaryDirectory() as folder:
        out = os.path.join(folder, "out")
        path = database(folder, PLAIN, transactions(34))
        base = connect(path)
        levels = base.execute("select level, count(*) from t_segdir group by level order by level").fetchall()
        tally.check("two levels", levels, [(0, 2), (1, 2)])
        tally.check("export", exported(path, "t", out), (EXPORTED, ""))
        export = export_folder.read(out)
        # the box needs no order; readers before version 1.5 want the newest first
        said = [(leaf.level, leaf.index, words(leaf)) for leaf in export.leaves]
        tally.check("ages", said, [(0, 1, [33]), (0, 0, [32]), (1, 1, list(range(16, 32))), (1, 0, list(range(16)))])
        base.execute("insert into t(t) values ('optimize')")
        base.close()
        tally.check("an export is not written over", exported(path, "t", out)[0], REFUSED)
        tally.check("and stays as it was", export_folder.read(out), export)
        tally.check("unless asked for", exported(path, "t", out, "--replace"), (EXPORTED, ""))
        tally.check("nothing of the first stays", [words(leaf) for leaf in export_folder.read(out).leaves], [list(range(34))])
        tally.check("files", sorted(os.listdir(out)), ["leaf0.bin", "manifest.txt"])
        tally.check("nothing beside it", sorted(os.listdir(folder)), ["out", "table.db"])


def far_pairs(tally):
    """The oldest segment on the last level of a table's own index, and the newest, a deletion, with the largest index that the box takes."""
    fill = all_of(
        transactions(3), run("delete from t where docid = 1"), run("update t_segdir set level = 1023 where idx = 0"), run("update t_segdir set idx = 4294967295 where idx = 3"),
    )
    with tempfile.TemporaryDirectory() as folder:
        out = os.path.join(folder, "out")
        tally.check("far pairs", exported(database(folder, PLAIN, fill), "t", out), (EXPORTED, ""))
        leaves = export_folder.read(out).leaves
        tally.check("as they are", {(leaf.level, leaf.index) for leaf in leaves}, {(0, 2**32 - 1), (0, 1), (0, 2), (1023, 0)})
        for lent in (leaves, leaves[::-1], leaves[2:] + leaves[:2]):
            tally.check("their rows, whatever the order", sorted(export_leaves.live_places(lent, 3)[b"late"]), [2, 3])


def program_says(folder):
    """What document 01's program lists in a folder for `late`; it reads leaf0.bin, and nothing else."""
    return subprocess.run([paths.PROGRAM], input=b"late", cwd=folder, stdout=subprocess.PIPE, timeout=60, check=True).stdout


def bounds(tally):
    """8 segments, and no segment at all; several leaves, and other columns, are never taken for the program's one leaf."""
    for count in (0, 1, 8):
        with tempfile.TemporaryDirectory() as folder:
            out = os.path.join(folder, "out")
            tally.check("%d segments" % count, exported(database(folder, PLAIN, transactions(count)), "t", out), (EXPORTED, ""))
            tally.check("%d leaves" % count, len(export_folder.read(out).leaves), count)
            tally.check("the program on %d leaves" % count, program_says(out), b"docs 1\n1\n" if count == 1 else b"no leaf\n")
    with tempfile.TemporaryDirectory() as folder:
        out = os.path.join(folder, "out")
        fill = run("insert into t(docid, a, outcome) values (7, 'n1', 'late')")
        tally.check("other columns", exported(database(folder, "create virtual table t using fts4(a, outcome)", fill), "t", out), (EXPORTED, ""))
        tally.check("its files", sorted(os.listdir(out)), ["level-0-index-0.leaf", "manifest.txt"])
        tally.check("the program on other columns", program_says(out), b"no leaf\n")


def downward(count):
    """So many rows in one transaction, numbered downward from -1: SQLite writes a segment for each."""
    def fill(base):
        base.execute("begin")
        base.executemany(ROW, rows(range(-1, -count - 1, -1), "late"))
        base.execute("commit")
    return fill


def edges(base):
    base.executemany(ROW, rows(EDGES, "late"))


def below_zero(tally):
    """Docids below 0, alone and among others: plain where the segments are few enough, and prepared."""
    fills = [
        (downward(8), (), 8), (downward(8), ("--prepare",), 1), (downward(40), ("--prepare",), 1),
        (edges, (), 7), (all_of(run("begin"), edges, run("commit")), (), 1),
        (all_of(downward(6), run("delete from t where docid % 2"), row(7, "late")), (), 8),
        (all_of(downward(12), run("delete from t where docid < -4")), ("--prepare",), 1),
    ]
    for fill, flags, leaves in fills:
        with tempfile.TemporaryDirectory() as folder:
            path, out = database(folder, PLAIN, fill), os.path.join(folder, "out")
            base = connect(path)
            theirs = [docid for (docid,) in base.execute("select docid from t where t match 'late' order by docid")]
            base.close()
            tally.check("rows below 0", theirs[0] < 0, True)
            tally.check("exported", exported(path, "t", out, *flags), (EXPORTED, ""))
            export = export_folder.read(out)
            tally.check("its leaves", len(export.leaves), leaves)
            tally.check("its docids", sorted(export_leaves.live_places(export.leaves, 3)[b"late"]), theirs)
            if leaves == 1:
                tally.check("the program", program_says(out), "".join("%s\n" % line for line in ["docs %d" % len(theirs), *theirs]).encode())


# ---- written whole or not at all


def replaced(tally):
    """--replace takes an export or an empty folder, and nothing else; a refused export leaves no old one in its place."""
    with tempfile.TemporaryDirectory() as folder:
        path, out = database(folder, PLAIN, one_transaction(5)), os.path.join(folder, "out")
        with open(os.path.join(folder, "file"), "w") as f:
            f.write("mine")
        os.makedirs(os.path.join(folder, "mine"))
        shutil.copy(os.path.join(folder, "file"), os.path.join(folder, "mine", "manifest.txt"))
        os.symlink(os.path.join(folder, "mine"), os.path.join(folder, "link"))
        for name in ("file", "mine", "link"):
            for flags in ((), ("--replace",)):
                tally.check("%s is kept" % name, exported(path, "t", os.path.join(folder, name), *flags)[0], REFUSED)
        with open(os.path.join(folder, "mine", "manifest.txt")) as f:
            tally.check("what was there", (sorted(os.listdir(os.path.join(folder, "mine"))), f.read()), (["manifest.txt"], "mine"))
        os.makedirs(out)
        tally.check("an empty folder", exported(path, "t", out, "--replace"), (EXPORTED, ""))
        earlier = export_folder.read(out)
        base = connect(path)
        base.execute(ROW, (9, "n1", "t1", "w" * 65))
        base.close()
        before = set(os.listdir(folder))
        status, message = exported(path, "t", out, "--replace")
        tally.check("refused", (status, "set aside" in message), (REFUSED, True))
        (aside,) = set(os.listdir(folder)) - before
        tally.check("the old one is not in its place", os.path.exists(out), False)
        tally.check("and is not lost", export_folder.read(os.path.join(folder, aside)), earlier)


def write_fails(tally):
    """A write that fails at any file leaves the old export, and nothing beside it."""
    with tempfile.TemporaryDirectory() as folder:
        path, out = database(folder, PLAIN, transactions(3)), os.path.join(folder, "out")
        export = export_leaves.export(path, "t")
        export_folder.write(out, export)
        real, rename = export_folder.write_file, os.rename
        for last in range(5):
            calls = []

            def counted(*arguments):
                calls.append(arguments)
                if len(calls) > last:
                    raise OSError(28, "No space left on device")
                real(*arguments)

            def failing(source, target):
                if target == out and source.endswith(".new"):
                    raise OSError(28, "No space left on device")
                rename(source, target)

            export_folder.write_file, os.rename = (counted, rename) if last < 4 else (real, failing)
            try:
                export_folder.write(out, export._replace(time="later"), replace=True)
                tally.fail("a write that fails is not noticed")
            except OSError:
                pass
            finally:
                export_folder.write_file, os.rename = real, rename
            tally.check("the old export stays", export_folder.read(out), export)
            tally.check("nothing beside it", sorted(os.listdir(folder)), ["out", "table.db"])


def changed_nothing(tally):
    """The database is the same, byte for byte, after an export, prepared or not; a database and a folder that may not be written too."""
    for flags in ((), ("--prepare",)):
        with tempfile.TemporaryDirectory() as folder:
            path, place = database(folder, PLAIN, transactions(12), 4096), os.path.join(folder, "place")
            os.makedirs(place)
            with open(path, "rb") as f:
                before = f.read()
            os.chmod(path, stat.S_IRUSR)
            os.chmod(folder, stat.S_IRUSR | stat.S_IXUSR)
            status, message = exported(path, "t", os.path.join(place, "out"), *flags)
            os.chmod(folder, stat.S_IRWXU)
            tally.check("status: %s" % message, status, EXPORTED if flags else REFUSED)
            with open(path, "rb") as f:
                tally.check("the database stays", f.read() == before, True)
            tally.check("nothing beside it", sorted(os.listdir(folder)), ["place", "table.db"])


def prepared(tally):
    """What --prepare is for: small pages, many segments, a merge under way, WAL, an index over 32 bits. It says what it did."""
    fills = [
        (one_transaction(400), 1024), (transactions(12), 65536), (all_of(transactions(20, 20), run("insert into t(t) values ('merge=1,2')")), 512),
        (all_of(run("pragma journal_mode=wal"), transactions(10)), 4096), (all_of(one_transaction(100), run("delete from t where docid > 10")), 1024),
        (one_transaction(1500), 8192), (all_of(transactions(3), run("update t_segdir set idx = 4294967296 where idx = 2")), 65536),
        (all_of(one_transaction(3), run("update t_segdir set idx = 4294967296")), 65536),
    ]
    for fill, page_size in fills:
        with tempfile.TemporaryDirectory() as folder:
            path, out = database(folder, PLAIN, fill, page_size), os.path.join(folder, "out")
            done = subprocess.run([sys.executable, TOOL, "--prepare", path, "t", out], capture_output=True, text=True)
            tally.check("prepared: %s" % done.stderr, (done.returncode, "prepared in a copy: page size 65536, vacuum" in done.stdout), (EXPORTED, True))
            export = export_folder.read(out)
            tally.check("one leaf, and it says how", (len(export.leaves), export.prepared in ("optimize", "rebuild")), (1, True))
            base = connect(path)
            live = export_leaves.live_places(export.leaves, 3)
            theirs = [docid for (docid,) in base.execute("select docid from t where t match 'outcome:timeout OR outcome:late' order by docid")]
            tally.check("its rows", sorted({*live.get(b"timeout", {}), *live.get(b"late", {})}), theirs)
            base.close()
    with tempfile.TemporaryDirectory() as folder:
        path = database(folder, PLAIN, all_of(one_transaction(3), run("update t_content set c2outcome = 'late' where docid = 2")))
        status, message = exported(path, "t", os.path.join(folder, "out"), "--prepare")
        tally.check("an index that is not that of the rows stays refused: %s" % message, (status, "the word" in message), (REFUSED, True))
    with tempfile.TemporaryDirectory() as folder:
        path = database(folder, PLAIN, one_transaction(9000))
        status, message = exported(path, "t", os.path.join(folder, "out"), "--prepare")
        tally.check("too much stays too much: %s" % message, (status, "even when it is prepared" in message and "export fewer rows" in message), (REFUSED, True))


# ---- read through the manifest


def refused(folder):
    try:
        return export_folder.read(folder)
    except export_folder.Refused:
        return "refused"


def said_of(folder):
    """Why a folder is refused; nothing where it is not."""
    try:
        export_folder.read(folder)
        return ""
    except export_folder.Refused as refused:
        return str(refused)


def order_of_leaves(tally):
    """Leaves come in any order; without their levels and indexes, with one that is none, or with one pair twice, the folder is refused, and it is said what to do."""
    with tempfile.TemporaryDirectory() as place:
        folder = os.path.join(place, "folder")
        exported(database(place, PLAIN, transactions(3)), "t", folder)
        export = export_folder.read(folder)

        def put(text):
            """The manifest with a digest of its own."""
            body = text[:text.rfind(b"\n", 0, -1) + 1]
            with open(os.path.join(folder, "manifest.txt"), "wb") as f:
                f.write(body + b"end %s\n" % export_folder.digest(body).encode("ascii"))

        for order in itertools.permutations(export.leaves):
            other = export._replace(leaves=list(order))
            put(export_folder.manifest(other))
            tally.check("another order", refused(folder), other)
        manifest = export_folder.manifest(export)
        without = {
            key: b"".join(line for line in manifest.splitlines(True) if not line.startswith(key)) for key in (b"level ", b"index ", (b"level ", b"index "))
        }
        for key, text in without.items():
            put(text)
            tally.check("without %s: %s" % (key, said_of(folder)), [part for part in ("should stand", "export again") if part not in said_of(folder)], [])
        for old, new, said in (
            (b"index 2", b"index 4294967296", "no number up to 4294967295"), (b"level 0", b"level 4294967296", "no number up to 4294967295"), (b"index 2", b"index -1", "no number"),
        ):
            put(manifest.replace(old, new))
            tally.check("%s: %s" % (new, said_of(folder)), [part for part in (said, "export again") if part not in said_of(folder)], [])
        put(export_folder.manifest(export._replace(leaves=[export.leaves[0], export.leaves[1], export.leaves[0]])))
        tally.check("one pair twice: %s" % said_of(folder), [part for part in ("same level and index", "export again") if part not in said_of(folder)], [])


def damaged_folders(tally):
    """A byte changed, a leaf removed or renumbered, the manifest cut or its lines changed: the folder is refused."""
    with tempfile.TemporaryDirectory() as place:
        sound, folder = os.path.join(place, "sound"), os.path.join(place, "folder")
        exported(database(place, PLAIN, transactions(3)), "t", sound)
        export = export_folder.read(sound)
        with open(os.path.join(sound, "manifest.txt"), "rb") as f:
            manifest = f.read()
        files = sorted(set(os.listdir(sound)) - {"manifest.txt"})

        def tried(what, change, result="refused"):
            shutil.rmtree(folder, ignore_errors=True)
            shutil.copytree(sound, folder)
            change()
            tally.check(what, refused(folder), result)

        def put(name, data):
            with open(os.path.join(folder, name), "wb") as f:
                f.write(data)

        tried("nothing", lambda: None, export)
        for name, leaf in zip(files, sorted(export.leaves, key=lambda leaf: leaf.index)):
            for i in range(len(leaf.data)):
                tried("byte %d of %s" % (i, name), lambda: put(name, leaf.data[:i] + bytes([leaf.data[i] ^ 1]) + leaf.data[i + 1:]))
            tried("%s longer" % name, lambda: put(name, leaf.data + b"\0"))
            tried("%s shorter" % name, lambda: put(name, leaf.data[:-1]))
            tried("%s removed" % name, lambda: os.remove(os.path.join(folder, name)))
        first, second = os.path.join(folder, files[0]), os.path.join(folder, files[1])
        tried("a leaf in another's place", lambda: os.replace(first, second))
        tried("a leaf more", lambda: shutil.copy(first, os.path.join(folder, "leaf0.bin")))
        tried("two leaves changed over", lambda: (os.rename(first, first + "x"), os.rename(second, first), os.rename(first + "x", second)))
        for i in range(len(manifest)):
            tried("the manifest's first %d bytes" % i, lambda: put("manifest.txt", manifest[:i]))
        lines = manifest.splitlines(True)
        for i in range(len(lines)):
            tried("line %d dropped" % i, lambda: put("manifest.txt", b"".join(lines[:i] + lines[i + 1:])))
            tried("line %d twice" % i, lambda: put("manifest.txt", b"".join(lines[:i + 1] + lines[i:])))
            tried("line %d swapped" % i, lambda: put("manifest.txt", b"".join(lines[:i] + lines[i + 1:i + 2] + lines[i:i + 1] + lines[i + 2:])),
                  export if i + 1 == len(lines) else "refused")
        for i in range(len(manifest)):
            tried("byte %d of the manifest" % i, lambda: put("manifest.txt", manifest[:i] + bytes([manifest[i] ^ 1]) + manifest[i + 1:]))
        tried("a line more", lambda: put("manifest.txt", manifest + lines[-1]))
        tried("no manifest", lambda: os.remove(os.path.join(folder, "manifest.txt")))
        tried("no such folder", lambda: shutil.rmtree(folder))


def texts(tally):
    """The definition's reader on texts that no SQLite writes: refused or no FTS4 table, never a crash."""
    sound = "CREATE VIRTUAL TABLE t using fts4(node, 'a', tokenize=simple)"
    for i in range(len(sound)):
        for text in (sound[:i], sound[:i] + "$" + sound[i:], sound[:i] + "'" + sound[i:]):
            try:
                said = fts4_schema.read(text)
            except fts4_schema.NotUnderstood:
                said = "refused"
            tally.check("%r is read or refused" % text, said is None or said == "refused" or said.columns <= 3, True)


def main():
    tally = Tally()
    for part in (
        refusals, unreadable, accepted, names_of_tables, values, ages, far_pairs, bounds, below_zero, replaced, write_fails, changed_nothing, prepared, order_of_leaves,
        damaged_folders, texts,
    ):
        part(tally)
    return tally.finish()


if __name__ == "__main__":
    sys.exit(main())
