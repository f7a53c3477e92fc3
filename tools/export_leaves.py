#!/usr/bin/env python3
"""Exports the leaves of an FTS4 table for the counting box.

    python3 tools/export_leaves.py [--prepare] [--replace] DATABASE TABLE FOLDER

FOLDER gets the leaves and manifest.txt, whole or not at all (tools/export_folder.py says what is in it). The database is
opened read-only and all is read in one transaction; what the box can't take, and what is not understood, is refused with a
message that says why and what to do. Before anything is written every leaf is checked, and the leaves are held against SQLite's
own answers and against the rows.

--prepare   works on a copy in a temporary place: a page size of 65,536, vacuum, and `optimize` or `rebuild` there, so that the
            index becomes one leaf; the copy's leaf is held against the database as it was
--replace   an export that is in FOLDER goes; if the new one is refused it is set aside under another name

Exit status: 0 exported, 2 not exportable, 3 another failure (wrong words, unwritable folder).
"""
import argparse
import contextlib
import os
import sqlite3
import sys
import tempfile
import time
import urllib.parse

import export_folder
import fts4_schema
import leaf_format
from export_folder import Export, Leaf, Refused

EXPORTED, NOT_EXPORTABLE, FAILED = 0, 2, 3
# SQLite keeps the segments of prefix indexes and of further languages on levels of their own, from here on
FIRST_OTHER_LEVEL = 1024
PAGE_SIZE = 65536
ROWS_THAT_FIT = "some 3,200 rows of a test bench"


def name_of(text):
    """A name as SQL has it."""
    return '"' + text.replace('"', '""') + '"'


def optimize_of(table):
    return "run `insert into %s(%s) values ('optimize')`" % (name_of(table), name_of(table))


def rebuild_of(table):
    return "run `insert into %s(%s) values ('rebuild')`" % (name_of(table), name_of(table))


# The database


def connect(path, mode="ro"):
    base = sqlite3.connect("file:%s?mode=%s" % (urllib.parse.quote(os.path.abspath(path)), mode), uri=True, isolation_level=None)
    base.execute("pragma temp_store=memory")
    return base


@contextlib.contextmanager
def reading(path):
    """A connection that reads and changes nothing, in one transaction."""
    try:
        with contextlib.closing(connect(path)) as base:
            base.execute("begin")
            yield base
    except sqlite3.Error as error:
        raise Refused("the database %s can't be read: %s" % (path, error))


def definition(base, table):
    """The table's own name and what its text says."""
    row = base.execute("select name, sql from main.sqlite_master where type = 'table' and name = ? collate nocase", (table,)).fetchone()
    if row is None:
        raise Refused("there is no table %s in this database" % name_of(table))
    try:
        said = fts4_schema.read(row[1] or "")
    except fts4_schema.NotUnderstood as error:
        raise Refused("the table %s: %s" % (name_of(row[0]), error))
    if said is None:
        raise Refused("%s is no FTS4 table: create one with `using fts4(..)`" % name_of(row[0]))
    return row[0], said


def column_names(base, table, said):
    """The table's columns without the hidden ones, as SQLite has them; the text must name as many."""
    names = [row[1] for row in base.execute("pragma main.table_xinfo(%s)" % name_of(table)) if row[6] == 0]
    if len(names) != (said.columns or 1):
        raise Refused("SQLite has %d columns for the table %s, and its text names %d" % (len(names), name_of(table), said.columns))
    if not leaf_format.columns_ok(len(names)):
        raise Refused("the table has %d columns: the box takes 1 to %d" % (len(names), leaf_format.MAX_COLUMNS))
    for name in names:
        if not leaf_format.name_ok(name.encode("utf-8", "surrogatepass")):
            raise Refused("the column %s has no name of 1 to 32 ASCII letters, digits or _: rename it" % name_of(name))
    return names


# The segments


def partly_merged(end_block):
    """SQLite writes the size of a segment after its end block, and writes it below zero while a merge goes on."""
    return " -" in str(end_block)


def segment_rows(base, table):
    """The rows of the segment directory. The box needs no order; they come newest first, as readers of a manifest before version 1.5 want them."""
    shadow = table + "_segdir"
    if base.execute("select count(*) from main.sqlite_master where type = 'table' and name = ?", (shadow,)).fetchone() != (1,):
        raise Refused("the database has no table %s: the index is damaged" % name_of(shadow))
    return base.execute("select level, idx, start_block, end_block, root from main.%s order by level, idx desc" % name_of(shadow)).fetchall()


def one_leaf(table, level, index, start, _, root):
    """The segment as one leaf, or why it is none."""
    if not (type(level) is type(index) is type(start) is int and type(root) is bytes and 0 <= level and 0 <= index):
        raise Refused("a row of %s is none that SQLite writes: the index is damaged" % name_of(table + "_segdir"))
    segment = "the segment of level %d, index %d" % (level, index)
    if level >= FIRST_OTHER_LEVEL:
        raise Refused("%s belongs to a prefix index or to another language: the box knows neither" % segment)
    if index > leaf_format.MAX_U32:
        raise Refused("%s: the box takes indexes up to %d; give --prepare, or %s" % (segment, leaf_format.MAX_U32, rebuild_of(table)))
    if start != 0 or root[:1] != b"\0":
        raise Refused(
            "%s has interior nodes, since it does not fit on one page (too many rows in one transaction for the page size): give --prepare; or set "
            "`pragma page_size=%d` before the table is filled, and write fewer rows in one transaction" % (segment, PAGE_SIZE)
        )
    return Leaf(level, index, start, root)


def check_merged(table, rows):
    for level, index, _, end_block, _ in rows:
        if partly_merged(end_block):
            raise Refused(
                "the segment of level %s, index %s is partly merged (`merge=` or automerge has not come to its end): give --prepare, or %s"
                % (level, index, optimize_of(table))
            )


def check_pairs(table, leaves):
    """No two of one age: which of them is the newer one could not be told."""
    pairs = [(leaf.level, leaf.index) for leaf in leaves]
    for pair in pairs:
        if pairs.count(pair) > 1:
            raise Refused("%d rows of %s have level %d, index %d: the index is damaged" % (pairs.count(pair), name_of(table + "_segdir"), *pair))


def segments(base, table):
    """The leaves of all segments, as many as the box takes."""
    rows = segment_rows(base, table)
    check_merged(table, rows)
    leaves = [one_leaf(table, *row) for row in rows]
    check_pairs(table, leaves)
    if len(leaves) > leaf_format.MAX_LEAVES:
        raise Refused("the index has %d segments: the box takes %d; give --prepare, or %s" % (len(leaves), leaf_format.MAX_LEAVES, optimize_of(table)))
    total = sum(len(leaf.data) for leaf in leaves)
    if total > leaf_format.MAX_LEAF_BYTES:
        raise Refused(
            "the leaves have %d bytes together: the box takes %d, %s; give --prepare, or %s, or export fewer rows"
            % (total, leaf_format.MAX_LEAF_BYTES, ROWS_THAT_FIT, optimize_of(table))
        )
    return leaves


def prepared_segments(base, table):
    """Those of a prepared copy: where they are more than one leaf, there is too much."""
    try:
        return segments(base, table)
    except Refused:
        size = base.execute("select sum(length(root)) from main.%s" % name_of(table + "_segdir")).fetchone()[0]
        size += base.execute("select sum(length(block)) from main.%s" % name_of(table + "_segments")).fetchone()[0] or 0
        raise Refused(
            "the index has %d bytes even when it is prepared: the box takes %d, %s; export fewer rows" % (size, leaf_format.MAX_LEAF_BYTES, ROWS_THAT_FIT)
        )


# Checked, and asked back


def read_leaf(leaf, columns):
    """The leaf's terms, or why the box would refuse it."""
    try:
        return leaf_format.read_leaf(leaf.data, columns)
    except leaf_format.Broken as broken:
        advice = "damaged: run `rebuild`, or take the database from a backup"
        if broken.word is not None and len(broken.word) > leaf_format.MAX_WORD_BYTES:
            advice = "change the rows that have this word"
        raise Refused("the leaf of level %d, index %d breaks a rule: %s (%s)" % (leaf.level, leaf.index, broken, advice))


def live_places(leaves, columns):
    """For each word of the leaves the rows in which it is live: docid, columns, positions; none for a word that is deleted everywhere."""
    newest_first = sorted(leaves, key=lambda leaf: leaf_format.age(leaf.level, leaf.index))
    entries = leaf_format.live_entries([read_leaf(leaf, columns) for leaf in newest_first])
    return {word: {docid: found for docid, found in rows.items() if found} for word, rows in entries.items()}


def as_text(base, word):
    """A word as SQLite takes it: text, or its bytes where they are no UTF-8 (in a database that keeps its text so)."""
    try:
        return word.decode("utf-8")
    except UnicodeDecodeError:
        if base.execute("pragma main.encoding").fetchone() != (b"UTF-8",):
            raise Refused("the word %s is no text in this database's encoding" % leaf_format.shown(word))
        return word


def matched(base, table, word):
    """The docids of SQLite's own MATCH of a word, as a phrase."""
    phrase = as_text(base, word)
    phrase = b'"' + phrase + b'"' if isinstance(phrase, bytes) else '"' + phrase + '"'
    rows = base.execute("select docid from main.%s where %s match cast(? as text)" % (name_of(table), name_of(table)), (phrase,))
    return sorted(row[0] for row in rows)


def counts(rows):
    """By column, in how many rows a word is and how often."""
    found = {}
    for places in rows.values():
        for column, positions in places:
            documents, occurrences = found.get(column, (0, 0))
            found[column] = documents + 1, occurrences + len(positions)
    return found


def counted(base, table):
    """The same of every word, by SQLite's own table of terms."""
    base.execute("create virtual table temp.fts4box_terms using fts4aux(main, %s)" % name_of(table))
    found = {}
    for word, column, documents, occurrences in base.execute("select term, col, documents, occurrences from temp.fts4box_terms where col <> '*'"):
        found.setdefault(word, {})[column] = documents, occurrences
    return found


def texts(base, table, names, said):
    """The rows' texts as FTS4 takes them: up to a NUL byte, none for a column that is not indexed."""
    columns = ", ".join("null" if name.lower() in said.not_indexed else "cast(%s as text)" % name_of(name) for name in names)
    for docid, *row in base.execute("select docid, %s from main.%s" % (columns, name_of(table))):
        yield docid, [(text or b"").split(b"\0")[0] for text in row]


def places_of_rows(base, table, names, said):
    """For each word the rows in which it stands, by the rows' own texts."""
    places = {}
    for docid, row in texts(base, table, names, said):
        for column, text in enumerate(row):
            for position, (_, _, word) in enumerate(leaf_format.words(text)):
                places.setdefault(word, {}).setdefault(docid, {}).setdefault(column, []).append(position)
    return {word: {docid: sorted(found.items()) for docid, found in rows.items()} for word, rows in places.items()}


def ask_back(base, table, names, said, live):
    """Refuses unless SQLite's MATCH, its table of terms and the rows themselves say what the leaves say."""
    base.text_factory = bytes
    theirs, rows = counted(base, table), places_of_rows(base, table, names, said)
    for word in sorted({*live, *theirs, *rows}):
        ours = live.get(word, {})
        shown = leaf_format.shown(word)
        if counts(ours) != theirs.get(word, {}):
            raise Refused("the word %s: SQLite's fts4aux counts %s by column, and the leaves %s" % (shown, theirs.get(word, {}), counts(ours)))
        if rows.get(word, {}) != ours:
            raise Refused(
                "the word %s does not stand in the rows as the index says: the index is not that of the rows under the tokenizer simple; give --prepare, "
                "or %s" % (shown, rebuild_of(table))
            )
        if sorted(ours) != matched(base, table, word):
            raise Refused("the word %s: SQLite's MATCH lists other rows than the leaves" % shown)


# The export


def now():
    return time.strftime("%Y-%m-%dT%H:%M:%SZ", time.gmtime())


def taken(base, asked, database, table, prepared="no"):
    """The export of a table from one connection, held against what another says (the same, but for a prepared copy)."""
    name, said = definition(base, table)
    names = column_names(base, name, said)
    leaves = segments(base, name) if prepared == "no" else prepared_segments(base, name)
    ask_back(asked, name, names, said, live_places(leaves, len(names)))
    return Export(os.path.basename(database), name, sqlite3.sqlite_version, now(), prepared, names, leaves)


def copied(base, path):
    with contextlib.closing(sqlite3.connect(path)) as copy:
        base.backup(copy)


def is_flat(path, table):
    """Whether the index of a table is in leaves that the box takes."""
    with reading(path) as base:
        try:
            segments(base, table)
            return True
        except Refused:
            return False


def command(path, table, words):
    with contextlib.closing(connect(path, "rw")) as base:
        base.execute("insert into %s(%s) values (?)" % (name_of(table), name_of(table)), (words,))


def prepare(path, table):
    """Makes the index of a copy one leaf, as far as it can be; says what was done."""
    with contextlib.closing(connect(path, "rw")) as base:
        base.execute("pragma journal_mode=delete")
        base.execute("pragma page_size=%d" % PAGE_SIZE)
        base.execute("vacuum")
    # the size of FTS4's nodes comes from the page size at the time the table is opened: each command has its own connection
    command(path, table, "optimize")
    if is_flat(path, table):
        return "optimize"
    command(path, table, "rebuild")
    if not is_flat(path, table):
        command(path, table, "optimize")
    return "rebuild"


@contextlib.contextmanager
def exported(database, table):
    with reading(database) as base:
        yield taken(base, base, database, table), base


@contextlib.contextmanager
def exported_prepared(database, table):
    """The copy is made twice: one is prepared, the other stays as it was and is asked."""
    with tempfile.TemporaryDirectory() as folder:
        before, after = os.path.join(folder, "before.db"), os.path.join(folder, "after.db")
        with reading(database) as base:
            name, said = definition(base, table)
            column_names(base, name, said)
            copied(base, before)
            copied(base, after)
        try:
            done = prepare(after, name)
        except sqlite3.Error as error:
            raise Refused("the copy of the database can't be prepared: %s" % error)
        with reading(before) as asked, reading(after) as base:
            yield taken(base, asked, database, name, done), asked


def exporting(database, table, prepared=False):
    """The export, and the connection that it was held against, still in its transaction: what is read there are the rows of the export."""
    return exported_prepared(database, table) if prepared else exported(database, table)


def export(database, table, prepared=False):
    """The leaves of a table with all that the manifest says of them."""
    with exporting(database, table, prepared) as (made, _):
        return made


def column_of(export, wanted):
    """The table's own name of a column, whatever its ASCII case."""
    for name in export.names:
        if name.encode().lower() == os.fsencode(wanted).lower():
            return name
    raise Refused("the table %s has no column %s: it has %s" % (name_of(export.table), name_of(wanted), ", ".join(export.names)))


def rows_of_run(asked, export, first, last, column=None):
    """Each stored row of a run with the bytes of its text in a column, None where that is NULL or no column is named; and how many rows the table has."""
    text = "null" if column is None else "cast(%s as text)" % name_of(column_of(export, column))
    asked.text_factory = bytes
    rows = asked.execute("select docid, %s from main.%s where docid between ? and ?" % (text, name_of(export.table)), (first, last)).fetchall()
    (stored,) = asked.execute("select count(*) from main.%s" % name_of(export.table)).fetchone()
    return dict(rows), stored


def done_to(prepared):
    """What the manifest's word says that was done, for a person."""
    steps = prepared.split("+")
    told = ["; prepared in a copy: page size %d, vacuum, %s" % (PAGE_SIZE, step) for step in steps if step in export_folder.PREPARED[1:]]
    return "".join(told + ["; all leaves merged"] * (export_folder.MERGE in steps))


def said_of(export):
    count, total = len(export.leaves), sum(len(leaf.data) for leaf in export.leaves)
    return "%d %s, %d bytes, columns %s%s" % (count, "leaf" if count == 1 else "leaves", total, " ".join(export.names), done_to(export.prepared))


class Words(argparse.ArgumentParser):
    """The words of a command; what is wrong with them is no refusal of a table."""

    def error(self, message):
        self.print_usage(sys.stderr)
        self.exit(FAILED, "%s\n" % message)


def options(words):
    parser = Words(description=__doc__, formatter_class=argparse.RawDescriptionHelpFormatter)
    parser.add_argument("--prepare", action="store_true")
    parser.add_argument("--replace", action="store_true")
    for name in ("database", "table", "folder"):
        parser.add_argument(name)
    return parser.parse_intermixed_args(words)


def to_folder(given):
    """Exports, and writes. An old export does not stay where a new one was asked for and refused."""
    export_folder.check_target(given.folder, given.replace)
    try:
        made = export(given.database, given.table, given.prepare)
    except Refused as refused:
        if not os.path.lexists(given.folder):
            raise
        raise Refused("%s\nthe earlier export is set aside as %s" % (refused, export_folder.set_aside(given.folder, now())))
    export_folder.write(given.folder, made, given.replace)
    return made


def main(words):
    given = options(words)
    try:
        print(said_of(to_folder(given)))
        sys.stdout.flush()
    except Refused as refused:
        print("refused: %s" % refused, file=sys.stderr)
        return NOT_EXPORTABLE
    except OSError as error:
        print("failed: %s" % error, file=sys.stderr)
        return FAILED
    return EXPORTED


if __name__ == "__main__":
    sys.exit(main(sys.argv[1:]))
