#!/usr/bin/env python3
"""Makes the verdict sheet of a run from an FTS4 table, with the proved box.

    python3 tools/verdict.py DATABASE TABLE --first DOCID --last DOCID --pass QUERY --fail QUERY --silent QUERY
                             [--by COLUMN] [--html FILE] [--json] [--prepare]

The table is exported and held against SQLite's own answers on the way. The proved library then counts the rows of the run, all docids from --first to --last
(1 to 4,096 of them), that each of the three queries lists, and those that none lists. The four counts and their sum go to standard output, all else to
standard error.

--html FILE   the sheet as one page, for print on A4 and to be signed; it replaces an earlier page, and nothing else. Where there is no sheet, the page says
              REFUSED or NO SHEET in large letters, and why
--by COLUMN   the page has a line of cells for each text of this column, and a table of the counts by it (on a test bench: --by node). Without it the page has
              one band of all docids of the run, 100 to a line
--json        one object instead of the lines: answer, second, first, last, pass, fail, silent, none, sum, no_row; refused: answer, second, meaning, todo
--prepare     for a table whose index is not in leaves that the box takes: works on a copy (tools/export_leaves.py --help)

Exit status: 0 counted, and with --html the sheet is there; 1 refused by the box, with its two numbers, what they mean and what to do; 2 the table can't be
exported; 3 another failure (wrong words, no library, output that can't be written).
"""
import argparse
import collections
import contextlib
import json
import os
import re
import sys
import threading
import time
import traceback

import command
import export_folder
import export_leaves
import fts4box
import identity
import sheet_page
from command import DONE, FAILED, MEANINGS, NOT_EXPORTABLE, REFUSED_BY_BOX, say, tell
from export_folder import Refused
from page_file import PageFile
from sheet_picture import KINDS, MISSING, NONE, Group
from visible_text import name_of, natural, printable

SHAPE, QUERY, TWO_VERDICTS = 1, 2, 7
MOST_ROWS = 4096
QUERIES = ("--pass", "--fail", "--silent")
NO_SHEET = "no sheet was made"
NUMBER = re.compile(r"-?[0-9]{1,19}", re.ASCII)
REPORT = "this is not foreseen after an export: keep the database as it is and report it"

# the library's: its number, the number beside it, the four counts, the three lists
Answer = collections.namedtuple("Answer", "number second counts lists")
# what is on standard output, on the page and on standard error in the end
Outcome = collections.namedtuple("Outcome", "status output page told")
# an export, its rows in the run as {docid: bytes of the column or None}, how many rows the table has, and the files that it was read from
Source = collections.namedtuple("Source", "export rows stored files")


class Wrong(Exception):
    """What can't be if export and library are right."""


# Words


class Words(export_leaves.Words):
    def error(self, message):
        super().error("%s\n%s; a page of an earlier run stays as it is" % (message, NO_SHEET))


def as_docid(text):
    if not NUMBER.fullmatch(text) or not fts4box.LEAST_DOCID <= int(text) <= fts4box.LARGEST_DOCID:
        raise argparse.ArgumentTypeError("%r is no docid: a whole number of 64 bits is wanted" % text)
    return int(text)


def options(words):
    parser = Words(description=__doc__, formatter_class=argparse.RawDescriptionHelpFormatter, allow_abbrev=False)
    parser.add_argument("database")
    parser.add_argument("table")
    for flag in ("--first", "--last"):
        parser.add_argument(flag, type=as_docid, required=True, metavar="DOCID")
    for flag in QUERIES:
        parser.add_argument(flag, required=True, metavar="QUERY", dest=flag)
    parser.add_argument("--by", metavar="COLUMN")
    parser.add_argument("--html", metavar="FILE")
    for flag in ("--json", "--prepare"):
        parser.add_argument(flag, action="store_true")
    return parser.parse_intermixed_args(words)


def queries_of(given):
    return [getattr(given, flag) for flag in QUERIES]


# Work


@contextlib.contextmanager
def step(what):
    """Says what goes on once it takes longer than a second, and then every five seconds."""
    done, began = threading.Event(), time.monotonic()

    def watch():
        wait = 1
        while not done.wait(wait):
            tell(printable("%s: %d s .." % (what, time.monotonic() - began)))
            wait = 5

    watcher = threading.Thread(target=watch, daemon=True)
    watcher.start()
    try:
        yield
    finally:
        done.set()
        watcher.join()


def read(given):
    """All that is read of the database, of one state of it."""
    with step("reading %s" % given.database):
        before = identity.of_database(given.database)
    with step("exporting %s, and asking SQLite back" % given.table):
        with export_leaves.exporting(given.database, given.table, given.prepare) as (made, asked):
            rows, stored = export_leaves.rows_of_run(asked, made, given.first, given.last, given.by)
    with step("reading %s once more" % given.database):
        if identity.of_database(given.database) != before:
            raise Refused("the files of the database %s changed while they were read: make the sheet when nothing writes to them" % given.database)
    return Source(command.through_folder(made), rows, stored, before)


def counted(library, source, given):
    with step("counting"):
        return Answer(*fts4box.verdict(library, given.first, given.last, *export_folder.lent(source.export), *map(os.fsencode, queries_of(given))))


def cells_of(given, source, answer):
    """Each docid of the run with its list. The picture and the table come from here: what can't be is a failure, and no sheet."""
    if answer.second != given.last - given.first + 1 or answer.second > MOST_ROWS:
        raise Wrong("the library counts %d rows from docid %d to docid %d" % (answer.second, given.first, given.last))
    listed = [(docid, kind) for kind, docids in enumerate(answer.lists) for docid in docids]
    kinds = dict(listed)
    if len(kinds) != len(listed):
        raise Wrong("a docid is in two lists, and the library has not refused it")
    for docid in kinds:
        if docid not in source.rows:
            raise Wrong("docid %d is in a list, and the table has no such row in the run" % docid)
    cells = [(docid, kinds.get(docid, NONE if docid in source.rows else MISSING)) for docid in range(given.first, given.last + 1)]
    check_sums(answer.counts, [cells], cells)
    return cells


def check_sums(counts, parts, cells):
    """The parts, with what is not stored, add up to the four counts."""
    lines = [sheet_page.by_list(part) for part in parts] + [[0, 0, 0, sheet_page.missing(cells)]]
    added = tuple(map(sum, zip(*lines)))
    if added != tuple(counts):
        raise Wrong("the rows add up to %s, and the library counts %s" % (added, tuple(counts)))


def groups_of(source, cells):
    """The cells of each text of the column, names in their natural order; a docid without a row is in none."""
    found = {}
    for docid, kind in cells:
        if kind != MISSING:
            found.setdefault(source.rows[docid], []).append((docid, kind))
    return [Group(name, found[name]) for name in sorted(found, key=lambda name: (name is not None, natural(name_of(name)), name))]


def sheet_of(given, source, archive, answer):
    export = source.export
    cells = cells_of(given, source, answer)
    by, groups = None, []
    if given.by is not None:
        by, groups = export_leaves.column_of(export, given.by), groups_of(source, cells)
        check_sums(answer.counts, [group.cells for group in groups], cells)
    with step("asking git and rt who they are"):
        tools = identity.of_tools()
    facts = [
        ("table", "%s; %d rows, %d of them in the run" % (export.table, source.stored, len(source.rows))),
        ("index", export_leaves.said_of(export)),
        ("held against", "SQLite %s: its MATCH and its fts4aux for each word, and the rows' own texts" % export.sqlite),
        *tools,
    ]
    leaves = [("leaf of level %d, index %d" % (leaf.level, leaf.index), len(leaf.data), export_folder.digest(leaf.data)) for leaf in export.leaves]
    return sheet_page.Sheet(
        export.database, export.table, export.time, given.first, given.last, queries_of(given), answer.counts, by, cells, groups, facts,
        [*source.files, *leaves, archive],
    )


# Outcomes


def lines(counts):
    return "".join("%-6s %5d\n" % pair for pair in [*zip(KINDS, counts), ("sum", sum(counts))])


def as_object(given, counts, no_row):
    named = dict(zip(("pass", "fail", "silent", "none"), counts))
    return json.dumps({"answer": 0, "second": sum(counts), "first": given.first, "last": given.last, **named, "sum": sum(counts), "no_row": no_row}) + "\n"


def accepted(given, source, sheet):
    export = source.export
    output = as_object(given, sheet.counts, sheet_page.missing(sheet.cells)) if given.json else lines(sheet.counts)
    with step("making the page"):
        page = sheet_page.sheet_page(sheet) if given.html is not None else None
    return Outcome(DONE, output, page, "table %s of %s, exported %s: %s" % (export.table, export.database, export.time, export_leaves.said_of(export)))


def no_sheet(given, status, heading, reason, answer=None, todo=""):
    """An outcome without a sheet, for the terminal and the page alike."""
    asked = [("database", given.database), ("table", given.table), ("run", "%d to %d" % (given.first, given.last)), *zip(QUERIES, queries_of(given))]
    number = None if answer is None else "%d, beside it %d" % answer
    page = sheet_page.refusal_page(sheet_page.Refusal(heading, number, reason, todo, export_leaves.now(), asked))
    output = json.dumps({"answer": answer[0], "second": answer[1], "meaning": reason, "todo": todo}) + "\n" if given.json and answer is not None else ""
    told = "%s%s: %s%s" % (heading, "" if answer is None else " %d %d" % answer, reason, "\nwhat to do: " + todo if todo else "")
    return Outcome(status, output, page, told)


def failure(given, reason):
    """Not a word of FAIL, which is a verdict."""
    return no_sheet(given, FAILED, "NO SHEET", reason)


def refused_by_box(given, library, source, answer):
    with step("asking for each query alone"):
        reason, todo = explained(given, library, source, answer.number, answer.second)
    return no_sheet(given, REFUSED_BY_BOX, "REFUSED", reason, (answer.number, answer.second), todo)


def explained(given, library, source, number, second):
    """What a refusal of the box means here, and what to do."""
    if number == SHAPE and not 0 <= given.last - given.first < MOST_ROWS:
        return "the run: its last docid is below its first, or it has more than %d rows" % MOST_ROWS, "give --first and --last of 1 to %d rows" % MOST_ROWS
    if number == QUERY:
        flags = [flag for flag, (alone, _, _) in zip(QUERIES, searches(library, source, given)) if alone == QUERY]
        return "%s: %s" % (" and ".join(flags), MEANINGS[QUERY]), "mend the query; docs/REFERENCE.md, \"The query language\", says what it may hold"
    if number == TWO_VERDICTS:
        flags = [flag for flag, (_, _, docids) in zip(QUERIES, searches(library, source, given)) if second in docids]
        node = " (%s %s)" % (given.by, quoted(source.rows[second])) if given.by is not None else ""
        reason = "two verdicts for one row: docid %d%s satisfies the queries %s; it is the smallest such docid of the run" % (second, node, " and ".join(flags))
        return reason, "look at this row; mend it, or mend the queries so that no row satisfies two of them (NOT takes rows away)"
    return MEANINGS.get(number, "a number that this tool does not know"), REPORT


def quoted(data):
    return "NULL" if data is None else '"%s"' % data.decode("utf-8", "backslashreplace")


def searches(library, source, given):
    """The three queries, each asked alone."""
    return [fts4box.search(library, *export_folder.lent(source.export), os.fsencode(query)) for query in queries_of(given)]


def answered(given):
    with step("loading the library"):
        library, archive = identity.loaded()
    source = read(given)
    answer = counted(library, source, given)
    if answer.number != fts4box.ACCEPTED:
        return refused_by_box(given, library, source, answer)
    return accepted(given, source, sheet_of(given, source, archive, answer))


def outcome_of(given):
    try:
        return answered(given)
    except Refused as refused:
        return no_sheet(given, NOT_EXPORTABLE, "REFUSED", "the table can't be exported: %s" % refused)
    except (OSError, fts4box.NoLibrary, Wrong) as error:
        return failure(given, str(error))
    except KeyboardInterrupt:
        return failure(given, "broken off")
    except Exception:
        # Python's own status for it is 1, which would be a refusal by the box
        return failure(given, traceback.format_exc())


# The end


def delivered(outcome, target):
    """The page beside its place, then standard output, then the page in its place: a command that fails leaves no sheet."""
    if target is not None:
        target.write(outcome.page)
    if outcome.output:
        say(outcome.output)
    if target is not None:
        target.put()


def finished(given, outcome, target):
    """The outcome as it has become, and whether the page is that of this run."""
    try:
        with step("writing"):
            delivered(outcome, target)
        return outcome, True
    except (OSError, ValueError) as error:
        # what is left unwritten is not written later, when the program ends
        sys.stdout = None
        outcome = failure(given, str(error))
    try:
        delivered(outcome, target)
        return outcome, True
    except OSError:
        return outcome, False


def told_of_page(given, status, is_new):
    """What has become of the file, in words that leave no doubt which run it is of."""
    if status == DONE:
        return "sheet: %s" % given.html
    if is_new:
        return "%s: %s says so" % (NO_SHEET, given.html)
    return "%s: what stands in %s is NOT of this run" % (NO_SHEET, given.html) if os.path.lexists(given.html) else NO_SHEET


def ended(given, outcome, is_new):
    tell(printable(outcome.told))
    if given.html is not None:
        tell(printable(told_of_page(given, outcome.status, is_new)))
    return outcome.status


def main(words):
    given = options(words)
    target = None
    try:
        if given.html is not None:
            target = PageFile(given.html, sheet_page.MARK)
    except OSError as error:
        return ended(given, failure(given, str(error)), False)
    try:
        outcome, is_new = finished(given, outcome_of(given), target)
    finally:
        if target is not None:
            target.close()
    return ended(given, outcome, is_new)


if __name__ == "__main__":
    sys.exit(main(sys.argv[1:]))
