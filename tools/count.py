#!/usr/bin/env python3
"""Counts the rows of an FTS4 table that satisfy a query, with the proved box.

    python3 tools/count.py [--prepare] [--list] [--json] DATABASE TABLE QUERY
    python3 tools/count.py [--list] [--json] --folder FOLDER QUERY

The table is exported to a temporary folder, held against SQLite's own answers on the way, and searched by the proved library;
with --folder an export is searched that is there already. The count stands alone on the first line of standard output; all else
goes to standard error.

--prepare   for a table whose index is not in leaves that the box takes: works on a copy (tools/export_leaves.py --help)
--list      the docids, rising, on the lines after the count
--json      one object instead: answer, second, count, and with --list docids

Exit status: 0 counted; 1 refused by the box, with its two numbers and what they mean; 2 the table can't be exported, or the
folder is not as its manifest says; 3 another failure (wrong words, no library, output that can't be written).
"""
import argparse
import json
import os
import sys

import command
import export_folder
import export_leaves
import fts4box
from command import DONE, FAILED, MEANINGS, NOT_EXPORTABLE, REFUSED_BY_BOX, say, tell
from export_folder import Refused


def options(words):
    parser = export_leaves.Words(description=__doc__, formatter_class=argparse.RawDescriptionHelpFormatter)
    for flag in ("--prepare", "--list", "--json"):
        parser.add_argument(flag, action="store_true")
    parser.add_argument("--folder")
    parser.add_argument("words", nargs="+", metavar="DATABASE TABLE QUERY | QUERY")
    given = parser.parse_intermixed_args(words)
    if len(given.words) != (1 if given.folder is not None else 3):
        parser.error("wanted: DATABASE TABLE QUERY, or --folder FOLDER QUERY")
    if given.folder is not None and given.prepare:
        parser.error("--prepare goes with a database, not with --folder")
    return given


def export_of(given):
    if given.folder is not None:
        return export_folder.read(given.folder)
    database, table, _ = given.words
    return command.through_folder(export_leaves.export(database, table, given.prepare))


def searched(export, query):
    return fts4box.search(fts4box.load(), *export_folder.lent(export), query)


def written(given, number, second, docids):
    """What goes to standard output."""
    if given.json:
        answer = {"answer": number, "second": second}
        if number == 0:
            answer["count"] = second
            answer.update({"docids": docids} if given.list else {})
        else:
            answer["meaning"] = MEANINGS[number]
        return json.dumps(answer) + "\n"
    if number != 0:
        return ""
    return "".join("%d\n" % n for n in [second] + (docids if given.list else []))


def count(given):
    export = export_of(given)
    tell("table %s of %s, exported %s: %s" % (export.table, export.database, export.time, export_leaves.said_of(export)))
    number, second, docids = searched(export, os.fsencode(given.words[-1]))
    say(written(given, number, second, docids))
    if number != 0:
        tell("refused %d %d: %s" % (number, second, MEANINGS[number]))
        return REFUSED_BY_BOX
    return DONE


def main(words):
    given = options(words)
    try:
        return count(given)
    except Refused as refused:
        tell("not exportable: %s" % refused)
        return NOT_EXPORTABLE
    except (OSError, fts4box.NoLibrary) as error:
        tell("failed: %s" % error)
        # what is left unwritten is not written later, when the program ends
        sys.stdout = None
        return FAILED


if __name__ == "__main__":
    sys.exit(main(sys.argv[1:]))
