#!/usr/bin/env python3
"""Merges the leaves of an export folder into one leaf, with the proved box.

    python3 tools/merge.py FOLDER OUT

FOLDER is an export (tools/export_leaves.py); it is only read. OUT is a new folder with its own manifest: the one leaf that the proved library makes of all leaves
of FOLDER, with the level and the index of the newest of them, or no leaf if nothing is left. Every query gives the same list from either. Deletions are
dropped, so that OUT takes the place of all of FOLDER: never lend its leaf beside a leaf of FOLDER.

Before it is written the merged leaf is held against the leaves of FOLDER, word by word. OUT is written whole or not at all. What was merged, and into
what, goes to standard output; all else goes to standard error.

Exit status: 0 merged; 1 refused by the box, with its two numbers and what to do; 2 FOLDER is not as its manifest says, or OUT can't be taken; 3 another
failure (wrong words, no library, a disk or output that can't be written).
"""
import argparse
import os
import sys

import export_folder
import export_leaves
import fts4box
from command import DONE, FAILED, NOT_EXPORTABLE, REFUSED_BY_BOX, say, tell
from export_folder import Leaf, Refused

SHAPE, LEAF = 1, 3


class RefusedByBox(Exception):
    """The library's two numbers, and what to do."""


class Wrong(Exception):
    """What can't be if the library is right."""


def options(words):
    parser = export_leaves.Words(description=__doc__, formatter_class=argparse.RawDescriptionHelpFormatter)
    parser.add_argument("folder", metavar="FOLDER")
    parser.add_argument("out", metavar="OUT")
    return parser.parse_args(words)


def check_out(folder, out):
    """Nothing is replaced, and nothing is put into the export: it would be none any more."""
    if os.path.lexists(out):
        raise Refused("%s is there already: name a folder that is not" % out)
    inside = os.path.realpath(folder), os.path.realpath(out)
    if os.path.commonpath(inside) == inside[0]:
        raise Refused("%s lies in the export %s: name a folder outside of it" % (out, folder))


def todo(export, number, second):
    """What a refusal means for whoever has the folder."""
    if number == LEAF:
        leaf = export.leaves[second]
        return "the leaf %s breaks a rule: export again" % export_folder.file_name(export, leaf)
    if number == SHAPE and export.leaves:
        return "the merged leaf would have more than %d bytes: count from the folder as it is, or export fewer rows" % fts4box.MERGE_ROOM
    if number == SHAPE:
        return "the export has no leaf, so there is nothing to merge: count from it as it is"
    return "this is not foreseen: keep the folder as it is and report it"


def live(leaves, columns):
    """The words of leaves that are live anywhere, with their places; None where a leaf breaks a rule."""
    try:
        return {word: rows for word, rows in export_leaves.live_places(leaves, columns).items() if rows}
    except Refused:
        return None


def merged(export):
    """The export with its leaves merged."""
    names, *lent = export_folder.lent(export)
    number, second, level, index, data = fts4box.merge(fts4box.load(), len(names), *lent)
    if number != fts4box.ACCEPTED:
        raise RefusedByBox("refused %d %d: %s" % (number, second, todo(export, number, second)))
    leaves = [Leaf(level, index, 0, data)] if data else []
    places = live(leaves, len(names))
    if places is None or places != live(export.leaves, len(names)):
        raise Wrong("the merged leaf has not the live places of the leaves: keep the folder as it is and report it")
    return export._replace(prepared=export_folder.with_merge(export.prepared), leaves=leaves)


def size(leaves):
    return "%d %s, %d bytes" % (len(leaves), "leaf" if len(leaves) == 1 else "leaves", sum(len(leaf.data) for leaf in leaves))


def said_of(before, after):
    if not after.leaves:
        return "%s: nothing is left, no leaf\n" % size(before.leaves)
    (leaf,) = after.leaves
    return "%s: merged into one leaf, %d bytes, level %d, index %d\n" % (size(before.leaves), len(leaf.data), leaf.level, leaf.index)


def merge(given):
    check_out(given.folder, given.out)
    before = export_folder.read(given.folder)
    tell("table %s of %s, exported %s: %s" % (before.table, before.database, before.time, export_leaves.said_of(before)))
    after = merged(before)
    export_folder.write(given.out, after)
    say(said_of(before, after))
    return DONE


def main(words):
    given = options(words)
    try:
        return merge(given)
    except RefusedByBox as refused:
        tell(refused)
        return REFUSED_BY_BOX
    except Refused as refused:
        tell("not merged: %s" % refused)
        return NOT_EXPORTABLE
    except (OSError, Wrong, fts4box.NoLibrary) as error:
        tell("failed: %s" % error)
        # what is left unwritten is not written later, when the program ends
        sys.stdout = None
        return FAILED


if __name__ == "__main__":
    sys.exit(main(sys.argv[1:]))
