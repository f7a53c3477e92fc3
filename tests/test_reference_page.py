#!/usr/bin/env python3
"""docs/REFERENCE.md is true: its tables are read, and the library is asked. A table that is missing or empty is a failure."""
import os
import re
import sys

import folders
import header
import lending
import paths
import sqlite_differences as differences
from box import Box
from fts4box import MERGE_ROOM, joined, merge, merge_keeping, search, verdict
from tally import Tally

PAGE = os.path.join(paths.ROOT, "docs", "REFERENCE.md")
NAMES = [name.encode() for name in folders.BENCH]
COLUMNS = len(NAMES)
OLD_ROW, NEW_ROW = [b"n12", b"probe", b"reply reply"], [b"n12", b"probe", b"late"]
DOCID = 7
SEARCH_ROOM, WRITE_ROOM = header.NUMBERS["FTS4_SEARCH_ROOM"], header.NUMBERS["FTS4_WRITE_ROOM"]
REFUSED_QUERY = 2, 0, []
# a piece of a query, as often as it comes; the end of a query; a query without bytes
PIECE = re.compile(r"`([^`]+)`(?: × (\d+))?|(,)|\((nothing)\)")
# a leaf and its pair
LENT = re.compile(r"([a-z ]+) (\d+)/(\d+)(?:, |$)")
RUN = re.compile(r"(-?\d+) to (-?\d+)")


class Page:
    def __init__(self, tally):
        with open(PAGE, encoding="utf-8") as f:
            self.lines = f.read().splitlines()
        self.tally = tally

    def table(self, first, count):
        """The rows of the table number `count`, from 0, whose first line is this; a failure where there are none."""
        places = [i for i, line in enumerate(self.lines) if line == first]
        rows = []
        for line in self.lines[places[count] + 2:] if count < len(places) else []:
            if not line.startswith("|"):
                break
            rows.append([cell.strip() for cell in line[1:-1].split("|")])
        if not rows:
            self.tally.fail("no table %d: %s" % (count, first))
        return rows

    def queries(self, first, count=0):
        """Each query of a table with the other cells of its row."""
        rows = self.table(first, count)
        for row in rows:
            self.tally.check("what is no query in %s" % row[0], PIECE.sub("", row[0]).strip(), "")
        return [(query, row[1:]) for row in rows for query in queries(row[0])]


def queries(cell):
    """The queries of a cell, with commas between them."""
    found, query = [], b""
    for piece, times, comma, _ in PIECE.findall(cell):
        if comma:
            found.append(query)
            query = b""
        query += unescaped(piece) * int(times or 1)
    return found + [query]


def unescaped(text):
    return re.sub(rb"\\x([0-9A-F]{2})", lambda found: bytes.fromhex(found.group(1).decode()), text.encode())


def unhex(cell):
    return bytes.fromhex(cell.strip("`"))


def numbers(cell):
    return [int(word) for word in cell.split()]


def macros(tally, page):
    told = {row[0].strip("`"): int(row[1]) for row in page.table("| macro | value | of what |", 0)}
    defined = {name: value for name, value in header.NUMBERS.items() if name != "FTS4BOX_VERSION_NUMBER"}
    tally.check("the macros of the header", told, defined)
    major, minor = header.VERSION.split(".")
    tally.check("the version's number", header.NUMBERS["FTS4BOX_VERSION_NUMBER"], 100 * int(major) + int(minor))


def stored_numbers(tally, box, page):
    """Each number as the docid of a row with the word a: height, length, a, list length come before it, position and 0 after it."""
    for number, data in page.table("| number | bytes |", 0):
        leaf = folders.written(box, int(number), [b"a"])
        tally.check("bytes of %s" % number, leaf[4:-2], unhex(data))


def posting_lists(tally, box, page):
    """Each list as that of the one word of a leaf."""
    for data, what in page.table("| bytes | what it is |", 0):
        doclist = unhex(data)
        leaf = bytes([0, 1]) + b"w" + bytes([len(doclist)]) + doclist
        tally.check("list %s" % data, box.check(leaf, COLUMNS), (3 if what.startswith("refused") else 0, 0))


def leaf_of_table(tally, page, count):
    """The bytes of a leaf's table, whose first column says where they stand."""
    leaf = b""
    for at, data, _ in page.table("| at | bytes | what they say |", count):
        tally.check("where %s stands" % data, int(at), len(leaf))
        leaf += unhex(data)
    return leaf


def leaves_of_page(tally, box, page):
    """The leaves that the page names: of one row, and of the same row changed with and without the deletion of what it had; of its deletion; one that is broken."""
    old, new = folders.written(box, DOCID, OLD_ROW), folders.written(box, DOCID, NEW_ROW)
    changed = leaf_of_table(tally, page, 1)
    tally.check("the leaf of one row", leaf_of_table(tally, page, 0), old)
    tally.check("the leaf with a deletion is the written one and a word", (changed[:len(new)], box.check(changed, COLUMNS)), (new, (0, 0)))
    gone = b"\0" + b"\0".join(bytes([len(word)]) + word + b"\2\7\0" for word in (b"n12", b"probe", b"reply"))
    return {"old": old, "without deletion": new, "with deletion": changed, "gone": gone, "cut short": old[:-1]}


def lent_of(tally, named, cell):
    """Leaves, levels and indexes of a cell."""
    if cell == "(none)":
        return [], [], []
    found = LENT.findall(cell)
    tally.check("what is no leaf in %s" % cell, (LENT.sub("", cell), found != []), ("", True))
    return [named[name] for name, _, _ in found], [int(level) for _, level, _ in found], [int(index) for _, _, index in found]


def change(tally, library, page, named):
    """A row changed with and without the deletion of what it had."""
    for row in page.table("| lent, each with level/index | `reply` lists | `late` lists |", 0):
        lists(tally, library, row[0], lent_of(tally, named, row[0]), row[1:])


def lists(tally, library, what, lent, cells):
    """The docids of `reply` and of `late` are those of two cells."""
    for query, cell in zip((b"reply", b"late"), cells):
        docids = numbers(cell)
        tally.check("%r in %s" % (query, what), search(library, NAMES, *lent, query, SEARCH_ROOM), (0, len(docids), docids))


def merges(tally, library, page, named):
    """Each merge: its numbers, its pair, the leaf where the page names it, and what is listed before and after."""
    for cell, number, beside, pair, reply, late, leaf in page.table("| lent, each with level/index | answer | beside | level/index | `reply` lists | `late` lists | the leaf written |", 0):
        lent = lent_of(tally, named, cell)
        *got, level, index, data = merge(library, COLUMNS, *lent, MERGE_ROOM)
        tally.check("merge of %s" % cell, (got, "%d/%d" % (level, index)), ([int(number), int(beside)], pair))
        if number != "0":
            continue
        if leaf:
            tally.check("the leaf of %s" % cell, data, named.get(leaf, b""))
        for what in (lent, ([data], [level], [index]) if data else ([], [], [])):
            lists(tally, library, cell, what, (reply, late))


def kept_merges(tally, library, page, named):
    """Each keeping merge: its numbers, its pair, the leaf where the page names it, and what is listed before and after."""
    for cell, number, beside, pair, leaf in page.table("| lent, each with level/index | answer | beside | level/index | the leaf written |", 0):
        lent = lent_of(tally, named, cell)
        *got, level, index, data = merge_keeping(library, COLUMNS, *lent, MERGE_ROOM)
        tally.check("keeping merge of %s" % cell, (got, "%d/%d" % (level, index)), ([int(number), int(beside)], pair))
        if leaf:
            tally.check("the leaf of %s" % cell, data, named.get(leaf, b""))
        for query in (b"reply", b"late") if number == "0" else ():
            before, after = (search(library, NAMES, *leaves, query, SEARCH_ROOM) for leaves in (lent, ([data], [level], [index])))
            tally.check("%r before and after %s" % (query, cell), after, before)


def neighbours(tally, library, page, named):
    """What is listed before and after two leaves of an index were merged."""
    changed = 0
    for index, chosen, *listed in page.table("| index, each with level/index | merged | `reply` listed before | `reply` listed after |", 0):
        lent, merged = (list(zip(*lent_of(tally, named, cell))) for cell in (index, chosen))
        tally.check("leaves of the index in %s" % chosen, set(merged) <= set(lent), True)
        number, _, *pair, data = merge_keeping(library, COLUMNS, *zip(*merged), MERGE_ROOM)
        tally.check("merge of %s" % chosen, number, 0)
        after = [leaf for leaf in lent if leaf not in merged] + [(data, *pair)]
        for what, cell in zip((lent, after), listed):
            docids = numbers(cell)
            tally.check("reply of %s, merged %s" % (index, chosen), search(library, NAMES, *zip(*what), b"reply", SEARCH_ROOM), (0, len(docids), docids))
        changed += listed[0] != listed[1]
    tally.check("merges that change a list", changed, 1)


def lent_rows(box, page):
    """The rows of the page, each in a leaf of its own."""
    rows = page.table("| docid | node | sent | outcome |", 0)
    leaves = [folders.written(box, int(row[0]), [text.encode() for text in row[1:]]) for row in rows]
    return leaves, [0] * len(leaves), list(range(len(leaves)))


def query_tables(tally, library, box, page):
    lent = lent_rows(box, page)
    for query, (_, cell) in page.queries("| query | what it means | docids |"):
        docids = numbers(cell)
        tally.check("accepted %.60r" % query, search(library, NAMES, *lent, query, SEARCH_ROOM), (0, len(docids), docids))
    for query, _ in page.queries("| query | why |"):
        tally.check("refused %.60r" % query, search(library, NAMES, *lent, query, SEARCH_ROOM), REFUSED_QUERY)


def sheets(tally, library, box, page):
    lent = lent_rows(box, page)
    for run, *cells, number, beside, counts, _ in page.table("| run | pass | fail | silent | answer | beside | counts | |", 0):
        first, last = RUN.fullmatch(run).groups()
        asked = [queries(cell) for cell in cells]
        tally.check("queries of %s" % run, [len(found) for found in asked], [1, 1, 1])
        answer = verdict(library, int(first), int(last), NAMES, *lent, *(query for (query,) in asked))
        expected = int(number), int(beside), tuple(numbers(counts))
        tally.check("sheet of %s, %s" % (run, cells), answer[:3], expected)
        tally.check("rows of %s, %s" % (run, cells), [len(docids) for docids in answer[3]], numbers(counts)[:3])
        tally.check("sum of %s, %s" % (run, cells), sum(expected[2]), expected[1] if number == "0" else 0)


def sqlite_tables(tally, library, box, page):
    """The page has just the queries that tests/test_sqlite.py asks of SQLite, and says what the box answers."""
    leaves = [folders.written(box, docid, [b"", b"", text]) for docid, text in ((1, b"x"), (2, b"y x"))]
    known = (differences.ONLY_SQLITE, 2), (differences.ONLY_BOX, 0), (differences.BARE_NEAR[1], 0)
    for count, (expected, answer) in enumerate(known):
        told = [query for query, _ in page.queries("| query | what it is |", count)]
        tally.check("differences, table %d" % count, sorted(told), sorted(expected))
        for query in told:
            number, _, _ = search(library, NAMES, leaves, [0, 0], [0, 1], query, SEARCH_ROOM)
            tally.check("difference %.60r" % query, number, answer)


def shapes(tally, box):
    """Each item that earns number 1."""
    leaf, over = folders.written(box, DOCID, OLD_ROW), bytes(65537)
    names, lent = joined(NAMES), lending.in_order([leaf])
    asked = {
        "check": [(leaf, 0), (leaf, 17), (over, COLUMNS)],
        "lookup": [(leaf, 0, b"a"), (leaf, 17, b"a"), (over, COLUMNS, b"a"), (leaf, COLUMNS, b""), (leaf, COLUMNS, b"w" * 65)],
        "deciding": [
            (leaf, leaf, 0, b"a", 1), (leaf, leaf, 17, b"a", 1), (leaf, over[len(leaf):], COLUMNS, b"a", 1), (leaf, leaf, COLUMNS, b"", 1),
            (leaf, leaf, COLUMNS, b"w" * 65, 1),
        ],
        "write": [
            (1, b"ab", [2, 1], 0), (1, b"ab", [3], 0), (1, b"ab", [1], 0), (1, b"ab", [], 0), (1, b"", [], 0), (1, b"", [0] * 17, 0),
            (1, b" " * 4097, [4097], 0),
        ],
        "search": [(*joined(other), *lent, b"a", 0) for other in (
            [], [b"c%d" % i for i in range(17)], [b"a", b""], [b"c" * 33], [b"a b"], [b"caf\xc3\xa9"], [b"a-b"], [b"a", b"A"],
        )] + [(b"ab", ends, *lent, b"a", 0) for ends in ([2, 1], [3], [1], [])]
        + [(*names, leaf, ends, [0] * len(ends), list(range(len(ends))), b"a", 0) for ends in ([36, 35], [37], [35], [])]
        + [(*names, *lending.in_order(leaves), b"a", 0) for leaves in ([leaf] * 9, [over])]
        + [(*names, *joined([leaf] * 2), levels, indexes, b"a", 0) for levels, indexes in (
            ([], []), ([0], [0]), ([0, 1], [0]), ([0], [0, 1]), ([0, 1, 2], [0, 0]), ([0, 0], [0, 1, 2]), ([0, 1, 2], [0, 1, 2]), ([3, 3], [4, 4]),
        )],
    }
    queries_and_rooms = b"a", b"b", b"c", 0, 0, 0
    runs = [(1, 0), (0, -1), (1, 4097), (-4096, 0), (2**63 - 1, -2**63), (-2**63, 2**63 - 1)]
    asked["verdict"] = [(*run, *names, *lent, *queries_and_rooms) for run in runs] + [(1, 9, *case[:6], *queries_and_rooms) for case in asked["search"]]
    asked["merge"] = [(columns, *lent, 0) for columns in (0, 17)] + [(COLUMNS, *case[2:6], 0) for case in asked["search"] if case[:2] == names]
    asked["merge"] += [(COLUMNS, b"", [], [], [], 0), *((COLUMNS, *lending.in_order(lending.grown_leaves(65537)), room) for room in (0, 65537))]
    asked["merge_keeping"] = asked["merge"]
    for name, cases in asked.items():
        for case in cases:
            tally.check("shape of %s %.80r" % (name, case), getattr(box, name)(*case)[:2], (1, 0))


def largest_document():
    """Texts with all words of one byte and as many of two as there is room for: with a docid of ten bytes, the largest leaf that we know.

    A column of its own spares a word its separator. Column 0 would not be announced, so it has none."""
    singles = [bytes([b]) for b in (*b"0123456789abcdefghijklmnopqrstuvwxyz", *range(128, 256))]
    pairs = [a + b for a in singles for b in singles]
    words = singles + pairs[:1261]
    return [b"", *words[:14], b" ".join(words[14:])]


def largest(tally, box, page):
    texts = largest_document()
    tally.check("bytes of the largest document", (len(texts), sum(map(len, texts))), (16, 4096))
    size = len(folders.written(box, -1, texts))
    tally.check("the largest leaf is told", [line for line in page.lines if "has %s bytes" % format(size, ",") in line] != [], True)
    tally.check("the largest leaf has room", size <= WRITE_ROOM, True)


def main():
    tally, box = Tally(), Box()
    page, library = Page(tally), box.library
    macros(tally, page)
    stored_numbers(tally, box, page)
    posting_lists(tally, box, page)
    named = leaves_of_page(tally, box, page)
    change(tally, library, page, named)
    merges(tally, library, page, named)
    kept_merges(tally, library, page, named)
    neighbours(tally, library, page, named)
    query_tables(tally, library, box, page)
    sheets(tally, library, box, page)
    sqlite_tables(tally, library, box, page)
    shapes(tally, box)
    largest(tally, box, page)
    return tally.finish()


if __name__ == "__main__":
    sys.exit(main())
