#!/usr/bin/env python3
"""tools/verdict.py: the sheet's counts, picture and table, read back from its page, beside SQLite's own answers; names of any kind."""
import collections
import hashlib
import json
import os
import re
import shlex
import sys
import tempfile
import time

import paths
import export_leaves
import fts4box
import header
import identity
import pages
import sheet_page
import sheet_picture
import visible_text
from sheets import DONE, FAIL, KINDS, NOT_EXPORTABLE, PASS, QUERIES, SILENT, bench, contents, node_of_48, outcomes, page_of, ran, replaced, words
from tally import Tally

HOSTILE = [
    None, "", "NULL", "‹NULL›", "‹empty›", "‹U+202E›", "<script>alert(1)</script>", "</svg></body><svg onload=alert(1)>", "\"quoted\" & 'single'", "&amp;",
    "&#60;b&#62;", "]]>", "<!--", "-->", "a\u202eb", "\u2066a", "n\x00ul", "bell\x07\x1b[31m", "zero\u200bwidth", "bom\ufeff", "\u2028", "nb\u00a0sp", " n1", "n1 ",
    "n  1", "n 1", "n1", "tab\t", "line\nline", "\u05e9\u05dc\u05d5\u05dd", "e\u0301", "z" + "\u0310" * 30, "\u0301", "\u3164", "x\ufe0f",
    "\U0001f600", "\U000e0041", "\ue000", "\u65e5\u672c" * 20, "x" * 3000, "a" * 40 + "1", "a" * 40 + "2", "%s %d {0}", "url(http://example.org)", "javascript:alert(1)",
    b"\xff\xfe", b"\xc3", 5, 2.5, -7,
]


# One sheet, beside SQLite


def by_sqlite(base, first, last, queries, table):
    """Each stored docid of the run with the place of the query that lists it, or 3, by SQLite's own MATCH."""
    name = export_leaves.name_of(table)
    kinds = {docid: 3 for (docid,) in base.execute("select docid from %s where docid between ? and ?" % name, (first, last))}
    for kind, query in enumerate(queries):
        for (docid,) in base.execute("select docid from %s where %s match ? and docid between ? and ?" % (name, name), (query, first, last)):
            assert kinds[docid] == 3, "the queries of a test share no row"
            kinds[docid] = kind
    return kinds


def counts_of(kinds):
    found = collections.Counter(kinds)
    return [found[kind] for kind in range(4)]


def share_of(count, total):
    """By other arithmetic than the page's."""
    return "%.2f %%" % (int(count * 10000 / total + 0.5) / 100)


def sheet(tally, what, base, path, first, last, *more, by=None, queries=QUERIES, table="probes"):
    """Makes a sheet and holds all its numbers against SQLite's; the page's tree."""
    html = os.path.join(os.path.dirname(path), "sheet.html")
    asked = ["--html", html, *(["--by", by] if by is not None else []), *more]
    status, out, said = ran(*words(path, first, last, *asked, queries=queries, table=table))
    tally.check("%s: status, %s" % (what, said), (status, said.endswith("\nsheet: %s\n" % html)), (DONE, True))
    kinds, total = by_sqlite(base, first, last, queries, table), last - first + 1
    missing = total - len(kinds)
    expected = counts_of(kinds.values())
    expected[3] += missing
    lines = [[word, str(number)] for word, number in zip(KINDS + ["sum"], expected + [total])]
    tally.check("%s: terminal" % what, [line.split() for line in out.splitlines()], lines)
    root = page_of(tally, what, html)
    tally.check("%s: words" % what, [node.text() for node in root.found("div", "word")], KINDS)
    tally.check("%s: counts" % what, pages.counts(root), expected)
    tally.check("%s: shares" % what, pages.shares(root), [share_of(number, total) for number in expected])
    tally.check("%s: sum and what is not stored" % what, [pages.number(root.one(name).text()) for name in ("sum", "missing")], [total, missing])
    drawn(tally, what, root, {docid: kinds.get(docid, 4) for docid in range(first, last + 1)} if by is None else kinds)
    if by is None:
        tally.check("%s: no table" % what, root.found("table", "nodes"), [])
    else:
        groups = by_group(base, first, last, kinds, by, table)
        tabled(tally, what, root, groups, [("no stored row", [0, 0, 0, missing, missing]), ("all", expected + [total])])
    told(tally, what, root, path, table, first, last, queries)
    return root


def drawn(tally, what, root, kinds):
    """The picture has each docid once, as its list says, in lines that rise, with the docids of their ends."""
    cells, lines = pages.cells(root), root.found("g", "line")
    tally.check("%s: docids" % what, sorted(docid for _, docid, _, _ in cells), sorted(kinds))
    tally.check("%s: classes" % what, {docid: kind for _, docid, kind, _ in cells}, {docid: sheet_picture.CLASSES[kind] for docid, kind in kinds.items()})
    tally.check("%s: what cells say" % what, [said for _, _, kind, said in cells if said.lower() != {"missing": "none, no stored row"}.get(kind, kind)], [])
    shapes = {(cell.attributes["class"], cell.attributes["href"]) for line in lines for cell in line.found("use")}
    tally.check("%s: a shape for each list" % what, [shape for kind, shape in shapes if shape != "#c%d" % sheet_picture.CLASSES.index(kind)], [])
    docids = [[int(re.match(r"docid (-?\d+)", cell.text()).group(1)) for cell in line.found("use")] for line in lines]
    tally.check("%s: lines rise" % what, docids, [sorted(line) for line in docids])
    ends = [[int(text.text()) for text in line.found("text", "digits")] for line in lines]
    tally.check("%s: docids at the ends of lines" % what, ends, [[line[0], line[-1]] for line in docids])


def by_group(base, first, last, kinds, by, table):
    """The counts of each text of a column, by SQL's own groups."""
    query = "select cast(cast(%s as text) as blob), group_concat(docid) from %s where docid between ? and ? group by cast(%s as text)"
    groups = {}
    for name, docids in base.execute(query % (by, export_leaves.name_of(table), by), (first, last)):
        counts = counts_of(kinds[int(docid)] for docid in docids.split(","))
        groups[visible_text.name_of(name)] = counts + [sum(counts)]
    return groups


def tabled(tally, what, root, groups, last_lines):
    lines = pages.table(root)
    tally.check("%s: table" % what, {head[-1]: numbers for kind, head, numbers in lines if kind == "node"}, groups)
    tally.check("%s: each once" % what, len(lines), len(groups) + 2)
    tally.check("%s: end of the table" % what, [(head[-1], numbers) for kind, head, numbers in lines if kind != "node"], last_lines)
    tally.check("%s: the lines add up" % what, [sum(column) for column in zip(*(numbers for _, _, numbers in lines[:-1]))], lines[-1][2])


def told(tally, what, root, path, table, first, last, queries):
    """What was asked, what it was made of, and what is said of it."""
    text = root.text()
    tally.check("%s: queries" % what, [node.text() for node in root.found("table", "queries")[0].found("bdi")], queries)
    tally.check("%s: run" % what, "Table %s of database %s. Run: docids %d to %d, " % (table, os.path.basename(path), first, last) in text, True)
    for name in (path, fts4box.ARCHIVE):
        tally.check("%s: digest of %s" % (what, name), hashlib.sha256(contents(name)).hexdigest() in text, True)
    tally.check("%s: version" % what, "fts4box %s, tools/verdict.py" % header.VERSION in text, True)
    tally.check("%s: time" % what, len(re.findall(r"\d{4}-\d\d-\d\d \d\d:\d\d:\d\d UTC", root.found("div", "top")[0].text())), 1)
    tally.check("%s: to be signed" % what, [node.text() for node in root.found("div", "sign")[0].found("div")[1:]], ["Date", "Name", "Signature"])
    tally.check("%s: what is proved, and what is lost" % what, [len(node.found("li")) for node in root.found("ol") + root.found("ul")], [3, 4])
    tally.check("%s: where it is said in full" % what, "docs/GUARANTEES.md" in text and "tested, not proved" in text, True)


# Benches


def raw_text(tally, what, html):
    """What a page does not hold anywhere, where no name in the database holds it."""
    text = contents(html).decode("utf-8").lower()
    tally.check("%s: raw text" % what, [part for part in ("http:", "https:", "src=", "url(", "<script", "javascript", "@import") if part in text], [])


def large(tally, place):
    """48 nodes and 3,200 rows; the same by other columns and without one; runs that go beyond the rows."""
    path, html = os.path.join(place, "large.db"), os.path.join(place, "sheet.html")
    base = bench(path, outcomes(1, 3200, 1), node_of_48)
    began = time.monotonic()
    root = sheet(tally, "large", base, path, 1, 3200, by="node")
    print("48 nodes, 3,200 rows: %.1f s with all comparisons, %d bytes" % (time.monotonic() - began, os.path.getsize(html)))
    raw_text(tally, "large", html)
    tally.check("large: nodes in their natural order", list(dict.fromkeys(name for name, _, _, _ in pages.cells(root))), ["n%d" % i for i in range(48)])
    (picture,) = root.found("svg", "picture")
    above = [part.text() for part in picture.parts if isinstance(part, pages.Node) and part.tag == "text"]
    tally.check("large: the smallest docid above each tenth column", above, ["%d" % (1 + 480 * i) for i in range(7)])
    leaves = [hashlib.sha256(leaf.data).hexdigest() for leaf in export_leaves.export(path, "probes").leaves]
    tally.check("large: each leaf", [node.text() for node in root.found("table", "files")[0].found("bdi", "code")][1:-1], leaves)
    sheet(tally, "no column", base, path, 1, 3200)
    raw_text(tally, "no column", html)
    for by in ("NODE", None):
        sheet(tally, "beyond the rows, by %s" % by, base, path, -100, 3300, by=by)
    sheet(tally, "by outcome", base, path, 1, 3200, by="outcome")
    sheet(tally, "one row", base, path, 7, 7, by="node")
    sheet(tally, "no row is listed", base, path, 1, 100, by="node", queries=["absent", "none", "neither"])
    base.close()


def others(tally, place):
    """Deleted and changed rows, docids about 0 and at the ends of their range."""
    path = os.path.join(place, "about0.db")
    base = bench(path, outcomes(-60, 60, 2, 0.8), lambda docid: "n%d" % (abs(docid) % 5), transactions=3)
    base.execute("delete from probes where docid % 7 = 3")
    base.execute("update probes set outcome = 'reply late', node = 'moved' where docid between 10 and 14")
    for run in ((-60, 60), (0, 0), (-1, 1), (61 - 4096, 60)):
        for by in ("node", None):
            sheet(tally, "about 0 %s, by %s" % (run, by), base, path, *run, by=by)
    base.close()
    path, low, high = os.path.join(place, "ends.db"), -2**63, 2**63 - 1
    base = bench(path, [(low, "reply"), (low + 5, "late"), (high - 5, "timeout"), (high, "reply")], lambda docid: "n", transactions=1)
    for run in ((low, low + 10), (high - 4095, high)):
        sheet(tally, "the ends of docids %s" % (run,), base, path, *run, by="node")
    base.close()


def prepared(tally, place):
    """Small pages, and a table with another name."""
    path, table = os.path.join(place, "small.db"), 'odd "name" <b>'
    base = bench(path, outcomes(1, 400, 3), node_of_48, page_size=512, transactions=2, table=table)
    tally.check("small pages", ran(*words(path, 1, 400, table=table))[0], NOT_EXPORTABLE)
    root = sheet(tally, "prepared", base, path, 1, 400, "--prepare", by="node", table=table)
    tally.check("prepared: the page says so", "prepared in a copy" in root.text(), True)
    base.close()


def log(tally, place):
    """A part of the database that is in its write-ahead log is named too."""
    path = os.path.join(place, "log.db")
    base = bench(path, [(1, "reply")], node_of_48, transactions=1)
    base.execute("pragma journal_mode=wal")
    base.execute("insert into probes(docid, node, outcome) values (2, 'n2', 'no reply, timeout')")
    root = sheet(tally, "log", base, path, 1, 2, by="node")
    tally.check("log: its digest", hashlib.sha256(contents(path + "-wal")).hexdigest() in root.text(), True)
    base.close()


def empty(tally, place):
    """A run with no stored row; a table with no row; a row without a word."""
    path = os.path.join(place, "rows.db")
    base = bench(path, outcomes(1, 50, 4), node_of_48)
    for by in (None, "node"):
        root = sheet(tally, "no stored row, by %s" % by, base, path, 1000, 1099, by=by)
        tally.check("no stored row: all NONE", pages.counts(root), [0, 0, 0, 100])
    tally.check("no stored row: said", "No row of the run is stored." in root.text(), True)
    base.close()
    path = os.path.join(place, "none.db")
    base = bench(path, [], node_of_48)
    for by in (None, "sent"):
        sheet(tally, "no row at all, by %s" % by, base, path, 1, 4096, by=by)
    base.execute("insert into probes(docid, node, sent, outcome) values (5, '-', null, '')")
    root = sheet(tally, "a row without a word", base, path, 1, 10, by="sent")
    tally.check("a row without a word is stored", pages.table(root)[0], ("node", ["‹NULL›"], [0, 0, 0, 1, 1]))
    base.close()


def many(tally, place):
    """4,096 nodes: all are in the picture and in the table. One node with as many rows goes on from line to line."""
    path = os.path.join(place, "many.db")
    rows = [(docid, ("reply", "late", "timeout")[docid % 3]) for docid in range(1, 4097)]
    base = bench(path, rows, lambda docid: "node %d" % docid, transactions=1, options=", notindexed=node, notindexed=sent")
    root = sheet(tally, "many nodes", base, path, 1, 4096, by="node")
    tally.check("many nodes: lines", len(root.found("g", "line")), 4096)
    base.execute("update probes set node = 'n'")
    root = sheet(tally, "one node", base, path, 1, 4096, by="node")
    tally.check("one node: lines", [len(line.found("use")) for line in root.found("g", "line")], [80] * 51 + [16])
    base.close()


# Names


def as_bytes(name):
    return name if name is None or isinstance(name, bytes) else str(name).encode("utf-8")


def hostile(tally, place):
    """Names that are markup, that can't be seen, that are too long: each is one line of the table, and the page stays closed."""
    path, table, last = os.path.join(place, "hostile.db"), "t</title><script>", 4 * len(HOSTILE)
    base = bench(path, outcomes(1, last, 5), lambda docid: HOSTILE[docid % len(HOSTILE)], options=", notindexed=node", table=table)
    root = sheet(tally, "hostile", base, path, 1, last, by="node", table=table)
    base.close()
    text = contents(os.path.join(place, "sheet.html")).decode("utf-8")
    tally.check("hostile: no markup of theirs", [part for part in ("<script", "</svg></body>", "onload=alert(1)>", "]]>") if part in text], [])
    tally.check("hostile: one comment, the page's own", text.count("<!--"), 1)
    tally.check("hostile: nothing hidden", [sign for sign in set(text) if visible_text.hidden(sign) and sign not in "\n‹"], [])
    lines = [head for kind, head, _ in pages.table(root) if kind == "node"]
    names = [head[-1] for head in lines]
    tally.check("hostile: all are there, whole", sorted(names), sorted(visible_text.name_of(as_bytes(name)) for name in HOSTILE))
    tally.check("hostile: none looks like another", len(set(names)), len(HOSTILE))
    labels = {name for name, _, _, _ in pages.cells(root)}
    tally.check("hostile: as many lines as names", len(labels), len(names))
    tally.check("hostile: short in the picture", max(map(visible_text.width, labels)) <= len("99: ") + sheet_picture.MOST_LABEL, True)
    shortened = [label.split(": ", 1) for label in labels if "…" in label]
    numbers = dict(lines)
    tally.check("hostile: some are shortened", len(shortened) > 2, True)
    tally.check("hostile: by their number in the table", [label for number, label in shortened if not numbers[number].startswith(label.split("…")[0])], [])


def visible(tally, _):
    for text, shown in (
        ("n1", "n1"), ("a b", "a b"), (" a", "‹U+0020›a"), ("a ", "a‹U+0020›"), ("a  b", "a ‹U+0020›b"), ("\u202e", "‹U+202E›"), ("‹", "‹U+2039›"),
        ("\x00", "‹U+0000›"), ("\udcff", "‹byte FF›"), ("\U000e0041", "‹U+E0041›"), ("\u0301a", "‹U+0301›a"), ("e\u0301", "e\u0301"),
        ("e" + "\u0301" * 5, "e\u0301\u0301\u0301‹U+0301›‹U+0301›"), ("\u00a0", "‹U+00A0›"), ("\u3164", "‹U+3164›"), ("\n", "‹U+000A›"),
    ):
        tally.check("visible %r" % text, visible_text.visible(text), shown)
    tally.check("printable", visible_text.printable("  a\n\x1b[31m\u202eb"), "  a\n‹U+001B›[31m‹U+202E›b")
    tally.check("escaped", visible_text.escaped("<a href='x' b=\"y\">&"), "&lt;a href=&#x27;x&#x27; b=&quot;y&quot;&gt;&amp;")
    names = ["9", "10", "n", "n2", "n02", "n10", "n" + "1" * 5000]
    tally.check("natural order", sorted(reversed(names), key=lambda name: (visible_text.natural(name), len(name))), names)
    for text, most, shown in (("abcdef", 6, "abcdef"), ("abcdefg", 5, "ab…fg"), ("\u65e5" * 4, 7, "\u65e5…\u65e5"), ("x" * 10**6 + "y", 5, "xx…xy")):
        tally.check("shortened %s" % text[:9], visible_text.shortened(text, most), shown)
    for count, total, shown in ((1, 4096, "0.02 %"), (4095, 4096, "99.98 %"), (0, 1, "0.00 %"), (1, 1, "100.00 %"), (1, 3, "33.33 %"), (2, 3, "66.67 %")):
        tally.check("share %d of %d" % (count, total), sheet_page.share(count, total), shown)


# What else is said


def machines(tally, place):
    """The object says what the terminal and the page say."""
    path, html = os.path.join(place, "machines.db"), os.path.join(place, "machines.html")
    bench(path, outcomes(1, 90, 6, 0.9), node_of_48).close()
    _, out, _ = ran(*words(path, 1, 100, "--html", html))
    lines = {word.lower(): int(number) for word, number in (line.split() for line in out.splitlines())}
    status, out, said = ran(*words(path, 1, 100, "--json"))
    answer = json.loads(out)
    root = page_of(tally, "machines", html)
    shown = pages.counts(root) + [pages.number(root.one(name).text()) for name in ("sum", "missing")]
    tally.check("object and terminal: %s" % said, (status, {key: answer[key] for key in lines}), (DONE, lines))
    tally.check("object and page", [answer[key] for key in ("pass", "fail", "silent", "none", "sum", "no_row")], shown)
    tally.check("object: the rest", {key: answer[key] for key in ("answer", "second", "first", "last")}, {"answer": 0, "second": 100, "first": 1, "last": 100})
    tally.check("object: nothing else", len(answer), 10)
    mixed = ["--json", "--silent", SILENT, path, "--last", "100", "--fail", FAIL, "probes", "--pass=" + PASS, "--first=1"]
    tally.check("words in another order", ran(*mixed)[:2], (DONE, out))


def identities(tally, place):
    """Without git, without rt, in another repository: said, and no failure."""
    with replaced(identity, "said_by", lambda *_: None):
        tally.check("neither git nor rt", (identity.commit(), identity.toolchain()), ("no commit known", "not on this machine, or rt did not answer"))
    with replaced(identity, "said_by", lambda *asked: place if "--show-toplevel" in asked else "x"):
        tally.check("another repository", identity.commit(), "no commit known")
    for status, said in (("", "commit x"), (" M x.py", "commit x, with changes that are not committed"), (None, "commit x, not known whether changed since")):
        answers = {"--show-toplevel": paths.ROOT, "HEAD": "x", "--untracked-files=no": status}
        with replaced(identity, "said_by", lambda *asked: answers[asked[-1]]):
            tally.check("commit", identity.commit(), said)
    tally.check("a program that is not there, or fails", [identity.said_by(name) for name in ("nonesuch-program", "false")], [None, None])
    with replaced(identity, "PATIENCE_S", 0.2):
        tally.check("a program that takes too long", identity.said_by("sleep", "5"), None)


def documents(tally, place):
    """README's commands are ones that the tool takes, and come first; the losses are those of docs/GUARANTEES.md."""
    with open(os.path.join(paths.ROOT, "README.md"), encoding="utf-8") as f:
        readme = f.read()
    commands = re.findall(r"^    (python3 tools/verdict\.py (?:.*\\\n)*.*)$", readme, re.M)
    first = re.search(r"^    .*$", readme, re.M).group().strip()
    tally.check("README's first command", first.startswith("python3 tools/verdict.py "), True)
    path, html = os.path.join(place, "readme.db"), os.path.join(place, "readme.html")
    bench(path, outcomes(0, 3200, 7), node_of_48).close()
    for command in commands:
        given = shlex.split(command.replace("\\\n", " "), comments=True)[2:]
        given[0], given[given.index("--html") + 1] = path, html
        tally.check(command, ran(*given)[0], DONE)
    picture = os.path.join(paths.ROOT, "docs", "sheet.png")
    tally.check("README's picture", ("(docs/sheet.png)" in readme, os.path.getsize(picture) < 150000), (True, True))
    with open(os.path.join(paths.ROOT, "docs", "GUARANTEES.md"), encoding="utf-8") as f:
        guarantees = f.read().replace("\n", " ")
    losses = re.search(r"\*\*Losses that no reader of this layout can see\*\*, since what is left is a sound leaf or a sound index: ([^.]*)\.", guarantees)
    tally.check("losses", sheet_page.LOSSES, tuple(losses.group(1).split("; ")))


def main():
    tally = Tally()
    for part in (large, others, prepared, log, empty, many, hostile, visible, machines, identities, documents):
        with tempfile.TemporaryDirectory() as place:
            part(tally, place)
    return tally.finish()


if __name__ == "__main__":
    sys.exit(main())
