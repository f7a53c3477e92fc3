#!/usr/bin/env python3
"""tools/verdict.py where it makes no sheet: each refusal and each failure, its status, and that nothing is left that could be taken for a sheet of the run."""
import contextlib
import errno
import io
import json
import os
import shutil
import sqlite3
import subprocess
import sys
import tempfile
import types
import unittest.mock

import paths
import export_leaves
import fts4box
import page_file
import sheet_page
import verdict
from sheets import DONE, FAIL, FAILED, KINDS, NOT_EXPORTABLE, PASS, PROGRESS, QUERIES, REFUSED, SILENT, TOOL
from sheets import bench, contents, here, node_of_48, page_of, ran, replaced, small_bench, words
from tally import Tally

# what only a sheet says, and has
SHEET_WORDS = KINDS + ["Verdict sheet", "Signature", "Together", "What is proved"]
SHEET_PARTS = [("svg",), ("use",), ("div", "count"), ("div", "number"), ("div", "sign")]
NO_VERDICT = "There is no verdict. This page is no sheet; it is not to be signed."


def no_sheet(tally, what, html, before, heading, *parts):
    """In the sheet's place stands a page that says why there is none, and nothing that only a sheet says; beside it lies nothing."""
    root = page_of(tally, what, html)
    text = root.text()
    tally.check("%s: heading" % what, [node.text() for node in root.found("h1")], [heading])
    tally.check("%s: what is missing on the page" % what, [part for part in (NO_VERDICT, *parts) if part not in text], [])
    tally.check("%s: words of a sheet" % what, [word for word in SHEET_WORDS if word in text], [])
    tally.check("%s: parts of a sheet" % what, [part for part in SHEET_PARTS if root.found(*part)], [])
    tally.check("%s: another page than before" % what, contents(html) != before, True)
    nothing_beside(tally, what, html)


def nothing_beside(tally, what, html):
    tally.check("%s: nothing beside it" % what, [name for name in os.listdir(os.path.dirname(html)) if name.endswith(".new")], [])


def a_sheet(tally, path, html):
    """Makes a sheet, for the next run to take away; its bytes."""
    tally.check("a sheet stands there", (here(words(path, 1, 1, "--html", html))[0], b"Verdict sheet" in contents(html)), (DONE, True))
    return contents(html)


# Refused by the box


RUN, TWO = "the run: its last docid is below its first, or it has more than 4096 rows", "two verdicts for one row: docid "
LEAST, LARGEST = -2**63, 2**63 - 1
# first and last docid, queries, the two numbers, what is said
REFUSALS = [
    (10, 7, QUERIES, (1, 0), RUN), (1, 4097, QUERIES, (1, 0), RUN), (LEAST, LARGEST, QUERIES, (1, 0), RUN), (LARGEST, LEAST, QUERIES, (1, 0), RUN),
    (10, 7, ["(", "(", "("], (1, 0), RUN),
    (7, 10, ["outcome:", FAIL, SILENT], (2, 0), "--pass: the query is not in the language"), (7, 10, [PASS, "(reply", SILENT], (2, 0), "--fail: the query"),
    (7, 10, [PASS, FAIL, ""], (2, 0), "--silent: the query"), (7, 10, ["x" * 513, FAIL, "nonesuch:x"], (2, 0), "--pass and --silent: the query"),
    (7, 10, ["reply", "late", ")"], (2, 0), "--silent: the query"), (7, 10, [os.fsdecode(b"\xff-"), FAIL, SILENT], (2, 0), "--pass: the query"),
    (7, 10, ["outcome:reply", FAIL, SILENT], (7, 8), TWO + '8 (node "<n8>") satisfies the queries --pass and --silent'),
    (9, 10, ["outcome:reply", FAIL, SILENT], (7, 9), TWO + '9 (node "<n9>") satisfies the queries --pass and --fail'),
    (-9, 10, ["sent:9", "timeout", "no"], (7, -9), TWO + '-9 (node "<n-9>") satisfies the queries --pass and --fail and --silent'),
    (-9, -9, ["absent", "timeout", "no"], (7, -9), TWO + '-9 (node "<n-9>") satisfies the queries --fail and --silent'),
]


def refused(tally, place):
    """1 with both numbers, what they mean and what to do, on the terminal, in the object and on the page; the sheet of before is gone."""
    path, html = os.path.join(place, "bench.db"), os.path.join(place, "refused.html")
    rows = [(-9, "no reply, timeout"), (1, "reply"), (7, "reply reply"), (8, "no reply, timeout"), (9, "Reply late"), (10, "reply")]
    bench(path, rows, lambda docid: "<n%d>" % docid).close()
    for first, last, queries, answer, part in REFUSALS:
        what = "refusal %s of %s" % (answer, queries)
        before = a_sheet(tally, path, html)
        status, out, said = ran(*words(path, first, last, "--html", html, "--by", "node", queries=queries))
        tally.check("%s: %s" % (what, said), (status, out, part in said), (REFUSED, "", True))
        tally.check("%s: what is said first" % what, said.startswith("REFUSED %d %d: " % answer) and "\nwhat to do: " in said, True)
        tally.check("%s: what is said last" % what, said.endswith("\nno sheet was made: %s says so\n" % html), True)
        no_sheet(tally, what, html, before, "REFUSED", part, "%d, beside it %d" % answer, "What to do", *(["‹byte FF›-"] if "\udcff" in queries[0] else []))
        status, out, _ = ran(*words(path, first, last, "--json", queries=queries))
        found = json.loads(out)
        tally.check("%s: object" % what, (status, found["answer"], found["second"], sorted(found)), (REFUSED, *answer, ["answer", "meaning", "second", "todo"]))


def box_says(*answer):
    return replaced(fts4box, "verdict", lambda *_: answer)


def unforeseen(tally, place):
    """Answers to which an export leaves no way: 3 for a leaf, since each is checked; 4 with rooms that always suffice; 1 for the names."""
    path, html = os.path.join(place, "bench.db"), os.path.join(place, "box.html")
    small_bench(path)
    for number, second, part in ((3, 1, "a leaf breaks a rule"), (4, 99, "too little room"), (1, 0, "shape: the column names"), (6, 0, "does not know")):
        before = a_sheet(tally, path, html)
        status, out, said = here(words(path, 1, 1, "--html", html), box_says(number, second, (0, 0, 0, 0), [[], [], []]))
        tally.check("answer %d: %s" % (number, said), (status, out, said.startswith("REFUSED %d %d: " % (number, second))), (REFUSED, "", True))
        no_sheet(tally, "answer %d" % number, html, before, "REFUSED", part, "%d, beside it %d" % (number, second), "report it")


# over the rows 1 to 3 and a docid without one, each with what is said of it
IMPOSSIBLE = {
    (0, 4, (2, 1, 1, 1), ((1,), (2,), (3,))): "add up", (0, 4, (0, 1, 1, 2), ((1,), (2,), (3,))): "add up", (0, 4, (1, 1, 0, 2), ((1,), (2,), (3,))): "add up",
    (0, 4, (1, 1, 1, 1), ((1,), (3,), ())): "add up",
    (0, 5, (1, 1, 1, 2), ((1,), (2,), (3,))): "counts 5 rows", (0, 5, (1, 1, 1, 1), ((1,), (2,), (3,))): "counts 5 rows",
    (0, 4, (1, 1, 1, 1), ((1,), (2,), (4,))): "docid 4 is in a list", (0, 4, (1, 1, 1, 1), ((1,), (2,), (5,))): "docid 5 is in a list",
    (0, 4, (1, 1, 1, 1), ((1,), (2,), (2,))): "in two lists",
}


def impossible(tally, place):
    """Where the numbers don't add up there is no sheet, whoever is wrong."""
    path, html = os.path.join(place, "bench.db"), os.path.join(place, "sums.html")
    bench(path, [(1, "reply"), (2, "reply late"), (3, "timeout")], node_of_48, transactions=1).close()
    given = words(path, 1, 4, "--html", html, "--by", "node")
    lost = replaced(verdict, "groups_of", lambda source, cells, all_of=verdict.groups_of: all_of(source, cells)[1:])
    for what, patch, part in [("answer %s" % (answer,), box_says(*answer), part) for answer, part in IMPOSSIBLE.items()] + [("a lost node", lost, "add up")]:
        before = a_sheet(tally, path, html)
        status, out, said = here(given, patch)
        tally.check("%s: %s" % (what, said), (status, out, said.startswith("NO SHEET: ")), (FAILED, "", True))
        no_sheet(tally, what, html, before, "NO SHEET", part)
    right = 0, 4, (1, 1, 1, 1), ((1,), (2,), (3,))
    tally.check("and right numbers", (here(given, box_says(*right))[0], here(given)[0]), (DONE, DONE))


# Not exportable


def not_exportable(tally, place):
    """2, nothing on standard output, and a page that says why."""
    path, garbage, html = (os.path.join(place, name) for name in ("bench.db", "garbage.db", "not.html"))
    small_bench(path)
    with contextlib.closing(sqlite3.connect(path)) as base:
        for table, option in (("bare", "content=''"), ("other", "content='probes'"), ("porter", "tokenize=porter")):
            base.execute("create virtual table %s using fts4(node, outcome, %s)" % (table, option))
    with open(garbage, "wb") as f:
        f.write(b"no database" * 100)
    elsewhere, column, unread = "rows stand elsewhere", "has no column", "can't be read"
    for database, table, more, part in (
        (path, "nonesuch", [], "there is no table"), (path, "porter", [], "tokenizer"), (path, "bare", [], elsewhere), (path, "bare", ["--by", "node"], elsewhere),
        (path, "other", ["--by", "node"], elsewhere), *((path, "probes", ["--by", name], column) for name in ("nonesuch", "", "docid")),
        (garbage, "probes", [], unread), (os.path.join(place, "none.db"), "probes", [], unread), (place, "probes", [], unread), ("/dev/null", "probes", [], unread),
    ):
        what = "%s of %s %s" % (table, database, more)
        before = a_sheet(tally, path, html)
        for flags in ([], ["--json"]):
            status, out, said = ran(*words(database, 1, 1, "--html", html, *more, *flags, table=table))
            tally.check("%s: %s" % (what, said), (status, out, part in said), (NOT_EXPORTABLE, "", True))
            tally.check("%s: what is said first" % what, said.startswith("REFUSED: the table can't be exported: "), True)
            tally.check("%s: what is said last" % what, said.endswith("\nno sheet was made: %s says so\n" % html), True)
        no_sheet(tally, what, html, before, "REFUSED", part)
    tally.check("without a page", ran(*words(path, 1, 1, table="nonesuch"))[:2], (NOT_EXPORTABLE, ""))


def changing(tally, place):
    """A database that is written to while it is read."""
    path, html = os.path.join(place, "changing.db"), os.path.join(place, "changing.html")
    base = bench(path, [(1, "reply")], node_of_48, transactions=1)
    exporting = export_leaves.exporting

    @contextlib.contextmanager
    def written(before, *asked):
        if before:
            base.execute("insert into probes(outcome) values ('no reply, timeout')")
        with exporting(*asked) as found:
            yield found
        if not before:
            base.execute("insert into probes(outcome) values ('no reply, timeout')")

    for mode in ("delete", "wal"):
        base.execute("pragma journal_mode=%s" % mode)
        for early in (True, False):
            before = a_sheet(tally, path, html)
            status, out, said = here(words(path, 1, 9, "--html", html), replaced(export_leaves, "exporting", lambda *asked: written(early, *asked)))
            tally.check("%s, changed: %s" % (mode, said), (status, out), (NOT_EXPORTABLE, ""))
            no_sheet(tally, "%s, changed" % mode, html, before, "REFUSED", "changed while they were read")
    base.close()


# Other failures


def wrong_words(tally, place):
    """3, and the page of an earlier run stays: it was not asked for in words that are understood."""
    path, html = os.path.join(place, "bench.db"), os.path.join(place, "words.html")
    small_bench(path)
    before, good = a_sheet(tally, path, html), words(path, 1, 1, "--html", html)
    bad = [good[:2], good[:1], [], good + ["more"], good + ["--nonesuch"], good + ["--by"], good + ["--prep"]]
    bad += [good[:at] + good[at + 2:] for at in (2, 4, 6, 8, 10)]
    numbers = "", "x", "1.0", "1_0", " 1", "0x1", "9223372036854775808", "-9223372036854775809", "\u0661", "1" * 5000
    for given in bad + [good + ["--first", number] for number in numbers]:
        status, out, said = ran(*given)
        tally.check("words %s: %s" % (given, said[-200:]), (status, out, "\nno sheet was made" in said, contents(html) == before), (FAILED, "", True, True))
    status, out, _ = ran("--help")
    tally.check("help", (status, "--by COLUMN" in out, "100 to a line" in out), (DONE, True, True))


def unwritable(tally, place):
    """A target that can't be had is found out before the work, and what stands there stays."""
    path, other, blank, link, folder = (os.path.join(place, name) for name in ("bench.db", "other.txt", "blank.html", "link.html", "folder"))
    small_bench(path)
    os.mkdir(folder)
    os.symlink(other, link)
    for name, data in ((other, b"no page"), (blank, b"")):
        with open(name, "wb") as f:
            f.write(data)
    database, taken, unwritten = contents(path), "is no page of this tool", "can't be written"
    for html, part in (
        (other, taken), (blank, taken), (path, taken), *((name, "no plain file") for name in (link, folder, "/dev/null")), ("/proc/sheet.html", unwritten),
        (os.path.join(place, "none", "sheet.html"), unwritten), (os.path.join(other, "sheet.html"), unwritten), (os.path.join(place, "x" * 300), unwritten),
    ):
        # the database is not there, and is not looked at
        status, out, said = ran(*words(os.path.join(place, "nonesuch.db"), 1, 1, "--html", html))
        tally.check("%s: %s" % (html, said), (status, out, said.startswith("NO SHEET: "), part in said), (FAILED, "", True, True))
        last = "\nno sheet was made%s\n" % (": what stands in %s is NOT of this run" % html if os.path.lexists(html) else "")
        tally.check("%s: what is said last" % html, said.endswith(last), True)
    left = [contents(name) for name in (other, blank, path)]
    tally.check("nothing is changed", left + [os.path.islink(link), os.listdir(folder)], [b"no page", b"", database, True, []])


def failing(module, name, *faults):
    """A call that raises these one after the other; None is no fault."""
    return replaced(module, name, unittest.mock.Mock(side_effect=faults))


def on_disk(name, *faults):
    """The same of a call of the system, for the page's file alone."""
    return replaced(page_file, "os", types.SimpleNamespace(**{**vars(os), name: unittest.mock.Mock(side_effect=faults)}))


FULL = OSError(errno.ENOSPC, "No space left on device")


def full(tally, place):
    """A full disk, a fault, Ctrl-C: in the sheet's place stands why. Where not even that can be written, it is said which file is of another run."""
    path, html = os.path.join(place, "bench.db"), os.path.join(place, "full.html")
    small_bench(path)
    given = words(path, 1, 1, "--html", html)
    for what, patch, part in (
        ("a full disk, but for a small page", on_disk("fsync", FULL, None, None), "No space left"),
        ("no library", failing(fts4box, "load", fts4box.NoLibrary("build it")), "build it"),
        ("Ctrl-C", failing(fts4box, "verdict", KeyboardInterrupt), "broken off"),
        ("a fault of the tool", failing(fts4box, "verdict", ZeroDivisionError), "ZeroDivisionError"),
        ("a page that is no text", replaced(sheet_page, "sheet_page", lambda _: "\udcff"), "surrogates"),
        ("a folder that can't be synchronized", on_disk("fsync", None, OSError("not now"), None, None), "not now"),
    ):
        before = a_sheet(tally, path, html)
        status, _, said = here(given, patch)
        tally.check("%s: %s" % (what, said), (status, part in said, said.endswith("\nno sheet was made: %s says so\n" % html)), (FAILED, True, True))
        no_sheet(tally, what, html, before, "NO SHEET", part)
    for what, patch in (("a full disk", on_disk("fsync", FULL, FULL)), ("a place that is taken meanwhile", on_disk("replace", OSError("taken"), OSError("taken")))):
        before = a_sheet(tally, path, html)
        status, _, said = here(given, patch)
        last = "\nno sheet was made: what stands in %s is NOT of this run\n" % html
        tally.check("%s: %s" % (what, said), (status, said.endswith(last), contents(html)), (FAILED, True, before))
        nothing_beside(tally, what, html)


LINES = "PASS       1\nFAIL       0\nSILENT     0\nNONE       0\nsum        1\n"


def outputs(tally, place):
    """A standard output that can't be written is a failure, also for the page, which gets its name after it; standard error is none."""
    path, html = os.path.join(place, "bench.db"), os.path.join(place, "outputs.html")
    small_bench(path)
    before, seen = a_sheet(tally, path, html), []
    here(words(path, 1, 2, "--html", html), replaced(verdict, "say", lambda _: seen.append(contents(html))))
    tally.check("the page comes after standard output", (seen, contents(html) != before), ([before], True))
    with open("/dev/full", "wb") as sink:
        for flags in ([], ["--json"]):
            before = a_sheet(tally, path, html)
            done = subprocess.run([sys.executable, TOOL, *words(path, 1, 1, "--html", html, *flags)], stdout=sink, stderr=subprocess.PIPE)
            tally.check("full standard output: %s" % done.stderr, done.returncode, FAILED)
            no_sheet(tally, "full standard output", html, before, "NO SHEET", "No space left")
            done = subprocess.run([sys.executable, TOOL, *words(path, 1, 1, *flags)], stdout=sink, stderr=subprocess.PIPE)
            tally.check("full standard output, no page: %s" % done.stderr, done.returncode, FAILED)
    for closed, status, out in ((">&-", FAILED, ""), ("2>&-", DONE, LINES), ("<&-", DONE, LINES), ("2>/dev/full", DONE, LINES)):
        command = ["sh", "-c", 'exec "$@" %s' % closed, "sh", sys.executable, TOOL, *words(path, 1, 1, "--html", html)]
        done = subprocess.run(command, stdout=subprocess.PIPE, stderr=subprocess.DEVNULL, text=True)
        tally.check("closed: %s" % closed, (done.returncode, done.stdout, b"Verdict sheet" in contents(html)), (status, out, status == DONE))


def without_library(tally, place):
    path, html = os.path.join(place, "bench.db"), os.path.join(place, "library.html")
    small_bench(path)
    given = words(path, 1, 1, "--html", html)
    before, copy = a_sheet(tally, path, html), os.path.join(place, "copy")
    shutil.copytree(paths.TOOLS, os.path.join(copy, "tools"), ignore=shutil.ignore_patterns("__pycache__"))
    done = subprocess.run([sys.executable, os.path.join(copy, "tools", "verdict.py"), *given], stdout=subprocess.PIPE, stderr=subprocess.PIPE, text=True)
    tally.check("no library: %s" % done.stderr, (done.returncode, done.stdout, "bash tools/build.sh" in done.stderr), (FAILED, "", True))
    no_sheet(tally, "no library", html, before, "NO SHEET", "bash tools/build.sh")
    tally.check("no compiler", ran(*given, env={**os.environ, "PATH": copy})[0], FAILED)


def alone(tally, place):
    """The page is all that is made, with the rights that other new files have."""
    path, folder = os.path.join(place, "bench.db"), os.path.join(place, "alone")
    small_bench(path)
    os.mkdir(folder)
    for mask in (0o022, 0o077):
        ran(*words(path, 1, 1, "--html", "alone/sheet.html"), cwd=place, preexec_fn=lambda: os.umask(mask))
        tally.check("rights", (os.listdir(folder), os.stat(os.path.join(folder, "sheet.html")).st_mode & 0o777), (["sheet.html"], 0o666 & ~mask))
    tally.check("and nothing else", sorted(os.listdir(place)), ["alone", "bench.db"])


def progress(tally, place):
    """What takes longer than a second is told: here a database that somebody has locked, until it is told or SQLite waits no longer. What is quick is not."""
    path = os.path.join(place, "locked.db")
    small_bench(path)
    with contextlib.closing(sqlite3.connect(path, isolation_level=None)) as other:
        other.execute("begin exclusive")
        tool = subprocess.Popen([sys.executable, TOOL, *words(path, 1, 1)], stdout=subprocess.DEVNULL, stderr=subprocess.PIPE, text=True)
        said = next((line for line in tool.stderr if line.startswith("exporting")), "")
    tool.stderr.read()
    tally.check("progress", (PROGRESS.fullmatch(said) is not None, tool.wait()), (True, DONE))
    told = io.StringIO()
    with contextlib.redirect_stderr(told), verdict.step("nothing"):
        pass
    tally.check("no progress", told.getvalue(), "")


def main():
    tally = Tally()
    for part in (refused, unforeseen, impossible, not_exportable, changing, wrong_words, unwritable, full, outputs, without_library, alone, progress):
        with tempfile.TemporaryDirectory() as place:
            part(tally, place)
    return tally.finish()


if __name__ == "__main__":
    sys.exit(main())
