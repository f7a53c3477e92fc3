#!/usr/bin/env python3
"""tools/count.py, status by status, beside SQLite's own counts; and that it notices a folder which is not as it says."""
import json
import os
import re
import shutil
import sqlite3
import subprocess
import sys
import tempfile

import paths
import export_folder
import fts4box
from tally import Tally

TOOL = os.path.join(paths.TOOLS, "count.py")
COUNTED, REFUSED, NOT_EXPORTABLE, FAILED = range(4)
OTHER_TEXTS = {
    "column": lambda text: text.replace("column sent", "column went"),
    "level": lambda text: text.replace("level 0", "level 1"),
    "no pairs": lambda text: re.sub("^(level|index) .*\n", "", text, flags=re.M),
}
QUERIES = ["outcome:reply NOT outcome:timeout", "timeout", "n1* late", '"no reply"', "absent", "(n3 OR n4) reply", "ünode"]


def filled(path, page_size=65536, rows=200):
    base = sqlite3.connect(path, isolation_level=None)
    base.execute("pragma page_size=%d" % page_size)
    base.execute("create virtual table probes using fts4(node, sent, outcome)")
    for i in range(4):
        base.execute("begin")
        for docid in range(i * rows // 4 - rows // 2, (i + 1) * rows // 4 - rows // 2):
            outcome = ("reply", "reply late", "no reply, timeout", "ünode")[docid * 7 % 4]
            base.execute("insert into probes(docid, node, sent, outcome) values (?, ?, ?, ?)", (docid, "n%d" % (docid % 12), "t%d" % docid, outcome))
        base.execute("commit")
    base.execute("delete from probes where abs(docid) % 9 = 4")
    return base


def ran(*words, **more):
    done = subprocess.run([sys.executable, TOOL, *words], stdout=subprocess.PIPE, stderr=subprocess.PIPE, timeout=120, **more)
    return done.returncode, done.stdout.decode(), done.stderr.decode()


def lines(numbers):
    return "".join("%d\n" % number for number in numbers)


def counted(tally, base, path, folder):
    """The count alone on the first line, then the docids if asked for; the same from an export."""
    for query in QUERIES:
        docids = [docid for (docid,) in base.execute("select docid from probes where probes match ? order by docid", (query,))]
        for source in ([path, "probes"], [path, "PROBES", "--prepare"], ["--folder", folder]):
            tally.check("count of %s" % query, ran(*source, query)[:2], (COUNTED, lines([len(docids)])))
        tally.check("list of %s" % query, ran("--list", path, "probes", query)[:2], (COUNTED, lines([len(docids)] + docids)))
        status, out, _ = ran("--json", "--list", "--folder", folder, query)
        tally.check("object of %s" % query, (status, json.loads(out)), (COUNTED, {"answer": 0, "second": len(docids), "count": len(docids), "docids": docids}))
    status, out, said = ran("--json", path, "probes", "timeout")
    tally.check("no list unless asked for", sorted(json.loads(out)), ["answer", "count", "second"])
    tally.check("what is counted is told apart", "table probes of bench.db" in said and "5 leaves" in said, True)


def refused(tally, path):
    """1, with both numbers and what they mean, and nothing on standard output but an object."""
    for query in ("outcome:", "(reply", "nonesuch:x", "a " * 257, "x y" * 171, " ".join(["x"] * 17)):
        status, out, said = ran(path, "probes", query)
        tally.check("refusal of %s" % query, (status, out, "refused 2 0: the query is not in the language" in said), (REFUSED, "", True))
        status, out, _ = ran("--json", path, "probes", query)
        answer = json.loads(out)
        tally.check("object of the refusal of %s" % query, (status, answer["answer"], answer["second"], "count" in answer), (REFUSED, 2, 0, False))


def not_exportable(tally, place, path):
    """2, and nothing on standard output."""
    small = os.path.join(place, "small.db")
    filled(small, 512).close()
    for words, part in (
        ([path, "nonesuch", "x"], "no table"), ([os.path.join(place, "none.db"), "probes", "x"], "can't be read"), ([small, "probes", "x"], "--prepare"),
        (["--folder", place, "x"], "no export"), (["--folder", os.path.join(place, "none"), "x"], "no export"),
    ):
        for flags in ([], ["--json"], ["--list"]):
            status, out, said = ran(*flags, *words)
            tally.check("%s: %s" % (words, said), (status, out, part in said), (NOT_EXPORTABLE, "", True))
    tally.check("prepared", ran("--prepare", small, "probes", "late")[0], COUNTED)


def failed(tally, path, folder):
    """3: wrong words, output that can't be written, no library."""
    for words in ([], [path], [path, "probes"], [path, "probes", "x", "y"], ["--folder", folder], ["--folder", folder, path, "x"], ["--prepare", "--folder", folder, "x"],
                  ["--nonesuch", path, "probes", "x"]):
        tally.check("words %s" % words, ran(*words)[:2], (FAILED, ""))
    with open("/dev/full", "wb") as full:
        for flags in ([], ["--list"], ["--json"]):
            done = subprocess.run([sys.executable, TOOL, *flags, path, "probes", "reply"], stdout=full, stderr=subprocess.PIPE)
            tally.check("a full disk: %s" % done.stderr, done.returncode, FAILED)
    tally.check("no output at all", subprocess.run(["sh", "-c", 'exec "$@" >&-', "sh", sys.executable, TOOL, path, "probes", "reply"], stderr=subprocess.DEVNULL).returncode, FAILED)
    with tempfile.TemporaryDirectory() as copy:
        shutil.copytree(paths.TOOLS, os.path.join(copy, "tools"), ignore=shutil.ignore_patterns("__pycache__"))
        done = subprocess.run([sys.executable, os.path.join(copy, "tools", "count.py"), path, "probes", "reply"], stdout=subprocess.PIPE, stderr=subprocess.PIPE, text=True)
        tally.check("no library: %s" % done.stderr, (done.returncode, done.stdout, "bash tools/build.sh" in done.stderr), (FAILED, "", True))
        tally.check("no compiler", ran(path, "probes", "reply", env={**os.environ, "PATH": copy})[0], FAILED)


def damaged(tally, place, folder):
    """A byte changed, a leaf removed, a leaf renumbered, a column's name or a level changed, levels and indexes left out: no count."""
    leaf = sorted(name for name in os.listdir(folder) if name.endswith(".leaf"))
    for what in ("byte", "removed", "renumbered", *OTHER_TEXTS):
        other = os.path.join(place, what)
        shutil.copytree(folder, other)
        first, manifest = os.path.join(other, leaf[0]), os.path.join(other, "manifest.txt")
        with open(first, "rb") as f:
            data = f.read()
        if what == "byte":
            with open(first, "wb") as f:
                f.write(data[:-2] + bytes([data[-2] ^ 1]) + data[-1:])
        elif what == "removed":
            os.remove(first)
        elif what == "renumbered":
            os.replace(os.path.join(other, leaf[1]), first)
        else:
            with open(manifest, encoding="ascii") as f:
                text = f.read()
            with open(manifest, "w", encoding="ascii") as f:
                f.write(OTHER_TEXTS[what](text))
        status, out, said = ran("--folder", other, "reply")
        tally.check("%s: %s" % (what, said), (status, out), (NOT_EXPORTABLE, ""))
        tally.check("what to do, %s: %s" % (what, said), what in ("removed", "renumbered") or "export again" in said, True)


def python_calls(tally):
    """Text is not taken where bytes are wanted, nor what has no 32 bits where numbers are."""
    library = fts4box.load()
    leaf = b"\0\1x\3\7\2\0"
    for asked, said in (
        ((["node"], [], [], [], b"x"), "bytes are wanted"), (([b"node"], ["x"], [0], [0], b"x"), "bytes are wanted"), (([b"node"], [], [], [], "x"), "bytes are wanted"),
        (([b"node"], [None], [0], [0], b"x"), "bytes are wanted"),
        *(((([b"node"], [leaf], *pair, b"x")), "a number from 0") for number in (-1, 2**32, 2**64, 1.0, "0", None, True) for pair in (([number], [0]), ([0], [number]))),
    ):
        try:
            fts4box.search(library, *asked)
            tally.fail("taken: %r" % (asked,))
        except TypeError as error:
            tally.check("what is said of %r" % (asked,), said in str(error), True)
    tally.check("bytes are taken", fts4box.search(library, [b"node"], [], [], [], b"x"), (0, 0, []))
    for level, index in ((0, 0), (2**32 - 1, 0), (0, 2**32 - 1)):
        tally.check("and numbers", fts4box.search(library, [b"node"], [leaf], [level], [index], b"x"), (0, 1, [7]))
    python_sheets(tally, library, leaf)
    python_merges(tally, library, leaf)


def python_sheets(tally, library, leaf):
    """A sheet from Python: what is no docid or no bytes is not taken; the lists are those of the run, also with docid 0 in it."""
    lent = [b"node"], [leaf], [0], [0]
    for run, queries, said in (
        *(((number, 7), (b"x", b"y", b"z"), "a number from -9223372036854775808") for number in (-2**63 - 1, 2**63, 2**64, 1.0, "0", None, True)),
        *(((7, number), (b"x", b"y", b"z"), "a number from -9223372036854775808") for number in (-2**63 - 1, 2**63, None)),
        *(((7, 7), queries, "bytes are wanted") for queries in (("x", b"y", b"z"), (b"x", "y", b"z"), (b"x", b"y", None))),
    ):
        try:
            fts4box.verdict(library, *run, *lent, *queries)
            tally.fail("taken: %r %r" % (run, queries))
        except TypeError as error:
            tally.check("what is said of %r %r" % (run, queries), said in str(error), True)
    for run, queries, expected in (
        ((7, 7), (b"x", b"y", b"z"), (0, 1, (1, 0, 0, 0), [[7], [], []])),
        ((7, 8), (b"y", b"x", b"z"), (0, 2, (0, 1, 0, 1), [[], [7], []])),
        ((-3, 7), (b"y", b"z", b"x"), (0, 11, (0, 0, 1, 10), [[], [], [7]])),
        ((-3, 6), (b"x", b"x", b"x"), (0, 10, (0, 0, 0, 10), [[], [], []])),
        ((-3, 7), (b"x", b"y", b"x"), (7, 7, (0, 0, 0, 0), [[], [], []])),
        ((8, 7), (b"x", b"y", b"z"), (1, 0, (0, 0, 0, 0), [[], [], []])),
        ((7, 7), (b"x", b"y AND", b"z"), (2, 0, (0, 0, 0, 0), [[], [], []])),
    ):
        tally.check("a sheet of %r %r" % (run, queries), fts4box.verdict(library, *run, *lent, *queries), expected)
    # docids -1, 0 and 1 have the word x
    around_0 = b"\0\1x\x12" + b"\xff" * 9 + b"\1\2\0\1\2\0\1\2\0"
    for run, docids in (((-1, 1), [-1, 0, 1]), ((0, 0), [0]), ((-5, -1), [-1]), ((1, 5), [1])):
        counts = len(docids), 0, 0, run[1] - run[0] + 1 - len(docids)
        expected = 0, run[1] - run[0] + 1, counts, [docids, [], []]
        tally.check("a sheet about 0, %s" % (run,), fts4box.verdict(library, *run, [b"node"], [around_0], [0], [0], b"x", b"y", b"z"), expected)


def python_merges(tally, library, leaf):
    """Both merges from Python: what has not 32 bits or is no bytes is not taken; the leaf comes without the zeros after it."""
    for asked, said in (
        *(((number, [leaf], [0], [0]), "a number from 0") for number in (-1, 2**32, 1.0, "1", None, True)), ((1, ["x"], [0], [0]), "bytes are wanted"),
        ((1, [leaf], [2**32], [0]), "a number from 0"), ((1, [leaf], [0], [-1]), "a number from 0"),
    ):
        for call in (fts4box.merge, fts4box.merge_keeping):
            try:
                call(library, *asked)
                tally.fail("taken: %r" % (asked,))
            except TypeError as error:
                tally.check("what is said of %r" % (asked,), said in str(error), True)
    later, gone = b"\0\1x\3\x09\2\0", b"\0\1x\2\7\0"
    for asked, expected in (
        ((1, [leaf], [3], [4]), (0, 7, 3, 4, leaf)), ((1, [leaf], [3], [4], 7), (0, 7, 3, 4, leaf)), ((1, [leaf], [3], [4], 6), (4, 7, 0, 0, b"")),
        ((1, [leaf, later], [0, 0], [0, 1]), (0, 10, 0, 1, b"\0\1x\6\7\2\0\2\2\0")), ((1, [gone, leaf], [1, 0], [0, 0]), (0, 7, 0, 0, leaf)),
        ((1, [], [], []), (1, 0, 0, 0, b"")), ((17, [leaf], [0], [0]), (1, 0, 0, 0, b"")), ((1, [leaf, leaf], [2, 2], [5, 5]), (1, 0, 0, 0, b"")),
        ((1, [leaf, leaf[1:]], [0, 1], [0, 0]), (3, 1, 0, 0, b"")),
    ):
        for call in (fts4box.merge, fts4box.merge_keeping):
            tally.check("%s of %r" % (call.__name__, asked), call(library, *asked), expected)
    # the newer leaf deletes what the older one has
    deleted = 1, [gone, leaf], [0, 1], [0, 0]
    tally.check("a merge with a deletion", fts4box.merge(library, *deleted), (0, 0, 0, 0, b""))
    tally.check("a keeping merge with a deletion", fts4box.merge_keeping(library, *deleted), (0, 6, 0, 0, gone))


# the first call that a library of this version lacks; one before 1.5 has the same names as that
LACKING = {"1.5": "fts4_verdict", "1.6": "fts4_merge", "1.7": "fts4_merge_keeping"}


def other_version(tally):
    """A library before version 1.8 is noticed before anything is asked of it."""
    names = list(fts4box.CALLS)
    for version, lacking in LACKING.items():
        with tempfile.TemporaryDirectory() as place:
            source, compiled, archive = (os.path.join(place, name) for name in ("calls.c", "calls.o", "calls.a"))
            with open(source, "w", encoding="ascii") as f:
                f.write("".join("void %s(void) {}\n" % name for name in names[:names.index(lacking)]))
            subprocess.run(["cc", "-fPIC", "-Wall", "-Wextra", "-Werror", "-c", "-o", compiled, source], check=True)
            subprocess.run(["ar", "rc", archive, compiled], check=True)
            try:
                fts4box.load(archive)
                tally.fail("a library of version %s is taken" % version)
            except fts4box.NoLibrary as error:
                parts = archive, "another version", "bash tools/build.sh"
                tally.check("what is said of version %s: %s" % (version, error), [part for part in parts if part not in str(error)], [])


def main():
    tally = Tally()
    with tempfile.TemporaryDirectory() as place:
        path, folder = os.path.join(place, "bench.db"), os.path.join(place, "export")
        base = filled(path)
        subprocess.run([sys.executable, os.path.join(paths.TOOLS, "export_leaves.py"), path, "probes", folder], check=True, stdout=subprocess.DEVNULL)
        tally.check("several leaves", len(export_folder.read(folder).leaves), 5)
        counted(tally, base, path, folder)
        refused(tally, path)
        not_exportable(tally, place, path)
        failed(tally, path, folder)
        damaged(tally, place, folder)
        base.close()
    python_calls(tally)
    other_version(tally)
    return tally.finish()


if __name__ == "__main__":
    sys.exit(main())
