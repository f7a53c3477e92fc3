#!/usr/bin/env python3
"""examples/folder.c, built plainly and with the sanitizers, on sound and on damaged export folders.

A damaged folder is refused with one line on standard error. It never crashes the program, and never gives another list.
"""
import itertools
import os
import sqlite3
import subprocess
import sys
import tempfile

import folders
import paths
import export_folder
import export_leaves
import reference
from box import Box
from fts4box import ARCHIVE
from generated import EDGES
from leaf_cases import leaf_of_size
from leaf_format import MAX_U32
from tally import Tally

SOURCE = os.path.join(paths.EXAMPLES, "folder.c")
STRICT = ["-std=c99", "-Wall", "-Wextra", "-Werror", "-Wpedantic"]
BUILDS = {"plain": ["-O2"], "sanitized": ["-g", "-fsanitize=address,undefined"]}
LISTED, REFUSED, BAD_FOLDER, NOT_WRITTEN = range(4)
# what is refused: nothing on standard output, one line on standard error
WRONG = BAD_FOLDER, "", 1

# Docid 7 had the outcome `reply reply` and now has `late`: the newest leaf deletes its `reply`.
OLD_ROW, NEW_ROW = [b"n12", b"probe", b"reply reply"], [b"n12", b"probe", b"late"]
OTHER_ROW = [b"n13", b"probe", b"no reply, timeout"]
REPLY_GONE = bytes([0, 5]) + b"reply" + bytes([2, 7, 0])
QUERY, FOUND = "reply", [8]
ANSWERS = [
    ("late", [7]), ("probe", [7, 8]), ("outcome:reply NOT outcome:timeout", []), ('node:n12 OR "no reply"', [7, 8]), ("absent", []),
    ("sent:PROBE", [7, 8]),
]


def bench(box):
    """Three leaves, the newest between the others."""
    newest = folders.written(box, 7, NEW_ROW) + REPLY_GONE
    return [(1, 0, folders.written(box, 7, OLD_ROW)), (0, 1, newest), (0, 0, folders.written(box, 8, OTHER_ROW))]


def built(tally, folder, name, options):
    """The program's path, or None where the compiler says anything."""
    program = os.path.join(folder, name)
    command = ["cc", *STRICT, *options, "-I", paths.INCLUDE, "-o", program, SOURCE, ARCHIVE]
    done = subprocess.run(command, stdout=subprocess.PIPE, stderr=subprocess.STDOUT, text=True)
    return program if tally.check("build, " + name, (done.returncode, done.stdout), (0, "")) else None


def ran(program, *words, stdout=subprocess.PIPE):
    """The status, what is on standard output, and how many lines are on standard error."""
    done = subprocess.run([program, *words], stdout=stdout, stderr=subprocess.PIPE, timeout=60)
    return done.returncode, (done.stdout or b"").decode(), done.stderr.count(b"\n")


def listing(docids):
    return LISTED, "".join("%s\n" % line for line in ["docs %d" % len(docids), *docids]), 0


def refused(number, second):
    return REFUSED, "refused %d %d\n" % (number, second), 0


class Place:
    """A program and a folder made anew for each question."""

    def __init__(self, tally, program, names, leaves):
        self.tally, self.program, self.names, self.leaves = tally, program, names, leaves
        self.lines = folders.manifest(names, leaves)

    def asked(self, what, expected, manifest=None, files=None, query=QUERY):
        """Asks with this manifest instead of the sound one, and with these files put over the sound ones; None takes a file away."""
        with tempfile.TemporaryDirectory() as folder:
            folders.make(folder, self.names, self.leaves)
            if manifest is not None:
                folders.put(folder, "manifest.txt", manifest)
            for name, data in (files or {}).items():
                os.remove(os.path.join(folder, name))
                if data is not None:
                    folders.put(folder, name, data)
            self.tally.check("%s, %s" % (os.path.basename(self.program), what), ran(self.program, folder, query), expected)

    def changed(self, what, expected, old, new):
        """Asks with each line that is `old`, by itself, made `new`."""
        places = [i for i, line in enumerate(self.lines) if line == old]
        if not places:
            self.tally.fail("no line %s" % old)
        for i in places:
            self.asked("%s: %.60r instead of %r" % (what, new, old), expected, folders.ended(self.lines[:i] + [new] + self.lines[i + 1:]))


def lines_moved(place):
    """Each line dropped, doubled, or swapped with the next. Only columns may change places: the manifest is believed."""
    for i, line in enumerate(place.lines):
        before, after = place.lines[:i], place.lines[i + 1:]
        place.asked("without %r" % line, WRONG, folders.ended(before + after))
        place.asked("twice %r" % line, WRONG, folders.ended(before + [line, line] + after))
        if after:
            columns = line.startswith("column ") and after[0].startswith("column ")
            place.asked("%r after the next" % line, listing(FOUND) if columns else WRONG, folders.ended(before + [after[0], line] + after[1:]))


def manifest_cut(place):
    whole = folders.ended(place.lines)
    for size in range(len(whole)):
        place.asked("manifest cut at %d" % size, WRONG, whole[:size])


def manifest_bytes(place):
    """Bytes that don't belong where they stand."""
    whole = folders.ended(place.lines)
    for rest in (b"\n", b" ", b"\x00", b"end\n", b"file x\n"):
        place.asked("%r after the manifest" % rest, WRONG, whole + rest)
    place.asked("lines ended by CR and LF", WRONG, whole.replace(b"\n", b"\r\n"))
    place.asked("a byte 0", WRONG, whole.replace(b"table probes", b"table pro\x00bes"))
    place.asked("a line of 100,000 bytes", WRONG, whole.replace(b"table probes", b"table " + b"p" * 100000))
    place.asked("an empty line in front", WRONG, b"\n" + whole)
    place.asked("random bytes", WRONG, bytes(range(256)))


def ages(tally, program, leaves):
    """Leaves in any order give one list; other levels and indexes give another, and nobody can see that they are wrong."""
    for order in itertools.permutations(leaves):
        Place(tally, program, folders.BENCH, list(order)).asked("another order", listing(FOUND))
    old, newest, other = (data for _, _, data in leaves)
    for pairs, docids in (
        ([(0, 0), (0, 1), (0, 2)], FOUND), ([(9, 9), (8, 0), (9, 0)], FOUND), ([(MAX_U32, 0), (MAX_U32, MAX_U32), (0, 0)], FOUND),
        ([(0, 1), (1, 0), (0, 0)], [7, 8]), ([(2, 2), (2, 1), (2, 0)], [7, 8]), ([(0, 0), (MAX_U32, MAX_U32), (1, 0)], [7, 8]),
    ):
        dated = [(*pair, data) for pair, data in zip(pairs, (old, newest, other))]
        Place(tally, program, folders.BENCH, dated).asked("ages %s" % pairs, listing(docids))


def same_meaning(place):
    """What says nothing about the search may be otherwise; so may levels and indexes that leave the ages as they are."""
    for old, new in (
        ("database bench.db", "database another one.db"), ("table probes", "table p"), ("sqlite 3.40.1", "sqlite 3.41.0"),
        ("time 2026-11-16T01:55:00Z", "time 2027-01-01T00:00:00Z"), *(("prepared no", "prepared " + done) for done in ("optimize", "rebuild", "merge", "optimize+merge", "rebuild+merge")),
        ("start 0", "start 9223372036854775807"), ("level 1", "level 4294967295"), ("index 1", "index 4294967295"),
    ):
        place.changed("no difference", listing(FOUND), old, new)


def bad_values(place):
    sizes = sorted({line for line in place.lines if line.startswith("size ")})
    first, second, third = (line for line in place.lines if line.startswith("file "))
    bad = {
        "fts4box export 1": ["fts4box export 2", "fts4box export 1 "],
        "database bench.db": ["database", "database ", "Database bench.db"],
        "prepared no": ["prepared " + done for done in ("yes", "", "no+merge", "merge+merge", "merge+optimize", "optimize+", "+merge", "optimize merge", "mergex")],
        "columns 3": ["columns " + text for text in ("0", "2", "4", "17", "03", "+3", "-3", " 3", "3 ", "three")],
        "column sent": ["column ", "column " + "s" * 33],
        "leaves 3": ["leaves 0", "leaves 2", "leaves 4", "leaves 9", "leaves 18446744073709551619", "leaves 0x3"],
        first: ["file " + name for name in ("/etc/passwd", "../leaf", ".", "..", ".leaf", "a/b", "", "absent.leaf", "n" * 4000)] + [second],
        second: [first, third],
        "level 0": ["level", "level x", "level -1", "level 4294967296", "level 9223372036854775808", "level %d" % 2**64],
        "level 1": ["level 0"],
        "index 1": ["index 0", "index", "index 01", "index 4294967296", "index 99999999999999999999999"],
        "start 0": ["start", "start x", "start 00", "start 9223372036854775808", "start %d" % 2**64],
        place.lines[-1]: ["end", "end ", place.lines[-1][:-1], place.lines[-1] + "0", place.lines[-1].upper(), place.lines[-1] + "\n" + place.lines[-1]],
    }
    for line in sizes:
        size = int(line.split()[1])
        bad[line] = ["size %d" % n for n in (0, size - 1, size + 1, 65536, 65537)]
    for line in place.lines:
        if line.startswith("sha256 "):
            bad[line] = [line[:-1], line + "0", line + "g", line[:-1] + "g", line.upper().replace("SHA", "sha")]
    for old, values in bad.items():
        for new in values:
            place.changed("bad value", WRONG, old, new)


def leaves_damaged(place):
    """Files away, cut at each byte, and lengthened; damage that keeps the size is found by the box."""
    for at, (level, index, data) in enumerate(place.leaves):
        name = folders.file_name(place.names, place.leaves, level, index)
        place.asked("no " + name, WRONG, files={name: None})
        for size in range(len(data)):
            place.asked("%s cut at %d" % (name, size), WRONG, files={name: data[:size]})
        for rest in (b"\x00", b"x" * 70000):
            place.asked("%s and %d bytes" % (name, len(rest)), WRONG, files={name: data + rest})
        place.asked("%s of zeros" % name, refused(reference.LEAF, at), files={name: bytes(len(data))})


def names_of_files(tally, program, leaves):
    """The same leaf under a name that the manifest must not have: hidden, or in another folder; and one file for two leaves."""
    data = leaves[0][2]
    for name in (".leaf", "inner/leaf", "inner/../leaf", "leaf"):
        with tempfile.TemporaryDirectory() as folder:
            lines = folders.make(folder, ["node", "sent", "result"], [(0, 0, data)])
            os.mkdir(os.path.join(folder, "inner"))
            folders.put(folder, name, data)
            folders.put(folder, "manifest.txt", folders.ended(lines).replace(b"level-0-index-0.leaf", name.encode()))
            tally.check("the name " + name, ran(program, folder, QUERY), listing([7]) if name == "leaf" else WRONG)
    with tempfile.TemporaryDirectory() as folder:
        lines = folders.make(folder, folders.BENCH, [(0, 1, data), (0, 0, data)])
        tally.check("two files", ran(program, folder, QUERY), listing([7]))
        folders.put(folder, "manifest.txt", folders.ended(lines).replace(b"level-0-index-0.leaf", b"level-0-index-1.leaf"))
        tally.check("one file twice", ran(program, folder, QUERY), WRONG)


def folders_for_files(tally, program, leaves):
    """A folder in place of a file, a folder that is not there, other words on the command line."""
    for name in ("manifest.txt", "level-0-index-0.leaf"):
        with tempfile.TemporaryDirectory() as folder:
            folders.make(folder, folders.BENCH, leaves)
            os.remove(os.path.join(folder, name))
            os.mkdir(os.path.join(folder, name))
            tally.check("a folder %s" % name, ran(program, folder, QUERY), WRONG)
    with tempfile.TemporaryDirectory() as folder:
        for words in (), (folder,), (folder, QUERY), (os.path.join(folder, "none"), QUERY), (folder, QUERY, QUERY), ("f" * 5000, QUERY), ("", QUERY):
            tally.check("words %.80r" % (words,), ran(program, *words), WRONG)


def box_refuses(place):
    for query in ("reply AND", "", "nonesuch:reply", "reply" + " " * 508):
        place.asked("query %.20r" % query, refused(reference.QUERY, 0), query=query)
    for new in ("column node", "column NODE", "column se-nt", "column s\u00e9nt"):
        place.changed("names", refused(reference.SHAPE, 0), "column sent", new)


def bounds(tally, program, box):
    """No leaf, one, 8; 16 columns; all bytes that are allowed and one more; as many rows as fit."""
    wide = ["c%d" % i for i in range(16)]
    leaves = [(0, i, folders.written(box, i - 4, [b"reply"] * 16)) for i in range(7, -1, -1)]
    place = Place(tally, program, wide, leaves)
    place.asked("8 leaves, 16 columns", listing(list(range(-4, 4))), query="c15:reply")
    place.asked("a 17th column", WRONG, folders.ended(folders.manifest(wide + ["c16"], leaves)))
    place.asked("no column", WRONG, folders.ended(folders.manifest([], leaves)))
    Place(tally, program, wide, leaves + [(1, 0, leaves[0][2])]).asked("a 9th leaf", WRONG, query="c15:reply")
    Place(tally, program, folders.BENCH, []).asked("no leaf", listing([]))
    Place(tally, program, folders.BENCH, [(3, 0, folders.written(box, 7, OLD_ROW))]).asked("one leaf, leaf0.bin", listing([7]))
    edges = reference.encode_leaf([(b"reply", [(docid, [(0, [0])]) for docid in EDGES])])
    Place(tally, program, folders.BENCH, [(0, 0, edges)]).asked("the least docid, the largest, and some between", listing(EDGES))
    small = folders.written(box, 7, OLD_ROW)
    for total, expected in ((65536, listing([7])), (65537, WRONG)):
        Place(tally, program, folders.BENCH, [(0, 0, small), (1, 0, leaf_of_size(total - len(small))[0])]).asked("%d bytes" % total, expected)
    many = [(d, [(0, [0])]) for d in range(1, 21844)]
    full = reference.encode_leaf([(b"a", many)])
    tally.check("bytes of the leaf with the most rows", 65536 - 3 < len(full) <= 65536, True)
    Place(tally, program, folders.BENCH, [(0, 0, full)]).asked("the most rows", listing([d for d, _ in many]), query="a")


def real_exports(tally, program, leaves):
    """What the export writes is what this test writes, and the program lists SQLite's rows from it."""
    with tempfile.TemporaryDirectory() as place:
        ours, theirs, path = (os.path.join(place, name) for name in ("ours", "theirs", "bench.db"))
        os.mkdir(ours)
        lines = folders.make(ours, folders.BENCH, leaves)
        tally.check("the same manifest", export_folder.manifest(export_folder.read(ours)), folders.ended(lines))
        base = sqlite3.connect(path, isolation_level=None)
        base.execute("pragma page_size=65536")
        base.execute("create virtual table \"50% probes\" using fts4(node, sent, outcome)")
        for docid in range(-3, 3):
            base.execute("insert into \"50% probes\"(docid, node, outcome) values (?, ?, ?)", (docid, "n%d" % (docid + 3), ("reply", "no reply, timeout")[docid % 2]))
        export_folder.write(theirs, export_leaves.export(path, "50% probes"))
        for query in ("reply", "outcome:reply NOT outcome:timeout", "node:n1"):
            docids = [docid for (docid,) in base.execute("select docid from \"50% probes\" where \"50% probes\" match ? order by docid", (query,))]
            tally.check("an export, query " + query, ran(program, theirs, query), listing(docids))
        base.close()


def output(tally, program, leaves):
    """A list that can't be written is no success."""
    with tempfile.TemporaryDirectory() as folder, open("/dev/full", "wb") as full:
        folders.make(folder, folders.BENCH, leaves)
        for query in (QUERY, "reply AND"):
            tally.check("no room for the output", ran(program, folder, query, stdout=full), (NOT_WRITTEN, "", 1))
            closed = ran("sh", "-c", 'exec "$0" "$@" >&-', program, folder, query)
            tally.check("closed output", closed, (NOT_WRITTEN, "", 1))


def main():
    tally, box = Tally(), Box()
    leaves = bench(box)
    with tempfile.TemporaryDirectory() as folder:
        for name, options in BUILDS.items():
            program = built(tally, folder, name, options)
            if program is None:
                continue
            place = Place(tally, program, folders.BENCH, leaves)
            for query, docids in ANSWERS + [(QUERY, FOUND)]:
                place.asked("query " + query, listing(docids), query=query)
            for part in lines_moved, manifest_cut, manifest_bytes, same_meaning, bad_values, leaves_damaged, box_refuses:
                part(place)
            ages(tally, program, leaves)
            names_of_files(tally, program, leaves)
            folders_for_files(tally, program, leaves)
            bounds(tally, program, box)
            real_exports(tally, program, leaves)
            output(tally, program, leaves)
    return tally.finish()


if __name__ == "__main__":
    sys.exit(main())
