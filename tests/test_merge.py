#!/usr/bin/env python3
"""tools/merge.py, status by status: what it writes, that counts are the same before and after, and that what it refuses leaves nothing behind."""
import contextlib
import io
import itertools
import os
import random
import shutil
import sqlite3
import subprocess
import sys
import tempfile

import folders
import paths
import export_folder
import export_leaves
import fts4box
import generated
import lending
import merge
import reference
from leaf_cases import P12
from search_cases import leaf_of, leaf_with, probe
from tally import Tally

TOOL, COUNT = (os.path.join(paths.TOOLS, name) for name in ("merge.py", "count.py"))
MERGED, REFUSED, WRONG_FOLDER, FAILED = range(4)
QUERIES = ["outcome:reply NOT outcome:timeout", "timeout", "n1* late", '"no reply"', "absent", "(n3 OR n4) reply", "reply NEAR late", "t* NOT reply"]


def ran(*words, tool=TOOL, **more):
    done = subprocess.run([sys.executable, tool, *words], stdout=subprocess.PIPE, stderr=subprocess.PIPE, timeout=120, **more)
    return done.returncode, done.stdout.decode(), done.stderr.decode()


def in_process(*words):
    """The tool as a function, so that parts of it can be put in another's place: status, standard output, standard error."""
    out, said, stdout = io.StringIO(), io.StringIO(), sys.stdout
    with contextlib.redirect_stdout(out), contextlib.redirect_stderr(said):
        status = merge.main(list(words))
    sys.stdout = stdout
    return status, out.getvalue(), said.getvalue()


def contents(folder):
    """All files of a folder, or None where there is none."""
    if not os.path.lexists(folder):
        return None
    return {name: read(os.path.join(folder, name)) for name in os.listdir(folder)}


def read(path):
    with open(path, "rb") as f:
        return f.read()


class Place:
    """An export folder in a place of its own, and the folder beside it that a merge is to make."""

    def __init__(self, tally, leaves, names=folders.BENCH):
        self.tally, self.leaves, self.names = tally, leaves, names

    def __enter__(self):
        self.held = tempfile.TemporaryDirectory()
        self.top = self.held.name
        self.folder, self.out = (os.path.join(self.top, name) for name in ("export", "merged"))
        os.mkdir(self.folder)
        self.lines = folders.make(self.folder, self.names, self.leaves)
        return self

    def __exit__(self, *_):
        self.held.cleanup()

    def refused(self, what, expected, parts, words=None, run=ran):
        """This status, with these parts on standard error; nothing on standard output, nothing made, and the folder as it was."""
        before, beside = contents(self.folder), sorted(os.listdir(self.top))
        status, out, said = run(*(words or [self.folder, self.out]))
        self.tally.check("%s: %s" % (what, said), (status, out, [part for part in parts if part not in said]), (expected, "", []))
        self.tally.check("%s: nothing is made" % what, (contents(self.folder) == before, sorted(os.listdir(self.top)) == beside), (True, True))

    def merged(self, what):
        """The export that is merged, or None; the folder is as it was, and nothing else stands beside it."""
        before = contents(self.folder)
        status, out, said = ran(self.folder, self.out)
        done = self.tally.check("%s: %s" % (what, said), (status, contents(self.folder) == before), (MERGED, True))
        self.tally.check("%s: nothing beside it" % what, sorted(os.listdir(self.top)), ["export", "merged"])
        self.tally.check("%s: one line" % what, (out.count("\n"), out.startswith("%d %s, %d bytes: " % (len(self.leaves), "leaf" if len(self.leaves) == 1 else "leaves", sum(len(leaf[2]) for leaf in self.leaves)))), (1, True))
        return export_folder.read(self.out) if done else None


def listed(library, export, query):
    return fts4box.search(library, *export_folder.lent(export), query)


def index_of(rng):
    """Leaves as (level, index, bytes), in some order: probes inserted, changed and withdrawn."""
    rows, leaves = {}, []
    for _ in range(rng.randrange(1, 9)):
        fresh, gone = {}, []
        for docid in {rng.randrange(-9, 9) if rng.randrange(9) else generated.any_docid(rng) for _ in range(rng.randrange(1, 6))}:
            gone += [(word, docid) for word, _ in reference.document_terms(docid, rows.pop(docid, []))]
            if rng.randrange(4):
                rows[docid] = fresh[docid] = probe(rng, docid)[1]
        leaves.insert(0, leaf_with(sorted(fresh.items()), gone))
    leaves = [leaf for leaf in leaves if leaf] or [P12]
    dated = [(*pair, leaf) for pair, leaf in zip(lending.some_pairs(rng, len(leaves)), leaves)]
    return rng.sample(dated, len(dated))


def same_lists(tally, library, rng):
    """Every query lists the same before and after; leaf and pair are the second program's; the manifest says what was done."""
    found = 0
    for _ in range(25):
        leaves = index_of(rng)
        with Place(tally, leaves) as place:
            after = place.merged("an index of %d leaves" % len(leaves))
            if after is None:
                continue
            before = export_folder.read(place.folder)
            number, size, level, index, room = reference.merge(3, *lending.as_lent([data for _, _, data in leaves], [leaf[:2] for leaf in leaves]), 65536)
            tally.check("the leaf", (number, [tuple(leaf) for leaf in after.leaves]), (0, [(level, index, 0, room[:size])] if size else []))
            tally.check("what stays", after._replace(leaves=[], prepared="no"), before._replace(leaves=[]))
            tally.check("what was done", after.prepared, "merge")
            for query in [query.encode() for query in QUERIES] + [generated.some_query(rng) for _ in range(12)]:
                answer = listed(library, before, query)
                tally.check("list of %r" % query, listed(library, after, query), answer)
                found += answer[0] == 0 and answer[1] > 0
    tally.check("lists with docids", found > 100, True)


def filled(path):
    """Five segments; what is deleted is deleted in the last. SQLite's own answers come from the connection."""
    base = sqlite3.connect(path, isolation_level=None)
    base.execute("pragma page_size=65536")
    base.execute("create virtual table probes using fts4(node, sent, outcome)")
    for i in range(4):
        base.execute("begin")
        for docid in range(50 * i - 100, 50 * i - 50):
            row = docid, "n%d" % (docid % 12), "t%d" % docid, ("reply", "reply late", "no reply, timeout")[docid % 3]
            base.execute("insert into probes(docid, node, sent, outcome) values (?, ?, ?, ?)", row)
        base.execute("commit")
    base.execute("delete from probes where abs(docid) % 9 = 4")
    return base


def from_a_database(tally):
    """Export, merge, count: each count is SQLite's, before and after; the leaf is that of `optimize`; document 01's program reads it."""
    with tempfile.TemporaryDirectory() as top:
        path, folder, out, again, plain = (os.path.join(top, name) for name in ("bench.db", "export", "merged", "again", "prepared"))
        base = filled(path)
        export_folder.write(folder, export_leaves.export(path, "probes"))
        status, said, _ = ran(folder, out)
        tally.check("merged: %s" % said, (status, said.startswith("5 leaves, "), " level 0, index 4\n" in said), (MERGED, True, True))
        for query in QUERIES[:6]:
            (count,) = base.execute("select count(*) from probes where probes match ?", (query,)).fetchone()
            for source in (folder, out):
                status, said, told = ran("--folder", source, query, tool=COUNT)
                tally.check("count of %s" % query, (status, said, "; all leaves merged" in told), (MERGED, "%d\n" % count, source == out))
        tally.check("a merge of a merge", (ran(out, again)[0], contents(again) == contents(out), sorted(contents(out))), (MERGED, True, ["leaf0.bin", "manifest.txt"]))
        done = subprocess.run([paths.PROGRAM], input=b"timeout", cwd=out, stdout=subprocess.PIPE, timeout=60)
        (count,) = base.execute("select count(*) from probes where probes match 'timeout'").fetchone()
        tally.check("document 01's program", done.stdout.splitlines()[:1], [b"docs %d" % count])
        base.execute("insert into probes(probes) values ('optimize')")
        tally.check("what SQLite makes of it", read(os.path.join(out, "leaf0.bin")), base.execute("select root from probes_segdir").fetchone()[0])
        base.close()
        export_folder.write(plain, export_leaves.export(path, "probes", True))
        shutil.rmtree(again)
        tally.check("a prepared export", (ran(plain, again)[0], export_folder.read(again).prepared), (MERGED, export_folder.read(plain).prepared + "+merge"))
        tally.check("its leaf", export_folder.read(again).leaves[0].data, export_folder.read(out).leaves[0].data)


def everything_deleted(tally, library):
    """Nothing left: a folder with no leaf, from which every count is 0; a merge of that is refused by the box."""
    gone = leaf_of([], [(word, 7) for word, _ in reference.document_terms(7, [b"n12", b"probe", b"reply reply"])])
    for leaves in ([(1, 0, P12), (0, 0, gone)], [(0, 0, gone)], [(5, 5, gone), (5, 6, gone)]):
        with Place(tally, leaves) as place:
            after = place.merged("everything deleted")
            tally.check("no leaf", (after.leaves, list(contents(place.out)), after.prepared), ([], ["manifest.txt"], "merge"))
            tally.check("no row", [listed(library, after, query.encode()) for query in QUERIES], [(0, 0, [])] * len(QUERIES))
            tally.check("count.py", ran("--folder", place.out, "reply", tool=COUNT)[:2], (0, "0\n"))
            place.folder, place.out = place.out, os.path.join(place.top, "later")
            place.refused("no leaf to merge", REFUSED, ["refused 1 0", "no leaf", "count from it as it is"])
    with Place(tally, [(0, 1, P12), (0, 0, gone)]) as place:
        tally.check("an older deletion deletes nothing", [leaf.data for leaf in place.merged("an older deletion").leaves], [P12])


def sizes(tally):
    """As many bytes as a leaf may have, and one more; as many leaves."""
    for need, status in ((65535, MERGED), (65536, MERGED), (65537, REFUSED), (70000, REFUSED)):
        leaves = [(place, 0, leaf) for place, leaf in enumerate(lending.grown_leaves(need))]
        with Place(tally, leaves) as place:
            if status == MERGED:
                tally.check("%d bytes" % need, [len(leaf.data) for leaf in place.merged("%d bytes" % need).leaves], [need])
            else:
                place.refused("%d bytes" % need, status, ["refused 1 0", "more than 65536 bytes", "count from the folder as it is"])
    wide = ["c%d" % i for i in range(16)]
    for count, names in itertools.product((1, 8), (folders.BENCH, wide, ["text"])):
        leaves = [(3, place, leaf_of([(place, [b"reply"] * len(names))])) for place in range(count)]
        with Place(tally, leaves, names) as place:
            after = place.merged("%d leaves, %d columns" % (count, len(names)))
            tally.check("its names and pair", (after.names, [leaf[:2] for leaf in after.leaves]), (names, [(3, count - 1)]))
            tally.check("its file", sorted(contents(place.out)), sorted(["manifest.txt", "leaf0.bin" if names == folders.BENCH else "level-3-index-%d.leaf" % (count - 1)]))


def box_refuses(tally):
    """A leaf that breaks a rule, though its hash is right; and a column that the table has not."""
    for bad in (P12[:-1], b"", P12 + P12, b"\1" + P12[1:]):
        leaves = [(0, 0, P12), (0, 1, bad), (2, 0, P12)]
        with Place(tally, leaves) as place:
            place.refused("a broken leaf", REFUSED, ["refused 3 1", "level-0-index-1.leaf", "export again"])
    with Place(tally, [(0, 0, P12)], ["node", "sent"]) as place:
        place.refused("a column too few", REFUSED, ["refused 3 0", "export again"])


def damaged_folders(tally):
    """A byte changed, a leaf removed or cut, one too many, a manifest changed, cut or away, a version that is not known, no folder."""
    leaves = [(1, 0, P12), (0, 0, leaf_of([(8, [b"n13", b"probe", b"late"])]))]
    old = leaves[0][2]
    for what, name, data in (
        ("a byte", "level-1-index-0.leaf", old[:-2] + bytes([old[-2] ^ 1]) + old[-1:]), ("cut", "level-1-index-0.leaf", old[:-1]), ("removed", "level-1-index-0.leaf", None),
        ("longer", "level-1-index-0.leaf", old + b"\0"), ("one more", "level-2-index-0.leaf", P12), ("no manifest", "manifest.txt", None), ("empty manifest", "manifest.txt", b""),
    ):
        with Place(tally, leaves) as place:
            if data is None:
                os.remove(os.path.join(place.folder, name))
            else:
                folders.put(place.folder, name, data)
            place.refused(what, WRONG_FOLDER, ["not merged: "])
    for old_line, new in (
        ("column sent", "column went"), ("level 0", "level 3"), ("level 1", "level 0"), ("prepared no", "prepared yes"), ("prepared no", "prepared merge+merge"),
        ("fts4box export 1", "fts4box export 2"), ("leaves 2", "leaves 1"), ("size 36", "size 35"),
    ):
        with Place(tally, leaves) as place:
            lines = [new if line == old_line else line for line in place.lines[:-1]]
            for ended in (lines + place.lines[-1:], lines + ["end " + export_folder.digest(folders.ended(lines))]):
                if ended[-1] != place.lines[-1] and old_line.split()[0] in ("column", "level") and new != "level 0":
                    continue  # a manifest that was made so is believed
                folders.put(place.folder, "manifest.txt", folders.ended(ended))
                place.refused(new, WRONG_FOLDER, ["not merged: "])
    with Place(tally, leaves) as place:
        place.refused("no such folder", WRONG_FOLDER, ["no export"], [os.path.join(place.top, "none"), place.out])
        os.mkdir(os.path.join(place.top, "empty"))
        place.refused("no export", WRONG_FOLDER, ["no export"], [os.path.join(place.top, "empty"), place.out])


def targets(tally):
    """What is there already is not replaced, whatever it is; a folder in the export is not made."""
    with Place(tally, [(0, 0, P12)]) as place:
        file, empty, other, link, nowhere = (os.path.join(place.top, name) for name in ("file", "empty", "other", "link", "nowhere"))
        folders.put(place.top, "file", b"kept")
        os.mkdir(empty)
        os.symlink(empty, link)
        os.symlink(os.path.join(place.top, "none"), nowhere)
        tally.check("an earlier one", ran(place.folder, other)[0], MERGED)
        earlier = contents(other)
        for out in (file, empty, other, link, nowhere, place.folder, place.folder + "/", place.top):
            place.refused("%s is there" % out, WRONG_FOLDER, ["is there already"], [place.folder, out])
        tally.check("all is as it was", (contents(other) == earlier, read(file), os.listdir(empty)), (True, b"kept", []))
        os.symlink(place.folder, os.path.join(place.top, "alias"))
        for out in (os.path.join(place.folder, "in"), os.path.join(place.folder, "..", "export", "in"), os.path.join(place.top, "alias", "in")):
            place.refused("%s is inside" % out, WRONG_FOLDER, ["lies in the export"], [place.folder, out])
        place.refused("the same by another name", WRONG_FOLDER, ["lies in the export"], [os.path.join(place.top, "alias"), os.path.join(place.folder, "in")])


def failures(tally):
    """3: wrong words, no place for the folder, output that can't be written, no library, a write that fails at each file, a wrong leaf."""
    with Place(tally, [(0, 1, P12), (0, 0, P12)]) as place:
        for words in ([place.folder], [place.folder, place.out, place.out], ["--replace", place.folder, place.out]):
            place.refused("words %s" % words, FAILED, ["usage: "], words)
        tally.check("no words", ran()[0], FAILED)
        folders.put(place.top, "file", b"")
        for out in (os.path.join(place.top, "none", "out"), os.path.join(place.top, "file", "out")):
            place.refused("no place for %s" % out, FAILED, ["failed: "], [place.folder, out])
        with open("/dev/full", "wb") as full:
            done = subprocess.run([sys.executable, TOOL, place.folder, place.out], stdout=full, stderr=subprocess.PIPE)
            tally.check("a full disk: %s" % done.stderr, done.returncode, FAILED)
        # the folder was written before, whole
        tally.check("the folder is whole", len(export_folder.read(place.out).leaves), 1)
        shutil.rmtree(place.out)
        with tempfile.TemporaryDirectory() as copy:
            shutil.copytree(paths.TOOLS, os.path.join(copy, "tools"), ignore=shutil.ignore_patterns("__pycache__"))
            place.refused("no library", FAILED, ["bash tools/build.sh"], run=lambda *words: ran(*words, tool=os.path.join(copy, "tools", "merge.py")))
            place.refused("no compiler", FAILED, ["failed: "], run=lambda *words: ran(*words, env={**os.environ, "PATH": copy}))
        failing_writes(tally, place)
        wrong_leaves(tally, place)


@contextlib.contextmanager
def instead(module, name, function):
    """Another function in the place of a module's own."""
    real = getattr(module, name)
    setattr(module, name, function)
    try:
        yield real
    finally:
        setattr(module, name, real)


def failing_writes(tally, place):
    """A disk that takes no file, or only the first: nothing is left of it."""
    for taken in (0, 1):
        left = iter([True] * taken)

        def limited(*arguments):
            if not next(left, False):
                raise OSError(28, "No space left on device")
            real(*arguments)

        with instead(export_folder, "write_file", limited) as real:
            place.refused("a disk for %d files" % taken, FAILED, ["No space left"], run=in_process)


def wrong_leaves(tally, place):
    """A library that gave another leaf, another answer or less than all would be noticed."""
    other = leaf_of([(8, [b"n12", b"probe", b"reply reply"])])
    for answer in ((0, len(other), 0, 1, other), (0, 0, 0, 0, b""), (0, 9, 0, 1, P12[:9]), (0, 8, 0, 1, P12[:8])):
        with instead(fts4box, "merge", lambda *_: answer):
            place.refused("a wrong leaf", FAILED, ["report it"], run=in_process)
    for answer in ((4, 36, 0, 0, b""), (6, 0, 0, 0, b"")):
        with instead(fts4box, "merge", lambda *_: answer):
            place.refused("an answer that can't come", REFUSED, ["refused %d %d" % answer[:2], "report it"], run=in_process)


def main():
    tally, library = Tally(), fts4box.load()
    same_lists(tally, library, random.Random(20271))
    from_a_database(tally)
    everything_deleted(tally, library)
    sizes(tally)
    box_refuses(tally)
    damaged_folders(tally)
    targets(tally)
    failures(tally)
    return tally.finish()


if __name__ == "__main__":
    sys.exit(main())
