#!/usr/bin/env python3
"""A radio test bench's index, made with real SQLite, and the same queries asked of SQLite, the box and the one-search program; then the bench's verdict sheet.

    python3 tools/demo.py

48 nodes are probed in turn, a probe each 250 ms. Each probe is a row: node, when it was sent, outcome. The static library and
the program must have been built. The sheet and the database that it is made from stay in target/demo. Exit status 1 if any two lists of docids differ,
or there is no sheet.
"""
import os
import random
import shlex
import shutil
import sqlite3
import subprocess
import sys
import tempfile

import export_folder
import export_leaves
import fts4box
import verdict

NODES, PERIOD_MS, TRANSACTIONS, ROUNDS_EACH, SEED = 48, 250, 7, 4, 1
OUTCOMES = ("reply", "reply", "reply", "reply late", "no reply, timeout")
TIMEOUT, LATE = "no reply, timeout", "reply late"
QUERIES = (
    "outcome:reply NOT outcome:timeout", "reply", "timeout", "n12 reply", "(n12 OR n13) NOT late", '"no reply"', "no NEAR/1 timeout",
    "late NEAR/0 reply", "n1* late", "sent:t1* NOT n1*", "absent",
)
VERDICTS = ["--pass", "outcome:reply NOT outcome:timeout NOT outcome:late", "--fail", "outcome:late", "--silent", "outcome:timeout"]
PROGRAM = os.path.join(fts4box.ROOT, "target", "bin", "fts4search")
FOLDER = os.path.join(fts4box.ROOT, "target", "demo")


def probe(base, rng, number):
    row = (number, "n%d" % (number % NODES), "t%d" % (number * PERIOD_MS), rng.choice(OUTCOMES))
    base.execute("insert into probes(docid, node, sent, outcome) values (?, ?, ?, ?)", row)


def revise(base, rng, number):
    """Of the probes that were silent, some are answered late after all, and some are withdrawn."""
    (outcome,) = base.execute("select outcome from probes where docid = ?", (number,)).fetchone()
    if outcome == TIMEOUT and rng.randrange(4) == 0:
        base.execute("update probes set outcome = ? where docid = ?", (LATE, number))
    elif outcome == TIMEOUT and rng.randrange(8) == 0:
        base.execute("delete from probes where docid = ?", (number,))


def fill(base):
    """Several transactions, so that the index has several segments; each revises the probes of the one before."""
    rng = random.Random(SEED)
    each = NODES * ROUNDS_EACH
    for i in range(TRANSACTIONS):
        base.execute("begin")
        for number in range((i - 1) * each, i * each) if i else ():
            revise(base, rng, number)
        for number in range(i * each, (i + 1) * each):
            probe(base, rng, number)
        base.execute("commit")


def by_sqlite(base, query):
    return [row[0] for row in base.execute("select docid from probes where probes match ? order by docid", (query,))]


def by_box(library, export, query):
    number, second, docids = fts4box.search(library, *export_folder.lent(export), query.encode())
    return docids if number == 0 else "refused %d %d" % (number, second)


def by_program(folder, query):
    """What the program lists for the leaf in the folder's leaf0.bin, or its one line where it refuses."""
    lines = subprocess.run([PROGRAM], input=query.encode(), cwd=folder, stdout=subprocess.PIPE, check=True).stdout.decode().splitlines()
    return [int(line) for line in lines[1:]] if lines[0] == "docs %d" % (len(lines) - 1) else lines[0]


def count(answer):
    return str(len(answer)) if isinstance(answer, list) else answer


def made(database):
    base = sqlite3.connect(database, isolation_level=None)
    base.execute("pragma page_size=65536")
    base.execute("create virtual table probes using fts4(node, sent, outcome)")
    fill(base)
    rows = base.execute("select count(*) from probes").fetchone()[0]
    print("bench: %d nodes, %d probes, %d transactions; SQLite %s" % (NODES, rows, TRANSACTIONS, sqlite3.sqlite_version))
    return base


def exported(database, folder, when, prepared=False):
    export_folder.write(folder, export_leaves.export(database, "probes", prepared))
    export = export_folder.read(folder)
    print("exported %s: %s" % (when, export_leaves.said_of(export)))
    return export


def compare(base, folder, boxed):
    """Prints the counts side by side; how many queries differ."""
    different = 0
    print("\n%-36s %8s %8s %8s" % ("query", "box", "program", "SQLite"))
    for query, ours in zip(QUERIES, boxed):
        one, theirs = by_program(folder, query), by_sqlite(base, query)
        same = ours == one == theirs
        different += not same
        print("%-36s %8s %8s %8s%s" % (query, count(ours), count(one), count(theirs), "" if same else "  DIFFERENT"))
    return different


def kept(database):
    """A copy that stays after the program, whole or not at all."""
    os.makedirs(FOLDER, exist_ok=True)
    path = os.path.relpath(os.path.join(FOLDER, os.path.basename(database)))
    shutil.copyfile(database, path + ".new")
    os.replace(path + ".new", path)
    return path


def sheet(database):
    """Makes the sheet of all probes, as anybody would from the kept database; whether there is one."""
    run = ["--first", "0", "--last", str(NODES * ROUNDS_EACH * TRANSACTIONS - 1)]
    words = [database, "probes", *run, *VERDICTS, "--by", "node", "--html", os.path.join(os.path.dirname(database), "sheet.html")]
    print("\npython3 %s %s" % (os.path.relpath(verdict.__file__), shlex.join(words)))
    return verdict.main(words) == 0


def main():
    library = fts4box.load()
    with tempfile.TemporaryDirectory() as place:
        database, folder = os.path.join(place, "bench.db"), os.path.join(place, "one")
        base = made(database)
        several = exported(database, os.path.join(place, "several"), "for the box")
        one = exported(database, folder, "for the program", prepared=True)
        different = compare(base, folder, [by_box(library, several, query) for query in QUERIES])
        base.close()
        with open(os.path.join(folder, export_folder.PROGRAM_FILE), "wb") as f:
            f.write(one.leaves[0].data[:-1])
        print("\nwith the leaf's last byte missing the program says: %s" % count(by_program(folder, QUERIES[0])))
        if different:
            print("%d of %d queries list DIFFERENT docids" % (different, len(QUERIES)))
            return 1
        print("all %d queries list the same docids" % len(QUERIES))
        return 0 if sheet(kept(database)) else 1


if __name__ == "__main__":
    sys.exit(main())
