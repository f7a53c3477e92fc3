#!/usr/bin/env python3
"""tools/check_times.py: its tables, the logs that it refuses, and the times that it measures beside a run."""
import os
import re
import signal
import subprocess
import sys
import tempfile
import time

from paths import TOOLS
from tally import Tally

TOOL = os.path.join(TOOLS, "check_times.py")
LOG = """rt: leaf proved
rt: leaf: its tests are proved
rt: leaf: trying its must-fail edits (2)
rt: row proved
rt: must-fail leaf/height_free.edit: refused, as it must be: ./proofs/check/Answers.antt:1:1: error: a type differs
rt: must-fail leaf/no_words.edit: refused, as it must be
rt: leaf: its tests passed
rt: ok; handles allowed: none; must-fail edits: 2 refused; every proof and must-fail edit was done in this run
4 passed, 0 failed
processor: leaf 20.4 s
processor: leaf 8.0 s
processor: row 8.6 s
processor: leaf/must-fail 12.1 s
processor: leaf/must-fail 8.0 s
gate: 600 s
4 passed, 0 failed
"""
TABLE = """| | processor seconds |
|---|---|
| `leaf` | 28 s |
| `row` | 9 s |
| all crates | 37 s |
| must-fail edits tried | 2 of 2 |
| all these edits | 20 s |
| the gate, by the clock | 10 min |
"""
# The same crates and edits, all but `row` and one edit as an earlier run left them.
KEPT = """rt: leaf is kept: an earlier run on this machine proved the same files over the same libraries
rt: opening proved
rt: leaf: 1 of its 2 must-fail edits were tried by an earlier run on this machine, and nothing that they stand on has changed
rt: must-fail leaf/height_free.edit: refused, as it must be
rt: must-fail leaf/no_words.edit: refused, as it must be
rt: ok; handles allowed: none; must-fail edits: 2 refused; done in this run: 1 of the 2 proofs (of crates and of their tests) and 1 of the 2 must-fail edits; the others are kept from earlier runs of the same files on this machine
processor: opening 9.0 s
processor: leaf/must-fail 4.0 s
gate: 300 s
4 passed, 0 failed
"""
BOTH = """| | before | after |
|---|---|---|
| `leaf` | 28 s | kept |
| `opening` | - | 9 s |
| `row` | 9 s | - |
| all crates | 37 s | 9 s (1 kept) |
| must-fail edits tried | 2 of 2 | 1 of 2 |
| all these edits | 20 s | 4 s |
| the gate, by the clock | 10 min | 5 min |
"""
FAILED = LOG.replace("4 passed, 0 failed", "3 passed, 1 failed")
BAD = LOG.replace("leaf/no_words.edit: refused, as it must be", "leaf/no_words.edit: BAD EDIT: it changes nothing").replace("4 passed", "3 passed")


def asked(*words):
    """The tool's status, output and complaint."""
    run = subprocess.run([sys.executable, TOOL, *words], capture_output=True, text=True, check=False)
    return run.returncode, run.stdout, run.stderr


def without(text, start):
    return "".join(line for line in text.splitlines(True) if not line.startswith(start))


def logs(tally, folder):
    def kept(name, text):
        path = os.path.join(folder, name)
        with open(path, "w", encoding="utf-8") as file:
            file.write(text)
        return path

    whole = kept("whole", LOG)
    tally.check("the table of a log", asked(whole), (0, TABLE, ""))
    tally.check("the table of two logs", asked(whole, kept("later", KEPT)), (0, BOTH, ""))
    for what, text in (
        ("an empty log", ""), ("no crate's time", without(LOG, "processor: row")), ("no edits' time", without(LOG, "processor: leaf/")),
        ("no end", without(LOG, "gate:")), ("no verdict", without(LOG, "4 passed")), ("a failure", FAILED), ("a bad edit", BAD), ("no proof", without(LOG, "rt: ")),
        ("a crate's line is lost", without(LOG, "rt: row")), ("an edit's line is lost", without(LOG, "rt: must-fail leaf/no_words")), ("a kept crate's line is lost", without(KEPT, "rt: leaf is")),
    ):
        status, table, complaint = asked(kept("broken", text))
        tally.check(what, (status, table, complaint != ""), (1, "", True))
    tally.check("no such log", asked(os.path.join(folder, "none"))[:2], (1, ""))
    tally.check("no words", asked()[:2], (2, ""))


BUSY = "import time\nend = time.process_time() + 0.4\nwhile time.process_time() < end: pass\n"
# a run of the prover that shares its work with a copy of itself
SHARED = BUSY + "import os\npid = os.fork()\n" + BUSY + "if pid: os.waitpid(pid, 0)\n"
# an rt that tries an edit, in a folder that it names after itself
TRYING = """
import os, subprocess, sys
place = os.path.join(sys.argv[1], "rt-edit-%d-x" % os.getpid())
os.mkdir(place)
subprocess.run(["rattle", "-c", sys.argv[2], "check", "--crate-name", "row", "src/lib.rt"], executable=sys.executable, cwd=place, check=True)
"""


def watching(tally, folder):
    """Processes that look like the prover's: on a crate, and in a try of an edit; both for another folder too."""
    here, other = os.path.join(folder, "here"), os.path.join(folder, "other")
    for place in (here, other):
        os.makedirs(os.path.join(place, "crates", "leaf"))
    watcher = subprocess.Popen([sys.executable, TOOL, "--watch", here], stdout=subprocess.PIPE, text=True)
    for place in (here, other):
        leaf = os.path.join(place, "crates", "leaf")
        subprocess.run(["rattle", "-c", SHARED, "build", "--crate-name", "leaf", "src/lib.rt"], executable=sys.executable, cwd=leaf, check=True)
        subprocess.run([sys.executable, "-c", TRYING, folder, BUSY], cwd=place, check=True)
    time.sleep(0.5)
    watcher.send_signal(signal.SIGTERM)
    lines = watcher.communicate()[0].splitlines()
    tally.check("the watcher's status", watcher.returncode, 0)
    tally.check("what is measured", [line.split()[1] for line in lines], ["leaf", "row/must-fail"])
    for line, least, most in zip(lines, (0.9, 0.3), (1.8, 0.8)):
        tally.check("the time of " + line, least <= float(re.search(r"([\d.]+) s$", line)[1]) <= most, True)


def main():
    tally = Tally()
    with tempfile.TemporaryDirectory() as folder:
        logs(tally, folder)
        watching(tally, os.path.realpath(folder))
    return tally.finish()


if __name__ == "__main__":
    sys.exit(main())
