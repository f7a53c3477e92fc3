#!/usr/bin/env python3
"""tools/build.sh: where it puts what rt makes, and that a failure leaves what was there; with a stand-in for rt."""
import os
import shutil
import subprocess
import sys
import tempfile

from paths import TOOLS
from tally import Tally

# It works in a crate's folder as rt does: makes the library or the program and runs it, with the words of the file `made` in it, or fails where that is not there.
RT = """#!/bin/sh
[ -f made ] || { echo "no proof"; exit 1; }
mkdir -p out
case "$1,$(basename "$PWD")" in
    lib,low) mkdir -p out/rlib ;;
    lib,*) cp made "out/lib$(basename "$PWD").a" ;;
    run,*) cp made "out/$(basename "$PWD")"; cat; exit "$(cat status 2>/dev/null || echo 0)" ;;
esac
"""
BOX, PROGRAM = "target/staticlib/libfts4box.a", "target/bin/fts4search"


class Place:
    """A repository with two libraries and a program, and the stand-in."""

    def __init__(self, folder):
        self.folder = folder
        for file in ("crates/low/src/lib.rt", "crates/fts4box/src/lib.rt", "crates/fts4search/src/main.rt"):
            self.put(file, "")
        self.put("bin/rt", RT)
        os.chmod(os.path.join(folder, "bin", "rt"), 0o755)
        shutil.copytree(TOOLS, os.path.join(folder, "tools"), ignore=shutil.ignore_patterns("__pycache__"))

    def put(self, file, text):
        path = os.path.join(self.folder, file)
        os.makedirs(os.path.dirname(path), exist_ok=True)
        with open(path, "w", encoding="ascii") as f:
            f.write(text)

    def text(self, file):
        path = os.path.join(self.folder, file)
        if not os.path.exists(path):
            return None
        with open(path, encoding="ascii") as f:
            return f.read()

    def built(self, *names):
        """The status, and what is said on either output."""
        words = ["bash", os.path.join(self.folder, "tools", "build.sh"), *names]
        path = os.path.join(self.folder, "bin") + os.pathsep + os.environ["PATH"]
        done = subprocess.run(words, stdout=subprocess.PIPE, stderr=subprocess.STDOUT, text=True, env={**os.environ, "PATH": path}, cwd="/")
        return done.returncode, done.stdout

    def made(self):
        """What is in target/: the two files' words, and whatever else lies there."""
        found = [os.path.join(at, name) for at, _, names in os.walk(os.path.join(self.folder, "target")) for name in names]
        return self.text(BOX), self.text(PROGRAM), len(found)

    def fails(self, tally, what, status, parts, *names):
        before, (ended, said) = self.made(), self.built(*names)
        tally.check("%s: %s" % (what, said), (ended, [part for part in parts if part not in said]), (status, []))
        tally.check("%s: what is there" % what, self.made(), before)


def main():
    tally = Tally()
    with tempfile.TemporaryDirectory() as folder:
        place = Place(folder)
        place.fails(tally, "no proof", 1, ["no proof", "crate fts4box gave no", BOX])
        place.put("crates/fts4box/made", "one")
        place.put("crates/fts4search/made", "two")
        tally.check("one of them", (place.built("fts4search"), place.made()), ((0, ""), (None, "two", 1)))
        tally.check("both", (place.built(), place.made()), ((0, ""), ("one", "two", 2)))
        tally.check("the program can be run", os.access(os.path.join(folder, PROGRAM), os.X_OK), True)
        place.put("crates/fts4box/made", "three")
        tally.check("anew", (place.built("fts4box"), place.made()), ((0, ""), ("three", "two", 2)))
        os.remove(os.path.join(folder, "crates/fts4box/made"))
        place.fails(tally, "no proof any more", 1, ["no proof", "crate fts4box gave no"])
        place.put("crates/fts4search/stdin", "what is read")
        place.put("crates/fts4search/status", "3")
        place.fails(tally, "a program that fails", 1, ["what is read", "crate fts4search gave no"], "fts4search")
        place.put("crates/low/made", "")
        place.fails(tally, "no static library", 1, ["crate low gave no"], "low")
        for name in ("", "nonesuch", "../low", "--all"):
            place.fails(tally, "no crate", 2, ["usage"], "fts4search", name)
    return tally.finish()


if __name__ == "__main__":
    sys.exit(main())
