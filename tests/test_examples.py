#!/usr/bin/env python3
"""The examples are built against the header and the static library and run, the Rust one in two editions; the header is C++ too."""
import os
import subprocess
import sys
import tempfile

from paths import EXAMPLES, INCLUDE
from fts4box import ARCHIVE
from tally import Tally

EXPECTED = "docs 1\n7\n"
SHEET = "rows 4\npassed 1\n7\nfailed 1\n8\nsilent 1\n9\nnone 1\n"
# docid 7, node "n12", sent "probe", outcome "late": what fts4_write makes of it
MERGED = "bytes 34 level 0 index 1\n00 04 6C 61 74 65 05 07 01 02 02 00 00 03 6E 31 32 03 07 02 00 00 05 70 72 6F 62 65 05 07 01 01 02 00\n"
WARNINGS = ["-Wall", "-Wextra", "-Werror"]
EDITIONS = ("2021", "2024")
CPLUSPLUS = '#include "fts4box.h"\nint main() { uint64_t second; return fts4_check(nullptr, 0, 3, &second) == FTS4_LEAF ? 0 : 1; }\n'


def built(tally, what, command):
    """Whether the compiler takes it and says nothing."""
    done = subprocess.run(command, stdout=subprocess.PIPE, stderr=subprocess.STDOUT, text=True)
    return tally.check("build of " + what, (done.returncode, done.stdout), (0, ""))


def ran(program):
    done = subprocess.run([program], stdout=subprocess.PIPE, stderr=subprocess.STDOUT, text=True, timeout=60)
    return done.returncode, done.stdout


def main():
    tally = Tally()
    with tempfile.TemporaryDirectory() as folder:
        program, source = os.path.join(folder, "program"), os.path.join(folder, "header.cc")
        with open(source, "w", encoding="ascii") as f:
            f.write(CPLUSPLUS)
        c_examples, rust_example = (("search.c", EXPECTED), ("verdict.c", SHEET), ("merge.c", MERGED)), os.path.join(EXAMPLES, "search.rs")
        linked = ["-L", os.path.dirname(ARCHIVE), "-l", "static=fts4box"]
        commands = [("the header as C++", ["g++", *WARNINGS, "-Wpedantic", "-I", INCLUDE, "-o", program, source, ARCHIVE], "")]
        for name, expected in c_examples:
            command = ["cc", *WARNINGS, "-std=c99", "-Wpedantic", "-I", INCLUDE, "-o", program, os.path.join(EXAMPLES, name), ARCHIVE]
            commands.append((name, command, expected))
        for edition in EDITIONS:
            command = ["rustc", "--edition", edition, "-D", "warnings", "-o", program, rust_example, *linked]
            commands.append(("search.rs in edition " + edition, command, EXPECTED))
        for what, command, expected in commands:
            if built(tally, what, command):
                tally.check(what, ran(program), (0, expected))
    return tally.finish()


if __name__ == "__main__":
    sys.exit(main())
