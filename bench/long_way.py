#!/usr/bin/env python3
"""Copies the libraries that the benchmark measures with all that they stand on, and lets `varint::read` go the long way alone: byte by byte.

    python3 bench/long_way.py FOLDER

Only the body of `read` changes: its contract and all that stands on it stay, and the prover says so when the copy is built. The copy has no
answers for `read`: what `read_long` promises is what it has to.
"""
import os
import re
import shutil
import sys

MEASURED = ("fts4box", "timing")


def long_only(code):
    """The code without the short way: the body of `read` is its last line."""
    head, body = code.split("pub fn read(", 1)
    contract, rest = body.split("\n{\n", 1)
    body, rest = rest.split("\n}\n", 1)
    last = body.splitlines()[-1]
    if last != "    read_long(s, at)" or "while" in body:
        sys.exit("bench/long_way.py: varint::read does not end in read_long(s, at), or has a loop")
    return head + "pub fn read(" + contract + "\n{\n" + last + "\n}\n" + rest


def needed(lines):
    """The lines of crates.txt for what is measured and what that stands on; the lowest crate is listed first."""
    wanted, kept = set(MEASURED), []
    for line in reversed(lines):
        crate, _, below = line.partition(":")
        # a static library has that word after its name
        if crate.split(" ")[0] in wanted:
            wanted.update(below.split())
            kept.insert(0, line)
    if len(kept) != len(wanted):
        sys.exit("bench/long_way.py: crates.txt does not list all of %s" % ", ".join(sorted(wanted)))
    return kept


def main(folder):
    with open("crates.txt") as f:
        listed = needed(f.readlines())
    for line in listed:
        crate = re.match(r"\w+", line)[0]
        shutil.copytree(os.path.join("crates", crate), os.path.join(folder, "crates", crate), ignore=shutil.ignore_patterns("out"))
    with open(os.path.join(folder, "crates.txt"), "w") as f:
        f.writelines(listed)
    path = os.path.join(folder, "crates/varint/src/lib.rt")
    with open(path) as f:
        code = f.read()
    with open(path, "w") as f:
        f.write(long_only(code))
    shutil.rmtree(os.path.join(folder, "crates/varint/proofs/read"), ignore_errors=True)


if __name__ == "__main__":
    main(sys.argv[1])
