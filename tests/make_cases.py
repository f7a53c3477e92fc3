#!/usr/bin/env python3
"""Makes the compared cases: the program crate `cases` has them as its `stdin`, and what the second program answers as its `stdout`.

    python3 tests/make_cases.py            write them
    python3 tests/make_cases.py --check    fail if the committed ones differ from what would be written

A case is the number of what it asks for, two numbers, two fields with their ends, in a search, a verdict and a merge the levels and the indexes, and
a short field; a verdict has three short fields and three room sizes after them (case_writer.py). A number takes eight bytes, the highest
first; a field is its length and its bytes; ends, levels and indexes are their count and four bytes each. The number 0 ends the input. The
seeds are fixed.
"""
import os
import sys

import ground_cases
import leaf_cases
import merge_cases
import query_cases
import search_cases
import verdict_cases
import writer_cases
from case_writer import Cases

ROOT = os.path.dirname(os.path.dirname(os.path.abspath(__file__)))
FOLDER = os.path.join(ROOT, "crates", "cases")
LAYERS = [ground_cases, leaf_cases, query_cases, writer_cases, search_cases, verdict_cases, merge_cases]


def files():
    """The program's two files: path and content."""
    cases = Cases()
    for layer in LAYERS:
        layer.make(cases)
    asked, answered = cases.files()
    return [(os.path.join(FOLDER, "stdin"), asked), (os.path.join(FOLDER, "stdout"), answered)]


def differs(path, content):
    if not os.path.exists(path):
        return True
    with open(path, "rb") as f:
        return f.read() != content


def main(words):
    if words not in ([], ["--check"]):
        print(__doc__.strip(), file=sys.stderr)
        return 2
    wrong = []
    for path, content in files():
        if words == ["--check"]:
            if differs(path, content):
                wrong.append(os.path.relpath(path, ROOT))
        else:
            with open(path, "wb") as f:
                f.write(content)
    for path in wrong:
        print("not what the second program gives:", path)
    return 1 if wrong else 0


if __name__ == "__main__":
    sys.exit(main(sys.argv[1:]))
