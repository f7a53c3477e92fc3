#!/usr/bin/env python3
"""What each crate holds: lines of code, definitions, laws, functions with something written of their proof, and must-fail edits, as a table.

Lines of code are those of src/ that are neither empty nor a comment nor a contract. A definition is a name that a file of specs/
gives, a law one that a file of proofs/ itself states; fields are not counted. What is written of a function's proof, its invariants and
answers, stands in a folder of proofs/; where there is none the prover needs nothing.
"""
import os
import re
import sys

ROOT = os.path.dirname(os.path.dirname(os.path.abspath(__file__)))
CONTRACT = re.compile(r"\s*(//|requires |ensures |ghost use |#!?\[tactic\()")
CRATE = re.compile(r"(\w+)( staticlib)? *:")
SECTION = re.compile(r"( *)module _ ")
STATED = re.compile(r"( *)(?:abbrev |unfoldable |pub )*(record |data )?[^\s:({-][^\s:({]*(?: [({].*[)}])? :(?: |$)")


def files(folder, suffix):
    for base, _, names in os.walk(folder):
        for name in sorted(names):
            if name.endswith(suffix):
                yield os.path.join(base, name)


def lines(path):
    with open(path, encoding="utf-8") as file:
        return file.read().split("\n")


def stated(path):
    """How many names a file states, at its margin or at that of a section."""
    count, margins = 0, {0}
    for line in lines(path):
        if line and not line.startswith(" "):
            margins = {0}
        if section := SECTION.match(line):
            margins.add(len(section[1]) + 2)
        elif (match := STATED.match(line)) and len(match[1]) in margins:
            count += 1
    return count


def sizes(crate):
    folder = os.path.join(ROOT, "crates", crate)
    proofs = os.path.join(folder, "proofs")
    laws = [path for path in files(proofs, ".antt") if os.path.dirname(path) == proofs]
    return [
        sum(1 for path in files(os.path.join(folder, "src"), ".rt") for line in lines(path) if line.strip() and not CONTRACT.match(line)),
        sum(stated(path) for path in files(os.path.join(folder, "specs"), ".antt")),
        sum(stated(path) for path in laws),
        len({os.path.dirname(path) for path in files(proofs, ".antt")} - {proofs}),
        sum(1 for _ in files(os.path.join(folder, "must-fail"), ".edit")),
    ]


def main():
    with open(os.path.join(ROOT, "crates.txt"), encoding="utf-8") as file:
        crates = [match[1] for match in map(CRATE.match, file) if match]
    table = [(f"`{crate}`", sizes(crate)) for crate in crates]
    table.append(("all", [sum(column) for column in zip(*(row for _, row in table))]))
    print("| | lines of code | definitions | laws | functions answered | must-fail edits |")
    print("|---|---|---|---|---|---|")
    for name, row in table:
        print(f"| {name} | " + " | ".join(map(str, row)) + " |")


if __name__ == "__main__":
    sys.exit(main())
