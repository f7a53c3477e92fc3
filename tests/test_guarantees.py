#!/usr/bin/env python3
"""Every definition, theorem and function that docs/GUARANTEES.md cites stands where the document says."""
import os
import re
import sys

from paths import ROOT
from tally import Tally

PAGE = os.path.join("docs", "GUARANTEES.md")
FUNCTION = re.compile(r"\b(\w+)::(?:\w+::)*(\w+)")
PLACE = re.compile(r"(?:(\w+): )?\b(specs|proofs)/(\w+)(?:\.([\w'-]+))?")
NAME = re.compile(r"\s*([\w'-]+)[.)]?\s*")


def text(path):
    """A file's text, or that of all files of a folder; nothing where there is none."""
    if os.path.isdir(path):
        return "".join(text(os.path.join(path, name)) for name in sorted(os.listdir(path)))
    if not os.path.exists(path):
        return ""
    with open(path, encoding="utf-8") as f:
        return f.read()


def defines(source, name):
    """Whether a line of the source begins to say what a name is."""
    return re.search(r"^ *(\w+ )*%s( |$)" % re.escape(name), source, re.M) is not None


def cited(cell):
    """The names that a cell cites, as (folder or file below crates/, name); a bare name belongs to the file before it."""
    for crate, function in FUNCTION.findall(cell):
        yield os.path.join(crate, "src"), function
    crate = place = None
    for part in re.split("[;,]", cell):
        found = PLACE.search(part)
        if found:
            crate = found.group(1) or crate
            place = os.path.join(crate or "", found.group(2), found.group(3) + ".antt")
            yield place, found.group(4)
        elif place and NAME.fullmatch(part):
            yield place, NAME.fullmatch(part).group(1)


def main():
    tally = Tally()
    page = text(os.path.join(ROOT, PAGE))
    if not page:
        tally.fail("%s is missing or empty" % PAGE)
    for line in page.splitlines():
        for cell in line.split("|") if line.startswith("|") else ():
            for place, name in cited(cell):
                source = text(os.path.join(ROOT, "crates", place))
                there = source != "" if name is None else re.search(r"\bfn %s\b" % name, source) is not None or defines(source, name)
                tally.check("%s in %s" % (name, place), there, True)
    return tally.finish()


if __name__ == "__main__":
    sys.exit(main())
