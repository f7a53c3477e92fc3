#!/usr/bin/env python3
"""Spells the repository's own definitions and lemmas as today's Rattle does: words in snake case, a prime as an apostrophe.

usage: python3 tools/spell_names.py --before    before port.py: where a lemma or a local name and a definition would fall together,
                                                the one of them ends in `-lem` (or has the name given below)
       python3 tools/spell_names.py --after     after port.py: readAt -> read_at, begun-within -> begun_within

It goes by text: names that stand after `tie.` or in a path of a generated module are left, and so are strings and inputs. In comments
only what stands between backticks is turned. Each form changes nothing when it is run again.
"""
import os
import re
import sys

ROOT = os.path.dirname(os.path.dirname(os.path.abspath(__file__)))

# The crates in which the first name, a lemma's, becomes the second.
APART = [
    ("merge search", "answer-of", "answer-of-lem"),
    ("chain evaluate", "chain-end", "chain-end-lem"),
    ("lexer", "columnRun", "columnRunToken"),
    ("opening", "groups-size", "groups-size-lem"),
    ("opening", "lists-size", "lists-size-lem"),
    ("opening", "list-size", "list-size-lem"),
    ("opening", "hit-of", "hit-of-lem"),
    ("cursors postings", "is-open", "is-open-lem"),
    ("lexer", "is-operator", "is-operator-lem"),
    ("lexer", "is-word", "is-word-lem"),
    ("chain", "left-out", "left-here"),
    ("directory", "lent-at", "lent-at-lem"),
    ("query", "link-nodes", "link-nodes-lem"),
    ("query", "tree-nodes", "tree-nodes-lem"),
    ("evaluate", "op-code", "op-code-lem"),
    ("directory merge", "pair-at", "pair-at-lem"),
    ("lexer query", "phrase-entries", "phrase-entries-lem"),
    ("writer", "row-column", "row-column-lem"),
    ("writer", "row-position", "row-position-lem"),
    ("writer", "row-start", "row-start-lem"),
    ("writer", "same-word", "same-word-here"),
    ("lexer", "run-next", "run-next-lem"),
    ("offsets", "same-name", "same-name-lem"),
    ("doclist", "spot-after", "spot-after-lem"),
    ("doclist", "spot-state", "spot-state-lem"),
]

# Names of the library that a lemma of ours has too.
OF_LIBRARIES = {"get_or-set_other", "length-map"}

NAME = r"[^\s(){}.;,@\"«»\[\]\\:`]+"
TOKEN = re.compile(r"--[^\n]*|//[^\n]*|\"(?:[^\"\\\n]|\\.)*\"|«[^»]*»|" + NAME + r"|.|\n")
DECLARED = re.compile(
    r"^(\s*)((?:abbrev |unfoldable |pub |data |record |ruleset )*)(" + NAME + r")((?:\s+[^:\n]*)?) :(?=\s|$)"
)
GENERATED = re.compile(r"(^|[\s(])(tie|goal)\.$")


def files(endings, crates=None):
    for crate in sorted(os.listdir(os.path.join(ROOT, "crates"))):
        if crates and crate not in crates:
            continue
        for part in ("specs", "proofs", "src"):
            for folder, below, names in os.walk(os.path.join(ROOT, "crates", crate, part)):
                below[:] = [it for it in below if it != "out"]
                for name in sorted(names):
                    if name.endswith(endings):
                        yield os.path.join(folder, name)


def read(path):
    with open(path, encoding="utf-8") as it:
        return it.read()


def turned(text, new, fields):
    """Returns the text with each name turned, in code and between backticks in comments; what follows a dot only where `fields` says so."""
    out, before = [], ""
    for token in TOKEN.findall(text):
        if token.startswith(("--", "//")):
            token = re.sub(r"`([^`]+)`", lambda it: "`" + turned(it[1], new, fields) + "`", token)
        elif token[:1] not in '"«' and not before.endswith(("tie.", "goal.")) and (fields or not before.endswith(".")):
            token = new(token)
        out.append(token)
        before = (before + token)[-12:]
    return "".join(out)


def rewrite(path, new, fields):
    text = read(path)
    to = turned(text, new, fields)
    if to != text:
        with open(path, "w", encoding="utf-8") as it:
            it.write(to)


def snake(name):
    name = re.sub(r"(?<=[a-z0-9₀-₉])([A-Z]+)(?![a-z])", lambda it: "_" + it[1].lower(), name) if name[:1].islower() else name
    name = re.sub(r"(?<=[a-z0-9])([A-Z])", lambda it: "_" + it[1].lower(), name) if name[:1].islower() else name
    return re.sub(r"(?<=[a-z0-9'₀-₉])-(?=[a-z0-9])", "_", name)


def own_names():
    """The names that specs/ and proofs/ declare, without those of goals and of what closes a proof by hand."""
    names = set()
    for path in files(".antt"):
        by_hand = os.path.basename(path) == "Proof.antt"
        for line in read(path).split("\n"):
            it = DECLARED.match(line)
            if it and not line.lstrip().startswith("--") and not (by_hand and re.search(r" : tie\.(Need-|Inv|Measure|invariant|decreases)", line)):
                names.add(it[3])
    return names


def main():
    if sys.argv[1:] == ["--before"]:
        for crates, old, new in APART:
            for path in files((".antt", ".rt") if "-" not in old else ".antt", crates.split()):
                rewrite(path, lambda it: new if it == old else it, False)
    elif sys.argv[1:] == ["--after"]:
        table = {name: snake(name) for name in own_names() - OF_LIBRARIES}
        table = {old: new for old, new in table.items() if old != new}
        for path in files((".antt", ".rt")):
            rewrite(path, lambda it: table.get(it, it).replace("′", "'"), True)
    else:
        sys.exit(__doc__)


if __name__ == "__main__":
    main()
