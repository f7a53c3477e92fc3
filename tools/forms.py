"""Counts the older forms that are left in crates/*/src (docs/DESIGN-PASS.md), with the place of each. It reads text and decides nothing: a row is a
place to look at.

    python3 tools/forms.py           # the counts
    python3 tools/forms.py --list    # and each place
"""

import collections
import pathlib
import re
import sys

ROOT = pathlib.Path(__file__).resolve().parent.parent
FUNCTION = re.compile(r"^( *)(?:pub(?:\(crate\))? )?(?:extern \"C\" )?fn (\w+)")
MANY_PARAMETERS = 8
TWIN_WORDS = 25


class Function:
    def __init__(self, place, name, lines):
        text = "\n".join(lines)
        self.place = place
        self.name = name
        self.head, self.body = text.split("\n{" if "\n{" in text else "{", 1)
        signature = re.split(r"\n +(?:requires|ensures)", self.head)[0]
        self.parameters = re.findall(r"(\w+): (&?(?:'a )?(?:mut )?[\w:\[\];<>' ]+)", signature[signature.index("("):])


def sources():
    for path in sorted(ROOT.glob("crates/*/src/**/*.rt")):
        yield path.relative_to(ROOT), path.read_text().split("\n")


def blocks(lines, opening):
    """Each line that `opening` matches, with the lines up to the brace that closes it."""
    for at, line in enumerate(lines):
        found = opening.match(line)
        if found:
            end = at
            while end + 1 < len(lines) and not lines[end].startswith(found[1] + "}"):
                end += 1
            yield at + 1, found, lines[at:end]


def functions():
    for path, lines in sources():
        for at, found, body in blocks(lines, FUNCTION):
            yield Function(f"{path}:{at}", found[2], body)


def types(kind):
    for path, lines in sources():
        for at, found, body in blocks(lines, re.compile(rf"^( *)(?:pub )?{kind} (\w+)")):
            fields = [re.sub(r"//.*", "", line).strip() for line in body[1:]]
            yield f"{path}:{at}", found[2], [field for field in fields if field]


def option_shapes():
    """Enums of two cases."""
    for place, name, lines in types("enum"):
        depth, cases = 0, []
        for line in lines:
            if depth == 0 and re.match(r"\w+", line):
                cases.append(line)
            depth += line.count("{") - line.count("}")
        if len(cases) == 2:
            yield place, name


def flags():
    """A flag beside other fields of a struct."""
    for place, name, fields in types("struct"):
        if len(fields) > 1 and any(field.endswith(": bool,") for field in fields):
            yield place, name


def number_kinds():
    """Runs of at least three constants of one type that count up."""
    for path, lines in sources():
        run = []
        for at, line in enumerate(lines + ["fn"], 1):
            found = re.match(r"(?:pub )?const (\w+): (u8|u32|u64) = (\d+);", line)
            if found and (not run or (run[-1][1] == found[2] and run[-1][2] < int(found[3]))):
                run.append((f"{path}:{at}", found[2], int(found[3]), found[1]))
                continue
            if line.strip() and not line.startswith("//"):
                if len(run) > 2 and run[-1][2] < 16:
                    yield run[0][0], f"{run[0][3]} .. {run[-1][3]}"
                run = []


def twins():
    """Functions whose bodies have the same words but for names and numbers."""
    groups = collections.defaultdict(list)
    for function in functions():
        names, shape = {}, []
        for word in re.findall(r"\w+|[^\w\s]", re.sub(r"//.*", "", function.body)):
            if re.match(r"\d", word):
                shape.append("0")
            elif re.match(r"\w", word):
                shape.append(word if word in KEYWORDS else str(names.setdefault(word, len(names))))
            else:
                shape.append(word)
        if len(shape) >= TWIN_WORDS:
            groups[" ".join(shape)].append(function)
    for group in groups.values():
        if len(group) > 1:
            yield group[0].place, " ~ ".join(f"{function.place.split('/')[1]}::{function.name}" for function in group)


KEYWORDS = set("let mut while for in if else match return loop break continue as true false self Some None Ok Err".split())


def hand_loops():
    """Loops whose condition reads a variable that their body moves by one."""
    for path, lines in sources():
        name = "?"
        for at, line in enumerate(lines):
            name = FUNCTION.match(line)[2] if FUNCTION.match(line) else name
            found = re.match(r"( *)while (.*)\{", line)
            if found:
                end = at
                while not lines[end].startswith(found[1] + "}"):
                    end += 1
                moved = set(re.findall(r"\b(\w+) [+-]= 1;", "\n".join(lines[at:end])))
                if moved & set(re.findall(r"\w+", found[2])):
                    yield f"{path}:{at + 1}", name


def other_loops():
    """All other `while` and `loop`."""
    hand = {place for place, _ in hand_loops()}
    for path, lines in sources():
        for at, line in enumerate(lines, 1):
            if re.match(r" *(while |loop \{)", line) and f"{path}:{at}" not in hand:
                yield f"{path}:{at}", line.strip()


def by_hand():
    """Functions named after what std has: equality, order, the least, copying, clearing, conversion, printing."""
    named = re.compile(r"^(is_same|same_name|is_before|compare|begins|lesser|least|least_of|clear|put_bytes|signed_of|docid_line|shared_prefix|has_docid)$")
    for function in functions():
        if named.match(function.name):
            yield function.place, function.name


def many_parameters():
    for function in functions():
        if len(function.parameters) >= MANY_PARAMETERS:
            yield function.place, f"{function.name} ({len(function.parameters)})"


def arrays_with_lengths():
    """Structs with an array and a number of its elements."""
    for place, name, fields in types("struct"):
        if any(re.search(r": \[", field) for field in fields) and any(re.match(r"(?:pub )?(count|len|size|n): usize", field) for field in fields):
            yield place, name


def switches():
    """Parameters that say which step to run: flags, and enums without values."""
    plain = {name for _, name, cases in types("enum") if all(re.fullmatch(r"\w+,", case) for case in cases)}
    for function in functions():
        for name, kind in function.parameters:
            if kind.strip() in plain | {"bool"}:
                yield function.place, f"{function.name}: {name}"


def answers():
    """Answers of proofs."""
    for path in sorted(ROOT.glob("crates/*/proofs/**/Answers.antt")):
        for at, line in enumerate(path.read_text().split("\n"), 1):
            if re.match(r"pub \S+ : goal\.", line):
                yield f"{path.relative_to(ROOT)}:{at}", line.split()[1]


POINTS = [
    ("1 enums of two cases", option_shapes),
    ("1 flags beside values", flags),
    ("1 numbers for kinds", number_kinds),
    ("2 twins", twins),
    ("3 loops that count by hand", hand_loops),
    ("3 other while and loop", other_loops),
    ("4 by hand", by_hand),
    (f"5 functions of {MANY_PARAMETERS} and more parameters", many_parameters),
    ("6 arrays with a length beside", arrays_with_lengths),
    ("7 switches", switches),
    ("8 answers of proofs", answers),
]


def main():
    if sys.argv[1:] not in ([], ["--list"]):
        sys.exit("forms.py takes --list or nothing")
    for title, places in POINTS:
        found = list(places())
        print(f"{len(found):5} {title}")
        if sys.argv[1:] and title[0] != "8":
            for place, name in found:
                print(f"          {place} {name}")


main()
