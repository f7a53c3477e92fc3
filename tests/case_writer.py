"""The form of compared cases: what is asked, and the line that answers it. `joined` is how byte strings are lent."""
import paths  # noqa: F401
from fts4box import joined  # noqa: F401

# What a case asks for: the number that it begins with, as in crates/cases/src/main.rt; 0 ends the input.
READ, SIZE, WRITE, CUT, NAMES, WORD, CHECK, LOOKUP, DECIDING, QUERY, DOCUMENT, SEARCH, VERDICT, MERGE, MERGE_KEEPING = range(1, 16)


class Cases:
    """Cases in order, with their expected answers."""

    def __init__(self):
        self.asked = bytearray()
        self.lines = []

    def ask(self, kind, n=0, m=0, first=b"", first_ends=(), second=b"", second_ends=(), pairs=(), short=b"", shorts=(), rooms=()):
        """One case: every case has all parts up to `short` but the pairs, and those that it does not need are 0 or empty. Pairs are the two lists of levels
        and indexes, and only a search, a verdict and the merges have them. `shorts` are the verdict's two further short fields, `rooms` its three room sizes."""
        self.number(kind)
        self.number(n)
        self.number(m)
        self.field(first)
        self.ends(first_ends)
        self.field(second)
        self.ends(second_ends)
        for numbers in pairs:
            self.ends(numbers)
        self.field(short)
        for data in shorts:
            self.field(data)
        for size in rooms:
            self.number(size)

    def number(self, n):
        self.asked += n.to_bytes(8, "big")

    def field(self, data):
        self.number(len(data))
        self.asked += data

    def ends(self, ends):
        self.number(len(ends))
        for end in ends:
            self.asked += end.to_bytes(4, "big")

    def expect(self, *parts):
        """The answer: numbers, byte strings (in hexadecimal with a full stop), None for nothing."""
        self.lines.append("".join(said(part) for part in parts))

    def files(self):
        self.number(0)
        return bytes(self.asked), "".join(line + "\n" for line in self.lines).encode("ascii")


def said(part):
    if part is None:
        return ". "
    if isinstance(part, (bytes, bytearray)):
        return part.hex() + ". "
    return "%d " % part
