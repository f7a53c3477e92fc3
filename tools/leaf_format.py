"""Leaves as documents 01 and 02 have them: stored numbers, posting lists, leaves, words, age, live entries.

What the tools and the second program (tests/reference.py) share. It is written from these documents alone. Whatever breaks a rule
raises `Broken`, which says the rule, and the word and the docid at which it is broken.
"""

MAX_LEAVES = 8
MAX_LEAF_BYTES = 65536
MAX_COLUMNS = 16
MAX_NAME_BYTES = 32
MAX_WORD_BYTES = 64
MAX_NUMBER_BYTES = 9
MAX_NUMBER = 2**63 - 1
MAX_DOCID_BYTES = 10
MAX_POSITION = 2**31 - 1
# of a level and an index
MAX_U32 = 2**32 - 1

NAME_BYTES = b"ABCDEFGHIJKLMNOPQRSTUVWXYZabcdefghijklmnopqrstuvwxyz0123456789_"


class Broken(Exception):
    """A rule that is broken; the word and the docid at which, where they are known."""

    def __init__(self, rule, word=None, docid=None):
        super().__init__(rule)
        self.rule, self.word, self.docid = rule, word, docid

    def __str__(self):
        word = "" if self.word is None else "the word %s: " % shown(self.word)
        docid = "" if self.docid is None else "docid %d: " % self.docid
        return word + docid + self.rule


def shown(word):
    """A word as a person reads it, quoted; bytes that are no text are written as \\x and two digits."""
    text = word.decode("utf-8", "backslashreplace")
    return "`%s`" % (text if len(text) <= 80 else text[:80] + "..")


# Column names


def name_ok(name):
    """Whether one column name has 1 to 32 letters, digits or underscores.

    Document 01, "How things are lent", row "Columns".
    """
    return 1 <= len(name) <= MAX_NAME_BYTES and all(b in NAME_BYTES for b in name)


def columns_ok(columns):
    """Whether a column count is 1 to 16.

    Document 01, "How things are lent", row "Columns".
    """
    return 1 <= columns <= MAX_COLUMNS


# Stored numbers


def read_number(s, at, most=MAX_NUMBER_BYTES):
    """The number stored at `at` and where it ends.

    Document 01, "Stored numbers": one to nine bytes, shortest form only. Document 02, section 9: a tenth byte, where one may stand, is 1.
    """
    value = 0
    for count in range(most):
        if not 0 <= at + count < len(s):
            raise Broken("a stored number is cut short")
        byte = s[at + count]
        value += (byte % 128) << (7 * count)
        if byte < 128:
            if byte == 0 and count > 0:
                raise Broken("a stored number is not in its shortest form")
            if value >= 2**64:
                raise Broken("a stored number has more than 64 bits")
            return value, at + count + 1
    raise Broken("a stored number has more than %d bytes" % most)


# A posting list (doclist)


def signed(n):
    """The signed number with the lowest 64 bits of a number (two's complement)."""
    return (n + 2**63) % 2**64 - 2**63


def read_docid(s, at, previous):
    """The docid whose number stands at `at`, and where the number ends; `previous` is the docid before, None for the first.

    Document 02, section 9: the docid's 64 bits, later the difference modulo 2^64; only these may take ten bytes.
    """
    stored, at = read_number(s, at, MAX_DOCID_BYTES)
    if previous is None:
        return signed(stored), at
    docid = signed(previous + stored)
    if docid <= previous:
        raise Broken("docids do not rise", docid=previous)
    return docid, at


def read_columns(s, at, columns):
    """The columns of one entry from `at` to its closing 0, and where it ends.

    Document 01, "A posting list".
    """
    found = []
    column, positions = 0, []
    while True:
        value, at = read_number(s, at)
        if value >= 2:
            if column >= columns:
                raise outside(column, columns)
            positions.append(next_position(positions, value))
            continue
        if positions:
            found.append((column, positions))
        elif column > 0:
            raise Broken("a column is announced and has no position")
        if value == 0:
            return found, at
        announced, at = read_number(s, at)
        if announced <= column:
            raise Broken("columns do not rise")
        if announced >= columns:
            raise outside(announced, columns)
        column, positions = announced, []


def outside(column, columns):
    return Broken("column %d of a table with %d columns" % (column, columns))


def next_position(positions, stored):
    """The position meant by a stored value after earlier ones of its column.

    Document 01, "A posting list".
    """
    step = stored - 2
    if positions and step < 1:
        raise Broken("positions do not rise")
    position = step + (positions[-1] if positions else 0)
    if position > MAX_POSITION:
        raise Broken("a position is above 2^31 - 1")
    return position


def read_entries(s, columns):
    """All entries of a doclist as (docid, columns, start, end).

    Document 01, "A posting list": one or more entries, nothing after.
    """
    entries = []
    at = 0
    while at < len(s):
        start = at
        docid, at = read_docid(s, at, entries[-1][0] if entries else None)
        try:
            found, at = read_columns(s, at, columns)
        except Broken as broken:
            raise Broken(broken.rule, docid=docid)
        entries.append((docid, found, start, at))
    if not entries:
        raise Broken("a posting list has no entry")
    return entries


# A leaf


def shared_prefix(one, other):
    """The length of the longest prefix that two terms share.

    Document 01, "A leaf".
    """
    length = 0
    while length < len(one) and length < len(other) and one[length] == other[length]:
        length += 1
    return length


def read_bytes(s, at):
    """A length and as many bytes, as (bytes, next).

    Document 01, "A leaf".
    """
    length, at = read_number(s, at)
    if at + length > len(s):
        raise Broken("a length goes past the leaf's end")
    return s[at:at + length], at + length


def read_term(s, at, previous):
    """The term at `at` and where it ends; `previous` is None for the first.

    Document 01, "A leaf".
    """
    prefix = 0
    if previous is not None:
        prefix, at = read_number(s, at)
        if prefix > len(previous):
            raise Broken("a prefix is longer than the word before")
    suffix, at = read_bytes(s, at)
    if not suffix:
        raise Broken("a word adds no byte to the prefix")
    term = suffix if previous is None else previous[:prefix] + suffix
    if len(term) > MAX_WORD_BYTES:
        raise Broken("the word has %d bytes, and may have %d" % (len(term), MAX_WORD_BYTES), word=term)
    if previous is not None and not previous < term:
        raise Broken("words do not rise", word=term)
    if previous is not None and shared_prefix(previous, term) != prefix:
        raise Broken("the prefix is not the longest that is shared with the word before", word=term)
    return term, at


def read_leaf(s, columns):
    """The terms of a leaf as (term, entries, list start, list end), each entry as (docid, [(column, [positions])]).

    Document 01, "A leaf".
    """
    if not s:
        raise Broken("the leaf is empty")
    height, at = read_number(s, 0)
    if height != 0:
        raise Broken("the height is %d, and that of a leaf is 0" % height)
    terms = []
    previous = None
    while at < len(s):
        previous, at = read_term(s, at, previous)
        try:
            doclist, at = read_bytes(s, at)
            entries = [(docid, found) for docid, found, _, _ in read_entries(doclist, columns)]
        except Broken as broken:
            raise Broken(broken.rule, word=previous, docid=broken.docid)
        terms.append((previous, entries, at - len(doclist), at))
    if not terms:
        raise Broken("the leaf has no word")
    return terms


# Words (tokens of "simple")


def is_word_byte(byte):
    """Whether a byte is an ASCII letter, a digit or 128 and up.

    Document 01, "Words".
    """
    return (
        ord("A") <= byte <= ord("Z")
        or ord("a") <= byte <= ord("z")
        or ord("0") <= byte <= ord("9")
        or byte >= 128
    )


def fold(word):
    """A word with A to Z turned into a to z, all else kept.

    Document 01, "Words".
    """
    return bytes(b + 32 if ord("A") <= b <= ord("Z") else b for b in word)


def next_run(text, at):
    """The first run of word bytes from `at` on as (start, end), or None.

    Document 01, "Words".
    """
    start = max(at, 0)
    while start < len(text) and not is_word_byte(text[start]):
        start += 1
    if start >= len(text):
        return None
    end = start
    while end < len(text) and is_word_byte(text[end]):
        end += 1
    return start, end


def words(text):
    """All words of a text as (start, end, folded bytes), of any length.

    Document 01, "Words".
    """
    found = []
    run = next_run(text, 0)
    while run is not None:
        start, end = run
        found.append((start, end, fold(text[start:end])))
        run = next_run(text, end)
    return found


# Age, and live entries


def age(level, index):
    """By what leaves are sorted, the newest first.

    Document 02, section 11: a lower level is newer, and on the same level a higher index.
    """
    return level, -index


def live_entries(leaves):
    """For each term and docid the columns of the entry in the newest leaf; leaves as `read_leaf` gives them, newest first.

    Document 01, "When a row satisfies a query"; a deletion has no columns.
    """
    live = {}
    for terms in leaves:
        for term, entries, _, _ in terms:
            rows = live.setdefault(term, {})
            for docid, found in entries:
                if docid not in rows:
                    rows[docid] = found
    return live
