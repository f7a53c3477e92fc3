"""A second program for the FTS4 leaf checker, lookup, leaf writer, search, verdict sheet and merge.

It is written from document 01, "Build specification and rules", and document 02,
"Requested changes after the base", alone, in the order of document 01, and gives
the expected answers for comparison.  It aims at being plain rather than fast.
Refusals are answers, never exceptions.  What the tools need too (the readers of
numbers, lists and leaves) is in tools/leaf_format.py.
"""

from bisect import bisect_left

import paths  # noqa: F401
import leaf_format
from leaf_format import (
    MAX_DOCID_BYTES, MAX_LEAF_BYTES, MAX_LEAVES, MAX_WORD_BYTES,
    age, columns_ok, fold, is_word_byte, live_entries, name_ok, next_run, shared_prefix, words,
)

MAX_QUERY_BYTES = 512
MAX_QUERY_WORDS = 16
MAX_DEPTH = 8
MAX_DOCUMENT_BYTES = 4096
DEFAULT_DISTANCE = 3  # document 02, section 7
MAX_RUN_ROWS = 4096  # document 02, section 13
ANY_COLUMN = 65535

ACCEPTED, SHAPE, QUERY, LEAF, ROOM, LONG_WORD = range(6)
TWO_VERDICTS = 7  # document 02, section 13

WHITE_SPACE = b" \t\n\x0b\x0c\r"
PROGRAM_COLUMNS = [b"node", b"sent", b"outcome"]
PROGRAM_ROOM = 4096


# How things are lent


def cut(s, ends):
    """The parts of a slice cut by its ends, or None when the ends are broken.

    Document 01, "How things are lent".
    """
    parts = []
    start = 0
    for end in ends:
        if end < start or end > len(s):
            return None
        parts.append(s[start:end])
        start = end
    if start != len(s):
        return None
    return parts


def names_ok(s, ends):
    """Whether the lent column names have the right shape.

    Document 01, "How things are lent", row "Columns".
    """
    names = cut(s, ends)
    if names is None or not columns_ok(len(names)):
        return False
    if not all(name_ok(name) for name in names):
        return False
    return len({name.lower() for name in names}) == len(names)


def column_of(names, name):
    """The first column whose name is equal when ASCII case is ignored, or None.

    Document 01, "How things are lent" and "The query language".
    """
    for index, candidate in enumerate(names):
        if candidate.lower() == name.lower():
            return index
    return None


# Stored numbers


def encode_varint(v):
    """The shortest form of a number.

    Document 01, "Stored numbers"; document 02, section 9: a 64-bit number takes up to ten bytes.
    """
    out = bytearray()
    while v >= 128:
        out.append(128 + v % 128)
        v //= 128
    out.append(v)
    return bytes(out)


def varint_size(v):
    """How many bytes the shortest form has.

    Document 01, "Stored numbers".
    """
    return len(encode_varint(v))


def or_none(read, *arguments):
    """What a reader of tools/leaf_format.py gives, or None where a rule is broken."""
    try:
        return read(*arguments)
    except leaf_format.Broken:
        return None


def read_varint(s, at):
    """The number stored at `at` and where it ends, or None when there is none.

    Document 01, "Stored numbers"; document 02, section 9: one to ten bytes, below 2^64.
    """
    return or_none(leaf_format.read_number, s, at, MAX_DOCID_BYTES)


def write_varint(room, v):
    """A number placed at the start of the room; the rest of the room stays.

    Document 01, "Stored numbers".
    """
    encoded = encode_varint(v)
    if len(encoded) > len(room):
        return "noroom", len(encoded), room
    return "bytes", len(encoded), encoded + room[len(encoded):]


# A posting list (doclist)


def entry_spans(s, columns):
    """All entries of a doclist as (docid, columns, start, end), or None.

    Document 01, "A posting list".
    """
    return or_none(leaf_format.read_entries, s, columns)


def parse_doclist(s, columns):
    """The entries of a doclist as (docid, [(column, [positions])]), or None.

    Document 01, "A posting list".
    """
    spans = entry_spans(s, columns)
    if spans is None:
        return None
    return [(docid, found) for docid, found, _, _ in spans]


def encode_doclist(entries):
    """The doclist of sound entries, docids, columns and positions rising.

    Document 01, "A posting list"; document 02, section 9: docids and their
    differences modulo 2^64.
    """
    out = bytearray()
    previous_docid = 0
    for docid, found in entries:
        out += encode_varint((docid - previous_docid) % 2**64)
        previous_docid = docid
        for column, positions in found:
            if column > 0:
                out += encode_varint(1) + encode_varint(column)
            previous = 0
            for position in positions:
                out += encode_varint(position - previous + 2)
                previous = position
        out += encode_varint(0)
    return bytes(out)


# A leaf


def parse_leaf(s, columns):
    """The terms of a leaf as (term, entries, list start, list end), or None.

    Document 01, "A leaf".
    """
    return or_none(leaf_format.read_leaf, s, columns)


def encode_leaf(terms):
    """The leaf of sound rising (term, entries); no bytes for no terms.

    Document 01, "A leaf" and "Words" (a document without words is no leaf).
    """
    if not terms:
        return b""
    out = bytearray(encode_varint(0))
    previous = None
    for term, entries in terms:
        prefix = 0
        if previous is not None:
            prefix = shared_prefix(previous, term)
            out += encode_varint(prefix)
        out += encode_varint(len(term) - prefix) + term[prefix:]
        doclist = encode_doclist(entries)
        out += encode_varint(len(doclist)) + doclist
        previous = term
    return bytes(out)


def check_leaf(leaf, columns):
    """The answer to the check of one leaf: 0, 1 or 3, each with 0.

    Document 01, "Numbers of the answers", last sentence.
    """
    if not columns_ok(columns) or len(leaf) > MAX_LEAF_BYTES:
        return SHAPE, 0
    if parse_leaf(leaf, columns) is None:
        return LEAF, 0
    return ACCEPTED, 0


# Words (tokens of "simple")


def next_word(text, at):
    """The first run from `at` on, told apart by the 64 bytes of a word.

    Document 01, "Words" and "How things are lent", row "Word".
    """
    run = next_run(text, at)
    if run is None:
        return None
    start, end = run
    kind = "found" if end - start <= MAX_WORD_BYTES else "overlong"
    return kind, start, end


# The writer


def document_terms(docid, texts):
    """The rising terms of one document with one entry each.

    Document 01, "Words": words are numbered from 0 in each column.
    """
    places = {}
    for column, text in enumerate(texts):
        for position, (_, _, word) in enumerate(words(text)):
            places.setdefault(word, {}).setdefault(column, []).append(position)
    return [(term, [(docid, sorted(places[term].items()))]) for term in sorted(places)]


def write_leaf(docid, texts, ends, room_len):
    """The writer's answer and its room, checks 1, 5, 4 in that order.

    Document 01, "Numbers of the answers" and "Words"; document 02, section 9:
    any docid.
    """
    empty = bytes(room_len)
    columns = cut(texts, ends)
    if columns is None or not columns_ok(len(columns)):
        return SHAPE, 0, empty
    if len(texts) > MAX_DOCUMENT_BYTES:
        return SHAPE, 0, empty
    for column, text in enumerate(columns):
        if any(len(word) > MAX_WORD_BYTES for _, _, word in words(text)):
            return LONG_WORD, column, empty
    leaf = encode_leaf(document_terms(docid, columns))
    if len(leaf) > room_len:
        return ROOM, len(leaf), empty
    return ACCEPTED, len(leaf), leaf + bytes(room_len - len(leaf))


# Lookups


def lookup(leaf, columns, word):
    """The word's doclist as (number, bytes in the part, start in the leaf, stored numbers read).

    Document 01, "Lookups", one leaf; the start is 0 when the part is empty. Document 02, section 10: the height is one number, the first
    word two, a later word three, up to the first word not less than the one sought.
    """
    if not columns_ok(columns) or len(leaf) > MAX_LEAF_BYTES:
        return SHAPE, 0, 0, 0
    if not 1 <= len(word) <= MAX_WORD_BYTES:
        return SHAPE, 0, 0, 0
    terms = parse_leaf(leaf, columns)
    if terms is None:
        return LEAF, 0, 0, 0
    read = 1
    for place, (term, _, start, end) in enumerate(terms):
        read += 2 if place == 0 else 3
        if term == word:
            return ACCEPTED, end - start, start, read
        if term > word:
            break
    return ACCEPTED, 0, 0, read


def deciding(newer, older, columns, word, docid):
    """The deciding entry as (number, bytes, which leaf, start in that leaf).

    Document 01, "Lookups", two leaves; leaf and start are 0 for an empty part.
    Document 02, section 9: any docid.
    """
    if not columns_ok(columns) or len(newer) + len(older) > MAX_LEAF_BYTES:
        return SHAPE, 0, 0, 0
    if not 1 <= len(word) <= MAX_WORD_BYTES:
        return SHAPE, 0, 0, 0
    for which, leaf in enumerate([newer, older]):
        if parse_leaf(leaf, columns) is None:
            return LEAF, which, 0, 0
    for which, leaf in enumerate([newer, older]):
        _, length, list_start, _ = lookup(leaf, columns, word)
        if length == 0:
            continue
        doclist = leaf[list_start:list_start + length]
        for entry_docid, _, start, end in entry_spans(doclist, columns):
            if entry_docid == docid:
                return ACCEPTED, end - start, which, list_start + start
    return ACCEPTED, 0, 0, 0


# The query language
#
# A tree is one of
#   ("phrase", column set, [(word, star), ...])
#   ("near", [phrase, ...], [distance or None for a bare NEAR, ...])
#   ("not", left, right), ("and", left, right), ("or", left, right)


def split_query(query):
    """The query as pieces "(", ")", ("quoted", bytes), ("run", bytes), or None.

    Document 01, "The query language": None for a missing closing quote.
    """
    pieces = []
    at = 0
    while at < len(query):
        byte = query[at:at + 1]
        if byte in WHITE_SPACE:
            at += 1
        elif byte in b"()":
            pieces.append(byte.decode())
            at += 1
        elif byte == b'"':
            close = query.find(b'"', at + 1)
            if close < 0:
                return None
            pieces.append(("quoted", query[at + 1:close]))
            at = close + 1
        else:
            end = at
            while end < len(query) and query[end] not in WHITE_SPACE + b'()"':
                end += 1
            pieces.append(("run", query[at:end]))
            at = end
    return pieces


def read_operator(run):
    """The operator that a run is exactly, as (kind, distance), or None.

    Document 01, "The query language".
    """
    if run in (b"AND", b"OR", b"NOT", b"NEAR"):
        return run.decode(), None
    digits = run[len(b"NEAR/"):]
    if run.startswith(b"NEAR/") and 1 <= len(digits) <= 4:
        if all(ord("0") <= b <= ord("9") for b in digits):
            return "NEAR", int(digits)
    return None


def read_word(run, names):
    """The phrase of one word that a run stands for, or None.

    Document 01, "The query language": [column ":"] word bytes ["*"].
    """
    column_set = ANY_COLUMN
    if b":" in run:
        name, run = run.split(b":", 1)
        column = column_of(names, name)
        if column is None:
            return None
        column_set = 1 << column
    star = run.endswith(b"*")
    word = run[:-1] if star else run
    if not 1 <= len(word) <= MAX_WORD_BYTES:
        return None
    if not all(is_word_byte(b) for b in word):
        return None
    return "phrase", column_set, [(fold(word), star)]


def read_quoted(text):
    """The phrase between two quotes, or None.

    Document 01, "The query language": a star straight after a word marks it.
    """
    found = []
    for _, end, word in words(text):
        if len(word) > MAX_WORD_BYTES:
            return None
        found.append((word, text[end:end + 1] == b"*"))
    if not found:
        return None
    return "phrase", ANY_COLUMN, found


def read_items(query, names):
    """The query as parentheses, operators and phrases in order, or None.

    Document 01, "The query language" and row "Query" (16 words in all).
    """
    pieces = split_query(query)
    if pieces is None:
        return None
    items = []
    word_count = 0
    for piece in pieces:
        if piece in ("(", ")"):
            items.append((piece, None))
            continue
        kind, text = piece
        operator = read_operator(text) if kind == "run" else None
        if operator is not None:
            items.append(operator)
            continue
        phrase = read_word(text, names) if kind == "run" else read_quoted(text)
        if phrase is None:
            return None
        word_count += len(phrase[2])
        items.append(phrase)
    return items if word_count <= MAX_QUERY_WORDS else None


def nest(items):
    """The items with each pair of parentheses made one ("group", items), or None.

    Document 01, "The query language": parentheses may stand eight deep.
    """
    open_groups = [[]]
    for item in items:
        if item[0] == "(":
            if len(open_groups) > MAX_DEPTH:
                return None
            open_groups.append([])
        elif item[0] == ")":
            if len(open_groups) == 1:
                return None
            group = open_groups.pop()
            open_groups[-1].append(("group", group))
        else:
            open_groups[-1].append(item)
    return open_groups[0] if len(open_groups) == 1 else None


def write_out_and(items):
    """The items with an AND between every two operands side by side.

    Document 01, "The query language".
    """
    out = []
    for item in items:
        if out and is_operand(out[-1]) and is_operand(item):
            out.append(("AND", None))
        out.append(item)
    return out


def is_operand(item):
    """Whether an item is a phrase or a group rather than an operator.

    Document 01, "The query language".
    """
    return item[0] in ("phrase", "group")


def split_at(items, kind):
    """The stretches between the operators of one kind, at this level.

    Document 01, "The query language".
    """
    parts = [[]]
    for item in items:
        if item[0] == kind:
            parts.append([])
        else:
            parts[-1].append(item)
    return parts


def read_level(items):
    """The tree of the items of one level of parentheses, or None.

    Document 01, "The query language".
    """
    return read_binary(write_out_and(items), ["OR", "AND", "NOT"])


def read_binary(items, kinds):
    """The tree of items split at the loosest operator left, grouped from the left.

    Document 01, "The query language": NEAR, NOT, AND, OR, tightest first.
    """
    if not kinds:
        return read_chain(items)
    trees = [read_binary(part, kinds[1:]) for part in split_at(items, kinds[0])]
    if any(tree is None for tree in trees):
        return None
    result = trees[0]
    for tree in trees[1:]:
        result = (kinds[0].lower(), result, tree)
    return result


def read_chain(items):
    """The tree of a stretch that has no operator but NEAR, or None.

    Document 01, "The query language": NEAR takes no parentheses.
    """
    parts = split_at(items, "NEAR")
    if any(len(part) != 1 for part in parts):
        return None
    operands = [part[0] for part in parts]
    if len(operands) == 1 and operands[0][0] == "group":
        return read_level(operands[0][1])
    if any(operand[0] != "phrase" for operand in operands):
        return None
    if len(operands) == 1:
        return operands[0]
    distances = [item[1] for item in items if item[0] == "NEAR"]
    return "near", operands, distances


def read_query(query, names):
    """The tree of a query, or None when it is not in the language (number 2).

    Document 01, "The query language" and row "Query".
    """
    if len(query) > MAX_QUERY_BYTES:
        return None
    items = read_items(query, names)
    if items is None:
        return None
    nested = nest(items)
    if nested is None:
        return None
    return read_level(nested)


def canonical(tree):
    """One printed form of a tree in ASCII; "refused" for no tree.

    A phrase is [column set word word*], words in hex; a chain is
    (NEAR phrase ~ phrase ~5 phrase); the rest is (AND left right) and so on.
    Document 01, "The query language".
    """
    if tree is None:
        return "refused"
    if tree[0] == "phrase":
        marked = [word.hex() + ("*" if star else "") for word, star in tree[2]]
        return "[" + " ".join([str(tree[1])] + marked) + "]"
    if tree[0] == "near":
        printed = [canonical(tree[1][0])]
        for distance, phrase in zip(tree[2], tree[1][1:]):
            printed.append("~" if distance is None else "~" + str(distance))
            printed.append(canonical(phrase))
        return "(NEAR " + " ".join(printed) + ")"
    return "(" + " ".join([tree[0].upper(), canonical(tree[1]), canonical(tree[2])]) + ")"


# When a row satisfies a query


def word_places(live, word, star, column_set):
    """For each (docid, column) the set of positions at which a query word is.

    Document 01, "When a row satisfies a query".
    """
    if star:
        terms = [term for term in live if term.startswith(word)]
    else:
        terms = [word] if word in live else []
    places = {}
    for term in terms:
        for docid, found in live[term].items():
            for column, positions in found:
                if column_set >> column & 1:
                    places.setdefault((docid, column), set()).update(positions)
    return places


def phrase_starts(live, phrase):
    """For each (docid, column) the non-empty set of first positions of a phrase.

    Document 01, "When a row satisfies a query": consecutive, in one column.
    """
    _, column_set, phrase_words = phrase
    places = [word_places(live, word, star, column_set) for word, star in phrase_words]
    starts = {}
    for place, firsts in places[0].items():
        for offset in range(1, len(places)):
            positions = places[offset].get(place, set())
            firsts = {first for first in firsts if first + offset in positions}
        if firsts:
            starts[place] = firsts
    return starts


def near_some(starts, length, reached, reached_length, distance):
    """The starts of one operand that are near a reached start of its neighbour.

    Document 01, "When a row satisfies a query"; all are in one column.
    Strictly between an occurrence at `first` and one of the neighbour at
    `other` stand other - (first + length) positions when the neighbour comes
    after, first - (other + reached_length) when it comes before, and none when
    they share one (both differences are negative then).  Neither may pass the
    distance, so `other` is near exactly when it is from `low` to `high` and
    does not end where `first` does (document 02, section 3).
    """
    candidates = sorted(reached)
    near = set()
    for first in starts:
        low = first - distance - reached_length
        high = first + length + distance
        index = bisect_left(candidates, low)
        if candidates[index:index + 1] == [first + length - reached_length]:
            index += 1
        if index < len(candidates) and candidates[index] <= high:
            near.add(first)
    return near


def chain_holds(operands, distances):
    """Whether one occurrence of each operand can be chosen, neighbours near.

    Document 01, "When a row satisfies a query".  An operand is its set of
    starts in one column with its length; `reached` keeps the starts of an
    operand at which a choice for the operands up to it can end.
    """
    reached, reached_length = operands[0]
    for (starts, length), distance in zip(operands[1:], distances):
        if distance is None:
            distance = DEFAULT_DISTANCE
        reached = near_some(starts, length, reached, reached_length, distance)
        reached_length = length
    return bool(reached)


def chain_docids(live, phrases, distances):
    """The docids that satisfy a NEAR chain in at least one column.

    Document 01, "When a row satisfies a query".
    """
    starts = [phrase_starts(live, phrase) for phrase in phrases]
    lengths = [len(phrase[2]) for phrase in phrases]
    docids = set()
    for place in starts[0]:
        if all(place in places for places in starts):
            operands = [(places[place], n) for places, n in zip(starts, lengths)]
            if chain_holds(operands, distances):
                docids.add(place[0])
    return docids


def matching(live, tree):
    """The set of docids that satisfy a tree.

    Document 01, "When a row satisfies a query".
    """
    if tree[0] == "phrase":
        return {docid for docid, _ in phrase_starts(live, tree)}
    if tree[0] == "near":
        return chain_docids(live, tree[1], tree[2])
    left, right = matching(live, tree[1]), matching(live, tree[2])
    if tree[0] == "and":
        return left & right
    if tree[0] == "or":
        return left | right
    return left - right


def leaves_ok(leaves, leaf_ends):
    """Whether the lent leaves have the right shape.

    Document 01, "How things are lent", row "Leaves".
    """
    if len(leaf_ends) > MAX_LEAVES or len(leaves) > MAX_LEAF_BYTES:
        return False
    return cut(leaves, leaf_ends) is not None


def pairs_ok(levels, indexes, count):
    """Whether each of so many leaves has a level and an index, and no two have the same.

    Document 02, section 11.
    """
    if len(levels) != count or len(indexes) != count:
        return False
    return len(set(zip(levels, indexes))) == count


def newest_first(lent, levels, indexes):
    """What is lent with these levels and indexes, sorted by age.

    Document 02, section 11.
    """
    order = sorted(range(len(lent)), key=lambda place: age(levels[place], indexes[place]))
    return [lent[place] for place in order]


def search(names, name_ends, leaves, leaf_ends, levels, indexes, query, room_len):
    """The search's answer and its room, checks 1, 2, 3, 4 in that order.

    Document 01, "Numbers of the answers" and "When a row satisfies a query";
    document 02, section 9: docids rise as signed numbers; section 11: age
    comes from the pairs, and number 3 counts in the order lent.
    """
    empty = [0] * room_len
    if not names_ok(names, name_ends) or not leaves_ok(leaves, leaf_ends):
        return SHAPE, 0, empty
    if not pairs_ok(levels, indexes, len(leaf_ends)):
        return SHAPE, 0, empty
    name_list = cut(names, name_ends)
    tree = read_query(query, name_list)
    if tree is None:
        return QUERY, 0, empty
    parsed = []
    for place, leaf in enumerate(cut(leaves, leaf_ends)):
        terms = parse_leaf(leaf, len(name_list))
        if terms is None:
            return LEAF, place, empty
        parsed.append(terms)
    docids = sorted(matching(live_entries(newest_first(parsed, levels, indexes)), tree))
    if len(docids) > room_len:
        return ROOM, len(docids), empty
    return ACCEPTED, len(docids), docids + [0] * (room_len - len(docids))


# The verdict sheet


def verdict(first, last, names, name_ends, leaves, leaf_ends, levels, indexes, pass_query, fail_query, silent_query, pass_len, fail_len, silent_len):
    """The sheet's answer: its two numbers, the counts (pass, fail, silent, none) and the three rooms.

    Document 02, section 13: the run's own 1, then all refusals of the pass
    search, of the fail search, of the silent search, then 7. A docid outside
    the run stays in its room, and nothing else is said of it.
    """
    room_lens = pass_len, fail_len, silent_len
    refused = (0, 0, 0, 0), [[0] * room_len for room_len in room_lens]
    if last < first or last - first + 1 > MAX_RUN_ROWS:
        return SHAPE, 0, *refused
    lists, rooms = [], []
    for query, room_len in zip((pass_query, fail_query, silent_query), room_lens):
        number, beside, room = search(names, name_ends, leaves, leaf_ends, levels, indexes, query, room_len)
        if number != ACCEPTED:
            return number, beside, *refused
        lists.append(set(room[:beside]))
        rooms.append(room)
    run = range(first, last + 1)
    in_two = [docid for docid in run if sum(docid in listed for listed in lists) > 1]
    if in_two:
        return TWO_VERDICTS, min(in_two), *refused
    counts = [sum(docid in listed for docid in run) for listed in lists]
    in_none = sum(all(docid not in listed for listed in lists) for docid in run)
    return ACCEPTED, len(run), (*counts, in_none), rooms


# The merge


def merged_terms(by_age, keep):
    """What the merge of leaves holds, as rising (word, entries); leaves as `parse_leaf` gives them, newest first.

    Document 02, section 4: the full merge keeps live entries only. Section 6:
    `keep` keeps deletions too.
    """
    decides = {}
    for terms in reversed(by_age):
        for word, entries, _, _ in terms:
            for docid, found in entries:
                decides[word, docid] = found
    lists = {}
    for word, docid in sorted(decides):
        if decides[word, docid] or keep:
            lists.setdefault(word, []).append((docid, decides[word, docid]))
    return list(lists.items())


def merge(columns, leaves, leaf_ends, levels, indexes, room_len, keep=False):
    """The merge's answer: its two numbers, the level and the index of the merged leaf, and the room.

    Document 02, section 4: checks 1, 3, 4; a need above 65,536 bytes is 1,
    before 4. Section 11: the merged leaf has its newest input's pair; 0 and 0
    when refused or when nothing is written. Section 6: `keep`.
    """
    empty = bytes(room_len)
    if not columns_ok(columns) or not leaf_ends or not leaves_ok(leaves, leaf_ends):
        return SHAPE, 0, 0, 0, empty
    if not pairs_ok(levels, indexes, len(leaf_ends)):
        return SHAPE, 0, 0, 0, empty
    parsed = []
    for place, leaf in enumerate(cut(leaves, leaf_ends)):
        terms = parse_leaf(leaf, columns)
        if terms is None:
            return LEAF, place, 0, 0, empty
        parsed.append(terms)
    leaf = encode_leaf(merged_terms(newest_first(parsed, levels, indexes), keep))
    if len(leaf) > MAX_LEAF_BYTES:
        return SHAPE, 0, 0, 0, empty
    if len(leaf) > room_len:
        return ROOM, len(leaf), 0, 0, empty
    pairs = list(zip(levels, indexes))
    level, index = newest_first(pairs, levels, indexes)[0] if leaf else (0, 0)
    return ACCEPTED, len(leaf), level, index, leaf + bytes(room_len - len(leaf))


# The program


def one_search(query, leaf):
    """What the program writes; a None is a query or a leaf that can't be read.

    Document 01, "Marked examples", last paragraph. Its one leaf is lent with
    level 0 and index 0.
    """
    if leaf is None:
        return "no leaf\n"
    if len(leaf) > MAX_LEAF_BYTES:
        return "refused 1 0\n"
    if query is None or len(query) > MAX_QUERY_BYTES:
        return "refused 2 0\n"
    names = b"".join(PROGRAM_COLUMNS)
    name_ends = [4, 8, 15]
    number, beside, room = search(names, name_ends, leaf, [len(leaf)], [0], [0], query, PROGRAM_ROOM)
    if number != ACCEPTED:
        return "refused %d %d\n" % (number, beside)
    lines = ["docs %d" % beside] + [str(docid) for docid in room[:beside]]
    return "\n".join(lines) + "\n"
