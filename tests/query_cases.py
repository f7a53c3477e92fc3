"""Compared cases of the query language: each query's words, ties and operators in postfix order, or its refusal."""
import random

import reference
from case_writer import QUERY, joined

SEED = 20264
NAMES = [b"node", b"sent", b"outcome"]
BEGINS, CONTINUES, BARE, WRITTEN = range(4)
CHAIN, AND, OR, NOT = range(4)
CODES = {"and": AND, "or": OR, "not": NOT}


def phrase_words(phrase, tie, distance):
    _, columns, words = phrase
    for word, star in words:
        yield tie, distance, columns, 1 if star else 0, word
        tie, distance = CONTINUES, 0


def flat(tree):
    """A tree's words in order with their ties, and its operators in postfix order: one form for each tree."""
    if tree[0] == "phrase":
        return list(phrase_words(tree, BEGINS, 0)), [CHAIN]
    if tree[0] == "near":
        words = list(phrase_words(tree[1][0], BEGINS, 0))
        for distance, phrase in zip(tree[2], tree[1][1:]):
            tie = BARE if distance is None else WRITTEN
            words += phrase_words(phrase, tie, distance or 0)
        return words, [CHAIN]
    left, right = flat(tree[1]), flat(tree[2])
    return left[0] + right[0], left[1] + right[1] + [CODES[tree[0]]]


def ask(cases, query, names=NAMES):
    data, ends = joined(names)
    cases.ask(QUERY, first=data, first_ends=ends, short=query)
    tree = reference.read_query(query, names)
    if tree is None:
        cases.expect(reference.QUERY)
        return
    words, codes = flat(tree)
    said = [0, len(words)]
    for word in words:
        said += word
    cases.expect(*said, len(codes), *codes)


def limits(cases):
    for count in (1, 15, 16, 17):
        ask(cases, b" ".join([b"a"] * count))
        ask(cases, b'"' + b" ".join([b"a"] * count) + b'"')
        ask(cases, b" OR ".join([b"a"] * count))
        ask(cases, b" NEAR/3 ".join([b"a"] * count))
        ask(cases, b'"' + b" ".join([b"a"] * (count - 1)) + b'" b' if count > 1 else b"b")
    for depth in (1, 7, 8, 9):
        ask(cases, b"(" * depth + b"a" + b")" * depth)
        ask(cases, b"(b " * depth + b"a" + b")" * depth)
        ask(cases, b"((a) " + b"(" * (depth - 1) + b"c" + b")" * (depth - 1) + b")")
    for size in (511, 512, 513):
        ask(cases, b"a" + b" " * (size - 1))
        ask(cases, b" " * (size - 1) + b"a")
        ask(cases, b"(" * 8 + b"a" + b" " * (size - 17) + b")" * 8)
    for size in (63, 64, 65):
        for form in (b"%s", b"%s*", b"node:%s", b'"x %s"', b'"%s* x"', b"a NEAR %s"):
            ask(cases, form % (b"w" * size))


def open_points(cases):
    for query in (
        b"", b" ", b"()", b"( )", b'""', b'" "', b'"*"', b'"a', b'a"', b'"', b"(a", b"a)", b")a(", b"AND", b"OR", b"NOT", b"NEAR", b"NEAR/3",
        b"AND*", b"node:AND", b"near", b"Near", b"near/3", b"NEAR/", b"NEAR/1", b"a NEAR/ b", b"a NEAR/12345 b", b"a NEAR/0012 b",
        b"a NEAR/9999 b", b"a NEAR/0 b", b"a NEAR/x b", b"a NEAR/1x b", b"a NEAR/-1 b", b"a NEAR b", b"a NEAR b NEAR/2 c",
        b"node:", b":a", b"*", b"a*", b"a**", b"*a", b"a*b", b"node:a:b", b"node:a*", b"NODE:a", b"nOdE:A*", b"nod:a", b"node :a", b"node: a",
        b"sent:12", b"outcome:x", b"outcom:x", b"node:a NEAR node:b", b"node:a NEAR sent:b",
        b'a"b c"d', b'"a*b"', b'"a *b"', b'"a* *b*"', b'node:b"c"', b'node:"c"', b'"a"*', b'"a""b"', b'("a")', b'"a(b)c"', b'"AND"', b'"a NEAR b"',
        b"(a) NEAR b", b"a NEAR (b)", b"a NEAR b (c)", b"a NOT b c", b"a AND NOT b", b"NOT a", b"a NOT NOT b", b"a NOT (b NOT c)", b"a NOT b NOT c",
        b"a OR b AND c NOT d NEAR e", b"a b OR c d", b"a OR b c OR d", b"(a OR b) c", b"a (b OR c)", b"a AND", b"AND a", b"a OR OR b", b"a b AND", b"a\tb\nc\x0bd\x0ce\rf",
        b"a\x00b", b"a-b", b"a_b", b"a.b", b"-a", b"a,b", b"caf\xc3\xa9", b"\xff*", b"A B", b"sqlite fantastic OR impressive", b"a(b)c", b"a(b", b"((a)(b))",
        b'("a b" NEAR/4 c*) NOT node:d OR e',
    ):
        ask(cases, query)
    ask(cases, b"c15:a c0:b c16:c", [b"c%d" % i for i in range(16)])
    ask(cases, b"c15:a c0:b C7:c*", [b"c%d" % i for i in range(16)])
    ask(cases, b"a_1:a", [b"A_1"])


def bytes_alone(cases):
    for b in range(256):
        one = bytes([b])
        ask(cases, one)
        ask(cases, b"w" + one)
        ask(cases, b'"x ' + one + b' y"')
        ask(cases, b"a " + one + b" b")


def operators(cases):
    """Every operator in every place."""
    for op in (b"AND", b"OR", b"NOT", b"NEAR", b"NEAR/2"):
        for form in (b"%s a", b"a %s", b"a %s %s b", b"(%s) a", b"(a %s) b", b"a (%s b)", b"a %s b", b"a %s (b)", b"(a) %s b", b"(a) %s (b)", b'"a" %s "b"', b"(a %s b) %s c"):
            ask(cases, form.replace(b"%s", op))
        for other in (b"AND", b"OR", b"NOT", b"NEAR", b"NEAR/7"):
            ask(cases, b"a " + op + b" b " + other + b" c")
            ask(cases, b"a " + op + b" " + other + b" c")


def random_query(rng, depth=0):
    kind = rng.randrange(10)
    if kind < 4 or depth > 3:
        word = rng.choice((b"a", b"B", b"reply", b"t1", b"caf\xc3\xa9", b"no*", b"node:n1", b"OUTCOME:x*", b'"no reply"', b'"a* b"'))
        while rng.randrange(4) == 0:
            word += rng.choice((b" NEAR ", b" NEAR/0 ", b" NEAR/12 ")) + rng.choice((b"c", b'"d e"', b"sent:f", b"g*"))
        return word
    if kind < 5:
        return b"(" + random_query(rng, depth + 1) + b")"
    space = rng.choice((b" ", b"  ", b"\t"))
    op = rng.choice((b" AND ", b" OR ", b" NOT ", space, space))
    return random_query(rng, depth + 1) + op + random_query(rng, depth + 1)


def damaged(rng, query):
    data = bytearray(query)
    for _ in range(rng.randrange(1, 3)):
        at = rng.randrange(len(data) + 1)
        kind = rng.randrange(3)
        if kind == 0:
            data.insert(at, rng.choice(b'()"*: NAa/0-\x00'))
        elif kind == 1 and at < len(data):
            del data[at]
        elif at < len(data):
            data[at] = rng.choice(b'()"*: NOTaz09/_\x80')
    return bytes(data)


def generated(cases, rng):
    for _ in range(2200):
        query = random_query(rng)
        ask(cases, query)
        if rng.randrange(2):
            ask(cases, damaged(rng, query))


def make(cases):
    rng = random.Random(SEED)
    limits(cases)
    open_points(cases)
    bytes_alone(cases)
    operators(cases)
    generated(cases, rng)
