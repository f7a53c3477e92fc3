"""Generated docids, rows of the columns node, sent and outcome, and queries over their words."""
LEAST_DOCID, TOP_DOCID = -2**63, 2**63 - 1
# both sides of 0, and both ends of what a docid can be (document 02, section 9)
EDGES = (LEAST_DOCID, LEAST_DOCID + 1, -1, 0, 1, TOP_DOCID - 1, TOP_DOCID)
NODES = [b"n%d" % i for i in range(1, 13)]
OUTCOMES = [b"reply", b"reply late", b"no reply, timeout", b"reply reply", b"late reply no timeout", b"No_Reply", b""]
WORDS = [b"reply", b"late", b"no", b"timeout", b"re", b"rep", b"nor", b"caf\xc3\xa9"]
COLUMNS = [b"node", b"sent", b"outcome", b"Outcome", b"NODE"]
FEW_WORDS = [b"no", b"reply", b"rep"]
NEARS = [b" NEAR ", b" NEAR/0 ", b" NEAR/1 ", b" NEAR/2 ", b" NEAR/3 ", b" NEAR/12 "]
OPERATORS = [b" AND ", b" OR ", b" NOT ", b" ", b"  ", b"\t"]
# what many rows satisfy
BROAD = [b"reply", b"late", b"no", b"timeout", b"re*", b"n1*", b"t1* OR t2*", b"node:n*", b"outcome:no*", b"late OR timeout"]
BENCH_SHEET = [b"reply NOT timeout NOT late", b"late NOT timeout", b"timeout"]


def any_docid(rng):
    """A docid of any size and either sign."""
    size = 2 ** rng.randrange(1, 64)
    return rng.choice(EDGES) if rng.randrange(3) == 0 else rng.randrange(-size, size)


def some_docid(rng, near):
    """A docid from `-near` up to `near` mostly, so that one comes again."""
    return rng.randrange(-near, near) if rng.randrange(4) else any_docid(rng)


def some_outcome(rng):
    """A probe's outcome, a text of few words, or a longer one in which words stand at many distances."""
    if rng.randrange(6) == 0:
        return b" ".join(rng.choice(FEW_WORDS) for _ in range(rng.randrange(1, 7)))
    if rng.randrange(3) == 0:
        return rng.choice((b" ", b", ", b"-")).join(rng.choice(WORDS) for _ in range(rng.randrange(14)))
    return rng.choice(OUTCOMES)


def some_row(rng):
    return [rng.choice(NODES), b"t%d" % rng.randrange(60), some_outcome(rng)]


def some_pool(rng):
    """The words to choose from: mostly those of the outcomes, since only words of one column can be near."""
    return WORDS if rng.randrange(4) else NODES + [b"t%d" % rng.randrange(60)]


def some_word(rng, pool):
    """A word of the rows, or the front of one with a star; seldom one that no row has."""
    word = rng.choice(pool)
    kind = rng.randrange(16)
    if kind == 0:
        return b"absent"
    if kind == 1:
        return word.upper() if word.isascii() else word
    return word[:rng.randrange(1, 4)] + b"*" if kind < 5 and word.isascii() else word


def some_operand(rng, pool):
    """A word, a word in a column, or a phrase."""
    kind = rng.randrange(6)
    if kind == 0:
        return rng.choice(COLUMNS) + b":" + some_word(rng, pool)
    if kind == 1:
        return b'"' + b" ".join(some_word(rng, pool) for _ in range(rng.randrange(1, 4))) + b'"'
    return some_word(rng, pool)


def some_chain(rng):
    pool = some_pool(rng)
    chain = some_operand(rng, pool)
    while rng.randrange(3) == 0:
        chain += rng.choice(NEARS) + some_operand(rng, pool)
    return chain


def some_alike(rng):
    """A NEAR chain over few words whose neighbours may end at one position, or overlap and end apart."""
    words = [rng.choice(FEW_WORDS) for _ in range(rng.randrange(1, 4))]
    operands = [words]
    while len(operands) < 2 or rng.randrange(2):
        kind = rng.randrange(5)
        if kind == 0:
            words = words[-1:]
        elif kind == 1:
            words = [rng.choice(FEW_WORDS)] + words[-2:]
        elif kind == 2:
            words = words[-2:] + [rng.choice(FEW_WORDS)]
        elif kind == 3:
            words = words[:-1] + [words[-1].rstrip(b"*")[:rng.randrange(1, 4)] + b"*"]
        operands.append(words)
    shown = [words[0] if len(words) == 1 else b'"' + b" ".join(words) + b'"' for words in operands]
    chain = shown[0]
    for operand in shown[1:]:
        chain += rng.choice(NEARS) + operand
    return chain


def some_query(rng, depth=2):
    """A query of the language; seldom one with more than 16 words."""
    kind = rng.randrange(24)
    if kind == 0:
        return some_tall(rng)
    if depth == 0 or kind < 9:
        return some_chain(rng)
    if kind < 12:
        return b"(" + some_query(rng, depth - 1) + b")"
    return some_query(rng, depth - 1) + rng.choice(OPERATORS) + some_side(rng, depth - 1)


def some_side(rng, depth):
    side = some_query(rng, depth)
    return b"(" + side + b")" if rng.randrange(2) else side


def some_tall(rng):
    """Up to 16 words, grouped from one side or the other, up to 8 deep."""
    pool = some_pool(rng)
    words = [some_word(rng, pool) for _ in range(rng.randrange(2, 17))]
    if rng.randrange(4) == 0:
        return rng.choice(NEARS).join(words)
    query, depth = words[0], 0
    for word in words[1:]:
        operator = rng.choice(OPERATORS)
        if depth < 8 and rng.randrange(2):
            query, depth = b"(" + query + b")", depth + 1
        query = query + operator + word if rng.randrange(3) else word + operator + query
    return query


def some_sheet(rng):
    """Three queries for a sheet: three times in four such that no row satisfies two of them."""
    one, other, third = (some_chain(rng) if rng.randrange(6) == 0 else rng.choice(BROAD) for _ in range(3))
    apart = [b"(%s) NOT (%s)" % (one, other), b"(%s) NOT (%s)" % (other, one), b"(%s) AND (%s)" % (one, other)]
    return list(rng.choice(([one, other, third], apart, apart[::-1], BENCH_SHEET)))
