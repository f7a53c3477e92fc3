"""Compared cases of stored numbers, cutting, column names and words."""
import random

import reference
from case_writer import CUT, NAMES, READ, SIZE, WORD, WRITE, joined

SEED = 20261


def ask_read(cases, data, at):
    cases.ask(READ, at, short=data)
    answer = reference.read_varint(data, at)
    cases.expect(*(answer if answer else (None,)))


def ask_size(cases, v):
    cases.ask(SIZE, v)
    cases.expect(reference.varint_size(v))


def ask_write(cases, room, v):
    cases.ask(WRITE, v, short=room)
    kind, size, after = reference.write_varint(room, v)
    cases.expect({"bytes": 0, "noroom": 1}[kind], size, after)


def ask_cut(cases, data, ends, index):
    cases.ask(CUT, index, first=data, first_ends=ends)
    parts = reference.cut(data, ends)
    if parts is None:
        cases.expect(0)
    else:
        cases.expect(1, parts[index] if index < len(parts) else b"")


def ask_names(cases, data, ends, name):
    cases.ask(NAMES, first=data, first_ends=ends, short=name)
    good = 1 if reference.names_ok(data, ends) else 0
    parts = reference.cut(data, ends)
    if parts is None:
        cases.expect(good)
    else:
        cases.expect(good, reference.column_of(parts, name))


def ask_word(cases, text, at):
    cases.ask(WORD, at, short=text)
    found = reference.next_word(text, at)
    answer = ({"found": 0, "overlong": 1}[found[0]], found[1], found[2]) if found else (None,)
    cases.expect(*answer, bytes(reference.fold(text)))


def numbers(cases, rng):
    edges = [0, 1, 43, 127, 128, 129, 200815, 2**14 - 1, 2**14, 2**31 - 1, 2**31, 2**56 - 1, 2**56, 2**63 - 1, 2**63, 2**63 + 1, 2**64 - 1]
    for v in edges + [rng.randrange(2 ** rng.randrange(1, 65)) for _ in range(200)]:
        data = reference.encode_varint(v)
        ask_read(cases, data + bytes(rng.randrange(256) for _ in range(rng.randrange(3))), 0)
        ask_read(cases, data[:-1], 0)
        ask_size(cases, v)
        size = len(data)
        for room in (size - 1, size, size + 3):
            ask_write(cases, bytes(rng.randrange(256) for _ in range(max(room, 0))), v)
    ask_read(cases, bytes([128, 0]), 0)
    for front in (bytes([255] * 9), bytes([128] * 9), bytes([255] * 8 + [128])):
        for last in range(256):
            ask_read(cases, front + bytes([last]), 0)
        for rest in ((), (1, 1), (129, 0), (129, 1), (128, 1), (255, 127)):
            ask_read(cases, b"x" + front + bytes(rest), 1)
    for b in range(256):
        ask_read(cases, bytes([b]), 0)
        ask_read(cases, bytes([128, b]), 0)
    for _ in range(500):
        data = bytes(rng.choice((0, 1, 127, 128, 129, 255, rng.randrange(256))) for _ in range(rng.randrange(12)))
        ask_read(cases, data, rng.choice((0, 1, 5, 12, 2**40)))


def cuts(cases, rng):
    ask_cut(cases, b"", [], 0)
    ask_cut(cases, b"a", [], 0)
    ask_cut(cases, b"", [0], 0)
    for _ in range(600):
        data = bytes(rng.randrange(256) for _ in range(rng.randrange(12)))
        ends = sorted(rng.randrange(len(data) + 1) for _ in range(rng.randrange(6)))
        if ends and rng.randrange(4):
            ends[-1] = len(data)
        if ends and not rng.randrange(4):
            ends[rng.randrange(len(ends))] = rng.choice((0, len(data) + 1, 2**32 - 1))
        ask_cut(cases, data, ends, rng.randrange(7))


def names(cases, rng):
    plain = [b"node", b"sent", b"outcome"]
    for name in (b"node", b"NODE", b"sEnT", b"outcome", b"", b"outcom", b"no de"):
        ask_names(cases, *joined(plain), name)
    for count in (0, 1, 16, 17):
        ask_names(cases, *joined([b"c%d" % i for i in range(count)]), b"C3")
    for size in (0, 1, 32, 33):
        ask_names(cases, *joined([b"a" * size, b"b"]), b"b")
    ask_names(cases, *joined([b"Node", b"nODE"]), b"node")
    for b in range(256):
        ask_names(cases, *joined([bytes([b]), b"zz"]), b"ZZ")
    ask_names(cases, b"ab", [2, 1], b"a")
    ask_names(cases, b"ab", [1, 3], b"a")
    ask_names(cases, b"ab", [1], b"a")


def words(cases, rng):
    ask_word(cases, b"Right now, they're very frustrated", 0)
    for size in (63, 64, 65, 200):
        ask_word(cases, b" " + b"q" * size + b" x", 0)
    for b in range(256):
        ask_word(cases, b"." + bytes([b]) + b"Z", 0)
    for _ in range(500):
        text = bytes(rng.choice(b"aZ09_-. \x00\x7f\x80\xff") for _ in range(rng.randrange(24)))
        ask_word(cases, text, rng.choice((0, 1, 3, 9, 23, 24, 2**50)))


def make(cases):
    rng = random.Random(SEED)
    numbers(cases, rng)
    cuts(cases, rng)
    names(cases, rng)
    words(cases, rng)
