"""The eight calls of the static library, each buffer against a guard page: one byte read or written outside is a crash.

Rooms and numbers are filled with other values beforehand. Each call answers in the second program's form.
"""
import ctypes
import mmap

import paths  # noqa: F401
import fts4box

PAGE = mmap.PAGESIZE
FILL = 0xA5
PROT_NONE, PROT_BOTH, PRIVATE_ANONYMOUS = 0, 3, 0x22
MAP_FAILED = ctypes.c_void_p(-1).value
MOST_INPUT, MOST_ROOM, NUMBER_SIZE = 80000, 1 << 20, 8

libc = ctypes.CDLL(None, use_errno=True)
libc.mmap.restype = ctypes.c_void_p
libc.mmap.argtypes = [ctypes.c_void_p, ctypes.c_size_t, ctypes.c_int, ctypes.c_int, ctypes.c_int, ctypes.c_long]
libc.mprotect.argtypes = [ctypes.c_void_p, ctypes.c_size_t, ctypes.c_int]


class Arena:
    """Memory between two guard pages, used again for each call."""

    def __init__(self, most):
        self.size = (most + PAGE - 1) // PAGE * PAGE
        base = libc.mmap(None, self.size + 2 * PAGE, PROT_BOTH, PRIVATE_ANONYMOUS, -1, 0)
        if base == MAP_FAILED:
            raise OSError(ctypes.get_errno(), "mmap")
        for guard in (base, base + PAGE + self.size):
            if libc.mprotect(guard, PAGE, PROT_NONE) != 0:
                raise OSError(ctypes.get_errno(), "mprotect")
        self.start = base + PAGE

    def place(self, data, at_end):
        """The address of these bytes, ended or begun by a guard page."""
        assert len(data) <= self.size
        address = self.start + self.size - len(data) if at_end else self.start
        ctypes.memmove(address, data, len(data))
        return address


class Box:
    """`at_end` says at which end of a buffer the guard page stands, `null` whether an empty input is passed as NULL."""

    def __init__(self, archive=fts4box.ARCHIVE):
        self.library = fts4box.load(archive)
        self.inputs = [Arena(MOST_INPUT) for _ in range(9)]
        self.rooms = [Arena(MOST_ROOM) for _ in range(3)]
        self.numbers = [Arena(NUMBER_SIZE) for _ in range(5)]
        self.at_end = True
        self.null = False

    def lend(self, *parts):
        """Addresses and lengths of inputs, as a call takes them: bytes, or lists of 32-bit numbers."""
        out = []
        for arena, data in zip(self.inputs, parts):
            raw = b"".join(number.to_bytes(4, "little") for number in data) if isinstance(data, list) else data
            out += [None if self.null and not data else arena.place(raw, self.at_end), len(data)]
        return out

    def lend_numbers(self, *sizes):
        return [arena.place(bytes([FILL]) * size, self.at_end) for arena, size in zip(self.numbers, sizes)]

    def lend_rooms(self, *sizes):
        return [None if self.null and size == 0 else arena.place(bytes([FILL]) * size, self.at_end) for arena, size in zip(self.rooms, sizes)]

    def check(self, leaf, columns):
        (second,) = self.lend_numbers(8)
        number = self.library.fts4_check(*self.lend(leaf), columns, second)
        return number, number_at(second, 8)

    def lookup(self, leaf, columns, word):
        second, start, read = self.lend_numbers(8, 8, 8)
        leaf_at, leaf_len, word_at, word_len = self.lend(leaf, word)
        number = self.library.fts4_lookup(leaf_at, leaf_len, columns, word_at, word_len, second, start, read)
        return number, number_at(second, 8), number_at(start, 8), number_at(read, 8)

    def deciding(self, newer, older, columns, word, docid):
        second, which, start = self.lend_numbers(8, 4, 8)
        a, b, c, d, word_at, word_len = self.lend(newer, older, word)
        number = self.library.fts4_deciding(a, b, c, d, columns, word_at, word_len, docid, second, which, start)
        return number, number_at(second, 8), number_at(which, 4), number_at(start, 8)

    def write(self, docid, texts, ends, room_len):
        (second,) = self.lend_numbers(8)
        (room,) = self.lend_rooms(room_len)
        number = self.library.fts4_write(docid, *self.lend(texts, ends), room, room_len, second)
        return number, number_at(second, 8), ctypes.string_at(room, room_len) if room_len else b""

    def search(self, names, name_ends, leaves, leaf_ends, levels, indexes, query, room_len):
        (second,) = self.lend_numbers(8)
        (room,) = self.lend_rooms(8 * room_len)
        number = self.library.fts4_search(*self.lend(names, name_ends, leaves, leaf_ends, levels, indexes, query), room, room_len, second)
        return number, number_at(second, 8), docids_at(room, room_len)

    def verdict(self, first, last, names, name_ends, leaves, leaf_ends, levels, indexes, pass_query, fail_query, silent_query, *room_lens):
        second, *counts = self.lend_numbers(8, 8, 8, 8, 8)
        rooms = self.lend_rooms(*(8 * room_len for room_len in room_lens))
        inputs = self.lend(names, name_ends, leaves, leaf_ends, levels, indexes, pass_query, fail_query, silent_query)
        lent_rooms = [part for room in zip(rooms, room_lens) for part in room]
        number = self.library.fts4_verdict(first, last, *inputs, *lent_rooms, second, *counts)
        return number, number_at(second, 8, signed=True), tuple(number_at(count, 8) for count in counts), [docids_at(*room) for room in zip(rooms, room_lens)]

    def merge(self, *asked):
        return self.merged_by(self.library.fts4_merge, *asked)

    def merge_keeping(self, *asked):
        return self.merged_by(self.library.fts4_merge_keeping, *asked)

    def merged_by(self, call, columns, leaves, leaf_ends, levels, indexes, room_len):
        second, level, index = self.lend_numbers(8, 4, 4)
        (room,) = self.lend_rooms(room_len)
        number = call(columns, *self.lend(leaves, leaf_ends, levels, indexes), room, room_len, second, level, index)
        return number, number_at(second, 8), number_at(level, 4), number_at(index, 4), ctypes.string_at(room, room_len) if room_len else b""


def number_at(address, size, signed=False):
    return int.from_bytes(ctypes.string_at(address, size), "little", signed=signed)


def docids_at(address, count):
    return list((ctypes.c_int64 * count).from_address(address)) if count else []
