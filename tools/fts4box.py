"""The eight calls of libfts4box from Python, with ctypes: the static library is made a shared one in a temporary folder.

`search`, `verdict`, `merge` and `merge_keeping` are the plain way to ask; the tests place their own buffers.
"""
import ctypes
import os
import subprocess
import tempfile

from leaf_format import MAX_U32

ROOT = os.path.dirname(os.path.dirname(os.path.abspath(__file__)))
ARCHIVE = os.path.join(ROOT, "target", "staticlib", "libfts4box.a")
U32, U64, I64, SIZE, PTR = ctypes.c_uint32, ctypes.c_uint64, ctypes.c_int64, ctypes.c_size_t, ctypes.c_void_p
CALLS = {
    "fts4_check": [PTR, SIZE, U32, PTR],
    "fts4_lookup": [PTR, SIZE, U32, PTR, SIZE, PTR, PTR, PTR],
    "fts4_deciding": [PTR, SIZE, PTR, SIZE, U32, PTR, SIZE, I64, PTR, PTR, PTR],
    "fts4_write": [I64, PTR, SIZE, PTR, SIZE, PTR, SIZE, PTR],
    "fts4_search": [PTR, SIZE, PTR, SIZE, PTR, SIZE, PTR, SIZE, PTR, SIZE, PTR, SIZE, PTR, SIZE, PTR, SIZE, PTR],
    "fts4_verdict": [
        I64, I64, PTR, SIZE, PTR, SIZE, PTR, SIZE, PTR, SIZE, PTR, SIZE, PTR, SIZE, PTR, SIZE, PTR, SIZE, PTR, SIZE, PTR, SIZE, PTR, SIZE, PTR, SIZE,
        PTR, PTR, PTR, PTR, PTR,
    ],
    "fts4_merge": [U32, PTR, SIZE, PTR, SIZE, PTR, SIZE, PTR, SIZE, PTR, SIZE, PTR, PTR, PTR],
    "fts4_merge_keeping": [U32, PTR, SIZE, PTR, SIZE, PTR, SIZE, PTR, SIZE, PTR, SIZE, PTR, PTR, PTR],
}
ACCEPTED = 0
LEAST_DOCID, LARGEST_DOCID = -2**63, 2**63 - 1
# docids that any search has room in: an entry with a position takes at least 3 of the 65,536 bytes
SEARCH_ROOM = 65536 // 3
# bytes that any merge has room in: one that needs more is refused by its shape
MERGE_ROOM = 65536


class NoLibrary(Exception):
    """Why the library can't be had, and what to do about it."""


def made_shared(archive, shared):
    if not os.path.exists(archive):
        raise NoLibrary("%s is missing: build it with `bash tools/build.sh` (or `bash demo`)" % archive)
    command = ["cc", "-shared", "-o", shared, "-Wl,--whole-archive", archive, "-Wl,--no-whole-archive"]
    try:
        done = subprocess.run(command, stdout=subprocess.PIPE, stderr=subprocess.STDOUT, text=True)
    except OSError as error:
        raise NoLibrary("a C compiler, `cc`, is needed to link the library: %s" % error)
    if done.returncode != 0:
        raise NoLibrary("%s can't be linked: build it anew with `bash tools/build.sh`\n%s" % (archive, done.stdout))


def load(archive=ARCHIVE):
    """The library with its calls declared as include/fts4box.h has them."""
    with tempfile.TemporaryDirectory() as folder:
        shared = os.path.join(folder, "libfts4box.so")
        made_shared(archive, shared)
        library = ctypes.CDLL(shared)
    # arguments go by position and an archive has no version: one before 1.8 is told by the call that it lacks
    if any(not hasattr(library, name) for name in CALLS):
        raise NoLibrary("%s is of another version than these tools: build it anew with `bash tools/build.sh`" % archive)
    for name, arguments in CALLS.items():
        call = getattr(library, name)
        call.argtypes, call.restype = arguments, U32
    return library


def as_bytes(value):
    """Text has no bytes until somebody chooses them: it is not taken."""
    if not isinstance(value, (bytes, bytearray)):
        raise TypeError("bytes are wanted, and %r is %s" % (value, type(value).__name__))
    return bytes(value)


def joined(parts):
    """Byte strings as they are lent: one slice and its ends."""
    ends, total = [], 0
    for part in map(as_bytes, parts):
        total += len(part)
        ends.append(total)
    return b"".join(parts), ends


def as_number(value, least, most):
    """ctypes would take any number, and cut it to the bits that it has."""
    if type(value) is not int or not least <= value <= most:
        raise TypeError("a number from %d to %d is wanted, and %r is none" % (least, most, value))
    return value


def as_u32(value):
    return as_number(value, 0, MAX_U32)


def as_docid(value):
    return as_number(value, LEAST_DOCID, LARGEST_DOCID)


def lent(parts):
    """The four arguments for byte strings cut by ends."""
    data, ends = joined(parts)
    return data, len(data), *lent_numbers(ends)


def lent_numbers(numbers):
    """The two arguments for a list of 32-bit numbers."""
    return (U32 * len(numbers))(*map(as_u32, numbers)), len(numbers)


def search(library, names, leaves, levels, indexes, query, room_len=SEARCH_ROOM):
    """The answer's number, the number beside it, and the docids listed. Names and leaves are lists of bytes, levels and indexes have a number for each leaf;
    the query is bytes."""
    room, second = (I64 * room_len)(), U64()
    text = as_bytes(query)
    number = library.fts4_search(
        *lent(names), *lent(leaves), *lent_numbers(levels), *lent_numbers(indexes), text, len(text), room, room_len, ctypes.byref(second)
    )
    return number, second.value, list(room[:second.value]) if number == ACCEPTED else []


def verdict(library, first, last, names, leaves, levels, indexes, pass_query, fail_query, silent_query, room_len=SEARCH_ROOM):
    """The answer's number, the number beside it, the counts (pass, fail, silent, none), and for each of the three lists its docids in the run. What is lent
    is as for a search; the three rooms have the same length."""
    queries, rooms = [as_bytes(query) for query in (pass_query, fail_query, silent_query)], [(I64 * room_len)() for _ in range(3)]
    second, counts = I64(), [U64() for _ in range(4)]
    slices = [part for query in queries for part in (query, len(query))] + [part for room in rooms for part in (room, room_len)]
    number = library.fts4_verdict(
        as_docid(first), as_docid(last), *lent(names), *lent(leaves), *lent_numbers(levels), *lent_numbers(indexes), *slices, ctypes.byref(second),
        *map(ctypes.byref, counts)
    )
    told = tuple(count.value for count in counts)
    # a list stands before the zeros of its room, so that these come too late, also where docid 0 is in the run
    in_run = [[docid for docid in room if first <= docid <= last][:count] for room, count in zip(rooms, told)]
    return number, second.value, told, in_run


def merge(library, columns, leaves, levels, indexes, room_len=MERGE_ROOM):
    """The answer's number, the number beside it, the level and the index of the merged leaf, and the leaf; no bytes are no leaf. What is lent is as for a search,
    with a column count instead of the names."""
    return merged_by(library.fts4_merge, columns, leaves, levels, indexes, room_len)


def merge_keeping(library, columns, leaves, levels, indexes, room_len=MERGE_ROOM):
    """The same for the merge that keeps deletions."""
    return merged_by(library.fts4_merge_keeping, columns, leaves, levels, indexes, room_len)


def merged_by(call, columns, leaves, levels, indexes, room_len):
    room, second, level, index = (ctypes.c_uint8 * room_len)(), U64(), U32(), U32()
    number = call(
        as_u32(columns), *lent(leaves), *lent_numbers(levels), *lent_numbers(indexes), room, room_len, ctypes.byref(second), ctypes.byref(level),
        ctypes.byref(index)
    )
    return number, second.value, level.value, index.value, bytes(room[:second.value]) if number == ACCEPTED else b""
