"""Export folders for the tests: leaves and the manifest.txt that names them, version 1."""
import hashlib
import os

import header
from fts4box import joined

BENCH = ["node", "sent", "outcome"]


def written(box, docid, texts):
    """The leaf that fts4_write makes of one row."""
    number, count, room = box.write(docid, *joined(texts), header.NUMBERS["FTS4_WRITE_ROOM"])
    assert number == 0, number
    return room[:count]


def file_name(names, leaves, level, index):
    """The one-search program reads leaf0.bin, and only that, with the bench's columns."""
    return "leaf0.bin" if len(leaves) == 1 and names == BENCH else "level-%d-index-%d.leaf" % (level, index)


def manifest(names, leaves):
    """The manifest's lines; leaves are (level, index, bytes), in any order."""
    lines = [
        "fts4box export 1", "database bench.db", "table probes", "sqlite 3.40.1", "time 2026-11-16T01:55:00Z", "prepared no",
        "columns %d" % len(names), *("column " + name for name in names), "leaves %d" % len(leaves),
    ]
    for level, index, data in leaves:
        lines += ["file " + file_name(names, leaves, level, index), "level %d" % level, "index %d" % index, "start 0", "size %d" % len(data)]
        lines.append("sha256 " + hashlib.sha256(data).hexdigest())
    return lines + ["end " + hashlib.sha256(ended(lines)).hexdigest()]


def ended(lines):
    """Lines as a file has them."""
    return "".join(line + "\n" for line in lines).encode()


def put(folder, name, data):
    with open(os.path.join(folder, name), "wb") as f:
        f.write(data)


def make(folder, names, leaves):
    """Writes an export folder; the manifest's lines."""
    for level, index, data in leaves:
        put(folder, file_name(names, leaves, level, index), data)
    lines = manifest(names, leaves)
    put(folder, "manifest.txt", ended(lines))
    return lines
