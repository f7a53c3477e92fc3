"""An export in a folder: the leaves of an FTS4 table and `manifest.txt`, which says what they are.

The manifest has one fact to a line, a key, a space and a value, in this order, so that a C program can read it:

    fts4box export 1        the format and its version
    database bench.db       the database's file name      (in names, `%` and bytes outside 32 to 126 are written %XX)
    table probes
    sqlite 3.40.1           SQLite's version
    time 2026-11-16T08:00:00Z
    prepared no             what was done before: optimize or rebuild in a copy of the database, merge of all leaves, or optimize+merge, rebuild+merge
    columns 3               then each column's name
    column node
    leaves 2                then for each leaf, in any order:
    file level-0-index-1.leaf
    level 0                 its age: a lower level is newer, and on a level a higher index; no two have the same
    index 1
    start 0                 its start block: 0, since a leaf stands alone
    size 1234
    sha256 ..
    end ..                  the SHA-256 of all lines before this one

A folder is written whole or not at all, and is read only if all of it is as the manifest says.
"""
import collections
import contextlib
import hashlib
import itertools
import os
import re
import shutil
import tempfile
import urllib.parse

import leaf_format

MANIFEST = "manifest.txt"
FORMAT = "fts4box export"
VERSION = "1"
PREPARED = ("no", "optimize", "rebuild")
# all leaves were merged into one (tools/merge.py): what was done to a copy of the database before stays told
MERGE = "merge"
MERGED = {"no": MERGE, "optimize": "optimize+" + MERGE, "rebuild": "rebuild+" + MERGE}
MAX_MANIFEST_BYTES = 65536
# document 01's program reads this file, and takes it as a leaf with these columns: no other leaf may have its name
PROGRAM_FILE, PROGRAM_COLUMNS = "leaf0.bin", ["node", "sent", "outcome"]
PLAIN = "".join(chr(b) for b in range(32, 127) if chr(b) != "%")
NUMBER = re.compile(r"0|[1-9][0-9]{0,18}\Z", re.ASCII)
HASH = re.compile(r"[0-9a-f]{64}\Z", re.ASCII)

Leaf = collections.namedtuple("Leaf", "level index start data")
Export = collections.namedtuple("Export", "database table sqlite time prepared names leaves")


class Refused(Exception):
    """What stands in the way, and what to do about it."""


def quoted(text):
    """A name on one line of the manifest."""
    return urllib.parse.quote(text, safe=PLAIN, errors="surrogateescape")


def unquoted(text):
    return urllib.parse.unquote(text, errors="surrogateescape")


def with_merge(prepared):
    """What a manifest says of an export whose leaves are merged; a merge of a merge is one."""
    return MERGED.get(prepared, prepared)


def digest(data):
    return hashlib.sha256(data).hexdigest()


def file_name(export, leaf):
    alone = len(export.leaves) == 1 and [name.lower() for name in export.names] == PROGRAM_COLUMNS
    return PROGRAM_FILE if alone else "level-%d-index-%d.leaf" % (leaf.level, leaf.index)


def manifest(export):
    lines = [(FORMAT, VERSION), ("database", quoted(export.database)), ("table", quoted(export.table)), ("sqlite", export.sqlite)]
    lines += [("time", export.time), ("prepared", export.prepared), ("columns", len(export.names))]
    lines += [("column", name) for name in export.names] + [("leaves", len(export.leaves))]
    for leaf in export.leaves:
        lines += [("file", file_name(export, leaf)), ("level", leaf.level), ("index", leaf.index), ("start", leaf.start)]
        lines += [("size", len(leaf.data)), ("sha256", digest(leaf.data))]
    text = "".join("%s %s\n" % line for line in lines).encode("ascii")
    return text + b"end %s\n" % digest(text).encode("ascii")


# Writing


def write_file(path, data):
    with open(path, "xb") as f:
        f.write(data)
        f.flush()
        os.fsync(f.fileno())


def is_export(folder):
    """Whether a folder is an export, sound or not, or empty: what may be replaced."""
    if os.path.islink(folder) or not os.path.isdir(folder):
        return False
    names = os.listdir(folder)
    if not names:
        return True
    with contextlib.suppress(OSError):
        with open(os.path.join(folder, MANIFEST), "rb") as f:
            return f.read(len(FORMAT)) == FORMAT.encode("ascii")
    return False


def check_target(folder, replace):
    """Refuses what may not be written to."""
    if not os.path.lexists(folder):
        return
    if not replace:
        raise Refused("%s is there already: name another folder, or give --replace" % folder)
    if not is_export(folder):
        raise Refused("%s is no export: it is not replaced; name another folder" % folder)


def beside(folder, what):
    """A new folder beside another, on the same disk."""
    return tempfile.mkdtemp(prefix=".%s." % os.path.basename(folder), suffix="." + what, dir=os.path.dirname(folder))


def write(folder, export, replace=False):
    """Everything goes to a new folder beside the target, which is then renamed; an old one goes only then."""
    folder = os.path.abspath(folder)
    check_target(folder, replace)
    made = beside(folder, "new")
    try:
        for leaf in export.leaves:
            write_file(os.path.join(made, file_name(export, leaf)), leaf.data)
        write_file(os.path.join(made, MANIFEST), manifest(export))
        os.chmod(made, 0o777 & ~current_umask())
        put_in_place(made, folder)
    except BaseException:
        shutil.rmtree(made, ignore_errors=True)
        raise


def put_in_place(made, folder):
    """Between the two renames there is no folder; there is never a mix."""
    if not os.path.lexists(folder):
        os.rename(made, folder)
        return
    old = beside(folder, "old")
    os.rename(folder, old)
    try:
        os.rename(made, folder)
    except OSError:
        os.rename(old, folder)
        raise
    shutil.rmtree(old, ignore_errors=True)


def set_aside(folder, time):
    """Takes an export away from its place, so that nobody reads it as a newer one; gives its new name."""
    folder = os.path.abspath(folder)
    aside = "%s.until-%s" % (folder, time.replace(":", "").replace("-", ""))
    names = itertools.chain([aside], ("%s-%d" % (aside, number) for number in itertools.count(2)))
    free = next(name for name in names if not os.path.lexists(name))
    os.rename(folder, free)
    return free


def current_umask():
    mask = os.umask(0)
    os.umask(mask)
    return mask


# Reading


class Lines:
    """The facts of a manifest, one after the other; its last line holds the digest of all others."""

    def __init__(self, data):
        self.digest = digest(data[:data.rfind(b"\n", 0, -1) + 1])
        try:
            text = data.decode("ascii")
        except UnicodeDecodeError:
            raise Refused("the manifest has bytes that are no ASCII")
        if not text.endswith("\n"):
            raise Refused("the manifest is cut short: its last line is not whole")
        self.lines, self.at = text[:-1].split("\n"), 0

    def line(self):
        if self.at == len(self.lines):
            raise Refused("the manifest is cut short")
        self.at += 1
        return self.lines[self.at - 1]

    def value(self, key):
        line = self.line()
        if not line.startswith(key + " "):
            raise Refused("line %d of the manifest is %r, where `%s` should stand: export again" % (self.at, line[:80], key))
        return line[len(key) + 1:]

    def number(self, key, most):
        value = self.value(key)
        if not NUMBER.fullmatch(value) or int(value) > most:
            raise Refused("line %d of the manifest: `%s` is no number up to %d: export again" % (self.at, key, most))
        return int(value)

    def end(self):
        if self.value("end") != self.digest or self.at != len(self.lines):
            raise Refused("the manifest was changed after it was written: export again")


def read_names(lines):
    names = [lines.value("column") for _ in range(lines.number("columns", leaf_format.MAX_COLUMNS))]
    if not names or not all(leaf_format.name_ok(name.encode("ascii")) for name in names) or len({name.lower() for name in names}) != len(names):
        raise Refused("the manifest's columns are no columns that the box takes")
    return names


def read_file(path, most):
    with open(path, "rb") as f:
        return f.read(most + 1)


def read_one(folder, lines):
    """The name of one leaf's file, and the leaf."""
    name = lines.value("file")
    level, index = lines.number("level", leaf_format.MAX_U32), lines.number("index", leaf_format.MAX_U32)
    leaf = Leaf(level, index, lines.number("start", leaf_format.MAX_NUMBER), b"")
    size, wanted = lines.number("size", leaf_format.MAX_LEAF_BYTES), lines.value("sha256")
    if "/" in name or name.startswith(".") or not HASH.fullmatch(wanted):
        raise Refused("the manifest's facts on the file %r can't be" % name)
    try:
        data = read_file(os.path.join(folder, name), size)
    except OSError as error:
        raise Refused("the file %s of the export can't be read: %s" % (name, error.strerror))
    if len(data) != size:
        raise Refused("the file %s of the export has not %d bytes, as its manifest says: export again" % (name, size))
    if digest(data) != wanted:
        raise Refused("the file %s of the export is not the one that its manifest names: export again" % name)
    return name, leaf._replace(data=data)


def read(folder):
    """The export in a folder; refused unless the folder is what its manifest says, and has nothing else in it."""
    try:
        lines = Lines(read_file(os.path.join(folder, MANIFEST), MAX_MANIFEST_BYTES))
        present = set(os.listdir(folder))
    except OSError as error:
        raise Refused("there is no export in %s: %s can't be read: %s" % (folder, MANIFEST, error.strerror))
    if lines.value(FORMAT) != VERSION:
        raise Refused("the export in %s is of another version: export again" % folder)
    facts = [unquoted(lines.value("database")), unquoted(lines.value("table")), lines.value("sqlite"), lines.value("time"), lines.value("prepared")]
    if facts[-1] not in (*PREPARED, *MERGED.values()):
        raise Refused("the manifest says `prepared %s`, which is not understood" % facts[-1])
    names = read_names(lines)
    found = [read_one(folder, lines) for _ in range(lines.number("leaves", leaf_format.MAX_LEAVES))]
    lines.end()
    export = Export(*facts, names, [leaf for _, leaf in found])
    check_leaves(export, [name for name, _ in found])
    for name in sorted(present - {MANIFEST} - {name for name, _ in found}):
        raise Refused("the export's folder has the file %s, of which its manifest says nothing" % name)
    return export


def check_leaves(export, files):
    """By their own names, no two of one age, and together no more than the box takes."""
    if files != [file_name(export, leaf) for leaf in export.leaves]:
        raise Refused("the manifest gives a leaf a name that is not its own")
    if len({(leaf.level, leaf.index) for leaf in export.leaves}) != len(export.leaves):
        raise Refused("the manifest gives two leaves the same level and index: export again")
    check_size(export.leaves)


def check_size(leaves):
    total = sum(len(leaf.data) for leaf in leaves)
    if total > leaf_format.MAX_LEAF_BYTES:
        raise Refused("the leaves have %d bytes together: the box takes %d" % (total, leaf_format.MAX_LEAF_BYTES))


# Searching


def lent(export):
    """What a search takes of an export: names, leaves, levels, indexes."""
    leaves = export.leaves
    names = [name.encode("ascii") for name in export.names]
    return names, [leaf.data for leaf in leaves], [leaf.level for leaf in leaves], [leaf.index for leaf in leaves]
