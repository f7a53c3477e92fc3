"""What a sheet was made of and by what: digests of files, versions, commit, toolchain."""
import collections
import hashlib
import os
import platform
import re
import stat
import subprocess

import fts4box
from export_folder import Refused

HEADER = os.path.join(fts4box.ROOT, "include", "fts4box.h")
PART = 1 << 20
# a program that says what it is does so at once
PATIENCE_S = 3

File = collections.namedtuple("File", "name size sha256")


def of_file(path):
    if not stat.S_ISREG(os.stat(path).st_mode):
        raise OSError("%s is no plain file" % path)
    digest, size = hashlib.sha256(), 0
    with open(path, "rb") as f:
        for part in iter(lambda: f.read(PART), b""):
            digest.update(part)
            size += len(part)
    return File(os.path.basename(path), size, digest.hexdigest())


def of_database(path):
    """The database's file, and its write-ahead log where that holds a part of the database."""
    try:
        log = os.path.realpath(path) + "-wal"
        return [of_file(path)] + [file for file in ([of_file(log)] if os.path.exists(log) else []) if file.size > 0]
    except OSError as error:
        raise Refused("the database %s can't be read: %s" % (path, error.strerror or error))


def loaded():
    """The proved library, and what its archive is."""
    before = of_file(fts4box.ARCHIVE) if os.path.exists(fts4box.ARCHIVE) else None
    library = fts4box.load()
    if of_file(fts4box.ARCHIVE) != before:
        raise OSError("%s changed while it was loaded: run again" % fts4box.ARCHIVE)
    return library, before


def said_by(*words):
    """What a program prints; None where it is not there, fails or takes too long."""
    try:
        done = subprocess.run(words, stdin=subprocess.DEVNULL, stdout=subprocess.PIPE, stderr=subprocess.DEVNULL, timeout=PATIENCE_S)
    except (OSError, subprocess.TimeoutExpired):
        return None
    return done.stdout.decode("utf-8", "replace").strip() if done.returncode == 0 else None


def version():
    with open(HEADER, encoding="ascii") as f:
        (found,) = re.findall(r'^#define FTS4BOX_VERSION "([^"]+)"$', f.read(), re.M)
    return found


def commit():
    """The commit of the tools, unless they stand in no repository or in that of something else."""
    git = "git", "--no-optional-locks", "-C", fts4box.ROOT
    if os.path.realpath(said_by(*git, "rev-parse", "--show-toplevel") or "/") != os.path.realpath(fts4box.ROOT):
        return "no commit known"
    changed = said_by(*git, "status", "--porcelain", "--untracked-files=no")
    since = {"": "", None: ", not known whether changed since"}.get(changed, ", with changes that are not committed")
    return "commit %s%s" % (said_by(*git, "rev-parse", "HEAD") or "not known", since)


def toolchain():
    said = said_by("rt", "version")
    return "%s (rt version, on the machine that made this sheet)" % said.splitlines()[0] if said else "not on this machine, or rt did not answer"


def of_tools():
    """What was used, as (name, value)."""
    tool = "fts4box %s, tools/verdict.py, %s; Python %s" % (version(), commit(), platform.python_version())
    return [("tool", tool), ("toolchain", toolchain())]
