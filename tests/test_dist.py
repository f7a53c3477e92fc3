#!/usr/bin/env python3
"""tools/dist.sh: the archive has what it should, works by itself wherever it is unpacked, and is the same each time."""
import os
import shutil
import subprocess
import sys
import tarfile
import tempfile

import folders
import header
import paths
from box import Box
from tally import Tally

SCRIPT = os.path.join(paths.TOOLS, "dist.sh")
NAME = "fts4box-" + header.VERSION
FILES = [
    "SHA256SUMS", "docs/GUARANTEES.md", "docs/REFERENCE.md", "examples/folder.c", "examples/merge.c", "examples/search.c", "examples/verdict.c",
    "include/fts4box.h", "lib/libfts4box.a", "lib/pkgconfig/fts4box.pc",
]
STRICT = ["-std=c99", "-Wall", "-Wextra", "-Werror", "-Wpedantic"]
ROW = [b"n12", b"probe", b"reply reply"]
EXPECTED = "docs 1\n7\n"
SHEET = "rows 4\npassed 1\n7\nfailed 1\n8\nsilent 1\n9\nnone 1\n"
MERGED = "bytes 34 level 0 index 1\n00 04 6C 61 74 65 05 07 01 02 02 00 00 03 6E 31 32 03 07 02 00 00 05 70 72 6F 62 65 05 07 01 01 02 00\n"


def ran(*command, **how):
    """The status and all that is written."""
    done = subprocess.run(command, stdout=subprocess.PIPE, stderr=subprocess.STDOUT, text=True, timeout=120, **how)
    return done.returncode, done.stdout


def contents(path):
    with open(path, "rb") as f:
        return f.read()


def made(tally, folder):
    """The archive's path, made of the library as it is."""
    archive = os.path.join(folder, NAME + ".tar.gz")
    tally.check("dist.sh", ran("bash", SCRIPT, "--built", folder), (0, archive + "\n"))
    tally.check("nothing else is left", os.listdir(folder), [NAME + ".tar.gz"])
    return archive


def members(tally, archive):
    """Files and folders below one name, sorted, with no owner, time or mode of this machine."""
    with tarfile.open(archive) as tar:
        found = tar.getmembers()
    tally.check("files", sorted(m.name for m in found if m.isfile()), [NAME + "/" + name for name in FILES])
    tally.check("order", [m.name for m in found], sorted((m.name for m in found), key=lambda name: name.split("/")))
    tally.check("owners and times", {(m.uid, m.gid, m.uname, m.gname, m.mtime) for m in found}, {(0, 0, "", "", 0)})
    tally.check("modes", {(m.isdir(), m.mode) for m in found}, {(True, 0o755), (False, 0o644)})


def sums(tally, tree):
    listed = [line.split("  ", 1)[1] for line in contents(os.path.join(tree, "SHA256SUMS")).decode().splitlines()]
    tally.check("all is summed", listed, [name for name in FILES if name != "SHA256SUMS"])
    tally.check("sha256sum -c", ran("sha256sum", "--check", "--quiet", "--strict", "SHA256SUMS", cwd=tree), (0, ""))


def flags(tally, tree):
    """The compiler's words by hand, and by pkg-config where there is one."""
    yield "plain", ["-I", "include", "lib/libfts4box.a"]
    if shutil.which("pkg-config"):
        settings = dict(os.environ, PKG_CONFIG_PATH=os.path.join(tree, "lib", "pkgconfig"))
        tally.check("version", ran("pkg-config", "--modversion", "fts4box", env=settings), (0, header.VERSION + "\n"))
        status, said = ran("pkg-config", "--cflags", "--libs", "fts4box", env=settings)
        tally.check("pkg-config says nothing of the repository", (status, paths.ROOT in said), (0, False))
        yield "pkg-config", said.split()


def examples(tally, tree, export):
    for what, words in flags(tally, tree):
        for name, arguments, expected in (("search", [], EXPECTED), ("folder", [export, "reply"], EXPECTED), ("verdict", [], SHEET), ("merge", [], MERGED)):
            # the library must come after the source that needs it
            build = ["cc", *STRICT, "-o", name, os.path.join("examples", name + ".c"), *words]
            if tally.check("build of %s, %s" % (name, what), ran(*build, cwd=tree), (0, "")):
                tally.check("%s, %s" % (name, what), ran(os.path.join(tree, name), *arguments), (0, expected))


def unpacked(tally, archive, place):
    """All of it in an empty place whose name has no part of the repository's."""
    tally.check("tar", ran("tar", "--extract", "--gzip", "--file", archive, "--directory", place), (0, ""))
    export = os.path.join(place, "export")
    os.mkdir(export)
    folders.make(export, folders.BENCH, [(0, 0, folders.written(Box(), 7, ROW))])
    tree = os.path.join(place, NAME)
    sums(tally, tree)
    examples(tally, tree, export)


def refusals(tally, folder):
    """Other words; a repository without the library. Nothing is made."""
    for words in (["--other"], [folder, folder], ["--built", folder, folder], ["--built", "--built"]):
        status, said = ran("bash", SCRIPT, *words)
        tally.check("words %s" % words, (status, "usage" in said), (2, True))
    bare, out = os.path.join(folder, "bare"), os.path.join(folder, "out")
    for name in ("tools", "include", "docs", "examples"):
        shutil.copytree(os.path.join(paths.ROOT, name), os.path.join(bare, name))
    status, said = ran("bash", os.path.join(bare, "tools", "dist.sh"), "--built", out)
    tally.check("no library", (status, "libfts4box.a" in said, os.path.exists(out)), (1, True, False))


def main():
    tally = Tally()
    with tempfile.TemporaryDirectory() as one, tempfile.TemporaryDirectory() as two, tempfile.TemporaryDirectory() as place:
        archive = made(tally, one)
        members(tally, archive)
        unpacked(tally, archive, place)
        again = made(tally, two)
        tally.check("the same bytes", contents(archive) == contents(again), True)
        made(tally, two)
        tally.check("the same bytes over an older one", contents(archive) == contents(again), True)
    with tempfile.TemporaryDirectory() as folder:
        refusals(tally, folder)
    return tally.finish()


if __name__ == "__main__":
    sys.exit(main())
