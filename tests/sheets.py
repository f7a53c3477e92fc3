"""Benches for tools/verdict.py, its runs, and what holds of every page that it makes."""
import contextlib
import io
import os
import random
import re
import sqlite3
import subprocess
import sys
import unittest.mock
import xml.etree.ElementTree

import paths
import export_leaves
import pages
import sheet_page
import verdict

TOOL = os.path.join(paths.TOOLS, "verdict.py")
DONE, REFUSED, NOT_EXPORTABLE, FAILED = range(4)
PASS, FAIL, SILENT = QUERIES = ["outcome:reply NOT outcome:timeout NOT outcome:late", "outcome:late", "outcome:timeout"]
KINDS = ["PASS", "FAIL", "SILENT", "NONE"]
OUTCOMES = ["reply"] * 12 + ["reply late", "no reply, timeout", "other", ""]
PROGRESS = re.compile(r"^.*: \d+ s \.\.\n", re.M)
# tags and attributes that load, run or lead anywhere
REACHING_TAGS = {"script", "link", "img", "image", "iframe", "object", "embed", "base", "form", "a", "audio", "video"}
REACHING_ATTRIBUTES = {"src", "srcset", "action", "background", "data", "xlink:href"}


# Benches


def bench(path, rows, node, page_size=65536, transactions=8, options="", table="probes"):
    """A table of (docid, outcome), filled in several transactions; the node follows from the docid."""
    base, name = sqlite3.connect(path, isolation_level=None), export_leaves.name_of(table)
    base.execute("pragma page_size=%d" % page_size)
    base.execute("create virtual table %s using fts4(node, sent, outcome%s)" % (name, options))
    for part in range(transactions):
        base.execute("begin")
        for docid, outcome in rows[part * len(rows) // transactions:(part + 1) * len(rows) // transactions]:
            base.execute("insert into %s(docid, node, sent, outcome) values (?, ?, ?, ?)" % name, (docid, node(docid), "t%d" % docid, outcome))
        base.execute("commit")
    return base


def outcomes(first, last, seed, stored=1.0):
    rng = random.Random(seed)
    return [(docid, rng.choice(OUTCOMES)) for docid in range(first, last + 1) if rng.random() < stored]


def node_of_48(docid):
    return "n%d" % (docid % 48)


def small_bench(path):
    """One row, which passes."""
    bench(path, [(1, "reply")], node_of_48, transactions=1).close()


# Runs


def words(path, first, last, *more, queries=QUERIES, table="probes"):
    flags = [word for pair in zip(("--pass", "--fail", "--silent"), queries) for word in pair]
    return [path, table, "--first", str(first), "--last", str(last), *flags, *more]


def ran(*given, **more):
    """Status and both outputs, without what is told of progress: how long a step takes is the machine's."""
    done = subprocess.run([sys.executable, TOOL, *given], stdout=subprocess.PIPE, stderr=subprocess.PIPE, timeout=120, **more)
    return done.returncode, done.stdout.decode(), PROGRESS.sub("", done.stderr.decode())


def here(given, *patches):
    """The same in this process, with parts of the tools replaced."""
    out, said = io.StringIO(), io.StringIO()
    with contextlib.ExitStack() as stack:
        for patch in (*patches, contextlib.redirect_stdout(out), contextlib.redirect_stderr(said)):
            stack.enter_context(patch)
        status = verdict.main(given)
    return status, out.getvalue(), PROGRESS.sub("", said.getvalue())


def replaced(module, name, value):
    return unittest.mock.patch.object(module, name, value)


def contents(path):
    with open(path, "rb") as f:
        return f.read()


# Pages


def page_of(tally, what, path):
    """The page's tree. Of every page: it is well formed, as HTML and as XML, nothing in it reaches out, and it forbids itself to."""
    text = contents(path).decode("utf-8")
    root, faults = pages.read(text)
    tally.check("%s: tags" % what, faults, [])
    tally.check("%s: its beginning" % what, text.startswith(sheet_page.MARK + '<html lang="en">'), True)
    try:
        xml.etree.ElementTree.fromstring(text)
    except xml.etree.ElementTree.ParseError as error:
        tally.fail("%s: %s" % (what, error))
    nodes = list(root.walk())
    names = {name for node in nodes for name in node.attributes}
    tally.check("%s: tags that reach out" % what, sorted({node.tag for node in nodes} & REACHING_TAGS), [])
    tally.check("%s: attributes that reach out" % what, [name for name in names if name in REACHING_ATTRIBUTES or name.startswith("on")], [])
    tally.check("%s: all references are inner ones" % what, {node.attributes["href"][:1] for node in nodes if "href" in node.attributes} <= {"#"}, True)
    style = "".join([node.text() for node in root.found("style")] + [node.attributes.get("style", "") for node in nodes])
    tally.check("%s: its style" % what, [part for part in ("http", "url(", "@import", "src") if part in style], [])
    policy = [node.attributes["content"] for node in root.found("meta") if node.attributes.get("http-equiv") == "Content-Security-Policy"]
    tally.check("%s: its policy" % what, policy, ["default-src 'none'; style-src 'unsafe-inline'"])
    return root
