"""The verdict sheet as one page of HTML, and the page that says why there is none; both from plain data.

A page has no script, no font and no picture from elsewhere, and forbids itself any (Content-Security-Policy). It is made for A4, in colour or grey. Every text
that is not of this file goes through tools/visible_text.py.
"""
import collections
import hashlib
import html

import sheet_picture
from sheet_picture import KINDS, MISSING
from visible_text import escaped, name_of, shortened

# what a file must begin with to be replaced by another page
MARK = "<!DOCTYPE html>\n<!-- fts4box verdict page -->\n"
POLICY = "default-src 'none'; style-src 'unsafe-inline'"
# a table of so many lines stays on one page, a longer one begins a page
FEW_LINES = 12

# cells: each docid of the run with its list; groups: the same by the column `by`, without those that have no row; facts: what was checked, as (name, value);
# files: (name, bytes, SHA-256)
Sheet = collections.namedtuple("Sheet", "database table made first last queries counts by cells groups facts files")
# asked: the words of the command, as (name, value)
Refusal = collections.namedtuple("Refusal", "heading number reason todo made asked")

PROVED = (
    "For these leaves and these queries the four counts are the numbers of docids of the run in the list of passes, in that of failures, in that of silence and "
    "in none of the three, and they add up to the rows of the run.",
    "Each list is exactly the rows whose live word positions satisfy its query, all of them and no other; a leaf that breaks a rule is refused, and is never read "
    "as an empty one.",
    "A row of the run that is in two of the lists refuses the whole sheet, so that no row that satisfies the query for silence is counted as a pass.",
)
LOSSES = (
    "a leaf that ends between two words, with nothing after",
    "a list rewritten shorter together with its length",
    "a leaf that is not handed in",
    "a leaf handed in with a wrong level or index, so that an older entry speaks again",
)
PAGE_STYLE = """
* { box-sizing: border-box; print-color-adjust: exact; -webkit-print-color-adjust: exact; }
html { background: #fff; color: #000; }
body { width: 186mm; max-width: 100%; margin: 6mm auto; font: 9.5pt/1.35 system-ui, "Segoe UI", Roboto, "Liberation Sans", "DejaVu Sans", sans-serif; }
h1 { font-size: 19pt; line-height: 1.1; margin: 0; }
h2 { font-size: 11.5pt; margin: 5mm 0 1.5mm; break-after: avoid; }
p, ul, ol { margin: 0 0 1.5mm; }
ul, ol { padding-left: 5mm; }
.code { font-family: "DejaVu Sans Mono", Menlo, Consolas, monospace; font-size: 8.5pt; overflow-wrap: anywhere; white-space: pre-wrap; }
bdi { overflow-wrap: anywhere; white-space: pre-wrap; }
table { border-collapse: collapse; width: 100%; }
thead { display: table-header-group; }
tr { break-inside: avoid; }
th, td { text-align: left; vertical-align: top; padding: 0.5mm 2mm 0.5mm 0; }
@page { size: A4; margin: 12mm 12mm 14mm; }
@media print { body { margin: 0; width: auto; } }
"""
SHEET_STYLE = """
.top { display: flex; justify-content: space-between; align-items: baseline; border-bottom: 0.6mm solid #000; padding-bottom: 1mm; margin-bottom: 2mm; }
.queries th { width: 20mm; white-space: nowrap; }
.counts { display: flex; gap: 3mm; margin: 3mm 0 1.5mm; break-inside: avoid; }
.count { flex: 1; border: 0.4mm solid #000; padding: 1.5mm 2.5mm; }
.count .word { font-weight: bold; letter-spacing: 0.06em; }
.count .number { font-size: 25pt; font-weight: bold; line-height: 1.15; font-variant-numeric: tabular-nums; }
.swatch { width: 3.4mm; height: 3.4mm; vertical-align: -0.4mm; margin-right: 1.5mm; }
.sign { display: flex; gap: 5mm; margin: 8mm 0 1mm; break-inside: avoid; }
.sign div { flex: 2; border-top: 0.3mm solid #000; font-size: 8pt; padding-top: 0.5mm; }
.sign div:first-child { flex: 1; }
.small { font-size: 8pt; }
.legend, .legend + .small { break-after: avoid; }
.legend span { margin-right: 5mm; white-space: nowrap; }
.picture { display: block; width: 100%; height: auto; break-inside: avoid; margin-bottom: 1mm; }
.nodes th { border-bottom: 0.3mm solid #000; }
.nodes td { border-bottom: 0.1mm solid #bbb; font-size: 8.5pt; padding-top: 0.3mm; padding-bottom: 0.3mm; }
.nodes .n { text-align: right; width: 18mm; font-variant-numeric: tabular-nums; }
.nodes td.zero { color: #777; }
.unstored, .all { break-before: avoid; }
.nodes .all td { font-weight: bold; border-top: 0.3mm solid #000; }
.apart { break-before: page; }
.facts th { width: 26mm; font-weight: normal; }
.files { margin-top: 2mm; }
.facts th, .facts td, .files td, .files th { font-size: 8.5pt; }
.files .code { font-size: 7.5pt; }
.whole { break-inside: avoid; }
"""
REFUSED_STYLE = """
.refused { border: 1.2mm solid #000; padding: 5mm; }
.refused h1 { font-size: 40pt; letter-spacing: 0.05em; }
.refused .no { font-size: 14pt; font-weight: bold; margin: 2mm 0 4mm; }
th { width: 30mm; }
"""


def grouped(number):
    return "{:,}".format(number)


def share(count, total):
    """In per cent with two decimals: of at most 4,096 rows none is rounded to nothing, nor all but one to all."""
    hundredths = (count * 20000 + total) // (2 * total)
    return "%d.%02d %%" % divmod(hundredths, 100)


def code(text):
    return '<bdi class="code">%s</bdi>' % escaped(text)


def bdi(text):
    """A text whose direction is its own."""
    return "<bdi>%s</bdi>" % escaped(text)


def page(title, style, body):
    head = '<meta charset="utf-8"/>\n<meta http-equiv="Content-Security-Policy" content="%s"/>\n<meta name="viewport" content="width=device-width"/>\n' % POLICY
    return '%s<html lang="en">\n<head>\n%s<title>%s</title>\n<style>%s%s</style>\n</head>\n<body>\n%s</body>\n</html>\n' % (
        MARK, head, escaped(title), PAGE_STYLE, style, body
    )


# The sheet


def named(made):
    """A time as people read it."""
    return made.replace("T", " ").replace("Z", " UTC")


def top(sheet):
    return '<p>Table %s of database %s. Run: docids <b>%d</b> to <b>%d</b>, %s rows.</p>\n' % (
        bdi(sheet.table), bdi(sheet.database), sheet.first, sheet.last, grouped(sheet.last - sheet.first + 1)
    )


def queries(sheet):
    rows = "".join("<tr><th>%s if</th><td>%s</td></tr>\n" % (kind, code(query)) for kind, query in zip(KINDS, sheet.queries))
    return '<table class="queries">\n%s<tr><th>NONE if</th><td>in none of these three lists</td></tr>\n</table>\n' % rows


def by_list(cells):
    """How many cells each of the four lists has; those without a row are in none of these."""
    return [sum(kind == wanted for _, kind in cells) for wanted in range(len(KINDS))]


def missing(cells):
    return sum(kind == MISSING for _, kind in cells)


def counts(sheet):
    total = sum(sheet.counts)
    boxes = "".join(
        '<div class="count" id="count-%s"><div class="word">%s%s</div><div class="number">%s</div><div class="share">%s</div></div>\n'
        % (sheet_picture.CLASSES[i], sheet_picture.swatch(i), kind, grouped(count), share(count, total))
        for i, (kind, count) in enumerate(zip(KINDS, sheet.counts))
    )
    said = '<p>Together <b id="sum">%s</b>, the rows of the run. Of the NONE, <b id="missing">%s</b> have no stored row.</p>\n'
    return '<div class="counts">\n%s</div>\n%s' % (boxes, said % (grouped(total), grouped(missing(sheet.cells))))


def signature(mark):
    return (
        '<div class="sign"><div>Date</div><div>Name</div><div>Signature</div></div>\n'
        '<p class="small">Signed for the four counts above, under what all pages of sheet <b>%s</b> say: what was checked, what is proved, and which losses no '
        "reader can see.</p>\n"
    ) % mark


def legend(sheet):
    kinds = range(MISSING + (sheet.by is None))
    return '<p class="legend">%s</p>\n' % "".join("<span>%s%s</span>" % (sheet_picture.swatch(kind), sheet_picture.SAID[kind]) for kind in kinds)


def lines_said(sheet):
    said = "A line for each %s, a cell for each of its rows in the order of docids. " % bdi(sheet.by)
    said += "At the ends of a line stand the docids of its first and its last cell"
    if any(len(group.cells) > sheet_picture.NODE_LINE for group in sheet.groups):
        said += "; after %d cells the next line goes on" % sheet_picture.NODE_LINE
    else:
        said += ", above a column the smallest docid in it"
    return said + (". What has no stored row has no cell." if missing(sheet.cells) else ".")


def picture(sheet):
    if sheet.by is None:
        said = "A cell for each docid of the run, %d to a line. Its docid is the number at the left of its line plus that above it." % sheet_picture.BAND_LINE
        drawn = sheet_picture.band(sheet.cells)
    else:
        said, drawn = lines_said(sheet), sheet_picture.by_node(sheet.groups) or "<p>No row of the run is stored.</p>\n"
    return '<h2>The run</h2>\n%s<p class="small">%s</p>\n%s' % (legend(sheet), said, drawn)


def table_row(kind, head, numbers):
    cells = "".join('<td class="n%s">%s</td>' % (" zero" if number == 0 else "", grouped(number)) for number in [*numbers, sum(numbers)])
    return '<tr class="%s">%s%s</tr>\n' % (kind, head, cells)


def table_head(sheet, numbered):
    columns = "".join('<th class="n">%s</th>' % word for word in KINDS + ("rows",))
    return "<thead><tr>%s<th>%s</th>%s</tr></thead>\n" % ("<th>no.</th>" if numbered else "", bdi(sheet.by), columns)


def table(sheet):
    """The counts of each node, of what is not stored, and all together. Names that are shortened in the picture make it number its lines."""
    if sheet.by is None:
        return ""
    names = [name_of(group.name) for group in sheet.groups]
    numbered = any(shortened(name, sheet_picture.MOST_LABEL) != name for name in names)

    def head(number, markup):
        return "%s<td>%s</td>" % ("<td>%s</td>" % number if numbered else "", markup)

    rows = [table_row("node", head(i, "<bdi>%s</bdi>" % html.escape(names[i - 1])), by_list(group.cells)) for i, group in enumerate(sheet.groups, 1)]
    rows += [table_row("unstored", head("", "no stored row"), [0, 0, 0, missing(sheet.cells)]), table_row("all", head("", "all"), sheet.counts)]
    return '<div class="by%s">\n<h2>By %s</h2>\n<table class="nodes">\n%s<tbody>\n%s</tbody>\n</table>\n</div>\n' % (
        " apart" if len(names) > FEW_LINES else " whole", bdi(sheet.by), table_head(sheet, numbered), "".join(rows)
    )


def digest_row(name, size, digest):
    return "<tr><td>%s</td><td>%s bytes</td><td>%s</td></tr>\n" % (bdi(name), grouped(size), code(digest))


def checked(sheet):
    facts = "".join("<tr><th>%s</th><td>%s</td></tr>\n" % (escaped(name), bdi(value)) for name, value in sheet.facts)
    files = "".join(digest_row(*each) for each in sheet.files)
    return (
        '<div class="whole">\n<h2>What was checked</h2>\n<table class="facts">\n%s</table>\n'
        '<table class="files">\n<thead><tr><th>read</th><th>size</th><th>SHA-256</th></tr></thead>\n<tbody>\n%s</tbody>\n</table>\n</div>\n' % (facts, files)
    )


def statement():
    proved = "".join("<li>%s</li>\n" % sentence for sentence in PROVED)
    losses = "".join("<li>%s</li>\n" % loss for loss in LOSSES)
    return (
        '<div class="whole">\n<h2>What is proved</h2>\n<ol>\n%s</ol>\n<p>This is proved of the library that the sources of this version build; that libfts4box.a '
        "above is that library is not checked here. docs/GUARANTEES.md says it sentence by sentence, with the theorems and with what is assumed, among it the "
        "prover and the compiler. The export, the reading of the rows, the picture, the table and this page are tested, not proved.</p>\n"
        '</div>\n<div class="whole">\n<h2>Losses that no reader can see</h2>\n<p>What is left after them is a sound leaf or a sound index:</p>\n<ul>\n%s</ul>\n'
        "</div>\n"
    ) % (proved, losses)


def mark_of(sheet):
    """Follows from all that the sheet says, and stands on each printed page: pages of two sheets can be told apart."""
    return hashlib.sha256(repr(sheet).encode("utf-8", "surrogatepass")).hexdigest()[:12]


def foot(said):
    """Printed on each page, by browsers that know how."""
    font, number = "font: 7pt sans-serif;", '"page " counter(page) " of " counter(pages)'
    return '@page { @bottom-left { content: "fts4box verdict %s"; %s } @bottom-right { content: %s; %s } }\n' % (said, font, number, font)


def sheet_page(sheet):
    mark = mark_of(sheet)
    head = '<div class="top"><h1>Verdict sheet</h1><div>sheet <b>%s</b>, %s</div></div>\n' % (mark, named(sheet.made))
    parts = sheet_picture.shapes(), head, top(sheet), queries(sheet), counts(sheet), signature(mark), picture(sheet), table(sheet), checked(sheet), statement()
    title = "Verdict sheet: %s, docids %d to %d" % (sheet.table, sheet.first, sheet.last)
    return page(title, SHEET_STYLE + sheet_picture.STYLE + foot("sheet %s, %s" % (mark, named(sheet.made))), "".join(parts))


# No sheet


def refusal_page(refusal):
    """Says that there is no verdict and why: no count, no picture, nothing to sign."""
    number = "" if refusal.number is None else "<tr><th>Answer</th><td>%s</td></tr>\n" % escaped(refusal.number)
    reason = "<br/>".join(map(bdi, refusal.reason.split("\n")))
    todo = "" if not refusal.todo else "<tr><th>What to do</th><td>%s</td></tr>\n" % bdi(refusal.todo)
    asked = "".join("<tr><th>%s</th><td>%s</td></tr>\n" % (escaped(name), code(value)) for name, value in refusal.asked)
    body = (
        '<div class="refused">\n<h1>%s</h1>\n<p class="no">There is no verdict. This page is no sheet; it is not to be signed.</p>\n'
        "<table>\n%s<tr><th>Why</th><td>%s</td></tr>\n%s</table>\n</div>\n<h2>What was asked, %s</h2>\n<table>\n%s</table>\n"
    ) % (escaped(refusal.heading), number, reason, todo, named(refusal.made), asked)
    return page("%s: no verdict sheet" % refusal.heading, REFUSED_STYLE, body)
