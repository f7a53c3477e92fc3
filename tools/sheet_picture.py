"""The picture of a run as inline SVG: lines of cells, one for each row, drawn by its list.

Each list has a colour and a shape of its own, so that the picture can also be read in grey: PASS is light and plain, FAIL has a cross, SILENT is dark, NONE is an
empty frame; a docid without a stored row is a dash. Nothing is left out: a run has at most 4,096 rows. A length is in tenths of a millimetre at the width of A4.
"""
import collections
import html

from visible_text import name_of, shortened, width

KINDS = ("PASS", "FAIL", "SILENT", "NONE")
NONE, MISSING = 3, 4
CLASSES = ("pass", "fail", "silent", "none", "missing")
SAID = KINDS + ("NONE, no stored row",)
# a cell is 9 wide and the next begins 10 further on; after each ten there is a gap, to count by
CELL, PITCH, TEN, GAP = 9, 10, 10, 3
SHAPES = (
    '<rect width="9" height="9"/>',
    '<rect width="9" height="9"/><path d="M1.2 1.2L7.8 7.8M7.8 1.2L1.2 7.8"/>',
    '<rect width="9" height="9"/>',
    '<rect x="0.5" y="0.5" width="8" height="8"/>',
    '<path d="M2 4.5H7"/>',
)
STYLE = """
.s-pass rect { fill: #bfe0cd; }
.s-fail rect { fill: #f2a13a; }
.s-fail path { stroke: #000; stroke-width: 1.7; }
.s-silent rect { fill: #1d2550; }
.s-none rect { fill: #fff; stroke: #333; stroke-width: 1; }
.s-missing path { stroke: #333; stroke-width: 1.4; }
.picture text { font-family: "DejaVu Sans Mono", Menlo, Consolas, monospace; font-size: 21px; fill: #000; }
.picture .digits { font-size: 19px; fill: #444; }
.picture .tick { stroke: #888; stroke-width: 2; }
"""
WIDTH, AXIS, LEAST_HEIGHT = 1860, 34, 22
LETTER, DIGIT, SPACE = 12.7, 11.5, 12
# a cell is not larger than this, nor so large that fifty lines would not fit below the counts
MOST_PITCH, MOST_HEIGHT = 40, 1280
# so many cells stand on one line, so many places has a name there, and so many lines stay on one page
NODE_LINE, BAND_LINE, MOST_LABEL, BLOCK_LINES = 80, 100, 24, 50

Group = collections.namedtuple("Group", "name cells")
Line = collections.namedtuple("Line", "label cells")
Frame = collections.namedtuple("Frame", "label digits_left digits_right scale height")


def shapes():
    """The cells' shapes, once for the page."""
    drawn = "".join('<g id="c%d" class="s-%s">%s</g>' % (kind, CLASSES[kind], shape) for kind, shape in enumerate(SHAPES))
    return '<svg width="0" height="0" style="position:absolute" aria-hidden="true"><defs>%s</defs></svg>' % drawn


def swatch(kind):
    """One shape beside a word."""
    return '<svg class="swatch" viewBox="0 0 9 9" aria-hidden="true"><use href="#c%d"/></svg>' % kind


def place(number):
    """Where a cell of a line begins."""
    return PITCH * number + GAP * (number // TEN)


def label_of(number, group):
    """A node's name; one that is shortened has its number in the table before it."""
    name = name_of(group.name)
    label = shortened(name, MOST_LABEL)
    return label if label == name else "%d: %s" % (number, label)


def cut(label, cells, most):
    return [Line(label, cells[start:start + most]) for start in range(0, len(cells), most)]


def node_lines(groups):
    return [line for number, group in enumerate(groups, 1) for line in cut(label_of(number, group), group.cells, NODE_LINE)]


def frame_of(lines):
    """How wide the names and the docids are, and how large a cell is then."""
    columns = max(len(line.cells) for line in lines)
    label = round(max(width(line.label) for line in lines) * LETTER)
    left, right = (round(max(len(str(line.cells[end][0])) for line in lines) * DIGIT) + SPACE for end in (0, -1))
    free = WIDTH - label - left - right - 2 * SPACE
    pitch = min(MOST_PITCH, MOST_HEIGHT / min(BLOCK_LINES, len(lines)))
    scale = min(pitch / PITCH, free / (place(columns - 1) + CELL))
    return Frame(label, left, right, scale, max(LEAST_HEIGHT, round(scale * PITCH)))


def drawn_line(frame, line, top):
    left = frame.label + frame.digits_left + SPACE
    right = left + place(len(line.cells) - 1) * frame.scale + frame.height + SPACE
    base = round(frame.height / 2 + 7)
    cells = "".join(
        '<use class="%s" href="#c%d" x="%d"><title>docid %d: %s</title></use>' % (CLASSES[kind], kind, place(i), docid, SAID[kind])
        for i, (docid, kind) in enumerate(line.cells)
    )
    # an inner svg cuts off a name that is wider than it should be
    name = '<svg width="%d" height="%d"><text y="%d">%s</text></svg>' % (frame.label, frame.height, base, html.escape(line.label))
    return '<g class="line" transform="translate(0 %d)">%s%s%s<g transform="translate(%d %.1f) scale(%.3f)">%s</g></g>\n' % (
        top, name if line.label else "", digits(left - SPACE / 2, base, "end", line.cells[0][0]), digits(right, base, "start", line.cells[-1][0]),
        left, (frame.height - CELL * frame.scale) / 2, frame.scale, cells,
    )


def digits(x, y, anchor, text):
    return '<text class="digits" x="%d" y="%d" text-anchor="%s">%s</text>' % (x, y, anchor, text)


def axis(frame, ticks):
    """A number above each tenth column; every other one where they are too long."""
    step = 1 if max((len(str(tick)) for tick in ticks), default=0) * DIGIT < place(TEN) * frame.scale - SPACE else 2
    left = frame.label + frame.digits_left + SPACE
    places = [(left + place(i * TEN) * frame.scale, tick) for i, tick in enumerate(ticks) if i % step == 0]
    return "".join('%s<path class="tick" d="M%d %dv8"/>' % (digits(x, AXIS - 12, "start", tick), x + 1, AXIS - 9) for x, tick in places)


def smallest(lines):
    """The smallest docid of each tenth column."""
    columns = max(len(line.cells) for line in lines)
    return [min(line.cells[i][0] for line in lines if i < len(line.cells)) for i in range(0, columns, TEN)]


def block(frame, lines, ticks, said):
    """Lines that stay on one page, with the axis above them."""
    top = AXIS if ticks else 0
    drawn = "".join(drawn_line(frame, line, top + i * frame.height) for i, line in enumerate(lines))
    return '<svg class="picture" viewBox="0 0 %d %d" role="img" aria-label="%s">\n%s\n%s</svg>\n' % (
        WIDTH, top + len(lines) * frame.height, said, axis(frame, ticks), drawn
    )


def in_blocks(lines):
    return [lines[start:start + BLOCK_LINES] for start in range(0, len(lines), BLOCK_LINES)]


def by_node(groups):
    """A line for each node, or several where it has many rows."""
    lines = node_lines(groups)
    if not lines:
        return ""
    frame = frame_of(lines)
    whole = len(lines) == len(groups)
    return "".join(block(frame, part, smallest(part) if whole else [], "the rows of each node, by list") for part in in_blocks(lines))


def band(cells):
    """All docids of the run, a hundred to a line."""
    lines = cut("", cells, BAND_LINE)
    frame = frame_of(lines)
    ticks = ["+%d" % i for i in range(0, len(lines[0].cells), TEN)]
    return "".join(block(frame, part, ticks, "the docids of the run, by list") for part in in_blocks(lines))
