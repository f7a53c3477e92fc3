"""Pages of tools/verdict.py, read back: a tree of tags by Python's own parser, in which every tag must be closed in its turn."""
import html.parser
import re

VOID = {"meta", "br"}


class Node:
    def __init__(self, tag, attributes):
        self.tag, self.attributes, self.parts = tag, attributes, []

    def text(self):
        return "".join(part if isinstance(part, str) else part.text() for part in self.parts)

    def walk(self):
        yield self
        for part in self.parts:
            if isinstance(part, Node):
                yield from part.walk()

    def found(self, tag=None, kind=None):
        """All nodes below with this tag, and this among their classes."""
        return [node for node in self.walk() if tag in (None, node.tag) and (kind is None or kind in node.attributes.get("class", "").split())]

    def one(self, name):
        """The text of the one node with this id."""
        (node,) = [node for node in self.walk() if node.attributes.get("id") == name]
        return node


class Reader(html.parser.HTMLParser):
    def __init__(self):
        super().__init__(convert_charrefs=True)
        self.root = Node("page", {})
        self.open, self.faults = [self.root], []

    def handle_starttag(self, tag, attributes):
        node = Node(tag, dict(attributes))
        if len(node.attributes) != len(attributes):
            self.faults.append("an attribute comes twice in <%s>" % tag)
        self.open[-1].parts.append(node)
        if tag not in VOID:
            self.open.append(node)

    def handle_startendtag(self, tag, attributes):
        self.open[-1].parts.append(Node(tag, dict(attributes)))

    def handle_endtag(self, tag):
        if self.open[-1].tag != tag:
            self.faults.append("</%s> where <%s> is open" % (tag, self.open[-1].tag))
        else:
            self.open.pop()

    def handle_data(self, data):
        self.open[-1].parts.append(data)


def read(page):
    """The page's root, and what is wrong with its tags."""
    reader = Reader()
    reader.feed(page)
    reader.close()
    return reader.root, reader.faults + ["<%s> is not closed" % node.tag for node in reader.open[1:]]


def number(text):
    """A number as the page shows it, with a comma before each three digits."""
    if not re.fullmatch(r"\d{1,3}(,\d{3})*", text):
        raise ValueError(text)
    return int(text.replace(",", ""))


def counts(root):
    """The four large numbers, in their order on the page."""
    return [number(node.found(kind="number")[0].text()) for node in root.found("div", "count")]


def shares(root):
    return [node.text() for node in root.found("div", "share")]


def table(root):
    """The lines of the table by node: what it says in front, and its five numbers."""
    (nodes,) = root.found("table", "nodes")
    lines = []
    for row in nodes.found("tr")[1:]:
        cells = row.found("td")
        numbers = [number(cell.text()) for cell in cells if "n" in cell.attributes.get("class", "").split()]
        lines.append((row.attributes["class"], [cell.text() for cell in cells[:-5]], numbers))
    return lines


def cells(root):
    """Each cell of the picture: its line's name, its docid, its class, what it is said to be."""
    found = []
    for line in root.found("g", "line"):
        name = "".join(text.text() for label in line.found("svg") for text in label.found("text"))
        for cell in line.found("use"):
            docid, said = re.fullmatch(r"docid (-?\d+): (.*)", cell.text()).groups()
            found.append((name, int(docid), cell.attributes["class"], said))
    return found
