"""Texts from anywhere as they stand on a page: nothing in them is hidden, none changes what stands around it, and none is markup.

A sign that can't be seen, or that changes its surroundings, is written by its number: ‹U+202E›; a byte that is no UTF-8 as ‹byte FF›. The bracket ‹ itself
is written by its number too, so that two different texts never look the same for it.
"""
import html
import re
import unicodedata

NULL, EMPTY = "‹NULL›", "‹empty›"
# letters and marks that draw nothing: fillers, a blank, a joiner, variation selectors
BLANK = re.compile("[\u034F\u115F\u1160\u17B4\u17B5\u2800\u3164\uFE00-\uFE0F\uFFA0\U000E0100-\U000E01EF]")
# more marks than any script puts on one letter would cover the lines above and below
MOST_MARKS = 3


def hidden(sign):
    """Controls, formats (those of direction too), surrogates, private and unassigned signs, separators, blanks; and the bracket of the numbers."""
    return sign == "‹" or sign != " " and unicodedata.category(sign)[0] in "CZ" or BLANK.match(sign) is not None


def by_number(sign):
    number = ord(sign)
    return "‹byte %02X›" % (number - 0xDC00) if 0xDC80 <= number <= 0xDCFF else "‹U+%04X›" % number


def visible(text):
    """A text in which every sign can be seen; also spaces at its ends and after each other."""
    found, marks = [], MOST_MARKS
    for place, sign in enumerate(text):
        marks = marks + 1 if unicodedata.category(sign)[0] == "M" else 0
        lost = sign == " " and (place in (0, len(text) - 1) or text[place - 1] == " ")
        found.append(by_number(sign) if hidden(sign) or lost or marks > MOST_MARKS else sign)
    return "".join(found)


def printable(text):
    """A text for a terminal: its lines and spaces stay."""
    return "".join(by_number(sign) if hidden(sign) and sign != "\n" else sign for sign in text)


def name_of(data):
    """The visible form of a column's bytes, which may be NULL (None) or empty."""
    if data is None:
        return NULL
    return visible(data.decode("utf-8", "surrogateescape")) if data else EMPTY


def escaped(text):
    """Any text for HTML and SVG, between tags and in attributes."""
    return html.escape(visible(text), quote=True)


def width(text):
    """In places of a letter."""
    return sum(0 if unicodedata.combining(sign) else 2 if unicodedata.east_asian_width(sign) in "WF" else 1 for sign in text)


def shortened(text, most):
    """At most so many places wide; what is too long loses its middle, since names differ at their ends."""
    # no sign that is kept stands further from an end than this
    near = text if len(text) <= 4 * most else text[:2 * most] + text[-2 * most:]
    if near == text and width(text) <= most:
        return text
    half = (most - 1) // 2
    return beginning(near, half) + "…" + beginning(near[::-1], half)[::-1]


def beginning(text, most):
    """As much of a text as fits."""
    end = 0
    while end < len(text) and width(text[:end + 1]) <= most:
        end += 1
    return text[:end]


def natural(text):
    """A key that puts n2 before n10."""
    parts = re.split("([0-9]+)", text)
    return [(len(part.lstrip("0")), part.lstrip("0")) if place % 2 else (0, part) for place, part in enumerate(parts)]
