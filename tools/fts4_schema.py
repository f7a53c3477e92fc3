"""What a `create virtual table .. using fts4(..)` says, read as SQLite and FTS4 read it.

SQLite cuts the text of a virtual table into arguments at the commas outside quotes, comments and parentheses; FTS4 then gets
each argument's own text, from its first token to its last. An argument is the tokenizer's, an option (it has a `=`), or a
column. Options come from an allow-list: whatever is not understood is refused, by name.
"""
import re

QUOTES = {"'": "'", '"': '"', "`": "`", "[": "]"}
NAME = re.compile(r"[A-Za-z0-9_\x80-\U0010FFFF]+")
# FTS4 takes `$` for a sign of names too
WORD = re.compile(r"[A-Za-z0-9_$\x80-\U0010FFFF]+")
SPACE = re.compile(r"[ \t\n\f\r]+")
# what may stand outside words, quotes and comments; `$`, `?`, `@`, `#` begin variables, whose extent is another matter
MARKS = set("(),=/:.+-*")
TOKENIZE = "tokenize"


class NotUnderstood(Exception):
    """What in a table's definition stands in the way, and what to do about it."""


# SQL


class Token:
    def __init__(self, kind, text, start, end):
        self.kind, self.text, self.start, self.end = kind, text, start, end


def comment_end(sql, at):
    """Where the comment that begins here ends, or None where none does. An open one goes on to the end."""
    if sql.startswith("--", at):
        line = sql.find("\n", at)
        return len(sql) if line < 0 else line + 1
    if sql.startswith("/*", at) and at + 2 < len(sql):
        close = sql.find("*/", at + 2)
        return len(sql) if close < 0 else close + 2
    return None


def quote_end(sql, at):
    """Where the quote that begins here ends: at its own sign, which is doubled inside (but for brackets)."""
    close = QUOTES[sql[at]]
    place = sql.find(close, at + 1)
    while place >= 0 and close != "]" and sql[place + 1:place + 2] == close:
        place = sql.find(close, place + 2)
    if place < 0:
        raise NotUnderstood("a quote in the table's definition is not closed")
    return place + 1


def unquoted(text):
    """A name without its quotes."""
    if text[:1] not in QUOTES:
        return text
    close = QUOTES[text[0]]
    return text[1:-1] if close == "]" else text[1:-1].replace(close * 2, close)


def next_token(sql, at):
    if sql[at] in QUOTES:
        end = quote_end(sql, at)
        return Token("quoted", sql[at:end], at, end)
    word = NAME.match(sql, at)
    if word:
        return Token("word", word.group(), at, word.end())
    if sql[at] not in MARKS:
        raise NotUnderstood("the table's definition has the sign %r, which is not understood: create the table without it" % sql[at])
    return Token(sql[at], sql[at], at, at + 1)


def tokens(sql):
    """The tokens of a statement, without white space and comments."""
    found, at = [], 0
    while at < len(sql):
        space, comment = SPACE.match(sql, at), comment_end(sql, at)
        if space:
            at = space.end()
        elif comment is not None:
            at = comment
        else:
            found.append(next_token(sql, at))
            at = found[-1].end
    return found


def starts_with(found, words):
    """Whether the first tokens are these keywords."""
    return [token.text.lower() for token in found[:len(words)] if token.kind == "word"] == words


def arguments(sql):
    """The module of a virtual table, in lower case, and the text of each of its arguments; None for another table."""
    found = tokens(sql)
    if not starts_with(found, ["create", "virtual", "table"]):
        return None
    name, rest = found[3:4], found[4:]
    if not name or name[0].kind not in ("word", "quoted") or not starts_with(rest, ["using"]) or len(rest) < 2:
        raise NotUnderstood("the table's definition does not go on with `using` and a module after its name")
    module = rest[1]
    if module.kind not in ("word", "quoted"):
        raise NotUnderstood("the table's definition names no module after `using`")
    return unquoted(module.text).lower(), split(sql, rest[2:])


def split(sql, found):
    """The arguments between the parentheses, cut at the commas that stand in no inner ones; SQLite passes over empty ones."""
    if not found:
        return []
    if found[0].kind != "(":
        raise NotUnderstood("the module's arguments do not begin with a parenthesis")
    parts, part, depth = [], [], 1
    for i, token in enumerate(found[1:], 1):
        depth += (token.kind == "(") - (token.kind == ")")
        if depth == 0:
            if found[i + 1:]:
                raise NotUnderstood("the table's definition goes on after the module's arguments")
            parts.append(part)
            return [sql[p[0].start:p[-1].end] for p in parts if p]
        if token.kind == "," and depth == 1:
            parts.append(part)
            part = []
        else:
            part.append(token)
    raise NotUnderstood("the module's arguments are not closed by a parenthesis")


# FTS4


def is_name_sign(sign):
    return WORD.match(sign) is not None


def open_quote(text, at):
    """What the quote that begins here holds, and where it ends. An open one goes on to the end."""
    close, out, at = QUOTES[text[at]], "", at + 1
    while at < len(text):
        if text[at] == close:
            if close == "]" or text[at + 1:at + 2] != close:
                return out, at + 1
            at += 1
        out += text[at]
        at += 1
    return out, at


def dequoted(text):
    """What stands up to the closing quote; FTS4 passes over what follows."""
    return open_quote(text, 0)[0] if text[:1] in QUOTES else text


def fts_words(text):
    """The words and quotes of an argument as FTS4 cuts it: it knows no comment, and passes over every other sign."""
    found, at = [], 0
    while at < len(text):
        word = WORD.match(text, at)
        if text[at] in QUOTES:
            held, at = open_quote(text, at)
            found.append(held)
        elif word:
            found.append(word.group())
            at = word.end()
        else:
            at += 1
    return found


def is_tokenizer(argument):
    """`tokenize` and one sign that is of no name, whatever it is."""
    return len(argument) > len(TOKENIZE) and argument[:len(TOKENIZE)].lower() == TOKENIZE and not is_name_sign(argument[len(TOKENIZE)])


def check_tokenizer(argument):
    chosen = fts_words(argument[len(TOKENIZE) + 1:])
    if chosen != ["simple"]:
        raise NotUnderstood("the tokenizer is %s: the box knows only simple; fill a table with `tokenize=simple`" % " ".join(chosen))


# the options that may stand, with what may be their value (None: anything), and what is wrong with the others
ALLOWED = {"matchinfo": "fts3", "order": "asc", "notindexed": None}
REASONS = {
    "order": "the posting lists go downward: fill a table without `order=desc`",
    "prefix": "the table has prefix indexes: fill a table without `prefix=`",
    "languageid": "the table has language ids: fill a table without `languageid=`",
    "content": "the table's rows stand elsewhere: fill a table without `content=`",
    "compress": "the table's rows are compressed: fill a table without `compress=`",
    "uncompress": "the table's rows are compressed: fill a table without `uncompress=`",
}


def check_option(argument):
    """The name and the value of an option that is allowed."""
    name, _, value = argument.partition("=")
    name, value = name.lower(), dequoted(value)
    if name not in ALLOWED or ALLOWED[name] not in (None, value.lower()):
        raise NotUnderstood(REASONS.get(name, "the option `%s` is not understood: fill a table without it" % argument))
    return name, value


class Fts4:
    """How many columns the text of an FTS4 table names, and which of them are not indexed."""

    def __init__(self, texts):
        self.columns, self.not_indexed, tokenizer = 0, [], False
        for text in texts:
            if is_tokenizer(text) and not tokenizer:
                check_tokenizer(text)
                tokenizer = True
            elif "=" in text:
                name, value = check_option(text)
                self.not_indexed += [value.lower()] if name == "notindexed" else []
            else:
                self.columns += 1


def read(sql):
    """What the text of an FTS4 table says; None for a table of another kind."""
    found = arguments(sql)
    if found is None or found[0] != "fts4":
        return None
    return Fts4(found[1])
