"""Debug texts of Rust as trees.

A tree is a number, a string, a list, or a Node: a name with its fields, a list for `Name(..)` and a dictionary for
`Name { .. }`. What is none of these, as an address or flags, is a Word.
"""
import re

ADDRESS = r"(?:[0-9a-f]{0,4}:){2,}[0-9a-f.:]*|[0-9]+\.[0-9]+\.[0-9]+\.[0-9]+"
TOKEN = re.compile(r'\s*("(?:[^"\\]|\\.)*"|%s|[A-Za-z_]\w*|0x[0-9a-fA-F]+|-?[0-9]+|[(){}\[\],|:])' % ADDRESS)
ESCAPE = re.compile(r"\\(u\{([0-9a-f]+)\}|.)")
ESCAPES = {"n": "\n", "t": "\t", "r": "\r", "0": "\0"}


class Node:
    """A name with fields."""
    __slots__ = ("name", "fields")

    def __init__(self, name, fields):
        self.name, self.fields = name, fields

    def __eq__(self, other):
        return isinstance(other, Node) and self.name == other.name and self.fields == other.fields

    def __repr__(self):
        if isinstance(self.fields, dict):
            return "%s {%s}" % (self.name, ", ".join("%s: %r" % field for field in self.fields.items()))
        return self.name + ("(%s)" % ", ".join(map(repr, self.fields)) if self.fields else "")


class Word(str):
    """A text that isn't in quotes."""


def unescaped(text):
    return ESCAPE.sub(lambda m: chr(int(m[2], 16)) if m[2] else ESCAPES.get(m[1], m[1]), text)


def parse(text):
    """The tree of a Debug text. ValueError if it has another form."""
    tokens = TOKEN.findall(text)
    tree, at = value(tokens, 0)
    if at != len(tokens):
        raise ValueError("%s after a value" % tokens[at])
    return tree


def items(tokens, at, end):
    """Values up to a closing token, with commas between."""
    out = []
    while tokens[at] != end:
        item, at = value(tokens, at)
        out.append(item)
        if tokens[at] == ",":
            at += 1
    return out, at + 1


def fields(tokens, at):
    out = {}
    while tokens[at] != "}":
        out[tokens[at]], at = value(tokens, at + 2)
        if tokens[at] == ",":
            at += 1
    return out, at + 1


def joined(tokens, at, first):
    """Names and numbers with `|` between, in parentheses that have been opened."""
    out = [first]
    while tokens[at] == "|":
        out.append(tokens[at + 1])
        at += 2
    return Word(" | ".join(out)), at


def value(tokens, at):
    token = tokens[at]
    following = tokens[at + 1] if at + 1 < len(tokens) else ""
    if token == "[":
        return items(tokens, at + 1, "]")
    if token == "(":
        return items(tokens, at + 1, ")")
    if token[0] == '"':
        return unescaped(token[1:-1]), at + 1
    if following == "|":
        return joined(tokens, at + 1, token)
    if re.fullmatch("-?[0-9]+", token):
        return int(token), at + 1
    if token[:2] == "0x":
        return int(token, 16), at + 1
    if ":" in token or "." in token:
        return Word(token), at + 1
    if following == "(":
        inside, at = items(tokens, at + 2, ")")
        return Node(token, inside), at
    if following == "{":
        inside, at = fields(tokens, at + 2)
        return Node(token, inside), at
    return Node(token, []), at + 1
