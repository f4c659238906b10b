"""Tables of plain values in the text of a crate: its constants, as values of Python.

An array or a tuple is a list of Element, each with the comment above it; a structure is a dictionary with its name under "is"; a
path, as `Variant::Base`, is its last name, and with parentheses a Call; a name of another constant is its value.
"""
import re
from typing import NamedTuple

from yollenka.faults import Fault

TOKEN = re.compile(r"""\s+|(?P<comment>//[^\n]*)|(?P<text>"(?:[^"\\]|\\.)*")|(?P<number>0x[0-9a-f_]+|\d[\d_]*)|(?P<name>\w+(?:::\w+)*)"""
                   r"""|(?P<mark>[][{}(),:;&=<>?!.-])""")
CONSTANT = re.compile(r"^(?:pub(?:\(crate\))? )?const (\w+): ([^=]+?) =(?=\s)", re.MULTILINE)
CLOSING = {"[": "]", "(": ")", "{": "}"}


class Element(NamedTuple):
    """A value in an array, and the comment above it, which is empty where there is none."""

    comment: str
    value: object


class Call(NamedTuple):
    """A name with values in parentheses."""

    name: str
    values: list


class Reader:
    """Reads a value, by the tokens from a place of a text on; names of constants are looked up."""

    def __init__(self, text, place, constants):
        self.text, self.constants = text, constants
        self.tokens = self.tokens_from(place)
        self.next()

    def tokens_from(self, place):
        """The tokens with their kinds; of comments the words, at the token behind them."""
        comment = []
        while found := TOKEN.match(self.text, place):
            place = found.end()
            if found.lastgroup == "comment":
                comment.append(found[0].strip("/ "))
            elif found.lastgroup:
                yield found.lastgroup, found[0], " ".join(comment)
                comment = []

    def next(self):
        """Goes to the next token."""
        self.kind, self.word, self.comment = next(self.tokens, ("end", "", ""))

    def take(self, word):
        """Passes this word, if it stands here; tells whether it did."""
        is_here = self.word == word
        if is_here:
            self.next()
        return is_here

    def value(self):
        """The value that stands here."""
        while self.take("&"):
            pass
        kind, word = self.kind, self.word
        self.next()
        if kind == "text":
            return word[1:-1]
        if kind == "number":
            return int(word.replace("_", ""), 0)
        if word == "-":
            return -self.value()
        if word in ("[", "("):
            return self.elements(CLOSING[word])
        if kind != "name":
            raise Fault(f"{word!r} is no value of a table")
        return self.named(word)

    def elements(self, end):
        """The elements up to this mark."""
        found = []
        while not self.take(end):
            comment = self.comment
            found.append(Element(comment, self.value()))
            self.take(",")
        return found

    def named(self, path):
        """What begins with a name: a structure, a call, or the name alone."""
        name = path.rsplit("::", 1)[-1]
        if self.take("{"):
            return {"is": name} | self.fields()
        if self.take("("):
            return Call(name, [one.value for one in self.elements(")")])
        if path in ("true", "false"):
            return path == "true"
        return self.constants.get(path, name)

    def fields(self):
        """The fields of a structure."""
        found = {}
        while not self.take("}"):
            name = self.word
            self.next()
            self.take(":")
            found[name] = self.value()
            self.take(",")
        return found


def values(elements):
    """The values of an array's elements."""
    return [one.value for one in elements]


def constants_in(paths, kinds):
    """The constants of these types (a regular expression) in files, by their names: their types and their values. Names that the
    first files have are known in the later ones."""
    found, known = {}, {}
    for path in paths:
        text = path.read_text()
        for match in CONSTANT.finditer(text):
            if re.fullmatch(kinds, match[2]):
                known[match[1]] = Reader(text, match.end(), known).value()
                found[path.stem, match[1]] = match[2], known[match[1]]
    return found
