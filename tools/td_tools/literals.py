"""Reads what td writes: answers, and in them the canonical literals of relations.

docs/language.md has their form. Of a user value and of a tuple only the literal's end is sought.
"""
import re
from collections import namedtuple

NAME = re.compile(r"[^\s{}(),']+")
TEXT = re.compile(r"'((?:[^']|'')*)'")


class NoLiteral(Exception):
    """The text is not such a literal."""


# Of each attribute its name and its type's text, and of each tuple its values in that order.
Relation = namedtuple("Relation", "heading tuples")
# A value's literal; of a text also what stands between its quotes, of a relation what it is.
Value = namedtuple("Value", "literal text relation", defaults=(None, None))


class Reader:
    """Reads a text from the left."""

    def __init__(self, text):
        self.text = text
        self.at = 0

    def take(self, sign):
        if not self.takes(sign):
            raise NoLiteral(f"{sign!r} is missing at {self.at}")

    def takes(self, sign):
        """Whether the sign is next. It is passed if so."""
        is_next = self.text.startswith(sign, self.at)
        self.at += len(sign) * is_next
        return is_next

    def match(self, pattern):
        found = pattern.match(self.text, self.at)
        if not found:
            raise NoLiteral(f"no word at {self.at}")
        self.at = found.end()
        return found

    def name(self):
        return self.match(NAME).group()

    def listed(self, item, last):
        """Items with commas between, up to the sign that ends them."""
        items = []
        while not self.takes(last):
            if items:
                self.take(", ")
            items.append(item())
        return items

    def type(self):
        """The text of a type."""
        begins = self.at
        if self.name() in ("RELATION", "TUPLE"):
            self.take(" ")
            self.heading()
        return self.text[begins : self.at]

    def heading(self):
        self.take("{")
        return self.listed(self.attribute, "}")

    def attribute(self):
        name = self.name()
        self.take(" ")
        return name, self.type()

    def value(self):
        begins = self.at
        if self.text.startswith("'", begins):
            text = self.match(TEXT).group(1).replace("''", "'")
            return Value(self.text[begins : self.at], text=text)
        relation = None
        word = self.name()
        if word == "RELATION":
            relation = self.relation()
        elif word == "TUPLE":
            self.tuple()
        elif self.takes("("):
            self.listed(self.value, ")")
        return Value(self.text[begins : self.at], relation=relation)

    def relation(self):
        """What stands behind the word RELATION."""
        self.take(" ")
        heading = self.heading()
        self.take(" {")
        return Relation(heading, self.listed(self.element, "}"))

    def element(self):
        self.take("TUPLE")
        return self.tuple()

    def tuple(self):
        """The values of what stands behind the word TUPLE."""
        self.take(" {")
        return self.listed(self.component, "}")

    def component(self):
        self.name()
        self.take(" ")
        return self.value()


def relation_of(line):
    """The relation that a line of an answer is, if it is one."""
    reader = Reader(line)
    try:
        reader.take("RELATION")
        relation = reader.relation()
        reader.take("\n")
    except NoLiteral:
        return None
    return relation if reader.at == len(line) else None


def whole_lines(lines):
    """Lines, joined where a text goes on over a line's end."""
    held, quotes = [], 0
    for line in lines:
        held.append(line)
        quotes += line.count("'")
        if quotes % 2 == 0:
            yield "".join(held)
            held, quotes = [], 0
    yield from held
