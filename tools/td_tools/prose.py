"""The small Markdown of comments: headings, paragraphs, lists, code and emphasis.

A heading is a line that begins with `#`, `##` or `###`. An item begins with `-`, `*` or a number,
and goes on in lines that are indented. Code stands between two lines of three backquotes, or is
indented by four blanks behind an empty line. In a line `code` stands in backquotes, *emphasis* and
**strong emphasis** in stars, and a backslash takes its meaning from a sign behind it.
"""
import re
from dataclasses import dataclass
from enum import Enum
from itertools import groupby

HEADING = re.compile(r"(#{1,3}) +(.*?)(?: +#+)?")
ITEM = re.compile(r"(?:[-*]|(\d{1,9})[.)]) +(.*)")
RULE = re.compile(r"([-=*_~#+])(?: *\1){2,}")
FENCE = re.compile(r"(```+|~~~+)\s*\S*")
INDENT = " " * 4
SPAN = re.compile(
    r"\\(?P<escaped>[!-/:-@\[-`{-~])|(?P<ticks>`+)(?P<code>(?:(?!(?P=ticks)).)+?)(?P=ticks)(?!`)"
    r"|(?<![\w*])\*\*(?P<strong>\S|\S[^*]*?\S)\*\*(?![\w*])"
    r"|(?<![\w*])\*(?P<emphasis>\S|[^\s*][^*]*?[^\s*])\*(?![\w*])"
)


class Kind(Enum):
    """What a part of a line is."""

    TEXT = "text"
    CODE = "code"
    EMPHASIS = "emphasis"
    STRONG = "strong"


@dataclass(frozen=True)
class Span:
    """A part of a line, and what it is."""

    kind: Kind
    text: str


@dataclass(frozen=True)
class Heading:
    """A heading of the first, second or third level."""

    level: int
    spans: list


@dataclass(frozen=True)
class Paragraph:
    """Lines of text in a row."""

    spans: list


@dataclass(frozen=True)
class Items:
    """A list, each item as its spans. A numbered one begins with a number."""

    first: int | None
    items: list


@dataclass(frozen=True)
class Code:
    """Lines that stand as they are."""

    text: str


def pieces(text):
    """The parts of a line, in order, each sign that a backslash escapes alone."""
    at = 0
    for found in SPAN.finditer(text):
        yield Span(Kind.TEXT, text[at : found.start()])
        at = found.end()
        if found["escaped"]:
            yield Span(Kind.TEXT, found["escaped"])
        elif found["code"]:
            yield Span(Kind.CODE, found["code"].strip() or found["code"])
        else:
            kind = Kind.STRONG if found["strong"] else Kind.EMPHASIS
            yield Span(kind, found["strong"] or found["emphasis"])
    yield Span(Kind.TEXT, text[at:])


def spans(text):
    """The parts of a line. Text in a row is one part."""
    found = []
    for kind, group in groupby(pieces(text), key=lambda one: one.kind):
        if kind is Kind.TEXT:
            group = [Span(kind, "".join(one.text for one in group))]
        found += [one for one in group if one.text]
    return found


class Reader:
    """Reads the blocks of lines, from the first line on."""

    def __init__(self, lines):
        self.lines = [line.rstrip() for line in lines]
        self.at = 0

    def blocks(self):
        while self.at < len(self.lines):
            line = self.lines[self.at]
            if not line or RULE.fullmatch(line.strip()):
                self.at += 1
            elif FENCE.fullmatch(line):
                yield self.fenced()
            elif line.startswith(INDENT) and self.is_behind_nothing():
                yield self.indented()
            elif found := HEADING.fullmatch(line):
                self.at += 1
                yield Heading(len(found[1]), spans(found[2]))
            elif ITEM.fullmatch(line):
                yield self.items()
            else:
                yield self.paragraph()

    def is_behind_nothing(self):
        return self.at == 0 or not self.lines[self.at - 1]

    def take_while(self, goes_on):
        begins = self.at
        while self.at < len(self.lines) and goes_on(self.lines[self.at]):
            self.at += 1
        return self.lines[begins : self.at]

    def fenced(self):
        """What stands up to a fence such as the one that is next, or up to the end."""
        fence = FENCE.fullmatch(self.lines[self.at])[1]
        self.at += 1
        lines = self.take_while(lambda line: line.strip() != fence)
        self.at += 1
        return Code("\n".join(lines))

    def indented(self):
        lines = self.take_while(lambda line: not line or line.startswith(INDENT))
        return Code("\n".join(line[len(INDENT) :] for line in lines).strip("\n"))

    def items(self):
        """The items in a row, also with an empty line between two of them."""
        number = ITEM.fullmatch(self.lines[self.at])[1]
        found = []
        while self.at < len(self.lines):
            item = ITEM.fullmatch(self.lines[self.at])
            if not item or (item[1] is None) != (number is None):
                break
            self.at += 1
            rest = self.take_while(lambda line: line.startswith("  "))
            found.append(spans(" ".join([item[2], *(line.strip() for line in rest)])))
            if self.lines[self.at : self.at + 1] == [""] and self.is_item(self.at + 1):
                self.at += 1
        return Items(int(number) if number else None, found)

    def is_item(self, at):
        return at < len(self.lines) and ITEM.fullmatch(self.lines[at]) is not None

    def ends_paragraph(self, line):
        is_block = HEADING.fullmatch(line) or ITEM.fullmatch(line) or FENCE.fullmatch(line)
        return not line or is_block or RULE.fullmatch(line.strip())

    def paragraph(self):
        begins = self.at
        self.at += 1
        self.take_while(lambda line: not self.ends_paragraph(line))
        return Paragraph(spans(" ".join(line.strip() for line in self.lines[begins : self.at])))


def blocks(lines):
    """The blocks of these lines."""
    return list(Reader(lines).blocks())


def plain(parts):
    """The text of the parts of a line, without what they are."""
    return "".join(one.text for one in parts)
