"""A handout as Markdown, as CommonMark has it, with tables of GitHub's."""
import re

from . import html_tables
from . import prose
from .diagram_words import mermaid
from .handout import Diagram, Exercise, Prose
from .literals import Relation
from .schema_graph import schema_of
from .tables import DEE, DUM, visible, visible_lines

SIGNS = re.compile(r"[\\`*_\[\]<>|~&$]")
# What begins a block where it stands in front of a line.
OPENERS = re.compile(r"(\s*)([#+=-]|\d+[.)])")
MARKS = {prose.Kind.EMPHASIS: "*", prose.Kind.STRONG: "**"}
TICKS = re.compile("`+")


def escaped(text):
    """Text of a line, in which no sign means anything."""
    return SIGNS.sub(r"\\\g<0>", visible(text))


def in_front(text):
    """The text of a line that begins no other block: the last sign of what would begin one is
    escaped."""
    found = OPENERS.match(text)
    if not found:
        return text
    at = found.end() - 1
    return f"{text[:at]}\\{text[at:]}"


def fence(text):
    """More backquotes than stand in the text in a row."""
    return "`" * max([3, *(len(one) + 1 for one in TICKS.findall(text))])


def code(text):
    shown = visible_lines(text)
    return f"{fence(shown)}\n{shown}\n{fence(shown)}"


def span(one):
    if one.kind is prose.Kind.TEXT:
        return escaped(one.text)
    if one.kind is prose.Kind.CODE:
        return inline_code(one.text)
    mark = MARKS[one.kind]
    return f"{mark}{escaped(one.text)}{mark}"


def inline_code(text):
    shown = visible(text)
    ticks = "`" * (1 + max((len(one) for one in TICKS.findall(shown)), default=0))
    blank = " " if shown.startswith("`") or shown.endswith("`") else ""
    return f"{ticks}{blank}{shown}{blank}{ticks}"


def line(spans):
    return "".join(map(span, spans))


def block(one):
    """A block of prose."""
    match one:
        case prose.Heading(level, spans):
            return f"{'#' * level} {line(spans)}"
        case prose.Paragraph(spans):
            return in_front(line(spans))
        case prose.Code(text):
            return code(text)
        case prose.Items(first, items):
            fronts = [
                "- " if first is None else f"{first + number}. " for number in range(len(items))
            ]
            return "\n".join(front + in_front(line(spans)) for front, spans in zip(fronts, items))


def cell(value):
    """A value in a cell: the lines of a text with a sign for their ends."""
    if value.text is not None:
        return "<br>".join(map(escaped, value.text.split("\n")))
    return escaped(value.literal)


def row(cells):
    return f"| {' | '.join(cells)} |"


def table(relation):
    """The relation as a table; as one of HTML where it has relations in it."""
    if not relation.heading:
        return f"`{DEE if relation.tuples else DUM}`"
    if any(kind.startswith("RELATION ") for _, kind in relation.heading):
        return html_tables.table(relation)
    rules = ["---:" if kind == "INTEGER" else "---" for _, kind in relation.heading]
    rows = [list(map(cell, values)) for values in relation.tuples]
    return "\n".join(map(row, [[escaped(name) for name, _ in relation.heading], rules, *rows]))


def answer(one):
    return table(one) if isinstance(one, Relation) else code(one)


def step(one):
    """A statement with its answer."""
    shown = [code(one.code), *map(answer, one.answer)]
    return "\n\n".join([*shown, *([code(one.refusal)] if one.refusal else [])])


def room(lines):
    return "```\n" + "\n" * lines + "```"


def part(one, is_blank):
    if isinstance(one, Exercise):
        rest = [room(one.room)] if is_blank else [part(it, is_blank) for it in one.solution]
        return "\n\n".join([*map(block, one.blocks), *rest])
    if isinstance(one, Diagram):
        return f"```mermaid\n{mermaid(schema_of(one.dump)).rstrip()}\n```"
    return "\n\n".join(map(block, one.blocks)) if isinstance(one, Prose) else step(one)


def page(name, has_heading, parts, is_blank):
    """The handout. Where its name is no heading of it, it becomes one."""
    shown = [] if has_heading else [f"# {escaped(name)}"]
    return "\n\n".join([*shown, *(part(one, is_blank) for one in parts)]) + "\n"
