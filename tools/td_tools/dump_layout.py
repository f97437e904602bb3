"""Lays out a dump for people and for git: a tuple on each line, by key, with its key in front."""
import re

from .definitions import Kind, in_order
from .expression_layout import STEP, WIDTH, joined, laid, tokens_of
from .literals import relation_of

# The literals of the types whose values stand in no braces.
PLAIN = {"INTEGER": "(-?[0-9]+)", "CHAR": "('(?:[^']|'')*')", "BOOLEAN": "(TRUE|FALSE)"}
SIGN = re.compile(r"'(?:[^']|'')*'|-?[0-9]+|[^\s{}(),']+|.", re.DOTALL)
MARGIN = " " * STEP


def tuples_of(relvar):
    """The values of each tuple of a base relvar, in the order of its heading."""
    kinds = [kind for _, kind in relvar.heading]
    if not kinds or not set(kinds) <= set(PLAIN):
        relation = relation_of(relvar.value + "\n")
        return [tuple(value.literal for value in one) for one in relation.tuples]
    parts = ", ".join(f"{re.escape(name)} {PLAIN[kind]}" for name, kind in relvar.heading)
    heading = ", ".join(f"{name} {kind}" for name, kind in relvar.heading)
    body = relvar.value[len(f"RELATION {{{heading}}} {{") :]
    found = re.compile(f"TUPLE {{{parts}}}").findall(body)
    return [(one,) for one in found] if len(kinds) == 1 else found


def rank_of_text(literal):
    return literal[1:-1].replace("''", "'")


def rank(literal):
    """By what a value of any other type is put in order: sign by sign, numbers by size."""
    return [rank_of_sign(sign) for sign in SIGN.findall(literal)]


def rank_of_sign(sign):
    if sign[0].isdigit() or sign[0] == "-" and len(sign) > 1:
        return 0, int(sign), ""
    return 1, 0, rank_of_text(sign) if sign[0] == "'" else sign


# By what the values of a type are put in order; those of all others by `rank`.
RANKS = {"INTEGER": int, "CHAR": rank_of_text}


def ordered(relvar, places):
    """The tuples of a base relvar by their values at these places, the first in front."""
    kinds = [relvar.heading[place][1] for place in places]
    ranks = [RANKS.get(kind, rank) for kind in kinds]
    pairs = list(zip(places, ranks))
    return sorted(tuples_of(relvar), key=lambda one: [of(one[place]) for place, of in pairs])


def tuple_lines(relvar):
    """A line for each tuple, without what stands between them."""
    attributes = in_order(relvar.heading, relvar.keys)
    names = [name for name, _ in relvar.heading]
    places = [names.index(name) for name, _ in attributes]
    form = "TUPLE {" + ", ".join(f"{name} %s" for name, _ in attributes) + "}"
    for values in ordered(relvar, places[: len(relvar.keys[0])]):
        yield form % tuple(values[place] for place in places)


def heading(relvar):
    """The heading: an attribute on each line, where they don't fit on one."""
    attributes = [f"{name} {kind}" for name, kind in in_order(relvar.heading, relvar.keys)]
    line = ", ".join(attributes)
    if len(line) <= WIDTH - 2 * STEP:
        return f"{{{line}}}"
    return "{\n" + ",\n".join(MARGIN + one for one in attributes) + "\n}"


def value(relvar):
    """The relation that a base relvar has."""
    lines = ",\n".join(MARGIN + line for line in tuple_lines(relvar))
    if not lines:
        return f"RELATION {heading(relvar)} {{}}"
    return f"RELATION {{\n{lines}\n}}"


def base_relvar(relvar, has_value=True):
    front = f"VAR {relvar.name} BASE RELATION {heading(relvar)}"
    is_given = has_value and not relvar.value.endswith(" {}")
    initial = f" INIT ({value(relvar)})" if is_given else ""
    return f"{front}{initial}{relvar.keys_text};\n"


def short_or_laid(front, expression, behind, opener="\n", closer=""):
    """An expression between two texts: on one line, or on lines of its own."""
    tokens = tokens_of(expression)
    line = f"{front}{joined(tokens)}{behind}"
    if len(line) <= WIDTH:
        return line + "\n"
    lines = "\n".join(laid(tokens, STEP))
    return f"{front.rstrip(' ')}{opener}{lines}{closer}{behind}\n"


def statement(definition, has_value=True):
    """The statement of a definition."""
    kind, name = definition.kind, definition.name
    if kind == Kind.BASE:
        return base_relvar(definition, has_value)
    if kind == Kind.VIRTUAL:
        behind = f"){definition.keys_text};"
        return short_or_laid(f"VAR {name} VIRTUAL (", definition.expression, behind, closer="\n")
    if kind == Kind.CONSTRAINT:
        return short_or_laid(f"CONSTRAINT {name} ", definition.expression, ";")
    return short_or_laid(f"TYPE {name} POSSREP ", definition.representation, ";")


def script(definitions, has_values=True):
    """The statements of definitions, with an empty line beside those of several lines."""
    before = None
    for one in definitions:
        text = statement(one, has_values)
        is_apart = before is not None and "\n" in before[:-1] + text[:-1]
        yield "\n" + text if is_apart else text
        before = text


def assignment(relvars):
    """The statement that gives base relvars their values, all at once."""
    return ",\n".join(f"{relvar.name} := {value(relvar)}" for relvar in relvars) + ";\n"
