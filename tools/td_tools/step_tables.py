"""The steps of a query as numbered texts and tables, from the inside out."""

from .literals import Relation, Value, relation_of
from .places import shortened
from .query_steps import AT_MOST
from .tables import table, visible_lines

LONGEST = 100
FEW = 10


def in_order(step):
    """All the steps of a step: those before it come first. One that shows nothing new is left
    out."""
    seen = set()
    for one in every(step):
        key = (one.text, one.answer, *one.operands)
        if key not in seen:
            seen.add(key)
            yield one


def every(step):
    for one in step.parts:
        yield from every(one)
    yield step


def with_last(relation, name):
    """The relation with an attribute behind all others."""
    names = [one for one, _ in relation.heading]
    if name not in names:
        return relation
    at = names.index(name)
    def moved(row):
        return [*row[:at], *row[at + 1 :], row[at]]
    return Relation(moved(relation.heading), [moved(one) for one in relation.tuples])


def cut(relation, most):
    """The first tuples of a relation, and of each relation in it, with a row of dots behind."""
    rows = [[cut_value(value, most) for value in one] for one in relation.tuples[:most]]
    if len(relation.tuples) > most:
        rows.append([Value("..")] * len(relation.heading))
    return Relation(relation.heading, rows)


def cut_value(value, most):
    return value if value.relation is None else value._replace(relation=cut(value.relation, most))


def head(step, number):
    """The line above a step's answer."""
    operands = [shortened(one, LONGEST) for one in reversed(step.operands)]
    scopes = "".join(f", for each tuple of {one}" for one in operands)
    return f"{number}. {shortened(step.text, LONGEST)}{scopes}\n"


def body(step, has_all):
    """The answer of a step: a relation as a table, of which ten tuples are shown or all."""
    if not step.answer:
        return f"(more than {AT_MOST} tuples)\n"
    text = step.answer.decode("utf-8", "surrogateescape")
    relation = relation_of(text)
    if relation is None:
        return visible_lines(text)
    number = len(relation.tuples)
    relation = with_last(relation, step.name)
    is_cut = not has_all and number > FEW
    lines = table(relation if has_all else cut(relation, FEW))
    note = f"({FEW} of {number} tuples)\n" if is_cut else ""
    return "".join(f"{line}\n" for line in lines) + note


def as_text(step, has_all=False):
    """The text of a step and of all before it."""
    numbered = enumerate(in_order(step), 1)
    return "".join(head(one, number) + body(one, has_all) for number, one in numbered)
