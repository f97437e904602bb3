"""Which tuples break which keys and constraints: of all that a refused statement would break.

The statement is run on a copy of the database without its constraints, in which each base relvar
has one key, of all its attributes. There td is asked for what each key and constraint speaks of.
"""
from dataclasses import dataclass, field

from .answers import Session, decoded, encoded
from .definitions import Kind, definitions
from .explained import explained
from .grammar import Stop, parsed
from .literals import Relation, relation_of
from .parts import FRESH, leaves, nodes
from .places import as_written, shortened
from .statements import Reader
from .tables import table

AT_MOST = 20
MARGIN = "    "


@dataclass
class Key:
    """A candidate key of a relvar."""

    relvar: str
    names: str

    @property
    def holds(self):
        """Whether no two tuples agree on it."""
        return f"COUNT({self.relvar} {{{self.names}}}) = COUNT({self.relvar})"

    @property
    def breakers(self):
        """The tuples that agree on it with another."""
        counted = f"SUMMARIZE {self.relvar} BY {{{self.names}}} ADD (COUNT() AS {FRESH})"
        return f"{self.relvar} MATCHING ({counted} WHERE {FRESH} > 1)"


@dataclass
class Trial:
    """A statement as it is run on the copy, and the keys and constraints that it declares."""

    statement: str
    keys: list = field(default_factory=list)
    # Of each constraint its name and what it asks.
    constraints: list = field(default_factory=list)


def trial(text):
    """How a statement is tried; None where it is none that can break a key or a constraint."""
    tree = parsed(text)
    if isinstance(tree, Stop):
        return None
    statement = Reader(text).statement(tree)
    name = statement.name and text[statement.name.begins : statement.name.ends]
    if statement.kind == "CONSTRAINT" and statement.parts:
        (source, _), *_ = statement.parts[0].operands
        return Trial("", constraints=[(name, text[source.begins : source.ends])])
    if statement.kind != "VAR" or not statement.parts:
        return Trial(text)
    keys = [Key(name, ", ".join(names_in(one, text))) for one in statement.keys]
    front = text[: statement.keys[0].begins] if keys else text.rstrip().removesuffix(";")
    if statement.heading is not None:
        front += f" KEY {{{', '.join(attributes(tree, text))}}}"
    return Trial(f"{front};", keys)


def names_in(node, text):
    return [text[one.begins : one.ends] for one in leaves(node) if one.kind == "name"]


def attributes(tree, text):
    """The names of the attributes of a base relvar's heading."""
    (definition,) = nodes(tree, "base_relvar")
    heading = definition.parts[4]
    tokens = [one.parts[0] for one in nodes(heading, "attribute")]
    return [text[one.begins : one.ends] for one in tokens]


def loosened(one):
    """The definition without its keys: of a base relvar with one of all its attributes."""
    if one.kind is not Kind.BASE:
        return f"{one.bare};"
    return f"{one.bare} KEY {{{', '.join(name for name, _ in one.heading)}}};"


class Copy:
    """A run of td with the database that the statement would leave."""

    def __init__(self, session, every):
        self.session = session
        self.answer("\n".join(loosened(one) for one in every if one.kind is not Kind.CONSTRAINT))

    def answer(self, script):
        return decoded(self.session.answer(encoded(script)))

    def value(self, expression):
        """What td writes of an expression, without the line's end."""
        return self.answer(f"WRITE {expression};").removesuffix("\n")


def breaches(session, text):
    """The lines that show what a statement would break, and the tuples by which it does."""
    tried = trial(text)
    if tried is None:
        return ""
    every = definitions(session)
    keys = [Key(one.name, ", ".join(key)) for one in every for key in one.keys] + tried.keys
    constraints = [(one.name, one.expression) for one in every if one.kind is Kind.CONSTRAINT]
    with Session() as run:
        copy = Copy(run, every)
        if tried.statement and copy.answer(tried.statement) != "OK\n":
            return ""
        lines = [line for key in keys for line in of_key(copy, session, key)]
        for name, expression in constraints + tried.constraints:
            lines += of_constraint(copy, name, expression)
    return "".join(f"{MARGIN}{line}\n" for line in lines)


def of_key(copy, session, key):
    """What breaks a key: the tuples that the relvar has, and those that the statement brings."""
    holds = copy.value(key.holds)
    if holds == "TRUE":
        return
    said = f"KEY {{{key.names}}} of {key.relvar}"
    if holds != "FALSE":
        yield f"{said} has no value: {holds}"
        return
    relation = relation_of(copy.value(key.breakers) + "\n")
    held = [one for one in relation.tuples if is_held(session, key.relvar, relation, one)]
    brought = [one for one in relation.tuples if one not in held]
    if held:
        yield f"{said}: tuples agree on it that {key.relvar} has"
        yield from limited(Relation(relation.heading, held))
    if brought:
        yield "and that the statement brings" if held else f"{said}: tuples agree on it"
        yield from limited(Relation(relation.heading, brought))


def is_held(session, relvar, relation, values):
    """Whether the relvar has the tuple before the statement."""
    parts = (f"{name} {one.literal}" for (name, _), one in zip(relation.heading, values))
    question = f"WRITE TUPLE {{{', '.join(parts)}}} IN {relvar};"
    return session.answer(encoded(question)) == b"TRUE\n"


def limited(relation):
    """The lines of a table of not too many tuples, and how many there are beside them."""
    yield from table(relation._replace(tuples=relation.tuples[:AT_MOST]))
    more = len(relation.tuples) - AT_MOST
    if more > 0:
        yield f"and {more} tuple{'s' * (more != 1)} more"


def of_constraint(copy, name, expression):
    """What a constraint that does not hold speaks of."""
    holds = copy.value(expression)
    if holds == "TRUE":
        return
    said = f"CONSTRAINT {name} {shortened(as_written(expression), 100)}"
    if holds != "FALSE":
        yield f"{said} has no value: {holds}"
        return
    yield said
    for label, value in explained(copy, expression):
        yield label
        relation = relation_of(f"{value}\n")
        if relation is not None:
            yield from limited(relation)
