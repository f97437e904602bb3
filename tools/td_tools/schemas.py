"""What td says of the database that a session has: headings of expressions, and definitions."""
from .answers import decoded, encoded
from .definitions import RELVARS, definitions, heading_of
from .literals import NoLiteral, Reader

# The name of an attribute that no script is expected to have.
FRESH = "_asked_"


def type_of(session, expression):
    """The type of an expression, as td writes it, or None where td refuses it. It is evaluated for
    each tuple of a relation that has none, so that it can be asked of any expression."""
    answer = decoded(session.answer(encoded(f"WRITE EXTEND TABLE_DUM ADD ({expression} AS A);")))
    reader = Reader(answer)
    try:
        reader.take("RELATION {A ")
        return reader.type()
    except NoLiteral:
        return None


class Schema:
    """The headings of expressions and the definitions of relvars, asked once each."""

    def __init__(self, session):
        self.session = session
        self.forget()

    def forget(self):
        """Forgets what td said: something may be defined in another way."""
        self.headings, self.known = {}, None

    def heading(self, expression, around=()):
        """The names of a relational expression's attributes; None where td gives none.

        Around it stand the operands whose attributes it may name, the outermost first. Each is left
        without tuples, so that nothing of the expression is evaluated for one.
        """
        question = f"({expression})"
        for level, operand in enumerate(reversed(around)):
            fresh = f"{FRESH}{level}"
            question = f"(EXTEND ({operand}) WHERE FALSE ADD ({question} AS {fresh})) {{{fresh}}}"
        if question not in self.headings:
            kind = type_of(self.session, question) or ""
            self.headings[question] = names_of(kind, len(around))
        return self.headings[question]

    def definition(self, name):
        """The definition of a relvar, if it is one."""
        if self.known is None:
            every = definitions(self.session)
            self.known = {one.name: one for one in every if one.kind in RELVARS}
        return self.known.get(name)


def names_of(kind, levels):
    """The names of the heading so many levels down in the text of a relation type."""
    for _ in range(levels):
        if not kind:
            return None
        ((_, kind),) = heading_of(kind)
    return [name for name, _ in heading_of(kind)] if kind.startswith("RELATION ") else None
