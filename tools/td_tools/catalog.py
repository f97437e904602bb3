"""What a database defines, and which definition mentions which, by asking td."""
from .answers import Session, decoded, encoded
from .definitions import RELVARS, Kind, base_relvar, definitions, heading_of
from .schemas import type_of

OK = b"OK\n"


class Catalog:
    """The definitions of the database of a run of td."""

    def __init__(self, session):
        self.session = session
        self.definitions = definitions(session)

    def named(self, name):
        """The definitions of a name: a type, a relvar and a constraint may have the same."""
        return [one for one in self.definitions if one.name == name]

    def heading(self, relvar):
        """The heading of a relvar."""
        if relvar.kind is Kind.BASE:
            return relvar.heading
        return heading_of(type_of(self.session, relvar.name) or "")

    def count(self, relvar):
        """How many tuples a relvar has, as td answers it: it may be refused."""
        return decoded(self.session.answer(encoded(f"WRITE COUNT({relvar.name});"))).strip()

    def mentioned_by(self, one):
        """The definitions that this one mentions."""
        others = [other for other in self.definitions if other.name in one.words]
        with StandIns(self) as asked:
            return [other for other in others if asked.mentions(one, other)]

    def mentioning(self, one):
        """The definitions that mention this one."""
        others = [other for other in self.definitions if one.name in other.words]
        with StandIns(self) as asked:
            return [other for other in others if asked.mentions(other, one)]


class StandIns:
    """A run of td that has the types of a database, and for each relvar a base relvar of its
    heading without tuples: so that one definition can be tried by itself."""

    def __init__(self, catalog):
        self.catalog = catalog
        self.session = Session()
        self.fresh = "N" * (1 + max((len(one.name) for one in catalog.definitions), default=0))
        for one in catalog.definitions:
            if one.kind is Kind.TYPE:
                self.session.answer(encoded(one.statement))
            elif one.kind in RELVARS:
                self.session.answer(encoded(self.stand_in(one)))

    def stand_in(self, relvar):
        heading = self.catalog.heading(relvar)
        names = ", ".join(name for name, _ in heading)
        return f"{base_relvar(relvar.name, heading)} KEY {{{names}}};"

    def mentions(self, one, other):
        """Whether a definition mentions another, whose name is among its words: td then refuses to
        drop the other one, while of the rest only what the first needs still stands."""
        if other.kind is Kind.CONSTRAINT or other.kind in RELVARS and not one.expression:
            return False
        tried = ["BEGIN TRANSACTION"]
        if one.expression:
            tried.append(f"VAR {self.fresh} VIRTUAL (EXTEND TABLE_DUM ADD ({one.expression} AS A))")
        kept = (other,) if one.expression else (one, other)
        rest = [each for each in reversed(self.catalog.definitions) if each not in kept]
        tried += [f"DROP {each.word} {each.name}" for each in rest]
        answers = self.session.answer(encoded("".join(f"{statement};" for statement in tried)))
        is_tried = answers.startswith(OK * (2 if one.expression else 1))
        answer = self.session.answer(encoded(f"DROP {other.word} {other.name};"))
        self.session.answer(b"ROLLBACK;")
        return not is_tried or answer != OK

    def __enter__(self):
        return self

    def __exit__(self, *_):
        self.session.leave()
