"""What a diagram of a database shows: relvars, constraints, and what leads from one to another."""
from dataclasses import dataclass, field
from enum import Enum

from .answers import Session, encoded
from .catalog import Catalog, StandIns
from .definitions import RELVARS, Kind, in_order
from .inclusions import inclusions


class Link(Enum):
    """Why one thing is joined to another."""

    INCLUSION = "inclusion"
    ORIGIN = "is made of"
    MENTION = "mentions"


class End(Enum):
    """How many tuples there are at an end of an inclusion for one at the other."""

    ONE = "one"
    AT_MOST_ONE = "at most one"
    SOME = "one or more"
    ANY = "any number"


@dataclass
class Relvar:
    """A relvar as a box shows it."""

    name: str
    is_virtual: bool
    heading: list
    keys: list
    # How many tuples it has, or td's refusal.
    count: str

    def in_order(self):
        """The attributes, each with its type: those of the first key come first."""
        return in_order(self.heading, self.keys)

    def tuples(self):
        """How many tuples it has, in words."""
        if not self.count.isdigit():
            return self.count
        return "1 tuple" if self.count == "1" else f"{self.count} tuples"


@dataclass
class Note:
    """A constraint that is no inclusion."""

    name: str
    expression: str


@dataclass
class Edge:
    """What leads from a relvar or a note to a relvar."""

    link: Link
    source: object
    target: Relvar
    name: str = ""
    pairs: tuple = ()
    ends: tuple = (End.ANY, End.ONE)

    def by(self):
        """The attributes that agree, as a text."""
        return ", ".join(one if one == other else f"{one} = {other}" for one, other in self.pairs)


@dataclass
class Schema:
    """All that a diagram shows."""

    relvars: list = field(default_factory=list)
    notes: list = field(default_factory=list)
    edges: list = field(default_factory=list)
    # The statements of the user types, without TYPE.
    types: list = field(default_factory=list)


def has_key(relvar, names):
    """Whether the tuples of a relvar differ by these attributes."""
    return any(set(key) <= set(names) for key in relvar.keys)


def ends(source, target, inclusion):
    """How many tuples of the source there are for one of the target, and the other way round."""
    is_one = has_key(source, [one for one, _ in inclusion.pairs])
    near = (End.ANY, End.AT_MOST_ONE), (End.SOME, End.ONE)
    is_only = has_key(target, [one for _, one in inclusion.pairs])
    return near[inclusion.is_mutual][is_one], End.ONE if is_only else End.SOME


class Making:
    """Makes the schema of a run of td."""

    def __init__(self, session):
        self.catalog = Catalog(session)
        self.schema = Schema()
        self.relvars = {}

    def made(self):
        """The schema of the database."""
        with StandIns(self.catalog) as asked:
            for one in self.catalog.definitions:
                if one.kind in RELVARS:
                    self.relvar(one, asked)
                elif one.kind is Kind.CONSTRAINT:
                    self.constraint(one, asked)
                else:
                    self.schema.types.append(one.statement.removeprefix("TYPE ").removesuffix(";"))
        return self.schema

    def mentioned(self, one, asked):
        """The relvars that a definition mentions."""
        others = [self.catalog.named(name) for name in one.words]
        found = [other for every in others for other in every if other.kind in RELVARS]
        names = {other.name for other in found if asked.mentions(one, other)}
        return [relvar for name, relvar in self.relvars.items() if name in names]

    def relvar(self, one, asked):
        made = Relvar(
            one.name,
            one.kind is Kind.VIRTUAL,
            self.catalog.heading(one),
            one.keys,
            self.catalog.count(one),
        )
        if made.is_virtual:
            origins = self.mentioned(one, asked)
            self.schema.edges += [Edge(Link.ORIGIN, made, origin) for origin in origins]
        self.relvars[one.name] = made
        self.schema.relvars.append(made)

    def constraint(self, one, asked):
        attributes = {name: dict(relvar.heading) for name, relvar in self.relvars.items()}
        found = inclusions(one.expression, attributes)
        for each in found:
            source, target = self.relvars[each.source], self.relvars[each.target]
            both = ends(source, target, each)
            self.schema.edges.append(
                Edge(Link.INCLUSION, source, target, one.name, each.pairs, both)
            )
        if not found:
            note = Note(one.name, one.expression)
            self.schema.notes.append(note)
            mentioned = self.mentioned(one, asked)
            self.schema.edges += [Edge(Link.MENTION, note, relvar) for relvar in mentioned]


def schema_of(dump_text):
    """The schema of the database that a dump makes."""
    with Session() as session:
        session.answer(encoded(dump_text))
        return Making(session).made()
