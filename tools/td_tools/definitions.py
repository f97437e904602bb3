"""What is defined in a database, as td's dump says it."""
import re
from dataclasses import dataclass
from enum import Enum
from functools import cached_property

from .answers import decoded
from .literals import Reader, whole_lines

ANY_LINE = re.compile("[^\n]*\n")
INITIAL = " INIT ("
KEYS_AT_END = re.compile(r"(?:\)|\})((?: KEY \{[^{}()']*\})*);\Z")
NAMES = re.compile(r"\{([^{}]*)\}")
TYPE_NAMED = re.compile(r"([^\s{}(),]+)(?=[,}])")
WORD = re.compile(r"'(?:[^']|'')*'|[^\s{}(),;:=<>+\-*/|']+")


class Kind(Enum):
    """The kinds of definitions, in the order in which a dump has them."""

    TYPE = "type"
    BASE = "base relvar"
    VIRTUAL = "virtual relvar"
    CONSTRAINT = "constraint"


RELVARS = (Kind.BASE, Kind.VIRTUAL)


@dataclass(frozen=True)
class Definition:
    """A statement of a dump, which defines a type, a relvar or a constraint."""

    kind: Kind
    name: str
    statement: str

    @property
    def word(self):
        """The word with which it begins, and which stands behind DROP."""
        return "VAR" if self.kind in RELVARS else self.kind.name

    @cached_property
    def keys_text(self):
        return KEYS_AT_END.search(self.statement).group(1) if self.kind in RELVARS else ""

    @property
    def keys(self):
        """Of each candidate key the names of its attributes."""
        return [one.split(", ") if one else [] for one in NAMES.findall(self.keys_text)]

    @property
    def bare(self):
        """The statement without its keys and its `;`."""
        return self.statement.removesuffix(";").removesuffix(self.keys_text)

    @cached_property
    def heading(self):
        """The attributes of a base relvar, each with its type."""
        reader = Reader(self.statement)
        reader.take(f"VAR {self.name} BASE RELATION ")
        return reader.heading()

    @property
    def value(self):
        """The literal of a base relvar's value."""
        # No name of the heading has a parenthesis, and no key.
        begins = self.statement.index(INITIAL) + len(INITIAL)
        return self.statement[begins : self.statement.rindex(")")]

    @property
    def declared(self):
        """The definition without its keys and, of a base relvar, without its value."""
        return base_relvar(self.name, self.heading) if self.kind is Kind.BASE else self.bare

    @property
    def expression(self):
        """What a virtual relvar is, or what a constraint asks; of others there is none."""
        if self.kind is Kind.VIRTUAL:
            return self.bare.removeprefix(f"VAR {self.name} VIRTUAL (").removesuffix(")")
        is_constraint = self.kind is Kind.CONSTRAINT
        return self.bare.removeprefix(f"CONSTRAINT {self.name} ") if is_constraint else ""

    @property
    def representation(self):
        """What stands behind POSSREP in the definition of a type."""
        return self.bare.removeprefix(f"TYPE {self.name} POSSREP ")

    @property
    def components(self):
        """The components of a type, each with its type, and its constraint or None."""
        reader = Reader(self.representation)
        reader.take("{")
        found = [reader.attribute()]
        while reader.takes(", "):
            found.append(reader.attribute())
        is_constrained = reader.takes(" CONSTRAINT ")
        return found, self.representation[reader.at : -1] if is_constrained else None

    @cached_property
    def words(self):
        """The words of which it is made, of a base relvar's those of its attributes' types: all
        that it mentions is among them."""
        if self.kind is Kind.BASE:
            return {one for _, text in self.heading for one in TYPE_NAMED.findall(text + "}")}
        return set(WORD.findall(self.expression or self.representation))

    @property
    def unchecked(self):
        """The definition, in which nothing has a value that could be refused."""
        if self.kind is Kind.CONSTRAINT:
            return f"CONSTRAINT {self.name} IF TRUE THEN TRUE ELSE ({self.expression}) END IF;"
        return f"{self.declared}{self.keys_text if self.kind is Kind.BASE else ''};"


def base_relvar(name, heading):
    """The front of the definition of a base relvar."""
    return f"VAR {name} BASE RELATION {{{', '.join(map(' '.join, heading))}}}"


def definition(statement):
    """The definition that a statement of a dump is."""
    word, name, other = statement.split(" ", 3)[:3]
    return Definition(Kind[other if word == "VAR" else word], name, statement)


def definitions_of(dump):
    """The definitions of a dump, which is a text. Only a line feed ends a line."""
    return [definition(line[:-1]) for line in whole_lines(ANY_LINE.findall(dump))]


def definitions(session):
    """All that is defined, in the dump's order."""
    return definitions_of(decoded(session.answer(b"DUMP;")))


def heading_of(kind):
    """The attributes of the text of a relation type or a tuple type, each with its type."""
    reader = Reader(kind)
    if not (reader.takes("RELATION ") or reader.takes("TUPLE ")):
        return []
    return reader.heading()


def in_order(heading, keys):
    """The attributes, each with its type: those of the first key are in front."""
    types, first = dict(heading), keys[0] if keys else []
    return [(name, types[name]) for name in dict.fromkeys([*first, *types])]
