"""The inclusions that a constraint demands: that what a relvar has for attributes, another has too.

They are read from its expression: `A {X} <= B {Y RENAME ..}` and the like, IS_EMPTY of a MINUS, of
a NOT MATCHING, or of what has no partner by look-ups, as `IS_EMPTY(A WHERE (WITH (N := X) :
IS_EMPTY(B WHERE Y = N)))`, and several of these with AND between.
"""
from dataclasses import dataclass

from .parts import of_expression

BELOW, ABOVE = {"<=", "="}, {">="}


@dataclass(frozen=True)
class Inclusion:
    """That the tuples of a relvar have partners in another that agree with them."""

    source: str
    target: str
    # The attributes that agree, each of the source with that of the target.
    pairs: tuple
    # Whether the tuples of the target have partners in the source, too.
    is_mutual: bool = False


@dataclass
class Side:
    """What stands on a side of a comparison: a relvar, and of each attribute of the side the one
    of the relvar that it is."""

    relvar: str
    attributes: dict


class Reading:
    """Reads the expression of a constraint, by the attributes of each relvar."""

    def __init__(self, expression, attributes):
        self.text, self.tree = of_expression(expression)
        self.attributes = attributes

    def text_of(self, part):
        return self.text[part.begins : part.ends]

    def inclusions(self, part):
        """The inclusions that the part demands, or None where it demands something else too."""
        part = part.bare
        operands = [one for one, _ in part.operands]
        if part.kind == "AND":
            found = [self.inclusions(one) for one in operands]
            return None if None in found else found[0] + found[1]
        if part.kind == "IS_EMPTY":
            return self.of_nothing(operands[0])
        if part.kind in BELOW | ABOVE:
            left, right = operands if part.kind in BELOW else operands[::-1]
            return self.between(left, right, part.kind == "=", is_whole=True)
        return None

    def of_nothing(self, part):
        """Those of a MINUS, a NOT MATCHING or a WHERE that has to be empty."""
        part = part.bare
        if part.kind not in ("MINUS", "NOT MATCHING", "WHERE"):
            return None
        (left, _), (right, _) = part.operands
        if part.kind == "WHERE":
            return self.by_look_up(self.side(left), right.bare)
        return self.between(left, right, False, part.kind == "MINUS")

    def by_look_up(self, source, part):
        """The inclusion that no tuple of the source is without one of a relvar that has, for its
        attributes, what WITH names."""
        if source is None or part.kind != "WITH":
            return None
        *items, sought = [one.bare for one, _ in part.operands]
        named = {self.text_of(name): self.text_of(item) for name, item in zip(part.added, items)}
        are_names = all(item.kind == "name" for item in items)
        are_own = are_names and not set(named) & set(named.values())
        if sought.kind != "IS_EMPTY" or not are_own:
            return None
        found = sought.operands[0][0].bare
        if found.kind != "WHERE":
            return None
        target = self.side(found.operands[0][0])
        pairs = target and self.equalities(found.operands[1][0].bare, named, target)
        known = pairs and all(own in source.attributes for own, _ in pairs)
        if not known or len(pairs) != len(named):
            return None
        ours = ((source.attributes[own], target.attributes[other]) for own, other in pairs)
        return [Inclusion(source.relvar, target.relvar, tuple(ours))]

    def equalities(self, part, named, target):
        """The attributes of the source that are named, each with that of the target which equals
        it; None where something else is asked."""
        if part.kind == "AND":
            both = [self.equalities(one.bare, named, target) for one, _ in part.operands]
            return None if None in both else both[0] + both[1]
        if part.kind != "=":
            return None
        for name, other in (map(self.text_of, order) for order in self.orders(part)):
            if name in named and name not in target.attributes and other in target.attributes:
                return [(named[name], other)]
        return None

    @staticmethod
    def orders(part):
        """The two sides of a comparison, in both orders."""
        left, right = (one.bare for one, _ in part.operands)
        return (left, right), (right, left)

    def between(self, left, right, is_mutual, is_whole):
        """The inclusion of one side in another: by all attributes, or by those in common."""
        sides = self.side(left), self.side(right)
        if None in sides:
            return None
        source, target = sides
        common = [one for one in source.attributes if one in target.attributes]
        if is_whole and not len(common) == len(source.attributes) == len(target.attributes):
            return None
        pairs = tuple((source.attributes[one], target.attributes[one]) for one in common)
        return [Inclusion(source.relvar, target.relvar, pairs, is_mutual)]

    def side(self, part):
        """The side that a part is: a relvar, projected and renamed; None where it is no such."""
        part = part.bare
        if part.kind == "name" and self.text_of(part) in self.attributes:
            name = self.text_of(part)
            return Side(name, {one: one for one in self.attributes[name]})
        if part.kind not in ("attributes", "rename"):
            return None
        side = self.side(part.operands[0][0])
        return side and self.behind(side, part)

    def behind(self, side, part):
        """The side, projected or renamed as the part is."""
        names, known = [*map(self.text_of, part.names)], side.attributes
        if part.kind == "rename":
            new = dict(zip(names, map(self.text_of, part.added)))
            return Side(side.relvar, {new.get(one, one): of for one, of in known.items()})
        kept = {one: of for one, of in known.items() if (one in names) != part.is_all_but}
        return Side(side.relvar, kept)


def inclusions(expression, attributes):
    """The inclusions that a constraint's expression demands, where it demands nothing else."""
    reading = Reading(expression, attributes)
    return reading.inclusions(reading.tree) or [] if reading.tree is not None else []
