"""Keys that the tuples of an expression must have, by the keys of the relvars in it.

Not all are found: where nothing tells, the whole heading is one.
"""
from .parts import Naming, of_expression


class Operand:
    """An expression in a text, with the operands around it whose attributes it may name, and the
    items of WITH, by their names, that it may name."""

    def __init__(self, text, part, around, schema, items=None):
        self.text, self.part, self.around, self.schema = text, part.bare, around, schema
        self.items = items or {}

    def operand(self, place):
        part, frame = self.part.operands[place]
        if isinstance(frame, Naming):
            return self.operand(place - 1).named_in(part, frame)
        return Operand(self.text, part, self.around, self.schema, self.items)

    def named_in(self, part, frame):
        """A part that may name this item of WITH, the frame's last, and what this may name."""
        items = {**self.items, frame.names[-1]: self}
        return Operand(self.text, part, (*self.around, frame.last), self.schema, items)

    @property
    def item(self):
        """The item of WITH that it names, if it does."""
        return self.items.get(self.source) if self.part.kind == "name" else None

    @property
    def source(self):
        return self.text[self.part.begins : self.part.ends]

    def heading(self):
        names = self.schema.heading(self.source, self.around)
        return None if names is None else frozenset(names)

    def names(self, tokens):
        return [self.text[one.begins : one.ends] for one in tokens]

    def relvars(self):
        """The relvars that are named in it, also by the items of WITH that it names."""
        waiting, found = [self.part], []
        while waiting:
            one = waiting.pop()
            waiting += [inner for inner, _ in one.within()]
            found += [one] if one.kind == "name" else []
        every = set(self.names(found))
        relvars = {name for name in every - {*self.items} if self.schema.definition(name)}
        return relvars.union(*(self.items[name].relvars() for name in every & {*self.items}))

    def keys(self):
        """Keys of the relation, each a set of names; none where its heading is not known."""
        heading = self.heading()
        if heading is None:
            return set()
        found = KEYS[self.part.kind](self) if self.part.kind in KEYS else set()
        return {key for key in found if key <= heading} or {heading}


def of_name(operand):
    """The keys of a relvar; of a virtual one without any those of its expression. An item of WITH
    has those of its own."""
    if operand.item:
        return operand.item.keys()
    known = operand.schema.definition(operand.source)
    if known is None:
        return set()
    if known.keys:
        return {frozenset(names) for names in known.keys}
    text, part = of_expression(known.expression)
    return Operand(text, part, (), operand.schema).keys() if part else set()


def of_first(operand):
    return operand.operand(0).keys()


def of_with(operand):
    return operand.operand(-1).keys()


def of_extend(operand):
    """Those of the operand of which nothing is set."""
    added = operand.names(operand.part.added)
    return {key for key in of_first(operand) if key.isdisjoint(added)}


def of_rename(operand):
    new = dict(zip(operand.names(operand.part.names), operand.names(operand.part.added)))
    return {frozenset(new.get(one, one) for one in key) for key in of_first(operand)}


def of_group(operand):
    """The attributes that are not grouped, on which each group agrees."""
    return {operand.operand(0).heading() - attributes(operand)}


def of_summarize(operand):
    """The attributes of BY, or keys of the relation of PER."""
    groups = operand.operand(1)
    return groups.keys() if groups.part.is_expression else {attributes(operand)}


def attributes(operand):
    """The attributes of its first operand that an operator names, or that it does not leave out."""
    names = frozenset(operand.names(operand.part.names))
    return operand.operand(0).heading() - names if operand.part.is_all_but else names


def common_attributes(operand):
    """What the operands of a combination have in common; None where a heading is not known."""
    headings = [operand.operand(place).heading() for place in (0, 1)]
    return None if None in headings else headings[0] & headings[1]


def of_join(operand):
    """The keys of a join: those of one side, where the other adds one tuple at most, and pairs."""
    common = common_attributes(operand)
    left, right = operand.operand(0).keys(), operand.operand(1).keys()
    if common is None:
        return set()
    found = {one | other for one in left for other in right}
    if any(key <= common for key in right):
        found |= left
    if any(key <= common for key in left):
        found |= right
    return found


KEYS = {
    "name": of_name,
    "WITH": of_with,
    "EXTEND": of_extend,
    "rename": of_rename,
    "GROUP": of_group,
    "SUMMARIZE": of_summarize,
    **dict.fromkeys(("JOIN", "TIMES"), of_join),
    **dict.fromkeys(("WHERE", "attributes"), of_first),
    **dict.fromkeys(("MINUS", "I_MINUS", "INTERSECT", "MATCHING", "NOT MATCHING"), of_first),
}
