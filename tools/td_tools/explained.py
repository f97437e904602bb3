"""Why a condition is FALSE: the tuples that are where they must not be, or the values compared."""
from .parts import FRESH, of_expression
from .places import as_written, one_line, shortened

INCLUSIONS = {"<=": [(0, 1)], "<": [(0, 1)], ">=": [(1, 0)], ">": [(1, 0)], "=": [(0, 1), (1, 0)]}
COMPARISONS = {*INCLUSIONS, "<>"}


def explained(copy, expression):
    """Pairs of what is said and of a relation's literal, or none, of a condition that is FALSE."""
    text, part = of_expression(expression)
    return list(Explanation(copy, text).of(part))


class Explanation:
    """Asks td for the parts of a condition that is FALSE."""

    def __init__(self, copy, text):
        self.copy, self.text = copy, text
        # What gives the names of items of WITH around a part.
        self.names = []

    def written(self, expression):
        """What td writes of an expression that these names are in scope of."""
        for frame in reversed(self.names):
            expression = frame.typed(expression)
        return self.copy.value(expression)

    def said(self, part):
        return self.text[part.begins : part.ends]

    def shown(self, part):
        return shortened(as_written(self.said(part)), 60)

    def is_true(self, part):
        return self.written(self.said(part)) == "TRUE"

    def of(self, part):
        """What makes the part FALSE."""
        part = part.bare
        operands = [one for one, _ in part.operands]
        if part.kind in ("AND", "OR"):
            for one in operands:
                if part.kind == "OR" or not self.is_true(one):
                    yield from self.of(one)
        elif part.kind == "IF":
            condition, taken, other = operands
            yield from self.of(taken if self.is_true(condition) else other)
        elif part.kind == "WITH":
            result, frame = part.operands[-1]
            self.names.append(frame)
            yield from self.of(result)
            self.names.pop()
        elif part.kind == "IS_EMPTY":
            (relation,) = operands
            yield f"{self.shown(relation)} must be empty, and has", self.value(relation)
        elif part.kind == "NOT" and operands[0].kind == "IS_EMPTY":
            yield f"{self.shown(operands[0].operands[0][0])} is empty", ""
        elif part.kind in COMPARISONS and self.is_relation(operands[0]):
            yield from self.of_relations(part.kind, operands)
        elif part.kind in COMPARISONS | {"IN"}:
            yield from self.of_values(part.kind, operands)
        else:
            yield f"{self.shown(part)} is FALSE", ""

    def value(self, part):
        return self.written(self.said(part))

    def is_relation(self, part):
        return self.value(part).startswith("RELATION ")

    def of_relations(self, kind, operands):
        """Of an inclusion what the one side has and the other has not."""
        found = False
        for left, right in INCLUSIONS.get(kind, []):
            left, right = operands[left], operands[right]
            value = self.written(f"({self.said(left)}) MINUS ({self.said(right)})")
            if not value.endswith("{}"):
                found = True
                yield f"{self.shown(left)} has, and {self.shown(right)} has not", value
        if not found:
            yield "both sides are", self.value(operands[0])

    def of_values(self, kind, operands):
        """The values of the sides; of two counts the tuples that a projection makes one."""
        counted = [self.counted(one) for one in operands]
        if kind in ("=", "<=", ">=") and all(counted):
            short, whole = sorted(counted, key=lambda one: len(self.said(one)), reverse=True)
            if self.is_projection_of(short, whole):
                yield self.agreeing(short, whole)
                return
        for one in operands:
            value = self.value(one)
            if value != self.said(one).strip():
                yield f"{self.shown(one)} is {one_line(value)}", ""
        for one in [one for one in counted if one]:
            yield f"{self.shown(one)} has", self.value(one)

    def counted(self, part):
        """The relation of which the part is the COUNT; None where it is no COUNT."""
        return part.operands[0][0] if part.kind == "COUNT" else None

    def is_projection_of(self, short, whole):
        is_same = short.operands and self.said(short.operands[0][0]) == self.said(whole)
        return short.kind == "attributes" and is_same

    def agreeing(self, short, whole):
        """The tuples of a relation that agree on the attributes of a projection of it."""
        relation = self.said(whole)
        listed = self.said(short)[len(relation) :]
        counted = f"SUMMARIZE ({relation}) BY {listed} ADD (COUNT() AS {FRESH})"
        label = f"tuples of {self.shown(whole)} agree on {as_written(listed)}"
        return label, self.written(f"({relation}) MATCHING ({counted} WHERE {FRESH} > 1)")
