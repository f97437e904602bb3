"""What a statement may say that is seldom meant: each with its place and what is often meant."""
from dataclasses import dataclass
from itertools import groupby
from operator import itemgetter

from . import parts
from .candidate_keys import Operand, common_attributes
from .grammar import Stop, parsed
from .lexemes import tokens
from .statements import Reader
from .tables import visible

LONGEST_LABEL = 40
OFTEN = "; often meant: "
COMPARISONS = {"=", "<>", "<", "<=", ">", ">=", "IN"}
AGGREGATING = {"SUM", "MAX", "MIN", "SUMMARIZE"}


@dataclass(frozen=True)
class Remark:
    """What is said of a place in a statement."""

    at: int
    says: str


@dataclass(frozen=True)
class Scope:
    """An operand for each of whose tuples an expression is evaluated.

    It has no text where it is a type, whose components are the names; and its attributes are None
    where they are not known. An item of WITH is the relation of one tuple, whose attribute is its
    name.
    """

    text: str | None
    attributes: frozenset[str] | None
    is_aggregate: bool = False
    item: Operand | None = None

    @property
    def kind(self):
        return "name" if self.item else "attribute"

    @property
    def label(self):
        if self.item:
            return "WITH"
        text = visible(" ".join(self.text.split())) if self.text else "the type"
        return text if len(text) <= LONGEST_LABEL else text[: LONGEST_LABEL - 2] + ".."


def listed(names):
    return "{" + ", ".join(sorted(names)) + "}"


def framed(part):
    """The parts in a part, each with its frame: of what SUMMARIZE adds that which is aggregated."""
    for one, frame in part.within():
        yield from one.operands if one.kind == "item" else [(one, frame)]


class Linter:
    """Looks through a statement, with the schema of the database that it is to be run on."""

    def __init__(self, statement, schema):
        self.text, self.schema = statement, schema
        self.remarks = []
        self.scopes = []
        # Of each scope, by its depth, whether a name is its attribute, and what hides one of it.
        self.named, self.hidden = [], []

    def warn(self, part, says):
        self.remarks.append(Remark(part.begins, says))

    def around(self):
        return tuple(scope.text for scope in self.scopes)

    def operand(self, part):
        return Operand(self.text, part, self.around(), self.schema, self.items())

    def items(self):
        """The items of WITH by their names, where no attribute hides these."""
        found = {}
        for scope in self.scopes:
            hidden = scope.attributes if scope.attributes is not None else {*found}
            found = {name: one for name, one in found.items() if name not in hidden}
            found |= dict.fromkeys(hidden, scope.item) if scope.item else {}
        return found

    def scope_of_item(self, part, token):
        """The scope of an item of WITH for what is behind it."""
        name, operand = self.text[token.begins : token.ends], self.operand(part)
        text = f"RELATION {{TUPLE {{{name} {operand.source}}}}}"
        return Scope(text, frozenset({name}), item=operand)

    def scope(self, part):
        """The scope of the tuples of a part's first operand."""
        operand = self.operand(part.operands[0][0])
        attributes = operand.heading() if None not in self.around() else None
        return Scope(operand.source, attributes, part.kind in AGGREGATING)

    # ---- going through

    def visit_statement(self, read):
        """Looks through a statement's parts: the constraint of a type may name its components."""
        if read.kind == "TYPE":
            names = [self.text[name.begins : name.ends] for name, _ in read.typed]
            self.visit_within(Scope(None, frozenset(names)), read.parts)
        else:
            self.visit_all(read.parts)

    def visit_all(self, several):
        for part in several:
            self.visit(part)

    def visit(self, part):
        """Looks through a part, of which parentheses say nothing."""
        part = part.bare
        if part.kind == "name" and self.scopes:
            self.visit_name(part)
        elif part.kind in COMPARISONS and self.is_of_itself(part):
            self.visit_of_itself(part)
        elif part.kind == "WITH":
            self.visit_with(part)
        else:
            self.visit_operands(part)

    def visit_operands(self, part):
        """Looks through what is in a part: at once through all that has the same frame."""
        if part.kind == "JOIN" and None not in self.around():
            self.check_join(self.operand(part))
        for frame, several in groupby(framed(part), key=itemgetter(1)):
            inner = [one for one, _ in several]
            if isinstance(frame, parts.Scope):
                self.visit_scoped(part, inner)
            else:
                self.visit_all(inner)

    def visit_with(self, part):
        """Looks through the items of WITH and its result, each behind the items before it."""
        *items, result = [one for one, _ in part.operands]
        for one, token in zip(items, part.added):
            self.visit(one)
            self.enter(self.scope_of_item(one, token))
        self.visit(result)
        for _ in items:
            self.leave()

    def visit_scoped(self, part, inner):
        """Looks through what is evaluated for each tuple of a part's first operand. That is the
        condition of a restriction, also of DELETE and UPDATE, where the part has no other one."""
        scope = self.scope(part)
        is_named, hidden = self.visit_within(scope, inner)
        condition, is_condition = inner[0].bare, part.kind in ("WHERE", "")
        is_varying = scope.attributes and condition.kind not in parts.LITERALS
        if is_condition and len(part.operands) == 2 and is_varying and not (is_named or hidden):
            says = f"the condition names no attribute of {scope.label}, and so holds for all of "
            self.warn(condition, f"{says}its tuples or for none{self.meant(scope, condition)}")

    def visit_within(self, scope, several):
        """Looks through what is evaluated for each tuple. It gives whether an attribute of the
        operand is named, and whether one of it is hidden."""
        self.enter(scope)
        self.visit_all(several)
        return self.leave()

    def enter(self, scope):
        self.scopes.append(scope)
        self.named.append(scope.attributes is None)
        self.hidden.append(set())

    def leave(self):
        self.scopes.pop()
        return self.named.pop(), self.hidden.pop()

    # ---- names

    def depths(self, name):
        """The scopes that have an attribute of this name, the innermost first, up to the first of
        which that is not known."""
        for depth in reversed(range(len(self.scopes))):
            attributes = self.scopes[depth].attributes
            if attributes is None:
                self.named[: depth + 1] = [True] * (depth + 1)
                return
            if name in attributes:
                yield depth

    def visit_name(self, part):
        name = self.operand(part).source
        depth, *hidden = [*self.depths(name)] or [None]
        if depth is None:
            # A name that is no relvar's either is td's to refuse.
            is_relvar = self.schema.heading(name) is not None
            self.named = [one or not is_relvar for one in self.named]
            return
        self.named[depth] = True
        scope = self.scopes[depth]
        # WITH may give a name of WITH anew.
        is_anew = scope.item and hidden and self.scopes[hidden[0]].item
        if scope.is_aggregate or is_anew or not hidden:
            return
        outer = hidden[0]
        if (name, scope) not in self.hidden[outer]:
            self.hidden[outer].add((name, scope))
            other = self.scopes[outer].label
            says = f"{name} is the {scope.kind} of {scope.label} here, and hides that of {other}"
            self.warn(part, f"{says}{OFTEN}that one, with {name} of the inner one renamed")

    def is_of_itself(self, part):
        """Whether a comparison is one of a name with itself."""
        left, right = (self.operand(one) for one, _ in part.operands)
        return left.part.kind == right.part.kind == "name" and left.source == right.source

    def visit_of_itself(self, part):
        name = self.operand(part.operands[0][0]).source
        depth, *hidden = [*self.depths(name)] or [None]
        says = f"{name} is compared with itself"
        if depth is not None:
            self.named[depth] = True
        for outer in hidden[:1]:
            inner, other = self.scopes[depth].label, self.scopes[outer].label
            self.hidden[outer].add((name, self.scopes[depth]))
            says += f": both are of {inner}, which hides that of {other}{OFTEN}one of the two, "
            says += f"with {name} of the inner one renamed"
        self.warn(part, says)

    def meant(self, scope, condition):
        """What is often meant by a condition that names no attribute."""
        operand = self.operand(condition)
        texts = [one for one in tokens(operand.source) if one.kind == "text"]
        for text in (operand.source[one.begins + 1 : one.ends - 1] for one in reversed(texts)):
            if text in scope.attributes:
                return f"{OFTEN}{text} without quotes"
        if operand.relvars():
            return f"{OFTEN}MATCHING, PER, or a comparison with an attribute of {scope.label}"
        return ""

    # ---- joins

    def check_join(self, join):
        """Warns where both sides may have several tuples for one of the other."""
        left, right = join.operand(0), join.operand(1)
        common = common_attributes(join)
        is_given = "RELATION" in (left.part.kind, right.part.kind)
        if common is None or is_given or left.relvars() & right.relvars():
            return
        keys = left.keys() | right.keys()
        if any(key <= common for key in keys):
            return
        labels = [Scope(side.source, None).label for side in (left, right)]
        if not common:
            says = f"{labels[0]} and {labels[1]} have no attribute in common: the JOIN pairs each "
            says += f"tuple with each{OFTEN}TIMES, or a RENAME before"
        else:
            says = f"the JOIN is on {listed(common)}, which includes no key of {labels[0]} or of "
            says += f"{labels[1]}{OFTEN}other common attributes, by a projection or a RENAME before"
        self.warn(right.part, says)


def remarks_on(statement, schema):
    """The remarks on a statement, in the order of their places: none where it is not spelled."""
    tree, linter = parsed(statement), Linter(statement, schema)
    if not isinstance(tree, Stop):
        linter.visit_statement(Reader(statement).statement(tree))
    return sorted(linter.remarks, key=lambda one: one.at)
