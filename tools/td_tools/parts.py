"""The parts of a statement, each with the question by which td is asked for it alone.

A part is asked where it stands: what names attributes of a tuple is asked within an EXTEND of the
operand whose tuples they are, the branch of an IF under its condition, and what names an item of
WITH behind that item.
"""
import os
from dataclasses import dataclass, field

from .grammar import LEVELS, Node, Run, Stop, of_run, parsed

# An attribute that no script has.
FRESH = "X" + os.urandom(6).hex()
POSTFIXES = {"attributes", "rename", "group", "ungroup"}
LITERALS = {"number", "text", "TRUE", "FALSE", "TABLE_DEE", "TABLE_DUM"}
# Forms whose operands stand between signs, as that of a pair of parentheses does, of no kind.
SIGNED = {"selector": "selector", "component": "component", "literal": "number"}


@dataclass(frozen=True)
class Scope:
    """That a part is evaluated for each tuple of an operand, and may name its attributes."""

    # The operand, which gives the types, and the tuples of it that count.
    operand: str
    tuples: str

    def truth(self, question, is_static):
        """A question, an expression of type BOOLEAN, within the scope."""
        operand = self.operand if is_static else self.tuples
        return f"IS_EMPTY(EXTEND ({operand}) ADD ({question} AS {FRESH}))"

    def typed(self, text):
        """An expression in whose type that of the text stands."""
        return f"EXTEND ({self.operand}) ADD ({text} AS {FRESH})"


@dataclass(frozen=True)
class Branch:
    """That a part is evaluated where a condition is TRUE, or where it is FALSE."""

    condition: str
    is_taken: bool

    @property
    def holds(self):
        """The condition under which the part is evaluated."""
        return f"({self.condition})" if self.is_taken else f"NOT ({self.condition})"

    def truth(self, question, _):
        parts = (question, "TRUE") if self.is_taken else ("TRUE", question)
        return f"IF ({self.condition}) THEN {' ELSE '.join(parts)} END IF"

    def typed(self, text):
        return text


@dataclass(frozen=True)
class Naming:
    """That a part may name the items of WITH before it."""

    # The name of each item and its expression.
    items: tuple

    @property
    def names(self):
        return [name for name, _ in self.items]

    @property
    def last(self):
        """The relation of the one tuple that the last item stands for."""
        name, text = self.items[-1]
        return f"RELATION {{TUPLE {{{name} {text}}}}}"

    @property
    def settings(self):
        return ", ".join(f"{name} := {text}" for name, text in self.items)

    def truth(self, question, _):
        return self.typed(question)

    def typed(self, text):
        """An expression that has the type, and the value, of the text."""
        return f"(WITH ({self.settings}) : {text})"


def scope(operand, tuples=None):
    return Scope(operand, tuples or operand)


def naming(items):
    return Naming(tuple(items)) if items else None


def has_value(text):
    """A question that is refused as the expression is."""
    return f"IS_EMPTY(RELATION {{TUPLE {{{FRESH} ({text})}}}})"


def is_type(text):
    return f"IS_EMPTY(RELATION {{{FRESH} {text}}} {{}})"


@dataclass
class Part:
    """A part of a statement: where it stands, what it is, and how td is asked for it alone."""

    begins: int
    ends: int
    kind: str
    # An expression of type BOOLEAN that is refused as the part is.
    question: str
    # The parts in it, each with the frame of the questions about it, or None.
    operands: list = field(default_factory=list)
    # Tokens that name attributes of its first operand, and whether all but these are meant.
    names: list = field(default_factory=list)
    is_all_but: bool = False
    is_expression: bool = True
    # A part that is no operand, and whose type tells.
    beside: object = None
    # Tokens of the names that it adds to its first operand's, or puts in their place; of WITH those
    # of its items.
    added: list = field(default_factory=list)
    replaces: bool = False
    # The tuples for which an aggregate has nothing to go over, as an expression.
    lacking: str = ""

    def asked(self):
        """The question about the part alone."""
        return self.question

    def within(self):
        """The parts right in it, each with its frame."""
        return self.operands

    @property
    def bare(self):
        """The part without the parentheses around it."""
        one = self
        while one.kind == "" and one.is_expression:
            one = one.operands[0][0]
        return one


class Parts:
    """Makes the parts of the trees of a text, which stands so far from a statement's begin."""

    def __init__(self, text, begins=0):
        self.text, self.shift = text, begins

    def text_of(self, part):
        return self.text[part.begins - self.shift : part.ends - self.shift]

    def made(self, begins, ends, kind, operands=(), names=()):
        """The part of these tokens' text."""
        question = has_value(self.text[begins:ends])
        begins, ends = begins + self.shift, ends + self.shift
        return Part(begins, ends, kind, question, [*operands], [*map(self.moved, names)])

    def moved(self, token):
        """The token with its place in the statement."""
        begins, ends = token.begins + self.shift, token.ends + self.shift
        return token._replace(begins=begins, ends=ends)

    def of_node(self, node, kind, operands=(), names=()):
        return self.made(node.begins, node.ends, kind, operands, names)

    def scope(self, part):
        return scope(self.text_of(part))

    def names(self, node):
        """The names in a list of attributes, and whether all but these are meant."""
        every = leaves(node)
        is_all_but = any(one.kind == "ALL" for one in every)
        return [one for one in every if one.kind == "name"], is_all_but

    def expression(self, node):
        """The part that an expression of any level is."""
        if not isinstance(node, Node):
            return self.of_node(node, node.kind)
        parts = node.parts
        if len(parts) == 1:
            return self.expression(parts[0])
        if getattr(parts[0], "kind", "") == "WITH":
            return self.binding(node, parts)
        if node.name in LEVELS and node.name != "primary":
            return self.folded(parts)
        if node.name in ("relation", "tuple", "extend", "summarize", "choice", "call"):
            return getattr(self, node.name)(node, parts)
        # What is left has its operands between signs: (e), T(e, ..), THE_C(e), -5.
        operands = [(self.expression(one), None) for one in operands_in(parts)]
        return self.of_node(node, SIGNED.get(node.name, ""), operands)

    def binding(self, node, parts):
        """WITH (A := e, ..) : x, whose items are in scope in those behind them and in x."""
        items, operands = [], []
        settings = [one.parts for one in nodes(parts[2], "setting")]
        for name, _, source in settings:
            one = self.expression(source)
            operands.append((one, naming(items)))
            items.append((self.text[name.begins : name.ends], self.text_of(one)))
        operands.append((self.expression(parts[5]), naming(items)))
        part = self.of_node(node, "WITH", operands)
        part.added = [self.moved(name) for name, *_ in settings]
        return part

    def folded(self, parts):
        """Operands with operators between, before or behind: grouped from the left."""
        if not is_operand(parts[0]) or is_from(parts[0]):
            return self.prefixed(parts)
        left, at = self.expression(parts[0]), 1
        while at < len(parts):
            if is_postfix(parts[at]):
                left = self.postfix(left, parts[at])
                at += 1
            else:
                left = self.infix(left, parts[at], self.expression(parts[at + 1]))
                at += 2
        return left

    def prefixed(self, parts):
        """NOT p, -a, TCLOSE r, A FROM t, TUPLE FROM r."""
        operand = self.expression(parts[1])
        kind = " ".join(self.text[one.begins : one.ends] for one in leaves(parts[0])).upper()
        names = [one for one in leaves(parts[0]) if one.kind == "name"]
        kind = "FROM" if names else kind
        return self.made(parts[0].begins, parts[1].ends, kind, [(operand, None)], names)

    def infix(self, left, operator, right):
        kind = " ".join(self.text[operator.begins : operator.ends].upper().split())
        frame = self.scope(left) if kind == "WHERE" else None
        begins, ends = left.begins - self.shift, right.ends - self.shift
        return self.made(begins, ends, kind, [(left, None), (right, frame)])

    def postfix(self, operand, node):
        (node,) = node.parts if node.name == "postfix" else (node,)
        kind, added, (names, is_all_but) = node.name, [], self.names(node)
        if kind == "rename":
            names, added = names[::2], names[1::2]
        elif kind == "group":
            kind, names = leaves(node)[0].kind, names[:-1]
        begins = operand.begins - self.shift
        part = self.made(begins, node.ends, kind, [(operand, None)], names)
        part.is_all_but, part.added = is_all_but, [*map(self.moved, added)]
        return part

    def call(self, node, parts):
        """COUNT(r), IS_EMPTY(r), SUM(r, e), MAX(r, e), MIN(r, e)."""
        first, *others = [self.expression(one) for one in operands_in(parts)]
        kind = self.text[node.begins : parts[0].ends].upper()
        operands = [(first, None), *((one, self.scope(first)) for one in others)]
        return self.of_node(node, kind, operands)

    def relation(self, node, parts):
        """A relation: where it has a heading each tuple is asked with that, else with the first."""
        headings = [one for one in parts if isinstance(one, Node) and one.name == "heading"]
        front = self.text[headings[0].begins : headings[0].ends] if headings else ""
        operands = [(self.heading(one), None) for one in headings]
        listed = [one for one in parts if isinstance(one, Node) and one.name == "list"]
        elements = [one for each in listed for one in self.elements(each)]
        made = Elements(self, front, elements).every()
        return self.of_node(node, "RELATION", [*operands, *((one, None) for one in made)])

    def elements(self, listed):
        """The places of the tuples in a list, with their trees where these are known."""
        for one in listed.parts:
            if isinstance(one, Run):
                yield from ((begins, ends, None) for begins, ends in of_run(one, self.text))
            elif is_operand(one):
                yield one.begins, one.ends, one

    def tuple(self, node, parts):
        values = [one.parts for one in parts if isinstance(one, Node)]
        return self.of_node(node, "TUPLE", [(self.expression(one[1]), None) for one in values])

    def extend(self, node, parts):
        """EXTEND r ADD (e AS A, ..) or EXTEND r : {A := e, ..}."""
        operand, replaces = self.expression(parts[1]), parts[2].kind == ":"
        added = [one.parts for one in nodes(parts[4], "setting" if replaces else "addition")]
        added = added if replaces else [one[::-1] for one in added]
        operands = [(self.expression(one), self.scope(operand)) for _, _, one in added]
        part = self.of_node(node, "EXTEND", [(operand, None), *operands])
        part.added, part.replaces = [self.moved(name) for name, *_ in added], replaces
        return part

    def summarize(self, node, parts):
        operand, per = self.expression(parts[1]), parts[2].parts
        operands, said = [(operand, None)], self.text_of(operand)
        names, is_all_but = ([], False) if len(per) > 2 else self.names(per[1])
        frame, lacking = self.scope(operand), ""
        if len(per) > 2:
            groups = self.expression(per[2])
            operands.append((groups, None))
            frame = scope(said, f"({said}) MATCHING ({self.text_of(groups)})")
            lacking = f"({self.text_of(groups)}) NOT MATCHING ({said})"
        front = self.text[node.begins : parts[4].ends]
        for item in [one for one in parts[5:] if isinstance(one, Node)]:
            operands.append((self.item(item, front, frame, lacking), None))
        part = self.of_node(node, "SUMMARIZE", operands, names)
        part.is_all_but = is_all_but
        return part

    def item(self, node, front, frame, lacking):
        """An aggregate of SUMMARIZE, asked behind what stands before the first one."""
        operands = [(self.expression(one), frame) for one in operands_in(node.parts[1:])]
        part = self.of_node(node, "item", operands)
        part.question = f"IS_EMPTY({front}{self.text[node.begins : node.ends]}))"
        part.is_expression, part.lacking = False, lacking
        return part

    def choice(self, node, parts):
        condition, one, other = [self.expression(each) for each in operands_in(parts)]
        said = self.text_of(condition)
        operands = [(condition, None), (one, Branch(said, True)), (other, Branch(said, False))]
        return self.of_node(node, "IF", operands)

    def heading(self, node):
        """A heading, in which types may be unknown and names twice."""
        said = self.text[node.begins : node.ends]
        found = [one.parts[1] for one in nodes(node, "attribute")]
        operands = [(self.type(one), None) for one in found]
        begins, ends = node.begins + self.shift, node.ends + self.shift
        question = f"IS_EMPTY(RELATION {said} {{}})"
        return Part(begins, ends, "heading", question, operands, is_expression=False)

    def type(self, node):
        """A type: a name, or what has a heading."""
        parts = node.parts
        operands = [(self.heading(one), None) for one in parts if isinstance(one, Node)]
        begins, ends = node.begins + self.shift, node.ends + self.shift
        question = is_type(self.text[node.begins : node.ends])
        return Part(begins, ends, "type", question, operands, is_expression=False)


@dataclass
class Elements:
    """The tuples in the list of a relation, of which there may be thousands."""

    parts: Parts
    heading: str
    # Where each begins and ends, and its tree, if it is known.
    places: list

    def every(self):
        return [Element(self, number) for number in range(len(self.places))]

    def question(self, first, last):
        """One about the tuples from the first to the last. Without a heading the very first one
        says what it is."""
        begins, ends = self.places[first][0], self.places[last][1]
        said = self.parts.text[begins:ends]
        if not self.heading and first:
            said = f"{self.parts.text[slice(*self.places[0][:2])]}, {said}"
        return f"IS_EMPTY(RELATION {self.heading} {{{said}}})"


class Element(Part):
    """A tuple in the list of a relation, which is read where it is asked for."""

    def __init__(self, elements, number):
        begins, ends, _ = elements.places[number]
        shift = elements.parts.shift
        super().__init__(begins + shift, ends + shift, "element", "")
        self.elements, self.number = elements, number

    def asked(self):
        return self.elements.question(self.number, self.number)

    @property
    def is_plain(self):
        """Whether it has numbers, texts and the like alone."""
        return self.elements.places[self.number][2] is None

    def within(self):
        return [] if self.is_plain else [(self.inner(), None)]

    def inner(self):
        """The expression that it is."""
        parts, node = self.elements.parts, self.elements.places[self.number][2]
        if node is not None:
            return parts.expression(node)
        text = f"WRITE {parts.text_of(self)};"
        return Parts(text, self.begins - len("WRITE ")).expression(written(parsed(text)))


def leaves(node):
    """The tokens of a tree."""
    if not isinstance(node, Node):
        return [node]
    return [leaf for one in node.parts for leaf in leaves(one)]


def nodes(node, name):
    """The trees of this name right in a tree, or in its list."""
    found = []
    for one in node.parts:
        if isinstance(one, Node):
            found += [one] if one.name == name else nodes(one, name)
    return found


def written(tree):
    """The expression of a statement WRITE."""
    return tree.parts[0].parts[1]


def of_expression(expression):
    """A statement that writes an expression, and the part of it that the expression is, or None
    where it is not spelled."""
    text = f"WRITE {expression};"
    tree = parsed(text)
    return text, None if isinstance(tree, Stop) else Parts(text).expression(written(tree))


def is_operand(one):
    """Whether this is an operand among the parts of an expression, and no sign and no word."""
    if isinstance(one, Node):
        return one.name not in ("combining", "joining", "comparing", "measure", "aggregate")
    return getattr(one, "kind", "") in ("name", "number", "text")


def is_from(one):
    return isinstance(one, Node) and one.name == "from"


def is_postfix(one):
    return isinstance(one, Node) and one.name in POSTFIXES | {"postfix"}


def operands_in(parts):
    """The expressions among the parts of a form, also those of its list."""
    found = []
    for one in parts:
        if isinstance(one, Node) and one.name == "list":
            found += operands_in(one.parts)
        elif isinstance(one, Node) and is_operand(one):
            found.append(one)
    return found
