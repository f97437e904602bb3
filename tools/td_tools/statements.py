"""The parts that a statement itself has: its targets, sources, headings and the like.

Each is asked for by an expression, so that nothing is assigned, and nothing stays declared.
"""
from dataclasses import dataclass, field

from .grammar import Node
from .parts import FRESH, Part, Parts, has_value, nodes, scope

NO_TUPLES = "EXTEND TABLE_DUM ADD ("
# The operators of the assignments that ask more of their source than its heading.
OPERATORS = {"D_INSERT": "D_UNION", "I_DELETE": "I_MINUS"}


@dataclass
class Root:
    """The statement in which a question is asked, and how many answers that has."""

    truth: tuple
    type: tuple
    answers: int = 1


# A question that no value is asked of: there is no tuple to evaluate it for.
STATIC = Root(
    (f"WRITE IS_EMPTY({NO_TUPLES}", f" AS {FRESH}));"), (f"WRITE {NO_TUPLES}", f" AS {FRESH});")
)
VALUES = Root(("WRITE ", ";"), STATIC.type)


def within_type(components):
    """The constraint of a type sees the components, and no relvar."""
    relation = f"EXTEND RELATION {{{components}}} {{}} ADD ("
    return Root(
        (f"TYPE {FRESH} POSSREP {{{components} CONSTRAINT ", f"}}; DROP TYPE {FRESH};"),
        (f"WRITE {NO_TUPLES}{relation}", f" AS {FRESH}) AS {FRESH});"),
        answers=2,
    )


@dataclass
class Statement:
    """The parts of a statement, and where it has what the causes from 4 to 10 speak of."""

    parts: list
    root: Root | None = None
    # The token of the name that is declared or dropped, and the kind of what that is.
    name: object = None
    kind: str = ""
    heading: Part | None = None
    source: Part | None = None
    keys: list = field(default_factory=list)
    targets: list = field(default_factory=list)
    # Of each attribute or component that is declared its name and its type.
    typed: list = field(default_factory=list)


class Reader(Parts):
    """Reads a statement's tree."""

    def statement(self, tree):
        body = tree.parts[0]
        first, *others = body.parts if isinstance(body, Node) else tree.parts
        if isinstance(first, Node):
            one = first.parts[0] if first.name in ("definition", "transaction") else first
            read = getattr(self, one.name, None) if isinstance(one, Node) else None
            return read(one) if read else Statement([])
        return Statement([self.expression(one) for one in others])

    def between(self, first, last):
        return self.text[first.begins : last.ends]

    def whole(self, node, question, operands, names=()):
        """A part of its own, with a question that is refused as it is."""
        return Part(node.begins, node.ends, "", question, operands, [*names], is_expression=False)

    def assignments(self, node):
        every = [one.parts for one in nodes(node, "assignment")]
        read = [self.assignment(one) for one in every]
        return Statement(read, targets=[one.operands[0][0] for one in read])

    def assignment(self, parts):
        if not isinstance(parts[0], Node):
            return self.assigned(parts[0], parts[2])
        node = parts[0]
        return getattr(self, node.name)(node.parts)

    def insert(self, parts):
        return self.assigned(parts[1], parts[2], parts[0])

    def assigned(self, target, source, begin=None):
        """That the source may be assigned to the target, which has its heading."""
        source, target = self.expression(source), self.of_node(target, "name")
        operator = OPERATORS.get(begin and begin.kind, "UNION")
        question = f"IS_EMPTY(({self.text_of(target)}) {operator} ({self.text_of(source)}))"
        operands = [(target, None), (source, None)]
        return self.whole(spanning(begin or target, source), question, operands)

    def restricted(self, parts):
        """The target, and the part that restricts it to the tuples that are meant, if it does."""
        target = self.of_node(parts[1], "name")
        found = [one for one in parts if isinstance(one, Node) and one.name == "where"]
        if not found:
            return target, target
        condition = self.expression(found[0].parts[1])
        said = self.text_of(target)
        question = f"IS_EMPTY(({said}) WHERE ({self.text_of(condition)}))"
        operands = [(target, None), (condition, scope(said))]
        return target, self.whole(spanning(target, condition), question, operands)

    def delete(self, parts):
        if parts[0].kind == "I_DELETE":
            return self.assigned(parts[1], parts[2], parts[0])
        target, meant = self.restricted(parts)
        operands = [(target, None), (meant, None)]
        return self.whole(spanning(parts[0], meant), meant.asked(), operands)

    def update(self, parts):
        target, meant = self.restricted(parts)
        operands, names = [(target, None), (meant, None)], []
        frame = scope(self.text_of(target), self.text_of(meant))
        for setting in nodes(parts[-2], "setting"):
            operands.append((self.setting(setting), frame))
            names.append(setting.parts[0])
        listed = ", ".join(self.text[one.begins : one.ends] for one in names)
        question = f"IS_EMPTY(({self.text_of(target)}) {{{listed}}})"
        return self.whole(spanning(parts[0], parts[-1]), question, operands, names)

    def setting(self, node):
        """That the source may be the value of the attribute, which has its type."""
        name, _, source = node.parts
        name, source = self.of_node(name, "name"), self.expression(source)
        said = f"IF TRUE THEN {self.text_of(source)} ELSE {self.text_of(name)} END IF"
        part = self.whole(node, has_value(said), [(source, None)])
        part.beside = name
        return part

    def base_relvar(self, node):
        parts = node.parts
        heading = self.heading(parts[4])
        initial = [one.parts[2] for one in nodes(node, "initial")]
        operands, said = [(heading, None)], f"RELATION {self.text_of(heading)} {{}}"
        source = self.expression(initial[0]) if initial else None
        if source:
            operands.append((source, None))
            said += f" UNION ({self.text_of(source)})"
        whole = self.whole(source or node, f"IS_EMPTY({said})", operands)
        typed = typed_names(parts[4])
        return self.declared(parts, "VAR", [whole], heading=heading, source=source, typed=typed)

    def declared(self, parts, kind, read, **known):
        keys = [one for one in parts if isinstance(one, Node) and one.name == "key"]
        return Statement(read, None, parts[1], kind, keys=keys, **known)

    def virtual_relvar(self, node):
        parts = node.parts
        source = self.expression(parts[4])
        whole = self.whole(source, f"IS_EMPTY({self.text_of(source)})", [(source, None)])
        return self.declared(parts, "VAR", [whole], source=source)

    def constraint(self, node):
        parts = node.parts
        return self.declared(parts, "CONSTRAINT", [self.condition(parts[2])])

    def condition(self, node):
        """What has to be a truth."""
        source = self.expression(node)
        return self.whole(source, f"NOT ({self.text_of(source)})", [(source, None)])

    def type_definition(self, node):
        parts = node.parts
        components = parts[4]
        said = self.text[components.begins : components.ends]
        types = [(self.type(one.parts[1]), None) for one in nodes(components, "attribute")]
        whole = self.whole(components, f"IS_EMPTY(RELATION {{{said}}} {{}})", types)
        read, root = [whole], None
        if len(parts) > 6:
            read.append(self.condition(parts[6]))
            root = within_type(said)
        return Statement(read, root, parts[1], "TYPE", typed=typed_names(components))

    def drop(self, node):
        _, kind, name = node.parts
        return Statement([], None, name, kind.kind)


def typed_names(node):
    return [tuple(one.parts) for one in nodes(node, "attribute")]


def spanning(first, last):
    """From the begin of one to the end of another."""
    return Part(first.begins, last.ends, "", "")
