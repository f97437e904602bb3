"""The smallest part of a refused statement that td itself refuses by the same cause.

td is asked for the parts of a part: the first that is refused is gone into, up to one of which no
part is refused.
"""
import itertools
from dataclasses import dataclass

from . import declared
from . import hints
from .answers import decoded, encoded
from .definitions import heading_of
from .grammar import Stop, parsed
from .literals import relation_of
from .parts import FRESH, Element, Naming, Scope, is_type, scope
from .places import one_line, shortened
from .statements import STATIC, VALUES, Reader

NAME_UNKNOWN, HEADING, FIRST_OF_VALUES, NOT_ONE_TUPLE = 3, 6, 20, 23
# Of the causes that come of tuples of two operands: which those are, and what is said of one.
OF_TUPLES = {
    hints.NOT_DISJOINT: ("({0}) INTERSECT ({1})", "both have"),
    hints.NOT_INCLUDED: ("({1}) MINUS ({0})", "{0} has no"),
}
# So many questions are asked at once, and so many tuples are asked for as one.
AT_ONCE, BLOCK = 50, 200


@dataclass
class Fault:
    """Where in the statement it is, and what is said of it."""

    begins: int
    says: str


@dataclass
class Found:
    """A part that is refused, what stands around it, and the part that it is in."""

    part: object
    frames: tuple
    around: object = None


class Asking:
    """Asks td about the parts of a statement that was refused by a cause."""

    def __init__(self, session, text, cause):
        self.session, self.text, self.cause = session, text, cause
        self.root = STATIC if cause < FIRST_OF_VALUES else VALUES
        self.refusal = f"REFUSED {cause} "

    def answers(self, questions, each=1):
        """td's answer to each question, a statement or several with so many answers."""
        every = []
        for at in range(0, len(questions), AT_ONCE):
            asked = questions[at : at + AT_ONCE]
            lines = decoded(self.session.answer(encoded("\n".join(asked)))).split("\n")
            every += lines[: len(asked) * each : each]
        return every

    def truth(self, question, frames):
        for frame in reversed(frames):
            question = frame.truth(question, self.cause < FIRST_OF_VALUES)
        return question.join(self.root.truth)

    def refused(self, questions):
        """Of each question, with its frames, whether it is refused by the cause."""
        said = [self.truth(*one) for one in questions]
        answers = self.answers(said, self.root.answers)
        return [one.startswith(self.refusal) for one in answers]

    def is_refused(self, question, frames):
        return self.refused([(question, frames)])[0]

    def first_refused(self, operands, frames):
        """The first of the operands that is refused, with what stands around it.

        Not so where anything would be refused there, as in a scope whose operand is no relation.
        """
        plain = [one for one in operands if not isinstance(one[0], Element)]
        elements = [one for one, _ in operands if isinstance(one, Element)]
        asked = [(one, around(frames, frame)) for one, frame in plain]
        asked += [(one, frames) for one in self.suspects(elements, frames)]
        told = self.refused([(one.asked(), framed) for one, framed in asked])
        refused = [one for one, is_refused in zip(asked, told) if is_refused]
        return next((one for one in refused if self.is_sound(one[1], frames)), None)

    def is_sound(self, framed, frames):
        """Whether what stands around a part is not refused by itself."""
        return len(framed) == len(frames) or not self.is_refused("TRUE", framed)

    def suspects(self, elements, frames):
        """The tuples of the first block of a list that is refused. A short list is one block."""
        if len(elements) <= BLOCK:
            return elements
        blocks = [elements[at : at + BLOCK] for at in range(0, len(elements), BLOCK)]
        whole = elements[0].elements
        asked = [(whole.question(one[0].number, one[-1].number), frames) for one in blocks]
        told = self.refused(asked)
        return next((one for one, is_refused in zip(blocks, told) if is_refused), [])

    def smallest(self, part, frames=()):
        """The smallest part in a refused one that is refused too."""
        found = Found(part, frames)
        while not self.is_unknown_selector(found):
            inner = self.first_refused(found.part.operands, found.frames)
            if inner is None:
                return found
            found = Found(*inner, found)
            if isinstance(found.part, Element):
                inner = found.part.inner()
                if not self.is_refused(inner.asked(), found.frames):
                    return found
                found = Found(inner, found.frames, found.around)
        return found

    def is_unknown_selector(self, found):
        """Whether the part is T(..) of a type T that is not there."""
        if self.cause != NAME_UNKNOWN or found.part.kind != "selector":
            return False
        name = self.text[found.part.begins : found.part.ends].split("(")[0]
        return self.is_refused(is_type(name), found.frames)

    def in_statement(self, statement):
        """The smallest part that is refused of all that the statement has."""
        if statement.root and self.cause < FIRST_OF_VALUES:
            self.root = STATIC
        for part in statement.parts:
            self.root = self.root_of(statement, part)
            if part.is_expression or self.is_refused(part.asked(), ()) or self.inside(part):
                return self.smallest(part)
        return None

    def root_of(self, statement, part):
        """Where the part is asked: the constraint of a type within that type."""
        is_constraint = statement.root and part is not statement.parts[0]
        if is_constraint:
            return statement.root
        return STATIC if self.cause < FIRST_OF_VALUES else VALUES

    def inside(self, part):
        return self.first_refused(part.operands, ()) or self.first_name(part, ())

    def first_name(self, part, frames):
        """The first name of an attribute that the part's operand has not."""
        if not part.names or self.cause != HEADING:
            return None
        (operand, _), *_ = part.operands
        said = self.text[operand.begins : operand.ends]
        names = [self.text[one.begins : one.ends] for one in part.names]
        told = self.refused([(f"IS_EMPTY(({said}) {{{one}}})", frames) for one in names])
        return next((one for one, is_refused in zip(part.names, told) if is_refused), None)

    def type(self, text, frames):
        """The type of an expression, as td prints it; None where it has none."""
        for frame in reversed(frames):
            text = frame.typed(text)
        depth = 1 + sum(isinstance(frame, Scope) for frame in frames)
        depth += self.root.type != STATIC.type
        (answer,) = self.answers([text.join(self.root.type)])
        return type_in(answer, depth)

    def value(self, text, names=()):
        """What td writes of an expression that these names are in scope of, without the line's
        end."""
        for frame in reversed(names):
            text = frame.typed(text)
        return decoded(self.session.answer(encoded(f"WRITE {text};"))).removesuffix("\n")

    def type_of(self, part, frames):
        return self.type(self.text[part.begins : part.ends], frames)

    def attributes(self, text, frames):
        """The names of the attributes of a relation, or of a tuple."""
        kind = self.type(text, frames) or ""
        return [name for name, _ in heading_of(kind)]

    def attributes_of_heading(self, statement):
        """The attributes of the relvar that is declared, each with its type."""
        said = self.text[(of := statement.heading or statement.source).begins : of.ends]
        kind = f"RELATION {said} {{}}" if statement.heading else f"({said})"
        return heading_of(self.type(kind, ()) or "")

    def in_scope(self, frames):
        """The names of the attributes, and of items of WITH, that may be named there."""
        found = []
        for number, frame in enumerate(frames):
            if isinstance(frame, Scope):
                found += self.attributes(f"({frame.operand})", frames[:number])
            elif isinstance(frame, Naming):
                found += frame.names
        return found


def around(frames, frame):
    return frames if frame is None else (*frames, frame)


def type_in(answer, depth):
    """The type of the fresh attribute, so many relation types deep, in an answer."""
    for _ in range(depth):
        answer = dict(heading_of(answer)).get(FRESH)
        if answer is None:
            return None
    return answer


def told_part(asking, found):
    """What is said of the smallest part: its text, the types of its operands, and what to try."""
    part, frames, cause = found.part, found.frames, asking.cause
    text = shortened(asking.text[part.begins : part.ends])
    name = asking.first_name(part, frames)
    if name is not None:
        word = asking.text[name.begins : name.ends]
        (operand, _), *_ = part.operands
        kind = asking.type_of(operand, frames)
        near = hints.nearest(word, [one for one, _ in heading_of(kind or "")])
        return Fault(name.begins, said(f"{word} in {text}", [kind], near and f"try {near}"))
    if cause == NAME_UNKNOWN:
        return unknown(asking, found)
    operands = [(one, around(frames, frame)) for one, frame in operands_of(part)]
    if part.kind == "WITH" and cause == HEADING:
        return named_twice(asking, part, text)
    if part.kind == "EXTEND" and cause == HEADING:
        return there_already(asking, part, text, operands[0])
    kinds = [asking.type_of(*one) for one in operands]
    texts = [asking.text[one.begins : one.ends] for one, _ in operands]
    hint = hints.of_part(asking, found, texts, kinds) if all(kinds) else None
    if cause < FIRST_OF_VALUES:
        return Fault(part.begins, said(text, kinds, hint))
    text += in_tuple(asking, found)
    return Fault(part.begins, said(text, values(asking, operands, cause), hint))


def there_already(asking, part, text, operand):
    """The name that EXTEND adds and that its operand has, or that it has twice."""
    kind = asking.type_of(*operand)
    old = [] if part.replaces else [name for name, _ in heading_of(kind or "")]
    new = []
    for token in part.added:
        word = asking.text[token.begins : token.ends]
        if word in old or word in new:
            hint = f", or EXTEND .. : {{{word} := ..}} to replace it" if word in old else ""
            hint = f"try another name{hint}"
            return Fault(token.begins, said(f"{word} in {text}", [kind], hint))
        new.append(word)
    return Fault(part.begins, said(text, [kind]))


def named_twice(asking, part, text):
    """The name that WITH gives a second time."""
    words = [asking.text[one.begins : one.ends] for one in part.added]
    for place, token in enumerate(part.added):
        if words[place] in words[:place]:
            return Fault(token.begins, said(f"{words[place]} in {text}", [], "try another name"))
    return Fault(part.begins, said(text, []))


def names_in_front(frames):
    """The frames in front of all others that give names to values."""
    return tuple(itertools.takewhile(lambda one: isinstance(one, Naming), frames))


def in_tuple(asking, found):
    """The first tuple for which the part is refused, where it is in the scope of tuples."""
    names = names_in_front(found.frames)
    scopes = found.frames[len(names) :]
    if found.part.lacking and not scopes:
        lacking = relation_of(f"{asking.value(found.part.lacking, names)}\n")
        if lacking and lacking.tuples:
            return f" for {shortened(literal(lacking.heading, lacking.tuples[0]), 100)}"
    if not scopes or not isinstance(scopes[0], Scope):
        return ""
    value = asking.value(f"({scopes[0].tuples})", names)
    relation = relation_of(f"{value}\n")
    tuples = [literal(relation.heading, one) for one in relation.tuples] if relation else []
    size = max(BLOCK, 1)
    while tuples:
        blocks = [tuples[at : at + size] for at in range(0, len(tuples), size)]
        asked = [(found.part.asked(), (*names, scope_of(one), *scopes[1:])) for one in blocks]
        told = asking.refused(asked)
        tuples = next((one for one, is_refused in zip(blocks, told) if is_refused), [])
        if size == 1:
            return f" for {shortened(tuples[0], 100)}" if tuples else ""
        size = 1
    return ""


def scope_of(tuples):
    """The scope of these tuples alone."""
    return scope(f"RELATION {{{', '.join(tuples)}}}")


def literal(heading, values):
    parts = (f"{name} {one.literal}" for (name, _), one in zip(heading, values))
    return f"TUPLE {{{', '.join(parts)}}}"


def operands_of(part):
    """The expressions whose types tell: of a tuple in a list also the first one."""
    if isinstance(part, Element):
        return [(one.inner(), None) for one in (part.elements.every()[0], part)]
    every = [(part.beside, None)] if part.beside else []
    for one, frame in part.operands:
        if one.is_expression and not any(one is other for other, _ in every):
            every.append((one, frame))
    return every


def values(asking, operands, cause):
    """The values of operands, if no tuple is in scope: of a relation how many tuples it has."""
    known = []
    outside = [one for one in operands if len(names_in_front(one[1])) == len(one[1])]
    if cause in OF_TUPLES and len(outside) == 2:
        return tuples_of(asking, outside, *OF_TUPLES[cause])
    for one, names in outside:
        text = asking.text[one.begins : one.ends]
        if cause == NOT_ONE_TUPLE:
            known.append(f"{asking.value(f'COUNT({text})', names)} tuples")
        elif not (value := asking.value(text, names)).startswith(("RELATION", "REFUSED")):
            known.append(value)
    return known


def tuples_of(asking, operands, meant, says):
    """The first of the tuples that are meant by an expression of two operands."""
    texts = [asking.text[one.begins : one.ends] for one, _ in operands]
    relation = relation_of(f"{asking.value(meant.format(*texts), operands[0][1])}\n")
    if not relation or not relation.tuples:
        return []
    says = says.format(*map(shortened, texts))
    return [f"{says} {literal(relation.heading, relation.tuples[0])}"]


def said(text, kinds, hint=None):
    known = ", ".join(shortened(one, 100) for one in kinds if one)
    return f" at {text}" + (f": {known}" if known else "") + (f"; {one_line(hint)}" if hint else "")


def unknown(asking, found):
    """A name that is not known, and the nearest that is."""
    part = found.part
    word = asking.text[part.begins : part.ends].split("(")[0].strip()
    near = hints.nearest(word, hints.known_names(asking, found))
    hint = f"try {near}" if near else hints.of_name(asking, found, word)
    return Fault(part.begins, said(word, [], hint))


def fault(session, text, cause):
    """The smallest part of a refused statement that is refused by the cause, and what is said."""
    tree = parsed(text)
    if isinstance(tree, Stop):
        return None
    statement = Reader(text).statement(tree)
    asking = Asking(session, text, cause)
    if cause in declared.CAUSES:
        found = declared.CAUSES[cause](asking, statement)
        return Fault(*found) if found else None
    if cause == NAME_UNKNOWN and statement.name is not None and not statement.parts:
        return Fault(*declared.not_there(asking, statement))
    found = asking.in_statement(statement)
    return told_part(asking, found) if found else None
