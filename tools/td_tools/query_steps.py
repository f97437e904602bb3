"""The parts of a query from the inside out, each with what td answers for it.

A part that names attributes of the tuples of an operand is asked for all of them at once, as a new
attribute of that operand.
"""
import itertools
from dataclasses import dataclass, field

from .answers import decoded, encoded
from .definitions import heading_of
from .faults import type_in
from .grammar import Node, Stop, parsed
from .lexemes import tokens
from .parts import FRESH, LITERALS, Branch, Element, Naming, Scope, nodes
from .statements import Reader

OK, TRUE, REFUSED = b"OK\n", b"TRUE\n", b"REFUSED "
# Parts that are no values.
NO_VALUES = {"heading", "type"}
# A part of a part is asked for at most so many tuples, and in at most so many operands.
AT_MOST, DEEPEST = 10_000, 4
# What is more than 400 nodes high with the operands around it is no expression.
TOO_HIGH = b"REFUSED 2 "


@dataclass
class Step:
    """A part of a query: its text, td's literal or refusal for it, and the steps before it.

    Where the part names attributes, the literal is that of the operand whose attributes they are,
    with the part's value as one more attribute. It is empty where that has too many tuples.
    """

    text: str
    answer: bytes
    parts: list["Step"] = field(default_factory=list)
    # The operands for whose tuples the part has a value, the outermost first, and its attribute.
    operands: list[str] = field(default_factory=list)
    name: str = ""
    # The items of each WITH around it, as they stand there, that it needs.
    items: list[str] = field(default_factory=list)


def spelled(text, frames, name):
    """The expression of a part within its frames: each operand extended by what stands in it."""
    conditions = []
    for frame in reversed(frames):
        if isinstance(frame, Branch):
            conditions.insert(0, frame.holds)
        elif isinstance(frame, Naming):
            text, conditions = frame.typed(text), [*map(frame.typed, conditions)]
        else:
            text = f"EXTEND {restricted(frame.tuples, conditions)} ADD (({text}) AS {name})"
            conditions = []
    if conditions:
        text = f"EXTEND {restricted('TABLE_DEE', conditions)} ADD (({text}) AS {name})"
    return text


def restricted(operand, conditions):
    """Those tuples of an operand for which the conditions hold, each asked where the one before
    it does."""
    text = f"({operand})"
    for one in conditions:
        text = f"({text} WHERE {one})"
    return text


def distinct(steps):
    """The steps, each once: a target stands in what it is restricted to, too."""
    return [step for at, step in enumerate(steps) if step not in steps[:at]]


def front(frames):
    """The frames in front of those of all operands."""
    return [*itertools.takewhile(lambda one: not isinstance(one, Scope), frames)]


def names_in(text):
    return {text[one.begins : one.ends] for one in tokens(text) if one.kind == "name"}


def with_needed_items(text, frames):
    """The frames without the items of a WITH of which the text needs none."""
    names, kept = names_in(text), []
    for frame in reversed(frames):
        if isinstance(frame, Scope):
            names |= names_in(frame.tuples)
        elif isinstance(frame, Branch):
            names |= names_in(frame.condition)
        elif names & {*frame.names}:
            names |= names_in(frame.settings)
        else:
            continue
        kept.insert(0, frame)
    return kept


def number_of_tuples(frames):
    """The expression of how many tuples all the innermost operands have."""
    text, conditions = None, []
    for frame in reversed(frames):
        if isinstance(frame, Branch):
            conditions.insert(0, frame.holds)
            continue
        if isinstance(frame, Naming):
            text, conditions = text and frame.typed(text), [*map(frame.typed, conditions)]
            continue
        operand = restricted(frame.tuples, conditions)
        text = f"COUNT({operand})" if text is None else f"SUM({operand}, {text})"
        conditions = []
    return text


class Walk:
    """Asks td about the parts of a statement's text, on a database that it leaves as it is."""

    def __init__(self, session, text):
        self.session, self.text = session, text
        # The answers to questions, and the attributes of operands.
        self.answers, self.known = {}, {}

    def text_of(self, part):
        return self.text[part.begins : part.ends]

    def written(self, expression):
        """What td answers where it writes an expression."""
        if expression not in self.answers:
            self.answers[expression] = self.session.answer(encoded(f"WRITE {expression};"))
        return self.answers[expression]

    def is_typed(self, text, frames):
        """Whether the text is an expression there."""
        said = spelled(text, frames, FRESH)
        return not self.written(f"EXTEND TABLE_DUM ADD (({said}) AS {FRESH})").startswith(REFUSED)

    def attributes(self, frames):
        """The attributes of the operand of the last frame. Where that is refused there are None."""
        *before, last = frames
        key = tuple(frames)
        if key not in self.known:
            self.known[key] = self.asked_attributes(last.tuples, before)
        return self.known[key]

    def asked_attributes(self, operand, before):
        if self.written(spelled(f"IS_EMPTY({operand})", before, FRESH)).startswith(REFUSED):
            return None
        said = spelled(f"({operand}) WHERE FALSE", before, FRESH)
        answer = self.written(f"EXTEND TABLE_DUM ADD (({said}) AS {FRESH})").decode()
        depth = 1 + len(self.scopes(before)) + any(isinstance(one, Branch) for one in front(before))
        return {name for name, _ in heading_of(type_in(answer, depth) or "")}

    # ---- frames

    def scopes(self, frames):
        """Each operand among the frames, as the frames up to it."""
        places = [at for at, frame in enumerate(frames) if isinstance(frame, Scope)]
        return [tuple(frames[: at + 1]) for at in places]

    def needed(self, text, frames):
        """The frames without those of operands of which the text names no attribute."""
        if not frames:
            return []
        kept = with_needed_items(text, frames)
        items = (one.settings for one in kept if isinstance(one, Naming))
        names = names_in(text).union(*map(names_in, items))
        for scope in self.scopes(frames):
            at = next(place for place, one in enumerate(kept) if one is scope[-1])
            fewer = kept[:at] + kept[at + 1 :]
            named = names & (self.attributes(scope) or set())
            # A name that would mean something else without the operand's attribute.
            is_other = any(self.is_typed(name, kept[:at]) for name in named)
            if not is_other and self.is_typed(text, fewer):
                kept = fewer
        return self.taken(kept)

    def taken(self, frames):
        """The frames without the conditions in front, or None where one of these does not hold."""
        names, in_front = [], front(frames)
        for frame in in_front:
            if isinstance(frame, Naming):
                names.append(frame)
            elif self.written(spelled(frame.holds, names, FRESH)) != TRUE:
                return None
        return [*names, *frames[len(in_front) :]]

    # ---- steps

    def inner(self, part, frames):
        """The steps of the parts of a part."""
        found = []
        for one, frame in part.operands:
            framed = frames if frame is None else (*frames, frame)
            if not isinstance(frame, Scope) or self.is_scope(framed):
                found += self.of_part(one, framed)
        return found if part.is_expression else distinct(found)

    def is_scope(self, frames):
        """Whether parts are asked in the last operand: it has a value, and is in few others."""
        return len(self.scopes(frames)) <= DEEPEST and self.attributes(frames) is not None

    def of_part(self, part, frames):
        """The step of a part, or those of its parts where it shows nothing more."""
        if isinstance(part, Element):
            return [] if part.is_plain else self.inner(part.inner(), frames)
        if part.kind in LITERALS or part.kind in NO_VALUES:
            return []
        if part.kind == "" or not part.is_expression:
            return self.inner(part, frames)
        if part.kind == "name" and self.is_attribute(self.text_of(part), frames):
            return []
        return self.step(part, frames)

    def is_attribute(self, name, frames):
        return any(name in self.attributes(scope) for scope in self.scopes(frames))

    def step(self, part, frames):
        text, parts = self.text_of(part), self.inner(part, frames)
        kept = self.needed(text, frames)
        if kept is None:
            return parts
        step = self.asked(text, kept)
        if step.answer.startswith(REFUSED) and len(kept) < len(frames):
            # It may be refused where it has a value for each tuple, since there is none.
            step = self.asked(text, self.taken(frames))
        step.parts = parts
        shows_nothing = step.answer.decode("utf-8", "replace").strip() == " ".join(text.split())
        return parts if shows_nothing or step.answer.startswith(TOO_HIGH) else [step]

    def asked(self, text, frames):
        """The step of a text within the frames that it needs."""
        scopes = self.scopes(frames)
        taken = {name for scope in scopes for name in self.attributes(scope) or ()}
        name = "VALUE"
        while name in taken:
            name += "_"
        operands = [scope[-1].tuples for scope in scopes]
        items = [one.settings for one in frames if isinstance(one, Naming)]
        if len(scopes) > 1 and self.is_too_much(frames):
            return Step(text, b"", operands=operands, name=name, items=items)
        answer = self.written(spelled(text, frames, name))
        return Step(text, answer, operands=operands, name=name if scopes else "", items=items)

    def is_too_much(self, frames):
        number = self.written(number_of_tuples(frames)).strip()
        return number.isdigit() and int(number) > AT_MOST


def tried(session, statement, targets):
    """What td answers to a statement, and what its targets then are; all of it is taken back."""
    if session.answer(b"BEGIN TRANSACTION;") != OK:
        return b"REFUSED 11 TRANSACTION\n", []
    answer = session.answer(statement)
    values = [session.answer(encoded(f"WRITE {name};")) for name in targets]
    session.answer(b"ROLLBACK;")
    return answer, values


def of_assignments(walk, read, texts, statement):
    """A step for each assignment, with what its target is behind the statement."""
    targets = [walk.text_of(one) for one in read.targets]
    answer, values = tried(walk.session, statement, targets)
    values = values if answer == OK else [answer] * len(targets)
    found, seen = [], set()
    for part, text, target, value in zip(read.parts, texts, targets, values):
        # A source sees a target as the assignments before it leave it, so it is not asked alone.
        parts = walk.inner(part, ()) if target not in seen else []
        found.append(Step(text, value, parts))
        seen.add(target)
    return found


def steps(session, statement):
    """The steps of a whole statement `WRITE e;`, or of each assignment of one; of others there are
    none.

    The last step has what td answers to the statement, or what an accepted assignment makes of its
    target. The session is left as it was.
    """
    text = decoded(statement)
    tree = parsed(text)
    if isinstance(tree, Stop):
        answer, _ = tried(session, statement, [])
        return [Step(text.strip().removesuffix(";"), answer)]
    body = tree.parts[0]
    if not isinstance(body, Node):
        return []  # The empty statement.
    read, walk = Reader(text).statement(tree), Walk(session, text)
    if read.targets:
        texts = [text[one.begins : one.ends] for one in nodes(body, "assignment")]
        return of_assignments(walk, read, texts, statement)
    if getattr(body.parts[0], "kind", "") != "WRITE":
        return []
    (part,) = read.parts
    return [Step(walk.text_of(part), session.answer(statement), walk.inner(part, ()))]
