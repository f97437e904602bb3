"""The teacher's side of grading: the databases, what each gives to students, and the answers.

The answers are the virtual relvars that the key defines. A line `// marks A3 5 2` of the key gives
five marks to A3, and two to an answer that is right on some databases alone. Without a line an
answer has one mark, and `// marks A3 0` is of a relvar that only helps the others.
"""
import os
import re
from dataclasses import dataclass

from .answers import Cutter, Script, Session, decoded, encoded, is_refusal
from .command import WRONG_WORDS, Failure
from .definitions import Kind, base_relvar, definitions, definitions_of
from .literals import Reader
from .scripts import script_of, text_of
from .shown import refusal

MARKS = re.compile(r"^[ \t]*//[ \t]*marks\b(.*)$", re.MULTILINE)
OF_ANSWER = re.compile(r"\s+(\S+)\s+(\d+)(?:\s+(\d+))?\s*")
OK = b"OK\n"
SHOWN = 10
# A relvar beside the key's, which has the value of an answer: no name of a script begins so.
OTHER = f"OTHER_{os.urandom(8).hex()}"


@dataclass(frozen=True)
class Worth:
    """The marks of an answer: where it is right, and where it is right on some databases alone."""

    whole: int = 1
    partial: int = 0


def worths(name, text):
    """The marks of each answer that a line of the key names."""
    found = {}
    for line in MARKS.finditer(text):
        words = OF_ANSWER.fullmatch(line.group(1))
        if words is None:
            number = text.count("\n", 0, line.start()) + 1
            says = f"{name}:{number}: a line of marks is // marks NAME 5, or 5 2"
            raise Failure(says, WRONG_WORDS)
        found[words.group(1)] = Worth(int(words.group(2)), int(words.group(3) or 0))
    return found


@dataclass(frozen=True)
class Difference:
    """How many tuples one relation has that another has not, and the literal of these."""

    count: int
    literal: str


def some_tuples(literal):
    """The heading of a relation's literal, and its first tuples."""
    reader = Reader(literal)
    reader.take("RELATION ")
    heading = reader.heading()
    reader.take(" {")
    tuples = []
    while len(tuples) < SHOWN and not reader.takes("}"):
        if tuples:
            reader.take(", ")
        tuples.append(reader.element())
    return heading, tuples


class Given:
    """A database of the teacher's with the key's answers to it, and what makes it for students."""

    def __init__(self, name, key):
        self.name = name
        self.session = Session()
        try:
            self.run(script_of([name]))
            self.dump = self.session.answer(b"DUMP;")
            self.definitions = definitions_of(decoded(self.dump))
            self.run(key)
        except BaseException:
            self.leave()
            raise
        given = {one.name for one in self.definitions if one.kind is Kind.VIRTUAL}
        every = definitions(self.session)
        virtual = [one.name for one in every if one.kind is Kind.VIRTUAL]
        self.answers = [one for one in virtual if one not in given]
        self.literals = {}

    def run(self, script):
        """Runs a script of the teacher's, of which nothing may be refused."""
        with Cutter() as cutter:
            for at, statement, answer in script.answered(cutter, self.session):
                if is_refusal(answer):
                    told = refusal(self.session, cutter, script, at, statement, answer)
                    raise Failure(f"{told.splitlines()[0]} (on {self.name})", WRONG_WORDS)

    def evaluate(self, names):
        """Keeps the value of each answer."""
        for name in names:
            literal = decoded(self.session.answer(encoded(f"WRITE {name};")))
            if literal.startswith("REFUSED"):
                says = f"{name} is answered {literal.strip()} on {self.name}"
                raise Failure(says, WRONG_WORDS)
            self.literals[name] = literal.removesuffix("\n")

    def differences(self, name, literal):
        """What the key's answer has that a relation has not, and the other way round; None where
        their headings differ."""
        heading, _ = some_tuples(literal)
        front = f"{base_relvar(OTHER, heading)} INIT ({literal}) KEY {names(heading)};"
        self.session.answer(encoded(front))
        told = [self.difference(f"{name} MINUS {OTHER}"), self.difference(f"{OTHER} MINUS {name}")]
        self.session.answer(encoded(f"DROP VAR {OTHER};"))
        return None if None in told else told

    def difference(self, said):
        """The relation that an expression is, where it has a value."""
        count = decoded(self.session.answer(encoded(f"WRITE COUNT({said});"))).strip()
        if not count.isdecimal():
            return None
        return Difference(int(count), decoded(self.session.answer(encoded(f"WRITE {said};"))))

    def guards(self):
        """Statements by which td itself refuses that what is given changes, and for the name of
        each constraint among them what it guards. No script knows their names."""
        front = f"GIVEN_{os.urandom(8).hex()}_"
        statements, guarded = [], {}
        for number, one in enumerate(self.definitions):
            name = f"{front}{number}"
            statements += guarding(one, name)
            guarded[name] = one.name
        return statements, guarded

    def leave(self):
        self.session.leave()


def names(heading):
    return f"{{{', '.join(name for name, _ in heading)}}}"


def guarding(one, name):
    """What is accepted, and keeps a definition as it is: a constraint that mentions it, for a base
    relvar beside a copy of its value. Of a constraint nothing can be said."""
    if one.kind is Kind.BASE:
        key = ", ".join(one.keys[0])
        copy = f"{base_relvar(name, one.heading)} INIT ({one.name}) KEY {{{key}}};"
        return [copy, f"CONSTRAINT {name} {one.name} = {name};"]
    if one.kind is Kind.VIRTUAL:
        return [f"CONSTRAINT {name} IF TRUE THEN TRUE ELSE IS_EMPTY({one.name}) END IF;"]
    if one.kind is Kind.TYPE:
        return [f"CONSTRAINT {name} IS_EMPTY(RELATION {{A {one.name}}} {{}});"]
    return []


class Key:
    """The key, run on each of the databases."""

    def __init__(self, name, databases):
        text = text_of(name)
        self.name = name
        self.worths = worths(name, decoded(text))
        self.given = []
        try:
            for database in databases:
                self.given.append(Given(database, Script([(name, text)])))
            self.check()
        except BaseException:
            self.leave()
            raise

    def check(self):
        """Tells of a line of marks that is of no answer, and keeps the answers."""
        every = self.given[0].answers
        unknown = [one for one in self.worths if one not in every]
        if unknown:
            says = f"{self.name}: {unknown[0]} has marks, and is no virtual relvar of the key"
            raise Failure(says, WRONG_WORDS)
        self.answers = [one for one in every if self.worth(one) != Worth(0, 0)]
        if not self.answers:
            raise Failure(f"{self.name}: it defines no virtual relvar", WRONG_WORDS)
        for one in self.given:
            one.evaluate(self.answers)

    def worth(self, answer):
        return self.worths.get(answer, Worth())

    @property
    def total(self):
        return sum(self.worth(one).whole for one in self.answers)

    @property
    def longest(self):
        """The length of the longest answer."""
        return max(len(one) for given in self.given for one in given.literals.values())

    def leave(self):
        for one in self.given:
            one.leave()

    def __enter__(self):
        return self

    def __exit__(self, *_):
        self.leave()
