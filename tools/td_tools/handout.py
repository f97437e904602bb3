"""A script as a handout: prose from its comments, its statements, and td's answers.

A line of a comment whose first word is Exercise begins an exercise. The statements behind it are
its solution, up to the next comment in lines of its own. A line whose first word is Solution begins
a comment that belongs to the solution. A comment that is the word diagram is in place of the
diagram of the database there.
"""
import io
import re
from dataclasses import dataclass, field
from itertools import pairwise

from . import prose
from .answers import decoded, is_refusal
from .comments import comments, note
from .definitions import definitions
from .keys_first import key_of, with_first
from .literals import relation_of, whole_lines
from .scripts import ON_DATABASE
from .shown import refusal_typed

EXERCISE = re.compile(r"\s*(?:#+ +)?\**Exercise\b")
SOLUTION = re.compile(r"\s*(?:#+ +)?\**Solution\b")
DIAGRAM = "diagram"
OF_DIAGRAM = re.compile(rb"(?://|/\*)\s*diagram\b")
OK = "OK\n"
LEAST_ROOM = 2


@dataclass(frozen=True)
class Prose:
    """Blocks of text."""

    blocks: list


@dataclass(frozen=True)
class Step:
    """A statement with its answer: lines, each a relation or a text, or what is told of a refusal.

    What was accepted without an answer of its own has none of these.
    """

    code: str
    answer: list = field(default_factory=list)
    refusal: str = ""


@dataclass(frozen=True)
class Diagram:
    """The diagram of the database that a dump makes."""

    dump: str


@dataclass
class Exercise:
    """An exercise, and what solves it."""

    blocks: list
    solution: list = field(default_factory=list)

    @property
    def room(self):
        """How many lines are left for a solution: some more than this one has."""
        steps = [one for one in self.solution if isinstance(one, Step)]
        return LEAST_ROOM + sum(one.code.count("\n") + 1 for one in steps)


def divided(lines):
    """The lines of a comment, with each line apart that begins an exercise or a solution."""
    begins = [at for at, line in enumerate(lines) if EXERCISE.match(line) or SOLUTION.match(line)]
    for first, last in pairwise([0, *(at for at in begins if at), len(lines)]):
        yield lines[first:last]


class Handout:
    """Makes the parts of a handout from the statements of a script, one after the other."""

    def __init__(self, session, cutter, has_keys_first, has_diagrams):
        self.session, self.cutter = session, cutter
        self.has_keys_first, self.has_diagrams = has_keys_first, has_diagrams
        self.dump = ""
        self.parts, self.exercise, self.known = [], None, None

    @property
    def place(self):
        """Where the next part goes."""
        return self.exercise.solution if self.exercise else self.parts

    def add_front(self, front):
        """Adds the comments before a statement: one in the line of the statement before to that."""
        length = note(front) if self.place and isinstance(self.place[-1], Step) else 0
        if length:
            last = self.place[-1]
            self.place[-1] = Step(last.code + front[:length].rstrip(), last.answer, last.refusal)
        for comment in comments(front[length:]):
            for lines in divided(comment):
                self.add_comment(lines)

    def add_comment(self, lines):
        """Adds the prose of a comment, or the exercise that it is."""
        found = prose.blocks(lines)
        if [line.strip() for line in lines] == [DIAGRAM]:
            self.exercise = None
            self.parts.append(Diagram(self.dump))
        elif EXERCISE.match(lines[0]):
            self.exercise = Exercise(found)
            self.parts.append(self.exercise)
        elif self.exercise and SOLUTION.match(lines[0]):
            self.exercise.solution.append(Prose(found))
        elif found:
            self.exercise = None
            self.parts.append(Prose(found))

    def add(self, statement, answer):
        """Adds a statement, with what stands before it, and td's answer."""
        begins = self.cutter.begin(statement)
        self.add_front(decoded(statement[:begins]))
        code = decoded(statement[begins:]).replace("\r\n", "\n").rstrip()
        if is_refusal(answer):
            told = refusal_typed(self.session, self.cutter, statement[begins:], answer)
            self.place.append(Step(code, refusal=told.rstrip("\n")))
            return
        self.see(answer)
        self.place.append(Step(code, self.shown(decoded(answer), code)))

    def see(self, answer):
        """Sees that a statement was answered: one that was accepted may have defined something."""
        if decoded(answer) == OK:
            self.known = None
            if self.has_diagrams:
                self.dump = decoded(self.session.answer(b"DUMP;"))

    def shown(self, answer, code):
        lines = whole_lines(io.StringIO(answer, newline="\n"))
        return [self.relation(line, code) or line.removesuffix("\n") for line in lines]

    def relation(self, line, code):
        """The relation that a line is, with a key's attributes in front where that is asked for."""
        relation = relation_of(line)
        if relation is None or not self.has_keys_first:
            return relation
        if self.known is None:
            self.known = definitions(self.session)
        key = key_of(self.known, code, [name for name, _ in relation.heading])
        return with_first(relation, key) if key else relation


def lines_of_databases(script):
    """Where the first lines of the files stand that name a database."""
    at = script.begins
    for _, text in script.files[len(script.files) - script.of_files :]:
        found = ON_DATABASE.match(text)
        if found:
            yield at, at + found.end()
        at += len(text)


def begin_of(script, cutter, at, statement):
    """Where what is shown of a statement begins: with the files, unless it begins before them."""
    if at >= script.begins or at + cutter.begin(statement) < script.begins:
        return at
    return script.begins


def handout(script, cutter, session, has_keys_first=False):
    """The parts of a script. Of the databases that it names nothing is shown."""
    has_diagrams = OF_DIAGRAM.search(script.text) is not None
    made = Handout(session, cutter, has_keys_first, has_diagrams)
    hidden = list(lines_of_databases(script))

    def seen(at, ends):
        begins, shown = at, b""
        for first, last in hidden:
            if begins <= first < ends:
                shown += script.text[begins:first]
                begins = last
        return shown + script.text[begins:ends]

    ends = 0
    for at, statement, answer in script.answered(cutter, session):
        ends = at + len(statement)
        if script.is_of_files(at, statement):
            made.add(seen(begin_of(script, cutter, at, statement), ends), answer)
        else:
            made.see(answer)
    made.add_front(decoded(seen(max(ends, script.begins), len(script.text))))
    return made.parts


def title(parts):
    """The first heading, if there is one, and whether it is of the first level and comes first."""
    blocks = [one for part in parts if isinstance(part, Prose) for one in part.blocks]
    headings = [one for one in blocks if isinstance(one, prose.Heading)]
    if not headings:
        return None, False
    return prose.plain(headings[0].spans), headings[0] is blocks[0] and headings[0].level == 1
