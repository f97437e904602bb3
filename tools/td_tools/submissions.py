"""A student's script, run on a database within limits, one statement after the other.

A statement that meets a limit, or changes what is given, is taken back alone: td is run anew with
the statements before it.
"""
import os
import re
import subprocess
from dataclasses import dataclass, field

from .answers import Script, Session, decoded, encoded, is_refusal
from .command import Failure
from .definitions import Kind
from .grading_key import OK
from .lexemes import tokens
from .limits import Limit, LimitMet
from .shown import refusal

LONGEST_FILE = 256 << 10
UTF_16 = (b"\xff\xfe", b"\xfe\xff")
LONGEST_REPORTED = 10_000
MOST_REPORTED = 20
# So many statements may take all their time, and then so many answers.
OVERRUNS = 3
IN_USE = b"REFUSED 9 "
TICKS = os.sysconf("SC_CLK_TCK")


class LimitedSession(Session):
    """A run of td within limits, which knows the processor's time that it has taken."""

    def __init__(self, limits):
        self.limits, self.total = limits, None
        super().__init__(stderr=subprocess.DEVNULL)

    def spent(self):
        """The seconds of a processor that this run has taken, also where it is over."""
        if self.total is not None:
            return self.total
        with open(f"/proc/{self.process.pid}/stat", "rb") as stat:
            words = stat.read().rpartition(b")")[2].split()
        return (int(words[11]) + int(words[12])) / TICKS

    def fail(self):
        """Raises the limit that td's run has met, which is over, or that it ended."""
        self.total = self.spent()
        try:
            super().fail()
        except LimitMet:
            raise
        except Failure as failure:
            raise LimitMet(str(failure), Limit.ENDED) from failure


@dataclass(frozen=True)
class Submission:
    """A student's script, cut into statements, each with the byte at which it begins."""

    name: str
    script: Script
    statements: list
    rest: bytes
    says: str = ""


def not_run(text):
    """Why the bytes of a file are not run, if they are not."""
    if len(text) > LONGEST_FILE:
        return f"The file has more than {LONGEST_FILE >> 10} KiB, and was not run."
    if text.startswith(UTF_16):
        return "The file is UTF-16 and was not run: a script is to be saved as UTF-8."
    return ""


def submission(cutter, name, file, text):
    """The script of a file. One that is not run counts as empty."""
    says = not_run(text)
    if says:
        return Submission(name, Script([(file, b"")]), [], b"", says)
    statements, at = [], 0
    for statement in cutter.feed(text):
        statements.append((at, statement))
        at += len(statement)
    rest = bytes(cutter.held)
    cutter.drop()
    return Submission(name, Script([(file, text)]), statements, rest)


@dataclass(frozen=True)
class Refused:
    """A statement that does not stand, td's answer or what stands for it, and what is told."""

    at: int
    line: int
    text: str
    answer: str
    told: str

    def defines(self, name):
        """Whether it would have defined the relvar."""
        return re.search(rf"(?i:\bVAR)\s+{re.escape(name)}(?![\w#])", self.text) is not None


@dataclass
class Attempt:
    """A run of a submission on a database."""

    given: object
    limits: object
    submission: Submission
    cutter: object
    known: dict = field(default_factory=dict)

    def __post_init__(self):
        """What is known are the refusals that were told on another database."""
        self.accepted, self.refused, self.open_lines = [], [], []
        self.earlier, self.is_lost = 0.0, False
        self.allowed = OVERRUNS * self.limits.seconds
        self.guarding, self.guarded = self.given.guards()
        self.start()

    def start(self):
        """Runs td with what is given."""
        self.session = LimitedSession(self.limits)
        try:
            said = self.session.answer(self.given.dump + encoded("\n".join(self.guarding)))
        except LimitMet as met:
            says = f"{self.given.name} meets a limit: {met.limit.value}"
            raise Failure(says) from met
        if said != OK * (len(self.given.definitions) + len(self.guarding)):
            raise Failure(f"{self.given.name} can't be given: {decoded(said)[:80]!r}")
        self.began = self.session.spent()

    @property
    def spent(self):
        """The seconds of processor time that the student's statements took."""
        return self.earlier + self.session.spent() - self.began

    @property
    def is_over(self):
        """Whether all the time is used up, or the accepted statements could not be run again."""
        return self.is_lost or self.spent >= self.allowed

    def restart(self):
        """Goes back to the statements that were accepted."""
        self.earlier = self.spent
        self.session.leave()
        self.start()
        try:
            self.session.answer(b"\n".join(self.accepted))
        except LimitMet:
            self.lose()

    def lose(self):
        """Gives the statements up that were accepted: together they take more than one may."""
        self.earlier = self.spent
        self.session.leave()
        self.accepted, self.is_lost = [], True
        self.start()

    def answer(self, statement):
        """td's answer. Where it meets a limit the run is what it was before, and that is raised."""
        try:
            return self.session.answer(statement)
        except LimitMet as met:
            self.restart()
            raise met

    def is_accepted(self, statement):
        """Whether td accepts a statement that is none of the student's."""
        try:
            return self.session.answer(statement) == OK
        except LimitMet:
            self.lose()
            return False

    def run(self):
        """Runs each statement. What is left in an open transaction is taken back. The answers have
        as much time as the statements had."""
        for at, statement in self.submission.statements:
            if self.is_over:
                says = "the script has used up its time; no more is run"
                self.refuse(at, statement, "time", says)
                break
            self.step(at, statement)
        if self.submission.rest.strip():
            self.step_last()
        self.close_transactions()
        self.allowed += self.spent

    def step(self, at, statement):
        try:
            answer = self.answer(statement)
        except LimitMet as met:
            told = f"the statement meets a limit: {met.limit.value}"
            self.refuse(at, statement, met.limit.value, told)
            return
        if is_refusal(answer):
            self.tell(at, statement, answer)
        elif answer == OK:
            self.keep(at, statement)

    def keep(self, at, statement):
        """Keeps a definition, an assignment or a part of a transaction, unless it drops a
        constraint that is given."""
        dropped = self.dropped_constraint(statement)
        if dropped is not None:
            self.restart()
            self.refuse(at, statement, f"{dropped} is given", f"{dropped} is given: it stays")
            return
        self.accepted.append(statement)
        first = next(tokens(decoded(statement)), None)
        if first and first.kind == "BEGIN":
            self.open_lines.append(self.line(at, statement))
        elif first and first.kind in ("COMMIT", "ROLLBACK"):
            self.open_lines.pop()

    def dropped_constraint(self, statement):
        """The given constraint that an accepted statement has dropped: td accepts its name anew."""
        for one in self.given.definitions:
            is_named = one.kind is Kind.CONSTRAINT and encoded(one.name) in statement
            if is_named and self.is_accepted(encoded(f"CONSTRAINT {one.name} TRUE;")):
                return one.name
        return None

    def step_last(self):
        """Tells of what stands behind the last `;`: a statement without its end, or comments."""
        rest = self.submission.rest
        at = len(self.submission.script.text) - len(rest)
        with Session() as last:
            answer = last.end(rest)
        if answer:
            self.tell(at, rest, answer, "the statement has no end: ")

    def close_transactions(self):
        while self.is_accepted(b"ROLLBACK;"):
            self.accepted.append(b"ROLLBACK;")

    def line(self, at, statement):
        """The line on which the statement's first token stands."""
        return self.submission.script.place(at + self.cutter.begin(statement))[1]

    def refuse(self, at, statement, answer, told):
        line = self.line(at, statement)
        file, _ = self.submission.script.place(at)
        said = f"{file}:{line}: {told}\n"
        self.refused.append(Refused(at, line, decoded(statement), answer, said))

    def tell(self, at, statement, answer, front=""):
        """Tells of a refusal: what is given by its name, and all else as tools/refusals does."""
        said = decoded(answer).strip()
        given = self.given_in(statement, answer)
        if given is not None:
            self.refuse(at, statement, f"{given} is given", f"{given} is given: it stays as it is")
        elif (at, said) in self.known:
            self.refused.append(self.known[at, said])
        elif len(statement) > LONGEST_REPORTED or len(self.refused) >= MOST_REPORTED:
            self.refuse(at, statement, said, front + said)
        else:
            self.report(at, statement, answer, front)

    def given_in(self, statement, answer):
        """What is given, and would be changed or dropped by the statement that is refused."""
        guard = decoded(answer).split()[-1]
        if guard in self.guarded:
            return self.guarded[guard]
        if not answer.startswith(IN_USE):
            return None
        text = decoded(statement)
        words = [text[one.begins : one.ends] for one in tokens(text)]
        names = {one.name for one in self.given.definitions}
        return next((one for one in words if one in names), None)

    def report(self, at, statement, answer, front):
        line = self.line(at, statement)
        try:
            said = refusal(
                self.session, self.cutter, self.submission.script, at, statement, answer
            )
        except LimitMet:
            self.restart()
            said = f"{self.submission.script.place(at)[0]}:{line}: {decoded(answer)}"
        said = said.replace(": REFUSED", f": {front}REFUSED", 1)
        self.refused.append(Refused(at, line, decoded(statement), decoded(answer).strip(), said))

    def leave(self):
        self.session.leave()

    def __enter__(self):
        return self

    def __exit__(self, *_):
        self.leave()
