"""What is told of a refused statement: where it stands, which part it is, and what to try.

A report has a line that editors read, FILE:LINE:COLUMN: and td's own answer with what is known
beside it; then the line of the script, with a caret below the column.
"""
import os
import re

from .answers import Cutter, Session, decoded, encoded, is_refusal
from .breaches import breaches
from .faults import fault
from .grammar import Stop, parsed
from .habits import tried
from .lexemes import is_bad, tokens
from .places import in_a_row, kinds_in_words, place, shortened, told_token, with_caret
from .scripts import script_of

ANSWER = re.compile(rb"REFUSED (\d+) ")
BYTE_ORDER_MARK = "\ufeff"
SCAN, SYNTAX = 1, 2
# The causes from here on may come of a key or a constraint.
FIRST_OF_VALUES = 20
TOO_HIGH = "; it is spelled, but more than 400 nodes high"


def bad_token(text):
    """The first bad token of a statement, as the Stop at which it can't go on."""
    before = []
    for token in tokens(text):
        if is_bad(token.kind):
            return Stop(token, frozenset(), before, [])
        before.append(token)
    return None


def stop_of(text, cause):
    """Where the statement can't go on: a bad token counts before all that is not spelled."""
    stop = parsed(text)
    stop = stop if isinstance(stop, Stop) else None
    if cause == SYNTAX or stop and is_bad(stop.token.kind):
        return stop
    return bad_token(text)


def text_of_lines(stop, text, line):
    """That a text before goes over a line's end, as one does whose quote is not closed."""
    for token in stop.before:
        if token.kind == "text" and "\n" in text[token.begins : token.ends]:
            row, _ = place(text, token.begins)
            said = shortened(text[token.begins : token.ends], 20)
            return f"the text {said} begins in line {line + row}"
    return None


def spelling(text, cause, line):
    """Where the statement can't go on, and what is said of it."""
    stop = stop_of(text, cause)
    if stop is None:
        return 0, TOO_HIGH if cause == SYNTAX else ""
    said = f" at {told_token(text, stop.token)}"
    if stop.expected:
        said += f"; expected {in_a_row(kinds_in_words(stop.expected))}"
    hint = text_of_lines(stop, text, line) or tried(stop, text)
    return stop.token.begins, said + (f"; {hint}" if hint else "")


def told(session, text, cause, line):
    """Where in the statement its fault stands, and what is said of it beside td's answer."""
    if cause in (SCAN, SYNTAX):
        return spelling(text, cause, line)
    found = fault(session, text, cause)
    return (found.begins, found.says) if found else (0, "")


def cause_of(answer):
    return int(ANSWER.match(answer).group(1))


def report(session, statement, answer, name, line, before=b""):
    """The lines that tell of a refused statement, which begins at a line of the named file.

    What stands before it in that line may be given, so that columns are those of the file. The
    session has the database as it was when the statement was refused, and is left so.
    """
    text = decoded(statement)
    at, says = told(session, text, cause_of(answer), line)
    line += text.count("\n", 0, at)
    return lines_of((name, line), decoded(before) + text, len(decoded(before)) + at, answer, says)


def lines_of(where, text, at, answer, says):
    """The lines of a report, of a place in a text whose file and line are known."""
    name, line = where
    _, column = place(text, at)
    head = f"{decoded(name)}:{line}:{column}: {decoded(answer).strip()}{says}\n"
    return encoded(head + with_caret(text, at))


def why(session, statement):
    """The lines that show the tuples by which the statement breaks keys and constraints.

    There are none where something else is refused of it.
    """
    return encoded(breaches(session, decoded(statement)))


class Refusal:
    """A refused statement of a script, which stands at a byte of it."""

    def __init__(self, script, session, at, statement, answer):
        self.script, self.session, self.at = script, session, at
        self.statement, self.answer = statement, answer

    def report(self):
        """Its report. Where the statement goes on in another file, the place may be there."""
        text, script = decoded(self.statement), self.script
        _, line = script.place(self.at)
        found, says = told(self.session, text, cause_of(self.answer), line)
        before = decoded(script.text[script.text.rfind(b"\n", 0, self.at) + 1 : self.at])
        before = before.removeprefix(BYTE_ORDER_MARK)
        byte = self.at + len(encoded(text[:found]))
        name, line = script.place(min(byte, len(script.text) - 1))
        where = os.fsencode(name), line
        return lines_of(where, before + text, len(before) + found, self.answer, says)

    def why(self):
        """The lines of the tuples by which it breaks keys and constraints."""
        may_break = cause_of(self.answer) >= FIRST_OF_VALUES
        return why(self.session, self.statement) if may_break else b""


def refusals(names):
    """The refused statements of a script in several files, while it is run."""
    script = script_of(names)
    with Cutter() as cutter, Session() as session:
        for at, statement, answer in script.answered(cutter, session):
            if is_refusal(answer):
                begins = cutter.begin(statement)
                yield Refusal(script, session, at + begins, statement[begins:], answer)
