"""What a tool shows of td's answers: relations as tables, and refusals with their places."""
import io
import re

from .answers import Script, decoded
from .literals import whole_lines
from .reports import Refusal
from .tables import shown, visible_lines

# In whose place nothing is told.
TYPED = "typed"
PLACE_TYPED = re.compile(rf"{TYPED}:\d+:\d+: ")


def as_tables(answer):
    """An answer, with relations as tables."""
    lines = whole_lines(io.StringIO(decoded(answer), newline="\n"))
    return "".join(map(shown, lines))


def refusal(session, cutter, script, at, statement, answer):
    """What is told of a refused statement of a script: where it stands, and what is known of it.
    The session has the database as it was when the statement was refused."""
    begins = cutter.begin(statement)
    refused = Refusal(script, session, at + begins, statement[begins:], answer)
    return visible_lines(decoded(refused.report()))


def refusal_typed(session, cutter, statement, answer):
    """The same of a statement that was typed, which has no place."""
    told = refusal(session, cutter, Script([(TYPED, statement)]), 0, statement, answer)
    return PLACE_TYPED.sub("", told, count=1)
