"""What a page is told of the statements of a script: events, which are data without a form.

An event has the number of its statement. The first one has td's answer, and those behind it what
else is known: where a refusal stands, why, and which keys the tuples of an answer have.
"""
from dataclasses import dataclass

from .answers import Session, decoded, encoded, is_refusal
from .lexemes import tokens
from .reports import ANSWER, told, why

# What an answer that is a relation begins with, and what may change the keys of a relvar.
RELATION, DEFINING = b"RELATION ", {"VAR", "DROP", "ROLLBACK"}
# A statement that is longer is not read for the relvar that it writes.
LONGEST = 10_000


def units(text):
    """How many places a text takes in a page's script: those of UTF-16."""
    return len(text) if text.isascii() else len(text.encode("utf-16-le", "surrogatepass")) // 2


def well_formed(text):
    """The text, in which half of a pair of UTF-16 is the sign of what is no character."""
    return text.encode("utf-16-le", "surrogatepass").decode("utf-16-le", "replace")


@dataclass(frozen=True)
class Piece:
    """A statement of a script: its bytes with what stands before it, where in the page's script it
    begins and ends, and its own text. What stands behind the last `;` is not whole."""

    data: bytes
    begins: int
    ends: int
    text: str
    is_whole: bool = True


def pieces(cutter, script):
    """The statements of a script, as td cuts them."""
    statements = cutter.feed(script.encode())
    rest = bytes(cutter.held)
    cutter.drop()
    at = 0
    for statement in [*statements, rest]:
        front = cutter.begin(statement)
        begins = at + units(statement[:front].decode())
        at += units(statement.decode())
        text = statement[front:].decode()
        if text.strip():
            yield Piece(statement, begins, at, text, statement is not rest)


def chosen(cutter, script, at, is_alone):
    """The statements up to the one that stands at a place of the script, or that one alone."""
    every = list(pieces(cutter, script))
    if at is None:
        return every
    last = next((number for number, one in enumerate(every) if at <= one.ends), len(every) - 1)
    return every[last : last + 1] if is_alone else every[: last + 1]


def answer_of(session, piece):
    """What td answers a statement. One that is not whole is asked where nothing comes behind it."""
    if piece.is_whole:
        return session.answer(piece.data)
    with Session() as last:
        return last.end(piece.data)


def first_event(piece, answer):
    return {
        "begins": piece.begins,
        "ends": piece.ends,
        "answer": decoded(answer),
        "refused": is_refusal(answer),
    }


def place_of(session, piece, answer):
    """Where in the page's script the fault of a refusal stands, and what is said of it."""
    cause = int(ANSWER.match(answer).group(1))
    at, says = told(session, piece.text, cause, 1)
    token = next(tokens(piece.text, at), None)
    ends = token.ends if token and token.begins == at else at + 1
    begins = piece.begins + units(piece.text[:at])
    return {"fault": [begins, begins + units(piece.text[at:ends])], "says": says.lstrip("; ")}


def reason_of(session, piece):
    """The tuples by which the statement breaks keys and constraints, in lines."""
    return {"why": decoded(why(session, encoded(piece.text)))}


def first_kind(piece):
    """The kind of a statement's first token."""
    token = next(tokens(piece.text), None)
    return token.kind if token else ""


def relvar_written(piece):
    """The relvar whose tuples `WRITE R` or `WRITE R WHERE ..` writes, or None: nothing binds more
    loosely than WHERE."""
    if len(piece.text) > LONGEST:
        return None
    every = tokens(piece.text)
    front = [token for token, _ in zip(every, range(3))]
    if [token.kind for token in front] not in (["WRITE", "name", ";"], ["WRITE", "name", "WHERE"]):
        return None
    return piece.text[front[1].begins : front[1].ends]
