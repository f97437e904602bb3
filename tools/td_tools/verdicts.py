"""What is found of a student's answers on a database, beside those of the key."""
from dataclasses import dataclass
from enum import Enum

from .answers import decoded, encoded
from .grading_key import Difference, some_tuples
from .limits import LimitMet

VIRTUAL, NOT_THERE = b"REFUSED 10 ", b"REFUSED 3 "


class Outcome(Enum):
    """What an answer is."""

    OK = "ok"
    TUPLES = "tuples"
    HEADING = "heading"
    REFUSED = "refused"
    MISSING = "missing"
    BASE = "base relvar"
    LIMIT = "limit"


@dataclass(frozen=True)
class Verdict:
    """What an answer is on a database, and what is shown of it: the tuples that it lacks, those
    that it has beside the key's, and both headings where they differ."""

    outcome: Outcome
    cause: str = ""
    missing: Difference = None
    superfluous: Difference = None
    wanted: tuple = ()
    heading: tuple = ()
    seconds: float = 0.0

    @property
    def told(self):
        """The verdict in a few words."""
        if self.outcome is Outcome.TUPLES:
            return f"{self.missing.count} missing, {self.superfluous.count} superfluous"
        return f"{self.outcome.value}: {self.cause}" if self.cause else self.outcome.value


def verdict(attempt, name):
    """What the answer of a name is in an attempt that has been run."""
    if attempt.is_over:
        return Verdict(Outcome.LIMIT, "time")
    before = attempt.spent
    try:
        found = found_by(attempt, name)
    except LimitMet as met:
        return Verdict(Outcome.LIMIT, met.limit.value, seconds=attempt.spent - before)
    return Verdict(**{**vars(found), "seconds": attempt.spent - before})


def found_by(attempt, name):
    """The verdict, by what td answers. To assign a relvar to itself tells which kind it is."""
    kind = attempt.answer(encoded(f"{name} := {name};"))
    if kind.startswith(NOT_THERE):
        return Verdict(Outcome.MISSING, cause_of_missing(attempt, name))
    if not kind.startswith(VIRTUAL):
        return Verdict(Outcome.BASE, "not VIRTUAL")
    answer = decoded(attempt.answer(encoded(f"WRITE {name};"))).removesuffix("\n")
    if answer.startswith("REFUSED"):
        return Verdict(Outcome.REFUSED, answer)
    return compared(attempt.given, name, answer)


def cause_of_missing(attempt, name):
    """Why no relvar of the name stands, as far as the script tells."""
    for one in attempt.refused:
        if one.defines(name):
            return one.answer
    if attempt.open_lines:
        return "a transaction is left open"
    for other in (name.lower(), name.upper()):
        if attempt.answer(encoded(f"{other} := {other};")).startswith(VIRTUAL):
            return f"{other} is another name"
    return "not defined"


def compared(given, name, literal):
    """The verdict on a value. Equal relations have one literal."""
    if literal == given.literals[name]:
        return Verdict(Outcome.OK)
    wanted, _ = some_tuples(given.literals[name])
    heading, _ = some_tuples(literal)
    found = given.differences(name, literal) if heading == wanted else None
    if found is None:
        told = heading_told(wanted, heading)
        return Verdict(Outcome.HEADING, told, wanted=wanted, heading=heading)
    return Verdict(Outcome.TUPLES, missing=found[0], superfluous=found[1])


def heading_told(wanted, heading):
    """How a heading differs from the wanted one, in a few words."""
    types, others = dict(wanted), dict(heading)
    both = [name for name in types if name in others]
    told = [f"no {name}" for name in types if name not in others]
    told += [f"{name} too many" for name in others if name not in types]
    told += [f"{name} is {others[name]}" for name in both if others[name] != types[name]]
    return ", ".join(told) or "a type of its own"


def marks(worth, verdicts):
    """The marks of an answer, by what it is on each database."""
    right = [one.outcome is Outcome.OK for one in verdicts]
    return worth.whole if all(right) else worth.partial if any(right) else 0
