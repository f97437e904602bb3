"""The marks of a class: a file with a line for each student, and one with a line for each answer
on each database."""
import csv
import io
from dataclasses import dataclass

from .verdicts import Outcome, marks

# A spreadsheet takes a cell that begins so as a formula.
OF_FORMULAS = ("=", "+", "-", "@", "\t", "\r")


@dataclass(frozen=True)
class Graded:
    """A student with a verdict for each answer on each database, in the order of the databases."""

    name: str
    verdicts: dict
    refused: list
    notes: list
    seconds: float

    def marks(self, key):
        """The marks of each answer."""
        return {one: marks(key.worth(one), self.verdicts[one]) for one in key.answers}

    def total(self, key):
        return sum(self.marks(key).values())


def told(databases, verdicts):
    """The verdicts on an answer: one where they are all the same, else each with its database."""
    words = [one.told for one in verdicts]
    if len(set(words)) == 1:
        return words[0]
    return "; ".join(f"{database}: {one}" for database, one in zip(databases, words))


def safe(cell):
    """A cell that no spreadsheet takes as a formula."""
    text = str(cell)
    return f"'{text}" if text.startswith(OF_FORMULAS) else text


def lines(rows):
    text = io.StringIO()
    csv.writer(text, lineterminator="\n").writerows([map(safe, row) for row in rows])
    return text.getvalue()


def marks_csv(key, databases, class_list):
    """Of each student the marks, those of each answer, and what is told of each."""
    head = ["student", "marks", "of", *key.answers, *(f"{one} told" for one in key.answers)]
    rows = [[*head, "refused", "seconds"]]
    for one in class_list:
        row = [one.name, one.total(key), key.total, *one.marks(key).values()]
        row += [told(databases, one.verdicts[name]) for name in key.answers]
        rows.append([*row, len(one.refused), f"{one.seconds:.2f}"])
    return lines(rows)


def answers_csv(key, databases, class_list):
    """Of each student each answer on each database."""
    head = ["student", "answer", "database", "ok", "heading", "missing", "superfluous", "cause"]
    rows = [[*head, "seconds"]]
    for student in class_list:
        for name in key.answers:
            for database, one in zip(databases, student.verdicts[name]):
                rows.append([student.name, name, database, *columns(one), f"{one.seconds:.2f}"])
    return lines(rows)


def columns(one):
    """Whether it is right, whether its heading is, how many tuples are missing and superfluous,
    and the cause. Where nothing can be said a cell is empty."""
    if one.outcome is Outcome.TUPLES:
        return ["no", "yes", one.missing.count, one.superfluous.count, "tuples"]
    if one.outcome is Outcome.OK:
        return ["yes", "yes", 0, 0, ""]
    heading = "no" if one.outcome is Outcome.HEADING else ""
    return ["no", heading, "", "", one.told]
