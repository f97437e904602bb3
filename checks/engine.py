"""The engine's tables, read from its source: reserved words, causes and the grammar's productions.
"""
import re
from pathlib import Path

TOP = Path(__file__).resolve().parent.parent
TREE = TOP / "crates" / "td_tree"
MODEL = "specs/model"
GRAMMAR = ("Lists", "Grammar", "StatementGrammar")
# The tables of words that one constructor of the grammar stands for.
WORDS = "operator_words|comparison_word|measure_word|aggregate_word"


def found(path, pattern):
    """All that the pattern finds in the file: it is a fault if that is nothing."""
    every = re.findall(pattern, path.read_text(encoding="utf-8"), re.MULTILINE)
    if not every:
        raise SystemExit(f"{path.relative_to(TOP)}: nothing in it looks like {pattern}")
    return every


def reserved_words():
    return set(found(TREE / "src" / "keyword.rt", r'Keyword::\w+ => "([A-Z_]+)"'))


def causes():
    """The causes as an answer tells them: the number and the name."""
    path = TREE / "src" / "cause.rt"
    numbers = dict(found(path, r"Cause::(\w+) => ([0-9]+),"))
    names = dict(found(path, r'Cause::(\w+) => "([A-Z_]+)"'))
    return [f"{number} {names[cause]}" for cause, number in numbers.items()]


def productions():
    """The names of the grammar's productions, which are the constructors of its definition, and
    those of the words for which some stand."""
    names = set()
    for file in GRAMMAR:
        names.update(found(TREE / MODEL / f"{file}.antt", r"^ {2,4}([a-z_]+) : "))
    names.update(found(TREE / MODEL / "Grammar.antt", rf"^(?:{WORDS}) \w+\.(\w+) ="))
    return names
