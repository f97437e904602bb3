"""The attributes that the columns of a CSV file become: their types, and the literals of cells."""
import re
from dataclasses import dataclass
from enum import Enum

NUMBER = re.compile(r"0|-?[1-9][0-9]{0,18}")
WRITTEN_NUMBER = re.compile(r"[+-]?[0-9]+")
LEAST, GREATEST = -(2**63), 2**63 - 1
TRUTHS = {"TRUE": "TRUE", "FALSE": "FALSE"}
# What else a cell of a column that is asked to be BOOLEAN may say.
WRITTEN_TRUTHS = TRUTHS | {
    **dict.fromkeys(("T", "YES", "Y", "1"), "TRUE"),
    **dict.fromkeys(("F", "NO", "N", "0"), "FALSE"),
}
SELECTOR = re.compile(r"\s*([^\s(]+?)\s*=\s*(([^\s()',]+)\s*\(.*\))\s*", re.DOTALL)
# A column of which so many cells of 100 are numbers was hardly meant as CHAR.
NEARLY_ALL = 95
STRAYS_SHOWN = 10


class CellType(Enum):
    """The types that a cell may be read as."""

    INTEGER = "INTEGER"
    CHAR = "CHAR"
    BOOLEAN = "BOOLEAN"


def is_number(cell):
    """Whether the cell is a number as td writes it."""
    return NUMBER.fullmatch(cell) is not None and LEAST <= int(cell) <= GREATEST


def number_of(cell):
    """The literal of a cell that is read as a number: blanks, a plus and zeros may stand there."""
    written = cell.strip()
    digits = written.lstrip("+-0")
    # No number of the range has more digits, and Python converts no text of very many.
    if not WRITTEN_NUMBER.fullmatch(written) or len(digits) > 19:
        return None
    number = int(digits or "0") * (-1 if written[0] == "-" else 1)
    return str(number) if LEAST <= number <= GREATEST else None


def text_of(cell):
    return "'" + cell.replace("'", "''") + "'"


def truth_of(cell):
    return WRITTEN_TRUTHS.get(cell.strip().upper())


# Of each type what gives a cell's literal, or None where the cell is no value of it.
LITERALS = {CellType.INTEGER: number_of, CellType.CHAR: text_of, CellType.BOOLEAN: truth_of}


@dataclass(frozen=True)
class Selector:
    """A selector that is applied to a cell: its type, and what stands around the cell."""

    type: str
    parts: list[str]

    def applied(self, literal):
        return literal.join(self.parts)


def selector_of(words):
    """The attribute and the selector of words such as `Mail=EMAIL(Mail)`; None where they are no
    such words."""
    found = SELECTOR.fullmatch(words)
    if found is None:
        return None
    name, expression, kind = found.groups()
    parts = re.split(rf"(?<![\w#]){re.escape(name)}(?![\w#])", expression[len(kind) :])
    if len(parts) < 2:
        return None
    return name, Selector(kind, [kind + parts[0], *parts[1:]])


@dataclass(frozen=True)
class Column:
    """An attribute, how its cells are read, and the selector that is applied to them, if any."""

    name: str
    kind: CellType
    selector: Selector | None = None
    is_optional: bool = False

    @property
    def type(self):
        return self.selector.type if self.selector else self.kind.value

    def literal(self, cell):
        """The cell's literal; None where the cell is no value of the type."""
        literal = LITERALS[self.kind](cell)
        if literal is None or self.selector is None:
            return literal
        return self.selector.applied(literal)

    def is_left_out(self, cell):
        """Whether the cell says nothing, and may do so."""
        return self.is_optional and not cell.strip()


def kind_of(cells):
    """The type of the cells of a column by what they say."""
    if cells and all(map(is_number, cells)):
        return CellType.INTEGER
    if cells and all(cell.upper() in TRUTHS for cell in cells):
        return CellType.BOOLEAN
    return CellType.CHAR


def strays(table, column):
    """What is said of the cells that make a column CHAR, where nearly all of them are numbers."""
    place = table.place(column.name)
    given = [row for row in table.rows if not column.is_left_out(row.cells[place])]
    others = [row for row in given if not is_number(row.cells[place])]
    numbers = len(given) - len(others)
    if not others or numbers * 100 < NEARLY_ALL * len(given):
        return []
    lines = ", ".join(str(row.line) for row in others[:STRAYS_SHOWN])
    more = ", .." if len(others) > STRAYS_SHOWN else ""
    return [
        f"{table.file}: {column.name} becomes CHAR, though {numbers} of {len(given)} cells are "
        f"numbers; not so on line {lines}{more}; --char {column.name} says that it is meant, "
        f"--integer {column.name} that these rows are bad"
    ]
