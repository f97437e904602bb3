"""CSV files as tables of rows, each with the line at which it begins, and files of bad rows."""
import csv
import io
from dataclasses import dataclass, field

from .command import WRONG_WORDS, Failure
from .scripts import text_of

UTF_8 = "UTF-8"


def wrong(says):
    return Failure(says, WRONG_WORDS)


@dataclass(frozen=True)
class Row:
    """A row of a CSV file: the line at which it begins, and its cells."""

    line: int
    cells: list[str]


@dataclass(frozen=True)
class BadRow:
    """A row that can't be a tuple, and why."""

    row: Row
    why: str


@dataclass
class Table:
    """What a CSV file holds: the names of its first line, its rows, and the bad ones."""

    file: str
    names: list[str]
    rows: list[Row] = field(default_factory=list)
    bad: list[BadRow] = field(default_factory=list)

    def wrong(self, line, says):
        return wrong(f"{self.file}:{line}: {says}")

    def place(self, name):
        """Where the attribute of this name stands."""
        if name not in self.names:
            raise wrong(f"{name!r} is no name of {self.file}'s first line")
        return self.names.index(name)

    def places(self, names):
        return [self.place(name) for name in names]

    def cells(self, name):
        """The cells of the attribute of this name."""
        place = self.place(name)
        return [row.cells[place] for row in self.rows]

    def set_apart(self, bad):
        """Takes bad rows out of the rows."""
        lines = {one.row.line for one in bad}
        self.rows = [row for row in self.rows if row.line not in lines]
        self.bad += bad


@dataclass(frozen=True)
class Format:
    """How a CSV file is written: its encoding, and the character between two cells."""

    encoding: str = UTF_8
    delimiter: str = ","

    def check(self):
        try:
            "a".encode(self.encoding)
        except (LookupError, ValueError) as error:
            raise wrong(f"--encoding: Python knows none that is named {self.encoding!r}") from error
        if len(self.delimiter) != 1 or self.delimiter in '"\r\n':
            raise wrong("--delimiter is one character, and none of a quote and a line's end")

    def decoded(self, file):
        """The text of a file, or of standard input, without a byte order mark."""
        data = text_of(file)
        try:
            return data.decode(self.encoding).removeprefix("\ufeff")
        except UnicodeDecodeError as error:
            before = data[: error.start].decode(self.encoding, "replace")
            line = before.count("\n") + 1
            says = f"{file}:{line}: it is not {self.encoding}; try --encoding windows-1252"
            raise wrong(says) from error

    def rows_of(self, file):
        """The rows of a CSV file that are not empty."""
        lines = io.StringIO(self.decoded(file), newline="")
        rows = csv.reader(lines, strict=True, delimiter=self.delimiter)
        begins = 1
        try:
            for cells in rows:
                if cells:
                    yield Row(begins, cells)
                begins = rows.line_num + 1
        except csv.Error as error:
            raise wrong(f"{file}:{begins}: {error}") from error

    def read(self, file):
        """The table of a file. Rows of another length than the first line are bad."""
        rows = self.rows_of(file)
        first = next(rows, Row(1, []))
        table = Table(file, [name.strip() for name in first.cells])
        if not table.names:
            raise table.wrong(first.line, "there is no line of names")
        wanted = len(table.names)
        for row in rows:
            if len(row.cells) == wanted:
                table.rows.append(row)
            else:
                why = f"the row has length {len(row.cells)}, and the first line {wanted}"
                table.bad.append(BadRow(row, why))
        return table


def write_rejects(file, names, bad):
    """Writes bad rows as CSV, each behind its line and why it is bad."""
    with open(file, "w", encoding="utf-8", newline="") as rejects:
        rows = csv.writer(rejects, lineterminator="\n")
        rows.writerow(["line", "why", *names])
        for one in bad:
            rows.writerow([one.row.line, one.why, *one.row.cells])
