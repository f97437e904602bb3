"""What Tab completes: names that td knows, the words of the language, and names of files."""
import glob
import os
import re
from pathlib import Path

from .catalog import Catalog
from .command import Failure
from .definitions import RELVARS

try:
    import readline
except ImportError:
    readline = None

GRAMMAR = Path(__file__).resolve().parent.parent.parent / "docs" / "grammar.md"
DELIMITERS = " \t\n{}(),;:=<>+-*/|'\""
NAME = re.compile(r"[^\s{}(),;:=<>+\-*/|'\"]+")
COLUMNS = 78


def words_of_language():
    """The words that stand in the grammar."""
    return sorted(set(re.findall("'([A-Z_]+)'", GRAMMAR.read_text(encoding="utf-8"))))


class Known:
    """The names that a database has: of each relvar its attributes, and all names."""

    def __init__(self, session):
        catalog = Catalog(session)
        self.definitions = [one.name for one in catalog.definitions]
        self.attributes = {
            one.name: [name for name, _ in catalog.heading(one)]
            for one in catalog.definitions
            if one.kind in RELVARS
        }

    def of_statement(self, text):
        """The attributes of the relvars that a statement names: those of the last one first."""
        relvars = [one for one in NAME.findall(text) if one in self.attributes]
        return [name for relvar in reversed(relvars) for name in self.attributes[relvar]]

    def names(self):
        """All names: definitions, then attributes."""
        every = [name for names in self.attributes.values() for name in names]
        return [*self.definitions, *every]


def beginning(front, names):
    """The names that begin so, each once; where none does, those that do in another case."""
    names = list(dict.fromkeys(names))
    found = [name for name in names if name.startswith(front)]
    return found or [name for name in names if name.lower().startswith(front.lower())]


def files(front):
    """The files and folders whose names begin so."""
    for path in sorted(glob.glob(glob.escape(os.path.expanduser(front)) + "*")):
        yield path + "/" * os.path.isdir(path)


class Completer:
    """Completes the word before the cursor."""

    def __init__(self, prompt, commands):
        """The commands that take a file are those whose use names one."""
        self.prompt = prompt
        self.commands = commands
        self.words = words_of_language()
        self.known, self.known_of = None, None
        self.found = []

    def begin(self):
        readline.set_completer_delims(DELIMITERS)
        readline.set_completer(self.complete)
        readline.set_completion_display_matches_hook(self.show)
        readline.parse_and_bind("tab: complete")

    def complete(self, front, number):
        """The completion of this number, as readline asks for them, or None behind the last."""
        if number == 0:
            try:
                self.found = self.completions(front)
            except (Failure, OSError):
                self.found = []
        return self.found[number] if number < len(self.found) else None

    def completions(self, front):
        line, begins = readline.get_line_buffer(), readline.get_begidx()
        if self.prompt.is_within() or not line.lstrip().startswith("\\"):
            return self.in_statement(front, self.prompt.held() + line[:begins])
        word, blank, rest = line.lstrip()[: readline.get_endidx()].partition(" ")
        if not blank:
            return beginning(word, self.commands)
        if word == "\\d":
            return beginning(front, self.names().definitions)
        done = len(rest.lstrip()) - len(front)
        return [path[done:] for path in files(rest.lstrip())]

    def in_statement(self, front, before):
        """Attributes of the relvars that the statement names come first, then all names, then the
        words of the language. Without a front there are no words, which are too many to be read,
        and at the front of a line nothing, so that lines with tabs may be pasted."""
        if self.prompt.is_in_text() or not front and not before.rpartition("\n")[2].strip():
            return []
        known = self.names()
        found = beginning(front, [*known.of_statement(before), *known.names()])
        words = beginning(front, self.words) if front else []
        return list(dict.fromkeys([*found, *words]))

    def names(self):
        """The names that are known after the last accepted statement."""
        database = self.prompt.database
        if self.known_of != (database.session, len(database.accepted)):
            self.known = Known(database.session)
            self.known_of = (database.session, len(database.accepted))
        return self.known

    def show(self, _, matches, longest):
        """Lists the completions in their order, and then the line again."""
        width = longest + 2
        row = max(1, COLUMNS // width)
        shown = [one.ljust(width) for one in self.found]
        rows = ["".join(shown[at : at + row]).rstrip() for at in range(0, len(shown), row)]
        print("\n" + "\n".join(rows))
        print(self.prompt.sign() + readline.get_line_buffer(), end="", flush=True)
