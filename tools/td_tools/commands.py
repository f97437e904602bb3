"""What the prompt itself is asked for, by a line that begins with a backslash."""
import difflib
from pathlib import Path

from .answers import Script, is_refusal
from .catalog import Catalog
from .database import ACCEPTED
from .definitions import RELVARS, Kind
from .literals import Relation, Value
from .scripts import database_named, script_of
from .shown import as_tables, refusal
from .tables import table, visible_lines

HELP = """\
    \\d            lists what is defined
    \\d NAME       shows a definition: its heading, keys and tuples, and what mentions it
    \\read FILE    runs a script on the database that is open
    \\open FILE    leaves the database for the one that a script makes, such as a saved one
    \\save FILE    writes the database, as a script that makes it anew
    \\?  \\help     shows these
    \\q            ends the prompt
"""
NOT_SAVED = "the database has changes that are not saved"


def columns(*lists):
    """The lines of a table: of each column its head and its texts. Numbers stand at the right."""
    heading = [(head, "INTEGER" if head == "TUPLES" else "CHAR") for head, _ in lists]
    rows = zip(*(texts for _, texts in lists))
    values = [[Value(text, text=text) for text in row] for row in rows]
    return "".join(f"{line}\n" for line in table(Relation(heading, values)))


def counted(number, what):
    """A number of things: the plural where it is not one."""
    return f"{number} {what}{'s' * (number != 1)}"


class Commands:
    """The commands of a prompt. Those with `!` ask nothing."""

    def __init__(self, prompt):
        self.prompt = prompt
        self.actions = {
            "\\d": self.describe,
            "\\read": self.read,
            "\\open": self.open,
            "\\open!": lambda name: self.open(name, is_asked=False),
            "\\save": self.save,
            "\\save!": lambda name: self.save(name, is_asked=False),
            "\\?": lambda _: self.said(HELP),
            "\\help": lambda _: self.said(HELP),
        }
        self.names = [*self.actions, "\\q", "\\q!"]

    @property
    def database(self):
        return self.prompt.database

    def said(self, text):
        """Says something, such as the name of a file, in which a terminal obeys nothing."""
        self.prompt.say(visible_lines(text))

    def obey(self, line):
        """Does what a line asks for."""
        word, _, rest = line.strip().partition(" ")
        name = rest.strip()
        if word not in self.actions:
            self.said(f"there is no {word}; \\? shows what there is\n")
        elif word.rstrip("!") in ("\\read", "\\open", "\\save") and not name:
            self.said(f"{word} FILE: which file?\n")
        else:
            self.actions[word](name)

    # ---- files

    def taker(self, script):
        """What shows each answer to a script but OK, and counts: statements, and refusals."""
        counts = [0, 0]

        def take(session, at, statement, answer):
            counts[0] += 1
            counts[1] += is_refusal(answer)
            if is_refusal(answer):
                cutter = self.database.cutter
                self.prompt.show(refusal(session, cutter, script, at, statement, answer))
            elif answer != ACCEPTED:
                self.prompt.show(as_tables(answer))

        return take, counts

    def read(self, name):
        """Runs the script of a file on the database that is open."""
        text = Path(name).expanduser().read_bytes()
        below = database_named(Path(name).expanduser(), text)
        if below is not None and Path(below).resolve() not in self.database.seen:
            hint = f"\\open {name} opens both"
            self.said(f"{name} is written for {below}, which is not open: {hint}\n")
        script = Script([(name, text)])
        take, counts = self.taker(script)
        self.database.read(script, take)
        self.said(f"read {name}: {counted(counts[0], 'statement')}, {counts[1]} refused\n")

    def open(self, name, is_asked=True):
        """Leaves the database for another, of which nothing that is not saved is lost unasked."""
        script = script_of([str(Path(name).expanduser())])
        is_lost = is_asked and self.database.is_changed()
        if is_lost and not self.prompt.may_lose(NOT_SAVED, "Lose them", "they are lost"):
            return
        take, _ = self.taker(script)
        self.database.open(script, take)
        self.said(f"opened {name}\n")

    def save(self, name, is_asked=True):
        """Writes the database to a file."""
        lost = self.database.lost_by_saving(name) if is_asked else None
        if lost and not self.prompt.may_lose(lost, "Write over it", "it is written over"):
            return
        self.database.save(name)
        self.said(f"saved {name}\n")

    # ---- definitions

    def describe(self, name):
        """Lists what is defined, or shows what is of one name."""
        catalog = Catalog(self.database.session)
        if not name:
            self.prompt.show(self.listed(catalog))
            return
        found = catalog.named(name.rstrip(";").strip())
        if found:
            self.prompt.show("".join(described(catalog, one) for one in found))
            return
        near = difflib.get_close_matches(name, [one.name for one in catalog.definitions], 1, 0.5)
        hint = f"; did you mean {near[0]}?" if near else ""
        self.said(f"nothing is defined of the name {name}{hint}\n")

    def listed(self, catalog):
        """All definitions, in their order. The tuples of a virtual relvar are not asked for, which
        may take long."""
        every = catalog.definitions
        if not every:
            return "nothing is defined\n"
        counts = [catalog.count(one) if one.kind is Kind.BASE else "" for one in every]
        keys = [one.keys_text.replace(" KEY ", " ").lstrip() for one in every]
        names, kinds = [one.name for one in every], [one.kind.value for one in every]
        return columns(("NAME", names), ("KIND", kinds), ("TUPLES", counts), ("KEYS", keys))


def described(catalog, one):
    """A definition, with what it mentions and what mentions it."""
    parts = [f"{one.kind.value} {one.name}"]
    if one.kind in RELVARS:
        parts[0] += f", {tuples(catalog.count(one))}"
        heading = catalog.heading(one)
        names, types = [name for name, _ in heading], [text for _, text in heading]
        parts.append(columns(("ATTRIBUTE", names), ("TYPE", types)).rstrip("\n"))
        parts += [f"KEY {{{', '.join(key)}}}" for key in one.keys]
    if one.kind is not Kind.BASE:
        parts.append(visible_lines(one.statement))
    for head, others in (
        ("mentions", [f"{other.kind.value} {other.name}" for other in catalog.mentioned_by(one)]),
        ("is mentioned by", [summary(other) for other in catalog.mentioning(one)]),
    ):
        parts += [head, *(f"    {other}" for other in others)] if others else []
    return "\n".join(parts) + "\n"


def tuples(count):
    """A number of tuples, or the refusal of whoever asks for it."""
    return counted(int(count), "tuple") if count.isdecimal() else count


def summary(one):
    """A definition in a line: of a base relvar, whose value may be long, its name."""
    return f"{one.kind.value} {one.name}" if one.kind is Kind.BASE else visible_lines(one.statement)
