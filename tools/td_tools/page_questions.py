"""What a page may ask, by the last word of an address, and what it is answered."""
import json
import re
import threading
from dataclasses import asdict
from http import HTTPStatus

from . import lessons
from .grammar import automaton
from .lexemes import reserved_words
from .page_answers import well_formed
from .page_server import Refused
from .programs import TOP

GRAMMAR = TOP / "editors" / "vscode" / "tutorial-d.tmLanguage.json"
CAUSE = re.compile(r"^\| (\d+) \| `[A-Z_]+` \| (.*?) \|", re.MULTILINE)
WORDS = re.compile(r"\(\?i:([A-Z_|]+)\)")


def colours():
    """The reserved words by what they are, as the editors' grammar has them."""
    text = GRAMMAR.read_text(encoding="utf-8")
    patterns = json.loads(text)["repository"]["reserved"]["patterns"]
    return {one["name"]: WORDS.match(one["match"]).group(1).split("|") for one in patterns}


def causes():
    """When each cause comes, by its number, as docs/language.md has it."""
    text = (TOP / "docs" / "language.md").read_text(encoding="utf-8")
    return {number: says.replace("`", "") for number, says in CAUSE.findall(text)}


def field(asked, name, kind, default=None):
    """A field of what is asked, which has to be of a type."""
    value = asked.get(name, default)
    if type(value) is not kind and value is not default:
        raise Refused(HTTPStatus.BAD_REQUEST, f"{name} is missing, or of another type")
    if value is None and default is None and kind is not int:
        raise Refused(HTTPStatus.BAD_REQUEST, f"{name} is missing")
    return value


class Questions:
    """Answers what the page asks. Each answer is an object, or the events of a script."""

    def __init__(self, tabs, database):
        """The database is the name of the script with which each tab begins, if there is one."""
        self.tabs, self.database = tabs, database
        self.colours, self.causes = colours(), causes()
        self.chapters = [asdict(one) for one in lessons.chapters()]
        self.answers = {
            "begin": self.begin, "lessons": self.lessons, "end": self.end, "run": self.run,
            "stop": self.stop, "back": self.back, "listed": self.listed, "shown": self.shown,
            "dump": self.dump, "diagram": self.diagram, "steps": self.steps,
        }

    def get_ready(self):
        """Reads beside, while the browser starts, what the first refusal needs."""
        threading.Thread(target=lambda: (automaton(), reserved_words()), daemon=True).start()

    def tab(self, asked):
        return self.tabs.tab(field(asked, "tab", str))

    def begin(self, asked):
        """A tab, which may begin with an empty database."""
        tab = self.tabs.open(field(asked, "empty", bool, False))
        return {"tab": tab, "database": self.database, "colours": self.colours,
                "causes": self.causes}

    def lessons(self, _):
        return {"chapters": self.chapters}

    def end(self, asked):
        self.tabs.close(field(asked, "tab", str))
        return {}

    def run(self, asked):
        """The events of a script, or of its statements at a place. What comes before the script is
        run too, and nothing is told of it."""
        script = well_formed(field(asked, "script", str))
        before = well_formed(field(asked, "before", str, ""))
        at, is_alone = field(asked, "at", int), field(asked, "alone", bool, False)
        is_anew = field(asked, "anew", bool, False)
        return self.events(self.tab(asked), before, script, (is_anew, at, is_alone))

    def events(self, tab, before, script, how):
        is_anew, at, is_alone = how
        if before:
            for _ in tab.run(before, is_anew):
                pass
            is_anew = False
        yield from tab.run(script, is_anew, at, is_alone)

    def stop(self, asked):
        self.tab(asked).stop()
        return {}

    def back(self, asked):
        self.tab(asked).back(field(asked, "number", int, 0))
        return {}

    def listed(self, asked):
        return {"definitions": self.tab(asked).listed()}

    def shown(self, asked):
        return self.tab(asked).shown(field(asked, "kind", str), field(asked, "name", str))

    def dump(self, asked):
        return {"dump": self.tab(asked).dump()}

    def diagram(self, asked):
        return {"diagram": self.tab(asked).diagram()}

    def steps(self, asked):
        statement = well_formed(field(asked, "statement", str)).encode()
        return {"steps": self.tab(asked).steps(field(asked, "number", int, 0), statement)}
