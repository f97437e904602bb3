"""The chapters of docs/tour.md as data: prose, scripts that can be run, and exercises."""
import re
from dataclasses import dataclass, field

from .programs import TOP

TOUR = "docs/tour.md"
CHAPTER = re.compile(r"^## (?=\d+\. )", re.MULTILINE)
MARK = re.compile(r"<!-- (examples/\S+)\.(td|out) -->\n((?:    [^\n]*\n|\n(?=\n*    ))+)")
SOLUTION = re.compile(r"\s*\(\[Solution\]\(\.\./(examples/tour/[\w-]+\.td)\)\)")
INLINE = re.compile(r"`([^`]+)`|\*\*(.+?)\*\*|\[([^\]]+)\]\([^)]*\)", re.DOTALL)
# What the groups of INLINE are, by their number.
FORMS = {1: "code", 2: "strong", 3: "text"}


@dataclass
class Block:
    """A part of a chapter. Prose is runs of texts, each with its form; a script is its text; an
    exercise is prose with a script that solves it."""

    kind: str
    runs: list = field(default_factory=list)
    script: str = ""


@dataclass
class Chapter:
    """A chapter: its title, and its blocks in order."""

    title: str
    blocks: list


def runs_of(paragraph):
    """The texts of a paragraph, each with its form. A link is its words."""
    runs, at = [], 0
    words = " ".join(paragraph.split())
    for found in INLINE.finditer(words):
        runs.append(("text", words[at : found.start()]))
        runs.append((FORMS[found.lastindex], found.group(found.lastindex)))
        at = found.end()
    return [run for run in [*runs, ("text", words[at:])] if run[1]]


def unindented(lines):
    return re.sub("^    ", "", lines, flags=re.MULTILINE).strip("\n") + "\n"


def prose(text):
    """The paragraphs of a text that has no scripts."""
    for paragraph in re.split(r"\n\s*\n", text):
        solution = SOLUTION.search(paragraph)
        if solution:
            script = (TOP / solution.group(1)).read_text(encoding="utf-8")
            yield Block("exercise", runs_of(SOLUTION.sub("", paragraph)), script)
        elif paragraph.strip():
            yield Block("prose", runs_of(paragraph))


def blocks(text):
    """The blocks of a chapter. Answers are left out: whoever runs a script has them."""
    at = 0
    for found in MARK.finditer(text):
        yield from prose(text[at : found.start()])
        if found.group(2) == "td":
            yield Block("script", script=unindented(found.group(3)))
        at = found.end()
    yield from prose(text[at:])


def chapters():
    """The chapters of the tour."""
    text = (TOP / TOUR).read_text(encoding="utf-8").split("\n## And then\n")[0]
    for part in CHAPTER.split(text)[1:]:
        title, _, rest = part.partition("\n")
        yield Chapter(title, list(blocks(rest)))
