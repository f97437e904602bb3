"""The text that says what a contract means: every definition that its clauses name, and that those
name, chapter by chapter, each once and with its comment."""
import re
from dataclasses import dataclass

from . import contracts, specs
from .command import WRONG_WORDS, Failure

# The modules of each chapter, all of them in specs/model/, in the order in which they are to be read.
CHAPTERS = {
    "Values and relations": [
        "td_value: Values Sets Agreement KnownValues", "td_algebra: Operators",
        "td_group: Groups Nesting Aggregates Closure", "td_body: Bodies",
    ],
    "Types": ["td_types: Types Headings NamedTypes TypeLists Texts"],
    "Trees and the grammar": [
        "td_tree: Trees Heights Lexemes Signs Keywords Lists Numbers Grammar StatementGrammar Prints",
    ],
    "Tokens": [
        "td_tree: Symbols Names Division Pieces TextTokens Statements TokenLexemes",
        "td_parse: Meanings",
    ],
    "The static rules": [
        "td_tree: Causes Outcomes",
        "td_check: Scopes OperatorTypes StaticTypes Mentions StatementTypes",
    ],
    "Evaluation": [
        "td_eval: Worlds AggregateValues OperatorValues TreeValues DatabaseWorlds",
    ],
    "Statements, transactions and runs": [
        "td_catalog: Database Mentioned", "td_engine: Refusals Assignments Checks Machine",
    ],
    "The dump": ["td_value: Literal", "td_catalog: Dumps"],
    "Legality": [
        "td_tree: WrittenTrees", "td_catalog: WrittenDefinitions TypedDatabases",
        "td_eval: MetConstraints", "td_engine: Legality",
    ],
    "What a run promises": ["td_engine: Told Faults Scripts Standing Promises"],
}
CODE, ELSEWHERE = "Types of the code", "Elsewhere"
GHOST_USE = re.compile(r"^ghost use .*;$", re.MULTILINE)
OF_A_TRAIT = re.compile(r"\b([A-Z])\.(\w+)")


@dataclass
class Part:
    """What stands in one file of a chapter: its definitions, each as its lines."""

    file: str
    definitions: list

    @property
    def size(self):
        return sum(bool(line.strip()) for lines in self.definitions for line in lines)


def source(crate, path):
    return specs.CRATES / crate / "src" / f"{path}.rt"


def scope_of_code(crate, path):
    """What the names of definitions mean in a file of the code."""
    scope = specs.Scope(f"{crate}.{path}")
    for line in GHOST_USE.findall(source(crate, path).read_text(encoding="utf-8")):
        scope.add_import(line)
    return scope


def item(crate, path, opens):
    """The lines of an item of the code, with the comment above it."""
    lines = source(crate, path).read_text(encoding="utf-8").splitlines()
    at = next(number for number, line in enumerate(lines) if re.match(opens, line))
    start = at
    while start and re.match(r"///|#\[", lines[start - 1]):
        start -= 1
    stop = at if lines[at].endswith(";") else lines.index("}", at)
    return [line for line in lines[start : stop + 1] if not line.startswith("#[")]


def calls_named(name):
    """The public calls of that name, each with its crate and its file."""
    for crate in contracts.read_crates():
        for module in crate.modules:
            for call in module.calls:
                if call.full_name == name:
                    yield crate.name, module.path, call


def head_of(crate, path, call):
    """The contract as it stands in the source."""
    lines = source(crate, path).read_text(encoding="utf-8").splitlines()
    for at, line in enumerate(lines):
        found = contracts.FUNCTION.match(line)
        is_named = found and found[3] == call.name
        if is_named and call.sentences == contracts.sentences_above(lines, at):
            stop, _ = contracts.end_of_head(lines, at, found[1])
            start = at
            while lines[start - 1].strip().startswith("///"):
                start -= 1
            return [one.removeprefix(found[1]) for one in lines[start:stop]]
    raise Failure(f"{path}.rt of {crate} has no call {call.full_name}")


def traits_of(crate, path, lines):
    """The traits whose words the contract uses, such as `R.left`: each as it stands in the source."""
    text = "\n".join(lines)
    for letter in sorted({found[0] for found in OF_A_TRAIT.findall(text)}):
        if found := re.search(rf"\b{letter}: (\w+)", text):
            code = source(crate, path).read_text(encoding="utf-8")
            form = rf"use (?:crate|(\w+))::([\w:]+)::\{{?[^;]*\b{found[1]}\b"
            imported = re.search(form, code)
            yield imported[1] or crate, imported[2].replace("::", "/"), f"pub trait {found[1]}\\b"


def modules_of(chapter):
    """The modules of a chapter, in their order."""
    for line in CHAPTERS[chapter]:
        crate, _, names = line.partition(": ")
        yield from (f"{crate}.specs.model.{name}" for name in names.split())


def part(module, definitions):
    return Part(module.replace(".", "/") + ".antt", [one.lines for one in definitions])


class TrustedText:
    """The text of the contracts of the calls of a name."""

    def __init__(self, name):
        self.reached, self.heads, traits = specs.Reached(), [], set()
        for crate, path, call in calls_named(name):
            lines = head_of(crate, path, call)
            says = "\n".join(clause.says for clause in call.clauses)
            self.reached.add(scope_of_code(crate, path), says)
            self.heads.append(Part(f"{crate}/src/{path}.rt", [lines]))
            traits |= set(traits_of(crate, path, lines))
        if not self.heads:
            raise Failure(f"no public call {name} has a contract", WRONG_WORDS)
        for crate, path, opens in sorted(traits):
            lines = item(crate, path, opens)
            self.reached.add(scope_of_code(crate, path), "\n".join(lines))
            self.heads.append(Part(f"{crate}/src/{path}.rt", [lines]))

    def declared(self):
        """The types of the code that definitions name."""
        for crate, path, name in sorted(self.reached.declared):
            lines = item(crate, path, rf"pub (enum|struct) {name}\b")
            yield Part(f"{crate}/src/{path}.rt", [lines])

    def chapters(self):
        """The chapters, each with its parts; what none of them has comes last."""
        modules = self.reached.by_module()
        parts = {CODE: list(self.declared())}
        for chapter in CHAPTERS:
            names = [name for name in modules_of(chapter) if name in modules]
            parts[chapter] = [part(name, modules.pop(name)) for name in names]
        parts[ELSEWHERE] = [part(name, modules[name]) for name in sorted(modules)]
        return {chapter: every for chapter, every in parts.items() if every}

    def trusted_beside(self):
        """The names of std and of other libraries, by their modules."""
        modules = {}
        for module, name in sorted(self.reached.others):
            modules.setdefault(module.replace(".specs", "", 1), []).append(name)
        return modules
