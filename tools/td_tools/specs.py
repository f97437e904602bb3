"""The definitions in crates/*/specs: each with its comment, and the definitions that it names.

A definition opens at the margin, with its comment above it, and goes on up to an empty line. One
that stands with others in a block (`mutual`, `module`) is that block. What is imported from
elsewhere is told by its module: std's, another library's, or a type that the code declares.
"""
import re
from dataclasses import dataclass, field
from functools import cache
from pathlib import Path

CRATES = Path(__file__).resolve().parent.parent.parent / "crates"
# A name, perhaps behind those of a module or a value: `words.Union`, `db.types`.
NAMES = re.compile(r"[^\W\d][\w'-]*(?:\.[^\W\d][\w'-]*)*")
NAME = r"([^\W\d][\w'-]*)"
HEAD = re.compile(rf"(?:(?:abbrev|pub|unfoldable) +)+(?:data +|record +)?{NAME}|{NAME} :")
BLOCK = re.compile(r"(?:abbrev |unfoldable )?(?:mutual|module)\b")
PART = re.compile(rf" +(?:pub )?{NAME} :")
IMPORT = re.compile(r"(?:ghost )?use (?:Rattle\.)?([\w.]+?)(?:\.\{(.*)\}| as (\w+))?;?$")

# What is known of a type of the code: its variants, or its order.
DECLARED = re.compile(r"(td\w*)\.specs\.(?:declared|contracts)\.([\w.]+?)(?:\.TheVariants)?$")


@dataclass
class Definition:
    """A definition, or a block of them: its module, its names and its lines."""

    module: str
    names: list
    lines: list

    @property
    def text(self):
        return "\n".join(self.lines)

    @property
    def size(self):
        """Its lines that are not empty."""
        return sum(bool(line.strip()) for line in self.lines)


@dataclass
class Scope:
    """What names mean in a file: what it imports by name, the modules by their short names, and
    its own; and its definitions in their order."""

    module: str
    imports: dict = field(default_factory=dict)
    modules: dict = field(default_factory=dict)
    own: dict = field(default_factory=dict)
    definitions: list = field(default_factory=list)

    def add_import(self, line):
        module, names, alias = IMPORT.match(line).groups()
        if names is None:
            self.modules[alias or module.split(".")[-1]] = module
            return
        for one in names.split(", "):
            name, _, other = one.strip().partition(" as ")
            self.imports[other or name] = (module, name)

    def meant(self, text):
        """The module and the name of each definition that the text names."""
        bare = re.sub(r'--.*|"[^"]*"', "", text)
        for first, *rest in (found.split(".") for found in NAMES.findall(bare)):
            if first in self.modules and rest:
                yield self.modules[first], rest[0]
            elif first in self.imports:
                yield self.imports[first]
            elif first in self.own:
                yield self.module, first


def units(lines):
    """The lines of each definition or block, with the comment right above it."""
    unit, comment, is_block = [], [], False
    for line in lines:
        opens = HEAD.match(line) or BLOCK.match(line)
        if is_block and (line.startswith(" ") or not line):
            unit.append(line)
        elif line.startswith("--"):
            comment.append(line)
        elif opens:
            unit = [*comment, line]
            comment, is_block = [], bool(BLOCK.match(line))
            yield unit
        elif not line:
            unit, comment, is_block = [], [], False
        elif unit:
            unit += [*comment, line]
            comment = []


def names_of(lines):
    """The names of what is defined in these lines, and those of constructors and fields."""
    margin = "  " if any(BLOCK.match(line) for line in lines) else ""
    heads = [HEAD.match(line.removeprefix(margin)) for line in lines if not BLOCK.match(line)]
    own = [found[1] or found[2] for found in heads if found]
    is_data = any(re.search(r"\b(data|record) ", line) for line in lines)
    return own, [found[1] for line in lines if is_data and (found := PART.match(line))]


@cache
def scope_of(module):
    """What names mean in a module of specs, with its definitions; None where there is no file."""
    crate, _, path = module.partition(".specs.")
    file = CRATES / crate / "specs" / (path.replace(".", "/") + ".antt")
    if not file.is_file():
        return None
    lines = file.read_text(encoding="utf-8").splitlines()
    scope = Scope(module)
    for line in lines:
        if line.startswith("use "):
            scope.add_import(line)
    parts = {}
    for unit in list(units([line for line in lines if not line.startswith("use ")])):
        while not unit[-1].strip():
            unit.pop()
        own, inner = names_of(unit)
        definition = Definition(module, own, unit)
        scope.definitions.append(definition)
        scope.own |= dict.fromkeys(own, definition)
        parts |= dict.fromkeys(inner, definition)
    scope.own = {**parts, **scope.own}
    return scope


class Reached:
    """The definitions that texts name, and those that these name, and so on."""

    def __init__(self):
        self.definitions, self.declared, self.others = {}, set(), set()

    def add(self, scope, text):
        waiting = [(scope, text)]
        while waiting:
            inside, words = waiting.pop()
            for module, name in inside.meant(words):
                found = self.find(module, name)
                if found and id(found) not in self.definitions:
                    self.definitions[id(found)] = found
                    waiting.append((scope_of(found.module), found.text))

    def find(self, module, name):
        """The definition, if it is one of specs/. What is not is kept by its module."""
        inside = scope_of(module) if ".specs." in module else None
        if inside and name in inside.own:
            return inside.own[name]
        if found := DECLARED.match(module):
            self.declared.add((found[1], *found[2].rsplit(".", 1)))
        elif module != "lib.Pointwise":
            self.others.add((module, name))
        return None

    def by_module(self):
        """The definitions of each module, in the order in which they stand there."""
        found = {}
        for one in self.definitions.values():
            found.setdefault(one.module, []).append(one)
        for module, every in found.items():
            every.sort(key=scope_of(module).definitions.index)
        return found
