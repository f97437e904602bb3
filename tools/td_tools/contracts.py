"""The public calls of the crates with their contracts, and the laws, as they stand in the sources.

A source is read as `rt fmt` lays it out: what stands at the margin opens an item, a function's
clauses stand four blanks deeper than its head, and its body opens behind them. What a trait is seen
as, and what equality, order and hash are of a type, are definitions in a block of the trait or the
type.
"""
import itertools
import re
from dataclasses import dataclass
from pathlib import Path

TOP = Path(__file__).resolve().parent.parent.parent
CRATES = TOP / "crates"
MODULE = re.compile(r"(pub )?mod (\w+);")
TYPE = re.compile(r"pub (?:struct|enum|trait|type) (\w+)")
BLOCK = re.compile(r"(?:pub )?(?:unsafe )?(impl|trait)\b")
FUNCTION = re.compile(r"( *)(pub |pub\(crate\) )?(?:const )?fn (\w+)")
CLAUSE = re.compile(r"(requires|ensures) (?:(\w+) )?\{ ?(.*?) ?\}[;,]?$")
SEEN_AS = re.compile(r"    ghost (\w+): \{")
COMPARED = re.compile(r"    ghost (eq|cmp|hash_input) = \{")
DEFINED = re.compile(r"ghost \w+ = \{ (.*) \};$")
ANGLES = re.compile(r"<[^<>]*>")


@dataclass
class Clause:
    """A condition or a promise: its label, where it has one, and what it says."""

    kind: str
    label: str | None
    says: str


@dataclass
class Call:
    """A function, or what is defined of a type: its type, if it has one, and what is said of it."""

    owner: str | None
    name: str
    sentences: str
    clauses: list
    is_law: bool = False

    @property
    def full_name(self):
        return f"{self.owner}::{self.name}" if self.owner else self.name

    def of_kind(self, kind):
        return [clause for clause in self.clauses if clause.kind == kind]


@dataclass
class Module:
    """A file: its path below src/, its first sentence, its public types, each with its sentence,
    and its calls."""

    path: str
    sentence: str
    is_public: bool
    types: dict
    calls: list

    def told(self, is_law):
        return [call for call in self.calls if call.is_law == is_law]


@dataclass
class Crate:
    name: str
    sentence: str
    modules: list


def crate_names():
    """Those of crates.txt, the lowest first."""
    lines = (TOP / "crates.txt").read_text(encoding="utf-8").splitlines()
    return [line.split(":")[0] for line in lines if line.strip()]


def one_line(lines):
    return " ".join(" ".join(lines).split())


def comment(lines, mark):
    """What lines of a comment say, without their mark. An empty one ends a paragraph."""
    return one_line(line.strip().removeprefix(mark) for line in lines)


def head_comment(lines):
    """The first paragraph of the comment with which the file begins."""
    head = itertools.takewhile(lambda line: line.startswith("//! "), lines)
    return comment(list(head), "//!")


def sentences_above(lines, at):
    """What the comment above this line says, past attributes."""
    start = at
    while start and re.match(r"\s*(///|#\[|//)", lines[start - 1]):
        start -= 1
    return comment([line for line in lines[start:at] if line.strip().startswith("///")], "///")


def end_of_head(lines, at, margin):
    """The line behind a function's head, and whether its body is empty."""
    for stop in range(at, len(lines)):
        line = lines[stop]
        if line == margin + "{":
            return stop, False
        if line == margin + "{}":
            return stop, True
        if line.rstrip().endswith(";") or line.endswith(" {"):
            return stop + 1, False
        if line.endswith(" {}"):
            return stop + 1, True
    return len(lines), False


def clauses_of(lines, margin):
    """The clauses in the lines of a head."""
    found = []
    for line in lines:
        if re.match(margin + "    (requires|ensures)", line):
            found.append([line])
        elif found:
            found[-1].append(line)
    return [Clause(*CLAUSE.match(one_line(one)).groups()) for one in found]


def without_angles(text):
    """The text without what stands in angles, at any depth."""
    while (less := ANGLES.sub("", text)) != text:
        text = less
    return text


def owner_of(lines, at):
    """The type, or the trait, whose calls are in the block that opens here, and whether the block
    is a trait's or keeps one."""
    head = []
    for line in lines[at:]:
        head.append(line)
        if "{" in line:
            break
    bare = without_angles(one_line(head).split("{")[0].split(" where ")[0].replace("->", ""))
    words = re.sub(r"^(pub )?(unsafe )?(impl|trait)\b", "", bare).strip()
    if re.match(r"(pub )?(unsafe )?trait", bare):
        return words.split(":")[0].strip(), True
    kept, _, owner = words.rpartition(" for ")
    return owner.strip(" &") or words, bool(kept)


def end_of_block(lines, at):
    """The line behind the item that opens here."""
    if lines[at].endswith("{}"):
        return at + 1
    stop = at
    while stop < len(lines) and lines[stop] != "}":
        stop += 1
    return stop + 1


def read_call(lines, at, owner, is_of_trait):
    """The function that begins here, where it has a contract and others may call it."""
    margin, public, name = FUNCTION.match(lines[at]).groups()
    stop, is_empty = end_of_head(lines, at, margin)
    clauses = clauses_of(lines[at:stop], margin)
    if not clauses or public != "pub " and not is_of_trait:
        return None
    return Call(owner, name, sentences_above(lines, at), clauses, is_empty and owner is None)


def read_definition(lines, at, owner):
    """What equality, order or hash is of the type."""
    stop = at
    while not lines[stop].endswith("};"):
        stop += 1
    defined = DEFINED.search(one_line(lines[at : stop + 1]))[1]
    return Call(owner, COMPARED.match(lines[at])[1], "", [Clause("is", None, defined)])


def calls_of_block(lines, start, stop):
    """The calls of a type or a trait, with what is defined of it."""
    owner, is_of_trait = owner_of(lines, start)
    for at in range(start + 1, stop):
        line = lines[at]
        if (found := FUNCTION.match(line)) and len(found[1]) == 4:
            yield read_call(lines, at, owner, is_of_trait)
        elif found := SEEN_AS.match(line):
            yield Call(owner, found[1], sentences_above(lines, at), [])
        elif COMPARED.match(line):
            yield read_definition(lines, at, owner)


def calls_of(lines):
    at = 0
    while at < len(lines):
        if BLOCK.match(lines[at]):
            stop = end_of_block(lines, at)
            yield from calls_of_block(lines, at, stop)
            at = stop
            continue
        if (found := FUNCTION.match(lines[at])) and not found[1]:
            yield read_call(lines, at, None, False)
        at += 1


def types_of(lines):
    """The public types, each with the sentences above it."""
    places = [(at, TYPE.match(line)) for at, line in enumerate(lines)]
    return {found[1]: sentences_above(lines, at) for at, found in places if found}


def read_module(file, path, is_public):
    lines = file.read_text(encoding="utf-8").splitlines()
    calls = [call for call in calls_of(lines) if call]
    return Module(path, head_comment(lines), is_public, types_of(lines), calls)


def modules_below(folder, file, path, is_public):
    """The modules that the file names, in its order, each with those below it."""
    text = re.sub(r"#\[cfg\(test\)\]\nmod \w+;", "", file.read_text(encoding="utf-8"))
    for public, name in MODULE.findall(text):
        inner = folder / f"{name}.rt"
        is_seen = is_public and bool(public)
        yield read_module(inner, path + name, is_seen)
        yield from modules_below(folder / name, inner, f"{path}{name}/", is_seen)


def leave_own(modules):
    """Takes out what is the crate's own affair, and types that have no call."""
    types = {name for module in modules if module.is_public for name in module.types}
    owners = types & {call.owner for module in modules for call in module.calls}
    for module in modules:
        module.calls = [call for call in module.calls
                        if call.owner in types or module.is_public and call.owner is None]
        module.types = {name: says for name, says in module.types.items() if name in owners}


def read_crate(name):
    """The crate. Its modules are told where others can name them; the program's all are, as none is
    above it."""
    folder = CRATES / name / "src"
    is_program = not (folder / "lib.rt").is_file()
    root = folder / ("main.rt" if is_program else "lib.rt")
    modules = list(modules_below(folder, root, "", True))
    for module in modules:
        module.is_public = module.is_public or is_program
    leave_own(modules)
    return Crate(name, head_comment(root.read_text(encoding="utf-8").splitlines()), modules)


def read_crates():
    return [read_crate(name) for name in crate_names()]
