"""A diagram in words, and in the notations of Mermaid and Graphviz."""
import re

from .expression_layout import joined, tokens_of
from .schema_graph import End, Link
from .tables import visible

# What Mermaid writes at the left and at the right end of a line.
LEFT = {End.ONE: "||", End.AT_MOST_ONE: "|o", End.SOME: "}|", End.ANY: "}o"}
RIGHT = {End.ONE: "||", End.AT_MOST_ONE: "o|", End.SOME: "|{", End.ANY: "o{"}
# The shapes of Graphviz, from the box on.
ARROWS = {End.ONE: "teetee", End.AT_MOST_ONE: "teeodot", End.SOME: "crowtee", End.ANY: "crowodot"}
MERMAID_KEYS = {"PK", "FK", "UK"}
NO_WORD = re.compile(r"[^A-Za-z0-9_]")


def counted(number, word):
    return f"{number} {word}" if number == 1 else f"{number} {word}s"


def title(schema):
    """What a diagram shows, in a line."""
    parts = counted(len(schema.relvars), "relvar"), counted(len(schema.notes), "constraint")
    arrows = sum(one.link is Link.INCLUSION for one in schema.edges)
    return f"Diagram of a database: {parts[0]}, {counted(arrows, 'inclusion')}, {parts[1]} beside"


def description(schema):
    """What a diagram shows, for who can't see it."""
    said = [relvar_in_words(one) for one in schema.relvars]
    said += [edge_in_words(one) for one in schema.edges if one.link is not Link.MENTION]
    said += [f"Constraint {visible(one.name)}: {shown(one.expression)}." for one in schema.notes]
    return " ".join(said)


def shown(expression):
    return visible(joined(tokens_of(expression)))


def relvar_in_words(relvar):
    kind = "Virtual relvar" if relvar.is_virtual else "Relvar"
    names = ", ".join(name for name, _ in relvar.in_order()) or "no attributes"
    keys = "".join(f", key {{{', '.join(one)}}}" for one in relvar.keys)
    return visible(f"{kind} {relvar.name}, {relvar.tuples()}: {names}{keys}.")


def edge_in_words(edge):
    """An edge as a sentence."""
    if edge.link is Link.ORIGIN:
        return visible(f"{edge.source.name} is made of {edge.target.name}.")
    near, far = (one.value for one in edge.ends)
    by = edge.by() or "no attribute"
    ends = f"{near} in {edge.source.name} to {far} in {edge.target.name}"
    return visible(f"{edge.source.name} is included in {edge.target.name} by {by}: {ends}.")


def numbered(schema):
    """A name for each relvar and note that any notation takes."""
    every = [*schema.relvars, *schema.notes]
    return {id(one): f"N{number}" for number, one in enumerate(every, 1)}


def label_of(edge):
    """What an edge says."""
    if edge.link is Link.INCLUSION:
        return f"{edge.name}: {edge.by()}" if edge.by() else edge.name
    return edge.link.value


# ---- Mermaid


def mermaid_text(said):
    """A text in Mermaid's quotes, in which no quote and no backslash stands."""
    return '"' + visible(said).replace('"', "'").replace("\\", "/") + '"'


def mermaid_word(said):
    """A word as Mermaid takes one, for a name or a type."""
    word = NO_WORD.sub("_", said)
    return word if word[:1].isalpha() and word.upper() not in MERMAID_KEYS else f"A_{word}"


def mermaid_attribute(relvar, name, kind):
    """A line of an entity. What Mermaid can't write as a word stands behind it as a text."""
    is_key = relvar.keys and name in relvar.keys[0]
    marks = " PK" if is_key else " UK" if any(name in key for key in relvar.keys) else ""
    words = mermaid_word(kind), mermaid_word(name)
    said = "" if words == (kind, name) else " " + mermaid_text(f"{name} {kind}")
    return f"        {words[0]} {words[1]}{marks}{said}\n"


def mermaid_edge(edge, names):
    near, far = edge.ends if edge.link is Link.INCLUSION else (End.ANY, End.ANY)
    line = "--" if edge.link is Link.INCLUSION else ".."
    ends = f"{LEFT[near]}{line}{RIGHT[far]}"
    said = mermaid_text(label_of(edge))
    return f"    {names[id(edge.source)]} {ends} {names[id(edge.target)]} : {said}\n"


def mermaid(schema):
    """The diagram as an erDiagram of Mermaid. A note is an entity without attributes."""
    names, said = numbered(schema), ["erDiagram\n"]
    for one in schema.types:
        said.append(f"    %% TYPE {visible(one)}\n")
    for relvar in schema.relvars:
        virtual = "virtual, " if relvar.is_virtual else ""
        front = mermaid_text(f"{relvar.name} ({virtual}{relvar.tuples()})")
        rows = [mermaid_attribute(relvar, *one) for one in relvar.in_order()]
        body = f" {{\n{''.join(rows)}    }}" if rows else ""
        said.append(f"    {names[id(relvar)]}[{front}]{body}\n")
    for note in schema.notes:
        said.append(f"    %% CONSTRAINT {visible(note.name)} {shown(note.expression)}\n")
        said.append(f"    {names[id(note)]}[{mermaid_text(f'CONSTRAINT {note.name}')}]\n")
    return "".join([*said, *(mermaid_edge(one, names) for one in schema.edges)])


# ---- Graphviz


def dot_text(said):
    """A text in Graphviz's quotes."""
    return '"' + visible(said).replace("\\", "\\\\").replace('"', '\\"') + '"'


def html_text(said):
    """A text in a label of Graphviz's that has rows."""
    said = visible(said).replace("&", "&amp;").replace("<", "&lt;").replace(">", "&gt;")
    return said.replace('"', "&quot;")


def dot_row(relvar, name, kind):
    is_key = any(name in key for key in relvar.keys)
    shown_name = f"<u>{html_text(name)}</u>" if is_key else html_text(name)
    return f'<tr><td align="left">{shown_name}  {html_text(kind)}</td></tr>'


def dot_relvar(relvar, name):
    virtual = "virtual, " if relvar.is_virtual else ""
    head = f"<b>{html_text(relvar.name)}</b> {virtual}{html_text(relvar.tuples())}"
    rows = "".join(dot_row(relvar, *one) for one in relvar.in_order())
    style = ' style="dashed"' if relvar.is_virtual else ""
    table = f'<table border="1" cellborder="0" cellspacing="0"{style}>'
    return f"  {name} [label=<{table}<tr><td>{head}</td></tr>{rows}</table>>]\n"


def dot_edge(edge, names):
    front = f"  {names[id(edge.source)]} -> {names[id(edge.target)]}"
    if edge.link is Link.INCLUSION:
        near, far = (ARROWS[one] for one in edge.ends)
        said = dot_text(label_of(edge))
        return f"{front} [label={said}, dir=both, arrowtail={near}, arrowhead={far}]\n"
    form = "dashed, arrowhead=empty" if edge.link is Link.ORIGIN else "dotted, arrowhead=none"
    return f"{front} [style={form}]\n"


def dot(schema):
    """The diagram as a graph of Graphviz."""
    names = numbered(schema)
    said = ["digraph database {\n  rankdir=BT\n  node [shape=plain, fontname=monospace]\n"]
    said += [dot_relvar(one, names[id(one)]) for one in schema.relvars]
    for note in schema.notes:
        label = dot_text(f"{note.name}\n{shown(note.expression)}").replace("\\\\n", "\\n")
        said.append(f"  {names[id(note)]} [shape=note, label={label}]\n")
    said += [dot_edge(one, names) for one in schema.edges]
    for number, one in enumerate(schema.types, 1):
        said.append(f"  T{number} [label={dot_text(f'TYPE {one}')}]\n")
    return "".join([*said, "}\n"])
