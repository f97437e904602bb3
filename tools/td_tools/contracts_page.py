"""What docs/proved.md tells of each crate: its calls with their clauses, and its laws."""
import re
import textwrap

WIDTH = 100
# A clause without a label stands there itself up to so many characters.
SHORT = 200
# Stands for a blank in what is not divided between lines.
UNDIVIDED = "\0"


def undivided(text):
    return text.replace(" ", UNDIVIDED)


def sentences(text):
    """The text, with what stands in backquotes kept on one line."""
    return "`".join(undivided(part) if at % 2 else part for at, part in enumerate(text.split("`")))


def wrapped(text, first="", later=""):
    lines = textwrap.wrap(text, WIDTH, initial_indent=first, subsequent_indent=later,
                          break_long_words=False, break_on_hyphens=False)
    return "\n".join(lines).replace(UNDIVIDED, " ")


def item(name, *said, note=""):
    """An item of a list: a name, and what is said of it, of which each part may be empty."""
    return wrapped(" ".join([f"**`{name}`**{note}:", *(one for one in said if one)]), "- ", "  ")


def clause(one):
    """Its label, or the clause itself, or the promise that it is, with its parts left out."""
    if one.label:
        return undivided(f"`{one.label}`")
    if len(one.says) <= SHORT:
        return undivided(f"`{one.says}`")
    promise = re.match(r"\w+Promise\b", one.says)
    return f"`{promise[0]}`" if promise else "a longer clause"


def clauses(call, kind):
    """The call's clauses of this kind as a sentence, if it has any."""
    every = call.of_kind(kind)
    return f"*{kind.capitalize()}* {', '.join(clause(one) for one in every)}." if every else ""


def call_item(call):
    """A call, or what contracts see of a trait's types, which has no clauses."""
    every = [clauses(call, kind) for kind in ("requires", "ensures", "is")]
    note = "" if call.clauses else ", in contracts"
    return item(call.full_name, sentences(call.sentences), *every, note=note)


def law_item(law):
    labels = ", ".join(f"`{one.label}`" for one in law.clauses if one.label)
    return item(law.full_name, sentences(law.sentences), labels and f"*Ensures* {labels}.")


def file_line(crate, module):
    link = undivided(f"[`{module.path}.rt`](../crates/{crate.name}/src/{module.path}.rt)")
    return wrapped(f"{link}: {sentences(lowered(module.sentence))}")


def lowered(text):
    """The text as it stands behind a colon."""
    return text[:1].lower() + text[1:]


def calls_part(crate):
    """The public types and the calls, file by file."""
    lines = []
    for module in crate.modules:
        items = [item(name, sentences(says), note=", a type") for name, says in module.types.items()]
        items += map(call_item, module.told(is_law=False))
        lines += [file_line(crate, module), "", *items, ""] if items else []
    return lines


def laws_part(crate):
    lines = []
    for module in crate.modules:
        items = list(map(law_item, module.told(is_law=True)))
        lines += [file_line(crate, module), "", *items, ""] if items else []
    return [f"#### Laws of `{crate.name}`", "", *lines] if lines else []


def made_part(crates):
    lines = ["", "## Crate by crate", ""]
    for crate in crates:
        lines += [f"### `{crate.name}`", "", wrapped(sentences(crate.sentence)), ""]
        lines += calls_part(crate) + laws_part(crate)
    return "\n".join(lines).rstrip("\n") + "\n"
