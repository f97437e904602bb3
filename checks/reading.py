"""Runs the repository's programs and reads what td writes, for the checks of tools/.

It reads nothing as tools/ do: a literal is read here by its signs alone.
"""
import os
import re
import subprocess
import sys
from pathlib import Path

TOP = Path(__file__).resolve().parent.parent
sys.path.append(str(TOP / "tools"))

from td_tools.programs import PROVED, td  # noqa: E402

# The td that is checked, here and by the tools that a check starts.
TD = os.environ["TD"] = td()
# What stands for `td` in commands: ./td where it runs this td, and else this td itself.
COMMAND = TOP / "td" if Path(TD) == PROVED else Path(TD)
PATIENCE = 120
SIGN = re.compile(r"'(?:[^']|'')*'|[{}()]|, |[^{}(),' ]+|.")


def run(program, *words, given=b"", **kept):
    """What a program of the repository writes, its status and what it says on standard error."""
    command = [TD if program == "td" else TOP / program, *words]
    kept = {"timeout": PATIENCE, "capture_output": True, "check": False, **kept}
    ran = subprocess.run(command, input=given, **kept)
    return ran.stdout, ran.returncode, ran.stderr


def whole_lines(text):
    """The lines of answers. A line's end in a text ends none."""
    held = ""
    for line in re.findall("[^\n]*\n", text):
        held += line
        if held.count("'") % 2 == 0:
            yield held
            held = ""


def listed(signs, opener, closer):
    """The items between two brackets, the first of which is next: each is the signs of it."""
    assert next(signs) == opener
    items, depth = [[]], 0
    for sign in signs:
        if depth == 0 and sign == closer:
            return [item for item in items if item]
        depth += (sign in "{(") - (sign in "})")
        if depth == 0 and sign == ", ":
            items.append([])
        else:
            items[-1].append(sign)
    raise ValueError("a bracket is not closed")


def heading_and_tuples(literal):
    """Of a relation's literal the attributes, as [name, type], and the values of each tuple."""
    signs = iter(SIGN.findall(literal))
    assert [next(signs), next(signs)] == ["RELATION", " "]
    heading = [[item[0], "".join(item[2:])] for item in listed(signs, "{", "}")]
    assert next(signs) == " "
    tuples = [listed(iter(element[2:]), "{", "}") for element in listed(signs, "{", "}")]
    values = [["".join(value[2:]) for value in one] for one in tuples]
    assert literal_of(heading, values) == literal, "the literal is read wrong"
    return heading, values


def literal_of(heading, tuples):
    attributes = ", ".join(f"{name} {kind}" for name, kind in heading)
    elements = []
    for values in tuples:
        parts = ", ".join(f"{name} {value}" for (name, _), value in zip(heading, values))
        elements.append(f"TUPLE {{{parts}}}")
    return f"RELATION {{{attributes}}} {{{', '.join(elements)}}}\n"


def unquoted(value):
    """What a text says. Any other literal is as it is."""
    return value[1:-1].replace("''", "'") if value.startswith("'") else value
