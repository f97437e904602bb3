"""What is known beside the part of a statement that is refused, and what to try in its place."""
import difflib

from .definitions import RELVARS, Kind, definitions, heading_of
from .habits import renamed_type
from .places import as_written, in_a_list, shortened

TYPE_MISMATCH, HEADING, TYPE_CONSTRAINT, NOT_DISJOINT, NOT_INCLUDED = 5, 6, 24, 25, 26
NEAR, LONGEST, MOST = 0.6, 100, 6
COMPARISONS = {"=", "<>", "<", "<=", ">", ">="}
# Forms whose two operands have one heading: also an assignment and the list of a relation.
SAME_HEADINGS = {
    *("UNION", "D_UNION", "INTERSECT", "MINUS", "I_MINUS", "=", "<>", "<", "<=", ">", ">=", ""),
    "element",
}
# What asks nothing of the tuples: of an operator, and of an assignment.
LOOSER = {
    NOT_DISJOINT: ("{0} UNION {1}", "INSERT {0} {1}"),
    NOT_INCLUDED: ("{0} MINUS {1}", "{0} := {0} MINUS ({1})"),
}
OTHER_TYPES = {"STRING", "TEXT", "NUMBER", "BOOL", "INT", "VARCHAR", "DATE", "BIT"}
# Operators of SQL and of the book that are none here.
CALLS = {
    "AVG": "SUM(R, A) / COUNT(R)",
    "IS_NOT_EMPTY": "NOT IS_EMPTY(R)",
    "EXISTS": "NOT IS_EMPTY(R)",
    "EXACTLY": "COUNT(R WHERE ..) = N",
    "COUNTD": "COUNT(R {A})",
    "REL": "RELATION",
    "TUP": "TUPLE",
}


def nearest(word, known):
    """The known name that is most like the word: one that differs in capitals alone comes first."""
    capitals = {}
    for one in known:
        capitals.setdefault(one.upper(), one)
    found = difflib.get_close_matches(word.upper(), capitals, 1, NEAR)
    return capitals[found[0]] if found else None


def known_names(asking, found):
    """The names that could stand in the place of one that is not known."""
    every = definitions(asking.session)
    types = [one for one in every if one.kind is Kind.TYPE]
    if found.part.kind == "type":
        return [*(one.name for one in types), "INTEGER", "CHAR", "BOOLEAN"]
    if found.part.kind == "selector":
        return [one.name for one in types]
    if found.part.kind == "component":
        return [f"THE_{name}" for one in types for name, _ in one.components[0]]
    relvars = [one.name for one in every if one.kind in RELVARS]
    return [*asking.in_scope(found.frames), *relvars]


def of_name(asking, found, word):
    """What a name that is like no known one may mean, or which names are known there."""
    kind = found.part.kind
    if kind == "type" and word.upper() in OTHER_TYPES:
        return f"try {renamed_type(word)}"
    if word.upper() in CALLS:
        return f"try {CALLS[word.upper()]}"
    around = found.around.part if found.around else None
    if kind == "name" and around and around.kind in COMPARISONS | {"||"}:
        if around.operands[0][0] is not found.part:
            return f"try '{word}', if it is a text"
    known = asking.in_scope(found.frames)
    return f"attributes there are {in_a_list(known[:MOST])}" if known else None


def of_part(asking, found, texts, kinds):
    """What to try in place of a part whose operands have these texts and types, or a note."""
    if asking.cause == TYPE_CONSTRAINT:
        return of_constraint(asking, found)
    said = tried(asking, found, texts, kinds)
    if said:
        return f"try {said}"
    is_of_headings = asking.cause == HEADING and len(kinds) == 2
    return of_difference(found.part.kind, kinds) if is_of_headings else None


def tried(asking, found, texts, kinds):
    kind = found.part.kind
    if asking.cause == TYPE_MISMATCH and len(texts) == 2:
        hints = (of_membership, of_literals, of_single_values, of_components, of_tuples)
        said = (hint(asking, kind, texts, kinds) for hint in hints)
        return next((one for one in said if one), None)
    if asking.cause == TYPE_MISMATCH:
        return of_precedence(asking, found) or of_tuple(texts, kinds)
    if asking.cause == HEADING:
        return of_headings(texts, kinds) if len(texts) == 2 and kind in SAME_HEADINGS else None
    return of_looser(asking.cause, kind, texts) or of_values(kind, texts)


def of_constraint(asking, found):
    """What the constraint of a selector's type asks."""
    name = asking.text[found.part.begins : found.part.ends].split("(")[0].strip()
    every = definitions(asking.session)
    types = [one for one in every if (one.kind, one.name) == (Kind.TYPE, name)]
    constraint = types[0].components[1] if types else None
    return f"{name} needs {shortened(as_written(constraint), LONGEST)}" if constraint else None


def of_difference(kind, kinds):
    """In what two headings differ, where they must not."""
    left, right = (dict(heading_of(one)) for one in kinds)
    for name in left:
        if name in right and left[name] != right[name]:
            return f"{name} is {left[name]} and {right[name]}"
    if kind == "TIMES":
        return f"both have {in_a_list([name for name in left if name in right])}"
    less = [name for name in left if name not in right]
    more = [name for name in right if name not in left]
    if kind not in SAME_HEADINGS or less and more:
        return None
    side = "second" if less else "first"
    return f"the {side} has no {in_a_list(less or more)}"


def of_membership(_, kind, texts, kinds):
    """t IN r of a value: the tuple that has it. Of a value in parentheses: an equation."""
    heading = heading_of(kinds[1])
    if kind != "IN" or kinds[0].startswith(("TUPLE", "RELATION")):
        return None
    if kinds[1] == kinds[0]:
        return f"{texts[0]} = {texts[1].strip('()')}"
    if not kinds[1].startswith("RELATION") or len(heading) != 1:
        return None
    return f"TUPLE {{{heading[0][0]} {texts[0]}}} IN {texts[1]}"


def of_literals(_, kind, texts, kinds):
    """A number beside a text, one of which is written out."""
    if {*kinds} != {"CHAR", "INTEGER"}:
        return None
    text, number = sorted((0, 1), key=lambda place: kinds[place])
    said = [*texts]
    if kind in ("+", "-", "*", "/") or texts[text].strip("'").isdigit():
        said[text] = said[text].strip("'")
        return f"{said[0]} {kind} {said[1]}" if said[text].isdigit() and kind else None
    if texts[number].isdigit():
        said[number] = f"'{texts[number]}'"
        return f"{said[0]} {kind} {said[1]}" if kind else None
    return None


def of_single_values(_, kind, texts, kinds):
    """A relation beside a value: the one value that the relation has."""
    for relation, value in ((0, 1), (1, 0)):
        heading = heading_of(kinds[relation])
        is_one = kinds[relation].startswith("RELATION") and len(heading) == 1
        if kind and is_one and heading[0][1] == kinds[value]:
            said = [*texts]
            said[relation] = f"{heading[0][0]} FROM TUPLE FROM ({texts[relation].strip()})"
            return f"{said[0]} {kind} {said[1]}"
    return None


def of_components(asking, kind, texts, kinds):
    """A user value beside one of the type of its component."""
    every = definitions(asking.session)
    types = {one.name: one for one in every if one.kind is Kind.TYPE}
    for user, value in ((0, 1), (1, 0)):
        components = types[kinds[user]].components[0] if kinds[user] in types else []
        if len(components) == 1 and components[0][1] == kinds[value] and kind:
            said = [*texts]
            said[user] = f"THE_{components[0][0]}({texts[user]})"
            return f"{said[0]} {kind} {said[1]}"
    return None


def of_tuples(_, kind, texts, kinds):
    """A tuple where a relation is needed: the relation that has it alone."""
    if kind == "IN" or not any(one.startswith("RELATION") for one in kinds):
        return None
    for text, one in zip(texts, kinds):
        if one.startswith("TUPLE"):
            front = f"{texts[0]} MATCHING " if kind == "WHERE" and text is texts[1] else ""
            return shortened(f"{front}RELATION {{{text}}}", LONGEST)
    return None


def of_tuple(texts, kinds):
    if len(kinds) == 1 and kinds[0].startswith("TUPLE"):
        return shortened(f"RELATION {{{texts[0]}}}", LONGEST)
    return None


def of_precedence(asking, found):
    """r WHERE a = b {A}, in which the names belong to b: parentheses around the restriction."""
    part, outer = found.part, found.around
    while outer and outer.part.kind != "WHERE":
        outer = outer.around
    if part.kind not in ("attributes", "rename") or not outer or outer.part.ends != part.ends:
        return None
    ends = part.operands[0][0].ends
    restriction = asking.text[outer.part.begins : ends]
    return shortened(f"({restriction}){asking.text[ends : part.ends]}", LONGEST)


def of_headings(texts, kinds):
    """Two relations of which one attribute has two names, or one has attributes more."""
    left, right = (dict(heading_of(one)) for one in kinds)
    if not left or not right:
        return None
    more = [one for one in right if one not in left]
    less = [one for one in left if one not in right]
    if len(more) == len(less) == 1 and right[more[0]] == left[less[0]]:
        return shortened(f"{texts[1]} RENAME ({more[0]} AS {less[0]})", LONGEST)
    if more and not less:
        return shortened(f"{texts[1]} {{{', '.join(left)}}}", LONGEST)
    return None


def of_looser(cause, kind, texts):
    """What also takes tuples that are in both, or in the second alone."""
    if cause not in LOOSER or len(texts) != 2:
        return None
    operator, assignment = LOOSER[cause]
    return shortened((operator if kind else assignment).format(*texts), LONGEST)


def of_values(kind, texts):
    """What has a value where the operands have not what is needed."""
    if kind == "/" and len(texts) == 2 and not texts[1].isdigit():
        return f"IF {texts[1]} = 0 THEN .. ELSE {' / '.join(texts)} END IF"
    if kind in ("MAX", "MIN") and len(texts) == 2:
        return f"IF IS_EMPTY({texts[0]}) THEN .. ELSE {kind}({', '.join(texts)}) END IF"
    return None
