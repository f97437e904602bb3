"""What is known of a declaration, a drop or a target that td refuses: who has the name, who
mentions what is dropped, and which key or attribute it is.
"""
from .answers import Session, encoded
from .definitions import Kind, definitions
from .hints import nearest
from .parts import FRESH, nodes
from .places import as_written, in_a_list, shortened

LONGEST = 80


def name_of(asking, statement):
    return asking.text[statement.name.begins : statement.name.ends]


def taken(asking, statement):
    """The definition that has the name already."""
    name = name_of(asking, statement)
    for one in definitions(asking.session):
        if (one.word, one.name) == (statement.kind, name):
            has = shortened(as_written(one.declared), LONGEST)
            says = f" at {name}, which is there: {has}; try another name, or DROP {one.word} {name}"
            return statement.name.begins, says
    return None


def not_there(asking, statement):
    """What is dropped and is not there, with the nearest name that is."""
    name = name_of(asking, statement)
    every = definitions(asking.session)
    near = nearest(name, [one.name for one in every if one.word == statement.kind])
    others = [f"DROP {one.word} {name}" for one in every if one.name == name]
    hint = others[0] if others else near
    return statement.name.begins, f" at {name}" + (f"; try {hint}" if hint else "")


def mentioned(asking, statement):
    """The definitions that mention what is dropped."""
    name = name_of(asking, statement)
    by = [f"{one.word} {one.name}" for one in mentions(asking.session, statement.kind, name)]
    verb = "mentions" if len(by) == 1 else "mention"
    said = in_a_list(by)
    says = f" at {name}, which {said} {verb}" if by else f" at {name}"
    return statement.name.begins, says


def mentions(session, kind, name):
    """Those definitions with the word in them that td refuses where the named one is not there."""
    every = definitions(session)
    with Session() as copy:
        refused = [
            one
            for one in every
            if (one.word, one.name) != (kind, name)
            and copy.answer(encoded(one.unchecked)) != b"OK\n"
        ]
    return [one for one in refused if name in one.words]


def not_assignable(asking, statement):
    """The target that is a virtual relvar: DELETE of nothing is refused, or changes nothing."""
    for target in statement.targets:
        name = asking.text[target.begins : target.ends]
        if asking.answers([f"DELETE {name} WHERE FALSE;"])[0].startswith(asking.refusal):
            every = definitions(asking.session)
            (own,) = [one for one in every if (one.kind, one.name) == (Kind.VIRTUAL, name)]
            said = shortened(as_written(own.declared), LONGEST)
            return target.begins, f" at {name}, which is {said}"
    return None


class Declaring:
    """Asks td whether a relvar may be declared, and drops it."""

    def __init__(self, asking, statement):
        self.asking = asking
        source = statement.source
        if statement.heading is not None:
            heading = asking.text[statement.heading.begins : statement.heading.ends]
            self.front = f"VAR {FRESH} BASE RELATION {heading}"
        else:
            said = asking.text[source.begins : source.ends]
            self.front = f"VAR {FRESH} VIRTUAL (({said}) WHERE FALSE)"

    def refused(self, *keys):
        """Whether it is refused with these keys."""
        keys = " ".join(f"KEY {one}" for one in keys)
        question = f"{self.front} {keys}; DROP VAR {FRESH};"
        return self.asking.answers([question], 2)[0].startswith(self.asking.refusal)


def wrong_key(asking, statement):
    """The key that is none, alone or beside another."""
    if not statement.keys:
        names = [one for one, _ in asking.attributes_of_heading(statement)]
        says = f" at {name_of(asking, statement)}, which has no KEY"
        return statement.name.begins, f"{says}; try KEY {{{', '.join(names)}}}"
    declaring = Declaring(asking, statement)
    keys = [one.parts[1] for one in statement.keys]
    said = [asking.text[one.begins : one.ends] for one in keys]
    for key, text in zip(keys, said):
        if declaring.refused(text):
            return unknown_attribute(asking, statement, key, text)
    for place, text in enumerate(said):
        others = [one for one in said[:place] if declaring.refused(one, text)]
        if others:
            says = f" at KEY {text}, beside KEY {others[0]}: one includes the other"
            return keys[place].begins, says
    return None


def unknown_attribute(asking, statement, key, text):
    """The name in a key that is no attribute. A key may have one twice, too."""
    known = [one for one, _ in asking.attributes_of_heading(statement)]
    for name in nodes(key, "name_list")[0].parts if nodes(key, "name_list") else []:
        word = asking.text[name.begins : name.ends]
        if name.kind == "name" and word not in known:
            near = nearest(word, known)
            hint = f"; try {near}" if near else ""
            return name.begins, f" at {word} in KEY {text}: {{{', '.join(known)}}}{hint}"
    return key.begins, f" at KEY {text}"


def too_deep(asking, statement):
    """The attribute or the component whose type is of too high a rank."""
    for name, kind, begins in typed_names(asking, statement):
        front = "VAR {0} BASE RELATION {{{1} {2}}} KEY {{}}"
        front = "TYPE {0} POSSREP {{{1} {2}}}" if statement.kind == "TYPE" else front
        declared = f"{front.format(FRESH, name, kind)}; DROP {statement.kind} {FRESH};"
        if asking.answers([declared], 2)[0].startswith(asking.refusal):
            return begins, f" at {name}, whose type makes the rank more than 32"
    return None


def typed_names(asking, statement):
    """The attributes or components that are declared, each with its type and where it stands."""
    if statement.heading is None and statement.source is not None:
        for name, kind in asking.attributes_of_heading(statement):
            yield name, kind, statement.source.begins
    for token, kind in statement.typed:
        name = asking.text[token.begins : token.ends]
        yield name, asking.text[kind.begins : kind.ends], token.begins


def of_transactions(asking, _):
    """How many transactions are open."""
    is_begin = asking.text.lstrip().upper().startswith("BEGIN")
    return 0, "; 16 transactions are open" if is_begin else "; no transaction is open"


CAUSES = {
    4: taken,
    7: wrong_key,
    8: too_deep,
    9: mentioned,
    10: not_assignable,
    11: of_transactions,
}
