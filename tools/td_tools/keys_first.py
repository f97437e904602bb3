"""Relations with the attributes of a key in front, and their tuples in the order of that key."""
from .definitions import RELVARS
from .lexemes import tokens
from .literals import Relation


def key_of(definitions, statement, names):
    """The first key of a relvar that the statement names whose attributes are all among these."""
    relvars = {one.name: one for one in definitions if one.kind in RELVARS}
    words = [statement[one.begins : one.ends] for one in tokens(statement) if one.kind == "name"]
    for word in dict.fromkeys(words):
        for key in relvars[word].keys if word in relvars else []:
            if key and set(key) <= set(names):
                return key
    return []


def rank(value, kind):
    """What a value is ordered by among those of its type."""
    if kind == "INTEGER":
        return int(value.literal)
    return value.literal if value.text is None else value.text


def with_first(relation, key):
    """The relation with these attributes in front."""
    names = [name for name, _ in relation.heading]
    order = [names.index(name) for name in key]
    order += [place for place, name in enumerate(names) if name not in key]
    heading = [relation.heading[place] for place in order]
    tuples = [[values[place] for place in order] for values in relation.tuples]
    kinds = [kind for _, kind in heading]
    return Relation(heading, sorted(tuples, key=lambda one: list(map(rank, one, kinds))))
