"""What is meant by forms of SQL, of the book and of other languages that the grammar doesn't spell.

A form is sought in the tokens of a statement, with one blank between two of them and MARK before
the one at which the statement can't go on. docs/causes.md, docs/from-sql.md and
docs/from-the-book.md have the same pairs for readers.
"""
import itertools
import re

from .grammar import Stop, automaton, parsed
from .lexemes import Token, reserved_words, tokens
from .places import as_written, quoted

MARK = "\0"
# So many tokens are looked at before and behind the place.
MOST = 400
NAME = r"[A-Za-z_][\w#]*"
NAMES = rf"{NAME}(?: , {NAME})*"
WHERE = r"(?: (?P<where>WHERE .+))?"
VALUE = r"(?:'(?:[^']|'')*'|- [0-9]+|[0-9]+|TRUE|FALSE)"
# An expression behind which AS stands, with the place in it.
ITEM = r"((?:(?!AS )[^:\0])*)\0((?:(?!AS )[^:\0])*)"
ROW = re.compile(rf"\( ({VALUE}(?: , {VALUE})*) \)")
COLUMN = re.compile(rf"({NAME}) ({NAME})((?: \( [0-9]+ \))?(?: {NAME})*)")
TYPES = {"INT": "INTEGER", "NUM": "INTEGER", "BOOL": "BOOLEAN"}


def renamed_type(word):
    """The type of a column of SQL."""
    return next((kind for front, kind in TYPES.items() if word.upper().startswith(front)), "CHAR")


def table(found):
    """CREATE TABLE as VAR: the columns, and what PRIMARY KEY says of them."""
    columns = COLUMN.findall(found["columns"])
    columns = [one for one in columns if one[0].upper() not in ("PRIMARY", "FOREIGN", "UNIQUE")]
    heading = ", ".join(f"{name} {renamed_type(kind)}" for name, kind, _ in columns)
    key = [name for name, _, rest in columns if "PRIMARY KEY" in rest.upper()]
    behind = re.search(rf"PRIMARY KEY \( ({NAMES}) \)", found["columns"], re.IGNORECASE)
    names = ", ".join(key) if key else behind.group(1) if behind else columns[0][0]
    return f"VAR {found['r']} BASE RELATION {{{heading}}} KEY {{{names}}}"


def rows(found):
    """INSERT INTO with its columns as INSERT with tuples."""
    names = found["names"].split(" , ")
    values = [re.findall(VALUE, row) for row in ROW.findall(found["rows"])]
    parts = [", ".join(map(" ".join, zip(names, row))) for row in values]
    return f"INSERT {found['r']} RELATION {{{', '.join(f'TUPLE {{{one}}}' for one in parts)}}}"


def update(found):
    """UPDATE with SET as UPDATE with its settings behind the condition."""
    settings = re.sub(rf"({NAME}) = ", r"\1 := ", found["set"])
    return f"UPDATE {found['r']} {found['where'] or ''} ({settings})"


def either(found):
    """IN with a list as equations."""
    return " OR ".join(f"{found['a']} = {one}" for one in re.findall(VALUE, found["values"]))


# Whole statements without their `;`, and what they are here.
STATEMENTS = [
    (rf"SELECT \* FROM (?P<r>{NAME}){WHERE}", r"WRITE \g<r> \g<where>"),
    (rf"SELECT COUNT \( \* \) FROM (?P<r>{NAME}){WHERE}", r"WRITE COUNT(\g<r> \g<where>)"),
    (rf"SELECT (?:DISTINCT )?({NAMES}) FROM ({NAME})", r"WRITE \2 {\1}"),
    (rf"SELECT (?:DISTINCT )?({NAMES}) FROM ({NAME}) (WHERE .+)", r"WRITE (\2 \3) {\1}"),
    (r"SELECT\b.*", "WRITE (R WHERE ..) {A, ..}"),
    (rf"INSERT INTO (?P<r>{NAME}) \( (?P<names>{NAMES}) \) VALUES (?P<rows>.+)", rows),
    (rf"INSERT INTO ({NAME}) ((?:RELATION|EXTEND)\b.*)", r"INSERT \1 \2"),
    (rf"INSERT (?:INTO )?({NAME}) VALUES\b.*", r"INSERT \1 RELATION {TUPLE {A .., ..}}"),
    (rf"INSERT INTO ({NAME})\b.*", r"INSERT \1 .."),
    (rf"DELETE FROM (?P<r>{NAME}){WHERE}", r"DELETE \g<r> \g<where>"),
    (rf"DELETE ({NAME}) ((?:RELATION|TUPLE)\b.*)", r"\1 := \1 MINUS \2"),
    (rf"VAR ({NAME}) (INTEGER|CHAR|BOOLEAN)\b.*", r"VAR \1 BASE RELATION {VALUE \2} KEY {}"),
    (rf"UPDATE (?P<r>{NAME}) SET (?P<set>.+?){WHERE}", update),
    (rf"CREATE TABLE (?P<r>{NAME}) \( (?P<columns>.+) \)", table),
    (rf"CREATE VIEW ({NAME})\b.*", r"VAR \1 VIRTUAL (..)"),
    (rf"DROP (?:TABLE|VIEW|RELATION) ({NAME})", r"DROP VAR \1"),
    (r"(?:OUTPUT|PRINT|SHOW) (.+)", r"WRITE \1"),
    (rf"({NAME}) = (.+)", r"\1 := \2"),
    (r"(WITH \( .+ \) : .+)", r"WRITE \1"),
    (rf"(?!SELECT)({NAME}(?: {{ {NAMES} }})?(?: WHERE .+)?)", r"WRITE \1"),
]

# Forms at the token at which a statement can't go on, and what is meant.
FORMS = [
    (r"\0! =", "<>"),
    (r"= \0=", "one = alone"),
    (rf"UPDATE ({NAME}) \0{{ (.+) }}", r"UPDATE \1 : {\2}"),
    (rf"(?:UPDATE|EXTEND) .* {{ ({NAME}) \0:= (.+) }}", r": {\1 := \2}"),
    (rf": \0\( ({NAME} := .+) \)", r": {\1}"),
    (rf": {{ ([^{{}}:]*)\0([^{{}}:]*) AS ({NAME}) }}", r": {\3 := \1\2}"),
    (r"\0:=", "="),
    (r'\0" ([^"]*?) "', r"'\1'"),
    (r"\0[‘’“”\"`´]", "' as the quote"),
    (r"([\w#]+) \0% ([\w#]+)", r"\1 - \1 / \2 * \2"),
    (rf"\0\[ ({NAMES}) \]", r"{\1}"),
    (r"\0[⊆≤]", "<="),
    (r"\0[⊇≥]", ">="),
    (r"\0≠", "<>"),
    (r"\0∈", "IN"),
    (r"\0∉", "NOT t IN r"),
    (r"\0[\u00a0\u1680\u2000-\u200d\u2028\u2029\u202f\u205f\u2060\u3000]", "a plain blank"),
    (r"\0SEMIJOIN\b", "MATCHING"),
    (r"\0SEMIMINUS\b", "NOT MATCHING"),
    (r"\0(?:EXCEPT|DIFFERENCE)\b", "MINUS"),
    (rf"WITH \( {ITEM}AS ({NAME}) \) : (.+)", r"WITH (\3 := \1\2) : \4"),
    (rf"WITH {ITEM}AS ({NAME}) : (.+)", r"WITH (\3 := \1\2) : \4"),
    (r"\0WITH \(", "(WITH (..) : ..)"),
    (r"\0WITH\b", "WRITE WITH (A := ..) : .."),
    (r"\bCASE \0WHEN\b", "IF .. THEN .. ELSE .. END IF"),
    (r"\0AND \(", "IS_EMPTY(R WHERE NOT (..))"),
    (r"\0OR \(", "NOT IS_EMPTY(R WHERE ..)"),
    (r"ADD \( (?:.* , )?\0AVG\b", "SUM and COUNT, and their quotient by EXTEND"),
    (r"SUMMARIZE .* \0ADD\b", "PER (TABLE_DEE) ADD"),
    (r"(?:^|; )\0- -|\0- -|- \0-", "// before a comment"),
    (rf"{NAME} \0\. ({NAME})", r"\1"),
    (r"\0\( [0-9]+ \)", "the type without a length"),
    (r"KEY { [^}]* } \0INIT\b", "INIT before KEY"),
    (r"\0PRIMARY KEY", "KEY {A, ..}, behind the heading"),
    (r"\0(?:FOREIGN|REFERENCES)\b", "CONSTRAINT C R {A} <= S {A}"),
    (r"\0(?:NOT NULL|UNIQUE|DEFAULT|CHECK)\b", "the type alone"),
    (rf"KEY \0\( ({NAMES}) \)", r"KEY {\1}"),
    (r"INIT \0RELATION\b", "INIT (RELATION ..)"),
    (rf"PER \0({NAME}(?: {{ [^}}]* }})?) ADD", r"PER (\1)"),
    (rf"COUNT \0AS ({NAME})", r"COUNT() AS \1"),
    (r"COUNT (?:\0\(|\( \0)\*? ?\* \)", "COUNT(R)"),
    (rf"(GROUP|WRAP) \( ({{ [^}}]* }}) \0\) AS ({NAME})", r"\1 \2 AS \3"),
    (rf"(UNGROUP|UNWRAP) \0({NAME})", r"\1 (\2)"),
    (rf"{{ ({NAME}) \0AS ({NAME})", r"RENAME (\1 AS \2)"),
    (rf"RENAME \0({NAME} AS {NAME})", r"RENAME (\1)"),
    (r"ADD \0(?!:)", "ADD (.. AS A)"),
    (r"END \0(?!IF\b)", "END IF"),
    (rf"(?P<a>{NAME}) IN \( (?P<values>{VALUE} \0, [^)]*) \)", either),
    (rf"([\w#]+) \0BETWEEN ({VALUE}) AND ({VALUE})", r"\1 >= \2 AND \1 <= \3"),
    (r"\0(?:GROUP BY|HAVING)\b", "SUMMARIZE R BY {A} ADD (.. AS B)"),
    (r"(\S+) ([<>]=?) (\S+) \0([<>]=?) (\S+)", r"\1 \2 \3 AND \3 \4 \5"),
    (rf"(SUM|MAX|MIN) \( ({NAME}) \0\)", r"\1(\2, A)"),
    (r"SUMMARIZE .* \0: {", "ADD (.. AS A)"),
    (r"\0(?:JOIN|UNION|INTERSECT) {", "R JOIN S, an operator between two operands"),
    (r"\0ON\b", "JOIN alone: it goes by the names in common"),
    (r"\0(?:LEFT|RIGHT|INNER|OUTER|FULL|NATURAL|CROSS) ", "JOIN"),
]
# Forms of what is not there, and what is to know of them.
NOTES = [
    (r"[0-9] \0\. [0-9]", "there are whole numbers alone"),
    (r"\0I?LIKE\b", "there is no LIKE"),
    (r"\0IS (?:NOT )?NULL\b", "there are no nulls"),
    (r"\0(?:ORDER|LIMIT)\b", "a relation has no order"),
]
STATEMENTS = [(re.compile(form, re.IGNORECASE), meant) for form, meant in STATEMENTS]
FORMS = [(re.compile(form), meant) for form, meant in FORMS]
NOTES = [(re.compile(form), note) for form, note in NOTES]


def mended(found, meant):
    return as_written(meant(found) if callable(meant) else found.expand(meant))


def of_statement(form):
    """What the whole statement is here, where the grammar spells it or it only shows the form."""
    for pattern, meant in STATEMENTS:
        if found := pattern.fullmatch(form):
            said = mended(found, meant)
            if ".." in said or not isinstance(parsed(said + ";"), Stop):
                return f"try {said}"
    return None


def of_place(form):
    """What is meant where the statement can't go on."""
    for pattern, note in NOTES:
        if pattern.search(form):
            return note
    for pattern, meant in FORMS:
        if found := pattern.search(form):
            return f"try {mended(found, meant)}"
    return None


def missing(stop, text):
    """The sign that is missing before the token, if with it both are taken."""
    machine, kind = automaton(), stop.token.kind
    word = text[stop.token.begins : stop.token.ends]
    if ";" in stop.expected and kind in machine.first[("body",)] - {"name", ";"}:
        return f"try {quoted(';')} before {quoted(word)}"
    for sign in (",", "}", ")"):
        behind = machine.advanced(stop.stacks, Token(sign, 0, 0)) if sign in stop.expected else []
        if machine.advanced(behind, stop.token):
            return f"try {quoted(sign)} before {quoted(word)}"
    return None


def reserved(stop, behind):
    """That a word is reserved, where a name could stand."""
    if "name" not in stop.expected or stop.token.kind not in reserved_words():
        return None
    begins = automaton().first[("body",)] if "number" in stop.expected else set()
    is_other = stop.token.kind in begins or ";" in stop.expected
    if is_other or behind[1:2] and behind[1] in ("(", "{", "BUT"):
        return None
    return f"{behind[0]} is reserved: take another name"


def tried(stop, text):
    """What to try in place of a statement that can't go on, if it has a known form."""
    rest = itertools.islice(tokens(text, stop.token.begins), MOST + 1)
    behind = [text[one.begins : one.ends] for one in rest]
    before = [text[one.begins : one.ends] for one in stop.before]
    if behind[-1:] == [";"]:
        behind.pop()
    form = " ".join([*before[-MOST:], MARK + " ".join(behind[:MOST])])
    is_whole = len(before) <= MOST and len(behind) <= MOST
    said = of_statement(form.replace(MARK, "").strip()) if is_whole else None
    return said or of_place(form) or missing(stop, text) or reserved(stop, behind)
