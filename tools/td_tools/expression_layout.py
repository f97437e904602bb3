"""Lays out expressions that td prints on one line: a long one is broken at its operators.

Only blanks and line ends between tokens change, so that the expression stays what it is.
"""
import re

TOKEN = re.compile(r"'(?:[^']|'')*'|[{}(),]|[^\s{}(),']+")
WIDTH = 100
STEP = 4
OPENERS, CLOSERS = {"(", "{"}, {")", "}"}
# What an expression stands behind, and what ends it: they go together as brackets do.
BEGINNING, ENDING = {"EXTEND", "SUMMARIZE", "IF", "WITH"}, {"ADD", ":", "END"}
# Words behind which a parenthesis is no call's.
BEFORE_PARENTHESIS = set(
    "WHERE OR AND NOT IN UNION D_UNION INTERSECT MINUS I_MINUS JOIN TIMES COMPOSE MATCHING TCLOSE "
    "FROM EXTEND ADD SUMMARIZE PER IF THEN ELSE RENAME GROUP UNGROUP WRAP UNWRAP CONSTRAINT WITH "
    ":=".split()
)
# Operators from the loosest to the tightest.
LEVELS = [
    {"WHERE"},
    {"OR"},
    {"AND"},
    {"=", "<>", "<", "<=", ">", ">=", "IN"},
    set("UNION D_UNION INTERSECT MINUS I_MINUS JOIN TIMES COMPOSE MATCHING".split()),
]


def is_called(token):
    """Whether a parenthesis behind the token is a call's."""
    return (token[0].isalpha() or token[0] == "_") and token not in BEFORE_PARENTHESIS


def is_close(before, token):
    """Whether no blank stands between the tokens."""
    if before in OPENERS or token in CLOSERS or token == ",":
        return True
    return token == "(" and is_called(before)


def joined(tokens):
    """The tokens on one line."""
    parts, before = [], "("
    for token in tokens:
        parts.append(token if is_close(before, token) else f" {token}")
        before = token
    return "".join(parts)


def outermost(tokens):
    """Of each token whether it stands in no brackets, and in nothing that goes together so."""
    depth, before = 0, ""
    for token in tokens:
        is_end = token in CLOSERS or token in ENDING
        depth -= is_end
        yield depth == 0
        depth += token in OPENERS or token in BEGINNING and before != "END"
        before = token


def split_at(tokens, operators):
    """The operands of the operators that stand in no brackets, each with its operator in front."""
    parts = [[]]
    for token, is_outermost in zip(tokens, outermost(tokens)):
        is_not = token == "NOT" and "MATCHING" in operators and parts[-1]
        if is_outermost and (token in operators or is_not) and parts[-1] != ["NOT"]:
            parts.append([])
        parts[-1].append(token)
    return parts


def operands(tokens):
    """The operands of the loosest operators, if there are any."""
    for operators in LEVELS:
        parts = split_at(tokens, operators)
        if len(parts) > 1 and parts[0]:
            return parts
    return None


def groups(tokens):
    """Where each pair of brackets that stands in no other begins and ends."""
    begin = None
    for place, (token, is_outermost) in enumerate(zip(tokens, outermost(tokens))):
        if is_outermost and token in OPENERS:
            begin = place
        elif is_outermost and token in CLOSERS and begin is not None:
            yield begin, place
            begin = None


def items(tokens):
    """What stands between the commas in no brackets, each with its comma."""
    parts = [[]]
    for token, is_outermost in zip(tokens, outermost(tokens)):
        parts[-1].append(token)
        if is_outermost and token == ",":
            parts.append([])
    return [part for part in parts if part]


def opened(tokens, indent):
    """The lines of tokens whose longest brackets have lines of their own."""
    pairs = [pair for pair in groups(tokens) if pair[1] - pair[0] > 1]
    if not pairs:
        return [" " * indent + joined(tokens)]
    begin, end = max(pairs, key=lambda pair: len(joined(tokens[pair[0] : pair[1]])))
    lines = [" " * indent + joined(tokens[: begin + 1])]
    for item in items(tokens[begin + 1 : end]):
        lines += laid(item, indent + STEP)
    rest = laid(tokens[end + 1 :], indent) if tokens[end + 1 :] else [" " * indent]
    between = "" if not tokens[end + 1 :] or is_close(tokens[end], tokens[end + 1]) else " "
    lines.append(" " * indent + tokens[end] + between + rest[0].lstrip(" "))
    return lines + rest[1:]


def with_at(tokens):
    """Where a WITH stands in no brackets. What is behind it is its own."""
    places = enumerate(zip(tokens, outermost(tokens)))
    return next((place for place, one in places if one == ("WITH", True)), None)


def named(tokens, begin, indent):
    """The lines of WITH (A := e, ..) : x, which begins there: a line for each item, and x below."""
    depths = enumerate(zip(tokens, outermost(tokens)))
    end = next(place for place, one in depths if place > begin and one == (":", True))
    lines = [" " * indent + joined(tokens[: begin + 2])]
    for item in items(tokens[begin + 2 : end - 1]):
        lines += laid(item, indent + STEP)
    return [*lines, " " * indent + ") :", *laid(tokens[end + 1 :], indent)]


def laid(tokens, indent=0):
    """The lines of an expression's tokens."""
    line = " " * indent + joined(tokens)
    if len(line) <= WIDTH:
        return [line]
    begin = with_at(tokens)
    if begin is not None:
        return named(tokens, begin, indent)
    parts = operands(tokens)
    if parts is None:
        return opened(tokens, indent)
    return [line for part in parts for line in laid(part, indent)]


def tokens_of(text):
    return TOKEN.findall(text)
