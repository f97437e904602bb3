"""Where in a script something stands, and what could stand there, in words."""
import re
import unicodedata

from .grammar import END, automaton
from .lexemes import BAD, NO_UTF8, OPEN_COMMENT, OPEN_TEXT
from .tables import columns, visible

AT_MOST = 6
WIDEST = 100
# A text as it is, and blanks that nobody writes: before a comma, within parentheses, two in a row.
GAPS = re.compile(
    r"('(?:[^']|'')*')| ([,;)}])|([({]) |\b(COUNT|SUM|MAX|MIN|IS_EMPTY|THE_\w+) (?=\()|( ) +"
)
LINE_END = re.compile(r"[ \t]*\r?\n[ \t\r\n]*")
CUT = ".."
# What is told in place of the tokens with which it begins.
GROUPS = {
    "a statement": ("body",),
    "an expression": ("expression", "disjunction", "relational", "factor"),
    "a type": ("type",),
}
OPERATORS = {
    *("WHERE", "OR", "AND", "IN", "NOT", "=", "<>", "<", "<=", ">", ">=", "+", "-", "||", "*", "/"),
    *("UNION", "D_UNION", "INTERSECT", "MINUS", "I_MINUS", "JOIN", "TIMES", "COMPOSE", "MATCHING"),
    *("{", "RENAME", "GROUP", "WRAP", "UNGROUP", "UNWRAP"),
}
LEAST_OPERATORS = 5
BEHIND_A_NAME = {"FROM", "("}
KINDS = {"name": "a name", "number": "a number", "text": "a text", "the_word": "a THE_ operator"}
# Those that close or go on come first.
FIRST = (";", ",", ")", "}")


def kinds_in_words(expected):
    """What can stand there: groups of tokens by their name, and at most six."""
    left, said = set(expected), []
    for words, symbols in GROUPS.items():
        first = first_whole((automaton().first[(symbol,)] for symbol in symbols), left)
        if first:
            left -= first
            said.append(words)
    if len(left & OPERATORS) >= LEAST_OPERATORS:
        left -= OPERATORS | (BEHIND_A_NAME if "FROM" in left else set())
        said.append("an operator")
    signs = [sign for sign in FIRST if sign in left]
    others = sorted(KINDS.get(kind, kind) for kind in left - {*signs, END})
    every = [*map(quoted, [*signs, *others]), *said]
    return every if len(every) <= AT_MOST else [*every[: AT_MOST - 1], CUT]


def quoted(token):
    """A token in a sentence: a sign is quoted, so that it is not taken for the sentence's."""
    return token if any(map(str.isalnum, token)) else f"`{token}`"


def first_whole(sets, expected):
    """The first of these sets of tokens that can stand there as a whole."""
    return next((one for one in sets if one <= expected), set())


def in_a_row(words):
    """The words with commas between, and `or` before the last."""
    if words[-1:] == [CUT] or len(words) < 2:
        return ", ".join(words)
    return f"{', '.join(words[:-1])} or {words[-1]}"


def told_character(character):
    """A character with its number and its name, where it is none that everybody has."""
    if "\udc80" <= character <= "\udcff":
        return f"the byte 0x{ord(character) - 0xDC00:02X}, which is no UTF-8"
    shown = character if character.isprintable() and not character.isspace() else ""
    if character.isascii() and shown:
        return quoted(shown)
    return f"{shown} U+{ord(character):04X} {unicodedata.name(character, 'without a name')}".strip()


def told_token(text, token):
    """The token as it stands in the text. What can't be seen, or misleads, has its name."""
    if token.kind == END:
        return "the end of the script"
    if token.kind == ";":
        return "the end of the statement"
    if token.kind in (BAD, NO_UTF8):
        return told_character(text[token.begins])
    if token.kind == OPEN_TEXT:
        return "a quote that nothing closes"
    if token.kind == OPEN_COMMENT:
        return "a /* that nothing closes"
    return quoted(shortened(text[token.begins : token.ends]))


def one_line(text):
    """The text in one line, in which nothing is what a terminal would obey."""
    return visible(LINE_END.sub(" ", text.strip()))


def as_written(tokens):
    """Tokens with blanks between, as one writes them."""
    once = GAPS.sub(without_gap, tokens)
    return GAPS.sub(without_gap, once).strip()


def without_gap(found):
    return "".join(one or "" for one in found.groups())


def in_a_list(words):
    return f"{', '.join(words[:-1])} and {words[-1]}" if len(words) > 1 else "".join(words)


def shortened(text, longest=40):
    """The text in one line, and not too long."""
    text = one_line(text)
    return text if len(text) <= longest else text[: longest - len(CUT)] + CUT


def place(text, at):
    """The number of the line of a character, from 0, and that of its column, from 1."""
    begins = text.rfind("\n", 0, at) + 1
    return text.count("\n", 0, at), at - begins + 1


def with_caret(text, at):
    """The line of a character, cut where it is long, and a caret below the character."""
    begins = text.rfind("\n", 0, at) + 1
    ends = text.find("\n", at)
    line = text[begins : ends if ends >= 0 else len(text)].rstrip("\r")
    before, behind = visible(line[: at - begins]), visible(line[at - begins :])
    if columns(before) > WIDEST // 2 and columns(line) > WIDEST:
        before = CUT + before[-(WIDEST // 2) :]
    room = max(WIDEST - columns(before), WIDEST // 4)
    if columns(behind) > room:
        behind = behind[: room - len(CUT)] + CUT
    stripped = before.lstrip(" ")
    return f"    {stripped}{behind}\n    {' ' * columns(stripped)}^\n"
