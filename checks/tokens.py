"""The tokens of scripts: a reserved word or a sign as it is, any other as its kind, no comments.

A `/*` that nothing closes is bad."""
import re

from engine import reserved_words

TOKEN = re.compile(
    r"(?P<blank>[ \t\r\n\ufeff]+|/\*.*?\*/|//[^\n]*)|(?P<text>'(?:[^']|'')*')"
    r"|(?P<open>/\*)|(?P<word>[^\W\d][\w#]*)|(?P<number>[0-9]+)"
    r"|(?P<sign>:=|<>|<=|>=|\|\||[{}(),;:=<>+*/-])|(?P<bad>.)",
    re.DOTALL,
)
RESERVED = reserved_words()


def word_kind(word):
    if word.upper() in RESERVED:
        return word.upper()
    return "THE_" if word.upper().startswith("THE_") else "name"


def statements(script):
    """Each statement that a `;` ends: its tokens, and its text with the comments before it."""
    kinds, begin = [], 0
    for token in TOKEN.finditer(script):
        kind, text = token.lastgroup, token.group()
        if kind != "blank":
            kinds.append({"word": word_kind(text), "sign": text, "open": "bad"}.get(kind, kind))
        if kind == "sign" and text == ";":
            yield kinds, script[begin:token.end()]
            kinds, begin = [], token.end()
