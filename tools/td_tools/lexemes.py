"""The tokens of a statement, as docs/grammar.md and docs/language.md have them.

A statement is read as UTF-8, and a byte that is none is kept as a surrogate, which begins no token.
"""
import functools
import re
from collections import namedtuple

from .programs import TOP

LARGEST = 9223372036854775807
# The kinds of what is no token, and of the one number that only stands behind its own `-`.
BAD, OPEN_TEXT, OPEN_COMMENT, NO_UTF8 = "bad", "a text that is not closed", "/*", "no UTF-8"
LEAST_NUMBER, TOO_LARGE = "9223372036854775808", "a number beyond INTEGER's range"
BLANK = r"[ \t\r\n\ufeff]+|/\*.*?\*/|//[^\n]*"
WORD = r"[A-Za-z_\x80-\ufefe\uff00-\U0010ffff][\w#\x80-\ufefe\uff00-\U0010ffff]*"
TOKEN = re.compile(
    rf"(?P<blank>{BLANK})|(?P<word>{WORD})|(?P<number>[0-9]+)|(?P<text>'(?:[^']|'')*+')"
    r"|(?P<open>'|/\*)|(?P<sign>:=|<>|<=|>=|\|\||[{}(),;:=<>+*/-])|(?P<bad>.)",
    re.DOTALL,
)
SURROGATE = re.compile("[\ud800-\udfff]")

# Its kind, which is the word or the sign itself where the grammar has that, and where it stands.
Token = namedtuple("Token", "kind begins ends")


@functools.cache
def reserved_words():
    """The words that are no names, which docs/language.md lists."""
    text = (TOP / "docs" / "language.md").read_text(encoding="utf-8")
    listed = text.split("- **Reserved words**")[1].split("\n- ")[0]
    return frozenset(re.findall(r"\b[A-Z][A-Z_]*[A-Z]\b", listed))


def word_kind(word):
    upper = word.upper()
    if upper in reserved_words():
        return upper
    return "the_word" if upper.startswith("THE_") else "name"


def number_kind(digits):
    digits = digits.lstrip("0") or "0"
    value = int(digits) if len(digits) < 20 else LARGEST + 2
    if value <= LARGEST:
        return "number"
    return LEAST_NUMBER if value == LARGEST + 1 else TOO_LARGE


def can_go_on(character, is_behind):
    """Whether the character may stand in a name: behind others, or as the first."""
    if is_behind:
        return character == "#" or f"a{character}".isidentifier()
    return character.isidentifier()


def of_word(word, begins):
    """A name or a reserved word, and the character behind it that can't stand in a name."""
    if word.isascii():
        return [Token(word_kind(word), begins, begins + len(word))]
    end = 0
    while end < len(word) and can_go_on(word[end], end > 0):
        end += 1
    front = [Token(word_kind(word[:end]), begins, begins + end)] if end else []
    if end < len(word):
        kind = NO_UTF8 if SURROGATE.match(word, end) else BAD
        front.append(Token(kind, begins + end, begins + end + 1))
    return front


def of_text(text, begins):
    """A text, or the byte in it that is not UTF-8."""
    broken = SURROGATE.search(text)
    if broken:
        return Token(NO_UTF8, begins + broken.start(), begins + broken.end())
    return Token("text", begins, begins + len(text))


def tokens(statement, at=0):
    """The tokens from a place on. What is behind a bad one counts for nothing, and is left out."""
    while found := TOKEN.match(statement, at):
        kind, (begins, at) = found.lastgroup, found.span()
        if kind == "blank":
            continue
        if kind == "word":
            several = of_word(found.group(), begins)
            yield from several
            at = several[-1].ends
        elif kind == "text":
            yield of_text(found.group(), begins)
        elif kind == "open":
            yield Token(OPEN_TEXT if found.group() == "'" else OPEN_COMMENT, begins, at)
            return
        else:
            own = {"number": number_kind, "sign": str}.get(kind, lambda _: BAD)
            yield Token(own(found.group()), begins, at)


def is_bad(kind):
    """Whether td refuses a statement with such a token as SCAN."""
    return kind in (BAD, OPEN_TEXT, OPEN_COMMENT, NO_UTF8)
