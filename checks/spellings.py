"""The grammar of docs/grammar.md as sentences, random spellings of them, and what td answers.

Sentences of the examples are those of their statements.
"""
import re
import subprocess

from engine import TOP
from reading import TD
from sentences import RandomSentences, Sentences
from tokens import statements, word_kind

from td_tools.ebnf import Grammar

DOCUMENT = TOP / "docs" / "grammar.md"
TOKENS = {"name": "name", "number": "number", "text": "text", "the_word": "THE_"}
# Some of the characters of each kind, and what may stand between two tokens.
FURTHER = "aZéλ名07٣\u0301·"
OTHER = FURTHER + "_#; 😀/*{"
CHARACTERS = {"letter": "aZéλ名", "further": FURTHER, "digit": "07", "other": OTHER}
BLANKS = [" ", "\n", "\t", "\ufeff ", " /* ; ' */ ", " // it's ;\n"]
LONGEST = 30
LARGEST = 9223372036854775807


def written():
    """The grammar of statements, and that of tokens, as the document has them."""
    sentences, tokens = DOCUMENT.read_text(encoding="utf-8").split("\n## Tokens\n")
    whole = Grammar(sentences)
    grammar = whole.below(("statement",))
    for name in sorted(whole.named - {symbol[0] for symbol in grammar}):
        raise SystemExit(f"docs/grammar.md: no statement needs the line of {name}")
    as_kinds = {symbol: [tuple(TOKENS.get(part, part) for part in one) for one in every]
                for symbol, every in grammar.items()}
    return Sentences(as_kinds, ("statement",)), Grammar(tokens)


def by_characters(grammar):
    """The grammar with a symbol for each character of what stands in quotes."""
    def cut(production):
        whole = [isinstance(part, tuple) or part in CHARACTERS for part in production]
        kept = [[part] if is_whole else part for part, is_whole in zip(production, whole)]
        return tuple(one for part in kept for one in part)
    return {symbol: [cut(one) for one in every] for symbol, every in grammar.items()}


class Spelling:
    """Random spellings of tokens, by the section Tokens."""

    def __init__(self, tokens, choose):
        self.choose = choose
        self.kinds = {}
        for name, kind in TOKENS.items():
            sentences = Sentences(by_characters(tokens.below((name,))), (name,))
            self.kinds[kind] = RandomSentences(sentences, choose)

    def token(self, kind):
        if kind not in self.kinds:
            return self.choose.choice([kind, kind.lower()])
        one, start = self.kinds[kind], self.kinds[kind].sentences.start
        parts = one.spell(start, one.sentences.least[start] + self.choose.randint(0, 7))
        text = "".join(self.choose.choice(CHARACTERS.get(part, [part])) for part in parts)
        return text if kind != "name" or word_kind(text) == "name" else self.token(kind)

    def statement(self, said):
        return "".join(self.token(kind) + self.choose.choice(BLANKS) for kind in said)


def changed(choose, said, tokens):
    """The sentence with a token changed, taken out or put in, before the last."""
    place = choose.randrange(len(said))
    gone = min(choose.randint(0, 1), len(said) - 1 - place)
    return said[:place] + choose.choice([[], [choose.choice(tokens)]]) + said[place + gone:]


def is_fit(said, text):
    """Whether the statement is short, and has no bad token and no number out of range."""
    bad = "bad" in said or "\ufffd" in text
    too_large = any(int(number) > LARGEST for number in re.findall("[0-9]+", text))
    return len(said) <= LONGEST and not bad and not too_large


def from_examples():
    """The statements of the examples, without long ones, bad tokens and numbers out of range."""
    for path in sorted((TOP / "examples").rglob("*.td")):
        found = statements(path.read_text(encoding="utf-8", errors="replace"))
        name = path.relative_to(TOP)
        yield from ((said, text, name) for said, text in found if is_fit(said, text))


def answers(texts):
    """What td answers to each of the statements, each told by a mark behind it."""
    script = "".join(f"{text}\nWRITE '# {place}';\n" for place, text in enumerate(texts)).encode()
    run = subprocess.run([TD, "run"], input=script, stdout=subprocess.PIPE, check=False)
    told = re.split(r"^'# [0-9]+'\n", run.stdout.decode(), flags=re.MULTILINE)
    if len(told) != len(texts) + 1:
        raise SystemExit(f"td answers {len(told) - 1} of {len(texts)} statements")
    return told
