"""The productions of docs/grammar.md: a line each, `name ::= ..`, in the notation of the W3C.

`|` stands between alternatives, parentheses go together, and `?`, `*` and `+` say none or one, any
number, and one or more of what stands before them. What stands in quotes stands for itself.
"""
import re

from .command import Failure

TOKEN = re.compile(r"""\s*('[^']*'|"[^"]*"|\w+|[()|?*+])""")
RULE = re.compile(r"^(\w+) +::= (.+)$", re.MULTILINE)


def wrong(name, fault):
    raise Failure(f"docs/grammar.md: the line of {name} {fault}")


class Grammar:
    """The productions of each symbol.

    A symbol is a tuple: the name of a line, and a number where it is of a part of that line. What
    has no line, and what stands in quotes, is a text.
    """

    def __init__(self, text):
        self.lines = RULE.findall(text)
        self.named = {name for name, _ in self.lines}
        self.productions = {}
        for name, said in self.lines:
            if (name,) in self.productions:
                wrong(name, "is there twice")
            self.tokens, self.parts = TOKEN.findall(said) + [")"], 0
            if "".join(self.tokens[:-1]) != re.sub(r"\s", "", said):
                wrong(name, "has a sign that stands for nothing")
            self.productions[(name,)] = self.alternatives(name)
            if self.tokens:
                wrong(name, "has a parenthesis too many")

    def part(self, name, productions):
        """A symbol of its own for a part of a line."""
        self.parts += 1
        symbol = (name, self.parts)
        self.productions[symbol] = productions
        return symbol

    def alternatives(self, name):
        """The productions up to the parenthesis that ends them."""
        every = [()]
        while (token := self.tokens.pop(0)) != ")":
            if token == "|":
                every.append(())
            else:
                every[-1] += self.item(name, token)
        return every

    def item(self, name, token):
        if token == "(":
            productions = self.alternatives(name)
        elif token[0] in "'\"":
            productions = [(token[1:-1],)]
        else:
            productions = [((token,) if token in self.named else token,)]
        sign = self.tokens.pop(0) if self.tokens and self.tokens[0] in "?*+" else ""
        if sign == "" and len(productions) == 1:
            return productions[0]
        symbol = self.part(name, productions)
        if sign == "?":
            return (self.part(name, [(), (symbol,)]),)
        if sign in ("*", "+"):
            several = self.part(name, [()])
            self.productions[several].append((symbol, several))
            return (several,) if sign == "*" else (symbol, several)
        return (symbol,)

    def below(self, symbol):
        """The productions of the symbol and of all that they need."""
        needed, waiting = {}, [symbol]
        while waiting:
            one = waiting.pop()
            if one not in needed:
                needed[one] = self.productions[one]
                parts = [part for production in needed[one] for part in production]
                waiting += [part for part in parts if isinstance(part, tuple)]
        return needed
