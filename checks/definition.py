"""The engine's grammar as productions without trees, read from its definition in
td_tree/specs/model.

A constructor there says which lexemes spell a tree, where its premises say so of the tree's parts.
As a production it has a symbol for each lexeme and for each premise. A constructor that speaks of
any operator, or of any level, is one production for each. Left out are the height of trees and the
range of numbers. That no number follows is not: the mark OTHERWISE makes of a symbol another one,
which spells the same but for what begins with a number.

A symbol that stands for itself is a text: a reserved word, a sign, `name`, `number`, `text` or
`THE_`. Any other is the name of a type of the definition, with what it is of (a level, or the items
of a list), and perhaps the mark.
"""
import itertools
import re

from engine import GRAMMAR, MODEL, TREE, found

START = ("StatementSpelling", None)
OTHERWISE = "begins with no number"
LEXEMES = {"lexeme.name": "name", "lexeme.number": "number", "lexeme.text": "text",
           "lexeme.component": "THE_"}
TOKEN = re.compile(r"→|∷|\+\+|≤|\[\]|[(){}:=;,]|[^\s(){}:=;,→∷≤\[\]+]+")
DECLARATION = re.compile(r"^ *(?:pub (data) (\w+)|abbrev pub|pub record|mutual|use)\b")
# A record of what is not too high: its first field says which type spells that.
RECORD = re.compile(r"^pub record (\w+).*\n *pub spelled : (\w+)", re.MULTILINE)
CONSTRUCTOR = re.compile(r"^ {2,4}([a-z_]+) : ")
EQUATION = re.compile(r"^(\w+)((?: [\w.]+)?) = (.*)$")


def nested(tokens, ends=""):
    """The tokens with each pair of parentheses as a list, and each pair of braces as a tuple."""
    every = []
    for token in tokens:
        if token == ends:
            break
        if token == "(":
            every.append(nested(tokens, ")"))
        elif token == "{":
            every.append(tuple(nested(tokens, "}")))
        else:
            every.append(token)
    return every


def parts_between(terms, sign):
    parts = [[]]
    for term in terms:
        if term == sign:
            parts.append([])
        else:
            parts[-1].append(term)
    return parts


def as_terms(term):
    return term if isinstance(term, list) else [term]


class Definition:
    """The constructors of each type of the grammar's files, and the equations of each function."""

    def __init__(self):
        self.constructors, self.equations, self.records = {}, {}, {}
        for file in GRAMMAR:
            text = (TREE / MODEL / f"{file}.antt").read_text(encoding="utf-8")
            self.records.update(RECORD.findall(text))
            self.read(text.splitlines())
        self.words = dict(found(TREE / "src" / "keyword.rt", r'Keyword::(\w+) => "([A-Z_]+)"'))
        self.signs = dict(found(TREE / "src" / "token.rt", r'Sign::(\w+) => "(\S+)"'))

    def read(self, lines):
        family, said = None, []
        for line in lines:
            line = line.split("--")[0].replace("«", "").replace("»", "").rstrip()
            declared, equation = DECLARATION.match(line), EQUATION.match(line)
            made = CONSTRUCTOR.match(line)
            if declared:
                family, said = declared.group(2), []
            elif made and family:
                said = TOKEN.findall(line[made.end():])
                self.constructors.setdefault(family, []).append(said)
            elif equation:
                name, pattern, body = equation.groups()
                said = TOKEN.findall(body)
                self.equations.setdefault(name, []).append((pattern.strip(), said))
            else:
                said += TOKEN.findall(line)

    def value(self, terms, known):
        """What the terms stand for: symbols for a list of lexemes, one for a lexeme, a constant."""
        for place, term in enumerate(terms):
            if term in ("∷", "++"):
                left = self.value(terms[:place], known)
                right = self.value(terms[place + 1:], known)
                return ((left,) if term == "∷" else left) + right
        head, *rest = terms
        if isinstance(head, list):
            return self.value(head, known)
        if head == "[]":
            return ()
        if head in known:
            return known[head]
        return self.applied(head, [self.value(as_terms(one), known) for one in rest])

    def applied(self, head, arguments):
        if head in LEXEMES:
            return LEXEMES[head]
        if head in ("keyword", "sign"):
            return (self.words if head == "keyword" else self.signs)[arguments[0].split(".")[1]]
        for pattern, body in self.equations.get(head, []):
            if [pattern] == (arguments or [""]):
                return self.value(nested(iter(body)), {})
            if arguments and "." not in pattern:
                return self.value(nested(iter(body)), {pattern: arguments[0]})
        return head

    def variants(self, kind):
        """What there is of a kind of operator, or of levels: all that some equation speaks of."""
        if kind == "Keyword":
            return [said[-1] for said in self.constructors["BaseWord"]]
        patterns = [pattern for rows in self.equations.values() for pattern, _ in rows]
        return sorted({pattern for pattern in patterns if pattern.startswith(f"{kind.lower()}s.")})

    def choices(self, binders):
        """Each way to choose what the binders name that is an operator, a level or a word."""
        named = {}
        for *names, colon, kind in binders:
            if colon == ":" and self.variants(kind):
                named.update(dict.fromkeys(names, self.variants(kind)))
        return [dict(zip(named, chosen)) for chosen in itertools.product(*named.values())]

    def symbol(self, family, index, known):
        """The symbol of a type. What a record holds to be not too high is spelled by its field."""
        family = known.get(family, family)
        if family in self.equations:
            family, *index = nested(iter(self.equations[family][0][1]))
        family = self.records.get(family, family)
        return family, self.value(as_terms(index[0]), known) if index else None

    def learn(self, premise, known):
        """Adds what the premise says of its lexemes to what is known."""
        family, *arguments = premise
        if family == "BeginsOtherwise":
            known[OTHERWISE] = arguments[0]
        elif "≤" not in premise and len(arguments) > 1:
            *index, lexemes, _ = arguments
            known[lexemes] = (self.symbol(family, index, known),)

    def production(self, said, symbol, known):
        """The production that the constructor is by these choices; None where it is of another."""
        family, index = symbol[:2]
        known = {**known, "Item": index}
        *premises, (_, *made, lexemes, _) = said
        if made and self.value(as_terms(made[0]), known) != index:
            return None
        for premise in premises:
            self.learn(premise, known)
        if OTHERWISE in known:
            (part,) = known[known[OTHERWISE]]
            known[known[OTHERWISE]] = ((*part, OTHERWISE),)
        return self.value(as_terms(lexemes), known)

    def productions(self, symbol):
        every = []
        for tokens in self.constructors[symbol[0]]:
            terms = nested(iter(tokens))
            binders = [term for term in terms if isinstance(term, tuple)]
            plain = [term for term in terms if not isinstance(term, tuple)]
            said = [part for part in parts_between(plain, "→") if part]
            every += [self.production(said, symbol, known) for known in self.choices(binders)]
        every = [one for one in every if one is not None and one != (symbol[:2],)]
        return without_number(every) if OTHERWISE in symbol else every

    def grammar(self):
        """The productions of each symbol that is needed for a statement."""
        grammar, waiting = {}, [START]
        while waiting:
            symbol = waiting.pop()
            if symbol not in grammar:
                grammar[symbol] = self.productions(symbol)
                parts = [part for one in grammar[symbol] for part in one]
                waiting += [part for part in parts if isinstance(part, tuple)]
        return grammar


def without_number(every):
    """The productions, but for what begins with a number: none of these spells nothing at all."""
    kept = [one for one in every if one[0] != "number"]
    return [((*one[0], OTHERWISE), *one[1:]) if isinstance(one[0], tuple) else one
            for one in kept]
