"""Whether the grammar of docs/grammar.md spells a statement: its tree, or where it can't go on.

The productions are made an automaton, whose states say what may follow what was read. Where two
productions are possible both are followed until a token tells. So each token is read once.
"""
import functools
import itertools
import re
from collections import namedtuple
from dataclasses import dataclass

from . import lexemes
from .ebnf import Grammar
from .lexemes import LEAST_NUMBER, Token
from .programs import TOP

START, END = ("statement",), "the end"
SHIFT, REDUCE = range(2)
# Lines that only go on to another one where no operator, and no sign, stands there.
LEVELS = {
    *("expression", "restriction", "disjunction", "conjunction", "negation", "comparison"),
    *("relational", "sum", "product", "factor", "prefixed", "primary", "constructor"),
}

# A state of the automaton with the tree of the symbol that led to it, and what is below.
Stack = namedtuple("Stack", "state tree below")
Production = namedtuple("Production", "symbol parts")

# A tuple of numbers, texts and the like with a comma behind it, as long literals have thousands of.
GAP = r"[ \t\r\n]*+"
SIMPLE = r"(?:'(?:[^'\ud800-\udfff]|'')*+'|-?\s?0*[0-9]{1,18}(?![\w#])|TRUE|FALSE)"
VALUE = rf"(?:{SIMPLE}|[A-Z][\w#]*+\({SIMPLE}(?:,{GAP}{SIMPLE})*+\))"
NO_NAME = r"(?!(?i:TRUE|FALSE|TUPLE)(?![\w#]))"
COMPONENT = rf"{GAP}{NO_NAME}[A-Za-z][\w#]*+[ \t\r\n]++{VALUE}{GAP}"
PLAIN_TUPLE = re.compile(
    rf"{GAP}TUPLE{GAP}\{{{COMPONENT}(?:,{COMPONENT})*+\}}{GAP},", re.ASCII
)
WORDS = re.compile(r"'(?:[^']|'')*+'|([A-Za-z_][\w#]*+)", re.ASCII)


class Node:
    """A part of a statement that a line of the grammar spells: in order its tokens, the parts that
    other lines spell, and the runs of tuples."""

    __slots__ = ("name", "parts", "begins", "ends")

    def __init__(self, name, parts):
        self.name, self.parts = name, parts
        self.begins, self.ends = parts[0].begins, parts[-1].ends


# Plain tuples, each with a comma behind it.
Run = namedtuple("Run", "begins ends")


def of_run(run, text):
    """The texts of a run's tuples, each with its place."""
    at = run.begins
    while at < run.ends:
        found = PLAIN_TUPLE.match(text, at)
        yield re.search(r"TUPLE", found.group()).start() + at, found.end() - 1
        at = found.end()


@dataclass
class Stop:
    """Where a statement can't go on: the token there, and the kinds of those that could stand."""

    token: Token
    expected: frozenset
    # The tokens before it, and where the automaton is behind them.
    before: list
    stacks: list


class Automaton:
    """The states of the productions, each a set of places in them, and what leads from one on."""

    def __init__(self, productions):
        nullable = {symbol for symbol, every in productions.items() if () in every}
        self.productions = [
            Production(symbol, left_recursive(symbol, parts))
            for symbol, every in productions.items()
            for one in every
            for parts in variants(one, nullable)
        ]
        self.of_symbol = {}
        for number, one in enumerate(self.productions):
            self.of_symbol.setdefault(one.symbol, []).append(number)
        self.first = self.least(self.firsts_of)
        self.follow = self.follows()
        self.states, self.actions, self.gotos = {}, [], []
        self.in_lists = set()
        self.build()

    def least(self, grows):
        """The least sets, one of each symbol, that this adds nothing to."""
        sets = {symbol: set() for symbol in self.of_symbol}
        size = -1
        while size != sum(map(len, sets.values())):
            size = sum(map(len, sets.values()))
            for one in self.productions:
                grows(sets, one)
        return sets

    def firsts_of(self, sets, production):
        part = production.parts[0]
        sets[production.symbol] |= sets[part] if isinstance(part, tuple) else {part}

    def follows(self):
        """Of each symbol the tokens that may stand behind it."""
        def grow(sets, production):
            behind = sets[production.symbol]
            for part in reversed(production.parts):
                if isinstance(part, tuple):
                    sets[part] |= behind
                behind = self.first[part] if isinstance(part, tuple) else {part}
        sets = {symbol: set() for symbol in self.of_symbol}
        sets[START] = {END}
        size = -1
        while size != sum(map(len, sets.values())):
            size = sum(map(len, sets.values()))
            for one in self.productions:
                grow(sets, one)
        return sets

    def closed(self, kernel):
        items, waiting, seen = list(kernel), list(kernel), set()
        while waiting:
            number, dot = waiting.pop()
            parts = self.productions[number].parts
            part = parts[dot] if dot < len(parts) else None
            if isinstance(part, tuple) and part not in seen:
                seen.add(part)
                more = [(one, 0) for one in self.of_symbol[part]]
                items += more
                waiting += more
        return items

    def state(self, kernel):
        """The number of the state, which is made where it is not known."""
        if kernel not in self.states:
            self.states[kernel] = len(self.states)
            self.waiting.append(kernel)
            self.actions.append({})
            self.gotos.append({})
        return self.states[kernel]

    def build(self):
        self.waiting = []
        self.state(frozenset((number, 0) for number in self.of_symbol[START]))
        while self.waiting:
            kernel = self.waiting.pop()
            self.fill(self.states[kernel], kernel)

    def fill(self, state, kernel):
        """The actions of a state, by the kind of the token that is next."""
        onward, actions = {}, self.actions[state]
        for number, dot in self.closed(kernel):
            symbol, parts = self.productions[number]
            if dot < len(parts):
                onward.setdefault(parts[dot], set()).add((number, dot + 1))
                continue
            for kind in self.follow[symbol]:
                actions.setdefault(kind, []).append((REDUCE, number))
        for part, items in onward.items():
            target = self.state(frozenset(items))
            if isinstance(part, tuple):
                self.gotos[state][part] = target
            else:
                actions.setdefault(part, []).append((SHIFT, target))
        if any(dot and self.is_comma_of_list(number, dot) for number, dot in kernel):
            self.in_lists.add(state)

    def is_comma_of_list(self, number, dot):
        symbol, parts = self.productions[number]
        return symbol[0] == "list" and parts[dot - 1 : dot + 1] == (",", ("expression",))

    @functools.cache
    def behind(self, state, symbol, kind):
        """The state to which a symbol leads from another one. Where the token behind it tells that
        the symbol is all of a looser level, whose tree is the same, it is that to which this leads.
        """
        target = self.gotos[state][symbol]
        actions = self.actions[target].get(kind, ())
        if len(actions) == 1 and actions[0][0] == REDUCE:
            looser, parts = self.productions[actions[0][1]]
            if looser[0] in LEVELS and len(looser) == 1 and parts == (symbol,):
                return self.behind(state, looser, kind)
        return target

    def reduced(self, stack, number, kind):
        """The stack with the tree of a production in place of those of its parts, before a token of
        this kind."""
        symbol, parts = self.productions[number]
        trees = []
        for _ in parts:
            trees.append(stack.tree)
            stack = stack.below
        tree = trees[::-1] if len(symbol) > 1 else tree_of(symbol[0], trees)
        return Stack(self.behind(stack.state, symbol, kind), tree, stack)

    def advanced(self, stacks, token):
        """The stacks behind the token. There are none where it can't stand there."""
        behind, waiting, kind = [], list(stacks), token.kind
        while waiting:
            stack = waiting.pop()
            for act, number in self.actions[stack.state].get(kind, ()):
                if act == SHIFT:
                    behind.append(Stack(number, token, stack))
                else:
                    waiting.append(self.reduced(stack, number, kind))
        return behind

    def expected(self, stacks):
        """The kinds of tokens that can stand there."""
        kinds = {kind for stack in stacks for kind in self.actions[stack.state]}
        return frozenset(kind for kind in kinds if self.advanced(stacks, Token(kind, 0, 0)))


def tree_of(name, trees):
    """The tree of a line of the grammar, of the trees of its parts, the last one in front. Those of
    parts that no line is about are lists. What only stands for another level is that."""
    if len(trees) == 1 and name in LEVELS and type(trees[0]) is Node:
        return trees[0]
    parts = []
    while trees:
        one = trees.pop()
        if type(one) is list:
            trees.extend(reversed(one))
        else:
            parts.append(one)
    return Node(name, parts)


def variants(parts, nullable):
    """The parts, where each that may spell nothing is there or left out, if one is left."""
    choices = [((one,), ()) if one in nullable else ((one,),) for one in parts]
    return filter(None, (tuple(itertools.chain(*one)) for one in itertools.product(*choices)))


def left_recursive(symbol, parts):
    """The parts of a production, where one that is repeated stands behind those before it."""
    return parts[::-1] if len(symbol) > 1 and parts[-1:] == (symbol,) else parts


@functools.cache
def automaton():
    """That of the documents' grammar, with the one number that only stands behind a `-`."""
    text = (TOP / "docs" / "grammar.md").read_text(encoding="utf-8")
    grammar = Grammar(text.split("\n## Tokens\n")[0]).below(START)
    grammar[("literal",)] = [*grammar[("literal",)], ("-", LEAST_NUMBER)]
    return Automaton(grammar)


def end_of_run(text, at):
    """Where the plain tuples end that begin here, each with its comma."""
    while found := PLAIN_TUPLE.match(text, at):
        names = {word.upper() for word in WORDS.findall(found.group()) if word}
        if names & lexemes.reserved_words() - {"TUPLE", "TRUE", "FALSE"} or has_component(names):
            break
        at = found.end()
    return at


def has_component(names):
    return any(name.startswith("THE_") for name in names)


def after_run(machine, stacks, comma, text):
    """The stacks behind the plain tuples that follow a comma of a list, and where these end."""
    ends = end_of_run(text, comma.ends)
    if ends > comma.ends:
        (stack,) = stacks
        stacks = [stack._replace(tree=[comma, Run(comma.ends, ends)])]
    return stacks, ends


def at_end(before):
    """What stands for the end, right behind the last token."""
    ends = before[-1].ends if before else 0
    return Token(END, ends, ends)


def parsed(text):
    """The tree of a statement, or the Stop where it can't go on."""
    machine = automaton()
    stacks, before, rest = [Stack(0, None, None)], [], lexemes.tokens(text)
    while True:
        token = next(rest, None) or at_end(before)
        behind = machine.advanced(stacks, token)
        if not behind:
            return Stop(token, machine.expected(stacks), before, stacks)
        stacks = behind
        before.append(token)
        if token.kind == ";":
            return tree_of("statement", [token, stacks[0].below.tree or []])
        if token.kind == "," and stacks[0].state in machine.in_lists:
            stacks, ends = after_run(machine, stacks, token, text)
            if ends > token.ends:
                rest = lexemes.tokens(text, ends)
