"""Sentences of a grammar: its shortest ones, random ones, and sums over all of so many tokens.

A grammar has the productions of each symbol, each a tuple of symbols. What is no tuple is a token.
"""
from collections import Counter

MODULUS = 2**61 - 1


class Sentences:
    """What a symbol of a grammar spells."""

    def __init__(self, grammar, start):
        self.grammar, self.start = grammar, start
        parts = {part for every in grammar.values() for one in every for part in one}
        self.tokens = {part for part in parts if not isinstance(part, tuple)}
        self.least = {symbol: None for symbol in grammar}
        self.first = {symbol: frozenset() for symbol in grammar}
        while any([self.learn(symbol) for symbol in grammar]):
            pass

    def learn(self, symbol):
        """Whether a shorter sentence of the symbol, or another first token, is known now."""
        before = self.least[symbol], self.first[symbol]
        lengths = [self.shortest(one) for one in self.grammar[symbol]]
        self.least[symbol] = min((length for length in lengths if length is not None), default=None)
        self.first[symbol] = frozenset().union(*[self.firsts(one) for one in self.grammar[symbol]])
        return (self.least[symbol], self.first[symbol]) != before

    def firsts(self, parts):
        """The tokens with which begins what these symbols spell, one behind another."""
        every = frozenset()
        for part in parts:
            every |= self.first[part] if isinstance(part, tuple) else {part}
            if self.shortest((part,)) != 0:
                break
        return every

    def shortest(self, parts):
        """How many tokens the shortest has that these symbols spell, one behind another."""
        lengths = [self.least[part] if isinstance(part, tuple) else 1 for part in parts]
        return None if None in lengths else sum(lengths)

    def surroundings(self):
        """How many tokens at least stand beside each symbol in a sentence, and where it stands.

        That is another symbol, the production of it, and the place in that.
        """
        known, waiting = {self.start: (0, None, None, None)}, [self.start]
        while waiting:
            symbol = waiting.pop()
            waiting += self.surround(symbol, known)
        return known

    def surround(self, symbol, known):
        """The symbols in the productions of this one of which fewer tokens beside are known now."""
        for one, place, part in self.parts(symbol):
            beside = known[symbol][0] + self.shortest(one) - self.shortest((part,))
            if part not in known or beside < known[part][0]:
                known[part] = beside, symbol, one, place
                yield part

    def parts(self, symbol):
        """The symbols in the productions of this one, each behind its production and its place."""
        return [(one, place, part) for one in self.grammar[symbol]
                for place, part in enumerate(one) if isinstance(part, tuple)]

    def needed(self):
        """So many tokens that each production has a part in some sentence that has no more."""
        known = self.surroundings()
        return max(known[symbol][0] + self.shortest(one)
                   for symbol, every in self.grammar.items() for one in every)


class Sums:
    """Sums over a symbol's sentences, each as often as it is spelled, of the products of weights.

    A token has a weight at each place. With the weight 1 for the tokens of one sentence, each at
    its own place, and with 0 for all others, the sum tells how often that sentence is spelled. With
    random weights two grammars have the same sums where they spell the same sentences equally
    often, and hardly ever otherwise: sentences of one length are different products of independent
    numbers.
    """

    def __init__(self, sentences, weights):
        self.sentences, self.weights = sentences, weights
        self.of_symbols, self.of_parts = {}, {}

    def of(self, symbol, at, length):
        """Of what the symbol spells with so many tokens from this place on."""
        if not isinstance(symbol, tuple):
            return self.weights[at].get(symbol, 0) if length == 1 else 0
        key = symbol, at, length
        if length and self.sentences.first[symbol].isdisjoint(self.weights[at]):
            return 0
        if key not in self.of_symbols:
            every = [self.of_all(one, at, length) for one in self.sentences.grammar[symbol]]
            self.of_symbols[key] = sum(every) % MODULUS
        return self.of_symbols[key]

    def of_all(self, parts, at, length):
        """Of what these symbols spell, one behind another."""
        if len(parts) < 2:
            return self.of(parts[0], at, length) if parts else int(length == 0)
        key = parts, at, length
        if key not in self.of_parts:
            rest, total = parts[1:], 0
            least = self.sentences.shortest(parts[:1])
            for taken in range(least, length - self.sentences.shortest(rest) + 1):
                value = self.of(parts[0], at, taken)
                total += value and value * self.of_all(rest, at + taken, length - taken)
            self.of_parts[key] = total % MODULUS
        return self.of_parts[key]


class RandomSentences:
    """Random sentences, by a source of random choices: what was taken seldom is taken sooner."""

    def __init__(self, sentences, choose):
        self.sentences, self.choose = sentences, choose
        self.surroundings = sentences.surroundings()
        self.taken = Counter()

    def spell(self, symbol, longest):
        """A sentence of the symbol, of so many tokens at most."""
        if not isinstance(symbol, tuple):
            return [symbol]
        every, shortest = self.sentences.grammar[symbol], self.sentences.shortest
        fitting = [one for one in every if shortest(one) <= longest]
        seldom = [1 / (1 + self.taken[symbol, one]) for one in fitting]
        (one,) = self.choose.choices(fitting, seldom)
        self.taken[symbol, one] += 1
        return self.spell_all(one, longest - self.sentences.shortest(one))

    def spell_all(self, parts, spare):
        """What these symbols spell, with so many tokens at most beside those that they need."""
        said = []
        for part in parts:
            least = self.sentences.shortest((part,))
            spelled = self.spell(part, least + self.choose.randint(0, spare))
            spare -= len(spelled) - least
            said += spelled
        return said

    def through(self, symbol, production, spare):
        """A sentence in which this production spells the symbol, with so many spare tokens."""
        said = self.spell_all(production, spare)
        while symbol != self.sentences.start:
            _, symbol, one, place = self.surroundings[symbol]
            said = self.spell_all(one[:place], 0) + said + self.spell_all(one[place + 1:], 0)
        return said

    def every(self, spare):
        """A sentence through each production."""
        return [self.through(symbol, one, self.choose.randint(0, spare))
                for symbol, productions in self.sentences.grammar.items() for one in productions]
