"""Circuits by words: registers of several bits, sums, comparisons and choices. A word is a list of literals, the low
bit first."""

from circuits import Circuit


class Words(Circuit):
    """A circuit each of whose gates is there once."""

    def __init__(self):
        super().__init__()
        self.rows, self.known = {}, {}

    def latch(self, reset=0):
        latch = super().latch(reset)
        self.rows[latch] = self.latches[-1]
        return latch

    def next(self, latch, literal):
        self.rows[latch][1] = literal

    def conj(self, a, b):
        key = min(a, b), max(a, b)
        if key not in self.known:
            self.known[key] = super().conj(a, b)
        return self.known[key]

    def implies(self, a, b):
        return self.conj(a, b ^ 1) ^ 1

    def any(self, literals):
        return self.all([x ^ 1 for x in literals]) ^ 1

    def two_of(self, literals):
        """Whether two of them are true at once."""
        some = two = 0
        for x in literals:
            two = self.disj(two, self.conj(some, x))
            some = self.disj(some, x)
        return two

    def first_of(self, literals):
        """For each one whether it is the first one that is true."""
        out, none = [], 1
        for x in literals:
            out.append(self.conj(none, x))
            none = self.conj(none, x ^ 1)
        return out

    # Words.

    def free(self, width):
        """A word of inputs."""
        return [self.input() for _ in range(width)]

    def register(self, width, value=0):
        """A word of latches that begins at a number, or at any where that is None."""
        return [self.latch(None if value is None else value >> i & 1) for i in range(width)]

    def follow(self, word, literals):
        """The register holds the other word next."""
        for latch, literal in zip(word, literals):
            self.next(latch, literal)

    def update(self, word, *rules):
        """The register holds next the word of the first rule (condition, word) whose condition is true, or stays."""
        held = word
        for condition, other in reversed(rules):
            held = self.choose(condition, other, held)
        self.follow(word, held)

    def choose(self, condition, xs, ys):
        return [self.mux(condition, x, y) for x, y in zip(xs, ys)]

    def plus(self, xs, ys, carry=0):
        """The sum in the width of the first word, and the carry out of it."""
        out = []
        for x, y in zip(xs, wide(ys, len(xs))):
            half = self.xor(x, y)
            out.append(self.xor(half, carry))
            carry = self.disj(self.conj(x, y), self.conj(half, carry))
        return out, carry

    def minus(self, xs, ys):
        """The difference in the width of the first word, and whether the first one is less."""
        out, carry = self.plus(xs, [y ^ 1 for y in wide(ys, len(xs))], 1)
        return out, carry ^ 1

    def less(self, xs, ys):
        return self.minus(wide(xs, len(ys)), wide(ys, len(xs)))[1]

    def same(self, xs, ys):
        return self.all([self.xor(x, y) ^ 1 for x, y in zip(xs, ys)])

    def decode(self, word, count):
        """For each number below the count whether the word is that."""
        return [self.equal(word, value) for value in range(count)]

    def select(self, chosen, words):
        """The word of those whose condition is true; one is at most."""
        return [self.any([self.conj(c, word[i]) for c, word in zip(chosen, words)]) for i in range(len(words[0]))]


def constant(value, width):
    return [value >> i & 1 for i in range(width)]


def wide(word, width):
    """The word, with zeros above it up to a width."""
    return word + [0] * (width - len(word))
