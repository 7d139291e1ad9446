# Makes vectors.txt: systems of equations, what is done to each, and what is then known, computed here with no part of this repository.
# Usage: python3 make.py > vectors.txt
# A line of a system begins with < (what is handed in) or > (what is expected); a system ends with a line of its own, "=".
#
# Nothing is ever thrown away here: unknowns keep the number that they came with, however old they are, and after each step all equations
# since the start are solved anew, the oldest unknowns first. What then remains among the younger unknowns is what the library must have
# kept of them.
import random
import sys

source = random.Random(7)

# The field of 256 elements by logarithms to the base 2.
powers = []
logarithm = {}
value = 1
for exponent in range(255):
    powers.append(value)
    logarithm[value] = exponent
    value <<= 1
    if value > 255:
        value ^= 285


class Bytes:
    letter, digits, coefficient_digits, coefficients, symbols = "F", 2, 2, 256, 1 << 8

    @staticmethod
    def times(a, b):
        return powers[(logarithm[a] + logarithm[b]) % 255] if a and b else 0

    @staticmethod
    def inverse(a):
        return powers[-logarithm[a] % 255]


class Words:
    letter, digits, coefficient_digits, coefficients, symbols = "W", 8, 1, 2, 1 << 32

    @staticmethod
    def times(a, b):
        return b if a else 0

    @staticmethod
    def inverse(a):
        return 1


def scaled(field, c, equation):
    coefficients, symbols = equation
    return {u: field.times(c, a) for u, a in coefficients.items()}, [field.times(c, s) for s in symbols]


def plus(one, other):
    coefficients = dict(one[0])
    for u, a in other[0].items():
        coefficients[u] = coefficients.get(u, 0) ^ a
        if coefficients[u] == 0:
            del coefficients[u]
    return coefficients, [s ^ t for s, t in zip(one[1], other[1])]


def solved(field, equations, order):
    """The reduced rows of all these equations, by the unknown that each begins with in this order; None if they contradict each other."""
    left = list(equations)
    rows = {}
    for u in order:
        pivot = next((e for e in left if u in e[0]), None)
        if pivot is None:
            continue
        left.remove(pivot)
        pivot = scaled(field, field.inverse(pivot[0][u]), pivot)
        clear = lambda e: plus(e, scaled(field, e[0][u], pivot)) if u in e[0] else e
        left = [clear(e) for e in left]
        rows = {v: clear(e) for v, e in rows.items()}
        rows[u] = pivot
    if any(any(symbols) for coefficients, symbols in left):
        return None
    return rows


class System:
    def __init__(self, field, unknowns, spare, symbols):
        self.field, self.unknowns, self.spare, self.symbols = field, unknowns, spare, symbols
        print("<%s %d %d %d" % (field.letter, unknowns, spare, symbols))
        print("<start")
        self.oldest = 0
        self.hidden = [[0] * symbols for u in range(unknowns)]
        self.equations = [({u: 1}, [0] * symbols) for u in range(unknowns)]
        self.given = []
        self.show("started")

    # What is printed.

    def text(self, symbols):
        return "".join("%0*x" % (self.field.digits, s) for s in symbols)

    def coefficient_text(self, values):
        return "".join("%0*x" % (self.field.coefficient_digits, v) for v in values)

    def rows(self):
        return solved(self.field, self.equations, range(self.oldest + self.unknowns))

    def show(self, done):
        """What was done, and the rows that say something: each row's coefficients up to the last one that is not zero, and its symbols."""
        print(">" + done)
        rows = self.rows()
        for u in range(self.oldest, self.oldest + self.unknowns):
            if u in rows:
                coefficients, symbols = rows[u]
                assert min(coefficients) == u and self.holds(coefficients)[1] == symbols
                shown = [coefficients.get(v, 0) for v in range(self.oldest, max(coefficients) + 1)]
                print(">row %d %s %s" % (u - self.oldest, self.coefficient_text(shown), self.text(symbols)))

    # What is done.

    def move(self, count):
        print("<move %d" % count)
        self.oldest += count
        self.hidden += [[self.symbol() for p in range(self.symbols)] for u in range(count)]
        self.show("moved")

    def take(self, *batch, unused=()):
        """The batch, and behind it equations that are handed in too but do not count."""
        for coefficients, symbols in list(batch) + list(unused):
            assert all(self.oldest <= u < self.oldest + self.unknowns for u in coefficients)
            dense = [coefficients.get(u, 0) for u in range(self.oldest, self.oldest + self.unknowns)]
            print("<given %s %s" % (self.coefficient_text(dense), self.text(symbols)))
        print("<take %d" % len(batch))
        both = self.equations + list(batch)
        rows = solved(self.field, both, range(self.oldest + self.unknowns))
        tally["contradiction" if rows is None else "taken"] += 1
        if rows is None:
            print(">contradiction")
            return
        self.equations = both
        self.given += batch
        # The hidden content goes on to satisfy all: the unknowns that nothing fixes keep what they hold.
        for u, (coefficients, symbols) in rows.items():
            free = {v: a for v, a in coefficients.items() if v != u}
            self.hidden[u] = [s ^ t for s, t in zip(symbols, self.holds(free)[1])]
        self.show("taken")

    def end(self):
        """Each unknown is asked for by itself: all others are eliminated, and what is then left speaks of it alone."""
        print("<read")
        window = range(self.oldest, self.oldest + self.unknowns)
        for u in window:
            others = [v for v in range(self.oldest + self.unknowns) if v != u]
            rows = solved(self.field, self.equations, others + [u])
            said = self.text(rows[u][1]) if u in rows else "open"
            tally["open" if said == "open" else "known"] += 1
            print(">unknown %d %s" % (u - self.oldest, said))
        print("=")
        tally[self.field.letter] += 1

    # Equations. Unknowns are counted from the oldest that is still there.

    def symbol(self):
        return source.randrange(self.field.symbols)

    def coefficient(self):
        return source.randrange(1, self.field.coefficients)

    def holds(self, coefficients):
        """The equation with these coefficients that the hidden content satisfies."""
        total = [0] * self.symbols
        for u, a in coefficients.items():
            total = [t ^ self.field.times(a, s) for t, s in zip(total, self.hidden[u])]
        return coefficients, total

    def about(self, *unknowns):
        return self.holds({self.oldest + u: self.coefficient() for u in unknowns})

    def ones(self, *unknowns):
        return self.holds({self.oldest + u: 1 for u in unknowns})

    def dense(self):
        return self.about(*(u for u in range(self.unknowns) if source.random() < 0.7))

    def young(self):
        """Of the younger half alone."""
        return self.about(*(u for u in range(self.unknowns // 2, self.unknowns) if source.random() < 0.7))

    def sparse(self):
        return self.about(*source.sample(range(self.unknowns), min(self.unknowns, source.choice((1, 2, 2)))))

    def single(self):
        return self.about(source.randrange(self.unknowns))

    def nothing(self):
        return {}, [0] * self.symbols

    def random(self):
        return self.about(*(u for u in range(self.unknowns) if source.random() < 0.7))[0], [self.symbol() for p in range(self.symbols)]

    def repeated(self):
        """One that was taken in earlier, scaled, if its unknowns are all still there."""
        there = [e for e in self.given if all(self.oldest <= u for u in e[0])]
        return scaled(self.field, self.coefficient(), source.choice(there)) if there else self.nothing()

    def following(self, equations):
        """A sum of what is known of the unknowns that are there, and of these equations."""
        known = [row for u, row in self.rows().items() if u >= self.oldest]
        total = self.nothing()
        for e in known + list(equations):
            if source.random() < 0.6:
                total = plus(total, scaled(self.field, self.coefficient(), e))
        return total

    def wrong(self, equation):
        """The same at all places but one."""
        coefficients, symbols = equation
        place = source.randrange(self.symbols)
        return coefficients, [s ^ (p == place) * source.randrange(1, self.field.symbols) for p, s in enumerate(symbols)]


tally = {"W": 0, "F": 0, "taken": 0, "contradiction": 0, "known": 0, "open": 0}


def together(field):
    """Unknowns that no equation fixes by itself, and all of them together do."""
    s = System(field, 3, 3, 2)
    s.move(3)
    s.take(s.ones(0, 1), s.ones(1, 2))
    s.take(s.ones(0, 1, 2))
    s.end()
    s = System(field, 4, 4, 1)
    s.move(4)
    s.take(s.ones(0, 1, 2, 3), s.ones(1, 2, 3), s.ones(0, 2), s.ones(0, 1))
    s.end()
    s = System(field, 5, 1, 3)
    s.move(4)
    # One unknown is fixed by the sum of two equations, and the others stay open.
    s.take(s.ones(1, 2, 3))
    s.take(s.ones(1, 2, 3, 4))
    s.take(s.about(0, 4))
    s.end()


def projections(field):
    """Equations that mention an unknown which leaves."""
    # Each alone says nothing of the others, and the two together do.
    s = System(field, 4, 2, 2)
    s.move(4)
    s.take(s.about(0, 1, 2), s.about(0, 3))
    s.move(1)
    s.take(s.about(0), s.about(1))
    s.end()
    # Alone it goes with the unknown.
    s = System(field, 3, 2, 1)
    s.move(3)
    s.take(s.about(0, 1, 2))
    s.move(1)
    s.end()
    # The unknown that leaves is fixed, so that what was said of it and another fixes the other.
    s = System(field, 3, 2, 2)
    s.move(2)
    s.take(s.about(0, 1))
    s.take(s.about(1, 2))
    s.move(1)
    s.move(1)
    s.end()
    # A chain: each link leaves, and the ends stay tied.
    s = System(field, 6, 3, 1)
    s.move(6)
    s.take(s.about(0, 1), s.about(1, 2), s.about(2, 3))
    s.take(s.about(0, 4), s.about(3, 5))
    s.move(2)
    s.take(s.about(0, 5))
    s.move(1)
    s.move(3)
    s.end()
    # Two leave at once, of three equations that mention both: one combination is left.
    s = System(field, 6, 3, 2)
    s.move(6)
    s.take(s.about(0, 1, 2, 5), s.about(0, 1, 3), s.about(0, 1, 4, 5))
    s.move(2)
    s.end()


def singles(field):
    """Equations of one unknown each."""
    s = System(field, 5, 4, 2)
    s.move(5)
    s.take(s.about(3))
    s.take(s.about(4), s.about(0), s.about(4))
    s.move(1)
    s.take(s.about(0), s.about(4))
    s.end()


def leaving(field):
    """All unknowns leave at once, known ones, tied ones and open ones."""
    s = System(field, 1, 1, 1)
    s.move(1)
    s.take(s.about(0))
    s.move(1)
    s.end()
    s = System(field, 4, 2, 2)
    s.move(4)
    s.take(s.about(0, 1), s.about(2))
    s.move(4)
    s.take(s.about(3))
    s.end()


def borders(field):
    """No equation at all, equations of no unknown, and contradictions of each kind."""
    s = System(field, 2, 2, 2)
    s.take()
    s.take(s.nothing(), s.nothing())
    s.take(s.wrong(s.nothing()))
    s.take(s.wrong(s.ones(0)))
    s.move(1)
    s.take(s.ones(0, 1), s.wrong(s.ones(0, 1)))
    s.take(s.nothing(), unused=[s.random(), s.wrong(s.nothing())])
    s.take(unused=[s.ones(1), s.ones(0)])
    s.take(s.ones(0, 1), unused=[s.wrong(s.ones(0, 1))])
    s.end()
    # Only the last of four contradicts, only with the other three together, and only at one place.
    s = System(field, 5, 4, 4)
    s.move(5)
    batch = [s.ones(0, 1), s.ones(1, 2), s.ones(2, 3)]
    s.take(*batch, s.wrong(s.ones(0, 3)))
    s.take(*batch, s.ones(0, 3))
    s.take(s.about(4), s.wrong(s.ones(1, 3)))
    s.take(s.about(4), s.ones(1, 3))
    s.end()
    # The places are independent: what contradicts at the last place alone leaves nothing behind.
    s = System(field, 3, 2, 3)
    s.move(2)
    known = s.about(1, 2)
    s.take(known)
    s.take(s.about(0, 1), (known[0], known[1][:2] + [known[1][2] ^ 1]))
    s.take(s.about(0, 1), known)
    s.end()


def step(s):
    """Something at random."""
    kind = source.randrange(12)
    count = source.randrange(1, s.spare + 1)
    unused = [s.random() for k in range(source.choice((0, 0, 0, 1, 2)))]
    if kind <= 2:
        s.move(source.choice((1, 1, source.randrange(1, s.unknowns + 1))))
    elif kind <= 4:
        s.take(*(s.dense() for k in range(count)), unused=unused)
    elif kind == 5:
        s.take(*(s.young() for k in range(count)))
    elif kind <= 7:
        s.take(*(s.sparse() for k in range(count)), unused=unused)
    elif kind == 8:
        s.take(*(source.choice((s.repeated, s.single, s.nothing))() for k in range(count)))
    elif kind == 9:
        s.take(*(s.random() for k in range(count)))
    elif kind == 10:
        # All follow from what is there.
        batch = []
        for k in range(count):
            batch.append(s.following(batch))
        s.take(*batch)
    else:
        # The last one does not go with the others.
        batch = [source.choice((s.dense, s.sparse))() for k in range(count - 1)]
        s.take(*batch, s.wrong(s.following(batch)), unused=unused)


def mixed(field, unknowns, spare, symbols, steps):
    s = System(field, unknowns, spare, symbols)
    s.move(source.choice((unknowns, source.randrange(1, unknowns + 1))))
    for k in range(steps):
        step(s)
    s.end()


def large(field):
    s = System(field, 40, 4, 3)
    s.move(25)
    for k in range(3):
        s.take(*(s.sparse() for j in range(4)))
    s.take(*(s.young() for j in range(2)))
    s.move(18)
    s.take(s.dense(), s.wrong(s.following([])))
    s.take(s.dense(), s.young())
    s.end()


def largest(field):
    s = System(field, 128, 3, 1)
    s.move(100)
    s.take(s.about(0, 127), s.about(28, 29, 127), s.about(127))
    s.take(s.about(5, 77), s.wrong(s.about(0)))
    s.move(90)
    s.take(s.about(1, 127), s.about(37, 126, 127))
    s.move(127)
    s.take(s.about(0, 127))
    s.end()


for field in (Words, Bytes):
    together(field)
    projections(field)
    singles(field)
    leaving(field)
    borders(field)
    for unknowns in range(1, 13):
        for k in range(4 if unknowns < 8 else 3):
            # One system of each number of unknowns has more spare rows than the others.
            spare = source.randrange(5, 8) if k == 0 else source.randrange(1, 5)
            mixed(field, unknowns, spare, source.randrange(1, 5), source.randrange(4, 9) if unknowns < 10 else 5)
    mixed(field, 6, 3, 32, 5)
    large(field)
    largest(field)

print(tally, file=sys.stderr)
