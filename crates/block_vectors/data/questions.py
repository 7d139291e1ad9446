"""Recipes of codes, and the places at which a code is asked for its coefficients.

A code is handed in as its recipe: its form, and behind that what it is made of, one after the other
as the numbers stand in a line.
"""

import itertools
import random

from codes import CAP, code_of

chance = random.Random(20240611)


def main(m):
    return "main", m


def back(m, s):
    return "back", m, s


def spread(g, code):
    return "spread", g, code


def overlay(d, first, second):
    return "overlay", d, first, second


def table(K, P, M, kind=None):
    """A table of this size. If no kind is said, its bytes are often all different."""
    size = P * (M + 1) * K
    if kind is None:
        small = size <= 255 and chance.randrange(3) > 0
        kind = "different" if small else chance.choice(["any", "any", "sparse"])
    ages = range(M + 1)
    filled = {"first only": [0], "last only": [M], "not first": ages[1:], "not last": ages[:-1]}
    if kind == "different":
        # Without zero: then a coefficient that is read at a wrong place is always a wrong one.
        data = chance.sample(range(1, 256), size)
    elif kind == "all bytes":
        assert size == 256
        data = chance.sample(range(256), size)
    elif kind == "any":
        data = chance.choices(range(256), k=size)
    elif kind == "sparse":
        data = [chance.choice([0, 0, chance.randrange(1, 256)]) for _ in range(size)]
    elif kind == "zero":
        data = [0] * size
    else:
        # Coefficients at one age only, or at all ages but one.
        data = [chance.randrange(1, 256) * (i // K % (M + 1) in filled[kind]) for i in range(size)]
    return "table", K, P, M, bytes(data)


# --------------------------------------------------------------------------------------------------
# Questions


def ages(recipe):
    """All ages at which a coefficient may be other than zero, also those beyond the cap."""
    match recipe:
        case "main", m:
            return range(1, m + 1)
        case "back", m, s:
            return [s * (k + 1) for k in range(m)]
        case "table", _, _, M, _:
            return range(M + 1)
        case "spread", g, inner:
            return [g * a for a in ages(inner)]
        case "overlay", d, first, second:
            return sorted({*ages(first), *(d + a for a in ages(second))})


def edges(recipe):
    """The ages at which a question is worth most, the first three always asked for."""
    match recipe:
        case "main", m:
            return [m]
        case "back", m, s:
            return [s - 1, s, s * m]
        case "table", _, _, M, _:
            return [0, M]
        case "spread", g, inner:
            own = [g * a for a in edges(inner)]
            return own[:2] + [g * min(ages(inner)) + 1, own[-1] - 1, g, g // 2] + own[2:]
        case "overlay", d, first, second:
            M = code_of(first).M
            own = [d - 1, d, M, M + 1]
            return own + edges(first)[:2] + [d + a for a in edges(second)[:2]]


def filled(recipe):
    """All places whose coefficient is other than zero."""
    code = code_of(recipe)
    places = itertools.product(range(code.P), ages(recipe), range(code.K))
    return [place for place in places if code.c(*place) != 0]


def meetings(recipe):
    """The places where both codes of an overlay have a coefficient other than zero."""
    match recipe:
        case "spread", g, inner:
            return [(j, g * a, k) for j, a, k in meetings(inner)]
        case "overlay", d, first, second:
            later = {(j, d + a, k) for j, a, k in filled(second)}
            deeper = meetings(first) + [(j, d + a, k) for j, a, k in meetings(second)]
            return [place for place in filled(first) if place in later] + deeper
    return []


def leaves(recipe):
    """The codes that a code is made of and that are made of none themselves."""
    parts = [part for part in recipe if isinstance(part, tuple)]
    return [leaf for part in parts for leaf in leaves(part)] or [code_of(recipe)]


def questions(recipe):
    """A dozen places and some more, most of them where a slip in a formula would show."""
    code, full = code_of(recipe), filled(recipe)
    inside = [place for place in full if place[1] <= CAP]
    beyond = [place for place in full if place[1] > CAP]
    places = []

    def ask(j, a, k):
        if 0 <= a <= CAP and (j, a, k) not in places:
            places.append((j, a, k))

    def some():
        return chance.choice(inside) if inside else (0, min(code.M, 1), code.K - 1)

    def at(a):
        """A question at this age, and at a coefficient other than zero if there is one."""
        here = [(j, k) for j in range(code.P) for k in range(code.K) if code.c(j, a, k) != 0]
        j, k = chance.choice(here) if here else (chance.randrange(code.P), chance.randrange(code.K))
        ask(j, a, k)

    def sample(found, count):
        for place in chance.sample(found, min(count, len(found))):
            ask(*place)

    at(0)
    at(code.M)
    at(code.M + 1)
    ask(code.P - 1, code.M, code.K - 1)
    # Just outside, where what is beside it in a list is of the next age or parity.
    ask(0, 0, code.K)
    ask(0, code.M, code.K)
    ask(code.P, 0, 0)
    # Just outside, at ages where the neighbours inside are not zero.
    j, a, k = some()
    ask(code.P, a, k)
    j, a, k = some()
    ask(j, a, code.K)
    sample(inside, 3)
    sample([place for place in meetings(recipe) if place[1] <= CAP], 2)
    own = list(dict.fromkeys(edges(recipe)))
    for a in own[:3] + chance.sample(own[3:], min(3, len(own[3:]))):
        at(a)
    # Where an age beyond the cap would fall if it ran over.
    sample([(j, a % 2**32, k) for j, a, k in beyond], 3)
    if code.M >= CAP - 8:
        for a in (CAP, CAP - 1, CAP - chance.randrange(2, 9), 1, 2):
            at(a)
    # Where one code of an overlay has no parity or no sub-symbol and the other has.
    P, K = min(leaf.P for leaf in leaves(recipe)), min(leaf.K for leaf in leaves(recipe))
    sample([(j, a, k) for j, a, k in inside if j >= P or k >= K], 2)
    # Far outside.
    j, a, k = some()
    far = [(CAP, a, k), (j, CAP, k), (j, a, CAP), (CAP, CAP, CAP), (CAP, a, CAP)]
    far += [(2**31, a, k), (j, 2**31, k), (j, a, 2**31), (j, code.M + chance.randrange(2, 70), k)]
    sample(far, 3)
    row = (code.M + 1) * code.K
    if recipe[0] == "table" and row > 1 and 2**32 % row == 0:
        # With numbers of 32 bits this would be the first byte of the table.
        ask(2**32 // row, 0, 0)
    # Where a code has few places inside, more of those outside.
    while len(places) < 12:
        ask(
            chance.randrange(code.P + 2),
            chance.randrange(code.M + 3),
            chance.randrange(code.K + 2),
        )
    chance.shuffle(places)
    return places
