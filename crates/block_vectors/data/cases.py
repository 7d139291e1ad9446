"""Which codes are asked, and over which of them senders send."""

from codes import CAP, Bytes, Words
from questions import back, chance, main, overlay, spread, table
from writing import capped, case, refused_code, refused_sender


def tables():
    yield case(Bytes, table(2, 2, 1, "different"), 1)
    yield case(Bytes, table(2, 2, 1, "different"), 3)
    for K, P, M, L, kind in [
        (1, 1, 0, 1, "any"),
        (1, 1, 63, 3, None),
        (1, 2, 1, 32, None),
        (1, 3, 15, 7, None),
        (1, 4, 62, 2, None),
        (2, 1, 2, 7, "different"),
        (2, 2, 63, 1, "all bytes"),
        (2, 3, 0, 3, "different"),
        (2, 4, 31, 1, "all bytes"),
        (3, 1, 1, 3, "zero"),
        (3, 2, 2, 1, "different"),
        (3, 3, 9, 2, None),
        (3, 4, 15, 1, "sparse"),
        (3, 4, 0, 2, "different"),
        (4, 1, 0, 32, "different"),
        (4, 1, 63, 1, "all bytes"),
        (4, 2, 5, 2, "last only"),
        (4, 3, 1, 7, "different"),
        (4, 4, 2, 3, "different"),
        (5, 1, 3, 32, "different"),
        (5, 2, 15, 1, "different"),
        (5, 3, 2, 2, "not first"),
        (5, 4, 0, 7, "different"),
        (6, 1, 62, 1, None),
        (6, 2, 1, 2, "not last"),
        (6, 3, 4, 3, "first only"),
        (6, 4, 7, 1, None),
        (7, 1, 15, 2, "different"),
        (7, 2, 0, 1, "different"),
        (7, 3, 63, 1, "any"),
        (7, 4, 2, 1, "different"),
        (8, 3, 1, 3, "different"),
        (8, 2, 0, 1, "different"),
        (8, 4, 63, 1, "any"),
        (8, 4, 1, 32, "different"),
        (8, 1, 63, 7, "any"),
        (8, 2, 15, 32, "all bytes"),
    ]:
        yield case(Bytes, table(K, P, M, kind), L)


def diagonals():
    for m, L in [(1, 1), (2, 7), (5, 2), (8, 1)]:
        yield case(Bytes, main(m), L)
    for m, s, L in [(1, 1, 32), (2, 3, 2), (4, 1, 3), (6, 2, 1), (8, 5, 1)]:
        yield case(Bytes, back(m, s), L)
    for m, L in [(1, 3), (4, 2), (8, 1)]:
        yield case(Words, main(m), L)
    for m, s, L in [(1, 1, 7), (2, 3, 1), (7, 1, 1), (8, 5, 1)]:
        yield case(Words, back(m, s), L)


def overlays_of_bytes():
    for d, m, w, s, L in [(0, 3, 3, 1, 2), (2, 3, 2, 1, 1), (1, 8, 4, 1, 1), (9, 4, 2, 3, 1)]:
        yield case(Bytes, overlay(d, main(m), back(w, s)), L)
    for d, first, second, L in [
        (0, (2, 2, 1, "different"), (2, 2, 1, "different"), 1),
        (0, (3, 1, 4), (5, 3, 2), 2),
        (1, (4, 2, 3), (1, 4, 6), 1),
        (1, (2, 1, 2, "different"), (2, 1, 1, "different"), 7),
        (2, (1, 4, 0), (8, 1, 1), 3),
        (2, (6, 3, 5), (3, 2, 1), 1),
        (3, (7, 1, 0), (2, 3, 0), 2),
        (0, (8, 4, 0), (3, 1, 0), 3),
        (4, (5, 2, 10), (5, 2, 62), 1),
        (64, (8, 4, 63), (1, 1, 2), 1),
        (63, (2, 1, 63), (3, 2, 1), 2),
        (0, (4, 3, 15, "not first"), (4, 3, 15, "first only"), 1),
    ]:
        yield case(Bytes, overlay(d, table(*first), table(*second)), L)
    for d, first, w, s, L in [
        (0, (3, 2, 4), 4, 1, 2),
        (1, (4, 1, 6), 2, 3, 1),
        (10, (2, 4, 3), 6, 2, 1),
        (3, (2, 2, 40), 2, 4, 2),
    ]:
        yield case(Bytes, overlay(d, table(*first), back(w, s)), L)
    for d, m, second, L in [
        (0, 3, (3, 2, 3, "different"), 3),
        (1, 8, (2, 4, 2), 1),
        (6, 4, (2, 1, 0), 7),
        (0, 1, (1, 1, 0), 32),
    ]:
        yield case(Bytes, overlay(d, main(m), table(*second)), L)
    for d, w, s, second, L in [
        (0, 2, 1, (3, 2, 2), 3),
        (2, 4, 3, (4, 1, 1), 1),
        (20, 3, 5, (5, 3, 2), 1),
        (1, 1, 7, (1, 4, 10), 7),
    ]:
        yield case(Bytes, overlay(d, back(w, s), table(*second)), L)


def spreads_of_bytes():
    for g, m, L in [(1, 4, 2), (2, 3, 3), (3, 8, 1), (5, 1, 7)]:
        yield case(Bytes, spread(g, main(m)), L)
    for g, w, s, L in [(1, 2, 2, 3), (2, 3, 2, 1), (3, 2, 1, 7), (5, 8, 1, 1)]:
        yield case(Bytes, spread(g, back(w, s)), L)
    for g, inner, L in [
        (1, (2, 2, 1, "different"), 3),
        (2, (3, 3, 3), 2),
        (3, (1, 4, 15), 2),
        (5, (8, 2, 2), 1),
        (2, (2, 1, 63), 1),
        (3, (4, 4, 0), 2),
    ]:
        yield case(Bytes, spread(g, table(*inner)), L)


def nested_of_bytes():
    for g, d, first, second, L in [
        (1, 0, (2, 2, 1, "different"), (2, 2, 1, "different"), 3),
        (2, 1, (3, 2, 2), (4, 1, 3), 1),
        (3, 2, (2, 4, 5), (5, 3, 1), 1),
        (5, 4, (1, 1, 1), (2, 2, 2), 2),
    ]:
        yield case(Bytes, spread(g, overlay(d, table(*first), table(*second))), L)
    for d, g, first, second, L in [
        (0, 2, (2, 2, 2), (2, 2, 1), 3),
        (1, 3, (1, 3, 2), (4, 2, 5), 1),
        (2, 5, (3, 1, 1), (2, 4, 1), 2),
        (9, 2, (2, 2, 3), (3, 3, 1), 1),
    ]:
        yield case(Bytes, overlay(d, spread(g, table(*first)), table(*second)), L)
    for d, first, g, second, L in [
        (0, (3, 2, 4), 2, (2, 2, 2), 2),
        (1, (4, 1, 7), 3, (5, 2, 1), 1),
        (2, (2, 3, 2), 5, (1, 4, 2), 2),
        (6, (2, 2, 3), 3, (2, 2, 1), 1),
    ]:
        yield case(Bytes, overlay(d, table(*first), spread(g, table(*second))), L)
    for g, h, inner, L in [(2, 3, (2, 2, 2), 1), (5, 1, (1, 4, 3), 3), (3, 5, (3, 1, 1), 1)]:
        yield case(Bytes, spread(g, spread(h, table(*inner))), L)
    for g, h, d, first, second, L in [
        (2, 2, 1, (2, 2, 2), (3, 1, 1), 1),
        (3, 1, 0, (1, 3, 1), (2, 2, 1), 2),
        (1, 5, 2, (2, 1, 1), (1, 2, 1), 1),
    ]:
        yield case(Bytes, spread(g, spread(h, overlay(d, table(*first), table(*second)))), L)
    for d, e, first, second, third, L in [
        (1, 1, (2, 2, 2), (3, 1, 1), (1, 3, 2), 2),
        (0, 2, (4, 1, 5), (2, 2, 1), (3, 4, 1), 1),
        (2, 0, (2, 2, 1), (2, 2, 1), (2, 2, 1), 3),
        (12, 3, (1, 4, 4), (8, 1, 2), (5, 2, 3), 1),
    ]:
        yield case(Bytes, overlay(d, overlay(e, table(*first), table(*second)), table(*third)), L)
    for g, d, h, first, second, L in [
        (2, 1, 2, (2, 2, 1), (2, 2, 2), 1),
        (3, 0, 2, (1, 3, 2), (2, 1, 3), 2),
        (2, 7, 3, (3, 1, 2), (2, 4, 1), 1),
    ]:
        yield case(Bytes, spread(g, overlay(d, spread(h, table(*first)), table(*second))), L)


def of_words():
    for g, m, L in [(1, 5, 1), (2, 3, 2), (3, 8, 1), (5, 2, 1)]:
        yield case(Words, spread(g, main(m)), L)
    for g, w, s, L in [(1, 3, 2, 1), (2, 2, 3, 1), (3, 4, 1, 1), (5, 1, 2, 3)]:
        yield case(Words, spread(g, back(w, s)), L)
    for d, m, w, s, L in [(0, 3, 3, 1, 1), (3, 2, 2, 1, 2), (1, 4, 2, 1, 1), (6, 5, 3, 2, 1)]:
        yield case(Words, overlay(d, main(m), back(w, s)), L)
    for d, w, s, m, L in [(0, 1, 1, 1, 7), (1, 3, 1, 2, 2), (2, 4, 5, 3, 1), (7, 2, 3, 8, 1)]:
        yield case(Words, overlay(d, back(w, s), main(m)), L)
    for d, m, n, L in [(0, 3, 3, 1), (1, 4, 3, 1), (2, 3, 5, 1), (5, 2, 8, 1)]:
        yield case(Words, overlay(d, main(m), main(n)), L)
    for g, d, m, w, s, L in [
        (1, 3, 2, 2, 1, 3),
        (2, 0, 3, 3, 1, 1),
        (3, 3, 2, 2, 2, 1),
        (5, 1, 4, 2, 1, 1),
    ]:
        yield case(Words, spread(g, overlay(d, main(m), back(w, s))), L)
    for d, g, m, w, s, L in [(0, 2, 3, 2, 2, 2), (1, 3, 2, 4, 1, 1), (20, 5, 3, 2, 2, 1)]:
        yield case(Words, overlay(d, spread(g, main(m)), back(w, s)), L)
    for d, m, g, w, s, L in [(0, 5, 2, 2, 1, 1), (2, 8, 3, 1, 2, 1), (4, 3, 2, 3, 2, 1)]:
        yield case(Words, overlay(d, main(m), spread(g, back(w, s))), L)
    for g, h, w, s, L in [(2, 3, 2, 1, 1), (1, 2, 3, 2, 1), (5, 2, 1, 3, 1)]:
        yield case(Words, spread(g, spread(h, back(w, s))), L)
    for d, e, m, w, s, n, L in [
        (0, 0, 3, 3, 1, 3, 2),
        (1, 3, 2, 2, 1, 2, 1),
        (2, 1, 5, 2, 2, 3, 1),
        (9, 0, 1, 8, 1, 4, 1),
    ]:
        yield case(Words, overlay(d, overlay(e, main(m), back(w, s)), main(n)), L)
    # A packet of 32 words a sub-symbol, with a history that is still short.
    yield case(Words, overlay(1, main(1), main(1)), 32)


def beyond_the_cap():
    yield capped(Bytes, back(8, CAP), 32)
    yield capped(Bytes, back(3, 2**31 - 1), 1)
    yield capped(Words, back(2, 2**31), 2)
    # The largest memory that needs no cap.
    yield capped(Bytes, back(5, CAP // 5), 3)
    yield capped(Bytes, spread(CAP, table(2, 2, 2, "different")), 2)
    yield capped(Bytes, spread(2**31, table(3, 1, 2, "different")), 1)
    yield capped(Bytes, overlay(CAP, table(2, 2, 3, "different"), table(3, 1, 1, "different")), 1)
    large = table(8, 4, 1, "different")
    yield capped(Bytes, overlay(CAP - 2, large, table(2, 2, 5, "different")), 7)
    yield capped(Bytes, overlay(CAP, table(1, 1, 63), table(2, 3, 0, "different")), 1)
    near = overlay(2, table(2, 2, 1, "different"), table(1, 3, 2, "different"))
    yield capped(Bytes, spread(CAP // 3, near), 1)
    deep = overlay(CAP - 1, table(1, 2, 2, "different"), table(2, 1, 3, "different"))
    yield capped(Bytes, overlay(2**31, deep, table(2, 2, 2, "different")), 1)
    yield capped(Words, overlay(CAP - 5, main(3), back(2, 4)), 1)
    yield capped(Words, spread(2**16, spread(2**16, back(2, 1))), 1)
    yield capped(Words, overlay(CAP - 1, main(2), spread(CAP, back(2, 1))), 1)


def refused_codes():
    def any_bytes(size):
        return bytes(chance.choices(range(256), k=size))

    def of(K, P, M, more=0):
        """A table with as many bytes as its numbers say, and some more or fewer."""
        return "table", K, P, M, any_bytes(P * (M + 1) * K + more)

    for arithmetic in (Bytes, Words):
        for m in (0, 9, CAP):
            yield refused_code(arithmetic, main(m))
        for m, s in [(0, 1), (9, 1), (3, 0)]:
            yield refused_code(arithmetic, back(m, s))
        yield refused_code(arithmetic, spread(0, main(2)))
        yield refused_code(arithmetic, spread(2, back(2, 0)))
        yield refused_code(arithmetic, overlay(1, main(2), back(9, 1)))
    yield refused_code(Bytes, spread(0, of(2, 2, 1)))
    for K, P, M in [(0, 1, 1), (9, 1, 1), (2, 0, 1), (2, 5, 1), (2, 2, 64), (8, 4, 64)]:
        yield refused_code(Bytes, of(K, P, M))
    yield refused_code(Bytes, ("table", 2, 2, CAP, any_bytes(8)))
    # No bytes: as many as there would be if M + 1 ran over to 0.
    yield refused_code(Bytes, ("table", 2, 2, CAP, b""))
    for K, P, M, more in [
        (1, 1, 0, 1),
        (1, 1, 0, -1),
        (2, 3, 1, 1),
        (2, 3, 1, -1),
        (2, 3, 1, -12),
        (8, 4, 63, 1),
        (8, 4, 63, -1),
        (8, 4, 63, -2048),
        # As for M - 1, and as for M + 1.
        (3, 2, 4, -6),
        (3, 2, 4, 6),
        # Two faults at once, of which the first is answered.
        (0, 2, 1, 4),
        (9, 1, 1, 1),
        (2, 5, 1, -1),
        (2, 2, 64, -4),
    ]:
        yield refused_code(Bytes, of(K, P, M, more))
    # A part that is refused refuses the whole.
    yield refused_code(Bytes, spread(2, of(2, 2, 1, -1)))
    yield refused_code(Bytes, overlay(1, of(9, 2, 1), of(2, 2, 1)))
    yield refused_code(Bytes, overlay(1, of(2, 2, 1), of(2, 2, 1, 1)))
    yield refused_code(Bytes, spread(2, spread(0, of(2, 2, 1))))


def all_cases():
    """The lines of each case."""
    example = [[2 * t + 1, 2 * t + 2] for t in range(6)]
    yield case(Bytes, overlay(3, main(2), back(2, 1)), 1, example)
    yield case(Words, spread(1, overlay(3, main(2), back(2, 1))), 1, example)
    yield from tables()
    yield refused_sender(Bytes, table(3, 2, 1, "different"), 0)
    yield from diagonals()
    yield refused_sender(Words, main(4), 33)
    yield from overlays_of_bytes()
    yield from spreads_of_bytes()
    yield from nested_of_bytes()
    yield from of_words()
    yield from beyond_the_cap()
    yield from refused_codes()
