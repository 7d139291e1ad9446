"""Codes and the blocks that senders make with them.

    python3 make.py > vectors.txt

The answers are those of codes.py, to what cases.py asks and sends. Only text that second.py agrees
with is printed.
"""

import itertools
import sys

# Compiled copies of the scripts would lie among the data.
sys.dont_write_bytecode = True

import cases
import second
from codes import CAP, PRODUCTS, Bytes, Refused, code_of, parities, product

FORMS = {
    "F": """main back table spread-main spread-back spread-table overlay-main-back
        overlay-table-table overlay-table-back overlay-main-table overlay-back-table
        spread-overlay-table-table overlay-spread-table-table overlay-table-spread-table
        spread-spread-table spread-spread-overlay-table-table overlay-overlay-table-table-table
        spread-overlay-spread-table-table""",
    "W": """main back spread-main spread-back overlay-main-back overlay-back-main overlay-main-main
        spread-overlay-main-back overlay-spread-main-back overlay-main-spread-back
        spread-spread-back overlay-overlay-main-back-main""",
}


def refusal(*recipe):
    try:
        code_of(recipe)
    except Refused as refused:
        return refused.number


def check_by_hand():
    """Facts that were worked out by hand."""
    assert product(2, 128) == 29 and product(2, 142) == 1
    pairs = itertools.product(range(256), repeat=2)
    assert all(PRODUCTS[x][y] == second.times_bytes(x, y) for x, y in pairs)
    # The example: parity t is x0[t-2] + x1[t-1] + x0[t-4] + x1[t-5].
    main, back = ("main", 2), ("back", 2, 1)
    for recipe in [("overlay", 3, main, back), ("spread", 1, ("overlay", 3, main, back))]:
        code = code_of(recipe)
        assert (code.K, code.P, code.M) == (2, 1, 5)
        places = itertools.product(range(3), range(9), range(4))
        filled = {place for place in places if code.c(*place) != 0}
        assert filled == {(0, 2, 0), (0, 1, 1), (0, 4, 0), (0, 5, 1)}
        stream = [[[2 * t + 1], [2 * t + 2]] for t in range(6)]
        found = [parities(Bytes, code, 1, stream[: t + 1]) for t in range(6)]
        assert found == [[[0]], [[2]], [[5]], [[5]], [[12]], [[12]]]
    # A table of 2 parities, 2 ages and 2 sub-symbols: 1 x 5 + 2 x 128 + 3 x 7 + 4 x 0.
    recipe = ("table", 2, 2, 1, bytes([1, 2, 3, 4, 5, 6, 7, 8]))
    small = code_of(recipe)
    assert [small.c(0, 0, 1), small.c(0, 1, 0), small.c(1, 0, 0), small.c(1, 1, 1)] == [2, 3, 5, 8]
    assert parities(Bytes, small, 1, [[[7], [0]], [[5], [128]]])[0] == [5 ^ 29 ^ 9]
    # Where two codes meet, their coefficients add up, and equal ones wipe each other out.
    assert code_of(("overlay", 0, ("main", 3), ("main", 3))).c(0, 2, 1) == 0
    twice = code_of(("overlay", 1, recipe, recipe))
    assert twice.c(0, 1, 0) == 3 ^ 1 and twice.c(0, 2, 1) == 4 and twice.c(0, 0, 1) == 2
    # The cap holds the memory, and no coefficient comes round.
    back = code_of(("back", 3, 2**31 - 1))
    assert back.M == CAP and back.c(0, CAP - 1, 1) == 1
    back = code_of(("back", 2, 2**31))
    assert back.M == CAP and back.c(0, 0, 1) == 0 and back.c(0, 2**31, 0) == 1
    assert refusal("main", 8) is None and refusal("main", 9) == 1 and refusal("back", 1, 0) == 1
    assert refusal("table", 1, 1, 1, bytes(2)) is None
    assert refusal("table", 1, 1, 1, bytes(3)) == 4 and refusal("table", 1, 5, 1, bytes(3)) == 1
    assert refusal("spread", 0, ("main", 2)) == 1 and refusal("spread", 1, ("main", 0)) == 1


def check_coverage(seen):
    """That every kind is there often enough."""

    def often(times, *kinds):
        for kind in kinds:
            assert seen[kind] >= times, (kind, seen[kind])

    for letter, forms in FORMS.items():
        for form in forms.split():
            often(3, (letter, form))
            if "overlay" in form:
                often(1, (letter, form, "meets"))
    often(5, *(("table", "K", K) for K in range(1, 9)))
    often(8, *(("table", "P", P) for P in range(1, 5)))
    often(3, *(("table", "M", M) for M in (0, 1, 2, 15, 62, 63)))
    often(3, *(("L", L) for L in (1, 2, 3, 7, 32)))
    often(10, *(("refused", number) for number in (1, 3, 4, 5, 11, 12)))
    often(30, "several faults")
    often(10, "history of zeros", "any history", "more sends than M", "fewer sends than M")
    often(10, ("M > 0", "exact"), ("M > 0", "longer"), "output exact", "output longer")
    often(3, ("M = 0", "exact"), ("M = 0", "longer"))
    often(20, "refused code 1")
    often(10, "refused code 4")


def main():
    check_by_hand()
    text = "".join("\n".join(lines + ["=\n"]) for lines in cases.all_cases())
    seen = second.check(text)
    check_coverage(seen)
    sys.stdout.write(text)
    counts = ", ".join("%d %s" % (seen[kind], kind) for kind in ("cases", "sends", "questions"))
    print("%s, %d bytes" % (counts, len(text)), file=sys.stderr)


main()
