"""What the answers rest on: the two arithmetics, codes, parities, and what a sender does.

Formulas and rules alone; which codes are asked and what is sent is in cases.py.
"""

CAP = 2**32 - 1  # the largest age, step, delay and memory
LAST_SLOT = 2**28 - 1


class Refused(Exception):
    def __init__(self, number):
        super().__init__(number)
        self.number = number


def limit(number, low, high):
    if not low <= number <= high:
        raise Refused(1)


# --------------------------------------------------------------------------------------------------
# The two arithmetics. Sums are exclusive or in both.

MODULUS = 285  # x^8 + x^4 + x^3 + x^2 + 1


def product(x, y):
    """Long multiplication of polynomials over the two bits, long division by the modulus."""
    wide = 0
    for bit in range(8):
        if y >> bit & 1:
            wide ^= x << bit
    for bit in range(14, 7, -1):
        if wide >> bit & 1:
            wide ^= MODULUS << (bit - 8)
    return wide


PRODUCTS = [[product(x, y) for y in range(256)] for x in range(256)]


class Bytes:
    """Coefficients and symbols are bytes."""

    letter = "F"

    @staticmethod
    def scale(coefficient, symbol):
        return PRODUCTS[coefficient][symbol]


class Words:
    """Coefficients are bits, and symbols are words of 32 bits."""

    letter = "W"

    @staticmethod
    def scale(coefficient, symbol):
        return symbol if coefficient == 1 else 0


# --------------------------------------------------------------------------------------------------
# Codes


class Code:
    """K, P, M and the coefficients c(j, a, k): of parity j, age a and sub-symbol k."""

    def __init__(self, K, P, M, c):
        self.K, self.P, self.M, self.c = K, P, min(M, CAP), c


def main(m):
    limit(m, 1, 8)

    def c(j, a, k):
        return 1 if j == 0 and k < m and a == m - k else 0

    return Code(m, 1, m, c)


def back(m, s):
    limit(m, 1, 8)
    limit(s, 1, CAP)

    def c(j, a, k):
        return 1 if j == 0 and k < m and a == s * (k + 1) else 0

    return Code(m, 1, s * m, c)


def table(K, P, M, data):
    limit(K, 1, 8)
    limit(P, 1, 4)
    limit(M, 0, 63)
    if len(data) != P * (M + 1) * K:
        raise Refused(4)
    # The bytes are dealt out parity by parity, in each age by age, so that no place is worked out.
    left = iter(data)
    dealt = [[[next(left) for _ in range(K)] for _ in range(M + 1)] for _ in range(P)]

    def c(j, a, k):
        return dealt[j][a][k] if j < P and a <= M and k < K else 0

    return Code(K, P, M, c)


def spread(g, code):
    limit(g, 1, CAP)

    def c(j, a, k):
        return code.c(j, a // g, k) if a % g == 0 else 0

    return Code(code.K, code.P, g * code.M, c)


def overlay(d, first, second):
    def c(j, a, k):
        later = second.c(j, a - d, k) if a >= d else 0
        return first.c(j, a, k) ^ later

    M = max(first.M, second.M + d)
    return Code(max(first.K, second.K), max(first.P, second.P), M, c)


FORMS = {"main": main, "back": back, "table": table, "spread": spread, "overlay": overlay}


def code_of(recipe):
    """The code of a recipe: its form, and behind that what it is made of, recipes among it. A part
    that is refused refuses the whole."""
    form, *parts = recipe
    return FORMS[form](*(code_of(part) if isinstance(part, tuple) else part for part in parts))


# --------------------------------------------------------------------------------------------------
# Parities, and a sender. A packet is a list of K sub-symbols, and each of them one of L symbols.


def parities(arithmetic, code, L, stream):
    """The parities of the last packet of a stream: sums over every packet from the first on."""
    sums = []
    for j in range(code.P):
        parity = [0] * L
        for age, packet in enumerate(reversed(stream)):
            for k in range(code.K):
                coefficient = code.c(j, age, k)
                scaled = [arithmetic.scale(coefficient, symbol) for symbol in packet[k]]
                parity = [x ^ y for x, y in zip(parity, scaled, strict=True)]
        sums.append(parity)
    return sums


def cut(symbols, size):
    assert len(symbols) % size == 0
    return [symbols[i : i + size] for i in range(0, len(symbols), size)]


def flat(lists):
    return [one for each in lists for one in each]


class Sender:
    """Keeps every packet that it ever heard of, as `stream`, the youngest last. None is dropped:
    that a code forgets is up to its coefficients."""

    def __init__(self, arithmetic, code, L):
        limit(L, 1, 32)
        self.arithmetic, self.code, self.L = arithmetic, code, L
        self.packet_size = code.K * L
        self.history_size = code.M * code.K * L
        self.block_size = (code.K + code.P) * L
        self.slot = 0
        self.stream = []

    def packet(self, symbols):
        return cut(symbols, self.L)

    def start_on(self, history):
        """Goes on behind a history of M packets, whatever was sent before."""
        self.stream = [self.packet(symbols) for symbols in cut(history, self.packet_size)]
        assert len(self.stream) == self.code.M

    def history(self):
        """The last M packets, the oldest first."""
        last = self.stream[len(self.stream) - self.code.M :]
        assert len(last) == self.code.M
        return flat(flat(last))

    def send(self, slot, symbols, history, output):
        """What history and output are afterwards. The first check that fails refuses the send,
        which then changes nothing; and what lies behind the needed part of a memory stays."""
        for number, fails in [
            (1, slot > LAST_SLOT),
            (3, len(history) < self.history_size),
            (4, len(symbols) != self.packet_size),
            (5, len(output) < self.block_size),
            (11, slot < self.slot),
            (12, slot > self.slot),
        ]:
            if fails:
                raise Refused(number)
        self.stream.append(self.packet(symbols))
        self.slot += 1
        block = symbols + flat(parities(self.arithmetic, self.code, self.L, self.stream))
        return self.history() + history[self.history_size :], block + output[self.block_size :]
