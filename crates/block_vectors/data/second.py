"""A second reading of vectors.txt: every answer is worked out again from the lines handed in.

It takes other ways than codes.py, and nothing from it: a code is the list of its coefficients that
are not zero, products go by logarithms, and memories are read and moved as they lie. What it saw is
counted, so that make.py can see that enough of each was there.
"""

import collections
import re

LARGEST = 0xFFFFFFFF


def powers_of_two():
    powers = [1]
    while len(powers) < 255:
        twice = powers[-1] << 1
        powers.append(twice if twice < 256 else twice ^ 0b100011101)
    return powers


POWERS = powers_of_two()
LOGARITHMS = {power: exponent for exponent, power in enumerate(POWERS)}


def times_bytes(x, y):
    return POWERS[(LOGARITHMS[x] + LOGARITHMS[y]) % 255] if x and y else 0


def times_words(bit, word):
    return bit * word


def read_symbols(text, digits):
    if text == "-":
        return []
    assert len(text) % digits == 0
    return [int(text[i : i + digits], 16) for i in range(0, len(text), digits)]


class Reading:
    """The lines of one case, read one by one."""

    def __init__(self, lines):
        self.lines = lines
        self.place = 0

    def next(self, pattern):
        """The parts of the next line, which must have this form."""
        match = re.fullmatch(pattern, self.lines[self.place])
        assert match, (pattern, self.lines[self.place][:200])
        self.place += 1
        return match.groups()

    def numbers(self, pattern):
        return tuple(map(int, self.next(pattern.replace("N", r"(\d+)"))))

    def is_next(self, start):
        return self.place < len(self.lines) and self.lines[self.place].startswith(start)

    def is_over(self):
        return self.place == len(self.lines)


class Codes:
    """Reads a code off its words and numbers: K, P, M, and the coefficients by place. Kept on the
    way: the faults, by number; the codes that are made of no other, with their K, P and M; and how
    many coefficients of two codes met."""

    def __init__(self, words, numbers):
        self.words, self.numbers = words, numbers
        self.faults, self.leaves, self.meetings = [], [], 0

    def number(self):
        return int(self.numbers.pop(0))

    def limit(self, holds):
        if not holds:
            self.faults.append(1)

    def read(self):
        word = self.words.pop(0)
        if word == "spread":
            g = self.number()
            self.limit(g > 0)
            K, P, M, terms = self.read()
            return K, P, g * M, {(j, g * a, k): c for (j, a, k), c in terms.items()}
        if word == "overlay":
            d = self.number()
            K, P, M, terms = self.read()
            K2, P2, M2, more = self.read()
            for (j, a, k), c in more.items():
                place = (j, a + d, k)
                self.meetings += c > 0 and terms.get(place, 0) > 0
                terms[place] = terms.get(place, 0) ^ c
            return max(K, K2), max(P, P2), max(M, M2 + d), terms
        code = getattr(self, word)()
        self.leaves.append((word, *code[:3]))
        return code

    def main(self):
        m = self.number()
        self.limit(1 <= m <= 8)
        return m, 1, m, {(0, m - k, k): 1 for k in range(min(m, 8))}

    def back(self):
        m, s = self.number(), self.number()
        self.limit(1 <= m <= 8 and s >= 1)
        return m, 1, m * s, {(0, s * k + s, k): 1 for k in range(min(m, 8))}

    def table(self):
        K, P, M = self.number(), self.number(), self.number()
        data = read_symbols(self.numbers.pop(0), 2)
        terms = {}
        if not (1 <= K <= 8 and 1 <= P <= 4 and M <= 63):
            self.faults.append(1)
        elif len(data) != (M + 1) * K * P:
            self.faults.append(4)
        else:
            for j in range(P):
                for a in range(M + 1):
                    for k in range(K):
                        terms[j, a, k] = data[(j * (M + 1) + a) * K + k]
        return K, P, M, terms


def check_case(lines, seen):
    seen["cases"] += 1
    reading = Reading(lines)
    letter, form, numbers = reading.next(r"<code ([FW]) ([a-z-]+) ([0-9a-f -]+)")
    codes = Codes(form.split("-"), numbers.split(" "))
    K, P, M, terms = codes.read()
    assert not codes.words and not codes.numbers
    M = min(M, LARGEST)
    if codes.faults:
        # Of one part alone, so that it is plain which is answered.
        (number,) = codes.faults
        reading.next(">refused %d" % number)
        assert reading.is_over()
        seen["refused code %d" % number] += 1
        return
    seen[letter, form] += 1
    seen[letter, form, "meets"] += codes.meetings
    for leaf in codes.leaves:
        seen[leaf[0], "K", leaf[1]] += 1
        seen[leaf[0], "P", leaf[2]] += 1
        seen[leaf[0], "M", leaf[3]] += 1
    assert reading.numbers(">K=N P=N M=N") == (K, P, M)
    places = set()
    while reading.is_next("<c "):
        place = reading.numbers("<c N N N")
        (answer,) = reading.next(r">c ([0-9a-f]{2})" if letter == "F" else r">c ([01])")
        assert max(place) <= LARGEST
        assert int(answer, 16) == terms.get(place, 0)
        j, a, k = place
        assert int(answer, 16) == 0 or (j < P and k < K and a <= M)
        places.add(place)
    assert {(0, 0, K), (0, M, K), (P, 0, 0)} <= places
    assert 12 <= len(places) <= 33, len(places)
    seen["questions"] += len(places)
    (L,) = reading.numbers("<sender N")
    if not 1 <= L <= 32:
        reading.next(">refused 1")
        assert reading.is_over()
        return
    assert reading.numbers(">packet N history N block N") == (K * L, M * K * L, K * L + P * L)
    seen["L", L] += 1
    check_sends(reading, letter, (K, P, M, L), terms, seen)


def check_sends(reading, letter, sizes, terms, seen):
    K, P, M, L = sizes
    digits, times = (2, times_bytes) if letter == "F" else (8, times_words)
    history = output = None
    slot = 0
    while not reading.is_over():
        if reading.is_next("<history"):
            history = read_symbols(*reading.next("<history (-|[0-9a-f]+)"), digits)
            seen["M > 0" if M else "M = 0", "longer" if len(history) > M * K * L else "exact"] += 1
            seen["history of zeros" if not any(history[: M * K * L]) else "any history"] += M > 0
            continue
        if reading.is_next("<output"):
            output = read_symbols(*reading.next("<output (-|[0-9a-f]+)"), digits)
            seen["output longer" if len(output) > (K + P) * L else "output exact"] += 1
            continue
        if reading.is_next("<show"):
            reading.next("<show")
            assert read_symbols(*reading.next(">output (-|[0-9a-f]+)"), digits) == output
            assert read_symbols(*reading.next(">history (-|[0-9a-f]+)"), digits) == history
            continue
        slot_sent, packet = reading.next(r"<send (\d+) (-|[0-9a-f]+)")
        slot_sent, packet = int(slot_sent), read_symbols(packet, digits)
        assert slot_sent <= LARGEST
        faults = [1] if slot_sent >= 1 << 28 else []
        faults += [3] if len(history) < M * K * L else []
        faults += [4] if len(packet) != K * L else []
        faults += [5] if len(output) < (K + P) * L else []
        faults += [11] if slot_sent < slot else [12] if slot_sent > slot else []
        seen["sends"] += 1
        if faults:
            reading.next(">refused %d" % faults[0])
            seen["refused", faults[0]] += 1
            # A slot beyond the last is above the next one too, which counts as one fault.
            seen["several faults"] += len(faults) - (faults[0] == 1) > 1
            continue
        reading.next(">sent")
        block = packet + [0] * (P * L)
        for (j, a, k), c in terms.items():
            for i in range(L):
                symbol = packet[k * L + i] if a == 0 else history[((M - a) * K + k) * L + i]
                block[(K + j) * L + i] ^= times(c, symbol)
        output[: len(block)] = block
        if M > 0:
            history[: M * K * L] = history[K * L : M * K * L] + packet
        slot += 1
    assert slot == 0 if M >= 1 << 31 else 3 <= slot <= 8
    seen["more sends than M"] += slot > M > 0
    seen["fewer sends than M"] += slot < M


def check(text):
    """What the text has, by kind, all of its answers found to be right."""
    assert text.endswith("=\n") and "\n\n" not in text and text.isascii()
    cases = text.split("\n=\n")
    assert cases.pop() == ""
    seen = collections.Counter()
    for case in cases:
        check_case(case.split("\n"), seen)
    return seen
