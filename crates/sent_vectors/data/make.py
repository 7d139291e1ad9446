# Makes vectors.txt: link texts with what goes on air for them, computed here with no part of this repository.
# Usage: python3 make.py > vectors.txt
# A line of a case begins with < (the link's text) or > (what is to be printed); a case ends with a line of its own, "=".
import random
import struct

random.seed(2026)


def coefficient(burst, width, stretch, age, sub):
    """The plan's code, straight from its formulas: main diagonal, and delayed back diagonal, spread by the burst."""
    if age % burst:
        return 0
    age //= burst
    value = int(age == width - sub)
    if stretch > 1 and age >= width + 1:
        value += int(age - (width + 1) == (stretch - 1) * (sub + 1))
    return value


def frame(slot, sources, symbols, width, carried):
    """The words of the frame that carries these bytes, each with what it says: a kind in the top four bits, and behind it its fields."""
    words = [
        (1 << 28 | slot, "slot %d" % slot),
        (2 << 28 | sources << 24 | 1 << 20 | width << 16 | symbols, "shape K=%d P=1 width=%d L=%d" % (sources, width, symbols)),
    ]
    for start in range(0, len(carried), 3):
        piece = carried[start : start + 3]
        padded = int.from_bytes(piece.ljust(3, b"\0"), "big")
        words.append((3 << 28 | len(piece) << 24 | padded, "data %d bytes %s" % (len(piece), piece.hex())))
    words.append((4 << 28 | len(words), "count %d" % len(words)))
    return words


def case(burst, width, stretch, symbols, letter, slots):
    digits = 8 if letter == "W" else 2
    packed = ">%dI" if letter == "W" else ">%dB"
    text = lambda values: "".join("%0*x" % (digits, v) for v in values)
    packets = [[[random.randrange(16**digits) for _ in range(symbols)] for _ in range(width)] for _ in range(slots)]
    print("<%d %d %d %d %s" % (burst, width, stretch, symbols, letter))
    for packet in packets:
        print("<" + text(sum(packet, [])))
    short = width * burst
    long = short if stretch == 1 else stretch * short + burst
    name = "word" if letter == "W" else "byte"
    print(">plan B=%d m=%d alpha=%d L=%d %s arithmetic" % (burst, width, stretch, symbols, name))
    print(">T=%d D=%d K=%d P=1 M=%d" % (short, long, width, long))
    for slot in range(slots):
        parity = [0] * symbols
        for age in range(slot + 1):
            for sub in range(width):
                # A plan's coefficients are zero or one, and both arithmetics add by exclusive or.
                if coefficient(burst, width, stretch, age, sub) == 1:
                    for i in range(symbols):
                        parity[i] ^= packets[slot - age][sub][i]
        packet = sum(packets[slot], [])
        print(">slot %d packet %s parities %s" % (slot, text(packet), text(parity)))
        block = packet + parity
        words = frame(slot, width, symbols, digits // 2, struct.pack(packed % len(block), *block))
        for index, (word, said) in enumerate(words):
            print(">word %d %08x %s" % (index, word, said))
        print(">read back %d words: the same block" % len(words))
    print("=")


for letter in "WF":
    for width in range(1, 9):
        for stretch in (1, 2, 3, 8):
            burst = random.choice((1, 1, 2, 3, 5))
            case(burst, width, stretch, random.choice((1, 2, 3)), letter, random.randrange(8, 24))
    case(63, 2, 1, 1, letter, 140)
    case(9, 2, 3, 1, letter, 75)
