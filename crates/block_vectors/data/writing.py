"""How a case is written down, and what its sender is sent. Every answer comes from codes.py."""

import collections

from codes import CAP, LAST_SLOT, Bytes, Refused, Sender, code_of
from questions import chance, questions

SMALL = 600  # symbols of memory up to which every send is shown

# What is wrong with a refused send, and the number of the check that it fails.
NUMBERS = {
    "outside": 1,
    "history": 3,
    "short packet": 4,
    "long packet": 4,
    "output": 5,
    "below": 11,
    "above": 12,
}

# They are used in turn, so that each comes up often.
FAULTS = collections.deque(
    faults.split(", ")
    for faults in [
        "below",
        "history",
        "above",
        "output",
        "short packet",
        "below",
        "above",
        "outside",
        "long packet",
        "history, long packet",
        "below, output",
        "outside, short packet",
        "below",
        "above",
        "short packet, output",
        "above, output",
        "history, below",
        "long packet, above",
        "outside, history",
        "below",
        "above",
        "output, history",
        "short packet, below",
        "outside, output",
        "above, history",
        "short packet, history, output, above",
    ]
)


def symbols(arithmetic, count):
    if arithmetic is Bytes:
        return chance.choices(range(256), k=count)
    odd = [0, 1, 0x80000000, 0xFFFFFFFF, 0x000000FF, 0xFF000000]
    return [
        chance.choice(odd) if chance.randrange(8) == 0 else chance.randrange(2**32)
        for _ in range(count)
    ]


def some_packet(arithmetic, size):
    kind = chance.randrange(10)
    packet = [0] * size if kind <= 1 else symbols(arithmetic, size)
    if kind == 1:
        # One symbol alone shows where it ends up.
        packet[chance.randrange(size)] = symbols(arithmetic, 1)[0] | 1
    return packet


def behind(arithmetic):
    """What lies behind the needed part of a memory: often something."""
    return symbols(arithmetic, chance.choice([0, 0, 0, 1, 2, 5]))


def words_and_numbers(recipe):
    """Both in prefix order, as text."""
    words, numbers = [recipe[0]], []
    for part in recipe[1:]:
        if isinstance(part, tuple):
            more_words, more_numbers = words_and_numbers(part)
            words += more_words
            numbers += more_numbers
        else:
            numbers.append(part.hex() or "-" if isinstance(part, bytes) else str(part))
    return words, numbers


def head(arithmetic, recipe):
    words, numbers = words_and_numbers(recipe)
    return "<code %s %s %s" % (arithmetic.letter, "-".join(words), " ".join(numbers))


def text_of(arithmetic, symbols):
    digits = {"F": 2, "W": 8}[arithmetic.letter]
    return "".join("%0*x" % (digits, symbol) for symbol in symbols) or "-"


class Case:
    """The lines of a case, and the memories that are lent to its sender."""

    def __init__(self, arithmetic, recipe):
        self.arithmetic = arithmetic
        self.lines = [head(arithmetic, recipe)]
        self.code = code_of(recipe)
        self.say(">K=%d P=%d M=%d" % (self.code.K, self.code.P, self.code.M))
        for place in questions(recipe):
            self.say("<c %d %d %d" % place)
            answer = "%02x" if arithmetic is Bytes else "%d"
            self.say(">c " + answer % self.code.c(*place))

    def say(self, line):
        self.lines.append(line)

    def say_symbols(self, start, symbols):
        self.say(start + text_of(self.arithmetic, symbols))

    def make(self, L):
        self.say("<sender %d" % L)
        self.sender = Sender(self.arithmetic, self.code, L)
        sizes = (self.sender.packet_size, self.sender.history_size, self.sender.block_size)
        self.say(">packet %d history %d block %d" % sizes)

    def lend_history(self, history):
        self.history = history
        self.say_symbols("<history ", history)

    def lend_output(self, output):
        self.output = output
        self.say_symbols("<output ", output)

    def lend_any_output(self):
        needed = symbols(self.arithmetic, self.sender.block_size)
        self.lend_output(needed + behind(self.arithmetic))

    def start_on(self, needed):
        """Lends a history with this content."""
        self.sender.start_on(needed)
        self.lend_history(needed + behind(self.arithmetic))

    def any_history(self):
        return symbols(self.arithmetic, self.sender.history_size)

    def show(self):
        self.say("<show")
        self.say_symbols(">output ", self.output)
        self.say_symbols(">history ", self.history)

    def send(self, slot, packet):
        self.say_symbols("<send %d " % slot, packet)
        try:
            sent = self.sender.send(slot, packet, self.history, self.output)
        except Refused as refused:
            self.say(">refused %d" % refused.number)
            return refused.number
        self.history, self.output = sent
        self.say(">sent")
        return None

    def is_small(self):
        return self.sender.history_size + self.sender.block_size < SMALL

    def can_have(self, faults):
        if "history" in faults and not (self.sender.history_size > 0 and self.is_small()):
            return False
        return "below" not in faults or self.sender.slot > 0

    def send_refused(self, faults):
        whole_history, whole_output = self.history, self.output
        slot = self.sender.slot
        packet = symbols(self.arithmetic, self.sender.packet_size)
        for fault in faults:
            short = chance.randrange(5) > 0
            match fault:
                case "history":
                    self.lend_history(self.history[: self.sender.history_size - 1 if short else 0])
                case "output":
                    self.lend_output(self.output[: self.sender.block_size - 1 if short else 0])
                case "short packet":
                    packet.pop()
                case "long packet":
                    packet += symbols(self.arithmetic, 1)
                case "below":
                    slot = chance.choice([0, slot - 1])
                case "above":
                    later = slot + chance.randrange(2, 300)
                    slot = chance.choice([slot + 1, slot + 1, later, LAST_SLOT])
                case "outside":
                    slot = chance.choice([LAST_SLOT + 1, CAP, chance.randrange(LAST_SLOT + 1, CAP)])
        number = self.send(slot, packet)
        # Checks run in rising order, so the smallest number is the one that is answered.
        assert number == min(NUMBERS[fault] for fault in faults)
        if self.is_small():
            self.show()
        if "history" in faults:
            self.lend_history(whole_history)
        if "output" in faults:
            self.lend_output(whole_output)


def case(arithmetic, recipe, L, packets=None):
    """A sender sends, either these packets on a history of zeros or any on any."""
    one = Case(arithmetic, recipe)
    one.make(L)
    M, packet_size = one.code.M, one.sender.packet_size
    if packets is None:
        # 3 to 8 sends: if it can be, often more than M, so that packets are dropped.
        sends = M + chance.randrange(1, 4) if chance.randrange(3) else chance.randrange(3, 9)
        sends = min(max(sends, 3), 8)
        # A history of zeros that is longer than the case says little.
        zeros = chance.randrange(2 if M <= sends else 4) == 0
        packets = [some_packet(arithmetic, packet_size) for _ in range(sends)]
        # A history is lent for one call, and the next may be lent another.
        changes = one.is_small() and chance.randrange(6) == 0
        change = chance.randrange(1, sends) if changes else None
    else:
        sends, zeros, change = len(packets), True, None
    one.start_on([0] * one.sender.history_size if zeros else one.any_history())
    one.lend_any_output()
    failures = [chance.randrange(sends + 1) for _ in range(chance.choice([0, 1, 2, 2, 3]))]
    for slot in range(sends + 1):
        for _ in range(failures.count(slot)):
            faults = next(faults for faults in FAULTS if one.can_have(faults))
            FAULTS.remove(faults)
            FAULTS.append(faults)
            one.send_refused(faults)
        if slot == change:
            one.start_on(one.any_history())
        if slot < sends:
            one.send(slot, packets[slot])
            if one.is_small() or slot >= sends - 2:
                one.show()
    return one.lines


def capped(arithmetic, recipe, L):
    """A code whose memory no machine holds: the sizes are answered, and no send is carried out."""
    one = Case(arithmetic, recipe)
    one.make(L)
    assert one.sender.history_size >= 2**31
    one.lend_history(symbols(arithmetic, chance.randrange(0, 9)))
    one.lend_any_output()
    packet = symbols(arithmetic, one.sender.packet_size)
    others = [
        (LAST_SLOT + 1, packet),
        (CAP, packet),
        (0, packet + packet[:1]),
        (1, packet),
        (LAST_SLOT, packet[1:]),
    ]
    for slot, packet in [(0, packet), chance.choice(others)]:
        one.send(slot, packet)
        one.show()
    return one.lines


def refused_sender(arithmetic, recipe, L):
    one = Case(arithmetic, recipe)
    try:
        one.make(L)
    except Refused as refused:
        return one.lines + [">refused %d" % refused.number]
    raise AssertionError("a sender was to be refused")


def refused_code(arithmetic, recipe):
    try:
        code_of(recipe)
    except Refused as refused:
        return [head(arithmetic, recipe), ">refused %d" % refused.number]
    raise AssertionError("a code was to be refused")
