"""A plain, slow model of the season card: reads an order of calls, answers each of them, and tells the card at the end."""

import re
import sys
from fractions import Fraction
from math import ceil, floor

sys.dont_write_bytecode = True
from reference_divide import INEXACT, MODES, divide, finite, whole  # noqa: E402
from reference_words import answers as answer_lines, decode, encode  # noqa: E402

NEAREST = (1, 2, 3)  # the modes that count as near, the others as far
STEPS = range(5)  # one step is 10^-step
FULL = 10**4  # postings
TOO_LARGE = 10**7  # steps

# The layer of each refusal.
LAYERS = {8: 1, 9: 4, 10: 4, 13: 3, 14: 3, 15: 4, 16: 4}

# The parts of a golf round; the rating is in tenths.
GROSS, RATING, ADJUSTMENT, SLOPE = range(18, 400), range(300, 1000), range(-1, 4), range(55, 156)

# The calls by their names; a part before ... comes any number of times.
SHAPES = {
    b"mode": "mode N",
    b"divide": "divide WORD WORD",
    b"begin": "begin WORD WORD",
    b"round": "round K",
    b"post": "post K",
    b"strike": "strike K",
    b"pairs": "pairs MODE WORD/WORD ...",
    b"rounds": "rounds MODE GROSS,RATING,ADJUSTMENT,SLOPE ...",
    b"lower": "lower",
    b"clear": "clear",
}
OTHER = "mode, divide, begin, round, post, strike, pairs, rounds, lower or clear"
STEP = "step N"

# The parts in capitals; all others are numbers.
PARTS = {"WORD": "[0-9A-Fa-f]{8}", "ADJUSTMENT": "-?[0-9]{1,9}"}


def pattern(shape):
    """The lines of a shape."""
    shape = re.sub(r" (\S+) \.\.\.", r"(?: \1)*", shape)
    shape = re.sub("[A-Z]+", lambda part: PARTS.get(part[0], "[0-9]{1,9}"), shape)
    return re.compile(shape.encode("ascii"))


PATTERNS = {shape: pattern(shape) for shape in (STEP, *SHAPES.values())}


def expected(line):
    """What a line should be that is no call, or None if it is one."""
    shape = SHAPES.get(line.split(b" ")[0])
    if not shape:
        return OTHER
    return None if PATTERNS[shape].fullmatch(line) else shape


class Refused(Exception):
    """A refused call; it is made of the refusal's number."""

    def text(self, place=0):
        number = self.args[0]
        return "refused %d %d %d" % (number, LAYERS[number], place)


def mode_numbered(n):
    """The mode of a number."""
    if int(n) not in MODES:
        raise Refused(9)
    return int(n)


def value(number):
    """The exact value of a finite number."""
    magnitude = number.coefficient * Fraction(10) ** number.exponent
    return -magnitude if number.sign == "-" else magnitude


def rounded(mode, exact):
    """The whole number that a mode makes of an exact value."""
    if exact < 0:
        return -whole(mode, "-", -exact)
    return whole(mode, "+", exact)


def operands(y, x):
    """The numbers of two words, if a division of them can begin."""
    y, x = decode(int(y, 16)), decode(int(x, 16))
    if y.kind != "finite" or x.kind != "finite":
        raise Refused(13)
    if x.coefficient == 0:
        raise Refused(14)
    return y, x


def golf_round(gross, rating, adjustment, slope):
    """The dividend and the divisor of a golf round."""
    if gross not in GROSS or rating not in RATING or adjustment not in ADJUSTMENT or slope not in SLOPE:
        raise Refused(8)
    dividend = 113 * (10 * gross - rating - 10 * adjustment)
    return finite("-" if dividend < 0 else "+", abs(dividend), -1), finite("+", slope, 0)


class Card:
    """A season card, together with the exact sum of what is posted on it, in steps."""

    def __init__(self, step):
        if step not in STEPS:
            raise Refused(10)
        self.step, self.flags = step, 0
        self.clear()

    def clear(self):
        self.low = self.figure = self.high = 0
        self.posted = self.near = self.far = 0
        self.exact = Fraction(0)

    def post(self, mode, y, x):
        """Post the quotient y/x of two numbers; what it adds to low, figure and high."""
        if self.posted == FULL:
            raise Refused(15)
        exact = value(y) / value(x) * 10**self.step
        if abs(exact) >= TOO_LARGE:
            raise Refused(16)
        added = floor(exact), rounded(mode, exact), ceil(exact)
        self.low += added[0]
        self.figure += added[1]
        self.high += added[2]
        self.posted += 1
        if exact.denominator != 1:
            self.near += mode in NEAREST
            self.far += mode not in NEAREST
            self.flags |= INEXACT
        self.exact += exact
        self.check_law()
        return added

    def check_law(self):
        """What totals and counts say of the exact sum. Only posting and clearing change any of these."""
        assert self.low <= self.exact <= self.high
        assert self.high - self.low == self.near + self.far
        assert 2 * abs(self.figure - self.exact) <= self.near + 2 * self.far

    def text(self):
        totals, counts = (self.low, self.figure, self.high), (self.posted, self.near, self.far)
        return "card %d %d %d %d %d %d %d" % (*totals, *counts, self.flags)


class Replay:
    """What the lines so far have come to. A call takes the parts of its line as text."""

    def __init__(self):
        self.card, self.no_card = None, "? line 1: expected " + STEP
        self.mode = 1
        self.begun, self.drafts = 0, {}

    def answer_line(self, n, line_bytes):
        """The answer to line n (counted from one), given without its newline; None to the first line."""
        if n == 1:
            self.open(line_bytes)
        if n == 1 or not self.card:
            return None
        wanted = expected(line_bytes)
        if wanted:
            return "? line %d: expected %s" % (n, wanted)
        name, *parts = line_bytes.decode("ascii").split(" ")
        try:
            return getattr(self, "call_" + name)(*parts)
        except Refused as refused:
            return refused.text()

    def last_line(self):
        """The card, or why there is none."""
        if not self.card:
            return self.no_card
        self.card.check_law()
        return self.card.text()

    def open(self, line_bytes):
        """Open the card if the first line gives a step."""
        if PATTERNS[STEP].fullmatch(line_bytes):
            try:
                self.card = Card(int(line_bytes.split(b" ")[1]))
            except Refused as refused:
                self.no_card = refused.text()

    def call_mode(self, n):
        self.mode = mode_numbered(n)
        return "ok"

    def call_divide(self, y, x):
        return self.quotient(decode(int(y, 16)), decode(int(x, 16)))

    def call_begin(self, y, x):
        self.begun += 1
        self.drafts[self.begun] = operands(y, x)
        return "ok"

    def call_round(self, k):
        return self.finish(k, self.quotient)

    def call_post(self, k):
        return self.finish(k, self.posting)

    def call_strike(self, k):
        return self.finish(k, lambda y, x: "ok")

    def call_pairs(self, mode, *pairs):
        return self.run(mode, pairs, lambda pair: operands(*pair.split("/")))

    def call_rounds(self, mode, *rounds):
        return self.run(mode, rounds, lambda parts: golf_round(*map(int, parts.split(","))))

    def call_lower(self):
        self.card.flags = 0
        return "ok"

    def call_clear(self):
        self.card.clear()
        return "ok"

    def quotient(self, y, x):
        quotient, flags = divide(self.mode, y, x)
        self.card.flags |= flags
        return "ok %08X %d" % (encode(quotient), flags)

    def posting(self, y, x):
        self.card.post(self.mode, y, x)
        return "ok"

    def finish(self, k, how):
        """End a draft, refused or not."""
        draft = self.drafts.pop(int(k), None)
        return how(*draft) if draft else "no draft"

    def run(self, mode, records, division):
        """Post the division of every record until one is refused."""
        count = 0
        try:
            mode = mode_numbered(mode)
            for record in records:
                self.card.post(mode, *division(record))
                count += 1
        except Refused as refused:
            return "%s after %d" % (refused.text(place=count), count)
        return "ok %d" % count


def answers(input_bytes):
    """The answers to all lines, as bytes, each ended by a newline, and the last line."""
    replay = Replay()
    said = answer_lines(input_bytes, replay.answer_line)
    return said + replay.last_line().encode("ascii") + b"\n"


if __name__ == "__main__":
    sys.stdout.buffer.write(answers(sys.stdin.buffer.read()))
