"""A plain, slow model of dividing 32-bit decimal words: reads lines of a mode and two words, answers the quotient and flags."""

import re
import sys
from bisect import bisect_right
from fractions import Fraction

sys.dont_write_bytecode = True
from reference_words import Number, answers as answer_lines, decode, encode  # noqa: E402

# The modes: 1 nearest, ties to even; 2 nearest, ties toward zero; 3 nearest,
# ties away from zero; 4 ceiling; 5 floor; 6 toward zero; 7 away from zero.
MODES = range(1, 8)

INEXACT, UNDERFLOW, OVERFLOW, DIVISION_BY_ZERO, INVALID = 1, 2, 4, 8, 16

LEAST, GREATEST = -101, 90  # the exponents of a word
LIMIT = 10**7  # every coefficient is below this
NAN = Number("+", "nan", 0, 0)

# 10^(e+7) for every e from the least exponent to one that no quotient exceeds.
BOUNDS = [Fraction(10) ** (e + 7) for e in range(LEAST, 200)]


def infinity(sign):
    return Number(sign, "inf", 0, 0)


def finite(sign, coefficient, exponent):
    return Number(sign, "finite", coefficient, exponent)


def whole(mode, sign, exact):
    """The whole number to which a mode rounds a positive fraction under a sign."""
    below = exact.numerator // exact.denominator
    rest, half = exact - below, Fraction(1, 2)
    up = {
        1: rest > half or rest == half and below % 2 == 1,
        2: rest > half,
        3: rest >= half,
        4: rest > 0 and sign == "+",
        5: rest > 0 and sign == "-",
        6: False,
        7: rest > 0,
    }
    return below + 1 if up[mode] else below


def too_great(mode, sign):
    """What a mode makes of a quotient above all words."""
    if mode == 6 or (mode, sign) in ((4, "-"), (5, "+")):
        return finite(sign, LIMIT - 1, GREATEST)
    return infinity(sign)


def divide_nonzero(mode, sign, exact, ideal):
    """Round the positive fraction; an exact answer comes near the ideal exponent."""
    e = LEAST + bisect_right(BOUNDS, exact)  # the least with exact < 10^(e+7)
    if e > GREATEST:
        return too_great(mode, sign), OVERFLOW + INEXACT
    scaled = exact / Fraction(10) ** e
    c = whole(mode, sign, scaled)
    if c >= LIMIT:
        raise ValueError("rounded to eight digits: %s" % exact)
    if c == scaled:
        fits = [k for k in range(e, GREATEST + 1) if c % 10 ** (k - e) == 0]
        nearest = min(fits, key=lambda k: abs(k - ideal))
        return finite(sign, c // 10 ** (nearest - e), nearest), 0
    tiny = exact < Fraction(10) ** -95
    return finite(sign, c, e), INEXACT + UNDERFLOW if tiny else INEXACT


def divide(mode, y, x):
    """The quotient y/x of two numbers in a mode: a number and the sum of the flags."""
    kinds = (y.kind, x.kind)
    if "snan" in kinds:
        return NAN, INVALID
    if "nan" in kinds:
        return NAN, 0
    sign = "+" if y.sign == x.sign else "-"
    if kinds == ("inf", "inf"):
        return NAN, INVALID
    if y.kind == "inf":
        return infinity(sign), 0
    if x.kind == "inf":
        return finite(sign, 0, LEAST), 0
    if x.coefficient == 0:
        return (NAN, INVALID) if y.coefficient == 0 else (infinity(sign), DIVISION_BY_ZERO)
    ideal = y.exponent - x.exponent
    if y.coefficient == 0:
        return finite(sign, 0, min(max(ideal, LEAST), GREATEST)), 0
    exact = Fraction(y.coefficient, x.coefficient) * Fraction(10) ** ideal
    return divide_nonzero(mode, sign, exact, ideal)


def answer_line(n, line_bytes):
    """The answer to line n (counted from one), given without its newline."""
    mode = re.match(b"[0-9]{1,9} ", line_bytes)
    if not mode:
        return "? line %d: the mode is not one to nine digits" % n
    rest = line_bytes[mode.end() :]
    if not re.match(b"[0-9A-Fa-f]{8} ", rest):
        return "? line %d: the dividend is not eight hexadecimal digits followed by a blank" % n
    if not re.fullmatch(b"[0-9A-Fa-f]{8}", rest[9:]):
        return "? line %d: the divisor is not eight hexadecimal digits at the end of the line" % n
    if int(mode[0]) not in MODES:
        return "R 9"
    quotient, flags = divide(int(mode[0]), decode(int(rest[:8], 16)), decode(int(rest[9:], 16)))
    return "%08X %d" % (encode(quotient), flags)


def answers(input_bytes):
    """The answers to all lines, as bytes, each ended by a newline."""
    return answer_lines(input_bytes, answer_line)


if __name__ == "__main__":
    sys.stdout.buffer.write(answers(sys.stdin.buffer.read()))
