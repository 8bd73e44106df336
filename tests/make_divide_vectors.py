"""Checks the model of division against published test lines and Python's decimal, then makes the stored input and expected output."""

import os
import re
import shlex
import sys
from decimal import (
    Context, Decimal, DivisionByZero, Inexact, InvalidOperation, Overflow, Underflow,
)

sys.dont_write_bytecode = True
from make_words_vectors import number_of, store, text_of  # noqa: E402
from reference_divide import MODES, NAN, answer_line, answers, divide  # noqa: E402
from reference_words import Number, decode, encode, show  # noqa: E402

USAGE = "usage: make_divide_vectors.py [--check] VECTORS_FOLDER OUT_STDIN OUT_STDOUT"

ROUNDINGS = ("half_even", "half_down", "half_up", "ceiling", "floor", "down", "up")
CONTEXTS = {
    mode: Context(prec=7, Emin=-95, Emax=96, clamp=1, rounding="ROUND_" + name.upper(), traps=[])
    for mode, name in zip(MODES, ROUNDINGS)
}
SIGNALS = {Inexact: 1, Underflow: 2, Overflow: 4, DivisionByZero: 8, InvalidOperation: 16}
CONDITIONS = {
    "inexact": 1, "underflow": 2, "overflow": 4, "division_by_zero": 8,
    "invalid_operation": 16, "division_undefined": 16,
    "rounded": 0, "subnormal": 0, "clamped": 0,
}

# Mode, dividend, divisor, quotient and flags.
EDGES = """
1 1 3 3333333E-7 1
1 1E2 2 5E1 0
1 1E90 1E-6 1000000E90 0
1 1E90 1E-7 Infinity 5
4 1E90 1E-7 Infinity 5
5 1E90 1E-7 9999999E90 5
6 1E90 1E-7 9999999E90 5
4 -1E90 1E-7 -9999999E90 5
5 -1E90 1E-7 -Infinity 5
1 9999999E-101 10 1000000E-101 3
6 9999999E-101 10 999999E-101 3
1 1E-101 2 0E-101 3
3 1E-101 2 1E-101 3
1 -1E-101 2 -0E-101 3
7 1E-101 9999999E90 1E-101 3
1 0E-101 1E90 0E-101 0
1 -0E90 1E-101 -0E90 0
1 5 -Infinity -0E-101 0
1 -5 0E3 -Infinity 8
1 -Infinity 0 -Infinity 0
1 0 0 NaN 16
1 Infinity Infinity NaN 16
1 -NaN123 sNaN4 NaN 16
1 -NaN123 1 NaN 0
"""


def words_of(*operands):
    """The words of operands such as 1.20 or sNaN7, or None if one has no exact word."""
    try:
        return tuple(encode(number_of(Decimal(operand))) for operand in operands)
    except (InvalidOperation, ValueError):
        return None


def word_answer(number, flags):
    """The answer for a quotient; every NaN becomes the same one."""
    return "%08X %d" % (encode(NAN if "nan" in number.kind else number), flags)


def model_answer(mode, pair):
    return word_answer(*divide(mode, *map(decode, pair)))


def decimal_answer(mode, pair):
    """The answer by Python's decimal."""
    context = CONTEXTS[mode]
    context.clear_flags()
    operands = [Decimal(re.sub("[()]", "", show(decode(word)))) for word in pair]
    quotient = number_of(context.divide(*operands))
    return word_answer(quotient, sum(SIGNALS[s] for s in SIGNALS if context.flags[s]))


def check_edges():
    """Compare the model with the edges; return the words in them."""
    pairs = []
    for line in EDGES.strip().splitlines():
        mode, *operands, quotient, flags = line.split()
        pairs.append(words_of(*operands))
        expected = word_answer(number_of(Decimal(quotient)), int(flags))
        got = model_answer(int(mode), pairs[-1])
        if got != expected:
            sys.exit("%s: expected %s, the model says %s" % (line, expected, got))
    return pairs


def comparable_modes(context, quotient, conditions):
    """The modes in which a published answer must be the answer for words."""
    precision = int(context["precision"])
    limits = (precision, context["maxexponent"], context["minexponent"])
    met_limits = conditions & {"overflow", "underflow", "subnormal", "clamped"}
    if not words_of(quotient) or met_limits and limits != (7, "96", "-95"):
        return []
    if precision >= 7 and not conditions & {"inexact", "rounded"}:
        return list(MODES)
    if precision == 7 and context["rounding"] in ROUNDINGS:
        return [ROUNDINGS.index(context["rounding"]) + 1]
    return []


def published_pairs(folder, name):
    """Check the published answers where they apply; return the words of all operands that fit."""
    with open(os.path.join(folder, name), encoding="ascii") as file:
        lines = [line.split("--")[0].strip() for line in file]
    context, pairs, seen, compared, at_seven = {}, [], 0, 0, 0
    for line in filter(None, lines):
        directive = re.fullmatch(r"(\w+)\s*:\s*(\S+)", line)
        if directive:
            context[directive[1].lower()] = directive[2].lower()
            continue
        fields = shlex.split(line)  # name divide Y X -> QUOTIENT conditions
        if len(fields) < 6 or fields[1] != "divide" or fields[4] != "->":
            sys.exit("cannot read the published line: " + line)
        seen += 1
        pair = words_of(fields[2], fields[3])
        if not pair:
            continue
        pairs.append(pair)
        conditions = {condition.lower() for condition in fields[6:]}
        flags = sum({CONDITIONS[condition] for condition in conditions})
        modes = comparable_modes(context, fields[5], conditions)
        for mode in modes:
            expected = word_answer(number_of(Decimal(fields[5])), flags)
            got = model_answer(mode, pair)
            if got != expected:
                sys.exit("%s: published %s, mode %d says %s" % (fields[0], expected, mode, got))
        compared += bool(modes)
        at_seven += bool(modes) and context["precision"] == "7" and context["rounding"] in ROUNDINGS
    print(
        "%s: %d of %d published lines used; %d published answers, %d of them at precision 7, agree"
        % (name, len(pairs), seen, compared, at_seven),
        file=sys.stderr,
    )
    if not pairs or not compared:
        sys.exit("found no published lines to use in " + name)
    return pairs


class Dice:
    """A linear congruential generator with a fixed seed."""

    state = 20190701

    def roll(self, low, high):
        """A whole number from low to high."""
        self.state = (self.state * 6364136223846793005 + 1442695040888963407) % 2**64
        return low + (self.state >> 32) % (high - low + 1)

    def coefficient(self, most=7):
        """A positive number of random length."""
        digits = self.roll(1, most)
        return self.roll(10 ** (digits - 1), 10**digits - 1)

    def word(self, coefficient, exponent):
        return encode(Number("+-"[self.roll(0, 1)], "finite", coefficient, exponent))

    def pair(self, y, x, difference):
        """The words of two coefficients; the exponents are that far apart."""
        exponent = self.roll(max(-101, difference - 101), min(90, difference + 90))
        return self.word(y, exponent), self.word(x, exponent - difference)

    def pair_near(self, y, x, size):
        """The same with a quotient of about 10^size."""
        return self.pair(y, x, size - len(str(y)) + len(str(x)))

    def around(self, y, x, difference):
        """A pair, and the dividend filled up to seven digits and one unit off."""
        yield self.pair(y, x, difference)
        zeros = 7 - len(str(y))
        for nudged in (y * 10**zeros - 1, y * 10**zeros + 1):
            if nudged < 10**7:
                yield self.pair(nudged, x, difference - zeros)


def random_pairs(dice):
    for n in range(7000):
        reach = (191, 110, 9)[n % 3]
        yield dice.pair(dice.coefficient(), dice.coefficient(), dice.roll(-reach, reach))


def golf_pairs(dice):
    """113 times a number with one decimal, divided by a slope."""
    for slope in range(55, 156):
        for most in [40, 400, 999] * 10:
            yield dice.word(113 * dice.roll(0, most), -1), encode(Number("+", "finite", slope, 0))


def end_pairs(dice):
    """Random quotients around both ends of the range."""
    for _ in range(1000):
        yield dice.pair_near(dice.coefficient(), dice.coefficient(), dice.roll(-104, -93))
        yield dice.pair_near(dice.coefficient(), dice.coefficient(), dice.roll(95, 98))


def redundant_pairs(dice):
    """Operands with redundant declets, in one or both of the operands."""
    for n in range(700):
        pair = []
        for redundant in (n % 3 != 0, n % 3 != 1):
            eights = "".join(str(dice.roll(8, 9)) for _ in range(6))
            word = dice.word(int(str(dice.roll(0, 9)) + eights), dice.roll(-50, 40))
            pair.append(word | redundant * (dice.roll(1, 3) << 8 | dice.roll(0, 3) << 18))
        yield tuple(pair)


def tie_pairs(dice):
    """Quotients of eight digits, the last one 5, and their neighbours."""
    for _ in range(200):
        fives = dice.roll(1, 11)
        low, high = -(-(10**7) // 5**fives), min(10**8 // 5**fives, 10**7 - 1)
        odd = 2 * dice.roll(low // 2, (high - 1) // 2) + 1
        factor = dice.roll(1, (10**7 - 1) // max(odd, 2**fives))
        yield from dice.around(odd * factor, 2**fives * factor, dice.roll(-85, 85))


def power_pairs(dice):
    """Quotients near powers of ten, on both sides."""
    for _ in range(100):
        x = dice.coefficient()
        y = min(max(x * 10 ** dice.roll(0, 7 - len(str(x))) + dice.roll(-2, 2), 1), 10**7 - 1)
        yield dice.pair_near(y, x, dice.roll(-90, 90))
    for zeros in range(1, 8):
        for y in (10**zeros - 1, 10 ** (zeros - 1), 10 ** (zeros - 1) + 1):
            x = 10 ** dice.roll(0, 6)
            yield dice.pair_near(y, x, dice.roll(-90, 90))
            yield dice.pair_near(x, y, dice.roll(-90, 90))


def subnormal_pairs(dice):
    """Ties of all lengths at the least exponent, their neighbours, and exact quotients."""
    for n in range(80):
        below = dice.coefficient(6) if n > 5 else n
        factor = dice.roll(1, (10**7 - 1) // (2 * below + 2))
        yield from dice.around((2 * below + 1) * factor, 2 * factor, -101)
        zeros = dice.roll(0, 6 - len(str(below)))
        factor = dice.roll(1, (10**7 - 1) // max(below * 10**zeros, 1))
        yield dice.pair(below * 10**zeros * factor, factor, -101 - zeros)


def edge_pairs(dice):
    """Edge coefficients, with quotients around the ends of the range."""
    edges = (1, 2, 1000000, 1000001, 1999999, 5000001, 9999998, 9999999)
    for size in (-185, -103, -102, -101, -96, -95, -94, 90, 96, 97, 98):
        for y in edges:
            for x in edges:
                yield dice.pair_near(y, x, size)


def exact_pairs(dice):
    """Exact quotients, with ideal exponents in the range and beyond both ends."""
    for n in range(300):
        x = (dice.coefficient(5), 2 ** dice.roll(0, 10) * 5 ** dice.roll(0, 3))[n % 2]
        y = x * dice.roll(1, (10**7 - 1) // x) if n % 4 == 0 else dice.coefficient(3) * x
        if n % 4 == 1 or y >= 10**7:
            y = dice.coefficient()
        reach = ((-115, -90), (80, 105), (-9, 9))[n % 3]
        yield dice.pair(y, x, dice.roll(*reach))


def zero_pairs(dice):
    """Zeros divided by numbers, and numbers by zeros."""
    ends = (-191, -190, -150, -102, -101, -100, -1, 0, 1, 89, 90, 91, 150, 190, 191)
    for difference in ends * 4:
        yield dice.pair(0, dice.coefficient(), difference)
    for difference in ends:
        yield dice.pair(dice.coefficient(), 0, difference)
        yield dice.pair(0, 0, difference)


def special_pairs():
    """All pairs of zeros, ones, infinities and NaNs, some of them not canonical."""
    words = [0x22500000, 0x00000000, 0x43F00000, 0x22500001, 0x77F3FCFF]
    words += [0x225003FF, 0x78000000, 0x7BFFFFFF, 0x7C000000, 0x7C0000A3]
    words += [0x7DFFFFFF, 0x7E000000, 0x7E0FF3FF, 0x7FFFFFFF]
    words += [word | 0x80000000 for word in words]
    return [(y, x) for y in words for x in words]


ONE_MODE = (random_pairs, golf_pairs, end_pairs, redundant_pairs)
ALL_MODES = (tie_pairs, power_pairs, subnormal_pairs, edge_pairs, exact_pairs, zero_pairs)

# Lines with what their answer must be; W stands for a word.
ODD_LINES = {
    "the mode is not one to nine digits": (
        b"", b" ", b"  ", b"\r", b"\0", b"\t1 W W", b" 1 W W", b"1", b"7\r", b"1\tW W", b"1W W",
        b"R", b"R 9", b"? line 1", b"0000000007 W W", b"1234567890 W W", b"-1 W W", b"+1 W W",
        b"1.0 W W", b"1,W,W", b"x W W", b"a W W", b"0x1 W W", b"\x001 W W", b"1\0 W W", b"\xb1 W W",
        b"1\xa0W W", b"\xd9\xa1 W W", b"\xef\xbc\x91 W W", b"\xef\xbb\xbf1 W W", b"1\r W W",
        b"7" * 33, b"7" * 5000, b"no mode " * 625, b"/ W W", b": W W", b"#1 W W", b"'1' W W",
    ),
    "the dividend is not eight hexadecimal digits followed by a blank": (
        b"1 ", b"1  ", b"8 ", b"1  W W", b"1 \tW W", b"1 W", b"1 W\tW", b"1 WW", b"1 W\r", b"1 W\0",
        b"1 W\xa0W", b"1 2250001 W", b"1 225000011 W", b"9 2250001 W", b"1 2250 001 W", b"22500001 W",
        b"1 2250000g W", b"1 2250000G W", b"1 2250000/ W", b"1 2250000: W", b"1 2250000@ W",
        b"1 2250000` W", b"1 0x225001 W", b"1 #W W", b"1 -2250001 W", b"1 +2250001 W", b"1 \0W W",
        b"1 2250000\xb1 W", b"1 2250000\xef\xbc\x91 W", b"1 1 1", b"1 R W", b"007 W",
        b"1 " + b"0" * 5000, b"1 " + b" " * 4998, b"1 W\rW", b"1 2250_001 W", b"1 2250.001 W",
    ),
    "the divisor is not eight hexadecimal digits at the end of the line": (
        b"1 W ", b"8 W ", b"1 W  W", b"1 W \tW", b"1 W W ", b"1 W W\t", b"1 W W\r", b"1 W W\0",
        b"1 W W W", b"1 W 2250000", b"1 W 225000011", b"9 W 2250000", b"1 W 2250000g", b"1 W WW",
        b"1 W 2250000G", b"1 W 2250000/", b"1 W 2250000:", b"1 W 2250000@", b"1 W 2250000`",
        b"1 W 0x225001", b"1 W -2250001", b"1 W W\xff", b"1 W W\x85", b"1 W W\xe2\x80\xa8W", b"1 W \0W",
        b"1 W 2250000\xb1", b"1 W 2250000\xef\xbc\x91", b"1 W \r", b"1 W R", b"000000007 W W ",
        b"000000007 W W     ", b"000000007 W W      ", b"000000007 W W       ", b"0 W W ",
        b"1 W " + b"0" * 5000, b"1 W W" + b" " * 4981, b"1 W W " * 250, b"1 W W\v", b"1 W W\f",
    ),
    "R 9": tuple(
        mode + b" W W"
        for mode in b"0 8 9 00 08 10 11 17 70 71 77 99 000 100 255 256 257 263 0000008 65537 65543 "
        b"16777217 16777223 000000000 000000008 000000010 100000007 700000000 999999999".split()
    ),
}


def odd_lines():
    """Malformed lines, wrong modes, modes with zeros in front, and a line changed everywhere."""
    for answer, lines in ODD_LINES.items():
        for line in (line.replace(b"W", b"2250000f") for line in lines):
            if answer_line(1, line) not in (answer, "? line 1: " + answer):
                sys.exit("the model answers %r with %s" % (line, answer_line(1, line)))
            yield line
    for mode in MODES:
        for zeros in (1, 2, 8):
            yield b"%s%d 22500001 2250000a" % (b"0" * zeros, mode)
    good = b"3 A2500001 2250000b"
    for i in range(len(good)):
        yield good[:i] + good[i + 1 :]
        yield from (good[:i] + char + good[i:] for char in (b" ", b"0"))
        yield from (good[:i] + bytes([byte]) + good[i + 1 :] for byte in b" \t\r\0\xff:g")


def make_input(given):
    """The lines: the given pairs in each mode, then more pairs, and odd lines among them."""
    dice = Dice()
    each_mode = given + special_pairs()
    for family in ALL_MODES:
        each_mode += family(dice)
    pairs = [pair for pair in each_mode for _ in MODES]
    for family in ONE_MODE:
        pairs += family(dice)
    lines = [
        b"%d %s %s" % (n % 7 + 1, text_of(n, y), text_of(n // 3, x))
        for n, (y, x) in enumerate(pairs)
    ]
    if len(lines) < 24000 + 7 * len(given):
        sys.exit("only %d good lines" % len(lines))
    odd = list(odd_lines())
    gap = len(lines) // len(odd)
    for i, line in enumerate(odd):
        lines.insert(i * (gap + 1), line)
    return lines


def check_with_decimal(lines, stdout):
    """Compare every good line with Python's decimal; the others must have no quotient."""
    checked, word = 0, b" ([0-9A-Fa-f]{8})"
    made = stdout.decode("ascii").splitlines()
    if len(made) != len(lines):
        sys.exit("%d lines, but %d answers" % (len(lines), len(made)))
    for line, answer in zip(lines, made):
        good = re.fullmatch(b"0{0,8}([1-7])" + word + word, line)
        if good:
            expected = decimal_answer(int(good[1]), (int(good[2], 16), int(good[3], 16)))
            checked += 1
        else:
            expected = answer if answer.startswith("? line ") else "R 9"
        if answer != expected:
            sys.exit("%r: expected %s, the model says %s" % (line, expected, answer))
    print("%d input lines, %d agree with decimal" % (len(lines), checked), file=sys.stderr)


def make(folder):
    """The input and the expected output, once the model has passed its checks."""
    pairs = published_pairs(folder, "divide.decTest") + published_pairs(folder, "ddDivide.decTest")
    lines = make_input(pairs + check_edges())
    stdin = b"\n".join(lines)
    stdout = answers(stdin)
    check_with_decimal(lines, stdout)
    return stdin, stdout


if __name__ == "__main__":
    sys.exit(store(sys.argv[1:], USAGE, make))
