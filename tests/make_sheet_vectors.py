"""Makes sheets from a seed, and the stored sheets with their expected answers."""

import os
import re
import sys
from collections import Counter
from itertools import islice, product

sys.dont_write_bytecode = True
from make_divide_vectors import (  # noqa: E402
    edge_pairs, end_pairs, exact_pairs, subnormal_pairs, tie_pairs, zero_pairs,
)
from make_replay_vectors import Order, compare  # noqa: E402
from make_words_vectors import keep  # noqa: E402
from reference_divide import MODES  # noqa: E402
from reference_sheet import (  # noqa: E402
    FIELDS, LENGTH, LONGEST, SPACE, STEP, USED, WIDTH, answers, refusal,
)
from reference_words import decode  # noqa: E402

USAGE = "usage: make_sheet_vectors.py sheet SEED, or --check|--write FOLDER"

LINES = SPACE // (WIDTH + 1)  # that are answered
WIDTHS = [last - first + 1 for first, last in FIELDS]
STARTS = [first for first, _ in FIELDS]
EACH_MODE = LINES // len(MODES) - 1  # lines behind each mode of a full sheet

# What the stored sheets must come to, at least and at most.
FEWEST_ANSWERS, MOST_BYTES = 22000, 3000000
KINDS = "K T Q I N R1 R2 R3 R4 R5 R6 R7 R9 R14 R16".split()

# A sheet, line by line, with its answers; the blanks behind these are left out.
WORKED = """
P        1    0        3    0 -> T             3             3             4     1     1
D        1    0        0    0 -> I        1         8
P        1    0        0    0 -> R  14    3   16    3
P       -1    0        4    0 -> T             0             1             2     2     2
P        2    0        1    0 -> T            20            21            22     3     2
T                             -> T            20            21            22     3     2
D        1    0        3    0 -> Q  3333333   -7    1
D        2    0        3    0 -> Q  6666667   -7    1
D        1    2        2    0 -> Q        5    1    0
D        1    0        8    0 -> Q      125   -3    0
D      100   -2       10    0 -> Q       10   -2    0
D       -6    0        3    0 -> Q       -2    0    0
D000000001-0000 0000000100000 -> Q        1    0    0
D        1   90        1   -6 -> Q  1000000   90    0
D        1   90        1   -7 -> I        1         5
D       -1   90        1   -7 -> I       -1         5
M        5                    -> K
D        1   90        1   -7 -> Q  9999999   90    5
D       -1   90        1   -7 -> I       -1         5
M        4                    -> K
D        1   90        1   -7 -> I        1         5
D       -1   90        1   -7 -> Q -9999999   90    5
M        8                    -> R   9   23    2    4
M        0                    -> R   9   24    2    4
M       -0                    -> R   9   25    2    4
M       -1                    -> R   9   26    2    4
M999999999                    -> R   9   27    2    4
M 10000001                    -> R   9   28    2    4
D        1    0        3    0 -> Q  3333334   -7    1
P        1    0        3    0 -> T            23            25            26     4     3
M000000006                    -> K
P       -7    0        8    0 -> T            14            17            18     5     4
M        7                    -> K
P        1 -101  9999999   90 -> T            14            18            19     6     5
P       -1 -101  9999999   90 -> T            13            17            19     7     6
P  1000000    0        1    0 -> R  16   36    1    4
P  9999999   -1        1    0 -> T      10000012      10000016      10000018     8     6
P       -1    6        1    0 -> R  16   38    1    4
P        1   90       -1 -101 -> R  16   39    1    4
P       -0    0        5    0 -> T      10000012      10000016      10000018     9     6
P        5    0       -0    0 -> R  14   41   16    3
P        0    0        0   90 -> R  14   42   16    3
C                             -> K
T                             -> T             0             0             0     0     0
M        1                    -> K
P        5   -2        1    0 -> T             0             0             1     1     1
P       15   -2        1    0 -> T             1             2             3     2     2
P      -25   -2        1    0 -> T            -2             0             1     3     3
M        2                    -> K
P       15   -2        1    0 -> T            -1             1             3     4     4
M        3                    -> K
P       -5    0      100    0 -> T            -2             0             3     5     5
D  9999999 -101       10    0 -> Q  1000000 -101    3
D        1 -101        2    0 -> Q        1 -101    3
M        1                    -> K
D        1 -101        2    0 -> Q        0 -101    3
D       -1 -101        2    0 -> Q       -0 -101    3
D        1 -101        1    0 -> Q        1 -101    0
D       -0    0        7    0 -> Q       -0    0    0
D        0    0       -7    0 -> Q       -0    0    0
D       -0    0       -7    0 -> Q        0    0    0
D       -0   90        1 -101 -> Q       -0   90    0
D        0 -101        1   90 -> Q        0 -101    0
D        0    0        0    0 -> N                 16
D       -0    0       -0    0 -> N                 16
D       -5    0        0    3 -> I       -1         8
D        5    0       -0    0 -> I       -1         8
D       -5    0       -0    0 -> I        1         8
F                             -> K
D 10000000    0        1    0 -> R   6   70    2    1
P        1    0-10000000    0 -> R   6   71   16    1
P9999999999999999999999999999 -> R   6   72    2    1
D        1   91 10000000    0 -> R   6   73   16    1
D        1   91        1 -102 -> R   7   74   11    1
D        1 -101        1   91 -> R   7   75   25    1
P        1    0        0 -102 -> R   7   76   25    1
P        1   90        0-9999 -> R   7   77   25    1
D 10000000   91        1   +5 -> R   5   78   25    5
D 10000000  1.0        1      -> R   5   79   11    5
P       5    5       --5  1 2 -> R   5   80    2    5
P        1    0      - 5   91 -> R   5   81   16    5
P        1    0        -   91 -> R   5   82   16    5
D                             -> R   5   83    2    5
M                             -> R   5   84    2    5
M       +1                    -> R   5   85    2    5
M        8    0               -> R   5   86   11    5
M        1                  1 -> R   5   87   11    5
M        x    x               -> R   5   88    2    5
T        1                    -> R   5   89    2    5
C                           C -> R   5   90    2    5
F-                            -> R   5   91    2    5
d        1    0        1    0 -> R   4   92    1    5
R        x                    -> R   4   93    1    5
                              -> R   4   94    1    5
 T                            -> R   4   95    1    5
 -> R   3   96    1    5
T -> R   3   97    1    5
P        1    0        3     -> R   3   98    1    5
P        1    0        3    0  -> R   3   99    1    5
x -> R   3  100    1    5
                               -> R   3  101    1    5
T                             -> T            -2             0             3     5     5
"""

# The first lines of the same, alone.
SAMPLE = 3

# What is no number in any field; a shorter one comes behind blanks.
NO_NUMBERS = (
    "", "-", "- ", "--", "+5", "+0", "- 5", "-  5", "5 ", "5  ", "-5 ", "1 2", "1  2", "-1 2", "--5", "-+5",
    "+-5", "5-", "5-2", "-5-", "1.0", ".5", "5.", "1,0", "1_0", "1/2", "5E0", "1e2", "0x1", "#1", "'5", "O",
    "l", "x", "A", "/", ":", "5/", ":5", "\t", "\t5", "5\t", "-\t5", "\0", "\x005", "5\0", "\r", "5\r", "\r5",
    "\x0b5", "\x0c5", "\x1f5", "!5", "\x7f", "\x805", "5\x80", "\xa05", "5\xa0", "\xb2", "\xb5", "\xff5",
    "5\xff", "\xef\xbc\x95", "\xd9\xa5", "\xe2\x88\x925", "5\x85", "inf", "NaN",
)

# Of each kind, in a coefficient and in an exponent.
GOOD = ("1", "-9999999", "009999999", "-00000001"), ("0", "-101", "00090", "-0101")
BEYOND = (
    ("10000000", "-10000000", "999999999", "-99999999", "010000000", "16777217"),
    ("91", "-102", "99999", "-9999", "00091", "-0102", "256", "155", "-257", "-1000"),
)
ZEROS = "0", "-0", "000000000", "-00000000"

NO_MODES = "0 -0 8 9 10 -1 -7 17 71 257 65537 10000000 10000001 16777217 999999999 -99999999 000000008".split()

NO_END = bytes(byte for byte in range(256) if byte != 10)
CHANGES = b" 0159-" * 4 + b"+.MDPTCFmdpt\t\r\0\x7f\x80\xb1\xff"


def entry(letter, *texts):
    """The line of a letter and of the texts in its fields, from the left."""
    fields = [str(text).rjust(width) for text, width in zip(texts, WIDTHS)]
    return "".join([letter] + fields).ljust(LENGTH).encode("latin-1")


def worked():
    """The worked lines and their answers."""
    rows = [row.partition(" -> ") for row in WORKED.strip("\n").splitlines()]
    return [line.encode("ascii") for line, _, _ in rows], [answer.ljust(WIDTH) for _, _, answer in rows]


def refused(line, number, column):
    """The line, once the model has refused it so."""
    told = refusal(1, number, column).ljust(WIDTH) + "\n"
    compare(line, told.encode("ascii"), answers(line + b"\n"))
    return line


def cut(lines, end=b"\n"):
    """A sheet of the first lines that fit; one is passed over if full lines might not fit behind it."""
    taken, spare = [], LONGEST - LINES * (LENGTH + 1)
    for line in lines:
        if spare + LENGTH >= len(line):
            taken.append(line + end)
            spare += LENGTH - len(line)
        if len(taken) == LINES:
            break
    return b"".join(taken)


def in_every_mode(entries, modes=MODES):
    for mode in modes:
        yield entry("M", mode)
        yield from entries


class Entries(Order):
    """Rolls entry lines."""

    def __init__(self, seed):
        super().__init__(seed, STEP)

    def text(self, minus, n, width):
        """The digits of a number, some with zeros in front."""
        digits = "%d" % n
        if self.once_in(8):
            digits = digits.rjust(self.roll(len(digits), width - minus), "0")
        return "-" * minus + digits

    def fields(self, word):
        """The fields of a word's number, or None if it is not finite."""
        sign, kind, coefficient, exponent = decode(word)
        minus = exponent < 0 or exponent == 0 and self.once_in(16)
        texts = self.text(sign == "-", coefficient, WIDTHS[0]), self.text(minus, abs(exponent), WIDTHS[1])
        return texts if kind == "finite" else None

    def pair_entry(self, letter, pair):
        y, x = map(self.fields, pair)
        return entry(letter, *y, *x) if y and x else None

    def some_entry(self, letter, kinds):
        """A line of two finite numbers."""
        line = None
        while not line:
            line = self.pair_entry(letter, self.some_pair(kinds))
        return line

    def entries(self, letter, pairs):
        """The lines of all pairs of finite numbers."""
        return list(filter(None, (self.pair_entry(letter, pair) for pair in pairs)))

    def M_line(self):
        if self.once_in(6):
            return entry("M", self.pick(NO_MODES))
        return entry("M", self.text(False, self.pick(MODES), WIDTHS[0]))

    def D_line(self):
        return self.some_entry("D", ("any", "good", "random", "edge", "edge"))

    def P_line(self):
        return self.some_entry("P", ("good",) * 9 + ("bad",))

    def T_line(self):
        return entry("T")

    def C_line(self):
        return entry("C")

    def F_line(self):
        return entry("F")

    def valid_line(self):
        """A line that is read; C is rare, so that totals grow."""
        letter = self.pick("MMMMDDDDDDDDDDDDDPPPPPPPPPPPPPPPPTTF")
        return getattr(self, ("C" if self.once_in(150) else letter) + "_line")()

    def beyond_line(self):
        """One number or more beyond its limits."""
        texts = [self.pick((BEYOND if self.once_in(5) else GOOD)[i % 2]) for i in range(4)]
        i = self.roll(0, 3)
        texts[i] = self.pick(BEYOND[i % 2])
        return entry(self.pick("DP"), *texts)

    def faulty_line(self):
        """A field that is no number, something in an unused part, another letter or another length."""
        line = self.valid_line()
        i, width = self.pick(list(zip(STARTS, WIDTHS)))
        text = self.pick(NO_NUMBERS).rjust(width).encode("latin-1")[-width:]
        bad = line[: i - 1] + text + line[i - 1 + width :]
        letter = bytes([self.pick(b" mdptcfABKQRN0\0\xcd")])
        short = line[: self.roll(0, LENGTH - 1)]
        return self.pick((bad, bad, letter + line[1:], short, line + self.pick((b" ", b"0", b"\r"))))

    def mutated_line(self):
        """A line that is read, changed in one place or more, mostly where it is not blank."""
        line = self.valid_line()
        for _ in range(self.pick((1, 1, 1, 2, 3))):
            places = range(len(line)) if self.once_in(3) else [i for i in range(len(line)) if line[i] != 32]
            i, j, change = self.pick(places or [0]), self.roll(0, LENGTH - 1), self.byte(CHANGES)
            shorter, longer = line[:i] + line[i + 1 :], line[:i] + change + line[i:]
            replaced, shifted = line[:i] + change + line[i + 1 :], shorter[:j] + change + shorter[j:]
            line = self.pick((replaced,) * 8 + (shifted,) * 2 + (longer, shorter))
        return line

    def any_line(self):
        kind = self.pick(("valid",) * 16 + ("beyond", "faulty", "mutated", "mutated"))
        return getattr(self, kind + "_line")()

    def endless(self, kind):
        while True:
            yield getattr(self, kind + "_line")()

    def byte(self, choices):
        return bytes([self.pick(choices)])


def random_sheet(seed):
    return cut(Entries(seed).endless("any"))


def letter_lines():
    """Every letter, before blanks, before numbers and before what is no number."""
    for byte in NO_END:
        letter = bytes([byte])
        for line in entry("T"), entry("D", 1, 0, 3, 0), entry("P", "x", 91, 10000000, ""):
            changed = letter + line[1:]
            yield changed if letter in USED else refused(changed, 4, 1)


def byte_lines():
    """Every byte in the first column of a field, in the last one, and between a blank and a digit."""
    for byte in NO_END:
        for column, start, good in (2, 2, b" -0123456789"), (24, 16, b"0123456789"), (14, 11, b" -0123456789"):
            line = entry("D", 123 if column > 2 else "00000123", 12, 123, 12)
            changed = line[: column - 1] + bytes([byte]) + line[column:]
            yield changed if byte in good else refused(changed, 5, start)


def length_lines():
    """Lines of all lengths up to sixty, with known and unknown letters."""
    line = entry("D", 1, 0, 3, 0)
    texts = [line + line + line, b"d" + line + line, line + b" " * 60, line[:14] + b"\r" + line + line]
    texts += [letter + rest * 60 for letter, rest in zip((b"T", b"M", b"D", b"P"), (b" ", b"1", b"x", b"\t"))]
    texts += [byte * 60 for byte in (b" ", b"T", b"\0", b"\xff")]
    for length in range(61):
        for text in texts:
            yield text[:length] if length == LENGTH else refused(text[:length], 3, 1)


def field_lines():
    """What is no number, in every field."""
    good = ["7", "-7", "7", "-7"]
    for i, width in enumerate(WIDTHS):
        for text in NO_NUMBERS + ("5".ljust(width), "-5".ljust(width), "-".ljust(width), "-" * width):
            texts = good[:i] + [text] + good[i + 1 :]
            if len(text) <= width:
                yield from (refused(entry(letter, *texts), 5, STARTS[i]) for letter in "DP")
            if i == 0:
                yield refused(entry("M", text), 5, 2)


def meeting(order, kinds):
    """The texts of four fields of such kinds, and the refusal that they must have, if any."""
    texts = []
    for i, kind in enumerate(kinds):
        good, beyond = GOOD[i % 2], BEYOND[i % 2]
        bad = [text for text in NO_NUMBERS if len(text) <= WIDTHS[i]]
        texts.append(order.pick({"good": good, "bad": bad, "beyond": beyond, "zero": ZEROS}[kind]))
    for number, kind, fields in (5, "bad", (0, 1, 2, 3)), (6, "beyond", (0, 2)), (7, "beyond", (1, 3)):
        for i in fields:
            if kinds[i] == kind:
                return texts, (number, STARTS[i])
    return texts, None


def meeting_lines(order):
    """Every fault of every field together with those of the others, with the length and with the letter."""
    kinds = ("good", "bad", "beyond")
    for chosen in product(kinds, kinds, kinds + ("zero",), kinds):
        for letter in "DDPP":
            texts, fault = meeting(order, chosen)
            line = entry(letter, *texts)
            if fault:
                refused(line, *fault)
            elif letter == "P" and "zero" in chosen:
                refused(line, 14, 16)
            yield line
        texts, _ = meeting(order, chosen)
        line = entry("P", *texts)
        yield refused(entry(order.pick("pdmX "), *texts), 4, 1)
        yield refused(order.pick((line[:-1], line + b" ", line + b"\r")), 3, 1)
        yield refused(order.pick((b"x" + line, line[1:], b"p" + line[1:-1], b" " + line)), 3, 1)


def unused_lines():
    """Something in an unused part, at each of its columns; then numbers that are no modes."""
    for line, first in (entry("M", 3), 11), (entry("T"), 2), (entry("C"), 2), (entry("F"), 2):
        for column in range(first, LENGTH + 1):
            for byte in b"0-\t\0\r\xa0T":
                yield refused(line[: column - 1] + bytes([byte]) + line[column:], 5, first)
    for text in NO_MODES:
        yield refused(entry("M", text), 9, 2)
        yield refused(entry("M", text, 7), 5, 11)
        yield refused(entry("M", "x", text), 5, 2)
    for text in "000000001", "7", "007", "2":
        yield from (entry("M", text), entry("D", 2, 0, 3, 0))


def carriage_return_lines(order):
    """Lines that end in a carriage return: full ones before it, those in which it is the last character, and others."""
    while True:
        line = order.valid_line()
        column = {b"M": 11, b"D": 25, b"P": 25}.get(line[:1], 2)
        yield refused(line[:-1] + b"\r", 5, column)
        yield refused(line + b"\r", 3, 1)
        yield order.pick((line, line, b"", b"\r", b"T\r"))


def extreme_pairs():
    """The largest and smallest numbers by each other, and zeros of both signs."""
    ends = list(product(("1", "-1", "9999999", "-9999999", "0", "-0"), ("-101", "90")))
    return [(*y, *x) for y in ends for x in ends]


def extreme_lines(letter, modes):
    return in_every_mode([entry(letter, *texts) for texts in extreme_pairs()], modes)


def step_tie_lines(order):
    """Odd numbers of half steps in both signs, next to these, and next to nothing, in every mode."""
    given = []
    for minus in "", "-":
        for half_steps in 1, 3, 5, 7, 99, 101, 2000001, 9999997, 9999999:
            given.append(entry("P", minus + str(half_steps), -1, 2, 0))
            given.append(entry("P", half_steps, 0, minus + "20", 0))
        for half_steps in 1, 3, 5, 999:
            given.append(entry("P", minus + str(half_steps * 10000 - 1), -4, 20, 0))
            given.append(entry("P", minus + str(half_steps * 10000 + 1), -4, 20, 0))
        for tenths, divisor in (9999998, 9999999), (9999999, 9999998):
            given.append(entry("P", minus + str(tenths), -1, divisor, 0))
        for coefficient, exponent in (4999999, -8), (5000001, -8), (9999999, -8), (1, -101):
            given.append(entry("P", minus + str(coefficient), exponent, 1, 0))
        given.append(entry("P", minus + "1", -101, 9999999, 90))
    for mode in MODES:
        yield entry("M", mode)
        yield from given
        yield entry("T")
        yield from (order.pair_entry("P", order.half_pair()) for _ in range(EACH_MODE - len(given) - 2))
        yield entry("C")


def limit_lines(order):
    """Quotients of 10,000,000 steps and next to these, in every mode."""
    pairs = (
        (1, 6, 1, 0), (1000000, 0, 1, 0), (9999999, -1, 1, 0), (9999998, -1, 1, 0), (9999999, 0, 10, 0),
        (9999999, 6, 9999999, 0), (9999998, 6, 9999999, 0), (9999999, 6, 9999998, 0), (1, 90, 1, 84),
        (1, -95, 1, -101), (1, 90, 1, 85), (1, 0, 1, -6), (1, 0, 1, -5), (3, 6, 3, 0), (2999999, 0, 3, 0),
        (3000000, 0, 3, 0), (3000001, 0, 3, 0), (9999999, 90, 1, -101), (1000001, 0, 1, 0),
    )
    given = [entry("P", y, ye, x, xe) for y, ye, x, xe in pairs]
    given += [entry("P", -y, ye, x, xe) for y, ye, x, xe in pairs]
    given += [entry("P", y, ye, -x, xe) for y, ye, x, xe in pairs]
    for mode in MODES:
        yield entry("M", mode)
        yield from given
        yield from (order.pair_entry("P", order.limit_pair()) for _ in range(EACH_MODE - len(given) - 1))
        yield entry("C") if mode % 2 else entry("T")


def some_divided(order, pairs):
    """Some of the pairs, divided in every mode."""
    lines = order.entries("D", pairs)
    return in_every_mode([order.pick(lines) for _ in range(EACH_MODE)])


def overflow_pairs(order):
    """Quotients at the upper end of the range and above."""
    for y in 1, 9, 9999999, 1000001:
        for x in 1, 3, 9999999:
            for size in 96, 97, 98:
                yield order.pair_near(y, x, size)
    for _ in range(60):
        yield order.pair_near(order.coefficient(), order.coefficient(), order.roll(95, 98))
    for _ in range(17):
        yield order.pair_near(order.coefficient(), order.coefficient(), order.roll(99, 185))


def zero_lines(order):
    """Zeros of both signs in every place, divided and posted."""
    places = list(product(("0", "-0", "5", "-5"), ("0", "-0"), repeat=2))
    yield from in_every_mode([entry("D", *texts) for texts in places], (1, 4, 5))
    yield from in_every_mode([entry("P", *texts) for texts in places], (5, 1))
    for letter in "DP":
        yield from order.entries(letter, zero_pairs(order))
    for mode in MODES:
        yield from in_every_mode(order.entries("D", islice(zero_pairs(order), mode, None, 3)), [mode])


def posted_lines(order):
    """Postings alone, in modes that change, up to the last line, which has the totals."""
    for n in range(LINES - 1):
        if n % 40 == 0:
            yield entry("M", order.pick(MODES))
        else:
            yield order.some_entry("P", ("good",))
    yield entry("T")


def random_byte_lines(order):
    """Full lines of random bytes, of few characters, and with the columns of entry lines."""
    for n in range(LINES):
        choices = (NO_END, b"MDPTCF 0123456789-", b"  -01", bytes(range(32, 127)))[n % 4]
        line = b"".join(order.byte(choices) for _ in range(LENGTH))
        yield order.byte(b"MDPTCF") + line[1:] if n % 8 < 5 else line


def blank_lines(order):
    """Lines in which only a letter, blanks, minus signs and zeros stand."""
    for n in range(LINES):
        texts = [order.pick(("0", "-0", "-", "", "00", "-00", " ", "0-", "- 0", "1", "-1")) for _ in range(4)]
        good = ["1", "0", "1", "0"]
        good[n % 4] = texts[n % 4]
        yield entry(order.pick("DP"), *(texts if order.once_in(3) else good))


def sheets():
    """Every stored sheet by its name."""
    order = Entries(5)
    lines, _ = worked()
    full = entry("P", 1, 0, 3, 0) + b"\n"
    yield "sample", b"".join(line + b"\n" for line in lines[:SAMPLE])
    yield "worked", b"".join(line + b"\n" for line in lines)
    yield "program", cut(Entries(6).endless("any"))
    yield "nothing", b""
    yield "lone_end", b"\n"
    yield "no_end", entry("D", 1, 0, 3, 0)
    yield "one_long_line", b"T" * LONGEST
    yield "full", b"".join(line + b"\n" for line in islice(order.endless("valid"), LINES))
    yield "one_byte_more", full * LINES + b"T"
    yield "too_long", b"\n" * (LONGEST + 1)
    yield "ends", b"\n" * LONGEST
    yield "short_lines", b"".join(order.pick((b"", b"T", b"D 1", full[:-1])) + b"\n" for _ in range(LINES)) + full * 3
    yield "one_line_more", (b"T\n" + full) * (LINES // 2) + b"\0"
    yield "letters", cut(letter_lines())
    yield "bytes", cut(byte_lines())
    yield "lengths", b"\n".join(length_lines())
    yield "fields", cut(field_lines())
    yield "meetings", cut(meeting_lines(order))
    yield "unused", cut(unused_lines())
    yield "carriage_returns", cut(carriage_return_lines(order))
    yield "blanks", cut(blank_lines(order))
    yield "random_bytes", b"".join(order.byte(range(256)) for _ in range(LONGEST))
    yield "random_lines", cut(random_byte_lines(order))
    for n in 1, 2, 3:
        yield "mutations_%d" % n, cut(order.endless("mutated"))
    yield "extremes_1", cut(extreme_lines("D", (1, 2, 3, 4, 5)))
    yield "extremes_2", cut([*extreme_lines("D", (6, 7)), *extreme_lines("P", (1, 5, 7))])
    yield "step_ties", cut(step_tie_lines(order))
    yield "step_limits", cut(limit_lines(order))
    yield "quotient_ties", cut(some_divided(order, tie_pairs(order)))
    yield "subnormals", cut(some_divided(order, subnormal_pairs(order)))
    yield "overflows", cut(in_every_mode(order.entries("D", overflow_pairs(order))))
    yield "exact", cut(some_divided(order, exact_pairs(order)))
    yield "range_ends", cut(some_divided(order, [*edge_pairs(order), *end_pairs(order)]))
    yield "zeros", cut(zero_lines(order))
    yield "posted", cut(posted_lines(order))
    for seed in 7, 8:
        yield "random_%d" % seed, random_sheet(seed)


def answer_kind(answer):
    """The letter of an answer, with the number of a refusal."""
    return answer[0] + answer[1:5].strip() if answer[0] == "R" else answer[0]


def make():
    """The stored files by their names, once the model has answered what is worked out by hand."""
    lines, wanted = worked()
    for line, answer, said in zip(lines, wanted, answers(b"\n".join(lines)).decode("ascii").split("\n")):
        compare(line, answer, said)
    made, kinds = {}, Counter()
    for name, sheet in sheets():
        made[name + ".sheet"], made[name + ".answers"] = sheet, answers(sheet)
        kinds.update(map(answer_kind, made[name + ".answers"].decode("ascii").splitlines()))
    size = sum(map(len, made.values()))
    told = ", ".join("%d %s" % (kinds[kind], kind) for kind in KINDS)
    print("%d sheets, %d answers, %d bytes; answers: %s" % (len(made) // 2, kinds.total(), size, told), file=sys.stderr)
    if sorted(kinds) != sorted(KINDS) or kinds.total() < FEWEST_ANSWERS or size > MOST_BYTES:
        sys.exit("the sheets do not come to what they must")
    return made


def main(arguments):
    """Store or check the sheets, or print one; the exit status."""
    action, *rest = arguments or [None]
    if action in ("--check", "--write") and len(rest) == 1:
        made, folder = make(), rest[0]
        if action == "--write":
            os.makedirs(folder, exist_ok=True)
        status = keep(action == "--check", [os.path.join(folder, name) for name in made], made.values())
        for name in sorted(set(os.listdir(folder)) - set(made)) if os.path.isdir(folder) else ():
            print("%s is none of the stored files" % os.path.join(folder, name), file=sys.stderr)
            status = 1
        return status
    if action == "sheet" and len(rest) == 1 and re.fullmatch("[0-9]+", rest[0]):
        sys.stdout.buffer.write(random_sheet(int(rest[0])))
        return 0
    print(USAGE, file=sys.stderr)
    return 2


if __name__ == "__main__":
    sys.exit(main(sys.argv[1:]))
