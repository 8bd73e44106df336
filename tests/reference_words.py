"""A plain, slow model of 32-bit decimal words (densely packed decimal): reads lines of words, answers what they mean."""

import re
import sys
from collections import namedtuple

# sign: "+" or "-"; kind: "finite", "inf", "nan" or "snan";
# coefficient: the payload in a NaN, 0 in an infinity; exponent: 0 unless finite.
Number = namedtuple("Number", "sign kind coefficient exponent")

BIAS = 101

# The ten bits of a declet are named pqrstuvwxy. The bits v, w, x, s, t choose
# the row ("-" fits both values); the row spells the three digits in binary.
READ_DECLET = [
    ("0----", "0pqr 0stu 0wxy"),
    ("100--", "0pqr 0stu 100y"),
    ("101--", "0pqr 100u 0sty"),
    ("110--", "100r 0stu 0pqy"),
    ("11100", "100r 100u 0pqy"),
    ("11101", "100r 0pqu 100y"),
    ("11110", "0pqr 100u 100y"),
    ("11111", "100r 100u 100y"),
]

# The bits of three digits are named abcd efgh ijkm. The bits a, e, i choose
# the row; the row spells the declet.
WRITE_DECLET = {
    "000": "bcd fgh 0 jkm",
    "001": "bcd fgh 1 00m",
    "010": "bcd jkh 1 01m",
    "011": "bcd 10h 1 11m",
    "100": "jkd fgh 1 10m",
    "101": "fgd 01h 1 11m",
    "110": "jkd 00h 1 11m",
    "111": "00d 11h 1 11m",
}


def spell(pattern, names, bits):
    """Put the named bits into a pattern; its zeros, ones and blanks stay."""
    value = dict(zip(names, bits))
    return "".join(value.get(char, char) for char in pattern)


def declet_to_digits(declet):
    """Ten bits, such as "0010100011", to three digits, such as "123"."""
    chosen_by = spell("vwxst", "pqrstuvwxy", declet)
    for fits, pattern in READ_DECLET:
        if all(want in ("-", bit) for want, bit in zip(fits, chosen_by)):
            digits = spell(pattern, "pqrstuvwxy", declet).split()
            return "".join(str(int(digit, 2)) for digit in digits)
    raise ValueError("no declet: " + declet)


def digits_to_declet(digits):
    """Three digits to the ten bits of their canonical declet."""
    bits = "".join(format(int(digit), "04b") for digit in digits)
    row = WRITE_DECLET[spell("aei", "abcdefghijkm", bits)]
    return spell(row, "abcdefghijkm", bits).replace(" ", "")


def decode(word):
    """The number that a word (an integer of 32 bits) stands for."""
    bits = format(word, "032b")
    sign = "-" if bits[0] == "1" else "+"
    combination, continuation = bits[1:6], bits[6:12]
    tail = declet_to_digits(bits[12:22]) + declet_to_digits(bits[22:32])
    if combination == "11110":
        return Number(sign, "inf", 0, 0)
    if combination == "11111":
        kind = "snan" if continuation[0] == "1" else "nan"
        return Number(sign, kind, int(tail), 0)
    if combination.startswith("11"):
        high, first = combination[2:4], "100" + combination[4]
    else:
        high, first = combination[0:2], "0" + combination[2:5]
    coefficient = int(str(int(first, 2)) + tail)
    return Number(sign, "finite", coefficient, int(high + continuation, 2) - BIAS)


def encode(number):
    """The canonical word (an integer of 32 bits) of a number."""
    limit = {"finite": 9999999, "inf": 0}.get(number.kind, 999999)
    if not 0 <= number.coefficient <= limit or not -101 <= number.exponent <= 90:
        raise ValueError("does not fit a word: " + show(number))
    digits = format(number.coefficient, "07d")
    tail = digits_to_declet(digits[1:4]) + digits_to_declet(digits[4:7])
    if number.kind == "inf":
        middle = "11110" + "000000"
    elif number.kind == "nan":
        middle = "11111" + "000000"
    elif number.kind == "snan":
        middle = "11111" + "100000"
    else:
        exponent = format(number.exponent + BIAS, "08b")
        first = format(int(digits[0]), "04b")
        if first[0] == "1":
            middle = "11" + exponent[:2] + first[3] + exponent[2:]
        else:
            middle = exponent[:2] + first[1:] + exponent[2:]
    return int({"+": "0", "-": "1"}[number.sign] + middle + tail, 2)


def show(number):
    """The text of a number, such as -125E-3, +inf or -nan(123)."""
    if number.kind == "inf":
        return number.sign + "inf"
    if number.kind == "finite":
        return "%s%dE%d" % (number.sign, number.coefficient, number.exponent)
    return "%s%s(%d)" % (number.sign, number.kind, number.coefficient)


def answer_line(n, line_bytes):
    """The answer to line n (counted from one), given without its newline."""
    if not re.fullmatch(b"[0-9A-Fa-f]{8}", line_bytes):
        return "? line %d: not eight hexadecimal digits" % n
    word = int(line_bytes.decode("ascii"), 16)
    number = decode(word)
    return "%08X %s %08X" % (word, show(number), encode(number))


def answers(input_bytes, answer_line=answer_line):
    """The answers to all lines, as bytes, each ended by a newline; None is no answer."""
    lines = input_bytes.split(b"\n")
    if lines[-1] == b"":
        lines.pop()
    said = (answer_line(n, line) for n, line in enumerate(lines, 1))
    return b"".join(answer.encode("ascii") + b"\n" for answer in said if answer is not None)


if __name__ == "__main__":
    sys.stdout.buffer.write(answers(sys.stdin.buffer.read()))
