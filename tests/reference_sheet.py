"""A plain, slow model of the sheet: reads entry lines of fixed columns, answers each of them in fixed columns."""

import re
import sys

sys.dont_write_bytecode = True
import reference_replay  # noqa: E402
from reference_divide import divide, finite  # noqa: E402
from reference_replay import Card, Refused, mode_numbered  # noqa: E402
from reference_words import answers as answer_lines  # noqa: E402

STEP = 1
LONGEST = 24000  # bytes of a sheet
SPACE = 45600  # bytes of its answers
LENGTH = 29  # characters of an entry line
WIDTH = 56  # characters of an answer, which byte 10 follows

LAYERS = {**reference_replay.LAYERS, 1: 5, 2: 5, 3: 5, 4: 5, 5: 5, 6: 1, 7: 1}

# The columns of refusals; 5, 6 and 7 have the first column of a field.
COLUMNS = {1: 0, 2: 0, 3: 1, 4: 1, 9: 2, 14: 16, 15: 1, 16: 1}

# First and last columns. Coefficients and exponents come by turns; a letter uses so many fields from the left.
FIELDS = (2, 10), (11, 15), (16, 24), (25, 29)
USED = {b"M": 1, b"D": 4, b"P": 4, b"T": 0, b"C": 0, b"F": 0}

NUMBER = re.compile(b" *-?[0-9]+")
LARGEST = 9999999
EXPONENTS = range(-101, 91)


def refusal(n, number, column=None):
    """The answer to line n when it is refused."""
    column = COLUMNS[number] if column is None else column
    return "R%4d%5d%5d%5d" % (number, n, column, LAYERS[number])


def filled(answer):
    assert len(answer) <= WIDTH
    return answer.ljust(WIDTH)


def read(line):
    """The letter of an entry line, and the texts of the fields that it uses."""
    if len(line) != LENGTH:
        raise Refused(3)
    letter = line[:1]
    if letter not in USED:
        raise Refused(4)
    texts, unused = [], 2
    for first, last in FIELDS[: USED[letter]]:
        texts.append(line[first - 1 : last])
        if not NUMBER.fullmatch(texts[-1]):
            raise Refused(5, first)
        unused = last + 1
    if line[unused - 1 :].strip(b" "):
        raise Refused(5, unused)
    return letter, texts


def numbers(texts):
    """The two numbers of four fields."""
    for (first, _), text in list(zip(FIELDS, texts))[::2]:
        if abs(int(text)) > LARGEST:
            raise Refused(6, first)
    for (first, _), text in list(zip(FIELDS, texts))[1::2]:
        if int(text) not in EXPONENTS:
            raise Refused(7, first)
    y, ye, x, xe = texts
    return [finite("-" if b"-" in c else "+", abs(int(c)), int(e)) for c, e in ((y, ye), (x, xe))]


class Sheet:
    """What the lines so far have come to. An entry takes the texts of its fields."""

    def __init__(self):
        self.card, self.mode = Card(STEP), 1
        self.space, self.ended = SPACE, False

    def answer_line(self, n, line_bytes):
        """The answer to line n (counted from one), given without its newline; None behind the last one told."""
        if self.ended:
            return None
        if self.space < WIDTH + 1:
            self.ended = True
            return filled(refusal(n, 2))
        self.space -= WIDTH + 1
        try:
            letter, texts = read(line_bytes)
            answer = getattr(self, "entry_" + letter.decode("ascii"))(*texts)
        except Refused as refused:
            answer = refusal(n, *refused.args)
        self.card.check_law()
        return filled(answer)

    def entry_M(self, n):
        self.mode = mode_numbered(n)
        return "K"

    def entry_D(self, *texts):
        quotient, flags = divide(self.mode, *numbers(texts))
        self.card.flags |= flags
        sign = "-" if quotient.sign == "-" else ""
        if quotient.kind == "nan":
            return "N%9s%5s%5d" % ("", "", flags)
        if quotient.kind == "inf":
            return "I%9s%5s%5d" % (sign + "1", "", flags)
        return "Q%9s%5d%5d" % (sign + str(quotient.coefficient), quotient.exponent, flags)

    def entry_P(self, *texts):
        y, x = numbers(texts)
        if x.coefficient == 0:
            raise Refused(14)
        self.card.post(self.mode, y, x)
        return self.entry_T()

    def entry_T(self):
        card = self.card
        return "T%14d%14d%14d%6d%6d" % (card.low, card.figure, card.high, card.posted, card.near + card.far)

    def entry_C(self):
        self.card.clear()
        return "K"

    def entry_F(self):
        self.card.flags = 0
        return "K"


def answers(sheet_bytes):
    """The answers to a sheet, as bytes, each ended by a newline."""
    if len(sheet_bytes) > LONGEST:
        return filled(refusal(0, 1)).encode("ascii") + b"\n"
    return answer_lines(sheet_bytes, Sheet().answer_line)


if __name__ == "__main__":
    sys.stdout.buffer.write(answers(sys.stdin.buffer.read()))
