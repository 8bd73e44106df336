"""Makes orders of calls on a season card from a seed, and the stored order with its expected answers."""

import re
import sys
from collections import Counter
from random import Random

sys.dont_write_bytecode = True
from make_divide_vectors import (  # noqa: E402
    ALL_MODES, Dice, end_pairs, redundant_pairs, special_pairs, words_of,
)
from make_words_vectors import keep, text_of  # noqa: E402
from reference_divide import MODES, finite  # noqa: E402
from reference_replay import (  # noqa: E402
    ADJUSTMENT, FULL, GROSS, OTHER, RATING, Refused, Replay, SLOPE, STEP, answers, expected, operands,
)
from reference_words import encode  # noqa: E402

USAGE = "usage: make_replay_vectors.py order SEED STEP COUNT, or --check|--write STDIN STDOUT"

# Of a hundred lines; a clearing comes from time to time besides.
WEIGHTS = {
    "mode": 7, "divide": 20, "begin": 27, "finish": 27, "pairs": 9, "rounds": 7, "lower": 1, "odd": 2,
}
KINDS = [kind for kind, weight in WEIGHTS.items() for _ in range(weight)]

NO_MODES = (0, 8, 9, 10, 17, 70, 255, 257, 65537, 16777217, 999999999)
LIMITS = GROSS, RATING, ADJUSTMENT, SLOPE
CHANGES = (b"", b" ", b"0", b"-", b"/", b",", b"g", b"\r", b"\t", b"\0", b"\xff")

# Worked lines at step 1, with their answers; {1} is the word of 1. A row without answer is the card so far.
WORKED = """
begin {1} {3} -> ok
post 1 -> ok
begin {-1} {4} -> ok
post 2 -> ok
begin {2} {1} -> ok
post 3 -> ok
card 20 21 22 3 2 0 1
clear -> ok
card 0 0 0 0 0 0 1
begin {9999999E-1} {1} -> ok
post 4 -> ok
begin {1000000} {1} -> ok
post 5 -> refused 16 4 0
rounds 1 85,723,0,128 -> ok 1
card 10000111 10000111 10000112 2 1 0 1
lower -> ok
clear -> ok
divide {1} {3} -> ok 2DE6CDB3 1
divide {-5} {0E3} -> ok F8000000 8
card 0 0 0 0 0 0 9
lower -> ok
begin {Infinity} {0} -> refused 13 3 0
begin {1} {sNaN} -> refused 13 3 0
begin {0} {-0E9} -> refused 14 3 0
begin {-1} {4} -> ok
begin {1} {3} -> ok
begin {3} {2} -> ok
mode 7 -> ok
mode 8 -> refused 9 4 0
post 9 -> ok
card -3 -3 -2 1 0 1 1
round 10 -> ok 2DE6CDB4 1
strike 11 -> ok
round 9 -> no draft
post 9 -> no draft
strike 6 -> no draft
post 999999999 -> no draft
round 0 -> no draft
pairs 3 {-1}/{4} {1E-101}/{3} {7}/{10} -> ok 3
card 1 1 4 4 2 1 1
pairs 5 {1}/{3} {1}/{0} {1}/{3} -> refused 14 3 1 after 1
pairs 5 {NaN}/{0} -> refused 13 3 0 after 0
pairs 5 {1}/{3} {1}/{3} {-1E6}/{1} -> refused 16 4 2 after 2
rounds 5 85,723,0,128 399,300,-1,55 18,999,3,55 85,723,4,128 -> refused 8 1 3 after 3
card 5978 5978 5987 10 2 7 1
pairs 1 -> ok 0
rounds 7 -> ok 0
pairs 0 {1}/{0} -> refused 9 4 0 after 0
rounds 8 -> refused 9 4 0 after 0
rounds 0 17,723,0,128 -> refused 9 4 0 after 0
card 5978 5978 5987 10 2 7 1
begin {1} {3} -> ok
round 12 -> ok 2DE6CDB4 1
clear -> ok
pairs 1 {1}/{20} {3}/{20} {5}/{20} {-1}/{20} {-3}/{20} -> ok 5
card 0 2 5 5 5 0 1
clear -> ok
pairs 2 {1}/{20} {3}/{20} {5}/{20} -> ok 3
card 3 3 6 3 3 0 1
clear -> ok
pairs 3 {1}/{20} {3}/{20} {5}/{20} -> ok 3
card 3 6 6 3 3 0 1
clear -> ok
pairs 6 {3}/{20} {-3}/{20} {1}/{1} -> ok 3
card 9 10 11 3 0 2 1
clear -> ok
"""

# The same once 10,000 postings stand.
ON_A_FULL_CARD = """
begin {1} {3} -> ok
post 13 -> refused 15 4 0
post 13 -> no draft
begin {1E6} {1} -> ok
post 14 -> refused 15 4 0
pairs 1 {0}/{1} -> refused 15 4 0 after 0
pairs 1 {1E6}/{1} -> refused 15 4 0 after 0
pairs 1 {1}/{0} -> refused 14 3 0 after 0
pairs 1 {1}/{3} {1}/{0} -> refused 15 4 0 after 0
pairs 1 {Infinity}/{1} -> refused 13 3 0 after 0
pairs 8 {1}/{3} -> refused 9 4 0 after 0
pairs 1 -> ok 0
rounds 1 85,723,0,128 -> refused 15 4 0 after 0
rounds 1 17,723,0,128 -> refused 8 1 0 after 0
mode 1 -> ok
begin {2} {3} -> ok
round 15 -> ok 39ED9B67 1
clear -> ok
"""

# Lines that are no calls, with what they should be; W stands for a word.
ODD_LINES = {
    "mode N": (
        b"mode", b"mode ", b"mode  1", b"mode 1 ", b"mode 1 2", b"mode 1234567890", b"mode 0000000001",
        b"mode -1", b"mode +1", b"mode 1.0", b"mode x", b"mode 0x1", b"mode 1\r", b"mode 1\t", b"mode \t1",
        b"mode 1\0", b"mode \xb1", b"mode \xd9\xa1", b"mode " + b"1" * 5000, b"mode :", b"mode /",
    ),
    "divide WORD WORD": (
        b"divide", b"divide ", b"divide W", b"divide W ", b"divide W  W", b"divide  W W", b"divide W W ",
        b"divide W W W", b"divide W/W", b"divide WW", b"divide W 2250000", b"divide 2250000 W",
        b"divide W 225000011", b"divide 225000011 W", b"divide W 2250000g", b"divide 2250000@ W",
        b"divide W W\r", b"divide W\tW", b"divide 1 W W", b"divide W 0x225001", b"divide W \xff",
    ),
    "begin WORD WORD": (
        b"begin", b"begin ", b"begin W", b"begin W ", b"begin W  W", b"begin  W W", b"begin W W ",
        b"begin W W W", b"begin W/W", b"begin 2250000 W", b"begin W 225000011", b"begin W 2250000G",
        b"begin 2250000` W", b"begin W W\r", b"begin 7C000000 ", b"begin W " + b"0" * 5000,
    ),
    "round K": (
        b"round", b"round ", b"round  1", b"round 1 ", b"round 1 1", b"round 0000000001", b"round -1",
        b"round 1\r", b"round W W", b"round x",
    ),
    "post K": (
        b"post", b"post ", b"post  1", b"post 1 ", b"post 1 1", b"post 1234567890", b"post -1",
        b"post 1\t", b"post W W", b"post K",
    ),
    "strike K": (
        b"strike", b"strike ", b"strike  1", b"strike 1 ", b"strike 1 1", b"strike 0000000001",
        b"strike +1", b"strike 1\0", b"strike 85,723,0,128", b"strike all",
    ),
    "pairs MODE WORD/WORD ...": (
        b"pairs", b"pairs ", b"pairs 1 ", b"pairs  1", b"pairs x", b"pairs 1234567890", b"pairs 1\r",
        b"pairs 0 W", b"pairs W/W", b"pairs 1 W", b"pairs 1 W W", b"pairs 1 W/", b"pairs 1 /W",
        b"pairs 1 W/W/W", b"pairs 1 W/W ", b"pairs 1  W/W", b"pairs 1 W/W  W/W", b"pairs 1 W/W,W/W",
        b"pairs 1 W /W", b"pairs 1 W/ W", b"pairs 1 W/W W/W W/W W/W W/W W/W W", b"pairs 1 W/W W/W\r",
        b"pairs 1 W/22500000 x", b"pairs 8 x", b"pairs 1 W/2250000", b"pairs 1 2250000/W", b"pairs 1 W//W",
        b"pairs 1 W/2250000g", b"pairs 1 W\\W", b"pairs 1 W/W\tW/W", b"pairs -1 W/W", b"pairs 1 W.W",
        b"pairs 1" + b" W/W" * 300 + b" W/", b"pairs 1" + b" " * 5000, b"pairs 1 85,723,0,128",
        b"pairs 7C000000/22500000 W/W",
    ),
    "rounds MODE GROSS,RATING,ADJUSTMENT,SLOPE ...": (
        b"rounds", b"rounds ", b"rounds 1 ", b"rounds  1", b"rounds x", b"rounds 1234567890",
        b"rounds 1\t", b"rounds 85,723,0,128", b"rounds 1 85,723,0", b"rounds 1 85,723,0,128,1",
        b"rounds 1 85,723,0,128 ", b"rounds 1  85,723,0,128", b"rounds 1 85, 723,0,128",
        b"rounds 1 85,72.3,0,128", b"rounds 1 -85,723,0,128", b"rounds 1 85,-723,0,128",
        b"rounds 1 85,723,0,-128", b"rounds 1 85,723,+1,128", b"rounds 1 85,723,--1,128",
        b"rounds 1 85,723,-,128", b"rounds 1 85,723,- 1,128", b"rounds 1 85,723,,128",
        b"rounds 1 ,723,0,128", b"rounds 1 85,723,0,", b"rounds 1 1234567890,723,0,128",
        b"rounds 1 85,0000000723,0,128", b"rounds 1 85,723,-1234567890,128",
        b"rounds 1 85,723,0,1234567890", b"rounds 1 85 723 0 128", b"rounds 1 17,723,0,128 x",
        b"rounds 1 85,723,0,128 85,723,0,128 85,723,0,x", b"rounds 9 85", b"rounds 1 85,723,0,128\r",
        b"rounds 1 85;723;0;128", b"rounds 1 W/W", b"rounds 1 85,723,0/128",
        b"rounds 1" + b" 85,723,0,128" * 300 + b",",
    ),
    "lower": (b"lower ", b"lower 1", b"lower lower", b"lower W W"),
    "clear": (b"clear ", b"clear 1", b"clear clear", b"clear all"),
    OTHER: (
        b"", b" ", b"  ", b"\r", b"\0", b"\t", b" mode 1", b"\tmode 1", b"mode\t1", b"mode\r", b"mode1",
        b"mode\0 1", b"Mode 1", b"MODE 1", b"mod 1", b"modes 1", b"step 1", b"step", b"card", b"end", b"ok",
        b"no draft", b"? line 1", b"divided W W", b"Divide W W", b"divide\tW W", b"W W", b"1 W W",
        b"begins W W", b"begi W W", b"round1", b"Round 1", b"posts 1", b"post\xa01", b"strikes 1",
        b"pair 1 W/W", b"Pairs 1 W/W", b"pairs,1", b"roundss 1 85,723,0,128", b"lower\r", b"Lower", b"lowe",
        b"lower\0", b"clear\r", b"clears", b"CLEAR", b"\xef\xbb\xbfmode 1", b"\xff", b"# mode 1", b"open 1",
        b"help", b"clear" * 1000, b"no call " * 625,
    ),
}

# Whole inputs, with the last line that they must be answered.
FIRST_LINES = {
    "? line 1: expected " + STEP: (
        b"", b"\n", b"step", b"step ", b"step  1", b"step 1 ", b" step 1", b"step 1\r\nclear\n", b"step -1",
        b"step x\nstep 1", b"Step 1", b"step 0000000001", b"step 1234567890", b"step 1 2", b"step\t1",
        b"mode 1\nstep 1", b"\nstep 1", b"# 1\n",
    ),
    "refused 10 4 0": (
        b"step 5", b"step 5\nmode 1\n", b"step 000000005", b"step 999999999", b"step 256\nx", b"step 10",
    ),
    "card 0 0 0 0 0 0 0": (
        b"step 0", b"step 4\n", b"step 000000004", b"step 3\nclear", b"step 2\n\n", b"step 1\nmode 8\n",
    ),
}


def odd_lines():
    """Every line that is no call, in turn."""
    for wanted, lines in ODD_LINES.items():
        for line in (line.replace(b"W", b"2250000f") for line in lines):
            if expected(line) != wanted:
                sys.exit("for %r the model expects %s" % (line, expected(line)))
            yield line


class Order(Dice):
    """Rolls the lines of an order."""

    def __init__(self, seed, step, begun=0):
        self.random = Random(seed)
        self.step = step
        self.begun, self.open = begun, []  # how many drafts were begun, and which can be finished
        self.lines, self.odd, self.until_clear = [], list(odd_lines()), self.roll(1, 40)
        self.edges = special_pairs()
        for family in ALL_MODES + (end_pairs, redundant_pairs):
            self.edges += family(self)

    def roll(self, low, high):
        return low + self.random.getrandbits(64) % (high - low + 1)

    def pick(self, choices):
        return choices[self.roll(0, len(choices) - 1)]

    def once_in(self, times):
        return self.roll(1, times) == 1

    def small_pair(self):
        return self.word(self.roll(0, 20), 0), self.word(self.roll(1, 20), 0)

    def golf_pair(self):
        slope = encode(finite("+", self.pick(SLOPE), 0))
        return self.word(113 * self.roll(0, 999), -1), slope

    def half_pair(self):
        """An odd number of halves of a step, or next to it."""
        odd = 2 * self.roll(0, 10 ** self.roll(0, 6)) + 1
        factor = self.roll(1, (10**7 - 1) // max(odd, 2))
        tie, *neighbours = self.around(odd * factor, 2 * factor, -self.step)
        return self.pick([tie, tie] + neighbours)

    def pair_in_steps(self, size):
        """A quotient of about 10^size steps."""
        return self.pair_near(self.coefficient(), self.coefficient(), size - self.step)

    def middling_pair(self):
        return self.pair_in_steps(self.roll(-2, 6))

    def tiny_pair(self):
        return self.pair_in_steps(self.roll(-180, -2))

    def large_pair(self):
        return self.pair_in_steps(self.roll(7, 180))

    def limit_pair(self):
        """10,000,000 steps, one step less, and next to these."""
        c = self.coefficient(6)
        choices = (c, c, 7), (c + 1, c, 7), (c - 1, c, 7), (10**7 - 1, 1, 0), (10**7 - 2, 1, 0)
        y, x, difference = self.pick(choices)
        return self.pair(y, x, difference - self.step)

    def endless_pair(self):
        """A number by zero, and zero by zero."""
        y = self.coefficient() if self.once_in(2) else 0
        return self.word(y, self.roll(-9, 9)), self.word(0, self.roll(-101, 90))

    def special_pair(self):
        """One operand or each of them is an infinity or a NaN."""
        y, x = (self.roll(0x78000000, 0x7FFFFFFF) | self.roll(0, 1) << 31 for _ in range(2))
        return self.pick(((y, x), (y, self.word(self.roll(0, 1), 0)), (self.word(1, 0), x)))

    def random_pair(self):
        return self.roll(0, 2**32 - 1), self.roll(0, 2**32 - 1)

    def edge_pair(self):
        return self.pick(self.edges)

    def some_pair(self, kinds):
        return getattr(self, self.pick(kinds) + "_pair")()

    def good_pair(self):
        """A pair that can be posted."""
        return self.some_pair(("small", "golf", "half", "half", "middling", "tiny"))

    def bad_pair(self):
        """A pair that mostly cannot be posted."""
        return self.some_pair(("large", "limit", "endless", "special", "random", "edge"))

    def any_pair(self):
        return self.some_pair(("good", "good", "bad"))

    def good_round(self):
        if self.once_in(2):
            return [self.roll(60, 130), self.roll(600, 800), self.pick(ADJUSTMENT), self.pick(SLOPE)]
        return [self.pick((part[0], part[-1], self.pick(part))) for part in LIMITS]

    def bad_round(self):
        """One part or two are outside the limits."""
        parts = self.good_round()
        for _ in range(self.roll(1, 2)):
            i = self.roll(0, 3)
            least, most = LIMITS[i][0], LIMITS[i][-1]
            far = -999999999 if least < 0 and self.once_in(2) else 999999999
            parts[i] = self.pick((least - 1, most + 1, most + 256, far))
        return parts

    def number(self, n):
        """The digits of a number, some with zeros in front."""
        digits = b"%d" % abs(n)
        if self.once_in(8):
            digits = digits.rjust(self.roll(len(digits), 9), b"0")
        return b"-" + digits if n < 0 else digits

    def mode(self):
        return self.number(self.pick(NO_MODES) if self.once_in(8) else self.pick(MODES))

    def words(self, pair, between=b" "):
        return between.join(text_of(self.roll(0, 2), word) for word in pair)

    def pair_record(self, pair):
        return self.words(pair, b"/")

    def round_record(self, parts):
        fields = [self.number(part) for part in parts]
        if parts[2] == 0 and self.once_in(8):
            fields[2] = b"-" + fields[2]
        return b",".join(fields)

    def run_line(self, name, record, good, bad):
        """A run; a third of them has a bad record somewhere."""
        short, middling, long = self.roll(0, 3), self.roll(4, 30), self.roll(100, 200)
        length = long if self.once_in(50) else self.pick((short, middling))
        records = [good() for _ in range(length)]
        if records and self.once_in(3):
            records[self.roll(0, length - 1)] = bad()
        return b" ".join([name, self.mode()] + [record(each) for each in records])

    def draft(self):
        """The number of a draft, mostly of an open one."""
        if self.open and not self.once_in(10):
            return self.open.pop(self.roll(0, len(self.open) - 1))
        past, future = self.roll(0, self.begun), self.begun + self.roll(1, 3)
        chosen = self.pick((0, past, past, future, 999999999))
        if chosen in self.open:
            self.open.remove(chosen)
        return chosen

    def mode_line(self):
        return b"mode " + self.mode()

    def divide_line(self):
        return b"divide " + self.words(self.some_pair(("any", "random", "edge")))

    def begin_line(self):
        if len(self.open) == 30:
            return self.finish_line()
        words = self.words(self.any_pair())
        self.begun += 1
        try:
            operands(*words.split(b" "))
            self.open.append(self.begun)
        except Refused:
            pass
        return b"begin " + words

    def finish_line(self):
        name = self.pick((b"post ", b"post ", b"post ", b"round ", b"round ", b"strike "))
        return name + self.number(self.draft())

    def pairs_line(self):
        return self.run_line(b"pairs", self.pair_record, self.good_pair, self.bad_pair)

    def rounds_line(self):
        return self.run_line(b"rounds", self.round_record, self.good_round, self.bad_round)

    def lower_line(self):
        return b"lower"

    def odd_line(self):
        """A line that is no call: a given one, or an earlier line changed in one place."""
        if not self.lines or self.once_in(2):
            return self.pick(self.odd)
        while True:
            line = self.pick(self.lines)
            i = self.roll(0, len(line))
            line = line[:i] + self.pick(CHANGES) + line[i + self.roll(0, 1) :]
            if expected(line):
                return line

    def next_line(self, clearing):
        """Any line; the card is cleared soon, later or much later after the last time."""
        if clearing and self.until_clear <= 0:
            soon, later, much_later = self.roll(1, 40), self.roll(100, 600), self.roll(3000, 12000)
            self.until_clear = self.pick((soon, soon, later, much_later))
            return b"clear"
        self.until_clear -= 1
        return getattr(self, self.pick(KINDS) + "_line")()

    def roll_lines(self, count):
        """So many lines. The last of them do not clear the card, which is told only at the end."""
        clearing = count - min(count // 3, 3000)
        for n in range(count):
            self.lines.append(self.next_line(n < clearing))
        return self.lines


def order(seed, step, count):
    return [b"step %d" % step] + Order(seed, step).roll_lines(count)


def compare(line, wanted, got):
    """Stop unless the model answers what it must."""
    if got != wanted:
        sys.exit("%.99r: expected %s, the model says %s" % (line, wanted, got))


def check_first_lines():
    for last, inputs in FIRST_LINES.items():
        for stdin in inputs:
            said = answers(stdin).decode("ascii").splitlines()
            compare(stdin, last, said[-1])
            if "card" not in last:
                compare(stdin, 1, len(said))


class Stored:
    """The stored order as far as it is made, each line answered by the model as it must be."""

    def __init__(self):
        self.lines, self.replay = [], Replay()
        self.add(b"step 1", None)

    def add(self, line, wanted):
        self.lines.append(line)
        compare(line, wanted, self.replay.answer_line(len(self.lines), line))

    def add_worked(self, text):
        for row in text.strip().splitlines():
            call, _, wanted = row.partition(" -> ")
            if wanted:
                call = re.sub(r"\{(.*?)\}", lambda operand: "%08X" % words_of(operand[1]), call)
                self.add(call.encode("ascii"), wanted)
            else:
                compare(self.lines[-1], call, self.replay.last_line())


def answer_kind(answer):
    """An answer without what differs from one call to the next."""
    words = answer.split()
    return " ".join(words[:2]) if words[0] in ("refused", "no") else words[0]


def make():
    """The order and its answers, once the model has answered what is worked out by hand."""
    check_first_lines()
    stored, dice = Stored(), Order(1, 1)
    stored.add_worked(WORKED)
    for n in range(FULL // 100):
        pairs = [dice.pair_record(dice.good_pair()) for _ in range(100)]
        stored.add(b" ".join([b"pairs", b"%d" % (n % 7 + 1)] + pairs), "ok 100")
    stored.add_worked(ON_A_FULL_CARD)
    lines = stored.lines + list(odd_lines()) + Order(2, 1, stored.replay.begun).roll_lines(5000)
    stdin = b"\n".join(lines)
    stdout = answers(stdin)
    kinds = Counter(map(answer_kind, stdout.decode("ascii").splitlines()))
    told = ", ".join("%d %s" % (kinds[kind], kind) for kind in sorted(kinds))
    print("%d lines; answers: %s" % (len(lines), told), file=sys.stderr)
    return stdin, stdout


def main(arguments, usage, make, order, count):
    """Store or check what `make` gives, or print what `order` gives for `count` numbers; the exit status."""
    action, *rest = arguments or [None]
    if action in ("--check", "--write") and len(rest) == 2:
        return keep(action == "--check", rest, make())
    if action == "order" and len(rest) == count and all(re.fullmatch("[0-9]+", n) for n in rest):
        sys.stdout.buffer.write(b"".join(line + b"\n" for line in order(*map(int, rest))))
        return 0
    print(usage, file=sys.stderr)
    return 2


if __name__ == "__main__":
    sys.exit(main(sys.argv[1:], USAGE, make, order, 3))
