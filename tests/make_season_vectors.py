"""Makes seasons of golf rounds from a seed, and the stored season with its expected answers."""

import sys

sys.dont_write_bytecode = True
from make_replay_vectors import LIMITS, Order, compare, main  # noqa: E402
from reference_replay import ADJUSTMENT, FULL  # noqa: E402
from reference_season import MALFORMED, REFUSED, answers, tenths  # noqa: E402

USAGE = "usage: make_season_vectors.py order SEED COUNT, or --check|--write STDIN STDOUT"

# Rounds with their floor, value in mode 1 and ceiling.
WORKED = """
85 72.3 0 128 -> 11.2 11.2 11.3
72 72.0 0 113 -> 0.0 0.0 0.0
72 72.4 0 113 -> -0.4 -0.4 -0.4
73 72.9 0 113 -> 0.1 0.1 0.1
72 72.1 0 155 -> -0.1 -0.1 0.0
72 72.0 -1 120 -> 0.9 0.9 1.0
70 71.2 0 128 -> -1.1 -1.1 -1.0
80 73.6 0 128 -> 5.6 5.6 5.7
90 70.8 0 128 -> 16.9 17.0 17.0
70 76.4 0 128 -> -5.7 -5.6 -5.6
399 30.0 -1 55 -> 760.1 760.2 760.2
18 99.9 3 55 -> -174.5 -174.4 -174.4
85 072.3 -000000001 128 -> 12.0 12.1 12.1
85 72.3 003 0128 -> 8.5 8.6 8.6
"""

# What some seasons come to: posted, near, far, low, figure, high, and how near the figure is.
ENDS = """
0 0 0 0.0 0.0 0.0 0.00
0 0 0 0.0 0.0 0.0 0.00
1 1 0 11.2 11.2 11.3 0.05
1 0 1 11.2 11.3 11.3 0.10
3 2 0 4.1 4.1 4.3 0.10
3 0 2 4.1 4.2 4.3 0.20
"""

# The first of these rounds in other dress.
DRESSED_LINES = (
    b"  85 72.3 0 128", b"\t85 72.3 0 128", b"85 72.3 0 128 ", b"85 72.3 0 128\t", b"85 72.3 0 128\r",
    b"85  72.3\t0 \t 128", b"\r85 72.3 0 128", b" \t\r \r85\t\t72.3 0 128\r \r\t", b"85 72.3 -0 128",
    b"000000085 00000072.3 -000000000 000000128", b" " * 5000 + b"85 72.3 0 128",
    b"85" + b"\t" * 5000 + b"72.3 0 128", b"85 72.3 0 128" + b"\r" * 5000,
)

# Lines that are passed over.
SILENT_LINES = (
    b"", b" ", b"\t", b"\r", b" \t\r", b"\r\r \t", b" " * 5000, b"#", b"# a comment", b"#85 72.3 0 128",
    b"  # 85 72.3 0 128", b"\t#", b" \t # \xff\0\r", b"#\r", b"##", b"# " + b"long " * 1000,
    b"\r# a comment", b" \r #",
)

# Lines that are no rounds.
MALFORMED_LINES = (
    b"85", b"85 72.3", b"85 72.3 0", b"85 72.3 0 128 1", b"85 72.3 0 128 128 128", b"72.3 0 128",
    b"85 0 72.3 128", b"85 72 0 128", b"85 72. 0 128", b"85 .3 0 128", b"85 72.30 0 128", b"85 72,3 0 128",
    b"85 72..3 0 128", b"85 7.2.3 0 128", b"85 723 0 128", b"85,72.3,0,128", b"85;72.3;0;128",
    b"85 72.3 0/128", b"85 72 .3 0 128", b"85 72. 3 0 128", b"-85 72.3 0 128", b"+85 72.3 0 128",
    b"85 -72.3 0 128", b"85 +72.3 0 128", b"85 72.3 +1 128", b"85 72.3 --1 128", b"85 72.3 - 128",
    b"85 72.3 - 1 128", b"85 72.3 1- 128", b"85 72.3 0 -128", b"85 72.3 0 +128", b"85 72.3 0.0 128",
    b"85.0 72.3 0 128", b"85 72.3 0 128.0", b"85 72.3 0 128.", b"1234567890 72.3 0 128",
    b"0000000085 72.3 0 128", b"85 123456789.1 0 128", b"85 000000072.3 0 128", b"85 72.3 1234567890 128",
    b"85 72.3 -0000000001 128", b"85 72.3 0 0000000128", b"85 72.3 0 128x", b"x85 72.3 0 128",
    b"85 72.3 O 128", b"gross rating adjustment slope", b"GROSS RATING ADJUSTMENT SLOPE",
    b"85 72.3 0 128 # a round", b"85 72.3 0 128#", b"85 72.3 0 # 128", b"85\r72.3 0 128",
    b"85 72.3\r0 128", b"85 72.3 0 \r 128", b"-", b".", b"\0",
    b"85 72.3 0 128\0", b"\x0085 72.3 0 128", b"85\x0072.3 0 128", b"\xff", b"85\xa072.3 0 128",
    b"\xef\xbb\xbf85 72.3 0 128", b"\xef\xbc\x98 72.3 0 128", b"85 72.\xb3 0 128", b"85 72.3 0 128\v",
    b"85\f72.3 0 128", b"\v", b"\x85", b"; 85", b"// 85", b"8 5 72.3 0 128", b"85 72.3 0 12 8",
    b"1e2 72.3 0 128", b"0x55 72.3 0 128", b"85 7/.3 0 128", b"85 7:.3 0 128", b"8/ 72.3 0 128",
    b"85 72.3 0 12:", b"85 72.3 : 128", b"85 72./ 0 128", b"85 72.: 0 128", b"9" * 5000,
    b"85 72.3 0 128 " * 400, b"85 " * 1000 + b"72.3 0 128", b"85 72.3 0 128" + b"\t" * 5000 + b"1",
)


def plain(gross, rating, adjustment, slope):
    return b"%d %s %d %d" % (gross, tenths(rating).encode("ascii"), adjustment, slope)


def edge_rounds():
    """Every corner of the limits, and each part one outside them and far outside."""
    for n in range(16):
        yield [part[0 if n >> i & 1 else -1] for i, part in enumerate(LIMITS)]
    for i, part in enumerate(LIMITS):
        outside = (part[0] - 1, part[-1] + 1, part[-1] + 256, part[-1] + 65536, 999999999)
        for wrong in outside + ((-999999999,) if part is ADJUSTMENT else (0,)):
            parts = [85, 723, 0, 128]
            parts[i] = wrong
            yield parts
    yield [0, 0, 999999999, 0]


def tie_rounds(order):
    """Differentials in the middle of two tenths, in both signs."""
    for slope in range(56, 156, 4):
        for sign in (-1, 1):
            over = sign * order.pick((1, 3, 5)) * slope // 2
            adjustment = order.pick(ADJUSTMENT)
            gross = (order.roll(650, 750) + over) // 10 + adjustment
            yield [gross, 10 * gross - 10 * adjustment - over, adjustment, slope]


def dressed(order, parts):
    """The line of a round, with blanks, tabs and zeros here and there."""
    if order.once_in(2):
        return plain(*parts)
    gross, rating, adjustment, slope = parts
    rating = order.number(rating // 10)[-8:] + b".%d" % (rating % 10)
    fields = order.number(gross), rating, order.number(adjustment), order.number(slope)
    line = order.pick((b" ", b"  ", b"\t", b" \t ")).join(fields)
    return order.pick((b"", b" ", b"\t")) + line + order.pick((b"", b" ", b"\t", b"\r", b" \r"))


def random_season(seed, count):
    """So many lines, most of them rounds."""
    order = Order(seed, 1)
    odd = SILENT_LINES + MALFORMED_LINES
    for _ in range(count):
        if order.once_in(20):
            yield order.pick(odd)
        else:
            yield dressed(order, order.bad_round() if order.once_in(20) else order.good_round())


def check_line(line, wanted):
    """Compare the model with what a line alone must be answered; None is no answer."""
    said = answers(line).decode("ascii").splitlines()[:-3]
    compare(line, [] if wanted is None else ["line 1: " + wanted], said)


def check_ends():
    """Compare the model with what whole seasons must come to."""
    good, three = b"85 72.3 0 128\n", b"72 72.4 0 113\n\n80 73.6 0 128\n# last\n70 71.2 0 128"
    seasons = (b"", 1), (b"\n#\n85\n", 7), (good, 1), (good, 4), (three, 1), (three, 7)
    for (stdin, mode), row in zip(seasons, ENDS.strip().splitlines()):
        posted, near, far, low, figure, high, within = row.split()
        noun = "differential" if posted == "1" else "differentials"
        wanted = [
            "season: low %s, figure %s, high %s" % (low, figure, high),
            "counts: posted %s, near %s, far %s" % (posted, near, far),
            "The exact sum of the %s %s posted is at least %s and at most %s, and it lies within %s of %s."
            % (posted, noun, low, high, within, figure),
        ]
        compare(stdin, wanted, answers(stdin, mode).decode("ascii").splitlines()[-3:])


def check_full_card():
    """Compare the model with what a full card must answer: 8 comes before 15."""
    stdin = b"85 72.3 0 128\n" * (FULL + 1) + b"17 72.3 0 128\n85\n"
    wanted = "refused with 15: " + REFUSED[15], "refused with 8: " + REFUSED[8], MALFORMED
    wanted = ["line %d: %s" % (n, answer) for n, answer in enumerate(wanted, FULL + 1)]
    compare(stdin, wanted, answers(stdin).decode("ascii").splitlines()[FULL:-3])


def make():
    """The season and its answers, once the model has answered what is worked out by hand."""
    check_ends()
    check_full_card()
    wanted = {}
    for row in WORKED.strip().splitlines():
        line, _, values = row.partition(" -> ")
        wanted[line.encode("ascii")] = "floor %s, value %s, ceiling %s" % tuple(values.split())
    wanted.update(dict.fromkeys(DRESSED_LINES, wanted[b"85 72.3 0 128"]))
    wanted.update(dict.fromkeys(SILENT_LINES))
    wanted.update(dict.fromkeys(MALFORMED_LINES, MALFORMED))
    for line, answer in wanted.items():
        check_line(line, answer)
    order = Order(3, 1)
    lines = list(wanted)
    lines += [plain(*parts) for parts in edge_rounds()]
    lines += [dressed(order, parts) for parts in tie_rounds(order)]
    lines += random_season(4, 190)
    lines.append(b"85 72.3 0 128")
    print("%d lines" % len(lines), file=sys.stderr)
    stdin = b"\n".join(lines)
    return stdin, answers(stdin)


if __name__ == "__main__":
    sys.exit(main(sys.argv[1:], USAGE, make, random_season, 2))
