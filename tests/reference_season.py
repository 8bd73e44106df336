"""A plain, slow model of a season: reads golf rounds, answers what each of them posts, and tells the season at the end."""

import re
import sys

sys.dont_write_bytecode = True
from reference_divide import MODES  # noqa: E402
from reference_replay import Card, Refused, golf_round  # noqa: E402
from reference_words import answers as answer_lines  # noqa: E402

NUMBER, TENTHS, SIGNED = b"([0-9]{1,9})", rb"([0-9]{1,8})\.([0-9])", b"(-?[0-9]{1,9})"
ROUND = re.compile(b"[ \t]+".join((NUMBER, TENTHS, SIGNED, NUMBER)))

MALFORMED = "expected GROSS RATING ADJUSTMENT SLOPE, such as 85 72.3 0 128"
REFUSED = {
    8: "gross must be 18 to 399, rating 30.0 to 99.9, adjustment -1 to 3, slope 55 to 155",
    15: "10000 rounds are posted",
}


def tenths(n):
    """A number of tenths, such as -0.4."""
    return "%s%d.%d" % ("-" if n < 0 else "", abs(n) // 10, abs(n) % 10)


class Season:
    """What the lines so far have come to."""

    def __init__(self, mode):
        self.mode, self.card = mode, Card(1)

    def answer_line(self, n, line_bytes):
        """The answer to line n (counted from one), given without its newline; None if it has none."""
        trimmed = line_bytes.strip(b" \t\r")
        if not trimmed or trimmed.startswith(b"#"):
            return None
        return "line %d: %s" % (n, self.answer(trimmed))

    def answer(self, trimmed):
        parts = ROUND.fullmatch(trimmed)
        if not parts:
            return MALFORMED
        gross, rating, tenth, adjustment, slope = parts.groups()
        try:
            division = golf_round(int(gross), int(rating + tenth), int(adjustment), int(slope))
            added = self.card.post(self.mode, *division)
        except Refused as refused:
            return "refused with %d: %s" % (*refused.args, REFUSED[refused.args[0]])
        return "floor %s, value %s, ceiling %s" % tuple(map(tenths, added))

    def last_lines(self):
        card = self.card
        card.check_law()
        low, figure, high = map(tenths, (card.low, card.figure, card.high))
        hundredths = 5 * (card.near + 2 * card.far)  # 0.05 for every half of a tenth
        within = "%d.%02d" % divmod(hundredths, 100)
        differentials = "differential" if card.posted == 1 else "differentials"
        return (
            "season: low %s, figure %s, high %s\n" % (low, figure, high)
            + "counts: posted %d, near %d, far %d\n" % (card.posted, card.near, card.far)
            + "The exact sum of the %d %s posted is at least %s and at most %s, and it lies within %s of %s.\n"
            % (card.posted, differentials, low, high, within, figure)
        )


def answers(input_bytes, mode=1):
    """The answers to all lines, as bytes, each ended by a newline, and the last lines."""
    season = Season(mode)
    said = answer_lines(input_bytes, season.answer_line)
    return said + season.last_lines().encode("ascii")


def main(arguments):
    """The exit status; only the first argument counts."""
    mode = arguments[0] if arguments else "1"
    if not re.fullmatch("[0-9]{1,9}", mode) or int(mode) not in MODES:
        print("the mode is not a number from 1 to 7", file=sys.stderr)
        return 1
    sys.stdout.buffer.write(answers(sys.stdin.buffer.read(), int(mode)))
    return 0


if __name__ == "__main__":
    sys.exit(main(sys.argv[1:]))
