"""Reads stored lines `MODE WORD WORD` and writes every pair of words in them, and the pair turned round, in each of the seven modes."""

import re
import sys

LINE = re.compile(rb"[1-7] ([0-9A-Fa-f]{8}) ([0-9A-Fa-f]{8})")


def main():
    pairs = {}
    for line in sys.stdin.buffer.read().split(b"\n"):
        good = LINE.fullmatch(line)
        if good:
            dividend, divisor = good.group(1).upper(), good.group(2).upper()
            pairs[dividend, divisor] = None
            pairs[divisor, dividend] = None
    for dividend, divisor in pairs:
        for mode in range(1, 8):
            sys.stdout.buffer.write(b"%d %s %s\n" % (mode, dividend, divisor))
    print("%d pairs of words" % len(pairs), file=sys.stderr)


if __name__ == "__main__":
    main()
