"""Checks the model of decimal words against the published test lines, then makes the stored input and expected output."""

import os
import re
import shlex
import sys
from decimal import ROUND_HALF_UP, Context, Decimal, InvalidOperation

sys.dont_write_bytecode = True
from reference_words import (  # noqa: E402
    Number, answers, declet_to_digits, decode, digits_to_declet, encode, show,
)

USAGE = "usage: make_words_vectors.py [--check] VECTORS_FOLDER OUT_STDIN OUT_STDOUT"

DECIMAL32 = Context(
    prec=7, Emin=-95, Emax=96, clamp=1, rounding=ROUND_HALF_UP, traps=[InvalidOperation]
)
DIRECTIVES = {
    "version": "2.59",
    "extended": "1",
    "clamp": "1",
    "precision": "7",
    "rounding": "half_up",
    "maxexponent": "96",
    "minexponent": "-95",
}


def number_of(value):
    """A decimal.Decimal as a number of the model."""
    sign, digits, exponent = value.as_tuple()
    sign = "-" if sign else "+"
    if value.is_infinite():
        return Number(sign, "inf", 0, 0)
    coefficient = int("".join(map(str, digits)) or "0")
    if value.is_nan():
        return Number(sign, "snan" if value.is_snan() else "nan", coefficient, 0)
    return Number(sign, "finite", coefficient, exponent)


def word_of(operand):
    """The word of an operand such as #A23003D0, or None if it is a number."""
    if not operand.startswith("#"):
        return None
    if not re.fullmatch("#[0-9A-Fa-f]{8}", operand):
        sys.exit("not a word of eight digits: " + operand)
    return int(operand[1:], 16)


def check_published_line(name, left, right):
    """Compare the model with one published line; return the words in it."""
    left_word, right_word = word_of(left), word_of(right)
    if left_word is None:
        number = number_of(DECIMAL32.create_decimal(left))
    else:
        number = decode(left_word)
    if right_word is not None:
        expected, got = "%08X" % right_word, "%08X" % encode(number)
    else:
        if left_word is None:  # no word at all: go through one and back
            number = decode(encode(number))
        expected, got = show(number_of(Decimal(right))), show(number)
    if got != expected:
        sys.exit("%s: published %s, the model says %s" % (name, expected, got))
    return [word for word in (left_word, right_word) if word is not None]


def published_words(path):
    """Check every published line of the file; return all words in them."""
    with open(path, encoding="ascii") as file:
        lines = [line.split("--")[0].strip() for line in file]
    words, checked, with_word = [], 0, 0
    for line in filter(None, lines):
        directive = re.fullmatch(r"(\w+):\s*(\S+)", line)
        if directive:
            if DIRECTIVES.get(directive[1].lower()) != directive[2].lower():
                sys.exit("unexpected directive: " + line)
            continue
        fields = shlex.split(line)  # name apply LEFT -> RIGHT conditions
        if len(fields) < 5 or fields[1] != "apply" or fields[3] != "->":
            sys.exit("cannot read the published line: " + line)
        found = check_published_line(fields[0], fields[2], fields[4])
        words += found
        checked += 1
        with_word += bool(found)
    wanted = sum("->" in line and "#" in line for line in lines)
    if with_word < wanted or wanted == 0:
        sys.exit("checked only %d of %d published lines with a word" % (with_word, wanted))
    print(
        "checked %d published lines, %d of them with a word: all agree" % (checked, with_word),
        file=sys.stderr,
    )
    return words


def check_declets():
    """The published lines leave gaps: compare the model's two tables everywhere."""
    read = {bits: declet_to_digits(bits) for bits in (format(n, "010b") for n in range(1024))}
    for digits in (format(n, "03d") for n in range(1000)):
        if read[digits_to_declet(digits)] != digits:
            sys.exit("the declet of %s does not read back" % digits)
    redundant = [bits for bits in read if digits_to_declet(read[bits]) != bits]
    if len(redundant) != 24 or any(read[bits] != read["00" + bits[2:]] for bits in redundant):
        sys.exit("the model has the wrong redundant declets: " + " ".join(redundant))


def declet_words():
    """All declets: last and first in a finite word, and in both kinds of NaN."""
    every = range(1024)
    yield from (0x22500000 | declet for declet in every)
    yield from (0x22500000 | declet << 10 for declet in every)
    yield from (0x7C000000 | declet << 10 | 1023 - declet for declet in every)
    yield from (0xFE000000 | declet << 10 | 1023 - declet for declet in every)


def field_words():
    """All combination fields, some of them with all 64 continuations."""
    full = (0b00000, 0b00111, 0b01000, 0b10001, 0b11000, 0b11011, 0b11101, 0b11110, 0b11111)
    for combination in range(32):
        for continuation in range(64) if combination in full else (0, 1, 31, 32, 63):
            for sign in (0, 1):
                for tail in (0x00000, 0x4D2E7):
                    yield sign << 31 | combination << 26 | continuation << 20 | tail


def junk_words():
    """Infinities and NaNs with junk in the ignored bits."""
    for start in (0x78000000, 0xF8000000, 0x7C000000, 0xFC000000, 0x7E000000, 0xFE000000):
        is_infinity = start & 0x04000000 == 0
        for bit in range(0 if is_infinity else 20, 26 if is_infinity else 25):
            yield start | 1 << bit
            yield start | 1 << bit | 0x000A3
        yield start | 0x01FFFFFF


def random_words():
    """3,000 words of a linear congruential generator with a fixed seed."""
    state = 20080829
    for _ in range(3000):
        state = (state * 6364136223846793005 + 1442695040888963407) % 2**64
        yield state >> 32


def malformed_lines():
    """Lines that are no words."""
    yield from (b"", b"2250000", b"225000011", b"1", b" ", b"22500001 22500001")
    yield from (b" 22500001", b"22500001 ", b" 2250000", b"2250000 ", b"\t22500001", b"2250 001")
    yield from (b"22500001\r", b"2250000\r", b"\r", b"\r22500001", b"22500001\r22500001")
    yield from (b"22500001\v", b"22500001\f22500001", b"22500001\x1c22500001", b"22500001\x85")
    yield from (b"\x0022500001", b"22500001\x00", b"2250000\x00", b"\x00", b"2250\x00001")
    yield from (b"2250000\xb1", b"22500001\xff", b"\xff", b"\xef\xbb\xbf22500001", b"2250000\xc3\xa9")
    yield from (b"22500\xef\xbc\x91", b"2250000\xef\xbc\x91", b"22500001\xe2\x80\xa822500001")
    yield from (b"0x22500001", b"0x225001", b"0X225001", b"#22500001", b"#2250001", b"22500001h")
    yield from (b"2250000" + bytes([neighbour]) for neighbour in b"gG/:@`")
    yield from (b"g2500001", b"+2250001", b"-2250001", b"2250_001", b"2250.001", b"? line 1")
    for length in (10, 16, 31, 32, 33, 34, 35, 40, 41, 42, 64, 5000):
        yield (b"22500001" * 625)[:length]
    yield b"no word " * 625


def text_of(n, word):
    """Eight digits: capitals, small letters and both mixed, in turn."""
    text = "%08X" % word
    mixed = "".join(char if i % 2 else char.lower() for i, char in enumerate(text))
    return (text, text.lower(), mixed)[n % 3].encode("ascii")


def make_input(published):
    """The whole input; each malformed line stands once alone, once in a row."""
    words = list(published)
    for part in (declet_words(), field_words(), junk_words(), random_words()):
        words += part
    lines = [text_of(n, word) for n, word in enumerate(words)]
    malformed = list(malformed_lines())
    gap = len(lines) // len(malformed)
    for i, line in enumerate(malformed):
        lines.insert(i * (gap + 1), line)
    return b"\n".join(lines + malformed + [b"a23003D0"])


def differs(path, made):
    """Say whether a stored file is not what was made, and where."""
    try:
        with open(path, "rb") as file:
            stored = file.read()
    except OSError as error:
        print("cannot read %s: %s" % (path, error.strerror), file=sys.stderr)
        return True
    if stored == made:
        return False
    same = len(os.path.commonprefix([stored, made]))
    line = made[:same].count(b"\n") + 1
    print(
        "%s differs from what is made now, first at byte %d in line %d" % (path, same + 1, line),
        file=sys.stderr,
    )
    return True


def make(folder):
    """The input and the expected output, once the model has passed its checks."""
    check_declets()
    stdin = make_input(published_words(os.path.join(folder, "dsEncode.decTest")))
    stdout = answers(stdin)
    print("%d input lines" % stdout.count(b"\n"), file=sys.stderr)
    return stdin, stdout


def keep(check, paths, made):
    """Write what was made, or compare it with what is stored; the exit status."""
    files = list(zip(paths, made))
    if check:
        return int(any([differs(path, data) for path, data in files]))
    for path, data in files:
        with open(path, "wb") as file:
            file.write(data)
    return 0


def store(arguments, usage, make):
    """Write what `make` gives for a folder of published lines, or with --check compare it with what is stored; the exit status."""
    check = arguments[:1] == ["--check"]
    paths = arguments[check:]
    if len(paths) != 3:
        print(usage, file=sys.stderr)
        return 2
    return keep(check, paths[1:], make(paths[0]))


if __name__ == "__main__":
    sys.exit(store(sys.argv[1:], USAGE, make))
