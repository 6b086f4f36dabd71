"""The cases of the program `cases`: check, fitting, order, least and greatest text."""

from itertools import product

from bounds import bound, earlier, fits
from making import (
    ALPHABETS, HIGH_ALPHABETS, LARGE_ALPHABETS, LARGE_HIGH_ALPHABETS, OLD_SHAPES, ONE_EACH, TWO_BAD, WORD_ENDS, Dice,
    block, hexes, high_unsound_blocks, hold_lines_to_room, hold_to_ways, large_shape, many_blocks, numbers_read,
    random_filling, random_text, small_shape, unsound_blocks, written,
)
from shapes import ALL_CODES, BLOCK_SIZE, FEW_FILLINGS, Refused, agree, all_texts, fillings, shape_of

OUTPUT_WANTED = 250
FILLER = 0xA5

# What the program has room for.
MOST_WORDS = 300
LONGEST_TEXT = 400
LONGEST_OUTPUT = 300


# The expected line of a case.


def text_shown(text):
    return text.hex() or "-"


def text_read(field):
    return b"" if field == "-" else bytes.fromhex(field)


def shown_check(fields):
    shape_of(numbers_read(fields))
    return "sound"


def shown_fit(fields):
    shape = shape_of(numbers_read(fields[1:]))
    return "fits" if fits(shape, text_read(fields[0])) else "unfit"


def shown_earlier(fields):
    first, second = fields
    return text_shown(earlier(text_read(first), text_read(second)))


def shown_bound(fields, greatest):
    length, *words = numbers_read(fields)
    output = bytes([FILLER]) * length
    try:
        shape = shape_of(words)
        if length < OUTPUT_WANTED:
            raise Refused(5, 0, 0)
    except Refused as refusal:
        return f"{refusal.line} {text_shown(output)}"
    text = bound(shape, greatest)
    return f"text {len(text)} {text_shown(text + output[len(text):])}"


SHOWN = {
    "C": shown_check,
    "F": shown_fit,
    "O": shown_earlier,
    "L": lambda fields: shown_bound(fields, False),
    "G": lambda fields: shown_bound(fields, True),
}


def expected_line(line):
    letter, *fields = line.split(" ")
    try:
        return SHOWN[letter](fields)
    except Refused as refusal:
        return refusal.line


# Making cases.


class Cases:
    def __init__(self):
        self.lines = []

    def add(self, letter, *fields):
        self.lines.append(" ".join((letter, *fields)))

    def check(self, words):
        self.add("C", *hexes(words))

    def fit(self, text, words):
        self.add("F", text_shown(text), *hexes(words))

    def earlier(self, first, second):
        self.add("O", text_shown(first), text_shown(second))

    def bounds(self, words, length=OUTPUT_WANTED):
        self.add("L", *hexes([length, *words]))
        self.add("G", *hexes([length, *words]))

    def all(self, words):
        """A shape in each of the calls that take one."""
        self.check(words)
        self.fit(b"", words)
        self.bounds(words)


# 003, figure 2(a): the shape, its least and its greatest text. Two slips in the figure's two parts,
# both in print only: the greatest of the fourth row is printed a^1 a^0 d^10, and its middle block is
# c, so c^0; in part (b) the third count of the greatest is set low, a_1 for a^1. The texts are right.
# The last row here is part (b).
FIGURE = (
    ("c0..10 a0..10 d0..10", "c0 a0 d0", "c0 a0 d10"),
    ("c0..10 a1..10 d0..10", "c0 a1 d0", "c10 a1 d10"),
    ("c0..10 a1..10 d1..10", "c0 a10 d1", "c10 a1 d10"),
    ("a1..10 c0..10 d1..10", "a10 c10 d1", "a1 c0 d10"),
    ("c1..10 d0..10 a1..10", "c1 d0 a1", "c1 d10 a10"),
    ("a0..10 d0..10 a1..10 d0..10", "a0 d0 a1 d0", "a0 d10 a1 d10"),
    ("a0..10 d0..10 a1..10 d1..10", "a10 d0 a10 d1", "a0 d10 a1 d10"),
    ("a0..10 d0..10 a1..10 e1..10", "a10 d0 a10 e1", "a0 d10 a1 e10"),
)


def runs_joined(runs):
    return b"".join(run[0].encode() * int(run[1:]) for run in runs.split())


def figure_cases(cases):
    for shape, least, greatest in FIGURE:
        words = written(shape)
        bounds = (runs_joined(least), runs_joined(greatest))
        for text, greater in zip(bounds, (False, True)):
            agree("003's figure 2", shape, bound(shape_of(words), greater), text)
            cases.fit(text, words)
        cases.check(words)
        cases.bounds(words)


def limit_cases(cases):
    # Blocks: 1 to 32, and lengths that are no whole blocks.
    for count in (1, 2, 31, 32, 33, 34, 50):
        cases.all(many_blocks(count, 2 * count))
    for length in (*range(6), *range(7, 12), 190, 191, *range(193, 198), 199, 299):
        cases.all(many_blocks(50, 100)[:length])
    for length in (12, 16, 20, 24, 124, 128, 132, 192, 198, 264):
        cases.check(many_blocks(50, 100)[:length])
    for words in OLD_SHAPES:
        cases.check(words)
    # A single upper.
    for upper in (0, 1, 249, 250, 251, 252):
        for lower in (0, 1, 249, 250, 251):
            cases.all(block(b"A", lower, upper))
            cases.all(block(b"", lower, upper))
    # All uppers together.
    for count in (2, 3, 5, 31, 32):
        for total in (249, 250, 251, 252, 256):
            cases.all(many_blocks(count, total))
    cases.all(written("A250..250 empty 0..0"))
    cases.all(written("A250..250 B0..1"))
    cases.all(written("A0..1 B250..250"))
    cases.all(written("A125..125 B125..125"))
    cases.all(written("A125..125 B126..126"))
    cases.all(written("A250..250 B250..250"))
    cases.all([word for _ in range(32) for word in block(b"A", 250, 250)])
    # Outputs.
    for length in (0, 1, 2, 248, 249, 250, 251, 252, 255, 256, 257, 300):
        for shape in ("A250..250", "A0..250", "empty 0..0", "A1..2 B0..1", "B249..249", "{a..z}249..250"):
            cases.bounds(written(shape), length)


def refusal_cases(cases):
    hold_to_ways()
    good = block(b"AB", 0, 3)
    for shape in TWO_BAD:
        cases.all(shape)
        cases.all(good + shape)
        cases.check(shape[:BLOCK_SIZE] + good * 30 + shape[BLOCK_SIZE:])
        cases.check(good * 30 + shape)
    for bad in unsound_blocks():
        cases.all(bad)
        cases.check(bad + good + good)
        cases.check(good + bad + good)
        cases.check(good + good + bad)
    bad = block(b"A", 2, 1)
    for place in (1, 2, 16, 31, 32):
        cases.all(good * (place - 1) + bad + good * (32 - place))
        for second in range(place + 1, 33, 7):
            between = second - place - 1
            cases.check(good * (place - 1) + bad + good * between + block(b"", 0, 1) + good * (32 - second))
    # The first number decides: 1, then that of the first bad block, then 3, then 5.
    heavy = block(b"A", 0, 200)
    for wrong in ONE_EACH:
        cases.all(wrong + good * 32)
        cases.all(wrong + [0])
        cases.all(wrong + heavy + heavy)
        cases.all(heavy + heavy + wrong)
        cases.all(heavy + wrong + heavy)
    cases.all(good * 33 + [2**64 - 1])
    cases.all(heavy + heavy)
    for length in (0, 1, 249):
        for words in ([], [1], good * 33, *ONE_EACH, good + bad, bad + heavy * 2, heavy * 2, heavy * 2 + bad, good):
            cases.bounds(words, length)
    # Two uppers whose sum is 0 at 64 bits, and more of that kind.
    half = block(b"A", 0, 2**63)
    cases.all(half + half)
    cases.all(good + half + half)
    cases.all(good + block(b"A", 0, 2**64 - 1) + block(b"B", 0, 1))
    cases.all(good + block(b"A", 0, 2**64 - 3))
    cases.all(block(b"A", 2**63, 2**63) + block(b"B", 2**63, 2**63))


# The least and greatest codes of the first two numbers of a base, and of all four.
EDGE_CODES = (0, 1, 62, 63, 64, 65, 126, 127)
EDGE_BYTES = (0, 1, 62, 63, 64, 65, 126, 127, 128, 129, 191, 192, 254, 255)


def code_cases(cases):
    whole = range(128)
    for code in EDGE_CODES:
        words = block([code], 1, 2)
        cases.check(words)
        cases.bounds(words)
        for byte in EDGE_BYTES:
            cases.fit(bytes([byte]), words)
    for base in (whole, range(64), range(64, 128), (0, 127), (63, 64), (63, 127), (0, 64), EDGE_CODES):
        words = block(base, 0, 3)
        cases.all(words)
        cases.bounds(block(base, 2, 3) + block([63], 0, 1))
        for byte in EDGE_BYTES:
            cases.fit(bytes([byte]), words)
            cases.fit(bytes([base[0], byte]), words)
    for byte in (127, 128, 255):
        for at in (0, 1, 124, 248, 249):
            text = bytearray(b"q" * 250)
            text[at] = byte
            cases.fit(bytes(text), block(whole, 0, 250))
    # Texts around the greatest length and far past it.
    for length in (0, 1, 249, 250, 251, 256, 257, 400):
        for shape in ("a0..250", "a250..250", "a0..125 {a,b}0..125", "a0..1"):
            cases.fit(b"a" * length, written(shape))
        cases.fit(b"a" * length, written("empty 0..0"))


def order_cases(cases):
    texts = [b"", b"\0", b"\0\0", b"a", b"aa", b"ab", b"b", b"ba", b"\x7f", b"\x80", b"\xff", b"\xff\0"]
    for first, second in product(texts, texts):
        cases.earlier(first, second)
    for length in (40, 251, 400):
        text = b"m" * length
        cases.earlier(text, text)
        cases.earlier(text, text[:-1])
        cases.earlier(text[:-1], text)
        for last in (b"\0", b"n", b"\xff"):
            cases.earlier(text, text[:-1] + last)
            cases.earlier(text[:-1] + last, text)
    dice = Dice(3)
    for _ in range(60):
        first = random_text(dice, (0, 97, 127, 128, 255), dice.below(12))
        cases.earlier(first, nearly(dice, first, (0, 97, 127, 128, 255)))
        cases.earlier(first, random_text(dice, (0, 97, 127, 128, 255), dice.below(12)))


def nearly(dice, text, codes):
    """The text with one character changed, added or dropped; an empty one can only gain one."""
    kind = dice.pick(("change", "add", "drop")) if text else "add"
    at = dice.below(len(text) + (kind == "add"))
    new = b"" if kind == "drop" else bytes([dice.pick(codes)])
    return text[:at] + new + text[at + (kind != "add") :]


def picked_cases(cases):
    """Shapes with several fillings for one text, and empty blocks in every place."""
    for shape in (
        "A0..1 A0..1",
        "A0..1 A0..1 A1..1",
        "A1..3 A2..2",
        "{A,B}0..2 {B,C}0..2 {A,C}0..2",
        "A0..1 B1..1 A0..1",
        "A2..3 C1..2 B1..1 C0..2 A3..4",
        "empty 0..0 A1..2",
        "A1..2 empty 0..0",
        "A0..2 empty 0..0 B0..2 empty 0..0 A1..1",
        "empty 0..0 empty 0..0",
        "B0..2 empty 0..0 A0..1 empty 0..0 B1..1",
        "A0..2 B0..1 A0..2 A1..1 C0..1",
        "B0..2 A0..2 B0..2 B1..1 A0..1",
        "{A..C}0..3",
        "{B,C,D}2..2",
    ):
        words = written(shape)
        cases.bounds(words)
        for length in range(5):
            for text in product(b"ABC", repeat=length) if length < 4 else [b"AAAA", b"AABA", b"ABAB"]:
                cases.fit(bytes(text), words)


def small_cases(cases, dice, count, alphabets=ALPHABETS):
    made = 0
    while made < count:
        codes, words = small_shape(dice, alphabets)
        shape = shape_of(words)
        if fillings(shape) > FEW_FILLINGS:
            continue
        made += 1
        text = random_filling(dice, shape)
        cases.fit(text, words)
        cases.fit(nearly(dice, text, codes), words)
        cases.fit(nearly(dice, dice.pick(sorted(all_texts(shape))), codes), words)
        cases.bounds(words)


def large_cases(cases, dice, count, alphabets=LARGE_ALPHABETS):
    for _ in range(count):
        codes, words = large_shape(dice, alphabets)
        text = random_filling(dice, shape_of(words))
        cases.fit(text, words)
        cases.fit(nearly(dice, text, codes), words)
        cases.bounds(words)


def high_cases(cases):
    """Codes above 127: at the ends of every number of a base, alone, beside their neighbours and among all."""
    for base in ([128], [191], [192], [255], *(range(code - 1, min(code + 2, 256)) for code in WORD_ENDS)):
        words = block(base, 1, 2)
        cases.check(words)
        cases.bounds(words)
        for byte in EDGE_BYTES:
            cases.fit(bytes([byte]), words)
    bases = [ALL_CODES, range(128, 256), range(128, 192), range(192, 256), (0, 255), (128, 192)]
    # They would meet if their third and fourth number were exchanged in one of them.
    bases += [(129, 192), (128, 193)]
    for base in bases:
        words = block(base, 0, 3)
        cases.all(words)
        cases.bounds(block([191], 0, 1) + block(base, 2, 3))
        for byte in EDGE_BYTES:
            cases.fit(bytes([base[0], byte]), words)
    # Every code alone, and one with its bit in another number of the base.
    for code in range(128, 256):
        cases.fit(bytes([code]), block([code], 1, 1))
        cases.fit(bytes([code]), block([code ^ (64, 128, 192)[code % 3]], 1, 1))
    # In long texts.
    for byte in (128, 192, 255):
        for at in (0, 249):
            text = bytearray(b"q" * 250)
            text[at] = byte
            cases.fit(bytes(text), block(ALL_CODES, 0, 250))
    cases.fit(bytes(ALL_CODES[-250:]), block(ALL_CODES, 250, 250))
    cases.fit(bytes(ALL_CODES[-250:]), block(ALL_CODES[:-1], 250, 250))
    for one, other in product(WORD_ENDS, repeat=2):
        cases.earlier(bytes([one]), bytes([other]))
    good = block([128], 0, 3)
    for bad in high_unsound_blocks():
        cases.all(bad)
        cases.check(good + bad + good)
    for bad in (block([128], 2, 1), block([255], 0, 251)):
        cases.all(good + bad)


def all_cases():
    cases = Cases()
    figure_cases(cases)
    limit_cases(cases)
    refusal_cases(cases)
    code_cases(cases)
    order_cases(cases)
    picked_cases(cases)
    small_cases(cases, Dice(1), 600)
    large_cases(cases, Dice(2), 40)
    high_cases(cases)
    small_cases(cases, Dice(4), 30, HIGH_ALPHABETS)
    large_cases(cases, Dice(5), 5, LARGE_HIGH_ALPHABETS)
    return cases.lines


# M is a case of find.py.
TEXT_FIELDS = {"F": 1, "O": 2, "M": 1}
OUTPUT_LETTERS = "LG"


def hold_to_room(lines):
    """Raises where a case is more than the program has room for."""
    hold_lines_to_room(lines)
    for line in lines:
        letter, *fields = line.split(" ")
        texts = TEXT_FIELDS.get(letter, 0)
        output = fields[:1] if letter in OUTPUT_LETTERS else []
        words = fields[texts + len(output) :]
        room = len(words) <= MOST_WORDS and all(len(word) <= 16 for word in words)
        room = room and all(len(text_read(text)) <= LONGEST_TEXT for text in fields[:texts])
        room = room and all(int(length, 16) <= LONGEST_OUTPUT for length in output)
        if not room:
            raise AssertionError(f"no room for this case: {line}")
