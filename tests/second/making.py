"""Making and reading cases: the fields of a line, shapes as document 01 writes them, and shapes by chance."""

import re
from itertools import combinations

from shapes import (
    ALL_CODES, BASE_SIZE, BLOCK_SIZE, MOST_BLOCKS, MOST_CHARACTERS, WORD_CODES, Refused, agree, fillings, shape_of,
)

# Every program reads its input line by line: so many lines, each with its newline in a buffer of so many bytes.
MOST_LINES = 1_000_000
LINE_ROOM = 66_000

# Most have room for so many numbers of a line: three shapes, six numbers to a block, and what stands before them.
MOST_NUMBERS = 640

# What the cells of an output of numbers hold before a call.
NUMBER_FILLER = 0xA5A5


# Fields.


def numbers_read(fields):
    return [int(field, 16) for field in fields]


def hexes(numbers):
    return [f"{number:x}" for number in numbers]


def counted(numbers):
    """The numbers of a list with their count before them."""
    return [len(numbers), *numbers]


def lists_read(numbers, count):
    """So many lists, each after its own count, which have to be all of the numbers."""
    lists = []
    for _ in range(count):
        length, *rest = numbers
        if length > len(rest):
            raise AssertionError(f"a list that is cut short: {numbers}")
        lists.append(rest[:length])
        numbers = rest[length:]
    if numbers:
        raise AssertionError(f"numbers behind the last list: {numbers}")
    return lists


def hold_lines_to_room(lines):
    """Raises where a program could not read the lines."""
    for line in lines:
        if len(line) + 1 > LINE_ROOM:
            raise AssertionError(f"no room for this line: {line}")
    if len(lines) > MOST_LINES:
        raise AssertionError("no room for so many cases")


def hold_numbers_to_room(lines, most_numbers=MOST_NUMBERS):
    """Raises where a program with room for so many numbers to a line could not read the lines."""
    hold_lines_to_room(lines)
    for line in lines:
        fields = line.split(" ")[1:]
        if len(fields) > most_numbers or any(len(field) > 16 for field in fields):
            raise AssertionError(f"no room for this case: {line}")


# Shapes as they are written.


def block(base, lower, upper):
    """The numbers of a block."""
    words = [0] * BASE_SIZE
    for code in base:
        words[code // WORD_CODES] |= 1 << code % WORD_CODES
    return [*words, lower, upper]


def words_of(shape):
    """The numbers of a shape's blocks."""
    return [word for base, lower, upper in shape for word in block(base, lower, upper)]


WRITTEN = re.compile(r"(?:\{([^}]*)\}|(\S))(\d+)\.\.(\d+)|empty 0\.\.0")


def written(shape):
    """The numbers of a shape as document 01 writes it, as `{a,b}0..3 d5..5 {a..c}1..1`."""
    words = []
    for found in WRITTEN.finditer(shape):
        many, one, lower, upper = found.groups()
        base = []
        for part in (many or one or "").split(",") if many or one else []:
            first, _, last = part.partition("..")
            base += range(ord(first), ord(last or first) + 1)
        words += block(base, int(lower or 0), int(upper or 0))
    return words


def many_blocks(count, total, codes=b"AB"):
    """A shape of so many blocks whose uppers add to `total`, bases by turns of one and of the other character."""
    uppers = [total // count + (number < total % count) for number in range(count)]
    return [word for number, upper in enumerate(uppers) for word in block([codes[number % 2]], 0, upper)]


# Blocks that are wrong in one, in two and in three ways at once, with the number that document 02, order 1, gives each.
WAYS = (
    # Lower above upper alone; with upper above 250; with base against upper; all three.
    (2, block(b"A", 2, 1)),
    (2, block(b"A", 251, 250)),
    (2, block(b"", 1, 0)),
    (2, block(b"A", 252, 251)),
    (2, block(b"A", 2**64 - 1, 2**64 - 2)),
    (2, block(b"A", 1, 0)),
    (2, block(b"", 2, 1)),
    (2, block(b"", 251, 250)),
    (2, block(b"", 252, 251)),
    (2, block(b"", 2**64 - 1, 2**64 - 2)),
    # Upper above 250 alone; with an empty base.
    (10, block(b"A", 0, 251)),
    (10, block(b"A", 250, 251)),
    (10, block(b"A", 251, 251)),
    (10, block(b"A", 2**64 - 1, 2**64 - 1)),
    (10, block(b"", 0, 251)),
    (10, block(b"", 251, 251)),
    (10, block(b"", 0, 2**64 - 1)),
    # Base against upper alone.
    (11, block(b"", 0, 1)),
    (11, block(b"", 1, 1)),
    (11, block(b"", 250, 250)),
    (11, block(b"A", 0, 0)),
)


def hold_to_ways():
    """Each block of the table is refused with the number that stands beside it."""
    for number, words in WAYS:
        try:
            refusal = shape_of(words)
        except Refused as refused:
            refusal = refused.args
        agree("document 02, order 1", words, refusal, (number, 1, 1))


# One that is wrong in one way for each number, and shapes in which two blocks are wrong: the first decides.
ONE_EACH = (block(b"A", 2, 1), block(b"A", 0, 251), block(b"", 0, 1))
TWO_BAD = tuple(one + other for one in ONE_EACH for other in ONE_EACH if one != other)


def unsound_blocks():
    """Blocks that are unsound in every way, the numbers also far above the limits."""
    yield from (words for _, words in WAYS)
    # Bases of one character, and bases whose first two numbers have 0 as sum, difference or common bits.
    for base in ((0,), (63,), (64,), (127,), (63, 127), (0, 64), (0, 65), range(64), range(128)):
        yield block(base, 0, 0)
    # What a narrower number or a sum that wraps would take for a small count.
    for far in (2**8, 2**16, 2**31, 2**32, 2**63, 2**64 - 8):
        yield block(b"A", 0, far)
        yield block(b"A", 0, far + 5)
        yield block(b"A", far, 5)
        yield block(b"A", far + 3, 5)
        yield block(b"A", far + 3, far + 5)
    for far in (2**63 - 1, 2**64 - 1):
        yield block(b"A", 0, far)
        yield block(b"A", far, 1)
        yield block(b"", far, 0)
        yield block(b"", far, far)
    yield block(b"A", 2**63 - 1, 2**63 - 1)
    yield block(b"", 0, 2**63 - 1)


# By chance.


class Dice:
    """Numbers that look random and are the same with every Python."""

    def __init__(self, seed):
        self.state = seed

    def below(self, bound):
        self.state = (self.state * 6364136223846793005 + 1442695040888963407) % 2**64
        return (self.state >> 24) % bound

    def between(self, least, most):
        return least + self.below(most - least + 1)

    def pick(self, choices):
        return choices[self.below(len(choices))]

    def some(self, choices):
        """A part of the choices that is not empty."""
        part = [choice for choice in choices if self.below(2)]
        return part or [self.pick(choices)]


def random_text(dice, codes, length):
    return bytes(dice.pick(codes) for _ in range(length))


def random_filling(dice, shape):
    return b"".join(random_text(dice, base, dice.between(lower, upper)) for base, lower, upper in shape)


def padded_anew(dice, text, most):
    """The text with blanks at its end, at most so many, in place of those that it has there."""
    return (text.rstrip(b" ") + b" " * dice.pick((0, 1, dice.between(0, most), most)))[:MOST_CHARACTERS]


def recased(dice, text):
    """The text with each of its letters in either case."""
    return bytes(dice.pick(codes) for codes in zip(text, text.swapcase()))


# Mostly codes whose numbers are short to write.
ALPHABETS = (
    (0, 1), (0, 1, 2), (64, 65), (64, 65, 66), (0, 1, 64, 65), b"ABCD", b"Nm", (62, 63, 64, 65), (0, 63, 64, 127),
)


def small_shape(dice, alphabets=ALPHABETS):
    codes = dice.pick(alphabets)
    words = []
    for _ in range(dice.between(1, 6)):
        upper = dice.pick((0, 1, 1, 1, 2, 2, 3))
        words += block(dice.some(codes) if upper else (), dice.between(0, upper), upper)
    return codes, words


LARGE_ALPHABETS = (b"AB", b"ABC", b"ABCDEFGH", (0, 1, 2, 64, 65, 66), range(60, 70), range(128))


def large_shape(dice, alphabets=LARGE_ALPHABETS):
    codes = dice.pick(alphabets)
    count = dice.pick((3, 8, 16, 31, 32))
    return codes, shared_out(dice, codes, count, dice.pick((100, 200, 250)))


def shared_out(dice, codes, count, total):
    """A shape of so many blocks among which so many characters are shared out."""
    uppers = [0] * count
    for _ in range(total):
        uppers[dice.below(count)] += 1
    words = []
    for upper in uppers:
        lower = dice.pick((0, 0, upper, dice.between(0, upper)))
        words += block(dice.some(codes) if upper else (), lower, upper)
    return words


def carved(dice, codes, text, blocks):
    """A shape of so many blocks that the text fits: it is cut at random, and each block made wider than its part."""
    cuts = sorted(dice.between(0, len(text)) for _ in range(blocks - 1))
    parts = [text[start:end] for start, end in zip([0, *cuts], [*cuts, len(text)])]
    room = MOST_CHARACTERS - len(text)
    words = []
    for part in parts:
        more = min(dice.pick((0, 0, 1, 2)), room)
        room -= more
        upper = len(part) + more
        base = {*part, *(dice.some(codes) if dice.below(2) and upper else ())}
        if upper and not base:
            base = {dice.pick(codes)}
        words += block(sorted(base), max(0, len(part) - dice.pick((0, 0, 1, 3))), upper)
    return words


SMALL_ALPHABETS = ((0, 1), (0, 1, 2), (0, 1, 2), (64, 65), (0, 64), (0, 1, 63, 64, 127))

# With the blank: beside its neighbours, beside a code with its bit in another number of a base, beside letters.
PADDED_ALPHABETS = ((31, 32), (32, 33), (32, 96), (0, 32, 64), b" A", b" A", b" AB", b" AB")

# With codes above 127: beside those below, with their bit in several numbers of a base, and at the ends of a number.
HIGH_ALPHABETS = (
    (127, 128), (128, 129), (191, 192), (254, 255), (0, 128), (128, 192), (64, 192), (63, 127, 191, 255),
    (0, 64, 128, 192),
)
LARGE_HIGH_ALPHABETS = ((128, 192), range(124, 132), range(188, 196), (0, 64, 128, 192), ALL_CODES)

# With letters in both cases: alone, beside their neighbours that are none, beside the blank, and two of them.
CASE_ALPHABETS = (b"Aa", b"@A`a", b"Z[z{", b" Nn", b"MNmn", b"MNmn")

# Letters and the blank beside codes with the same bits in the upper numbers of a base.
HIGH_CASE_ALPHABETS = (b"Aa\xc1\xe1", b" \xa0", b"n\xee\xce", b" A\xe1")


def same(text):
    return text


def small_pair(dice, most_fillings, alphabets=SMALL_ALPHABETS, changed=same):
    """Two shapes over one alphabet with few fillings; every second time the other one takes a text of the first, as it
    is or changed."""
    while True:
        codes = dice.pick(alphabets)
        words = small_blocks(dice, codes)
        kind = dice.below(8)
        if kind < 4:
            other = carved(dice, codes, changed(random_filling(dice, shape_of(words))), dice.between(1, 4))
        elif kind == 4:
            other = words
        else:
            other = small_blocks(dice, codes)
        pair = (words, other) if dice.below(2) else (other, words)
        if all(fillings(shape_of(one)) <= most_fillings for one in pair):
            return pair


def small_blocks(dice, codes):
    words = []
    for _ in range(dice.between(1, 4)):
        upper = dice.pick((0, 1, 1, 1, 2, 2, 3))
        words += block(dice.some(codes) if upper else (), dice.between(0, upper), upper)
    return words


def large_pair(dice, alphabets=LARGE_ALPHABETS, changed=same):
    """Two shapes with many characters; mostly the other one takes a text of the first, as it is or changed."""
    codes, words = large_shape(dice, alphabets)
    text = changed(random_filling(dice, shape_of(words)))
    kind = dice.below(6)
    if kind == 0:
        other = large_shape(dice, alphabets)[1]
    elif kind == 1:
        other = words
    else:
        other = carved(dice, codes, text, dice.pick((1, 2, 8, 31, 32)))
    return (words, other) if dice.below(2) else (other, words)


def edge_pairs():
    """Pairs at the limits, and with blocks that hold nothing."""
    empty = block((), 0, 0)
    one = written("A0..250")
    whole = block(range(128), 0, 250)
    sevens = block(b"A", 0, 7) * 32
    letters = [word for number in range(32) for word in block([65 + number % 26], 0, 7)]
    fixed = [word for number in range(32) for word in block([65 + number % 2], 7, 7)]
    by_turns = [word for number in range(32) for word in (block(b"A", 0, 8) if number % 2 else block(b"A", 7, 7))]
    shapes = [empty, empty * 2, empty * 32, one, whole, sevens, letters, fixed, by_turns]
    shapes += [many_blocks(32, 250), written("A250..250"), written("A0..1"), empty + written("A1..2") + empty]
    for first in shapes:
        for second in shapes:
            yield first, second
    # The least and greatest codes of the first two numbers of a base.
    codes = [block([code], 1, 1) for code in (0, 63, 64, 127)]
    codes += [block((0, 63, 64, 127), 0, 2), block((0, 127), 1, 2), block((63, 64), 1, 2), block(range(128), 2, 2)]
    for first in codes:
        for second in codes:
            yield first, second
            yield first + second, second + first


# The least and greatest codes of the numbers of a base, but for 0.
WORD_ENDS = (63, 64, 127, 128, 191, 192, 255)


def high_pairs():
    """Pairs at the ends of every number of a base."""
    for code in WORD_ENDS:
        # Itself, and the codes with the same bit in another number.
        for other in (code, code ^ 64, code ^ 128, code ^ 192):
            yield block([code], 1, 1), block([other], 0, 2)
        # Bases that meet in it only, and one that has its neighbour alone; all codes, and all others.
        behind = block([code, min(code + 1, 255)], 2, 3)
        yield block([code - 1, code], 1, 2), behind
        yield block([code - 1], 1, 1), behind
        yield block([code], 1, 1), block(ALL_CODES, 0, 2)
        yield block([other for other in ALL_CODES if other != code], 0, 2), block([code], 1, 1)
    # A text that goes over from one number to the next.
    for low, high in ((63, 64), (127, 128), (191, 192), (254, 255)):
        yield block([low], 1, 1) + block([high], 1, 1), block([low, high], 2, 2)
        yield block([low], 0, 2) + block([high], 0, 2), block([high], 1, 1) + block([low], 0, 1)
    # Large bases, and such as would meet if their third and fourth number were exchanged in one of them.
    bases = [ALL_CODES, range(128), range(128, 256), range(128, 192), range(192, 256)]
    bases += [ALL_CODES[::2], ALL_CODES[1::2], (129, 192), (128, 193)]
    for one, other in combinations(bases, 2):
        yield block(one, 1, 2), block(other, 2, 3)


# Shapes of blocks of four numbers, as they once were. Of three of them, and of 33, two blocks and 22 can be read.
OLD_SHAPES = tuple([6, 0, 0, 3] * count for count in (1, 2, 3, 4, 32, 33))


def high_unsound_blocks():
    """Blocks with a base against the upper 0: of codes above 127 only, or with numbers whose sum, difference or common
    bits are 0."""
    for base in ((128,), (191,), (192,), (255,), (63, 127, 191, 255), (191, 255), (63, 191), (128, 192), ALL_CODES):
        yield block(base, 0, 0)


def drawn_high_pairs(dice, number, most_fillings):
    """Pairs with codes above 127: so many small ones, some large ones, and some of which one shape is refused."""
    for _ in range(number):
        yield small_pair(dice, most_fillings, HIGH_ALPHABETS)
    for _ in range(6):
        yield large_pair(dice, LARGE_HIGH_ALPHABETS)
    good = block([128], 1, 1)
    for bad in high_unsound_blocks():
        yield bad, good
        yield good, good + bad


def refused_pairs():
    """Pairs of which one shape or both are refused, for every reason, and one that is not."""
    good = block(b"AB", 0, 3)
    bad = block(b"A", 2, 1)
    heavy = block(b"A", 0, 200)
    shapes = [[], [1], good[:-1], good + [7], good * 33, good * 32 + [0]]
    shapes += [bad, good + bad, good + bad + bad, bad + heavy * 2, heavy * 2 + bad, bad + good * 32, bad + [0]]
    shapes += [heavy * 2, block(b"A", 0, 251), many_blocks(32, 251), many_blocks(2, 251)]
    for first in shapes:
        yield first, good
        yield good, first
        yield first, first
        for second in ([], bad, heavy * 2):
            yield first, second
    yield good, good
    for shape in TWO_BAD:
        yield shape, good
        yield good, good + shape
        yield shape[:BLOCK_SIZE], shape[BLOCK_SIZE:]
    for unsound in unsound_blocks():
        yield unsound, good
        yield good, good + unsound
    for place in (1, 2, 16, 31, 32):
        shape = good * (place - 1) + bad + good * (MOST_BLOCKS - place)
        yield shape, good
        yield good, shape
