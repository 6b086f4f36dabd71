"""The cases of narrowing: two shapes under the equalities, "at most" and "before", and three under a join."""

from itertools import product

import joins
import pairs
from joins import JOIN, narrowed_join
from making import (
    CASE_ALPHABETS, HIGH_ALPHABETS, HIGH_CASE_ALPHABETS, LARGE_HIGH_ALPHABETS, NUMBER_FILLER, OLD_SHAPES, ONE_EACH,
    PADDED_ALPHABETS, WORD_ENDS, Dice, block, carved, counted, edge_pairs, hexes, high_pairs, high_unsound_blocks,
    hold_numbers_to_room, large_pair, lists_read, many_blocks, numbers_read, padded_anew, random_filling, recased,
    refused_pairs, shared_out, small_blocks, small_pair, unsound_blocks, words_of, written,
)
from pairs import (
    ANY_CASE, AT_MOST, BEFORE, CASED_EQUALITIES, CASED_KINDS, EQUAL, EQUALITIES, EXACT, FEW_FILLINGS, KINDS,
    in_other_case, narrowed,
)
from shapes import (
    ALL_CODES, BLANK, BLOCK_SIZE, MOST_BLOCKS, MOST_CHARACTERS, WORK_WANTED, Refused, agree, fillings, pair_of,
    shape_of, trio_of,
)
from sweep import places

# What the program has room for.
LONGEST_OUTPUT = 210
LONGEST_WORK = 70_000

# Pairs and trios of at most so many numbers are asked in more ways.
FEW_NUMBERS = 10 * BLOCK_SIZE


# The expected line of a case.


def work_shown(length, accepted):
    """The bytes 0 at the start of the work buffer, and the untouched ones at its end."""
    return f"work {WORK_WANTED} {length - WORK_WANTED}" if accepted else f"work 0 {length}"


def case_read(line):
    """The kind, the length of the work buffer, those of the outputs, and the numbers of the shapes."""
    letter, *numbers = line.split(" ")
    numbers = numbers_read(numbers)
    kind, count = (JOIN, 3) if letter == "J" else (numbers.pop(0), 2)
    return kind, numbers[0], numbers[1 : 1 + count], lists_read(numbers[1 + count :], count)


def result_of(kind, shapes):
    if kind == JOIN:
        result = narrowed_join(*shapes)
        joins.hold_to_laws(*shapes, result)
    else:
        result = narrowed(*shapes, kind)
        pairs.hold_to_laws(*shapes, kind, result)
    return result


def expected_line(line):
    kind, work, lengths, words = case_read(line)
    outputs = [[NUMBER_FILLER] * length for length in lengths]
    accepted = False
    try:
        shapes = trio_of(*words) if kind == JOIN else pair_of(*words)
        if work < WORK_WANTED:
            raise Refused(4, 0, 0)
        for number, (shape, output) in enumerate(zip(shapes, outputs), 1):
            if len(output) < BLOCK_SIZE * len(shape):
                raise Refused(5, number, 0)
        accepted = True
        result = result_of(kind, shapes)
        head = "none" if result is None else "narrow"
        for shape, output in zip(result or (), outputs):
            output[: BLOCK_SIZE * len(shape)] = words_of(shape)
    except Refused as refusal:
        head = refusal.line
    fields = [head]
    for number, output in enumerate(outputs):
        fields += ["/", *hexes(output)] if number else hexes(output)
    return " ".join([*fields, work_shown(work, accepted)])


# Making cases.


class Cases:
    def __init__(self):
        self.lines = []

    def add(self, kind, first, second, work=WORK_WANTED, length=None, other_length=None):
        """A case; without a length an output is exactly as long as it has to be."""
        length = len(first) if length is None else length
        other_length = len(second) if other_length is None else other_length
        numbers = [kind, work, length, other_length, *counted(first), *counted(second)]
        self.lines.append(" ".join(["N", *hexes(numbers)]))

    def kinds(self, first, second, kinds=CASED_KINDS):
        for kind in kinds:
            self.add(kind, first, second)

    def equalities(self, first, second, kinds=CASED_EQUALITIES):
        """Some equalities, both ways round."""
        self.kinds(first, second, kinds)
        if first != second:
            self.kinds(second, first, kinds)

    def join(self, whole, front, back, work=WORK_WANTED, lengths=(None, None, None)):
        """A case of three shapes; an output without a length is exactly as long as it has to be."""
        trio = whole, front, back
        lengths = [len(words) if length is None else length for length, words in zip(lengths, trio)]
        self.lines.append(" ".join(["J", *hexes([work, *lengths, *(n for words in trio for n in counted(words))])]))


def by_turns(number):
    """One kind after the other, of those in which case counts."""
    return CASED_KINDS[number % len(CASED_KINDS)]


RUN = "{d,e}0..1 {f,g}0..4 {d,e,f}2..4 {a,b,c}0..3 {f,g}1..4", "{a,b}0..3 {c,d}0..3 a1..3 {d,e}1..3"

# Document 01's rows P1 to P7 and its run: kind, X, Y and the answer.
TABLE = (
    (EXACT, "{a,b,c}0..3", "{b,c,d}2..2", ("{b,c}2..2", "{b,c}2..2")),
    (
        EXACT,
        "{a..c}0..30 d5..5 {c..f}0..2",
        "{b..d}26..26 f1..1",
        ("{b,c}20..21 d5..5 {c,d,f}1..2", "{b..d}26..26 f1..1"),
    ),
    (EXACT, "a1..1", "b1..1", None),
    (EXACT, "a0..1", "b0..1", ("empty 0..0", "empty 0..0")),
    (EXACT, "a0..1 a0..1", "a1..1", ("a0..1 a0..1", "a1..1")),
    (BEFORE, "a1..1", "a1..1", None),
    (BEFORE, "a0..2", "a0..1", ("empty 0..0", "a1..1")),
    (
        AT_MOST,
        *RUN,
        ("d0..1 empty 0..0 d2..3 {a,b,c}1..3 {f,g}1..4", "empty 0..0 {c,d}2..3 a1..3 {d,e}1..3"),
    ),
)

PICKED = (
    # No common text, though the sweep does not see it.
    ("a0..1 b1..1 a0..1", "b0..1 a2..2 b0..1"),
    # Alike for long, then parted late or by the end.
    ("a20..20 b0..1", "a20..20 {a,c}0..1"),
    ("a0..20 b1..1 a0..20", "a5..5 b1..1 a5..5 b0..1"),
    ("{a,b}4..4", "b3..3 a1..1"),
    ("b4..4", "{a,b}4..4"),
    ("a0..2 b0..2", "b0..2 a0..2"),
    ("a1..9 b1..1", "a1..9 c1..1"),
    ("c0..3", "{a,b}0..3"),
    ("{a,b}2..2", "a0..1"),
    ("empty 0..0", "a0..1"),
    ("empty 0..0", "a1..1"),
    ("empty 0..0", "empty 0..0"),
    ("a0..2 empty 0..0 a0..2", "a1..1 empty 0..0 a1..1"),
    ("a0..1 a0..1 a0..1", "a2..2"),
    ("a2..3 c1..2 b1..1 c0..2 a3..4", "{a,b}3..4 {a..c}3..4"),
    ("{a..z}0..100 M1..1 {a..z}0..100", "{a..y}40..60 {M,N}0..1 {z,y}50..70"),
)


def hold_to_answer(what, shapes, found, answer):
    """Raises where the shapes found are not those of an answer as it is written."""
    found = found and tuple(words_of(shape) for shape in found)
    agree(what, shapes, found, answer and tuple(written(shape) for shape in answer))


def table_cases(cases):
    for kind, first, second, answer in TABLE:
        first, second = written(first), written(second)
        # There is no blank in it, and no letter in both cases, so that all equalities answer alike.
        for one in EQUALITIES if kind == EXACT else (kind,):
            hold_to_answer("document 01's table", (first, second), narrowed(*pair_of(first, second), one), answer)
        cases.kinds(first, second, KINDS)
        cases.kinds(second, first, KINDS)
    for first, second in PICKED:
        cases.kinds(written(first), written(second))
        cases.kinds(written(second), written(first))


def lent_cases(cases):
    """Work buffers and outputs too short, exact and longer, alone and together."""
    for first, second in (("a0..1 a0..1", "a1..1"), ("a1..1", "b1..1 a0..1"), RUN, ("A0..7 " * 32, "A0..250")):
        first, second = written(first), written(second)
        for kind in KINDS:
            for work in (0, 1, WORK_WANTED - 1, WORK_WANTED, WORK_WANTED + 1, LONGEST_WORK):
                cases.add(kind, first, second, work=work)
            for length in (0, len(first) - 1, len(first) + 1, LONGEST_OUTPUT):
                cases.add(kind, first, second, length=length)
            for length in (0, len(second) - 1, len(second) + 1, LONGEST_OUTPUT):
                cases.add(kind, first, second, other_length=length)
        for kind in EQUALITIES:
            cases.add(kind, first, second, LONGEST_WORK, len(first) + 3, len(second) + 2)
            cases.add(kind, first, second, WORK_WANTED - 1, len(first) - 1)
        cases.add(AT_MOST, first, second, WORK_WANTED - 1, len(first), len(second) - 1)
        cases.add(BEFORE, first, second, WORK_WANTED, len(first) - 1, len(second) - 1)


def refusal_cases(cases):
    for at, (first, second) in enumerate(refused_pairs()):
        cases.add(by_turns(at), first, second)
        if len(first) + len(second) <= FEW_NUMBERS:
            # Each also with a work buffer and outputs that are too short, which come last.
            cases.add(by_turns(at + 1), first, second, work=WORK_WANTED - 1)
            cases.add(by_turns(at + 2), first, second, work=0, length=0, other_length=0)


def alike_cases(cases):
    """Long texts that are alike at first, and shapes that differ in one count or one character."""
    dice = Dice(22)
    for _ in range(60):
        codes = dice.pick(((0, 1), (0, 1, 2), (64, 65)))
        stem = []
        for _ in range(dice.between(1, 3)):
            stem += block([dice.pick(codes)], *dice.pick(((4, 4), (3, 5), (0, 6), (9, 9))))
        tail, other_tail = (block(dice.some(codes), *dice.pick(((0, 1), (1, 1), (0, 2), (1, 3)))) for _ in range(2))
        cases.kinds(stem + tail, stem + other_tail)
        cases.kinds(stem + tail + stem, stem + other_tail)


# Blanks. X, Y and the answers of equality but for padding and of exact equality, as they are found by hand; the second
# one is left out where it is the same. True stands for both shapes as entered.
PADDED = (
    # A text of blanks equals the empty one, whatever their number.
    ("{ }0..5", "empty 0..0", True, ("empty 0..0", "empty 0..0")),
    ("{ }2..5", "empty 0..0 empty 0..0", True, None),
    ("{ }250..250", "empty 0..0", True, None),
    ("{ }250..250", "a0..1", ("{ }250..250", "empty 0..0"), None),
    ("{ }250..250", "a1..1", None),
    ("{ }3..3", "{ }5..7", True, None),
    ("{ }0..4", "{ }2..9", True, ("{ }2..4", "{ }2..4")),
    ("{a, }0..9", "b0..1", ("{ }0..9", "empty 0..0"), ("empty 0..0", "empty 0..0")),
    # One side is padded, or both are, by different numbers.
    ("a1..1 { }4..4", "a1..1", True, None),
    ("a1..1 { }4..4", "{a,b}0..9", ("a1..1 { }4..4", "a1..1"), None),
    ("a1..1 { }2..5", "a1..1 { }0..1", True, None),
    ("a1..1 { }0..5", "a1..1 { }3..9", True, ("a1..1 { }3..5", "a1..1 { }3..5")),
    ("a1..1 { }6..9", "a1..1 { }1..2 { }0..1", True, None),
    ("a1..1 { }0..1", "a2..2 { }0..1", None),
    ("a1..1 { }1..1", "b1..1 { }1..1", None),
    # Blanks at the front and within count.
    ("{ }1..1 a1..1", "a1..1", None),
    ("{ }0..2 a1..1", "a1..1", ("empty 0..0 a1..1", "a1..1")),
    ("{ }0..2 a1..1", "{ }1..9 a1..1 { }2..2", ("{ }1..2 a1..1", "{ }1..2 a1..1 { }2..2"), None),
    ("{ }1..3 a0..1", "a0..1", ("{ }1..3 empty 0..0", "empty 0..0"), None),
    ("a1..1 { }1..1 b1..1", "a1..1 b1..1", None),
    ("a1..1 { }1..1 b1..1", "a1..1 { }2..2 b1..1", None),
    ("a1..1 { }1..1 b1..1", "a1..1 b1..1 { }1..1", None),
    ("a1..1 { }0..3 b1..1", "a1..1 { }2..2 b1..1 { }0..9",
     ("a1..1 { }2..2 b1..1", "a1..1 { }2..2 b1..1 { }0..9"), ("a1..1 { }2..2 b1..1", "a1..1 { }2..2 b1..1 empty 0..0")),
    # What stands within in some texts stands at the end in others.
    ("a1..1 { }1..1 b0..1", "a1..1", ("a1..1 { }1..1 empty 0..0", "a1..1"), None),
    ("a1..1 { }0..3 b0..1", "a1..1 b0..1", True, ("a1..1 empty 0..0 b0..1", "a1..1 b0..1")),
    ("a1..1 { }1..3 b0..1", "a1..1 b0..1", ("a1..1 { }1..3 empty 0..0", "a1..1 empty 0..0"), None),
    ("{a, }3..3", "a1..1 { }0..1 a0..1", True, ("{a, }3..3", "a1..1 { }1..1 a1..1")),
    ("{a, }2..2 b1..1", "a1..1 { }1..1 b1..1 { }3..3", True, None),
    ("{a,b, }0..250", "a1..1 { }1..1 b1..1",
     ("{a,b, }3..250", "a1..1 { }1..1 b1..1"), ("{a,b, }3..3", "a1..1 { }1..1 b1..1")),
    # Padding begins within a block.
    ("{a, }3..3", "a1..1", True, None),
    ("{a, }3..3", "a3..3", ("a3..3", "a3..3")),
    ("{a, }3..3", "a4..4", None),
    ("a0..3", "{a, }0..2 { }1..1", ("a0..2", "{a, }0..2 { }1..1"), None),
    ("{a, }0..3 { }2..4", "a3..3", ("a3..3 { }2..4", "a3..3"), None),
    ("{a, }4..4", "{a, }6..6", True, None),
    ("{a, }4..4", "{ }2..2 {a, }4..4 { }1..2", True, None),
    ("{a,b, }4..4 { }1..1", "{b, }1..1 {a, }9..9", True, None),
    # Least counts of padding, which forbid what follows.
    ("{ }2..9 a0..1", "a0..3", ("{ }2..9 empty 0..0", "empty 0..0"), None),
    ("a0..2 { }1..1 a0..2", "a3..3", None),
    ("a0..2 { }1..1 a0..2", "a2..3", ("a2..2 { }1..1 empty 0..0", "a2..2"), None),
    # Not exactly equal, though the sweep does not see it.
    ("{ }0..1 a1..1 { }0..1", "a0..1 { }2..2 a0..1",
     ("empty 0..0 a1..1 { }0..1", "a1..1 { }2..2 empty 0..0"), None),
    # Several blocks of padding, and blocks that hold nothing between them.
    ("a1..1 { }1..2 empty 0..0 { }0..3", "a1..1 { }1..1",
     True, ("a1..1 { }1..1 empty 0..0 empty 0..0", "a1..1 { }1..1")),
    ("a1..1 { }1..2 b0..1 { }1..3", "a1..1", ("a1..1 { }1..2 empty 0..0 { }1..3", "a1..1"), None),
    # A unit field of six characters, and the same without padding.
    ("N1..1 m1..1 { }4..4", "{A..Z,a..z}1..6", ("N1..1 m1..1 { }4..4", "{N,m}2..2"), None),
    ("{A..Z,a..z, }6..6", "N1..1 m1..1", ("{N,m, }6..6", "N1..1 m1..1"), None),
    # As long as may be, so that nothing can be put behind.
    ("a249..249 { }1..1", "a249..249", True, None),
    ("a249..249 {a, }1..1", "a0..249", ("a249..249 { }1..1", "a249..249"), None),
    ("a250..250", "a249..249 { }1..1", None),
    ("a1..1 { }249..249", "a0..125 { }0..125", ("a1..1 { }249..249", "a1..1 { }0..125"), None),
    ("{a, }250..250", "{ }0..249 a1..1", True, ("{a, }250..250", "{ }249..249 a1..1")),
)


def padded_table_cases(cases):
    for first, second, padded, *exact in PADDED:
        pair = [written(first), written(second)]
        for kind, answer in zip(CASED_EQUALITIES, (padded, *(exact or [padded]))):
            answer = (first, second) if answer is True else answer
            hold_to_answer("blanks, found by hand", pair, narrowed(*pair_of(*pair), kind), answer)
        cases.equalities(*pair)
        cases.kinds(*pair, (AT_MOST, BEFORE))
    # No other code is dropped.
    for code in (0, 9, 10, 31, BLANK, 33, 48, 63, 64, 95, 96, 127):
        cases.equalities(written("A1..1") + block([code], 1, 2), written("A1..1"))
        cases.equalities(block([code, 65], 3, 3), block([code, 65], 1, 1))


def padded_limit_cases(cases):
    """The most characters and the most blocks, so that no block of blanks can be put behind."""
    empty, letters, blanks = block((), 0, 0), written("A0..250"), written("{ }0..250")
    padding = written("{ }250..250")
    for other in (empty, empty * MOST_BLOCKS, letters, blanks, padding, block(b"A", 1, 250), block(range(128), 0, 250)):
        cases.equalities(padding, other)
        cases.equalities(block(b" ", 0, 7) * MOST_BLOCKS, other)
    fixed = block(b" A", 7, 7) * MOST_BLOCKS
    turns, turned = (many_blocks(MOST_BLOCKS, MOST_CHARACTERS, codes) for codes in (b"A ", b" A"))
    behind = block(b"A", 0, 7) * 31 + block(b" ", 0, 33)
    for other in (
        "A125..125", "A200..200", "{A, }250..250", "{A, }0..250", "A217..217 { }33..33", "A216..216 { }34..34",
        "A0..1 { }249..249", "{ }1..1 A1..1", "A1..1 { }9..9 A1..1", "A1..1 { }3..99",
    ):
        for many in (turns, turned, behind):
            cases.equalities(many, written(other))
    for pair in ((turns, turned), (turns, behind), (fixed, turns), (fixed, fixed), (behind, block(b"A", 1, 1) * 32)):
        cases.equalities(*pair)


def blank_put_in(dice, text):
    """The text with one blank more, at any place."""
    at = dice.between(0, len(text))
    return text[:at] + b" " + text[at:]


def padded_pair(dice, most):
    """Two small shapes with blanks; every second time the other one takes a text of the first, padded anew."""
    return small_pair(dice, FEW_FILLINGS, PADDED_ALPHABETS, lambda text: padded_anew(dice, text, most))


def padded_random_cases(cases):
    dice = Dice(25)
    for number in range(180):
        cases.kinds(*padded_pair(dice, 3), CASED_KINDS if number % 4 == 0 else CASED_EQUALITIES)
    for _ in range(60):
        pair = small_pair(dice, FEW_FILLINGS, PADDED_ALPHABETS, lambda text: blank_put_in(dice, text))
        cases.kinds(*pair, CASED_EQUALITIES)
    for _ in range(16):
        alphabets = (b" A", b" AB", range(30, 36))
        pair = large_pair(dice, alphabets, lambda text: padded_anew(dice, text, MOST_CHARACTERS))
        cases.kinds(*pair, CASED_EQUALITIES)
    # The sweep says cannot, and yet there are texts that are equal but for their padding.
    wanted = 40
    while wanted:
        pair = padded_pair(dice, 6)
        first, second = pair_of(*pair)
        if places(first, second)[0] is None and narrowed(first, second, EQUAL) is not None:
            wanted -= 1
            cases.kinds(*pair, CASED_EQUALITIES)


def padded_cases(cases):
    padded_table_cases(cases)
    padded_limit_cases(cases)
    padded_random_cases(cases)


# Joins. Whole, front, back and the answer as it is found by hand.
JOINS = (
    ("{a,b}0..3", "a1..1", "b0..2", ("{a,b}1..3", "a1..1", "b0..2")),
    ("a1..1 b1..1", "b1..1", "a1..1", None),
    ("a0..9 b0..9", "a2..4 b1..1", "{a,b}3..3", ("a2..4 b4..4", "a2..4 b1..1", "b3..3")),
    ("{a,b}2..2", "a0..1", "b0..2", ("{a,b}2..2", "a0..1", "b1..2")),
    # Each character may be of either part: nothing is cut because one triple explains the text.
    ("a1..1", "a0..1", "a0..1", ("a1..1", "a0..1", "a0..1")),
    ("a2..2", "a0..2", "a0..2", ("a2..2", "a0..2", "a0..2")),
    ("a0..2 b0..2", "{a,b}0..2", "{a,b}2..2", ("a0..2 b0..2", "a0..2", "{a,b}2..2")),
    # Lengths that force.
    ("a0..9", "a3..4", "a5..6", ("a8..9", "a3..4", "a5..6")),
    ("a0..8", "a3..4", "a5..6", ("a8..8", "a3..3", "a5..5")),
    ("a0..7", "a3..4", "a5..6", None),
    ("{a..z}10..10", "{a..m}0..6", "{n..z}0..4", ("{a..z}10..10", "{a..m}6..6", "{n..z}4..4")),
    ("{a..z}11..11", "{a..m}0..6", "{n..z}0..4", None),
    # A run that lies across the seam.
    ("a1..9", "b0..1 a2..2", "a2..2 c0..1", ("a4..4", "empty 0..0 a2..2", "a2..2 empty 0..0")),
    ("a0..9", "a0..3 b1..1", "a0..3", None),
    # Empty texts.
    ("empty 0..0", "a0..1", "b0..1", ("empty 0..0",) * 3),
    ("empty 0..0", "a1..1", "b0..1", None),
    ("empty 0..0", "a0..1", "b1..1", None),
    ("a0..1", "empty 0..0", "empty 0..0", ("empty 0..0",) * 3),
    ("a1..1", "empty 0..0", "empty 0..0", None),
    ("a1..1", "b0..1", "a0..1", ("a1..1", "empty 0..0", "a1..1")),
    ("a1..1", "a0..1", "b0..1", ("a1..1", "a1..1", "empty 0..0")),
    ("{a,b}0..9", "empty 0..0", "{b,c}2..2", ("b2..2", "empty 0..0", "b2..2")),
    ("{a,b}0..9", "{b,c}2..2", "empty 0..0", ("b2..2", "b2..2", "empty 0..0")),
    # A serial line; and a worn one, on which places tell a letter from a digit.
    ("{0..9,A..Z,-}0..12", "{A..Z}2..3 {0..9}3..4", "-1..1 {A..F}1..1",
     ("{0..9,A..Z,-}7..9", "{A..Z}2..3 {0..9}3..4", "-1..1 {A..F}1..1")),
    ("W1..1 {0,O,Q}1..1 {8,B}1..1 {0..9}2..2", "{A..Z}2..3", "{1..9}1..1 {0..9}1..2",
     ("W1..1 {O,Q}1..1 {8,B}1..1 {0..9}2..2", "{B,O,Q,W}2..3", "{1..9}1..1 {0..9}1..2")),
    # As long as may be.
    ("a250..250", "a0..125", "a0..125", ("a250..250", "a125..125", "a125..125")),
    ("a0..250", "a0..249", "b0..1", ("a0..249", "a0..249", "empty 0..0")),
    ("a0..125 b0..125", "a0..1 b0..1", "{a,b}0..248", ("a0..125 b0..125", "a0..1 b0..1", "{a,b}0..248")),
    ("a249..249 b1..1", "a0..125", "a0..124 b0..1", ("a249..249 b1..1", "a125..125", "a124..124 b1..1")),
    # Blanks count, in the whole and in both parts, at the seam and at the end.
    ("a1..1", "a1..1", "{ }1..1", None),
    ("a1..1", "a1..1 { }1..1", "empty 0..0", None),
    ("a1..1 { }1..1", "a1..1", "b0..1", None),
    ("a1..1 b1..1", "a1..1 { }1..1", "b1..1", None),
    ("a1..1 { }0..3", "a1..1", "{ }0..2", ("a1..1 { }0..2", "a1..1", "{ }0..2")),
    ("a1..1 b1..1 { }0..1", "a1..1 { }0..4", "b1..1", ("a1..1 b1..1 empty 0..0", "a1..1 empty 0..0", "b1..1")),
    ("a1..1 { }2..2 b1..1", "a1..1 { }0..9", "{ }0..9 b1..1",
     ("a1..1 { }2..2 b1..1", "a1..1 { }0..2", "{ }0..2 b1..1")),
    ("{ }0..9", "{ }2..3", "{ }4..4", ("{ }6..7", "{ }2..3", "{ }4..4")),
    ("{ }0..5", "{ }2..3", "{ }4..4", None),
    ("empty 0..0", "{ }0..3", "{ }0..3", ("empty 0..0",) * 3),
    ("empty 0..0", "{ }0..3", "{ }1..3", None),
)


def join_table_cases(cases):
    for *trio, answer in JOINS:
        trio = [written(shape) for shape in trio]
        hold_to_answer("a join found by hand", trio, narrowed_join(*trio_of(*trio)), answer)
        whole, front, back = trio
        cases.join(whole, front, back)
        cases.join(whole, back, front)
    # Small shapes that can be empty, are empty, or cannot be.
    shapes = ("empty 0..0", "a0..1", "a1..1", "b0..1", "a0..2 b0..1", "empty 0..0 {a,b}1..2")
    for trio in product(map(written, shapes), repeat=3):
        cases.join(*trio)
    # The least and greatest codes of the first two numbers of a base.
    codes = [block([code], 1, 1) for code in (0, 63, 64, 127)]
    for front in codes:
        for back in codes:
            cases.join(front + back, front, back)
            cases.join(block((0, 127), 0, 2), front, back)
            cases.join(front, block((0, 63, 64, 127), 0, 2), block(range(128), 0, 1))


def join_lent_cases(cases):
    """Work buffers and outputs too short, exact and longer, alone and together: 4, then 5 by the outputs' numbers."""
    for trio in (("{a,b}0..3", "a1..1 b0..1", "b0..2"), ("a1..1 b0..1", "b1..1", "a0..1 c0..2")):
        trio = [written(shape) for shape in trio]
        for work in (0, 1, WORK_WANTED - 1, WORK_WANTED, WORK_WANTED + 1, LONGEST_WORK):
            cases.join(*trio, work)
            cases.join(*trio, work, [len(words) + 3 for words in trio])
        for place, words in enumerate(trio):
            for length in (0, 1, len(words) - 1, len(words) + 1, LONGEST_OUTPUT):
                lengths = [None] * 3
                lengths[place] = length
                cases.join(*trio, lengths=lengths)
        for short in range(1, 8):
            lengths = [len(words) - (short >> place & 1) for place, words in enumerate(trio)]
            cases.join(*trio, lengths=lengths)
            cases.join(*trio, WORK_WANTED - 1, lengths)


# What the uppers of front and back may be: 12 if they add to over 250.
TOGETHER = (
    (125, 125), (125, 126), (126, 125), (249, 1), (250, 1), (1, 249), (1, 250), (250, 250), (199, 51), (200, 51),
)


def refused_trios():
    """Trios with shapes refused for every reason, and with parts too long to be joined, alone and together."""
    good, bad, heavy, long = block(b"AB", 0, 3), block(b"A", 2, 1), block(b"A", 0, 200), block(b"A", 0, 126)
    shapes = [[], [1], good[:-1], good + [7], good * 33, good + bad + bad, bad + heavy * 2, heavy * 2 + bad]
    shapes += [heavy * 2, many_blocks(32, 251), *ONE_EACH]
    for shape in shapes:
        yield shape, good, good
        yield good, shape, good
        yield good, good, shape
        # Too long besides, as far as that can be told.
        yield shape, long, long
        yield long, long, long + shape
    # Of several that are refused the first decides, and in it the first block.
    for one in ([], *ONE_EACH, heavy * 2):
        for other in ([], *ONE_EACH, heavy * 2):
            yield good, one, other
            yield one, good, other
            yield one, other, good
        yield one, one, one
    for at, unsound in enumerate(unsound_blocks()):
        trio = [good, long, long]
        trio[at % 3] = good + unsound
        yield trio
        trio = [good, good, long]
        trio[(at + 1) % 3] = unsound
        yield trio
    for front, back in TOGETHER:
        yield good, block(b"A", 0, front), block(b"A", 0, back)
        yield good, block(b"AB", front, front), block(b"AB", 0, back)
        yield good, good + block(b"A", 0, 125 - 3), good * 2 + block(b"B", 0, front) + block(b"C", 0, 125 - 6)
    yield long, block(b"A", 0, 250), block((), 0, 0)
    yield long, block((), 0, 0), block(b"A", 0, 250)


def join_refusal_cases(cases):
    for at, trio in enumerate(refused_trios()):
        cases.join(*trio)
        if sum(map(len, trio)) <= FEW_NUMBERS and at % 2:
            # Also with a work buffer and outputs that are too short, which come last.
            work, length = ((0, 0), (WORK_WANTED - 1, None), (WORK_WANTED, 0))[at % 3]
            cases.join(*trio, work, [length] * 3)


TRIO_ALPHABETS = ((0, 1), (0, 1), (0, 1, 2), (64, 65), (0, 63, 64, 127))


def small_trio(dice, alphabets=TRIO_ALPHABETS):
    """Three shapes over one alphabet with few fillings; in most the whole takes some text of front and back."""
    while True:
        codes = dice.pick(alphabets)
        front, back = (small_blocks(dice, codes)[: BLOCK_SIZE * dice.between(1, 3)] for _ in range(2))
        way = dice.below(8)
        if way < 5:
            text = random_filling(dice, shape_of(front)) + random_filling(dice, shape_of(back))
            whole = carved(dice, codes, text, dice.between(1, 4))
        elif way == 5:
            whole = front + back
        else:
            whole = small_blocks(dice, codes)
        trio = whole, front, back
        if all(fillings(shape_of(one)) <= FEW_FILLINGS for one in trio):
            return trio


def large_trio(dice):
    """Three shapes of many blocks, the uppers of front and back adding to 250; mostly they can be joined."""
    codes = dice.pick((b"AB", b"ABC", (0, 1, 64, 65), range(60, 70)))
    length = dice.pick((32, 125, 218, dice.between(40, 200)))
    front, back = (shared_out(dice, codes, dice.pick((8, 32, 32)), most) for most in (length, MOST_CHARACTERS - length))
    text = random_filling(dice, shape_of(front)) + random_filling(dice, shape_of(back))
    return carved(dice, codes, text, dice.pick((8, 31, 32, 32))), front, back


def large_join_cases(cases):
    dice = Dice(24)
    for _ in range(12):
        cases.join(*large_trio(dice))
    # As many blocks as may be in all three, and one character more than may be.
    for front, back in ((125, 125), (125, 126), (218, 32), (219, 32), (32, 219)):
        cases.join(many_blocks(MOST_BLOCKS, 250), many_blocks(MOST_BLOCKS, front), many_blocks(MOST_BLOCKS, back))
    sevens = block(b"A", 0, 7) * MOST_BLOCKS
    threes = block(b"A", 0, 3) * MOST_BLOCKS
    fixed = block(b"A", 3, 3) * MOST_BLOCKS
    cases.join(sevens, threes, threes)
    cases.join(sevens, fixed, fixed)
    cases.join(fixed, fixed, threes)
    cases.join(written("A0..250"), fixed, threes)
    # No text, though each part by itself is that of some text.
    cases.join(block(b"AB", 7, 7) * MOST_BLOCKS, fixed, many_blocks(2, 127))
    cases.join(*[block(b"A", 1, 1) * MOST_BLOCKS] * 3)
    cases.join(*[block((), 0, 0) * MOST_BLOCKS] * 3)


def steep(dice, codes, runs, count, late, rising):
    """A shape of so many blocks for a text of runs, (code, length) each, some of them cut in two. Besides its own code
    a block may hold those above it, or below it; in the late runs all."""
    parts = [[at, code, length] for at, (code, length) in enumerate(runs)]
    while len(parts) < count:
        at = dice.below(len(parts))
        if parts[at][2] > 1:
            number, code, length = parts[at]
            cut = dice.between(1, length - 1)
            parts[at : at + 1] = [number, code, cut], [number, code, length - cut]
    words = []
    for number, code, length in parts:
        other = [one for one in codes if number >= late or (one > code if rising else one < code)]
        base = {code, *(dice.some(other) if other else ())}
        lower = max(0, length - dice.pick((0, 0, 0, 1)))
        words += block(sorted(base), lower, length + dice.pick((0, 0, 0, 1)) * (number >= late))
    return words


def steep_runs(dice, codes):
    """A text of 24 runs, and the first of its late ones."""
    return [(dice.pick(codes), dice.between(7, 9)) for _ in range(24)], dice.between(8, 22)


def steep_pair(dice, alphabets):
    codes = dice.pick(alphabets)
    runs, late = steep_runs(dice, codes)
    return [steep(dice, codes, runs, dice.between(26, MOST_BLOCKS), late, rising) for rising in (True, False)]


STEEP_ALPHABETS = (b"ABCDEFGH", range(60, 70), range(28, 38), range(0, 128, 5))


def steep_cases(cases):
    """Large shapes that leave little of each other: the least texts of one and the greatest of the other are alike for
    long, so that most blocks lose characters."""
    dice = Dice(27)
    for _ in range(6):
        cases.kinds(*steep_pair(dice, STEEP_ALPHABETS))
    for _ in range(4):
        codes = dice.pick(STEEP_ALPHABETS)
        runs, late = steep_runs(dice, codes)
        cut = dice.between(6, 18)
        front = steep(dice, codes, runs[:cut], 26, late, False)
        back = steep(dice, codes, runs[cut:], 26, max(0, late - cut), False)
        cases.join(steep(dice, codes, runs, MOST_BLOCKS, late, True), front, back)


# Letter case. X, Y and the answers of equality in any case and of exact equality, as they are found by hand; the second
# one is left out where it is the same. True stands for both shapes as entered.
CASED = (
    # The unit in any case, each shape in its own.
    ("N1..1 M1..1", "N1..1 m1..1", True, None),
    ("N1..1 M1..1", "n1..1 m1..1", True, None),
    ("N1..1 m1..1", "n1..1 m1..1", True, None),
    ("N1..1 m1..1", "n1..1 M1..1", True, None),
    ("N1..1 m1..1", "N1..1 m1..1", True),
    ("N1..1 m1..1", "M1..1 n1..1", None),
    ("N1..1", "n1..1", True, None),
    # Both cases in one base, and what the other leaves of it.
    ("{N,n}1..1", "n1..1", True, ("n1..1", "n1..1")),
    ("{N,n}1..1", "{N,n}1..1", True),
    ("{N,n}1..1 {M,m}1..1", "N1..1 m1..1", True, ("N1..1 m1..1", "N1..1 m1..1")),
    ("{N,n}0..2", "{M,N}1..1", ("{N,n}1..1", "N1..1"), ("N1..1", "N1..1")),
    ("{M,N}1..1", "{m,n}1..1", True, None),
    ("{M,N}1..1", "{n,o}1..1", ("N1..1", "n1..1"), None),
    ("{N,m}2..2", "{M,n}2..2", True, None),
    ("{N,m}2..2", "{m,n}2..2", True, ("m2..2", "m2..2")),
    ("{N,O,m}1..1", "{M,N,o}1..1", True, ("N1..1", "N1..1")),
    ("{A,a,b}0..3", "{B,C,c}2..2", ("b2..2", "B2..2"), None),
    ("{A..Z}2..2", "n1..1 m1..1", ("{M,N}2..2", "n1..1 m1..1"), None),
    ("{A..Z,a..z}1..6", "N1..1 m1..1", ("{M,N,m,n}2..2", "N1..1 m1..1"), ("{N,m}2..2", "N1..1 m1..1")),
    ("{ ..~}1..1", "n1..1", ("{N,n}1..1", "n1..1"), ("n1..1", "n1..1")),
    # All letters, and their neighbours, which are none, 32 codes apart as letters are.
    ("{A..Z}0..9", "{a..z}0..9", True, ("empty 0..0", "empty 0..0")),
    ("{A..Z}0..9", "{a..z}3..4", ("{A..Z}3..4", "{a..z}3..4"), None),
    ("{@..[}1..1", "{`..{}1..1", ("{A..Z}1..1", "{a..z}1..1"), None),
    ("{@..{}0..3", "{@..{}0..3", True),
    ("{@..{}0..3", "{@..M}2..9", ("{@..M,a..m}2..3", "{@..M}2..3"), ("{@..M}2..3", "{@..M}2..3")),
    ("@1..1", "`1..1", None),
    ("[1..1", "{{}1..1", None),
    ("{@,A}1..1", "{`,a}1..1", ("A1..1", "a1..1"), None),
    ("{Z,[}1..1", "{z,{}1..1", ("Z1..1", "z1..1"), None),
    ("{@,A,Z,[}0..4", "{`,a,z,{}2..9", ("{A,Z}2..4", "{a,z}2..4"), None),
    ("{@,[}0..4", "{`,{}0..9", ("empty 0..0", "empty 0..0")),
    ("@1..1 a1..1", "@1..1 A1..1", True, None),
    ("11..1", "Q1..1", None),
    ("11..1", "q1..1", None),
    ("{1,Q,q}1..1", "{1,q}1..1", True, ("{1,q}1..1", "{1,q}1..1")),
    ("{0..9,A..Z}2..3", "{a..m}0..1 {5..7}2..9",
     ("{5..7,A..M}2..3", "{a..m}0..1 {5..7}2..3"), ("{5..7}2..3", "empty 0..0 {5..7}2..3")),
    # The empty text, and blocks that come to hold nothing.
    ("empty 0..0", "empty 0..0", True),
    ("empty 0..0", "N0..1", ("empty 0..0", "empty 0..0")),
    ("empty 0..0", "n1..1", None),
    ("N0..1", "n0..1", True, ("empty 0..0", "empty 0..0")),
    ("N0..2", "m0..2", ("empty 0..0", "empty 0..0")),
    ("N0..1 m1..1", "M1..1", ("empty 0..0 m1..1", "M1..1"), None),
    ("a1..1 B0..3 c1..1", "A1..1 C1..1", ("a1..1 empty 0..0 c1..1", "A1..1 C1..1"), None),
    ("a1..1 empty 0..0 B0..2", "A0..1 b0..1 b1..1", ("a1..1 empty 0..0 B1..2", "A1..1 b0..1 b1..1"), None),
    # Blanks at the end count.
    ("{ }0..5", "empty 0..0", ("empty 0..0", "empty 0..0")),
    ("{ }1..5", "empty 0..0", None),
    ("N1..1 m1..1 { }1..1", "n1..1 M1..1", None),
    ("N1..1 { }0..1", "n1..1", ("N1..1 empty 0..0", "n1..1"), None),
    ("N1..1 m1..1 { }0..4", "n1..1 M1..1 { }2..9", ("N1..1 m1..1 { }2..4", "n1..1 M1..1 { }2..4"), None),
    ("{ }0..2 N1..1", "{ }1..9 n1..1", ("{ }1..2 N1..1", "{ }1..2 n1..1"), None),
    ("{N, }3..3", "n1..1", None),
    ("{N, }3..3", "n1..1 { }0..9", ("{N, }3..3", "n1..1 { }2..2"), None),
    # Counts that blocks share: nothing is cut because one filling explains the text.
    ("N0..1 n0..1", "n1..1", True, ("empty 0..0 n1..1", "n1..1")),
    ("N0..1 N0..1", "n1..1", True, None),
    ("A0..3 a0..3", "a2..2", ("A0..2 a0..2", "a2..2"), ("empty 0..0 a2..2", "a2..2")),
    ("A0..3 a2..3 A0..3", "A3..3", ("A0..1 a2..3 A0..1", "A3..3"), None),
    ("N0..3 m0..3", "{M,N}2..4", True, ("N2..3 empty 0..0", "N2..3")),
    ("N0..3 m0..3", "n3..3 M3..3", ("N3..3 m3..3", "n3..3 M3..3"), None),
    ("{a,b}0..3 A0..3", "B2..2 a1..4", ("{a,b}2..3 A0..3", "B2..2 a1..4"), None),
    ("{A,b}3..3", "a1..1 {A,B}0..1 B1..2", True, None),
    # Document 01's rows, and its pair that has no common text though the sweep does not see it.
    ("{A,C,b}0..3", "{D,b,c}2..2", ("{C,b}2..2", "{b,c}2..2"), ("b2..2", "b2..2")),
    ("{A..C}0..30 d5..5 {c..f}0..2", "{b..d}26..26 F1..1",
     ("{B,C}20..21 d5..5 {c,d,f}1..2", "{b..d}26..26 F1..1"), None),
    ("a1..1", "B1..1", None),
    ("a0..1 B1..1 A0..1", "b0..1 a2..2 B0..1", None),
    # A torque line.
    ("T1..1 {0..9}1..2 .1..1 {0..9}2..2 N1..1 m1..1", "t1..1 {0..9}2..2 .1..1 {0..9}1..2 {N,n}1..1 M1..1",
     ("T1..1 {0..9}2..2 .1..1 {0..9}2..2 N1..1 m1..1", "t1..1 {0..9}2..2 .1..1 {0..9}2..2 {N,n}1..1 M1..1"), None),
    # As long as may be, and as many blocks.
    ("N250..250", "n250..250", True, None),
    ("N0..250", "n249..250", ("N249..250", "n249..250"), None),
    ("N250..250", "n249..249", None),
    ("{N,n}250..250", "N125..125 n125..125", True),
    ("{M,N,m,n}250..250", "N1..1 {M,n}249..249", True, ("{M,N,n}250..250", "N1..1 {M,n}249..249")),
    ("N7..7 " * 32, "n224..224", True, None),
    ("N0..7 " * 32, "n200..200", True, None),
    ("N0..7 " * 32, "n220..220", ("N3..7 " * 32, "n220..220"), None),
)

# The equalities to the last character.
TO_THE_LAST = (EXACT, ANY_CASE)


def any_case_table_cases(cases):
    for first, second, any_case, *exact in CASED:
        pair = [written(first), written(second)]
        for kind, answer in zip((ANY_CASE, EXACT), (any_case, *(exact or [any_case]))):
            answer = (first, second) if answer is True else answer
            hold_to_answer("letter case, found by hand", pair, narrowed(*pair_of(*pair), kind), answer)
        cases.kinds(*pair, KINDS)
        if pair[0] != pair[1]:
            cases.add(ANY_CASE, *reversed(pair))


# A blank, and both sides of the least and the greatest letter in both cases.
LETTER_EDGES = (BLANK, 64, 65, 90, 91, 96, 97, 122, 123)


def any_case_code_cases(cases):
    """Every code against all, the edges against each other, and codes that differ as two cases do."""
    whole = block(range(128), 1, 1)
    for code in range(128):
        one = block([code], 1, 1)
        pair = (one, whole) if code % 2 else (whole, one)
        cases.add(ANY_CASE, *pair)
        if chr(code).isalpha():
            cases.add(ANY_CASE, *reversed(pair))
    for one, other in product(LETTER_EDGES, repeat=2):
        cases.add(ANY_CASE, block([one], 1, 1), block([other], 1, 2))
    for code in (0, 1, 17, 26, 31, 32, 49, 58, 63, 64, 91, 95):
        cases.equalities(block([code], 1, 1), block([code + 32], 0, 1), (ANY_CASE,))
    for low in (17, 49, 81):
        cases.kinds(block([low, low + 32], 0, 2), block([low + 32], 2, 2), TO_THE_LAST)
    # Large bases, with letters in both cases, in one, and without.
    capitals, small = range(65, 91), range(97, 123)
    bases = [range(128), capitals, small, range(0, 128, 3), range(64, 97), range(91, 128)]
    for one, other in product(bases, repeat=2):
        cases.add(ANY_CASE, block(one, 0, 2), block(other, 1, 3))


def other_words(words):
    """The numbers of a shape with each letter in its other case."""
    return words_of(in_other_case(shape_of(words)))


def any_case_limit_cases(cases):
    """Pairs at the limits and with blocks that hold nothing, one of them in its other case; work buffers and outputs
    that are too short and longer; and pairs that are refused."""
    for at, (first, second) in enumerate(edge_pairs()):
        if at % 4 == 0:
            cases.add(ANY_CASE, *((first, other_words(second)) if at % 8 else (other_words(first), second)))
    for first, second in (("N0..1 n0..1", "n1..1"), ("N1..1", "m1..1 n0..1")):
        first, second = written(first), written(second)
        for work in (0, WORK_WANTED - 1, WORK_WANTED + 1, LONGEST_WORK):
            cases.add(ANY_CASE, first, second, work)
            cases.add(ANY_CASE, first, second, work, len(first) + 3, len(second) + 2)
        for length, other_length in ((0, 0), (len(first) - 1, None), (None, len(second) - 1), (LONGEST_OUTPUT,) * 2):
            cases.add(ANY_CASE, first, second, length=length, other_length=other_length)
    for at, (first, second) in enumerate(refused_pairs()):
        if at % 4 == 0:
            cases.add(ANY_CASE, first, second)
        elif at % 8 == 1 and len(first) + len(second) <= FEW_NUMBERS:
            cases.add(ANY_CASE, first, second, WORK_WANTED - 1, 0, 0)


def any_case_pair(dice):
    """Two small shapes with letters in both cases; every second time the other one takes a text of the first, each of
    its letters in either case."""
    return small_pair(dice, FEW_FILLINGS, CASE_ALPHABETS, lambda text: recased(dice, text))


def any_case_small_cases(cases):
    dice = Dice(28)
    for number in range(170):
        cases.kinds(*any_case_pair(dice), TO_THE_LAST if number % 8 == 0 else (ANY_CASE,))
    # Where the two equalities to the last character differ, every kind: in some the exact one says none, in some not.
    for none, wanted in ((True, 12), (False, 18)):
        while wanted:
            pair = any_case_pair(dice)
            exact, any_case = (narrowed(*pair_of(*pair), kind) for kind in TO_THE_LAST)
            if exact != any_case and (exact is None) == none:
                wanted -= 1
                cases.kinds(*pair, KINDS)
    # The sweep says cannot, and yet there are texts that are equal in any case.
    wanted = 20
    while wanted:
        pair = any_case_pair(dice)
        first, second = pair_of(*pair)
        if places(first, second)[0] is None and narrowed(first, second, ANY_CASE) is not None:
            wanted -= 1
            cases.kinds(*pair, TO_THE_LAST)


LARGE_CASE_ALPHABETS = (b"Aa", b"ABab", b"@AZ[`az{", b" MNmn", range(60, 128), range(128))


def any_case_large_cases(cases):
    dice = Dice(29)
    for number in range(24):
        pair = large_pair(dice, LARGE_CASE_ALPHABETS, lambda text: recased(dice, text))
        cases.kinds(*pair, EQUALITIES if number % 6 == 0 else (ANY_CASE,))
    # Shapes that leave little of each other, one of them in its other case.
    for number in range(10):
        codes = dice.pick((b"ABCDEFGH", b"ABCDabcd", b"@AMZ[`amz{", range(64, 128, 3)))
        runs, late = steep_runs(dice, codes)
        late = 24 if number % 2 else late
        one, other = (steep(dice, codes, runs, dice.between(26, MOST_BLOCKS), late, rising) for rising in (True, False))
        cases.add(ANY_CASE, one, other_words(other))
    # The most blocks, whose letters meet in any case only.
    turns, turned = (many_blocks(MOST_BLOCKS, MOST_CHARACTERS, codes) for codes in (b"Nm", b"nM"))
    sevens = block(b"N", 0, 7) * MOST_BLOCKS
    behind = block(b"N", 0, 7) * 31 + block(b" ", 0, 33)
    for pair in (
        (turns, turned), (turns, block(b"MN", 100, 250)), (turns, written("n8..8 M8..8 n200..200")),
        (sevens, block(b"n", 1, 7) * MOST_BLOCKS), (sevens, block(b"n", 7, 7) * 31 + block(b"m", 0, 7)),
        (sevens, written("n125..125 {N,n}90..125")), (block(b"Nn", 7, 7) * MOST_BLOCKS, written("n112..112 N112..112")),
        (block(b"Nn", 1, 1) * MOST_BLOCKS, block(b"n", 0, 1) * 31 + block(b"N", 2, 2)),
        (behind, written("n215..215")), (behind, written("n210..210 { }7..40")),
    ):
        cases.equalities(*pair, TO_THE_LAST)


def any_case_cases(cases):
    any_case_table_cases(cases)
    any_case_code_cases(cases)
    any_case_limit_cases(cases)
    any_case_small_cases(cases)
    any_case_large_cases(cases)


# Codes above 127: kind, the shapes and the answer as it is found by hand, True for the shapes as entered. µ has its bit
# where 5, u and õ have theirs in other numbers of a base.
HIGH = (
    (EXACT, "{a,ä}1..2", "{ä,ö}1..1", ("ä1..1", "ä1..1")),
    (EXACT, "µ1..1", "{5,u,õ}1..1", None),
    (EXACT, "{5,u,µ,õ}1..1", "{4..6,µ}1..2", ("{5,µ}1..1", "{5,µ}1..1")),
    (EXACT, "{0..9}1..3 °0..1 C1..1", "{0..9,°}2..4 C0..1", ("{0..9}1..3 °0..1 C1..1", "{0..9,°}2..4 C1..1")),
    (EXACT, "{À..ÿ}0..3", "{\x80..¿}0..3", ("empty 0..0", "empty 0..0")),
    # No code but 32 is a blank.
    (EQUAL, "a1..1 {\xa0}1..1", "a1..1", None),
    (EQUAL, "a1..1 {\xa0, }2..2", "a1..1", ("a1..1 { }2..2", "a1..1")),
    (EQUAL, "ä1..1 { }3..3", "{a..ÿ}1..2", ("ä1..1 { }3..3", "ä1..1")),
    (EQUAL, "ÿ249..249 { }1..1", "ÿ0..250", ("ÿ249..249 { }1..1", "ÿ249..249")),
    # No letter but A to Z has a case.
    (ANY_CASE, "Ä1..1", "ä1..1", None),
    (ANY_CASE, "{N,Ä}1..1", "{n,ä}1..1", ("N1..1", "n1..1")),
    (ANY_CASE, "Ä1..1 N1..1", "Ä1..1 n1..1", True),
    (ANY_CASE, "{A..Z,À..Þ}0..3", "{a..z,à..þ}2..2", ("{A..Z}2..2", "{a..z}2..2")),
    (ANY_CASE, "{Á,á}1..1", "{A,a}1..1", None),
    (ANY_CASE, "{\x81,¡}1..1", "{A,a,Á,á}1..1", None),
    (ANY_CASE, "{ ..ÿ}1..1", "{n,ñ}1..1", ("{N,n,ñ}1..1", "{n,ñ}1..1")),
    # Every code above 127 comes behind all below.
    (AT_MOST, "ä1..1", "z1..1", None),
    (AT_MOST, "z1..1", "ä1..1", True),
    (AT_MOST, "{z,ä}1..1", "{z,~}1..1", ("z1..1", "{z,~}1..1")),
    (AT_MOST, "{¿,À}2..2", "¿1..1 {¿,À}1..1", True),
    (BEFORE, "{\x7f,\x80}1..1", "\x801..1", ("\x7f1..1", "\x801..1")),
    (BEFORE, "{¿,À}1..1", "À1..1", ("¿1..1", "À1..1")),
    (BEFORE, "À1..1", "{¿,À}1..1", None),
    (BEFORE, "ÿ1..1", "ÿ0..2", ("ÿ1..1", "ÿ2..2")),
    (BEFORE, "{þ,ÿ}1..1", "ÿ1..1", ("þ1..1", "ÿ1..1")),
    (JOIN, "{0..9,C,°}2..5", "{0..9}1..3", "°0..1 C1..1", True),
    (JOIN, "µ1..1 m1..1", "u0..1 µ0..1", "{m,µ}1..2", ("µ1..1 m1..1", "empty 0..0 µ0..1", "{m,µ}1..2")),
    (JOIN, "{¿,À}2..2", "{¿,Á}1..1", "{À,Á}0..2", ("{¿,À}2..2", "¿1..1", "À1..1")),
    (JOIN, "51..1", "µ0..1", "{5,µ}1..1", ("51..1", "empty 0..0", "51..1")),
    (JOIN, "51..1", "µ1..1", "{5,µ}0..1", None),
)


def high_table_cases(cases):
    for kind, *shapes, answer in HIGH:
        words = [written(shape) for shape in shapes]
        found = narrowed_join(*trio_of(*words)) if kind == JOIN else narrowed(*pair_of(*words), kind)
        hold_to_answer("codes above 127, found by hand", words, found, tuple(shapes) if answer is True else answer)
        if kind == JOIN:
            cases.join(*words)
        else:
            cases.kinds(*words, KINDS)


def high_code_cases(cases):
    """The ends of every number of a base, codes that differ as two cases or as a blank and another, and joins; then
    blocks of four numbers."""
    for at, (first, second) in enumerate(high_pairs()):
        cases.kinds(first, second, KINDS if at % 2 == 0 else (KINDS[at % len(KINDS)],))
    for code in (128, 129, 154, 155, 159, 160, 191, 192, 193, 214, 218, 219, 222, 223):
        cases.equalities(block([code], 1, 1), block([code + 32], 0, 1), (ANY_CASE,))
    for code in (128, 160, 192, 224, 255):
        cases.equalities(written("A1..1") + block([code], 1, 2), written("A1..1"))
        cases.equalities(block([code, BLANK], 3, 3), block([code, BLANK], 1, 1))
    for front, back in zip(WORD_ENDS, WORD_ENDS[1:] + WORD_ENDS[:1]):
        cases.join(block([front], 1, 1) + block([back], 0, 1), block([front, back], 1, 1), block([back], 0, 2))
        cases.join(block(ALL_CODES, 0, 2), block([front], 0, 1), block([back], 1, 1))
        cases.join(block([front], 1, 1), block([front ^ 64, front], 0, 1), block([front ^ 128, front], 0, 1))
    good = block([128], 0, 1)
    for at, bad in enumerate(high_unsound_blocks()):
        cases.add(KINDS[at % len(KINDS)], bad, good)
        cases.join(good, good, good + bad)
    for at, shape in enumerate(OLD_SHAPES):
        for pair in ((shape, good), (good, shape)):
            cases.add(KINDS[at % len(KINDS)], *pair)
            cases.join(good, *pair)


def high_random_cases(cases):
    dice = Dice(30)
    for _ in range(60):
        cases.kinds(*small_pair(dice, FEW_FILLINGS, HIGH_ALPHABETS))
    for _ in range(40):
        cases.kinds(*small_pair(dice, FEW_FILLINGS, HIGH_CASE_ALPHABETS, lambda text: recased(dice, text)), EQUALITIES)
    for _ in range(40):
        cases.join(*small_trio(dice, HIGH_ALPHABETS))
    for number in range(10):
        cases.add(KINDS[number % len(KINDS)], *large_pair(dice, LARGE_HIGH_ALPHABETS))
    for _ in range(4):
        cases.kinds(*steep_pair(dice, (range(120, 136), range(184, 200), ALL_CODES[::9])))


def high_cases(cases):
    high_table_cases(cases)
    high_code_cases(cases)
    high_random_cases(cases)


def join_cases(cases):
    join_table_cases(cases)
    join_lent_cases(cases)
    join_refusal_cases(cases)
    dice = Dice(23)
    for _ in range(500):
        cases.join(*small_trio(dice))
    for _ in range(40):
        cases.join(*small_trio(dice, PADDED_ALPHABETS))
    large_join_cases(cases)


def all_cases():
    cases = Cases()
    table_cases(cases)
    lent_cases(cases)
    refusal_cases(cases)
    for at, (first, second) in enumerate(edge_pairs()):
        if len(first) + len(second) <= FEW_NUMBERS:
            cases.kinds(first, second)
        else:
            cases.add(by_turns(at), first, second)
    alike_cases(cases)
    padded_cases(cases)
    dice = Dice(21)
    for _ in range(790):
        cases.kinds(*small_pair(dice, FEW_FILLINGS))
    more = Dice(dice.state)
    for _ in range(30):
        cases.kinds(*small_pair(more, FEW_FILLINGS))
    for _ in range(24):
        cases.kinds(*large_pair(dice))
    join_cases(cases)
    steep_cases(cases)
    any_case_cases(cases)
    high_cases(cases)
    return cases.lines


def hold_to_room(lines):
    hold_numbers_to_room(lines)
    for line in lines:
        kind, work, lengths, _ = case_read(line)
        if kind not in (*KINDS, JOIN) or work > LONGEST_WORK or max(lengths) > LONGEST_OUTPUT:
            raise AssertionError(f"no room for this case: {line}")
