"""A tray of pairs at once: document 02, order 8.

A record is what the single call of the quick sweep answers on the blocks of two ranges, and sweep.py holds that call to
fillings. New are the blocks that a range means, what is wrong with a range, and what becomes of the row. Which refusal
is due is found in two ways, held to each other.
"""

from functools import lru_cache
from itertools import permutations, product

import sweep
from making import (
    ALPHABETS, HIGH_ALPHABETS, LARGE_HIGH_ALPHABETS, NUMBER_FILLER, ONE_EACH, SMALL_ALPHABETS, TWO_BAD, Dice, block,
    counted, edge_pairs, hexes, high_pairs, high_unsound_blocks, hold_numbers_to_room, large_pair, lists_read,
    many_blocks, numbers_read, refused_pairs, small_pair, unsound_blocks, written,
)
from shapes import BLOCK_SIZE, MOST_BLOCKS, Refused, agree, shape_of

MOST_PAIRS = 64

# The numbers of a pair.
PAIR_SIZE = 4

# Room for the places of any shape, so that the single call never finds its output too short.
ROOM = 2 * MOST_BLOCKS

# A record before the call.
AS_FOUND = f"cannot {NUMBER_FILLER}"

# What the program has room for; a run beside the most pairs may have only so many numbers.
LONGEST_ROW = 66
MOST_NUMBERS = 800
MOST_BESIDE_PAIRS = 494

GREATEST = 2**64 - 1


# The records.


def cut(numbers, size):
    """The whole parts of so many numbers; what is left over behind them is not there."""
    return [numbers[at : at + size] for at in range(0, len(numbers) - size + 1, size)]


def joined(parts):
    return [number for part in parts for number in part]


def blocks_of(run, bounds, number):
    """The numbers of a range's blocks, the range's number being `number`."""
    first, past = bounds
    whole = cut(run, BLOCK_SIZE)
    if past < first or past > len(whole):
        raise Refused(14, number, 0)
    words = joined(whole[first:past])
    agree("the blocks of a range", (run, bounds), words, run[first * BLOCK_SIZE : past * BLOCK_SIZE])
    return words


@lru_cache(maxsize=None)
def single(first, second):
    """What the single call answers on two shapes, without its output: the verdict and the looks, or the refusal."""
    cases = sweep.Cases()
    cases.add(first, second, ROOM)
    (line,) = cases.lines
    return " ".join(sweep.expected_line(line).split(" ")[:-ROOM])


def judged(run, pair):
    """A pair's verdict and looks, or its refusal."""
    try:
        first, second = (blocks_of(run, bounds, number) for number, bounds in enumerate((pair[:2], pair[2:]), 1))
    except Refused as refusal:
        return refusal.line
    return single(tuple(first), tuple(second))


def wrong_range(run, bounds, number):
    """What is wrong with a range by itself, or None."""
    try:
        shape_of(blocks_of(run, bounds, number), number)
    except Refused as refusal:
        return refusal.args
    return None


def refusal_due(run, pair):
    """What is wrong with either range, or None: a 14 comes before all else, and then the first range."""
    wrong = [wrong_range(run, bounds, number) for number, bounds in enumerate((pair[:2], pair[2:]), 1)]
    return min(filter(None, wrong), key=lambda refusal: (refusal[0] != 14, refusal[1]), default=None)


def record(run, pair):
    answer = judged(run, pair)
    due = refusal_due(run, pair)
    agree("the refusal of a pair", (run, pair), answer.startswith("refused "), due is not None)
    if due is None:
        return answer
    agree("the refusal of a pair", (run, pair), answer, Refused(*due).line)
    # A refused one has no looks.
    return f"{answer} 0"


def records(run, listed, room):
    """The records of all pairs of a list, to go to a row with room for so many."""
    pairs, rest = divmod(len(listed), PAIR_SIZE)
    if rest != 0 or pairs > MOST_PAIRS:
        raise Refused(15, 0, 0)
    if room < pairs:
        raise Refused(5, 0, 0)
    return [record(run, pair) for pair in cut(listed, PAIR_SIZE)]


# The expected line of a case.


def expected_line(line):
    _, length, *numbers = line.split(" ")
    run, listed = lists_read(numbers_read(numbers), 2)
    row = [AS_FOUND] * int(length, 16)
    try:
        due = records(run, listed, len(row))
        row[: len(due)] = due
        head = "judged"
    except Refused as refusal:
        head = refusal.line
    return " / ".join([head, *row])


# Making cases. Each one is the length of the row, the numbers of the run and those of the list.


def tray(run, pairs, spare=0):
    """A case with these pairs, and so many records to spare."""
    return min(len(pairs) + spare, LONGEST_ROW), run, joined(pairs)


def trays(run, pairs):
    """All of these pairs, as many to a case as it takes, and by turns none, one and two records to spare."""
    for at in range(0, len(pairs), MOST_PAIRS):
        yield tray(run, pairs[at : at + MOST_PAIRS], at // MOST_PAIRS % 3)


def all_pairs(ranges):
    return [first + second for first, second in product(ranges, repeat=2)]


def exchanged(pair):
    return pair[2:] + pair[:2]


# Found by hand: the run, how many numbers its last block lacks, the pairs, the records of the row, and the answer.
ANSWERS = (
    # Document 01's rows P12 and P13, and what it says of a sweep that sees too little; and each one exchanged.
    ("a1..1 c0..1 a1..1", 0, [(0, 1, 1, 3)], 1, "judged / places 4"),
    ("a1..1 a2..3", 0, [(0, 1, 1, 2), (1, 2, 0, 1)], 2, "judged / cannot 1 / cannot 2"),
    (
        "a0..1 b1..1 a0..1 b0..1 a2..2 b0..1", 0, [(0, 3, 3, 6), (3, 6, 0, 3)], 3,
        "judged / places 7 / cannot 6 / cannot 42405",
    ),
    # Equal ranges and overlapping ones.
    (
        "a1..1 b1..1 a1..1", 0, [(0, 1, 0, 1), (0, 1, 2, 3), (0, 2, 1, 3)], 3,
        "judged / places 2 / places 2 / cannot 3",
    ),
    # Empty ranges at the start, within and at the end.
    (
        "a1..1 b1..1 a1..1", 0, [(0, 0, 0, 1), (0, 1, 1, 1), (3, 3, 0, 1), (0, 1, 3, 3), (1, 1, 2, 2)], 5,
        "judged / refused 1 1 0 0 / refused 1 2 0 0 / refused 1 1 0 0 / refused 1 2 0 0 / refused 1 1 0 0",
    ),
    # Ranges that end before they start, and such as reach past the end.
    (
        "a1..1 b1..1 a1..1", 0, [(1, 0, 0, 1), (0, 1, 1, 0), (2, 1, 1, 0)], 4,
        "judged / refused 14 1 0 0 / refused 14 2 0 0 / refused 14 1 0 0 / cannot 42405",
    ),
    (
        "a1..1 b1..1 a1..1", 0, [(0, 4, 0, 1), (0, 1, 0, 4), (4, 4, 0, 4), (5, 4, 0, 1), (2, 3, 0, 1)], 5,
        "judged / refused 14 1 0 0 / refused 14 2 0 0 / refused 14 1 0 0 / refused 14 1 0 0 / places 2",
    ),
    # Both before what is wrong with a shape.
    (
        "a2..1 a0..251 a0..0", 0, [(0, 0, 1, 0), (0, 1, 2, 4), (0, 3, 2, 3), (1, 3, 0, 0), (2, 3, 0, 1)], 5,
        "judged / refused 14 2 0 0 / refused 14 2 0 0 / refused 2 1 1 0 / refused 10 1 1 0 / refused 11 1 1 0",
    ),
    # The place is counted from the start of the range.
    (
        "a1..1 a1..1 a2..1 a1..1", 0, [(0, 1, 1, 4), (2, 4, 0, 1), (0, 4, 0, 4), (0, 2, 2, 3)], 4,
        "judged / refused 2 2 2 0 / refused 2 1 1 0 / refused 2 1 3 0 / refused 2 2 1 0",
    ),
    (
        "a0..200 a0..51 a0..50", 0, [(0, 2, 2, 3), (0, 1, 1, 3), (1, 2, 0, 2), (0, 3, 0, 3)], 4,
        "judged / refused 3 1 0 0 / places 2 / refused 3 2 0 0 / refused 3 1 0 0",
    ),
    (
        "a0..1 " * 33, 0, [(0, 33, 0, 1), (0, 1, 0, 33), (0, 32, 1, 33), (0, 33, 33, 33), (0, 33, 0, 34)], 5,
        "judged / refused 1 1 0 0 / refused 1 2 0 0 / places 32 / refused 1 1 0 0 / refused 14 2 0 0",
    ),
    # Numbers left over.
    (
        "a1..1 b1..1", 1, [(0, 1, 0, 1), (0, 1, 1, 2), (0, 2, 0, 1), (1, 1, 0, 1)], 4,
        "judged / places 2 / refused 14 2 0 0 / refused 14 1 0 0 / refused 1 1 0 0",
    ),
    ("a1..1", 1, [(0, 1, 0, 1), (0, 0, 0, 0)], 2, "judged / refused 14 1 0 0 / refused 1 1 0 0"),
    ("a1..1", 6, [(0, 1, 0, 1), (0, 0, 0, 0)], 2, "judged / refused 14 1 0 0 / refused 1 1 0 0"),
    # Of 4 numbers, of 8 and of 20 there are none, one and three whole blocks.
    ("a1..1", 2, [(0, 1, 0, 1), (0, 0, 0, 0)], 2, "judged / refused 14 1 0 0 / refused 1 1 0 0"),
    ("a1..1 b1..1", 4, [(0, 1, 0, 1), (0, 1, 1, 2), (1, 1, 0, 1)], 3,
     "judged / places 2 / refused 14 2 0 0 / refused 1 1 0 0"),
    ("a1..1 " * 4, 4, [(0, 3, 0, 3), (0, 4, 0, 1), (2, 3, 3, 4), (0, 5, 0, 1)], 4,
     "judged / places 10 / refused 14 1 0 0 / refused 14 2 0 0 / refused 14 1 0 0"),
    # Latin signs: µ has its bit where 5, u and õ have theirs in other numbers of a base.
    ("µ1..1 51..1 u1..1 õ1..1", 0, [(0, 1, 0, 1), (0, 1, 1, 2), (0, 1, 2, 3), (0, 1, 3, 4), (3, 4, 2, 3)], 5,
     "judged / places 2 / cannot 1 / cannot 1 / cannot 1 / cannot 1"),
    ("{õ,ö}0..2 {ö,÷}1..1 ÷1..1", 0, [(0, 1, 1, 2), (1, 2, 2, 3), (0, 1, 2, 3)], 3,
     "judged / places 1 / places 2 / cannot 1"),
    # Products that are small at 64 bits.
    (
        "a1..1", 0, [(2**62, 2**62 + 1, 0, 1), (0, 1, 2**62, 2**62 + 1), (0, 2**63 + 1, 0, 1), (0, 1, GREATEST, 1)], 4,
        "judged / refused 14 1 0 0 / refused 14 2 0 0 / refused 14 1 0 0 / refused 14 2 0 0",
    ),
    # The whole call.
    ("a1..1", 0, [], 0, "judged"),
    ("a1..1", 0, [], 2, "judged / cannot 42405 / cannot 42405"),
    ("", 0, [], 0, "judged"),
    ("a1..1", 0, [(0, 1, 0, 1)], 0, "refused 5 0 0"),
    ("a1..1", 0, [(0, 1, 0, 1), (0, 1, 0, 1)], 1, "refused 5 0 0 / cannot 42405"),
    ("a1..1", 0, [(0, 1, 0, 1), (0, 1, 0)], 2, "refused 15 0 0 / cannot 42405 / cannot 42405"),
    ("a1..1", 0, [(0, 1, 0, 1), (0,)], 0, "refused 15 0 0"),
    ("a1..1", 0, [(0, 1, 0, 1)] * 64, 64, "judged" + " / places 2" * 64),
    ("a1..1", 0, [(0, 1, 0, 1)] * 64, 63, "refused 5 0 0" + " / cannot 42405" * 63),
    ("a1..1", 0, [(0, 1, 0, 1)] * 65, 66, "refused 15 0 0" + " / cannot 42405" * 66),
    ("a1..1", 0, [(0, 1, 0, 1)] * 65, 0, "refused 15 0 0"),
)


def hand_cases():
    for shape, lacking, pairs, length, line in ANSWERS:
        run = written(shape)
        case = length, run[: len(run) - lacking], joined(pairs)
        agree("an answer found by hand", (shape, pairs), expected_line(case_shown(*case)), line)
        yield case


# Sound blocks, one of each kind of bad block, and two that are too heavy together.
MIXED = written("a1..1 {a,b}0..2 a2..1 a1..2 a0..251 a0..0 a0..200 b0..200 b1..1")
MIXED_RANGES = (
    # Sound; empty.
    (0, 1), (0, 2), (3, 4), (6, 7), (8, 9), (0, 0), (4, 4), (9, 9),
    # 2, 10 and 11, by themselves and behind a sound block; several; 3.
    (2, 3), (1, 3), (4, 5), (3, 5), (5, 6), (4, 6), (2, 6), (0, 9), (6, 8), (5, 9),
    # Ends before it starts.
    (1, 0), (9, 8), (9, 0),
    # Reaches past the end, also if it is empty.
    (8, 10), (0, 10), (9, 10), (10, 10), (10, 11),
    # Ends before it starts and does not end within, or does not start within.
    (12, 11), (11, 10), (10, 9), (10, 0),
)


def range_cases():
    """Every kind of range beside every other; each one beside itself and beside a sound one in a tray of its own."""
    yield from trays(MIXED, all_pairs(MIXED_RANGES))
    for at, bounds in enumerate(MIXED_RANGES):
        for pair in (bounds + bounds, bounds + (0, 1), (0, 1) + bounds):
            yield tray(MIXED, [pair], at % 3)


# A list is cut from these pairs, over and over. No two that follow each other have one record.
LISTED = [
    (0, 1, 3, 4), (0, 1, 8, 9), (1, 0, 0, 1), (1, 2, 0, 1), (2, 3, 0, 1), (0, 1, 9, 9), (3, 4, 0, 2), (0, 1, 8, 10),
]
LIST_LENGTHS = (*range(9), 248, 252, *range(255, 265))


def list_cases():
    """Lists around the limits, whole pairs or not, each with rows around what it wants."""
    for length in LIST_LENGTHS:
        listed = (joined(LISTED) * length)[:length]
        wanted = length // PAIR_SIZE
        rows = {0, wanted - 1, wanted, wanted + 1, 64, 65, 66}
        for row in sorted(rows & set(range(LONGEST_ROW + 1))):
            yield row, MIXED, listed
    # Nothing wrong, all wrong, nothing lent, and the run that leaves least room for pairs.
    long_run = (many_blocks(40, 80) * 3)[:MOST_BESIDE_PAIRS]
    for pair, run in (((0, 1, 0, 1), MIXED), ((1, 0, 2, 3), MIXED), ((0, 1, 0, 1), []), ((0, 32, 49, 81), long_run)):
        for length in (4, 5, 251, 252, 255, 256, 257, 260, 264):
            for row in (length // PAIR_SIZE - 1, length // PAIR_SIZE):
                yield row, run, (list(pair) * length)[:length]


def short_run_cases():
    """Runs of few numbers, whole blocks or not, with every pair of ranges that end within or one past them."""
    numbers = written("a0..1 {a,b}1..2 b1..1 a1..1")
    for length in (*range(14), 17, 18, 23):
        bounds = range(length // BLOCK_SIZE + 2)
        yield from trays(numbers[:length], all_pairs([*product(bounds, repeat=2)]))


def run_end_cases():
    """Every pair of ranges at the end of runs with no numbers left over and with some."""
    for whole in (1, 2, 10, 31, 32, 33, 34, 64, 81):
        numbers = (many_blocks(41, 82) * 3)[: (whole + 1) * BLOCK_SIZE]
        before = max(whole - MOST_BLOCKS, 0)
        ranges = [
            (whole - 1, whole), (whole, whole), (whole, whole + 1), (whole - 1, whole + 1),
            (before, whole), (before, whole + 1), (before + 1, whole + 1), (whole + 1, whole),
        ]
        for left_over in range(BLOCK_SIZE):
            yield from trays(numbers[: whole * BLOCK_SIZE + left_over], all_pairs(ranges))


# Numbers that a narrower number, a product or a sum that wraps, or a sign would take for others.
FAR = sorted(
    {near for power in (8, 16, 31, 32, 59, 60, 61, 62, 63) for near in (2**power - 1, 2**power, 2**power + 1)}
    | {times * 2**61 + more for times in (3, 5, 6, 7) for more in (-1, 0, 1)}
    | {GREATEST - less for less in (0, 1, 2, 3)}
)


def far_ranges(far):
    ranges = [(far, far), (far - 1, far), (0, far), (1, far), (far, 0), (far, 1), (far, 3)]
    ranges += [(far, far + more) for more in (1, 2) if far + more <= GREATEST]
    return ranges


def far_cases():
    run = written("a1..1 {a,b}0..2 a1..2 b0..1")
    good = (0, 1, 2, 3)
    for at, far in enumerate(FAR):
        pairs = []
        for bounds in far_ranges(far):
            pairs += [bounds + good[2:], good[:2] + bounds, bounds + bounds, good]
        yield tray(run, pairs, at % 3)
        # By itself, and with other things wrong.
        alone = (far - 1, far, 0, 1)
        yield tray(run, [exchanged(alone) if at % 2 else alone])
        yield tray(run, [(0, 0, far, far), (far, far, 1, 0), (1, 0, far, 0), (far, 1, 1, 1)], 1)
    # All numbers of a pair.
    windows = [tuple(FAR[at : at + PAIR_SIZE]) for at in range(len(FAR) - PAIR_SIZE + 1)]
    yield tray(run, windows)
    yield tray(run, [window[::-1] for window in windows])
    for far in (2**62, 2**63, 3 * 2**62):
        # As many as there can be: each would be a sound one, or an empty one, if its numbers were multiplied.
        yield tray(run, [(far + a, far + b, far + c, far + d) for a, b, c, d in product(range(2), repeat=4)] * 4)


# Both sides of where six times a number would wrap.
SIXTHS = [times * 2**64 // BLOCK_SIZE + more for times in range(1, BLOCK_SIZE) for more in (0, 1)]


def sixth_cases():
    run = written("a1..1 {a,b}0..2 a1..2 b0..1")
    for far in SIXTHS:
        pairs = [bounds + (2, 3) for bounds in far_ranges(far)]
        yield tray(run, [*pairs, *map(exchanged, pairs), (0, 1, 2, 3)])


# Sound pairs of both verdicts, and pairs that are bad in every way.
SOUND_PAIRS = [(0, 1, 3, 4), (0, 1, 8, 9), (3, 4, 0, 2), (1, 2, 0, 1)]
BAD_PAIRS = [
    (1, 0, 0, 1), (0, 1, 9, 10), (0, 1, 4, 4), (2, 3, 0, 1), (0, 1, 6, 8), (9, 9, 0, 1), (0, 1, 5, 6), (3, 5, 0, 1),
    (10, 9, 12, 11), (2, 3, 4, 5), (0, 1, 2**62, 2**62 + 1),
]


def position_cases():
    """Bad pairs in every place among sound ones."""
    bad_at = 0
    for places in product((False, True), repeat=4):
        for turn in range(3):
            pairs = []
            for at, bad in enumerate(places):
                pairs.append(BAD_PAIRS[bad_at % len(BAD_PAIRS)] if bad else SOUND_PAIRS[(turn + at) % 4])
                bad_at += bad
            yield tray(MIXED, pairs, turn % 2)
    sound, bad = SOUND_PAIRS * 16, (BAD_PAIRS * 6)[:MOST_PAIRS]
    for at in (0, 1, 15, 16, 31, 32, 33, 61, 62, 63):
        yield tray(MIXED, sound[:at] + bad[at : at + 1] + sound[at + 1 :])
        yield tray(MIXED, bad[:at] + sound[at : at + 1] + bad[at + 1 :])
        yield tray(MIXED, bad[:at] + sound[at:])
        yield tray(MIXED, sound[:at] + bad[at:])


def limit_cases():
    """Ranges of up to 32 blocks and over, beside bad ones; all uppers together up to 250 and over."""
    good, bad = block(b"AB", 0, 3), block(b"A", 2, 1)
    ranges = [(0, 1), (0, 31), (0, 32), (1, 33), (0, 33), (0, 34), (2, 34), (33, 34), (34, 35), (34, 34), (3, 36)]
    ranges += [(36, 36), (37, 36), (0, 37), (4, 37), (1, 0)]
    for run in (good * 36, good * 33 + bad + good * 2, bad + good * 31 + bad + good * 3):
        yield from trays(run, all_pairs(ranges))
    # From every block of a long run, for 31 to 33 blocks.
    run = good * 20 + bad + good * 41
    for length in (31, 32, 33):
        ranges = [(at, at + length) for at in range(len(run) // BLOCK_SIZE - length + 2)]
        yield tray(run, [bounds + (0, 1) for bounds in ranges])
        yield tray(run, [(0, 1) + bounds for bounds in ranges])
    for total in (249, 250, 251):
        run = many_blocks(31, total) + written("A0..1 B0..1 A0..250 B0..1")
        ranges = [(0, 30), (0, 31), (0, 32), (1, 33), (33, 34), (32, 34), (33, 35)]
        yield from trays(run, all_pairs(ranges))


class Run:
    """A run that grows by the shapes lent; mostly a bad block stands before a shape, which is no part of it."""

    def __init__(self, dice):
        self.dice = dice
        self.numbers = []
        self.ranges = {}

    def has_room(self, pair):
        fresh = {tuple(shape) for shape in pair} - self.ranges.keys()
        return len(self.numbers) + sum(BLOCK_SIZE + len(shape) for shape in fresh) <= MOST_BESIDE_PAIRS

    def lend(self, shape):
        """The range of a shape; one that comes again is lent once."""
        shape = tuple(shape)
        if shape not in self.ranges:
            self.numbers += self.dice.pick(ONE_EACH) if self.dice.below(3) else []
            first = len(self.numbers) // BLOCK_SIZE
            self.numbers += shape
            self.ranges[shape] = (first, len(self.numbers) // BLOCK_SIZE)
        return self.ranges[shape]


def gathered(dice, shapes, most):
    """Trays of these pairs of shapes, at most so many to a tray, and as many as the run has room for."""
    run, pairs = Run(dice), []
    for first, second in shapes:
        if pairs and (len(pairs) == most or not run.has_room((first, second))):
            yield tray(run.numbers, pairs, dice.below(3))
            run, pairs = Run(dice), []
        pairs.append(run.lend(first) + run.lend(second))
    yield tray(run.numbers, pairs, dice.below(3))


def whole_blocks(pair):
    return all(len(shape) % BLOCK_SIZE == 0 for shape in pair)


def refusal_cases():
    """Every refusal of a shape, in the first, in the second and in both; then beside a range that is refused."""
    dice = Dice(80)
    refused = [pair for pair in refused_pairs() if whole_blocks(pair)]
    yield from gathered(dice, refused, 12)
    yield from gathered(dice, refused[::5], 1)
    good, heavy = block(b"AB", 0, 3), block(b"A", 0, 200)
    shapes = [*ONE_EACH, *TWO_BAD, heavy * 2, good * 33, *(one + heavy * 2 for one in ONE_EACH), good + ONE_EACH[0]]
    for shape in shapes:
        whole = len(shape) // BLOCK_SIZE
        wrong = [(1, 0), (whole + 1, 0), (whole + 2, whole + 1), (0, whole + 2), (whole + 1, whole + 2)]
        # An empty range, which is refused with the others and no sooner.
        wrong += [(0, 0), (whole + 1, whole + 1)]
        pairs = [(0, whole, *bounds) for bounds in wrong]
        yield tray(list(shape) + good, pairs + [exchanged(pair) for pair in pairs], 1)


# Every block with at most two characters of two, and the block that holds nothing.
TINY = [block((), 0, 0)]
TINY += [block(base, lower, upper) for base in ((0,), (64,), (0, 64)) for upper in (1, 2) for lower in range(upper + 1)]


def tiny_cases():
    """All pairs of shapes of one tiny block; of the pairs with shapes of two such blocks every second or third."""
    singles = [(at, at + 1) for at in range(len(TINY))]
    yield from trays(joined(TINY), all_pairs(singles))
    doubles = [(at, at + 2) for at in range(len(TINY) - 1)]
    for step in (1, 5, 7):
        # The same blocks in another order have other neighbours.
        run = joined(TINY[at * step % len(TINY)] for at in range(len(TINY)))
        pairs = [first + second for first, second in product(doubles, singles)]
        yield from trays(run, pairs[step % 3 :: 3])
        yield from trays(run, [exchanged(pair) for pair in pairs[(step + 1) % 3 :: 3]])
        yield from trays(run, all_pairs(doubles)[step % 2 :: 2])


def random_block(dice, codes):
    upper = dice.pick((0, 1, 1, 1, 2, 2, 3))
    return block(dice.some(codes) if upper else (), dice.pick((0, dice.between(0, upper))), upper)


def every_range_cases():
    """All ranges of three blocks by chance, each beside each."""
    dice = Dice(81)
    ranges = [(first, past) for first in range(3) for past in range(first + 1, 4)]
    for at in range(36):
        codes = dice.pick(SMALL_ALPHABETS)
        yield tray(joined(random_block(dice, codes) for _ in range(3)), all_pairs(ranges), at % 3)


def length_cases():
    """Ranges of every length from 1 to 32 blocks, beside one as long, as all the rest and as a single block."""
    dice = Dice(82)
    lengths = range(1, MOST_BLOCKS + 1)
    for codes in SMALL_ALPHABETS:
        for same in (True, False):
            run = joined(random_block(dice, codes) for _ in lengths)
            run += run if same else joined(random_block(dice, codes) for _ in lengths)
            yield tray(run, [(0, length, 32, 32 + length) for length in lengths])
            yield tray(run, [(64 - length, 64, 0, dice.pick((1, length, 33 - length))) for length in lengths], 2)


def edge_cases():
    """Shapes at the limits, with blocks that hold nothing, and with the least and greatest codes."""
    yield from gathered(Dice(83), edge_pairs(), 20)


def small_cases():
    """Small shapes by chance, both ways."""
    dice = Dice(84)
    for most in (1, 2, 4, 9, 30):
        shapes = [small_pair(dice, sweep.FEW_FILLINGS) for _ in range(25 + 9 * most)]
        yield from gathered(dice, [pair for one in shapes for pair in (one, one[::-1])], 2 * most)


def by_turns(dice, codes):
    """Blocks of one character each, of two by turns."""
    blocks = []
    for at in range(dice.between(2, 5)):
        upper = dice.pick((1, 1, 2))
        blocks.append(block([codes[at % 2]], dice.between(0, upper), upper))
    return joined(blocks)


def one_way_pairs():
    """Pairs of shapes, both ways, that the sweep says cannot of one way only."""
    dice = Dice(87)
    made = 0
    while made < 24:
        codes = dice.pick(((0, 1), (64, 65), (63, 64), (0, 127)))
        first, second = by_turns(dice, codes), by_turns(dice, codes[::-1])
        both = [sweep.places(*pair)[0] for pair in permutations((shape_of(first), shape_of(second)))]
        if both.count(None) == 1:
            made += 1
            yield from ((first, second), (second, first))


def one_way_cases():
    yield from gathered(Dice(88), one_way_pairs(), 6)


def large_cases():
    """Shapes of many characters by chance, both ways; every second time the text that one takes over is reversed."""
    dice = Dice(85)
    for at in range(48):
        first, second = large_pair(dice, changed=lambda text: text[:: -1 if at % 2 else 1])
        yield from gathered(dice, [(first, second), (second, first)], 2)


def high_cases():
    """Codes above 127."""
    dice = Dice(89)
    yield from gathered(dice, high_pairs(), 20)
    yield from gathered(dice, (small_pair(dice, sweep.FEW_FILLINGS, HIGH_ALPHABETS) for _ in range(90)), 12)
    yield from gathered(dice, (large_pair(dice, LARGE_HIGH_ALPHABETS) for _ in range(4)), 2)
    unsound = list(high_unsound_blocks())
    ranges = [(at, at + 1) for at in range(len(unsound) + 1)]
    yield from trays(joined(unsound) + block([128], 1, 1), [(*bounds, *ranges[-1]) for bounds in ranges])


# By chance altogether.


UNSOUND = list(unsound_blocks())


def random_run(dice):
    codes = dice.pick(ALPHABETS)
    kinds = dice.pick((40, 40, 40, 12))
    run = []
    for _ in range(dice.pick((1, 2, 3, 5, 8, 13, 20, 33, 40, 64, 80))):
        kind = dice.below(kinds)
        if kind == 0:
            run += dice.pick(UNSOUND)
        elif kind == 1:
            run += block(dice.some(codes), 0, 130)
        else:
            run += random_block(dice, codes)
    return run + dice.pick(([], [], [], [1], [0, 1], [1, 0, 1]))


def random_range(dice, whole):
    kind = dice.below(24)
    first = dice.below(whole + 1)
    if kind == 0:
        return first, first
    if kind == 1:
        return dice.between(0, whole + 2), dice.between(0, whole + 2)
    if kind == 2:
        return first, whole + 1
    if kind == 3:
        return first, dice.pick(FAR)
    if kind == 4:
        return tuple(first + dice.pick((0, 2**62, 2**63)) + more for more in (0, 1))
    first = dice.below(whole)
    length = dice.pick((1, 1, 1, 1, 2, 2, 2, 3, 3, 4, 5, 8, dice.between(1, 33), whole))
    return first, min(first + length, whole)


def random_cases():
    dice = Dice(86)
    for _ in range(180):
        run = random_run(dice)
        whole = len(run) // BLOCK_SIZE
        count = dice.pick((1, 2, 3, 4, 5, 8, 8, 13, 21, 34, 64))
        listed = joined(random_range(dice, whole) for _ in range(2 * count))
        length = count + dice.pick((0, 0, 0, 1, 2))
        kind = dice.below(24)
        if kind == 0:
            length = dice.below(count)
        elif kind == 1:
            listed = listed[: len(listed) - dice.between(1, 3)]
        yield length, run, listed


def case_shown(length, run, listed):
    return " ".join(["T", *hexes([length, *counted(run), *counted(listed)])])


def all_cases():
    parts = (
        hand_cases, range_cases, list_cases, short_run_cases, run_end_cases, far_cases, position_cases, limit_cases,
        refusal_cases, tiny_cases, every_range_cases, length_cases, edge_cases, small_cases, one_way_cases,
        large_cases, random_cases, sixth_cases, high_cases,
    )
    # None twice.
    return list(dict.fromkeys(case_shown(*case) for part in parts for case in part()))


def hold_to_room(lines):
    hold_numbers_to_room(lines, MOST_NUMBERS)
    for line in lines:
        length, *numbers = numbers_read(line.split(" ")[1:])
        run, listed = lists_read(numbers, 2)
        beside = len(listed) < MOST_PAIRS * PAIR_SIZE or len(run) <= MOST_BESIDE_PAIRS
        if length > LONGEST_ROW or not beside:
            raise AssertionError(f"no room for this case: {line}")
