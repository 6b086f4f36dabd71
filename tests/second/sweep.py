"""The quick sweep: places of X in Y by document 01's steps, held to all pairs of fillings where these are few."""

from functools import lru_cache

from making import (
    NUMBER_FILLER, OLD_SHAPES, Dice, block, counted, drawn_high_pairs, edge_pairs, hexes, high_pairs,
    hold_numbers_to_room, large_pair, lists_read, numbers_read, refused_pairs, small_pair, written,
)
from pairs import EXACT, narrowed_by_rows
from shapes import BLOCK_SIZE, Refused, agree, all_runs, fillings, pair_of, shape_of

# Pairs of shapes with at most so many pairs of fillings are held to every one of them.
FEW_PAIRS = 40_000
FEW_FILLINGS = 400

# What the program has room for.
LONGEST_OUTPUT = 200


# The steps. A place is (block, offset), blocks from 1 and offsets from 0, so that places compare as
# pairs do. Each pass of a loop is one look at a block.


def share(one, other):
    return not set(one.base).isdisjoint(other.base)


def push(block, shape, place):
    """Start and end of the earliest match from the place on, the characters left unplaced, and the looks."""
    number, offset = start = place
    left = block.lower
    looks = 0
    while left > 0 and number <= len(shape):
        looks += 1
        other = shape[number - 1]
        if not share(block, other):
            if other.lower > offset:
                start = (number + 1, 0)
                left = block.lower
        elif left <= other.upper - offset:
            return start, (number, offset + left), 0, looks
        else:
            left -= other.upper - offset
        number, offset = number + 1, 0
    return start, (number, offset), left, looks


def stretch(block, shape, place):
    """The latest end from the place on, and the looks."""
    number, offset = place
    left = block.upper
    looks = 0
    while number <= len(shape):
        looks += 1
        other = shape[number - 1]
        if other.lower > offset:
            if not share(block, other):
                break
            if left < other.lower - offset:
                return (number, offset + left), looks
            left -= other.lower - offset
        number, offset = number + 1, 0
    return (number, offset), looks


def stretched(first, second):
    """A place for each block of the first shape, from the last back to the first, and the looks."""
    reversed_second = second[::-1]
    end, all_looks, places = (1, 0), 0, []
    for block in reversed(first):
        end, looks = stretch(block, reversed_second, end)
        all_looks += looks
        number, offset = end
        if number > len(second):
            places.append((1, 0))
        else:
            places.append((len(second) + 1 - number, reversed_second[number - 1].lower - offset))
    return places[::-1], all_looks


def places(first, second):
    """The places of the first shape's blocks in the second, None if there cannot be a common text; and the looks."""
    earliest, all_looks = stretched(first, second)
    if earliest[0] != (1, 0):
        return None, all_looks
    end, found = (1, 0), []
    for block, least in zip(first, earliest):
        start, end, left, looks = push(block, second, max(least, end))
        all_looks += looks
        if left > 0:
            return None, all_looks
        found.append(start)
    return found, all_looks


# The meaning: every pair of fillings with one text.


@lru_cache(maxsize=2000)
def runs_by_text(shape):
    """For each text the lengths of the runs of every filling that has it."""
    found = {b"": [()]}
    for block in shape:
        runs = all_runs(block)
        longer = {}
        for text, fills in found.items():
            for run in runs:
                longer.setdefault(text + run, []).extend(fill + (len(run),) for fill in fills)
        found = longer
    return found


def latest_name(lengths, index):
    """The latest place of a filling with these runs that stands for the character index."""
    name, start = None, 0
    for number, length in enumerate(lengths, 1):
        if start <= index <= start + length:
            name = (number, index - start)
        start += length
    return (len(lengths) + 1, 0) if index == start else name


def hold_to_fillings(first, second, found):
    """Raises where a pair of fillings with one text has a boundary whose latest name is before its place."""
    ours, others = runs_by_text(first), runs_by_text(second)
    common = ours.keys() & others.keys()
    if found is None:
        agree("cannot", (first, second), sorted(common), [])
        return
    for text in common:
        for lengths in ours[text]:
            for number, place in enumerate(found):
                index = sum(lengths[:number])
                for others_lengths in others[text]:
                    if latest_name(others_lengths, index) < place:
                        raise AssertionError(f"a boundary before its place: {first} {second} {text} {number} {place}")


def swept(first, second):
    found, looks = places(first, second)
    if looks > 2 * (len(first) + len(second)):
        raise AssertionError(f"too many looks: {first} {second} {looks}")
    few = fillings(first) <= FEW_FILLINGS and fillings(second) <= FEW_FILLINGS
    if few and fillings(first) * fillings(second) <= FEW_PAIRS:
        hold_to_fillings(first, second, found)
    elif found is None:
        agree("cannot", (first, second), narrowed_by_rows(first, second, EXACT), None)
    return found, looks


# The expected line of a case.


def expected_line(line):
    _, length, *numbers = line.split(" ")
    length = int(length, 16)
    words = lists_read(numbers_read(numbers), 2)
    output = [NUMBER_FILLER] * length
    try:
        first, second = pair_of(*words)
        if length < 2 * len(first):
            raise Refused(5, 0, 0)
        found, looks = swept(first, second)
        if found is None:
            head = f"cannot {looks}"
        else:
            head = f"places {looks}"
            numbers = [number for place in found for number in place]
            output[: len(numbers)] = numbers
    except Refused as refusal:
        head = refusal.line
    return " ".join([head, *hexes(output)])


# Making cases.


class Cases:
    def __init__(self):
        self.lines = []

    def add(self, first, second, length=None):
        """A case; without a length the output is exactly as long as it has to be."""
        length = len(first) // BLOCK_SIZE * 2 if length is None else length
        self.lines.append(" ".join(["S", *hexes([length, *counted(first), *counted(second)])]))

    def both(self, first, second):
        self.add(first, second)
        self.add(second, first)


def hold_to_table():
    """Document 01's rows P9 to P13."""
    (seek,) = shape_of(written("{a,b}3..4"))
    shape = shape_of(written("a2..3 c1..2 b1..1 c0..2 a3..4"))
    agree("P9", seek, push(seek, shape, (1, 1))[:2], ((3, 0), (5, 2)))
    agree("P10", seek, stretch(seek, shape, (1, 1))[0], (2, 0))
    agree("P11", seek, stretch(seek, shape, (2, 1))[0], (6, 0))
    one = shape_of(written("a1..1"))
    agree("P12", one, places(one, shape_of(written("c0..1 a1..1"))), ([(1, 0)], 4))
    agree("P13", one, places(one, shape_of(written("a2..3"))), (None, 1))


def picked_cases(cases):
    for first, second in (
        ("a1..1", "c0..1 a1..1"),
        ("a1..1", "a2..3"),
        # No common text, and the sweep does not see it.
        ("a0..1 b1..1 a0..1", "b0..1 a2..2 b0..1"),
        # A restart with and without characters placed before it; blocks that end at a block's end.
        ("{a,b}3..4", "a2..3 c1..2 b1..1 c0..2 a3..4"),
        ("c1..1 {a,b}3..4", "a0..3 c1..2 b1..1 c0..2 a3..4"),
        ("a1..1 {a,b}3..4 {a,c}0..9", "a2..3 c0..2 b1..1 c0..2 a3..4"),
        ("{a,b}0..2 c1..1 {a,b}3..4", "a2..3 c1..2 b1..1 c0..2 a3..4"),
        ("a0..2 a1..1 a0..2", "a1..3 b0..1 a0..2"),
        ("a0..1 a0..1", "a1..1"),
        ("{a..c}0..30 d5..5 {c..f}0..2", "{b..d}26..26 f1..1"),
        ("a2..2 b2..2 a2..2", "{a,b}1..2 b1..2 {a,b}3..3"),
        ("empty 0..0", "a1..1"),
        ("empty 0..0 a1..1 empty 0..0", "a1..1"),
        ("a1..1", "empty 0..0 a1..1 empty 0..0"),
        ("a1..1", "empty 0..0"),
        ("a0..1", "empty 0..0"),
        ("b0..1", "a0..1"),
        # Blanks at the end are characters as all others.
        ("{ }2..2", "empty 0..0"),
        ("a1..1 { }4..4", "a1..1"),
        ("a1..1 { }0..9", "{a, }3..3"),
        ("{ }1..3 a1..1 { }2..2", "{ }0..1 a1..1 { }0..9"),
    ):
        cases.both(written(first), written(second))


def output_cases(cases):
    for first, second in (
        ("a1..1", "c0..1 a1..1"),
        ("a1..1", "a2..3"),
        ("a0..1 b1..1 a0..1", "b0..1 a2..2 b0..1"),
        ("empty 0..0 empty 0..0", "empty 0..0"),
    ):
        first, second = written(first), written(second)
        wanted = len(first) // BLOCK_SIZE * 2
        for length in sorted({0, 1, wanted - 1, wanted, wanted + 1, wanted + 2, wanted * 2, 65}):
            cases.add(first, second, length)
    for length in (0, 2, 62, 63, 64, 65, 128, 129, LONGEST_OUTPUT):
        cases.add(written("{A,B}0..7") * 32, written("A0..250"), length)
        cases.add(written("A7..7") * 32, written("B0..250"), length)


def refusal_cases(cases):
    for first, second in refused_pairs():
        cases.add(first, second)
        if len(first) // BLOCK_SIZE * 2 <= 4:
            # Too short as well, which comes last.
            cases.add(first, second, 0)
            cases.add(first, second, 3)


def high_cases(cases):
    """Codes above 127, and blocks of four numbers."""
    for first, second in high_pairs():
        cases.both(first, second)
    for first, second in drawn_high_pairs(Dice(12), 120, FEW_FILLINGS):
        cases.add(first, second)
    for shape in OLD_SHAPES:
        cases.both(shape, block([128], 1, 1))


def all_cases():
    hold_to_table()
    cases = Cases()
    picked_cases(cases)
    output_cases(cases)
    refusal_cases(cases)
    for first, second in edge_pairs():
        cases.add(first, second)
    dice = Dice(11)
    for _ in range(3200):
        cases.add(*small_pair(dice, FEW_FILLINGS))
    for _ in range(110):
        cases.add(*large_pair(dice))
    high_cases(cases)
    return cases.lines


def hold_to_room(lines):
    hold_numbers_to_room(lines)
    if any(int(line.split(" ")[1], 16) > LONGEST_OUTPUT for line in lines):
        raise AssertionError("an output that is too long")
