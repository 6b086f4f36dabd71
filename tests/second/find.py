"""At which index a mark starts first in the texts of a shape: document 02, order 7.

Two methods, held to each other where fillings are few. One looks at all texts. The other searches the states of a
filling: the block, the count of characters laid in it, and how much of the mark is matched. What it finds it shows by
texts, and these are held to the definition, whatever the shape.
"""

from functools import lru_cache
from itertools import groupby

import base
from base import EDGE_BYTES, EDGE_CODES, nearly, text_read, text_shown
from bounds import fits
from making import (
    HIGH_ALPHABETS, LARGE_ALPHABETS, LARGE_HIGH_ALPHABETS, OLD_SHAPES, ONE_EACH, WORD_ENDS, Dice, block, carved,
    edge_pairs, hexes, high_pairs, high_unsound_blocks, large_shape, many_blocks, numbers_read, random_filling,
    random_text, refused_pairs, shared_out, small_blocks, small_shape, words_of, written,
)
from shapes import (
    ALL_CODES, FEW_FILLINGS, MOST_BLOCKS, MOST_CHARACTERS, Block, Refused, agree, all_texts, fillings, shape_of,
)

MOST_MARK = 64

# Shapes by chance with at most so many fillings.
SMALL_FILLINGS = 600

# Where fillings are many, the answer is held to so many of them.
CHANCE_FILLINGS = 3

# An answer is whether some fitting text lacks the mark, and the least and the greatest index, None where none has it.
NOWHERE = (True, None, None)


# All texts.


def answer_by_texts(shape, mark):
    # Python counts from 0 and gives -1 where the mark is not.
    indices = {text.find(mark) + 1 for text in all_texts(shape)}
    lacking = 0 in indices
    indices.discard(0)
    return (lacking, min(indices), max(indices)) if indices else NOWHERE


# By states. What may follow depends on the state alone, so of the texts that lead to it two are enough: a shortest
# and a longest one. In neither of them is the mark complete.


def matched_after(mark, matched, code):
    """How much of the mark is matched once a character follows: the longest of its beginnings that the text ends
    with."""
    end = mark[:matched] + bytes([code])
    return next(length for length in reversed(range(len(end) + 1)) if end.endswith(mark[:length]))


def keep(states, matched, shortest, longest):
    """Adds the texts to those of a state."""
    if matched in states:
        shorter, longer = states[matched]
        shortest = shorter if len(shorter) < len(shortest) else shortest
        longest = longer if len(longer) > len(longest) else longest
    states[matched] = (shortest, longest)


def found_by_states(shape, mark):
    """A text that lacks the mark, or None, and texts that have it, each after the index where it starts first: among
    them one with the least and one with the greatest index."""

    @lru_cache(maxsize=None)
    def steps(matched, codes):
        """What can be matched after one more of these characters, each with a character that leads to it."""
        # One of the characters that the mark lacks stands for them all.
        others = [code for code in codes if code not in mark][:1]
        codes = [code for code in codes if code in mark] + others
        return {matched_after(mark, matched, code): bytes([code]) for code in codes}

    # A shortest filling of the blocks from each one on.
    rests = [b""]
    for codes, lower, _ in reversed(shape):
        rests.insert(0, bytes(codes[:1] * lower) + rests[0])

    found = []
    states = {0: (b"", b"")}
    for (codes, lower, upper), rest in zip(shape, rests[1:]):
        ended = {}
        for count in range(upper + 1):
            # The states are those with so many characters in this block.
            if count > 0:
                grown = {}
                for matched, (shortest, longest) in states.items():
                    for after, code in steps(matched, codes).items():
                        keep(grown, after, shortest + code, longest + code)
                for text in grown.pop(len(mark), ()):
                    whole = text + bytes(codes[:1] * (lower - count)) + rest
                    found.append((len(text) - len(mark) + 1, whole))
                states = grown
            if count >= lower:
                for matched, texts in states.items():
                    keep(ended, matched, *texts)
        states = ended
    return next((text for text, _ in states.values()), None), found


def answer_by_states(shape, mark):
    if not mark:
        # Complete before any character, in the empty text as well.
        return False, 1, 1
    lacking, found = found_by_states(shape, mark)
    shown = [min(found), max(found)] if found else []
    for index, text in [*shown, *([(0, lacking)] if lacking is not None else [])]:
        agree("the index in a text", (shape, mark, text), text.find(mark) + 1, index)
        agree("a text that is to fit", (shape, mark, text), fits(shape, text), True)
    return (lacking is not None, *(index for index, _ in shown)) if shown else NOWHERE


def hold_to_chance(shape, mark, lacking, least, greatest):
    """Fillings by chance hold to the answer."""
    dice = Dice(70)
    for _ in range(CHANCE_FILLINGS):
        text = random_filling(dice, shape)
        index = text.find(mark) + 1
        if not (lacking if index == 0 else least is not None and least <= index <= greatest):
            raise AssertionError(f"a text that the answer passes over: {shape}: {mark}: {text}")


def answer(shape, mark):
    by_states = answer_by_states(shape, mark)
    if fillings(shape) <= FEW_FILLINGS:
        agree("where a mark starts", (shape, mark), by_states, answer_by_texts(shape, mark))
    else:
        hold_to_chance(shape, mark, *by_states)
    return by_states


# The expected line of a case.


def answer_shown(lacking, least, greatest):
    if least is None:
        return "nowhere"
    return f"{'some' if lacking else 'all'} {least} {greatest}"


def expected_line(line):
    _, mark, *words = line.split(" ")
    mark = text_read(mark)
    try:
        shape = shape_of(numbers_read(words))
        if len(mark) > MOST_MARK:
            raise Refused(13, 0, 0)
    except Refused as refusal:
        return refusal.line
    return answer_shown(*answer(shape, mark))


TORQUE = "T1..1 {0..9}1..3 .1..1 {0..9}2..2 N1..1 m1..1"


def unit_column():
    """What the program `unit_column` says of `Nm` in the torque line."""
    lacking, least, greatest = answer(shape_of(written(TORQUE)), b"Nm")
    if least is None:
        return "no line has Nm"
    return f"{'some lines have' if lacking else 'every line has'} Nm, from column {least} to column {greatest}"


# Making cases. Each one is a mark and the numbers of a shape.


# Found by hand.
ANSWERS = (
    # Each part of the torque line, and what is no part of it.
    (TORQUE, "Nm", "all 6 8"),
    (TORQUE, "N", "all 6 8"),
    (TORQUE, "m", "all 7 9"),
    (TORQUE, "T", "all 1 1"),
    (TORQUE, ".", "all 3 5"),
    (TORQUE, "0", "some 2 7"),
    (TORQUE, ".00", "some 3 5"),
    (TORQUE, "0N", "some 5 7"),
    (TORQUE, "000", "some 2 2"),
    (TORQUE, "0000", "nowhere"),
    (TORQUE, "mN", "nowhere"),
    (TORQUE, "nm", "nowhere"),
    (TORQUE, "Nm ", "nowhere"),
    (TORQUE, " Nm", "nowhere"),
    (TORQUE, "T1.23Nm", "some 1 1"),
    (TORQUE, "T12.34Nm", "some 1 1"),
    (TORQUE, "T123.45Nm", "some 1 1"),
    (TORQUE, "T1234.56Nm", "nowhere"),
    # A unit that may be missing, may stand after blanks, or may stand earlier.
    ("T1..1 {0..9}1..3 .1..1 {0..9}2..2 N0..1 m0..1", "Nm", "some 6 8"),
    ("{0..9}1..3 { }0..2 N1..1 m1..1", "Nm", "all 2 6"),
    ("{0,N,m}0..3 N1..1 m1..1", "Nm", "all 1 4"),
    ("{0..9}0..3 { }0..3 {N,m}2..2", "Nm", "some 1 7"),
    # What is matched serves for a later start.
    ("a3..3 b1..1", "aab", "all 2 2"),
    ("a1..1 a1..1 a1..1 b1..1", "aab", "all 2 2"),
    ("a2..9 b1..1", "aab", "all 1 8"),
    ("a1..9 b1..1", "aab", "some 1 8"),
    ("a0..1 b1..1", "aab", "nowhere"),
    ("a5..5 b1..1", "aaab", "all 3 3"),
    ("a1..1 b1..1 a2..2 b1..1 a1..1 c1..1", "abac", "all 4 4"),
    ("a1..1 b1..1 a1..9 b1..1 a1..1 c1..1", "abac", "all 3 11"),
    ("a1..1 b1..1 a1..1 b1..1 a1..1 b1..1", "abab", "all 1 1"),
    ("a1..1 b1..1 a2..2 b1..1 a1..1 b1..1", "abab", "all 4 4"),
    ("a1..1 b1..1 a1..1 b1..1 a1..1 b1..1 a1..1 c1..1", "ababac", "all 3 3"),
    ("a2..2 b1..1 a2..2 b1..1 a2..2", "aabaa", "all 1 1"),
    ("a2..2 b1..1 a2..2 b1..1 a3..3", "aabaaa", "all 4 4"),
    ("a2..2 b0..1 a1..3", "aabaa", "some 1 1"),
    ("a2..4 b1..1 a2..2", "aabaa", "all 1 3"),
    ("a2..2 b1..1 a1..1 c1..1 a2..2 b1..1 a2..2", "aabaa", "all 6 6"),
    ("a2..2 b1..1 a3..3 b1..1 a2..2", "aabaa", "all 1 1"),
    ("a2..2 b1..1 a1..1 b1..1 a2..2 b1..1 a2..2", "aabaa", "all 6 6"),
    # From the first index to the last.
    ("a1..1 b0..9", "a", "all 1 1"),
    ("a0..1 b0..9", "a", "some 1 1"),
    ("b0..9 a0..1", "a", "some 1 10"),
    ("b0..9 a1..1", "a", "all 1 10"),
    ("b3..9 a1..1", "a", "all 4 10"),
    ("b0..249 a1..1", "a", "all 1 250"),
    ("b249..249 a1..1", "a", "all 250 250"),
    ("b0..249 a1..1", "ba", "some 1 249"),
    ("b1..249 a0..1", "ba", "some 1 249"),
    ("{a,b}250..250", "a", "some 1 250"),
    # Only the last block completes it.
    ("a1..3 b1..1 c0..1", "abc", "some 1 3"),
    ("a1..3 b1..1 c1..1", "abc", "all 1 3"),
    ("a1..1 b1..1 {c,d}1..1", "abd", "some 1 1"),
    ("a1..1 b1..1 {c,d}0..2", "abdd", "some 1 1"),
    ("a1..1 b1..1 {c,d}0..2", "abddd", "nowhere"),
    # Over several blocks.
    ("a1..1 b1..1 c1..1 d1..1", "abcd", "all 1 1"),
    ("a0..1 b0..1 c0..1 d0..1", "abcd", "some 1 1"),
    ("a0..1 b0..1 c0..1 d0..1", "ad", "some 1 1"),
    ("a0..1 b0..1 c0..1 d0..1", "bd", "some 1 2"),
    ("a0..1 b0..1 c0..1 d0..1", "ba", "nowhere"),
    ("a0..2 b0..2 c0..2", "abc", "some 1 2"),
    ("x0..3 a1..1 b1..1 empty 0..0 c1..1", "abc", "all 1 4"),
    ("{a,b}0..2 {b,c}0..2 {c,a}0..2", "bca", "some 1 4"),
    # A first start hides a later one.
    ("a1..1 b1..1 x0..9 a1..1 b1..1", "ab", "all 1 1"),
    ("a0..1 b0..1 x2..2 a1..1 b1..1", "ab", "all 1 4"),
    ("{a,b}2..4 a1..1", "a", "all 1 5"),
    ("{a,b}1..3 a2..2", "aa", "all 1 4"),
    ("a1..3 a2..2", "aa", "all 1 1"),
    ("a1..9", "a", "all 1 1"),
    ("a2..9", "aa", "all 1 1"),
    ("a0..9", "aa", "some 1 1"),
    ("a0..250", "a", "some 1 1"),
    ("b0..1 a1..1 b0..1 a1..1 b1..1", "ab", "all 1 3"),
    # Blocks that may be empty, and such as are.
    ("a0..1", "a", "some 1 1"),
    ("empty 0..0", "a", "nowhere"),
    ("empty 0..0 a1..1 empty 0..0 b1..1 empty 0..0", "ab", "all 1 1"),
    ("x0..1 empty 0..0 a0..1 empty 0..0 b0..1", "ab", "some 1 2"),
    # A run does not end below its lower, nor go on past its upper.
    ("a1..1 x0..3 b1..1", "ab", "some 1 1"),
    ("a1..1 x2..3 b1..1", "ab", "nowhere"),
    ("a1..1 x1..3 b1..1", "axb", "some 1 1"),
    ("a1..1 x2..3 b1..1", "axb", "nowhere"),
    ("a1..1 x2..3 b1..1", "axxb", "some 1 1"),
    ("a1..1 x3..3 b1..1", "axxxb", "all 1 1"),
    ("a1..1 x3..3 b1..1", "axxxxb", "nowhere"),
    ("a1..1 x0..3 b1..1", "axxxxb", "nowhere"),
    ("a1..1 {a,b}2..3 c1..1", "ac", "some 3 4"),
    ("a1..1 {a,b}2..3 c1..1", "abc", "some 2 3"),
    ("{a,b}2..2 {b,c}2..2", "ac", "some 2 2"),
    ("{a,b}2..2 {b,c}2..2", "abc", "some 1 2"),
    # Longer than any text, and as long as the longest.
    ("a0..3", "aaaa", "nowhere"),
    ("a0..3", "aaa", "some 1 1"),
    ("a3..3", "aaa", "all 1 1"),
    ("a0..3 b0..3", "aaabbb", "some 1 1"),
    ("a0..3 b0..3", "aaabbbb", "nowhere"),
    ("a0..3 b0..3", "aaaabbb", "nowhere"),
    ("a1..1 b0..1", "ab", "some 1 1"),
    ("a1..1 b1..1", "abb", "nowhere"),
    ("a64..64", "a" * 64, "all 1 1"),
    ("a0..64", "a" * 64, "some 1 1"),
    ("a0..63", "a" * 64, "nowhere"),
    ("a0..63", "a" * 63, "some 1 1"),
    ("a250..250", "a" * 64, "all 1 1"),
    ("a0..250", "a" * 64, "some 1 1"),
    ("a64..250", "a" * 64, "all 1 1"),
    ("{a,b}250..250", "a" * 64, "some 1 187"),
    ("{a,b}0..250", "ab" * 32, "some 1 187"),
    ("b0..186 a64..64", "a" * 64, "all 1 187"),
    ("b186..186 a64..64", "a" * 64, "all 187 187"),
    ("b187..187 a63..63", "a" * 64, "nowhere"),
    ("b0..187 a63..63", "b" + "a" * 63, "some 1 187"),
    ("a0..249 b1..1", "a" * 63 + "b", "some 1 187"),
    ("a63..249 b1..1", "a" * 63 + "b", "all 1 187"),
    ("a0..249 b1..1", "a" * 64 + "b", "refused 13 0 0"),
    ("a63..63 b0..1 a63..63", "a" * 64, "some 1 1"),
    ("a63..63 b1..1 a64..64", "a" * 64, "all 65 65"),
    ("a0..63 b1..1 a64..64", "a" * 64, "all 2 65"),
    ("a0..100 b1..1 a0..100", "a" * 64, "some 1 65"),
    ("a1..1 b1..1 " * 16, "ab" * 16, "all 1 1"),
    ("a1..1 b1..1 " * 16, "ab" * 15, "all 1 1"),
    ("a1..1 b1..1 " * 16, "ba" * 15, "all 2 2"),
    ("a1..1 b1..1 " * 16, "ab" * 16 + "a", "nowhere"),
    ("{a,b}2..2 " * 32, "aab" * 21 + "a", "some 1 1"),
    ("{a,b}1..2 " * 32, "aab" * 21 + "a", "some 1 1"),
    ("{a,b}0..7 " * 32, "aab" * 21 + "a", "some 1 161"),
    ("a2..2 b2..2 " * 16, "aabb" * 16, "all 1 1"),
    ("a2..2 b2..2 " * 16, "aabb" * 15 + "aab", "all 1 1"),
    # Latin letters and signs; µ has its bit where 5, u and õ have theirs in other numbers of a base.
    ("{0..9}1..3 °1..1 C1..1", "°C", "all 2 4"),
    ("{0..9}1..3 °0..1 C1..1", "°C", "some 2 4"),
    ("{0..9}1..3 °1..1 C1..1", "0C", "nowhere"),
    ("{0..9}0..9 µ1..1 m1..1", "µm", "all 1 10"),
    ("µ1..1 m1..1", "5m", "nowhere"),
    ("µ1..1 m1..1", "um", "nowhere"),
    ("µ1..1 m1..1", "õm", "nowhere"),
    ("{5,u,µ,õ}2..2", "µ", "some 1 2"),
    ("Ä1..1 ä1..1", "ä", "all 2 2"),
    ("{\x7f,\x80}3..3", "\x80", "some 1 3"),
    ("{¿,À}2..2", "¿À", "some 1 1"),
    ("þ0..9 ÿ1..1", "ÿ", "all 1 10"),
    ("ÿ0..250", "ÿ" * 64, "some 1 1"),
    ("{@..ÿ}250..250", "ÿ", "some 1 250"),
    # The empty mark.
    (TORQUE, "", "all 1 1"),
    ("empty 0..0", "", "all 1 1"),
    ("a0..1", "", "all 1 1"),
    ("a250..250", "", "all 1 1"),
    # Refusals, the shape's first.
    ("a0..1", "a" * 65, "refused 13 0 0"),
    ("", "a", "refused 1 1 0"),
    ("", "a" * 65, "refused 1 1 0"),
    ("a0..1 " * 33, "a" * 65, "refused 1 1 0"),
    ("a2..1", "", "refused 2 1 1"),
    ("a0..1 a2..1", "a" * 65, "refused 2 1 2"),
    ("a0..1 a0..251", "a" * 65, "refused 10 1 2"),
    ("a0..1 a0..1 a0..0", "a" * 65, "refused 11 1 3"),
    ("a0..200 a0..200", "", "refused 3 1 0"),
    ("a0..200 a0..200", "a" * 65, "refused 3 1 0"),
)


def hand_cases():
    for shape, mark, line in ANSWERS:
        mark, words = mark.encode("latin-1"), written(shape)
        agree("an answer found by hand", (shape, mark), expected_line(case_shown(mark, words)), line)
        yield mark, words


def edge_cases():
    """Shapes at the limits, and with blocks that hold nothing; the empty mark in all of them."""
    marks = (b"A", b"AB", b"B" * 7 + b"A", b"A" * MOST_MARK, b"\0", b"\x3f\x40", b"\x7f\0")
    for at, words in enumerate(dict.fromkeys(tuple(words) for pair in edge_pairs() for words in pair)):
        for mark in (b"", marks[at % len(marks)], marks[(at + 3) % len(marks)]):
            yield mark, words
    dice = Dice(71)
    for _ in range(10):
        yield b"", small_shape(dice)[1]


def length_cases():
    """Marks of every length, and indices around the multiples of 64 and the greatest."""
    words = written("A0..40 B0..2 A0..40")
    for length in range(1, MOST_MARK + 1):
        yield b"A" * (length // 2) + b"B" + b"A" * ((length - 1) // 2), words
    for near in (64, 128, 192, MOST_CHARACTERS):
        for before in range(near - 3, min(near + 2, MOST_CHARACTERS)):
            yield b"A", block(b"B", 0, before) + block(b"A", 1, 1)
            yield b"BA", block(b"B", before, before) + block(b"A", 0, 1)


def code_cases():
    """The least and greatest codes of the first two numbers of a base, and bytes that they do not hold."""
    whole = range(128)
    for code in (0, 63, 64, 127):
        for byte in EDGE_BYTES:
            yield bytes([byte]), block([code], 1, 2)
    for held in (whole, range(64), range(64, 128), (0, 127), EDGE_CODES):
        for byte in (0, 63, 64, 127, 128, 191, 192, 255):
            yield bytes([held[-1], byte]), block(held, 0, 3)
            yield bytes([byte, held[0]]), block(held, 2, 2) + block(held[:1], 1, 1)
    # One byte in a long mark.
    for byte in (127, 128, 255):
        for at in (0, 31, 32, 63):
            mark = bytearray(b"q" * MOST_MARK)
            mark[at] = byte
            yield bytes(mark), block(whole, 0, 100)
    for first in (0, 63, 64, 65, 128, 192):
        yield bytes(range(first, first + MOST_MARK)), block(whole, 0, 70)


def long_mark_cases():
    """Marks around the greatest length and far past it, also where a narrower number would take it for a small one."""
    shapes = ("A0..250", "A250..250", "empty 0..0", "{A,B}0..7 " * MOST_BLOCKS, "B1..1", "B1..100 A1..100")
    for length in (63, 64, 65, 66, 127, 128, 250, 251, 255, 256, 257, 300, 320, 400):
        for shape in shapes:
            yield b"A" * length, written(shape)
        yield b"\xff" * length, block(range(128), 0, MOST_CHARACTERS)


def refusal_cases():
    """Every refusal of a shape, which comes before that of the mark."""
    good = block(b"AB", 0, 3)
    heavy = block(b"A", 0, 200)
    shapes = [words for pair in refused_pairs() for words in pair]
    for bad in ONE_EACH:
        shapes += [good * (place - 1) + bad + good * (MOST_BLOCKS - place) for place in (1, 3, 31, 32)]
        shapes += [bad + good * MOST_BLOCKS, bad + [0], bad + heavy * 2, heavy * 2 + bad, heavy + bad + heavy]
    shapes += [many_blocks(50, 100), many_blocks(3, 252), written("A250..250 B0..1"), written("A0..1 B250..250")]
    # Uppers whose sum is small at 64 bits.
    shapes += [block(b"A", 0, 2**63) * 2, good + block(b"A", 0, 2**64 - 1) + block(b"B", 0, 1)]
    for words in shapes:
        for mark in (b"A", b"", b"A" * (MOST_MARK + 1)):
            yield mark, words


# By chance.


def periodic(dice, codes, length):
    """A few characters over and over."""
    return (random_text(dice, codes, dice.between(1, 3)) * length)[:length]


def part_of(dice, text, length):
    start = dice.between(0, max(0, len(text) - length))
    return text[start : start + length]


def random_mark(dice, codes, text, length):
    """A mark of about so many characters, most often a part of the text, as it is or nearly so."""
    kind = dice.below(6)
    if kind == 0:
        return random_text(dice, codes, length)
    if kind == 1:
        return periodic(dice, codes, length)
    mark = part_of(dice, text, length)
    return mark if kind < 4 else nearly(dice, mark, codes)[:MOST_MARK]


# What is to occur on small shapes, given the shape, the mark and the answer.


def nowhere_but_parts(shape, mark, given):
    return given == NOWHERE and len(mark) > 1 and NOWHERE not in (answer(shape, mark[1:]), answer(shape, mark[:-1]))


def nowhere_by_lowers(shape, mark, given):
    return given == NOWHERE and answer(without_lowers(shape), mark) != NOWHERE


def without_lowers(shape):
    return tuple(Block(codes, 0, upper) for codes, _, upper in shape)


def in_all_at_one(shape, mark, given):
    return given[0] is False and given[1] == given[2] > 1


def in_all_at_several(shape, mark, given):
    return given[0] is False and 1 < given[1] < given[2]


def in_some_at_several(shape, mark, given):
    return given[0] and given != NOWHERE and 1 < given[1] < given[2]


def over_three_blocks(shape, mark, given):
    """No two blocks that follow each other have it by themselves."""
    pairs = [shape[at : at + 2] for at in range(len(shape))]
    return given != NOWHERE and all(answer(pair, mark) == NOWHERE for pair in pairs)


def last_block_completes(shape, mark, given):
    return given != NOWHERE and len(mark) > 1 and answer(shape[:-1], mark) == NOWHERE


def hides_later(shape, mark, given):
    return given != NOWHERE and max(text.rfind(mark) + 1 for text in all_texts(shape)) > given[2]


KINDS = (
    nowhere_but_parts, nowhere_by_lowers, in_all_at_one, in_all_at_several, in_some_at_several, over_three_blocks,
    last_block_completes, hides_later,
)

MARK_ALPHABETS = (b"A", b"AB", b"AB", b"ABC", b"ABCD", (0, 1), (63, 64), (0, 64), (0, 63, 64, 127))


def small_case(dice, alphabets=MARK_ALPHABETS):
    while True:
        codes = dice.pick(alphabets)
        shape = shape_of(small_blocks(dice, codes) + (small_blocks(dice, codes) if dice.below(2) else []))
        if fillings(shape) <= SMALL_FILLINGS:
            length = dice.pick((0, 1, 1, 2, 2, 2, 3, 3, 4, 5))
            return random_mark(dice, codes, random_filling(dice, shape), length), shape


def kind_cases():
    """Small shapes by chance, so many of each kind."""
    dice = Dice(72)
    wanted = {kind: 40 for kind in KINDS}
    while any(wanted.values()):
        mark, shape = small_case(dice)
        given = answer_by_texts(shape, mark)
        for kind in KINDS if mark else ():
            if wanted[kind] and kind(shape, mark, given):
                wanted[kind] -= 1
                yield mark, words_of(shape)
                break


def small_cases():
    dice = Dice(73)
    for _ in range(280):
        mark, shape = small_case(dice)
        yield mark, words_of(shape)


LENGTHS = (1, 2, 3, 8, 20, 63, 64)


def large_cases():
    dice = Dice(74)
    for at in range(10 * len(LENGTHS)):
        codes, words = large_shape(dice)
        text = random_filling(dice, shape_of(words))
        for length in (LENGTHS[at % len(LENGTHS)], dice.pick(LENGTHS)):
            yield random_mark(dice, codes, text, length), words
        yield bytes([dice.pick(codes)]) * dice.pick(LENGTHS), words


def near_cases():
    """A part of a text, and at one of its ends a character that makes it none."""
    dice = Dice(75)
    made = 0
    while made < 40:
        codes = dice.pick(LARGE_ALPHABETS)
        words = shared_out(dice, codes, dice.pick((8, 31, 32)), dice.pick((70, 100)))
        shape = shape_of(words)
        part = part_of(dice, random_filling(dice, shape), dice.pick(LENGTHS[1:]) - 1)
        other = random_text(dice, codes, 1)
        mark = part + other if made % 2 else other + part
        if answer(shape, mark) == NOWHERE:
            made += 1
            yield mark, words


def long_runs(dice, codes, length):
    """So many characters, most of them several times over."""
    return b"".join(random_text(dice, codes, 1) * dice.between(1, 9) for _ in range(length))[:length]


def fixed(text):
    """The blocks of a shape that only this text fits."""
    runs = ((code, len(list(run))) for code, run in groupby(text))
    return [block([code], length, length) for code, length in runs]


def joined(blocks):
    return [word for numbers in blocks for word in numbers]


def missed(text, mark, tries):
    """Whether the mark is missed in a text if, where another character follows than it wants, only so many of the later
    starts are tried, the longest first."""
    matched = 0
    for code in text:
        end = mark[:matched]
        starts = [length for length in reversed(range(matched)) if end.endswith(mark[:length])][:tries]
        matched = next((length + 1 for length in (matched, *starts) if code == mark[length]), 0)
        if matched == len(mark):
            return False
    return mark in text


def start_cases():
    """False starts before the mark that serve for a later one; the text alone, and among others."""
    dice = Dice(76)
    made = 0
    while made < 60:
        codes = dice.pick((b"AB", b"ABC", (0, 1), (63, 64)))
        mark = dice.pick((random_text, periodic, long_runs))(dice, codes, dice.pick((4, 5, 6, 8, 10, 20, 40, 64)))
        text = mark[: dice.below(len(mark))] + mark[: dice.below(len(mark))] + mark
        blocks = fixed(text)
        if len(blocks) <= MOST_BLOCKS and missed(text, mark, made % 3):
            made += 1
            yield mark, joined(blocks)
            yield mark, carved(dice, codes, text, dice.pick((1, 3, 8, 32)))


def fixed_cases():
    """The mark is part of every text, or would be but for a block that is made wider, or for a change in the mark."""
    dice = Dice(77)
    made = 0
    while made < 160:
        codes = dice.pick(LARGE_ALPHABETS)
        mark = dice.pick((periodic, long_runs))(dice, codes, dice.pick(LENGTHS))
        blocks = fixed(mark)
        if len(blocks) > MOST_BLOCKS - 2:
            continue
        made += 1
        kind = dice.below(4)
        if kind == 0:
            wider = dice.pick(blocks)
            lower, upper = wider[-2:]
            wider[-2:] = [lower - dice.below(2), upper + 1]
        room = (MOST_CHARACTERS - len(mark) - 1) // 2
        sides = [dice.between(1, (MOST_BLOCKS - len(blocks)) // 2) for _ in range(2)]
        front, back = (shared_out(dice, codes, count, dice.between(0, room)) for count in sides)
        yield nearly(dice, mark, codes)[:MOST_MARK] if kind == 1 else mark, front + joined(blocks) + back


def high_cases():
    """Codes above 127, in the shape, in the mark and in both; and blocks of four numbers."""
    for code in WORD_ENDS:
        near = range(code - 1, min(code + 2, 256))
        for byte in (0, *WORD_ENDS):
            yield bytes([byte]), block(near, 1, 2)
            yield bytes([code, byte]), block((code, byte), 2, 3)
        yield bytes([code]), block(ALL_CODES, 0, 3)
        yield bytes([code]), block([other for other in ALL_CODES if other != code], 0, 3)
    for first in (63, 128, 192):
        yield bytes(range(first, first + MOST_MARK)), block(ALL_CODES, 0, 70)
    dice = Dice(78)
    for first, second in list(high_pairs())[::4]:
        yield random_filling(dice, shape_of(second)), first + second
    for _ in range(60):
        mark, shape = small_case(dice, HIGH_ALPHABETS)
        yield mark, words_of(shape)
    for length in LENGTHS:
        codes, words = large_shape(dice, LARGE_HIGH_ALPHABETS)
        yield random_mark(dice, codes, random_filling(dice, shape_of(words)), length), words
    for bad in (*high_unsound_blocks(), *OLD_SHAPES):
        yield b"\x80", bad


def case_shown(mark, words):
    return " ".join(("M", text_shown(mark), *hexes(words)))


def all_cases():
    parts = (
        hand_cases, edge_cases, length_cases, code_cases, long_mark_cases, refusal_cases, kind_cases, small_cases,
        large_cases, near_cases, start_cases, fixed_cases, high_cases,
    )
    # None twice.
    return list(dict.fromkeys(case_shown(mark, words) for part in parts for mark, words in part()))


hold_to_room = base.hold_to_room
