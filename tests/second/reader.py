"""Least and greatest text as the hand reader has them (document 02, order 6): the cases of `base`, and shapes of every
number of blocks. Of a refusal its calls tell only that it is one.
"""

import base
from base import OUTPUT_WANTED, Cases
from making import LARGE_ALPHABETS, Dice, block, many_blocks, shared_out
from shapes import MOST_BLOCKS, MOST_CHARACTERS


def expected_line(line):
    shown = base.expected_line(line)
    return f"refused {shown.split(' ')[-1]}" if shown.startswith("refused ") else shown


def all_cases():
    cases = Cases()
    dice = Dice(6)
    for count in range(1, MOST_BLOCKS + 1):
        for length in (OUTPUT_WANTED - 1, OUTPUT_WANTED):
            cases.bounds(many_blocks(count, MOST_CHARACTERS), length)
            cases.bounds(block((), 0, 0) * count, length)
            cases.bounds(block(range(128), 1, 1) * count, length)
            cases.bounds(block(b"A", 2, 1) * count, length)
        cases.bounds(block(range(128, 256), 1, 1) * count)
        for codes in LARGE_ALPHABETS:
            for total in (count, 2 * count, MOST_CHARACTERS):
                cases.bounds(shared_out(dice, codes, count, total))
    return [line for line in base.all_cases() if line[0] in base.OUTPUT_LETTERS] + cases.lines


hold_to_room = base.hold_to_room
