"""What document 01 says of shapes, fillings and refusals; document 02, orders 1, 3 and 10, of bad blocks, of joins and
of the numbers of a block.
"""

from functools import lru_cache
from itertools import product
from typing import NamedTuple

# A base is so many numbers, each with the bits of so many codes; a block is those of its base, its lower and its upper.
BASE_SIZE = 4
WORD_CODES = 64
BLOCK_SIZE = BASE_SIZE + 2
ALL_CODES = range(BASE_SIZE * WORD_CODES)

MOST_BLOCKS = 32
MOST_CHARACTERS = 250
WORK_WANTED = 63_001

# The character with which instruments pad a field: document 02, order 5.
BLANK = 32

# Each character with A to Z counted as a to z: document 02, order 9.
LOWERED = tuple(code + 32 if 65 <= code <= 90 else code for code in ALL_CODES)

# Shapes with at most so many fillings are settled by looking at every one of them.
FEW_FILLINGS = 5000


class Block(NamedTuple):
    base: tuple[int, ...]
    lower: int
    upper: int


class Refused(Exception):
    """A refusal: its number, text and place."""

    def __init__(self, number, text, place):
        super().__init__(number, text, place)
        self.line = f"refused {number} {text} {place}"


@lru_cache(maxsize=None)
def base_of(*words):
    """The characters of a base in rising order: 0 to 63 in the first number, 64 to 127 in the second, and so on."""
    return tuple(code for code in ALL_CODES if words[code // WORD_CODES] >> code % WORD_CODES & 1)


def sound(block):
    if not block.lower <= block.upper <= MOST_CHARACTERS:
        return False
    return (len(block.base) == 0) == (block.upper == 0)


# What can be wrong with a block, by the number of its refusal, in the order in which they are tried.
WRONG = {
    2: lambda block: block.lower > block.upper,
    10: lambda block: block.upper > MOST_CHARACTERS,
    11: lambda block: (not block.base and block.upper > 0) or (block.base and block.upper == 0),
}


def total(shape):
    """What the uppers of a shape add to."""
    return sum(block.upper for block in shape)


def shape_of(words, number=1):
    """The blocks of the shape lent as `words`, the shape's number being `number`."""
    blocks, rest = divmod(len(words), BLOCK_SIZE)
    if rest != 0 or blocks == 0 or blocks > MOST_BLOCKS:
        raise Refused(1, number, 0)
    shape = []
    for at in range(0, len(words), BLOCK_SIZE):
        *base, lower, upper = words[at : at + BLOCK_SIZE]
        shape.append(Block(base_of(*base), lower, upper))
        due = [refusal for refusal, wrong in WRONG.items() if wrong(shape[-1])]
        agree("soundness", shape[-1], sound(shape[-1]), not due)
        if due:
            raise Refused(due[0], number, len(shape))
    if total(shape) > MOST_CHARACTERS:
        raise Refused(3, number, 0)
    return tuple(shape)


# All fillings, one by one: the meaning itself, for small shapes.


def fillings(shape):
    """How many fillings the shape has."""
    count = 1
    for base, lower, upper in shape:
        count *= sum(len(base) ** length for length in range(lower, upper + 1))
    return count


def all_runs(block):
    base, lower, upper = block
    return [bytes(run) for length in range(lower, upper + 1) for run in product(base, repeat=length)]


@lru_cache(maxsize=None)
def all_texts(shape):
    texts = {b""}
    for block in shape:
        runs = all_runs(block)
        texts = {text + run for text in texts for run in runs}
    return texts


def agree(what, shape, one, other):
    if one != other:
        raise AssertionError(f"two methods differ on {what}: {shape}: {one} and {other}")


def pair_of(first, second):
    """The shapes of a pair, refused in document 01's order: the first shape's number is 1, the second's 2."""
    return shape_of(first, 1), shape_of(second, 2)


def too_long(front, back):
    """Whether two texts are too long to be joined, by their uppers."""
    return total(front) + total(back) > MOST_CHARACTERS


def trio_of(first, second, third):
    """The shapes of a join, refused in document 02's order: 12 follows what is wrong with each shape by itself."""
    trio = shape_of(first, 1), shape_of(second, 2), shape_of(third, 3)
    if too_long(*trio[1:]):
        raise Refused(12, 0, 0)
    return trio
