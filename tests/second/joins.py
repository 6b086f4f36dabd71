"""Exact narrowing of three shapes where the first text is the second followed by the third: document 02, order 3.

Two methods, held to each other. Where fillings are few, every triple of texts is looked at. Otherwise
rows of bit sets, first over the states of the whole and the front, then over those of the whole and the
back; between them lie the states of the whole at which the front may end and the back begin. The library
lays front and back end to end, but goes through rows as well; witnesses.py holds the answers to fillings.
"""

from functools import lru_cache

from pairs import (
    EXACT, FEW_FILLINGS, States, hull_of, hulls_by_text, meetings, narrowed_by_rows, rows_after, rows_before, rows_of,
)
from shapes import Block, agree, fillings

JOIN = 3

# Shapes with at most so many pairs of fillings of front and back are settled by all of them.
FEW_PAIRS = 60_000

# The shape that takes the empty text alone.
NOTHING = (Block((), 0, 0),)


# Every triple of fillings.


def narrowed_by_triples(whole, front, back):
    """The three narrowed shapes, or None."""
    wholes, fronts, backs = map(hulls_by_text, (whole, front, back))
    triples = [(one + other, one, other) for one in fronts for other in backs if one + other in wholes]
    if not triples:
        return None
    return tuple(
        hull_of(hulls[text] for text in set(texts)) for hulls, texts in zip((wholes, fronts, backs), zip(*triples))
    )


# Rows of bit sets over the states of pairs.py.


class Given:
    """What the blocks of a shape are given: the characters held, and the states at which their runs end."""

    def __init__(self, shape):
        self.states = States(shape)
        self.held = [0] * len(shape)
        self.ends = [0] * len(shape)

    def hull(self):
        blocks = []
        for number, (base, _, upper) in enumerate(self.states.shape):
            row = self.ends[number] >> self.states.start[number]
            lengths = [length for length in range(upper + 1) if row >> length & 1]
            held = tuple(code for code in base if self.held[number] >> code & 1)
            blocks.append(Block(held, min(lengths), max(lengths)))
        return tuple(blocks)


def gather(ours, others, before, after):
    """Adds what both are given by the texts that lead along `before` and then along `after`."""
    one, other = ours.states, others.states
    for at in range(one.end + 1):
        for number, close in enumerate(other.close):
            if after[at] >> other.start[number + 1] & 1:
                others.ends[number] |= before[at] & close
    for number, (_, lower, upper) in enumerate(one.shape):
        start = one.start[number]
        for count in range(lower, upper + 1):
            if before[start + count] & after[one.start[number + 1]]:
                ours.ends[number] |= 1 << start + count
        for at in range(start, start + upper):
            both = before[at] & after[at + 1] >> 1
            for place, grow in enumerate(other.grow):
                if both & grow:
                    shared = one.masks[number] & other.masks[place]
                    ours.held[number] |= shared
                    others.held[place] |= shared


@lru_cache(maxsize=3000)
def narrowed_by_cuts(whole, front, back):
    """The three narrowed shapes, or None."""
    ours, fronts, backs = map(Given, (whole, front, back))
    states, front_end, back_end = ours.states, 1 << fronts.states.end, 1 << backs.states.end
    first, second = (states, fronts.states), (states, backs.states)
    meets, other_meets = meetings(*first), meetings(*second)
    before = rows_before(*first, meets, rows_of(states, {0}, 1))
    after = rows_after(*second, other_meets, rows_of(states, {states.end}, back_end))
    cuts = {at for at in range(states.end + 1) if before[at] & front_end and after[at] & 1}
    if not cuts:
        return None
    gather(ours, fronts, before, rows_after(*first, meets, rows_of(states, cuts, front_end)))
    gather(ours, backs, rows_before(*second, other_meets, rows_of(states, cuts, 1)), after)
    return ours.hull(), fronts.hull(), backs.hull()


# Both methods, and laws that hold whatever the shapes.


def turned(shape):
    return shape[::-1]


def hold_to_laws(whole, front, back, result):
    trio = whole, front, back
    if result is not None:
        agree("a join narrowed twice", trio, narrowed_by_cuts(*result), result)
    # The blocks of front and back laid end to end; they may be more than a lent shape has.
    pair = narrowed_by_rows(whole, front + back, EXACT)
    agree("a join as equality", trio, pair and (pair[0], pair[1][: len(front)], pair[1][len(front) :]), result)
    # Read from the end, the back comes first.
    mirrored = narrowed_by_cuts(*map(turned, (whole, back, front)))
    agree("a join from its end", trio, mirrored and tuple(turned(mirrored[at]) for at in (0, 2, 1)), result)
    # What is joined to nothing is equal.
    alone = narrowed_by_cuts(whole, front, NOTHING)
    agree("a join to nothing", trio, alone and alone[:2], narrowed_by_rows(whole, front, EXACT))
    alone = narrowed_by_cuts(whole, NOTHING, back)
    agree("a join to nothing", trio, alone and alone[::2], narrowed_by_rows(whole, back, EXACT))


@lru_cache(maxsize=3000)
def narrowed_join(whole, front, back):
    """The three narrowed shapes, or None for none."""
    result = narrowed_by_cuts(whole, front, back)
    few = all(fillings(shape) <= FEW_FILLINGS for shape in (whole, front, back))
    if few and fillings(front) * fillings(back) <= FEW_PAIRS:
        agree("a join", (whole, front, back), result, narrowed_by_triples(whole, front, back))
    return result
