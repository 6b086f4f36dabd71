"""Exact narrowing of two shapes under the three equalities, "at most" and "before".

By document 02, orders 5 and 9, a text may equal another once the blanks at the end of both are dropped, to its last
character, or to its last character in any letter case. Two methods, held to each other. Where fillings are few, every
pair of texts is looked at. Otherwise rows of bit sets over the states in which two fillings can be while their texts
are still alike; where padding does not count, also over those in which one has ended and the other goes on over
blanks; where case does not count, texts are alike while their characters are the same once lowered. This second method
is near to the library's own; witnesses.py holds it to fillings on large shapes.
"""

from functools import lru_cache

from bounds import bound
from shapes import BLANK, LOWERED, Block, agree, all_runs, fillings, total

# Equal once trailing blanks are dropped; at most; before; equal to the last character; equal in any letter case.
EQUAL, AT_MOST, BEFORE, EXACT, ANY_CASE = KINDS = (0, 1, 2, 4, 5)
EQUALITIES = (EQUAL, EXACT, ANY_CASE)

# Those in which case counts.
CASED_KINDS = (EQUAL, AT_MOST, BEFORE, EXACT)
CASED_EQUALITIES = (EQUAL, EXACT)

# Pairs of shapes with at most so many fillings each, and so many pairs, are settled by all of them.
FEW_FILLINGS = 600
FEW_PAIRS = 60_000


# Every pair of fillings.


@lru_cache(maxsize=3000)
def hulls_by_text(shape):
    """For each text, block by block: the characters held, the least and the greatest run of its fillings."""
    found = {b"": ()}
    for block in shape:
        runs = all_runs(block)
        longer = {}
        for text, hull in found.items():
            for run in runs:
                one = hull + ((frozenset(run), len(run), len(run)),)
                whole = text + run
                longer[whole] = merged(longer[whole], one) if whole in longer else one
        found = longer
    return found


def merged(one, other):
    """The hull of two hulls."""
    return tuple((a | b, min(l, k), max(u, v)) for (a, l, u), (b, k, v) in zip(one, other))


HOLDS = {
    EQUAL: lambda one, other: one.rstrip(b" ") == other.rstrip(b" "),
    EXACT: lambda one, other: one == other,
    # Python lowers A to Z of byte strings, and nothing else.
    ANY_CASE: lambda one, other: one.lower() == other.lower(),
    # Python orders byte strings as 003 orders texts.
    AT_MOST: lambda one, other: one <= other,
    BEFORE: lambda one, other: one < other,
}


def narrowed_by_pairs(first, second, kind):
    """Both narrowed shapes, or None."""
    holds = HOLDS[kind]
    ours, others = hulls_by_text(first), hulls_by_text(second)
    hull = hull_of(ours[one] for one in ours if any(holds(one, other) for other in others))
    other_hull = hull_of(others[other] for other in others if any(holds(one, other) for one in ours))
    return None if hull is None else (hull, other_hull)


def hull_of(hulls):
    """The hull of all of them as a shape, or None if there are none."""
    whole = None
    for hull in hulls:
        whole = hull if whole is None else merged(whole, hull)
    return None if whole is None else tuple(Block(tuple(sorted(held)), least, most) for held, least, most in whole)


def hull_of_shape(shape):
    return tuple((frozenset(base), lower, upper) for base, lower, upper in shape)


# Rows of bit sets. A state says how many characters of which block are laid; the states of a shape
# are numbered in the order in which a filling goes through them, and the last one is the end. A row
# belongs to a state of the first shape, its bits to the states of the second: both have read one text.
# A relation is what may follow: both end; the first has the smaller or the greater next character,
# the end counting as smaller than all, and then each goes on as it likes. If it is padded, one that has
# ended waits while the other goes on over blanks. If it is of any case, both have read one text once lowered.


class States:
    def __init__(self, shape):
        self.shape = shape
        self.masks = [sum(1 << code for code in base) for base, _, _ in shape]
        self.start = [0]
        self.grow = []
        self.close = []
        for _, lower, upper in shape:
            start = self.start[-1]
            self.grow.append(bits(start, start + upper))
            self.close.append(bits(start + lower, start + upper + 1))
            self.start.append(start + upper + 1)
        self.end = self.start[-1]
        self.growing = 0
        for grow in self.grow:
            self.growing |= grow

    def forward(self, row):
        """The row with what is reached by ending runs."""
        for close, start in zip(self.close, self.start[1:]):
            if row & close:
                row |= 1 << start
        return row

    def backward(self, row):
        """The row with the states that reach it by ending runs."""
        for close, start in zip(reversed(self.close), reversed(self.start)):
            if row >> start & 1:
                row |= close
        return row

    def padding(self):
        """The states from where blanks alone, or nothing, lead to the end."""
        row = 1 << self.end
        for number in reversed(range(len(self.shape))):
            start, next_block = self.start[number : number + 2]
            if row >> next_block & 1:
                row |= bits(start, next_block) if BLANK in self.shape[number].base else self.close[number]
        return row

    def growing_where(self, test):
        """The states that can take a character, of the blocks that pass the test."""
        row = 0
        for block, grow in zip(self.shape, self.grow):
            if block.upper and test(block):
                row |= grow
        return row


def bits(start, end):
    return (1 << end) - (1 << start)


class Relation:
    def __init__(self, alike, smaller, greater, padded=False, any_case=False):
        self.alike, self.smaller, self.greater, self.padded, self.any_case = alike, smaller, greater, padded, any_case


# Of the first to the second, and of the second to the first.
RELATIONS = {
    EQUAL: (Relation(True, False, False, padded=True),) * 2,
    EXACT: (Relation(True, False, False),) * 2,
    ANY_CASE: (Relation(True, False, False, any_case=True),) * 2,
    AT_MOST: (Relation(True, True, False), Relation(True, False, True)),
    BEFORE: (Relation(False, True, False), Relation(False, False, True)),
}


@lru_cache(maxsize=10_000)
def standing(base, other, any_case):
    """The characters of a base that can stand where one of another base does, as a set of bits."""
    codes = {LOWERED[code] for code in other} if any_case else {*other}
    return sum(1 << code for code in base if (LOWERED[code] if any_case else code) in codes)


def meetings(ours, others, padded=False, any_case=False):
    """For each block of ours the states of the others at which both can take a character that keeps them alike, and
    those at which ours can take a blank alone."""
    found = []
    for base, _, _ in ours.shape:
        together = others.growing_where(lambda other: standing(base, other.base, any_case))
        found.append((together, 1 << others.end if padded and BLANK in base else 0))
    return found


def rows_before(ours, others, meets, rows):
    """The rows with all that one text more leads to: for each state of ours the states of the others."""
    rows = list(rows)
    for number, (_, lower, upper) in enumerate(ours.shape):
        together, alone = meets[number]
        for count in range(upper + 1):
            at = ours.start[number] + count
            rows[at] = others.forward(rows[at])
            if count >= lower:
                rows[ours.start[number + 1]] |= rows[at]
            if count < upper:
                rows[at + 1] |= (rows[at] & together) << 1 | rows[at] & alone
    rows[ours.end] = others.forward(rows[ours.end])
    return rows


def rows_after(ours, others, meets, rows):
    """The rows with all from where one text more leads to them: for each state of ours the states of the others."""
    rows = list(rows)
    rows[ours.end] = others.backward(rows[ours.end])
    for number in reversed(range(len(ours.shape))):
        _, lower, upper = ours.shape[number]
        together, alone = meets[number]
        for count in reversed(range(upper + 1)):
            at = ours.start[number] + count
            if count >= lower:
                rows[at] |= rows[ours.start[number + 1]]
            if count < upper:
                rows[at] |= rows[at + 1] >> 1 & together | rows[at + 1] & alone
            rows[at] = others.backward(rows[at])
    return rows


def rows_of(ours, states, row):
    """This row for these states of ours, and nothing for the others."""
    return [row if at in states else 0 for at in range(ours.end + 1)]


def rows_of_relation(ours, others, parts, relation):
    """For each state of ours the states of the others at which the relation comes about."""
    end = others.growing if relation.smaller else 0
    if relation.alike:
        end |= others.padding() if relation.padded else 1 << others.end
    rows = rows_of(ours, {ours.end}, end)
    for number, block in enumerate(ours.shape):
        for at in range(ours.start[number], ours.start[number] + block.upper):
            rows[at] = parts[number]
    return rows


def parted(block, others, relation):
    """The states of the others at which the block's next character may be the first that differs."""
    row = 0
    if block.upper and relation.smaller:
        row |= others.growing_where(lambda other: block.base[0] < other.base[-1])
    if block.upper and relation.greater:
        row |= others.growing_where(lambda other: block.base[-1] > other.base[0])
        row |= 1 << others.end
    return row


def parting_characters(block, row, others, relation):
    """The block's characters that can be the first that differs from a state of the row."""
    mask = 0
    next_ones = [other for other, grow in zip(others.shape, others.grow) if row & grow]
    for code in block.base:
        smaller = relation.smaller and any(code < other.base[-1] for other in next_ones)
        greater = relation.greater and (row >> others.end & 1 or any(code > other.base[0] for other in next_ones))
        if smaller or greater:
            mask |= 1 << code
    return mask


def hull_by_rows(first, second, relation):
    """The first shape narrowed, or None."""
    ours, others = States(first), States(second)
    meets = meetings(ours, others, relation.padded, relation.any_case)
    parts = [parted(b, others, relation) for b in first]
    before = rows_before(ours, others, meets, rows_of(ours, {0}, 1))
    after = rows_after(ours, others, meets, rows_of_relation(ours, others, parts, relation))
    if not after[0] & 1:
        return None
    # States from where the filling goes on as it likes.
    free = [False] * (ours.end + 1)
    hull = []
    for number, block in enumerate(first):
        held, lengths = 0, []
        _, alone = meets[number]
        shared = [standing(block.base, other.base, relation.any_case) for other in second]
        for count in range(block.upper + 1):
            at = ours.start[number] + count
            if count >= block.lower:
                if free[at] or before[at] & after[ours.start[number + 1]]:
                    lengths.append(count)
                free[ours.start[number + 1]] |= free[at]
            if count < block.upper:
                if free[at]:
                    free[at + 1] = True
                    held |= ours.masks[number]
                if before[at] & parts[number]:
                    free[at + 1] = True
                    held |= parting_characters(block, before[at], others, relation)
                both = before[at] & after[at + 1] >> 1
                for mask, grow in zip(shared, others.grow):
                    if both & grow:
                        held |= mask
                if before[at] & after[at + 1] & alone:
                    held |= 1 << BLANK
        codes = tuple(code for code in block.base if held >> code & 1)
        hull.append(Block(codes, min(lengths), max(lengths)))
    return tuple(hull)


@lru_cache(maxsize=3000)
def narrowed_by_rows(first, second, kind):
    """Both narrowed shapes, or None."""
    relation, turned = RELATIONS[kind]
    hull = hull_by_rows(first, second, relation)
    other_hull = hull_by_rows(second, first, turned)
    if (hull is None) != (other_hull is None):
        raise AssertionError(f"none for one side only: {first} {second}")
    return None if hull is None else (hull, other_hull)


# Both methods, and laws that hold whatever the shapes.


def one_text(text):
    """The shape of one text, a block for each character; it may have more blocks than a lent one."""
    return tuple(Block((code,), 1, 1) for code in text) or (Block((), 0, 0),)


def within(narrow, wide):
    """Whether each block of a shape lies within that of another."""
    return all({*a} <= {*b} and k <= l and u <= v for (a, l, u), (b, k, v) in zip(narrow, wide))


def may_end_with_a_blank(shape):
    """Whether some text of the shape ends with a blank."""
    for base, lower, _ in reversed(shape):
        if BLANK in base or lower:
            return BLANK in base
    return False


def blanks(least, most):
    return (Block((BLANK,), least, most),)


def hold_padding_to_laws(first, second, result):
    pair = first, second
    exact = narrowed_by_rows(first, second, EXACT)
    if exact is not None and (result is None or not all(map(within, exact, result))):
        raise AssertionError(f"equal, but not once blanks are dropped: {pair} {exact} {result}")
    if not any(map(may_end_with_a_blank, pair)):
        agree("equality of what has no padding", pair, result, exact)
    # As if behind each there might stand more blanks than the other has characters.
    longer = narrowed(first + blanks(0, 1 + total(second)), second + blanks(0, 1 + total(first)), EXACT)
    agree("padding as a block of blanks", pair, longer and tuple(shape[:-1] for shape in longer), result)
    # Whatever padding stands behind a shape, it keeps its counts and changes nothing.
    more = blanks(2, 3)
    agree("more padding", pair, narrowed_by_rows(first + more, second, EQUAL), result and (result[0] + more, result[1]))


def spelled(shape, spelling):
    """The shape with its bases spelled otherwise."""
    return tuple(Block(tuple(sorted({*spelling(bytes(base))})), lower, upper) for base, lower, upper in shape)


def in_other_case(shape):
    """The shape with each letter in its other case."""
    return spelled(shape, bytes.swapcase)


def hold_case_to_laws(first, second, result):
    pair = first, second
    exact = narrowed_by_rows(first, second, EXACT)
    if exact is not None and (result is None or not all(map(within, exact, result))):
        raise AssertionError(f"equal, but not in any case: {pair} {exact} {result}")
    codes = {code for shape in pair for block in shape for code in block.base}
    if not any(bytes([code]).isupper() and code + 32 in codes for code in codes):
        agree("any case of letters in one case", pair, result, exact)
    if all(shape == in_other_case(shape) for shape in pair):
        agree("any case of bases with both cases", pair, result, exact)
    # What is kept, lowered, is what is kept of the shapes lowered; also in capitals.
    for spelling in (bytes.lower, bytes.upper):
        kept = narrowed_by_rows(*(spelled(shape, spelling) for shape in pair), EXACT)
        agree("case left out", pair, result and tuple(spelled(shape, spelling) for shape in result), kept)
    # The other's case changes nothing of ours. A shape equals itself in another case, all of it.
    respelled = narrowed_by_rows(first, in_other_case(second), ANY_CASE)
    agree("the other in its other case", pair, respelled, result and (result[0], in_other_case(result[1])))
    for other in (in_other_case(first), spelled(first, bytes.lower)):
        agree("a shape in another case", first, narrowed_by_rows(first, other, ANY_CASE), (first, other))


def hold_to_laws(first, second, kind, result):
    if result is not None:
        agree("narrowing twice", (first, second), narrowed_by_rows(*result, kind), result)
    if kind == EQUAL:
        hold_padding_to_laws(first, second, result)
    if kind == ANY_CASE:
        hold_case_to_laws(first, second, result)
    if kind in EQUALITIES:
        turned = narrowed_by_rows(second, first, kind)
        agree("equality turned", (first, second), turned and turned[::-1], result)
    else:
        # A text stands in the relation to some text of a shape if it does to the greatest, or the least.
        greatest, least = one_text(bound(second, True)), one_text(bound(first, False))
        one = narrowed_by_rows(first, greatest, kind)
        other = narrowed_by_rows(least, second, kind)
        agree("order against a bound", (first, second), one and other and (one[0], other[1]), result)
    if kind == AT_MOST:
        parts = (narrowed_by_rows(first, second, part) for part in (EXACT, BEFORE))
        sides = zip(*(part for part in parts if part is not None))
        whole = tuple(hull_of(hull_of_shape(shape) for shape in side) for side in sides) or None
        agree("at most as equal or before", (first, second), whole, result)


@lru_cache(maxsize=3000)
def narrowed(first, second, kind):
    """Both narrowed shapes, or None for none."""
    result = narrowed_by_rows(first, second, kind)
    few = fillings(first) <= FEW_FILLINGS and fillings(second) <= FEW_FILLINGS
    if few and fillings(first) * fillings(second) <= FEW_PAIRS:
        agree("narrowing", (first, second, kind), result, narrowed_by_pairs(first, second, kind))
    return result
