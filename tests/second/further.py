"""Books to which further rules come through the year (document 02, order 12), in threes: a book A, a book B that has
A's texts, each block equal or narrower, and all of A's rules and perhaps others; and A again, with the blocks that its
run leaves. A fourth kind of book has a stable group of A alone, as the run leaves it.

A book is here its texts, each a shape's numbers, and its rules.
"""

from itertools import product
from typing import NamedTuple

from groups import (
    MOST_RULES, MOST_TEXTS, alternated, applied, flooded, four, hold_run_to_answer, linked, named, rules_among,
    run_groups, shapes_at_end, with_names,
)
from houses import (
    ALONE, APART, KEPT, LATE, NARROWED, PARTED, QUICK, SPLICED, WORN, backwards, drawn_book, in_a_row, one_book,
    shuffled,
)
from joins import JOIN
from making import Dice, block, many_blocks, small_blocks, words_of, written
from pairs import ANY_CASE, AT_MOST, BEFORE, EQUAL, EXACT
from shapes import WORK_WANTED, Block, shape_of, too_long


class Three(NamedTuple):
    """The books A and B, and the length of the work buffer for both and for A again, which A's run gives."""

    before: tuple
    after: tuple
    work: int


# What a book leaves.


def groups_of(book):
    """The groups of a book, each run by itself."""
    texts, rules = book
    return run_groups([shape_of(text) for text in texts], [four(rule) for rule in rules])


def again(book):
    """The book with the blocks that its run leaves."""
    return [words_of(shape) for shape in shapes_at_end(groups_of(book))], book[1]


def apart(book):
    """For each stable group of several the book of its texts alone, as the run leaves them, and its rules."""
    groups, (left, rules) = groups_of(book), again(book)
    for group in groups if len(groups) > 1 else ():
        if not group.none:
            own = rules_among(group.texts, [four(rule) for rule in rules])
            yield with_names(left, own, group.texts)[:2]


# Found by hand.


class Found(NamedTuple):
    """Texts, rules, the texts at the end, and for each group its name, verdict and count, found by hand."""

    texts: list
    rules: list
    final: list
    groups: list

    @property
    def book(self):
        hold_run_to_answer("further rules, found by hand", *self)
        return [written(text) for text in self.texts], self.rules


def stable(name, count):
    return name, "stable", count


def none(name, count):
    return name, "none", count


# Two groups that rules of B link, in which both are narrowed further, or none; and A's blocks narrower.
TWO = ["{a,b}0..3", "{b,c}2..2", "b1..4", "{b,d}0..2"]
LINKED = (
    Found(TWO, [(EXACT, 1, 2), (EXACT, 3, 4)], ["b2..2", "b2..2", "b1..2", "b1..2"], [stable(1, 2), stable(3, 2)]),
    Found(TWO, [(EXACT, 3, 4), (EXACT, 4, 1), (EXACT, 1, 2)], ["b2..2"] * 4, [stable(1, 12)]),
    Found(TWO, [(EXACT, 1, 2), (EXACT, 3, 4), (EXACT, 4, 1)], ["b2..2"] * 4, [stable(1, 9)]),
    Found(TWO, [(EXACT, 1, 2), (EXACT, 3, 4), (BEFORE, 1, 4)], TWO, [none(1, 3)]),
    Found(TWO, [(EXACT, 1, 2), (EXACT, 3, 4), (BEFORE, 4, 1)], ["b2..2", "b2..2", "b1..1", "b1..1"], [stable(1, 9)]),
    Found(["b2..2", "{b,c}2..2", "b1..4", "{b,d}0..1"], [(EXACT, 1, 2), (EXACT, 1, 2), (EXACT, 3, 4)],
          ["b2..2", "b2..2", "b1..1", "b1..1"], [stable(1, 4), stable(3, 2)]),
    Found([*TWO[:3], "empty 0..0"], [(EXACT, 3, 4), (EXACT, 1, 2)], ["b2..2", "b2..2", "b1..4", "empty 0..0"],
          [stable(1, 2), none(3, 1)]),
)

# A none that a rule of B links to a stable group: found later, as late, or sooner.
ONE_NONE = ["a0..9", "a3..5", "{a,b}0..3", "{b,c}2..2"]
NONE_LINKED = (
    Found(ONE_NONE, [(EQUAL, 1, 2), (BEFORE, 1, 2), (EXACT, 3, 4)], ["a0..9", "a3..5", "b2..2", "b2..2"],
          [none(1, 4), stable(3, 2)]),
    Found(ONE_NONE, [(AT_MOST, 2, 3), (EQUAL, 1, 2), (BEFORE, 1, 2), (EXACT, 3, 4)], ONE_NONE, [none(1, 7)]),
    Found(ONE_NONE, [(EXACT, 3, 4), (BEFORE, 1, 2), (EQUAL, 1, 2), (ANY_CASE, 2, 3)], ONE_NONE, [none(1, 4)]),
    Found(ONE_NONE, [(ANY_CASE, 2, 3), (EXACT, 3, 4), (BEFORE, 1, 2), (EQUAL, 1, 2)], ONE_NONE, [none(1, 2)]),
    # Both none by themselves, and then found none by narrower blocks.
    Found(["a0..2", *ONE_NONE[1:]], [(EXACT, 3, 4), (EQUAL, 1, 2), (BEFORE, 1, 2)],
          ["a0..2", "a3..5", "b2..2", "b2..2"], [none(1, 1), stable(3, 2)]),
)

# More rules and fewer applications: what A took rounds to find is entered, or the rules stand in a better order.
FIVE = ["a0..5"] * 5
FORTH = [(BEFORE, text, text + 1) for text in range(1, 5)]
RISEN = [f"a{text}..{text + 1}" for text in range(5)]
SOONER = (
    Found(["N0..5", "n0..5"], [(ANY_CASE, 1, 2), (BEFORE, 1, 2)], ["N1..5", "n1..5"], [stable(1, 6)]),
    Found(["N1..5", "n1..5"], [(AT_MOST, 1, 2), (BEFORE, 1, 2), (ANY_CASE, 1, 2)], ["N1..5", "n1..5"], [stable(1, 3)]),
    Found(["N2..4", "n0..3"], [(AT_MOST, 1, 2), (BEFORE, 1, 2), (ANY_CASE, 1, 2)], ["N2..3", "n2..3"], [stable(1, 6)]),
)
IN_ORDER = (
    Found(FIVE, FORTH, RISEN, [stable(1, 20)]),
    Found(FIVE, [*FORTH[::-1], *FORTH[1:]], RISEN, [stable(1, 14)]),
    Found(FIVE, [(AT_MOST, 1, 5), *FORTH[::-1], *FORTH[1:]], RISEN, [stable(1, 16)]),
)

# Narrower counts, from below, from above and both; a block cut to 0..0; a narrower base.
COUNTS = ["{a,b}0..4 c0..2", "{a,c}1..5"]
NARROWER = (
    Found(COUNTS, [(EXACT, 1, 2)], ["a0..4 c0..2", "{a,c}1..5"], [stable(1, 2)]),
    Found([COUNTS[0], "{a,c}3..5"], [(EXACT, 1, 2)], ["a1..4 c0..2", "{a,c}3..5"], [stable(1, 2)]),
    Found([COUNTS[0], "{a,c}1..2"], [(EXACT, 1, 2)], ["a0..2 c0..2", "{a,c}1..2"], [stable(1, 2)]),
    Found([COUNTS[0], "{a,c}3..3"], [(EXACT, 1, 2)], ["a1..3 c0..2", "{a,c}3..3"], [stable(1, 2)]),
    Found(["{a,b}0..4 empty 0..0", COUNTS[1]], [(EXACT, 1, 2)], ["a1..4 empty 0..0", "a1..4"], [stable(1, 2)]),
    Found(["empty 0..0 c0..2", COUNTS[1]], [(EXACT, 1, 2)], ["empty 0..0 c1..2", "c1..2"], [stable(1, 2)]),
    Found([COUNTS[0], "c1..5"], [(EXACT, 1, 2)], ["empty 0..0 c1..2", "c1..2"], [stable(1, 2)]),
    Found(["b0..4 empty 0..0", COUNTS[1]], [(EXACT, 1, 2)], ["b0..4 empty 0..0", COUNTS[1]], [none(1, 1)]),
)

# A rule that A has three times and B once or twice.
THRICE = (
    Found(["a0..9", "a3..5"], [(EQUAL, 1, 2)] * 3, ["a3..5", "a3..5"], [stable(1, 6)]),
    Found(["a0..9", "a3..5"], [(EQUAL, 1, 2)], ["a3..5", "a3..5"], [stable(1, 2)]),
    Found(["a0..9", "a3..5"], [(AT_MOST, 1, 2), (EQUAL, 1, 2)], ["a3..5", "a3..5"], [stable(1, 4)]),
    Found(["a0..9", "a3..5"], [(EQUAL, 1, 2), (AT_MOST, 2, 1), (EQUAL, 1, 2)], ["a3..5", "a3..5"], [stable(1, 6)]),
    Found(["a0..9", "a3..5"], [(EQUAL, 1, 2), (BEFORE, 1, 2)], ["a0..9", "a3..5"], [none(1, 4)]),
    Found(["a0..9", "a3..5"], [(EQUAL, 1, 2)] * 4, ["a3..5", "a3..5"], [stable(1, 8)]),
)

# No rules, and then texts alone that rules name, texts behind them, and none among these.
LONE = ["{a,b}0..2", "b1..3", "c0..1"]
NO_RULES = (
    Found(LONE, [], LONE, [stable(1, 0), stable(2, 0), stable(3, 0)]),
    Found(LONE, [(EQUAL, 1, 2)], ["b1..2", "b1..2", "c0..1"], [stable(1, 2), stable(3, 0)]),
    Found(LONE, [(JOIN, 2, 1, 3)], ["b1..2", "b1..2", "empty 0..0"], [stable(1, 2)]),
    Found(LONE, [(EXACT, 3, 2)], LONE, [stable(1, 0), none(2, 1)]),
    Found([*LONE, "b2..2", "d1..1"], [(EXACT, 4, 2)], ["{a,b}0..2", "b2..2", "c0..1", "b2..2", "d1..1"],
          [stable(1, 0), stable(2, 2), stable(3, 0), stable(5, 0)]),
    Found([*LONE, "d1..1", "e1..1"], [(EQUAL, 4, 5)], [*LONE, "d1..1", "e1..1"],
          [stable(1, 0), stable(2, 0), stable(3, 0), none(4, 1)]),
    Found([*LONE, "d1..1"], [(EQUAL, 1, 4)], [*LONE, "d1..1"], [none(1, 1), stable(2, 0), stable(3, 0)]),
    Found([*LONE, "b0..9"], [(AT_MOST, 1, 4), (AT_MOST, 4, 2)], [*LONE, "b0..3"], [stable(1, 4), stable(3, 0)]),
    Found([*LONE, "b0..9"], [], [*LONE, "b0..9"], [stable(1, 0), stable(2, 0), stable(3, 0), stable(4, 0)]),
    Found(["b0..2", "b1..3", "empty 0..0"], [], ["b0..2", "b1..3", "empty 0..0"],
          [stable(1, 0), stable(2, 0), stable(3, 0)]),
)

# Two groups, and texts behind them that link them, that are none with one of them, or that are none by themselves.
BEHIND = (
    LINKED[0],
    Found([*TWO, "b0..9"], [(EXACT, 1, 2), (EXACT, 3, 4), (EXACT, 5, 1), (AT_MOST, 5, 3)],
          ["b2..2", "b2..2", "b2..2", "b2..2", "b2..2"], [stable(1, 12)]),
    Found([*TWO, "d1..1", "{d,e}1..2"], [(EQUAL, 5, 6), (EXACT, 3, 4), (EXACT, 1, 2)],
          ["b2..2", "b2..2", "b1..2", "b1..2", "d1..1", "d1..1"], [stable(1, 2), stable(3, 2), stable(5, 2)]),
    Found([*TWO, "d1..1", "e1..1"], [(EQUAL, 5, 6), (EXACT, 3, 4), (EXACT, 1, 2)],
          ["b2..2", "b2..2", "b1..2", "b1..2", "d1..1", "e1..1"], [stable(1, 2), stable(3, 2), none(5, 1)]),
    Found([*TWO, "d1..1", "e1..1"], [(EXACT, 3, 4), (AT_MOST, 3, 6), (EQUAL, 5, 6), (EXACT, 1, 2)],
          ["b2..2", "b2..2", "b1..4", "{b,d}0..2", "d1..1", "e1..1"], [stable(1, 2), none(3, 3)]),
    Found([*TWO, "c0..3"], [(EXACT, 3, 4), (EXACT, 1, 2)], ["b2..2", "b2..2", "b1..2", "b1..2", "c0..3"],
          [stable(1, 2), stable(3, 2), stable(5, 0)]),
)

# Joins of texts with just 250 characters together.
MOST = ["{a,b}0..250", "a0..125", "b0..125"]
LONGEST = (
    Found(MOST, [(JOIN, 1, 2, 3)], MOST, [stable(1, 1)]),
    Found(["{a,b}0..9", *MOST[1:]], [(JOIN, 1, 2, 3)], ["{a,b}0..9", "a0..9", "b0..9"], [stable(1, 2)]),
    Found(MOST, [(JOIN, 1, 2, 3), (BEFORE, 2, 3)], ["{a,b}1..250", "a0..125", "b1..125"], [stable(1, 6)]),
    Found(["{a,b}0..250", "a0..125", "empty 0..0"], [(JOIN, 1, 2, 3)], ["a0..125", "a0..125", "empty 0..0"],
          [stable(1, 2)]),
    Found(MOST, [(EXACT, 2, 3), (JOIN, 1, 2, 3)], ["empty 0..0"] * 3, [stable(1, 4)]),
    Found([*MOST, "c1..1"], [(JOIN, 1, 2, 3), (AT_MOST, 4, 2)], [*MOST, "c1..1"], [none(1, 2)]),
)

BY_HAND = (LINKED, NONE_LINKED, SOONER, IN_ORDER, NARROWER, THRICE, NO_RULES, BEHIND, LONGEST)


def hand_pairs():
    for first, *others in BY_HAND:
        for other in others:
            yield first.book, other.book
        yield first.book, first.book


# Books found by hand elsewhere.


def shorter_pairs(tables):
    """Each book of these tables without one of its rules, and with all of them in one order or another."""
    for at, (texts, rules, _, _) in enumerate(tables):
        texts, left = [written(text) for text in texts], at % len(rules)
        turned = rules[at // 2 % len(rules) :] + rules[: at // 2 % len(rules)]
        yield (texts, rules[:left] + rules[left + 1 :]), (texts, turned[::-1] if at % 2 else turned)


def unneeded(texts, rules):
    """A rule between two texts that is not among these and takes nothing from the texts."""
    for kind, one, other in product((AT_MOST, BEFORE, EQUAL), range(1, len(texts) + 1), range(1, len(texts) + 1)):
        shapes = shape_of(texts[one - 1]), shape_of(texts[other - 1])
        if one != other and (kind, one, other) not in rules and applied((kind, one, other), shapes) == shapes:
            return kind, one, other
    return None


def sooner_pairs(tables):
    """Books of these tables that take rounds, and then what they leave, with a rule more that takes nothing away: more
    rules and fewer applications."""
    books = [([written(text) for text in row[0]], row[1]) for row in tables if row[2] and len(row[1]) > 1]
    for at, (texts, rules) in enumerate(books):
        left = again((texts, rules))[0]
        rule = unneeded(left, rules)
        if left != texts and rule and at % 2:
            yield (texts, rules), (left, [rule, *rules[::-1]])


# Houses in one book, and then a rule between them.
SMALL_HOUSES = (ALONE, KEPT, QUICK, LATE, APART, NARROWED, WORN)
LARGE_HOUSES = (SPLICED, PARTED)
LINKS = (EQUAL, AT_MOST, BEFORE, JOIN, EXACT, ANY_CASE)


def between(at, one, other):
    """A rule between two groups of texts, the kinds by turns."""
    kind, texts = LINKS[at % len(LINKS)], [one[at % len(one)], other[at // 2 % len(other)]]
    texts = texts[::-1] if at // 6 % 2 else texts
    if kind == JOIN:
        thirds = [text for text in (*one, *other) if text not in texts]
        if not thirds:
            return (EXACT, *texts)
        texts.insert(at // 3 % 3, thirds[at % len(thirds)])
    return (kind, *texts)


def house_pairs():
    """Two houses, and then a rule between them: before their rules, behind them or among them; by turns all rules are
    in the other order, and a text of each house is entered as A leaves it."""
    pairs = [*product(SMALL_HOUSES, repeat=2), *product(LARGE_HOUSES, SMALL_HOUSES[2:])]
    pairs += product((KEPT, LATE, NARROWED), LARGE_HOUSES)
    for at, houses in enumerate(pairs):
        texts, rules = one_book(houses, at % 2 == 1, (alternated, in_a_row, backwards)[at % 3])
        one, other = flooded(linked(len(texts), rules))
        place = (0, len(rules), len(rules) // 2)[at % 3]
        more = rules[:place] + [between(at, one, other)] + rules[place:]
        after = [*texts]
        if at % 4 == 1:
            left = again((texts, rules))[0]
            for text in (one[0], other[-1]):
                after[text - 1] = left[text - 1]
        yield (texts, rules), (after, more[::-1] if at % 5 == 4 else more)


def beside_pairs():
    """A house, and then another one behind it in the same book, with no rule between them."""
    for one, other in product((QUICK, NARROWED), (APART, NARROWED, WORN, LATE)):
        yield one_book([one]), one_book((one, other), False, backwards)


# At the limits.


def limit_pairs():
    """The most texts and rules, the most blocks, and joins of just 250 characters."""
    texts = [block([0], 0, 2 + number % 3) for number in range(MOST_TEXTS)]
    less = [block([0], number % 2, 2) for number in range(MOST_TEXTS)]
    pairs = [(AT_MOST, one, one + 1) for one in (1, 3, 5, 7)]
    ring = [(AT_MOST, number % 8 + 1, (number + 1 + number // 8) % 8 + 1) for number in range(MOST_RULES)]
    yield (texts, []), (texts, ring)
    yield (texts, pairs), (texts, pairs + ring[:12])
    yield (texts, pairs), (less, ring[:12][::-1] + pairs[::-1])
    yield (texts, pairs * 4), (texts, pairs * 4)
    yield (texts, pairs * 4), (less, pairs[::-1])
    yield (texts, pairs * 4), (texts, ring[4:] + pairs)
    yield (texts, ring[:15]), (texts, ring[::-1])
    yield (texts, ring[1:]), (less, ring)
    steps = [(BEFORE, text, text + 1) for text in range(1, 8)]
    high = [block([0], 0, 9)] * MOST_TEXTS
    yield (high, steps[::2]), (high, steps)
    yield (high, steps), (high, steps[::-1] + steps[1:] + [(AT_MOST, 1, 8), (AT_MOST, 2, 7)])
    yield (high, steps), (high, [(BEFORE, 8, 1), *steps])
    yield (high, [*steps, (BEFORE, 8, 1)]), (high, [(AT_MOST, 8, 1), *steps[::-1], (BEFORE, 8, 1)])
    # One text alone, then others behind it.
    yield (texts[:1], []), (texts, [(AT_MOST, text, 1) for text in range(2, 9)])
    yield (texts[:1], []), (texts[:1], [])
    # The most blocks.
    many, long = many_blocks(32, 250, (0, 1)), block([0], 0, 250)
    yield ([many, long], [(EXACT, 1, 2)]), ([many, block([0], 0, 100)], [(EXACT, 2, 1), (EXACT, 1, 2)])
    # Fields of just 250 characters together, in A and in B, and in B alone, where they are too long in A.
    whole = block([0, 1], 0, 250)
    for front, back in ((100, 150), (2, 248), (125, 125)):
        fields = [block([0], 0, front), block([1], 0, back)]
        join, shorter = (JOIN, 1, 2, 3), [block([0], 0, 1), block([1], back, back)]
        yield ([whole, *fields], [join]), ([whole, *fields], [(AT_MOST, 3, 1), join])
        yield ([whole, *fields], [join]), ([whole, *shorter], [join, join])
        yield ([whole, *fields], [(BEFORE, 2, 3)]), ([block([1], 0, 3), *fields], [join, (BEFORE, 2, 3)])
        over = [block([0], 0, front), block([1], 0, back + 1)]
        yield ([whole, *over], [(AT_MOST, 2, 1)]), ([whole, *fields], [(AT_MOST, 2, 1), join])
        yield ([whole, *over], []), ([whole, block([0], front - 1, front - 1), over[1]], [join])


# By chance.


def narrower_block(dice, one):
    base, lower, upper = one
    way = dice.below(6)
    if upper == 0:
        return one
    if way == 0 and lower == 0:
        return Block((), 0, 0)
    if way in (0, 1, 4):
        base = dice.some(base)
    if way in (2, 4, 5):
        lower = dice.between(lower, upper)
    if way in (3, 5):
        upper = dice.between(max(lower, 1), upper)
    return Block(base, lower, upper)


def narrower(dice, text, left):
    """The text as it is, as A leaves it, or with some blocks narrower."""
    way = dice.below(6)
    if way < 3:
        return left if way == 0 else text
    return words_of([narrower_block(dice, one) if dice.below(3) == 0 else one for one in shape_of(text)])


def further_rule(dice, texts, left, mild):
    """A rule for these texts, or None; where it is to be mild, one that what A leaves can keep."""
    for _ in range(8):
        kind = dice.pick((*LINKS, AT_MOST))
        numbers = shuffled(dice, range(1, len(texts) + 1))[: 3 if kind == JOIN else 2]
        rule = (kind, *numbers)
        if len(numbers) < (3 if kind == JOIN else 2):
            continue
        if kind == JOIN and too_long(*(shape_of(texts[number - 1]) for number in numbers[1:])):
            continue
        if not mild or applied(rule, [shape_of(left[number - 1]) for number in named(rule)]) is not None:
            return rule
    return None


def grown(dice, book):
    """A book that has this one's texts, blocks equal or narrower, and its rules: with further texts and rules."""
    texts, rules = book
    left, mild = again(book)[0], dice.below(4) > 0
    after = [narrower(dice, *pair) for pair in zip(texts, left)] if dice.below(3) else [*texts]
    for _ in range(min(dice.pick((0, 0, 0, 1, 2)), MOST_TEXTS - len(texts))):
        codes = sorted({code for one in shape_of(texts[0]) for code in one.base}) or [0]
        after.append(dice.pick((dice.pick(texts), small_blocks(dice, codes))))
    left = left + after[len(left) :]
    more = [*dict.fromkeys(map(four, rules))] if dice.below(3) == 0 else [four(rule) for rule in rules]
    for _ in range(min(dice.pick((0, 1, 1, 2, 3)), MOST_RULES - len(more))):
        rule = further_rule(dice, after, left, mild)
        if rule:
            more.append(four(rule))
    if more and len(more) < MOST_RULES and dice.below(4) == 0:
        more.append(dice.pick(more))
    return after, shuffled(dice, more) if dice.below(4) else more


def drawn_pairs(draws):
    dice = Dice(37)
    for number in range(95):
        one = drawn_book(dice, draws) if number % 8 == 7 else dice.pick(draws)(dice)
        other = grown(dice, one)
        yield one, other
        # And so on through the year.
        if number % 5 == 0:
            last = grown(dice, other)
            yield other, last
            yield one, last


def all_threes(draws, tables):
    """The threes, those by chance from these draws, and those found by hand elsewhere from these tables."""
    pairs = [*hand_pairs(), *shorter_pairs(tables), *sooner_pairs(tables), *house_pairs(), *beside_pairs()]
    pairs += [*limit_pairs(), *drawn_pairs(draws)]
    return [Three(*pair, WORK_WANTED + (at % 16 == 3)) for at, pair in enumerate(pairs)]
