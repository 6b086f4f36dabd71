"""Books of several groups, as test houses make them that enter their texts in one book (document 02, order 11)."""

from itertools import combinations, permutations, product
from typing import NamedTuple

from groups import MOST_RULES, MOST_TEXTS, alternated, hold_run_to_answer, renamed
from joins import JOIN
from making import ONE_EACH, block, many_blocks, written
from pairs import ANY_CASE, AT_MOST, BEFORE, EQUAL, EXACT, KINDS
from shapes import MOST_BLOCKS, WORK_WANTED


class House(NamedTuple):
    """Texts that are one group by their rules, the texts at the end, None for none, and the count, found by hand."""

    texts: list
    rules: list
    final: list
    count: int


ALONE = House(["{a,b}0..2"], [], ["{a,b}0..2"], 0)
KEPT = House(["a1..2", "a1..2"], [(AT_MOST, 1, 2)], ["a1..2", "a1..2"], 1)
QUICK = House(["{a,b}0..3", "{b,c}2..2"], [(EXACT, 1, 2)], ["b2..2", "b2..2"], 2)
LATE = House(["N0..5", "n0..5"], [(ANY_CASE, 1, 2), (BEFORE, 1, 2)], ["N1..5", "n1..5"], 6)
APART = House(["a1..1", "b1..1"], [(EQUAL, 1, 2)], None, 1)
# Both texts are narrower than entered when the none is found.
NARROWED = House(["a0..9", "a3..5"], [(EQUAL, 1, 2), (BEFORE, 1, 2)], None, 4)
# Each round takes a character from either side.
WORN = House(["a0..20", "a0..20"], [(BEFORE, 1, 2), (AT_MOST, 2, 1)], None, 21)
SPLICED = House(
    ["{a,b}0..4", "a1..2", "{a,b}0..3", "b2..2"],
    [(JOIN, 1, 2, 3), (EXACT, 3, 4)],
    ["{a,b}3..4", "a1..2", "b2..2", "b2..2"],
    6,
)
# The rule that says none is behind a join that narrowed both fields.
PARTED = House(["{a,b}3..4", "a0..2", "b0..2", "b1..1"], [(JOIN, 1, 2, 3), (BEFORE, 3, 4)], None, 2)


def in_a_row(rows):
    return [rule for row in rows for rule in row]


def backwards(rows):
    return in_a_row(rows[::-1])


def one_book(houses, dealt=False, woven=alternated):
    """The book of several houses, its texts house by house, or dealt: the first of each, then the second of each; and
    its rules by turns, or woven otherwise. It is held to what is found by hand of the houses."""
    places = [[(number, text) for text in range(1, len(house.texts) + 1)] for number, house in enumerate(houses)]
    places = alternated(places) if dealt else in_a_row(places)
    names = [{} for _ in houses]
    for name, (number, text) in enumerate(places, 1):
        names[number][text] = name
    rules = woven([[renamed(rule, name) for rule in house.rules] for house, name in zip(houses, names)])
    texts = [houses[number].texts[text - 1] for number, text in places]
    final = [(houses[number].final or houses[number].texts)[text - 1] for number, text in places]
    heads = sorted(
        (name[1], "none" if house.final is None else "stable", house.count) for house, name in zip(houses, names)
    )
    hold_run_to_answer("houses, found by hand", texts, rules, final, heads)
    return [written(text) for text in texts], rules


ARRANGED = tuple(product((False, True), (alternated, in_a_row, backwards)))


def verdict_books(palette, number):
    """So many houses out of these in one book, in each way: none first, in the middle, last, everywhere, nowhere."""
    for at, houses in enumerate(product(palette, repeat=number)):
        yield one_book(houses, *ARRANGED[at % len(ARRANGED)])


def house_books():
    yield from verdict_books((KEPT, QUICK, LATE, APART, NARROWED, WORN), 3)
    yield from verdict_books((QUICK, NARROWED), 4)
    yield from verdict_books((SPLICED, PARTED), 2)
    yield from verdict_books((ALONE, LATE, NARROWED), 4)
    # Every house beside every other, in each arrangement.
    for houses in permutations((ALONE, SPLICED, PARTED, KEPT), 3):
        if sum(len(house.texts) for house in houses) <= MOST_TEXTS:
            yield one_book(houses, True)
    for arranged in ARRANGED:
        yield one_book((SPLICED, PARTED), *arranged)
        yield one_book((PARTED, SPLICED), *arranged)
        yield one_book((WORN, KEPT, APART, QUICK), *arranged)
        yield one_book((ALONE, WORN, ALONE, PARTED), *arranged)
        yield one_book((NARROWED, ALONE, LATE, ALONE, APART), *arranged)


# Links.


def graph_books():
    """Every set of links of two among four texts, the rules in several orders and the texts of a rule in both."""
    texts = [written(text) for text in ("{a,b}0..2", "a0..3", "{a,b}1..2", "b0..1 a0..1")]
    same = [written(text) for text in ("a0..3", "a1..4", "a0..2", "a1..3")]
    pairs = [*combinations(range(1, 5), 2)]
    for number in range(2 ** len(pairs)):
        chosen = [pair for at, pair in enumerate(pairs) if number >> at & 1]
        turn = number % max(1, len(chosen))
        chosen = chosen[turn:] + chosen[:turn]
        turned = [pair[::-1] if (number >> 1) + at & 1 else pair for at, pair in enumerate(chosen)]
        yield texts, [(KINDS[(number + at) % len(KINDS)], *pair) for at, pair in enumerate(turned)]
        yield same, [((AT_MOST, BEFORE)[at % 2], *pair) for at, pair in enumerate(turned[::-1])]


def path_orders(count):
    """The links of a path through so many texts: from either end, by turns, from the middle and towards it, and so that
    parts grow and meet at last."""
    path = [(text, text + 1) for text in range(1, count)]
    half = len(path) // 2
    yield from (path, path[::-1], path[::2] + path[1::2], path[1::2] + path[::2])
    yield [link for pair in zip(path[half:], path[:half][::-1]) for link in pair] + path[2 * half :]
    yield alternated([path[:half], path[half:][::-1]])
    yield path[:half] + path[half + 1 :] + path[half : half + 1]
    yield path[half + 1 :][::-1] + path[:half][::-1] + path[half : half + 1]


def path_books():
    """Paths whose links are met in several orders, from the last text to the first among them, and stars."""
    for count in (3, 5, 6, 8):
        for at, links in enumerate(path_orders(count)):
            texts = [block([0], 0, 2 + text % 3) for text in range(count)]
            turned = [link[::-1] for link in links]
            yield texts, [(AT_MOST, *link) for link in (turned if at % 2 else links)]
            yield texts, [((BEFORE, AT_MOST, EQUAL)[number % 3], *link) for number, link in enumerate(links)]
            # The last link left out: two groups.
            yield texts, [((EXACT, ANY_CASE)[at % 2], *link) for link in (links if at % 2 else turned)[:-1]]
    # Stars around each text, without one of its rays by turns.
    texts = [block([0, 1], 0, 1 + text % 2) for text in range(MOST_TEXTS)]
    for middle in range(1, MOST_TEXTS + 1):
        rays = [(middle, text) for text in range(MOST_TEXTS, 0, -1) if text != middle]
        yield texts, [(AT_MOST, *ray) for ray in rays]
        yield texts, [(EQUAL, *ray[::-1]) for at, ray in enumerate(rays) if at != middle % 7]
    # Two houses whose texts have odd and even numbers, their rules by turns; then a rule between them.
    odd, even = ([(text, text + 2) for text in range(first, 7, 2)] for first in (1, 2))
    for links in (alternated([odd, even]), alternated([even[::-1], odd]), [*even, *odd[::-1]]):
        for more in ([], [(7, 8)], [(8, 1)]):
            yield texts, [((AT_MOST, EXACT)[at % 2], *link) for at, link in enumerate(links + more)]
            yield texts, [((AT_MOST, EXACT)[at % 2], *link) for at, link in enumerate(more + links)]


def join_books():
    """Joins as links: through each of their three texts, the third alone, and the least number in each place."""
    small = [written(text) for text in ("a0..2", "{a,b}0..1", "a0..1", "a0..2", "a0..1 b0..1", "a0..1")]
    sides = [(AT_MOST, 1, 2), (AT_MOST, 4, 3), (EXACT, 6, 5)]
    for at, trio in enumerate(permutations((1, 4, 6))):
        yield small, [(JOIN, *trio), *sides]
        yield small, [*sides[::-1], (JOIN, *trio)]
        # One side less; and the join alone, so that the others are groups by themselves.
        yield small, [sides[at % 3], (JOIN, *trio), sides[(at + 1) % 3]]
        yield small, [(JOIN, *trio)]
        yield small, [(JOIN, *trio), (EQUAL, 5, 2)]
    # Any two joins of six texts: in one group or in two.
    for at, (one, other) in enumerate(combinations(combinations(range(1, 7), 3), 2)):
        if at % 3 == 0:
            one, other = ((*trio[turn % 3 :], *trio[: turn % 3]) for trio, turn in ((one, at), (other, at // 3)))
            yield small, [(JOIN, *one), (JOIN, *other)] if at % 2 else [(JOIN, *other), (JOIN, *one)]
    # The third text links two groups that are there already, and the rule that does so comes last.
    texts = [*small, written("b0..1"), written("{a,b}1..1")]
    for trio in ((5, 6, 1), (7, 8, 1), (8, 3, 2), (3, 8, 1), (8, 7, 6)):
        yield texts, [(AT_MOST, 1, 2), (AT_MOST, 7, 8), (JOIN, *trio)]
        yield texts, [(JOIN, *trio), (BEFORE, 3, 4), (AT_MOST, 8, 7), (AT_MOST, 2, 1)]


def alone_books():
    """Texts that no rule names: all of them, all but two, and all but the texts of a rule that is there often."""
    texts = [block([number % 2], number % 3, 3) for number in range(MOST_TEXTS)]
    for count in range(1, MOST_TEXTS + 1):
        yield texts[:count], []
    for at, (one, other) in enumerate(combinations(range(1, MOST_TEXTS + 1), 2)):
        yield texts, [(KINDS[at % len(KINDS)], *((one, other) if at % 2 else (other, one)))]
    for one, other in ((1, 2), (8, 1), (3, 6), (7, 8)):
        for kind in (AT_MOST, EQUAL):
            yield texts, [(kind, one, other)] * MOST_RULES
            yield texts, [(kind, one, other), (kind, other, one)] * (MOST_RULES // 2)


def full_books():
    """The most rules: in one group, in groups of as many, in one large one and several small ones; and large texts."""
    texts = [block([0], 0, 2 + number % 3) for number in range(MOST_TEXTS)]
    ring = [(number % 8 + 1, (number + 1 + number // 8) % 8 + 1) for number in range(MOST_RULES)]
    pairs = [(one, one + 1) for one in (1, 3, 5, 7)]
    dealt = [(one, one + 4) for one in (4, 2, 1, 3)]
    for links in (ring, ring[::-1], pairs * 4, dealt * 4, pairs[::-1] * 2 + dealt[:1] * 8, pairs + ring[:1] * 12):
        yield texts, [(AT_MOST, *link) for link in links]
        yield texts, [((AT_MOST, BEFORE, EQUAL)[at % 3], *link) for at, link in enumerate(links)]
        yield texts, [((BEFORE, AT_MOST)[at % 2], *link[:: 1 - at % 2 * 2]) for at, link in enumerate(links)]
    # One pair runs long, the others not; none of these counts is that of another.
    for long in (1, 3, 5, 7):
        texts = [block([0], 0, 60)] * MOST_TEXTS
        other = [one for one in (1, 3, 5, 7) if one != long]
        rules = [(BEFORE, long, long + 1), (AT_MOST, long + 1, long)]
        yield texts, alternated([rules, [(AT_MOST, one, one + 1) for one in other]])
        yield texts, alternated([[(EXACT, one, one + 1) for one in other] * 2, rules[::-1]])
    most = [block([number % 2], 0, 7) * MOST_BLOCKS for number in range(MOST_TEXTS)]
    most[2], most[6] = block([0], 1, 1) * MOST_BLOCKS, block([1], 1, 1) + block([0], 0, 7) * (MOST_BLOCKS - 1)
    yield most, [(BEFORE, 1, 2), (EXACT, 3, 7), (BEFORE, 5, 6)]
    long = [many_blocks(32, 250), block([0], 250, 250), many_blocks(4, 250), block([1], 250, 250)]
    yield long, [(AT_MOST, 1, 3), (EXACT, 2, 4)]


def group_books():
    yield from house_books()
    yield from graph_books()
    yield from path_books()
    yield from join_books()
    yield from alone_books()
    yield from full_books()


# What is wrong with one house's part of a book refuses all of it.


def refused_books():
    """Each with the length of the work buffer."""
    texts, rules = one_book((NARROWED, QUICK, APART))
    short = block([0], 0, 3)
    long = [short, block([0], 0, 126), block([0], 0, 125)]
    wrong = [(6, 3, 4), (EQUAL, 3, 3), (EQUAL, 4, 9), (AT_MOST, 0, 3), (EXACT, 3, 4, 1), (JOIN, 3, 4, 4), (JOIN, 3, 4)]
    for at, rule in enumerate(wrong):
        for place in range(len(rules) + 1):
            if (at + place) % 2 == 0:
                yield texts, [*rules[:place], rule, *rules[place:]], WORK_WANTED if place else 0
    # Texts too long to be joined, beside houses that are none and stable.
    for house in (APART, QUICK, NARROWED):
        beside = [written(text) for text in house.texts]
        for more in ([], [(7, 7, 7)]):
            yield beside + long, [*house.rules, (JOIN, 3, 4, 5), *more], WORK_WANTED
            yield long + beside, [(JOIN, 1, 3, 2), *(renamed(rule, {1: 4, 2: 5}) for rule in house.rules), *more], 0
            yield beside + long, [*more, *house.rules, (JOIN, 3, 4, 5)], WORK_WANTED - 1
    # Bad blocks, too many characters and a short work buffer, in a text alone and in one of a group.
    for bad in (*ONE_EACH, block([0], 0, 200) * 2):
        yield [*texts, bad], rules, WORK_WANTED
        yield [bad, *texts[1:]], rules, WORK_WANTED
        yield [*texts[:3], short + bad, *texts[4:]], [*rules, (7, 7, 7)], 0
    for work in (0, WORK_WANTED - 1, WORK_WANTED, WORK_WANTED + 1):
        yield texts, rules, work
        yield texts, [], work
    yield texts, (rules * 4)[: MOST_RULES + 1], WORK_WANTED
    yield texts * 2, rules, WORK_WANTED


# By chance.


def shuffled(dice, rules):
    rules = list(rules)
    for at in range(len(rules) - 1, 0, -1):
        other = dice.below(at + 1)
        rules[at], rules[other] = rules[other], rules[at]
    return rules


def drawn_book(dice, draws):
    """A book of eight texts in several groups: books of at most five texts, as many as there is room for, and texts
    alone; names and rules by chance."""
    texts, rules = [], []
    for _ in range(dice.between(2, 6)):
        more, others = dice.pick(draws)(dice)
        if len(more) <= min(5, MOST_TEXTS - len(texts)) and len(rules) + len(others) <= MOST_RULES:
            names = {text: len(texts) + text for text in range(1, len(more) + 1)}
            rules += (renamed(rule, names) for rule in others)
            texts += more
    texts += [block([0], 0, 1 + dice.below(3)) for _ in range(MOST_TEXTS - len(texts))]
    order = shuffled(dice, range(1, MOST_TEXTS + 1))
    names = {text: name for name, text in enumerate(order, 1)}
    return [texts[text - 1] for text in order], shuffled(dice, [renamed(rule, names) for rule in rules])
