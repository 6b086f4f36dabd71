"""Running a book of rules, group after group: the test program's lines, and the books that it is asked about."""

from itertools import permutations, product

from further import again, all_threes, apart
from groups import (
    MOST_RULES, MOST_TEXTS, RULE_SIZE, book_of, four, hold_run_to_answer, merged, ran, run, shapes_at_end, with_names,
)
from houses import drawn_book, group_books, refused_books, shuffled
from making import (
    CASE_ALPHABETS, HIGH_ALPHABETS, HIGH_CASE_ALPHABETS, ONE_EACH, TWO_BAD, WORD_ENDS, Dice, block, carved, counted,
    hexes, high_unsound_blocks, hold_numbers_to_room, large_shape, lists_read, many_blocks, numbers_read, padded_anew,
    random_filling, random_text, recased, shared_out, small_blocks, unsound_blocks, words_of, written,
)
from joins import JOIN
from narrow import LONGEST_WORK, TOGETHER, work_shown
from pairs import ANY_CASE, AT_MOST, BEFORE, CASED_EQUALITIES, CASED_KINDS, EQUAL, EQUALITIES, EXACT, HOLDS, KINDS
from shapes import ALL_CODES, BLANK, BLOCK_SIZE, MOST_BLOCKS, WORK_WANTED, Refused, agree, shape_of

# What the program has room for.
MOST_NUMBERS = 1600


# The expected line of a case.

# The record of a text that is not there, and of every text of a refused book.
FILLER = "0 stable 0"


def records(groups):
    """For each of the most texts the name of its group, its verdict and its count."""
    shown = [FILLER] * MOST_TEXTS
    for group in groups:
        for text in group.texts:
            shown[text - 1] = f"{group.name} {group.verdict} {group.count}"
    return " ".join(shown)


def expected_line(line):
    _, work, *numbers = line.split(" ")
    work = int(work, 16)
    counts, words, rules = lists_read(numbers_read(numbers), 3)
    groups = []
    try:
        shapes, fours = book_of(counts, words, rules)
        if work < WORK_WANTED:
            raise Refused(4, 0, 0)
        groups = ran(shapes, fours)
        head = "accepted"
        words = [word for shape in shapes_at_end(groups) for word in words_of(shape)]
    except Refused as refusal:
        head = refusal.line
    return " ".join([head, records(groups), *hexes(words), work_shown(work, head == "accepted")])


# Making cases.


def lent_line(counts, words, rules, work):
    """The line of a case as it is lent."""
    return " ".join(["B", *hexes([work, *counted(counts), *counted(words), *counted(rules)])])


def book_line(texts, rules, work):
    """The line of a case of texts, each a shape's numbers, and rules, each as `four` takes it."""
    words, numbers = [word for text in texts for word in text], [number for rule in rules for number in four(rule)]
    return lent_line([len(text) // BLOCK_SIZE for text in texts], words, numbers, work)


class Cases:
    def __init__(self):
        self.lines = []

    def lent(self, counts, words, rules, work=WORK_WANTED):
        """A case as it is lent."""
        self.lines.append(lent_line(counts, words, rules, work))

    def book(self, texts, rules, work=WORK_WANTED):
        """A case of texts, each a shape's numbers, and rules, each as `four` takes it."""
        self.lines.append(book_line(texts, rules, work))


def hold_to_example():
    """Document 01's book, in which all equalities are the same."""
    for kind in EQUALITIES:
        hold_run_to_answer("document 01's book", ["{a,b,c}0..3", "{b,c,d}2..2"], [(kind, 1, 2)], ["{b,c}2..2"] * 2, 2)


def picked_cases(cases):
    for kind in EQUALITIES:
        cases.book([written("{a,b,c}0..3"), written("{b,c,d}2..2")], [(kind, 1, 2)])
        cases.book([written("{a,b,c}0..3"), written("{b,c,d}2..2")], [(kind, 2, 1)])
    cases.book([written("a0..2"), written("a0..1")], [(BEFORE, 1, 2)])
    cases.book([written("a0..2"), written("a0..1")], [(BEFORE, 2, 1)])
    # Two rules that only together say none.
    cases.book([written("a0..1"), written("a0..1")], [(BEFORE, 1, 2), (BEFORE, 2, 1)])
    cases.book([written("a0..9"), written("a0..9")], [(AT_MOST, 1, 2), (AT_MOST, 2, 1)])
    cases.book([written("a0..9"), written("a3..5")], [(AT_MOST, 1, 2), (AT_MOST, 2, 1), (EQUAL, 1, 2)])
    # The same rule often, and a rule that changes nothing between two that do.
    cases.book([written("a0..9"), written("a3..5")], [(EQUAL, 1, 2)] * 16)
    texts = [written("{a,b}0..3"), written("{b,c}1..2"), written("c0..9")]
    cases.book(texts, [(EQUAL, 1, 2), (AT_MOST, 1, 3), (BEFORE, 2, 3)])
    # No rules: nothing is applied, and the work buffer is cleared all the same.
    for texts in (["a0..1"], ["a0..1"] * 8, ["A0..7 " * 32], ["empty 0..0"]):
        for work in (0, WORK_WANTED - 1, WORK_WANTED, WORK_WANTED + 1, LONGEST_WORK):
            cases.book([written(text) for text in texts], [], work)
    for work in (0, 1, WORK_WANTED - 1, WORK_WANTED, WORK_WANTED + 1, LONGEST_WORK):
        cases.book([written("{a,b,c}0..3"), written("{b,c,d}2..2")], [(EQUAL, 1, 2)], work)
        cases.book([written("a1..1"), written("b1..1")], [(EQUAL, 1, 2)], work)


def round_cases(cases):
    """Books that need many rounds: cycles, and chains whose rules stand in each order."""
    for most in (1, 2, 3, 8, 20, 60):
        text = block([0], 0, most)
        cases.book([text] * 2, [(BEFORE, 1, 2), (BEFORE, 2, 1)])
        cases.book([text] * 3, [(BEFORE, 1, 2), (BEFORE, 2, 3), (BEFORE, 3, 1)])
        cases.book([text] * 3, [(BEFORE, 3, 1), (BEFORE, 2, 3), (BEFORE, 1, 2)])
        cases.book([text] * 2, [(BEFORE, 1, 2), (AT_MOST, 2, 1)])
        cases.book([text] * 3, [(AT_MOST, 1, 2), (AT_MOST, 2, 3), (AT_MOST, 3, 1)])
        cases.book([text] * 3, [(AT_MOST, 1, 2), (EQUAL, 2, 3), (BEFORE, 3, 1)])
    for count in (3, 5, 8):
        chain = [(BEFORE, text, text + 1) for text in range(1, count)]
        for most in (count - 2, count - 1, count, 2 * count):
            for rules in (chain, chain[::-1], chain[1::2] + chain[::2], chain + chain[::-1]):
                cases.book([block([0], 0, most)] * count, rules)
    for count in (4, 8):
        web = [(EQUAL, text, text + 1) for text in range(1, count)]
        texts = [block((0, 1, 2), 0, 12 + text) + block([text % 3], 1, 4) for text in range(count)]
        for rules in (web, web[::-1], web[::2] + web[1::2], web + [(EQUAL, count, 1)]):
            cases.book(texts, rules)
            cases.book(texts, made_exact(rules))


SERIAL = ["{0..9,A..Z,-}0..12", "{A..Z}0..6 {0..9}0..6", "{A..Z}2..3", "{1..9}1..1 {0..9}3..4", "-1..1 {A..F}1..1"]


def made_exact(rules):
    """The rules with exact equality in place of the other one."""
    return [(EXACT, *rule[1:]) if rule[0] == EQUAL else rule for rule in rules]


def every_order(cases, texts, rules):
    """The book with its rules in several orders."""
    for order in permutations(rules) if len(rules) < 3 else (rules, rules[::-1], rules[1:] + rules[:1]):
        cases.book(texts, list(order))


# Books with padded fields: the texts, the rules, the texts at the end and the applications, as they are found by hand.
UNIT, LETTERS = "N1..1 m1..1 { }4..4", "{A..Z,a..z}1..6"
PADDED = (
    ([UNIT, LETTERS], [(EQUAL, 1, 2)], [UNIT, "{N,m}2..2"], 2),
    ([UNIT, LETTERS], [(EXACT, 1, 2)], None, 1),
    ([UNIT, LETTERS, "N1..1 {M,m}1..1 { }0..9"], [(EQUAL, 1, 2), (EXACT, 1, 3)], [UNIT, "{N,m}2..2", UNIT], 4),
    ([UNIT, LETTERS, "N1..1 {M,m}1..1 { }0..9"], [(EQUAL, 1, 2), (EXACT, 2, 3)],
     [UNIT, "{N,m}2..2", "N1..1 m1..1 empty 0..0"], 4),
    # No rule of kind 0 takes padding from another, also in a ring.
    (["a1..1 { }0..1", "a1..1 { }5..9", "a1..1"], [(EQUAL, 1, 2), (EQUAL, 2, 3), (EQUAL, 3, 1)],
     ["a1..1 { }0..1", "a1..1 { }5..9", "a1..1"], 3),
    (["a1..1 { }0..1", "a1..1 { }5..9", "b1..1"], [(EQUAL, 1, 2), (EQUAL, 2, 3), (EQUAL, 3, 1)], None, 2),
    # Both equalities of the same texts.
    (["a1..1 { }0..4", "a1..1 { }1..9"], [(EQUAL, 1, 2), (EXACT, 1, 2)], ["a1..1 { }1..4"] * 2, 4),
    (["a1..1 { }0..1", "a1..1 { }2..3"], [(EQUAL, 1, 2), (EXACT, 1, 2)], None, 2),
    # One text can come before another that it equals but for padding; exactly equal it cannot.
    (["a1..1 { }0..3"] * 2, [(EQUAL, 1, 2), (BEFORE, 1, 2)], ["a1..1 { }0..2", "a1..1 { }1..3"], 4),
    (["a1..1 { }0..3"] * 2, [(EXACT, 1, 2), (BEFORE, 1, 2)], None, 5),
    (["a1..1 { }0..3"] * 2, [(EXACT, 1, 2), (AT_MOST, 2, 1)], ["a1..1 { }0..3"] * 2, 2),
    # Fields joined with their padding, which counts there.
    (["{a,b, }5..5", "a1..1 { }0..4", "b0..2", "a1..1"], [(JOIN, 1, 2, 3), (EQUAL, 2, 4)],
     ["{a,b, }5..5", "a1..1 { }2..4", "b0..2", "a1..1"], 4),
    (["{a,b, }5..5", "a1..1 { }0..4", "b0..2", "a1..1"], [(JOIN, 1, 2, 3), (EXACT, 2, 4)], None, 2),
    (["{a, }0..4", "a1..2", "{ }1..2"], [(JOIN, 1, 2, 3), (EQUAL, 1, 2)], ["{a, }2..4", "a1..2", "{ }1..2"], 4),
    (["{a, }0..4", "a1..2", "{ }1..2"], [(JOIN, 1, 2, 3), (EXACT, 1, 2)], None, 3),
)


def padded_cases(cases):
    for texts, rules, final, applications in PADDED:
        hold_run_to_answer("padded fields, found by hand", texts, rules, final, applications)
        every_order(cases, [written(text) for text in texts], rules)
    # As long as may be: 250 blanks, and none.
    texts = [written(text) for text in ("{ }250..250", "empty 0..0", "{ }0..249 a0..1", "{a, }250..250")]
    for rules in (
        [(EQUAL, 1, 2), (EQUAL, 2, 3)],
        [(EQUAL, 1, 2), (EXACT, 2, 3)],
        [(EQUAL, 3, 4), (EQUAL, 2, 3), (EXACT, 1, 4)],
        [(EXACT, 3, 4), (EQUAL, 4, 2)],
        [(JOIN, 1, 2, 4), (EQUAL, 2, 3), (BEFORE, 3, 1)],
    ):
        every_order(cases, texts, rules)
    for work in (0, WORK_WANTED - 1, WORK_WANTED, LONGEST_WORK):
        cases.book([written(UNIT), written(LETTERS)], [(EQUAL, 1, 2)], work)
        cases.book([written(UNIT), written(LETTERS)], [(EXACT, 1, 2)], work)


def join_cases(cases):
    """Joins alone, in chains, with texts in common, and beside orders and equalities."""
    # A line of three fields by two joins, either two of them first; one of four by three joins.
    texts = [written(text) for text in SERIAL]
    every_order(cases, texts, [(JOIN, 1, 2, 5), (JOIN, 2, 3, 4)])
    worn = written("W1..1 {0,O,Q}1..1 {8,B}1..1 {1,7}1..1 00..1 {3,8}2..2 {-,1}0..1 {A,4}0..1")
    every_order(cases, [worn, *texts[1:]], [(JOIN, 1, 2, 5), (JOIN, 2, 3, 4)])
    inner = written("{0..9}0..9 -0..1 {A..Z}0..3")
    every_order(cases, [worn, inner, *texts[2:]], [(JOIN, 1, 3, 2), (JOIN, 2, 4, 5)])
    fields = ["{a..d}4..9", "{a..d}0..9", "{a..d}0..5", "a1..2", "{a,b}1..2", "c1..1 b0..1", "d0..2"]
    fields = [written(field) for field in fields]
    every_order(cases, fields, [(JOIN, 1, 2, 3), (JOIN, 2, 4, 5), (JOIN, 3, 6, 7)])
    every_order(cases, fields, [(JOIN, 1, 4, 2), (JOIN, 2, 5, 3), (JOIN, 3, 6, 7)])
    # One whole cut in two ways; one field in two lines; a whole that is a field of the next; two fields in both orders.
    texts = [written(text) for text in ("{a,b}0..4", "a0..2", "{a,b}0..3", "{a,b}1..2", "b0..1 a0..1")]
    for rules in (
        [(JOIN, 1, 2, 3), (JOIN, 1, 4, 5)],
        [(JOIN, 1, 2, 3), (JOIN, 1, 3, 2)],
        [(JOIN, 1, 2, 3), (JOIN, 4, 2, 5)],
        [(JOIN, 1, 2, 3), (JOIN, 4, 5, 3)],
        [(JOIN, 1, 3, 4), (JOIN, 3, 2, 5)],
        [(JOIN, 1, 4, 3), (JOIN, 3, 2, 5)],
        [(JOIN, 1, 2, 3), (JOIN, 2, 4, 5), (JOIN, 3, 5, 4)],
        # Beside the other kinds.
        [(JOIN, 1, 2, 3), (EQUAL, 2, 3)],
        [(JOIN, 1, 2, 3), (EQUAL, 1, 3)],
        [(JOIN, 1, 2, 3), (BEFORE, 1, 2)],
        [(JOIN, 1, 2, 3), (BEFORE, 2, 1), (AT_MOST, 3, 2)],
        [(JOIN, 1, 2, 4), (EQUAL, 3, 5), (BEFORE, 1, 3)],
        [(JOIN, 1, 4, 5), (AT_MOST, 1, 2), (EQUAL, 4, 3)],
        [(JOIN, 1, 2, 3), (JOIN, 1, 4, 5), (EQUAL, 2, 4), (AT_MOST, 5, 3)],
    ):
        every_order(cases, texts, rules)
        if made_exact(rules) != rules:
            every_order(cases, texts, made_exact(rules))
    # Joins that go round: each round takes a little, until nothing is left or a text is empty.
    for most in (2, 5, 12):
        text, more = block([0], 0, most), block([0], 1, most)
        cases.book([text] * 3, [(JOIN, 1, 2, 3), (JOIN, 2, 1, 3)])
        cases.book([text, text, more], [(JOIN, 1, 2, 3), (JOIN, 2, 1, 3)])
        cases.book([text, text, more], [(JOIN, 2, 3, 1), (JOIN, 1, 3, 2)])
        cases.book([text, more, more], [(JOIN, 1, 2, 3), (EQUAL, 1, 2)])
        cases.book([more] * 4, [(JOIN, 1, 2, 3), (JOIN, 2, 3, 4), (EQUAL, 1, 4)])
        cases.book([text, text, more, text], [(BEFORE, 4, 2), (JOIN, 1, 2, 3), (AT_MOST, 1, 4)])
        cases.book([block([0, 1], 0, most)] * 3, [(JOIN, 1, 2, 3), (JOIN, 2, 3, 1), (JOIN, 3, 1, 2)])
    ring = [(JOIN, text + 1, (text + 1) % 8 + 1, (text + 3) % 8 + 1) for text in range(8)]
    cases.book([block([0], 0, 9)] * 8, ring * 2)
    for work in (0, WORK_WANTED - 1, WORK_WANTED, WORK_WANTED + 1, LONGEST_WORK):
        cases.book([written("{a,b}0..3"), written("a1..1"), written("b0..2")], [(JOIN, 1, 2, 3)], work)
        cases.book([written("a1..1 b1..1"), written("b1..1"), written("a1..1")], [(JOIN, 1, 2, 3)], work)


def join_book(dice, tiny=False):
    """Texts over one alphabet, some of them two others joined; in most books all rules are kept by some texts."""
    codes = dice.pick(((0, 1), (0, 64), b" A") if tiny else ((0, 1), (0, 1, 2), (0, 63, 64, 127), b" A"))
    kept = dice.below(5) > 0
    length, joins = (1, (1, 1, 2)) if tiny else (3, (1, 2, 2, 3, 4))
    stems = [random_text(dice, codes, dice.between(0, length)) for _ in range(2 if tiny else dice.between(2, 4))]
    rules = []
    for _ in range(dice.pick(joins)):
        front, back = two_of(dice, len(stems))
        stems.append(stems[front - 1] + stems[back - 1])
        rules.append((JOIN, len(stems), front, back))
    for _ in range(dice.below(3)):
        one, other = two_of(dice, len(stems))
        kinds = [kind for kind in CASED_KINDS if HOLDS[kind](stems[one - 1], stems[other - 1])]
        rules.append((dice.pick(kinds if kept and kinds else CASED_KINDS), one, other))
    # The texts are numbered by chance.
    places = shuffled(dice, range(len(stems)))
    texts = [[]] * len(stems)
    for place, stem in zip(places, stems):
        text = carved(dice, codes, stem, dice.between(1, 2 if tiny else 3)) if kept else small_blocks(dice, codes)
        texts[place] = text[: 2 * BLOCK_SIZE] if tiny else text
    return texts, shuffled(dice, [(rule[0], *(places[text - 1] + 1 for text in rule[1:])) for rule in rules])


def two_of(dice, count):
    """Two different numbers from 1 to the count."""
    one = dice.between(1, count)
    return one, (one - 1 + dice.between(1, count - 1)) % count + 1


def random_join_cases(cases):
    dice = Dice(33)
    for number in range(240):
        texts, rules = join_book(dice, number % 2 == 0)
        cases.book(texts, rules)
        if number % 4 == 1 and len(rules) > 1:
            cases.book(texts, shuffled(dice, rules))


def random_book(dice):
    """Texts over one alphabet; in most books all rules are kept by some texts, so that the run goes on for long."""
    codes = dice.pick(((0, 1), (0, 1, 2), (64, 65), (0, 64), b" A", b" A", b" A"))
    count = dice.pick((1, 2, 2, 3, 3, 4, 5, 8))
    kept = dice.below(4) > 0
    stems, texts = [], []
    stem = random_filling(dice, shape_of(small_blocks(dice, codes)))
    for _ in range(count):
        if dice.below(3):
            stem = random_filling(dice, shape_of(small_blocks(dice, codes)))
        elif BLANK in codes:
            stem = padded_anew(dice, stem, 2)
        stems.append(stem)
        texts.append(carved(dice, codes, stem, dice.between(1, 3)) if kept else small_blocks(dice, codes))
    rules = []
    for _ in range(dice.pick((1, 2, 3, 4, 6, 9, 16)) if count > 1 else 0):
        one = dice.between(1, count)
        other = (one - 1 + dice.between(1, count - 1)) % count + 1
        kind = dice.pick(CASED_KINDS)
        if kept and not HOLDS[kind](stems[one - 1], stems[other - 1]):
            one, other = other, one
            if not HOLDS[kind](stems[one - 1], stems[other - 1]):
                kind = AT_MOST if dice.below(8) else kind
        rules.append((kind, one, other))
    return texts, rules


CHAIN_ALPHABETS = ((0, 1), (0, 1), (31, BLANK), (BLANK, 33))


def chain_book(dice, alphabets=CHAIN_ALPHABETS, kinds=CASED_KINDS, equalities=CASED_EQUALITIES):
    """Wide texts in a chain, sometimes closed to a cycle, the rules in any order: each round takes little away."""
    count = dice.between(2, 6)
    low, high = dice.pick(alphabets)
    texts = []
    for _ in range(count):
        text = block(dice.pick(([low], [low], [low, high], [high])), 0, dice.between(1, 6))
        texts.append(text + block([dice.pick((low, high))], 0, dice.between(1, 3)) if dice.below(3) == 0 else text)
    rules = [(dice.pick((AT_MOST, BEFORE, BEFORE)), text, text + 1) for text in range(1, count)]
    if dice.below(2):
        rules.append((dice.pick(kinds), count, 1))
    if dice.below(3) == 0:
        one = dice.between(1, count)
        rules.append((dice.pick(equalities), one, one % count + 1))
    return texts, shuffled(dice, rules)


def random_cases(cases):
    dice = Dice(31)
    for number in range(700):
        texts, rules = chain_book(dice) if number % 5 < 2 else random_book(dice)
        cases.book(texts, rules, LONGEST_WORK if number % 50 == 0 else WORK_WANTED)
        if number % 3 == 0 and len(rules) > 1:
            cases.book(texts, shuffled(dice, rules))


def large_cases(cases):
    dice = Dice(32)
    for count in (2, 3, 8):
        codes, words = large_shape(dice)
        text = random_filling(dice, shape_of(words))
        texts = [words] + [carved(dice, codes, text, dice.pick((2, 8, 32))) for _ in range(count - 1)]
        rules = [(dice.pick((*CASED_EQUALITIES, AT_MOST)), number, number + 1) for number in range(1, count)]
        cases.book(texts, rules)
        cases.book(texts, rules[::-1])
    # Long texts with blanks, equal but for those at the end.
    for _ in range(3):
        codes, words = large_shape(dice, (b" A", b" AB"))
        text = random_filling(dice, shape_of(words))
        texts = [words] + [carved(dice, codes, padded_anew(dice, text, 250), dice.pick((8, 32))) for _ in range(3)]
        cases.book(texts, [(EQUAL, 1, 2), (EQUAL, 3, 4), (EQUAL, 2, 3), (AT_MOST, 1, 4)])
        cases.book(texts, [(EQUAL, 1, 2), (EQUAL, 1, 3), (EXACT, 2, 3)])
    # The most blocks, with and without rules.
    full = [block([number % 2], 0, 7) * MOST_BLOCKS for number in range(MOST_TEXTS)]
    cases.book(full, [])
    cases.book(full, [(BEFORE, number, number + 1) for number in range(1, 3)])
    cases.book([many_blocks(32, 250)] * 2, [(BEFORE, 1, 2), (AT_MOST, 1, 2)])
    # Joins of the most blocks, and of all texts at once.
    cases.book([many_blocks(32, 250), many_blocks(32, 125), many_blocks(32, 125)], [(JOIN, 1, 2, 3)])
    threes = [block([number % 2], 0, 3) * MOST_BLOCKS for number in range(MOST_TEXTS)]
    cases.book(threes, [(JOIN, 1, 3, 5), (JOIN, 2, 4, 6), (BEFORE, 1, 2)])
    cases.book(threes, [(JOIN, 1, 2, 3), (JOIN, 8, 7, 6)])
    for _ in range(2):
        codes = dice.pick((b"AB", b"ABC"))
        front, back = (shared_out(dice, codes, dice.pick((8, 32)), 125) for _ in range(2))
        text = random_filling(dice, shape_of(front)) + random_filling(dice, shape_of(back))
        texts = [front, carved(dice, codes, text, 32), back, carved(dice, codes, text, 8)]
        cases.book(texts, [(JOIN, 2, 1, 3), (EQUAL, 2, 4)])
        cases.book(texts, [(EQUAL, 2, 4), (AT_MOST, 2, 4), (JOIN, 2, 1, 3), (JOIN, 4, 1, 3)])


FAR = (2**8, 2**32, 2**62, 2**63, 2**64 - 1)


def count_cases(cases):
    """Counts that are wrong (6), each also where blocks, rules and work are wrong too."""
    good = block([0], 0, 3)
    bad = block([0], 2, 1)
    wrong = []
    wrong.append(([], [], []))
    wrong.append(([], good, []))
    for texts in (9, 10, 16, 20):
        wrong.append(([1] * texts, good * texts, []))
    for count in (0, 33, 34, *FAR):
        wrong.append(([count], good * min(count, 34), []))
        wrong.append(([1, count], good * (1 + min(count, 34)), []))
        wrong.append(([count, 1], good, []))
    # Sums, fourfolds and sixfolds that would wrap.
    wrong.append(([2**64 - 1, 2], good, []))
    wrong.append(([2**63, 2**63], [], []))
    wrong.append(([2**62, 1], good, []))
    wrong.append(([2**62 + 1], good, []))
    wrong.append(([2**64 - 4, 2, 3], good, []))
    wrong.append(([2**63 + 1], good, []))
    wrong.append(([2**63], [], []))
    wrong.append(([2**64 // 6 + 1], good[:2], []))
    # Whole blocks of four numbers, as they once were.
    for length in (4, 8, 16):
        wrong.append(([length // 4], (good * 3)[:length], []))
    for length in (0, 1, 5, 6, 7, 11, 13, 17, 18):
        wrong.append(([2], (good * 3)[:length], []))
        wrong.append(([1, 1], (good * 3)[:length], []))
    wrong.append(([32] * 8, good * 257, []))
    wrong.append(([32] * 8, good * 255, []))
    for length in (1, 2, 3, 5, 6, 7, 9, 15, 18, 51, 54, 62, 63, 65, 66, 67, 68, 72):
        wrong.append(([1, 1], good * 2, ([0, 1, 2, 0] * 18)[:length]))
    # Triples, as rules once were: of 3, 6, 9 and 51 numbers they are no fours, of 12 and 48 they are other rules.
    for count in (1, 2, 3, 4, 16, 17):
        wrong.append(([1, 1], good * 2, [0, 1, 2] * count))
        wrong.append(([1, 1, 1], good * 3, [3, 1, 2] * count))
    for counts, words, rules in wrong:
        cases.lent(counts, words, rules)
        if len(words) < 25 * BLOCK_SIZE:
            blocks = bad + words[BLOCK_SIZE:] if len(words) >= BLOCK_SIZE else words
            cases.lent(counts, blocks, rules or [3, 0, 0, 0], WORK_WANTED - 1)
    # Right ones at the limits, so that it is seen what is refused.
    cases.lent([1] * 8, good * 8, [0, 1, 2, 0] * 16)
    cases.lent([1] * 8, good * 8, [4, 1, 2, 0] * 16)
    cases.lent([1] * 8, good * 8, [3, 1, 2, 3] * 16)
    cases.lent([32], good * 32, [])
    cases.lent([32, 1, 32], good * 65, [0, 1, 2, 0])


def shape_cases(cases):
    """Bad blocks (2, 10, 11) and totals over 250 (3), text by text, before rules and work."""
    good = block([0], 0, 3)
    bad = block([0], 2, 1)
    heavy = block([0], 0, 200)
    rule, wrong = (EQUAL, 1, 2), (3, 0, 0)
    for number, unsound in enumerate(unsound_blocks()):
        cases.book([good, good + unsound], [rule] if number % 2 else [wrong], WORK_WANTED if number % 3 else 0)
    for text in range(1, 9):
        texts = [good] * 8
        texts[text - 1] = good * 2 + bad
        cases.book(texts, [rule])
        texts[text - 1] = heavy * 2
        cases.book(texts, [rule])
        texts[7] = bad
        cases.book(texts, [wrong], 0)
    # The first bad text and its first bad block decide, whatever is wrong with those behind.
    for shape in TWO_BAD:
        cases.book([good, shape], [rule])
        cases.book([good + shape[:BLOCK_SIZE], shape[BLOCK_SIZE:], good], [wrong], 0)
    for unsound in ONE_EACH:
        cases.book([good, heavy * 2 + unsound], [rule])
        cases.book([heavy * 2, unsound], [rule])
        cases.book([good, unsound, heavy * 2], [wrong], 0)
    for texts in (
        [heavy * 2, bad],
        [bad, heavy * 2],
        [good, heavy * 2, bad],
        [heavy * 2 + bad, good],
        [heavy + bad + heavy, bad],
        [good * 3, good + bad + bad],
        [many_blocks(32, 250), many_blocks(32, 251)],
        [many_blocks(32, 251), many_blocks(32, 250)],
    ):
        for rules in ([], [rule], [wrong]):
            for work in (WORK_WANTED, WORK_WANTED - 1):
                cases.book(texts, rules, work)


def rule_cases(cases):
    """Wrong rules (7), the first of them named, before the work buffer. Of those asked the second one is right."""
    texts = [block([0], 0, 3), block([0, 1], 1, 2), block([1], 0, 4)]
    good = (AT_MOST, 1, 2)
    asked = [(3, 1, 2), (ANY_CASE, 1, 2), (EQUAL, 0, 1), (EQUAL, 1, 0), (EQUAL, 4, 1), (EQUAL, 1, 4), (EQUAL, 0, 0)]
    asked += [(kind, text, text) for kind in KINDS for text in (1, 2, 3)]
    asked += [(far, 1, 2) for far in FAR] + [(0, far, 2) for far in FAR] + [(0, 1, far) for far in FAR]
    for far in FAR[:-1]:
        asked += [(far + 1, 1, 2), (far + 4, 1, 2), (0, far + 1, 2), (2, 1, far + 2), (4, far + 2, 1)]
    asked += [(0, far, far) for far in FAR]
    asked += [(EXACT, 0, 1), (EXACT, 1, 0), (EXACT, 4, 1), (EXACT, 1, 4)]
    for rule in asked:
        cases.book(texts, [rule])
        cases.book(texts, [good, rule, rule], WORK_WANTED - 1)
        cases.book(texts, [good] * 15 + [rule])
    # A rule is wrong even behind one that says none.
    none = [block([0], 1, 1), block([1], 1, 1)]
    cases.book(none, [(EQUAL, 1, 2), (EQUAL, 1, 1)])
    cases.book(none, [(EQUAL, 1, 2), (EQUAL, 2, 1)])
    for place in range(1, 17):
        cases.book(none, [(AT_MOST, 1, 2)] * (place - 1) + [(EQUAL, 2, 3)] + [(7, 1, 2)] * (16 - place))
    cases.book(texts[:1], [(EQUAL, 1, 2)])
    cases.book(texts[:1], [(EQUAL, 1, 1)])
    cases.book(texts, [good], WORK_WANTED - 1)
    cases.book(texts, [good], 0)


def asked_joins():
    """Joins and other rules that are wrong by their fourth number, or by a join's texts, in a book of four texts; and
    one that is right, before the kinds that are none."""
    joins = [(JOIN, *texts) for texts in product(range(4), repeat=3) if 0 in texts or len({*texts}) < 3]
    yield from (rule for at, rule in enumerate(joins) if at % 3 == 0)
    yield from ((JOIN, 5, 1, 2), (JOIN, 1, 5, 2), (JOIN, 1, 2, 5), (JOIN, 1, 2, 9), (JOIN, 5, 5, 5))
    for far in FAR:
        yield from ((JOIN, 1, 2, far), (JOIN, 1, far, 2), (JOIN, far, 1, 2), (JOIN, far, far, far))
        yield from ((kind, 1, 2, far) for kind in CASED_KINDS)
    # What a narrower number would take for 3, for 4, or for a text.
    for far in FAR[:-1]:
        yield from ((JOIN, 1, 2, far + 3), (JOIN, 1, far + 2, 3), (far + 3, 1, 2, 3), (far + 3, 1, 2, 0))
        yield from ((far + 4, 1, 2, 0), (EXACT, 1, 2, far + 4), (ANY_CASE, 1, 2, far), (far + 5, far, far, 0))
    for kind in (*KINDS, 6, 7):
        yield from ((kind, 1, 2, fourth) for fourth in (1, 2, 3, 4, 5, 9))
    yield from ((ANY_CASE, 1, 2, 0), (6, 1, 2, 0), (7, 1, 2, 0), (8, 1, 2, 0), (2**64 - 1,) * RULE_SIZE)


def join_rule_cases(cases):
    """Wrong joins (7), and texts too long to be joined (12), which is tried right after 7 for each rule."""
    texts = [block([0], 0, 3), block([0, 1], 1, 2), block([1], 0, 4), block([0], 0, 1)]
    good = (JOIN, 1, 2, 3)
    for at, rule in enumerate(asked_joins()):
        cases.book(texts, [rule], WORK_WANTED if at % 2 else 0)
        if at % 3 == 0:
            cases.book(texts, [good] * (at % 15) + [(AT_MOST, 1, 2), rule])
    cases.book(texts[:2], [(JOIN, 1, 2, 3)])
    cases.book(texts[:1], [(JOIN, 1, 1, 1)])
    small, bad, heavy = block([0], 0, 3), block([0], 2, 1), block([0], 0, 200)
    for front, back in TOGETHER:
        book = [small, block([0], 0, front), block([0, 1], 0, back)]
        cases.book(book, [good])
        cases.book(book, [(JOIN, 1, 3, 2)], WORK_WANTED - 1)
        # The whole may be as long as it likes, and other kinds do not ask.
        cases.book(book, [(EQUAL, 2, 3), (BEFORE, 1, 2)])
        cases.book(book, [(JOIN, 2, 1, 1)])
    cases.book([block([0], 0, 250), small, small], [good])
    cases.book([small, block([0], 0, 250), block((), 0, 0)], [good])
    cases.book([small, many_blocks(32, 125), many_blocks(4, 126)], [good])
    # The first rule decides, whether it is wrong or too long; a rule that is both is wrong.
    long = [small, block([0], 0, 126), block([0], 0, 125), small]
    over, wrong = good, (JOIN, 1, 2, 9)
    for rules in (
        [over, wrong], [wrong, over], [over, over], [(JOIN, 1, 4, 2), over, wrong], [(EQUAL, 1, 2, 3)],
        [(JOIN, 2, 2, 3)], [(JOIN, 2, 3, 3)], [(EXACT, 1, 2, 3)], [(JOIN, 0, 2, 3), over], [(JOIN, 5, 2, 3)],
        [(ANY_CASE, 1, 2, 3)], [(EXACT, 1, 4), over], [over, (ANY_CASE, 1, 2)],
        [(EQUAL, 1, 1), over], [over, (EQUAL, 1, 1)], [(JOIN, 4, 1, 2), (JOIN, 4, 3, 2), (7, 7, 7, 7)],
    ):
        for work in (WORK_WANTED, WORK_WANTED - 1):
            cases.book(long, rules, work)
    for place in range(1, 17):
        cases.book(long, [(AT_MOST, 1, 4)] * (place - 1) + [over] + [wrong] * (16 - place), place % 2 * WORK_WANTED)
    # It is about the shapes entered: that a rule would make them short, or says none, does not help.
    cases.book(long, [(EQUAL, 2, 4), over])
    cases.book([*long[:3], block([1], 1, 1)], [(EQUAL, 2, 4), over])
    cases.book([block([0], 0, 250), *long[1:]], [(BEFORE, 1, 4), (JOIN, 1, 2, 3)])
    # Counts, blocks and totals come before it.
    cases.book([*long[:3], bad], [over])
    cases.book([*long[:3], heavy * 2], [over], 0)
    cases.book([small, block([0], 0, 2**64 - 1), block([0], 0, 2)], [good])
    cases.book([small, heavy * 2, block([0], 0, 2)], [good])
    cases.lent([1] * 4, [word for text in long for word in text], [3, 1, 2, 3] * 17)
    cases.lent([1] * 4, [word for text in long for word in text], [3, 1, 2, 3, 3])
    cases.lent([1] * 4, [word for text in long for word in text], [3, 1, 2, 3] * 16)


# A rule of each kind, and all texts that they name but the last.
NEWTON, EITHER, CAPITALS = "N1..1 m1..1", "{N,n}1..1 {M,m}1..1", "N1..1 M1..1"
FIELD = CAPITALS + " { }3..3"
EACH_KIND = [(JOIN, 1, 2, 3), (ANY_CASE, 3, 4), (EXACT, 4, 5), (EQUAL, 5, 6), (AT_MOST, 2, 7), (BEFORE, 7, 8)]
THEIR_TEXTS = ["{0..9,A..Z,a..z}2..9", "{3..9}1..1", EITHER, "{A..Z}2..4", "{L..N}1..3", FIELD, "{4..6}1..1"]

# Books with letters in both cases: texts, rules, the texts at the end and the applications, as they are found by hand.
CASED = (
    ([NEWTON, "{A..Z}2..2"], [(ANY_CASE, 1, 2)], [NEWTON, "{M,N}2..2"], 2),
    ([NEWTON, "{A..Z}2..2"], [(EXACT, 1, 2)], None, 1),
    ([NEWTON, "{A..Z}2..2"], [(EQUAL, 1, 2)], None, 1),
    (["{@,A}1..1", "{`,a}1..1"], [(ANY_CASE, 1, 2)], ["A1..1", "a1..1"], 2),
    # Each text keeps its own case; exactly equal, it takes the other's.
    ([NEWTON, EITHER, CAPITALS], [(ANY_CASE, 1, 2), (ANY_CASE, 2, 3)], [NEWTON, EITHER, CAPITALS], 2),
    ([NEWTON, EITHER, CAPITALS], [(ANY_CASE, 1, 2), (EXACT, 2, 3)], [NEWTON, CAPITALS, CAPITALS], 4),
    (["N1..1", "n1..1", "{N,n}1..1"], [(ANY_CASE, 1, 2), (ANY_CASE, 2, 3), (ANY_CASE, 3, 1)],
     ["N1..1", "n1..1", "{N,n}1..1"], 3),
    (["N1..1", "n1..1", "{N,n}1..1"], [(ANY_CASE, 1, 2), (ANY_CASE, 2, 3), (EXACT, 3, 1)],
     ["N1..1", "n1..1", "N1..1"], 6),
    (["N1..1", "{m,n}1..1", "M1..1"], [(ANY_CASE, 1, 2), (ANY_CASE, 2, 3)], None, 2),
    (["{N,n}1..1", "n1..1"], [(ANY_CASE, 1, 2), (EXACT, 1, 2)], ["n1..1", "n1..1"], 4),
    # Padding counts, unless another rule says that it does not.
    (["N1..1 { }1..1", "n1..1"], [(ANY_CASE, 1, 2)], None, 1),
    (["n1..1 { }2..2", "{N,n}1..1", "{M..O}1..1"], [(EQUAL, 1, 2), (ANY_CASE, 2, 3)],
     ["n1..1 { }2..2", "n1..1", "N1..1"], 4),
    (["n1..1 { }0..2", "{N,n}1..1 { }1..9"], [(EQUAL, 1, 2), (ANY_CASE, 1, 2)],
     ["n1..1 { }1..2", "n1..1 { }1..2"], 4),
    # A text can come before another that it equals in any case; exactly equal it cannot.
    (["{N,n}1..1"] * 2, [(ANY_CASE, 1, 2), (BEFORE, 1, 2)], ["N1..1", "n1..1"], 4),
    (["{N,n}1..1"] * 2, [(EXACT, 1, 2), (BEFORE, 1, 2)], None, 3),
    (["{N,n}1..1"] * 2, [(ANY_CASE, 1, 2), (BEFORE, 1, 2), (BEFORE, 2, 1)], None, 3),
    (["{A,a}0..2"] * 2, [(ANY_CASE, 1, 2), (AT_MOST, 2, 1)], ["{A,a}0..2"] * 2, 2),
    (["{A,a}2..2", "a2..2"], [(ANY_CASE, 1, 2), (BEFORE, 1, 2)], ["{A,a}2..2", "a2..2"], 2),
    (["N0..5", "n0..5"], [(ANY_CASE, 1, 2), (BEFORE, 1, 2)], ["N1..5", "n1..5"], 6),
    (["N0..5", "n0..5"], [(ANY_CASE, 1, 2), (BEFORE, 2, 1)], None, 3),
    # A unit joined to its number.
    (["{0..9,A..Z}3..3", "{0..9}1..2", EITHER, "n1..1 m1..1"], [(JOIN, 1, 2, 3), (ANY_CASE, 3, 4)],
     ["{0..9,M,N}3..3", "{0..9}1..1", CAPITALS, "n1..1 m1..1"], 4),
    (["{0..9,A..Z}3..3", "{0..9}1..2", EITHER, "n1..1 m1..1"], [(JOIN, 1, 2, 3), (EXACT, 3, 4)], None, 2),
    # Every kind at once.
    ([*THEIR_TEXTS, "51..1"], EACH_KIND,
     ["{3,4,M,N,m,n}3..3", "{3,4}1..1", EITHER, "{M,N}2..2", "{M,N}2..2", FIELD, "41..1", "51..1"], 24),
    ([*THEIR_TEXTS, "41..1"], EACH_KIND, None, 6),
)


def any_case_cases(cases):
    for texts, rules, final, applications in CASED:
        hold_run_to_answer("letters in both cases, found by hand", texts, rules, final, applications)
        texts = [written(text) for text in texts]
        every_order(cases, texts, rules)
        shapes, fours = [shape_of(text) for text in texts], [four(rule) for rule in rules]
        end = run(shapes, fours)[0]
        for order in permutations(fours):
            agree("the order of rules", (shapes, fours), run(shapes, list(order))[0], end)
    # As long as may be, and the most blocks.
    texts = ["N250..250", "n0..250", "{N,n}0..125 N0..125", "N0..7 " * 31 + "n0..33"]
    for rules in ([(ANY_CASE, 1, 2), (ANY_CASE, 2, 3)], [(ANY_CASE, 3, 4), (EXACT, 2, 3), (ANY_CASE, 4, 1)]):
        every_order(cases, [written(text) for text in texts], rules)
    for work in (0, WORK_WANTED - 1, WORK_WANTED, WORK_WANTED + 1, LONGEST_WORK):
        cases.book([written(NEWTON), written("{A..Z}2..2")], [(ANY_CASE, 1, 2)], work)
        cases.book([written(NEWTON), written("n1..1")], [(ANY_CASE, 1, 2)], work)


def any_case_rule_cases(cases):
    """Kind 5 is right where kind 4 is, and wrong (7) where it is; kinds 6 and up are wrong."""
    texts = [written("{N,n}0..3"), written("n1..1 N0..1"), written("N0..4")]
    good = (ANY_CASE, 1, 2)
    wrong = [(ANY_CASE, 1, 1), (ANY_CASE, 0, 1), (ANY_CASE, 1, 0), (ANY_CASE, 4, 1), (ANY_CASE, 1, 4), (6, 1, 2)]
    wrong += [(ANY_CASE, 1, 2, fourth) for fourth in (1, 2, 3, 4, 5, *FAR)]
    wrong += [(far + 5, 1, 2) for far in FAR[:-1]] + [(ANY_CASE, far + 1, 2) for far in FAR[:-1]]
    for at, rule in enumerate(wrong):
        cases.book(texts, [rule], WORK_WANTED - at % 2)
        cases.book(texts, [good] * (at % 16) + [rule])
    cases.book(texts, [good] * MOST_RULES)
    cases.book(texts, [good] * (MOST_RULES - 1) + [(6, 1, 2)])
    # It is right, so that what is behind it decides; it does not ask how long its texts are.
    long = [written(text) for text in ("N0..3", "n0..126", "{N,n}0..125")]
    cases.book(long, [(ANY_CASE, 2, 3)])
    cases.book(long, [(ANY_CASE, 2, 3), (JOIN, 1, 2, 3)])
    cases.book(long, [(ANY_CASE, 2, 3), (7, 2, 3)])


def any_case_book(dice, alphabets=CASE_ALPHABETS):
    """Texts over one alphabet, one of them in several spellings, and rules of every kind, most of which are kept."""
    codes = dice.pick(alphabets)
    stem = random_text(dice, codes, dice.between(1, 3))
    stems = [recased(dice, stem) for _ in range(dice.between(2, 4))]
    rules = []
    if dice.below(3) == 0:
        front, back = two_of(dice, len(stems))
        stems.append(stems[front - 1] + stems[back - 1])
        rules.append((JOIN, len(stems), front, back))
    for _ in range(dice.pick((1, 2, 3, 4, 6))):
        one, other = two_of(dice, len(stems))
        kinds = [kind for kind in KINDS if HOLDS[kind](stems[one - 1], stems[other - 1])]
        rules.append((dice.pick(kinds if kinds and dice.below(8) else KINDS), one, other))
    return [carved(dice, codes, stem, dice.between(1, 3)) for stem in stems], shuffled(dice, rules)


def any_case_random_cases(cases):
    dice = Dice(34)
    for number in range(56):
        if number % 7 < 2:
            texts, rules = chain_book(dice, (b"Aa", b"Nn", b"@A", b"Zz"), (ANY_CASE,), (ANY_CASE,))
        else:
            texts, rules = any_case_book(dice)
        cases.book(texts, rules)
        if number % 4 == 0 and len(rules) > 1:
            cases.book(texts, shuffled(dice, rules))
    for _ in range(2):
        codes, words = large_shape(dice, (b"Aa", b" MNmn"))
        text = random_filling(dice, shape_of(words))
        texts = [words] + [carved(dice, codes, recased(dice, text), dice.pick((8, 32))) for _ in range(3)]
        cases.book(texts, [(ANY_CASE, 1, 2), (ANY_CASE, 3, 4), (ANY_CASE, 2, 3)])
        cases.book(texts, [(ANY_CASE, 1, 2), (ANY_CASE, 1, 3), (EXACT, 2, 3), (AT_MOST, 1, 4)])


# Books with codes above 127: texts, rules, the texts at the end and the applications, as they are found by hand. µ has
# its bit where 5, u and õ have theirs in other numbers of a base.
DEGREES = ["{0..9,C,°}2..5", "{0..9}1..3", "°0..1 C1..1"]
RISING = ["z1..1", "¿1..1", "À1..1", "ÿ1..1"]
HIGH = (
    (["{a,ä}1..2", "{ä,ö}1..1"], [(EXACT, 1, 2)], ["ä1..1", "ä1..1"], 2),
    (["µ1..1", "{5,u,õ}1..1"], [(EXACT, 1, 2)], None, 1),
    (["{5,u,µ,õ}1..1", "{4..6,µ}1..2", "{u,µ}0..3"], [(EQUAL, 1, 2), (ANY_CASE, 2, 3)], ["µ1..1"] * 3, 6),
    (["Ä1..1", "ä1..1"], [(ANY_CASE, 1, 2)], None, 1),
    (["{N,Ä}1..1", "{n,ä}1..1"], [(ANY_CASE, 1, 2)], ["N1..1", "n1..1"], 2),
    (["a1..1 {\xa0}0..1 { }0..2", "a1..1"], [(EQUAL, 1, 2)], ["a1..1 empty 0..0 { }0..2", "a1..1"], 2),
    (RISING, [(BEFORE, 1, 2), (BEFORE, 2, 3), (BEFORE, 3, 4)], RISING, 3),
    (RISING, [(BEFORE, 1, 2), (BEFORE, 3, 2), (BEFORE, 3, 4)], None, 2),
    (RISING, [(AT_MOST, 2, 4), (AT_MOST, 3, 1)], RISING, [(1, "none", 1), (2, "stable", 1)]),
    (["{¿,À}1..1", "{À,Á}1..1", "{¿..Á}1..1"], [(BEFORE, 2, 3), (AT_MOST, 3, 2)],
     ["{¿,À}1..1", "{À,Á}1..1", "{¿..Á}1..1"], [(1, "stable", 0), (2, "none", 2)]),
    (["{¿,À}1..1", "{À,Á}1..1", "{¿..Á}1..1"], [(BEFORE, 2, 3), (AT_MOST, 1, 2)], ["{¿,À}1..1", "À1..1", "Á1..1"], 4),
    (DEGREES, [(JOIN, 1, 2, 3)], DEGREES, 1),
    ([*DEGREES, "C1..1 { }2..2"], [(JOIN, 1, 2, 3), (EQUAL, 3, 4)],
     ["{0..9,C}2..4", "{0..9}1..3", "empty 0..0 C1..1", "C1..1 { }2..2"], 6),
    ([*DEGREES, "°1..1"], [(JOIN, 1, 2, 3), (AT_MOST, 4, 3)],
     ["{0..9,C,°}3..5", "{0..9}1..3", "°1..1 C1..1", "°1..1"], 6),
)


def high_cases(cases):
    for texts, rules, final, applications in HIGH:
        hold_run_to_answer("codes above 127, found by hand", texts, rules, final, applications)
        every_order(cases, [written(text) for text in texts], rules)
    # Each code beside those with its bit in another number of a base, and beside its neighbours.
    for at, code in enumerate(WORD_ENDS):
        texts = [block(base, 0, 2) for base in ((code, code ^ 64), (code, code ^ 128), (code - 1, code), ALL_CODES)]
        kind = EQUALITIES[at % len(EQUALITIES)]
        cases.book(texts, [(kind, 1, 2), (BEFORE, 3, 1), (AT_MOST, 4, 3)])
        cases.book([*texts[:3], block([code], 1, 1)], [(JOIN, 1, 3, 4), (kind, 1, 2)])
    good = block([128], 0, 3)
    for at, bad in enumerate(high_unsound_blocks()):
        cases.book([good, good + bad], [(EQUAL, 1, 2)], WORK_WANTED if at % 2 else 0)
    dice = Dice(35)
    for number in range(54):
        if number % 3 == 0:
            texts, rules = chain_book(dice, HIGH_ALPHABETS[:7], KINDS, EQUALITIES)
        else:
            texts, rules = any_case_book(dice, HIGH_ALPHABETS + HIGH_CASE_ALPHABETS)
        cases.book(texts, rules)
        if number % 6 == 1 and len(rules) > 1:
            cases.book(texts, shuffled(dice, rules))
    # The most blocks, with codes of all numbers of a base.
    full = [block([63 + 64 * (number % 4)], 0, 7) * MOST_BLOCKS for number in range(MOST_TEXTS)]
    cases.book(full, [(BEFORE, 1, 2), (AT_MOST, 4, 3)])


def merged_books(tables, step=1):
    """Books found by hand, each together with the next one that there is room for; and the same with other names."""
    books = [([written(text) for text in texts], rules) for texts, rules, _, _ in tables]
    for at in range(0, len(books), step):
        for other in books[at + 1 :]:
            texts, rules = merged(books[at], other)
            if len(texts) <= MOST_TEXTS and len(rules) <= MOST_RULES:
                yield texts, rules
                numbers = [*range(1, len(texts) + 1)]
                order = (numbers[::-1], numbers[1::2] + numbers[::2], numbers[2:] + numbers[:2])[at % 3]
                yield with_names(texts, rules, order)[:2]
                break


DRAWS = (chain_book, chain_book, random_book, join_book, any_case_book)


def group_cases(cases):
    """Books of several groups, those of two houses that become one among them, and those refused for one of them."""
    for texts, rules in group_books():
        cases.book(texts, rules)
    for texts, rules in merged_books(PADDED + CASED + HIGH):
        cases.book(texts, rules)
    for texts, rules, work in refused_books():
        cases.book(texts, rules, work)
    dice = Dice(36)
    for _ in range(140):
        cases.book(*drawn_book(dice, DRAWS))


def high_book(dice):
    return any_case_book(dice, HIGH_ALPHABETS + HIGH_CASE_ALPHABETS)


def further_threes():
    """The books of further.py in threes."""
    return all_threes((*DRAWS, high_book), PADDED + CASED + HIGH)


def further_cases(cases):
    """Books, the same with further rules, and what the first leave, all of it again and each stable group by itself.
    A case that is there already is not made again."""
    known = {*cases.lines}
    for before, after, work in further_threes():
        for texts, rules in (before, after, again(before), *apart(before)):
            line = book_line(texts, rules, work)
            if line not in known:
                known.add(line)
                cases.lines.append(line)


def all_cases():
    hold_to_example()
    cases = Cases()
    picked_cases(cases)
    round_cases(cases)
    count_cases(cases)
    shape_cases(cases)
    rule_cases(cases)
    random_cases(cases)
    join_cases(cases)
    padded_cases(cases)
    join_rule_cases(cases)
    random_join_cases(cases)
    large_cases(cases)
    any_case_cases(cases)
    any_case_rule_cases(cases)
    any_case_random_cases(cases)
    high_cases(cases)
    group_cases(cases)
    return cases.lines


def hold_to_room(lines):
    hold_numbers_to_room(lines, MOST_NUMBERS)
    if any(int(line.split(" ")[1], 16) > LONGEST_WORK for line in lines):
        raise AssertionError("a work buffer that is too long")
