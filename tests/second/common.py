"""The earliest common text of two shapes: document 02, order 2.

Two methods, held to each other. Where fillings are few, all texts of both shapes are looked at in their
order. Otherwise, for each two states in which a filling of the first and one of the second can be, the
least text that completes both is worked out, from the ends back.
"""

from functools import lru_cache

from base import OUTPUT_WANTED, text_shown
from bounds import bound, fits
from making import (
    OLD_SHAPES, Dice, block, carved, counted, drawn_high_pairs, edge_pairs, hexes, high_pairs, hold_numbers_to_room,
    large_pair, lists_read, numbers_read, refused_pairs, small_blocks, small_pair, written,
)
from narrow import FEW_NUMBERS, TABLE, work_shown
from pairs import EXACT, narrowed
from shapes import (
    FEW_FILLINGS, MOST_BLOCKS, MOST_CHARACTERS, WORK_WANTED, Refused, agree, all_texts, fillings, pair_of, shape_of,
)
from sweep import places

# Two shapes by chance with at most so many fillings each.
SMALL_FILLINGS = 600

# What the program has room for.
LONGEST_OUTPUT = 300
LONGEST_WORK = 70_000


# All texts in their order.


def earliest_by_texts(first, second):
    """The first text of both, or None."""
    others = all_texts(second)
    # Python orders byte strings as 003 orders texts.
    return next((text for text in sorted(all_texts(first)) if text in others), None)


# By states. A state (number, count) says that `count` characters of block `number` are laid, as in
# bounds.py. A row belongs to a state of the first shape. It holds, for each state of the second, the
# least text that completes both fillings, or None: nothing if both are complete, else what is left
# once a run is ended, or a character that both blocks hold and then the least text of what remains.


def row_of(starts, second, firsts, ended, grown):
    """The row of a state: `ended` is the row once its run is ended, `grown` the row with one character more, each None
    if that may not be; `firsts` has the least character that it shares with each block of the second shape, or None."""
    row = list(ended or [None] * (starts[-1] + 1))
    for number in reversed(range(len(second))):
        _, lower, upper = second[number]
        start, next_block, first = starts[number], row[starts[number + 1]], firsts[number]
        for at in reversed(range(start, start + upper + 1)):
            if next_block is not None and at - start >= lower and (row[at] is None or next_block < row[at]):
                row[at] = next_block
            if grown and first is not None and at - start < upper and grown[at + 1] is not None:
                text = first + grown[at + 1]
                if row[at] is None or text < row[at]:
                    row[at] = text
    return row


def row_of_end(starts, second):
    """The row of the first shape's end: the second has to end as well, and no character may follow."""
    row = [None] * starts[-1] + [b""]
    for number in reversed(range(len(second))):
        _, lower, upper = second[number]
        for count in range(lower, upper + 1):
            row[starts[number] + count] = row[starts[number + 1]]
    return row


def earliest_by_states(first, second):
    starts = [0]
    for _, _, upper in second:
        starts.append(starts[-1] + upper + 1)
    ended = row_of_end(starts, second)
    for base, lower, upper in reversed(first):
        shared = [set(base) & set(other) for other, _, _ in second]
        firsts = [bytes([min(codes)]) if codes else None for codes in shared]
        grown = None
        for count in reversed(range(upper + 1)):
            grown = row_of(starts, second, firsts, ended if count >= lower else None, grown)
        # The row of the block's start is where the run before it is ended.
        ended = grown
    return ended[0]


# Both methods, and laws that hold whatever the shapes.


def few(first, second):
    return fillings(first) <= FEW_FILLINGS and fillings(second) <= FEW_FILLINGS


@lru_cache(maxsize=None)
def earliest(first, second):
    """The earliest common text, or None for none."""
    text = earliest_by_states(first, second)
    if few(first, second):
        agree("the earliest common text", (first, second), text, earliest_by_texts(first, second))
    return text


def hold_to_laws(first, second, text):
    pair = narrowed(first, second, EXACT)
    agree("none as in narrowing", (first, second), text is None, pair is None)
    if text is None:
        return
    for shape, other in ((first, second), (second, first)):
        if not fits(shape, text):
            raise AssertionError(f"a common text that does not fit: {shape}: {text}")
        # No common text lies before the least of a shape. Equal shapes have that one.
        least = bound(shape, False)
        if fits(other, least):
            agree("a least text that is common", (shape, other), text, least)
        elif text < least:
            raise AssertionError(f"a common text before the least: {shape}: {text}")
    if few(first, second):
        # Narrowing keeps the common texts, and equality has no sides.
        agree("common text once narrowed, and turned", (first, second), text, earliest(*reversed(pair)))


# The expected line of a case.


def expected_line(line):
    _, *numbers = line.split(" ")
    work, length, *numbers = numbers_read(numbers)
    words = lists_read(numbers, 2)
    text = None
    accepted = False
    try:
        shapes = pair_of(*words)
        if work < WORK_WANTED:
            raise Refused(4, 0, 0)
        if length < OUTPUT_WANTED:
            raise Refused(5, 0, 0)
        accepted = True
        text = earliest(*shapes)
        hold_to_laws(*shapes, text)
        head = "none" if text is None else f"text {len(text)} {text_shown(text)}"
    except Refused as refusal:
        head = refusal.line
    # No text ends with the filler, so that what follows the text is all that is untouched at the end.
    return f"{head} rest {length - len(text or b'')} {work_shown(work, accepted)}"


# Making cases.


class Cases:
    def __init__(self):
        self.lines = []

    def add(self, first, second, work=WORK_WANTED, length=OUTPUT_WANTED):
        self.lines.append(" ".join(["C", *hexes([work, length, *counted(first), *counted(second)])]))

    def both(self, first, second):
        self.add(first, second)
        if first != second:
            self.add(second, first)


# A line with the unit field, without one, and with one that may be missing.
TORQUE = "T1..1 {0..9}1..2 .1..1 {0..9}2..2 "
WITH_UNIT, WITHOUT_UNIT, UNIT_OPTIONAL = TORQUE + "N1..1 m1..1", TORQUE, TORQUE + "N0..1 m0..1"

# X, Y and the answer as it is found by hand. First document 01's rows of equality and its other pairs.
ANSWERS = (
    ("{a,b,c}0..3", "{b,c,d}2..2", "bb"),
    ("{a..c}0..30 d5..5 {c..f}0..2", "{b..d}26..26 f1..1", "b" * 21 + "d" * 5 + "f"),
    ("a1..1", "b1..1", None),
    ("a0..1", "b0..1", ""),
    ("a0..1 a0..1", "a1..1", "a"),
    ("a1..1", "c0..1 a1..1", "a"),
    ("a1..1", "a2..3", None),
    ("{a,b}3..4", "a2..3 c1..2 b1..1 c0..2 a3..4", None),
    ("a0..1 b1..1 a0..1", "b0..1 a2..2 b0..1", None),
    ("a0..10 d0..10 a1..10 d1..10", "a0..10 d0..10 a1..10 d1..10", "a" * 20 + "d"),
    ("a0..10 d0..10 a1..10 d1..10", "d0..10 a1..1 d0..10", "ad"),
    (WITH_UNIT, WITHOUT_UNIT, None),
    (WITH_UNIT, UNIT_OPTIONAL, "T0.00Nm"),
    (WITHOUT_UNIT, UNIT_OPTIONAL, "T0.00"),
    # The empty text, if both take it, and only then.
    ("empty 0..0", "empty 0..0", ""),
    ("empty 0..0", "a0..1", ""),
    ("empty 0..0", "a1..1", None),
    ("empty 0..0 empty 0..0", "a0..9 empty 0..0 b0..9", ""),
    ("{a,b}0..250", "{a,b}0..250", ""),
    ("a0..3", "a1..3", "a"),
    ("a0..3 b0..1", "b1..1", "b"),
    # One ends where the other may not yet.
    ("a0..9", "a5..9", "aaaaa"),
    ("a0..2 b0..2", "a2..2 b1..2", "aab"),
    ("{a,b}1..9", "a0..2 b2..2 a0..1", "aabb"),
    ("a1..1 empty 0..0 b0..2", "a0..1 b0..1 b1..1", "ab"),
    # A longer text that comes first, and one character more that does not.
    ("a0..3 b1..1", "a0..3 b1..1", "aaab"),
    ("b0..3 a1..1", "b0..3 a1..1", "a"),
    ("b0..3 a1..1", "{a,b}2..4", "ba"),
    ("a0..3 b1..1", "{a,b}1..9", "aaab"),
    ("a0..3 b1..1", "{a,b}1..3", "aab"),
    # One common text only; the greatest of both only.
    ("{a,b}0..2", "a0..1 b2..2", "bb"),
    ("{a..c}2..2", "{c..e}0..1 c1..1", "cc"),
    ("a0..3 b0..3", "b3..3 a0..3", "bbb"),
    ("{a..c}1..1 {a..c}1..1", "{a,c}0..1 b0..1 a0..2 c1..1", "ac"),
    # The least character that both may begin with leads nowhere.
    ("{a,b}2..2", "a0..1 b2..2", "bb"),
    ("{a,b}1..1 c1..1", "a1..1 d1..1", None),
    ("{a,b}1..1 c0..1 d0..1", "a0..1 b1..1 c1..1", "bc"),
    ("{a,b,c}1..1 {a,b}1..1", "{a,b}0..1 c1..1 b1..1", "cb"),
    ("a0..2 b1..1 c1..1", "a0..1 b0..2 c1..1", "abc"),
    # Only later does it lead nowhere.
    ("a50..50 {a,b}2..2", "a50..51 b2..2", "a" * 50 + "bb"),
    ("a9..9 {b,c}1..1 d1..1", "a9..9 b0..1 c1..1 d1..1", "a" * 9 + "cd"),
    # The least text of the narrowed shapes is not common.
    ("{a,b}2..2", "a0..1 b1..1 a0..1", "ab"),
    ("a0..1 b1..1 a0..1", "{a,b}0..2", "ab"),
    ("{a,b}1..1 {a,b}1..1", "b0..1 a1..1 b0..1", "ab"),
    ("a0..2 b0..2 a0..2", "{a,b}3..3", "aaa"),
    ("a0..2 b0..2 c0..1", "{a,b,c}3..3", "aab"),
    # Many ways to one text.
    ("a0..125 a0..125", "a200..200", "a" * 200),
    ("a0..125 a0..125", "a250..250", "a" * 250),
    ("a0..125 a0..125", "a0..99 a100..151", "a" * 100),
    ("a0..83 a0..83 a0..84", "a0..1 a100..100 a0..149", "a" * 100),
    ("a0..125 a0..125", "a100..124 b1..1", None),
    ("a0..125 {a,b}0..125", "a100..124 b1..1", "a" * 124 + "b"),
    ("a0..100 b0..1 a0..100", "a50..50 {a,b}1..1 a99..99 b0..1", "a" * 150),
    ("a0..100 b0..1 a0..100", "a50..50 b0..1 a151..151", None),
    ("a0..100 b0..1 a0..100", "a50..50 b0..1 a150..151", "a" * 200),
    # Of 250 characters.
    ("{a,b}250..250", "{b,c}250..250", "b" * 250),
    ("{a,b}250..250", "{a,b}249..249", None),
    ("{a,b}249..250", "{a,b}249..249", "a" * 249),
    ("{a,b}125..125 {c,d}125..125", "{b..d}250..250", "b" * 125 + "c" * 125),
    ("{a,b}125..125 {c,d}125..125", "{a..c}124..124 {d..f}126..126", None),
    # Blanks at the end count as all characters do.
    ("{ }1..1", "empty 0..0", None),
    ("{ }0..3", "{ }2..9", "  "),
    ("a1..1 { }1..1", "a1..1", None),
    ("a1..1 { }4..4", "a1..1 { }0..9", "a    "),
    ("a1..1 { }4..4", "a1..1 { }5..9", None),
    ("{a, }2..2", "a1..1 { }0..1 a0..1", "a "),
    ("{ }0..9 a1..1", "{ }0..9 a1..1 { }0..1", " " * 9 + "a"),
    # Latin letters and signs; µ has its bit where 5, u and õ have theirs in other numbers of a base.
    ("{a,ä}1..2", "{ä,ö}1..1", "ä"),
    ("{a..ÿ}2..2", "{~,ÿ}0..1 {é..ÿ}1..1", "~é"),
    ("°0..1 C1..1", "{C,°}1..2", "C"),
    ("°0..1 C1..1", "{C,°}2..2", "°C"),
    ("µ1..1", "{5,u,õ}1..1", None),
    ("{5,u,µ,õ}2..2", "{u,µ}1..1 {µ,õ}1..1", "uµ"),
    ("{\x7f,\x80}1..1", "{\x80,\x81}1..1", "\x80"),
    ("{¿,À}1..1", "{À,Á}0..2", "À"),
    ("Ä1..1", "ä1..1", None),
    ("{\xa0}0..3", "{\xa0}2..9 { }0..1", "\xa0\xa0"),
    ("{þ,ÿ}250..250", "ÿ0..250", "ÿ" * 250),
)


def answer_cases(cases):
    for first, second, answer in ANSWERS:
        first, second = written(first), written(second)
        found = earliest(*pair_of(first, second))
        agree("an answer found by hand", (first, second), found, answer if answer is None else answer.encode("latin-1"))
        cases.both(first, second)
    for _, first, second, _ in TABLE:
        cases.both(written(first), written(second))


def code_cases(cases):
    """Large bases, and the least and greatest codes of the first two numbers of a base."""
    whole = range(128)
    bases = [whole, range(1, 128), range(127), range(64), range(64, 128), (0, 127)]
    large = len(bases)
    bases += [(0,), (127,), (63, 64), (63,), (64,)]
    for base in bases:
        for other in bases:
            cases.add(block(base, 1, 2), block(other, 2, 3))
    for base in bases[:large]:
        cases.both(block(base, 250, 250), block(whole, 0, 250))
        cases.both(block(base, 0, 125) + block((127,), 1, 1), block(whole, 100, 126))
        cases.both(block(base, 0, 9) + block(whole, 9, 9) + block(base, 0, 9), block(whole, 1, 9) + block(base, 9, 99))
    # All codes occur, but no base has one of the other's; then bases that share some.
    evens, odds, thirds = (range(0, 128, 2), range(1, 128, 2), range(0, 128, 3))
    cases.both(block(evens, 1, 9), block(odds, 1, 9))
    cases.both(block(evens, 0, 9), block(odds, 0, 9))
    cases.both(block(evens, 3, 9) + block((127,), 1, 1), block(thirds, 4, 9) + block(whole, 1, 1))


def lent_cases(cases):
    """Work buffers and outputs too short, exact and longer, alone and together: 4 comes before 5."""
    sevens = "{A,B}0..7 " * MOST_BLOCKS
    pairs = (("a0..1 a0..1", "a1..1"), ("a1..1", "b1..1 a0..1"), ("a0..7", "b0..1"), (sevens, "B200..200"))
    for first, second in pairs:
        first, second = written(first), written(second)
        for work in (0, 1, WORK_WANTED - 1, WORK_WANTED, WORK_WANTED + 1, LONGEST_WORK):
            for length in (0, 1, OUTPUT_WANTED - 1, OUTPUT_WANTED, OUTPUT_WANTED + 1, LONGEST_OUTPUT):
                cases.add(first, second, work, length)
    for first, second in (("A250..250", "{A,B}0..250"), ("A249..249", "{A,B}0..250"), ("{a..z}0..250", "{a..z}0..250")):
        for length in (OUTPUT_WANTED - 1, OUTPUT_WANTED, OUTPUT_WANTED + 1, LONGEST_OUTPUT):
            cases.add(written(first), written(second), LONGEST_WORK, length)


def refusal_cases(cases):
    for at, (first, second) in enumerate(refused_pairs()):
        cases.add(first, second)
        if len(first) + len(second) <= FEW_NUMBERS:
            # Also with a work buffer and an output that are too short, which come last.
            work, length = ((0, 0), (WORK_WANTED - 1, OUTPUT_WANTED), (WORK_WANTED, OUTPUT_WANTED - 1))[at % 3]
            cases.add(first, second, work, length)


# What is to occur among small pairs, given both shapes and all their common texts in order.


def next_codes(texts, stem):
    """The characters that follow the stem in some of the texts."""
    return {text[len(stem)] for text in texts if text.startswith(stem) and text != stem}


def misled(first, second, text, start, end):
    """Whether at a place from start to end both shapes can go on with a smaller character than the text does."""
    for at in range(start, min(end, len(text))):
        if min(next_codes(all_texts(first), text[:at]) & next_codes(all_texts(second), text[:at])) < text[at]:
            return True
    return False


def one_text_only(first, second, common):
    return len(common) == 1 and min(len(all_texts(first)), len(all_texts(second))) > 1


def last_text_only(first, second, common):
    return one_text_only(first, second, common) and common[0] == bound(first, True) == bound(second, True)


def misled_at_first(first, second, common):
    return misled(first, second, common[0], 0, 1)


def misled_later(first, second, common):
    return misled(first, second, common[0], 1, MOST_CHARACTERS)


def narrowed_least_uncommon(first, second, common):
    # What is the least text of a shape stays so when it is narrowed.
    if common[0] in (bound(first, False), bound(second, False)):
        return False
    return all(bound(shape, False) != common[0] for shape in narrowed(first, second, EXACT))


def one_ends_before(first, second, common):
    """One shape, but not both, can end within the earliest text."""
    parts = {common[0][:at] for at in range(len(common[0]))}
    return parts.isdisjoint(all_texts(first)) != parts.isdisjoint(all_texts(second))


def longer_comes_first(first, second, common):
    return len(common[0]) > min(map(len, common)) and common[0] not in (bound(first, False), bound(second, False))


def none_unseen(first, second, common):
    # The sweep does not say cannot.
    return places(first, second)[0] is not None


# Pairs by chance among which such ones occur often enough.


def pair_at_last(dice):
    """The second shape takes the greatest text of the first."""
    codes = dice.pick(((0, 1), (0, 1, 2), (0, 1, 63, 64, 127)))
    words = small_blocks(dice, codes)
    return words, carved(dice, codes, bound(shape_of(words), True), dice.between(1, 3))


def pair_of_many_blocks(dice):
    """Up to eight blocks over two characters."""
    codes = dice.pick(((0, 1), (63, 64)))
    return [small_blocks(dice, codes) + small_blocks(dice, codes) for _ in range(2)]


PAIRS = (lambda dice: small_pair(dice, SMALL_FILLINGS), pair_at_last, pair_of_many_blocks)


MET_KINDS = (
    one_text_only, last_text_only, misled_at_first, misled_later, narrowed_least_uncommon, one_ends_before,
    longer_comes_first,
)
NONE_KINDS = (none_unseen,)


def kind_cases(cases):
    """Pairs by chance, so many of each kind."""
    dice = Dice(41)
    wanted = {kind: 40 for kind in MET_KINDS + NONE_KINDS}
    while any(wanted.values()):
        first, second = dice.pick(PAIRS)(dice)
        shapes = pair_of(first, second)
        if max(map(fillings, shapes)) > SMALL_FILLINGS:
            continue
        common = sorted(all_texts(shapes[0]) & all_texts(shapes[1]))
        for kind in MET_KINDS if common else NONE_KINDS:
            if wanted[kind] and kind(*shapes, common):
                wanted[kind] -= 1
                cases.add(first, second)
                break


def equal_cases(cases):
    """X = Y, which has its least text."""
    dice = Dice(42)
    for _ in range(60):
        words = small_pair(dice, SMALL_FILLINGS)[0]
        cases.add(words, words)


def large_cases(cases):
    dice = Dice(43)
    for _ in range(60):
        cases.add(*large_pair(dice))
    # As many blocks as may be on both sides, among them such as hold nothing.
    for codes in (b"A", b"AB", b"ABC"):
        for _ in range(4):
            cases.add(*(blocks_by_chance(dice, codes) for _ in range(2)))


def blocks_by_chance(dice, codes):
    """As many blocks as may be, of few characters each."""
    words = []
    for _ in range(MOST_BLOCKS):
        upper = dice.pick((0, 1, 1, 2, 7))
        words += block(dice.some(codes) if upper else (), dice.pick((0, 0, 0, upper)), upper)
    return words


def high_cases(cases):
    """Codes above 127, and blocks of four numbers."""
    for first, second in high_pairs():
        cases.add(first, second)
    for first, second in drawn_high_pairs(Dice(45), 70, SMALL_FILLINGS):
        cases.add(first, second)
    for shape in OLD_SHAPES:
        cases.both(shape, block([128], 1, 1))


def all_cases():
    cases = Cases()
    answer_cases(cases)
    code_cases(cases)
    lent_cases(cases)
    refusal_cases(cases)
    for first, second in edge_pairs():
        cases.add(first, second)
    kind_cases(cases)
    equal_cases(cases)
    dice = Dice(44)
    for _ in range(700):
        cases.add(*small_pair(dice, SMALL_FILLINGS))
    large_cases(cases)
    high_cases(cases)
    return cases.lines


def hold_to_room(lines):
    hold_numbers_to_room(lines)
    for line in lines:
        work, length = numbers_read(line.split(" ")[1:3])
        if work > LONGEST_WORK or length > LONGEST_OUTPUT:
            raise AssertionError(f"no room for this case: {line}")
